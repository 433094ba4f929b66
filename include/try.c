/* The entries from C, through the header: a ticket in small, and which of several refusals comes first. Prints what differs; status 1 if anything does. */
#include "brothowl.h"
#include <stdio.h>
#include <stdlib.h>

static int wrong;

static void expect(const char *what, uint64_t got, uint64_t want) {
    if (got != want) {
        printf("%s: %llu, not %llu\n", what, (unsigned long long)got, (unsigned long long)want);
        wrong = 1;
    }
}

enum { WORDS = 6320 };

static uint64_t *fresh(uint64_t p, uint64_t s) {
    uint64_t *region = calloc(WORDS + 64, sizeof *region);
    expect("make", brothowl_make(region, WORDS + 64, p, s, 4, 8).number, 0);
    return region;
}

int main(void) {
    uint64_t *a = fresh(12, 28), *b = fresh(12, 28), *other = fresh(11, 29), *d = fresh(12, 28);
    brothowl_packed raw = brothowl_pack(5, 0, 100, 1, 0), sidecar = brothowl_pack(5, 0, 100, 1, 1);
    expect("K1", raw.key, 5ull * (1 << 28) + 3276802);
    uint8_t codes[] = {1, 2, 0, 1}, answers[] = {9, 9, 9, 9, 9};
    uint64_t words[] = {raw.key, sidecar.key, raw.key, raw.key};
    expect("list", brothowl_list(a, WORDS, codes, 4, words, 4, answers, 5).number, 0);
    expect("insert", answers[0], 1);
    expect("remove of a sidecar that was never cached", answers[1], 0);
    expect("lookup", answers[2], 1);
    expect("insert again", answers[3], 0);
    expect("the byte past the list", answers[4], 9);
    expect("all members", brothowl_all_members(a, WORDS, words, 1).all, 1);
    uint64_t out[2] = {7, 7};
    expect("walk", brothowl_walk(a, WORDS, 0, out, 2).written, 1);
    expect("the word walked", out[0], raw.key);
    expect("the word past it", out[1], 7);
    expect("walk past the count", brothowl_walk(a, WORDS, 2, out, 2).number, 8);
    expect("or", brothowl_combine(0, a, WORDS, b, WORDS, d, WORDS).number, 0);
    expect("members of a or b", d[7], 1);
    expect("unpack", brothowl_unpack(out[0]).frame, 1);

    /* of several refusals the lowest number */
    expect("unknown code", brothowl_combine(4, a, WORDS, b, WORDS, d, WORDS).number, 5);
    expect("sets differ", brothowl_combine(3, a, WORDS, other, WORDS, d, WORDS).number, 7);
    expect("unknown code, sets differ", brothowl_combine(~0ull, a, WORDS, other, WORDS, d, WORDS).number, 5);
    brothowl_verdict v = brothowl_combine(4, a, WORDS, other, 100, d, WORDS - 1);
    expect("b and destination too short, unknown code, sets differ", v.number, 1);
    expect("the first bad region", v.place, 1);
    expect("the destination stays", d[7], 1);
    codes[1] = 3;
    words[0] = ~0ull;
    expect("unknown code, word too large", brothowl_list(a, WORDS, codes, 4, words, 4, answers, 4).number, 5);
    expect("answers too short, unknown code", brothowl_list(a, WORDS, codes, 4, words, 4, answers, 3).number, 4);
    expect("not well formed, answers too short", brothowl_list(a, 15, codes, 4, words, 4, answers, 3).number, 1);
    expect("check", brothowl_check(a, WORDS).number, 0);
    expect("check of nothing", brothowl_check(a, 0).number, 1);
    if (!wrong) printf("from C: as expected\n");
    return wrong;
}
