/* The entries of Brothowl for C. Each takes any contents and any numbers, refuses by number, and changes nothing that was
   lent when it refuses (but for 9, no room). number 0: nothing was refused. The numbers and places are those of
   document 01's table; what each entry leaves is its promise in crates/promises/specs.

   A slice is a pointer and a length, in words or bytes. What C cannot be stopped from doing: a slice that an entry writes
   (region of make and list, answers, output, destination) must not overlap any other slice of the call. Slices that are
   only read may be one and the same.

   A region may begin at any word. It is quickest where its nodes, the last 264 * n of its words, begin at a cache line
   (64 bytes): then none of them has the eight words that are looked at together on two lines. */
#ifndef BROTHOWL_H
#define BROTHOWL_H

#include <stddef.h>
#include <stdint.h>

typedef struct { uint64_t number, place; } brothowl_verdict;
typedef struct { uint64_t number, place, all; } brothowl_asked;
typedef struct { uint64_t number, place, written; } brothowl_walked;
typedef struct { uint64_t number, place, key; } brothowl_packed;
typedef struct { uint64_t number, place, card, rollover, folder, frame, kind; } brothowl_unpacked;

/* Make a region in `words` words: 2 a number outside its range, 3 slice too short. */
brothowl_verdict brothowl_make(uint64_t *region, size_t words, uint64_t p, uint64_t s, uint64_t c, uint64_t n);

/* Check a region: 1 exactly when it is not well formed. */
brothowl_verdict brothowl_check(const uint64_t *region, size_t region_words);

/* Run a command list: codes 0 lookup, 1 insert, 2 remove, one word and one answer byte each.
   1 malformed, 4 lengths, 5 unknown code, 6 word too large, before anything runs; 9 at the command that found no room,
   with the earlier ones done and answered. */
brothowl_verdict brothowl_list(uint64_t *region, size_t region_words, const uint8_t *codes, size_t codes_len,
                               const uint64_t *words, size_t words_len, uint8_t *answers, size_t answers_len);

/* Whether all words, at most 4,096, are members; yes for none: 1, 4, 6. */
brothowl_asked brothowl_all_members(const uint64_t *region, size_t region_words, const uint64_t *words, size_t words_len);

/* Write the words from place `start` on, as far as the output reaches: 1, and 8 above the member count. */
brothowl_walked brothowl_walk(const uint64_t *region, size_t region_words, uint64_t start, uint64_t *output, size_t output_len);

/* Combine two sets into a third: codes 0 or, 1 and, 2 minus, 3 xor. 1 with the first bad region (0 a, 1 b, 2 destination),
   5, 7 where P or S differ; 9 where the result does not fit, and then the destination is the fresh image. */
brothowl_verdict brothowl_combine(uint64_t code, const uint64_t *a, size_t a_words, const uint64_t *b, size_t b_words,
                                  uint64_t *destination, size_t destination_words);

/* Pack a preview key: 10 with the first bad field, 0 to 4. */
brothowl_packed brothowl_pack(uint64_t card, uint64_t rollover, uint64_t folder, uint64_t frame, uint64_t kind);

/* Unpack a word: 6 at or above 2^40, 10 with field 2 or 3. */
brothowl_unpacked brothowl_unpack(uint64_t word);

#endif
