// A plain popcount loop: how many bits below a place are set.
#include <stddef.h>
#include <stdint.h>

uint64_t plain_rank(const uint64_t *words, size_t place) {
    uint64_t sum = 0;
    for (size_t i = 0; i < place / 64; i++) sum += __builtin_popcountll(words[i]);
    return sum + __builtin_popcountll(words[place / 64] & ((1ull << place % 64) - 1));
}
