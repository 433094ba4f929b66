// Roaring behind plain functions: 32-bit words by Roaring, longer ones by Roaring64Map.
#include <roaring/roaring.hh>
#include <roaring/roaring64map.hh>

#define FACE(NAME, TYPE, WORD)                                                              \
    extern "C" void *NAME##_new() { return new TYPE(); }                                    \
    extern "C" void NAME##_free(void *set) { delete static_cast<TYPE *>(set); }             \
    extern "C" bool NAME##_contains(const void *set, uint64_t word) {                       \
        return static_cast<const TYPE *>(set)->contains(WORD(word));                        \
    }                                                                                       \
    extern "C" bool NAME##_insert(void *set, uint64_t word) {                               \
        return static_cast<TYPE *>(set)->addChecked(WORD(word));                            \
    }                                                                                       \
    extern "C" bool NAME##_remove(void *set, uint64_t word) {                               \
        return static_cast<TYPE *>(set)->removeChecked(WORD(word));                         \
    }                                                                                       \
    extern "C" uint64_t NAME##_count(const void *set) {                                     \
        return static_cast<const TYPE *>(set)->cardinality();                               \
    }                                                                                       \
    extern "C" uint64_t NAME##_walk(const void *set, uint64_t *out) {                       \
        uint64_t *at = out;                                                                 \
        for (auto word : *static_cast<const TYPE *>(set)) *at++ = word;                     \
        return at - out;                                                                    \
    }                                                                                       \
    extern "C" void *NAME##_combine(int code, const void *left, const void *right) {        \
        const TYPE &a = *static_cast<const TYPE *>(left);                                   \
        const TYPE &b = *static_cast<const TYPE *>(right);                                  \
        switch (code) {                                                                     \
        case 0: return new TYPE(a | b);                                                     \
        case 1: return new TYPE(a & b);                                                     \
        case 2: return new TYPE(a - b);                                                     \
        default: return new TYPE(a ^ b);                                                    \
        }                                                                                   \
    }

FACE(roaring32, Roaring, uint32_t)
FACE(roaring64, Roaring64Map, uint64_t)
