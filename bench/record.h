/* A metadata record, for the set check and for building a set, over the order of its taxonomy id. Texts are read eight bytes at a time. */
#ifndef BENCH_RECORD_H
#define BENCH_RECORD_H

#include "bytes.h"

#define EACH(byte) (0x0101010101010101u * (uint64_t)(byte))

/* The high bit of each of eight bytes that ends a text: NUL, or a byte that may not stand in it (9 to 13 and 32 in a word, 10 in a
 * description). Sums of seven bits never reach the next byte. */
static inline uint64_t stops(uint64_t eight, int word)
{
    uint64_t low = eight & EACH(127), stop = ~(low + EACH(127));
    if (word)
        stop |= ((low + EACH(128 - 9)) & ~(low + EACH(128 - 14))) | ~((low ^ EACH(32)) + EACH(127));
    else
        stop |= ~((low ^ EACH(10)) + EACH(127));
    return stop & ~eight & EACH(128);
}

/* The end of a text at `at` that its NUL closes before `to`; -1 where a byte may not stand in it, or no NUL comes. */
static inline int64_t text_end(const uint8_t *s, size_t at, size_t to, int word)
{
    for (; to - at >= 8; at += 8) {
        uint64_t stop = stops(le64(s + at), word);
        if (stop) {
            at += (size_t)__builtin_ctzll(stop) / 8;
            return s[at] == 0 ? (int64_t)at : -1;
        }
    }
    for (; at < to; at++)
        if (stops(s[at] | EACH(1) << 8, word))
            return s[at] == 0 ? (int64_t)at : -1;
    return -1;
}

/* The place behind a record that begins at `from` and ends at `to` or before, and the lengths of its three texts; -1 where it is bad. */
OVER_ORDER int64_t record_end(const uint8_t *s, size_t from, size_t to, uint64_t length[3], enum order order)
{
    size_t at = from;
    for (int k = 0; k < 3; k++) {
        int64_t end = text_end(s, at, to, k < 2);
        if (end < 0)
            return -1;
        length[k] = (uint64_t)end - at;
        at = (size_t)end + 1;
    }
    if (length[0] == 0 || to - at < 4)
        return -1;
    int32_t taxonomy = (int32_t)read32(s + at, order);
    return taxonomy == -1 || taxonomy >= 1 ? (int64_t)at + 4 : -1;
}

#endif
