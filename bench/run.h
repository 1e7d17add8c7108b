/* The residues of a run, for unpacking and for the set check, over the order of its packets. All packets before the last are tested in
 * one pass without an early exit (vectorised), six codes at once by a mask. */
#ifndef BENCH_RUN_H
#define BENCH_RUN_H

#include "packets.h"

/* Not 0 where one of so many packets of an amino run may not stand before the last: each has bit 30 alone and codes below 28. Of a
 * big-endian packet only the two bytes of each half are turned, since no code has its top three bits in both; the masks' halves are. */
OVER_ORDER uint32_t amino_faults(const uint8_t *packets, size_t n, enum order order)
{
    uint32_t faults = 0, five = order == BIG ? FIVE_BIT >> 16 : FIVE_BIT;
    uint32_t control = order == BIG ? (END_BIT | FIVE_BIT) >> 16 : END_BIT | FIVE_BIT, top = order == BIG ? 0x10840842 : 0x08421084;
    for (size_t i = 0; i < n; i++) {
        uint32_t p = le32(packets + 4 * i);
        if (order == BIG)
            p = (p >> 8 & 0x00ff00ff) | (p & 0x00ff00ff) << 8;
        faults |= ((p ^ five) & control) | (p & p >> 1 & p >> 2 & top);
    }
    return faults;
}

/* The same for a nucleic run, with codes below 16; the 5-bit packets are counted. Of a big-endian packet nothing is turned but the
 * masks. */
OVER_ORDER uint32_t nucleic_faults(const uint8_t *packets, size_t n, uint32_t *fives, enum order order)
{
    uint32_t faults = 0, count = 0, end = order == BIG ? 0x00000080 : END_BIT, top = order == BIG ? 0x10420821 : 0x21084210;
    for (size_t i = 0; i < n; i++) {
        uint32_t p = le32(packets + 4 * i), five = p >> (order == BIG ? 6 : 30) & 1;
        faults |= p & (end | (-five & top));
        count += five;
    }
    *fives = count;
    return faults;
}

/* The residues of a last packet, -1 for a bad one. */
static inline int last_residues(uint32_t alphabet, uint32_t packet)
{
    if (!(packet & END_BIT))
        return -1;
    if (!(packet & FIVE_BIT))
        return alphabet == AMINO ? -1 : 15;
    uint32_t codes = packet & (FIVE_BIT - 1), tail = (uint32_t)__builtin_ctz(~codes) / 5;
    codes >>= 5 * tail;
    uint32_t bad = alphabet == AMINO ? codes & codes >> 1 & codes >> 2 & 0x08421084 : codes & 0x21084210;
    return bad ? -1 : 6 - (int)tail;
}

/* The residues of a well-formed run of n packets, or -1. */
OVER_ORDER int64_t run_residues(uint32_t alphabet, const uint8_t *packets, size_t n, enum order order)
{
    uint32_t fives;
    if (n == 0)
        return -1;
    int last = last_residues(alphabet, read32(packets + 4 * (n - 1), order));
    if (last < 0 || (last == 0 && n > 1))
        return -1;
    if (alphabet == AMINO)
        return amino_faults(packets, n - 1, order) ? -1 : 6 * (int64_t)(n - 1) + last;
    if (nucleic_faults(packets, n - 1, &fives, order))
        return -1;
    return 15 * (int64_t)(n - 1) - 9 * (int64_t)fives + last;
}

#endif
