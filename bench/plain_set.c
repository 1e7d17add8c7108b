/* The set check packet by packet and byte by byte, with every check of the library's call, in its order: the reference of earlier
 * benchmarks, kept as it was, with a version for each byte order. */
#include "packets.h"
#include "reference.h"
#include "set.h"

#define MAGIC 0xc4d3d1b1u

/* The residues of a 5-bit packet whose codes are valid, 31 only as a tail; -1 for any other. */
static inline int five_bit_residues(uint32_t packet, uint32_t limit)
{
    int n = 0;
    for (int shift = 25; shift >= 0; shift -= 5, n++) {
        uint32_t code = packet >> shift & 31;
        if (code == 31) {
            uint32_t tail = (1u << (shift + 5)) - 1;
            return (packet & tail) == tail ? n : -1;
        }
        if (code >= limit)
            return -1;
    }
    return n;
}

/* The residues of a well-formed run, or -1. */
OVER_ORDER int64_t run_residues(uint32_t alphabet, const uint8_t *packets, size_t n, enum order order)
{
    uint32_t limit = code_limit(alphabet);
    int64_t total = 0;
    if (n == 0)
        return -1;
    for (size_t i = 0; i < n; i++) {
        uint32_t packet = read32(packets + 4 * i, order);
        int last = i + 1 == n, here = 15;
        if ((packet & END_BIT ? 1 : 0) != last)
            return -1;
        if (packet & FIVE_BIT) {
            here = five_bit_residues(packet, limit);
            if (here < 0 || (!last && here < 6) || (here == 0 && n > 1))
                return -1;
        } else if (alphabet == AMINO) {
            return -1;
        }
        total += here;
    }
    return total;
}

/* The end of a text at `at` that its NUL closes before `to`; -1 where a byte may not stand in it, or no NUL comes. */
static int64_t text_end(const uint8_t *s, size_t at, size_t to, int word)
{
    for (size_t i = at; i < to; i++) {
        if (s[i] == 0)
            return (int64_t)i;
        if (word ? (s[i] >= 9 && s[i] <= 13) || s[i] == 32 : s[i] == 10)
            return -1;
    }
    return -1;
}

/* The lengths of a metadata record's three texts; 0 where it is bad. */
OVER_ORDER int record_lengths(const uint8_t *s, size_t from, size_t to, uint64_t length[3], enum order order)
{
    size_t at = from;
    for (int k = 0; k < 3; k++) {
        int64_t end = text_end(s, at, to, k < 2);
        if (end < 0)
            return 0;
        length[k] = (uint64_t)end - at;
        at = (size_t)end + 1;
    }
    if (length[0] == 0 || to - at != 4)
        return 0;
    int32_t taxonomy = (int32_t)read32(s + at, order);
    return taxonomy == -1 || taxonomy >= 1;
}

/* 7 for one column of ends over a body of so many places. */
OVER_ORDER uint32_t check_ends(const uint8_t *table, uint64_t n, uint64_t size, enum order order)
{
    int64_t before = -1;
    for (uint64_t i = 0; i < n; i++) {
        int64_t end = (int64_t)read64(table + 16 * i, order);
        if (end <= before)
            return 7;
        before = end;
    }
    return before == (int64_t)size - 1 ? 0 : 7;
}

uint32_t set_layout(const uint8_t *index, size_t index_len, const uint8_t *metadata, size_t metadata_len, const uint8_t *sequence,
                    size_t sequence_len, enum order *order)
{
    if (index_len > MOST_BYTES || metadata_len > MOST_BYTES || sequence_len > MOST_BYTES)
        return 22;
    if (index_len < 52)
        return 1;
    if (le32(index) != MAGIC && be32(index) != MAGIC)
        return 14;
    *order = le32(index) == MAGIC ? LITTLE : BIG;
    if (metadata_len < 8)
        return 1;
    if (read32(metadata, *order) != MAGIC)
        return 14;
    if (sequence_len < 8)
        return 1;
    if (read32(sequence, *order) != MAGIC)
        return 14;
    uint32_t tag = read32(index + 4, *order), alphabet = read32(index + 8, *order);
    if (read32(metadata + 4, *order) != tag || read32(sequence + 4, *order) != tag)
        return 15;
    if (alphabet < 1 || alphabet > 3)
        return 3;
    if (read32(index + 12, *order) != 0 || read64(index + 36, *order) > 134217728)
        return 4;
    uint64_t need = 52 + 16 * read64(index + 36, *order);
    if (index_len != need)
        return index_len < need ? 1 : 6;
    return (sequence_len - 8) % 4 != 0 ? 1 : 0;
}

/* 17 for each run, 19 for each record, 9. */
OVER_ORDER uint32_t check_content(const uint8_t *index, const uint8_t *metadata, const uint8_t *sequence, enum order order)
{
    uint64_t n = read64(index + 36, order), total = 0, longest[4] = {0, 0, 0, 0}, length[3];
    int64_t before = -1;
    for (uint64_t i = 0; i < n; i++) {
        int64_t end = (int64_t)read64(index + 60 + 16 * i, order);
        int64_t residues =
            run_residues(read32(index + 8, order), sequence + 8 + 4 * (before + 1), (size_t)(end - before), order);
        if (residues < 0)
            return 17;
        total += (uint64_t)residues;
        longest[3] = (uint64_t)residues > longest[3] ? (uint64_t)residues : longest[3];
        before = end;
    }
    before = -1;
    for (uint64_t i = 0; i < n; i++) {
        int64_t end = (int64_t)read64(index + 52 + 16 * i, order);
        if (!record_lengths(metadata, (size_t)(8 + before + 1), (size_t)(8 + end + 1), length, order))
            return 19;
        for (int k = 0; k < 3; k++)
            longest[k] = length[k] > longest[k] ? length[k] : longest[k];
        before = end;
    }
    return total == read64(index + 44, order) && longest[3] == read64(index + 28, order) &&
                   longest[0] == read32(index + 16, order) && longest[1] == read32(index + 20, order) &&
                   longest[2] == read32(index + 24, order)
               ? 0
               : 9;
}

uint32_t put_set(const uint8_t *index, enum order order, uint8_t *results, size_t results_len)
{
    if (results_len < SET_RESULTS)
        return 13;
    for (int k = 0; k < 7; k++)
        put64(results + 8 * k, read32(index + 4 * k, order));
    for (int k = 0; k < 3; k++)
        put64(results + 56 + 8 * k, read64(index + 28 + 8 * k, order));
    put64(results + 80, order);
    return 0;
}

/* 7 for each column of ends, and the content. */
OVER_ORDER uint32_t check_all(const uint8_t *index, const uint8_t *metadata, size_t metadata_len, const uint8_t *sequence,
                              size_t sequence_len, enum order order)
{
    uint64_t n = read64(index + 36, order);
    uint32_t refused;
    if ((refused = check_ends(index + 52, n, metadata_len - 8, order)) != 0 ||
        (refused = check_ends(index + 60, n, (sequence_len - 8) / 4, order)) != 0)
        return refused;
    return check_content(index, metadata, sequence, order);
}

uint32_t plain_check_set(const uint8_t *index, size_t index_len, const uint8_t *metadata, size_t metadata_len,
                         const uint8_t *sequence, size_t sequence_len, uint8_t *results, size_t results_len)
{
    enum order order;
    uint32_t refused = set_layout(index, index_len, metadata, metadata_len, sequence, sequence_len, &order);
    if (refused != 0)
        return refused;
    switch (order) {
    case LITTLE: refused = check_all(index, metadata, metadata_len, sequence, sequence_len, LITTLE); break;
    case BIG: refused = check_all(index, metadata, metadata_len, sequence, sequence_len, BIG); break;
    }
    return refused != 0 ? refused : put_set(index, order, results, results_len);
}
