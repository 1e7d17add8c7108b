/* The set check in C with every check of the library's call, in its order. Both columns of ends are tested in one pass, runs by the
 * vectorised reductions of unpacking, and texts eight bytes at a time. All that reads integers has a version for each byte order. */
#include "record.h"
#include "reference.h"
#include "run.h"
#include "set.h"

/* 7 for both columns of ends. */
OVER_ORDER uint32_t check_ends(const uint8_t *table, uint64_t n, uint64_t metadata, uint64_t packets, enum order order)
{
    int64_t byte = -1, packet = -1;
    int bad = 0;
    for (uint64_t i = 0; i < n; i++) {
        int64_t next_byte = (int64_t)read64(table + 16 * i, order), next_packet = (int64_t)read64(table + 16 * i + 8, order);
        bad |= (next_byte <= byte) | (next_packet <= packet);
        byte = next_byte;
        packet = next_packet;
    }
    return bad || byte != (int64_t)metadata - 1 || packet != (int64_t)packets - 1 ? 7 : 0;
}

/* 17, or the total of residues and the longest sequence. */
OVER_ORDER uint32_t check_runs(const uint8_t *index, const uint8_t *packets, uint64_t *total, uint64_t *longest, enum order order)
{
    uint64_t n = read64(index + 36, order);
    uint32_t alphabet = read32(index + 8, order);
    int64_t before = -1;
    for (uint64_t i = 0; i < n; i++) {
        int64_t end = (int64_t)read64(index + 60 + 16 * i, order);
        int64_t residues = run_residues(alphabet, packets + 4 * (before + 1), (size_t)(end - before), order);
        if (residues < 0)
            return 17;
        *total += (uint64_t)residues;
        *longest = (uint64_t)residues > *longest ? (uint64_t)residues : *longest;
        before = end;
    }
    return 0;
}

/* 19, or the longest name, accession and description. */
OVER_ORDER uint32_t check_records(const uint8_t *index, const uint8_t *records, uint64_t longest[3], enum order order)
{
    uint64_t n = read64(index + 36, order), length[3];
    size_t from = 0;
    for (uint64_t i = 0; i < n; i++) {
        size_t to = (size_t)read64(index + 52 + 16 * i, order) + 1;
        if (record_end(records, from, to, length, order) != (int64_t)to)
            return 19;
        for (int k = 0; k < 3; k++)
            longest[k] = length[k] > longest[k] ? length[k] : longest[k];
        from = to;
    }
    return 0;
}

/* 7, 17, 19 and 9 of a set whose layout is good. */
OVER_ORDER uint32_t check_content(const uint8_t *index, const uint8_t *metadata, size_t metadata_len, const uint8_t *sequence,
                                  size_t sequence_len, enum order order)
{
    uint64_t n = read64(index + 36, order), total = 0, residues = 0, text[3] = {0, 0, 0};
    uint32_t refused;
    if ((refused = check_ends(index + 52, n, metadata_len - 8, (sequence_len - 8) / 4, order)) != 0 ||
        (refused = check_runs(index, sequence + 8, &total, &residues, order)) != 0 ||
        (refused = check_records(index, metadata + 8, text, order)) != 0)
        return refused;
    return residues == read64(index + 28, order) && total == read64(index + 44, order) && text[0] == read32(index + 16, order) &&
                   text[1] == read32(index + 20, order) && text[2] == read32(index + 24, order)
               ? 0
               : 9;
}

uint32_t c_check_set(const uint8_t *index, size_t index_len, const uint8_t *metadata, size_t metadata_len,
                     const uint8_t *sequence, size_t sequence_len, uint8_t *results, size_t results_len)
{
    enum order order;
    uint32_t refused = set_layout(index, index_len, metadata, metadata_len, sequence, sequence_len, &order);
    if (refused != 0)
        return refused;
    switch (order) {
    case LITTLE: refused = check_content(index, metadata, metadata_len, sequence, sequence_len, LITTLE); break;
    case BIG: refused = check_content(index, metadata, metadata_len, sequence, sequence_len, BIG); break;
    }
    return refused != 0 ? refused : put_set(index, order, results, results_len);
}
