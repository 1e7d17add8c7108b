/* The volume check in C with every check of the library's call, in its order. Offsets are read a block at a time; their rules are
 * reductions over the block (vectorised), and only then are the bytes read that they point at, in a loop that does nothing else: so as many
 * cache misses as can be stand open at once. */
#include "index.h"
#include "reference.h"

#define BLOCK 256

static size_t block_at(size_t i, size_t n)
{
    return n - i < BLOCK ? n - i : BLOCK;
}

/* So many big-endian offsets, two at a time. */
static void read_offsets(const uint8_t *table, size_t n, int32_t *out)
{
    size_t k = 0;
    for (; k + 2 <= n; k += 2) {
        uint64_t two = __builtin_bswap64(le64(table + 4 * k));
        two = two << 32 | two >> 32;
        memcpy(out + k, &two, 8);
    }
    if (k < n)
        out[k] = (int32_t)be32(table + 4 * k);
}

/* Whether one of so many offsets is not below (or, for `equal`, above) the one after it. */
static int any_falls(const int32_t *at, const int32_t *after, size_t n, int equal)
{
    int bad = 0;
    if (equal)
        for (size_t k = 0; k < n; k++)
            bad |= at[k] > after[k];
    else
        for (size_t k = 0; k < n; k++)
            bad |= at[k] >= after[k];
    return bad;
}

/* 7 for the header offsets. */
static uint32_t check_headers(const struct fixed *f, size_t header_len)
{
    int32_t at[BLOCK + 1];
    size_t n = (size_t)f->n;
    if (offset(f->headers, 0) != 0 || offset(f->headers, n) != (int64_t)header_len)
        return 7;
    for (size_t i = 0; i < n; i += BLOCK) {
        size_t m = block_at(i, n);
        read_offsets(f->headers + 4 * i, m + 1, at);
        if (any_falls(at, at + 1, m, 1))
            return 7;
    }
    return 0;
}

/* The bytes before so many places, all together: 0 where each is NUL. */
static uint8_t separators(const uint8_t *sequence, const int32_t *at, size_t n)
{
    uint8_t all = 0;
    for (size_t k = 0; k < n; k++)
        all |= sequence[at[k] - 1];
    return all;
}

static int32_t widest_gap(const int32_t *at, size_t n, int32_t widest)
{
    for (size_t k = 0; k < n; k++)
        widest = at[k + 1] - at[k] > widest ? at[k + 1] - at[k] : widest;
    return widest;
}

/* Protein: 7, 8, 9. In a block that rises the last offset is the largest; the total is a closed form. */
static uint32_t check_protein(const struct fixed *f, const uint8_t *sequence, size_t sequence_len)
{
    int32_t at[BLOCK + 1], widest = 1, len = (int32_t)sequence_len;
    uint8_t all = 0;
    size_t n = (size_t)f->n;
    if (offset(f->sequences, 0) != 1 || offset(f->sequences, n) != len)
        return 7;
    for (size_t i = 0; i < n; i += BLOCK) {
        size_t m = block_at(i, n);
        read_offsets(f->sequences + 4 * i, m + 1, at);
        if (any_falls(at, at + 1, m, 0) || at[m] > len)
            return 7;
        all |= separators(sequence, at + 1, m);
        widest = widest_gap(at, m, widest);
    }
    if (all != 0 || sequence[0] != 0)
        return 8;
    return (int64_t)len - 1 - f->n == f->count && widest - 1 == f->longest ? 0 : 9;
}

/* The total of DNA lengths, and the longest. */
struct lengths {
    int64_t total, longest;
};

/* Adds so many sequences. */
static struct lengths add_lengths(struct lengths so_far, const uint8_t *sequence, const int32_t *start, const int32_t *end, size_t n)
{
    uint8_t last[BLOCK];
    for (size_t k = 0; k < n; k++)
        last[k] = sequence[end[k] - 1];
    for (size_t k = 0; k < n; k++) {
        int64_t length = 4 * (int64_t)(end[k] - start[k] - 1) + (last[k] & 3);
        so_far.total += length;
        so_far.longest = length > so_far.longest ? length : so_far.longest;
    }
    return so_far;
}

/* DNA: 7, 9. */
static uint32_t check_dna(const struct fixed *f, const uint8_t *sequence, size_t sequence_len)
{
    int32_t start[BLOCK + 1], end[BLOCK];
    size_t n = (size_t)f->n;
    int64_t len = (int64_t)sequence_len;
    struct lengths sum = {0, 0};
    if (offset(f->sequences, 0) != 0 || offset(f->sequences, n) != len || offset(f->ambiguities, n) != len)
        return 7;
    for (size_t i = 0; i < n; i += BLOCK) {
        size_t m = block_at(i, n);
        read_offsets(f->sequences + 4 * i, m + 1, start);
        read_offsets(f->ambiguities + 4 * i, m, end);
        if (any_falls(start, end, m, 0) || any_falls(end, start + 1, m, 1) || start[m] > len)
            return 7;
        sum = add_lengths(sum, sequence, start, end, m);
    }
    return sum.total == f->count && sum.longest == f->longest ? 0 : 9;
}

uint32_t c_check_volume(const uint8_t *index, size_t index_len, const uint8_t *sequence, size_t sequence_len,
                        const uint8_t *header, size_t header_len, uint8_t *results, size_t results_len)
{
    struct fixed f;
    uint32_t refused;
    (void)header;
    if (index_len > MOST_BYTES || sequence_len > MOST_BYTES || header_len > MOST_BYTES)
        return 22;
    if ((refused = c_read_index(index, index_len, &f)) != 0 || (refused = check_headers(&f, header_len)) != 0)
        return refused;
    refused = f.type == 1 ? check_protein(&f, sequence, sequence_len) : check_dna(&f, sequence, sequence_len);
    if (refused != 0)
        return refused;
    if (results_len < 64)
        return 13;
    size_t stamp_at = 16 + (size_t)f.title, stamp = (size_t)f.stamp;
    while (stamp > 0 && index[stamp_at + stamp - 1] == 0)
        stamp--;
    uint64_t values[8] = {(uint64_t)f.type, (uint64_t)f.n, (uint64_t)f.count, (uint64_t)f.longest, 12, (uint64_t)f.title, stamp_at, stamp};
    for (int k = 0; k < 8; k++)
        put64(results + 8 * k, values[k]);
    return 0;
}
