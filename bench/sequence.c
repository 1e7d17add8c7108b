/* Decoding one sequence, and a page of them, in C with every check of the library's calls, in their order. Protein bytes are tested by a
 * reduction and translated without a table, bases written four a byte: all three loops are vectorised. */
#include "index.h"
#include "reference.h"

static const uint8_t ambiguity_codes[16] = {4, 0, 1, 7, 2, 5, 9, 13, 3, 10, 6, 11, 8, 14, 12, 15};

/* A number where two bytes are the same, else 0: by a mask, which is vectorised well. */
static inline uint8_t where_same(uint8_t a, uint8_t b, uint8_t number)
{
    return (uint8_t)(-(uint8_t)(a == b) & number);
}

/* The code of a protein byte below 28. Most codes are the byte less 2; the others are mended one by one, since sixteen bytes at once can
 * be compared with a number but not looked up in a table. */
static inline uint8_t amino_code(uint8_t byte)
{
    uint8_t code = byte - 2;
    code += where_same(byte, 0, 22);
    code += where_same(byte, 1, 1);
    code += where_same(byte, 2, 21);
    code += where_same(byte, 21, 7);
    code -= where_same(byte, 22, 1);
    code += where_same(byte, 23, 2);
    code += where_same(byte, 24, 3);
    code += where_same(byte, 25, 4);
    code -= where_same(byte, 27, 3);
    return code;
}

static void write_sixteen(const uint8_t *restrict from, uint8_t *restrict out)
{
    for (size_t k = 0; k < 16; k++)
        out[k] = amino_code(from[k]);
}

/* The codes of n protein bytes: 11, 13. The last sixteen may be written twice. */
static uint32_t write_protein(const uint8_t *from, size_t n, uint8_t *out, size_t room)
{
    uint8_t most = 0;
    for (size_t i = 0; i < n; i++)
        most = from[i] > most ? from[i] : most;
    if (most > 27)
        return 11;
    if (n > room)
        return 13;
    size_t i = 0;
    for (; i + 16 <= n; i += 16)
        write_sixteen(from + i, out + i);
    if (n >= 16)
        write_sixteen(from + n - 16, out + n - 16);
    else
        for (; i < n; i++)
            out[i] = amino_code(from[i]);
    return 0;
}

/* An entry of an ambiguity table, of 4 or 8 bytes. */
struct entry {
    uint32_t value;
    uint64_t start, repeat;
};

static struct entry entry_at(const uint8_t *p, int wide)
{
    uint32_t high = be32(p);
    if (wide)
        return (struct entry){high >> 28, (uint64_t)(high & 0xffff) << 32 | be32(p + 4), (high >> 16 & 0xfff) + 1};
    return (struct entry){high >> 28, high & 0xffffff, (high >> 24 & 15) + 1};
}

/* The ambiguity range of a sequence of so many residues: 12, or its entries. */
static uint32_t check_range(const uint8_t *at, size_t len, uint64_t residues, size_t *entries, int *wide)
{
    *entries = 0;
    *wide = 0;
    if (len == 0)
        return 0;
    if (len < 4)
        return 12;
    uint32_t word = be32(at);
    uint64_t words = word & 0x7fffffff, before = 0;
    if (len != 4 + 4 * words)
        return 12;
    *wide = word >> 31 != 0;
    if (*wide && words % 2 != 0)
        return 12;
    *entries = *wide ? words / 2 : words;
    for (size_t i = 0; i < *entries; i++) {
        struct entry e = entry_at(at + 4 + (*wide ? 8 : 4) * i, *wide);
        if (e.start < before || e.start + e.repeat > residues)
            return 12;
        before = e.start + e.repeat;
    }
    return 0;
}

/* The residues of so many two-bit bytes; the last byte has fewer than four. */
static void write_bases(const uint8_t *restrict from, size_t bytes, size_t residues, uint8_t *restrict out)
{
    for (size_t i = 0; i + 1 < bytes; i++) {
        out[4 * i] = from[i] >> 6;
        out[4 * i + 1] = from[i] >> 4 & 3;
        out[4 * i + 2] = from[i] >> 2 & 3;
        out[4 * i + 3] = from[i] & 3;
    }
    for (size_t k = 4 * (bytes - 1); k < residues; k++)
        out[k] = from[bytes - 1] >> (6 - 2 * (k % 4)) & 3;
}

/* So many bytes of one code; most corrections are short, and memset is a call. */
static void fill(uint8_t *out, uint8_t code, size_t n)
{
    uint64_t eight = 0x0101010101010101u * code;
    if (n > 16) {
        memset(out, code, n);
    } else if (n >= 8) {
        put64(out, eight);
        put64(out + n - 8, eight);
    } else if (n >= 4) {
        put32(out, (uint32_t)eight);
        put32(out + n - 4, (uint32_t)eight);
    } else {
        out[0] = code;
        out[n / 2] = code;
        out[n - 1] = code;
    }
}

/* Where a sequence's residues go, how many bytes are left there, and, once it is decoded, how many it has. */
struct output {
    uint8_t *at;
    size_t room, length;
};

/* Protein sequence i: 7, 8, 11, 13. */
static uint32_t decode_protein(const struct fixed *f, const uint8_t *sequence, size_t sequence_len, size_t i, struct output *out)
{
    int64_t start = offset(f->sequences, i), next = offset(f->sequences, i + 1);
    if (start < 1 || start >= next || next > (int64_t)sequence_len)
        return 7;
    if (sequence[start - 1] != 0 || sequence[next - 1] != 0)
        return 8;
    out->length = (size_t)(next - 1 - start);
    return write_protein(sequence + start, out->length, out->at, out->room);
}

/* DNA sequence i: 7, 12, 13. */
static uint32_t decode_dna(const struct fixed *f, const uint8_t *sequence, size_t sequence_len, size_t i, struct output *out)
{
    int64_t start = offset(f->sequences, i), end = offset(f->ambiguities, i), next = offset(f->sequences, i + 1);
    size_t entries;
    int wide;
    if (start < 0 || start >= end || end > next || next > (int64_t)sequence_len)
        return 7;
    uint64_t residues = 4 * (uint64_t)(end - start - 1) + (sequence[end - 1] & 3);
    if (check_range(sequence + end, (size_t)(next - end), residues, &entries, &wide) != 0)
        return 12;
    if (residues > out->room)
        return 13;
    out->length = residues;
    write_bases(sequence + start, (size_t)(end - start), residues, out->at);
    for (size_t k = 0; k < entries; k++) {
        struct entry x = entry_at(sequence + end + 4 + (wide ? 8 : 4) * k, wide);
        fill(out->at + x.start, ambiguity_codes[x.value], x.repeat);
    }
    return 0;
}

/* The sequence of a number, in an index that is read: 10, and its own refusals. */
static uint32_t decode_number(const struct fixed *f, const uint8_t *sequence, size_t sequence_len, uint64_t number, struct output *out)
{
    if (number >= (uint64_t)f->n)
        return 10;
    return f->type == 1 ? decode_protein(f, sequence, sequence_len, number, out) : decode_dna(f, sequence, sequence_len, number, out);
}

uint32_t c_decode(const uint8_t *index, size_t index_len, const uint8_t *sequence, size_t sequence_len, uint64_t number,
                  uint8_t *out, size_t out_len)
{
    struct fixed f;
    uint32_t refused;
    if (index_len > MOST_BYTES || sequence_len > MOST_BYTES)
        return 22;
    if ((refused = c_read_index(index, index_len, &f)) != 0)
        return refused;
    return decode_number(&f, sequence, sequence_len, number, &(struct output){out, out_len, 0});
}

/* 22, then 13 for the ends; the index is read once for the whole list. */
uint32_t c_fetch_page(const uint8_t *index, size_t index_len, const uint8_t *sequence, size_t sequence_len, const uint64_t *numbers,
                      size_t numbers_len, uint8_t *out, size_t out_len, uint64_t *ends, size_t ends_len, uint8_t *results,
                      size_t results_len)
{
    struct fixed f;
    struct output left = {out, out_len, 0};
    size_t done = 0;
    uint32_t refused = 0;
    if (index_len > MOST_BYTES || sequence_len > MOST_BYTES)
        refused = 22;
    else if (ends_len < numbers_len)
        refused = 13;
    else if (numbers_len > 0)
        refused = c_read_index(index, index_len, &f);
    while (refused == 0 && done < numbers_len) {
        refused = decode_number(&f, sequence, sequence_len, numbers[done], &left);
        if (refused != 0)
            break;
        left.at += left.length;
        left.room -= left.length;
        ends[done++] = out_len - left.room;
    }
    if (results_len >= 8)
        put64(results, done);
    return refused;
}
