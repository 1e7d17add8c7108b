/* Writing nucleotides in C with every check of the library's call, in its order, in two versions: plain C, code by code, and the best C.
 * That one takes codes in blocks, which vectorised loops test, count, join four a byte and mark. Stretches are measured only in blocks
 * that may have a long one; ambiguous codes that stand alone are taken from a word of marks, four at a time, without a branch. */
#include "bytes.h"
#include "reference.h"

#define LARGEST_CODE 15
#define AMBIGUOUS 4           /* the least code that is no base */
#define MOST_NARROW 16777216u /* residues of the longest sequence with entries of 32 bits */
#define COUNTED 192           /* codes that are counted at once; a byte holds their number */
#define BLOCK 256             /* codes that are written at once */
#define WORD 64               /* codes that are marked in one word */
#define GROUP 4               /* entries that are written at once */
#define EACH(byte) (0x0101010101010101u * (uint64_t)(byte))

static const uint8_t bases[16] = {0, 1, 2, 3, 0, 0, 1, 0, 2, 1, 0, 0, 1, 0, 0, 0};
static const uint8_t values[16] = {1, 2, 4, 8, 0, 5, 10, 3, 12, 6, 9, 11, 14, 7, 13, 15};

/* The entries of a table: their number, the bytes of one, and how many residues one may stand for. */
struct entries {
    size_t count, size, most;
};

static struct entries no_entries(size_t residues)
{
    return residues > MOST_NARROW ? (struct entries){0, 8, 4096} : (struct entries){0, 4, 16};
}

static inline uint16_t le16(const uint8_t *p)
{
    uint16_t v;
    memcpy(&v, p, 2);
    return v;
}

static inline void put_entry(uint8_t *at, size_t size, uint32_t code, size_t start, size_t repeat)
{
    if (size == 8)
        put64(at, __builtin_bswap64((uint64_t)values[code] << 60 | (uint64_t)(repeat - 1) << 48 | start));
    else
        put_be(at, (uint32_t)values[code] << 28 | (uint32_t)(repeat - 1) << 24 | (uint32_t)start);
}

/* 22 and 13 for what is written; else the word before the entries, and the sizes where the results have room. */
static uint32_t put_sizes(size_t residues, struct entries e, uint8_t *out, size_t out_len, uint8_t *results, size_t results_len)
{
    size_t two_bit = residues / 4 + 1, table = e.count > 0 ? 4 + e.size * e.count : 0;
    if (two_bit + table > MOST_BYTES)
        return 22;
    if (two_bit + table > out_len)
        return 13;
    if (e.count > 0)
        put_be(out + two_bit, (uint32_t)(e.size == 8 ? 0x80000000u | 2 * e.count : e.count));
    if (results_len >= 8)
        put64(results, two_bit);
    if (results_len >= 16)
        put64(results + 8, table);
    return 0;
}

/* Counts the entries: 18. */
static uint32_t plain_count(const uint8_t *codes, size_t n, struct entries *e)
{
    size_t repeat = 0;
    for (size_t i = 0; i < n; i++) {
        if (codes[i] > LARGEST_CODE)
            return 18;
        if (codes[i] < AMBIGUOUS) {
            repeat = 0;
        } else if (repeat > 0 && repeat < e->most && codes[i] == codes[i - 1]) {
            repeat++;
        } else {
            repeat = 1;
            e->count++;
        }
    }
    return 0;
}

/* The two-bit bytes and the entries; a code that joins the entry before it writes that again. */
static void plain_write(const uint8_t *codes, size_t n, struct entries e, uint8_t *out)
{
    uint8_t byte = 0, *at = out + n / 4 + 5;
    size_t repeat = 0;
    for (size_t i = 0; i < n; i++) {
        byte = (uint8_t)(byte << 2 | bases[codes[i]]);
        if (i % 4 == 3)
            out[i / 4] = byte;
        if (codes[i] < AMBIGUOUS) {
            repeat = 0;
        } else if (repeat > 0 && repeat < e.most && codes[i] == codes[i - 1]) {
            repeat++;
            put_entry(at - e.size, e.size, codes[i], i + 1 - repeat, repeat);
        } else {
            repeat = 1;
            put_entry(at, e.size, codes[i], i, 1);
            at += e.size;
        }
    }
    out[n / 4] = (uint8_t)(byte << (8 - 2 * (n % 4)) | n % 4);
}

uint32_t plain_write_nucleotides(const uint8_t *codes, size_t codes_len, uint8_t *out, size_t out_len, uint8_t *results,
                                 size_t results_len)
{
    struct entries e = no_entries(codes_len);
    uint32_t refused;
    if (codes_len > MOST_BYTES)
        return 22;
    if ((refused = plain_count(codes, codes_len, &e)) != 0 ||
        (refused = put_sizes(codes_len, e, out, out_len, results, results_len)) != 0)
        return refused;
    plain_write(codes, codes_len, e, out);
    return 0;
}

/* The bits that any of so many codes has, in any of eight bytes: a reduction. */
static inline uint64_t all_bits(const uint8_t *codes, size_t n)
{
    uint64_t bits = 0;
    size_t j = 0;
    for (; j + 8 <= n; j += 8)
        bits |= le64(codes + j);
    for (; j < n; j++)
        bits |= codes[j];
    return bits;
}

static inline int all_bases(uint64_t bits)
{
    return (bits & EACH(256 - AMBIGUOUS)) == 0;
}

/* Whether a code below 128 is ambiguous; signed bytes are compared at once. */
static inline int is_ambiguous(uint8_t code)
{
    return (int8_t)code >= AMBIGUOUS;
}

/* How many of the codes that are counted at once, behind which one more stands, are ambiguous, and how many of those stand before their
 * like. */
static inline void count_block(const uint8_t *codes, uint8_t *ambiguous, uint8_t *followed)
{
    uint8_t all = 0, like = 0;
    for (size_t j = 0; j < COUNTED; j++) {
        all += is_ambiguous(codes[j]);
        like += is_ambiguous(codes[j]) & (codes[j] == codes[j + 1]);
    }
    *ambiguous = all;
    *followed = like;
}

/* The end of the stretch of one code that starts at a code. */
static size_t stretch_end(const uint8_t *codes, size_t n, size_t start)
{
    uint64_t eight = EACH(codes[start]);
    size_t end = start + 1;
    for (; n - end >= 8; end += 8) {
        uint64_t other = le64(codes + end) ^ eight;
        if (other)
            return end + (size_t)__builtin_ctzll(other) / 8;
    }
    while (end < n && codes[end] == codes[start])
        end++;
    return end;
}

/* The entries beyond the first of the stretches that reach into codes `i` to `to`, but for those before `done`, which moves on. */
static size_t more_entries(const uint8_t *codes, size_t n, size_t i, size_t to, size_t most, size_t *done)
{
    size_t more = 0, at = i > *done ? i : *done;
    while (at < to && at > *done && codes[at] >= AMBIGUOUS && codes[at] == codes[at - 1])
        at--;
    while (at < to) {
        size_t end = codes[at] < AMBIGUOUS ? at + 1 : stretch_end(codes, n, at);
        more += (end - at - 1) / most;
        at = end;
    }
    *done = at;
    return more;
}

/* Counts the entries: 18. Each stretch is counted at its end. One of more than sixteen codes has eight or more before their like in some
 * block; only the stretches of such blocks are measured. */
static uint32_t count_entries(const uint8_t *codes, size_t n, struct entries *e)
{
    size_t i = 0, done = 0;
    uint64_t bits = 0;
    uint8_t ambiguous, followed;
    for (; n - i > COUNTED; i += COUNTED) {
        uint64_t here = all_bits(codes + i, COUNTED);
        bits |= here;
        if (all_bases(here))
            continue;
        count_block(codes + i, &ambiguous, &followed);
        e->count += (size_t)(ambiguous - followed);
        if (followed >= 8)
            e->count += more_entries(codes, n, i, i + COUNTED, e->most, &done);
    }
    bits |= all_bits(codes + i, n - i);
    if (bits & EACH(255 - LARGEST_CODE))
        return 18;
    e->count += more_entries(codes, n, i, n, e->most, &done);
    for (; i < n; i++)
        e->count += codes[i] >= AMBIGUOUS && (i + 1 == n || codes[i] != codes[i + 1]);
    return 0;
}

/* Of each two of 2n bytes the high byte of their product with a factor, which brings their bits side by side. The compiler would make
 * shifts and sums of it if it saw the factor. */
static inline void join(const uint8_t *restrict two, size_t n, uint16_t factor, uint8_t *restrict one)
{
    __asm__("" : "+r"(factor));
    for (size_t j = 0; j < n; j++)
        one[j] = (uint8_t)((uint16_t)(le16(two + 2 * j) * factor) >> 8);
}

/* The two-bit bytes of a block of bases, the first base highest. */
static inline void put_bases(const uint8_t *restrict from, uint8_t *restrict out)
{
    uint8_t pairs[BLOCK / 2];
    join(from, BLOCK / 2, 1 << 10 | 1, pairs);
    join(pairs, BLOCK / 4, 1 << 12 | 1, out);
}

/* The same of any codes, whose bases are found without a table: sixteen codes at once can be compared but not looked up. */
static inline void put_any(const uint8_t *restrict codes, uint8_t *restrict out)
{
    uint8_t base[BLOCK];
    for (size_t j = 0; j < BLOCK; j++) {
        uint8_t c = codes[j], kept = (uint8_t)(c & -(uint8_t)!is_ambiguous(c));
        base[j] = (uint8_t)(kept + (c == 6) + (c == 8) + (c == 8) + (c == 9) + (c == 12));
    }
    put_bases(base, out);
}

/* The ambiguous codes of a block, a bit for each, the first one lowest. */
static inline void put_marks(const uint8_t *restrict codes, uint8_t *restrict marks)
{
    uint8_t one[BLOCK], two[BLOCK / 2], four[BLOCK / 4];
    for (size_t j = 0; j < BLOCK; j++)
        one[j] = is_ambiguous(codes[j]);
    join(one, BLOCK / 2, 1 << 8 | 1 << 1, two);
    join(two, BLOCK / 4, 1 << 8 | 1 << 2, four);
    join(four, BLOCK / 8, 1 << 8 | 1 << 4, marks);
}

/* How many of the codes of a word are ambiguous and stand before their like; summed, which takes less than an or of the bytes. */
static inline uint8_t count_followed(const uint8_t *codes)
{
    uint8_t followed = 0;
    for (size_t j = 0; j < WORD; j++)
        followed += is_ambiguous(codes[j]) & (codes[j] == codes[j + 1]);
    return followed;
}

static inline size_t count_bits(uint64_t x)
{
    x -= x >> 1 & 0x5555555555555555u;
    x = (x & 0x3333333333333333u) + (x >> 2 & 0x3333333333333333u);
    return (size_t)(((x + (x >> 4)) & 0x0f0f0f0f0f0f0f0fu) * EACH(1) >> 56);
}

/* Where the next entry goes, how many are to come, and up to which code all are written. */
struct table {
    uint8_t *at;
    size_t left, done;
};

/* The entries of the stretch that starts at a code. */
static void put_stretch(struct table *t, const uint8_t *codes, size_t n, size_t start, size_t size)
{
    size_t most = size == 8 ? 4096 : 16;
    for (t->done = stretch_end(codes, n, start); start < t->done; start += most) {
        put_entry(t->at, size, codes[start], start, t->done - start < most ? t->done - start : most);
        t->at += size;
        t->left--;
    }
}

/* The first bytes of the entries of one residue; what is behind them is its offset. */
static const uint32_t first_bytes[16] = {0x10, 0x20, 0x40, 0x80, 0x00, 0x50, 0xa0, 0x30, 0xc0, 0x60, 0x90, 0xb0, 0xe0, 0x70, 0xd0, 0xf0};

static inline void put_single(uint8_t *at, size_t size, uint32_t code, uint32_t start)
{
    if (size == 8)
        put64(at, __builtin_bswap64(start) | first_bytes[code]);
    else
        put32(at, __builtin_bswap32(start) | first_bytes[code]);
}

/* An entry for each marked code, four at a time; the last four may be too many, and the entries behind them are written there again. */
static inline void put_alone(struct table *t, const uint8_t *codes, size_t i, uint64_t marks, size_t size)
{
    size_t count = count_bits(marks);
    for (uint8_t *at = t->at; marks != 0; at += GROUP * size)
        for (size_t k = 0; k < GROUP; k++) {
            uint32_t start = (uint32_t)i + (uint32_t)__builtin_ctzll(marks | 1ull << (WORD - 1));
            put_single(at + size * k, size, codes[start], start);
            marks &= marks - 1;
        }
    t->at += size * count;
    t->left -= count;
}

/* The marks of a word from code `i` on without those of codes before `done`. */
static inline uint64_t marks_left(uint64_t marks, size_t i, size_t done)
{
    if (done <= i)
        return marks;
    return done - i < WORD ? marks & ~0ull << (done - i) : 0;
}

/* The entries of the stretches that start in a word. */
static inline void put_word(struct table *t, const uint8_t *codes, size_t n, size_t i, uint64_t marks, size_t size)
{
    marks = marks_left(marks, i, t->done);
    if (t->left >= WORD && count_followed(codes + i) == 0) {
        put_alone(t, codes, i, marks, size);
        return;
    }
    while (marks != 0) {
        size_t start = i + (size_t)__builtin_ctzll(marks);
        if (codes[start] == codes[start + 1]) {
            put_stretch(t, codes, n, start, size);
            marks = marks_left(marks, i, t->done);
        } else {
            put_single(t->at, size, codes[start], (uint32_t)start);
            t->at += size;
            t->left--;
            marks &= marks - 1;
        }
    }
}

/* The last codes, at most a block, from one whose number four divides. */
static void write_last(struct table *t, const uint8_t *codes, size_t n, size_t i, size_t size, uint8_t *out)
{
    uint8_t byte = 0;
    for (; i < n; i++) {
        byte = (uint8_t)(byte << 2 | bases[codes[i]]);
        if (i % 4 == 3)
            out[i / 4] = byte;
        if (codes[i] >= AMBIGUOUS && i >= t->done)
            put_stretch(t, codes, n, i, size);
    }
    out[n / 4] = (uint8_t)(byte << (8 - 2 * (n % 4)) | n % 4);
}

static inline void write_codes(const uint8_t *codes, size_t n, struct entries e, size_t size, uint8_t *out)
{
    struct table t = {out + n / 4 + 5, e.count, 0};
    size_t i = 0;
    for (; n - i > BLOCK; i += BLOCK) {
        if (e.count == 0 || all_bases(all_bits(codes + i, BLOCK))) {
            put_bases(codes + i, out + i / 4);
            continue;
        }
        uint8_t marks[BLOCK / 8];
        put_any(codes + i, out + i / 4);
        put_marks(codes + i, marks);
        for (size_t k = 0; k < BLOCK; k += WORD)
            put_word(&t, codes, n, i + k, le64(marks + k / 8), size);
    }
    write_last(&t, codes, n, i, size, out);
}

uint32_t c_write_nucleotides(const uint8_t *codes, size_t codes_len, uint8_t *out, size_t out_len, uint8_t *results,
                             size_t results_len)
{
    struct entries e = no_entries(codes_len);
    uint32_t refused;
    if (codes_len > MOST_BYTES)
        return 22;
    if ((refused = count_entries(codes, codes_len, &e)) != 0 ||
        (refused = put_sizes(codes_len, e, out, out_len, results, results_len)) != 0)
        return refused;
    if (e.size == 8)
        write_codes(codes, codes_len, e, 8, out);
    else
        write_codes(codes, codes_len, e, 4, out);
    return 0;
}
