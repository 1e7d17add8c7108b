/* Unpacking in C with every check of the library's call, in its order. All packets before the last are tested in one pass without an
 * early exit (vectorised), six codes at once by a mask; then sixteen packets at a time are taken apart (vectorised) and stored. */
#include "reference.h"
#include "run.h"

#define BLOCK 16

/* The residues of a well-formed run, or -1: a function of its own, since the loops that write are slower around it. */
static __attribute__((noinline)) int64_t residues_of(uint32_t alphabet, const uint8_t *packets, size_t n)
{
    return run_residues(alphabet, packets, n, LITTLE);
}

/* The first four codes of a 5-bit packet, a byte each, and the last two. */
static inline uint32_t first_codes(uint32_t p)
{
    uint32_t pairs = (p >> 20 & 0x3ff) | (p << 6 & 0x03ff0000);
    return (pairs >> 5 & 0x001f001f) | (pairs & 0x001f001f) << 8;
}

static inline uint32_t last_codes(uint32_t p)
{
    return (p >> 5 & 31) | (p & 31) << 8;
}

/* The four bases of eight bits, a byte each. */
static inline uint32_t four_bases(uint32_t bits)
{
    uint32_t pairs = (bits >> 4 | bits << 16) & 0x000f000f;
    return (pairs >> 2 | pairs << 8) & 0x03030303;
}

static inline void put_six(uint32_t p, uint8_t *out)
{
    uint16_t last = (uint16_t)last_codes(p);
    put32(out, first_codes(p));
    memcpy(out + 4, &last, 2);
}

/* The same by one product, where nothing is vectorised. */
static inline uint32_t four_by_product(uint32_t bits)
{
    return (uint32_t)((uint64_t)bits * 0x40100401 >> 6) & 0x03030303;
}

static inline void put_fifteen(uint32_t p, uint8_t *out)
{
    put32(out, four_by_product(p >> 22 & 0xff));
    put32(out + 4, four_by_product(p >> 14 & 0xff));
    put32(out + 8, four_by_product(p >> 6 & 0xff));
    put32(out + 11, four_by_product(p & 0xff));
}

/* Sixteen amino packets; two bytes more are written, which the packets after them write again. */
static void put_aminos(const uint8_t *packets, uint8_t *out)
{
    uint32_t apart[2 * BLOCK];
    for (size_t j = 0; j < BLOCK; j++) {
        uint32_t p = le32(packets + 4 * j);
        apart[2 * j] = first_codes(p);
        apart[2 * j + 1] = last_codes(p);
    }
    for (size_t j = 0; j < BLOCK; j++)
        memcpy(out + 6 * j, apart + 2 * j, 8);
}

/* Sixteen 2-bit packets; a byte more is written. */
static void put_bases(const uint8_t *packets, uint8_t *out)
{
    uint32_t apart[4 * BLOCK];
    for (size_t j = 0; j < BLOCK; j++) {
        uint32_t p = le32(packets + 4 * j);
        apart[4 * j] = four_bases(p >> 22 & 0xff);
        apart[4 * j + 1] = four_bases(p >> 14 & 0xff);
        apart[4 * j + 2] = four_bases(p >> 6 & 0xff);
        apart[4 * j + 3] = four_bases(p << 2 & 0xff);
    }
    for (size_t j = 0; j < BLOCK; j++)
        memcpy(out + 15 * j, apart + 4 * j, 16);
}

/* Sixteen packets of both kinds, each taken apart both ways, so that no branch is guessed wrong; up to ten bytes more are written. */
static uint8_t *put_mixed(const uint8_t *packets, uint8_t *out)
{
    uint32_t apart[4 * BLOCK];
    for (size_t j = 0; j < BLOCK; j++) {
        uint32_t p = le32(packets + 4 * j), five = -(p >> 30 & 1);
        apart[4 * j] = (five & first_codes(p)) | (~five & four_bases(p >> 22 & 0xff));
        apart[4 * j + 1] = (five & last_codes(p)) | (~five & four_bases(p >> 14 & 0xff));
        apart[4 * j + 2] = four_bases(p >> 6 & 0xff);
        apart[4 * j + 3] = four_bases(p << 2 & 0xff);
    }
    for (size_t j = 0; j < BLOCK; j++) {
        memcpy(out, apart + 4 * j, 16);
        out += 15 - 9 * (le32(packets + 4 * j) >> 30 & 1);
    }
    return out;
}

/* The codes of a last packet, which has so many. */
static void put_last(uint32_t p, uint32_t n, uint8_t *out)
{
    if (n == 15) {
        put_fifteen(p, out);
        return;
    }
    for (uint32_t k = 0; k < n; k++)
        out[k] = p >> (25 - 5 * k) & 31;
}

/* The residues of an amino run of n packets, the last with so many. Blocks are taken while two residues follow or more; the last block
 * may write packets of the one before it again. */
static void write_amino(const uint8_t *packets, size_t n, uint32_t last, uint8_t *out)
{
    size_t i = 0, whole = n - 1, end = whole - (whole > 0 && last < 2);
    for (; i + BLOCK <= end; i += BLOCK)
        put_aminos(packets + 4 * i, out + 6 * i);
    if (end - i > BLOCK / 3 && end > BLOCK) {
        put_aminos(packets + 4 * (end - BLOCK), out + 6 * (end - BLOCK));
        i = end;
    }
    for (; i < whole; i++)
        put_six(le32(packets + 4 * i), out + 6 * i);
    put_last(le32(packets + 4 * whole), last, out + 6 * whole);
}

static uint32_t any_five(const uint8_t *packets)
{
    uint32_t any = 0;
    for (size_t j = 0; j < BLOCK; j++)
        any |= le32(packets + 4 * j);
    return any & FIVE_BIT;
}

/* The residues of a nucleic run; blocks are taken while three packets follow, which have thirteen residues or more. */
static void write_nucleic(const uint8_t *packets, size_t n, uint32_t last, uint8_t *out)
{
    size_t i = 0;
    for (; i + BLOCK + 2 < n; i += BLOCK) {
        if (any_five(packets + 4 * i)) {
            out = put_mixed(packets + 4 * i, out);
        } else {
            put_bases(packets + 4 * i, out);
            out += 15 * BLOCK;
        }
    }
    for (; i + 1 < n; i++) {
        uint32_t p = le32(packets + 4 * i);
        if (p & FIVE_BIT)
            put_six(p, out);
        else
            put_fifteen(p, out);
        out += p & FIVE_BIT ? 6 : 15;
    }
    put_last(le32(packets + 4 * i), last, out);
}

uint32_t c_unpack(uint32_t alphabet, const uint8_t *packets, size_t packets_len, uint8_t *codes, size_t codes_len,
                  uint8_t *results, size_t results_len)
{
    size_t n = packets_len / 4;
    if (packets_len > MOST_BYTES)
        return 22;
    if (packets_len % 4 != 0)
        return 1;
    if (alphabet < 1 || alphabet > AMINO)
        return 3;
    int64_t residues = residues_of(alphabet, packets, n);
    if (residues < 0)
        return 17;
    if ((uint64_t)residues > codes_len)
        return 13;
    if (results_len < 16)
        return 13;
    uint32_t last = (uint32_t)last_residues(alphabet, le32(packets + 4 * (n - 1)));
    if (alphabet == AMINO)
        write_amino(packets, n, last, codes);
    else
        write_nucleic(packets, n, last, codes);
    put64(results, n);
    put64(results + 8, (uint64_t)residues);
    return 0;
}
