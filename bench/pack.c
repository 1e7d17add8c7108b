/* Packing in C with every check of the library's call, in its order. The largest code is found in one pass (vectorised), packets are
 * counted only where the room for six residues a packet does not suffice, and a packet's codes are read and put together at once. */
#include "packets.h"
#include "reference.h"

#define BLOCK 16
#define NOT_PLAIN 0xfcfcfcfcfcfcfcfcu

/* The largest code: a reduction without an early exit. */
static uint32_t largest_code(const uint8_t *codes, size_t n)
{
    uint8_t most = 0;
    for (size_t i = 0; i < n; i++)
        most = codes[i] > most ? codes[i] : most;
    return most;
}

/* A 5-bit packet of the codes c0 to c3 in one number and c4, c5 in the low half of another. */
static inline uint32_t five_bit(uint32_t first, uint32_t second)
{
    uint32_t pairs = (first & 0x00ff00ff) << 5 | (first >> 8 & 0x00ff00ff);
    uint32_t last = (second & 0xff) << 5 | (second >> 8 & 0xff);
    return FIVE_BIT | pairs << 20 | pairs >> 16 << 10 | last;
}

/* A 5-bit packet of the six codes at a place where eight may be read. */
static inline uint32_t six_at(const uint8_t *codes)
{
    return five_bit(le32(codes), le32(codes + 4));
}

/* A 5-bit packet of the last codes, at most six; the rest is 31. */
static uint32_t few_at(const uint8_t *codes, size_t n)
{
    uint32_t packet = FIVE_BIT;
    for (size_t j = 0; j < 6; j++)
        packet |= (j < n ? codes[j] : 31u) << (25 - 5 * j);
    return packet;
}

/* Sixteen amino packets from the codes at a place where two more may be read; the second loop is vectorised. */
static void put_sixteen(const uint8_t *codes, uint8_t *at)
{
    uint32_t eight[2 * BLOCK];
    for (size_t j = 0; j < BLOCK; j++)
        memcpy(eight + 2 * j, codes + 6 * j, 8);
    for (size_t j = 0; j < BLOCK; j++)
        put32(at + 4 * j, five_bit(eight[2 * j], eight[2 * j + 1]));
}

/* Blocks are taken while two codes follow or more; the last block may write packets of the one before it again. */
static void write_amino(const uint8_t *codes, size_t n, uint8_t *at)
{
    size_t i = 0, whole = n == 0 ? 0 : (n - 1) / 6, end = whole - (whole > 0 && n - 6 * whole < 2);
    for (; i + BLOCK <= end; i += BLOCK)
        put_sixteen(codes + 6 * i, at + 4 * i);
    if (end - i > BLOCK / 3 && end > BLOCK) {
        put_sixteen(codes + 6 * (end - BLOCK), at + 4 * (end - BLOCK));
        i = end;
    }
    for (; i < end; i++)
        put32(at + 4 * i, six_at(codes + 6 * i));
    for (; i < whole; i++)
        put32(at + 4 * i, few_at(codes + 6 * i, 6));
    put32(at + 4 * i, few_at(codes + 6 * i, n - 6 * i) | END_BIT);
}

/* Sixteen bits of eight 2-bit codes, the first one highest: pairs, then the four pairs by one product. The compiler would make six shifts
 * and sums of it if it saw the factor. */
static inline uint32_t two_bit(uint64_t eight)
{
    uint64_t factor = 0x1000010000100001u;
    __asm__("" : "+r"(factor));
    return (uint32_t)((((eight << 10 | eight) >> 8 & 0x000f000f000f000fu) * factor) >> 48);
}

/* A 2-bit packet of fifteen codes, the first eight and the last eight; the one they share is the same in both. */
static inline uint32_t fifteen(uint64_t first, uint64_t last)
{
    return two_bit(first) << 14 | two_bit(last);
}

/* The eight bits of four 2-bit codes, the first one highest; the same without a product, which is not vectorised. */
static inline uint32_t four_codes(uint32_t codes)
{
    uint32_t pairs = (codes << 2 | codes >> 8) & 0x000f000f;
    return (pairs << 4 | pairs >> 16) & 0xff;
}

/* Whether the codes of sixteen packets are all below 4: a reduction. */
static int block_plain(const uint8_t *codes)
{
    uint8_t any = 0;
    for (size_t j = 0; j < 15 * BLOCK; j++)
        any |= codes[j];
    return any < 4;
}

/* Sixteen 2-bit packets from the codes at a place where one more may be read; the second loop is vectorised. */
static void put_block(const uint8_t *codes, uint8_t *at)
{
    uint32_t w[4 * BLOCK];
    for (size_t j = 0; j < BLOCK; j++)
        memcpy(w + 4 * j, codes + 15 * j, 16);
    for (size_t j = 0; j < BLOCK; j++)
        put32(at + 4 * j, four_codes(w[4 * j]) << 22 | four_codes(w[4 * j + 1]) << 14 | four_codes(w[4 * j + 2]) << 6 |
                              four_codes(w[4 * j + 3] & 0xffffff) >> 2);
}

/* Blocks of 2-bit packets while the codes are plain and some follow; the packets written. */
static size_t put_blocks(const uint8_t *codes, size_t n, uint8_t *at)
{
    size_t packets = 0;
    for (; n - 15 * packets > 15 * BLOCK && block_plain(codes + 15 * packets); packets += BLOCK)
        put_block(codes + 15 * packets, at + 4 * packets);
    return packets;
}

static size_t last_byte(uint64_t marks)
{
    return (size_t)(63 - __builtin_clzll(marks)) / 8;
}

/* Three 5-bit packets; the number of them that it takes to pass the last of the next fifteen codes that is not plain. */
static size_t put_around(const uint8_t *codes, uint64_t first, uint64_t last, uint8_t *at)
{
    for (size_t j = 0; j < 3; j++)
        put32(at + 4 * j, six_at(codes + 6 * j));
    size_t k = last & NOT_PLAIN ? 7 + last_byte(last & NOT_PLAIN) : last_byte(first & NOT_PLAIN);
    return k / 6 + 1;
}

/* Whether fifteen codes or more are left and the next fifteen are all below 4. */
static int plain(const uint8_t *codes, size_t left)
{
    return left >= 15 && ((le64(codes) | le64(codes + 7)) & NOT_PLAIN) == 0;
}

/* The packets of nucleic codes; returns how many they are. While over thirty codes are left, so are three packets. Blocks are tried at the
 * start and after sixteen 2-bit packets in a row. */
static size_t write_nucleic(const uint8_t *codes, size_t n, uint8_t *packets)
{
    uint8_t *at = packets;
    size_t i = 0, row = BLOCK;
    while (n - i > 30) {
        uint64_t first = le64(codes + i), last = le64(codes + i + 7);
        size_t here = 1, step = 15;
        if (row == BLOCK) {
            here = put_blocks(codes + i, n - i, at);
            step = 15 * here;
            row = 0;
        } else if (((first | last) & NOT_PLAIN) == 0) {
            put32(at, fifteen(first, last));
            row++;
        } else {
            here = put_around(codes + i, first, last, at);
            step = 6 * here;
            row = 0;
        }
        at += 4 * here;
        i += step;
    }
    do {
        size_t left = n - i, step = plain(codes + i, left) ? 15 : left < 6 ? left : 6;
        uint32_t packet = step == 15 ? fifteen(le64(codes + i), le64(codes + i + 7)) : few_at(codes + i, step);
        i += step;
        put32(at, packet | (i == n ? END_BIT : 0));
        at += 4;
    } while (i < n);
    return (size_t)(at - packets) / 4;
}

static size_t count_nucleic(const uint8_t *codes, size_t n)
{
    size_t count = n == 0;
    for (size_t i = 0; i < n; count++)
        i += plain(codes + i, n - i) ? 15 : n - i < 6 ? n - i : 6;
    return count;
}

uint32_t c_pack(uint32_t alphabet, const uint8_t *codes, size_t codes_len, uint8_t *packets, size_t packets_len, uint64_t place,
                uint8_t *results, size_t results_len)
{
    if (codes_len > MOST_BYTES)
        return 22;
    if (alphabet < 1 || alphabet > AMINO)
        return 3;
    if (largest_code(codes, codes_len) >= code_limit(alphabet))
        return 18;
    size_t most = codes_len == 0 ? 1 : (codes_len + 5) / 6, room = packets_len / 4;
    if (place > room)
        return 13;
    if (room - place < most && (alphabet == AMINO || room - place < count_nucleic(codes, codes_len)))
        return 13;
    if (results_len < 16)
        return 13;
    size_t count = most;
    if (alphabet == AMINO)
        write_amino(codes, codes_len, packets + 4 * place);
    else
        count = write_nucleic(codes, codes_len, packets + 4 * place);
    put64(results, count);
    put64(results + 8, codes_len);
    return 0;
}
