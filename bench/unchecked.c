/* Packing and unpacking in C that checks nothing, as a peer's loop over residues does: document 004's packets, one residue after another.
 * It trusts that codes are valid, that runs are well formed and end, and that all ranges have room. */
#include "packets.h"
#include "reference.h"

static uint32_t pack_five(const uint8_t *codes, size_t n, size_t *i)
{
    uint32_t packet = FIVE_BIT;
    int shift = 25;
    for (; shift >= 0 && *i < n; shift -= 5)
        packet |= (uint32_t)codes[(*i)++] << shift;
    for (; shift >= 0; shift -= 5)
        packet |= 31u << shift;
    return packet;
}

static uint32_t pack_two(const uint8_t *codes, size_t *i)
{
    uint32_t packet = 0;
    for (int shift = 28; shift >= 0; shift -= 2)
        packet |= (uint32_t)codes[(*i)++] << shift;
    return packet;
}

/* `seen` codes are looked at, each once; the one at `seen`, if it stops there, is degenerate. */
uint32_t unchecked_pack(uint32_t alphabet, const uint8_t *codes, size_t codes_len, uint8_t *packets, size_t packets_len, uint64_t place,
                        uint8_t *results, size_t results_len)
{
    size_t i = 0, seen = 0;
    uint8_t *at = packets + 4 * place;
    (void)packets_len, (void)results_len;
    do {
        uint32_t packet;
        if (alphabet == AMINO) {
            packet = pack_five(codes, codes_len, &i);
        } else {
            seen = seen < i ? i : seen;
            while (seen < codes_len && seen < i + 15 && codes[seen] < 4)
                seen++;
            packet = seen == i + 15 ? pack_two(codes, &i) : pack_five(codes, codes_len, &i);
        }
        put32(at, packet | (i == codes_len ? END_BIT : 0));
        at += 4;
    } while (i < codes_len);
    put64(results, (uint64_t)(at - packets) / 4 - place);
    put64(results + 8, codes_len);
    return 0;
}

uint32_t unchecked_unpack(uint32_t alphabet, const uint8_t *packets, size_t packets_len, uint8_t *codes, size_t codes_len,
                          uint8_t *results, size_t results_len)
{
    uint8_t *out = codes;
    const uint8_t *at = packets;
    uint32_t packet;
    (void)alphabet, (void)packets_len, (void)codes_len, (void)results_len;
    do {
        packet = le32(at);
        at += 4;
        if (packet & FIVE_BIT) {
            for (int shift = 25; shift >= 0 && (packet >> shift & 31) != 31; shift -= 5)
                *out++ = packet >> shift & 31;
        } else {
            for (int shift = 28; shift >= 0; shift -= 2)
                *out++ = packet >> shift & 3;
        }
    } while (!(packet & END_BIT));
    put64(results, (uint64_t)(at - packets) / 4);
    put64(results + 8, (uint64_t)(out - codes));
    return 0;
}
