/* Decoding: one long sequence, protein and DNA, with corrections and without, and the proteins of a volume or fifty short DNA sequences
 * one after another; both versions compared, and timed, beside an earlier build of the library where one is linked. */
#include <stdlib.h>
#include <string.h>

#include "bench.h"
#include "index.h"
#include "measure.h"
#include "timing.h"
#include "volumes.h"

/* A volume of n proteins (type 1) or DNA sequences (type 0) of one length, and room for all residues. */
static struct volume make_roomy(uint32_t type, size_t n, size_t length, enum corrections c)
{
    struct volume v = make_even(type, n, length, c);
    v.out = touched(v.residues);
    return v;
}

static void free_roomy(struct volume *v)
{
    free_volume(v);
    free(v->out);
}

static void decode_all(void *context)
{
    struct volume *v = context;
    for (size_t i = 0; i < v->sequences; i++)
        must(v->decode(v->index, v->index_len, v->sequence, v->sequence_len, i, v->out, v->residues) == 0, "a sequence");
}

/* Both decoders answer alike and leave the same output. */
static void agree_decoding(struct volume *v, uint8_t *other, uint64_t number, size_t room, const char *what)
{
    memset(v->out, 7, v->residues);
    memset(other, 7, v->residues);
    uint32_t x = gull_time_decode(v->index, v->index_len, v->sequence, v->sequence_len, number, v->out, room);
    uint32_t y = c_decode(v->index, v->index_len, v->sequence, v->sequence_len, number, other, room);
    agree(x == y && memcmp(v->out, other, v->residues) == 0, what);
}

/* The same with another number, with too little room, with one bit changed in the index, in the bytes or, most often for DNA, in the last
 * bytes, where the ambiguity range is. */
static void agree_damaged(struct volume *v, int times)
{
    uint64_t state = 17;
    uint8_t *other = touched(v->residues);
    agree_decoding(v, other, 0, v->residues, "decoding");
    for (int i = 0; i < times; i++) {
        size_t tail = v->sequence_len < 64 ? v->sequence_len : 64, room = v->residues - (next_random(&state) % 8 == 0);
        uint64_t number = next_random(&state) % 16 ? next_random(&state) % v->sequences : v->sequences;
        uint8_t *at;
        switch (next_random(&state) % 4) {
        case 0: at = v->index + next_random(&state) % v->index_len; break;
        case 1: at = v->sequence + next_random(&state) % v->sequence_len; break;
        default: at = v->sequence + v->sequence_len - 1 - next_random(&state) % tail; break;
        }
        uint8_t was = *at;
        size_t more = next_random(&state) % 32 == 0; /* touched memory has a byte more */
        *at ^= (uint8_t)(1u << next_random(&state) % 8);
        v->index_len += more;
        agree_decoding(v, other, number, room, "decoding a damaged sequence");
        v->index_len -= more;
        *at = was;
    }
    free(other);
}

/* The same with one of the last three corrections moved to the end of the one before it or to the end of the sequence, or one residue to
 * either side. */
static void agree_corrections(struct volume *v, enum corrections c)
{
    uint8_t *other = touched(v->residues);
    uint32_t entry = c == WIDE ? 8 : 4, last = (uint32_t)(v->residues / 1000) - 1;
    for (uint32_t k = last - 2; k <= last; k++) {
        uint8_t *at = v->sequence + v->sequence_len - 4 - entry * (last - k);
        uint32_t was = be32(at), first = was - 1000 * k; /* corrections of ten residues begin at each thousand */
        for (uint32_t more = 0; more < 3; more++) {
            put_be(at, first + 1000 * (k - 1) + 9 + more);
            agree_decoding(v, other, 0, v->residues, "decoding moved corrections");
            put_be(at, first + (uint32_t)v->residues - 11 + more);
            agree_decoding(v, other, 0, v->residues, "decoding moved corrections");
        }
        put_be(at, was);
    }
    free(other);
}

/* Every sequence of a volume, undamaged, and damaged ones. */
static void compare_volume(uint32_t type)
{
    struct volume v = make_volume(type, 40);
    v.out = touched(v.residues);
    uint8_t *other = touched(v.residues);
    for (size_t i = 0; i <= v.sequences; i++)
        agree_decoding(&v, other, i, v.residues, "decoding");
    agree_damaged(&v, 1000);
    struct volume large = v;
    large.index_len = (size_t)MOST_BYTES + 1;
    agree_decoding(&large, other, 0, v.residues, "decoding a large index");
    free(other);
    free_roomy(&v);
}

/* One sequence of each length from one on, undamaged, damaged, and with its corrections moved. */
static void compare_lengths(uint32_t type, size_t from, size_t lengths, enum corrections c, int times)
{
    for (size_t residues = from; residues < from + lengths; residues++) {
        struct volume v = make_roomy(type, 1, residues, c);
        agree_damaged(&v, times);
        if (type == 0 && c != NONE)
            agree_corrections(&v, c);
        free_roomy(&v);
    }
}

/* Of DNA also sequences that are long enough for the library's table, and some that are just too short for it. */
void compare_sequences(void)
{
    for (uint32_t type = 0; type < 2; type++) {
        compare_volume(type);
        for (enum corrections c = NARROW; c <= WIDE; c++)
            compare_lengths(type, 4000, 4, c, 500);
    }
    for (enum corrections c = NONE; c <= WIDE; c++)
        compare_lengths(0, 131072 - 8, 8 + 40, c, 20);
}

static void time_decoding(const char *name, struct volume ours)
{
    struct volume best = ours, before = ours;
    ours.decode = gull_time_decode;
    best.decode = c_decode;
    before.decode = before_decode;
    compare_times(name, ours.residues,
                  (struct versions){{decode_all, &ours}, {decode_all, &best}, {before_decode ? decode_all : NULL, &before}});
    free_roomy(&ours);
}

void time_sequences(size_t residues)
{
    struct volume proteins = make_volume(1, residues / 350);
    proteins.out = touched(proteins.residues);
    time_decoding("decode proteins, one by one", proteins);
    time_decoding("decode one long protein", make_roomy(1, 1, residues, NONE));
    time_decoding("decode one DNA", make_roomy(0, 1, residues, NONE));
    time_decoding("decode one DNA with corrections", make_roomy(0, 1, residues, WIDE));
}

void time_short_sequences(void)
{
    time_decoding("decode fifty DNA of 400, one by one", make_roomy(0, 50, 400, NONE));
}
