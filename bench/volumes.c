/* The volume check over protein and DNA volumes of many sequences: both versions compared, and timed. */
#include "volumes.h"

#include <stdlib.h>
#include <string.h>

#include "../include/gullcordage.h"
#include "bench.h"
#include "index.h"
#include "measure.h"

#define HEADER_RECORD 90 /* bytes; no check reads them */

/* One sequence of residues that are no matter; its end. */
static size_t put_protein(uint8_t *sequence, size_t at, size_t length)
{
    memset(sequence + at, 1 + (int)(length % 20), length);
    sequence[at + length] = 0;
    return at + length + 1;
}

static size_t put_dna(uint8_t *sequence, size_t at, size_t length)
{
    memset(sequence + at, (int)(length % 251), length / 4);
    sequence[at + length / 4] = (uint8_t)(length % 4);
    return at + length / 4 + 1;
}

/* A correction of one residue, N. */
static size_t put_correction(uint8_t *sequence, size_t at)
{
    put_be(sequence + at, 1);
    put_be(sequence + at + 4, 0xf0000000u);
    return at + 8;
}

/* The bytes of n sequences, written where `v` has a sequence file, and their offsets. */
static void put_sequences(struct volume *v, uint32_t type, uint8_t *headers)
{
    uint8_t *sequences = headers + 4 * (v->sequences + 1), *ambiguities = sequences + 4 * (v->sequences + 1);
    uint64_t state = 3, longest = 0;
    size_t at = type;
    v->residues = 0;
    v->sequence[0] = 0;
    for (size_t i = 0; i < v->sequences; i++) {
        size_t length = type == 1 ? protein_length(&state) : 100 + next_random(&state) % 1001;
        put_be(headers + 4 * i, (uint32_t)(HEADER_RECORD * i));
        put_be(sequences + 4 * i, (uint32_t)at);
        at = type == 1 ? put_protein(v->sequence, at, length) : put_dna(v->sequence, at, length);
        if (type == 0)
            put_be(ambiguities + 4 * i, (uint32_t)at);
        if (type == 0 && i % 8 == 0)
            at = put_correction(v->sequence, at);
        v->residues += length;
        longest = length > longest ? length : longest;
    }
    v->sequence_len = at;
    put_be(headers + 4 * v->sequences, (uint32_t)v->header_len);
    put_be(sequences + 4 * v->sequences, (uint32_t)at);
    if (type == 0)
        put_be(ambiguities + 4 * v->sequences, (uint32_t)at);
    put_index(v->index, type, v->sequences, v->residues, longest);
}

struct volume make_volume(uint32_t type, size_t n)
{
    struct volume v = {.sequences = n, .header_len = HEADER_RECORD * n};
    size_t room = 4096;
    uint64_t state = 3;
    for (size_t i = 0; i < n; i++) /* the lengths that will be drawn */
        room += type == 1 ? protein_length(&state) + 1 : (100 + next_random(&state) % 1001) / 4 + 9;
    v.index_len = 40 + (type == 1 ? 2 : 3) * 4 * (n + 1);
    v.index = touched(v.index_len);
    v.sequence = touched(room);
    v.header = malloc(v.header_len + 1);
    must(v.header != NULL, "memory");
    put_sequences(&v, type, v.index + 40);
    return v;
}

/* An ambiguity range: so many corrections of ten N, one in each thousand residues; its end. Without any it is empty. */
static size_t put_corrections(uint8_t *sequence, size_t at, size_t entries, enum corrections c)
{
    if (entries == 0 || c == NONE)
        return at;
    put_be(sequence + at, (uint32_t)(c == WIDE ? 0x80000000u | 2 * entries : entries));
    at += 4;
    for (uint32_t i = 0; i < entries; i++) {
        put_be(sequence + at, c == WIDE ? 0xf0090000u : 0xf9000000u | 1000 * i);
        at += 4;
        if (c == WIDE) {
            put_be(sequence + at, 1000 * i);
            at += 4;
        }
    }
    return at;
}

/* One sequence of residues drawn at random; its end. */
static size_t put_drawn(uint8_t *sequence, size_t at, uint32_t type, size_t length, uint64_t *state)
{
    size_t bytes = type == 1 ? length : length / 4;
    for (size_t i = 0; i < bytes; i++)
        sequence[at++] = type == 1 ? (uint8_t)(next_random(state) % 28) : (uint8_t)next_random(state);
    sequence[at++] = type == 1 ? 0 : (uint8_t)((next_random(state) & 0xfc) | length % 4);
    return at;
}

struct volume make_even(uint32_t type, size_t n, size_t length, enum corrections c)
{
    struct volume v = {.sequences = n, .residues = n * length};
    size_t table = 4 * (n + 1), at = type;
    v.index_len = 40 + (type == 1 ? 2 : 3) * table;
    v.index = touched(v.index_len);
    v.sequence = touched(n * (length + length / 100 + 16));
    uint8_t *headers = put_index(v.index, type, n, v.residues, length), *sequences = headers + table, *ambiguities = sequences + table;
    uint64_t state = 13;
    memset(headers, 0, table);
    v.sequence[0] = 0;
    for (size_t i = 0; i < n; i++) {
        put_be(sequences + 4 * i, (uint32_t)at);
        at = put_drawn(v.sequence, at, type, length, &state);
        if (type == 1)
            continue;
        put_be(ambiguities + 4 * i, (uint32_t)at);
        at = put_corrections(v.sequence, at, (i + 1) * length / 1000 - i * length / 1000, c);
    }
    put_be(sequences + 4 * n, (uint32_t)at);
    if (type == 0)
        put_be(ambiguities + 4 * n, (uint32_t)at);
    v.sequence_len = at;
    return v;
}

void free_volume(struct volume *v)
{
    free(v->index);
    free(v->sequence);
    free(v->header);
}

static void check_once(void *context)
{
    struct volume *v = context;
    uint8_t results[64];
    must(v->check(v->index, v->index_len, v->sequence, v->sequence_len, v->header, v->header_len, results, 64) == 0, "a volume");
}

/* Both checks answer alike and leave the same results. */
static void agree_volume(const struct volume *v, size_t results_len, const char *what)
{
    uint8_t results[2][64];
    memset(results, 9, sizeof results);
    uint32_t x =
        gull_check_volume(v->index, v->index_len, v->sequence, v->sequence_len, v->header, v->header_len, results[0], results_len);
    uint32_t y = c_check_volume(v->index, v->index_len, v->sequence, v->sequence_len, v->header, v->header_len, results[1], results_len);
    agree(x == y && memcmp(results[0], results[1], 64) == 0, what);
}

/* The same with a bit of the index or of the sequence file changed, a file cut, or the results range short. */
static void agree_damaged(struct volume *v, int times)
{
    uint64_t state = 5;
    struct volume whole = *v;
    for (int i = 0; i < times; i++) {
        uint64_t where = next_random(&state) % 8, r = next_random(&state);
        uint8_t *at = where == 0 ? v->sequence + r % v->sequence_len : v->index + r % (where < 4 ? 48 : v->index_len), was = *at;
        if (next_random(&state) % 8 != 0)
            *at ^= (uint8_t)(1u << next_random(&state) % 8);
        if (next_random(&state) % 16 == 0)
            v->index_len = next_random(&state) % 2 ? v->index_len - 4 : next_random(&state) % v->index_len;
        if (next_random(&state) % 16 == 0)
            v->sequence_len -= next_random(&state) % 2 ? 1 : next_random(&state) % v->sequence_len;
        if (next_random(&state) % 16 == 0)
            v->header_len = next_random(&state) % 2 ? v->header_len - 1 : (size_t)GULL_MOST_BYTES + 1;
        agree_volume(v, next_random(&state) % 16 ? 64 : 63, "a damaged volume");
        *at = was;
        *v = whole;
    }
}

/* The same with an offset that is another one, or one more or less: the one before it, or the one beside it in the next table. */
static void agree_near(struct volume *v, int times)
{
    uint64_t state = 37;
    size_t table = v->sequences + 1, words = (v->index_len - 40) / 4;
    for (int i = 0; i < times; i++) {
        size_t k = 1 + next_random(&state) % (words - 1), from = k - 1, way = next_random(&state) % 3;
        if (way == 1 && k >= table)
            from = k - table;
        if (way == 2 && k + table - 1 < words)
            from = k + table - 1;
        uint8_t *at = v->index + 40 + 4 * k;
        uint32_t was = be32(at);
        put_be(at, be32(v->index + 40 + 4 * from) + (uint32_t)(next_random(&state) % 3) - 1);
        agree_volume(v, 64, "a volume with an offset near another");
        put_be(at, was);
    }
}

void compare_volumes(void)
{
    for (uint32_t type = 0; type < 2; type++)
        for (size_t n = 0; n < 1000; n = 3 * n + 1) {
            struct volume v = make_volume(type, n);
            agree_volume(&v, 64, "a good volume");
            if (n > 0) {
                agree_damaged(&v, 500);
                agree_near(&v, 200);
            }
            free_volume(&v);
        }
}

void time_volumes(size_t n)
{
    for (uint32_t type = 0; type < 2; type++) {
        struct volume ours = make_volume(type, n), best = ours;
        ours.check = gull_check_volume;
        best.check = c_check_volume;
        compare_times(type == 1 ? "check protein volume, of its index" : "check DNA volume, of its index", ours.index_len,
                      (struct versions){.ours = {check_once, &ours}, .best = {check_once, &best}});
        free_volume(&ours);
    }
}
