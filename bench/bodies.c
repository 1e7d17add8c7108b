/* Bodies of packets: many sequences of residues, packed and unpacked one after another by one version. */
#include "bodies.h"

#include <stdlib.h>

#include "../include/gullcordage.h"
#include "bytes.h"
#include "measure.h"

/* Genomes stand in long runs, reads and peptides in short ones. */
const struct kind kinds[] = {
    {"amino, proteins", GULL_AMINO, 0, 0},
    {"amino, runs of 100", GULL_AMINO, 100, 0},
    {"DNA, runs of 1,000,000", GULL_DNA, 1000000, 0},
    {"DNA, runs of 150", GULL_DNA, 150, 0},
    {"DNA with 1% N, runs of 1,000,000", GULL_DNA, 1000000, 1},
};
const size_t kind_count = sizeof kinds / sizeof *kinds;

static size_t *places(size_t n)
{
    return (size_t *)(void *)touched(n * sizeof(size_t));
}

/* The places where runs start; the last run is cut where the residues end. */
static void fill_starts(struct body *b, size_t run)
{
    uint64_t state = 19;
    size_t at = 0;
    b->runs = 0;
    while (at < b->residues) {
        b->starts[b->runs++] = at;
        at += run > 0 ? run : protein_length(&state);
    }
    b->starts[b->runs] = b->residues;
}

static void fill_codes(struct body *b, size_t percent)
{
    uint64_t state = 7;
    for (size_t i = 0; i < b->residues; i++) {
        uint64_t r = next_random(&state);
        if (b->alphabet == GULL_AMINO)
            b->codes[i] = (uint8_t)(r % 20);
        else
            b->codes[i] = r % 100 < percent ? 15 : (uint8_t)(r >> 32 & 3);
    }
}

struct body make_body(const struct kind *kind, size_t residues)
{
    struct body b = {.alphabet = kind->alphabet, .residues = residues, .pack = gull_pack, .unpack = gull_unpack};
    size_t most = residues / (kind->run > 0 ? kind->run : 30) + 2; /* no protein is shorter than 30 */
    b.starts = places(most + 1);
    fill_starts(&b, kind->run);
    b.ends = places(b.runs);
    b.packets_room = residues / 6 + b.runs;
    b.codes = touched(residues);
    b.packets = touched(4 * b.packets_room);
    b.back = touched(residues);
    fill_codes(&b, kind->percent);
    return b;
}

struct body other_body(const struct body *b, pack_call *pack, unpack_call *unpack)
{
    struct body other = *b;
    other.ends = places(b->runs);
    other.packets = touched(4 * b->packets_room);
    other.back = touched(b->residues);
    other.pack = pack;
    other.unpack = unpack;
    return other;
}

void free_other(struct body *b)
{
    free(b->ends);
    free(b->packets);
    free(b->back);
}

void free_body(struct body *b)
{
    free(b->starts);
    free(b->codes);
    free_other(b);
}

void pack_all(void *context)
{
    struct body *b = context;
    uint8_t results[16];
    uint64_t place = 0;
    for (size_t k = 0; k < b->runs; k++) {
        size_t n = b->starts[k + 1] - b->starts[k];
        uint32_t answer = b->pack(b->alphabet, b->codes + b->starts[k], n, b->packets, 4 * b->packets_room, place, results, 16);
        must(answer == 0, "packing");
        place += le64(results);
        b->ends[k] = place;
    }
}

void unpack_all(void *context)
{
    struct body *b = context;
    uint8_t results[16];
    size_t place = 0;
    for (size_t k = 0; k < b->runs; k++) {
        size_t at = b->starts[k], packets = b->ends[k] - place;
        uint32_t answer = b->unpack(b->alphabet, b->packets + 4 * place, 4 * packets, b->back + at, b->residues - at, results, 16);
        must(answer == 0, "unpacking");
        place = b->ends[k];
    }
}
