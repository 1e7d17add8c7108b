/* Bodies of packets: many sequences of residues, packed and unpacked one after another by one version. */
#ifndef BENCH_BODIES_H
#define BENCH_BODIES_H

#include "reference.h"

/* The kinds of sequences that are timed: an alphabet, the length of a run (0 for proteins as databases have them), and N in a hundred. */
struct kind {
    const char *name;
    uint32_t alphabet;
    size_t run, percent;
};

extern const struct kind kinds[];
extern const size_t kind_count;

struct body {
    uint32_t alphabet;
    size_t residues, runs, packets_room;
    size_t *starts; /* residues before each run, and all of them */
    size_t *ends;   /* packets up to the end of each run */
    uint8_t *codes, *packets, *back;
    pack_call *pack;
    unpack_call *unpack;
};

struct body make_body(const struct kind *kind, size_t residues);
void free_body(struct body *b);

/* The same sequences for another version, with packets and residues of its own. */
struct body other_body(const struct body *b, pack_call *pack, unpack_call *unpack);
void free_other(struct body *b);

/* Packs every sequence behind the one before; unpacks every run. */
void pack_all(void *context);
void unpack_all(void *context);

#endif
