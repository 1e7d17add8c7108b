/* Made-up volumes. */
#ifndef BENCH_VOLUMES_H
#define BENCH_VOLUMES_H

#include "reference.h"

struct volume {
    uint8_t *index, *sequence, *header;
    size_t index_len, sequence_len, header_len, sequences, residues;
    volume_call *check;
    decode_call *decode;
    uint8_t *out;
};

/* A volume of n sequences: proteins as databases have them (type 1), or DNA of 100 to 1,100 bases (type 0), one in eight with a
 * correction. */
struct volume make_volume(uint32_t type, size_t n);

/* The corrections of DNA: none, or ten N in each thousand residues, counted over all sequences, in entries of 32 or 64 bits. */
enum corrections { NONE, NARROW, WIDE };

/* A volume of n sequences of one length, their residues drawn at random, without a header file. */
struct volume make_even(uint32_t type, size_t n, size_t length, enum corrections c);
void free_volume(struct volume *v);

#endif
