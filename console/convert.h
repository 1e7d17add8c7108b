/* gullpack and gullunpack: standard input turned into standard output by one call of the library. */
#ifndef GULL_CONVERT_H
#define GULL_CONVERT_H

#include "gull.h"

struct conversion {
    struct program program;
    size_t (*room)(size_t input); /* the most output bytes that so many input bytes can take */
    uint32_t (*call)(uint32_t alphabet, const struct bytes *input, uint8_t *output, size_t room, uint8_t *results);
    size_t (*length)(const uint8_t *results); /* the output bytes that the results tell */
    int packs;                                /* the input is residues and the output packets, or the other way round */
};

/* The program's main; the exit status. */
int gull_convert(const struct conversion *c, char **word);

/* A letter of a text that no residue has, and its place, lines and columns from 1 on; line 0 for none. */
struct unknown {
    char letter;
    uint64_t line, column;
};

/* Turns a text into residue codes, one byte each, in its own memory: white space is left out, either case is taken, and T and U are the
 * same base. A letter that no residue has becomes a code that none has; the first is returned. */
struct unknown letters_to_codes(uint32_t alphabet, struct bytes *text);

/* Turns codes of the alphabet into letters. */
void codes_to_letters(uint32_t alphabet, uint8_t *codes, size_t len);

#endif
