/* Gullcordage: checks BLAST version 4 volumes, packs and unpacks Easel dsqdata packets.
 *
 * This header is the manual of the static library libgullcordage.a, for Linux on x86-64. Link with
 *     cc program.c libgullcordage.a
 * or, where it is installed,
 *     cc program.c $(pkg-config --cflags --libs gullcordage)
 *
 * Every call answers whatever bytes and numbers it is given, and ends. It returns one of the numbers below: 0 on success, else the
 * first rule that is broken, in the order of the project's rule book. On every refusal all ranges are as they were.
 *
 * A byte range is a pointer and a length. A range of length 0 may have a null pointer. The ranges of one call must not overlap, and
 * must not change while the call runs: read a file that others may write into memory first, and do not map it.
 * Calls keep no state: any number of them may run at once, in any thread.
 *
 * Results are written into a range that the caller lends, as eight-byte little-endian numbers one after another; a longer range
 * keeps its other bytes.
 */
#ifndef GULLCORDAGE_H
#define GULLCORDAGE_H

#include <stddef.h>
#include <stdint.h>

#ifdef __cplusplus
extern "C" {
#endif

/* The version of this header and of the library and the programs beside it. */
#define GULL_VERSION_MAJOR 0
#define GULL_VERSION_MINOR 7
#define GULL_VERSION_PATCH 1
#define GULL_VERSION "0.7.1"

/* Answers. */
enum {
    GULL_OK = 0,
    GULL_TOO_SHORT = 1,         /* a field, table or file ends too early, or packets are not a multiple of 4 bytes */
    GULL_WRONG_VERSION = 2,     /* the volume's version is not 4 */
    GULL_WRONG_KIND = 3,        /* the volume's type is not 0 or 1, or the alphabet is not 1, 2 or 3 */
    GULL_OUT_OF_RANGE = 4,      /* a stated number is outside its range */
    GULL_MISALIGNED = 5,        /* the timestamp does not end at a multiple of 4 from the index's start */
    GULL_LEFTOVER = 6,          /* bytes are left over in the index */
    GULL_BAD_OFFSETS = 7,       /* offsets break their rules */
    GULL_BAD_SEPARATOR = 8,     /* a protein separator is not NUL */
    GULL_WRONG_TOTALS = 9,      /* the stated total or longest length is wrong */
    GULL_NO_ROOM = 13,          /* the output or the results range has no room, or the place lies beyond it */
    GULL_BAD_RUN = 17,          /* the packets are not a well-formed run */
    GULL_BAD_CODE = 18,         /* a residue code is not valid */
    GULL_TOO_LARGE = 22         /* an input range is over 2,147,483,647 bytes */
};

/* The most bytes of an input range. */
#define GULL_MOST_BYTES 2147483647u

/* Alphabets. */
enum { GULL_RNA = 1, GULL_DNA = 2, GULL_AMINO = 3 };

/* The residue of each code, as Easel has them: code k is the letter at place k, the first at 0. RNA and DNA have the same 16 codes (code 3
 * is T in DNA and U in RNA), amino has 28. Other codes are not valid. */
#define GULL_NUCLEIC_LETTERS "ACGT-RYMKSWHBVDN"
#define GULL_AMINO_LETTERS "ACDEFGHIKLMNPQRSTVWY-BJZOUX*"

/* The bytes that the results of each call take. */
#define GULL_CHECK_VOLUME_RESULTS 64
#define GULL_PACK_RESULTS 16
#define GULL_UNPACK_RESULTS 16

/* Checks a volume: its index, sequence and header file, each whole.
 * Returns, in this order, 22, 1 to 6 for the index, 7, 8, 9, and 13 where the results range is shorter than 64 bytes.
 * Results: type (0 DNA, 1 protein), sequences, residues, longest, and start and length in the index of the title and of the
 * timestamp (without trailing NULs). */
uint32_t gull_check_volume(const uint8_t *index, size_t index_len, const uint8_t *sequence, size_t sequence_len,
                           const uint8_t *header, size_t header_len, uint8_t *results, size_t results_len);

/* Packs residue codes, one byte each, as one run of packets, into a buffer of little-endian packets, from a place on that is counted
 * in packets. A buffer of 4k to 4k+3 bytes has k packets; the other bytes of the buffer stay as they are.
 * Returns 22, 3, 18, 13 for the buffer, 13 where the results range is shorter than 16 bytes.
 * Results: the run's packets, its residues.
 * How many packets L residues take: amino, L/6 rounded up, and at least 1; RNA and DNA, at most that; where all codes are below 4 and
 * L is above 0, exactly L/15 rounded down plus (L mod 15)/6 rounded up. No run of the same residues is shorter. A buffer that has so
 * many from the place on is never refused; one that has fewer than the run takes is 13, unless 22, 3 or 18 comes first. */
uint32_t gull_pack(uint32_t alphabet, const uint8_t *codes, size_t codes_len, uint8_t *packets, size_t packets_len,
                   uint64_t place, uint8_t *results, size_t results_len);

/* Unpacks one run of little-endian packets into residue codes; the other bytes of the output stay as they are.
 * Returns 22, 1, 3, 17, 13 for the output, 13 where the results range is shorter than 16 bytes.
 * Results: the run's packets, its residues. A run has at most fifteen residues for each packet. */
uint32_t gull_unpack(uint32_t alphabet, const uint8_t *packets, size_t packets_len, uint8_t *codes, size_t codes_len,
                     uint8_t *results, size_t results_len);

#ifdef __cplusplus
}
#endif

#endif
