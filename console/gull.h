/* What the programs share: exit statuses, the meaning of answers, growing text, names on a line, and reading input whole. */
#ifndef GULL_CONSOLE_H
#define GULL_CONSOLE_H

#include <stddef.h>
#include <stdint.h>

#include "../include/gullcordage.h"

/* Exit statuses of every program. */
enum { EXIT_PASSED = 0, EXIT_REFUSED = 1, EXIT_TROUBLE = 2 };

/* The most bytes of an input. A test builds the programs with a smaller number. */
#ifndef MOST_INPUT
#define MOST_INPUT GULL_MOST_BYTES
#endif

/* Bytes in memory. */
struct bytes {
    uint8_t *at;
    size_t len;
};

/* Text that grows; all zero is an empty one. Where there is no memory for it, nothing more is added and `failed` is set. */
struct text {
    char *at;
    size_t len, room;
    int failed;
};

/* A program's name and its help, in parts up to a NULL; the first is the line of usage. */
struct program {
    const char *name;
    const char *const *help;
};

/* The meaning of an answer number. */
const char *gull_meaning(uint32_t number);

/* The eight-byte little-endian number at place k of results. */
uint64_t gull_result(const uint8_t *results, size_t k);

/* Memory for `len` bytes, the old ones kept. Without memory the program tells so and ends. */
void *gull_memory(void *at, size_t len);

/* Writes all bytes. Returns 0, or -1 with errno set. */
int gull_write(int fd, const void *at, size_t len);

/* Tells that standard output could not be written, by errno; the exit status. */
int gull_unwritten(const struct program *p);

/* Where `word` is --help, -h or --version: writes it and returns the exit status. Otherwise -1. */
int gull_told(const struct program *p, const char *word);

/* Tells what is wrong with the usage, NULL for nothing more than that; the exit status. */
int gull_misused(const struct program *p, const char *what, const char *word);

/* Reads a descriptor to its end. Returns 0; -1 with errno set; or GULL_TOO_LARGE for an input over the limit: a regular file by its
 * size alone, anything else at the byte over the limit. */
int gull_read(int fd, struct bytes *out);

void gull_free(struct bytes *b);

/* Adds words, bytes, or what a format gives. */
void text_add(struct text *t, const char *words);
void text_add_bytes(struct text *t, const void *at, size_t len);
void text_format(struct text *t, const char *format, ...) __attribute__((format(printf, 2, 3)));

/* Adds bytes between quotes with everything but printable ASCII escaped: \xNN, or for JSON \u00NN, the byte as a character. */
void text_quote(struct text *t, const void *at, size_t len, int json);

/* Adds a file's name: as it is where every byte is plain, otherwise quoted, so that no name can be taken for another part of a line. */
void text_name(struct text *t, const char *name);

void text_free(struct text *t);

#endif
