/* A volume's index, read and written in C. */
#ifndef BENCH_INDEX_H
#define BENCH_INDEX_H

#include "bytes.h"

/* The fixed fields of an index, and where its tables stand. */
struct fixed {
    int32_t type, n, longest, title, stamp;
    int64_t count;
    const uint8_t *headers, *sequences, *ambiguities;
};

/* Reads an index, 1 to 6. */
uint32_t c_read_index(const uint8_t *index, size_t len, struct fixed *f);

/* Writes the fixed fields of an index with an empty title and a timestamp of eight NULs; the place of its tables. */
uint8_t *put_index(uint8_t *index, uint32_t type, size_t n, uint64_t count, uint64_t longest);

static inline int64_t offset(const uint8_t *table, size_t k)
{
    return (int32_t)be32(table + 4 * k);
}

#endif
