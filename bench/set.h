/* What both set checks in C share. */
#ifndef BENCH_SET_H
#define BENCH_SET_H

#include "bytes.h"

/* The bytes of the results: ten header fields and the order. */
#define SET_RESULTS 88

/* Lengths and magics file by file, tags, and the index's layout: 22, 1, 14, 15, 3, 4, 6. The index's magic decides the order. */
uint32_t set_layout(const uint8_t *index, size_t index_len, const uint8_t *metadata, size_t metadata_len, const uint8_t *sequence,
                    size_t sequence_len, enum order *order);

/* The ten header fields and the order into the results, or 13. */
uint32_t put_set(const uint8_t *index, enum order order, uint8_t *results, size_t results_len);

#endif
