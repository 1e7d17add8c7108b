/* Calls of the library that its C face lacks, exported for the benchmark and the tests alone (crate timing). */
#ifndef BENCH_TIMING_H
#define BENCH_TIMING_H

#include <stddef.h>
#include <stdint.h>

/* The results are the ten header fields and the byte order, 0 for little-endian and 1 for big-endian, eight bytes each. */
uint32_t gull_time_check_set(const uint8_t *index, size_t index_len, const uint8_t *metadata, size_t metadata_len,
                             const uint8_t *sequence, size_t sequence_len, uint8_t *results, size_t results_len);

uint32_t gull_time_decode(const uint8_t *index, size_t index_len, const uint8_t *sequence, size_t sequence_len, uint64_t number,
                          uint8_t *out, size_t out_len);

/* The result is how many items were done, on a refusal too; a range of fewer than eight bytes stays as it was. */
uint32_t gull_time_fetch_page(const uint8_t *index, size_t index_len, const uint8_t *sequence, size_t sequence_len,
                              const uint64_t *numbers, size_t numbers_len, uint8_t *out, size_t out_len, uint64_t *ends,
                              size_t ends_len, uint8_t *results, size_t results_len);

/* The results are the sizes of the two-bit bytes and of the table, eight bytes each, where they fit the range; none on a refusal. */
uint32_t gull_time_write_nucleotides(const uint8_t *codes, size_t codes_len, uint8_t *out, size_t out_len, uint8_t *results,
                                     size_t results_len);

#endif
