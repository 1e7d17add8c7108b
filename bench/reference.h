/* What the benchmark holds the library to, each with the arguments of the library's call. */
#ifndef BENCH_REFERENCE_H
#define BENCH_REFERENCE_H

#include <stddef.h>
#include <stdint.h>

typedef uint32_t pack_call(uint32_t alphabet, const uint8_t *codes, size_t codes_len, uint8_t *packets, size_t packets_len,
                           uint64_t place, uint8_t *results, size_t results_len);
typedef uint32_t unpack_call(uint32_t alphabet, const uint8_t *packets, size_t packets_len, uint8_t *codes, size_t codes_len,
                             uint8_t *results, size_t results_len);
typedef uint32_t volume_call(const uint8_t *index, size_t index_len, const uint8_t *sequence, size_t sequence_len,
                             const uint8_t *header, size_t header_len, uint8_t *results, size_t results_len);
typedef uint32_t set_call(const uint8_t *index, size_t index_len, const uint8_t *metadata, size_t metadata_len,
                          const uint8_t *sequence, size_t sequence_len, uint8_t *results, size_t results_len);
typedef uint32_t decode_call(const uint8_t *index, size_t index_len, const uint8_t *sequence, size_t sequence_len, uint64_t number,
                             uint8_t *out, size_t out_len);
typedef uint32_t page_call(const uint8_t *index, size_t index_len, const uint8_t *sequence, size_t sequence_len,
                           const uint64_t *numbers, size_t numbers_len, uint8_t *out, size_t out_len, uint64_t *ends, size_t ends_len,
                           uint8_t *results, size_t results_len);
typedef uint32_t write_call(const uint8_t *codes, size_t codes_len, uint8_t *out, size_t out_len, uint8_t *results,
                            size_t results_len);

/* The best C with the same checks in the same order and the same answers. */
pack_call c_pack;
unpack_call c_unpack;
volume_call c_check_volume;
set_call c_check_set;
decode_call c_decode;
page_call c_fetch_page;
write_call c_write_nucleotides;

/* C that checks nothing. */
pack_call unchecked_pack;
unpack_call unchecked_unpack;

/* The set check packet by packet and byte by byte: the reference of earlier benchmarks. */
set_call plain_check_set;

/* Of an earlier build of the library; absent unless `make bench` is given one. */
__attribute__((weak)) decode_call before_decode;
__attribute__((weak)) set_call before_check_set;

/* Nucleotides written code by code. */
write_call plain_write_nucleotides;

#endif
