/* The benchmarks: for each call, the comparison of all versions and the rows that are timed, over a size. */
#ifndef BENCH_H
#define BENCH_H

#include <stddef.h>

void compare_runs(void);
void compare_volumes(void);
void compare_sequences(void);
void compare_pages(void);
void compare_nucleotides(void);
void compare_sets(void);

void time_runs(size_t residues);
void time_calls(void);
void time_volumes(size_t sequences);
void time_sequences(size_t residues);
void time_short_sequences(void);
void time_pages(void);
void time_nucleotides(size_t residues);
void time_sets(size_t bytes);
void time_orders(size_t bytes);
void time_sets_before(size_t bytes);

#endif
