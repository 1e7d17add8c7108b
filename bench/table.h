/* The printed lines, and the table over all sizes that README's is taken from. */
#ifndef BENCH_TABLE_H
#define BENCH_TABLE_H

#include <stddef.h>

/* The library's speed in GB/s, and its ratios: to the best C (by best turns, by medians), to the second reference (0 for none), and to
 * memcpy. */
struct figures {
    double speed, best, median, other, copy;
};

/* Prints a line, and keeps it for the table. */
void add_row(const char *name, size_t bytes, struct figures f);

/* The same for the nanoseconds that one call takes: of the library, of the best C, of unchecked C. */
void add_call(const char *name, const double nanoseconds[3]);

/* Prints a row for each name: the range of each figure over its sizes; then the calls. */
void print_table(void);

#endif
