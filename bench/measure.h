/* Timing versions of one piece of work and memcpy in turns, in one run; counting comparisons; made-up inputs. */
#ifndef BENCH_MEASURE_H
#define BENCH_MEASURE_H

#include <stddef.h>
#include <stdint.h>

/* One piece of work: `run` does it once; `context` is what it works on. */
struct work {
    void (*run)(void *context);
    void *context;
};

/* The versions of a row: the library, the best C with the same checks, and a second reference, which may be absent (no `run`). */
struct versions {
    struct work ours, best, other;
};

/* Times the versions and a memcpy of `bytes` bytes in turns and prints a line: the size, the library's speed, and its speed as a ratio to
 * each, by the best turn of each; for the best C also by medians. */
void compare_times(const char *name, size_t bytes, struct versions v);

/* Times work that makes so many calls: nanoseconds for a call of each version. */
void compare_calls(const char *name, size_t calls, struct versions v);

/* Prints what the columns of the lines below are; `other` says what the second reference is. */
void print_head(const char *title, const char *other);

/* Counts a comparison of a kind. */
void agree(int same, const char *what);

/* Prints how many comparisons of each kind came out alike, then `N passed, M failed` over the kinds; 1 where one failed. */
int print_agreed(void);

/* Stops the run where work that is timed is refused. */
void must(int good, const char *what);

/* A small deterministic generator of numbers. */
uint64_t next_random(uint64_t *state);

/* The length of a protein as databases have them: 350 on average, most from 100 to 500, one in sixteen longer, up to 2,500. */
size_t protein_length(uint64_t *state);

/* Memory that is touched before anything is timed. */
uint8_t *touched(size_t bytes);

#endif
