/* Timing in turns, counting comparisons, and made-up inputs. */
#define _GNU_SOURCE
#include "measure.h"

#include <stdio.h>
#include <stdlib.h>
#include <string.h>
#include <time.h>

#include "table.h"

#define TURNS 9
#define VERSIONS 4
#define MOST_KINDS 64
#define LEAST_BYTES 8000000 /* a turn over less is repeated */

static double seconds(void)
{
    struct timespec t;
    clock_gettime(CLOCK_MONOTONIC, &t);
    return (double)t.tv_sec + 1e-9 * (double)t.tv_nsec;
}

static double timed(struct work w, size_t times)
{
    double began = seconds();
    for (size_t i = 0; i < times; i++)
        w.run(w.context);
    return (seconds() - began) / (double)times;
}

static int ascending(const void *a, const void *b)
{
    double x = *(const double *)a, y = *(const double *)b;
    return (x > y) - (x < y);
}

static double best_turn(double *values)
{
    qsort(values, TURNS, sizeof *values, ascending);
    return values[0];
}

static double median_turn(double *values)
{
    qsort(values, TURNS, sizeof *values, ascending);
    return values[TURNS / 2];
}

/* Seconds of each version in each turn. Whoever goes second finds the input in the cache, so each turn begins with another. */
static void take_turns(const struct work *works, size_t times, double taken[VERSIONS][TURNS])
{
    for (int turn = 0; turn < TURNS; turn++)
        for (int k = 0; k < VERSIONS; k++) {
            int which = (turn + k) % VERSIONS;
            taken[which][turn] = works[which].run ? timed(works[which], times) : 0;
        }
}

struct copy {
    uint8_t *to, *from;
    size_t bytes;
};

static void copy_once(void *context)
{
    struct copy *c = context;
    memcpy(c->to, c->from, c->bytes);
    __asm__ volatile("" : : "r"(c->to) : "memory");
}

void compare_times(const char *name, size_t bytes, struct versions v)
{
    struct copy copy = {touched(bytes), touched(bytes), bytes};
    struct work works[VERSIONS] = {v.ours, v.best, v.other, {copy_once, &copy}};
    double taken[VERSIONS][TURNS], ratio[VERSIONS];
    take_turns(works, bytes < LEAST_BYTES ? LEAST_BYTES / bytes : 1, taken);
    double ours = best_turn(taken[0]), median = median_turn(taken[1]) / median_turn(taken[0]);
    for (int k = 1; k < VERSIONS; k++)
        ratio[k] = best_turn(taken[k]) / ours;
    add_row(name, bytes, (struct figures){(double)bytes / 1e9 / ours, ratio[1], median, ratio[2], ratio[3]});
    free(copy.to);
    free(copy.from);
}

static void no_work(void *context)
{
    __asm__ volatile("" : : "r"(context) : "memory");
}

void compare_calls(const char *name, size_t calls, struct versions v)
{
    struct work works[VERSIONS] = {v.ours, v.best, v.other, {no_work, NULL}};
    double taken[VERSIONS][TURNS], each[3];
    take_turns(works, 1, taken);
    for (int k = 0; k < 3; k++)
        each[k] = 1e9 * best_turn(taken[k]) / (double)calls;
    add_call(name, each);
}

/* The comparisons of one kind. */
struct comparison {
    const char *what;
    int alike, different;
};

static struct comparison comparisons[MOST_KINDS];
static int comparison_count;

void agree(int same, const char *what)
{
    int k = 0;
    while (k < comparison_count && strcmp(comparisons[k].what, what) != 0)
        k++;
    must(k < MOST_KINDS, "a kind of comparison");
    if (k == comparison_count)
        comparisons[comparison_count++].what = what;
    comparisons[k].alike += same != 0;
    comparisons[k].different += same == 0;
}

int print_agreed(void)
{
    int passed = 0;
    for (int k = 0; k < comparison_count; k++) {
        printf("%s: %d alike, %d different\n", comparisons[k].what, comparisons[k].alike, comparisons[k].different);
        passed += comparisons[k].different == 0;
    }
    printf("%d passed, %d failed\n", passed, comparison_count - passed);
    fflush(stdout);
    return passed < comparison_count;
}

void must(int good, const char *what)
{
    if (good)
        return;
    printf("refused: %s\n", what);
    exit(1);
}

uint64_t next_random(uint64_t *state)
{
    uint64_t x = *state += 0x9e3779b97f4a7c15u;
    x = (x ^ x >> 30) * 0xbf58476d1ce4e5b9u;
    x = (x ^ x >> 27) * 0x94d049bb133111ebu;
    return x ^ x >> 31;
}

size_t protein_length(uint64_t *state)
{
    uint64_t r = next_random(state);
    size_t length = 30 + (r & 127) + (r >> 7 & 127) + (r >> 14 & 127) + (r >> 21 & 127);
    return r >> 28 & 15 ? length : length + (r >> 32) % 1980;
}

uint8_t *touched(size_t bytes)
{
    uint8_t *at = malloc(bytes + 1);
    must(at != NULL, "memory");
    memset(at, 1, bytes + 1);
    return at;
}
