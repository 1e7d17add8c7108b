/* The printed lines, and the table over all sizes that README's is taken from. */
#include "table.h"

#include <stdio.h>
#include <string.h>

#include "measure.h"

#define MOST_ROWS 64

struct range {
    double low, high;
};

struct row {
    char name[64];
    struct range speed, best, other, copy;
};

struct call {
    char name[64];
    double nanoseconds[3];
};

static struct row rows[MOST_ROWS];
static struct call calls[MOST_ROWS];
static int row_count, call_count;

void print_head(const char *title, const char *other)
{
    printf("\n%s\n%-40s %8s %8s %8s %9s %12s %8s\n", title, "", "MB", "GB/s", "best C", "(median)", other, "memcpy");
}

static void widen(struct range *r, double value)
{
    r->low = r->low == 0 || value < r->low ? value : r->low;
    r->high = value > r->high ? value : r->high;
}

static struct row *row_of(const char *name)
{
    for (int i = 0; i < row_count; i++)
        if (strcmp(rows[i].name, name) == 0)
            return &rows[i];
    must(row_count < MOST_ROWS, "a row of the table");
    snprintf(rows[row_count].name, sizeof rows->name, "%s", name);
    return &rows[row_count++];
}

void add_row(const char *name, size_t bytes, struct figures f)
{
    struct row *row = row_of(name);
    widen(&row->speed, f.speed);
    widen(&row->best, f.best);
    widen(&row->other, f.other);
    widen(&row->copy, f.copy);
    printf("%-40s %8.2f %8.2f %8.2f %9.2f", name, (double)bytes / 1e6, f.speed, f.best, f.median);
    if (f.other > 0)
        printf(" %12.2f", f.other);
    else
        printf(" %12s", "");
    printf(" %8.2f\n", f.copy);
    fflush(stdout);
}

void add_call(const char *name, const double nanoseconds[3])
{
    must(call_count < MOST_ROWS, "a row of the table");
    struct call *call = &calls[call_count++];
    snprintf(call->name, sizeof call->name, "%s", name);
    memcpy(call->nanoseconds, nanoseconds, sizeof call->nanoseconds);
    printf("%-40s the library %6.1f ns   the best C %6.1f ns   unchecked C %6.1f ns\n", name, nanoseconds[0], nanoseconds[1],
           nanoseconds[2]);
    fflush(stdout);
}

void print_table(void)
{
    printf("\n| call | speed, GB/s | of the best C | of unchecked C; decoding: of before; page: of single calls; writing, set check: of plain C, or of what it is beside | of memcpy |\n"
           "|---|---|---|---|---|\n");
    for (int i = 0; i < row_count; i++) {
        struct row *r = &rows[i];
        printf("| %s | %.1f to %.1f | %.2f to %.2f | ", r->name, r->speed.low, r->speed.high, r->best.low, r->best.high);
        if (r->other.high > 0)
            printf("%.2f to %.2f", r->other.low, r->other.high);
        printf(" | %.2f to %.2f |\n", r->copy.low, r->copy.high);
    }
    printf("\n| one call | the library | the best C | unchecked C |\n|---|---|---|---|\n");
    for (int i = 0; i < call_count; i++)
        printf("| %s | %.1f ns | %.1f ns | %.1f ns |\n", calls[i].name, calls[i].nanoseconds[0], calls[i].nanoseconds[1],
               calls[i].nanoseconds[2]);
}
