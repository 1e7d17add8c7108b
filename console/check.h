/* The parts of gullcheck: which volumes, their three files, a hint beside a refusal, the line of each, and checking side by side. */
#ifndef GULL_CHECK_H
#define GULL_CHECK_H

#include <sys/stat.h>

#include "gull.h"

/* A volume's three files, in the order index, sequence, header. */
enum { INDEX = 0, SEQUENCE = 1, HEADER = 2 };

/* A volume: the names of its files, what was seen of each before it was opened, and what they hold; of the header file only the length. */
struct volume {
    char *name[3];
    struct stat before[3];
    struct bytes file[3];
    int over; /* the file that is over the limit by its size, so that nothing was read; or -1 */
};

/* The files of the volume whose index has this name. */
void volume_name(struct volume *v, const char *index);

/* Looks at the three files, reads index and sequence file, and looks again. Returns NULL, or what went wrong with `*file`. */
const char *volume_read(struct volume *v, int *file);

void volume_free(struct volume *v);

/* What can be said for certain of where a refused volume breaks the rule; nothing where nothing is certain. */
void hint_add(struct text *hint, const struct volume *v, uint32_t answer);

/* What the names on the command line come to, in their order: a volume to check, by its index, or what is told instead. */
struct task {
    char *name;
    const char *wrong; /* NULL for a volume */
    size_t place;
};

struct tasks {
    struct task *at;
    size_t len, room;
};

/* Adds what a name stands for: a directory, a file of a volume, or a base name. */
void tasks_add(struct tasks *all, const char *name);

/* Adds what the names in a file stand for, `-` for standard input: separated by NUL where there is one, else by line feed. */
void tasks_add_list(struct tasks *all, const char *file);

/* Takes out every volume that is named a second time. */
void tasks_once(struct tasks *all);

void tasks_free(struct tasks *all);

/* How lines are written. */
struct form {
    int json, quiet;
};

/* The lines of one task, each with its line feed, and its exit status. */
struct outcome {
    struct text out, err;
    int status, done;
};

/* Checks a volume, or tells what is wrong. */
struct outcome check_task(struct form form, const struct task *task);

/* Checks all of them, `jobs` side by side. Each line is written in one piece as soon as those before it are; the highest status. */
int check_all(const struct program *p, struct form form, const struct tasks *all, unsigned jobs);

#endif
