/* Volumes checked side by side, their lines in the order given. */
#define _GNU_SOURCE
#include "check.h"

#include <errno.h>
#include <pthread.h>
#include <stdlib.h>
#include <string.h>
#include <unistd.h>

/* What the threads share; all of it but the first part is used under the lock. */
struct jobs {
    const struct tasks *all;
    struct form form;
    int progress;
    pthread_mutex_t lock;
    struct outcome *outcomes;
    size_t next, written;
    int status, shown, why; /* why: errno of the first failed write, after which no task is begun */
};

/* Takes the line of progress away, before anything else is written. */
static void clear_progress(struct jobs *j)
{
    if (j->shown)
        gull_write(STDERR_FILENO, "\r\033[K", 4);
    j->shown = 0;
}

static void show_progress(struct jobs *j, size_t k)
{
    struct text t = {0};
    if (!j->progress)
        return;
    text_format(&t, "\r\033[Kgullcheck: %zu of %zu: ", k + 1, j->all->len);
    text_name(&t, j->all->at[k].name);
    gull_write(STDERR_FILENO, t.at, t.len);
    text_free(&t);
    j->shown = 1;
}

/* Writes every outcome that is ready and has none before it to wait for. */
static void write_ready(struct jobs *j)
{
    for (; j->written < j->all->len && j->outcomes[j->written].done; j->written++) {
        struct outcome *o = &j->outcomes[j->written];
        if (o->out.len + o->err.len > 0)
            clear_progress(j);
        if (!j->why && gull_write(STDOUT_FILENO, o->out.at, o->out.len) != 0)
            j->why = errno;
        gull_write(STDERR_FILENO, o->err.at, o->err.len);
        j->status = o->status > j->status ? o->status : j->status;
        text_free(&o->out);
        text_free(&o->err);
    }
}

/* One thread: takes the next task until none is left. */
static void *work(void *shared)
{
    struct jobs *j = shared;
    pthread_mutex_lock(&j->lock);
    while (j->next < j->all->len && !j->why) {
        size_t k = j->next++;
        show_progress(j, k);
        pthread_mutex_unlock(&j->lock);
        struct outcome o = check_task(j->form, &j->all->at[k]);
        pthread_mutex_lock(&j->lock);
        o.done = 1;
        j->outcomes[k] = o;
        write_ready(j);
    }
    pthread_mutex_unlock(&j->lock);
    return NULL;
}

/* Works in this thread and in as many others as can be had, up to one less than `jobs`. */
static void work_together(struct jobs *j, unsigned jobs)
{
    pthread_t *others = gull_memory(NULL, jobs * sizeof *others);
    unsigned begun = 0;
    while (begun + 1 < jobs && begun + 1 < j->all->len && pthread_create(&others[begun], NULL, work, j) == 0)
        begun++;
    work(j);
    for (unsigned k = 0; k < begun; k++)
        pthread_join(others[k], NULL);
    free(others);
}

int check_all(const struct program *p, struct form form, const struct tasks *all, unsigned jobs)
{
    struct jobs j = {.all = all, .form = form, .progress = all->len > 1 && isatty(STDERR_FILENO), .status = EXIT_PASSED};
    j.outcomes = gull_memory(NULL, all->len * sizeof *j.outcomes);
    memset(j.outcomes, 0, all->len * sizeof *j.outcomes);
    pthread_mutex_init(&j.lock, NULL);
    work_together(&j, jobs);
    clear_progress(&j);
    pthread_mutex_destroy(&j.lock);
    free(j.outcomes);
    if (j.why) {
        errno = j.why;
        return gull_unwritten(p);
    }
    return j.status;
}
