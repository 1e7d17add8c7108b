/* What the programs share: answers, writing, help and usage. */
#define _GNU_SOURCE
#include "gull.h"

#include <errno.h>
#include <stdio.h>
#include <stdlib.h>
#include <string.h>
#include <unistd.h>

const char *gull_meaning(uint32_t number)
{
    switch (number) {
    case GULL_OK: return "passed";
    case GULL_TOO_SHORT: return "a field, table or file ends too early, or packets are not a multiple of 4 bytes";
    case GULL_WRONG_VERSION: return "the volume's version is not 4";
    case GULL_WRONG_KIND: return "the volume's type is not 0 or 1, or the alphabet is not 1, 2 or 3";
    case GULL_OUT_OF_RANGE: return "a stated number is outside its range";
    case GULL_MISALIGNED: return "the timestamp does not end at a multiple of 4";
    case GULL_LEFTOVER: return "bytes are left over in the index";
    case GULL_BAD_OFFSETS: return "offsets break their rules";
    case GULL_BAD_SEPARATOR: return "a protein separator is not NUL";
    case GULL_WRONG_TOTALS: return "the stated total or longest length is wrong";
    case GULL_NO_ROOM: return "the output has no room";
    case GULL_BAD_RUN: return "the packets are not a well-formed run";
    case GULL_BAD_CODE: return "a residue code is not valid";
    case GULL_TOO_LARGE: return "an input is over 2,147,483,647 bytes";
    default: return "unknown answer";
    }
}

uint64_t gull_result(const uint8_t *results, size_t k)
{
    uint64_t n = 0;
    for (int i = 7; i >= 0; i--)
        n = n << 8 | results[8 * k + (size_t)i];
    return n;
}

void *gull_memory(void *at, size_t len)
{
    void *more = realloc(at, len ? len : 1);
    if (!more) {
        dprintf(STDERR_FILENO, "%s: no memory\n", program_invocation_short_name);
        _exit(EXIT_TROUBLE);
    }
    return more;
}

int gull_write(int fd, const void *at, size_t len)
{
    const char *from = at;
    while (len > 0) {
        ssize_t done = write(fd, from, len);
        if (done < 0 && errno == EINTR)
            continue;
        if (done < 0)
            return -1;
        from += done;
        len -= (size_t)done;
    }
    return 0;
}

/* A line on standard error. Where that cannot be written either, the exit status alone tells. */
static void complain(struct text *t)
{
    gull_write(STDERR_FILENO, t->at, t->len);
    text_free(t);
}

int gull_unwritten(const struct program *p)
{
    struct text t = {0};
    text_format(&t, "%s: standard output could not be written: %s\n", p->name, strerror(errno));
    complain(&t);
    return EXIT_TROUBLE;
}

int gull_told(const struct program *p, const char *word)
{
    struct text t = {0};
    if (strcmp(word, "--version") == 0)
        text_format(&t, "%s %s\n", p->name, GULL_VERSION);
    else if (strcmp(word, "--help") == 0 || strcmp(word, "-h") == 0)
        for (const char *const *part = p->help; *part; part++)
            text_add(&t, *part);
    else
        return -1;
    int status = gull_write(STDOUT_FILENO, t.at, t.len) == 0 ? EXIT_PASSED : gull_unwritten(p);
    text_free(&t);
    return status;
}

int gull_misused(const struct program *p, const char *what, const char *word)
{
    struct text t = {0};
    if (what) {
        text_format(&t, "%s: %s ", p->name, what);
        text_name(&t, word);
        text_add(&t, "\n");
    }
    text_add(&t, p->help[0]);
    text_format(&t, "%s --help tells more.\n", p->name);
    complain(&t);
    return EXIT_TROUBLE;
}
