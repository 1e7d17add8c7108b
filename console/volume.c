/* A volume's three files: looked at, read, and looked at again, so that a file that others replace meanwhile gets no answer. Of the header
 * file the check asks the length alone, so it is opened and not read. */
#define _GNU_SOURCE
#include "check.h"

#include <errno.h>
#include <fcntl.h>
#include <string.h>
#include <stdlib.h>
#include <sys/mman.h>
#include <unistd.h>

static const char swapped[] = "the file was swapped while the volume was read";

void volume_name(struct volume *v, const char *index)
{
    static const char *const endings[] = {"in", "sq", "hr"};
    size_t len = strlen(index);
    *v = (struct volume){.over = -1};
    for (int k = 0; k < 3; k++) {
        v->name[k] = gull_memory(NULL, len + 1);
        memcpy(v->name[k], index, len + 1);
        memcpy(v->name[k] + len - 2, endings[k], 2);
    }
}

/* Two looks at a file saw the same one, unchanged. */
static int same(const struct stat *a, const struct stat *b)
{
    return a->st_dev == b->st_dev && a->st_ino == b->st_ino && a->st_size == b->st_size &&
           a->st_mtim.tv_sec == b->st_mtim.tv_sec && a->st_mtim.tv_nsec == b->st_mtim.tv_nsec &&
           a->st_ctim.tv_sec == b->st_ctim.tv_sec && a->st_ctim.tv_nsec == b->st_ctim.tv_nsec;
}

/* The look before a file is opened: NULL, or what is wrong with it. */
static const char *look(const char *name, struct stat *seen)
{
    struct stat link;
    if (stat(name, seen) != 0) {
        int why = errno;
        if (why == ENOENT && lstat(name, &link) == 0)
            return "a link to a file that is not there";
        return strerror(why);
    }
    return S_ISREG(seen->st_mode) ? NULL : "not a regular file";
}

/* A range of so many bytes that is really there and never filled: pages of zeros, which cost no memory while nobody reads them. */
static const char *reserve(struct bytes *b, size_t len)
{
    if (len == 0)
        return NULL;
    void *at = mmap(NULL, len, PROT_READ, MAP_PRIVATE | MAP_ANONYMOUS | MAP_NORESERVE, -1, 0);
    if (at == MAP_FAILED)
        return strerror(errno);
    *b = (struct bytes){at, len};
    return NULL;
}

/* Opens and reads file k, the header file only to know its length; NULL, or what went wrong. What is opened must be what was looked at. */
static const char *take(struct volume *v, int k)
{
    struct stat now;
    int fd = open(v->name[k], O_RDONLY | O_CLOEXEC | O_NOCTTY | O_NONBLOCK);
    if (fd < 0)
        return strerror(errno);
    const char *wrong = NULL;
    if (fstat(fd, &now) != 0)
        wrong = strerror(errno);
    else if (!same(&v->before[k], &now))
        wrong = swapped;
    else if (k == HEADER)
        wrong = reserve(&v->file[k], (size_t)now.st_size);
    else {
        int status = gull_read(fd, &v->file[k]);
        if (status != 0)
            wrong = status < 0 ? strerror(errno) : swapped;
    }
    close(fd);
    return wrong;
}

/* The look after all are read: the name still means the file that was read, as long as it was. */
static int is_unchanged(const struct volume *v, int k)
{
    struct stat now;
    return stat(v->name[k], &now) == 0 && same(&v->before[k], &now) && v->file[k].len == (size_t)now.st_size;
}

const char *volume_read(struct volume *v, int *file)
{
    const char *wrong;
    for (int k = 0; k < 3; k++)
        if ((wrong = look(v->name[k], &v->before[k])) != NULL)
            return *file = k, wrong;
    for (int k = 0; k < 3; k++)
        if ((uint64_t)v->before[k].st_size > MOST_INPUT)
            return v->over = k, NULL;
    for (int k = 0; k < 3; k++)
        if ((wrong = take(v, k)) != NULL)
            return *file = k, wrong;
    for (int k = 0; k < 3; k++)
        if (!is_unchanged(v, k))
            return *file = k, swapped;
    return NULL;
}

void volume_free(struct volume *v)
{
    for (int k = 0; k < 3; k++)
        free(v->name[k]);
    gull_free(&v->file[INDEX]);
    gull_free(&v->file[SEQUENCE]);
    if (v->file[HEADER].len > 0)
        munmap(v->file[HEADER].at, v->file[HEADER].len);
}
