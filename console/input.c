/* Reading an input whole, up to the limit. */
#define _GNU_SOURCE
#include "gull.h"

#include <errno.h>
#include <stdlib.h>
#include <sys/stat.h>
#include <unistd.h>

/* One byte over the limit: more is never read. */
#define ENOUGH ((size_t)MOST_INPUT + 1)

/* The first room for an input whose size is not known. */
#define FIRST_ROOM ((size_t)1 << 16)

/* Reads until the end, or until the room is full: 1 at the end, 0 at a full room, -1 with errno set. */
static int fill(int fd, struct bytes *b, size_t room)
{
    while (b->len < room) {
        ssize_t got = read(fd, b->at + b->len, room - b->len);
        if (got < 0 && errno == EINTR)
            continue;
        if (got <= 0)
            return got == 0 ? 1 : -1;
        b->len += (size_t)got;
    }
    return 0;
}

/* Reads to the end, the room doubled whenever it is full. */
static int read_on(int fd, size_t room, struct bytes *b)
{
    b->len = 0;
    b->at = malloc(room);
    if (!b->at)
        return -1;
    for (;;) {
        int ended = fill(fd, b, room);
        if (ended < 0)
            return -1;
        if (b->len == ENOUGH)
            return GULL_TOO_LARGE;
        if (ended)
            return 0;
        room = room < ENOUGH / 2 ? 2 * room : ENOUGH;
        uint8_t *more = realloc(b->at, room);
        if (!more)
            return -1;
        b->at = more;
    }
}

/* The room to begin with: for a regular file what is left of it and a byte more; 0 where that is over the limit. */
static size_t first_room(int fd)
{
    struct stat s;
    size_t room = FIRST_ROOM < ENOUGH ? FIRST_ROOM : ENOUGH;
    if (fstat(fd, &s) != 0 || !S_ISREG(s.st_mode))
        return room;
    off_t at = lseek(fd, 0, SEEK_CUR);
    uint64_t left = at >= 0 && at < s.st_size ? (uint64_t)(s.st_size - at) : 0;
    if (left > MOST_INPUT)
        return 0;
    return left < room ? room : (size_t)left + 1;
}

int gull_read(int fd, struct bytes *out)
{
    *out = (struct bytes){0};
    size_t room = first_room(fd);
    int status = room == 0 ? GULL_TOO_LARGE : read_on(fd, room, out);
    if (status != 0) {
        int why = errno;
        gull_free(out);
        errno = why;
    }
    return status;
}

void gull_free(struct bytes *b)
{
    free(b->at);
    *b = (struct bytes){0};
}
