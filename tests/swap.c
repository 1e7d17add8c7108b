/* Linked into a copy of gullcheck for a test (-Wl,--wrap=open,--wrap=read): before call number N of open or of read the command in the variable
 * AT_OPEN_N or AT_READ_N is run, so that files change while a volume is read. */
#define _GNU_SOURCE
#include <stdio.h>
#include <stdlib.h>
#include <unistd.h>

int __real_open(const char *name, int flags);
ssize_t __real_read(int fd, void *at, size_t len);
int __wrap_open(const char *name, int flags);
ssize_t __wrap_read(int fd, void *at, size_t len);

static void happen(const char *call, int number)
{
    char name[64];
    snprintf(name, sizeof name, "AT_%s_%d", call, number);
    const char *command = getenv(name);
    if (command && system(command) != 0)
        abort();
}

int __wrap_open(const char *name, int flags)
{
    static int number;
    happen("OPEN", __sync_add_and_fetch(&number, 1));
    return __real_open(name, flags);
}

ssize_t __wrap_read(int fd, void *at, size_t len)
{
    static int number;
    happen("READ", __sync_add_and_fetch(&number, 1));
    return __real_read(fd, at, len);
}
