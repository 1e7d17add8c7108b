/* Which volumes the names on the command line stand for. */
#define _GNU_SOURCE
#include "check.h"

#include <dirent.h>
#include <errno.h>
#include <fcntl.h>
#include <stdlib.h>
#include <string.h>
#include <unistd.h>

/* A name with an ending, in memory of its own. */
static char *joined(const char *name, size_t len, const char *ending)
{
    size_t more = strlen(ending);
    char *copy = gull_memory(NULL, len + more + 1);
    memcpy(copy, name, len);
    memcpy(copy + len, ending, more + 1);
    return copy;
}

/* Adds a task whose name is `len` bytes of a name and an ending. */
static void add(struct tasks *all, const char *name, size_t len, const char *ending, const char *wrong)
{
    if (all->len == all->room) {
        all->room = 2 * all->room + 16;
        all->at = gull_memory(all->at, all->room * sizeof *all->at);
    }
    all->at[all->len] = (struct task){joined(name, len, ending), wrong, all->len};
    all->len++;
}

static void add_trouble(struct tasks *all, const char *name, const char *wrong)
{
    add(all, name, strlen(name), "", wrong);
}

/* By name, volumes before what is told, then in the order given. */
static int by_name(const void *a, const void *b)
{
    const struct task *x = a, *y = b;
    int order = strcmp(x->name, y->name), told = (x->wrong != NULL) - (y->wrong != NULL);
    return order != 0 ? order : told != 0 ? told : (x->place > y->place) - (x->place < y->place);
}

static int by_place(const void *a, const void *b)
{
    const struct task *x = a, *y = b;
    return (x->place > y->place) - (x->place < y->place);
}

static void sort(struct tasks *all, int (*order)(const void *, const void *))
{
    if (all->len > 0)
        qsort(all->at, all->len, sizeof *all->at, order);
}

/* ---- a directory */

static int is_volume(const char *name)
{
    size_t len = strlen(name);
    return len >= 4 && (strcmp(name + len - 4, ".pin") == 0 || strcmp(name + len - 4, ".nin") == 0);
}

/* Whether an entry is a directory itself; a link to one is not. */
static int is_directory(const char *path, const struct dirent *entry)
{
    struct stat s;
    if (entry->d_type != DT_UNKNOWN)
        return entry->d_type == DT_DIR;
    return lstat(path, &s) == 0 && S_ISDIR(s.st_mode);
}

/* Adds the entry of a directory to the volumes found or to the directories still to be read. */
static void add_entry(const char *folder, const struct dirent *entry, struct tasks *found, struct tasks *left)
{
    size_t len = strlen(folder);
    char *start = joined(folder, len, len > 0 && folder[len - 1] == '/' ? "" : "/");
    char *path = joined(start, strlen(start), entry->d_name);
    if (is_directory(path, entry))
        add(left, path, strlen(path), "", NULL);
    else if (is_volume(entry->d_name))
        add(found, path, strlen(path), "", NULL);
    free(path);
    free(start);
}

static void read_directory(const char *folder, struct tasks *found, struct tasks *left)
{
    DIR *all = opendir(folder);
    if (!all) {
        add_trouble(found, folder, strerror(errno));
        return;
    }
    const struct dirent *entry;
    while (errno = 0, (entry = readdir(all)) != NULL)
        if (strcmp(entry->d_name, ".") != 0 && strcmp(entry->d_name, "..") != 0)
            add_entry(folder, entry, found, left);
    if (errno != 0)
        add_trouble(found, folder, strerror(errno));
    closedir(all);
}

/* Adds every volume below a directory, sorted; how many there are, with what is told. */
static size_t add_directory(struct tasks *all, const char *folder)
{
    struct tasks found = {0}, left = {0};
    add(&left, folder, strlen(folder), "", NULL);
    while (left.len > 0) {
        char *next = left.at[--left.len].name;
        read_directory(next, &found, &left);
        free(next);
    }
    sort(&found, by_name);
    size_t count = found.len;
    for (size_t k = 0; k < count; k++)
        add(all, found.at[k].name, strlen(found.at[k].name), "", found.at[k].wrong);
    tasks_free(&found);
    tasks_free(&left);
    return count;
}

/* ---- other names */

/* The ending of the index where a name is that of a volume's file, else NULL. */
static const char *index_ending(const char *name)
{
    static const char *const endings[][2] = {{".pin", ".pin"}, {".psq", ".pin"}, {".phr", ".pin"},
                                             {".nin", ".nin"}, {".nsq", ".nin"}, {".nhr", ".nin"}};
    size_t len = strlen(name);
    for (size_t k = 0; len >= 4 && k < sizeof endings / sizeof *endings; k++)
        if (strcmp(name + len - 4, endings[k][0]) == 0)
            return endings[k][1];
    return NULL;
}

/* Whether a base name has this index, be it only a link: 1, 0, or -1 with errno set where that cannot be told. */
static int has_index(const char *base, const char *ending)
{
    struct stat s;
    char *name = joined(base, strlen(base), ending);
    int found = lstat(name, &s) == 0 ? 1 : errno == ENOENT ? 0 : -1, why = errno;
    free(name);
    errno = why;
    return found;
}

/* Adds the volumes of a base name; whether there was anything to add. */
static int add_base(struct tasks *all, const char *base)
{
    static const char *const endings[] = {".pin", ".nin"};
    int found = 0, untold = 1;
    for (int k = 0; k < 2; k++) {
        int there = has_index(base, endings[k]);
        if (there > 0)
            add(all, base, strlen(base), endings[k], NULL);
        else if (there < 0 && untold)
            untold = 0, add_trouble(all, base, strerror(errno));
        found |= there != 0;
    }
    return found;
}

/* Adds the volume beside which a file of another ending stands, as BASE.psd beside BASE.pin; whether there is one. */
static int add_beside(struct tasks *all, const char *name)
{
    size_t len = strlen(name);
    if (len < 5 || name[len - 4] != '.' || !strchr("pn", name[len - 3]))
        return 0;
    const char *ending = name[len - 3] == 'p' ? ".pin" : ".nin";
    char *base = joined(name, len - 4, "");
    int there = has_index(base, ending) > 0;
    if (there)
        add(all, base, len - 4, ending, NULL);
    free(base);
    return there;
}

/* Why a name stands for no volume. */
static const char *why_none(const char *name)
{
    struct stat s;
    if (*name == 0)
        return "an empty name";
    if (stat(name, &s) == 0)
        return S_ISDIR(s.st_mode) ? "no volume is below this directory, neither .pin nor .nin" : "there is no index, neither .pin nor .nin";
    if (errno != ENOENT)
        return strerror(errno);
    return lstat(name, &s) == 0 ? "a link to a file that is not there" : "there is no index, neither .pin nor .nin";
}

void tasks_add(struct tasks *all, const char *name)
{
    struct stat s;
    int folder = stat(name, &s) == 0 && S_ISDIR(s.st_mode);
    const char *ending = folder ? NULL : index_ending(name);
    if (ending) {
        add(all, name, strlen(name) - 4, ending, NULL);
        return;
    }
    int found = *name != 0 && add_base(all, name);
    if (folder && add_directory(all, name) > 0)
        found = 1;
    if (!found && !folder)
        found = add_beside(all, name);
    if (!found)
        add_trouble(all, name, why_none(name));
}

/* ---- lists of names */

/* Reads the list; NULL, or what went wrong. */
static const char *read_list(const char *file, struct bytes *list)
{
    int fd = strcmp(file, "-") == 0 ? STDIN_FILENO : open(file, O_RDONLY | O_CLOEXEC);
    if (fd < 0)
        return strerror(errno);
    int status = gull_read(fd, list);
    const char *wrong = status == 0 ? NULL : status < 0 ? strerror(errno) : "the list is too long";
    if (fd != STDIN_FILENO)
        close(fd);
    return wrong;
}

void tasks_add_list(struct tasks *all, const char *file)
{
    struct bytes list = {0};
    const char *wrong = read_list(file, &list);
    if (wrong) {
        add_trouble(all, file, wrong);
        return;
    }
    size_t before = all->len;
    int separator = list.len > 0 && memchr(list.at, 0, list.len) ? 0 : '\n';
    for (size_t at = 0, end; at < list.len; at = end + 1) {
        const uint8_t *stop = memchr(list.at + at, separator, list.len - at);
        end = stop ? (size_t)(stop - list.at) : list.len;
        char *name = joined((const char *)list.at + at, end - at, "");
        if (end > at)
            tasks_add(all, name);
        free(name);
    }
    if (all->len == before)
        add_trouble(all, file, "the list has no name");
    gull_free(&list);
}

void tasks_once(struct tasks *all)
{
    size_t kept = 0;
    sort(all, by_name);
    for (size_t k = 0; k < all->len; k++) {
        struct task *t = &all->at[k], *before = kept > 0 ? &all->at[kept - 1] : NULL;
        if (before && strcmp(before->name, t->name) == 0 && !before->wrong == !t->wrong)
            free(t->name);
        else
            all->at[kept++] = *t;
    }
    all->len = kept;
    sort(all, by_place);
}

void tasks_free(struct tasks *all)
{
    for (size_t k = 0; k < all->len; k++)
        free(all->at[k].name);
    free(all->at);
    *all = (struct tasks){0};
}
