/* gullcheck: checks BLAST version 4 volumes, one line for each. */
#include "check.h"

#include <string.h>

#define MOST_JOBS 256

static const char *const help[] = {
    "usage: gullcheck [--json] [--quiet] [-j N] [--files-from FILE] [--] NAME..\n",
    "\n"
    "Checks BLAST version 4 volumes. Index and sequence file of each are read whole, of the header file the length alone, and held\n"
    "against every rule of the format; one line tells what the volume is, or the number and meaning of the first rule that it\n"
    "breaks.\n"
    "\n"
    "Names:\n"
    "  a directory  every .pin and .nin below it, sorted; links to directories are not followed\n"
    "  a file       of a volume, by its ending (.pin .psq .phr .nin .nsq .nhr, or .p.. and .n.. beside an index): that volume\n"
    "  a base name  BASE.pin and BASE.nin, as far as they are there\n"
    "A volume is checked once, however often it is named. A name that stands for no volume is told, and the status is 2.\n"
    "\n"
    "Options:\n"
    "  --json             one JSON object a line: \"volume\", then \"answer\" 0 and what the volume is, or \"answer\", \"meaning\" and\n"
    "                     perhaps \"hint\", or \"file\" and \"error\"; a byte that is not printable ASCII is \\u00NN, so that\n"
    "                     the characters of a string are the bytes of the name or title\n"
    "  --quiet            no line for a volume that passed\n"
    "  -j N               checks N volumes side by side, 1 to 256; the lines keep the order of the names\n"
    "  --files-from FILE  names from a file, - for standard input: separated by NUL where it has one, else by line feed\n"
    "  --help             this text\n"
    "  --version          the version\n"
    "  --                 every word behind it is a name; before it options may stand between names\n"
    "\n",
    "Numbers:\n"
    "  1   the index ends too early: it was cut, or is still being written. Fetch or build the volume again\n"
    "  2   the version is not 4: another format, or no index at all. Build it with makeblastdb -blastdb_version 4\n"
    "  3   the type is neither 0 nor 1: the index is damaged. Fetch or build the volume again\n"
    "  4   a number is outside its range: the index is damaged. Fetch or build the volume again\n"
    "  5   the timestamp does not end at a multiple of 4: another tool wrote the index, or it is damaged. Build the volume again\n"
    "  6   bytes are left over: the index is damaged, or two files were joined. Fetch or build the volume again\n"
    "  7   offsets break their rules: the files are not of one build (one is stale, cut or still being copied), or the index is\n"
    "      damaged. Take the volume out of service and fetch all three files from one build. The hint names the file whose\n"
    "      length is not what the index states. A nucleotide volume with a lead byte, as makeblastdb writes it, is 7 as well;\n"
    "      where the hint says that it would pass without that byte, it is whole but not supported yet\n"
    "  8   a protein separator is not NUL: the sequence file is not the one that the index was made for. As for 7\n"
    "  9   the stated total or longest length is wrong: index and sequence file do not belong together. As for 7\n"
    "  22  a file is over 2,147,483,647 bytes, more than a volume can have. Build smaller volumes\n"
    "A hint in brackets (\"hint\" in JSON) says where to look; it is left out where nothing is certain.\n"
    "\n"
    "Exit status:\n"
    "  0  all passed\n"
    "  1  a volume was refused\n"
    "  2  a name stands for no volume, a file could not be read or changed while it was read, output failed, or wrong usage\n",
    NULL};

static const struct program gullcheck = {"gullcheck", help};

struct options {
    struct form form;
    unsigned jobs;
    const char *list;
};

/* The number of jobs that a word says, 0 where it says none. */
static unsigned jobs_of(const char *word)
{
    unsigned n = 0;
    for (const char *c = word; *c; c++) {
        if (*c < '0' || *c > '9' || n > MOST_JOBS)
            return 0;
        n = 10 * n + (unsigned)(*c - '0');
    }
    return n <= MOST_JOBS ? n : 0;
}

/* The value of an option: what stands behind `=` or, for -j, right behind it, or else the next word, which is then taken. */
static char *value_of(const char *option, char ***word)
{
    size_t len = strlen(option);
    if (strncmp(**word, option, len) != 0)
        return NULL;
    char *rest = **word + len;
    if (*rest == 0)
        return (*word)[1] ? *++*word : NULL;
    if (option[1] != '-')
        return rest;
    return *rest == '=' ? rest + 1 : NULL;
}

/* Takes one option; whether it is one. */
static int take_option(char ***word, struct options *o)
{
    char *value;
    if (strcmp(**word, "--json") == 0)
        o->form.json = 1;
    else if (strcmp(**word, "--quiet") == 0)
        o->form.quiet = 1;
    else if ((value = value_of("-j", word)) != NULL)
        return (o->jobs = jobs_of(value)) > 0;
    else if (!o->list && (value = value_of("--files-from", word)) != NULL)
        o->list = value;
    else
        return 0;
    return 1;
}

/* Takes the options out of the words, wherever they stand before `--`; the names are left, in their order. Returns -1, or the exit
 * status where the program ends with that. */
static int take_options(char **word, struct options *o)
{
    char **name = word;
    int ended = 0;
    for (; *word; word++) {
        char *option = *word;
        if (ended || option[0] != '-' || option[1] == 0) {
            *name++ = option;
            continue;
        }
        int told = gull_told(&gullcheck, option);
        if (told >= 0)
            return told;
        if (strcmp(option, "--") == 0)
            ended = 1;
        else if (!take_option(&word, o))
            return gull_misused(&gullcheck, "wrong or incomplete option", option);
    }
    *name = NULL;
    return -1;
}

int main(int argc, char **argv)
{
    struct options o = {{0, 0}, 1, NULL};
    char **name = argv + (argc > 0);
    int status = take_options(name, &o);
    if (status >= 0)
        return status;
    if (!*name && !o.list)
        return gull_misused(&gullcheck, NULL, NULL);
    struct tasks all = {0};
    if (o.list)
        tasks_add_list(&all, o.list);
    for (; *name; name++)
        tasks_add(&all, *name);
    tasks_once(&all);
    status = check_all(&gullcheck, o.form, &all, o.jobs);
    tasks_free(&all);
    return status;
}
