/* What gullpack and gullunpack share: reading, one call of the library, writing. */
#include "convert.h"

#include <errno.h>
#include <stdlib.h>
#include <string.h>
#include <unistd.h>

struct request {
    int64_t alphabet; /* -1 while there is none */
    int letters;
};

/* The alphabet that a word names: 1, 2, 3, rna, dna, amino. Another number is handed on as it is; any other word is -1. */
static int64_t alphabet_of(const char *word)
{
    static const char *const names[] = {"rna", "dna", "amino"};
    for (int i = 0; i < 3; i++)
        if (strcmp(word, names[i]) == 0)
            return i + 1;
    char *end;
    errno = 0;
    unsigned long n = strtoul(word, &end, 10);
    if (*word < '0' || *word > '9' || *end || errno || n > UINT32_MAX)
        return -1;
    return (int64_t)n;
}

/* Tells a refusal on standard error, with the letter that caused it. */
static int refused(const struct conversion *c, uint32_t answer, struct unknown unknown)
{
    struct text t = {0};
    text_format(&t, "%s: refused %u: %s", c->program.name, answer, gull_meaning(answer));
    if (answer == GULL_BAD_CODE && unknown.line > 0) {
        text_add(&t, " (");
        text_quote(&t, &unknown.letter, 1, 0);
        text_format(&t, " at line %llu, column %llu is no residue)", (unsigned long long)unknown.line, (unsigned long long)unknown.column);
    }
    text_add(&t, "\n");
    gull_write(STDERR_FILENO, t.at, t.len);
    text_free(&t);
    return EXIT_REFUSED;
}

/* Calls the library on the input and writes what it gives; letters end in a line feed. */
static int converted(const struct conversion *c, const struct request *r, struct bytes *input)
{
    uint32_t alphabet = (uint32_t)r->alphabet;
    struct unknown unknown = {0, 0, 0};
    if (r->letters && c->packs)
        unknown = letters_to_codes(alphabet, input);
    size_t room = c->room(input->len);
    uint8_t results[16], *output = gull_memory(NULL, room + 1);
    uint32_t answer = c->call(alphabet, input, output, room, results);
    int status = EXIT_PASSED;
    if (answer != GULL_OK) {
        status = refused(c, answer, unknown);
    } else {
        size_t len = c->length(results);
        if (r->letters && !c->packs) {
            codes_to_letters(alphabet, output, len);
            output[len++] = '\n';
        }
        if (gull_write(STDOUT_FILENO, output, len) != 0)
            status = gull_unwritten(&c->program);
    }
    free(output);
    return status;
}

static int read_and_convert(const struct conversion *c, const struct request *r)
{
    struct bytes input;
    int status = gull_read(STDIN_FILENO, &input);
    if (status > 0)
        return refused(c, GULL_TOO_LARGE, (struct unknown){0, 0, 0});
    if (status < 0) {
        struct text t = {0};
        text_format(&t, "%s: standard input could not be read: %s\n", c->program.name, strerror(errno));
        gull_write(STDERR_FILENO, t.at, t.len);
        text_free(&t);
        return EXIT_TROUBLE;
    }
    status = converted(c, r, &input);
    gull_free(&input);
    return status;
}

int gull_convert(const struct conversion *c, char **word)
{
    struct request r = {-1, 0};
    int options = 1;
    for (; *word; word++) {
        int told = options ? gull_told(&c->program, *word) : -1;
        if (told >= 0)
            return told;
        if (options && strcmp(*word, "--letters") == 0)
            r.letters = 1;
        else if (options && strcmp(*word, "--") == 0)
            options = 0;
        else if (r.alphabet >= 0 || (r.alphabet = alphabet_of(*word)) < 0)
            return gull_misused(&c->program, "wrong word", *word);
    }
    if (r.alphabet < 0)
        return gull_misused(&c->program, NULL, NULL);
    return read_and_convert(c, &r);
}
