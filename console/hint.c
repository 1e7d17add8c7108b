/* Where a refused volume should be looked at. A hint stands beside the library's answer and never changes it. */
#include "check.h"

#include <stdlib.h>
#include <string.h>

/* The offset tables of an index, each of count + 1 big-endian numbers; no ambiguity offsets for protein. */
struct tables {
    int64_t count;
    const uint8_t *headers, *sequences, *ambiguities;
};

/* The signed big-endian four-byte number at a place. */
static int64_t number(const uint8_t *at)
{
    uint32_t n = (uint32_t)at[0] << 24 | (uint32_t)at[1] << 16 | (uint32_t)at[2] << 8 | at[3];
    return n < 0x80000000u ? (int64_t)n : (int64_t)n - 0x100000000;
}

/* Finds the tables; 0 where the index has not just the bytes that it states. */
static int find_tables(const struct bytes *index, struct tables *t)
{
    const uint8_t *at = index->at;
    int64_t len = (int64_t)index->len;
    if (len < 32)
        return 0;
    int64_t dna = number(at + 4) == 0, title = number(at + 8);
    if (title < 0 || title > len - 32)
        return 0;
    int64_t stamp = number(at + 12 + title);
    if (stamp < 0 || stamp > len - 32 - title)
        return 0;
    int64_t start = 32 + title + stamp;
    t->count = number(at + start - 16);
    if (t->count < 0 || len - start != (dna ? 12 : 8) * (t->count + 1))
        return 0;
    t->headers = at + start;
    t->sequences = t->headers + 4 * (t->count + 1);
    t->ambiguities = dna ? t->sequences + 4 * (t->count + 1) : NULL;
    return 1;
}

static void say(struct text *hint, const char *words)
{
    if (hint->len > 0)
        text_add(hint, "; ");
    text_add(hint, words);
}

/* A file that is not as long as the last offset says. */
static void say_length(struct text *hint, const char *file, int64_t stated, size_t len)
{
    if (stated < 0 || (uint64_t)stated == len)
        return;
    say(hint, "the index states ");
    text_format(hint, "%lld bytes for the %s file, it has %llu", (long long)stated, file, (unsigned long long)len);
}

/* The index as it would be without the lead byte: each sequence and ambiguity offset one less. NULL where that cannot be. */
static uint8_t *without_lead(const struct bytes *index, const struct tables *t)
{
    uint8_t *copy = malloc(index->len);
    if (!copy)
        return NULL;
    memcpy(copy, index->at, index->len);
    for (uint8_t *at = copy + (t->sequences - index->at); at < copy + index->len; at += 4) {
        int64_t n = number(at) - 1;
        if (n < 0) {
            free(copy);
            return NULL;
        }
        for (int i = 0; i < 4; i++)
            at[i] = (uint8_t)(n >> (24 - 8 * i));
    }
    return copy;
}

/* A nucleotide volume with a lead byte: the library is asked what it would answer without that byte. */
static void say_lead(struct text *hint, const struct volume *v, const struct tables *t)
{
    const struct bytes *index = &v->file[INDEX], *sequence = &v->file[SEQUENCE], *header = &v->file[HEADER];
    if (!t->ambiguities || number(t->sequences) != 1 || sequence->len == 0 || sequence->at[0] != 0)
        return;
    say(hint, "the sequence file begins with a lead byte");
    uint8_t results[GULL_CHECK_VOLUME_RESULTS], *copy = without_lead(index, t);
    if (!copy)
        return;
    uint32_t answer = gull_check_volume(copy, index->len, sequence->at + 1, sequence->len - 1, header->at, header->len, results,
                                        sizeof results);
    free(copy);
    if (answer == GULL_OK)
        text_add(hint, ", without it the volume would pass");
    else
        text_format(hint, ", without it the volume would be refused %u", answer);
}

static void say_offsets(struct text *hint, const struct volume *v)
{
    struct tables t;
    if (!find_tables(&v->file[INDEX], &t))
        return;
    int64_t last = 4 * t.count, end = number(t.sequences + last);
    say_length(hint, "header", number(t.headers + last), v->file[HEADER].len);
    if (!t.ambiguities || number(t.ambiguities + last) == end)
        say_length(hint, "sequence", end, v->file[SEQUENCE].len);
    say_lead(hint, v, &t);
}

void hint_add(struct text *hint, const struct volume *v, uint32_t answer)
{
    if (answer >= GULL_TOO_SHORT && answer <= GULL_LEFTOVER)
        say(hint, "in the index");
    else if (answer == GULL_BAD_OFFSETS)
        say_offsets(hint, v);
    else if (answer == GULL_TOO_LARGE && v->over >= 0) {
        static const char *const files[] = {"index", "sequence file", "header file"};
        say(hint, "the ");
        text_format(hint, "%s has %llu", files[v->over], (unsigned long long)v->before[v->over].st_size);
    }
}
