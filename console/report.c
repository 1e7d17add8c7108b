/* The line of each volume, plain or as JSON. */
#include "check.h"

#include <stdlib.h>
#include <string.h>

static void json_text(struct text *t, const char *key, const char *value)
{
    text_format(t, "%s\"%s\":", t->len == 0 ? "{" : ",", key);
    text_quote(t, value, strlen(value), 1);
}

/* A task that got no answer: told on standard error, and as JSON on standard output too. */
static void tell_trouble(struct outcome *o, struct form form, const char *volume, const char *file, const char *what)
{
    if (form.json) {
        json_text(&o->out, "volume", volume);
        json_text(&o->out, "file", file);
        json_text(&o->out, "error", what);
        text_add(&o->out, "}\n");
    }
    text_add(&o->err, "gullcheck: ");
    text_name(&o->err, volume);
    if (strcmp(volume, file) != 0) {
        text_add(&o->err, ": ");
        text_name(&o->err, file);
    }
    text_format(&o->err, ": %s\n", what);
    o->status = EXIT_TROUBLE;
}

static void tell_passed(struct outcome *o, struct form form, const struct volume *v, const uint8_t *results)
{
    const uint8_t *index = v->file[INDEX].at;
    unsigned long long r[8];
    for (size_t k = 0; k < 8; k++)
        r[k] = gull_result(results, k);
    const char *type = r[0] == 1 ? "protein" : "dna";
    if (form.json) {
        json_text(&o->out, "volume", v->name[INDEX]);
        text_format(&o->out, ",\"answer\":0,\"type\":\"%s\",\"sequences\":%llu,\"residues\":%llu,\"longest\":%llu,\"title\":", type,
                    r[1], r[2], r[3]);
    } else {
        text_name(&o->out, v->name[INDEX]);
        text_format(&o->out, ": passed: %s, %llu sequences, %llu residues, longest %llu, title ", type, r[1], r[2], r[3]);
    }
    text_quote(&o->out, index + r[4], (size_t)r[5], form.json);
    text_add(&o->out, form.json ? ",\"timestamp\":" : ", timestamp ");
    text_quote(&o->out, index + r[6], (size_t)r[7], form.json);
    text_add(&o->out, form.json ? "}\n" : "\n");
}

static void tell_refused(struct outcome *o, struct form form, const struct volume *v, uint32_t answer)
{
    struct text hint = {0};
    hint_add(&hint, v, answer);
    if (form.json) {
        json_text(&o->out, "volume", v->name[INDEX]);
        text_format(&o->out, ",\"answer\":%u", answer);
        json_text(&o->out, "meaning", gull_meaning(answer));
        if (hint.len > 0)
            json_text(&o->out, "hint", hint.at);
        text_add(&o->out, "}\n");
    } else {
        text_name(&o->out, v->name[INDEX]);
        text_format(&o->out, ": refused %u: %s", answer, gull_meaning(answer));
        if (hint.len > 0)
            text_format(&o->out, " (%s)", hint.at);
        text_add(&o->out, "\n");
    }
    text_free(&hint);
    o->status = EXIT_REFUSED;
}

/* Number 22 is first in every call, so a file over the limit is answered by its size alone. */
static uint32_t answer_of(const struct volume *v, uint8_t *results)
{
    const struct bytes *f = v->file;
    if (v->over >= 0)
        return GULL_TOO_LARGE;
    return gull_check_volume(f[INDEX].at, f[INDEX].len, f[SEQUENCE].at, f[SEQUENCE].len, f[HEADER].at, f[HEADER].len, results,
                             GULL_CHECK_VOLUME_RESULTS);
}

static void check_volume(struct outcome *o, struct form form, const struct task *task)
{
    struct volume v;
    volume_name(&v, task->name);
    int file = INDEX;
    const char *wrong = volume_read(&v, &file);
    if (wrong) {
        tell_trouble(o, form, task->name, v.name[file], wrong);
    } else {
        uint8_t results[GULL_CHECK_VOLUME_RESULTS];
        uint32_t answer = answer_of(&v, results);
        if (answer != GULL_OK)
            tell_refused(o, form, &v, answer);
        else if (!form.quiet)
            tell_passed(o, form, &v, results);
    }
    volume_free(&v);
}

struct outcome check_task(struct form form, const struct task *task)
{
    struct outcome o = {.status = EXIT_PASSED};
    if (task->wrong)
        tell_trouble(&o, form, task->name, task->name, task->wrong);
    else
        check_volume(&o, form, task);
    if (o.out.failed || o.err.failed) {
        text_free(&o.out);
        text_free(&o.err);
        tell_trouble(&o, form, task->name, task->name, "no memory for its line");
    }
    return o;
}
