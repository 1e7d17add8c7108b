/* Text that grows, and bytes and names as text that a terminal and a parser can trust. */
#include "gull.h"

#include <stdarg.h>
#include <stdio.h>
#include <stdlib.h>
#include <string.h>

/* Room for so many bytes more, and a NUL behind them; whether there is. */
static int has_room(struct text *t, size_t more)
{
    if (t->failed || t->room - t->len > more)
        return !t->failed;
    size_t room = 2 * t->room + more + 64;
    char *at = realloc(t->at, room);
    if (!at) {
        t->failed = 1;
        return 0;
    }
    t->at = at;
    t->room = room;
    return 1;
}

void text_add_bytes(struct text *t, const void *at, size_t len)
{
    if (!has_room(t, len))
        return;
    memcpy(t->at + t->len, at, len);
    t->len += len;
    t->at[t->len] = 0;
}

void text_add(struct text *t, const char *words)
{
    text_add_bytes(t, words, strlen(words));
}

void text_format(struct text *t, const char *format, ...)
{
    va_list words, again;
    va_start(words, format);
    va_copy(again, words);
    int len = vsnprintf(NULL, 0, format, words);
    va_end(words);
    if (len > 0 && has_room(t, (size_t)len)) {
        vsnprintf(t->at + t->len, (size_t)len + 1, format, again);
        t->len += (size_t)len;
    }
    va_end(again);
}

/* Adds one byte of a quoted text. */
static void quote_byte(struct text *t, uint8_t byte, int json)
{
    static const char digits[] = "0123456789abcdef";
    if (byte == '"' || byte == '\\')
        text_add(t, "\\");
    if (byte < 32 || byte > 126) {
        const char hex[] = {digits[byte >> 4], digits[byte & 15]};
        text_add(t, json ? "\\u00" : "\\x");
        text_add_bytes(t, hex, sizeof hex);
    } else {
        text_add_bytes(t, &byte, 1);
    }
}

void text_quote(struct text *t, const void *at, size_t len, int json)
{
    const uint8_t *from = at;
    text_add(t, "\"");
    for (size_t i = 0; i < len && !t->failed; i++)
        quote_byte(t, from[i], json);
    text_add(t, "\"");
}

/* A name that needs no quotes: printable, without the characters that the lines themselves use. */
static int is_plain(const char *name)
{
    for (const char *c = name; *c; c++)
        if (*c <= ' ' || *c > '~' || strchr("\"\\:", *c))
            return 0;
    return *name != 0;
}

void text_name(struct text *t, const char *name)
{
    if (is_plain(name))
        text_add(t, name);
    else
        text_quote(t, name, strlen(name), 0);
}

void text_free(struct text *t)
{
    free(t->at);
    *t = (struct text){0};
}
