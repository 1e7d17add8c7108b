/* A volume's index in C: read with every check of the library, in its order, and written for the benchmarks. */
#include "index.h"
#include "bytes.h"

/* A length field at a place and the bytes that it counts: 1, 4, 1. */
static uint32_t text_at(const uint8_t *index, size_t len, size_t at, int32_t *length)
{
    if (len - at < 4)
        return 1;
    *length = (int32_t)be32(index + at);
    if (*length < 0)
        return 4;
    return len - at - 4 < (size_t)*length ? 1 : 0;
}

/* N, count and longest, from a place on. */
static uint32_t counts_at(const uint8_t *index, size_t len, size_t at, struct fixed *f)
{
    if (len - at < 4)
        return 1;
    f->n = (int32_t)be32(index + at);
    if (f->n < 0 || f->n > 134217728)
        return 4;
    if (len - at < 12)
        return 1;
    f->count = (int64_t)le64(index + at + 4);
    if (f->count < 0)
        return 4;
    if (len - at < 16)
        return 1;
    f->longest = (int32_t)be32(index + at + 12);
    return f->longest < 0 ? 4 : 0;
}

uint32_t c_read_index(const uint8_t *index, size_t len, struct fixed *f)
{
    uint32_t refused;
    if (len < 4)
        return 1;
    if (be32(index) != 4)
        return 2;
    if (len < 8)
        return 1;
    f->type = (int32_t)be32(index + 4);
    if (f->type != 0 && f->type != 1)
        return 3;
    if ((refused = text_at(index, len, 8, &f->title)) != 0)
        return refused;
    size_t at = 12 + (size_t)f->title;
    if ((refused = text_at(index, len, at, &f->stamp)) != 0)
        return refused;
    at += 4 + (size_t)f->stamp;
    if (at % 4 != 0)
        return 5;
    if ((refused = counts_at(index, len, at, f)) != 0)
        return refused;
    size_t table = 4 * ((size_t)f->n + 1), need = at + 16 + (f->type == 1 ? 2 : 3) * table;
    if (len != need)
        return len < need ? 1 : 6;
    f->headers = index + at + 16;
    f->sequences = f->headers + table;
    f->ambiguities = f->sequences + table;
    return 0;
}

uint8_t *put_index(uint8_t *index, uint32_t type, size_t n, uint64_t count, uint64_t longest)
{
    memset(index, 0, 40);
    put_be(index, 4);
    put_be(index + 4, type);
    put_be(index + 12, 8);
    put_be(index + 24, (uint32_t)n);
    put64(index + 28, count);
    put_be(index + 36, (uint32_t)longest);
    return index + 40;
}
