/* Integers out of bytes and into them, for the C versions. */
#ifndef BENCH_BYTES_H
#define BENCH_BYTES_H

#include <stddef.h>
#include <stdint.h>
#include <string.h>

/* The most bytes of an input range. */
#define MOST_BYTES 2147483647u

/* The byte orders. A function over an order is inlined wherever it is called with a constant one, so that each order has a version. */
enum order { LITTLE, BIG };
#define OVER_ORDER static inline __attribute__((always_inline))

static inline uint32_t le32(const uint8_t *p)
{
    uint32_t v;
    memcpy(&v, p, 4);
    return v;
}

static inline uint64_t le64(const uint8_t *p)
{
    uint64_t v;
    memcpy(&v, p, 8);
    return v;
}

static inline uint32_t be32(const uint8_t *p)
{
    return __builtin_bswap32(le32(p));
}

OVER_ORDER uint32_t read32(const uint8_t *p, enum order order)
{
    return order == BIG ? be32(p) : le32(p);
}

OVER_ORDER uint64_t read64(const uint8_t *p, enum order order)
{
    return order == BIG ? __builtin_bswap64(le64(p)) : le64(p);
}

static inline void put32(uint8_t *p, uint32_t v)
{
    memcpy(p, &v, 4);
}

static inline void put_be(uint8_t *p, uint32_t v)
{
    put32(p, __builtin_bswap32(v));
}

static inline void put64(uint8_t *p, uint64_t v)
{
    memcpy(p, &v, 8);
}

#endif
