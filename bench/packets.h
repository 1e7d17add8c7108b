/* What packing and unpacking share: the control bits of a packet and the limits of the codes. */
#ifndef BENCH_PACKETS_H
#define BENCH_PACKETS_H

#include "bytes.h"

#define END_BIT (1u << 31)
#define FIVE_BIT (1u << 30)
#define AMINO 3

static inline uint32_t code_limit(uint32_t alphabet)
{
    return alphabet == AMINO ? 28 : 16;
}

#endif
