/* Linked into a copy of gullcheck for a test (-Wl,--wrap=gull_check_volume): every byte of every range that the library is lent is read, as it
 * would be by a check that asks for all of them. */
#include <stdlib.h>

#include "../include/gullcordage.h"

uint32_t __real_gull_check_volume(const uint8_t *index, size_t index_len, const uint8_t *sequence, size_t sequence_len,
                                  const uint8_t *header, size_t header_len, uint8_t *results, size_t results_len);
uint32_t __wrap_gull_check_volume(const uint8_t *index, size_t index_len, const uint8_t *sequence, size_t sequence_len,
                                  const uint8_t *header, size_t header_len, uint8_t *results, size_t results_len);

/* The sum of all bytes, which is how they are read. */
static unsigned read_all(const uint8_t *at, size_t len)
{
    unsigned sum = 0;
    for (size_t k = 0; k < len; k++)
        sum += *(const volatile uint8_t *)(at + k);
    return sum;
}

uint32_t __wrap_gull_check_volume(const uint8_t *index, size_t index_len, const uint8_t *sequence, size_t sequence_len,
                                  const uint8_t *header, size_t header_len, uint8_t *results, size_t results_len)
{
    read_all(index, index_len);
    read_all(sequence, sequence_len);
    if (read_all(header, header_len) != 0)
        abort();
    return __real_gull_check_volume(index, index_len, sequence, sequence_len, header, header_len, results, results_len);
}
