/* Residues as letters: code k of an alphabet is the letter at place k of its list. */
#include "convert.h"

#include <string.h>

/* No alphabet has this code. */
#define NO_CODE 255

static const char *letters_of(uint32_t alphabet)
{
    return alphabet == GULL_AMINO ? GULL_AMINO_LETTERS : GULL_NUCLEIC_LETTERS;
}

/* The code of each byte. */
static void fill_codes(uint32_t alphabet, uint8_t *codes)
{
    const char *letters = letters_of(alphabet);
    memset(codes, NO_CODE, 256);
    for (uint8_t k = 0; letters[k]; k++) {
        uint8_t letter = (uint8_t)letters[k];
        codes[letter] = k;
        if (letter >= 'A' && letter <= 'Z')
            codes[letter + ('a' - 'A')] = k;
    }
    if (alphabet != GULL_AMINO) {
        codes['U'] = codes['T'];
        codes['u'] = codes['t'];
    }
}

struct unknown letters_to_codes(uint32_t alphabet, struct bytes *text)
{
    uint8_t codes[256];
    struct unknown first = {0, 0, 0};
    uint64_t line = 1, start = 0;
    size_t len = 0;
    fill_codes(alphabet, codes);
    for (size_t k = 0; k < text->len; k++) {
        uint8_t letter = text->at[k];
        if (letter == '\n') {
            line++;
            start = k + 1;
        }
        if (letter == ' ' || (letter >= '\t' && letter <= '\r'))
            continue;
        if (codes[letter] == NO_CODE && first.line == 0)
            first = (struct unknown){(char)letter, line, k - start + 1};
        text->at[len++] = codes[letter];
    }
    text->len = len;
    return first;
}

void codes_to_letters(uint32_t alphabet, uint8_t *codes, size_t len)
{
    const char *letters = letters_of(alphabet);
    size_t count = strlen(letters);
    for (size_t k = 0; k < len; k++)
        codes[k] = codes[k] < count ? (uint8_t)letters[codes[k]] : '?';
}
