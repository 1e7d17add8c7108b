/* gullunpack: one run of little-endian packets from standard input, unpacked to residues on standard output. */
#include "convert.h"

static const char *const help[] = {
    "usage: gullunpack [--letters] ALPHABET < packets > residues\n",
    "\n"
    "Unpacks one run of little-endian dsqdata packets to residue codes, one byte each.\n"
    "\n"
    "Alphabets:\n"
    "  1, rna    codes 0 to 15: " GULL_NUCLEIC_LETTERS "\n"
    "  2, dna    the same\n"
    "  3, amino  codes 0 to 27: " GULL_AMINO_LETTERS "\n"
    "\n"
    "Options:\n"
    "  --letters  writes the letters above, for RNA too with T, and a line feed behind the last\n"
    "  --help     this text\n"
    "  --version  the version\n"
    "\n"
    "Numbers:\n"
    "  22  the input is over 2,147,483,647 bytes\n"
    "  1   the input is not a multiple of 4 bytes\n"
    "  3   the alphabet is not 1, 2 or 3\n"
    "  17  the packets are not one well-formed run in the alphabet\n"
    "\n"
    "Exit status:\n"
    "  0  unpacked\n"
    "  1  refused, the number and its meaning on standard error, and nothing written\n"
    "  2  input or output failed, or wrong usage\n",
    NULL};

/* A packet holds fifteen residues at most. */
static size_t room(size_t input)
{
    return input / 4 * 15;
}

static uint32_t call(uint32_t alphabet, const struct bytes *input, uint8_t *output, size_t room, uint8_t *results)
{
    return gull_unpack(alphabet, input->at, input->len, output, room, results, GULL_UNPACK_RESULTS);
}

/* The second result is the number of residues. */
static size_t length(const uint8_t *results)
{
    return (size_t)gull_result(results, 1);
}

int main(int argc, char **argv)
{
    static const struct conversion gullunpack = {{"gullunpack", help}, room, call, length, 0};
    return gull_convert(&gullunpack, argv + (argc > 0));
}
