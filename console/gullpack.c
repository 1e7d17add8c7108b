/* gullpack: residues from standard input, packed as one run of little-endian packets on standard output. */
#include "convert.h"

static const char *const help[] = {
    "usage: gullpack [--letters] ALPHABET < residues > packets\n",
    "\n"
    "Packs residue codes, one byte each, as one run of little-endian dsqdata packets.\n"
    "\n"
    "Alphabets:\n"
    "  1, rna    codes 0 to 15: " GULL_NUCLEIC_LETTERS "\n"
    "  2, dna    the same\n"
    "  3, amino  codes 0 to 27: " GULL_AMINO_LETTERS "\n"
    "\n"
    "Options:\n"
    "  --letters  the input is text, one sequence in the letters above: either case, T and U alike for nucleic, white space left\n"
    "             out; a letter that no residue has is told with its place\n"
    "  --help     this text\n"
    "  --version  the version\n"
    "\n"
    "Numbers:\n"
    "  22  the input is over 2,147,483,647 bytes\n"
    "  3   the alphabet is not 1, 2 or 3\n"
    "  18  a residue code is not valid in the alphabet, or a letter is no residue\n"
    "\n"
    "Exit status:\n"
    "  0  packed\n"
    "  1  refused, the number and its meaning on standard error, and nothing written\n"
    "  2  input or output failed, or wrong usage\n",
    NULL};

/* The most packets that so many residues take: the larger of 1 and a sixth of them, rounded up. */
static size_t room(size_t input)
{
    return 4 * (input == 0 ? 1 : (input - 1) / 6 + 1);
}

static uint32_t call(uint32_t alphabet, const struct bytes *input, uint8_t *output, size_t room, uint8_t *results)
{
    return gull_pack(alphabet, input->at, input->len, output, room, 0, results, GULL_PACK_RESULTS);
}

/* The first result is the number of packets. */
static size_t length(const uint8_t *results)
{
    return 4 * (size_t)gull_result(results, 0);
}

int main(int argc, char **argv)
{
    static const struct conversion gullpack = {{"gullpack", help}, room, call, length, 1};
    return gull_convert(&gullpack, argv + (argc > 0));
}
