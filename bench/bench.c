/* The library's calls beside C at -O3 and beside memcpy, in one run. `bench --compare` compares all versions and times nothing.
 *
 * The best C makes the same checks in the same order and gives the same answers, by whatever algorithm is fastest, vectorised where gcc
 * does so for plain x86-64, for which the library is compiled too. Unchecked C trusts its input. Plain C goes code by code for writing
 * nucleotides, and for the set check is the reference of earlier benchmarks.
 *
 * The inputs are as databases have them: proteins of 350 residues on average, most from 100 to 500, one in sixteen longer, up to 2,500;
 * genomes in runs of a million bases, plain and with 1% N; short runs of 100 amino residues and of 150 bases. A volume's sequences are
 * such proteins, or DNA of 100 to 1,100 bases; its index has 0.3 to 50 MB, its sequence file up to 1.4 GB. Decoded are such proteins, one
 * long protein, one long DNA sequence, plain and with 1% N, and fifty plain ones of 400 bases; where an earlier build of the library is
 * linked (`make bench BEFORE=..`), the second reference is its decoding. The fifty sequences of a page stand anywhere in a volume of 5,000
 * sequences of 400 residues, or of 500 of 100,000, DNA with 1% N, and of 2,000 such; as many pages are fetched as the volume would fill,
 * and the second reference is the library's own decoding, a call for each sequence. Nucleotides are written from one sequence of bases,
 * plain, with 1% N in stretches of 50 to 5,000, and with 10% ambiguous codes of every kind, scattered; up to 10 million residues the table
 * has entries of 32 bits, with 100 million of 64. A set's sequences are such proteins, or contigs of 200 to 20,000 bases with 1% N; each
 * set is turned to big-endian too. In rows of their own the second reference is the library's check of the same set little-endian, or, for
 * that one, the check of an earlier build. */
#include "bench.h"

#include <stdio.h>
#include <string.h>

#include "measure.h"
#include "reference.h"
#include "table.h"

static int compare_all(void)
{
    compare_runs();
    compare_volumes();
    compare_sequences();
    compare_pages();
    compare_nucleotides();
    compare_sets();
    return print_agreed();
}

/* The rows of a section with inputs of 1, 10 and 100 MB. */
static void each_size(void (*rows)(size_t bytes))
{
    for (size_t bytes = 1000000; bytes <= 100000000; bytes *= 10)
        rows(bytes);
}

static void time_all(void)
{
    print_head("Packing and unpacking, MB of residues; the library's speed, and that as a ratio to", "unchecked C");
    each_size(time_runs);
    printf("\nA call before and with its first packet\n");
    time_calls();
    print_head("The volume check, MB of index", "");
    for (size_t size = 40000; size <= 4000000; size *= 10)
        time_volumes(size);
    print_head("Decoding, MB of residues", "before");
    each_size(time_sequences);
    time_short_sequences();
    print_head("Fetching pages of fifty, MB of residues", "single calls");
    time_pages();
    print_head("Writing nucleotides, MB of codes", "plain C");
    each_size(time_nucleotides);
    print_head("The set check, MB of the sequence file", "plain C");
    each_size(time_sets);
    print_head("The set check of big-endian sets, beside the library's check of the same sets little-endian", "little");
    each_size(time_orders);
    if (before_check_set) {
        print_head("The set check, beside that of the earlier build", "before");
        each_size(time_sets_before);
    }
    print_table();
}

int main(int argc, char **argv)
{
    int only = argc > 1 && strcmp(argv[1], "--compare") == 0;
    if (!only)
        printf("Every version's answers and outputs, on good inputs and on thousands of damaged ones:\n");
    if (compare_all())
        return 1;
    if (only)
        return 0;
    printf("\nAll buffers are touched before anything is timed. Each line is the best of nine turns of the library, of the best C with\n"
           "the same checks in the same order, of a second reference and of memcpy of as many bytes. A ratio above 1 means that the\n"
           "library is faster. Proteins have 350 residues on average, up to 2,500; DNA volumes have sequences of 100 to 1,100 bases,\n"
           "DNA sets of 200 to 20,000.\n");
    time_all();
    return 0;
}
