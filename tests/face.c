/* The three exported calls from C, with guard bytes around every range: valid, damaged, empty and oversized ranges. On a refusal every
 * range is as it was, also where only the results range is too short. */
#define _GNU_SOURCE
#include <stdio.h>
#include <stdlib.h>
#include <string.h>
#include <sys/mman.h>

#include "../include/gullcordage.h"

#define GUARD 64
#define OVER ((size_t)GULL_MOST_BYTES + 1)

static int passed, failed;

static void expect(int holds, const char *what)
{
    if (holds) {
        passed++;
    } else {
        if (failed++ < 10)
            printf("not so: %s\n", what);
    }
}

/* A range with guard bytes on both sides, and a copy of what it held. */
struct range {
    uint8_t *at, *copy, *base;
    size_t len;
};

static struct range make(const void *from, size_t len)
{
    struct range r = {NULL, malloc(len + 1), malloc(len + 2 * GUARD), len};
    if (!r.copy || !r.base)
        abort();
    memset(r.base, 0xc7, len + 2 * GUARD);
    r.at = r.base + GUARD;
    if (from)
        memcpy(r.at, from, len);
    memcpy(r.copy, r.at, len);
    return r;
}

static int guarded(const struct range *r)
{
    for (size_t i = 0; i < GUARD; i++)
        if (r->base[i] != 0xc7 || r->at[r->len + i] != 0xc7)
            return 0;
    return 1;
}

/* Before a call: what the range holds. */
static void note(struct range *r)
{
    memcpy(r->copy, r->at, r->len);
}

static int unchanged(const struct range *r)
{
    return memcmp(r->at, r->copy, r->len) == 0;
}

static void drop(struct range *r)
{
    free(r->copy);
    free(r->base);
}

static struct range load(const char *folder, const char *name)
{
    char path[512];
    snprintf(path, sizeof path, "%s/%s", folder, name);
    FILE *f = fopen(path, "rb");
    static uint8_t bytes[1 << 16];
    if (!f) {
        printf("%s could not be read\n", path);
        exit(1);
    }
    size_t len = fread(bytes, 1, sizeof bytes, f);
    fclose(f);
    return make(bytes, len);
}

static uint64_t result(const struct range *r, size_t k)
{
    uint64_t n = 0;
    for (int i = 7; i >= 0; i--)
        n = n << 8 | r->at[8 * k + (size_t)i];
    return n;
}

/* A call of the volume check: the inputs stay, the guards stay, and a refusal leaves the results as they were. */
static uint32_t check(struct range *v, struct range *results)
{
    for (int k = 0; k < 3; k++)
        note(&v[k]);
    note(results);
    uint32_t answer = gull_check_volume(v[0].at, v[0].len, v[1].at, v[1].len, v[2].at, v[2].len, results->at, results->len);
    int whole = guarded(results) && (answer == 0 || unchanged(results));
    for (int k = 0; k < 3; k++)
        whole = whole && guarded(&v[k]) && unchanged(&v[k]);
    expect(whole, "the volume check keeps what it may not change");
    return answer;
}

static void test_volume(const char *folder, const char *name, uint32_t want)
{
    static const char *const endings[] = {"in", "sq", "hr"};
    struct range v[3], results = make(NULL, GULL_CHECK_VOLUME_RESULTS), few = make(NULL, GULL_CHECK_VOLUME_RESULTS - 1);
    char kind = strchr(name, 'p') && strncmp(name, "mb_p", 4) == 0 ? 'p' : 'n', file[64];
    for (int k = 0; k < 3; k++) {
        snprintf(file, sizeof file, "%s.%c%s", name, kind, endings[k]);
        v[k] = load(folder, file);
    }
    expect(check(v, &results) == want, name);
    if (want == 0) {
        expect(result(&results, 0) == (kind == 'p') && result(&results, 4) == 12, "type and title's start");
        expect(check(v, &few) == GULL_NO_ROOM, "63 bytes of results are 13");
    }
    for (size_t i = 0; i < v[0].len; i++) {
        struct range again = make(NULL, GULL_CHECK_VOLUME_RESULTS);
        v[0].at[i] ^= 0x80;
        check(v, &again);
        v[0].at[i] ^= 0x80;
        drop(&again);
    }
    for (int k = 0; k < 3; k++)
        drop(&v[k]);
    drop(&results);
    drop(&few);
}

static uint32_t be32(const uint8_t *at)
{
    return (uint32_t)at[0] << 24 | (uint32_t)at[1] << 16 | (uint32_t)at[2] << 8 | at[3];
}

/* An index with NULs behind its timestamp, at most 255 bytes together. */
static struct range padded(const struct range *index, size_t more)
{
    size_t field = 12 + be32(index->at + 8), end = field + 4 + be32(index->at + field);
    struct range r = make(NULL, index->len + more);
    memcpy(r.at, index->at, end);
    memset(r.at + end, 0, more);
    memcpy(r.at + end + more, index->at + end, index->len - end);
    r.at[field + 3] = (uint8_t)(r.at[field + 3] + more);
    return r;
}

/* The timestamp ends at any multiple of 4: nothing else changes there, and every other end is 5. */
static void test_timestamp(const char *folder)
{
    struct range v[3] = {load(folder, "mb_prot.pin"), load(folder, "mb_prot.psq"), load(folder, "mb_prot.phr")};
    struct range index = v[0], plain = make(NULL, GULL_CHECK_VOLUME_RESULTS);
    expect(check(v, &plain) == GULL_OK, "mb_prot");
    for (size_t more = 1; more <= 8; more++) {
        struct range results = make(NULL, GULL_CHECK_VOLUME_RESULTS);
        v[0] = padded(&index, more);
        expect(check(v, &results) == (more % 4 == 0 ? GULL_OK : GULL_MISALIGNED), "a timestamp that ends elsewhere");
        expect(more % 4 != 0 || memcmp(results.at, plain.at, plain.len) == 0, "the same results");
        drop(&results);
        drop(&v[0]);
    }
    drop(&index);
    drop(&v[1]);
    drop(&v[2]);
    drop(&plain);
}

static uint32_t pack(uint32_t alphabet, struct range *codes, struct range *packets, uint64_t place, struct range *results)
{
    note(codes);
    note(packets);
    note(results);
    uint32_t answer = gull_pack(alphabet, codes->at, codes->len, packets->at, packets->len, place, results->at, results->len);
    expect(guarded(codes) && unchanged(codes) && guarded(packets) && guarded(results) &&
               (answer == 0 || (unchanged(packets) && unchanged(results))),
           "packing keeps what it may not change");
    return answer;
}

static uint32_t unpack(uint32_t alphabet, struct range *packets, struct range *codes, struct range *results)
{
    note(packets);
    note(codes);
    note(results);
    uint32_t answer = gull_unpack(alphabet, packets->at, packets->len, codes->at, codes->len, results->at, results->len);
    expect(guarded(packets) && unchanged(packets) && guarded(codes) && guarded(results) &&
               (answer == 0 || (unchanged(codes) && unchanged(results))),
           "unpacking keeps what it may not change");
    return answer;
}

static void test_round_trip(uint32_t alphabet, size_t n)
{
    uint8_t some[500];
    for (size_t i = 0; i < n; i++)
        some[i] = (uint8_t)(i * 7 % (alphabet == 3 ? 28 : i % 40 < 30 ? 4 : 16));
    struct range codes = make(some, n), packets = make(NULL, 4 * (n / 6 + 3) + 3), results = make(NULL, 16);
    expect(pack(alphabet, &codes, &packets, 1, &results) == 0, "valid codes are packed");
    size_t count = result(&results, 0);
    expect(result(&results, 1) == n, "and all of them are counted");
    struct range run = make(packets.at + 4, 4 * count), back = make(NULL, n + 5), few = make(NULL, 15), more = make(NULL, 17);
    expect(unpack(alphabet, &run, &back, &more) == 0 && memcmp(back.at, some, n) == 0, "they come back");
    expect(memcmp(back.at + n, back.copy + n, 5) == 0 && more.at[16] == more.copy[16], "and the rest of each range stays");
    struct range fresh = make(NULL, packets.len), other = make(NULL, n + 5);
    expect(pack(alphabet, &codes, &fresh, 1, &few) == GULL_NO_ROOM, "15 bytes of results are 13");
    expect(unpack(alphabet, &run, &other, &few) == GULL_NO_ROOM, "15 bytes of results are 13");
    expect(pack(alphabet, &codes, &fresh, UINT64_MAX, &results) == GULL_NO_ROOM, "a place far beyond the buffer is 13");
    drop(&codes);
    drop(&packets);
    drop(&results);
    drop(&run);
    drop(&back);
    drop(&few);
    drop(&more);
    drop(&fresh);
    drop(&other);
}

static void test_damaged_runs(void)
{
    static const uint8_t codes[] = {0, 1, 2, 3, 0, 1, 2, 3, 0, 1, 2, 3, 0, 1, 2, 15, 3};
    struct range in = make(codes, sizeof codes), packets = make(NULL, 16), results = make(NULL, 16);
    expect(pack(2, &in, &packets, 0, &results) == 0, "a run of two packets");
    size_t len = 4 * result(&results, 0);
    for (size_t i = 0; i < 8 * len; i++) {
        struct range run = make(packets.at, len), out = make(NULL, 64), told = make(NULL, 16);
        run.at[i / 8] ^= (uint8_t)(1u << i % 8);
        unpack(2, &run, &out, &told);
        unpack(3, &run, &out, &told);
        drop(&run);
        drop(&out);
        drop(&told);
    }
    drop(&in);
    drop(&packets);
    drop(&results);
}

static void test_empty_and_oversized(void)
{
    uint8_t results[64], one[4];
    expect(gull_check_volume(NULL, 0, NULL, 0, NULL, 0, NULL, 0) == GULL_TOO_SHORT, "an empty index is 1");
    expect(gull_pack(2, NULL, 0, one, 4, 0, results, 16) == 0 && memcmp(one, "\377\377\377\377", 4) == 0, "no residues are FFFFFFFF");
    expect(gull_pack(2, NULL, 0, NULL, 0, 0, results, 16) == GULL_NO_ROOM, "an empty buffer is 13");
    expect(gull_unpack(2, NULL, 0, NULL, 0, results, 16) == GULL_BAD_RUN, "an empty run is 17");
    expect(gull_unpack(2, one, 4, NULL, 0, results, 16) == 0, "a run of no residues needs no room");
    uint8_t *over = mmap(NULL, OVER, PROT_READ, MAP_PRIVATE | MAP_ANONYMOUS | MAP_NORESERVE, -1, 0);
    if (over == MAP_FAILED) {
        expect(0, "a reservation of 2 GiB");
        return;
    }
    expect(gull_check_volume(over, OVER, NULL, 0, NULL, 0, results, 64) == GULL_TOO_LARGE, "a large index is 22");
    expect(gull_check_volume(NULL, 0, over, OVER, NULL, 0, results, 64) == GULL_TOO_LARGE, "a large sequence file is 22");
    expect(gull_check_volume(NULL, 0, NULL, 0, over, OVER, results, 64) == GULL_TOO_LARGE, "a large header file is 22");
    expect(gull_pack(9, over, OVER, NULL, 0, 0, NULL, 0) == GULL_TOO_LARGE, "too many codes are 22, before the alphabet");
    expect(gull_unpack(9, over, OVER, NULL, 0, NULL, 0) == GULL_TOO_LARGE, "too many packets are 22, before the alphabet");
    munmap(over, OVER);
}

/* The header's letters are as many as there are valid codes, and its version is its three numbers. */
static void test_header(void)
{
    static const struct {
        uint32_t alphabet;
        const char *letters;
    } lists[] = {{GULL_RNA, GULL_NUCLEIC_LETTERS}, {GULL_DNA, GULL_NUCLEIC_LETTERS}, {GULL_AMINO, GULL_AMINO_LETTERS}};
    uint8_t packets[4], results[GULL_PACK_RESULTS];
    char version[32];
    for (size_t k = 0; k < 3; k++)
        for (unsigned code = 0; code < 256; code++) {
            uint8_t one = (uint8_t)code;
            uint32_t answer = gull_pack(lists[k].alphabet, &one, 1, packets, sizeof packets, 0, results, sizeof results);
            expect(answer == (code < strlen(lists[k].letters) ? GULL_OK : GULL_BAD_CODE), "each valid code has a letter");
        }
    snprintf(version, sizeof version, "%d.%d.%d", GULL_VERSION_MAJOR, GULL_VERSION_MINOR, GULL_VERSION_PATCH);
    expect(strcmp(version, GULL_VERSION) == 0, "the version's numbers");
}

int main(int argc, char **argv)
{
    const char *volumes = argc > 1 ? argv[1] : "samples/volumes";
    test_volume(volumes, "mb_prot", 0);
    test_volume(volumes, "mb_protidt", 0);
    test_volume(volumes, "re_nuc0", 0);
    test_volume(volumes, "mb_nuc", GULL_BAD_OFFSETS);
    test_volume(volumes, "re_nuc04", 0);
    test_timestamp(volumes);
    for (uint32_t alphabet = 1; alphabet <= 3; alphabet++)
        for (size_t n = 0; n < 64; n++)
            test_round_trip(alphabet, n);
    test_round_trip(2, 500);
    test_round_trip(3, 500);
    test_damaged_runs();
    test_empty_and_oversized();
    test_header();
    printf("%d checks in all\n%d passed, %d failed\n", passed + failed, failed == 0, failed != 0);
    return failed != 0;
}
