/* The set check over amino and DNA sets of many sequences, of both byte orders: all versions compared, and timed. */
#include <stdlib.h>
#include <string.h>

#include "bench.h"
#include "measure.h"
#include "packets.h"
#include "reference.h"
#include "set.h"
#include "timing.h"

struct set {
    uint8_t *index, *metadata, *sequence;
    size_t index_len, metadata_len, sequence_len;
    enum order order;
    set_call *check;
};

/* The longest of each field that the index states. */
struct longest {
    size_t name, accession, description, sequence;
};

static size_t larger(size_t a, size_t b)
{
    return a > b ? a : b;
}

static void put_header(uint8_t *file)
{
    put32(file, 0xc4d3d1b1u);
    put32(file + 4, 77);
}

/* The residues of a sequence: a protein, or a contig of 200 to 20,000 bases with an N in each hundred. */
static size_t draw_codes(uint32_t alphabet, uint8_t *codes, uint64_t *state)
{
    size_t n = alphabet == AMINO ? protein_length(state) : 200 + next_random(state) % 19801;
    for (size_t k = 0; k < n; k++) {
        uint64_t r = next_random(state);
        codes[k] = alphabet == AMINO ? (uint8_t)(r % 20) : r % 100 == 0 ? 15 : (uint8_t)(r >> 32 & 3);
    }
    return n;
}

/* A text of so many letters, and its NUL; the place behind it. */
static size_t put_text(uint8_t *file, size_t at, size_t letters)
{
    memset(file + at, 'a' + (int)(letters % 26), letters);
    file[at + letters] = 0;
    return at + letters + 1;
}

/* A metadata record: a name of 6 to 13 letters, mostly an accession of 6 to 10, a description of up to 95. */
static size_t put_record(uint8_t *file, size_t at, struct longest *most, uint64_t *state)
{
    uint64_t r = next_random(state);
    size_t name = 6 + (r & 7), accession = r >> 3 & 3 ? 6 + (r >> 5) % 5 : 0, description = (r >> 32) % 96;
    at = put_text(file, at, name);
    at = put_text(file, at, accession);
    at = put_text(file, at, description);
    put32(file + at, r >> 60 ? 9606 : 0xffffffffu);
    most->name = larger(most->name, name);
    most->accession = larger(most->accession, accession);
    most->description = larger(most->description, description);
    return at + 4;
}

static void put_index_fields(struct set *s, uint32_t alphabet, const struct longest *most, size_t n, size_t residues)
{
    put32(s->index + 8, alphabet);
    put32(s->index + 12, 0);
    put32(s->index + 16, (uint32_t)most->name);
    put32(s->index + 20, (uint32_t)most->accession);
    put32(s->index + 24, (uint32_t)most->description);
    put64(s->index + 28, most->sequence);
    put64(s->index + 36, n);
    put64(s->index + 44, residues);
}

/* A little-endian set of n sequences. */
static struct set make_set(uint32_t alphabet, size_t n)
{
    struct set s;
    struct longest most = {0, 0, 0, 0};
    size_t at = 0, behind = 8, residues = 0, longest_run = alphabet == AMINO ? 500 : 3500;
    uint8_t *codes = touched(20001), results[16];
    uint64_t state = 23;
    s.order = LITTLE;
    s.index_len = 52 + 16 * n;
    s.index = touched(s.index_len);
    s.metadata = touched(8 + 130 * n);
    s.sequence = malloc(8 + 4 * n * longest_run); /* what is used of it, packing touches */
    must(s.sequence != NULL, "memory");
    put_header(s.index);
    put_header(s.metadata);
    put_header(s.sequence);
    for (size_t i = 0; i < n; i++) {
        size_t length = draw_codes(alphabet, codes, &state);
        must(c_pack(alphabet, codes, length, s.sequence + 8 + 4 * at, 4 * longest_run, 0, results, 16) == 0, "packing a set");
        at += le64(results);
        residues += length;
        most.sequence = larger(most.sequence, length);
        behind = put_record(s.metadata, behind, &most, &state);
        put64(s.index + 52 + 16 * i, behind - 9);
        put64(s.index + 60 + 16 * i, at - 1);
    }
    s.metadata_len = behind;
    s.sequence_len = 8 + 4 * at;
    put_index_fields(&s, alphabet, &most, n, residues);
    free(codes);
    return s;
}

/* A file of so many bytes once more. */
static uint8_t *copy_of(const uint8_t *file, size_t len)
{
    return memcpy(touched(len), file, len);
}

/* Turns so many integers of a width, one behind another, to the other byte order. */
static void turn(uint8_t *at, size_t width, size_t count)
{
    for (size_t i = 0; i < count; i++, at += width)
        for (size_t k = 0; k < width / 2; k++) {
            uint8_t byte = at[k];
            at[k] = at[width - 1 - k];
            at[width - 1 - k] = byte;
        }
}

/* A copy of a little-endian set, made big-endian: fields, ends, packets and taxonomy ids, which the metadata ends find. Text stays. */
static struct set turned_set(const struct set *little)
{
    struct set s = *little;
    size_t n = (s.index_len - 52) / 16;
    s.order = BIG;
    s.index = copy_of(s.index, s.index_len);
    s.metadata = copy_of(s.metadata, s.metadata_len);
    s.sequence = copy_of(s.sequence, s.sequence_len);
    for (size_t i = 0; i < n; i++)
        turn(s.metadata + 8 + le64(s.index + 52 + 16 * i) - 3, 4, 1);
    turn(s.index, 4, 7);
    turn(s.index + 28, 8, 3 + 2 * n);
    turn(s.metadata, 4, 2);
    turn(s.sequence, 4, s.sequence_len / 4);
    return s;
}

static void free_set(struct set *s)
{
    free(s->index);
    free(s->metadata);
    free(s->sequence);
}

static uint32_t check_by(set_call *check, const struct set *s, uint8_t *results, size_t results_len)
{
    return check(s->index, s->index_len, s->metadata, s->metadata_len, s->sequence, s->sequence_len, results, results_len);
}

static void check_once(void *context)
{
    struct set *s = context;
    uint8_t results[SET_RESULTS];
    must(check_by(s->check, s, results, SET_RESULTS) == 0, "a set");
}

/* All checks answer alike and leave the same results. */
static void agree_set(const struct set *s, size_t results_len, const char *what)
{
    static set_call *const checks[3] = {gull_time_check_set, c_check_set, plain_check_set};
    uint8_t results[3][SET_RESULTS];
    uint32_t answer[3];
    memset(results, 9, sizeof results);
    for (int k = 0; k < 3; k++)
        answer[k] = check_by(checks[k], s, results[k], results_len);
    agree(answer[0] == answer[1] && answer[0] == answer[2] && memcmp(results[0], results[1], SET_RESULTS) == 0 &&
              memcmp(results[0], results[2], SET_RESULTS) == 0,
          what);
}

/* The same with results ranges of every length; and the library's results of a set and of the same set big-endian differ in the order
 * alone. */
static void agree_orders(const struct set *little, const struct set *big)
{
    uint8_t results[2][SET_RESULTS];
    for (size_t room = 0; room <= SET_RESULTS; room++) {
        uint32_t answer = room < SET_RESULTS ? 13 : 0;
        agree_set(little, room, "a good set");
        agree_set(big, room, "a good big-endian set");
        memset(results, 9, sizeof results);
        agree(check_by(gull_time_check_set, little, results[0], room) == answer &&
                  check_by(gull_time_check_set, big, results[1], room) == answer && memcmp(results[0], results[1], 80) == 0 &&
                  (answer != 0 || (le64(results[0] + 80) == LITTLE && le64(results[1] + 80) == BIG)),
              "a set and the same set big-endian");
    }
}

/* The same with a byte of a file changed, a file of another length, or the results range short. */
static void agree_damaged(struct set *s, int times, const char *what)
{
    uint64_t state = 29;
    struct set whole = *s;
    for (int i = 0; i < times; i++) {
        uint8_t *file[3] = {s->index, s->metadata, s->sequence};
        size_t *len[3] = {&s->index_len, &s->metadata_len, &s->sequence_len}, k = next_random(&state) % 3;
        size_t part = next_random(&state) % 4 == 0 && *len[k] > 60 ? 60 : *len[k];
        uint8_t *at = file[k] + next_random(&state) % part, was = *at;
        *at = next_random(&state) % 4 ? *at ^ (uint8_t)(1u << next_random(&state) % 8) : (uint8_t)(next_random(&state) % 34);
        if (next_random(&state) % 16 == 0)
            *len[k] = next_random(&state) % 2 ? *len[k] - 4 : next_random(&state) % *len[k];
        if (next_random(&state) % 64 == 0)
            *len[k] = (size_t)MOST_BYTES + 1;
        if (next_random(&state) % 32 == 0)
            s->index_len++; /* touched memory has a byte more */
        agree_set(s, next_random(&state) % 16 ? SET_RESULTS : SET_RESULTS - 1, what);
        *at = was;
        *s = whole;
    }
}

/* The same with an end that is the one before it, or one more or less. */
static void agree_near(struct set *s, size_t n, const char *what)
{
    for (size_t k = 0; k < 2 * n; k++) {
        uint8_t *at = s->index + 52 + 8 * k;
        uint64_t was = le64(at), before = k < 2 ? UINT64_MAX : read64(at - 16, s->order);
        for (uint64_t more = 0; more < 3; more++) {
            put64(at, before + more - 1);
            if (s->order == BIG)
                turn(at, 8, 1);
            agree_set(s, SET_RESULTS, what);
        }
        put64(at, was);
    }
}

/* The same with a packet whose codes are 0 but for one, which has every value at every place. */
static void agree_codes(struct set *s, const char *what)
{
    uint64_t state = 37;
    size_t packets = (s->sequence_len - 8) / 4;
    for (uint32_t k = 0; k < 6 * 32 && packets > 0; k++) {
        uint8_t *at = s->sequence + 8 + 4 * (next_random(&state) % packets);
        uint32_t was = le32(at);
        put32(at, (read32(at, s->order) & END_BIT) | FIVE_BIT | k % 32 << 5 * (k / 32));
        if (s->order == BIG)
            turn(at, 4, 1);
        agree_set(s, SET_RESULTS, what);
        put32(at, was);
    }
}

/* The same with one file of the other order, which is refused, undamaged and damaged. */
static void agree_mixed(const struct set *s, const struct set *other)
{
    struct set mixed[3] = {*s, *s, *s};
    mixed[0].index = other->index;
    mixed[1].metadata = other->metadata;
    mixed[2].sequence = other->sequence;
    for (int k = 0; k < 3; k++) {
        uint8_t results[SET_RESULTS];
        agree_set(&mixed[k], SET_RESULTS, "a set with a file of the other order");
        agree(check_by(gull_time_check_set, &mixed[k], results, SET_RESULTS) == 14, "a set with a file of the other order");
        agree_damaged(&mixed[k], 100, "a damaged set with a file of the other order");
    }
}

void compare_sets(void)
{
    for (uint32_t alphabet = 1; alphabet <= AMINO; alphabet++)
        for (size_t n = 0; n < 50; n = 3 * n + 1) {
            struct set little = make_set(alphabet, n), big = turned_set(&little);
            agree_orders(&little, &big);
            agree_damaged(&little, 500, "a damaged set");
            agree_damaged(&big, 500, "a damaged big-endian set");
            agree_near(&little, n, "a set with an end near another");
            agree_near(&big, n, "a big-endian set with an end near another");
            agree_codes(&little, "a set with a code of every value");
            agree_codes(&big, "a big-endian set with a code of every value");
            agree_mixed(&little, &big);
            agree_mixed(&big, &little);
            free_set(&little);
            free_set(&big);
        }
}

/* A set with a sequence file of about so many bytes. */
static struct set make_large(uint32_t alphabet, size_t bytes)
{
    return make_set(alphabet, bytes / (alphabet == AMINO ? 237 : 3130));
}

/* Times the library and the best C over a set, and a second reference over one. */
static void time_checks(const char *name, struct set ours, struct set reference, set_call *check)
{
    struct set best = ours;
    ours.check = gull_time_check_set;
    best.check = c_check_set;
    reference.check = check;
    compare_times(name, ours.sequence_len, (struct versions){{check_once, &ours}, {check_once, &best}, {check_once, &reference}});
}

void time_sets(size_t bytes)
{
    static const char *const names[2][2] = {{"check DNA set with 1% N, of packets", "check DNA set with 1% N, big-endian"},
                                            {"check amino set, of its packets", "check amino set, big-endian, of packets"}};
    for (uint32_t alphabet = 2; alphabet <= AMINO; alphabet++) {
        struct set little = make_large(alphabet, bytes), big = turned_set(&little);
        time_checks(names[alphabet == AMINO][LITTLE], little, little, plain_check_set);
        time_checks(names[alphabet == AMINO][BIG], big, big, plain_check_set);
        free_set(&little);
        free_set(&big);
    }
}

void time_orders(size_t bytes)
{
    for (uint32_t alphabet = 2; alphabet <= AMINO; alphabet++) {
        struct set little = make_large(alphabet, bytes), big = turned_set(&little);
        time_checks(alphabet == AMINO ? "check amino set, big beside little" : "check DNA set, big beside little", big, little,
                    gull_time_check_set);
        free_set(&little);
        free_set(&big);
    }
}

void time_sets_before(size_t bytes)
{
    for (uint32_t alphabet = 2; alphabet <= AMINO; alphabet++) {
        struct set s = make_large(alphabet, bytes);
        time_checks(alphabet == AMINO ? "check amino set, beside before" : "check DNA set, beside before", s, s, before_check_set);
        free_set(&s);
    }
}
