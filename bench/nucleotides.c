/* Writing nucleotides: the library's call, the best C and plain C, compared on good and damaged inputs, and timed. */
#include <stdlib.h>
#include <string.h>

#include "bench.h"
#include "index.h"
#include "measure.h"
#include "reference.h"
#include "timing.h"

#define MOST_NARROW 16777216u /* residues of the longest sequence with entries of 32 bits */
#define SHORT 900
#define BEHIND 64 /* bytes behind the output that must stay as they were */
#define CODE_N 15

/* The arguments of a call but for what it writes. */
struct request {
    uint8_t *codes;
    size_t length, room, results;
};

/* What a call leaves: its answer, the results with bytes behind them, and the output, which has room for any of a length and more. */
struct written {
    uint32_t answer;
    uint8_t results[32], *out;
};

/* What the three calls leave. */
struct outputs {
    struct written left[3];
};

static write_call *const calls[3] = {gull_time_write_nucleotides, c_write_nucleotides, plain_write_nucleotides};

/* The most bytes that a sequence takes. */
static size_t most_room(size_t length)
{
    return length / 4 + 5 + (length > MOST_NARROW ? 8 : 4) * length;
}

static struct outputs make_outputs(size_t room)
{
    struct outputs o;
    for (int k = 0; k < 3; k++)
        o.left[k].out = touched(room + BEHIND);
    return o;
}

static void free_outputs(struct outputs *o)
{
    for (int k = 0; k < 3; k++)
        free(o->left[k].out);
}

/* Whether all three answer alike and leave the same results and output, and every byte behind them as it was. */
static int alike(const struct request *r, struct outputs *o)
{
    struct written *x = o->left;
    int same = 1;
    for (int k = 0; k < 3; k++) {
        memset(x[k].results, 0xa5, sizeof x->results);
        memset(x[k].out, 0xa5, r->room + BEHIND);
        x[k].answer = calls[k](r->codes, r->length, x[k].out, r->room, x[k].results, r->results);
        same &= x[k].answer == x[0].answer && memcmp(x[k].results, x[0].results, sizeof x->results) == 0 &&
                memcmp(x[k].out, x[0].out, r->room + BEHIND) == 0;
        for (size_t j = 0; j < BEHIND; j++)
            same &= x[k].out[r->room + j] == 0xa5;
    }
    return same;
}

/* Whether the library's output, as the one sequence of a volume, decodes to the codes again. */
static int comes_back(const struct request *r, const struct outputs *o)
{
    uint8_t index[64], *back = touched(r->length), *tables = put_index(index, 0, 1, r->length, r->length);
    uint32_t two_bit = (uint32_t)le64(o->left[0].results), all = two_bit + (uint32_t)le64(o->left[0].results + 8);
    const uint32_t offsets[6] = {0, 0, 0, all, two_bit, all};
    for (int k = 0; k < 6; k++)
        put_be(tables + 4 * k, offsets[k]);
    int same = gull_time_decode(index, sizeof index, o->left[0].out, all, 0, back, r->length) == 0 &&
               (r->length == 0 || memcmp(back, r->codes, r->length) == 0);
    free(back);
    return same;
}

/* A good request with more room than it takes, then with no more; it comes back. The room that it takes. */
static size_t agree_good(struct request *r, struct outputs *o, const char *what)
{
    r->results = 16;
    int same = alike(r, o) && o->left[0].answer == 0;
    agree(same && comes_back(r, o), what);
    r->room = le64(o->left[0].results) + le64(o->left[0].results + 8);
    agree(alike(r, o) && o->left[0].answer == 0, what);
    return r->room;
}

/* The length of a stretch, near those at which an entry is full. */
static size_t stretch_length(uint64_t *state)
{
    uint64_t way = next_random(state) % 8;
    if (way < 4)
        return 1 + next_random(state) % 3;
    if (way < 7)
        return 16 * (1 + next_random(state) % 4) - 2 + next_random(state) % 5;
    return 60 + next_random(state) % 200;
}

/* What is drawn: how many of a hundred stretches are ambiguous, and how many of eight such have more than one code. */
struct mixture {
    size_t ambiguous, longer;
};

static void draw_codes(uint8_t *codes, size_t n, struct mixture m, uint64_t *state)
{
    size_t i = 0;
    while (i < n) {
        uint64_t r = next_random(state);
        int ambiguous = r % 100 < m.ambiguous;
        size_t length = ambiguous && (r >> 32) % 8 < m.longer ? stretch_length(state) : 1;
        uint8_t code = ambiguous ? (uint8_t)(r >> 40 & 1 ? CODE_N : 4 + (r >> 48) % 12) : (uint8_t)(r >> 40 & 3);
        for (; length > 0 && i < n; length--)
            codes[i++] = code;
    }
}

/* Damage of one kind or of several: a code above 15, too little room, results of any size, a length above the limit. */
static void agree_damaged(struct request *r, struct outputs *o, size_t need, uint64_t *state)
{
    struct request whole = *r;
    unsigned set = (unsigned)(next_random(state) % 16);
    uint8_t *at = r->codes + next_random(state) % (r->length + 1), was = *at; /* touched memory has a byte more */
    if (set & 1)
        *at = (uint8_t)(next_random(state) % 2 ? 16 : 16 + next_random(state) % 240);
    r->room = set & 2 ? next_random(state) % 2 ? need - 1 : next_random(state) % need : need + next_random(state) % 40;
    if (set & 4)
        r->results = next_random(state) % 25;
    if (set & 8 && next_random(state) % 4 == 0)
        r->length = (size_t)MOST_BYTES + 1 + next_random(state) % 2;
    agree(alike(r, o), "nucleotides with damaged arguments");
    *at = was;
    *r = whole;
}

/* Every length up to a limit, good and damaged. */
static void compare_short(struct mixture m, struct outputs *o, uint64_t *state)
{
    uint8_t *codes = touched(SHORT);
    for (size_t length = 0; length < SHORT; length++) {
        draw_codes(codes, length, m, state);
        struct request r = {codes, length, most_room(length), 16};
        size_t need = agree_good(&r, o, "nucleotides of every length");
        for (int i = 0; i < 4; i++)
            agree_damaged(&r, o, need, state);
    }
    free(codes);
}

/* One stretch at each place of a sequence, of lengths at which an entry is full, and one more or less. */
static void compare_stretch(struct outputs *o)
{
    static const size_t lengths[10] = {1, 2, 15, 16, 17, 31, 32, 33, 48, 49};
    uint8_t codes[500];
    for (size_t k = 0; k < 10; k++)
        for (size_t at = 0; at + lengths[k] <= sizeof codes; at++) {
            memset(codes, (int)(at / 4 % 4), sizeof codes);
            memset(codes + at, (int)(4 + (at + k) % 12), lengths[k]);
            struct request r = {codes, sizeof codes - at % 4, most_room(sizeof codes), 16};
            agree_good(&r, o, "nucleotides with one stretch");
        }
}

/* A good request with results of every size. */
static void compare_results(struct outputs *o, uint64_t *state)
{
    uint8_t codes[100];
    draw_codes(codes, sizeof codes, (struct mixture){30, 6}, state);
    for (size_t results = 0; results <= 24; results++) {
        struct request r = {codes, sizeof codes, most_room(sizeof codes), results};
        agree(alike(&r, o) && o->left[0].answer == 0, "nucleotides with results of every size");
    }
}

/* Sequences about as long as the longest with entries of 32 bits, with stretches about as long as one entry of 64 may be, one of them at
 * the end, and without any; a code above 15 and a byte too few. */
static void compare_long(uint64_t *state)
{
    size_t room = MOST_NARROW / 2;
    uint8_t *codes = touched(MOST_NARROW + 4);
    struct outputs o = make_outputs(room);
    for (size_t more = 0; more < 8; more++) {
        struct request r = {codes, MOST_NARROW - 1 + more / 2, room, 16};
        for (size_t i = 0; i < r.length; i++)
            codes[i] = (uint8_t)(i * i >> 7 & 3);
        for (size_t at = 1000; more % 2 == 0 && at + 30000 < r.length; at += 100000 + next_random(state) % 500000) {
            size_t length = 4096 * (next_random(state) % 4) + next_random(state) % 5;
            memset(codes + at, 4 + (int)(at % 12), length);
        }
        memset(codes + r.length - 4097 * (1 - more % 2), CODE_N, 4097 * (1 - more % 2));
        size_t need = agree_good(&r, &o, "long nucleotides");
        r.room = need - 1;
        agree(alike(&r, &o) && o.left[0].answer == 13, "long nucleotides without room");
        codes[next_random(state) % r.length] = 16;
        agree(alike(&r, &o) && o.left[0].answer == 18, "long nucleotides with a bad code");
    }
    free_outputs(&o);
    free(codes);
}

/* No codes without a pointer, and a length above the limit, before anything is read; then codes that take the most bytes, for which there
 * is no room, and an entry more: after a few bases each differs from the one before. */
static void compare_limits(struct outputs *o)
{
    static const size_t length[4] = {0, (size_t)MOST_BYTES + 1, 260301064, 260301064};
    static const uint32_t answer[4] = {0, 22, 13, 22};
    uint8_t *codes = touched(length[3]);
    for (size_t i = 17; i < length[3]; i++)
        codes[i] = (uint8_t)(CODE_N - i % 2);
    for (int k = 0; k < 4; k++) {
        struct request r = {k < 2 ? NULL : codes, length[k], 1, 16};
        codes[16] = k < 3 ? 1 : CODE_N;
        agree(alike(&r, o) && o->left[0].answer == answer[k], "nucleotides at the limits");
    }
    free(codes);
}

void compare_nucleotides(void)
{
    static const struct mixture mixtures[] = {{0, 0}, {1, 6}, {10, 0}, {10, 6}, {40, 0}, {40, 1}, {40, 6}, {100, 0}, {100, 6}};
    uint64_t state = 53;
    struct outputs o = make_outputs(most_room(SHORT));
    for (size_t k = 0; k < sizeof mixtures / sizeof *mixtures; k++)
        compare_short(mixtures[k], &o, &state);
    compare_stretch(&o);
    compare_results(&o, &state);
    compare_limits(&o);
    free_outputs(&o);
    compare_long(&state);
}

/* One sequence that is written again and again. */
struct writer {
    uint8_t *codes, *out;
    size_t residues, room;
    write_call *write;
};

static void write_once(void *context)
{
    struct writer *w = context;
    uint8_t results[16];
    must(w->write(w->codes, w->residues, w->out, w->room, results, 16) == 0 && le64(results) + le64(results + 8) == w->room,
         "nucleotides");
}

static void time_writing(const char *name, uint8_t *codes, size_t residues)
{
    struct writer ours = {.codes = codes, .residues = residues, .write = gull_time_write_nucleotides};
    uint8_t results[16], *most = malloc(most_room(residues)); /* what is used of it, writing touches */
    must(most != NULL && c_write_nucleotides(codes, residues, most, most_room(residues), results, 16) == 0, "nucleotides");
    ours.room = le64(results) + le64(results + 8);
    free(most);
    ours.out = touched(ours.room);
    struct writer best = ours, plain = ours;
    best.write = c_write_nucleotides;
    plain.write = plain_write_nucleotides;
    compare_times(name, residues, (struct versions){{write_once, &ours}, {write_once, &best}, {write_once, &plain}});
    free(ours.out);
}

/* Each stretch of 50 to 5,000 N has 99 times as many bases behind it. */
static void draw_n_stretches(uint8_t *codes, size_t n, uint64_t *state)
{
    for (size_t i = 0; i < n;) {
        size_t length = 50 + next_random(state) % 4951;
        memset(codes + i, CODE_N, n - i < length ? n - i : length);
        i += 100 * length;
    }
}

void time_nucleotides(size_t residues)
{
    uint64_t state = 59;
    uint8_t *codes = touched(residues);
    for (size_t i = 0; i < residues; i++)
        codes[i] = next_random(&state) & 3;
    time_writing("write nucleotides, plain DNA", codes, residues);
    draw_n_stretches(codes, residues, &state);
    time_writing("write nucleotides, 1% N in stretches", codes, residues);
    for (size_t i = 0; i < residues; i++) {
        uint64_t r = next_random(&state);
        codes[i] = r % 10 == 0 ? (uint8_t)(4 + (r >> 32) % 12) : (uint8_t)(r >> 32 & 3);
    }
    time_writing("write nucleotides, 10% ambiguous", codes, residues);
    free(codes);
}
