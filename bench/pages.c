/* Fetching a page: the library's call, the best C, and the library's single decoding calls appended one after another; all compared, and
 * timed. */
#include <stdlib.h>
#include <string.h>

#include "bench.h"
#include "index.h"
#include "measure.h"
#include "timing.h"
#include "volumes.h"

#define ITEMS 50
#define MOST_ROOM 80000

/* The arguments of a call but for what it writes; `at` is a byte of a file that was changed, and `was` what stood there. */
struct page {
    struct volume v;
    uint64_t numbers[ITEMS];
    size_t items, room, ends, results;
    uint8_t *at, was;
};

/* What a call leaves: its answer, every lent byte, and bytes behind them. */
struct fetched {
    uint32_t answer;
    uint8_t results[24], out[MOST_ROOM + 64];
    uint64_t ends[ITEMS + 4];
};

/* The residues of a sequence that was decoded, from its offsets. */
static size_t length_of(const uint8_t *index, size_t index_len, const uint8_t *sequence, uint64_t number)
{
    struct fixed f;
    must(c_read_index(index, index_len, &f) == 0 && number < (uint64_t)f.n, "a sequence that was decoded");
    int64_t start = offset(f.sequences, number);
    if (f.type == 1)
        return (size_t)(offset(f.sequences, number + 1) - 1 - start);
    int64_t end = offset(f.ambiguities, number);
    return 4 * (size_t)(end - start - 1) + (sequence[end - 1] & 3);
}

/* A page by single calls, each into what is left of the output behind the last: what the call's outcome must equal. */
static uint32_t fetch_singly(const uint8_t *index, size_t index_len, const uint8_t *sequence, size_t sequence_len,
                             const uint64_t *numbers, size_t numbers_len, uint8_t *out, size_t out_len, uint64_t *ends, size_t ends_len,
                             uint8_t *results, size_t results_len)
{
    size_t done = 0, filled = 0;
    uint32_t refused = 0;
    if (index_len > MOST_BYTES || sequence_len > MOST_BYTES)
        refused = 22;
    else if (ends_len < numbers_len)
        refused = 13;
    while (refused == 0 && done < numbers_len) {
        refused = gull_time_decode(index, index_len, sequence, sequence_len, numbers[done], out + filled, out_len - filled);
        if (refused != 0)
            break;
        filled += length_of(index, index_len, sequence, numbers[done]);
        ends[done++] = filled;
    }
    if (results_len >= 8)
        put64(results, done);
    return refused;
}

static page_call *const calls[3] = {gull_time_fetch_page, c_fetch_page, fetch_singly};

/* Whether all three answer alike and leave the same results, output and ends; what the library left. */
static int alike(const struct page *p, const struct fetched **ours)
{
    static struct fetched left[3];
    for (int k = 0; k < 3; k++) {
        memset(&left[k], 0xa5, sizeof *left);
        left[k].answer = calls[k](p->v.index, p->v.index_len, p->v.sequence, p->v.sequence_len, p->numbers, p->items, left[k].out, p->room,
                                  left[k].ends, p->ends, left[k].results, p->results);
    }
    *ours = &left[0];
    return memcmp(&left[0], &left[1], sizeof *left) == 0 && memcmp(&left[0], &left[2], sizeof *left) == 0;
}

/* Mostly fifty numbers, in any order and with repeats, and ranges with room, but for the results at times. */
static void draw_page(struct page *p, uint64_t *state)
{
    for (size_t k = 0; k < ITEMS; k++)
        p->numbers[k] = next_random(state) % p->v.sequences;
    p->items = next_random(state) % 4 ? ITEMS : next_random(state) % (ITEMS + 1);
    p->room = MOST_ROOM;
    p->ends = p->items + next_random(state) % 3;
    p->results = next_random(state) % 8 ? 8 + next_random(state) % 9 : next_random(state) % 8;
    p->at = p->v.index;
    p->was = *p->at;
}

/* Room up to the end of an item, or one byte less or more, or up to any place before. */
static void cut_room(struct page *p, uint64_t *state)
{
    size_t items = next_random(state) % (p->items + 1), side = next_random(state) % 3;
    p->room = 0;
    for (size_t k = 0; k < items; k++)
        p->room += length_of(p->v.index, p->v.index_len, p->v.sequence, p->numbers[k]);
    if (p->room + side > 0)
        p->room += side - 1;
    if (next_random(state) % 2)
        p->room = next_random(state) % (p->room + 1);
}

static void cut_ends(struct page *p, uint64_t *state)
{
    if (p->items > 0)
        p->ends = next_random(state) % 2 ? p->items - 1 : next_random(state) % p->items;
}

/* The number of sequences in place of an item, or more, or a good number with a high bit. */
static void change_number(struct page *p, uint64_t *state)
{
    if (p->items == 0)
        return;
    uint64_t *number = &p->numbers[next_random(state) % p->items];
    switch (next_random(state) % 4) {
    case 0: *number = p->v.sequences; break;
    case 1: *number = p->v.sequences + next_random(state) % 1000; break;
    case 2: *number |= (uint64_t)1 << (32 + next_random(state) % 32); break;
    default: *number = next_random(state) % 2 ? next_random(state) : UINT64_MAX; break;
    }
}

/* A bit of the fixed fields, of an item's offsets, of its bytes, or, most often, of the last of them, where its separator is, or its
 * corrections. */
static void change_byte(struct page *p, uint64_t *state)
{
    size_t table = 4 * (p->v.sequences + 1), tables = (p->v.index_len - 40) / table;
    uint64_t number = p->numbers[next_random(state) % (p->items > 0 ? p->items : 1)] % p->v.sequences, r = next_random(state);
    uint8_t *offsets = p->v.index + 40 + table + 4 * number;
    size_t start = be32(offsets), next = be32(offsets + 4);
    switch (next_random(state) % 8) {
    case 0: p->at = p->v.index + r % 40; break;
    case 1:
    case 2: p->at = offsets + (r >> 8) % (tables - 1) * table + r % 8; break;
    case 3: p->at = p->v.sequence + start + r % (next - start); break;
    default: p->at = p->v.sequence + next - 1 - r % (next < 16 ? next : 16); break;
    }
    p->was = *p->at;
    *p->at ^= (uint8_t)(1u << next_random(state) % 8);
}

/* A file cut, an index with a byte more (touched memory has one), or a length above the limit. */
static void change_lengths(struct page *p, uint64_t *state)
{
    size_t *length = next_random(state) % 4 ? &p->v.sequence_len : &p->v.index_len;
    switch (next_random(state) % 4) {
    case 0: *length = (size_t)MOST_BYTES + 1; break;
    case 1: *length -= 1; break;
    case 2: *length -= next_random(state) % *length; break;
    default: p->v.index_len += next_random(state) % 2; break;
    }
}

/* What may be wrong with a page, in the order in which it is made so: room is measured while all else is good. */
static void (*const faults[])(struct page *p, uint64_t *state) = {cut_room, cut_ends, change_number, change_byte, change_lengths};
static const char *const names[] = {"a page with too little room", "a page with a short list of ends", "a page with a bad number",
                                    "a page of a damaged volume", "a page of files of other lengths"};
#define FAULTS (sizeof faults / sizeof *faults)

/* A page with the faults of a set; one without any is not refused. */
static void agree_page(struct page *p, unsigned set, const char *what, uint64_t *state)
{
    const struct fetched *ours;
    struct volume whole = p->v;
    draw_page(p, state);
    for (size_t k = 0; k < FAULTS; k++)
        if (set >> k & 1)
            faults[k](p, state);
    int same = alike(p, &ours);
    agree(same && (set != 0 || ours->answer == 0), what);
    *p->at = p->was;
    p->v = whole;
}

/* Good pages of a volume, pages with each fault, and with any of them together. */
static void compare_volume(struct volume v, uint64_t *state)
{
    struct page p = {.v = v};
    for (int i = 0; i < 200; i++) {
        agree_page(&p, 0, "a good page", state);
        for (size_t k = 0; k < FAULTS; k++)
            agree_page(&p, 1u << k, names[k], state);
        agree_page(&p, 1 + (unsigned)(next_random(state) % ((1u << FAULTS) - 1)), "a page with several faults", state);
    }
    free_volume(&v);
}

/* An empty list opens nothing, over ranges without a pointer; lengths above the limit are refused before that. */
static void agree_empty(void)
{
    static const size_t lengths[2] = {0, (size_t)MOST_BYTES + 1};
    for (int i = 0; i < 4; i++) {
        uint8_t results[3][8];
        uint32_t answer[3];
        memset(results, 9, sizeof results);
        for (int k = 0; k < 3; k++)
            answer[k] = calls[k](NULL, lengths[i & 1], NULL, lengths[i >> 1], NULL, 0, NULL, 0, NULL, 0, results[k], 8);
        agree(answer[0] == (i == 0 ? 0u : 22u) && answer[0] == answer[1] && answer[0] == answer[2] &&
                  memcmp(results[0], results[1], 8) == 0 && memcmp(results[0], results[2], 8) == 0,
              "an empty page");
    }
}

void compare_pages(void)
{
    static const size_t lengths[4] = {0, 37, 400, 1500};
    uint64_t state = 47;
    agree_empty();
    for (uint32_t type = 0; type < 2; type++) {
        compare_volume(make_volume(type, 60), &state);
        for (int k = 0; k < 4; k++)
            for (enum corrections c = NARROW; c <= WIDE; c++)
                compare_volume(make_even(type, 60, lengths[k], c), &state);
    }
}

/* A volume whose pages are fetched one after another, each into the same output. */
struct reader {
    struct volume v;
    uint64_t *numbers, ends[ITEMS];
    size_t length, pages;
    page_call *fetch;
};

static void fetch_all(void *context)
{
    struct reader *r = context;
    uint8_t results[8];
    for (size_t i = 0; i < r->pages; i++) {
        uint32_t answer = r->fetch(r->v.index, r->v.index_len, r->v.sequence, r->v.sequence_len, r->numbers + ITEMS * i, ITEMS, r->v.out,
                                   ITEMS * r->length, r->ends, ITEMS, results, 8);
        must(answer == 0 && le64(results) == ITEMS, "a page");
    }
}

/* One page by single calls; the lengths are known. */
static void decode_page(struct reader *r, const uint64_t *numbers)
{
    size_t filled = 0;
    for (size_t k = 0; k < ITEMS; k++) {
        uint32_t answer = gull_time_decode(r->v.index, r->v.index_len, r->v.sequence, r->v.sequence_len, numbers[k], r->v.out + filled,
                                           ITEMS * r->length - filled);
        must(answer == 0, "a sequence of a page");
        filled += r->length;
        r->ends[k] = filled;
    }
}

static void decode_all(void *context)
{
    struct reader *r = context;
    for (size_t i = 0; i < r->pages; i++)
        decode_page(r, r->numbers + ITEMS * i);
}

/* As many pages as a volume of n sequences of one length would fill; the numbers of each are drawn from all of it. */
static void time_page(const char *name, uint32_t type, size_t n, size_t length)
{
    struct reader ours = {.v = make_even(type, n, length, WIDE), .length = length, .pages = n / ITEMS, .fetch = gull_time_fetch_page};
    uint64_t state = 43;
    ours.numbers = (uint64_t *)(void *)touched(n * sizeof *ours.numbers);
    for (size_t k = 0; k < n; k++)
        ours.numbers[k] = next_random(&state) % n;
    ours.v.out = touched(ITEMS * length);
    struct reader best = ours, single = ours;
    best.fetch = c_fetch_page;
    compare_times(name, ours.v.residues, (struct versions){{fetch_all, &ours}, {fetch_all, &best}, {decode_all, &single}});
    free(ours.numbers);
    free(ours.v.out);
    free_volume(&ours.v);
}

/* Long DNA is taken from a volume of 12 MB, which a cache may hold, and from one of 50 MB: memcpy, after which the library's turn mostly
 * comes, pushes the smaller one out. */
void time_pages(void)
{
    time_page("fetch page, proteins of 400", 1, 5000, 400);
    time_page("fetch page, proteins of 100,000", 1, 500, 100000);
    time_page("fetch page, DNA of 400", 0, 5000, 400);
    time_page("fetch page, DNA of 100,000", 0, 500, 100000);
    time_page("fetch page, DNA of 100,000 in 50 MB", 0, 2000, 100000);
}
