/* Packing and unpacking: all versions compared, on good runs of every kind and on damaged ones, and timed. */
#include <stdio.h>
#include <stdlib.h>
#include <string.h>

#include "../include/gullcordage.h"
#include "bench.h"
#include "bodies.h"
#include "measure.h"
#include "packets.h"

#define MOST_CODES 700
#define MOST_PACKETS 130

/* What a call leaves: its answer and every lent byte. */
struct packed {
    uint32_t answer;
    uint8_t packets[4 * MOST_PACKETS], results[16];
};

struct unpacked {
    uint32_t answer;
    uint8_t codes[15 * MOST_PACKETS], results[16];
};

/* The arguments of both calls but for the ranges. */
struct input {
    uint32_t alphabet;
    size_t codes, room, place, results;
};

static void pack_into(struct packed *left, pack_call *pack, struct input in, const uint8_t *codes)
{
    memset(left, 0xa5, sizeof *left);
    left->answer = pack(in.alphabet, codes, in.codes, left->packets, in.room, in.place, left->results, in.results);
}

static void unpack_into(struct unpacked *left, unpack_call *unpack, struct input in, const uint8_t *packets, size_t len)
{
    memset(left, 0x5a, sizeof *left);
    left->answer = unpack(in.alphabet, packets, len, left->codes, in.room, left->results, in.results);
}

/* Every version packs and unpacks a good run alike, with no more room than it takes. */
static void agree_good(const uint8_t *codes, uint32_t alphabet, size_t n)
{
    static struct packed x, y, z;
    static struct unpacked back[3];
    struct input in = {alphabet, n, sizeof x.packets, 3, 16};
    pack_into(&x, gull_pack, in, codes);
    in.room = 4 * (3 + le64(x.results));
    pack_into(&x, gull_pack, in, codes);
    pack_into(&y, c_pack, in, codes);
    pack_into(&z, unchecked_pack, in, codes);
    agree(x.answer == 0 && memcmp(&x, &y, sizeof x) == 0 && memcmp(&x, &z, sizeof x) == 0, "packing a good run");
    size_t len = 4 * le64(x.results);
    in.room = n;
    unpack_into(&back[0], gull_unpack, in, x.packets + 12, len);
    unpack_into(&back[1], c_unpack, in, x.packets + 12, len);
    unpack_into(&back[2], unchecked_unpack, in, x.packets + 12, len);
    agree(back[0].answer == 0 && memcmp(back[0].codes, codes, n) == 0 && memcmp(&back[0], &back[1], sizeof *back) == 0 &&
              memcmp(&back[0], &back[2], sizeof *back) == 0,
          "unpacking a good run");
}

/* The checked versions pack alike: a code is damaged, the room or the results range is short, the alphabet is another, or nothing is. */
static void agree_packing(const uint8_t *from, struct input *in, struct packed *x, uint64_t *state)
{
    static struct packed y;
    uint8_t codes[MOST_CODES];
    memcpy(codes, from, in->codes);
    if (in->codes > 0 && next_random(state) % 4 == 0)
        codes[next_random(state) % in->codes] = (uint8_t)next_random(state);
    if (next_random(state) % 4 == 0)
        in->room = next_random(state) % (sizeof x->packets + 1);
    if (next_random(state) % 16 == 0)
        in->results = next_random(state) % 17;
    pack_into(x, gull_pack, *in, codes);
    pack_into(&y, c_pack, *in, codes);
    agree(memcmp(x, &y, sizeof y) == 0, "packing a damaged run");
}

/* The same for unpacking a run of so many packets, with up to two bits changed, or a last packet of 0 to 6 residues. */
static void agree_unpacking(uint8_t *run, size_t packets, struct input in, uint64_t *state)
{
    static struct unpacked x, y;
    for (uint64_t flips = next_random(state) % 3; packets > 0 && flips > 0; flips--)
        run[next_random(state) % (4 * packets)] ^= (uint8_t)(1u << next_random(state) % 8);
    if (packets > 0 && next_random(state) % 8 == 0)
        put32(run + 4 * (packets - 1), END_BIT | FIVE_BIT | (FIVE_BIT - 1) >> 5 * (next_random(state) % 7));
    size_t len = 4 * packets - (packets > 0 && next_random(state) % 16 == 0);
    in.room = next_random(state) % 4 ? sizeof x.codes : next_random(state) % 2 ? in.codes : next_random(state) % (in.codes + 1);
    unpack_into(&x, gull_unpack, in, run, len);
    unpack_into(&y, c_unpack, in, run, len);
    agree(memcmp(&x, &y, sizeof x) == 0, "unpacking a damaged run");
}

static void agree_damaged(const struct body *b, uint64_t *state)
{
    static struct packed x;
    struct input in = {b->alphabet, next_random(state) % MOST_CODES, sizeof x.packets, next_random(state) % 8, 16};
    if (next_random(state) % 2)
        in.codes %= 40;
    if (next_random(state) % 16 == 0)
        in.alphabet = (uint32_t)(next_random(state) % 5);
    agree_packing(b->codes + next_random(state) % (b->residues - MOST_CODES), &in, &x, state);
    size_t packets = x.answer == 0 ? le64(x.results) : next_random(state) % 20;
    agree_unpacking(x.packets + 4 * in.place, packets, in, state);
}

/* Both checked versions answer alike over empty ranges without a pointer, and over lengths above the limit, which are refused before
 * anything is read. */
static void agree_edges(uint32_t alphabet)
{
    static const size_t lengths[2] = {0, (size_t)MOST_BYTES + 1};
    static struct packed x, y;
    static struct unpacked p, q;
    for (int k = 0; k < 2; k++) {
        struct input in = {alphabet, lengths[k], k == 0 ? 4 : 0, 0, 16};
        pack_into(&x, gull_pack, in, NULL);
        pack_into(&y, c_pack, in, NULL);
        agree(memcmp(&x, &y, sizeof x) == 0, "packing at the limits");
        unpack_into(&p, gull_unpack, in, NULL, lengths[k]);
        unpack_into(&q, c_unpack, in, NULL, lengths[k]);
        agree(memcmp(&p, &q, sizeof p) == 0, "unpacking at the limits");
    }
}

/* Good runs of plain bases with one N, at every place. */
static void agree_one_n(void)
{
    uint8_t codes[MOST_CODES];
    uint64_t state = 31;
    for (size_t i = 0; i < MOST_CODES; i++)
        codes[i] = next_random(&state) & 3;
    for (size_t i = 0; i < MOST_CODES; i++) {
        uint8_t was = codes[i];
        codes[i] = 15;
        agree_good(codes, GULL_DNA, MOST_CODES);
        codes[i] = was;
    }
}

/* Whole bodies: all three versions leave the same packets, and the residues come back. */
static void agree_bodies(struct body *ours, struct body *other, const char *name)
{
    pack_all(other);
    agree(memcmp(ours->packets, other->packets, 4 * ours->packets_room) == 0 &&
              memcmp(ours->ends, other->ends, ours->runs * sizeof *ours->ends) == 0,
          name);
    unpack_all(other);
    agree(memcmp(other->back, ours->codes, ours->residues) == 0, name);
}

static void compare_bodies(const struct kind *kind, size_t residues)
{
    struct body ours = make_body(kind, residues), best = other_body(&ours, c_pack, c_unpack);
    struct body unchecked = other_body(&ours, unchecked_pack, unchecked_unpack);
    pack_all(&ours);
    agree_bodies(&ours, &best, kind->name);
    agree_bodies(&ours, &unchecked, kind->name);
    agree_bodies(&ours, &ours, kind->name);
    for (size_t n = 0; n < MOST_CODES; n++)
        agree_good(ours.codes + n, kind->alphabet, n);
    uint64_t state = 11;
    for (int i = 0; i < 1500; i++)
        agree_damaged(&ours, &state);
    free_body(&ours);
    free_other(&best);
    free_other(&unchecked);
}

void compare_runs(void)
{
    static const struct kind many_n = {"DNA with 20% N, runs of 150", GULL_RNA, 150, 20};
    for (size_t i = 0; i < kind_count; i++)
        compare_bodies(&kinds[i], 200000);
    compare_bodies(&many_n, 200000);
    agree_one_n();
    for (uint32_t alphabet = 0; alphabet < 5; alphabet++)
        agree_edges(alphabet);
}

static void time_body(const struct kind *kind, size_t residues)
{
    char label[64];
    struct body ours = make_body(kind, residues), best = ours, unchecked = ours;
    best.pack = c_pack;
    best.unpack = c_unpack;
    unchecked.pack = unchecked_pack;
    unchecked.unpack = unchecked_unpack;
    pack_all(&ours);
    snprintf(label, sizeof label, "pack %s", kind->name);
    compare_times(label, residues, (struct versions){{pack_all, &ours}, {pack_all, &best}, {pack_all, &unchecked}});
    snprintf(label, sizeof label, "unpack %s", kind->name);
    compare_times(label, residues, (struct versions){{unpack_all, &ours}, {unpack_all, &best}, {unpack_all, &unchecked}});
    free_body(&ours);
}

void time_runs(size_t residues)
{
    for (size_t i = 0; i < kind_count; i++)
        time_body(&kinds[i], residues);
}

#define CALLS 1000000

/* One short run, packed or unpacked again and again. */
struct short_run {
    uint32_t alphabet;
    size_t codes, packets;
    uint8_t code[16], packet[16], back[16];
    pack_call *pack;
    unpack_call *unpack;
};

static void pack_short(void *context)
{
    struct short_run *r = context;
    uint8_t results[16];
    for (int i = 0; i < CALLS; i++)
        must(r->pack(r->alphabet, r->code, r->codes, r->packet, sizeof r->packet, 0, results, 16) == 0, "packing");
    r->packets = le64(results);
}

static void unpack_short(void *context)
{
    struct short_run *r = context;
    uint8_t results[16];
    for (int i = 0; i < CALLS; i++)
        must(r->unpack(r->alphabet, r->packet, 4 * r->packets, r->back, sizeof r->back, results, 16) == 0, "unpacking");
}

static void time_short(const char *name, uint32_t alphabet, size_t codes)
{
    char label[64];
    struct short_run ours = {.alphabet = alphabet, .codes = codes, .pack = gull_pack, .unpack = gull_unpack};
    pack_short(&ours);
    struct short_run best = ours, unchecked = ours;
    best.pack = c_pack;
    best.unpack = c_unpack;
    unchecked.pack = unchecked_pack;
    unchecked.unpack = unchecked_unpack;
    snprintf(label, sizeof label, "pack %s", name);
    compare_calls(label, CALLS, (struct versions){{pack_short, &ours}, {pack_short, &best}, {pack_short, &unchecked}});
    snprintf(label, sizeof label, "unpack %s", name);
    compare_calls(label, CALLS, (struct versions){{unpack_short, &ours}, {unpack_short, &best}, {unpack_short, &unchecked}});
}

void time_calls(void)
{
    time_short("amino, no residues", GULL_AMINO, 0);
    time_short("amino, one packet of 6", GULL_AMINO, 6);
    time_short("DNA, no residues", GULL_DNA, 0);
    time_short("DNA, one packet of 15", GULL_DNA, 15);
}
