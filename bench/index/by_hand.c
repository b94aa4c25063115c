// What the calls of an index are measured against: starting, growing and jumping in C by hand, with the same checks in the same order and the same words left.
// The tests of tables, pages and packets, and what a packet does to a table, are those of the play bench, of its file BY_HAND.
#include <stddef.h>
#include <stdint.h>
// Many functions here read packets; where packets are played one after the other, reading is to be inlined as in the play bench.
#define INLINED __attribute__((flatten))
INLINED uint64_t c_play_run(uint32_t *, size_t, const uint32_t *, size_t, size_t, uint32_t *, size_t);
#include "../small/by_hand.c"
enum { PLACE = 21, CONTENTS = 4100, ENTRIES = 1024, SPACING = 1024, MOST_TABLE = 1 + 32 * RECORD };
// a number of two words, the high one first
static inline u64 two_of(const u32 *w) { return (u64)w[0] << 32 | w[1]; }
static inline void put_two(u32 *w, u64 number) {
    w[0] = number >> 32;
    w[1] = number;
}
// The four words of entry j.
static inline size_t entry_of(size_t j) { return 4 + 4 * j; }
// Whether the contents of an index are well made.
static int index_good(const u32 *ix, size_t n) {
    if (n < CONTENTS)
        return 0;
    size_t entries = ix[0], packets = ix[1], at = CONTENTS;
    if (entries != packets / SPACING + 1 || entries > ENTRIES || two_of(ix + 2) > (u64)MOST * packets)
        return 0;
    u64 most = 0;
    for (const u32 *e = ix + entry_of(0); e < ix + entry_of(entries); e += 4) {
        if (two_of(e) > most || e[2] != at)
            return 0;
        at += e[3];
        most += (u64)MOST * SPACING;
    }
    return at <= n;
}
// The words of the page of a table that is well made.
static size_t page_words(const u32 *t) {
    size_t n = 2;
    for (size_t s = 0; s < t[0]; s++)
        n += 2 + HEAD + words(t[2 + RECORD * s]);
    return n;
}
// Lays the page of such a table.
static void lay_page(const u32 *t, u32 *page, size_t n) {
    u32 *b = page + 2 + 2 * t[0];
    page[0] = t[0];
    page[1] = n;
    for (size_t s = 0; s < t[0]; s++) {
        const u32 *r = t + 1 + RECORD * s;
        u32 *body = b;
        memcpy(b, r, HEAD * 4);
        b = take(b + HEAD, r + HEAD, r[1], 30, 15);
        if (r[1] & LAST)
            b = take(b, r + slot_of(14), r[1], 14, 10);
        page[2 + 2 * s] = body - page;
        page[3 + 2 * s] = b - body;
    }
}
// Makes entry j of a table at a word place, where its page fits from an offset on.
static int make_entry(const u32 *t, u32 *ix, size_t n, size_t j, u64 place, size_t at) {
    size_t length = page_words(t);
    if (at > UINT32_MAX || n < at + length)
        return 0;
    u32 *e = ix + entry_of(j);
    put_two(e, place);
    e[2] = at;
    e[3] = length;
    lay_page(t, ix + at, length);
    return 1;
}
u32 c_start_index(const u32 *t, size_t tn, u32 *ix, size_t n, size_t *length) {
    if (!table_good(t, tn))
        return TABLE;
    if (!make_entry(t, ix, n, 0, 0, CONTENTS))
        return ROOM;
    ix[0] = 1;
    ix[1] = ix[2] = ix[3] = 0;
    *length = CONTENTS + ix[entry_of(0) + 3];
    return 0;
}
// Plays a packet on a table that is well made; its answer is an entry. One of no declared stream has one too.
static INLINED u32 step(u32 *t, const u32 *w, size_t n, u32 *a) {
    struct packet p;
    u32 refused = read_packet(t, w, n, &p), missing = 0;
    if (refused)
        return refusal_of(refused, w);
    long s = hear(&p, &missing);
    a[0] = s < 0 ? STREAM : 0;
    a[1] = w[0] & 0xffff;
    a[2] = s < 0 ? 0x3a >> p.kind & 1 : p.kind;
    a[3] = s < 0 ? 0 : s;
    a[4] = missing;
    return 0;
}
// Counts a packet of so many words.
static inline void count_packet(u32 *ix, u32 size) {
    ix[1]++;
    put_two(ix + 2, two_of(ix + 2) + size);
}
// Takes a packet in behind which there is an entry. It is played on a copy of the table, which is copied back where the entry fits. Not inlined, so that other
// packets do not pay for the copy.
static __attribute__((noinline)) u32 grow_to_entry(u32 *t, const u32 *w, size_t n, u32 *ix, size_t in, u32 *a) {
    u32 copied[MOST_TABLE], said[ENTRY], entries = ix[0], *last = ix + entry_of(entries - 1);
    size_t layout = 1 + RECORD * (size_t)t[0];
    memcpy(copied, t, layout * 4);
    u32 refused = step(copied, w, n, said);
    if (refused)
        return refused;
    if (entries == ENTRIES || !make_entry(copied, ix, in, entries, two_of(ix + 2) + said[1], (size_t)last[2] + last[3]))
        return ROOM;
    memcpy(t, copied, layout * 4);
    memcpy(a, said, sizeof said);
    count_packet(ix, said[1]);
    ix[0]++;
    return 0;
}
u32 c_grow(u32 *t, size_t tn, const u32 *w, size_t n, u32 *ix, size_t in, u32 *a) {
    if (!table_good(t, tn))
        return TABLE;
    if (!index_good(ix, in))
        return PAGE;
    if ((ix[1] + 1) % SPACING == 0)
        return grow_to_entry(t, w, n, ix, in, a);
    u32 refused = step(t, w, n, a);
    if (!refused)
        count_packet(ix, a[1]);
    return refused;
}
// Plays so many packets from a place on: 1, and the place behind them; or 0 where one of them does not go on.
static INLINED int play_on(u32 *t, const u32 *w, size_t n, u32 packets, size_t *place) {
    size_t at = *place;
    for (; packets; packets--) {
        struct packet p;
        u32 missing;
        if (read_packet(t, w + at, n - at, &p))
            return 0;
        hear(&p, &missing);
        at += w[at] & 0xffff;
    }
    *place = at;
    return 1;
}
u32 c_jump(const u32 *w, size_t n, u64 first, const u32 *ix, size_t in, u64 number, u32 *t, size_t tn, size_t *length, u64 *place) {
    if (!index_good(ix, in))
        return PAGE;
    if (number > ix[1])
        return PLACE;
    u32 made[MOST_TABLE];
    const u32 *e = ix + entry_of(number / SPACING);
    u64 from = two_of(e);
    size_t layout;
    if (c_put_back(ix + e[2], e[3], made, MOST_TABLE, &layout) || from < first || from - first > n)
        return PAGE;
    size_t at = from - first;
    if (!play_on(made, w, n, number % SPACING, &at))
        return PAGE;
    if (tn < layout)
        return ROOM;
    memcpy(t, made, layout * 4);
    *length = layout;
    *place = first + at;
    return 0;
}
