// What the smaller calls of libvrt49.a are measured against, in C by hand, with the same checks in the same order: trailers, fields of a body, a table's
// start, test and page length, and what it says of a stream. The tests of bodies and tables are those of the play bench.
#include "../calls/by_hand.c"
enum { LIST = 12 };
u32 c_trailer_parts(u32 w, u32 *a) {
    a[0] = w >> 20;
    a[1] = w >> 8 & 0xfff;
    a[2] = w >> 7 & 1;
    a[3] = w & 127;
    return 0;
}
u32 c_trailer_word(u32 enables, u32 indicators, u32 e, u32 associated, u32 *word) {
    if (enables > 0xfff || indicators > 0xfff || e > 1 || associated > 127)
        return VALUE;
    *word = enables << 20 | indicators << 8 | e << 7 | associated;
    return 0;
}
u32 c_field_count(u32 indicator) { return ones(indicator & 0x7fffff00); }
u32 c_check_body(const u32 *body, size_t n) { return n ? check_context(body, n) : LAYOUT; }
u32 c_find(const u32 *body, size_t n, u32 bit, size_t *a) {
    a[0] = a[1] = a[2] = 0;
    if (bit > 30 || bit < 8 || !n || !(body[0] >> bit & 1))
        return 0;
    size_t at = 1 + words(body[0] & -(2u << bit)), size = size_of(bit);
    if (bit < 10) {
        if (bit == 8 && body[0] >> 9 & 1) {
            if (n < at + 2)
                return 0;
            at += 2 + (size_t)body[at + 1];
        }
        if (n < at + 2)
            return 0;
        u32 x = body[at], y = body[at + 1];
        size = bit == 9 ? 2 + (size_t)y : 2 + (x >> 16 & 511) + (x & 511) + (y >> 16) + ((y & 0x7fff) << (y >> 15 & 1));
    }
    if (n < at + size)
        return 0;
    a[0] = 1;
    a[1] = at;
    a[2] = size;
    return 0;
}
u32 c_start(const u32 *ids, size_t streams, const u32 *choices, size_t choices_n, u32 *t, size_t tn, size_t *length) {
    if (streams < 1 || streams > 32 || choices_n != streams)
        return LIST;
    for (size_t i = 1; i < streams; i++)
        for (size_t j = 0; j < i; j++)
            if (ids[i] == ids[j])
                return LIST;
    for (size_t i = 0; i < streams; i++)
        if (choices[i] > 1)
            return LIST;
    if (tn < 1 + RECORD * streams)
        return ROOM;
    t[0] = streams;
    for (size_t s = 0; s < streams; s++) {
        u32 *r = t + 1 + RECORD * s;
        r[0] = ids[s];
        memset(r + 1, 0, (RECORD - 1) * 4);
        r[CHOICE] = choices[s];
    }
    *length = 1 + RECORD * streams;
    return 0;
}
u32 c_well_made(const u32 *t, size_t tn) { return table_good(t, tn); }
u32 c_page_length(const u32 *t, size_t tn, size_t *length) {
    if (!table_good(t, tn))
        return TABLE;
    size_t n = 2 + 2 * t[0];
    for (size_t s = 0; s < t[0]; s++)
        n += HEAD + words(t[2 + RECORD * s]);
    if (n > MOST)
        return SIZE;
    *length = n;
    return 0;
}
// The record of a stream, or the refusal of the table or of the stream's number.
static inline u32 record_of(const u32 *t, size_t tn, size_t s, const u32 **r) {
    if (!table_good(t, tn))
        return TABLE;
    if (s >= t[0])
        return STREAM;
    *r = t + 1 + RECORD * s;
    return 0;
}
u32 c_identity(const u32 *t, size_t tn, size_t s, u32 *identifier, u32 *choice, u32 *held) {
    const u32 *r;
    u32 refused = record_of(t, tn, s, &r);
    if (refused)
        return refused;
    *identifier = r[0];
    *choice = r[CHOICE];
    *held = r[1];
    return 0;
}
u32 c_counts(const u32 *t, size_t tn, size_t s, u32 kind, u32 *a) {
    const u32 *r;
    u32 refused = record_of(t, tn, s, &r);
    if (refused)
        return refused;
    if (kind > 5 || !counts[kind])
        return VALUE;
    const u32 *c = r + counts[kind];
    a[0] = c[2] != 0;
    a[1] = c[0];
    a[2] = c[1];
    a[3] = c[2] ? c[2] - 1 : 0;
    return 0;
}
u32 c_own_table(const u32 *t, size_t tn, size_t s, u32 *out, size_t room, size_t *length) {
    const u32 *r;
    u32 refused = record_of(t, tn, s, &r);
    if (refused)
        return refused;
    if (room < 1 + RECORD)
        return ROOM;
    out[0] = 1;
    memcpy(out + 1, r, RECORD * 4);
    *length = 1 + RECORD;
    return 0;
}
// Which fields of the bits, from bit high to bit low, differ in two records.
static inline u32 differing(const u32 *v, const u32 *w, u32 bits, u32 high, u32 low) {
    u32 found = 0;
    UNROLLED
    for (u32 bit = high; bit >= low; bit--) {
        size_t n = size_of(bit);
        if (bits >> bit & 1 && differ(v, w, n))
            found |= 1u << bit;
        v += n;
        w += n;
    }
    return found;
}
u32 c_changed(const u32 *t, size_t tn, size_t s, const u32 *u, size_t un, size_t v, u32 *fields) {
    if (!table_good(t, tn) || !table_good(u, un))
        return TABLE;
    if (s >= t[0] || v >= u[0])
        return STREAM;
    const u32 *p = t + 1 + RECORD * s, *q = u + 1 + RECORD * v;
    u32 changed = p[1] ^ q[1], both = p[1] & q[1];
    changed |= differing(p + HEAD, q + HEAD, both, 30, 15);
    if (both & LAST)
        changed |= differing(p + slot_of(14), q + slot_of(14), both, 14, 10);
    *fields = changed;
    return 0;
}
