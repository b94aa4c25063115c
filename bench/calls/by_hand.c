// What the calls of libvrt49.a are measured against: read, write, play, save, put back, readings and held words in C by hand, with the
// same checks in the same order and the same entries written. The tests of bodies, records and tables are those of the play bench, of its file BY_HAND;
// read and write by 49A stand in survey.c.
#include BY_HAND
enum { ROOM = 13, VALUE = 14, SIZE = 15, PAGE = 19, MOST = 65535 };
// where the parts that a header announces begin, and how many words are required
struct places {
    u32 class, seconds, fraction, body, required;
};
static inline struct places places_of(u32 h) {
    u32 kind = h >> 28, trailed = kind < 4 ? h >> 26 & 1 : 0;
    struct places p;
    p.class = 1 + (0x3a >> kind & 1);
    p.seconds = p.class + (h >> 26 & 2);
    p.fraction = p.seconds + ((h >> 22 & 3) != 0);
    p.body = p.fraction + (h >> 20 & 3 ? 2 : 0);
    p.required = p.body + trailed + (kind == 4);
    return p;
}
// Reads a packet: 0, or the number of a refusal alone.
static inline u32 read_plain(const u32 *w, size_t n, u32 *a) {
    if (!n)
        return EMPTY;
    u32 h = w[0], kind = h >> 28, size = h & 0xffff, tsi = h >> 22 & 3, tsf = h >> 20 & 3;
    if (kind > 5)
        return TYPE;
    if (h >> (kind < 4 ? 24 : 25) & 3)
        return BITS;
    struct places p = places_of(h);
    if (size < p.required)
        return SHORT;
    if (n < size)
        return CUT;
    u32 classed = h >> 27 & 1, trailed = kind < 4 ? h >> 26 & 1 : 0;
    u32 oui = classed ? w[p.class] : 0, codes = classed ? w[p.class + 1] : 0;
    u32 high = tsf ? w[p.fraction] : 0, low = tsf ? w[p.fraction + 1] : 0;
    if (oui >> 24)
        return CLASS;
    if (tsf == 2 && ((u64)high << 32 | low) >= TIME_LIMIT)
        return TIME;
    u32 length = size - p.body - trailed;
    if (kind == 4) {
        u32 refused = check_context(w + p.body, length);
        if (refused)
            return refused;
    }
    a[0] = kind;
    a[1] = classed;
    a[2] = trailed;
    a[3] = kind < 4 ? 0 : h >> 24 & 1;
    a[4] = tsi;
    a[5] = tsf;
    a[6] = h >> 16 & 15;
    a[7] = size;
    a[8] = 0x3a >> kind & 1 ? w[1] : 0;
    a[9] = oui;
    a[10] = codes >> 16;
    a[11] = codes & 0xffff;
    a[12] = tsi ? w[p.seconds] : 0;
    a[13] = high;
    a[14] = low;
    a[15] = p.body;
    a[16] = length;
    a[17] = trailed ? w[size - 1] : 0;
    return 0;
}
u32 c_read(const u32 *w, size_t n, u32 *a) {
    u32 refused = read_plain(w, n, a);
    return refused ? refusal_of(refused, w) : 0;
}
u32 c_write(const u32 *q, const u32 *body, size_t n, u32 *out, size_t room, size_t at, size_t *written) {
    u32 kind = q[0], classed = q[1], trailed = q[2], tsm = q[3], tsi = q[4], tsf = q[5];
    if (kind > 5)
        return TYPE;
    if (classed > 1 || trailed > 1 || tsm > 1 || tsi > 3 || tsf > 3 || q[6] > 15 || (kind < 4 ? tsm : trailed))
        return VALUE;
    if (classed && (q[8] >> 24 || q[9] >> 16 || q[10] >> 16))
        return VALUE;
    if (kind == 4 && !n)
        return SHORT;
    u32 h = kind << 28 | classed << 27 | trailed << 26 | tsm << 24 | tsi << 22 | tsf << 20 | q[6] << 16;
    struct places p = places_of(h);
    size_t size = p.body + n + trailed;
    if (size > MOST)
        return SIZE;
    if (tsf == 2 && ((u64)q[12] << 32 | q[13]) >= TIME_LIMIT)
        return TIME;
    if (kind == 4) {
        u32 refused = check_context(body, n);
        if (refused)
            return refused;
    }
    if (room < size || room - size < at)
        return ROOM;
    u32 *w = out + at;
    *w++ = h | size;
    if (0x3a >> kind & 1)
        *w++ = q[7];
    if (classed) {
        *w++ = q[8];
        *w++ = q[9] << 16 | q[10];
    }
    if (tsi)
        *w++ = q[11];
    if (tsf) {
        *w++ = q[12];
        *w++ = q[13];
    }
    memcpy(w, body, n * 4);
    if (trailed)
        w[n] = q[14];
    *written = size;
    return 0;
}
u32 c_play(u32 *t, size_t tn, const u32 *w, size_t n, u32 *a) {
    struct packet p;
    u32 missing, refused;
    if (!table_good(t, tn))
        return TABLE;
    refused = read_packet(t, w, n, &p);
    if (refused)
        return refusal_of(refused, w);
    long s = hear(&p, &missing);
    if (s < 0)
        return refusal_of(STREAM, w);
    a[0] = w[0] & 0xffff;
    a[1] = p.kind;
    a[2] = s;
    a[3] = missing;
    return 0;
}
// Each field of the bits, from bit high to bit low, out of its slot into a body, one after the other. Gives the place after them.
static inline u32 *take(u32 *body, const u32 *slot, u32 bits, u32 high, u32 low) {
    UNROLLED
    for (u32 bit = high; bit >= low; bit--) {
        size_t n = size_of(bit);
        if (bits >> bit & 1) {
            copy(body, slot, n);
            body += n;
        }
        slot += n;
    }
    return body;
}
u32 c_save(const u32 *t, size_t tn, u32 *page, size_t room, size_t *written) {
    if (!table_good(t, tn))
        return TABLE;
    size_t streams = t[0], length = 2 + 2 * streams, at = length;
    for (size_t s = 0; s < streams; s++)
        length += HEAD + words(t[2 + RECORD * s]);
    if (length > MOST)
        return SIZE;
    if (room < length)
        return ROOM;
    page[0] = streams;
    page[1] = length;
    for (size_t s = 0; s < streams; s++) {
        const u32 *r = t + 1 + RECORD * s;
        u32 held = r[1], *b = page + at;
        memcpy(b, r, HEAD * 4);
        b += HEAD;
        b = take(b, r + HEAD, held, 30, 15);
        if (held & LAST)
            b = take(b, r + slot_of(14), held, 14, 10);
        page[2 + 2 * s] = at;
        page[3 + 2 * s] = b - page - at;
        at = b - page;
    }
    *written = length;
    return 0;
}
// Whether the record of a body is good: the slots of what is not held will be zero.
static inline int body_good(const u32 *b) { return head_good(b) && !fields_bad(b + HEAD, b[1], 1); }
static int page_good(const u32 *p, size_t n) {
    size_t streams = n ? p[0] : 0, at = 2 + 2 * streams;
    if (streams < 1 || streams > 32 || n < at || p[1] != n)
        return 0;
    for (size_t s = 0; s < streams; s++) {
        size_t length = p[3 + 2 * s];
        if (p[2 + 2 * s] != at || length < HEAD || n - at < length || p[at + 1] & ~HELD || HEAD + words(p[at + 1]) != length)
            return 0;
        at += length;
    }
    if (at != n)
        return 0;
    for (size_t i = 1; i < streams; i++)
        for (size_t j = 0; j < i; j++)
            if (p[p[2 + 2 * i]] == p[p[2 + 2 * j]])
                return 0;
    for (size_t s = 0; s < streams; s++)
        if (!body_good(p + p[2 + 2 * s]))
            return 0;
    return 1;
}
u32 c_put_back(const u32 *p, size_t n, u32 *t, size_t tn, size_t *written) {
    if (!page_good(p, n))
        return PAGE;
    size_t streams = p[0];
    if (tn < 1 + RECORD * streams)
        return ROOM;
    t[0] = streams;
    for (size_t s = 0; s < streams; s++) {
        const u32 *b = p + p[2 + 2 * s];
        u32 *r = t + 1 + RECORD * s;
        memcpy(r, b, HEAD * 4);
        memset(r + HEAD, 0, (RECORD - HEAD) * 4);
        fill(r, b + HEAD, b[1]);
    }
    *written = 1 + RECORD * streams;
    return 0;
}
// the fields that show hertz, and all that show a number
#define HERTZ 0x3e200000u
#define SHOWN 0x3fa40000u
// What a held field shows, as numbers. What it does not show is zero already.
static inline __attribute__((always_inline)) void show(const u32 *r, u32 bit, u32 *kind, u32 *parts, int64_t *hertz, float *first, float *second) {
    const u32 *f;
    if (!(SHOWN >> bit & 1)) {
        *kind = 5;
    } else if (HERTZ >> bit & 1) {
        f = r + (bit == 21 ? slot_of(21) : slot_of(29) + 2 * (29 - bit));
        *kind = 1;
        *parts = f[1] & 0xfffff;
        *hertz = (int64_t)((u64)f[0] << 32 | f[1]) >> 20;
    } else if (bit == 24) {
        *kind = 2;
        *first = (int16_t)r[slot_of(24)] / 128.0f;
    } else if (bit == 23) {
        f = r + slot_of(23);
        *kind = 3;
        *first = (int16_t)f[0] / 128.0f;
        *second = (int16_t)(f[0] >> 16) / 128.0f;
    } else {
        *kind = 4;
        *first = (int16_t)r[slot_of(18)] / 64.0f;
    }
}
u32 c_reading(const u32 *t, size_t tn, size_t s, u32 bit, u32 *kind, u32 *parts, int64_t *hertz, float *levels) {
    if (!table_good(t, tn))
        return TABLE;
    if (s >= t[0])
        return STREAM;
    if (bit < 10 || bit > 30)
        return VALUE;
    const u32 *r = t + 1 + RECORD * s;
    *kind = 6;
    *parts = 0;
    *hertz = 0;
    levels[0] = levels[1] = 0;
    if (r[1] >> bit & 1)
        show(r, bit, kind, parts, hertz, levels, levels + 1);
    return 0;
}
u32 c_readings(const u32 *t, size_t tn, size_t s, u32 *kinds, u32 *parts, int64_t *hertz, float *first, float *second) {
    if (!table_good(t, tn))
        return TABLE;
    if (s >= t[0])
        return STREAM;
    const u32 *r = t + 1 + RECORD * s;
    u32 held = r[1];
    for (u32 i = 0; i < 20; i++) // four at a time by the compiler
        kinds[i] = 6;
    kinds[20] = 6;
    memset(parts, 0, 21 * sizeof *parts);
    memset(hertz, 0, 21 * sizeof *hertz);
    memset(first, 0, 21 * sizeof *first);
    memset(second, 0, 21 * sizeof *second);
    UNROLLED
    for (u32 i = 0; i < 21; i++)
        if (held >> (30 - i) & 1)
            show(r, 30 - i, kinds + i, parts + i, hertz + i, first + i, second + i);
    return 0;
}
u32 c_held_words(const u32 *t, size_t tn, size_t s, u32 bit, u32 *out, size_t room, size_t *written) {
    if (!table_good(t, tn))
        return TABLE;
    if (s >= t[0])
        return STREAM;
    if (bit < 10 || bit > 30)
        return VALUE;
    const u32 *r = t + 1 + RECORD * s;
    size_t n = r[1] >> bit & 1 ? size_of(bit) : 0;
    if (room < n)
        return ROOM;
    const u32 *slot = r + slot_of(bit);
    for (size_t i = 0; i < n; i++)
        out[i] = slot[i];
    *written = n;
    return 0;
}
