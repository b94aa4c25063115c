// A run of packets over a table of streams, for both ways of C by hand. UNROLLED, copy, fields_bad, highest_bad and slots_bad are those of the file that
// includes this. The checks give the number of a refusal; where it is, is worked out by refusal_of where a packet is refused, and not before.
#include "../pad.h"
typedef uint8_t u8;
enum { EMPTY = 1, TYPE, BITS, SHORT, CUT, CLASS, TIME, INDICATOR, LAYOUT, FIELD, STREAM, TABLE = 18, PAD = 20 };
enum { CHOICE = 14, ENTRY = 5 };
#define TIME_LIMIT 1000000000000u
// the place of a type's count in a record
static const u8 counts[6] = {0, 2, 0, 5, 8, 11};
// a packet that was read: its stream's record, which is none where it is not declared, and the stream
struct packet {
    u32 kind, count, *record;
    long stream;
    const u32 *body;
};
// INDICATOR, LAYOUT, FIELD: how many words the fields of fixed size have comes from counts, and their rules come last. Not inlined, so that data packets do
// not pay for its registers.
static __attribute__((noinline)) u32 check_context(const u32 *body, size_t n) {
    u32 bits = body[0], bad = 0;
    if (bits & 255)
        return INDICATOR;
    size_t at = 1 + words(bits);
    if (bits & (1 << 9 | 1 << 8)) {
        if (bits >> 9 & 1) {
            if (n < at + 2)
                return LAYOUT;
            bad |= body[at] >> 24;
            at += 2 + (size_t)body[at + 1];
        }
        if (bits >> 8 & 1) {
            if (n < at + 2)
                return LAYOUT;
            u32 a = body[at], b = body[at + 1];
            bad |= a & 0xfe00fe00;
            at += 2 + (a >> 16 & 511) + (a & 511) + (b >> 16) + ((b & 0x7fff) << (b >> 15 & 1));
        }
    }
    if (at != n)
        return LAYOUT;
    return bad | fields_bad(body + 1, bits, 0) ? FIELD : 0;
}
// FIELD of a context body that stands at a place of its packet: the highest field that breaks its rule, its bit and its place.
static inline u32 field_refusal(const u32 *body, u32 place) {
    u32 bits = body[0], bit;
    const u32 *f = highest_bad(body + 1, bits, &bit);
    if (!bit) {
        f = body + 1 + words(bits);
        bit = bits >> 9 & 1 && f[0] >> 24 ? 9 : 8;
        if (bit == 8 && bits >> 9 & 1)
            f += 2 + (size_t)f[1];
    }
    return FIELD | bit << 8 | (place + (u32)(f - body)) << 16;
}
// A refusal of the packet w as the library gives it: its number, of FIELD the field's bit from bit 8 on, and the place of its word from bit 16 on. Not inlined, so
// that accepted packets do not pay for its registers.
static __attribute__((noinline)) u32 refusal_of(u32 number, const u32 *w) {
    if (number <= CUT)
        return number;
    u32 h = w[0], streamed = 0x3a >> (h >> 28) & 1, class = 1 + streamed;
    u32 fraction = class + (h >> 26 & 2) + ((h >> 22 & 3) != 0), body = fraction + (h >> 20 & 3 ? 2 : 0);
    switch (number) {
    case CLASS: return CLASS | class << 16;
    case TIME: return TIME | fraction << 16;
    case FIELD: return field_refusal(w + body, body);
    case STREAM: return STREAM | streamed << 16;
    case PAD: return PAD | (h >> 27 & 1 ? class : 0) << 16;
    default: return number | body << 16; // INDICATOR and LAYOUT
    }
}
// The record of an identifier, and its stream; none where it is not declared.
static inline u32 *seek(u32 *t, u32 identifier, long *stream) {
    size_t streams = t[0], s = 0;
    u32 *r = t + 1;
    while (r[0] != identifier) {
        r += RECORD;
        if (++s == streams)
            return 0;
    }
    *stream = s;
    return r;
}
// PAD of a 49A packet with header h. Not inlined, so that plain packets do not pay for its registers.
static __attribute__((noinline)) u32 check_survey(u32 h, const u32 *class, u32 n) {
    return (h >> 26 & 3) != 3 || pad_bad(class[0], class[1], n) ? PAD : 0;
}
// A packet's stream is looked for before its class: a data packet is read by the choice of its stream.
static inline u32 read_packet(u32 *t, const u32 *w, size_t n, struct packet *p) {
    if (!n)
        return EMPTY;
    u32 h = w[0], kind = h >> 28, size = h & 0xffff, tsf = h >> 20 & 3;
    if (kind > 5)
        return TYPE;
    if (h >> (kind < 4 ? 24 : 25) & 3)
        return BITS;
    u32 streamed = 0x3a >> kind & 1, classed = h >> 27 & 1, trailed = kind < 4 ? h >> 26 & 1 : 0;
    u32 class = 1 + streamed, fraction = class + 2 * classed + ((h >> 22 & 3) != 0);
    u32 body = fraction + (tsf ? 2 : 0);
    if (size < body + trailed + (kind == 4))
        return SHORT;
    if (n < size)
        return CUT;
    p->record = streamed ? seek(t, w[1], &p->stream) : 0;
    u32 survey = kind == 1 && p->record && p->record[CHOICE];
    if (classed && w[class] >> 24 && !survey)
        return CLASS;
    if (tsf == 2 && ((u64)w[fraction] << 32 | w[fraction + 1]) >= TIME_LIMIT)
        return TIME;
    p->kind = kind;
    p->count = h >> 16 & 15;
    p->body = w + body;
    if (kind == 4)
        return check_context(w + body, size - body);
    return survey ? check_survey(h, w + class, size - body - trailed) : 0;
}
// Whether the words before the slots are good: the held indicator, the counts and the choice.
static inline int head_good(const u32 *r) {
    if (r[1] & ~HELD || (r[1] && !r[10]) || r[CHOICE] > 1)
        return 0;
    UNROLLED
    for (const u32 *c = r + 2; c < r + CHOICE; c += 3)
        if (c[2] > 16 || (!c[2] && c[0] | c[1]))
            return 0;
    return 1;
}
static int record_good(const u32 *r) { return head_good(r) && !slots_bad(r + HEAD, r[1]); }
static int table_good(const u32 *t, size_t n) {
    size_t s = n ? t[0] : 0;
    if (n < 1 + RECORD * s || s < 1 || s > 32)
        return 0;
    for (size_t i = 1; i < s; i++)
        for (size_t j = 0; j < i; j++)
            if (t[1 + RECORD * i] == t[1 + RECORD * j])
                return 0;
    for (size_t i = 0; i < s; i++)
        if (!record_good(t + 1 + RECORD * i))
            return 0;
    return 1;
}
// Each field of the bits, from bit high to bit low, into its slot; they stand in the body one after the other. Gives the place after them.
static inline const u32 *put(u32 *slot, const u32 *body, u32 bits, u32 high, u32 low) {
    UNROLLED
    for (u32 bit = high; bit >= low; bit--) {
        size_t n = size_of(bit);
        if (bits >> bit & 1) {
            copy(slot, body, n);
            body += n;
        }
        slot += n;
    }
    return body;
}
// And of a whole record.
static inline void fill(u32 *r, const u32 *body, u32 bits) {
    body = put(r + HEAD, body, bits, 30, 15);
    if (bits & LAST)
        put(r + slot_of(14), body, bits, 14, 10);
}
// The over-range count and the state are copied with the rest; then the count is cleared, and of the old state comes back what the new one does not speak of.
static __attribute__((noinline)) void hold(u32 *r, const u32 *body) {
    u32 bits = body[0] & FIXED, *state = r + slot_of(16), old = *state;
    r[1] |= bits & HELD;
    fill(r, body + 1, bits);
    r[slot_of(22)] = 0;
    if (bits >> 16 & 1) {
        u32 mask = spoken(*state);
        *state = (*state & mask) | (old & ~mask);
    }
}
// Plays a packet that was read; gives the stream, or -1 where there is none, and the missing that it adds.
static inline long hear(const struct packet *p, u32 *missing) {
    u32 *r = p->record;
    if (!r)
        return -1;
    u32 *c = r + counts[p->kind];
    u32 more = c[2] ? (p->count - c[2]) & 15 : 0;
    c[0]++;
    c[1] += more;
    c[2] = p->count + 1;
    if (p->kind == 4)
        hold(r, p->body);
    *missing = more;
    return p->stream;
}
// The entry of a packet whose refusal ends the run.
static __attribute__((noinline)) void enter_refusal(u32 *e, u32 number, const u32 *w) {
    u32 refusal = refusal_of(number, w);
    e[0] = number;
    e[1] = 0;
    e[2] = refusal >> 16;
    e[3] = refusal >> 8 & 255;
    e[4] = 0;
}
u64 c_play_run(u32 *t, size_t lt, const u32 *w, size_t n, size_t from, u32 *answers, size_t la) {
    if (!table_good(t, lt))
        return 0xffffffff00000000 | TABLE;
    size_t most = la / ENTRY, done = 0, at = from;
    while (done < most && at < n) {
        struct packet p;
        u32 *e = answers + ENTRY * done++;
        u32 refused = read_packet(t, w + at, n - at, &p), missing;
        if (refused) {
            enter_refusal(e, refused, w + at);
            break;
        }
        u32 size = w[at] & 0xffff;
        long s = hear(&p, &missing);
        e[1] = size;
        if (s < 0) {
            e[0] = STREAM;
            e[2] = 0x3a >> (w[at] >> 28) & 1;
            e[3] = e[4] = 0;
        } else {
            e[0] = 0;
            e[2] = p.kind;
            e[3] = s;
            e[4] = missing;
        }
        at += size;
    }
    return (u64)done << 32 | at;
}
