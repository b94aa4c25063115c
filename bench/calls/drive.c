// Makes a table, packets and pages, repeats one call, and prints its last answer with a sum of the buffers that it was lent.
#include <stdint.h>
#include <stdio.h>
#include <stdlib.h>
#include <string.h>
typedef uint64_t u64;
typedef uint32_t u32;
#define NAME(side, call) side##_##call
#define OF(side, call) NAME(side, call)
#define CALL(call) OF(SIDE, call)
#define REPEAT(answer) for (size_t i = 0; i < times; i++) r |= answer
u32 CALL(read)(const u32 *, size_t, u32 *);
u32 CALL(write)(const u32 *, const u32 *, size_t, u32 *, size_t, size_t, size_t *);
u32 CALL(read_survey)(const u32 *, size_t, u32 *);
u32 CALL(write_survey)(const u32 *, const u32 *, size_t, u32 *, size_t, size_t, size_t *);
u32 CALL(play)(u32 *, size_t, const u32 *, size_t, u32 *);
u32 CALL(save)(const u32 *, size_t, u32 *, size_t, size_t *);
u32 CALL(put_back)(const u32 *, size_t, u32 *, size_t, size_t *);
u32 CALL(reading)(const u32 *, size_t, size_t, u32, u32 *, u32 *, int64_t *, float *);
u32 CALL(readings)(const u32 *, size_t, size_t, u32 *, u32 *, int64_t *, float *, float *);
u32 CALL(held_words)(const u32 *, size_t, size_t, u32, u32 *, size_t, size_t *);
enum { CHOICE = 14, RECORD = 89, LONGEST = 2882 };
static u32 state = 12345;
static u32 word(void) {
    state = state * 1664525 + 1013904223;
    return state >> 8 << 16 | (state * 2654435761u >> 16);
}
// A data packet of n body words with identifier, seconds, fraction and trailer.
static size_t data(u32 *w, u32 identifier, size_t n) {
    size_t at = 0;
    w[at++] = 0x14600000 | (n + 6);
    w[at++] = identifier;
    w[at++] = word();
    w[at++] = 7;
    w[at++] = word();
    for (size_t i = 0; i < n; i++)
        w[at++] = word();
    w[at++] = word();
    return at;
}
// A data packet of 49A, with class too: vectors of 3 unsigned items of 8 bits, and 8 bits of padding, so that n leaves 1 when it is divided by 3.
static size_t surveyed(u32 *w, u32 identifier, size_t n) {
    size_t at = data(w + 2, identifier, n);
    w[0] = 0x1c600000 | (n + 8);
    w[1] = identifier;
    w[2] = 0x40fffffa;
    w[3] = 0x000a0002;
    return at + 2;
}
// A context packet of a size in words, with a body given.
static size_t context(u32 *w, u32 identifier, size_t size, const u32 *body) {
    w[0] = 0x40600000 | size;
    w[1] = identifier;
    w[2] = word();
    w[3] = 7;
    w[4] = word();
    memcpy(w + 5, body, (size - 5) * sizeof *body);
    return size;
}
// Fields 29, 27, 24, 23, 21 and 18, whose first words are small.
static const u32 small[] = {1u << 29 | 1 << 27 | 1 << 24 | 1 << 23 | 1 << 21 | 1 << 18, 1, 2, 3, 4, 0xff80, 6, 7, 8, 0xffe0};
// The same, but that the last breaks its rule: a temperature of more than 16 bits.
static const u32 broken[] = {1u << 29 | 1 << 27 | 1 << 24 | 1 << 23 | 1 << 21 | 1 << 18, 1, 2, 3, 4, 0xff80, 6, 7, 8, 0x1ffe0};
// Fields 29, 27, 23, 21, 20 and 19, whose first words are all 2^16 or more.
static const u32 large[] = {1u << 29 | 1 << 27 | 1 << 23 | 1 << 21 | 1 << 20 | 1 << 19, 0x10001, 2, 0xfff20003, 4, 0x7fff0001, 0x01000007, 8, 0x00010009, 10, 0xff80ff80};
// All 21 fields of bits 30 to 10, of which 22 is not held. Their words are their own places, but for the format's, 16 bits in fields of 16, and the
// state's, which has over-range set, another value without its enable, and user bits.
static size_t all_fields(u32 *w, u32 identifier) {
    u32 body[75] = {0x7ffffc00};
    for (u32 i = 1; i < 75; i++)
        body[i] = i;
    body[23] = 0xf20ab05a;
    body[24] = 0x3cf;
    return context(w, identifier, 5 + 75, body);
}
static u64 sum(u64 x, const u32 *w, size_t n) {
    for (size_t i = 0; i < n; i++)
        x = x * 31 + w[i];
    return x;
}
int main(int argc, char **argv) {
    // CALL(read write read_survey write_survey play save put_back reading readings held_words) KIND(data survey context large broken all) SIZE TIMES: SIZE
    // is body words of a data packet, or streams of a table; all holds 20 fields of each stream, else six are held; 49A is chosen where KIND is survey
    if (argc != 5)
        return 2;
    const char *kind = argv[2];
    size_t size = atol(argv[3]), times = atol(argv[4]);
    int packet_alone = !strcmp(argv[1], "read") || !strcmp(argv[1], "read_survey") || !strncmp(argv[1], "write", 5), survey = !strcmp(kind, "survey");
    size_t streams = packet_alone ? 1 : size, words = packet_alone ? size : 64;
    static u32 w[70000], out[70000], t[2900], page[LONGEST], a[22], parts[16], kinds[21], fractions[21];
    static int64_t hertz[21];
    static float first[21], second[21];
    size_t n = 0, tn = 1 + RECORD * streams, pn = 0, written = 0;
    u32 r = 0;
    t[0] = streams;
    for (size_t s = 0; s < streams; s++) {
        t[1 + RECORD * s] = 0x1000 + s;
        t[1 + RECORD * s + CHOICE] = survey;
    }
    for (size_t s = 0; s < streams; s++) {
        n = !strcmp(kind, "all") ? all_fields(w, 0x1000 + s) : context(w, 0x1000 + s, 15, small);
        r |= CALL(play)(t, tn, w, n, a);
    }
    r |= CALL(save)(t, tn, page, LONGEST, &pn);
    u32 last = 0x1000 + streams - 1;
    n = survey ? surveyed(w, last, words)
        : !strcmp(kind, "data") ? data(w, last, words)
        : !strcmp(kind, "context") ? context(w, last, 15, small)
        : !strcmp(kind, "broken") ? context(w, last, 15, broken)
        : context(w, last, 16, large);
    r |= survey ? CALL(read_survey)(w, n, a) : CALL(read)(w, n, a);
    for (int i = 0; i < 7; i++)
        parts[i] = a[i];
    for (int i = 0; i < 7; i++)
        parts[7 + i] = a[8 + i];
    parts[14] = a[17];
    parts[15] = a[18];
    u32 body = a[15], length = a[16];
    const char *call = argv[1];
    if (!strcmp(call, "read"))
        REPEAT(CALL(read)(w, n, a));
    if (!strcmp(call, "write"))
        REPEAT(CALL(write)(parts, w + body, length, out, 70000, 3, &written));
    if (!strcmp(call, "read_survey"))
        REPEAT(CALL(read_survey)(w, n, a));
    if (!strcmp(call, "write_survey"))
        REPEAT(CALL(write_survey)(parts, w + body, length, out, 70000, 3, &written));
    if (!strcmp(call, "play"))
        REPEAT(CALL(play)(t, tn, w, n, a));
    if (!strcmp(call, "save"))
        REPEAT(CALL(save)(t, tn, page, LONGEST, &written));
    if (!strcmp(call, "put_back"))
        REPEAT(CALL(put_back)(page, pn, t, tn, &written));
    if (!strcmp(call, "reading"))
        REPEAT(CALL(reading)(t, tn, streams - 1, 21, kinds, fractions, hertz, first));
    if (!strcmp(call, "readings"))
        REPEAT(CALL(readings)(t, tn, streams - 1, kinds, fractions, hertz, first, second));
    if (!strcmp(call, "held_words"))
        REPEAT(CALL(held_words)(t, tn, streams - 1, 21, out, 2, &written));
    written = sum(sum(written, kinds, 21), fractions, 21);
    written = sum(sum(sum(written, (u32 *)hertz, 42), (u32 *)first, 21), (u32 *)second, 21);
    printf("%u %016llx\n", r, (unsigned long long)sum(sum(sum(sum(written, t, tn), page, pn), out, 70000), a, 22));
    return 0;
}
