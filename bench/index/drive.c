// Makes a recording, a table and an index, repeats one call, and prints its last answer with a sum of the buffers that it was lent.
#include <stdint.h>
#include <stdio.h>
#include <stdlib.h>
#include <string.h>
typedef uint64_t u64;
typedef uint32_t u32;
#define NAME(side, call) side##_##call
#define OF(side, call) NAME(side, call)
#define CALL(call) OF(SIDE, call)
u32 CALL(start_index)(const u32 *, size_t, u32 *, size_t, size_t *);
u32 CALL(grow)(u32 *, size_t, const u32 *, size_t, u32 *, size_t, u32 *);
u32 CALL(jump)(const u32 *, size_t, u64, const u32 *, size_t, u64, u32 *, size_t, size_t *, u64 *);
#ifdef BY_HAND // a run by hand has its answer in one word
u64 c_play_run(u32 *, size_t, const u32 *, size_t, size_t, u32 *, size_t);
static u32 play_run(u32 *t, size_t tn, const u32 *w, size_t n, u32 *answers, size_t an, size_t *packets) {
    u64 r = c_play_run(t, tn, w, n, 0, answers, an);
    *packets = r >> 32;
    return r >> 32 == 0xffffffff ? (u32)r : 0;
}
#else
u32 vrt49_play_run(u32 *, size_t, const u32 *, size_t, size_t, u32 *, size_t, size_t *, size_t *);
static u32 play_run(u32 *t, size_t tn, const u32 *w, size_t n, u32 *answers, size_t an, size_t *packets) {
    size_t next;
    return vrt49_play_run(t, tn, w, n, 0, answers, an, packets, &next);
}
#endif
enum { RECORD = 89, CONTENTS = 4100, MOST = 1024, EVERY = 1024, PAGE = 2882, ENTRY = 5, LONGEST = 70, GROWN = 3000, PLAYED = 100000, LATE = 1000 };
static u32 t[1 + 32 * RECORD], lent[1 + 32 * RECORD], ix[CONTENTS + MOST * PAGE], a[ENTRY], *w, *answers;
static size_t tn, n, *places;
static u32 state = 12345, r;
static u32 any(u32 below) {
    state = state * 1664525 + 1013904223;
    return (state >> 8) % below;
}
static u32 word(void) { return any(65536) << 16 | any(65536); }
static u32 identifier(u32 s) { return 0x1000 + 7 * s; }
// The packets of the play bench: a data packet of 64 body words, and a context packet that carries fields 29, 27, 24, 23, 21 and 18.
static size_t data(u32 *p, u32 s, u32 count) {
    size_t k = 0;
    p[k++] = 0x14600000 | count << 16 | 70;
    p[k++] = identifier(s);
    p[k++] = word();
    p[k++] = any(100);
    while (k < 70)
        p[k++] = word();
    return k;
}
static size_t context(u32 *p, u32 s, u32 count) {
    u32 made[] = {0x40600000 | count << 16 | 15, identifier(s), word(), any(100), word(), 1u << 29 | 1 << 27 | 1 << 24 | 1 << 23 | 1 << 21 | 1 << 18,
                  word() >> 1, word(), word(), word(), word() >> 16, word(), word() >> 1, word(), word() >> 16};
    memcpy(p, made, sizeof made);
    return 15;
}
// A recording of so many packets of the streams in turn; every 32nd of a stream, the first too, is a context packet.
static void record(size_t packets, u32 streams) {
    u32 counts[32][2] = {{0}};
    w = calloc(packets * LONGEST + 1, sizeof *w);
    places = calloc(packets + 1, sizeof *places);
    answers = calloc(packets * ENTRY, sizeof *answers);
    for (size_t i = 0; i < packets; i++) {
        u32 s = i % streams, tuned = i / streams % 32 == 0;
        u32 count = counts[s][tuned] = (counts[s][tuned] + (any(8) ? 1 : 3)) % 16;
        n += (tuned ? context : data)(w + n, s, count);
        places[i + 1] = n;
    }
}
static void grow(size_t from, size_t to) {
    for (size_t i = from; i < to; i++)
        r |= CALL(grow)(t, tn, w + places[i], n - places[i], ix, sizeof ix / 4, a);
}
static void put_place(u32 *at, u64 place) {
    at[0] = place >> 32;
    at[1] = place;
}
// Says in the contents that so many packets were taken in, and where they end.
static void take_in(u32 packets) {
    ix[0] = packets / EVERY + 1;
    ix[1] = packets;
    put_place(ix + 2, (u64)packets * LONGEST);
}
// Gives a grown index more entries, with the page of its last one.
static void lengthen(u32 entries) {
    u32 *e = ix + 4 * ix[0], length = e[3];
    for (u32 j = ix[0]; j < entries; j++, e += 4) {
        put_place(e + 4, (u64)j * EVERY * LONGEST);
        e[6] = e[2] + e[3];
        e[7] = length;
        memcpy(ix + e[6], ix + e[2], length * sizeof *ix);
    }
    take_in((entries - 1) * EVERY);
}
static u64 sum(u64 x, const u32 *words, size_t many) {
    for (size_t i = 0; i < many; i++)
        x = x * 31 + words[i];
    return x;
}
int main(int argc, char **argv) {
    // CALL(start_index grow boundary jump play) KIND STREAMS TIMES. The index of early has what was grown, that of late 1,000 entries. grow takes TIMES packets
    // in; boundary takes one in behind which there is an entry; jump jumps to packet 1,024 + KIND, with a minus over 1,000 entries; play plays the first
    // TIMES of 100,000 packets at once.
    if (argc != 5)
        return 2;
    const char *call = argv[1], *kind = argv[2];
    u32 streams = atoi(argv[3]);
    size_t times = atol(argv[4]), packets = strcmp(call, "play") ? GROWN : PLAYED, length = 0;
    u64 place = 0, to = 1024 + abs(atoi(kind));
    int late = !strcmp(kind, "late") || kind[0] == '-';
    tn = 1 + RECORD * streams;
    t[0] = streams;
    for (u32 s = 0; s < streams; s++)
        t[1 + RECORD * s] = identifier(s);
    record(packets, streams);
    if (!strcmp(call, "play")) {
        r = play_run(t, tn, w, n, answers, ENTRY * times, &length);
    } else {
        r = CALL(start_index)(t, tn, ix, sizeof ix / 4, &length);
        if (strcmp(call, "grow") || late)
            grow(0, GROWN);
        if (late)
            lengthen(LATE);
    }
    if (!strcmp(call, "start_index"))
        for (size_t i = 0; i < times; i++)
            r |= CALL(start_index)(t, tn, ix, sizeof ix / 4, &length);
    if (!strcmp(call, "grow"))
        grow(0, times);
    if (!strcmp(call, "boundary"))
        for (size_t i = 0; i < times; i++) {
            take_in((late ? LATE : 3) * EVERY - 1);
            grow(i % GROWN, i % GROWN + 1);
        }
    if (!strcmp(call, "jump"))
        for (size_t i = 0; i < times; i++)
            r |= CALL(jump)(w, n, 0, ix, sizeof ix / 4, to, lent, tn, &length, &place);
    size_t used = ix[0] ? ix[4 * ix[0] + 2] + ix[4 * ix[0] + 3] : 0;
    u64 x = sum(sum(sum(length + place, t, tn), lent, tn), a, ENTRY);
    printf("%u %016llx\n", r, (unsigned long long)sum(sum(x, ix, used), answers, ENTRY * packets));
    return 0;
}
