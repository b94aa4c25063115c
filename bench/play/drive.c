// Makes a started table and a recording, calls a run of packets over them, and prints its answer with a sum
// of the table's and the answers' words.
#include <stdint.h>
#include <stdio.h>
#include <stdlib.h>
typedef uint64_t u64;
typedef uint32_t u32;
u64 FN(u32 *, size_t, const u32 *, size_t, size_t, u32 *, size_t);
enum { CHOICE = 14, RECORD = 89, ENTRY = 5, SPARE = 3, LONGEST = 512 };
static u32 state = 12345;
static u32 any(u32 below) {
    state = state * 1664525 + 1013904223;
    return (state >> 8) % below;
}
static u32 word(void) { return any(65536) << 16 | any(65536); }
static u32 identifier(u32 s) { return 0x1000 + 7 * s; }
// A data packet of 64 body words; gives its words.
static size_t data(u32 *w, u32 s, u32 count) {
    size_t n = 0;
    w[n++] = 0x14600000 | count << 16 | 70;
    w[n++] = identifier(s);
    w[n++] = word();
    w[n++] = any(100);
    w[n++] = word();
    for (int i = 0; i < 64; i++)
        w[n++] = word();
    w[n++] = word();
    return n;
}
// A data packet of 49A of 64 body words: vectors of 3 unsigned items of 8 bits, and 8 bits of padding.
static size_t surveyed(u32 *w, u32 s, u32 count) {
    size_t n = 0;
    w[n++] = 0x1c600000 | count << 16 | 72;
    w[n++] = identifier(s);
    w[n++] = 0x40fffffa;
    w[n++] = 0x000a0002;
    w[n++] = word();
    w[n++] = any(100);
    w[n++] = word();
    for (int i = 0; i < 64; i++)
        w[n++] = word();
    w[n++] = word();
    return n;
}
// A context packet that carries fields 29, 27, 24, 23, 21 and 18.
static size_t context(u32 *w, u32 s, u32 count) {
    size_t n = 0;
    w[n++] = 0x40600000 | count << 16 | 15;
    w[n++] = identifier(s);
    w[n++] = word();
    w[n++] = any(100);
    w[n++] = word();
    w[n++] = 1u << 29 | 1 << 27 | 1 << 24 | 1 << 23 | 1 << 21 | 1 << 18;
    w[n++] = word() >> 1;
    w[n++] = word();
    w[n++] = word();
    w[n++] = word();
    w[n++] = word() >> 16;
    w[n++] = word();
    w[n++] = word() >> 1;
    w[n++] = word();
    w[n++] = word() >> 16;
    return n;
}
// A context packet that carries fields 29, 27, 24, 22, 21 and 16: the over-range count and any state.
static size_t stated(u32 *w, u32 s, u32 count) {
    size_t n = 0;
    w[n++] = 0x40600000 | count << 16 | 15;
    w[n++] = identifier(s);
    w[n++] = word();
    w[n++] = any(100);
    w[n++] = word();
    w[n++] = 1u << 29 | 1 << 27 | 1 << 24 | 1 << 22 | 1 << 21 | 1 << 16;
    w[n++] = word() >> 1;
    w[n++] = word();
    w[n++] = word();
    w[n++] = word();
    w[n++] = word() >> 16;
    w[n++] = word();
    w[n++] = word() >> 1;
    w[n++] = word();
    w[n++] = word() & 0xff0ff0ff;
    return n;
}
// A data packet of no declared stream: there are at most 32.
static size_t strange(u32 *w, u32 s, u32 count) { return data(w, 32 + s, count); }
// A packet of any type with any parts and fields; in one of three, a bit or the size is changed, so that some
// are refused for each reason.
static size_t mixed(u32 *w, u32 s, u32 count) {
    static const int sizes[32] = {0, 0, 0, 0, 0, 0, 0, 0, 2, 2, 1, 13, 13, 11, 11, 2,
                                  1, 2, 1, 1, 2, 2, 1, 1, 1, 2, 2, 2,  2,  2,  1,  0};
    u32 kind = any(3) ? 4 : any(6), classed = any(2), tsi = any(4), tsf = any(4);
    u32 trailed = kind < 4 ? any(2) : 0;
    size_t n = 1;
    if (kind != 0 && kind != 2)
        w[n++] = identifier(s + !any(8));
    if (classed) {
        w[n++] = word() >> 8;
        w[n++] = word();
        if (kind == 1 && any(4)) { // a class of 49A, with vectors of 1 or 2
            w[n - 2] = 8 * any(4) << 27 | 0xfffffa;
            w[n - 1] = any(2) << 20 | (1 + any(13)) << 16 | any(2);
        }
    }
    if (tsi)
        w[n++] = word();
    if (tsf) {
        w[n++] = any(16) ? any(232) : 232 + any(3);
        w[n++] = any(2) ? 0xd4a50fff + any(2) : word();
    }
    if (kind == 4) {
        u32 bits = word() & (any(2) ? 0xffffff00 : word() & word() & 0xffffff00);
        w[n++] = bits;
        for (int bit = 30; bit >= 8; bit--)
            if (bits >> bit & 1) {
                u32 more = bit == 9 ? any(4) : bit == 8 ? any(2) : 0;
                for (int i = 0; i < sizes[bit]; i++)
                    w[n++] = any(16) ? any(256) : word() >> 1;
                if (bit == 16 && any(8))
                    w[n - 1] = word() & 0xff0ff0ff;
                if (bit == 15)
                    w[n - 2] = any(4) ? 0xa00003cf : word() & 0xffff0fff;
                if (bit == 9)
                    w[n - 1] = more;
                if (bit == 8) {
                    w[n - 2] = more << 16 | more;
                    w[n - 1] = more << 16 | any(2) << 15 | more;
                    more = more * 3 + (w[n - 1] >> 15 & more);
                }
                while (more--)
                    w[n++] = word();
            }
    } else
        for (u32 i = any(5); i--;)
            w[n++] = word();
    if (trailed)
        w[n++] = word();
    w[0] = kind << 28 | classed << 27 | trailed << 26 | tsi << 22 | tsf << 20 | count << 16 | n;
    if (!any(6))
        w[any(2) ? 0 : any(n)] ^= 1u << any(32);
    else if (!any(6))
        w[0] += any(3) - 1;
    return n;
}
static u64 sum(u64 x, const u32 *w, size_t n) {
    for (size_t i = 0; i < n; i++)
        x = x * 31 + w[i];
    return x;
}
int main(int argc, char **argv) {
    // MODE KIND(0 data 1 context 2 mixed 3 context with state 4 data of 49A 5 data of no declared stream) STREAMS PACKETS; of mixed packets every second
    // stream is by 49A
    // modes: 0 no call, 1 a run of 0 packets, 2 a run of all, 3 a run of all and then one of 0 packets,
    // 4 a run from each packet, and after it one of 0 packets over a table with a bit changed
    if (argc != 5)
        return 2;
    int mode = atoi(argv[1]), kind = atoi(argv[2]);
    size_t streams = atol(argv[3]), packets = atol(argv[4]);
    size_t lt = 1 + RECORD * streams + SPARE, la = ENTRY * packets + SPARE;
    u32 *t = calloc(lt, 4), *answers = calloc(la, 4), *w = calloc((packets + 1) * LONGEST, 4);
    size_t *places = calloc(packets + 1, sizeof *places);
    u32 last[32] = {0};
    t[0] = streams;
    for (size_t s = 0; s < streams; s++) {
        t[1 + RECORD * s] = identifier(s);
        t[1 + RECORD * s + CHOICE] = kind == 4 || (kind == 2 && s % 2 == 0);
    }
    static size_t (*const make[])(u32 *, u32, u32) = {data, context, mixed, stated, surveyed, strange};
    size_t n = 0;
    for (size_t i = 0; i < packets; i++) {
        u32 s = i % streams;
        last[s] = (last[s] + (any(8) ? 1 : 3)) % 16;
        places[i] = n;
        n += make[kind](w + n, s, last[s]);
    }
    u64 r = 0, x = 0;
    if (mode == 1)
        r = FN(t, lt, w, n, 0, answers, 0);
    if (mode == 2 || mode == 3)
        r = FN(t, lt, w, n, 0, answers, la);
    if (mode == 3)
        x = FN(t, lt, w, n, 0, answers, 0);
    if (mode == 4)
        for (size_t i = 0; i < packets; i++) {
            size_t end = any(4) ? n : places[i] + any(n - places[i] < 9 ? n - places[i] : 9);
            r = r * 31 + FN(t, lt, w, end, places[i], answers, ENTRY * any(4));
            x = sum(sum(x, t, lt), answers, ENTRY * 4);
            u32 *at = t + (any(2) ? 0 : RECORD * any(streams)) + any(RECORD), was = *at;
            *at ^= 1u << any(32);
            r = r * 31 + FN(t, any(4) ? lt : lt - SPARE - any(2), w, n, 0, answers, 0);
            *at = was;
        }
    x = sum(sum(x, t, lt), answers, la);
    printf("%016llx %016llx\n", (unsigned long long)r, (unsigned long long)x);
    return 0;
}
