// Makes packed words, and items with their tags, of one payload format; unpacks or packs once, or does neither; and prints the number that the call answers, the length that it tells, and a sum of the buffers.
//     drive MODE LINK FIELD ITEM EVENT CHANNEL N    MODE: 1 unpack, 0 its set-up alone; 2 pack, 3 its set-up alone
// LINK is 1 where the format is link-efficient; FIELD, ITEM, EVENT and CHANNEL are the bits of a packing field, of an item and of its tags; N is the number of items.
#include <stdint.h>
#include <stdio.h>
#include <stdlib.h>
#include <string.h>
typedef uint64_t u64;
typedef uint32_t u32;
typedef uint16_t u16;
typedef uint8_t u8;
u32 UNPACK(u32, u32, size_t, const u32 *, size_t, u64 *, size_t, u8 *, size_t, u16 *, size_t);
u32 PACK(u32, u32, const u64 *, size_t, const u8 *, size_t, const u16 *, size_t, u32 *, size_t, size_t *);
static u32 next(u32 x) { return x * 1664525 + 1013904223; }
// The words that n items take.
static size_t words_of(u32 link, u32 field, size_t n) {
    u32 used = (link || field == 64) ? 32 : 32 / field * field;
    return ((size_t)field * n + used - 1) / used;
}
// Any words; gives the number that the items go on from.
static u32 make_words(u32 *words, size_t m) {
    u32 x = 12345;
    for (size_t i = 0; i < m; i++)
        words[i] = x = next(x);
    return x;
}
// Items and tags that fit their bits.
static void make_items(u32 x, u32 item, u32 event, u32 channel, u64 *items, u8 *events, u16 *channels, size_t n) {
    for (size_t i = 0; i < n; i++) {
        x = next(x);
        items[i] = item == 64 ? x : ((u64)x * 2654435761u >> 7) & (((u64)1 << item) - 1);
        events[i] = x & ((1 << event) - 1);
        channels[i] = x >> 8 & ((1 << channel) - 1);
    }
}
static u64 sum(const u64 *items, const u8 *events, const u16 *channels, size_t n, const u32 *words, size_t m) {
    u64 s = 0;
    for (size_t i = 0; i < n; i++)
        s = s * 31 + items[i] + events[i] * 7 + channels[i];
    for (size_t i = 0; i < m; i++)
        s = s * 31 + words[i];
    return s;
}
int main(int argc, char **argv) {
    if (argc != 8)
        return 2;
    int mode = atoi(argv[1]);
    u32 link = atoi(argv[2]), field = atoi(argv[3]), item = atoi(argv[4]), event = atoi(argv[5]), channel = atoi(argv[6]);
    size_t n = atol(argv[7]), m = words_of(link, field, n);
    u32 first = link << 31 | event << 20 | channel << 16 | (field - 1) << 6 | (item - 1);
    u32 *words = calloc(m + 1, sizeof *words);
    u64 *items = calloc(n + 1, sizeof *items);
    u8 *events = calloc(n + 1, sizeof *events);
    u16 *channels = calloc(n + 1, sizeof *channels);
    u32 x = make_words(words, m);
    if (mode >= 2)
        make_items(x, item, event, channel, items, events, channels, n);
    else // they are written either way
        memset(items, 0, (n + 1) * sizeof *items);
    u32 number = 0;
    size_t length = 0;
    if (mode == 1)
        number = UNPACK(first, 0, n, words, m, items, n, events, n, channels, n);
    if (mode == 2)
        number = PACK(first, 0, items, n, events, n, channels, n, words, m, &length);
    printf("%u %zu %016lx\n", number, length, (unsigned long)sum(items, events, channels, n, words, m));
    return 0;
}
