// Makes a body or a table, repeats one call, and prints its last answer with a sum of what it wrote.
#include <stdint.h>
#include <stdio.h>
#include <stdlib.h>
#include <string.h>
typedef uint64_t u64;
typedef uint32_t u32;
#define NAME(side, call) side##_##call
#define OF(side, call) NAME(side, call)
#define CALL(call) OF(SIDE, call)
#define REPEAT(answered, answer) for (size_t i = 0; i < times; i++) answered |= answer
u32 CALL(trailer_parts)(u32, u32 *);
u32 CALL(trailer_word)(u32, u32, u32, u32, u32 *);
u32 CALL(field_count)(u32);
u32 CALL(check_body)(const u32 *, size_t);
u32 CALL(find)(const u32 *, size_t, u32, size_t *);
u32 CALL(words_needed)(u32, u32, size_t, size_t *);
u32 CALL(coordinates_of)(u32, u32, size_t, size_t, u32 *);
u32 CALL(item_at)(u32, u32, size_t, const u32 *, size_t *);
u32 CALL(signed)(u32, u64, int64_t *);
u32 CALL(start)(const u32 *, size_t, const u32 *, size_t, u32 *, size_t, size_t *);
u32 CALL(well_made)(const u32 *, size_t);
u32 CALL(page_length)(const u32 *, size_t, size_t *);
u32 CALL(identity)(const u32 *, size_t, size_t, u32 *, u32 *, u32 *);
u32 CALL(counts)(const u32 *, size_t, size_t, u32, u32 *);
u32 CALL(own_table)(const u32 *, size_t, size_t, u32 *, size_t, size_t *);
u32 CALL(changed)(const u32 *, size_t, size_t, const u32 *, size_t, size_t, u32 *);
u32 CALL(play)(u32 *, size_t, const u32 *, size_t, u32 *);
enum { RECORD = 89, CONTEXT = 0x40000000 };
// Bodies: fields 29, 27, 24, 23, 21 and 18, whose first words are small; fields 29, 27, 23, 21, 20 and 19, whose first words are all 2^16 or more.
static const u32 small[] = {1u << 29 | 1 << 27 | 1 << 24 | 1 << 23 | 1 << 21 | 1 << 18, 1, 2, 3, 4, 0xff80, 6, 7, 8, 0xffe0};
static const u32 large[] = {1u << 29 | 1 << 27 | 1 << 23 | 1 << 21 | 1 << 20 | 1 << 19, 0x10001, 2, 0xfff20003, 4, 0x7fff0001, 0x01000007, 8, 0x00010009, 10, 0xff80ff80};
// Formats of 12-bit items: link-efficient, and processing-efficient in fields of 16 bits.
static const u32 link = 1u << 31 | 11 << 6 | 11, processing = 15 << 6 | 11;
// A format of complex 16-bit items in vectors of 4, with a repeat of 4: a group has 32 items. Bit 23 makes it one of component repeating.
static const u32 complex16 = 1u << 31 | 1 << 29 | 15 << 6 | 15, fours = 3 << 16 | 3;
static _Alignas(64) u32 t[1 + RECORD * 32]; // the count of memset hangs on the place
static u32 own[1 + RECORD], ids[32], choices[32], a[4];
static size_t place[3], length;
static int64_t value;
static u32 refused, answer;
static u64 sum(u64 x, const u32 *w, size_t n) {
    for (size_t i = 0; i < n; i++)
        x = x * 31 + w[i];
    return x;
}
// A table of so many streams, every second by 49A, of which each holds the six fields, or all that can be held: 20.
static void table(size_t streams, int all) {
    u32 w[2 + 75] = {0}, n = all ? 75 : sizeof small / sizeof *small;
    for (size_t s = 0; s < streams; s++) {
        ids[s] = 0x1000 + s;
        choices[s] = s % 2;
    }
    refused |= CALL(start)(ids, streams, choices, streams, t, 1 + RECORD * streams, &length);
    memcpy(w + 2, small, sizeof small);
    if (all) {
        w[2] = 0x7ffffc00;
        for (u32 i = 1; i < n; i++)
            w[2 + i] = i;
        w[2 + 23] = 0xf20ab05a; // the state, with over-range set, another value without its enable, and user bits
        w[2 + 24] = processing; // field 15 has a rule that 24 breaks
    }
    for (size_t s = 0; s < streams; s++) {
        w[0] = CONTEXT | (2 + n);
        w[1] = ids[s];
        refused |= CALL(play)(t, 1 + RECORD * streams, w, 2 + n, a);
    }
}
// The calls over words and numbers; size is items, or the bits of one. The items of a payload are asked for in turn: there are more of them than turns,
// in 128 groups or more.
static void of_words(const char *call, const char *kind, size_t size, size_t times) {
    int of_large = !strcmp(kind, "large");
    const u32 *body = of_large ? large : small;
    size_t n = of_large ? sizeof large / sizeof *large : sizeof small / sizeof *small;
    u32 format = strcmp(kind, "link") ? processing : link, repeated = complex16 | (strcmp(kind, "component") ? 0 : 1 << 23);
    u32 at[4] = {0, 2, 1, 1};
    if (!strcmp(call, "trailer_parts"))
        REPEAT(refused, CALL(trailer_parts)(0x12345678 + i, a));
    if (!strcmp(call, "trailer_word"))
        REPEAT(refused, CALL(trailer_word)(0x123, 0x456, 1, i % 128, a));
    if (!strcmp(call, "field_count"))
        REPEAT(answer, CALL(field_count)(body[0]));
    if (!strcmp(call, "check_body"))
        REPEAT(refused, CALL(check_body)(body, n));
    if (!strcmp(call, "find"))
        REPEAT(refused, CALL(find)(body, n, of_large ? 19 : 18, place));
    if (!strcmp(call, "words_needed"))
        REPEAT(refused, CALL(words_needed)(format, 0, size, place));
    if (!strcmp(call, "coordinates_of"))
        REPEAT(refused, CALL(coordinates_of)(repeated, fours, size, i + 2, a));
    if (!strcmp(call, "item_at"))
        REPEAT(refused, CALL(item_at)(repeated, fours, size, (at[0] = i % 128, at), place));
    if (!strcmp(call, "signed"))
        REPEAT(refused, CALL(signed)(size, (u64)1 << (size - 1), &value));
}
// The calls over a table, of its last stream; that one's own table has another bandwidth.
static void of_table(const char *call, size_t streams, size_t times) {
    size_t tn = 1 + RECORD * streams, last = streams - 1;
    refused |= CALL(own_table)(t, tn, last, own, 1 + RECORD, &length);
    own[1 + 16]++;
    if (!strcmp(call, "start"))
        REPEAT(refused, CALL(start)(ids, streams, choices, streams, t, tn, &length));
    if (!strcmp(call, "well_made"))
        REPEAT(answer, CALL(well_made)(t, tn));
    if (!strcmp(call, "page_length"))
        REPEAT(refused, CALL(page_length)(t, tn, &length));
    if (!strcmp(call, "identity"))
        REPEAT(refused, CALL(identity)(t, tn, last, a, a + 1, a + 2));
    if (!strcmp(call, "counts"))
        REPEAT(refused, CALL(counts)(t, tn, last, 4, a));
    if (!strcmp(call, "own_table"))
        REPEAT(refused, CALL(own_table)(t, tn, last, own, 1 + RECORD, &length));
    if (!strcmp(call, "changed"))
        REPEAT(refused, CALL(changed)(own, 1 + RECORD, 0, t, tn, last, a));
}
int main(int argc, char **argv) {
    // CALL KIND(small large, link processing, channel component, all) SIZE TIMES: SIZE is streams of a table, items, or bits of one
    if (argc != 5)
        return 2;
    size_t size = atol(argv[3]), times = atol(argv[4]), streams = size <= 32 ? size : 1;
    table(streams, !strcmp(argv[2], "all"));
    of_words(argv[1], argv[2], size, times);
    of_table(argv[1], streams, times);
    printf("%u %u %016llx %zu %zu %zu %zu %lld\n", refused, answer, (unsigned long long)sum(sum(sum(0, t, 1 + RECORD * streams), own, 1 + RECORD), a, 4), place[0], place[1],
           place[2], length, (long long)value);
    return 0;
}
