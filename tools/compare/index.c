// Runs the operations of crates/index_vectors/stdin, from standard input, with the calls of libvrt49, and prints what crates/index_vectors/stdout expects; the
// form of both is in tools/reference/README.md, under "The reference for an index". Exit 2 where the input is none, or where a refusal has written.
#include "vrt49.h"
#include <inttypes.h>
#include <stdio.h>
#include <stdlib.h>
#include <string.h>

enum { TABLE = 2900, WORDS = 40000, INDEX = 24000, STREAMS = 40 };
#define PATTERN 0xA5A5A5A5u

static uint32_t *table, *kept, *recording;
static size_t table_n, kept_n, recording_n, at;

static void fail(const char *what) {
    fprintf(stderr, "index: %s\n", what);
    exit(2);
}

// The next big-endian word of the input; at its end the first word of an operation is 0.
static uint32_t word(int first) {
    unsigned char b[4];
    size_t got = fread(b, 1, 4, stdin);
    if (got == 0 && first && feof(stdin))
        return 0;
    if (got != 4)
        fail("the input ends inside an operation");
    return (uint32_t)b[0] << 24 | (uint32_t)b[1] << 16 | (uint32_t)b[2] << 8 | b[3];
}
static uint32_t next(void) { return word(0); }
static size_t below(size_t most) {
    uint32_t n = next();
    if (n > most)
        fail("a number is too large");
    return n;
}
static void take(uint32_t *to, size_t n) {
    for (size_t i = 0; i < n; i++)
        to[i] = next();
}

// A buffer of n words, the first of them those given, the others the pattern.
static uint32_t *made(size_t n, const uint32_t *given, size_t given_n) {
    uint32_t *buffer = malloc(n * sizeof *buffer + 1);
    if (!buffer)
        fail("no memory");
    for (size_t i = 0; i < n; i++)
        buffer[i] = i < given_n ? given[i] : PATTERN;
    return buffer;
}
static void become(uint32_t **buffer, size_t *n, uint32_t *with, size_t with_n) {
    free(*buffer);
    *buffer = with;
    *n = with_n;
}

// The fold, and one word more of it.
static uint32_t fold_on(uint32_t y, uint32_t w) { return (y & 0xffff) * 65497u + (y >> 16) + w; }
static uint32_t fold(const uint32_t *words, size_t n) {
    uint32_t y = 0;
    for (size_t i = 0; i < n; i++)
        y = fold_on(y, words[i]);
    return y;
}

static void start_table(void) {
    uint32_t ids[STREAMS], choices[STREAMS], refusal;
    size_t n = below(STREAMS), length;
    take(ids, n);
    take(choices, n);
    size_t room = below(TABLE);
    become(&table, &table_n, made(room, 0, 0), room);
    refusal = vrt49_start(ids, n, choices, n, table, table_n, &length);
    if (refusal)
        printf("table refused %" PRIu32 "\n", refusal);
    else
        printf("table %zu\n", length);
}

static void poke(uint32_t *into, size_t into_n) {
    size_t place = below(into_n), n = below(into_n - place);
    take(into + place, n);
    printf("poke %zu\n", n);
}

static void start_index(void) {
    size_t length;
    uint32_t refusal = vrt49_start_index(table, table_n, kept, kept_n, &length);
    if (refusal) {
        printf("start refused %" PRIu32 " fold %" PRIu32 "\n", refusal, fold(kept, kept_n));
        return;
    }
    at = 0;
    printf("start %zu fold %" PRIu32 "\n", length, fold(kept, kept_n));
}

// Grows once; y: the fold of the answers so far, u: the undeclared so far. A refusal writes no answer.
static uint32_t grow_once(int alone, uint32_t *y, uint32_t *u) {
    const uint32_t *words = recording + (at < recording_n ? at : recording_n);
    size_t n = at < recording_n ? recording_n - at : 0;
    vrt49_entry entry, before;
    uint32_t refusal;
    if (alone && n && (words[0] & 0xffff) < n)
        n = words[0] & 0xffff;
    memset(&entry, 0x5A, sizeof entry);
    before = entry;
    refusal = vrt49_grow_entry(table, table_n, words, n, kept, kept_n, &entry);
    if (refusal) {
        if (memcmp(&entry, &before, sizeof entry))
            fail("a refusal has written an answer");
        return refusal;
    }
    *u += entry.number == VRT49_STREAM;
    at += entry.size;
    *y = fold_on(fold_on(fold_on(*y, entry.number), entry.size), entry.type);
    *y = fold_on(fold_on(*y, entry.stream), entry.missing);
    return 0;
}

static void grow(void) {
    uint32_t most = next(), alone = next(), done = 0, y = 0, u = 0, refusal = 0;
    while (done < most && (refusal = grow_once(alone == 1, &y, &u)) == 0)
        done++;
    printf("grow %" PRIu32 " undeclared %" PRIu32 " answers %" PRIu32, done, u, y);
    if (refusal)
        printf(" refused %" PRIu32 " place %" PRIu32 " bit %" PRIu32, VRT49_NUMBER(refusal), VRT49_PLACE(refusal), VRT49_BIT(refusal));
    printf(" table %" PRIu32 " index %" PRIu32 "\n", fold(table, table_n), fold(kept, kept_n));
}

static uint64_t two_words(void) {
    uint64_t high = next();
    return high << 32 | next();
}

static void jump(void) {
    size_t left_out = next();
    uint64_t first = two_words(), n = two_words(), place = 0;
    size_t room = below(TABLE), length = 0, from = left_out < recording_n ? left_out : recording_n;
    uint32_t *lent = made(room, 0, 0), refusal;
    refusal = vrt49_jump(recording + from, recording_n - from, first, kept, kept_n, n, lent, room, &length, &place);
    if (refusal && (length || place))
        fail("a refusal has written an answer");
    if (refusal)
        printf("jump refused %" PRIu32, refusal);
    else
        printf("jump %zu place %" PRIu64, length, place);
    printf(" table %" PRIu32 "\n", fold(lent, room));
    free(lent);
}

static void longer(void) {
    size_t n = below(INDEX);
    if (n < kept_n)
        fail("an index becomes shorter");
    become(&kept, &kept_n, made(n, kept, kept_n), n);
    printf("longer %zu\n", n);
}

static void show_entry(void) {
    size_t j = below(VRT49_INDEX_ENTRIES - 1), k;
    if (kept_n < VRT49_INDEX_CONTENTS)
        fail("no such entry");
    for (k = 0, printf("entry"); k < 4; k++)
        printf(" %" PRIu32, kept[4 + 4 * j + k]);
    puts("");
}

int main(void) {
    uint32_t what;
    table = made(0, 0, 0);
    kept = made(0, 0, 0);
    recording = made(0, 0, 0);
    for (unsigned long number = 0; (what = word(1)) != 0; number++) {
        size_t n;
        printf("%lu ", number);
        switch (what) {
        case 1: start_table(); break;
        case 2:
            n = below(WORDS);
            become(&recording, &recording_n, made(n, 0, 0), n);
            take(recording, n);
            printf("words %zu\n", n);
            break;
        case 3:
            n = below(INDEX);
            become(&kept, &kept_n, made(n, 0, 0), n);
            printf("room %zu\n", n);
            break;
        case 4: poke(kept, kept_n); break;
        case 5: poke(table, table_n); break;
        case 6: start_index(); break;
        case 7: grow(); break;
        case 8: jump(); break;
        case 9: longer(); break;
        case 10:
            at = next();
            printf("at %zu\n", at);
            break;
        case 11: show_entry(); break;
        default: fail("no such operation");
        }
    }
    return 0;
}
