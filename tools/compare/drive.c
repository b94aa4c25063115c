// Runs the calls of libvrt49.a over cases from standard input and writes what they answer; README.md has the form of both.
//     drive FIRST    FIRST is the number of the first case, for messages
// Every lent buffer stands between guard bytes. After each call the guards and the buffers that are only read must be as
// they were, and after a refusal all buffers must. A change ends the program with a line that names call, case and buffer.
// BEND=1 to 8 spoils one answer, to see that the comparison fails: see bend and bend_refusal.
#include "vrt49.h"
#include <stdio.h>
#include <stdlib.h>
#include <string.h>

enum { GUARD = 64, ARENA = 64 << 20, NOISE = 65536, MOST = 8, CONTENTS_FOLLOW = 0xFFFFFFFF };

// What a call takes, in the order of the header: w a word, q two words (a size or a 64-bit number), and buffers: i of words,
// l of 64-bit, h of 16-bit and b of 8-bit numbers, in capitals where the call writes them. Floats count as words; a pointer to a
// number or to an array of a fixed length is a buffer of so many entries, and a size_t one of 64-bit numbers.
static const struct {
    const char *name, *takes, *buffers[MOST];
} calls[] = {
    {"vrt49_read", "iI", {"words", "answer"}},
    {"vrt49_write", "iiIqL", {"parts", "body", "out", "length"}},
    {"vrt49_read_survey", "iI", {"words", "answer"}},
    {"vrt49_write_survey", "iiIqL", {"parts", "body", "out", "length"}},
    {"vrt49_trailer_parts", "wI", {"answer"}},
    {"vrt49_trailer_word", "wwwwI", {"word"}},
    {"vrt49_field_count", "w", {0}},
    {"vrt49_check_body", "i", {"body"}},
    {"vrt49_find", "iwL", {"body", "answer"}},
    {"vrt49_unpack", "wwqiLBH", {"words", "items", "events", "channels"}},
    {"vrt49_pack", "wwlbhIL", {"items", "events", "channels", "out", "length"}},
    {"vrt49_words_needed", "wwqL", {"length"}},
    {"vrt49_coordinates_of", "wwqqI", {"coordinates"}},
    {"vrt49_item_at", "wwqiL", {"coordinates", "item"}},
    {"vrt49_signed", "wqL", {"value"}},
    {"vrt49_start", "iiIL", {"ids", "choices", "table", "length"}},
    {"vrt49_well_made", "i", {"table"}},
    {"vrt49_play", "IiI", {"table", "words", "answer"}},
    {"vrt49_play_run", "IiqILL", {"table", "words", "answers", "packets", "next"}},
    {"vrt49_page_length", "iL", {"table", "length"}},
    {"vrt49_save", "iIL", {"table", "page", "length"}},
    {"vrt49_put_back", "iIL", {"page", "table", "length"}},
    {"vrt49_start_index", "iIL", {"table", "index", "length"}},
    {"vrt49_grow", "IiII", {"table", "words", "index", "answer"}},
    {"vrt49_jump", "iqiqILL", {"words", "index", "table", "length", "place"}},
    {"vrt49_reading", "iqwIILI", {"table", "kind", "parts", "hertz", "levels"}},
    {"vrt49_readings", "iqIILII", {"table", "kinds", "parts", "hertz", "first", "second"}},
    {"vrt49_held_words", "iqwIL", {"table", "out", "length"}},
    {"vrt49_identity", "iqIII", {"table", "identifier", "choice", "held"}},
    {"vrt49_counts", "iqwI", {"table", "answer"}},
    {"vrt49_own_table", "iqIL", {"table", "out", "length"}},
    {"vrt49_changed", "iqiqI", {"before", "after", "fields"}},
};
enum { CALLS = sizeof calls / sizeof *calls };

struct buffer {
    void *at;
    size_t n, size;
    int written;
};
static struct buffer b[MOST];
static uint64_t s[MOST];
static size_t buffers, scalars, used;

// All buffers of a case with their guards, and a copy from before the call.
static unsigned char *now, *before;
static uint32_t noise[NOISE];

// A buffer of no entries is handed over as null, as the header allows. Numbers and arrays of a fixed length are handed over by their place alone.
static uint32_t call(uint32_t which) {
#define B(k) (b[k].n ? b[k].at : 0), b[k].n
#define P(k) b[k].at
    switch (which) {
    case 0: return vrt49_read(B(0), P(1));
    case 1: return vrt49_write(P(0), B(1), B(2), s[0], P(3));
    case 2: return vrt49_read_survey(B(0), P(1));
    case 3: return vrt49_write_survey(P(0), B(1), B(2), s[0], P(3));
    case 4: return vrt49_trailer_parts(s[0], P(0));
    case 5: return vrt49_trailer_word(s[0], s[1], s[2], s[3], P(0));
    case 6: return vrt49_field_count(s[0]);
    case 7: return vrt49_check_body(B(0));
    case 8: return vrt49_find(B(0), s[0], P(1));
    case 9: return vrt49_unpack(s[0], s[1], s[2], B(0), B(1), B(2), B(3));
    case 10: return vrt49_pack(s[0], s[1], B(0), B(1), B(2), B(3), P(4));
    case 11: return vrt49_words_needed(s[0], s[1], s[2], P(0));
    case 12: return vrt49_coordinates_of(s[0], s[1], s[2], s[3], P(0));
    case 13: return vrt49_item_at(s[0], s[1], s[2], P(0), P(1));
    case 14: return vrt49_signed(s[0], s[1], P(0));
    case 15: return vrt49_start(B(0), B(1), B(2), P(3));
    case 16: return vrt49_well_made(B(0));
    case 17: return vrt49_play(B(0), B(1), P(2));
    case 18: return vrt49_play_run(B(0), B(1), s[0], B(2), P(3), P(4));
    case 19: return vrt49_page_length(B(0), P(1));
    case 20: return vrt49_save(B(0), B(1), P(2));
    case 21: return vrt49_put_back(B(0), B(1), P(2));
    case 22: return vrt49_start_index(B(0), B(1), P(2));
    case 23: return vrt49_grow(B(0), B(1), B(2), P(3));
    case 24: return vrt49_jump(B(0), s[0], B(1), s[1], B(2), P(3), P(4));
    case 25: return vrt49_reading(B(0), s[0], s[1], P(1), P(2), P(3), P(4));
    case 26: return vrt49_readings(B(0), s[0], P(1), P(2), P(3), P(4), P(5));
    case 27: return vrt49_held_words(B(0), s[0], s[1], B(1), P(2));
    case 28: return vrt49_identity(B(0), s[0], P(1), P(2), P(3));
    case 29: return vrt49_counts(B(0), s[0], s[1], P(1));
    case 30: return vrt49_own_table(B(0), s[0], B(1), P(2));
    default: return vrt49_changed(B(0), s[0], B(1), s[1], P(2));
    }
#undef B
#undef P
}

static void fail(const char *what) {
    fprintf(stderr, "drive: %s\n", what);
    exit(2);
}

static void take(void *to, size_t bytes) {
    if (fread(to, 1, bytes, stdin) != bytes)
        fail("the input ends inside a case");
}

static uint32_t word(void) {
    uint32_t w;
    take(&w, 4);
    return w;
}

static uint64_t two_words(void) {
    uint64_t low = word();
    return low | (uint64_t)word() << 32;
}

static void guard(size_t upto) {
    for (; used < upto; used++)
        now[used] = 0xC3 ^ used * 29;
}

static uint64_t noise_at(size_t i, size_t size) {
    uint64_t w = noise[i % NOISE];
    return size == 8 ? w << 32 | (w ^ 0xFFFFFFFF) : w;
}

// One buffer: its entries, then a place in the noise or the mark that the contents follow, filled up to whole words.
static void buffer(size_t size, int written) {
    struct buffer *x = &b[buffers++];
    x->n = word();
    x->size = size;
    x->written = written;
    size_t bytes = x->n * size, place = word();
    guard((used + GUARD + 7) / 8 * 8);
    if (used + bytes + 2 * GUARD > ARENA)
        fail("a case is too long");
    x->at = now + used;
    if (place == CONTENTS_FOLLOW)
        take(x->at, (bytes + 3) / 4 * 4);
    else
        for (size_t i = 0; i < x->n; i++) {
            uint64_t entry = noise_at(place + i, size);
            memcpy((unsigned char *)x->at + i * size, &entry, size); // the low bytes
        }
    used += bytes;
    guard(used + GUARD);
}

static void argument(char kind) {
    switch (kind) {
    case 'w': s[scalars++] = word(); break;
    case 'q': s[scalars++] = two_words(); break;
    case 'i': buffer(4, 0); break;
    case 'I': buffer(4, 1); break;
    case 'l': buffer(8, 0); break;
    case 'L': buffer(8, 1); break;
    case 'h': buffer(2, 0); break;
    case 'H': buffer(2, 1); break;
    case 'b': buffer(1, 0); break;
    default: buffer(1, 1); break;
    }
}

static size_t place_of(const struct buffer *x) { return (unsigned char *)x->at - now; }
static size_t end_of(const struct buffer *x) { return place_of(x) + x->n * x->size; }

// Says where the first change between two places is, and ends.
static void changed(uint32_t which, unsigned long number, uint32_t answer, size_t from, size_t to) {
    while (from < to && now[from] == before[from])
        from++;
    fprintf(stderr, "%s, case %lu, answered %u: ", calls[which].name, number, answer);
    for (size_t k = 0; k < buffers; k++) {
        const char *name = calls[which].buffers[k];
        if (from < place_of(&b[k])) {
            fprintf(stderr, "wrote before %s\n", name);
            exit(1);
        }
        if (from < end_of(&b[k])) {
            fprintf(stderr, "changed entry %zu of %s, which %s\n", (from - place_of(&b[k])) / b[k].size, name,
                    b[k].written ? "a refusal leaves alone" : "is only read");
            exit(1);
        }
        if (k + 1 == buffers || from < end_of(&b[k]) + GUARD) {
            fprintf(stderr, "wrote past the end of %s\n", name);
            exit(1);
        }
    }
    exit(1);
}

static void look(uint32_t which, unsigned long number, uint32_t answer) {
    size_t from = 0;
    for (size_t k = 0; k < buffers; k++)
        if (b[k].written && answer == 0) {
            if (memcmp(now + from, before + from, place_of(&b[k]) - from))
                changed(which, number, answer, from, place_of(&b[k]));
            from = end_of(&b[k]);
        }
    if (memcmp(now + from, before + from, used - from))
        changed(which, number, answer, from, used);
}

// Spoils one answer, and gives what is still to be spoilt: 1 the number of the third case, 2 an entry written by an accepted
// case, 3 the byte past a buffer, 4 an entry that is only read, 5 an entry that a refusal should leave alone.
static int bend(int how, unsigned long done, uint32_t *answer) {
    if (how == 1 && done == 2) {
        *answer ^= 1;
        return 0;
    }
    for (size_t k = 0; k < buffers; k++) {
        unsigned char *at = b[k].at;
        if (how == 3) {
            at[b[k].n * b[k].size] ^= 1;
            return 0;
        }
        if (b[k].n && ((how == 2 && b[k].written && *answer == 0) || (how == 4 && !b[k].written) ||
                       (how == 5 && b[k].written && *answer != 0))) {
            *at ^= 1;
            return 0;
        }
    }
    return how;
}

// The same of the first refusal that has it: 6 its place, 7 its bit, 8 the place that a run's entry has of it.
static int bend_refusal(int how, uint32_t which, uint32_t *answer) {
    if (how == 6 && VRT49_PLACE(*answer)) {
        *answer ^= 1 << 16;
        return 0;
    }
    if (how == 7 && VRT49_BIT(*answer)) {
        *answer ^= 1 << 8;
        return 0;
    }
    if (how != 8 || strcmp(calls[which].name, "vrt49_play_run") || *answer)
        return how;
    vrt49_entry *entries = b[2].at;
    size_t packets = *(size_t *)b[3].at;
    for (size_t i = 0; i < packets; i++)
        if (VRT49_PLACE(vrt49_entry_refusal(&entries[i]))) {
            entries[i].type ^= 1;
            return 0;
        }
    return how;
}

int main(int argc, char **argv) {
    unsigned long first = argc > 1 ? strtoul(argv[1], 0, 10) : 0;
    int bent = getenv("BEND") ? atoi(getenv("BEND")) : 0;
    now = malloc(ARENA);
    before = malloc(ARENA);
    if (!now || !before)
        fail("no memory");
    uint32_t x = 1;
    for (size_t i = 0; i < NOISE; i++) {
        x = x * 1664525 + 1013904223;
        noise[i] = x ^ x >> 16;
    }
    uint32_t which;
    for (unsigned long done = 0; fread(&which, 1, 4, stdin) == 4; done++) {
        if (which >= CALLS)
            fail("no such call");
        buffers = scalars = used = 0;
        for (const char *kind = calls[which].takes; *kind; kind++)
            argument(*kind);
        memcpy(before, now, used);
        uint32_t answer = call(which);
        if (bent >= 3 && bent <= 5)
            bent = bend(bent, done, &answer);
        look(which, first + done, answer);
        if (bent == 1 || bent == 2)
            bent = bend(bent, done, &answer);
        if (bent >= 6)
            bent = bend_refusal(bent, which, &answer);
        fwrite(&answer, 4, 1, stdout);
        for (size_t k = 0; k < buffers; k++)
            if (b[k].written) {
                static const uint32_t zero;
                size_t bytes = b[k].n * b[k].size;
                fwrite(b[k].at, 1, bytes, stdout);
                fwrite(&zero, 1, (4 - bytes % 4) % 4, stdout);
            }
    }
    return 0;
}
