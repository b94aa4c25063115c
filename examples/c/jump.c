/* jump RECORDING INDEX N: where each stream is tuned just before packet N of a recording, counted
   from 0. Where there is no file INDEX, an index is grown over the recording, packet by packet, and
   stored there, up to a packet that is refused. It is then read from its file, tested, and jumped
   by; it is good for this recording alone. Both are big-endian words, the recording 4 MB at most.
   The exit status is 1 where list, index or N is refused, 2 for wrong arguments or files. */
#include <arpa/inet.h>
#include <errno.h>
#include <inttypes.h>
#include <stdio.h>
#include <stdlib.h>
#include <string.h>
#include "vrt49.h"

enum { WORDS = 1 << 20, TABLE = VRT49_TABLE_WORDS(VRT49_STREAMS_MAX) };
enum { KEPT = VRT49_INDEX_WORDS(VRT49_STREAMS_MAX, VRT49_INDEX_ENTRIES) };

static uint32_t words[WORDS], kept[KEPT], table[TABLE];         /* recording, index, table */
static const uint32_t plain[VRT49_STREAMS_MAX] = {VRT49_PLAIN}; /* of each stream */

/* Reads the words of a file, at most so many; 0 where it cannot be read. */
static int read_file(const char *name, uint32_t *to, size_t most, size_t *n)
{
    FILE *file = fopen(name, "rb");
    size_t i;
    int good;
    *n = file ? fread(to, sizeof *to, most, file) : 0;
    for (i = 0; i < *n; i++)
        to[i] = ntohl(to[i]); /* the calls take words in the host's order */
    good = file && !ferror(file);
    if (file)
        fclose(file);
    return good;
}

/* Writes the index, whose words are then read again; 0 where it cannot be written. */
static int write_index(const char *name)
{
    FILE *file = fopen(name, "wb");
    size_t i, n = vrt49_index_words(kept), out;
    for (i = 0; i < n; i++)
        kept[i] = htonl(kept[i]);
    out = file ? fwrite(kept, sizeof *kept, n, file) : 0;
    return file && fclose(file) == 0 && out == n;
}

/* Says what of a file is refused, and of a packet at a word which word; gives the exit status. */
static int refused(const char *name, size_t at, uint32_t refusal)
{
    fprintf(stderr, "%s refused: %u %s", name, VRT49_NUMBER(refusal), vrt49_name(refusal));
    if (VRT49_NUMBER(refusal) <= VRT49_FIELD) /* the others are of no packet */
        fprintf(stderr, ", word %u of the packet at word %zu", VRT49_PLACE(refusal), at);
    fputs("\n", stderr);
    return 1;
}

/* Starts an index, and grows it over the packets from a word on, each with the table that the last
   one left, until one is refused: with EMPTY where no word is left. Then it is written. */
static int make_index(const char *recording, const char *name, size_t n, size_t at, size_t layout)
{
    vrt49_entry entry = {0, 0, 0, 0, 0};
    size_t length;
    uint32_t refusal = vrt49_start_index(table, layout, kept, KEPT, &length);
    while (refusal == VRT49_OK) {
        at += entry.size; /* of the packet before */
        refusal = vrt49_grow_entry(table, layout, words + at, n - at, kept, KEPT, &entry);
    }
    if (VRT49_NUMBER(refusal) != VRT49_EMPTY)
        refused(recording, at, refusal);
    return write_index(name);
}

static void print_tuning(size_t layout)
{
    vrt49_shown rf;
    uint32_t s;
    for (s = 0; s < table[0]; s++) {
        vrt49_show(table, layout, s, VRT49_BIT_RF_REFERENCE_FREQUENCY, &rf);
        if (rf.kind == VRT49_KIND_FREQUENCY)
            printf("stream %u  at %.6f MHz\n", s, vrt49_hertz(&rf) / 1e6);
        else
            printf("stream %u  no frequency yet\n", s); /* which is not zero */
    }
}

int main(int argc, char **argv)
{
    size_t n, have, front, layout;
    uint64_t place;
    uint32_t refusal = VRT49_LIST;
    if (argc != 4 || !*argv[3] || argv[3][strspn(argv[3], "0123456789")]) {
        fputs("jump RECORDING INDEX N: two files, and the number of a packet\n", stderr);
        return 2;
    }
    if (!read_file(argv[1], words, WORDS, &n)) {
        perror(argv[1]);
        return 2;
    }
    if (words[0] < n && words[0] <= VRT49_STREAMS_MAX)
        refusal = vrt49_start(words + 1, words[0], plain, words[0], table, TABLE, &layout);
    if (refusal != VRT49_OK)
        return refused(argv[1], 0, refusal);
    front = 1 + words[0];
    if (!read_file(argv[2], kept, KEPT, &have) &&
        (errno != ENOENT || !make_index(argv[1], argv[2], n, front, layout) ||
         !read_file(argv[2], kept, KEPT, &have))) {
        perror(argv[2]);
        return 2;
    }
    /* a jump to 0 with no words tests the index; only then is used what its words say */
    refusal = vrt49_jump(NULL, 0, 0, kept, have, 0, table, TABLE, &layout, &place);
    if (refusal == VRT49_OK)
        refusal = vrt49_jump(words + front, n - front, 0, kept, vrt49_index_words(kept),
                             strtoull(argv[3], NULL, 10), table, TABLE, &layout, &place);
    if (refusal != VRT49_OK)
        return refused(refusal == VRT49_PLACE ? argv[3] : argv[2], 0, refusal);
    printf("packet %s is at word %" PRIu64 "\n", argv[3], front + place);
    print_tuning(layout);
    return 0;
}
