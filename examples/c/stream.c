/* stream [WORDS] <RECORDING: plays a recording of any length, so many words at a time, in fixed
   memory. Where a packet goes on past the words that are there, its start is moved to the front,
   and more words are put behind it. It prints what was counted, and the frequency that each stream
   ends with. */
#include <inttypes.h>
#include <stdio.h>
#include <stdlib.h>
#include <string.h>

#include "vrt49.h"

enum { ENTRIES = 256 };

static uint32_t words[2 * VRT49_PACKET_WORDS], table[VRT49_TABLE_WORDS(VRT49_STREAMS_MAX)];
static vrt49_entry entries[ENTRIES];
static const uint32_t plain[VRT49_STREAMS_MAX] = {VRT49_PLAIN}; /* of each stream */
static uint64_t packets_of[VRT49_STREAMS_MAX], missing_of[VRT49_STREAMS_MAX], undeclared;

/* Reads at most `most` big-endian words, and gives how many. */
static size_t read_words(uint32_t *to, size_t most)
{
    unsigned char b[4];
    size_t n = 0;
    while (n < most && fread(b, 1, 4, stdin) == 4)
        to[n++] = (uint32_t)b[0] << 24 | (uint32_t)b[1] << 16 | (uint32_t)b[2] << 8 | b[3];
    return n;
}

/* Plays the packets that are there. `at` is the place after them. Gives the refusal that ended the
   run, with its place in the packet, or VRT49_OK. */
static uint32_t play_words(size_t layout, size_t have, size_t *at)
{
    size_t packets, i;
    uint32_t refusal;
    do {
        refusal = vrt49_play_entries(table, layout, words, have, *at, entries, ENTRIES, &packets,
                                     at);
        for (i = 0; refusal == VRT49_OK && i < packets; i++) {
            if (entries[i].number == VRT49_OK) {
                packets_of[entries[i].stream]++;
                missing_of[entries[i].stream] += entries[i].missing;
            } else if (entries[i].number == VRT49_STREAM) {
                undeclared++;
            } else {
                refusal = vrt49_entry_refusal(&entries[i]);
            }
        }
    } while (refusal == VRT49_OK && packets == ENTRIES);
    return refusal;
}

/* Plays all that comes; `chunk` is how many words are asked for at a time. */
static uint32_t play_stream(size_t layout, size_t chunk)
{
    size_t have = 0, at, more;
    uint32_t refusal;
    do {
        more = read_words(words + have, chunk);
        have += more;
        at = 0;
        refusal = play_words(layout, have, &at);
        if (refusal != VRT49_OK && VRT49_NUMBER(refusal) != VRT49_CUT)
            return refusal;
        have -= at;
        memmove(words, words + at, have * sizeof words[0]);
    } while (more == chunk);
    return refusal; /* CUT here: the recording ends inside a packet */
}

static void print_streams(const uint32_t *ids, size_t streams, size_t layout)
{
    vrt49_shown shown;
    size_t s;
    for (s = 0; s < streams; s++) {
        printf("stream %zu, identifier 0x%" PRIX32 ": %" PRIu64 " packets, %" PRIu64 " missing", s,
               ids[s], packets_of[s], missing_of[s]);
        if (vrt49_show(table, layout, s, VRT49_BIT_RF_REFERENCE_FREQUENCY, &shown) == VRT49_OK &&
            shown.kind == VRT49_KIND_FREQUENCY)
            printf(", %.6f MHz", vrt49_hertz(&shown) / 1e6);
        puts("");
    }
    printf("of no declared stream: %" PRIu64 " packets\n", undeclared);
}

int main(int argc, char **argv)
{
    size_t chunk = argc > 1 ? strtoul(argv[1], NULL, 10) : VRT49_PACKET_WORDS, layout;
    uint32_t ids[VRT49_STREAMS_MAX], streams = 0, refusal = VRT49_LIST;
    if (chunk < 1 || chunk > VRT49_PACKET_WORDS) /* a start of a packet and a chunk fit the words */
        return 2;
    if (read_words(&streams, 1) == 1 && streams <= VRT49_STREAMS_MAX &&
        read_words(ids, streams) == streams)
        refusal = vrt49_start(ids, streams, plain, streams, table, sizeof table / sizeof table[0],
                              &layout);
    if (refusal == VRT49_OK) {
        refusal = play_stream(layout, chunk);
        print_streams(ids, streams, layout);
    }
    if (refusal == VRT49_LIST)
        fputs("refused: LIST\n", stderr);
    else if (refusal != VRT49_OK)
        fprintf(stderr, "refused: %s, word %u of its packet\n", vrt49_name(refusal),
                VRT49_PLACE(refusal));
    return refusal != VRT49_OK;
}
