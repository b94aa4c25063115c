/* jump.c: the table just before a packet. Packets are numbered as vrt49_play_run goes on over them:
   one of no declared stream has a number, and any other refusal ends the recording. */
#include <inttypes.h>
#include <stdlib.h>
#include <string.h>

#include "vrtshow.h"

enum { RUN = 4096 }; /* packets that are played at once */

/* Passes the packets of a run, one after the other, and gives how many it passed: all but one that
   ends the recording, or that is cut where more words may come. */
static size_t pass(survey *all, recording *from, const vrt49_entry *entries, size_t packets)
{
    size_t i;
    for (i = 0; i < packets; i++) {
        if (entries[i].number != VRT49_OK && entries[i].number != VRT49_STREAM)
            break;
        all->packets++;
        from->at += entries[i].size;
    }
    if (i < packets && (entries[i].number != VRT49_CUT || from->ended))
        all->stopped_by = vrt49_entry_refusal(&entries[i]);
    return i;
}

void play_to(survey *all, recording *from, uint64_t n)
{
    static vrt49_entry entries[RUN];
    size_t packets, next, passed;
    while (all->packets < n && all->stopped_by == VRT49_OK && !from->failed &&
           !(from->ended && from->at == from->have)) {
        uint64_t left = n - all->packets;
        accepted(vrt49_play_entries(all->table, all->layout, from->words, from->have, from->at,
                                    entries, left < RUN ? (size_t)left : RUN, &packets, &next),
                 "vrt49_play_run");
        passed = pass(all, from, entries, packets);
        if (!from->ended && (passed < packets || from->at == from->have) && all->packets < n)
            refill(from);
    }
    all->stopped_at = from->before + from->at;
    take_streams(all);
}

/* How many words a jump to packet n may have to play: no more than its packets can have, and than
   stand up to the next entry, which a damaged index may have before this one. */
static size_t span_of(const index_file *kept, uint64_t n)
{
    uint64_t most = VRT49_PACKET_WORDS * (n % VRT49_INDEX_SPACING);
    uint64_t first = vrt49_index_from(kept->words, n), last = vrt49_index_to(kept->words, n);
    uint64_t there = last < first ? 0 : last - first;
    return (size_t)(there < most ? there : most);
}

/* What it may be where a jump does not land as it should. */
#define DAMAGED ": it is damaged, or the recording is not the one that it was grown over"

/* Says that a jump to packet n was refused, and ends: n was taken in and the table is long enough,
   so it is by PAGE, of the entry. */
static void not_reached(const index_file *kept, uint64_t n)
{
    char why[WHY_ROOM];
    snprintf(why, sizeof why, "packet %" PRIu64 " is not reached from its entry %s" DAMAGED, n,
             grouped(n / VRT49_INDEX_SPACING));
    refuse_index(kept, why);
}

/* Holds the place where a jump to packet n landed to the one that the index has reached, where n is
   the packets taken in: the next packet that is taken in is noted at that place. */
static void check_place(const index_file *kept, uint64_t n, uint64_t place)
{
    uint64_t reached = vrt49_index_reached(kept->words);
    char why[WHY_ROOM];
    if (n != vrt49_index_packets(kept->words) || place == reached)
        return;
    snprintf(why, sizeof why, "packet %" PRIu64 " is at word %" PRIu64 " from its entry %s on, and "
             "at word %" PRIu64 " by its words 2 and 3" DAMAGED, n, kept->front + place,
             grouped(n / VRT49_INDEX_SPACING), kept->front + reached);
    refuse_index(kept, why);
}

uint64_t jump_to(const index_file *kept, survey *all, recording *from, uint64_t n)
{
    uint32_t table[VRT49_TABLE_WORDS(VRT49_STREAMS_MAX)], number;
    uint64_t first = vrt49_index_from(kept->words, n), place = 0;
    size_t span = span_of(kept, n), have, length = 0;
    uint32_t *words = span != 0 ? malloc(span * sizeof *words) : NULL;
    if (span != 0 && !words)
        trouble(kept->path, "no memory for the packets of a jump");
    check_inside(kept, from, first);
    have = read_words(from, kept->front + first, words, span);
    number = vrt49_jump(words, have, first, kept->words, vrt49_index_words(kept->words), n, table,
                        VRT49_TABLE_WORDS(VRT49_STREAMS_MAX), &length, &place);
    free(words);
    if (from->failed)
        return kept->front;
    if (number != VRT49_OK)
        not_reached(kept, n);
    check_streams(kept, n / VRT49_INDEX_SPACING, table, length, all);
    check_place(kept, n, place);
    memcpy(all->table, table, length * sizeof table[0]);
    all->packets = n;
    take_streams(all);
    return kept->front + place;
}
