/* index.c: the index beside a recording. Its file has the words of the index, big-endian, and
   nothing else. It is never written over a file that has no index, nor over one of another list. */
#include <inttypes.h>
#include <stdlib.h>
#include <string.h>

#include "vrtshow.h"

/* ---- the index as it is found */

/* What is said where its list is not the recording's. */
#define OF_ANOTHER "it is the index of another recording: "

void refuse_index(const index_file *kept, const char *why)
{
    end_progress();
    fprintf(stderr, "vrtshow: %s: refused %d %s: %s\n", kept->path, VRT49_PAGE,
            vrt49_name(VRT49_PAGE), why);
    exit(TROUBLE);
}

/* Says that the file has no index, and ends. */
static void no_index(const index_file *kept)
{
    refuse_index(kept, "it is no index, or a damaged one: not written over");
}

void check_inside(const index_file *kept, const recording *from, uint64_t place)
{
    char why[WHY_ROOM];
    if (kept->front + place <= from->size / 4)
        return;
    snprintf(why, sizeof why, "it has taken in more than the recording has: it goes to word "
             "%" PRIu64 ", and the recording has %" PRIu64 " words", kept->front + place,
             from->size / 4);
    refuse_index(kept, why);
}

/* Whether the words are an index, and nothing stands behind it: a jump to packet 0 plays nothing,
   and gives the table that it was started with. */
static int is_index(const index_file *kept, size_t words_n, uint32_t *table, size_t *length)
{
    uint64_t place;
    return vrt49_jump(NULL, 0, 0, kept->words, words_n, 0, table,
                      VRT49_TABLE_WORDS(VRT49_STREAMS_MAX), length, &place) == VRT49_OK &&
           vrt49_index_words(kept->words) == words_n;
}

/* Holds a stream of an entry's table to that of the recording. */
static void check_stream(const index_file *kept, uint64_t entry, const survey *all, size_t s,
                         uint32_t identifier, uint32_t choice)
{
    const stream *of = &all->streams[s];
    int is_survey = choice == VRT49_SURVEY;
    char why[WHY_ROOM];
    if (identifier == of->identifier && choice == of->choice)
        return;
    if (identifier != of->identifier)
        snprintf(why, sizeof why, OF_ANOTHER "its entry %s has 0x%08" PRIX32 " as stream %d, and "
                 "the list has 0x%08" PRIX32, grouped(entry), identifier, (int)s, of->identifier);
    else
        snprintf(why, sizeof why, "it was grown with another choice of 49A: its entry %s has "
                 "stream %d (0x%08" PRIX32 ") as %s, and --survey %s it", grouped(entry), (int)s,
                 identifier, is_survey ? "49A" : "plain", is_survey ? "does not name" : "names");
    refuse_index(kept, why);
}

void check_streams(const index_file *kept, uint64_t entry, const uint32_t *table, size_t length,
                   const survey *all)
{
    uint32_t identifier, choice, held;
    char why[WHY_ROOM];
    size_t s;
    if (length != all->layout) {
        snprintf(why, sizeof why, OF_ANOTHER "its entry %s has %" PRIu32 " streams, and the list "
                 "has %" PRIu32, grouped(entry), table[0], all->streams_n);
        refuse_index(kept, why);
    }
    for (s = 0; s < all->streams_n; s++) {
        accepted(vrt49_identity(table, length, s, &identifier, &choice, &held), "vrt49_identity");
        check_stream(kept, entry, all, s, identifier, choice);
    }
}

/* Holds an index that was found to the recording: it was started with the same list and the same
   choices, before any packet, and has taken in no more than there is. */
static void check_index(const index_file *kept, size_t words_n, const survey *all,
                        const recording *from)
{
    uint32_t table[VRT49_TABLE_WORDS(VRT49_STREAMS_MAX)];
    size_t length;
    if (!is_index(kept, words_n, table, &length))
        no_index(kept);
    check_streams(kept, 0, table, length, all);
    if (memcmp(table, all->table, length * sizeof table[0]) != 0)
        refuse_index(kept, "it was not started with a fresh table: that of its entry 0 has counted "
                           "packets already");
    check_inside(kept, from, vrt49_index_reached(kept->words));
}

void take_index(index_file *kept, const survey *all, const recording *from)
{
    size_t length;
    long found = load_words(kept->path, kept->words, INDEX_ROOM);
    kept->front = 1 + all->streams_n;
    kept->there = found != -1;
    if (found == -1)
        accepted(vrt49_start_index(all->table, all->layout, kept->words, INDEX_ROOM, &length),
                 "vrt49_start_index");
    else if (found < 0)
        no_index(kept);
    else
        check_index(kept, (size_t)found, all, from);
}

/* ---- the index grown */

/* Whether the packet was refused for words that may still come. */
static int is_waiting(const recording *from, uint32_t refusal)
{
    uint32_t number = VRT49_NUMBER(refusal);
    return !from->ended && !from->failed && (number == VRT49_EMPTY || number == VRT49_CUT);
}

/* Takes packets in until one is refused: gives the refusal, EMPTY at the recording's end. With the
   first of them it is known that the file will be written, and it is seen that it can be. */
static uint32_t take_packets(index_file *kept, survey *all, recording *from)
{
    uint64_t before = vrt49_index_packets(kept->words);
    vrt49_entry entry;
    uint32_t refusal;
    do {
        refusal = vrt49_grow_entry(all->table, all->layout, from->words + from->at,
                                   from->have - from->at, kept->words, INDEX_ROOM, &entry);
        if (refusal == VRT49_OK) {
            from->at += entry.size;
            if (vrt49_index_packets(kept->words) == before + 1)
                try_store(kept->path);
        } else if (is_waiting(from, refusal)) {
            refill(from);
        } else {
            return refusal;
        }
    } while (!from->failed);
    return VRT49_OK;
}

/* Says that the index is full. */
static void tell_full(const index_file *kept)
{
    end_progress();
    fprintf(stderr, "vrtshow: %s: refused %d %s: the index is full after %s packets\n", kept->path,
            VRT49_ROOM, vrt49_name(VRT49_ROOM), grouped(vrt49_index_packets(kept->words)));
}

void grow_index(index_file *kept, survey *all, recording *from)
{
    uint64_t before = vrt49_index_packets(kept->words), place = jump_to(kept, all, from, before);
    if (!from->failed)
        seek_to(from, place);
    if (!from->failed)
        kept->ended_by = take_packets(kept, all, from);
    if (from->failed)
        return;
    all->packets = vrt49_index_packets(kept->words);
    all->stopped_at = from->before + from->at;
    if (kept->ended_by == VRT49_ROOM)
        tell_full(kept);
    else if (VRT49_NUMBER(kept->ended_by) != VRT49_EMPTY)
        all->stopped_by = kept->ended_by;
    if (!kept->there || all->packets != before)
        store_words(kept->path, kept->words, vrt49_index_words(kept->words));
}

void tell_index(const index_file *kept, const recording *from)
{
    uint64_t at = kept->front + vrt49_index_reached(kept->words);
    printf("packets %s, entries %s, words %s; ", grouped(vrt49_index_packets(kept->words)),
           grouped(vrt49_index_entries(kept->words)), grouped(vrt49_index_words(kept->words)));
    if (VRT49_NUMBER(kept->ended_by) == VRT49_EMPTY) {
        printf("end %" PRIu64 " tail %d\n", at, tail_of(from));
        return;
    }
    printf("stopped at word %" PRIu64 ": ", at);
    if (kept->ended_by == VRT49_ROOM)
        printf("refused %d %s: the index is full", VRT49_ROOM, vrt49_name(VRT49_ROOM));
    else
        put_refusal(stdout, kept->ended_by, ungrouped(at + VRT49_PLACE(kept->ended_by)));
    puts("");
}
