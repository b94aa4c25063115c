/* survey.c: plays a recording and sees what happens in it. A run plays many packets at once on the
   table of all streams: it says of each packet its stream and what is missing. Each Context packet
   is played once more on a table of its stream alone: that has the tuning as it is at this packet,
   at a cost that does not grow with the number of streams. */
#include <stdlib.h>
#include <string.h>

#include "vrtshow.h"

enum { RUN = 4096 }; /* packets that are played at once */

/* The fields that the band follows from. */
static const uint32_t BAND = 1u << VRT49_BIT_BANDWIDTH | 1u << VRT49_BIT_IF_REFERENCE_FREQUENCY |
                             1u << VRT49_BIT_RF_REFERENCE_FREQUENCY |
                             1u << VRT49_BIT_RF_REFERENCE_FREQUENCY_OFFSET |
                             1u << VRT49_BIT_IF_BAND_OFFSET;

/* All types that have an identifier. */
const uint32_t COUNTED[COUNTED_N] = {VRT49_TYPE_DATA, VRT49_TYPE_EXTENSION_DATA,
                                     VRT49_TYPE_CONTEXT, VRT49_TYPE_EXTENSION_CONTEXT};

void accepted(uint32_t number, const char *call)
{
    if (number == VRT49_OK)
        return;
    fprintf(stderr, "vrtshow: %s refused %u %s\n", call, (unsigned)VRT49_NUMBER(number),
            vrt49_name(number));
    abort();
}

vrt49_shown shown_of(const stream *of, uint32_t bit)
{
    return vrt49_shown_of(&of->panel, bit);
}

int holds_state(const stream *of)
{
    return (of->held >> VRT49_BIT_STATE & 1) != 0;
}

int read_at(const packet *at, vrt49_survey *read)
{
    uint32_t number = at->said->number;
    memset(read, 0, sizeof *read);
    if (number != VRT49_OK && number != VRT49_STREAM)
        return 0;
    if (at->choice == VRT49_SURVEY)
        accepted(vrt49_read_survey(at->words, at->words_n, read), "vrt49_read_survey");
    else
        accepted(vrt49_read(at->words, at->words_n, &read->packet), "vrt49_read");
    return 1;
}

int has_identifier(const vrt49_packet *read)
{
    return read->type != VRT49_TYPE_DATA_NO_ID && read->type != VRT49_TYPE_EXTENSION_DATA_NO_ID;
}

vrt49_count counted(const survey *all, const stream *of, uint32_t type)
{
    vrt49_count count;
    accepted(vrt49_counts(all->table, all->layout, (size_t)(of - all->streams), type, &count),
             "vrt49_counts");
    return count;
}

/* ---- the list */

/* Whether more has to come before the list is all there, or cannot be one. */
static int is_open(const recording *from)
{
    return from->have == 0 ||
           (from->words[0] <= VRT49_STREAMS_MAX && from->have <= from->words[0]);
}

/* Asks the stream's own table what it holds, what the panel shows of it, and for its state word. */
static void show(stream *of)
{
    size_t length;
    accepted(vrt49_identity(of->table, VRT49_TABLE_WORDS(1), 0, &of->identifier, &of->choice,
                            &of->held), "vrt49_identity");
    accepted(vrt49_show_all(of->table, VRT49_TABLE_WORDS(1), 0, &of->panel), "vrt49_show_all");
    accepted(vrt49_held_words(of->table, VRT49_TABLE_WORDS(1), 0, VRT49_BIT_STATE, &of->state, 1,
                              &length), "vrt49_held_words");
}

void take_streams(survey *all)
{
    size_t s, length;
    for (s = 0; s < all->streams_n; s++) {
        stream *of = &all->streams[s];
        accepted(vrt49_own_table(all->table, all->layout, s, of->table, VRT49_TABLE_WORDS(1),
                                 &length), "vrt49_own_table");
        show(of);
    }
}

/* Whether an identifier is among some. */
static int is_among(uint32_t identifier, const uint32_t *some, size_t n)
{
    size_t i;
    for (i = 0; i < n; i++)
        if (some[i] == identifier)
            return 1;
    return 0;
}

/* The choice of each stream of a list. */
static void choose(const survey *all, const uint32_t *ids, size_t n, uint32_t *choices)
{
    size_t s;
    for (s = 0; s < n; s++)
        choices[s] = is_among(ids[s], all->chosen, all->chosen_n) ? VRT49_SURVEY : VRT49_PLAIN;
}

/* Notes an identifier that was chosen for 49A and is not in the list. */
static void note_unlisted(survey *all, const uint32_t *ids, size_t n)
{
    size_t i;
    for (i = 0; i < all->chosen_n && !all->unlisted; i++) {
        all->unlisted = !is_among(all->chosen[i], ids, n);
        all->stranger = all->chosen[i];
    }
}

uint32_t start(survey *all, recording *from)
{
    uint32_t number, choices[VRT49_STREAMS_MAX];
    do
        refill(from);
    while (!from->ended && is_open(from));
    if (is_open(from) || from->words[0] > VRT49_STREAMS_MAX)
        return VRT49_LIST;
    choose(all, from->words + 1, from->words[0], choices);
    number = vrt49_start(from->words + 1, from->words[0], choices, from->words[0], all->table,
                         VRT49_TABLE_WORDS(VRT49_STREAMS_MAX), &all->layout);
    if (number != VRT49_OK)
        return number;
    note_unlisted(all, from->words + 1, from->words[0]);
    all->streams_n = from->words[0];
    take_streams(all);
    from->at = 1 + all->streams_n;
    return VRT49_OK;
}

/* ---- packets that are accepted */

/* The hertz of a field of the stream; none where it is absent. */
static double hertz_of(const stream *of, uint32_t bit)
{
    vrt49_shown shown = shown_of(of, bit);
    return shown.kind == VRT49_KIND_FREQUENCY ? vrt49_hertz(&shown) : 0;
}

/* The band has changed. Its centre is the RF Reference Frequency with its offset, or, where there
   is none, the IF Reference Frequency; and the IF Band Offset (7.1.5.5 to 7.1.5.8 of 49.0). */
static void band_changed(survey *all, stream *of)
{
    int has_rf = shown_of(of, VRT49_BIT_RF_REFERENCE_FREQUENCY).kind == VRT49_KIND_FREQUENCY;
    int has_if = shown_of(of, VRT49_BIT_IF_REFERENCE_FREQUENCY).kind == VRT49_KIND_FREQUENCY;
    double half = hertz_of(of, VRT49_BIT_BANDWIDTH) / 2;
    double centre = hertz_of(of, VRT49_BIT_IF_BAND_OFFSET);
    band now;
    if (!has_rf && !has_if)
        return;
    centre += has_rf ? hertz_of(of, VRT49_BIT_RF_REFERENCE_FREQUENCY) +
                       hertz_of(of, VRT49_BIT_RF_REFERENCE_FREQUENCY_OFFSET)
                     : hertz_of(of, VRT49_BIT_IF_REFERENCE_FREQUENCY);
    now.low = (centre - half) / 1e6;
    now.centre = centre / 1e6;
    now.high = (centre + half) / 1e6;
    note_band(all, of, now);
}

/* A Context packet: which held fields it changed, and what the panel shows after it. */
static void look(survey *all, stream *of, const packet *at)
{
    uint32_t table[VRT49_TABLE_WORDS(1)], changed;
    vrt49_panel before = of->panel;
    vrt49_heard heard;
    memcpy(table, of->table, sizeof table);
    accepted(vrt49_play(of->table, VRT49_TABLE_WORDS(1), at->words, at->words_n, &heard),
             "vrt49_play");
    accepted(vrt49_changed(table, VRT49_TABLE_WORDS(1), 0, of->table, VRT49_TABLE_WORDS(1), 0,
                           &changed), "vrt49_changed");
    of->context = at->number;
    of->since = 0;
    if (changed == 0)
        return;
    show(of);
    if (changed & BAND)
        band_changed(all, of);
    if (changed & TUNING_FIELDS || all->every)
        tell_tuning(all, of, at, changed, &before);
}

/* Counts the packets that are missing before this one. */
static void count_missing(survey *all, column *now, const packet *at)
{
    all->missing += at->said->missing;
    if (at->said->type == VRT49_TYPE_CONTEXT) {
        now->contexts_missing += at->said->missing;
        all->contexts_missing += at->said->missing;
    } else {
        now->missing += at->said->missing;
    }
}

/* A Context packet that was accepted. */
static void hear_context(survey *all, stream *of, const packet *at)
{
    uint32_t doubted = doubt_at(all, of, at);
    if (at->said->missing != 0)
        tell_missing(all, of, at, doubted);
    look(all, of, at);
    if (at->said->missing == 0 && doubted != 0 && of->doubt.fields == 0)
        tell_trusted(all, of, at);
}

/* A data packet that was accepted, of a stream by 49A: a line is due where its format is not that
   of the packet before; the first word of none is 0, as it is before the first packet. */
static void hear_samples(survey *all, stream *of, const packet *at)
{
    uint32_t first = of->samples.first, second = of->samples.second, items = of->samples.items;
    read_at(at, &of->samples);
    of->sampled++;
    of->items += of->samples.items;
    if (of->samples.first != first || of->samples.second != second ||
        (all->every && of->samples.items != items))
        tell_samples(all, of, at);
}

/* A packet that was accepted. */
static void hear(survey *all, const packet *at)
{
    stream *of = &all->streams[at->said->stream];
    column *now = &of->columns[column_now(all)];
    now->seen++;
    count_missing(all, now, at);
    if (at->said->type == VRT49_TYPE_CONTEXT) {
        hear_context(all, of, at);
        return;
    }
    if (at->said->missing != 0)
        tell_missing(all, of, at, 0);
    if (at->choice == VRT49_SURVEY)
        hear_samples(all, of, at);
    if (at->said->type != VRT49_TYPE_EXTENSION_CONTEXT)
        count_data(of);
}

/* ---- packets that are refused */

/* A packet of no declared stream: counts it, by its identifier where there is room. */
static void count_stranger(survey *all, const packet *at)
{
    vrt49_packet read;
    size_t i = 0;
    accepted(vrt49_read(at->words, at->words_n, &read), "vrt49_read");
    if (!has_identifier(&read)) {
        all->unnamed++;
        return;
    }
    while (i < STRANGERS && all->strangers[i].packets != 0 &&
           all->strangers[i].identifier != read.identifier)
        i++;
    if (i == STRANGERS) {
        all->others++;
        return;
    }
    all->strangers[i].identifier = read.identifier;
    all->strangers[i].packets++;
}

/* A packet that was refused. */
static void refuse(survey *all, const packet *at)
{
    uint32_t refusal = vrt49_entry_refusal(at->said);
    all->refused_in[column_now(all)]++;
    all->refused++;
    if (VRT49_NUMBER(refusal) == VRT49_STREAM)
        count_stranger(all, at);
    else
        all->stopped_by = refusal;
    tell_refused(all, at, refusal);
}

/* ---- all of it */

/* Whether a packet is read as 49A: those of type 1 whose stream was chosen. */
static uint32_t choice_of(const survey *all, const vrt49_entry *said)
{
    if (said->number != VRT49_OK || said->type != VRT49_TYPE_DATA)
        return VRT49_PLAIN;
    return all->streams[said->stream].choice;
}

/* Looks at the packets of a run, one after the other, and gives how many it looked at: all but one
   that is cut where more words may come. */
static size_t look_at(survey *all, recording *from, const vrt49_entry *entries, size_t packets)
{
    packet at;
    size_t i;
    for (i = 0; i < packets; i++) {
        if (entries[i].number == VRT49_CUT && !from->ended)
            break;
        at.number = all->packets;
        at.place = from->before + from->at;
        at.said = &entries[i];
        at.choice = choice_of(all, at.said);
        at.words = from->words + from->at;
        at.words_n = from->have - from->at;
        if (entries[i].number == VRT49_OK)
            hear(all, &at);
        else
            refuse(all, &at);
        all->packets++;
        from->at += entries[i].size;
    }
    return i;
}

void play(survey *all, recording *from)
{
    static vrt49_entry entries[RUN];
    size_t packets, next, looked;
    all->stopped_by = start(all, from);
    if (all->stopped_by != VRT49_OK && !from->failed)
        tell_refused(all, NULL, all->stopped_by);
    while (all->stopped_by == VRT49_OK && !from->failed && !all->unlisted &&
           !(from->ended && from->at == from->have)) {
        accepted(vrt49_play_entries(all->table, all->layout, from->words, from->have, from->at,
                                    entries, RUN, &packets, &next), "vrt49_play_run");
        looked = look_at(all, from, entries, packets);
        if (!from->ended && (looked < packets || from->at == from->have))
            refill(from);
    }
    end_doubts(all);
    all->stopped_at = from->before + from->at;
}
