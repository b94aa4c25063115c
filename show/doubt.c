/* doubt.c: which fields of a stream's tuning are in doubt. Where Context packets are missing, a
   lost one may have changed any field that was held: it is in doubt from the Context packet before
   the loss on, since the lost one may have come right after it, until a Context packet carries it.
   The tuning is not to be trusted as long as one of its fields is in doubt. A field that is absent
   is not in doubt: it claims nothing. */
#include "vrtshow.h"

/* Brings the fields that the stream holds into doubt. */
static void begin(stream *of)
{
    uint32_t held = of->held & TUNING_FIELDS;
    if (of->doubt.fields == 0 && held != 0) {
        of->doubt.since = of->context;
        of->doubt.packets = of->since;
        of->doubt.total += of->since;
    }
    of->doubt.fields = held;
}

/* The fields that a Context packet carries: its indicator word says it. */
static uint32_t carried(const packet *at)
{
    vrt49_packet read;
    accepted(vrt49_read(at->words, at->words_n, &read), "vrt49_read");
    return at->words[read.body_at];
}

uint32_t doubt_at(survey *all, stream *of, const packet *at)
{
    uint32_t doubted;
    if (at->said->missing != 0)
        begin(of);
    doubted = of->doubt.fields;
    if (doubted == 0)
        return 0;
    of->doubt.fields &= ~carried(at);
    if (of->doubt.fields == 0)
        note_unsure(all, of);
    return doubted;
}

void count_data(stream *of)
{
    uint64_t unsure = of->doubt.fields != 0;
    of->doubt.packets += unsure;
    of->doubt.total += unsure;
    of->untuned += (of->held & TUNING_FIELDS) == 0;
    of->since++;
}

void end_doubts(survey *all)
{
    stream *of;
    for (of = all->streams; of < all->streams + all->streams_n; of++)
        if (of->doubt.fields != 0)
            note_unsure(all, of);
}
