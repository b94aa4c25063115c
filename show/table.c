/* table.c: what a table says just before a packet: of each stream its packets, its tuning and its
   state. Values are those of the panel, as in lines.c. */
#include <inttypes.h>

#include "vrtshow.h"

/* The lines of the table. */
static void put_lines(const survey *all, uint64_t number, uint64_t place)
{
    const stream *of;
    printf("at %" PRIu64 " packet %" PRIu64 ": the table just before it\n", place, number);
    put_heads();
    for (of = all->streams; of < all->streams + all->streams_n; of++) {
        put_packets(all, of);
        if (of->choice == VRT49_SURVEY)
            puts("       49A");
        put_held(of, "tuning");
    }
}

/* What a stream counted of each type, as cells: seen, missing and last, empty where none came. */
static void put_count_cells(const survey *all, const stream *of)
{
    size_t i;
    for (i = 0; i < COUNTED_N; i++) {
        vrt49_count count = counted(all, of, COUNTED[i]);
        if (count.started)
            printf(",%" PRIu32 ",%" PRIu32 ",%" PRIu32, count.seen, count.missing, count.last);
        else
            printf(",,,");
    }
}

/* The table as CSV: a row for each stream. */
static void put_rows(const survey *all, uint64_t number, uint64_t place)
{
    const stream *of;
    size_t i;
    printf("packet,word,stream,identifier,choice,held,%s", VALUE_COLUMNS);
    for (i = 0; i < COUNTED_N; i++)
        printf(",seen_%" PRIu32 ",missing_%" PRIu32 ",last_%" PRIu32, COUNTED[i], COUNTED[i],
               COUNTED[i]);
    puts("");
    for (of = all->streams; of < all->streams + all->streams_n; of++) {
        printf("%" PRIu64 ",%" PRIu64 ",%d,0x%08" PRIX32 ",%" PRIu32 ",0x%08" PRIX32, number, place,
               (int)(of - all->streams), of->identifier, of->choice, of->held);
        put_cells(of);
        put_count_cells(all, of);
        puts("");
    }
}

void tell_table(const survey *all, uint64_t number, uint64_t place)
{
    if (all->manner == CSV)
        put_rows(all, number, place);
    else
        put_lines(all, number, place);
}
