/* columns.c: what happens, gathered in at most COLUMNS columns of packets for the picture. A column
   begins as one packet; where there are too many, each two become one, and nothing is lost of
   either. So a recording of any length fits the same memory. */
#include <string.h>

#include "vrtshow.h"

/* The smaller and the larger of two numbers. */
static double smaller(double a, double b) { return a < b ? a : b; }
static double larger(double a, double b) { return a > b ? a : b; }

/* Adds what happened in the next column. */
static void join(column *into, const column *next)
{
    column sum = next->tunings != 0 ? *next : *into;
    if (into->tunings != 0 && next->tunings != 0) {
        sum.low = smaller(into->low, next->low);
        sum.high = larger(into->high, next->high);
        sum.least = smaller(into->least, next->least);
        sum.greatest = larger(into->greatest, next->greatest);
    }
    sum.seen = into->seen + next->seen;
    sum.missing = into->missing + next->missing;
    sum.contexts_missing = into->contexts_missing + next->contexts_missing;
    sum.unsure = into->unsure | next->unsure;
    sum.tunings = into->tunings + next->tunings;
    *into = sum;
}

/* Makes one column of each two of a stream. */
static void halve(column *columns)
{
    size_t c;
    for (c = 0; c < COLUMNS / 2; c++) {
        column both = columns[2 * c];
        join(&both, &columns[2 * c + 1]);
        columns[c] = both;
    }
    memset(columns + COLUMNS / 2, 0, COLUMNS / 2 * sizeof columns[0]);
}

/* Makes one column of each two of what is refused. */
static void halve_refused(uint32_t *refused)
{
    size_t c;
    for (c = 0; c < COLUMNS / 2; c++)
        refused[c] = refused[2 * c] + refused[2 * c + 1];
    memset(refused + COLUMNS / 2, 0, COLUMNS / 2 * sizeof refused[0]);
}

/* Makes one column of each two of all. */
static void halve_all(survey *all)
{
    size_t s;
    for (s = 0; s < all->streams_n; s++)
        halve(all->streams[s].columns);
    halve_refused(all->refused_in);
    all->shift++;
}

size_t column_now(survey *all)
{
    if (all->packets >> all->shift >= COLUMNS)
        halve_all(all);
    return (size_t)(all->packets >> all->shift);
}

void note_band(survey *all, stream *of, band now)
{
    column change = {0, 0, 0, 0, 1, now, now.low, now.high, now.centre, now.centre};
    int first = of->tunings == 0;
    of->low = first ? now.low : smaller(of->low, now.low);
    of->high = first ? now.high : larger(of->high, now.high);
    of->least = first ? now.centre : smaller(of->least, now.centre);
    of->greatest = first ? now.centre : larger(of->greatest, now.centre);
    of->last = now;
    of->tunings++;
    join(&of->columns[column_now(all)], &change);
}

void note_unsure(survey *all, stream *of)
{
    size_t c, last = (size_t)((all->packets - 1) >> all->shift);
    for (c = (size_t)(of->doubt.since >> all->shift); c <= last; c++)
        of->columns[c].unsure = 1;
}
