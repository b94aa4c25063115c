/* picture.c: the survey as SVG: a row for each stream over the same packets, with its band and
   centre frequency, and under them what is missing; below all rows, what is refused. Each column
   that has something to mark has its mark, so none is lost; its title says of which packets it is,
   and how many. */
#include <inttypes.h>
#include <stdarg.h>
#include <string.h>

#include "vrtshow.h"

enum { PAGE = 1468, LEFT = 184, WIDE = 1024, RIGHT = LEFT + WIDE, TOP = 100, LANE = 22, GAP = 7 };
enum { LOW_ROW = 80, DENSE = 400 }; /* units of height, and changes of the band */
enum { NAME_ROOM = 64 };            /* characters of the recording's name that are shown */

/* What is drawn on, and the row that is drawn. */
typedef struct {
    FILE *out;
    const survey *all;
    size_t columns;     /* that have packets */
    double top, height; /* of the row */
    double low, scale;  /* the frequency at the bottom of its plot, MHz, and units for each MHz */
} sheet;

/* How many packets of a stream were seen, and how many are missing, of all types together. */
typedef struct {
    uint64_t seen, missing, contexts_missing;
} sums;

/* Where a packet stands, of all packets. */
static double x_of(const sheet *on, uint64_t number)
{
    uint64_t packets = on->all->packets ? on->all->packets : 1;
    return LEFT + WIDE * ((double)(number < packets ? number : packets) / (double)packets);
}

/* The first packet of a column. */
static uint64_t first_of(const sheet *on, size_t c) { return (uint64_t)c << on->all->shift; }

/* The bottom of the row's plot; below it are the marks. */
static double floor_of(const sheet *on) { return on->top + on->height - LANE; }

/* Where a frequency stands in the row. */
static double y_of(const sheet *on, double mhz)
{
    return floor_of(on) - (mhz - on->low) * on->scale;
}

/* Words on the sheet, in a kind of writing. */
static void text(const sheet *on, double x, double y, const char *kind, const char *format, ...)
{
    va_list values;
    va_start(values, format);
    fprintf(on->out, "<text x='%.1f' y='%.1f' class='%s'>", x, y, kind);
    vfprintf(on->out, format, values);
    fputs("</text>\n", on->out);
    va_end(values);
}

/* A frequency to a hertz, in a buffer that is used again after two. */
static const char *mhz_text(double mhz)
{
    static char texts[2][32];
    static int next;
    char *text_of = texts[next++ & 1], *end;
    snprintf(text_of, sizeof texts[0], "%.6f", mhz > -5e-7 && mhz < 0 ? 0 : mhz);
    for (end = text_of + strlen(text_of); end[-1] == '0'; end--)
        ;
    end[end[-1] == '.' ? -1 : 0] = 0;
    return text_of;
}

/* The title of what is drawn for the columns from one to another: of which packets it is. */
static void title(const sheet *on, size_t from, size_t to)
{
    uint64_t last = first_of(on, to + 1) - 1;
    if (last >= on->all->packets)
        last = on->all->packets - 1;
    if (last > first_of(on, from))
        fprintf(on->out, "<title>packets %s to %s: ", grouped(first_of(on, from)), grouped(last));
    else
        fprintf(on->out, "<title>packet %s: ", grouped(last));
}

/* How many digits the numbers of an axis have behind the point. */
static int digits_of(double step)
{
    int digits = 0;
    for (; step < 0.999; step *= 10)
        digits++;
    return digits;
}

/* The step of an axis: 1, 2 or 5 times a power of ten, at least so much, that gives at most so many
   marks. */
static double step_of(double range, double marks, double least)
{
    static const double FACTORS[] = {2, 2.5, 2};
    double step = least;
    int i;
    for (i = 0; range / step > marks; i++)
        step *= FACTORS[i % 3];
    return step;
}

/* ---- a row */

/* A line of the scale, and its number. */
static void draw_level(const sheet *on, double mhz, int digits)
{
    fprintf(on->out, "<path class='grid' d='M%d %.1fh%d'/>", LEFT, y_of(on, mhz), WIDE);
    if (digits < 0)
        text(on, LEFT - 5, y_of(on, mhz) + 4, "small end", "%s", mhz_text(mhz));
    else
        text(on, LEFT - 5, y_of(on, mhz) + 4, "small end", "%.*f", digits, mhz);
}

/* The scale of the frequencies; a low row has its lowest and its highest centre alone. */
static void draw_scale(const sheet *on, const stream *of)
{
    double room = on->height - LANE, range = room / on->scale, step;
    int64_t i;
    if (on->height < LOW_ROW) {
        draw_level(on, of->least, -1);
        if ((of->greatest - of->least) * on->scale > 11)
            draw_level(on, of->greatest, -1);
        return;
    }
    step = step_of(range, room / (on->height < 100 ? 16 : 24), 1e-6);
    for (i = (int64_t)(on->low / step) - 1; (double)i * step <= on->low + range; i++)
        if ((double)i * step >= on->low)
            draw_level(on, (double)i * step, digits_of(step));
}

/* The last of the columns that follow each other in which the tuning cannot be trusted. */
static size_t end_of_span(const sheet *on, const stream *of, size_t c)
{
    while (c + 1 < on->columns && of->columns[c + 1].unsure)
        c++;
    return c;
}

/* A span of columns in which the tuning cannot be trusted. */
static void draw_span(const sheet *on, size_t from, size_t to)
{
    double x = x_of(on, first_of(on, from)), wide = x_of(on, first_of(on, to + 1)) - x;
    fprintf(on->out, "<rect class='unsure' x='%.1f' y='%.1f' width='%.1f' height='%.1f'>", x,
            on->top, wide < 2 ? 2 : wide, on->height);
    title(on, from, to);
    fputs("tuning not to be trusted</title></rect>\n", on->out);
}

/* Where the tuning cannot be trusted. */
static void draw_unsure(const sheet *on, const stream *of)
{
    size_t c, last;
    for (c = 0; c < on->columns; c = last + 1) {
        last = c;
        if (!of->columns[c].unsure)
            continue;
        last = end_of_span(on, of, c);
        draw_span(on, c, last);
    }
}

/* The bands: from a change to the next; and all bands of a column that has several changes. */
static void draw_bands(const sheet *on, const stream *of)
{
    const column *now = NULL;
    double x = 0, end;
    size_t c;
    fputs("<path class='band' d='", on->out);
    for (c = 0; c <= on->columns; c++) {
        const column *next = &of->columns[c];
        if (c < on->columns && next->tunings == 0)
            continue;
        end = x_of(on, first_of(on, c));
        if (now && end > x)
            fprintf(on->out, "M%.1f %.1fH%.1fV%.1fH%.1fz", x, y_of(on, now->last.high), end,
                    y_of(on, now->last.low), x);
        if (c == on->columns)
            break;
        x = end;
        if (next->tunings > 1) {
            x = x_of(on, first_of(on, c + 1));
            fprintf(on->out, "M%.1f %.1fH%.1fV%.1fH%.1fz", end, y_of(on, next->high), x,
                    y_of(on, next->low), end);
        }
        now = next;
    }
    fputs("'/>\n", on->out);
}

/* The centre: a step at each change; where a column has several, over all its centres. */
static void draw_centre(const sheet *on, const stream *of)
{
    const char *move = "M";
    size_t c;
    fprintf(on->out, "<path class='centre%s' d='", of->tunings > DENSE ? " dense" : "");
    for (c = 0; c < on->columns; c++) {
        const column *now = &of->columns[c];
        if (now->tunings == 0)
            continue;
        fprintf(on->out, *move == 'M' ? "M%.1f %.1f" : "H%.1fV%.1f", x_of(on, first_of(on, c)),
                y_of(on, now->least));
        if (now->tunings > 1)
            fprintf(on->out, "V%.1fV%.1f", y_of(on, now->greatest), y_of(on, now->last.centre));
        move = "H";
    }
    fprintf(on->out, "H%d'/>\n", RIGHT);
}

/* Where the stream sends. It pauses where it is silent for more than 16 times what its packets lie
   apart from each other. */
static void draw_sends(const sheet *on, const stream *of, uint64_t seen)
{
    double pause = 16.0 * (double)on->all->packets / (double)(seen ? seen : 1);
    size_t c, from = COLUMNS, last = 0;
    for (c = 0; c <= on->columns; c++) {
        if (c < on->columns && of->columns[c].seen == 0)
            continue;
        if (from != COLUMNS &&
            (c == on->columns || (double)(first_of(on, c) - first_of(on, last)) > pause)) {
            fprintf(on->out, "<path class='sends' d='M%.1f %.1fH%.1f'/>\n",
                    x_of(on, first_of(on, from)), on->top + on->height - 2,
                    x_of(on, first_of(on, last + 1)));
            from = COLUMNS;
        }
        from = from == COLUMNS ? c : from;
        last = c;
    }
}

/* A mark of a column. */
static void draw_mark(const sheet *on, size_t c, double y, const char *kind, const char *shape,
                      uint32_t many, const char *what)
{
    if (many == 0)
        return;
    fprintf(on->out, "<path class='%s' d='M%.1f %.1f%s'>", kind, x_of(on, first_of(on, c)), y,
            shape);
    title(on, c, c);
    fprintf(on->out, "%s %s</title></path>\n", what, grouped(many));
}

/* What stands left and right of the row. */
static void draw_labels(const sheet *on, const stream *of, const sums *sum)
{
    double wide = of->last.high - of->last.low;
    text(on, 12, on->top + 13, "bold", "stream %d", (int)(of - on->all->streams));
    text(on, 12, on->top + 27, "small", "0x%08" PRIX32, of->identifier);
    if (of->tunings == 0)
        text(on, RIGHT + 10, on->top + 12, "small", "no tuning");
    else if (wide > 0)
        text(on, RIGHT + 10, on->top + 12, "small", "%s MHz, %s wide", mhz_text(of->last.centre),
             mhz_text(wide));
    else
        text(on, RIGHT + 10, on->top + 12, "small", "%s MHz", mhz_text(of->last.centre));
    text(on, RIGHT + 10, on->top + 25, "small", "packets %s, retunings %s",
         grouped(sum->seen), grouped(of->tunings ? of->tunings - 1 : 0));
    if (sum->contexts_missing != 0)
        text(on, RIGHT + 10, on->top + 38, "small red bold", "missing %s (Context %s)",
             grouped(sum->missing), grouped(sum->contexts_missing));
    else
        text(on, RIGHT + 10, on->top + 38, sum->missing ? "small red" : "small", "missing %s",
             grouped(sum->missing));
}

/* The frequencies that the row's plot reaches over. */
static void fit(sheet *on, const stream *of)
{
    double range = of->high - of->low, about = of->low < 0 ? -of->low : of->low;
    double edge = range > 1e-6 ? 0.07 * range : 0.005 * about + 0.01; /* 1e-6: a hertz */
    on->low = of->low - edge;
    on->scale = (on->height - LANE) / (range + 2 * edge);
}

/* What a row is drawn on. */
static void draw_back(const sheet *on, double height)
{
    fprintf(on->out, "<rect class='back' x='%d' y='%.1f' width='%d' height='%.1f'/>\n", LEFT,
            on->top, WIDE, height);
}

/* Where Context packets are missing. */
static void draw_contexts(const sheet *on, const stream *of)
{
    size_t c;
    for (c = 0; c < on->columns; c++)
        draw_mark(on, c, floor_of(on), "context", "l5 6l-5 6l-5 -6z",
                  of->columns[c].contexts_missing, "missing Context");
}

/* Where other packets are missing. These marks reach from the middle of the diamonds to below them,
   and are drawn over them: so both are seen, however close they stand. */
static void draw_missing(const sheet *on, const stream *of)
{
    size_t c;
    for (c = 0; c < on->columns; c++)
        draw_mark(on, c, floor_of(on) + 6, "missing", "v13", of->columns[c].missing, "missing");
}

/* The stream's packets of all types. */
static sums add_up(const survey *all, const stream *of)
{
    sums sum = {0, 0, 0};
    size_t i;
    sum.contexts_missing = counted(all, of, VRT49_TYPE_CONTEXT).missing;
    for (i = 0; i < COUNTED_N; i++) {
        vrt49_count count = counted(all, of, COUNTED[i]);
        sum.seen += count.seen;
        sum.missing += count.missing;
    }
    return sum;
}

/* The row of a stream. */
static void draw_stream(sheet *on, const stream *of)
{
    sums sum = add_up(on->all, of);
    fprintf(on->out, "<g id='stream%d'>\n", (int)(of - on->all->streams));
    draw_back(on, on->height);
    draw_labels(on, of, &sum);
    if (of->tunings <= DENSE)
        draw_unsure(on, of);
    if (of->tunings != 0) {
        fit(on, of);
        draw_scale(on, of);
        draw_bands(on, of);
        draw_centre(on, of);
    }
    if (of->tunings > DENSE) /* above what covers the row */
        draw_unsure(on, of);
    draw_sends(on, of, sum.seen);
    draw_contexts(on, of);
    draw_missing(on, of);
    fputs("</g>\n", on->out);
}

/* ---- what stands around the rows */

static const char STYLE[] =
    "<style>text{font-family:sans-serif;font-size:12px;fill:#222}.small{font-size:11px;fill:#444}"
    ".bold{font-weight:bold}.large{font-size:18px}.end{text-anchor:end}.middle{text-anchor:middle}"
    ".red{fill:#c00}.back{fill:#f4f5f7}.grid{stroke:#dcdfe4}.tick{stroke:#444}"
    ".band{fill:#3b82c4;fill-opacity:.33}.centre{fill:none;stroke:#12508f;stroke-width:1.6}"
    ".dense{stroke-width:.7;stroke-opacity:.5}.sends{stroke:#7f9bb8;stroke-width:3}"
    ".missing{stroke:#d00000;stroke-width:2}"
    ".unsure{fill:#ffb020;fill-opacity:.4}.context{fill:#ff9800;stroke:#b35900;stroke-width:.8}"
    ".refused{stroke:#222;stroke-width:1.5}"
    ".stop{stroke:#c00;stroke-width:2;stroke-dasharray:5 3}"
    "</style>\n<rect width='100%' height='100%' fill='#fff'/>\n";

static const char LEGEND[] =
    "<path class='band' d='M0 -7h26v14h-26z'/><path class='centre' d='M0 0h26'/>"
    "<text class='small' x='32' y='4'>centre frequency and bandwidth, MHz</text>"
    "<path class='sends' d='M256 1h26'/><text class='small' x='288' y='4'>stream sends</text>"
    "<path class='missing' d='M382 -6v13'/><text class='small' x='390' y='4'>packets missing</text>"
    "<rect class='unsure' x='492' y='-7' width='32' height='14'/>"
    "<path class='context' d='M502 -6l5 6l-5 6l-5 -6z'/><text class='small' x='530' y='4'>"
    "Context packet missing; in the span the tuning is not to be trusted</text>"
    "<path class='refused' d='M914 -7v14'/><text class='small' x='922' y='4'>packet refused</text>"
    "<path class='stop' d='M1018 0h29'/><text class='small' x='1053' y='4'>"
    "ended by a refusal</text></g>\n";

/* The recording's name without its folders, fit for SVG; of a long one only the end. */
static void put_name(FILE *out, const char *name)
{
    const char *at = strrchr(name, '/') ? strrchr(name, '/') + 1 : name;
    size_t length = strlen(at);
    if (length > NAME_ROOM) {
        fputs("..", out);
        at += length - (NAME_ROOM - 2);
    }
    for (; *at; at++) {
        if (*at == '&')
            fputs("&amp;", out);
        else if (*at == '<')
            fputs("&lt;", out);
        else
            fputc(*at < 32 || *at > 126 ? '?' : *at, out);
    }
}

/* The word that was refused where the recording ended. */
static const char *stopped_word(const survey *all)
{
    return grouped(all->stopped_at + VRT49_PLACE(all->stopped_by));
}

/* The title, what happened in all, and what the signs mean. */
static void draw_head(const sheet *on, const char *name)
{
    const survey *all = on->all;
    fputs("<text x='12' y='26' class='large bold'>", on->out);
    put_name(on->out, name);
    fprintf(on->out, ": tuning of %d stream%s over %s packet%s</text>\n", (int)all->streams_n,
            all->streams_n == 1 ? "" : "s", grouped(all->packets), all->packets == 1 ? "" : "s");
    fprintf(on->out, "<text x='12' y='49' class='%s'>missing %s", all->stopped_by ? "red bold" : "",
            grouped(all->missing));
    if (all->contexts_missing != 0)
        fprintf(on->out, " (Context %s)", grouped(all->contexts_missing));
    fprintf(on->out, ", refused %s; ", grouped(all->refused));
    if (all->stopped_by == VRT49_OK) {
        fputs("played to the end", on->out);
    } else {
        fputs("stopped: ", on->out);
        put_refusal(on->out, all->stopped_by, stopped_word(all));
    }
    fprintf(on->out, "</text>\n<g transform='translate(%d 76)'>%s", LEFT, LEGEND);
}

/* Where a refusal ended the recording: a line through all rows. */
static void draw_stop(const sheet *on)
{
    const survey *all = on->all;
    if (all->stopped_by == VRT49_OK || all->packets == 0)
        return;
    fprintf(on->out, "<path class='stop' d='M%.1f %dV%.1f'><title>packet %s: ended by refusal "
            "%" PRIu32 " %s", x_of(on, all->packets - 1), TOP, on->top + 20,
            grouped(all->packets - 1), VRT49_NUMBER(all->stopped_by), vrt49_name(all->stopped_by));
    put_where(on->out, all->stopped_by, stopped_word(all));
    fputs("</title></path>\n", on->out);
}

/* The row of refused packets. */
static void draw_refused(const sheet *on)
{
    const survey *all = on->all;
    size_t c;
    fputs("<g id='refused'>\n", on->out);
    draw_back(on, 20);
    text(on, 12, on->top + 14, "bold", "refused");
    text(on, RIGHT + 10, on->top + 14, all->stopped_by ? "small red bold" : "small",
         all->stopped_by ? "refused %s, stopped by %s" : "refused %s", grouped(all->refused),
         vrt49_name(all->stopped_by));
    for (c = 0; c < on->columns; c++)
        draw_mark(on, c, on->top + 3, "refused", "v14", all->refused_in[c], "refused");
    draw_stop(on);
    fputs("</g>\n", on->out);
}

/* The numbers of the packets. */
static void draw_axis(const sheet *on)
{
    uint64_t step = (uint64_t)step_of((double)on->all->packets, 10, 1), number;
    for (number = 0; number <= on->all->packets; number += step) {
        fprintf(on->out, "<path class='tick' d='M%.1f %.1fv5'/>", x_of(on, number), on->top + 20);
        text(on, x_of(on, number), on->top + 38, "small middle", "%s", grouped(number));
    }
    text(on, LEFT + WIDE / 2, on->top + 58, "middle", "packet number in the recording");
    if (on->all->shift != 0)
        text(on, LEFT + WIDE / 2, on->top + 77, "small middle",
             "%s packets share a column; it shows all that is missing or refused in it, and the "
             "lowest and the highest tuning", grouped(first_of(on, 1)));
}

void draw(FILE *out, const survey *all, const char *name)
{
    uint32_t n = all->streams_n, s;
    double height = n == 1 ? 320 : n <= 3 ? 180 : n <= 6 ? 130 : n <= 12 ? 95 : n <= 20 ? 69 : 57;
    sheet on = {out, all, 0, TOP, height, 0, 1};
    double tall = TOP + n * (on.height + GAP) + 90;
    on.columns = (size_t)((all->packets + (UINT64_C(1) << all->shift) - 1) >> all->shift);
    fputs("<svg xmlns='http://www.w3.org/2000/svg' ", out);
    fprintf(out, "viewBox='0 0 %d %.0f' width='%d' height='%.0f'>\n", PAGE, tall, PAGE, tall);
    fputs(STYLE, out);
    draw_head(&on, name);
    for (s = 0; s < n; s++) {
        on.top = TOP + s * (on.height + GAP);
        draw_stream(&on, &all->streams[s]);
    }
    on.top = TOP + n * (on.height + GAP);
    draw_refused(&on);
    draw_axis(&on);
    fputs("</svg>\n", out);
}
