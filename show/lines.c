/* lines.c: what is printed: lines, or rows of CSV, and the summary. Values are those of the panel:
   in lines frequencies are in MHz to a millihertz, in CSV they are in hertz, exactly. The state is
   said by its held indicators, in CSV as its held word. */
#include <inttypes.h>
#include <stdio.h>

#include "vrtshow.h"

/* The fields whose value is shown, in the order of the lines and of CSV. */
static const struct {
    uint32_t bit;
    const char *text, *unit;
} VALUES[] = {
    {VRT49_BIT_RF_REFERENCE_FREQUENCY, "RF", "MHz"},
    {VRT49_BIT_IF_REFERENCE_FREQUENCY, "IF", "MHz"},
    {VRT49_BIT_RF_REFERENCE_FREQUENCY_OFFSET, "RF offset", "MHz"},
    {VRT49_BIT_IF_BAND_OFFSET, "IF band offset", "MHz"},
    {VRT49_BIT_BANDWIDTH, "bandwidth", "MHz"},
    {VRT49_BIT_SAMPLE_RATE, "sample rate", "MHz"},
    {VRT49_BIT_LEVEL, "level", "dBm"},
    {VRT49_BIT_GAIN, "gain", "dB"},
    {VRT49_BIT_TEMPERATURE, "temperature", "degrees C"},
};
enum { VALUES_N = sizeof VALUES / sizeof VALUES[0] };

/* The other held fields, which are named where they change. */
static const struct {
    uint32_t bit;
    const char *text;
} OTHERS[] = {
    {VRT49_BIT_REFERENCE_POINT, "reference point"},
    {VRT49_BIT_TIMESTAMP_ADJUSTMENT, "timestamp adjustment"},
    {VRT49_BIT_TIMESTAMP_CALIBRATION_TIME, "timestamp calibration time"},
    {VRT49_BIT_DEVICE, "device"},
    {VRT49_BIT_STATE, "state"},
    {VRT49_BIT_FORMAT, "format"},
    {VRT49_BIT_GPS_GEOLOCATION, "GPS geolocation"},
    {VRT49_BIT_INS_GEOLOCATION, "INS geolocation"},
    {VRT49_BIT_ECEF_EPHEMERIS, "ECEF ephemeris"},
    {VRT49_BIT_RELATIVE_EPHEMERIS, "relative ephemeris"},
    {VRT49_BIT_EPHEMERIS_REFERENCE, "ephemeris reference"},
};
enum { OTHERS_N = sizeof OTHERS / sizeof OTHERS[0] };

/* The indicators of a held state word, in the order of the lines. */
static const struct {
    uint32_t bit;
    const char *text;
} INDICATORS[] = {
    {VRT49_STATE_CALIBRATED_TIME, "calibrated time"},
    {VRT49_STATE_VALID_DATA, "valid data"},
    {VRT49_STATE_REFERENCE_LOCK, "reference lock"},
    {VRT49_STATE_AGC, "AGC"},
    {VRT49_STATE_DETECTED_SIGNAL, "detected signal"},
    {VRT49_STATE_SPECTRAL_INVERSION, "spectral inversion"},
};
enum { INDICATORS_N = sizeof INDICATORS / sizeof INDICATORS[0] };

/* The types of packets by name. */
static const char *const TYPES[] = {"data without identifier", "data",
                                    "extension data without identifier", "extension data",
                                    "Context", "extension Context"};

/* Why a refusal is given that ends a recording. */
static const char *reason(uint32_t refusal)
{
    switch (VRT49_NUMBER(refusal)) {
    case VRT49_TYPE: return "its type is above 5";
    case VRT49_BITS: return "a reserved header bit is set";
    case VRT49_SHORT: return "its size is below the parts that its header announces";
    case VRT49_CUT: return "its size exceeds what is left: the recording ends inside it";
    case VRT49_CLASS: return "the top eight class bits are not zero";
    case VRT49_TIME: return "its fraction is a second or more";
    case VRT49_INDICATOR: return "indicator bits 7-0 are not zero";
    case VRT49_LAYOUT: return "its fields need more or fewer words than its body has";
    case VRT49_FIELD: return "a field breaks its rule";
    case VRT49_PAD: return "it is no data packet of 49A: its class, its trailer or its padding";
    case VRT49_LIST: return "it does not begin with 1 to 32 identifiers, each once";
    default: return "";
    }
}

/* ---- numbers as text */

const char *grouped(uint64_t number)
{
    static char texts[8][32];
    static int next;
    char *text = texts[next++ & 7] + 31;
    int digits = 0;
    for (*text = 0; digits == 0 || number != 0; number /= 10, digits++) {
        if (digits != 0 && digits % 3 == 0)
            *--text = ',';
        *--text = (char)('0' + number % 10);
    }
    return text;
}

const char *ungrouped(uint64_t number)
{
    static char text[24];
    snprintf(text, sizeof text, "%" PRIu64, number);
    return text;
}

/* So many digits behind a point, without the zeros at their end; nothing where all are zero. */
static void put_decimals(uint64_t rest, int digits)
{
    if (rest == 0)
        return;
    for (; rest % 10 == 0; rest /= 10)
        digits--;
    printf(".%0*" PRIu64, digits, rest);
}

/* A frequency in MHz, to a millihertz, halves up; ~ stands before one that is rounded. */
static void put_megahertz(const vrt49_shown *shown)
{
    uint64_t thousandths = shown->parts * UINT64_C(1000), size;
    int64_t value = shown->hertz * 1000 + (int64_t)((thousandths + (1 << 19)) >> 20);
    size = value < 0 ? (uint64_t)-value : (uint64_t)value;
    printf("%s%s%" PRIu64, thousandths & 0xFFFFF ? "~" : "", value < 0 ? "-" : "",
           size / 1000000000);
    put_decimals(size % 1000000000, 9);
}

/* A frequency in hertz, exactly: -1 and 786,432 parts are -0.25. */
static void put_hertz(const vrt49_shown *shown)
{
    int below = shown->hertz < 0, up = below && shown->parts != 0;
    uint64_t whole = below ? (uint64_t)-(shown->hertz + up) : (uint64_t)shown->hertz;
    uint32_t rest = up ? (1u << 20) - shown->parts : shown->parts;
    printf("%s%" PRIu64 "%s", below ? "-" : "", whole, rest != 0 ? "." : "");
    for (; rest != 0; rest = rest * 10 & 0xFFFFF)
        putchar('0' + (int)(rest * 10 >> 20));
}

/* What the panel shows of a field, without its unit. */
static void put_value(const vrt49_shown *shown)
{
    if (shown->kind == VRT49_KIND_FREQUENCY)
        put_megahertz(shown);
    else if (shown->kind == VRT49_KIND_GAIN)
        printf("%.10g and %.10g", (double)shown->levels[0], (double)shown->levels[1]);
    else
        printf("%.10g", (double)shown->levels[0]);
}

/* ---- refusals */

void put_where(FILE *out, uint32_t refusal, const char *word)
{
    uint32_t bit = VRT49_BIT(refusal);
    if (VRT49_NUMBER(refusal) == VRT49_LIST)
        return;
    fputs(" (", out);
    if (VRT49_NUMBER(refusal) == VRT49_FIELD)
        fprintf(out, "field %" PRIu32 ", %s, ", bit, vrt49_field_name(bit));
    fprintf(out, "at word %" PRIu32 " of the packet, %s of the recording)", VRT49_PLACE(refusal),
            word);
}

void put_refusal(FILE *out, uint32_t refusal, const char *word)
{
    fprintf(out, "refused %" PRIu32 " %s: %s", VRT49_NUMBER(refusal), vrt49_name(refusal),
            reason(refusal));
    put_where(out, refusal, word);
}

/* ---- lines */

/* Where the line's packet stands, and when it says that it was made: seconds, and picoseconds. */
static void put_front(const packet *at)
{
    vrt49_survey read;
    printf("at %" PRIu64 " packet %" PRIu64, at->place, at->number);
    if (!read_at(at, &read) || read.packet.tsi == VRT49_TSI_NONE)
        return;
    printf(" time %" PRIu32, read.packet.seconds);
    if (read.packet.tsf == VRT49_TSF_PICOSECONDS)
        put_decimals(vrt49_fraction(&read.packet), 12);
}

/* Which stream the line is of. */
static void put_stream(const survey *all, const stream *of)
{
    printf(" stream %d (0x%08" PRIX32 ")", (int)(of - all->streams), of->identifier);
}

/* The value of a field that the panel shows, behind its value before where it had one. */
static void put_change(size_t i, const vrt49_panel *now, const vrt49_panel *before)
{
    vrt49_shown shown = vrt49_shown_of(now, VALUES[i].bit);
    vrt49_shown old = vrt49_shown_of(before ? before : now, VALUES[i].bit);
    printf("%s ", VALUES[i].text);
    if (before && old.kind != VRT49_KIND_ABSENT) {
        put_value(&old);
        printf(" -> ");
    }
    put_value(&shown);
    printf(" %s", VALUES[i].unit);
}

/* The values of the fields of the set bits; gives what stands before the next name. */
static const char *put_values(const vrt49_panel *now, const vrt49_panel *before, uint32_t bits)
{
    const char *between = "";
    size_t i;
    for (i = 0; i < VALUES_N; i++)
        if (bits >> VALUES[i].bit & 1) {
            printf("%s", between);
            put_change(i, now, before);
            between = ", ";
        }
    return between[0] ? "; also " : "";
}

/* What is held of the state: each indicator, on or off, and the user bits. */
static void put_state(uint32_t state)
{
    size_t i;
    for (i = 0; i < INDICATORS_N; i++)
        if (vrt49_state_holds(state, INDICATORS[i].bit))
            printf("%s %s, ", INDICATORS[i].text,
                   vrt49_state_on(state, INDICATORS[i].bit) ? "on" : "off");
    printf("user bits 0x%02" PRIX32, state & VRT49_STATE_USER);
}

/* The name of a field that has no value; behind that of the state what is held of it. */
static void put_name(const stream *of, size_t i)
{
    printf("%s", OTHERS[i].text);
    if (OTHERS[i].bit != VRT49_BIT_STATE)
        return;
    printf(" (");
    put_state(of->state);
    printf(")");
}

/* The values of the stream's fields of the set bits, then the names of those that have none; and
   the line's end. */
static void put_fields(const stream *of, const vrt49_panel *before, uint32_t bits)
{
    const char *between = put_values(&of->panel, before, bits);
    size_t i;
    for (i = 0; i < OTHERS_N; i++)
        if (bits >> OTHERS[i].bit & 1) {
            printf("%s", between);
            put_name(of, i);
            between = ", ";
        }
    puts("");
}

/* Which fields are still in doubt, where some are; and the line's end. */
static void put_doubt(uint32_t bits)
{
    const char *between = "; still in doubt: ";
    size_t i;
    for (i = 0; i < VALUES_N; i++)
        if (bits >> VALUES[i].bit & 1) {
            printf("%s%s", between, VALUES[i].text);
            between = ", ";
        }
    puts("");
}

/* What the items of a format are. */
static const char *item_name(uint32_t first)
{
    uint32_t code = first >> 24 & 31;
    return code == 0 ? "signed" : code == 16 ? "unsigned" : "float";
}

/* How many items a data packet by 49A has, and their format: real or complex, the bits of an item
   and what it is, and the vector size. */
static void put_samples(const vrt49_survey *samples)
{
    printf("%s items, %s, %" PRIu32 " bits %s, vector size %" PRIu32 "\n",
           grouped(samples->items), samples->first >> 29 & 3 ? "complex" : "real",
           vrt49_item_bits(samples->first), item_name(samples->first), samples->second + 1);
}

/* Which packet is of no declared stream: its identifier, or its type where it has none. */
static void put_stranger(const packet *at)
{
    vrt49_survey read;
    read_at(at, &read);
    if (has_identifier(&read.packet))
        printf("identifier 0x%08" PRIX32 " is not declared", read.packet.identifier);
    else
        printf("type %" PRIu32 ", %s", read.packet.type, TYPES[read.packet.type]);
}

/* What was refused, why and where. */
static void line_refused(const packet *at, uint32_t refusal)
{
    const char *word = ungrouped((at ? at->place : 0) + VRT49_PLACE(refusal));
    if (at)
        put_front(at);
    else
        printf("at 0");
    printf(" ");
    if (VRT49_NUMBER(refusal) == VRT49_STREAM) {
        printf("refused %" PRIu32 " %s: ", VRT49_NUMBER(refusal), vrt49_name(refusal));
        put_stranger(at);
        put_where(stdout, refusal, word);
    } else {
        put_refusal(stdout, refusal, word);
    }
    puts("");
}

/* ---- rows of CSV */

const char VALUE_COLUMNS[] = "rf_hz,if_hz,rf_offset_hz,if_band_offset_hz,bandwidth_hz,"
                             "sample_rate_hz,level_dbm,gain_1_db,gain_2_db,temperature_c,state";

void tell_columns(const survey *all)
{
    printf("packet,word,event,stream,identifier,type,missing,unsure_since,refusal,name,changed,"
           "in_doubt,tsi,seconds,tsf,fraction,%s%s,place,bit\n",
           VALUE_COLUMNS, all->chosen_n != 0 ? ",items,format,vector" : "");
}

/* The value of a row's field, of a gain both; nothing where it is absent or there is no stream. */
static void put_cell(const stream *of, uint32_t bit)
{
    vrt49_shown shown;
    shown.kind = VRT49_KIND_ABSENT;
    if (of)
        shown = shown_of(of, bit);
    putchar(',');
    if (shown.kind == VRT49_KIND_FREQUENCY)
        put_hertz(&shown);
    else if (shown.kind != VRT49_KIND_ABSENT)
        printf("%.10g", (double)shown.levels[0]);
    if (bit == VRT49_BIT_GAIN)
        putchar(',');
    if (shown.kind == VRT49_KIND_GAIN)
        printf("%.10g", (double)shown.levels[1]);
}

/* The held state word of a row's stream; nothing where it is absent or there is no stream. */
static void put_state_cell(const stream *of)
{
    putchar(',');
    if (of && holds_state(of))
        printf("0x%08" PRIX32, of->state);
}

void put_cells(const stream *of)
{
    size_t i;
    for (i = 0; i < VALUES_N; i++)
        put_cell(of, VALUES[i].bit);
    put_state_cell(of);
}

/* The items of a row's packet, what they are, and the vector size: items,format,vector. Nothing
   where it is no data packet by 49A. */
static void put_samples_cells(const packet *at, const vrt49_survey *samples)
{
    if (!at || at->choice != VRT49_SURVEY) {
        printf(",,,");
        return;
    }
    printf(",%" PRIu32 ",%s %" PRIu32 " bits %s,%" PRIu32, samples->items,
           samples->first >> 29 & 3 ? "complex" : "real", vrt49_item_bits(samples->first),
           item_name(samples->first), samples->second + 1);
}

/* The place of the word that is refused, in the packet, and of FIELD the field's bit: place,bit.
   Nothing where no packet is refused. */
static void put_place_cells(const packet *at)
{
    uint32_t refusal = at ? vrt49_entry_refusal(at->said) : VRT49_OK;
    putchar(',');
    if (refusal != VRT49_OK)
        printf("%" PRIu32, VRT49_PLACE(refusal));
    putchar(',');
    if (VRT49_NUMBER(refusal) == VRT49_FIELD)
        printf("%" PRIu32, VRT49_BIT(refusal));
}

/* Where it stands and what it is: packet,word,event,stream,identifier,type. */
static void put_who(const survey *all, const stream *of, const packet *at, const vrt49_packet *read,
                    const char *event)
{
    if (at)
        printf("%" PRIu64 ",%" PRIu64 ",%s,", at->number, at->place, event);
    else
        printf(",0,%s,", event);
    if (of)
        printf("%d", (int)(of - all->streams));
    if (read && has_identifier(read))
        printf(",0x%08" PRIX32, read->identifier);
    else
        printf(",");
    if (read)
        printf(",%" PRIu32, read->type);
    else
        printf(",");
}

/* When it says that it was made: tsi,seconds,tsf,fraction. */
static void put_when(const vrt49_packet *read)
{
    if (!read) {
        printf(",,,,");
        return;
    }
    printf(",%" PRIu32 ",", read->tsi);
    if (read->tsi != VRT49_TSI_NONE)
        printf("%" PRIu32, read->seconds);
    printf(",%" PRIu32 ",", read->tsf);
    if (read->tsf != VRT49_TSF_NONE)
        printf("%" PRIu64, vrt49_fraction(read));
}

/* A row; what: its cells missing,unsure_since,refusal,name,changed. The one behind them is
   in_doubt. */
static void row(const survey *all, const stream *of, const packet *at, const char *event,
                const char *what)
{
    vrt49_survey read;
    int good = at && read_at(at, &read);
    put_who(all, of, at, good ? &read.packet : NULL, event);
    printf(",%s,", what);
    if (of)
        printf("0x%08" PRIX32, of->doubt.fields);
    put_when(good ? &read.packet : NULL);
    put_cells(of);
    if (all->chosen_n != 0)
        put_samples_cells(at, &read);
    put_place_cells(at);
    puts("");
}

/* ---- what happens, in the survey's manner */

void tell_tuning(const survey *all, const stream *of, const packet *at, uint32_t changed,
                 const vrt49_panel *before)
{
    int tuning = (changed & TUNING_FIELDS) != 0;
    char what[80];
    snprintf(what, sizeof what, ",,,,0x%08" PRIX32, changed);
    if (all->manner == CSV)
        row(all, of, at, tuning ? "tuning" : "other", what);
    if (all->manner != LINES)
        return;
    put_front(at);
    put_stream(all, of);
    printf(tuning ? " tuned: " : " changed: ");
    put_fields(of, before, changed);
}

/* The row of missing packets. */
static void row_missing(const survey *all, const stream *of, const packet *at, uint32_t doubted)
{
    char since[24] = "", what[80];
    if (doubted != 0)
        snprintf(since, sizeof since, "%" PRIu64, of->doubt.since);
    snprintf(what, sizeof what, "%" PRIu32 ",%s,,,", at->said->missing, since);
    row(all, of, at, "missing", what);
}

/* The line of missing packets. */
static void line_missing(const survey *all, const stream *of, const packet *at, uint32_t doubted)
{
    put_front(at);
    put_stream(all, of);
    printf(" missing %" PRIu32 " of type %" PRIu32 " (%s)", at->said->missing, at->said->type,
           TYPES[at->said->type]);
    if (doubted == 0) {
        puts("");
        return;
    }
    printf(": tuning not to be trusted since packet %" PRIu64 ", for %" PRIu64 " data packets",
           of->doubt.since, of->doubt.packets);
    put_doubt(of->doubt.fields);
}

void tell_missing(const survey *all, const stream *of, const packet *at, uint32_t doubted)
{
    if (all->manner == CSV)
        row_missing(all, of, at, doubted);
    if (all->manner == LINES)
        line_missing(all, of, at, doubted);
}

void tell_trusted(const survey *all, const stream *of, const packet *at)
{
    char what[80];
    snprintf(what, sizeof what, ",%" PRIu64 ",,,", of->doubt.since);
    if (all->manner == CSV)
        row(all, of, at, "trusted", what);
    if (all->manner != LINES)
        return;
    put_front(at);
    put_stream(all, of);
    printf(" tuning trusted again: it was not since packet %" PRIu64 ", for %" PRIu64
           " data packets\n", of->doubt.since, of->doubt.packets);
}

void tell_samples(const survey *all, const stream *of, const packet *at)
{
    if (all->manner == CSV)
        row(all, of, at, "samples", ",,,,");
    if (all->manner != LINES)
        return;
    put_front(at);
    put_stream(all, of);
    printf(" samples: ");
    put_samples(&of->samples);
}

void tell_refused(const survey *all, const packet *at, uint32_t refusal)
{
    char what[80];
    snprintf(what, sizeof what, ",,%" PRIu32 ",%s,", VRT49_NUMBER(refusal), vrt49_name(refusal));
    if (all->manner == CSV)
        row(all, NULL, at, "refused", what);
    if (all->manner == LINES)
        line_refused(at, refusal);
}

/* ---- the summary */

void put_heads(void)
{
    printf("\n%-17s%24s%24s%24s%24s\n%-17s%24s%24s%24s%24s\n", "", "data (1)",
           "extension data (3)", "Context (4)", "extension Context (5)", "stream identifier",
           "seen   missing", "seen   missing", "seen   missing", "seen   missing");
}

void put_packets(const survey *all, const stream *of)
{
    size_t i;
    printf("%6d 0x%08" PRIX32, (int)(of - all->streams), of->identifier);
    for (i = 0; i < COUNTED_N; i++) {
        vrt49_count count = counted(all, of, COUNTED[i]);
        if (count.started)
            printf("%14s %9s", grouped(count.seen), grouped(count.missing));
        else
            printf("%14s %9s", "-", "-");
    }
    puts("");
}

/* The packets of no declared stream, by identifier. */
static void put_strangers(const survey *all)
{
    size_t i;
    for (i = 0; i < STRANGERS && all->strangers[i].packets != 0; i++)
        printf("not declared: 0x%08" PRIX32 ", packets %s\n", all->strangers[i].identifier,
               grouped(all->strangers[i].packets));
    if (all->others != 0)
        printf("not declared: other identifiers, packets %s\n", grouped(all->others));
    if (all->unnamed != 0)
        printf("not declared: no identifier, packets %s\n", grouped(all->unnamed));
}

void put_held(const stream *of, const char *what)
{
    uint32_t held = of->held & VALUE_FIELDS;
    printf("       %s: ", what);
    if (held != 0)
        put_fields(of, NULL, held);
    else
        puts("none");
    if (!holds_state(of))
        return;
    printf("       state: ");
    put_state(of->state);
    puts("");
}

/* Of a stream by 49A: its data packets and their items, and the last of them. */
static void put_survey(const stream *of)
{
    if (of->choice != VRT49_SURVEY)
        return;
    printf("       49A: %s data packets, %s items%s", grouped(of->sampled), grouped(of->items),
           of->sampled != 0 ? "; the last has " : "\n");
    if (of->sampled != 0)
        put_samples(&of->samples);
}

/* What a stream did: its packets by type, what its samples are by 49A, its last tuning and state,
   and where it had no tuning or one that cannot be trusted. */
static void put_summary(const survey *all, const stream *of)
{
    put_packets(all, of);
    put_survey(of);
    put_held(of, "last tuning");
    if (of->untuned != 0)
        printf("       without a tuning: %s data packets\n", grouped(of->untuned));
    if (of->doubt.total == 0 && of->doubt.fields == 0)
        return;
    printf("       tuning not to be trusted for %s data packets", grouped(of->doubt.total));
    put_doubt(of->doubt.fields);
}

void tell_summary(const survey *all, const recording *from)
{
    const stream *of;
    if (all->streams_n != 0)
        put_heads();
    for (of = all->streams; of < all->streams + all->streams_n; of++)
        put_summary(all, of);
    printf("\npackets %s, missing %s", grouped(all->packets), grouped(all->missing));
    if (all->contexts_missing != 0)
        printf(" (Context %s)", grouped(all->contexts_missing));
    printf(", refused %s\n", grouped(all->refused));
    put_strangers(all);
    if (all->stopped_by != VRT49_OK) {
        printf("stopped: ");
        put_refusal(stdout, all->stopped_by,
                    ungrouped(all->stopped_at + VRT49_PLACE(all->stopped_by)));
        puts("");
    }
    printf("end %" PRIu64 " tail %d\n", all->stopped_at, tail_of(from));
}
