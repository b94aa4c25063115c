/* vrt49.h: the calls of libvrt49: VITA 49.0 packets, and the data packets of 49A, payloads, tables,
   pages, indexes and readings.

   The rules are those of document 01, the scope that the owner of this project wrote, as the change
   requests of document 02 have changed it: docs/PACKET.md, docs/LAYOUT.md and docs/MANUAL.md say
   them in the project's words.

   A call answers a number: VRT49_OK, which is 0, where it is accepted, and only there; else the
   number of the first refusal that applies (enum vrt49_refusal). vrt49_field_count and
   vrt49_well_made refuse nothing and answer their value. What vrt49_read, vrt49_read_survey,
   vrt49_play and vrt49_grow answer says besides which word of the packet is refused: VRT49_NUMBER,
   VRT49_PLACE and VRT49_BIT take it apart. A refusal changes nothing that was handed over.

   Words are numbers of 32 bits in the host's own order: a recording's bytes are put into that order
   before a call sees them (examples/c/tuning.c does it). A buffer is a pointer and its number of
   entries. Values come back through pointers: to one number, such as `length`, or to a struct.

   Calls are reentrant: nothing is kept between them, nothing is shared, and nothing is allocated;
   threads may call at once, where none writes what another has handed over.
   The stack that a call takes is fixed: 12800 bytes for vrt49_jump and 12072 for vrt49_grow, which
   hold a table of 32 streams, 512 for vrt49_put_back, and less than 400 for every other (`make
   stack`). memcpy, memmove and memset are all that is asked of the C library.

   What a call costs in S, the number of streams: vrt49_play, vrt49_well_made, vrt49_page_length,
   vrt49_save, vrt49_put_back, vrt49_reading, vrt49_readings, vrt49_held_words, vrt49_identity,
   vrt49_counts and vrt49_own_table test a whole table each time, 270 to 540 instructions for each
   stream that holds six fields, and vrt49_changed tests two; of a stream's fields vrt49_readings
   gives all for one test. vrt49_start_index tests a table too, vrt49_grow a table and the contents
   of an index, which have up to 1,024 index entries, and vrt49_jump these contents and a page,
   before it plays up to 1,023 packets. vrt49_play_run is the fast one: it tests the table once, and
   then takes 109 instructions for a sample packet, 212 for one of 49A, and 6 for each stream before
   its own (docs/SPEED.md).

   What a caller owes: every pointer is valid, and aligned as its type asks; a buffer has as many
   entries as its number says, and an array of a fixed length, such as levels[2], has them all; a
   pointer to a number, to a struct or to such an array is not null; what is written, be it number,
   struct, array or buffer, overlaps nothing else that is handed over. A buffer of no entries may be
   null.

   The header is C99 and C++. The library is for x86-64 Linux. */
#ifndef VRT49_H
#define VRT49_H
#include <stddef.h>
#include <stdint.h>

#define VRT49_VERSION_MAJOR 0
#define VRT49_VERSION_MINOR 17
#define VRT49_VERSION_PATCH 0

#ifdef __cplusplus
extern "C" {
#endif

/* ---- numbers */

/* The numbers of refusals, and 0. docs/MANUAL.md says what to do. */
enum vrt49_refusal {
    VRT49_OK = 0,
    VRT49_EMPTY = 1,     /* no words */
    VRT49_TYPE = 2,      /* type above 5 */
    VRT49_BITS = 3,      /* reserved header bit set */
    VRT49_SHORT = 4,     /* size below the required parts */
    VRT49_CUT = 5,       /* size exceeds the words given */
    VRT49_CLASS = 6,     /* top eight class bits not zero; not given for 49A */
    VRT49_TIME = 7,      /* TSF is 2 and the fraction is 10^12 or more */
    VRT49_INDICATOR = 8, /* indicator bits 7-0 not zero */
    VRT49_LAYOUT = 9,    /* fields need more or fewer words than the body has */
    VRT49_FIELD = 10,    /* a field rule is broken */
    VRT49_STREAM = 11,   /* no identifier, one not declared, or a stream number not in the table */
    VRT49_LIST = 12,     /* 0 or over 32 identifiers, or one twice; or choices that are not one for
                            each, or are not 0 or 1 */
    VRT49_ROOM = 13,     /* a buffer to be written is too short, or an index is full */
    VRT49_VALUE = 14,    /* a number does not fit its bits, type or range; a bit is not 30 to 10 */
    VRT49_SIZE = 15,     /* a packet to be written, or a page, exceeds 65,535 words */
    VRT49_FORMAT = 16,   /* the payload format is refused, or an item width is outside 1 to 64 */
    VRT49_COUNT = 17,    /* wrong number of items, which come in whole groups, or of words */
    VRT49_TABLE = 18,    /* table not well made */
    VRT49_PAGE = 19,     /* page not well made; or an index: its contents, or an entry, not well
                            made, or one from which the recording does not reach the packet */
    VRT49_PAD = 20,      /* 49A: class or trailer absent, a class that is not the Standard Data
                            Packet's, or a payload that is not whole sample vectors and its
                            padding */
    VRT49_PLACE = 21     /* a packet's number is above those that the index has taken in */
};

/* A refusal as vrt49_read, vrt49_read_survey, vrt49_play and vrt49_grow give it: its number, which
   stands in bits 7-0; of FIELD the bit of the field, in bits 15-8, which are 0 of every other; and
   the place of the word that is refused, in bits 31-16: from the packet's header on, whose place is
   0. Each macro gives one of them, and evaluates the refusal once. Of VRT49_OK all three are 0. The
   name VRT49_PLACE without brackets is none of them: it is the refusal 21.

       uint32_t refusal = vrt49_read(words, n, &packet);
       if (VRT49_NUMBER(refusal) == VRT49_FIELD)
           printf("field %u, at word %u\n", VRT49_BIT(refusal), VRT49_PLACE(refusal));

   The places are:

       EMPTY, TYPE, BITS, SHORT, CUT   0, the header
       CLASS                           the class's first word
       TIME                            the fraction's first word
       INDICATOR, LAYOUT               the indicator word
       FIELD                           the first word of the highest field that breaks its rule
       PAD                             the class's first word, or 0 where there is no class
       STREAM                          1, the identifier, or 0 where there is none
       TABLE                           none: it is of no packet, and 18 alone is given
       PAGE, ROOM                      none: they are of vrt49_grow's index; 19 or 13 alone is given
   */
#define VRT49_NUMBER(refusal) ((uint32_t)(refusal) & 0xFFu)
#define VRT49_BIT(refusal) ((uint32_t)(refusal) >> 8 & 0xFFu)
#define VRT49_PLACE(refusal) ((uint32_t)(refusal) >> 16)

/* The name of a number that a call answered, "OK" of 0; "?" of one that no call answers. It looks
   at bits 7-0 alone, so it takes a refusal with its place too. */
static inline const char *vrt49_name(uint32_t number)
{
    switch (VRT49_NUMBER(number)) {
    case VRT49_OK: return "OK";
    case VRT49_EMPTY: return "EMPTY";
    case VRT49_TYPE: return "TYPE";
    case VRT49_BITS: return "BITS";
    case VRT49_SHORT: return "SHORT";
    case VRT49_CUT: return "CUT";
    case VRT49_CLASS: return "CLASS";
    case VRT49_TIME: return "TIME";
    case VRT49_INDICATOR: return "INDICATOR";
    case VRT49_LAYOUT: return "LAYOUT";
    case VRT49_FIELD: return "FIELD";
    case VRT49_STREAM: return "STREAM";
    case VRT49_LIST: return "LIST";
    case VRT49_ROOM: return "ROOM";
    case VRT49_VALUE: return "VALUE";
    case VRT49_SIZE: return "SIZE";
    case VRT49_FORMAT: return "FORMAT";
    case VRT49_COUNT: return "COUNT";
    case VRT49_TABLE: return "TABLE";
    case VRT49_PAGE: return "PAGE";
    case VRT49_PAD: return "PAD";
    case VRT49_PLACE: return "PLACE";
    default: return "?";
    }
}

/* How many there are at most, and the words that they take. A buffer of these words has room. */
#define VRT49_STREAMS_MAX 32                 /* streams of a table */
#define VRT49_PACKET_WORDS 65535             /* a packet, at most */
#define VRT49_FIELD_WORDS 13                 /* a held field, at most */
#define VRT49_ENTRY_WORDS 5                  /* a run entry, as vrt49_play_run writes it */
#define VRT49_TABLE_WORDS(s) (1 + 89 * (s))  /* the layout of a table of s streams */
#define VRT49_PAGE_WORDS(s) (2 + 90 * (s))   /* a page of s streams, at most */
#define VRT49_ITEMS_MAX 2097120              /* items that are packed or unpacked at once */

/* Of an index: the words of its contents, the index entries that they have room for, the packets
   from an index entry to the next, and the words of an index of so many index entries of s streams,
   at most. A full one has taken in 1,048,575 packets. */
#define VRT49_INDEX_CONTENTS 4100
#define VRT49_INDEX_ENTRIES 1024
#define VRT49_INDEX_SPACING 1024
#define VRT49_INDEX_WORDS(s, entries) (VRT49_INDEX_CONTENTS + (entries) * VRT49_PAGE_WORDS(s))

/* How the data packets of a stream, of type 1, are read: a word for each identifier of a list. */
enum vrt49_choice {
    VRT49_PLAIN = 0, /* 49.0 */
    VRT49_SURVEY = 1 /* 49A, the Spectrum Survey: its Standard Data Packet */
};

/* The type of a packet. */
enum vrt49_type {
    VRT49_TYPE_DATA_NO_ID = 0,           /* samples, without an identifier */
    VRT49_TYPE_DATA = 1,                 /* samples */
    VRT49_TYPE_EXTENSION_DATA_NO_ID = 2, /* Extension data, without an identifier */
    VRT49_TYPE_EXTENSION_DATA = 3,       /* Extension data */
    VRT49_TYPE_CONTEXT = 4,              /* the tuning */
    VRT49_TYPE_EXTENSION_CONTEXT = 5     /* Extension context */
};

/* What TSI says of the seconds. */
enum vrt49_tsi {
    VRT49_TSI_NONE = 0,
    VRT49_TSI_UTC = 1,
    VRT49_TSI_GPS = 2,
    VRT49_TSI_OTHER = 3
};

/* What TSF says of the fraction. */
enum vrt49_tsf {
    VRT49_TSF_NONE = 0,
    VRT49_TSF_SAMPLE_COUNT = 1, /* samples since the second began */
    VRT49_TSF_PICOSECONDS = 2,  /* picoseconds since the second began: real time */
    VRT49_TSF_FREE_RUNNING = 3  /* samples since any moment */
};

/* The fields of a type 4 body, by their bit of the indicator word. A table holds 30 to 10 but 22,
   whose count is of one data packet; of 16 it holds the indicators of enum vrt49_state_bit and the
   user bits. */
enum vrt49_bit {
    VRT49_BIT_REFERENCE_POINT = 30,               /* 1 word */
    VRT49_BIT_BANDWIDTH = 29,                     /* 2 words: a frequency */
    VRT49_BIT_IF_REFERENCE_FREQUENCY = 28,        /* 2 words: a frequency */
    VRT49_BIT_RF_REFERENCE_FREQUENCY = 27,        /* 2 words: a frequency */
    VRT49_BIT_RF_REFERENCE_FREQUENCY_OFFSET = 26, /* 2 words: a frequency */
    VRT49_BIT_IF_BAND_OFFSET = 25,                /* 2 words: a frequency */
    VRT49_BIT_LEVEL = 24,                         /* 1 word: a level */
    VRT49_BIT_GAIN = 23,                          /* 1 word: a gain */
    VRT49_BIT_OVER_RANGE_COUNT = 22,              /* 1 word; not held */
    VRT49_BIT_SAMPLE_RATE = 21,                   /* 2 words: a frequency */
    VRT49_BIT_TIMESTAMP_ADJUSTMENT = 20,          /* 2 words */
    VRT49_BIT_TIMESTAMP_CALIBRATION_TIME = 19,    /* 1 word */
    VRT49_BIT_TEMPERATURE = 18,                   /* 1 word: a temperature */
    VRT49_BIT_DEVICE = 17,                        /* 2 words */
    VRT49_BIT_STATE = 16,                         /* 1 word; held in part, see below */
    VRT49_BIT_FORMAT = 15,                        /* 2 words: for vrt49_unpack */
    VRT49_BIT_GPS_GEOLOCATION = 14,               /* 11 words */
    VRT49_BIT_INS_GEOLOCATION = 13,               /* 11 words */
    VRT49_BIT_ECEF_EPHEMERIS = 12,                /* 13 words */
    VRT49_BIT_RELATIVE_EPHEMERIS = 11,            /* 13 words */
    VRT49_BIT_EPHEMERIS_REFERENCE = 10,           /* 1 word */
    VRT49_BIT_GPS_ASCII = 9,                      /* says its own length; not held */
    VRT49_BIT_LISTS = 8                           /* says its own length; not held */
};

/* The name of a field by its bit; "?" of a bit that has none. */
static inline const char *vrt49_field_name(uint32_t bit)
{
    switch (bit) {
    case VRT49_BIT_REFERENCE_POINT: return "reference point";
    case VRT49_BIT_BANDWIDTH: return "bandwidth";
    case VRT49_BIT_IF_REFERENCE_FREQUENCY: return "IF reference frequency";
    case VRT49_BIT_RF_REFERENCE_FREQUENCY: return "RF reference frequency";
    case VRT49_BIT_RF_REFERENCE_FREQUENCY_OFFSET: return "RF reference frequency offset";
    case VRT49_BIT_IF_BAND_OFFSET: return "IF band offset";
    case VRT49_BIT_LEVEL: return "level";
    case VRT49_BIT_GAIN: return "gain";
    case VRT49_BIT_OVER_RANGE_COUNT: return "over-range count";
    case VRT49_BIT_SAMPLE_RATE: return "sample rate";
    case VRT49_BIT_TIMESTAMP_ADJUSTMENT: return "timestamp adjustment";
    case VRT49_BIT_TIMESTAMP_CALIBRATION_TIME: return "timestamp calibration time";
    case VRT49_BIT_TEMPERATURE: return "temperature";
    case VRT49_BIT_DEVICE: return "device";
    case VRT49_BIT_STATE: return "state";
    case VRT49_BIT_FORMAT: return "format";
    case VRT49_BIT_GPS_GEOLOCATION: return "GPS geolocation";
    case VRT49_BIT_INS_GEOLOCATION: return "INS geolocation";
    case VRT49_BIT_ECEF_EPHEMERIS: return "ECEF ephemeris";
    case VRT49_BIT_RELATIVE_EPHEMERIS: return "relative ephemeris";
    case VRT49_BIT_EPHEMERIS_REFERENCE: return "ephemeris reference";
    case VRT49_BIT_GPS_ASCII: return "GPS ASCII";
    case VRT49_BIT_LISTS: return "lists";
    default: return "?";
    }
}

/* The bits of a trailer's enables and of its indicators. An indicator says something where its
   enable is set: yes where it is set too, no where it is clear. */
enum vrt49_trailer_bit {
    VRT49_TRAILER_CALIBRATED_TIME = 0x800,
    VRT49_TRAILER_VALID_DATA = 0x400,
    VRT49_TRAILER_REFERENCE_LOCK = 0x200,
    VRT49_TRAILER_AGC = 0x100,
    VRT49_TRAILER_DETECTED_SIGNAL = 0x080,
    VRT49_TRAILER_SPECTRAL_INVERSION = 0x040,
    VRT49_TRAILER_OVER_RANGE = 0x020,
    VRT49_TRAILER_SAMPLE_LOSS = 0x010,
    VRT49_TRAILER_USER = 0x00F
};

/* The indicators of a held state word, field 16, by the bits of their enables. An accepted Context
   packet that carries the field replaces those that it enables, each by its value, and all user
   bits; the others stay. Over-range and sample loss speak of one data packet, and are not held:
   their bits are 0. vrt49_held_words gives the word, vrt49_state_holds and vrt49_state_on what it
   says. */
enum vrt49_state_bit {
    VRT49_STATE_CALIBRATED_TIME = 31,
    VRT49_STATE_VALID_DATA = 30,
    VRT49_STATE_REFERENCE_LOCK = 29,
    VRT49_STATE_AGC = 28,
    VRT49_STATE_DETECTED_SIGNAL = 27,
    VRT49_STATE_SPECTRAL_INVERSION = 26
};

#define VRT49_STATE_BELOW 12   /* how far below its enable the value of an indicator stands */
#define VRT49_STATE_USER 0xFFu /* the user bits of a state word */

/* The data type of a 49A class: what an item is, and its bits. */
enum vrt49_data_type {
    VRT49_DATA_SIGNED_4 = 1, /* two's complement: vrt49_signed gives the value */
    VRT49_DATA_SIGNED_8 = 2,
    VRT49_DATA_SIGNED_16 = 3,
    VRT49_DATA_SIGNED_32 = 4,
    VRT49_DATA_SIGNED_64 = 5,
    VRT49_DATA_SINGLE_32 = 6, /* IEEE 754 */
    VRT49_DATA_DOUBLE_64 = 7,
    VRT49_DATA_UNSIGNED_1 = 8,
    VRT49_DATA_UNSIGNED_4 = 9,
    VRT49_DATA_UNSIGNED_8 = 10,
    VRT49_DATA_UNSIGNED_16 = 11,
    VRT49_DATA_UNSIGNED_32 = 12,
    VRT49_DATA_UNSIGNED_64 = 13
};

#define VRT49_SURVEY_OUI 0xFFFFFAu /* the OUI of a 49A class */

/* The kinds of reading. */
enum vrt49_kind {
    VRT49_KIND_FREQUENCY = 1,   /* whole hertz, and parts of 2^20 */
    VRT49_KIND_LEVEL = 2,       /* dBm */
    VRT49_KIND_GAIN = 3,        /* dB, of stages 1 and 2 */
    VRT49_KIND_TEMPERATURE = 4, /* degrees Celsius */
    VRT49_KIND_OTHER = 5,       /* held: its words by vrt49_held_words */
    VRT49_KIND_ABSENT = 6       /* not held, which is not zero: none was carried, or it is 22 */
};

/* ---- answers by name

   A struct is the words of one answer, in their order. The library is not C: it is handed an
   address, and reads and writes words there. The first member stands at the struct's address (C99
   6.7.2.1), each member is declared as the word that it is written as (6.5), and the assertions
   behind them say that nothing stands between. So a pointer to a struct is handed over as it is,
   and nothing is copied. */

/* A packet that was read. What is absent is 0. */
typedef struct vrt49_packet {
    uint32_t type;              /* enum vrt49_type */
    uint32_t has_class;         /* C: 1 or 0 */
    uint32_t has_trailer;       /* T: 1 or 0 */
    uint32_t tsm;               /* 1 or 0 */
    uint32_t tsi;               /* enum vrt49_tsi */
    uint32_t tsf;               /* enum vrt49_tsf */
    uint32_t count;             /* 0 to 15 */
    uint32_t size;              /* words of the whole packet */
    uint32_t identifier;        /* of the stream */
    uint32_t oui;               /* 24 bits */
    uint32_t information_class; /* 16 bits */
    uint32_t packet_class;      /* 16 bits */
    uint32_t seconds;
    uint32_t fraction_high;     /* vrt49_fraction gives both as one */
    uint32_t fraction_low;
    uint32_t body_at;           /* the body's place, from the header on */
    uint32_t body_words;
    uint32_t trailer;           /* the trailer word */
} vrt49_packet;

/* The parts of a packet to be written. Those that the type and the header do not ask for are
   ignored. */
typedef struct vrt49_parts {
    uint32_t type;
    uint32_t has_class;
    uint32_t has_trailer;
    uint32_t tsm;
    uint32_t tsi;
    uint32_t tsf;
    uint32_t count;
    uint32_t identifier;
    uint32_t oui;
    uint32_t information_class;
    uint32_t packet_class;
    uint32_t seconds;
    uint32_t fraction_high;
    uint32_t fraction_low;
    uint32_t trailer;
} vrt49_parts;

/* A packet that was read as 49A. Of a data packet, type 1, the payload's n items are unpacked by
   vrt49_unpack from the two words of its format: both follow from the class. Of other types the
   last four are 0. */
typedef struct vrt49_survey {
    vrt49_packet packet;
    uint32_t pad;    /* bits behind the last item, 0 to 31 */
    uint32_t first;  /* the format's first word */
    uint32_t second; /* the format's second word */
    uint32_t items;  /* n, at most 2,096,960 */
} vrt49_survey;

/* The parts of a packet to be written as 49A. The pad count is of type 1 with a class; else it is
   ignored. */
typedef struct vrt49_survey_parts {
    vrt49_parts parts;
    uint32_t pad;
} vrt49_survey_parts;

/* A trailer word, taken apart. */
typedef struct vrt49_trailer {
    uint32_t enables;    /* enum vrt49_trailer_bit */
    uint32_t indicators; /* enum vrt49_trailer_bit */
    uint32_t e;          /* 1 where the associated count says something */
    uint32_t associated; /* 0 to 127 */
} vrt49_trailer;

/* Where a field stands in a body: zeros where it is absent. */
typedef struct vrt49_place {
    size_t present; /* 1 or 0 */
    size_t at;      /* from the indicator word on */
    size_t words;
} vrt49_place;

/* Where an item stands in the order of a payload: of which sample it is, and which part of it. */
typedef struct vrt49_coordinates {
    uint32_t time;      /* the group, from 0; vrt49_instant gives the sample's own instant */
    uint32_t channel;   /* place in the sample vector, from 0 */
    uint32_t component; /* 0: real, I or amplitude; 1: Q or phase */
    uint32_t repeat;    /* which sample of the channel within the group, from 0 */
} vrt49_coordinates;

/* What playing says of one packet. */
typedef struct vrt49_heard {
    uint32_t size;    /* words of the packet */
    uint32_t type;    /* enum vrt49_type */
    uint32_t stream;  /* its number in the list of identifiers, from 0 */
    uint32_t missing; /* counts passed over before it, 0 to 15 */
} vrt49_heard;

/* A run entry: what a run says of each packet, and vrt49_grow of the one that it takes in. Where it
   is refused, the members type and stream have the place and the bit of the refusal;
   vrt49_entry_refusal gives all three in one. An index has entries of another kind. */
typedef struct vrt49_entry {
    uint32_t number;  /* 0, or the number of a refusal alone */
    uint32_t size;    /* words that the run goes on by; 0 where a refusal ends it */
    uint32_t type;    /* enum vrt49_type; of a refusal, the place of the refused word */
    uint32_t stream;  /* its number in the list, from 0; of a refusal, the field's bit or 0 */
    uint32_t missing; /* counts passed over before it, 0 to 15; of a refusal, 0 */
} vrt49_entry;

/* What a stream counted of a type. */
typedef struct vrt49_count {
    uint32_t started; /* 1; or 0 where no packet of the type came, and then all are 0 */
    uint32_t seen;    /* packets, modulo 2^32 */
    uint32_t missing; /* counts passed over, modulo 2^32 */
    uint32_t last;    /* the count of the last one, 0 to 15 */
} vrt49_count;

/* What the panel shows of a field, as vrt49_show gives it. */
typedef struct vrt49_shown {
    uint32_t kind;   /* enum vrt49_kind */
    uint32_t parts;  /* of a frequency: 0 to 1,048,575 parts of 2^20 above the hertz; else 0 */
    int64_t hertz;   /* of a frequency: whole hertz, rounded down; else 0 */
    float levels[2]; /* the level or temperature and 0, or stages 1 and 2 of a gain; else zeros */
} vrt49_shown;

/* What the panel shows of every field of a stream, as vrt49_show_all gives it: entry i is of bit
   30 - i. vrt49_shown_of gives that of one field. */
typedef struct vrt49_panel {
    uint32_t kinds[21]; /* enum vrt49_kind */
    uint32_t parts[21]; /* as in vrt49_shown */
    int64_t hertz[21];  /* as in vrt49_shown */
    float first[21];    /* levels[0] of vrt49_shown */
    float second[21];   /* levels[1] of vrt49_shown */
} vrt49_panel;

#if defined(__cplusplus) && __cplusplus >= 201103L
#define VRT49_ASSERT(name, test) static_assert(test, #name)
#elif defined(__STDC_VERSION__) && __STDC_VERSION__ >= 201112L
#define VRT49_ASSERT(name, test) _Static_assert(test, #name)
#else
#define VRT49_ASSERT(name, test) typedef char name[(test) ? 1 : -1]
#endif
VRT49_ASSERT(vrt49_packet_is_18_words, sizeof(vrt49_packet) == 18 * sizeof(uint32_t));
VRT49_ASSERT(vrt49_parts_is_15_words, sizeof(vrt49_parts) == 15 * sizeof(uint32_t));
VRT49_ASSERT(vrt49_survey_is_22_words, sizeof(vrt49_survey) == 22 * sizeof(uint32_t));
VRT49_ASSERT(vrt49_survey_parts_is_16_words, sizeof(vrt49_survey_parts) == 16 * sizeof(uint32_t));
VRT49_ASSERT(vrt49_trailer_is_4_words, sizeof(vrt49_trailer) == 4 * sizeof(uint32_t));
VRT49_ASSERT(vrt49_place_is_3_sizes, sizeof(vrt49_place) == 3 * sizeof(size_t));
VRT49_ASSERT(vrt49_coordinates_is_4_words, sizeof(vrt49_coordinates) == 4 * sizeof(uint32_t));
VRT49_ASSERT(vrt49_heard_is_4_words, sizeof(vrt49_heard) == 4 * sizeof(uint32_t));
VRT49_ASSERT(vrt49_entry_is_5_words, sizeof(vrt49_entry) == 5 * sizeof(uint32_t));
VRT49_ASSERT(vrt49_count_is_4_words, sizeof(vrt49_count) == 4 * sizeof(uint32_t));
VRT49_ASSERT(vrt49_sizes_have_64_bits, sizeof(size_t) == 8);
#undef VRT49_ASSERT

/* ---- packets, trailers and the fields of a body */

/* Reads the packet at the front of the words: EMPTY to FIELD (1 to 10 as listed). A refusal has its
   place. */
uint32_t vrt49_read(const uint32_t *words, size_t n, vrt49_packet *answer);

/* Writes a packet into out from word `at` on; the other words of out stay: TYPE, VALUE (also for C,
   T or TSM above 1), SHORT, SIZE, TIME, INDICATOR, LAYOUT, FIELD, ROOM. length: the words written.
   */
uint32_t vrt49_write(const vrt49_parts *parts, const uint32_t *body, size_t body_n, uint32_t *out,
                     size_t room, size_t at, size_t *length);

/* Reads the packet at the front of the words as 49A, as vrt49_play reads a packet of a stream that
   has VRT49_SURVEY: EMPTY to FIELD (as in vrt49_read, but CLASS not of type 1), PAD (of type 1
   alone). A refusal has its place. Packets of other types are read as vrt49_read reads them. */
uint32_t vrt49_read_survey(const uint32_t *words, size_t n, vrt49_survey *answer);

/* Writes a packet as 49A into out from word `at` on, as vrt49_write does: TYPE, VALUE (also for a
   pad count over 31, of type 1 with a class), SHORT, SIZE, TIME, INDICATOR, LAYOUT, FIELD, PAD (of
   type 1 alone), ROOM. length: the words written. vrt49_survey_class makes class and pad count. */
uint32_t vrt49_write_survey(const vrt49_survey_parts *parts, const uint32_t *body, size_t body_n,
                            uint32_t *out, size_t room, size_t at, size_t *length);

/* A trailer word's parts; nothing is refused. */
uint32_t vrt49_trailer_parts(uint32_t word, vrt49_trailer *answer);

/* The trailer word of its parts: VALUE. */
uint32_t vrt49_trailer_word(uint32_t enables, uint32_t indicators, uint32_t e, uint32_t associated,
                            uint32_t *word);

/* How many fields an indicator word carries. The number answered is the count itself: nothing is
   refused. */
uint32_t vrt49_field_count(uint32_t indicator);

/* Whether a type 4 body is as document 01 says: INDICATOR, LAYOUT, FIELD. A refusal has no place:
   it is the number alone. */
uint32_t vrt49_check_body(const uint32_t *body, size_t n);

/* Where the field of a bit stands in a type 4 body; nothing is refused. */
uint32_t vrt49_find(const uint32_t *body, size_t body_n, uint32_t bit, vrt49_place *answer);

/* ---- packed samples; a format is the two words of field 15

   FORMAT: the rule of field 15 is broken, or a processing-efficient field has 33 to 63 bits. COUNT:
   n is over VRT49_ITEMS_MAX, or no multiple of the group, V * R * C. V is the vector size (second
   word 15-0, plus 1), R the repeat (31-16, plus 1), and C the items of a sample: 1 where they are
   real (first word 30-29 are 0), else 2. A group over VRT49_ITEMS_MAX is legal with n of 0 alone.

   Items are packed and unpacked in the order of the payload, and none is moved. That order is

       item = ((time * V + channel) * R + repeat) * C + component    bit 23 of the first word is 0
       item = ((time * V + channel) * C + component) * R + repeat    bit 23 of the first word is 1

   so where R is 1 or samples are real there is one order. vrt49_coordinates_of and vrt49_item_at
   lead from an item to its coordinates and back. */

/* Unpacks n items, their event tags and channel tags: FORMAT, COUNT, ROOM. The first n entries of
   items, events and channels are written. */
uint32_t vrt49_unpack(uint32_t first, uint32_t second, size_t n, const uint32_t *words,
                      size_t words_n, uint64_t *items, size_t items_n, uint8_t *events,
                      size_t events_n, uint16_t *channels, size_t channels_n);

/* Packs items with their event tags and channel tags at the front of out: FORMAT, COUNT, VALUE,
   ROOM. length: the words written. */
uint32_t vrt49_pack(uint32_t first, uint32_t second, const uint64_t *items, size_t items_n,
                    const uint8_t *events, size_t events_n, const uint16_t *channels,
                    size_t channels_n, uint32_t *out, size_t room, size_t *length);

/* The words that n items need: FORMAT, COUNT. length: how many. */
uint32_t vrt49_words_needed(uint32_t first, uint32_t second, size_t n, size_t *length);

/* The coordinates of an item of a payload of n items: FORMAT, COUNT, VALUE (it is not below n). */
uint32_t vrt49_coordinates_of(uint32_t first, uint32_t second, size_t n, size_t item,
                              vrt49_coordinates *coordinates);

/* The item that has these coordinates, of a payload of n items: FORMAT, COUNT, VALUE (a time not
   below n over the group, a channel not below V, a component not below C, a repeat not below R).
   vrt49_sample_at gives the coordinates of a channel's sample at an instant. */
uint32_t vrt49_item_at(uint32_t first, uint32_t second, size_t n,
                       const vrt49_coordinates *coordinates, size_t *item);

/* The two's complement value of an item of 1 to 64 bits: FORMAT, VALUE. */
uint32_t vrt49_signed(uint32_t width, uint64_t item, int64_t *value);

/* ---- tables of streams */

/* Starts a table for a list of identifiers, each with its choice, of enum vrt49_choice: LIST, ROOM.
   Words past the layout stay. length: the layout's words, VRT49_TABLE_WORDS of the identifiers. */
uint32_t vrt49_start(const uint32_t *ids, size_t ids_n, const uint32_t *choices, size_t choices_n,
                     uint32_t *table, size_t table_n, size_t *length);

/* Whether a table is well made: 1 or 0. Nothing is refused. */
uint32_t vrt49_well_made(const uint32_t *table, size_t table_n);

/* Plays the packet at the front of the words: TABLE, EMPTY to FIELD (as in reading), PAD, STREAM.
   A refusal has its place, but for TABLE. A packet of type 1 whose stream has VRT49_SURVEY is read
   as vrt49_read_survey does; every other, one of no declared stream too, as vrt49_read does. After
   STREAM go on by the packet's size, which vrt49_read gives; vrt49_play_run does so itself. */
uint32_t vrt49_play(uint32_t *table, size_t table_n, const uint32_t *words, size_t words_n,
                    vrt49_heard *answer);

/* Plays packets one after the other from word `from` on: TABLE. Each has a run entry of five words,
   as vrt49_entry names them, that of a refused packet with the place of its refusal;
   vrt49_play_entries takes them by name. The run ends where the words end, the answers are full, or
   a packet is refused but for STREAM. packets: how many have a run entry. next: the place after the
   last of them; where a refusal ended the run, the place of the refused packet. */
uint32_t vrt49_play_run(uint32_t *table, size_t table_n, const uint32_t *words, size_t words_n,
                        size_t from, uint32_t *answers, size_t answers_n, size_t *packets,
                        size_t *next);

/* ---- the page of a table */

/* The length of a table's page: TABLE, SIZE. */
uint32_t vrt49_page_length(const uint32_t *table, size_t table_n, size_t *length);

/* Saves a table's page at the front of page: TABLE, SIZE, ROOM. length: the page's. */
uint32_t vrt49_save(const uint32_t *table, size_t table_n, uint32_t *page, size_t page_n,
                    size_t *length);

/* Puts a page back, exactly one page, into a table: PAGE, ROOM. Words past the layout stay. length:
   the layout's words. */
uint32_t vrt49_put_back(const uint32_t *page, size_t page_n, uint32_t *table, size_t table_n,
                        size_t *length);

/* ---- the index beside a recording

   An index has an index entry for packet 0 and one for every 1,024th packet behind it: the packet's
   word place, and the page of the table just before it. So the table just before any packet is
   played from an index entry on, over 1,023 packets at most. An index begins with its contents,
   VRT49_INDEX_CONTENTS words, and the pages stand behind them.

   Packets are numbered from 0, as vrt49_play_run goes on over them: one of no declared stream has a
   number, and any other refusal ends the recording. Word places count from packet 0 on. A list in
   front of it, such as S and the identifiers of a recording's file, is not among them. An index is
   good for the recording, the list and the choices that it was grown over. */

/* Starts an index beside a recording, of the table just before packet 0: TABLE, ROOM. Other words
   of the index stay. length: the words that the index takes, VRT49_INDEX_CONTENTS and those of the
   table's page; vrt49_index_words gives them of one that has grown. */
uint32_t vrt49_start_index(const uint32_t *table, size_t table_n, uint32_t *index, size_t index_n,
                           size_t *length);

/* Takes the recording's next packet in: TABLE, PAGE (of the contents), EMPTY to FIELD (as in
   reading), PAD, ROOM. A refusal has its place, as that of vrt49_play; TABLE, PAGE and ROOM have
   none. The table is the one that the last packet left, and is played on. words: the recording's
   from the packet on, its own alone or any that stand behind them too; where none is left it is
   EMPTY. answer: the packet's run entry, as vrt49_entry names it; a packet of no declared stream is
   taken in, with VRT49_STREAM in its run entry. vrt49_grow_entry takes it by name. ROOM is given
   only where the packet reaches the next index entry: where the page of that does not fit, and then
   the index is moved into a longer buffer and the packet handed over again; or where
   VRT49_INDEX_ENTRIES are there already, after 1,048,575 packets. */
uint32_t vrt49_grow(uint32_t *table, size_t table_n, const uint32_t *words, size_t words_n,
                    uint32_t *index, size_t index_n, uint32_t answer[5]);

/* Gives the table just before packet n, which is 0 to the packets taken in: PAGE (of the contents),
   PLACE, PAGE (of the entry), ROOM. words: the recording's from the word place first on; those from
   vrt49_index_from to vrt49_index_to are enough. index_n: the words that are there; of an index
   from a file those that were read, and a jump to 0 with no words tests it. Words past the layout
   stay. length: the layout's words. place: the word place of packet n. */
uint32_t vrt49_jump(const uint32_t *words, size_t words_n, uint64_t first, const uint32_t *index,
                    size_t index_n, uint64_t n, uint32_t *table, size_t table_n, size_t *length,
                    uint64_t *place);

/* ---- readings for the panel */

/* What the panel shows of a stream's field: TABLE, STREAM, VALUE. vrt49_shown says what each value
   is; vrt49_show gives them in one. */
uint32_t vrt49_reading(const uint32_t *table, size_t table_n, size_t stream, uint32_t bit,
                       uint32_t *kind, uint32_t *parts, int64_t *hertz, float levels[2]);

/* What the panel shows of every field of a stream, with one test of the table: TABLE, STREAM. Entry
   i of each array is of bit 30 - i, and has what vrt49_reading gives of it; first and second are
   its levels. vrt49_show_all gives them in one. */
uint32_t vrt49_readings(const uint32_t *table, size_t table_n, size_t stream, uint32_t kinds[21],
                        uint32_t parts[21], int64_t hertz[21], float first[21], float second[21]);

/* The held words of a stream's field, at the front of out: TABLE, STREAM, VALUE, ROOM. length: how
   many, 0 where the field is absent, as 22 always is. */
uint32_t vrt49_held_words(const uint32_t *table, size_t table_n, size_t stream, uint32_t bit,
                          uint32_t *out, size_t room, size_t *length);

/* ---- what a table says of a stream */

/* The stream's identifier, its choice, and its held indicator: bit b is set exactly where the field
   of bit b is held, so 22 never is. TABLE, STREAM. */
uint32_t vrt49_identity(const uint32_t *table, size_t table_n, size_t stream, uint32_t *identifier,
                        uint32_t *choice, uint32_t *held);

/* What the stream counted of a type, 1, 3, 4 or 5: TABLE, STREAM, VALUE (another type). */
uint32_t vrt49_counts(const uint32_t *table, size_t table_n, size_t stream, uint32_t type,
                      vrt49_count *answer);

/* The stream's record as a table of its own, of one stream, at the front of out; the other words of
   out stay: TABLE, STREAM, ROOM. length: its words, VRT49_TABLE_WORDS(1). */
uint32_t vrt49_own_table(const uint32_t *table, size_t table_n, size_t stream, uint32_t *out,
                         size_t room, size_t *length);

/* The fields, bits 30 to 10, for which the one stream and the other do not hold the same words; an
   absent field holds none. What a packet changed is asked of the stream's own table from before it
   and of the table after it. TABLE (of either), STREAM (of either). */
uint32_t vrt49_changed(const uint32_t *before, size_t before_n, size_t before_stream,
                       const uint32_t *after, size_t after_n, size_t after_stream,
                       uint32_t *fields);

/* ---- the same with names: each calls one of the above, or works a value out of words */

/* The parts that write a packet again as it was read, with the body's words. */
static inline vrt49_parts vrt49_parts_of(const vrt49_packet *packet)
{
    vrt49_parts parts;
    parts.type = packet->type;
    parts.has_class = packet->has_class;
    parts.has_trailer = packet->has_trailer;
    parts.tsm = packet->tsm;
    parts.tsi = packet->tsi;
    parts.tsf = packet->tsf;
    parts.count = packet->count;
    parts.identifier = packet->identifier;
    parts.oui = packet->oui;
    parts.information_class = packet->information_class;
    parts.packet_class = packet->packet_class;
    parts.seconds = packet->seconds;
    parts.fraction_high = packet->fraction_high;
    parts.fraction_low = packet->fraction_low;
    parts.trailer = packet->trailer;
    return parts;
}

/* The same of a packet that was read as 49A. */
static inline vrt49_survey_parts vrt49_survey_parts_of(const vrt49_survey *survey)
{
    vrt49_survey_parts again;
    again.parts = vrt49_parts_of(&survey->packet);
    again.pad = survey->pad;
    return again;
}

/* The bits of an item of a data type of 49A, 1 to 64, or 0 of a number that is none; nothing is
   refused. The constant has a digit for each data type, from the right: the power of two that its
   bits are. */
static inline uint32_t vrt49_data_bits(uint32_t data_type)
{
    if (data_type < VRT49_DATA_SIGNED_4 || data_type > VRT49_DATA_UNSIGNED_64)
        return 0;
    return 1u << ((uint64_t)0x65432065654320 >> 4 * data_type & 15);
}

/* Gives the parts of a data packet the class of 49A, the pad count of a payload of n items, and the
   trailer that 49A asks for. complex_samples is 1, or 0 where they are real; data_type is of enum
   vrt49_data_type, and vector the size of a sample vector, 1 to 65,536. */
static inline void vrt49_survey_class(vrt49_survey_parts *survey, uint32_t complex_samples,
                                      uint32_t data_type, uint32_t vector, size_t n)
{
    survey->parts.has_class = 1;
    survey->parts.has_trailer = 1;
    survey->parts.oui = VRT49_SURVEY_OUI;
    survey->parts.information_class = complex_samples << 4 | data_type;
    survey->parts.packet_class = vector - 1;
    survey->pad = (32 - (uint32_t)(n % 32) * vrt49_data_bits(data_type) % 32) % 32;
}

/* The bits of an item of a format, 1 to 64; nothing is refused. */
static inline uint32_t vrt49_item_bits(uint32_t first)
{
    return (first & 63) + 1;
}

/* A packet's fraction as one number. */
static inline uint64_t vrt49_fraction(const vrt49_packet *packet)
{
    return (uint64_t)packet->fraction_high << 32 | packet->fraction_low;
}

/* The items of a group of a format, 1 to 2^33: the number that n is a multiple of. */
static inline uint64_t vrt49_group(uint32_t first, uint32_t second)
{
    uint64_t vector = (second & 0xFFFF) + 1, repeat = (second >> 16) + 1;
    return vector * repeat * ((first >> 29 & 3) == 0 ? 1 : 2);
}

/* The instant of a sample within its packet: how many samples of its channel come before it. */
static inline uint64_t vrt49_instant(const vrt49_coordinates *coordinates, uint32_t second)
{
    uint64_t repeat = (second >> 16) + 1;
    return coordinates->time * repeat + coordinates->repeat;
}

/* The coordinates of a component of a channel's sample at an instant; the counterpart of
   vrt49_instant. */
static inline vrt49_coordinates vrt49_sample_at(uint32_t second, uint32_t instant, uint32_t channel,
                                                uint32_t component)
{
    uint32_t repeat = (second >> 16) + 1;
    vrt49_coordinates coordinates;
    coordinates.time = instant / repeat;
    coordinates.channel = channel;
    coordinates.component = component;
    coordinates.repeat = instant % repeat;
    return coordinates;
}

/* vrt49_play_run with room for so many run entries: TABLE. The pointer to them is handed over as
   one to their first word (C99 6.7.2.1). */
static inline uint32_t vrt49_play_entries(uint32_t *table, size_t table_n, const uint32_t *words,
                                          size_t words_n, size_t from, vrt49_entry *entries,
                                          size_t entries_n, size_t *packets, size_t *next)
{
    return vrt49_play_run(table, table_n, words, words_n, from, (uint32_t *)entries,
                          VRT49_ENTRY_WORDS * entries_n, packets, next);
}

/* The refusal of a run entry, with its place and its bit, as vrt49_play gives it; VRT49_OK of
   one that was accepted. Nothing is refused. */
static inline uint32_t vrt49_entry_refusal(const vrt49_entry *entry)
{
    if (entry->number == VRT49_OK)
        return VRT49_OK;
    return entry->number | entry->stream << 8 | entry->type << 16;
}

/* vrt49_grow with an entry: TABLE, PAGE (of the contents), EMPTY to FIELD (as in reading), PAD,
   ROOM. It is a run entry. */
static inline uint32_t vrt49_grow_entry(uint32_t *table, size_t table_n, const uint32_t *words,
                                        size_t words_n, uint32_t *index, size_t index_n,
                                        vrt49_entry *answer)
{
    return vrt49_grow(table, table_n, words, words_n, index, index_n, (uint32_t *)answer);
}

/* What the contents of an index say: of one that vrt49_start_index or vrt49_grow has left, or that
   vrt49_jump has accepted. Nothing is tested, and nothing is refused.

   The index entries, and the packets that were taken in. */
static inline uint64_t vrt49_index_entries(const uint32_t *index)
{
    return index[0];
}

static inline uint64_t vrt49_index_packets(const uint32_t *index)
{
    return index[1];
}

/* The word place behind the last packet that was taken in: there the next one stands, which
   vrt49_grow asks for. */
static inline uint64_t vrt49_index_reached(const uint32_t *index)
{
    return (uint64_t)index[2] << 32 | index[3];
}

/* The words that a jump to packet n plays lie from the first of these word places, that of its
   index entry, up to the second, that of the next one or the place reached. n is at most the
   packets taken in. */
static inline uint64_t vrt49_index_from(const uint32_t *index, uint64_t n)
{
    const uint32_t *entry = index + 4 + 4 * (n / VRT49_INDEX_SPACING);
    return (uint64_t)entry[0] << 32 | entry[1];
}

static inline uint64_t vrt49_index_to(const uint32_t *index, uint64_t n)
{
    uint64_t next = n / VRT49_INDEX_SPACING + 1;
    if (next < vrt49_index_entries(index))
        return vrt49_index_from(index, VRT49_INDEX_SPACING * next);
    return vrt49_index_reached(index);
}

/* The words that the index takes: its contents, and its pages. */
static inline size_t vrt49_index_words(const uint32_t *index)
{
    const uint32_t *last = index + 4 * (size_t)vrt49_index_entries(index);
    return (size_t)last[2] + last[3];
}

/* vrt49_reading into a struct: TABLE, STREAM, VALUE. */
static inline uint32_t vrt49_show(const uint32_t *table, size_t table_n, size_t stream,
                                  uint32_t bit, vrt49_shown *shown)
{
    return vrt49_reading(table, table_n, stream, bit, &shown->kind, &shown->parts, &shown->hertz,
                         shown->levels);
}

/* vrt49_readings into a struct: TABLE, STREAM. */
static inline uint32_t vrt49_show_all(const uint32_t *table, size_t table_n, size_t stream,
                                      vrt49_panel *panel)
{
    return vrt49_readings(table, table_n, stream, panel->kinds, panel->parts, panel->hertz,
                          panel->first, panel->second);
}

/* What the panel shows of the field of a bit, 30 to 10; of another bit all is 0, and 0 is no kind.
   */
static inline vrt49_shown vrt49_shown_of(const vrt49_panel *panel, uint32_t bit)
{
    vrt49_shown shown = {0, 0, 0, {0, 0}};
    if (bit < 10 || bit > 30)
        return shown;
    shown.kind = panel->kinds[30 - bit];
    shown.parts = panel->parts[30 - bit];
    shown.hertz = panel->hertz[30 - bit];
    shown.levels[0] = panel->first[30 - bit];
    shown.levels[1] = panel->second[30 - bit];
    return shown;
}

/* The hertz of a frequency with its parts, rounded once, to a double. */
static inline double vrt49_hertz(const vrt49_shown *shown)
{
    return (double)shown->hertz + shown->parts / 1048576.0;
}

/* Whether a held state word has an indicator, a bit of enum vrt49_state_bit: 1, or 0 where no
   accepted Context packet has enabled it yet. Of another bit it is 0. */
static inline int vrt49_state_holds(uint32_t state, uint32_t bit)
{
    return bit >= VRT49_STATE_SPECTRAL_INVERSION && bit <= VRT49_STATE_CALIBRATED_TIME &&
           (state >> bit & 1) != 0;
}

/* Whether an indicator of a held state word is on: 1; or 0 where it is off, or where the word does
   not have it. */
static inline int vrt49_state_on(uint32_t state, uint32_t bit)
{
    return vrt49_state_holds(state, bit) && (state >> (bit - VRT49_STATE_BELOW) & 1) != 0;
}

#ifdef __cplusplus
}
#endif

#endif
