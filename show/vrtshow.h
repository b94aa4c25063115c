/* vrtshow.h: what the files of vrtshow share. recording.c hands over a recording's words, survey.c
   plays them and sees what happens, doubt.c knows which fields of a tuning are in doubt, columns.c
   gathers it all for the picture, lines.c says it as lines, as CSV and as a summary, picture.c
   draws it, and vrtshow.c is the program. index.c keeps an index beside the recording, in a file
   that store.c reads and writes; jump.c finds the table just before a packet, and table.c says it.
   All memory is fixed, but for the words that a jump plays: these are asked for then. */
#ifndef VRTSHOW_H
#define VRTSHOW_H
#include <stdint.h>
#include <stdio.h>

#include "vrt49.h"

/* ---- the recording: words, refilled at a packet's edge */

enum { WORDS_ROOM = 1 << 18 }; /* more than a packet has */

typedef struct {
    int file;           /* its descriptor */
    int little;         /* 1 where its words are little-endian */
    int ended;          /* 1 where no byte comes any more */
    int failed;         /* errno of a read that failed, or 0 */
    int live;           /* 1 where its bytes may come slowly: it is no regular file */
    int shown;          /* 1 where it is shown how far it is */
    uint64_t start;     /* the byte of a regular file from which it is read; else 0 */
    uint64_t size;      /* the bytes of a regular file, from there on; else 0 */
    uint64_t bytes;     /* that were read so far */
    uint64_t before;    /* words that came before words[0] */
    size_t have;        /* words that are there, */
    size_t at;          /* those of them that were played, */
    size_t loose;       /* and bytes behind them that make no word yet */
    uint32_t words[WORDS_ROOM];
} recording;

/* Moves the words that were not played to the front, and reads what there is behind them. */
void refill(recording *from);

/* Goes to a word of a regular file: what is read next begins there. */
void seek_to(recording *from, uint64_t word);

/* Reads words of a regular file from a place on: gives how many, fewer where it ends before. */
size_t read_words(recording *from, uint64_t word, uint32_t *into, size_t n);

/* How many bytes stand behind the recording's last whole word, 0 to 3. Of a regular file that was
   not read to its end its size says it; else those that were read. */
int tail_of(const recording *from);

/* ---- the survey: what happened so far */

/* The fields that are the tuning, 29 to 23 and 21; and those whose value the panel shows. */
#define TUNING_FIELDS 0x3FA00000u
#define VALUE_FIELDS (TUNING_FIELDS | 1u << VRT49_BIT_TEMPERATURE)

enum { COLUMNS = 2048, STRANGERS = 8 };

/* A band of frequencies and its centre, MHz. */
typedef struct {
    double low, centre, high;
} band;

/* What a stream did in the packets of one column of the picture. */
typedef struct {
    uint32_t seen;             /* its packets */
    uint32_t missing;          /* packets missing before them, other than Context packets */
    uint32_t contexts_missing; /* Context packets missing before them */
    uint32_t unsure;           /* 1 where the tuning cannot be trusted at a packet of the column */
    uint32_t tunings;          /* how often the band changed; the rest is of these alone */
    band last;                 /* the band that it changed to last */
    double low, high;          /* the edges of all these bands */
    double least, greatest;    /* the centres of all these bands */
} column;

/* What is in doubt of a stream's tuning. */
typedef struct {
    uint32_t fields;  /* those that are in doubt now */
    uint64_t since;   /* the packet at which the doubt began; the last doubt, where none is now */
    uint64_t packets; /* the stream's data packets in it so far */
    uint64_t total;   /* and in all doubts so far */
} doubt;

typedef struct {
    uint32_t identifier;
    uint32_t table[VRT49_TABLE_WORDS(1)]; /* its own: the tuning at its last Context packet */
    uint32_t held;                        /* the fields that it holds there */
    vrt49_panel panel;                    /* what the panel shows of them, */
    uint32_t state;                       /* and its state word, 0 where it is absent */
    uint64_t context;                     /* the number of its last Context packet */
    uint64_t since;                       /* its data packets since then */
    uint64_t untuned;                     /* those before it held a field of the tuning */
    doubt doubt;
    uint64_t tunings;                     /* how often its band changed, the first time included */
    band last;                            /* its band; it has one where tunings is not 0 */
    double low, high, least, greatest;    /* the edges and centres of all its bands */
    uint32_t choice;                      /* whether 49A was chosen for it; then of its data: */
    vrt49_survey samples;                 /* the last packet of type 1, */
    uint64_t sampled;                     /* how many came, */
    uint64_t items;                       /* and the items of all */
    column columns[COLUMNS];
} stream;

enum manner { LINES, SUMMARY, CSV };

typedef struct {
    enum manner manner;              /* what is printed */
    int every;                       /* 1: also where other held fields than the tuning change */
    uint32_t chosen[VRT49_STREAMS_MAX]; /* the identifiers of the streams that are by 49A; */
    size_t chosen_n;                 /* how many they are; */
    int unlisted;                    /* 1 where one of them is not in the list: */
    uint32_t stranger;               /* this one */
    uint32_t streams_n;
    stream streams[VRT49_STREAMS_MAX];
    uint32_t table[VRT49_TABLE_WORDS(VRT49_STREAMS_MAX)];
    size_t layout;                   /* the table's words */
    uint64_t packets;                /* that were looked at so far, refused ones too */
    uint64_t missing, contexts_missing;
    uint64_t refused;                /* packets that were refused */
    uint32_t stopped_by;             /* the refusal that ended it, with its place, or 0 */
    uint64_t stopped_at;             /* the word that it stopped at */
    uint64_t unnamed;                /* packets without an identifier */
    uint64_t others;                 /* packets of undeclared identifiers that are not listed: */
    struct {
        uint32_t identifier;
        uint64_t packets;
    } strangers[STRANGERS];
    unsigned shift;                  /* a column is 2 to this power of packets */
    uint32_t refused_in[COLUMNS];
} survey;

/* A packet that is looked at: its number and place, what the run said of it, whether it is read as
   49A, and its words. */
typedef struct {
    uint64_t number, place;
    const vrt49_entry *said;
    uint32_t choice;
    const uint32_t *words;
    size_t words_n;
} packet;

/* Starts the tables from the list at the front of the recording: 0 or LIST. */
uint32_t start(survey *all, recording *from);

/* Takes what the streams hold from the table of all. */
void take_streams(survey *all);

/* Plays the whole recording, and prints what happens in the survey's manner. Where a read fails it
   ends there, and no refusal is printed; it does not begin where an identifier that was chosen for
   49A is not in the list. */
void play(survey *all, recording *from);

/* A call that cannot be refused here, since it is handed what the library made or accepted. */
void accepted(uint32_t number, const char *call);

/* Reads a packet by its choice: 1; or 0 where the run refused it as a packet. Of a plain one the
   last four of the answer are 0. */
int read_at(const packet *at, vrt49_survey *read);

/* What the panel shows of a field of the stream. */
vrt49_shown shown_of(const stream *of, uint32_t bit);

/* Whether the stream holds a state word. */
int holds_state(const stream *of);

/* Whether a packet that was read has an identifier. */
int has_identifier(const vrt49_packet *read);

/* The types that a stream counts, and what it counted of one of them. */
enum { COUNTED_N = 4 };
extern const uint32_t COUNTED[COUNTED_N];
vrt49_count counted(const survey *all, const stream *of, uint32_t type);

/* ---- what is in doubt */

/* Notes a Context packet, before it is looked at. Gives the fields that are in doubt by it, before
   those that it carries are taken off. */
uint32_t doubt_at(survey *all, stream *of, const packet *at);

/* Counts a data packet of the stream. */
void count_data(stream *of);

/* Notes that the recording has ended. */
void end_doubts(survey *all);

/* ---- columns of the picture */

/* The column of the packet that is looked at. */
size_t column_now(survey *all);

/* Notes that the stream has another band from this packet on. */
void note_band(survey *all, stream *of, band now);

/* Notes that the stream's tuning cannot be trusted since its doubt began, up to the packet before
   the one that is looked at. */
void note_unsure(survey *all, stream *of);

/* ---- what is printed */

/* The first line of CSV: the names of the columns, three more where 49A was chosen. The place of a
   refusal and its bit stand last, so that no older column has moved. */
void tell_columns(const survey *all);

/* That the fields of the set bits changed; before: what the panel showed until now. */
void tell_tuning(const survey *all, const stream *of, const packet *at, uint32_t changed,
                 const vrt49_panel *before);

/* That packets are missing before this one; doubted: the fields that are in doubt by it, before
   those that it carries are taken off. */
void tell_missing(const survey *all, const stream *of, const packet *at, uint32_t doubted);

/* That nothing is in doubt any more from this packet on. */
void tell_trusted(const survey *all, const stream *of, const packet *at);

/* That the format of the samples of a stream by 49A, or their number, is another from this packet
   on. */
void tell_samples(const survey *all, const stream *of, const packet *at);

/* That the packet is refused; or the list, where there is no packet. */
void tell_refused(const survey *all, const packet *at, uint32_t refusal);

/* What each stream did, and where the recording ended. */
void tell_summary(const survey *all, const recording *from);

/* The heads of the columns that count packets; and a stream under them: its number, its identifier,
   and its packets. */
void put_heads(void);
void put_packets(const survey *all, const stream *of);

/* What a stream holds of the values, in one line, and of the state, in another where it has one. */
void put_held(const stream *of, const char *what);

/* The values of a stream as cells of CSV, with a comma before each, and the names of their columns;
   the state last. */
void put_cells(const stream *of);
extern const char VALUE_COLUMNS[];

/* A refusal, why it is given, and where; word: the refused word's place in the recording, as
   text. */
void put_refusal(FILE *out, uint32_t refusal, const char *word);

/* Where alone: of FIELD the field, by its bit and its name, then the word, in the packet and in the
   recording. Nothing of LIST, which is of no packet. */
void put_where(FILE *out, uint32_t refusal, const char *word);

/* A count with commas, in a buffer that is used again after eight. */
const char *grouped(uint64_t number);

/* A number without commas, in a buffer that is used again. */
const char *ungrouped(uint64_t number);

/* ---- the table just before a packet */

/* Plays packets up to number n, and says nothing: all->packets is n then, or fewer where the
   recording ends before, by all->stopped_by or at its end. */
void play_to(survey *all, recording *from, uint64_t n);

/* Says the table, of a packet and its word in the recording, as lines or as CSV. */
void tell_table(const survey *all, uint64_t number, uint64_t place);

/* ---- the index beside a recording */

enum { INDEX_ROOM = VRT49_INDEX_WORDS(VRT49_STREAMS_MAX, VRT49_INDEX_ENTRIES) };

typedef struct {
    const char *path;  /* its file */
    int there;         /* 1 where the file is there */
    uint64_t front;    /* the words of the recording before packet 0 */
    uint32_t ended_by; /* what the packet behind it was refused with; 0 where none was tried */
    uint32_t words[INDEX_ROOM];
} index_file;

/* Takes the index from its file, or starts one where there is none; the survey was started. Where
   the file has no index, or not one of this recording's list, it says so, and ends. */
void take_index(index_file *kept, const survey *all, const recording *from);

/* Says why the index is refused, by PAGE, and ends; it takes so many characters at most. */
enum { WHY_ROOM = 256 };
void refuse_index(const index_file *kept, const char *why);

/* Ends where a word place of the index is behind the recording's last word, and says so. */
void check_inside(const index_file *kept, const recording *from, uint64_t place);

/* Holds the table of an entry to the survey's streams: where it has not as many, or another
   identifier or choice of one, it says so, and ends. */
void check_streams(const index_file *kept, uint64_t entry, const uint32_t *table, size_t length,
                   const survey *all);

/* Takes in what the recording has behind the packets that were taken in, and writes the file. The
   survey has the table behind them then, and the recording goes on there. */
void grow_index(index_file *kept, survey *all, recording *from);

/* Gives the survey the table just before packet n, which was taken in; and its word in the
   recording. */
uint64_t jump_to(const index_file *kept, survey *all, recording *from, uint64_t n);

/* How many packets were taken in, and where the recording or the index ended. */
void tell_index(const index_file *kept, const recording *from);

/* ---- files of words, big-endian */

/* Reads the words of a regular file: gives how many. -1: there is none; -2: it has no whole words,
   or more than so many. Where it cannot be read, or is a link to no file, it says so, and ends. */
long load_words(const char *path, uint32_t *into, size_t most);

/* Sees that a file can be made beside it, and leaves none. Where it cannot be made it says so, and
   ends. */
void try_store(const char *path);

/* Writes words into a file beside it, which takes its place when it is whole. */
void store_words(const char *path, const uint32_t *words, size_t n);

/* ---- the end */

/* Says what is wrong with a file, by the system, and ends; and the same in the program's words. */
enum { REFUSED = 1, TROUBLE = 2 };
void trouble(const char *file, const char *what);
void wrong_file(const char *file, const char *what);

/* Takes how far it is from the terminal. */
void end_progress(void);

/* ---- the picture */

/* The survey as SVG; name: the recording's. */
void draw(FILE *out, const survey *all, const char *name);

#endif
