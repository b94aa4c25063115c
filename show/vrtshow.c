/* vrtshow: what happens in a VITA 49.0 recording: the tuning of its streams, packets that are
   missing, packets that are refused; as lines, as CSV and as a picture; and the table just before a
   packet. The usage below says how. */
#define _POSIX_C_SOURCE 200809L
#include <errno.h>
#include <fcntl.h>
#include <inttypes.h>
#include <stdlib.h>
#include <string.h>
#include <sys/stat.h>
#include <unistd.h>

#include "vrtshow.h"

static const char USAGE[] =
    "vrtshow [-l] [-a] [-q | --csv] [--svg FILE] [--survey ID[,ID..]] [RECORDING]\n"
    "vrtshow [-l] --at N [--csv] [--index FILE] [--survey ID[,ID..]] [RECORDING]\n"
    "vrtshow [-l] --index FILE [--survey ID[,ID..]] [RECORDING]\n"
    "\n"
    "Plays a recording of any length: 32-bit words, S, S identifiers, packets. Without RECORDING,\n"
    "or with -, it is standard input. A line is printed where a stream's tuning changes, where\n"
    "packets are missing, where the tuning is trusted again after that, and where a packet is\n"
    "refused; then a summary of each stream. Words, packets and streams are numbered from 0.\n"
    "\n"
    "  -l          words are little-endian; else they are big-endian\n"
    "  -a          a line also where other held fields change alone: temperature, state, ..\n"
    "  -q          the summary alone\n"
    "  --csv       CSV instead of lines and summary; frequencies are in hertz, exactly\n"
    "  --svg FILE  a picture besides: the tuning of each stream over the packets; it is written\n"
    "              over a picture, and over no other file\n"
    "  --survey ID[,ID..]  the data packets of these streams, decimal or 0x.., are read as 49A: a\n"
    "              line also where the format of their samples changes, with -a their number too\n"
    "  --at N      the table just before packet N instead: of each stream its packets so far,\n"
    "              its tuning and its state; N is at most the number of packets\n"
    "  --index FILE  keeps an index of the recording in FILE, both regular files: it is made\n"
    "              where there is none, and goes on where the recording has more packets, with\n"
    "              --at where it does not reach N; --at N then plays 1,023 packets at most\n"
    "  --help      this text\n"
    "\n"
    "In lines ~ stands before a frequency that is rounded, to a millihertz.\n"
    "Exit status: 0 played to its end, or to packet N; 1 ended by a refusal before that (STREAM\n"
    "does not end it), or, with --index alone, a full index; 2 wrong use, or a file that cannot be\n"
    "read or written.\n";

enum { LARGE = 1 << 26 }; /* bytes of a recording whose progress is shown */

/* The first words of captures: pcap in micro- and in nanoseconds, in both byte orders, and
   pcapng. */
static const uint32_t CAPTURES[] = {0xD4C3B2A1, 0xA1B2C3D4, 0x4D3CB2A1, 0xA1B23C4D, 0x0A0D0D0A};
enum { CAPTURES_N = sizeof CAPTURES / sizeof CAPTURES[0] };

static survey all;
static recording from;
static const char *path, *svg_path;
static index_file kept;
static const char *at_text; /* of --at, */
static uint64_t at_packet;  /* and its number */
static const char *name = "standard input";

void end_progress(void)
{
    if (from.shown)
        fprintf(stderr, "\r                \r");
}

void trouble(const char *file, const char *what)
{
    int why = errno;
    end_progress();
    fprintf(stderr, "vrtshow: %s: %s: %s\n", file, what, strerror(why));
    exit(TROUBLE);
}

void wrong_file(const char *file, const char *what)
{
    end_progress();
    fprintf(stderr, "vrtshow: %s: %s\n", file, what);
    exit(TROUBLE);
}

/* ---- the arguments */

/* Says what is wrong with an argument, and how the program is used, and ends. */
static void wrong_use(const char *argument, const char *what)
{
    fprintf(stderr, "vrtshow: %s: %s\n%s", argument, what, USAGE);
    exit(TROUBLE);
}

/* Takes what is printed in place of lines; it is said once. */
static void take_manner(const char *argument, enum manner manner)
{
    if (all.manner != LINES)
        wrong_use(argument, "one too many");
    all.manner = manner;
}

/* Takes a file's name; each file is named once. */
static void take_file(const char *argument, const char **into, const char *file)
{
    if (*into)
        wrong_use(argument, "one too many");
    *into = file;
}

/* Takes an identifier, decimal, or hexadecimal behind 0x, and gives what stands behind it; nothing
   where there is none. */
static const char *take_identifier(const char *text)
{
    int hex = text[0] == '0' && (text[1] == 'x' || text[1] == 'X');
    const char *digits = hex ? text + 2 : text;
    size_t n = strspn(digits, hex ? "0123456789abcdefABCDEF" : "0123456789");
    unsigned long long number = strtoull(digits, NULL, hex ? 16 : 10);
    if (n == 0 || n > 10 || number > UINT32_MAX || all.chosen_n == VRT49_STREAMS_MAX)
        return NULL;
    all.chosen[all.chosen_n++] = (uint32_t)number;
    return digits + n;
}

/* Takes the identifiers of the streams that are by 49A, with commas between them. */
static void take_survey(const char *argument, const char *list)
{
    const char *rest = list;
    if (all.chosen_n != 0)
        wrong_use(argument, "one too many");
    do
        rest = take_identifier(rest);
    while (rest && *rest == ',' && *++rest != 0);
    if (!rest || *rest != 0 || list[strlen(list) - 1] == ',')
        wrong_use(list, "is not a list of 1 to 32 identifiers");
}

/* Takes the number of a packet, decimal. */
static void take_packet(const char *argument, const char *text)
{
    if (at_text)
        wrong_use(argument, "one too many");
    errno = 0;
    at_text = text;
    at_packet = strtoull(text, NULL, 10);
    if (text[0] == 0 || text[strspn(text, "0123456789")] != 0 || errno != 0)
        wrong_use(text, "is not the number of a packet");
}

/* What stands behind an option. */
static const char *behind(int left, char **argument, const char *lacks)
{
    if (left < 2)
        wrong_use(argument[0], lacks);
    return argument[1];
}

/* Takes an option that has something behind it: 1; or 0 where it is none. */
static int take_two(int left, char **argument)
{
    const char *a = argument[0];
    if (strcmp(a, "--svg") == 0)
        take_file(a, &svg_path, behind(left, argument, "has no file behind it"));
    else if (strcmp(a, "--index") == 0)
        take_file(a, &kept.path, behind(left, argument, "has no index file behind it"));
    else if (strcmp(a, "--survey") == 0)
        take_survey(a, behind(left, argument, "has no identifiers behind it"));
    else if (strcmp(a, "--at") == 0)
        take_packet(a, behind(left, argument, "has no packet behind it"));
    else
        return 0;
    return 1;
}

/* Takes one argument, and what is behind it where it has that: gives how many it took. */
static int take(int left, char **argument)
{
    const char *a = argument[0];
    if (strcmp(a, "--help") == 0) {
        fputs(USAGE, stdout);
        exit(0);
    }
    if (take_two(left, argument))
        return 2;
    if (strcmp(a, "-l") == 0)
        from.little = 1;
    else if (strcmp(a, "-a") == 0)
        all.every = 1;
    else if (strcmp(a, "-q") == 0)
        take_manner(a, SUMMARY);
    else if (strcmp(a, "--csv") == 0)
        take_manner(a, CSV);
    else if (a[0] == '-' && a[1] != 0)
        wrong_use(a, "no such option");
    else
        take_file(a, &path, a);
    return 1;
}

/* Looks at what was asked for together: --at and --index print no lines of packets and draw no
   picture. */
static void check_use(void)
{
    if (!at_text && !kept.path)
        return;
    if (svg_path || all.every || all.manner == SUMMARY)
        wrong_use(svg_path ? "--svg" : all.every ? "-a" : "-q", "not with --at or --index");
    if (all.manner == CSV && !at_text)
        wrong_use("--csv", "not with --index alone");
}

/* ---- the files */

/* Opens the recording; standard input, also named -, is open. */
static void open_recording(void)
{
    if (!path || strcmp(path, "-") == 0)
        return;
    name = path;
    from.file = open(path, O_RDONLY);
    if (from.file < 0)
        trouble(name, "cannot be opened");
}

/* Looks at what the recording is. How far it is, is shown of a large file where standard error is a
   terminal, unless lines go there too. */
static void look_at_recording(void)
{
    struct stat status;
    off_t at = lseek(from.file, 0, SEEK_CUR);
    from.live = fstat(from.file, &status) != 0 || !S_ISREG(status.st_mode);
    if (!from.live && at > 0)
        from.start = (uint64_t)at;
    if (!from.live && status.st_size > at)
        from.size = (uint64_t)(status.st_size - at);
    from.shown = from.size > LARGE && isatty(2) &&
                 (all.manner == SUMMARY || at_text || kept.path || !isatty(1));
}

/* Whether two files are the same one. */
static int is_same(const struct stat *a, const struct stat *b)
{
    return a->st_dev == b->st_dev && a->st_ino == b->st_ino;
}

/* Whether a path is that of the recording. */
static int is_recording(const char *file)
{
    struct stat there, recorded;
    return stat(file, &there) == 0 && fstat(from.file, &recorded) == 0 &&
           is_same(&there, &recorded);
}

/* Whether a file that is there may be written over: it is empty, or a picture, or no regular
   file. */
static int is_picture(const struct stat *there)
{
    char first = '<';
    int file;
    if (!S_ISREG(there->st_mode) || there->st_size == 0)
        return 1;
    file = open(svg_path, O_RDONLY);
    if (file < 0 || read(file, &first, 1) < 0)
        trouble(svg_path, "cannot be read");
    close(file);
    return first == '<';
}

/* Why the picture is not written, where it would destroy a file; else nothing. */
static const char *destroyed(void)
{
    struct stat there;
    if (stat(svg_path, &there) != 0)
        return NULL;
    if (is_recording(svg_path))
        return "is the recording";
    return is_picture(&there) ? NULL : "is not a picture";
}

/* Opens the picture. What it has stays until it is drawn. */
static FILE *open_picture(void)
{
    const char *why = destroyed();
    FILE *svg;
    int file;
    if (why) {
        fprintf(stderr, "vrtshow: %s: %s: not written over\n", svg_path, why);
        exit(TROUBLE);
    }
    file = open(svg_path, O_WRONLY | O_CREAT, 0666);
    svg = file < 0 ? NULL : fdopen(file, "w");
    if (!svg)
        trouble(svg_path, "cannot be written");
    return svg;
}

/* Draws the picture in place of what its file has; a pipe or a terminal has nothing to take off. */
static void write_picture(FILE *svg)
{
    int failed;
    if (ftruncate(fileno(svg), 0) != 0 && errno != EINVAL)
        trouble(svg_path, "cannot be written");
    draw(svg, &all, name);
    failed = ferror(svg);
    if (fclose(svg) != 0 || failed)
        trouble(svg_path, "cannot be written");
}

/* ---- the end */

/* Says what a recording looks like that does not begin with a list. */
static void tell_likeness(uint32_t first)
{
    size_t i;
    if (first != 0 && (first & 0xFFFFFF) == 0 && first >> 24 <= VRT49_STREAMS_MAX)
        fprintf(stderr, "vrtshow: its words look as if they were %s-endian: try it %s -l\n",
                from.little ? "big" : "little", from.little ? "without" : "with");
    for (i = 0; i < CAPTURES_N; i++)
        if (first == CAPTURES[i])
            fputs("vrtshow: it looks like a capture: vrtcapture (tools/capture) makes a "
                  "recording of it\n", stderr);
}

/* Says on standard error why the recording ended before its end. */
static void tell_end(void)
{
    fprintf(stderr, "vrtshow: %s: stopped at word %" PRIu64 ": ", name, all.stopped_at);
    put_refusal(stderr, all.stopped_by, ungrouped(all.stopped_at + VRT49_PLACE(all.stopped_by)));
    fputs("\n", stderr);
    if (VRT49_NUMBER(all.stopped_by) == VRT49_LIST && from.have != 0)
        tell_likeness(from.words[0]);
}

/* Ends where the recording could not be read, or has not what --survey asks for. */
static void check_recording(void)
{
    if (from.failed) {
        errno = from.failed;
        trouble(name, "cannot be read");
    }
    if (all.unlisted) {
        fprintf(stderr, "vrtshow: %s: 0x%08" PRIX32 " of --survey is not in its list\n", name,
                all.stranger);
        exit(TROUBLE);
    }
}

/* Sees that all that was said is out. */
static void end_output(void)
{
    if (fflush(stdout) != 0 || ferror(stdout))
        trouble("standard output", "cannot be written");
}

/* Plays the recording, and says all that is printed. */
static void show_recording(void)
{
    if (all.manner == CSV)
        tell_columns(&all);
    play(&all, &from);
    end_progress();
    check_recording();
    if (all.manner != CSV)
        tell_summary(&all, &from);
    end_output();
}

/* ---- the table just before a packet, and the index */

/* Ends where there can be no index beside the recording. */
static void check_index_file(void)
{
    if (from.live)
        wrong_file(name, "is not a regular file: it has no index");
    if (is_recording(kept.path))
        wrong_file(kept.path, "is the recording: not written over");
}

/* Takes the index, and what the recording has more, unless there is one that reaches the packet. */
static void bring_index(void)
{
    take_index(&kept, &all, &from);
    if (!at_text || !kept.there || at_packet > vrt49_index_packets(kept.words))
        grow_index(&kept, &all, &from);
}

/* Brings the table just before the packet: gives its word in the recording, all.packets is its
   number; or the last packet there is, where it has fewer. Behind a full index packets are played;
   without one they are played from the first on. */
static uint64_t bring_table(void)
{
    if (kept.path && at_packet <= vrt49_index_packets(kept.words))
        return jump_to(&kept, &all, &from, at_packet);
    if (!kept.path || kept.ended_by == VRT49_ROOM)
        play_to(&all, &from, at_packet);
    return from.before + from.at;
}

/* Says that the recording has not so many packets. */
static void tell_fewer(uint64_t place)
{
    fprintf(stderr, "vrtshow: %s: packet %" PRIu64 " refused %d %s: it has %s packets, to word "
            "%" PRIu64 "\n", name, at_packet, VRT49_PLACE, vrt49_name(VRT49_PLACE),
            grouped(all.packets), place);
}

/* Shows the table: gives whether the recording has the packet. */
static int show_table(void)
{
    uint64_t place = bring_table();
    end_progress();
    check_recording();
    if (all.packets < at_packet) {
        tell_fewer(place);
        return 0;
    }
    all.stopped_by = VRT49_OK; /* behind the packet */
    tell_table(&all, at_packet, place);
    return 1;
}

/* Shows the index: gives whether it has all packets of the recording. */
static int show_index(void)
{
    end_progress();
    tell_index(&kept, &from);
    return VRT49_NUMBER(kept.ended_by) == VRT49_EMPTY;
}

/* Shows the table, or the index; gives the exit status. */
static int jump(void)
{
    int good = 0;
    all.stopped_by = start(&all, &from);
    check_recording();
    if (all.stopped_by == VRT49_OK) {
        if (kept.path)
            bring_index();
        check_recording();
        good = at_text ? show_table() : show_index();
        end_output();
    }
    if (all.stopped_by != VRT49_OK)
        tell_end();
    return good ? 0 : REFUSED;
}

int main(int argc, char **argv)
{
    FILE *svg = NULL;
    int i;
    for (i = 1; i < argc; i += take(argc - i, argv + i))
        ;
    check_use();
    open_recording();
    look_at_recording();
    if (kept.path)
        check_index_file();
    if (at_text || kept.path)
        return jump();
    if (svg_path)
        svg = open_picture();
    show_recording();
    if (svg)
        write_picture(svg);
    if (all.stopped_by == VRT49_OK)
        return 0;
    tell_end();
    return REFUSED;
}
