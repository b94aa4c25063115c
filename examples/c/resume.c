/* resume RECORDING SAVED PACKETS: plays so many packets of a recording, saves the table's page in a
   file, and stops. Where the file is there, it first puts the page back, and goes on where the last
   one stopped: the tuning and the counts are those of a play that was never stopped.
   SAVED has big-endian words: the place in the recording, then the page. The exit status is 1 for a
   refusal, 2 for wrong arguments and for a file that cannot be read or written. */
#include <errno.h>
#include <inttypes.h>
#include <stdio.h>
#include <stdlib.h>
#include <string.h>

#include "vrt49.h"

enum { WORDS = 1 << 20, SAVED = 1 + VRT49_PAGE_WORDS(VRT49_STREAMS_MAX) };

static uint32_t words[WORDS], table[VRT49_TABLE_WORDS(VRT49_STREAMS_MAX)];
static uint32_t saved[SAVED];
static const uint32_t plain[VRT49_STREAMS_MAX] = {VRT49_PLAIN}; /* of each stream */

/* Reads the words of a file, at most so many; 0 where it cannot be read. */
static int read_file(const char *name, uint32_t *to, size_t most, size_t *n)
{
    FILE *file = fopen(name, "rb");
    unsigned char b[4];
    int good;
    for (*n = 0; file && *n < most && fread(b, 1, 4, file) == 4; (*n)++)
        to[*n] = (uint32_t)b[0] << 24 | (uint32_t)b[1] << 16 | (uint32_t)b[2] << 8 | b[3];
    good = file && !ferror(file);
    if (file)
        fclose(file);
    return good;
}

/* Writes a word as its four bytes, the highest first. */
static void put_word(uint32_t word, FILE *file)
{
    int shift;
    for (shift = 24; shift >= 0; shift -= 8)
        putc((int)(word >> shift & 255), file);
}

/* Writes a file beside the old one, and puts it in its place when it is whole; 0 if it cannot. */
static int write_file(const char *name, const uint32_t *from, size_t n)
{
    char beside[4096];
    FILE *file;
    size_t i;
    int good = snprintf(beside, sizeof beside, "%s.new", name) < (int)sizeof beside;
    errno = ENAMETOOLONG;
    file = good ? fopen(beside, "wb") : NULL;
    if (!file)
        return 0;
    for (i = 0; i < n; i++)
        put_word(from[i], file);
    good = !ferror(file);
    good = fclose(file) == 0 && good && rename(beside, name) == 0;
    if (!good)
        remove(beside);
    return good;
}

/* Says why a file is not read or not written; gives the exit status. */
static int failed(const char *name, const char *what)
{
    fprintf(stderr, "resume: %s cannot be %s: %s\n", name, what, strerror(errno));
    return 2;
}

/* Says what was refused: the page, in the file SAVED; the list; or a packet, at a word of the
   recording, and which word of it. Gives the exit status. */
static int refused(const char *name, size_t at, uint32_t refusal)
{
    if (refusal == VRT49_PAGE)
        fprintf(stderr, "%s", name);
    else
        fprintf(stderr, "at word %zu", at);
    fprintf(stderr, " refused: %u %s", VRT49_NUMBER(refusal), vrt49_name(refusal));
    if (VRT49_NUMBER(refusal) == VRT49_FIELD)
        fprintf(stderr, " %u, %s", VRT49_BIT(refusal), vrt49_field_name(VRT49_BIT(refusal)));
    if (VRT49_NUMBER(refusal) <= VRT49_FIELD) /* the others are of no packet */
        fprintf(stderr, ", word %u of the packet, %zu of the recording", VRT49_PLACE(refusal),
                at + VRT49_PLACE(refusal));
    fputs("\n", stderr);
    return 1;
}

/* A table to go on with, and the place: of the words saved, or fresh where there are none. A list
   that is refused is at word 0. */
static uint32_t begin(size_t length, size_t n, size_t *layout, size_t *at)
{
    size_t room = sizeof table / sizeof table[0];
    uint32_t number = VRT49_LIST;
    if (length) {
        *at = saved[0];
        return vrt49_put_back(saved + 1, length - 1, table, room, layout);
    }
    if (words[0] < n && words[0] <= VRT49_STREAMS_MAX)
        number = vrt49_start(words + 1, words[0], plain, words[0], table, room, layout);
    *at = number == VRT49_OK ? 1 + words[0] : 0;
    return number;
}

/* Plays so many packets, or to the end; one of no declared stream is passed over. Only the last
   entry of a run can have another refusal, and it is given with its place. */
static uint32_t play(size_t n, size_t layout, size_t most, size_t *at)
{
    static vrt49_entry entries[64];
    size_t packets;
    uint32_t refusal;
    while (most > 0 && *at < n) {
        refusal = vrt49_play_entries(table, layout, words, n, *at, entries, most < 64 ? most : 64,
                                     &packets, at);
        if (refusal == VRT49_OK)
            refusal = vrt49_entry_refusal(&entries[packets - 1]);
        if (refusal != VRT49_OK && VRT49_NUMBER(refusal) != VRT49_STREAM)
            return refusal;
        most -= packets;
    }
    return VRT49_OK;
}

/* Where stream 0 is tuned, if that is known. */
static void print_tuning(size_t layout)
{
    vrt49_shown shown;
    if (vrt49_show(table, layout, 0, VRT49_BIT_RF_REFERENCE_FREQUENCY, &shown) == VRT49_OK &&
        shown.kind == VRT49_KIND_FREQUENCY)
        printf(", stream 0 at %.6f MHz", vrt49_hertz(&shown) / 1e6);
}

int main(int argc, char **argv)
{
    size_t n, at = 0, from, layout = 0, length = 0;
    uint32_t refusal;
    if (argc != 4 || !*argv[3] || argv[3][strspn(argv[3], "0123456789")]) {
        fputs("resume RECORDING SAVED PACKETS: two files, and how many packets\n", stderr);
        return 2;
    }
    if (!read_file(argv[1], words, WORDS, &n))
        return failed(argv[1], "read");
    if (!read_file(argv[2], saved, SAVED, &length) && errno != ENOENT)
        return failed(argv[2], "read");
    refusal = begin(length, n, &layout, &at);
    from = at;
    if (refusal == VRT49_OK)
        refusal = play(n, layout, strtoul(argv[3], NULL, 10), &at);
    if (refusal == VRT49_OK)
        refusal = vrt49_save(table, layout, saved + 1, SAVED - 1, &length);
    if (refusal != VRT49_OK)
        return refused(argv[2], at, refusal);
    saved[0] = (uint32_t)at;
    if (!write_file(argv[2], saved, 1 + length))
        return failed(argv[2], "written");
    printf("words %zu to %zu, a page of %zu words", from, at, length);
    print_tuning(layout);
    puts("");
    return 0;
}
