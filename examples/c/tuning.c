/* tuning <RECORDING: what each stream is tuned to, at every packet that says it. A recording is
   big-endian words, here 4 MB at most: the number of streams, their identifiers, packets. Where it
   is refused, it says which word of which packet is at fault, and of FIELD which field. */
#include <arpa/inet.h>
#include <stdio.h>
#include "vrt49.h"

static uint32_t words[1 << 20], table[VRT49_TABLE_WORDS(VRT49_STREAMS_MAX)];
static const uint32_t plain[VRT49_STREAMS_MAX] = {VRT49_PLAIN}; /* of each stream */

/* What was refused at a word of the recording. LIST is of no packet, and has no place in one. */
static void print_refusal(size_t at, uint32_t refusal)
{
    fprintf(stderr, "at word %zu refused: %s", at, vrt49_name(refusal));
    if (VRT49_NUMBER(refusal) == VRT49_FIELD)
        fprintf(stderr, " %u, %s", VRT49_BIT(refusal), vrt49_field_name(VRT49_BIT(refusal)));
    if (VRT49_NUMBER(refusal) != VRT49_LIST)
        fprintf(stderr, ", word %u of the packet, %zu of the recording", VRT49_PLACE(refusal),
                at + VRT49_PLACE(refusal));
    fputs("\n", stderr);
}

int main(void)
{
    size_t layout, at, n = fread(words, sizeof *words, 1 << 20, stdin);
    uint32_t number = VRT49_LIST;
    vrt49_packet packet;
    vrt49_heard heard;
    vrt49_shown rf, level;
    for (at = 0; at < n; at++)
        words[at] = ntohl(words[at]); /* the calls take words in the host's order */
    if (words[0] < n && words[0] <= VRT49_STREAMS_MAX)
        number = vrt49_start(words + 1, words[0], plain, words[0], table,
                             sizeof table / sizeof *table, &layout);
    at = number == VRT49_OK ? 1 + words[0] : 0;
    for (; number == VRT49_OK && at < n; at += packet.size) {
        number = vrt49_read(words + at, n - at, &packet);
        if (number != VRT49_OK)
            break;
        if (vrt49_play(table, layout, words + at, n - at, &heard) != VRT49_OK ||
            heard.type != VRT49_TYPE_CONTEXT)
            continue; /* of no declared stream, or a packet that says no tuning */
        vrt49_show(table, layout, heard.stream, VRT49_BIT_RF_REFERENCE_FREQUENCY, &rf);
        vrt49_show(table, layout, heard.stream, VRT49_BIT_LEVEL, &level);
        printf("%u s  stream %u", packet.seconds, heard.stream);
        if (rf.kind == VRT49_KIND_FREQUENCY) /* else absent, which is not zero */
            printf("  at %.6f MHz", vrt49_hertz(&rf) / 1e6);
        if (level.kind == VRT49_KIND_LEVEL)
            printf("  level %g dBm", (double)level.levels[0]);
        puts("");
    }
    if (number != VRT49_OK)
        print_refusal(at, number);
    return number != VRT49_OK;
}
