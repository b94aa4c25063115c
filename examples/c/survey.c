/* survey: two streams, one plain and one by 49A. A data packet of 49A says itself what its samples
   are, and how many: its items are unpacked by the format and the number that reading it gives. */
#include <inttypes.h>
#include <stdio.h>
#include "vrt49.h"

enum { WORDS = 18, ITEMS = 64 };

static const uint32_t ids[] = {7, 9}, choices[] = {VRT49_PLAIN, VRT49_SURVEY};
static const uint32_t words[WORDS] = {
    0x14030005, 7, 0xABCDEF12, 0x30000000, 0x40040000,                /* plain */
    0x1C000007, 9, 0x00FFFFFA, 0x00130000, 0xABCDEF12, 0x30000000, 0, /* complex, of 16 bits */
    0x1C010006, 9, 0x40FFFFFA, 0x000A0002, 0x01020300, 0};            /* and 8 bits of padding */

/* Says what was refused at a word, and of a packet which word of it; gives the exit status. */
static int refused(size_t at, uint32_t refusal)
{
    uint32_t number = VRT49_NUMBER(refusal);
    fprintf(stderr, "at word %zu refused: %u %s", at, number, vrt49_name(number));
    if (number <= VRT49_STREAM || number == VRT49_PAD) /* the others are of no packet */
        fprintf(stderr, ", word %u of the packet", VRT49_PLACE(refusal));
    fputs("\n", stderr);
    return 1;
}

/* Prints the items of a packet of 49A. */
static uint32_t print_items(const uint32_t *packet, size_t size)
{
    uint64_t items[ITEMS];
    uint8_t events[ITEMS];
    uint16_t tags[ITEMS];
    vrt49_survey read;
    uint32_t i, number = vrt49_read_survey(packet, size, &read);
    if (number == VRT49_OK)
        number = vrt49_unpack(read.first, read.second, read.items, packet + read.packet.body_at,
                              read.packet.body_words, items, ITEMS, events, ITEMS, tags, ITEMS);
    if (number != VRT49_OK)
        return number;
    printf("%" PRIu32 " items of %" PRIu32 " bits, %s, vectors of %" PRIu32 ":", read.items,
           vrt49_item_bits(read.first), read.first >> 29 ? "complex" : "real", read.second + 1);
    for (i = 0; i < read.items; i++)
        printf(" %" PRIX64, items[i]);
    puts("");
    return number;
}

int main(void)
{
    uint32_t table[VRT49_TABLE_WORDS(2)], refusal;
    size_t layout, at = 0;
    vrt49_heard heard = {0, 0, 0, 0};
    refusal = vrt49_start(ids, 2, choices, 2, table, VRT49_TABLE_WORDS(2), &layout);
    while (refusal == VRT49_OK && at < WORDS) {
        refusal = vrt49_play(table, layout, words + at, WORDS - at, &heard);
        if (refusal == VRT49_OK && choices[heard.stream] == VRT49_SURVEY)
            refusal = print_items(words + at, heard.size);
        if (refusal == VRT49_OK)
            at += heard.size;
    }
    return refusal == VRT49_OK ? 0 : refused(at, refusal);
}
