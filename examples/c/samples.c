/* samples: each channel's samples, found in a payload of two channels whose receiver sends three
   samples of a channel before those of the next. They come twice: I and Q in turn, where bit 23 of
   the format is 0, and three I before three Q, where it is 1. */
#include <inttypes.h>
#include <stdio.h>
#include "vrt49.h"

enum { SECOND = 0x00020001, ITEMS = 24, WORDS = 6, INSTANTS = 6 }; /* repeat 3, vectors of 2 */

static uint64_t items[ITEMS];
static uint8_t events[ITEMS];
static uint16_t tags[ITEMS];

/* I (component 0) or Q (component 1) of a channel's sample at an instant. */
static void print_item(uint32_t first, uint32_t channel, uint32_t instant, uint32_t component)
{
    vrt49_coordinates at = vrt49_sample_at(SECOND, instant, channel, component);
    size_t item;
    int64_t value;
    if (vrt49_item_at(first, SECOND, ITEMS, &at, &item) == VRT49_OK &&
        vrt49_signed(8, items[item], &value) == VRT49_OK)
        printf("  %c %4" PRId64 " (item %2zu)", component ? 'Q' : 'I', value, item);
}

static void print_channel(uint32_t first, uint32_t channel)
{
    uint32_t instant;
    for (instant = 0; instant < INSTANTS; instant++) {
        printf("channel %" PRIu32 "  instant %" PRIu32, channel, instant);
        print_item(first, channel, instant, 0);
        print_item(first, channel, instant, 1);
        puts("");
    }
}

/* The samples of a payload; the number is 0, or that of a refusal. */
static uint32_t print_samples(uint32_t first, const uint32_t *words)
{
    uint32_t number = vrt49_unpack(first, SECOND, ITEMS, words, WORDS, items, ITEMS, events, ITEMS,
                                   tags, ITEMS);
    printf("format 0x%08" PRIX32 " 0x%08X: %s\n", first, (unsigned)SECOND, vrt49_name(number));
    if (number == VRT49_OK) {
        print_channel(first, 0);
        print_channel(first, 1);
    }
    return number;
}

int main(void)
{
    /* link-efficient, complex, items of 8 bits: bit 23 of the first word is 0, then 1 */
    static const uint32_t in_turn[WORDS] = {0x64003257, 0xCE572800, 0x14DDECDD,
                                            0x9C00CEA9, 0x32A9D800, 0xEC231423};
    static const uint32_t i_first[WORDS] = {0x6432CE00, 0x57572814, 0xEC00DDDD,
                                            0x9CCE3200, 0xA9A9D8EC, 0x14002323};
    return print_samples(0xA00001C7, in_turn) != VRT49_OK ||
           print_samples(0xA08001C7, i_first) != VRT49_OK;
}
