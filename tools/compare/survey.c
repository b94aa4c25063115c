/* Every call of libvrt49 once, by the header's names: a context packet and a data packet are read, one is written again, both are played on a
   table of two streams, one of them by 49A, the table is saved and put back, an index is grown and jumped in, the held fields are read for the panel, samples are unpacked and
   packed again, and found by their channel and instant; a packet of 49A is read, unpacked, and written again. What is refused says its number, its
   place and its field. It prints what it does, and exits with 1 where a call answers what it should not. It is C99 and C++; tools/compare/compare.sh
   runs it. */
#include <inttypes.h>
#include <stdio.h>
#include <stdlib.h>
#include <string.h>

#include "vrt49.h"

#define ENTRIES(buffer) (sizeof(buffer) / sizeof((buffer)[0]))

/* type 4 of identifier 7 at second 1794715200 and 2^32 + 5 picoseconds: bandwidth 20 MHz, level -1 dBm, sample rate 25 MHz */
static const uint32_t context[] = {0x4065000B, 7, 1794715200, 1, 5, 0x21200000, 0x00001312, 0xD0000000, 0xFF80, 0x000017D7, 0x84000000};

/* type 1 of identifier 7, with a trailer: three samples of 12 bits in two words */
static const uint32_t data[] = {0x14030005, 7, 0xABCDEF12, 0x30000000, 0x40040000};

/* type 1 of identifier 9 by 49A: 8 bits of padding behind a vector of three unsigned items of 8 bits */
static const uint32_t survey_data[] = {0x1C000006, 9, 0x40FFFFFA, 0x000A0002, 0x01020300, 0};

static void expect(const char *call, uint32_t number, uint32_t wanted)
{
    if (number == wanted)
        return;
    printf("%s answers %" PRIu32 " (%s), not %" PRIu32 "\n", call, number, vrt49_name(number), wanted);
    exit(1);
}

/* what a call refuses with, part by part; each macro takes its argument once */
static void expect_at(const char *call, uint32_t refusal, uint32_t number, uint32_t place, uint32_t bit)
{
    const uint32_t given[] = {refusal, refusal, refusal}, *next = given;
    expect(call, VRT49_NUMBER(*next++), number);
    expect("its place", VRT49_PLACE(*next++), place);
    expect("its bit", VRT49_BIT(*next++), bit);
    expect("all in one", next == given + 3 && refusal == number + 256 * bit + 65536 * place, 1);
}

/* reads a packet, and prints its header's values and its body's place */
static vrt49_packet read_packet(const uint32_t *words, size_t n)
{
    vrt49_packet packet;
    expect("vrt49_read", vrt49_read(words, n, &packet), VRT49_OK);
    printf("read: type %" PRIu32 ", count %" PRIu32 ", %" PRIu32 " words, identifier %" PRIu32 ", body at %" PRIu32 " of %" PRIu32 " words\n",
           packet.type, packet.count, packet.size, packet.identifier, packet.body_at, packet.body_words);
    return packet;
}

static void read_packets(void)
{
    vrt49_packet packet = read_packet(context, ENTRIES(context));
    const uint32_t *body = context + packet.body_at;
    vrt49_trailer trailer;
    vrt49_place place;
    expect("the header", packet.type == VRT49_TYPE_CONTEXT && packet.tsi == VRT49_TSI_UTC && packet.tsf == VRT49_TSF_PICOSECONDS, 1);
    expect("the time", packet.seconds == 1794715200 && vrt49_fraction(&packet) == 4294967301u, 1);
    expect("vrt49_check_body", vrt49_check_body(body, packet.body_words), VRT49_OK);
    expect("vrt49_find", vrt49_find(body, packet.body_words, VRT49_BIT_LEVEL, &place), VRT49_OK);
    printf("  %" PRIu32 " fields; the level at %zu of the body, %zu word\n", vrt49_field_count(body[0]), place.at, place.words);
    expect("vrt49_find of an absent field", vrt49_find(body, packet.body_words, VRT49_BIT_GAIN, &place), VRT49_OK);
    expect("an absent field", place.present == 0 && place.at == 0 && place.words == 0, 1);
    packet = read_packet(data, ENTRIES(data));
    expect("vrt49_trailer_parts", vrt49_trailer_parts(packet.trailer, &trailer), VRT49_OK);
    expect("the trailer", trailer.enables == VRT49_TRAILER_VALID_DATA && trailer.indicators == VRT49_TRAILER_VALID_DATA, 1);
    printf("  trailer: valid data; E %" PRIu32 ", associated %" PRIu32 "\n", trailer.e, trailer.associated);
    expect("vrt49_read of a packet that is cut", vrt49_read(data, 4, &packet), VRT49_CUT);
    expect("vrt49_read of nothing", vrt49_read(NULL, 0, &packet), VRT49_EMPTY);
    expect("the packet after refusals", packet.size == ENTRIES(data), 1);
}

/* the context packet with its sample rate negative: read, read as 49A, played, and entered in a run it is refused at the same word; its body is refused
   without a place */
static void refuse_packet(uint32_t *table, size_t layout)
{
    uint32_t words[ENTRIES(context)], refusal;
    vrt49_packet packet;
    vrt49_survey survey;
    vrt49_heard heard;
    vrt49_entry entry;
    size_t packets, next;
    memcpy(words, context, sizeof words);
    words[9] |= 0x80000000;
    refusal = vrt49_read(words, ENTRIES(words), &packet);
    expect_at("vrt49_read of a negative rate", refusal, VRT49_FIELD, 9, VRT49_BIT_SAMPLE_RATE);
    expect("vrt49_read_survey of it", vrt49_read_survey(words, ENTRIES(words), &survey), refusal);
    expect("vrt49_play of it", vrt49_play(table, layout, words, ENTRIES(words), &heard), refusal);
    expect("vrt49_play_entries", vrt49_play_entries(table, layout, words, ENTRIES(words), 0, &entry, 1, &packets, &next), VRT49_OK);
    expect("its entry", packets == 1 && next == 0 && entry.number == VRT49_FIELD && entry.size == 0 && entry.missing == 0, 1);
    expect("the refusal of its entry", vrt49_entry_refusal(&entry), refusal);
    expect("vrt49_check_body of it", vrt49_check_body(words + 5, 6), VRT49_FIELD);
    printf("refused: %s, field %" PRIu32 " (%s), at word %" PRIu32 "\n", vrt49_name(refusal), VRT49_BIT(refusal), vrt49_field_name(VRT49_BIT(refusal)),
           VRT49_PLACE(refusal));
    expect("no field", strcmp(vrt49_field_name(7), "?") == 0 && strcmp(vrt49_field_name(31), "?") == 0, 1);
    words[1] = 8;
    words[9] ^= 0x80000000;
    expect_at("vrt49_play of no declared stream", vrt49_play(table, layout, words, ENTRIES(words), &heard), VRT49_STREAM, 1, 0);
    expect("vrt49_play of no table", vrt49_play(table, 0, words, ENTRIES(words), &heard), VRT49_TABLE);
}

/* writes the data packet again, from its parts and its body, behind two words that stay */
static void write_packet(void)
{
    vrt49_packet packet = read_packet(data, ENTRIES(data));
    vrt49_parts parts = vrt49_parts_of(&packet);
    uint32_t out[8] = {1, 2};
    size_t length;
    expect("vrt49_trailer_word", vrt49_trailer_word(VRT49_TRAILER_VALID_DATA, VRT49_TRAILER_VALID_DATA, 0, 0, &parts.trailer), VRT49_OK);
    expect("vrt49_write", vrt49_write(&parts, data + packet.body_at, packet.body_words, out, ENTRIES(out), 2, &length), VRT49_OK);
    expect("the packet written", out[0] == 1 && out[1] == 2 && memcmp(out + 2, data, sizeof data) == 0, 1);
    printf("written: %zu words, the same packet\n", length);
    expect("vrt49_write past the end", vrt49_write(&parts, data + 2, 2, out, ENTRIES(out), 4, &length), VRT49_ROOM);
    expect("the length after a refusal", length == 5, 1);
}

/* a run over packets that are cut: the last entry has the refusal, and the place is the refused packet's own */
static void play_cut(uint32_t *table, size_t layout, const uint32_t *words, size_t words_n)
{
    vrt49_entry entries[4];
    size_t packets, next;
    expect("vrt49_play_entries", vrt49_play_entries(table, layout, words, words_n, 0, entries, ENTRIES(entries), &packets, &next), VRT49_OK);
    expect("the entries", packets == 2 && entries[0].number == VRT49_OK && entries[0].size == 11, 1);
    expect("the entry of a refusal", entries[1].number == VRT49_CUT && entries[1].size == 0 && next == 11, 1);
    printf("cut: packet at %zu refused, %s\n", next, vrt49_name(entries[1].number));
}

/* plays both packets on a fresh table of streams 7 and 9, and gives the words of its layout */
static size_t play_packets(uint32_t *table, size_t room)
{
    static const uint32_t ids[] = {7, 9}, twice[] = {7, 7}, choices[] = {VRT49_PLAIN, VRT49_SURVEY}, no_choices[] = {VRT49_PLAIN, 2};
    uint32_t recording[ENTRIES(context) + ENTRIES(data)];
    vrt49_entry entries[4];
    vrt49_heard heard;
    size_t layout, packets, next;
    memcpy(recording, context, sizeof context);
    memcpy(recording + ENTRIES(context), data, sizeof data);
    expect("vrt49_start of one identifier twice", vrt49_start(twice, ENTRIES(twice), choices, 2, table, 0, &layout), VRT49_LIST);
    expect("vrt49_start with a choice too few", vrt49_start(ids, ENTRIES(ids), choices, 1, table, 0, &layout), VRT49_LIST);
    expect("vrt49_start with a choice that is none", vrt49_start(ids, ENTRIES(ids), no_choices, 2, table, 0, &layout), VRT49_LIST);
    expect("vrt49_start", vrt49_start(ids, ENTRIES(ids), choices, 2, table, room, &layout), VRT49_OK);
    play_cut(table, layout, recording, ENTRIES(recording) - 1);
    expect("vrt49_start", vrt49_start(ids, ENTRIES(ids), choices, 2, table, room, &layout), VRT49_OK);
    expect("the layout", layout == VRT49_TABLE_WORDS(2), 1);
    expect("vrt49_play_entries", vrt49_play_entries(table, layout, recording, ENTRIES(recording), 0, entries, ENTRIES(entries), &packets, &next), VRT49_OK);
    expect("the second entry", entries[1].size == 5 && entries[1].type == VRT49_TYPE_DATA && entries[1].stream == 0 && entries[1].missing == 0, 1);
    printf("played: %zu packets, %zu words, on a table of %zu words\n", packets, next, layout);
    expect("vrt49_play", vrt49_play(table, layout, data, ENTRIES(data), &heard), VRT49_OK);
    printf("played again: type %" PRIu32 " of stream %" PRIu32 ", missing %" PRIu32 "\n", heard.type, heard.stream, heard.missing);
    expect("vrt49_play of 49A", vrt49_play(table, layout, survey_data, ENTRIES(survey_data), &heard), VRT49_OK);
    expect("the packet of 49A", heard.type == VRT49_TYPE_DATA && heard.stream == 1 && heard.size == ENTRIES(survey_data), 1);
    expect("the refusal of an entry that is accepted", vrt49_entry_refusal(&entries[1]), VRT49_OK);
    refuse_packet(table, layout);
    return layout;
}

/* saves a table, puts the page back into another, and compares the two */
static void save_table(const uint32_t *table, size_t layout)
{
    uint32_t page[VRT49_PAGE_WORDS(VRT49_STREAMS_MAX)], again[VRT49_TABLE_WORDS(VRT49_STREAMS_MAX)];
    size_t length, words;
    expect("vrt49_page_length", vrt49_page_length(table, layout, &length), 0);
    expect("vrt49_save", vrt49_save(table, layout, page, length, &length), 0);
    expect("vrt49_put_back", vrt49_put_back(page, length, again, ENTRIES(again), &words), 0);
    expect("vrt49_well_made", vrt49_well_made(again, words), 1);
    expect("the table put back", words == layout && memcmp(table, again, layout * sizeof again[0]) == 0, 1);
    printf("saved: a page of %zu words; put back: the same table\n", length);
}

/* a recording for an index: the context packet, one of no declared stream, one without an identifier, and then data packets */
enum { TAKEN = 1100, RECORDED = 11 + 2 + 1 + 5 * TAKEN };
static size_t record(uint32_t *words)
{
    static const uint32_t others[] = {0x10000002, 8, 0x00000001};
    size_t n = ENTRIES(context), i;
    memcpy(words, context, sizeof context);
    memcpy(words + n, others, sizeof others);
    n += ENTRIES(others);
    for (i = 3; i < TAKEN; i++, n += ENTRIES(data)) {
        memcpy(words + n, data, sizeof data);
        words[n] = (words[n] & 0xFFF0FFFF) | (uint32_t)(i % 16) << 16;
    }
    return n;
}

/* takes the recording's packets in, and keeps the table from before packet `keep` */
static void grow_index(uint32_t *table, size_t layout, const uint32_t *words, size_t words_n, uint32_t *kept, size_t kept_n, size_t keep, uint32_t *before)
{
    static const uint32_t strange[] = {VRT49_OK, VRT49_STREAM | 1u << 16, VRT49_STREAM};
    uint32_t answer[5], number;
    vrt49_entry entry = {0, 0, 0, 0, 0};
    size_t i, at = 0;
    expect("vrt49_grow", vrt49_grow(table, layout, words, words_n, kept, kept_n, answer), VRT49_OK);
    expect("the context packet taken in", answer[0] == VRT49_OK && answer[1] == 11 && answer[2] == VRT49_TYPE_CONTEXT && answer[3] + answer[4] == 0, 1);
    for (i = 1, at = 11; i < TAKEN; i++, at += entry.size) {
        if (i == keep)
            memcpy(before, table, layout * sizeof before[0]);
        number = vrt49_grow_entry(table, layout, words + at, i % 2 ? words_n - at : (words[at] & 0xFFFF), kept, kept_n, &entry);
        expect("vrt49_grow_entry", number, VRT49_OK);
        expect("a packet of no declared stream", vrt49_entry_refusal(&entry), strange[i < ENTRIES(strange) ? i : 0]);
    }
    expect("vrt49_grow at the end", vrt49_grow(table, layout, words + at, words_n - at, kept, kept_n, answer), VRT49_EMPTY);
    expect_at("vrt49_grow of a broken packet", vrt49_grow(table, layout, survey_data, ENTRIES(survey_data) - 1, kept, kept_n, answer), VRT49_CUT, 0, 0);
    expect("the answer after refusals", answer[1], 11);
}

/* an index beside the recording: the table just before a packet is the one that growing had there, from all words or from the entry's alone */
static void jump_packets(void)
{
    static const uint32_t ids[] = {7, 9}, choices[] = {VRT49_PLAIN, VRT49_SURVEY};
    static uint32_t words[RECORDED], kept[VRT49_INDEX_WORDS(2, 2)];
    uint32_t table[VRT49_TABLE_WORDS(2)], fresh[ENTRIES(table)], before[ENTRIES(table)], again[ENTRIES(table)], answer[5], last[2];
    size_t layout, length, words_n = record(words), from, to;
    uint64_t place;
    expect("vrt49_start", vrt49_start(ids, 2, choices, 2, table, ENTRIES(table), &layout), VRT49_OK);
    memcpy(fresh, table, sizeof fresh);
    expect("vrt49_start_index without room", vrt49_start_index(table, layout, kept, VRT49_INDEX_CONTENTS, &length), VRT49_ROOM);
    expect("vrt49_start_index of no table", vrt49_start_index(table, 0, kept, ENTRIES(kept), &length), VRT49_TABLE);
    expect("vrt49_start_index", vrt49_start_index(table, layout, kept, ENTRIES(kept), &length), VRT49_OK);
    expect("its words", length == vrt49_index_words(kept) && length == VRT49_INDEX_CONTENTS + 36, 1);
    grow_index(table, layout, words, words_n, kept, ENTRIES(kept), 1030, before);
    expect("the index", vrt49_index_packets(kept) == TAKEN && vrt49_index_entries(kept) == 2 && vrt49_index_reached(kept) == words_n, 1);
    from = (size_t)vrt49_index_from(kept, 1030);
    to = (size_t)vrt49_index_to(kept, 1030);
    expect("where its packets are", from == 14 + 5 * 1021 && to == words_n && vrt49_index_to(kept, 5) == from && vrt49_index_from(kept, 5) == 0, 1);
    expect("vrt49_jump", vrt49_jump(words + from, to - from, from, kept, length = vrt49_index_words(kept), 1030, again, ENTRIES(again), &layout, &place),
           VRT49_OK);
    expect("the table just before it", layout == ENTRIES(again) && place == 14 + 5 * 1027 && memcmp(again, before, sizeof again) == 0, 1);
    printf("index: %zu words; the table just before packet 1030, at word %zu, from word %zu on: the same\n", length, (size_t)place, from);
    expect("vrt49_jump to the end", vrt49_jump(words, words_n, 0, kept, length, TAKEN, again, ENTRIES(again), &layout, &place), VRT49_OK);
    expect("the last table", place == words_n && memcmp(again, table, sizeof again) == 0, 1);
    expect("vrt49_jump back", vrt49_jump(NULL, 0, 0, kept, length, 0, again, ENTRIES(again), &layout, &place), VRT49_OK);
    expect("the first table", place == 0 && memcmp(again, fresh, sizeof again) == 0, 1);
    expect("vrt49_jump too far", vrt49_jump(words, words_n, 0, kept, length, TAKEN + 1, again, 0, &layout, &place), VRT49_PLACE);
    expect("vrt49_jump without its words", vrt49_jump(words, from, 0, kept, length, 1030, again, 0, &layout, &place), VRT49_PAGE);
    expect("vrt49_jump without room", vrt49_jump(words, words_n, 0, kept, length, 1030, again, ENTRIES(again) - 1, &layout, &place), VRT49_ROOM);
    memcpy(last, kept, sizeof last);
    kept[1] = 1023; /* of two entries, one too many */
    expect("vrt49_grow of no index", vrt49_grow(table, layout, words, words_n, kept, length, answer), VRT49_PAGE);
    kept[0] = 1;
    expect("vrt49_grow without room", vrt49_grow(table, layout, words, words_n, kept, VRT49_INDEX_CONTENTS + 36, answer), VRT49_ROOM);
    memcpy(kept, last, sizeof last);
    expect("the place of a refusal and the refusal", VRT49_PLACE(VRT49_STREAM | 1u << 16) == 1 && VRT49_PLACE == 21 && strcmp(vrt49_name(VRT49_PLACE), "PLACE") == 0, 1);
}

/* all fields at once: each as vrt49_show gives it */
static void show_all(const uint32_t *table, size_t layout)
{
    vrt49_panel panel;
    vrt49_shown shown, one;
    uint32_t bit, held = 0;
    expect("vrt49_show_all", vrt49_show_all(table, layout, 0, &panel), VRT49_OK);
    for (bit = 10; bit <= 30; bit++) {
        shown = vrt49_shown_of(&panel, bit);
        expect("vrt49_show", vrt49_show(table, layout, 0, bit, &one), VRT49_OK);
        expect("a field of all", shown.kind == one.kind && shown.parts == one.parts && shown.hertz == one.hertz, 1);
        expect("its levels", shown.levels[0] == one.levels[0] && shown.levels[1] == one.levels[1], 1);
        held += shown.kind != VRT49_KIND_ABSENT;
    }
    printf("all fields: %" PRIu32 " held\n", held);
    expect("vrt49_shown_of no field", vrt49_shown_of(&panel, 9).kind + vrt49_shown_of(&panel, 31).kind, 0);
    expect("vrt49_show_all of a stream that is not there", vrt49_show_all(table, layout, 2, &panel), VRT49_STREAM);
    expect("the panel after a refusal", panel.kinds[30 - VRT49_BIT_LEVEL], VRT49_KIND_LEVEL);
}

static void show_readings(const uint32_t *table, size_t layout)
{
    uint32_t held[VRT49_FIELD_WORDS];
    vrt49_shown shown;
    size_t length;
    expect("vrt49_show", vrt49_show(table, layout, 0, VRT49_BIT_SAMPLE_RATE, &shown), VRT49_OK);
    expect("the kind", shown.kind, VRT49_KIND_FREQUENCY);
    printf("sample rate: %" PRId64 " hertz and %" PRIu32 " parts, %.3f MHz\n", shown.hertz, shown.parts, vrt49_hertz(&shown) / 1e6);
    expect("vrt49_show", vrt49_show(table, layout, 0, VRT49_BIT_LEVEL, &shown), VRT49_OK);
    expect("the kind", shown.kind, VRT49_KIND_LEVEL);
    printf("level: %g dBm\n", (double)shown.levels[0]);
    expect("vrt49_held_words", vrt49_held_words(table, layout, 0, VRT49_BIT_BANDWIDTH, held, ENTRIES(held), &length), VRT49_OK);
    printf("bandwidth: %zu words held, 0x%08" PRIX32 " 0x%08" PRIX32 "\n", length, held[0], held[1]);
    expect("vrt49_show of a stream that is not there", vrt49_show(table, layout, 2, VRT49_BIT_LEVEL, &shown), VRT49_STREAM);
    expect("what was shown, after a refusal", shown.kind, VRT49_KIND_LEVEL);
    expect("vrt49_show of an absent field", vrt49_show(table, layout, 1, VRT49_BIT_GAIN, &shown), VRT49_OK);
    expect("the kind", shown.kind, VRT49_KIND_ABSENT);
}

/* what the table says of stream 0, and what the context packet changes when it is played again: the counts, and no field */
static void ask_stream(uint32_t *table, size_t layout)
{
    uint32_t own[VRT49_TABLE_WORDS(1)], identifier, choice, held, fields;
    vrt49_count count;
    vrt49_heard heard;
    size_t length;
    expect("vrt49_identity", vrt49_identity(table, layout, 1, &identifier, &choice, &held), VRT49_OK);
    expect("the stream of 49A", identifier == 9 && choice == VRT49_SURVEY && held == 0, 1);
    expect("vrt49_identity", vrt49_identity(table, layout, 0, &identifier, &choice, &held), VRT49_OK);
    expect("the choice", choice, VRT49_PLAIN);
    expect("the held rate", held >> VRT49_BIT_SAMPLE_RATE & 1, 1);
    printf("stream 0: identifier %" PRIu32 ", held 0x%08" PRIX32 "\n", identifier, held);
    expect("vrt49_own_table", vrt49_own_table(table, layout, 0, own, ENTRIES(own), &length), VRT49_OK);
    expect("the own table", length == VRT49_TABLE_WORDS(1) && own[0] == 1 && memcmp(own + 1, table + 1, sizeof own - sizeof own[0]) == 0, 1);
    expect("vrt49_play", vrt49_play(table, layout, context, ENTRIES(context), &heard), VRT49_OK);
    expect("vrt49_changed", vrt49_changed(own, length, 0, table, layout, 0, &fields), VRT49_OK);
    expect("no field changed", fields, 0);
    expect("vrt49_changed", vrt49_changed(own, length, 0, table, layout, 1, &fields), VRT49_OK);
    printf("against stream 1: fields 0x%08" PRIX32 "\n", fields);
    expect("vrt49_counts", vrt49_counts(table, layout, 0, VRT49_TYPE_CONTEXT, &count), VRT49_OK);
    printf("type 4: seen %" PRIu32 ", missing %" PRIu32 ", last %" PRIu32 "\n", count.seen, count.missing, count.last);
    expect("vrt49_counts", vrt49_counts(table, layout, 1, VRT49_TYPE_CONTEXT, &count), VRT49_OK);
    expect("a count that has not started", count.started == 0 && count.seen == 0, 1);
    expect("vrt49_counts of type 0", vrt49_counts(table, layout, 0, 0, &count), VRT49_VALUE);
}

/* unpacks three samples of 12 bits, link-efficient, and packs them again */
static void unpack_samples(void)
{
    static const uint32_t format[] = {0x800002CB, 0};
    uint64_t items[3];
    uint8_t events[3];
    uint16_t channels[3];
    uint32_t words[2];
    int64_t value;
    size_t length;
    expect("vrt49_unpack", vrt49_unpack(format[0], format[1], 3, data + 2, 2, items, 3, events, 3, channels, 3), 0);
    expect("vrt49_signed", vrt49_signed(12, items[0], &value), 0);
    printf("unpacked: %03" PRIX64 " %03" PRIX64 " %03" PRIX64 "; the first is %" PRId64 "\n", items[0], items[1], items[2], value);
    expect("vrt49_words_needed", vrt49_words_needed(format[0], format[1], 3, &length), 0);
    expect("the words needed", length == 2, 1);
    expect("vrt49_pack", vrt49_pack(format[0], format[1], items, 3, events, 3, channels, 3, words, 2, &length), 0);
    printf("packed: 0x%08" PRIX32 " 0x%08" PRIX32 "\n", words[0], words[1]);
}

/* two groups of two channels, complex, each with three samples in a group: every item has its coordinates, and they lead back to it */
static void find_samples(uint32_t first)
{
    static const uint32_t second = 0x00020001;
    const size_t n = (size_t)(2 * vrt49_group(first, second));
    vrt49_coordinates at, sample;
    size_t item, found;
    expect("the group", n == 24, 1);
    for (item = 0; item < n; item++) {
        expect("vrt49_coordinates_of", vrt49_coordinates_of(first, second, n, item, &at), VRT49_OK);
        expect("vrt49_item_at", vrt49_item_at(first, second, n, &at, &found), VRT49_OK);
        sample = vrt49_sample_at(second, (uint32_t)vrt49_instant(&at, second), at.channel, at.component);
        expect("the item that was found", found == item && memcmp(&at, &sample, sizeof at) == 0, 1);
    }
    sample = vrt49_sample_at(second, 4, 1, 0);
    expect("vrt49_item_at", vrt49_item_at(first, second, n, &sample, &item), VRT49_OK);
    sample.component = 1;
    expect("vrt49_item_at", vrt49_item_at(first, second, n, &sample, &found), VRT49_OK);
    printf("channel 1, instant 4: I is item %zu, Q is item %zu\n", item, found);
    sample.component = 2;
    expect("vrt49_item_at of no component", vrt49_item_at(first, second, n, &sample, &item), VRT49_VALUE);
    expect("vrt49_coordinates_of no item", vrt49_coordinates_of(first, second, n, n, &at), VRT49_VALUE);
    expect("vrt49_coordinates_of no whole group", vrt49_coordinates_of(first, second, n - 2, 0, &at), VRT49_COUNT);
    expect("the coordinates after refusals", at.time == 1 && at.channel == 1 && at.component == 1 && at.repeat == 2, 1);
}

/* reads a packet of 49A, unpacks its items by the format that it says, and writes it again, from what was read and from what it holds */
static void read_survey(void)
{
    uint64_t items[3];
    uint8_t events[3];
    uint16_t channels[3];
    uint32_t out[ENTRIES(survey_data)];
    vrt49_packet packet;
    vrt49_survey survey;
    vrt49_survey_parts parts, made;
    size_t length;
    expect_at("vrt49_read of 49A", vrt49_read(survey_data, ENTRIES(survey_data), &packet), VRT49_CLASS, 2, 0);
    expect("vrt49_read_survey", vrt49_read_survey(survey_data, ENTRIES(survey_data), &survey), VRT49_OK);
    printf("49A: %" PRIu32 " bits of padding, %" PRIu32 " items, format 0x%08" PRIX32 " 0x%08" PRIX32 "\n", survey.pad, survey.items, survey.first,
           survey.second);
    expect("its class", survey.packet.oui == VRT49_SURVEY_OUI && survey.packet.information_class == VRT49_DATA_UNSIGNED_8, 1);
    expect("its items' bits", vrt49_item_bits(survey.first) == 8 && vrt49_data_bits(VRT49_DATA_UNSIGNED_8) == 8, 1);
    expect("vrt49_unpack of 49A", vrt49_unpack(survey.first, survey.second, survey.items, survey_data + survey.packet.body_at, survey.packet.body_words,
                                               items, 3, events, 3, channels, 3), VRT49_OK);
    expect("the items of 49A", items[0] == 1 && items[1] == 2 && items[2] == 3, 1);
    parts = vrt49_survey_parts_of(&survey);
    expect("vrt49_write_survey", vrt49_write_survey(&parts, survey_data + survey.packet.body_at, survey.packet.body_words, out, ENTRIES(out), 0, &length),
           VRT49_OK);
    expect("the packet written", length == ENTRIES(out) && memcmp(out, survey_data, sizeof out) == 0, 1);
    memset(&made, 0, sizeof made);
    made.parts.type = VRT49_TYPE_DATA;
    made.parts.identifier = 9;
    vrt49_survey_class(&made, 0, VRT49_DATA_UNSIGNED_8, 3, 3);
    expect("the parts made", memcmp(&made, &parts, sizeof made) == 0, 1);
    made.parts.has_trailer = 0;
    expect("vrt49_write_survey without a trailer", vrt49_write_survey(&made, survey_data + 4, 1, out, ENTRIES(out), 0, &length), VRT49_PAD);
    made.pad = 32;
    expect("vrt49_write_survey with a pad count of 32", vrt49_write_survey(&made, survey_data + 4, 1, out, ENTRIES(out), 0, &length), VRT49_VALUE);
    expect("vrt49_read_survey of a packet without a class", vrt49_read_survey(data, ENTRIES(data), &survey), VRT49_PAD);
    expect("vrt49_read_survey of a context packet", vrt49_read_survey(context, ENTRIES(context), &survey), VRT49_OK);
    expect("a context packet read as 49A", survey.packet.type == VRT49_TYPE_CONTEXT && survey.pad + survey.first + survey.second + survey.items == 0, 1);
}

int main(void)
{
    static uint32_t table[VRT49_TABLE_WORDS(VRT49_STREAMS_MAX)];
    size_t layout;
    read_packets();
    write_packet();
    layout = play_packets(table, ENTRIES(table));
    save_table(table, layout);
    jump_packets();
    show_readings(table, layout);
    show_all(table, layout);
    ask_stream(table, layout);
    unpack_samples();
    find_samples(0xA00001C7);
    find_samples(0xA08001C7);
    read_survey();
    return 0;
}
