"""Spoils the header, the manual, or an export of the library, in one place at a time, to see that tools/check_header finds each."""
import glob
import os
import shutil
import subprocess
import sys
import tempfile

ROOT = os.path.dirname(os.path.dirname(os.path.dirname(os.path.abspath(__file__))))

# what stands in the header, what is put in its place, and a part of the line that must be printed
HEADERS = [
    ('uint32_t vrt49_field_count(uint32_t indicator);', '', 'vrt49_field_count of'),
    ('uint32_t vrt49_field_count(uint32_t indicator);', 'uint32_t vrt49_fields(uint32_t indicator);', 'vrt49_fields is exported by no'),
    ('uint32_t vrt49_well_made(', 'int32_t vrt49_well_made(', 'vrt49_well_made gives'),
    ('const uint32_t *ids, size_t ids_n', 'uint32_t *ids, size_t ids_n', 'vrt49_start, parameter 1'),
    ('uint32_t bit, vrt49_place *answer', 'vrt49_place *answer, uint32_t bit', 'vrt49_find, parameter 3'),
    ('int64_t *hertz, float levels[2]', 'int64_t *hertz, float levels[3]', 'vrt49_reading, parameter'),
    ('uint32_t *kind, uint32_t *parts', 'uint32_t *parts, uint32_t *kind', 'vrt49_reading gives'),
    ('int64_t hertz[21], float first[21]', 'int64_t hertz[20], float first[21]', 'vrt49_readings, parameter'),
    ('float first[21], float second[21]', 'float second[21], float first[21]', 'vrt49_readings gives'),
    ('    float first[21];    ', '    float first[20];    ', 'vrt49_panel has'),
    ('panel->first, panel->second);', 'panel->second, panel->first);', 'vrt49_show_all does not'),
    ('shown.parts = panel->parts[30 - bit]', 'shown.parts = panel->kinds[30 - bit]', 'vrt49_shown_of does not'),
    ('shown.kind = panel->kinds[30 - bit]', 'shown.kind = panel->kinds[bit - 10]', 'vrt49_shown_of does not'),
    ('uint32_t word, vrt49_trailer *answer', 'uint32_t word, vrt49_heard *answer', 'vrt49_trailer_parts takes'),
    ('size_t n, vrt49_packet *answer', 'size_t n, vrt49_parts *answer', 'vrt49_read, parameter'),
    ('size_t n, vrt49_survey *answer', 'size_t n, vrt49_packet *answer', 'vrt49_read_survey, parameter 3'),
    ('const vrt49_survey_parts *parts,', 'const vrt49_parts *parts,', 'vrt49_write_survey takes vrt49_parts'),
    ('const uint32_t *choices, size_t choices_n,\n                     ', '', 'vrt49_start has 5 parameters'),
    ('uint32_t *choice, uint32_t *held', 'uint32_t *held, uint32_t *choice', 'vrt49_identity, parameter 5'),
    ('uint32_t vrt49_item_at(', 'uint32_t vrt49_item_of(', 'vrt49_item_at of'),
    ('size_t n, size_t item,', 'size_t item, size_t n,', 'vrt49_coordinates_of, parameter 3'),
    ('const vrt49_coordinates *coordinates, size_t', 'vrt49_coordinates *coordinates, size_t', 'vrt49_item_at, parameter 4'),
    (' vrt49_coordinates *coordinates);', ' vrt49_trailer *coordinates);', 'vrt49_coordinates_of takes vrt49_trailer'),
    ('VRT49_CUT = 5,', 'VRT49_CUT = 6,', 'VRT49_CUT is 6'),
    ('    VRT49_LIST = 12, ', '    VRT49_LISTED = 12, ', 'VRT49_LIST is missing'),
    ('VRT49_OK = 0', 'VRT49_OK = 1', 'VRT49_OK is 1'),
    ('return "SHORT"', 'return "CUT"', 'the name of VRT49_SHORT'),
    ('    case VRT49_PAGE: return "PAGE";\n', '', 'the name of VRT49_PAGE'),
    ('VRT49_PAD = 20,', 'VRT49_PAD = 22,', 'VRT49_PAD is 22'),
    ('VRT49_PLACE = 21 ', 'VRT49_PLACE = 22 ', 'VRT49_PLACE is 22'),
    ('return "PLACE"', 'return "PAGE"', 'the name of VRT49_PLACE is PAGE'),
    ('((uint32_t)(refusal) & 0xFFu)', '((uint32_t)(refusal))', 'VRT49_NUMBER is ((uint32_t)(refusal)), in'),
    ('>> 8 & 0xFFu)', '>> 8 & 0x1Fu)', 'VRT49_BIT is ((uint32_t)(refusal) >> 8 & 0x1Fu), in'),
    ('>> 8 & 0xFFu)', '>> 16 & 0xFFu)', 'VRT49_BIT is ((uint32_t)(refusal) >> 16 & 0xFFu), in'),
    ('(uint32_t)(refusal) >> 16)', '(uint32_t)(refusal) >> 8)', 'VRT49_PLACE is ((uint32_t)(refusal) >> 8), in'),
    ('#define VRT49_PLACE(refusal)', '#define VRT49_WORD(refusal)', 'VRT49_PLACE is missing'),
    ('in bits 15-8, which', 'in bits 12-8, which', 'the bits of a refusal are others'),
    ('in bits 31-16: from', 'in the rest: from', 'the bits of a refusal are others'),
    ("       TIME                            the fraction's first word\n", '', 'the place of TIME is missing'),
    ("TIME                            the fraction's first word", "TIME                            the fraction's second word", 'the place of TIME is the fraction\'s second'),
    ('EMPTY, TYPE, BITS, SHORT, CUT   0', 'EMPTY, TYPE, BITS, SHORT        0', 'the place of CUT is missing'),
    ('of the highest field that', 'of the lowest field that', 'the place of FIELD is the first word of the lowest'),
    ("first word, or 0 where there is no class", 'first word', "the place of PAD is the class's first word, in"),
    ('1, the identifier, or 0 where', '1, the identifier, or 1 where', 'the place of STREAM is 1'),
    ('       TABLE                           none', '       TABLE                           0', 'the place of TABLE is 0'),
    ("       PAGE, ROOM                      none: they are of vrt49_grow's index; 19 or 13 alone is given\n", '', 'the place of PAGE is missing'),
    ('PAGE, ROOM                      none', 'PAGE, ROOM                      0, the header', 'the place of ROOM is 0'),
    ('switch (VRT49_NUMBER(number))', 'switch (number)', 'vrt49_name does not look'),
    ('entry->stream << 8 | entry->type << 16', 'entry->type << 8 | entry->stream << 16', 'vrt49_entry_refusal does not give'),
    ('entry->type << 16', 'entry->size << 16', 'vrt49_entry_refusal does not give'),
    ('vrt49_play gives it; VRT49_OK of\n   one that was accepted. Nothing is refused. */', 'vrt49_play gives it. */', 'vrt49_entry_refusal: its comment does not list'),
    ('return "sample rate"', 'return "rate"', 'the name of VRT49_BIT_SAMPLE_RATE is rate'),
    ('BIT_DEVICE: return "device"', 'BIT_DEVICE: return "state"', 'the name of VRT49_BIT_DEVICE is state'),
    ('    case VRT49_BIT_LISTS: return "lists";\n', '', 'the name of VRT49_BIT_LISTS is missing'),
    ('VRT49_SURVEY = 1 ', 'VRT49_SURVEY = 2 ', 'VRT49_SURVEY is 2'),
    ('VRT49_PLAIN = 0,', 'VRT49_SIMPLE = 0,', 'VRT49_PLAIN is missing'),
    ('VRT49_DATA_SIGNED_16 = 3', 'VRT49_DATA_SIGNED_16 = 4', 'VRT49_DATA_SIGNED_16 is 4'),
    ('    VRT49_DATA_UNSIGNED_1 = 8,\n', '', 'VRT49_DATA_UNSIGNED_1 is missing'),
    ('VRT49_SURVEY_OUI 0xFFFFFAu', 'VRT49_SURVEY_OUI 0xFFFFFBu', 'VRT49_SURVEY_OUI is 0xFFFFFBu'),
    ('0x65432065654320', '0x65432065654330', 'vrt49_data_bits has other bits'),
    ('VRT49_KIND_LEVEL = 2', 'VRT49_KIND_LEVEL = 3', 'VRT49_KIND_LEVEL is 3'),
    ('VRT49_BIT_GAIN = 23', 'VRT49_BIT_GAIN = 22', 'VRT49_BIT_GAIN is 22'),
    ('/* 2 words: for vrt49_unpack */', '/* 1 word: for vrt49_unpack */', 'VRT49_BIT_FORMAT has 1'),
    ('/* 2 words: for vrt49_unpack */', '/* for vrt49_unpack */', 'are not said for every field'),
    ('(1 + 89 * (s))', '(1 + 88 * (s))', 'VRT49_TABLE_WORDS(s) is'),
    ('(2 + 90 * (s))', '(2 + 89 * (s))', 'VRT49_PAGE_WORDS(s) is'),
    ('VRT49_ENTRY_WORDS 5', 'VRT49_ENTRY_WORDS 4', 'VRT49_ENTRY_WORDS is 4'),
    ('VRT49_STREAMS_MAX 32', 'VRT49_STREAMS_MAX 33', 'VRT49_STREAMS_MAX is 33'),
    ('VRT49_FIELD_WORDS 13', 'VRT49_FIELD_WORDS 11', 'VRT49_FIELD_WORDS is 11'),
    ('VRT49_PACKET_WORDS 65535', 'VRT49_PACKET_WORDS 65536', 'VRT49_PACKET_WORDS is 65536'),
    ('VRT49_ITEMS_MAX 2097120', 'VRT49_ITEMS_MAX 2097152', 'VRT49_ITEMS_MAX is 2097152'),
    ('#define VRT49_ITEMS_MAX', '#define VRT49_OTHER_WORDS 5\n#define VRT49_ITEMS_MAX', 'VRT49_OTHER_WORDS is 5, in the source missing'),
    ('VRT49_INDEX_CONTENTS 4100', 'VRT49_INDEX_CONTENTS 4000', 'VRT49_INDEX_CONTENTS is 4000, in crates/index/src/contents.rt 4100'),
    ('VRT49_INDEX_CONTENTS 4100', 'VRT49_INDEX_CONTENTS 4000', 'VRT49_INDEX_CONTENTS is 4000, in crates/index/specs/Layout.antt 4100'),
    ('VRT49_INDEX_ENTRIES 1024', 'VRT49_INDEX_ENTRIES 1023', 'VRT49_INDEX_ENTRIES is 1023, in crates/index/src/contents.rt 1024'),
    ('VRT49_INDEX_ENTRIES 1024', 'VRT49_INDEX_ENTRIES 1023', 'VRT49_INDEX_ENTRIES is 1023, in crates/index/specs/Layout.antt 1024'),
    ('VRT49_INDEX_SPACING 1024', 'VRT49_INDEX_SPACING 1000', 'VRT49_INDEX_SPACING is 1000, in crates/index/src/contents.rt 1024'),
    ('VRT49_INDEX_SPACING 1024', 'VRT49_INDEX_SPACING 1000', 'VRT49_INDEX_SPACING is 1000, in crates/index/specs/Layout.antt 1024'),
    ('(VRT49_INDEX_CONTENTS + (entries) *', '(VRT49_INDEX_ENTRIES + (entries) *', 'VRT49_INDEX_WORDS(s, entries) is (VRT49_INDEX_ENTRIES'),
    ('(entries) * VRT49_PAGE_WORDS(s))', 'VRT49_PAGE_WORDS(s))', 'VRT49_INDEX_WORDS(s, entries) is (VRT49_INDEX_CONTENTS + VRT49'),
    ('#define VRT49_INDEX_SPACING 1024\n', '', 'VRT49_INDEX_SPACING is missing'),
    ('has taken in 1,048,575 packets', 'has taken in 1,048,576 packets', 'a full index has taken in 1,048,575 packets'),
    ('return index[0];', 'return index[1];', 'vrt49_index_entries is uint64_t (const uint32_t *index) return index[1];, in'),
    ('return index[1];', 'return index[0];', 'vrt49_index_packets is uint64_t (const uint32_t *index) return index[0];, in'),
    ('index[2] << 32 | index[3]', 'index[3] << 32 | index[2]', 'vrt49_index_reached is uint64_t (const uint32_t *index) return (uint64_t)index[3]'),
    ('(uint64_t)index[2] << 32 | index[3]', 'index[3]', 'vrt49_index_reached is uint64_t (const uint32_t *index) return index[3];, in'),
    ('uint64_t vrt49_index_reached', 'uint32_t vrt49_index_reached', 'vrt49_index_reached is uint32_t (const uint32_t *index) return'),
    ('index + 4 + 4 * (n /', 'index + 3 + 4 * (n /', 'vrt49_index_from is uint64_t (const uint32_t *index, uint64_t n) const uint32_t *entry = index + 3'),
    ('entry[0] << 32 | entry[1]', 'entry[0] << 32 | entry[2]', 'vrt49_index_from is'),
    ('VRT49_INDEX_SPACING + 1;', 'VRT49_INDEX_SPACING + 2;', 'vrt49_index_to is'),
    ('if (next < vrt49_index_entries', 'if (next <= vrt49_index_entries', 'vrt49_index_to is'),
    ('*last = index + 4 * (size_t)', '*last = index + 4 + 4 * (size_t)', 'vrt49_index_words is'),
    ('(size_t)last[2] + last[3]', '(size_t)last[1] + last[3]', 'vrt49_index_words is'),
    ('size_t vrt49_index_words', 'size_t vrt49_index_size', 'vrt49_index_words is missing'),
    ('    uint32_t number;  ', '    uint32_t refusal; ', 'vrt49_entry has refusal size type stream missing, in crates/vrt49/specs/Indexes.antt number'),
    ('taken in, with VRT49_STREAM in', 'taken in, with VRT49_TYPE in', 'a packet of no declared stream is taken in with STREAM'),
    ('    uint32_t body_words;\n', '', 'vrt49_packet has'),
    ('    uint32_t information_class;\n    uint32_t packet_class;\n', '    uint32_t packet_class;\n    uint32_t information_class;\n', 'vrt49_parts has'),
    ('    vrt49_packet packet;\n    uint32_t pad;    ', '    uint32_t pad;    ', 'vrt49_survey has'),
    ('    uint32_t first;  /* the format\'s first word */\n', '', 'vrt49_survey has'),
    ('    vrt49_parts parts;\n    uint32_t pad;\n', '    uint32_t pad;\n    vrt49_parts parts;\n', 'vrt49_survey_parts has'),
    ('    uint32_t enables;    ', '    uint32_t enable;     ', 'vrt49_trailer has'),
    ('    size_t at;      ', '    uint32_t at;    ', 'vrt49_find, parameter 4'),
    ('    uint32_t component; ', '    uint32_t part;      ', 'vrt49_coordinates has'),
    ('    uint32_t channel;   /* place in the sample vector, from 0 */\n', '', 'vrt49_coordinates has'),
    ('    uint32_t number;  ', '    uint32_t refusal; ', 'vrt49_entry has'),
    ('    uint32_t started; ', '    uint32_t present; ', 'vrt49_count has'),
    ('size_t stream, uint32_t type', 'size_t stream, uint32_t kind', 'vrt49_counts, parameter 4'),
    ('size_t before_stream,', 'uint32_t before_stream,', 'vrt49_changed, parameter 3'),
    ('size_t index_n, uint32_t answer[5]', 'size_t index_n, uint32_t answer[4]', 'vrt49_grow, parameter 7'),
    ('uint64_t first, const uint32_t *index', 'size_t first, const uint32_t *index', 'vrt49_jump, parameter 3'),
    ('VRT49_ASSERT(vrt49_entry_is_5_words', 'VRT49_ASSERT(vrt49_entry_is_words', 'no line VRT49_ASSERT(vrt49_entry_is_5'),
    ('sizeof(vrt49_coordinates) == 4 *', 'sizeof(vrt49_coordinates) == 3 *', 'no line VRT49_ASSERT(vrt49_coordinates_is_4'),
    ('parts.seconds = packet->seconds', 'parts.seconds = packet->fraction_low', 'vrt49_parts_of does not'),
    ('again.pad = survey->pad', 'again.pad = survey->first', 'vrt49_survey_parts_of does not'),
    ('sizeof(vrt49_survey) == 22 *', 'sizeof(vrt49_survey) == 21 *', 'no line VRT49_ASSERT(vrt49_survey_is_22'),
    ('enum vrt49_choice: LIST, ROOM.', 'enum vrt49_choice: ROOM, LIST.', 'vrt49_start: its comment lists ROOM, LIST, in'),
    ('channel tags: FORMAT, COUNT, ROOM.', 'channel tags: FORMAT, ROOM.', 'vrt49_unpack: its comment lists FORMAT, ROOM, in'),
    ('items: FORMAT, COUNT, VALUE (it is', 'items: FORMAT, VALUE, COUNT (it is', 'vrt49_coordinates_of: its comment lists FORMAT, VALUE, COUNT, in'),
    ('items: FORMAT, COUNT, VALUE (a time', 'items: FORMAT, VALUE (a time', 'vrt49_item_at: its comment lists FORMAT, VALUE, in'),
    ('page: TABLE, SIZE. */', 'page: TABLE, SIZE, ROOM. */', 'vrt49_page_length: its comment lists TABLE, SIZE, ROOM, in'),
    ('EMPTY to FIELD (1 to', 'EMPTY to LAYOUT (1 to', 'vrt49_read: its comment lists EMPTY, TYPE, BITS, SHORT, CUT, CLASS, TIME, INDICATOR, LAYOUT, in'),
    ('TABLE, EMPTY to FIELD (as in reading), PAD, STREAM', 'EMPTY to FIELD (as in reading), TABLE, PAD, STREAM', 'vrt49_play: its comment lists EMPTY, TYPE'),
    ('(as in reading), PAD, STREAM', '(as in reading), STREAM, PAD', 'vrt49_play: its comment lists TABLE, EMPTY'),
    ('CLASS not of type 1), PAD (of', 'CLASS not of type 1), PADDING (of', 'vrt49_read_survey: its comment lists EMPTY, TYPE'),
    ('FIELD, PAD (of\n   type 1 alone), ROOM.', 'FIELD, ROOM, PAD (of\n   type 1 alone).', 'vrt49_write_survey: its comment lists TYPE, VALUE'),
    ('above 1), SHORT, SIZE,', 'above 1), SIZE, SHORT,', 'vrt49_write: its comment lists TYPE, VALUE, SIZE, SHORT'),
    ('TABLE (of either), STREAM', 'TABLES (of either), STREAM', 'vrt49_changed: its comment lists TABLES, STREAM'),
    ('VALUE (another type)', 'VALUE, TYPE', 'vrt49_counts: its comment lists TABLE, STREAM, VALUE, TYPE'),
    ('packet in: TABLE, PAGE (of the contents), EMPTY', 'packet in: PAGE (of the contents), TABLE, EMPTY', 'vrt49_grow: its comment lists PAGE, TABLE, EMPTY'),
    ('   PLACE, PAGE (of the entry), ROOM.', '   PAGE (of the entry), PLACE, ROOM.', 'vrt49_jump: its comment lists PAGE, PAGE, PLACE, ROOM, in'),
    ('packet 0: TABLE, ROOM. Other', 'packet 0: ROOM, TABLE. Other', 'vrt49_start_index: its comment lists ROOM, TABLE, in'),
    ('with an entry: TABLE, PAGE (of the contents),', 'with an entry: TABLE,', 'vrt49_grow_entry: its comment lists TABLE, EMPTY, TYPE'),
    ('index, index_n, (uint32_t *)answer);', 'index_n, index, (uint32_t *)answer);', 'vrt49_grow_entry does not hand over'),
    ('1 or 0. Nothing is refused. */', '1 or 0: TABLE. */', 'vrt49_well_made: its comment lists TABLE, in'),
    ('of its parts: VALUE. */', 'of its parts. */', 'vrt49_trailer_word: its comment does not list'),
    ('body; nothing is refused. */', 'body. */', 'vrt49_find: its comment does not list'),
    ('INDICATOR, LAYOUT, FIELD. A refusal has no', 'INDICATOR, LAYOUT. FIELD. A refusal has no', 'vrt49_check_body: its comment does not list'),
    ('entries: TABLE. The', 'entries: TABLE, STREAM. The', 'vrt49_play_entries: its comment lists TABLE, STREAM, in'),
    ('vrt49_reading into a struct: TABLE, STREAM, VALUE.', 'vrt49_reading into a struct: TABLE, STREAM.', 'vrt49_show: its comment lists TABLE, STREAM, in'),
    ('vrt49_well_made refuse nothing', 'vrt49_find refuse nothing', 'the calls that answer their value are others'),
    ('&shown->kind, &shown->parts', '&shown->parts, &shown->kind', 'vrt49_show does not hand over'),
    ('* entries_n, packets, next);', '* entries_n, next, packets);', 'vrt49_play_entries does not hand over'),
    ('VRT49_TYPE_CONTEXT = 4', 'VRT49_TYPE_CONTEXT = 5', 'VRT49_TYPE_CONTEXT is 5'),
    ('VRT49_TYPE_DATA_NO_ID = 0', 'VRT49_TYPE_DATA_NO_ID = 1', 'VRT49_TYPE_DATA_NO_ID is 1'),
    ('VRT49_TYPE_EXTENSION_DATA = 3', 'VRT49_TYPE_EXTENSION = 3', 'VRT49_TYPE_EXTENSION_DATA is missing'),
    ('VRT49_TSI_UTC = 1,\n    VRT49_TSI_GPS = 2', 'VRT49_TSI_UTC = 2,\n    VRT49_TSI_GPS = 1', 'VRT49_TSI_UTC is 2, in'),
    ('    VRT49_TSI_OTHER = 3\n', '', 'enum vrt49_tsi has 0 1 2, in'),
    ('VRT49_TSF_PICOSECONDS = 2', 'VRT49_TSF_PICOSECONDS = 1', 'VRT49_TSF_PICOSECONDS is 1, in'),
    ('VRT49_TSF_NONE = 0', 'VRT49_TSF_NONE = 4', 'VRT49_TSF_NONE is 4, in'),
    ('VRT49_TRAILER_AGC = 0x100', 'VRT49_TRAILER_AGC = 0x200', 'VRT49_TRAILER_AGC is 0x200'),
    ('VRT49_TRAILER_USER = 0x00F', 'VRT49_TRAILER_USER = 0x00E', 'VRT49_TRAILER_USER is 0x00E'),
    ('    VRT49_TRAILER_OVER_RANGE = 0x020,\n', '', 'VRT49_TRAILER_OVER_RANGE is missing'),
    ('VRT49_STATE_AGC = 28', 'VRT49_STATE_AGC = 27', 'VRT49_STATE_AGC is 27'),
    ('    VRT49_STATE_CALIBRATED_TIME = 31,\n', '', 'VRT49_STATE_CALIBRATED_TIME is missing'),
    ('    VRT49_STATE_SPECTRAL_INVERSION = 26\n', '    VRT49_STATE_SPECTRAL_INVERSION = 26,\n    VRT49_STATE_OVER_RANGE = 25\n', 'VRT49_STATE_OVER_RANGE is 25'),
    ('VRT49_STATE_BELOW 12', 'VRT49_STATE_BELOW 11', 'VRT49_STATE_BELOW is 11'),
    ('VRT49_STATE_USER 0xFFu', 'VRT49_STATE_USER 0xFu', 'VRT49_STATE_USER is 0xFu'),
    ('/* A trailer word, taken apart. */', '/* A trailer word, taken apart' + 80 * '.' + ' */', ' columns'),
]

# the same of the manual
MANUALS = [
    ('| `start` | LIST, ROOM |', '| `start` | ROOM, LIST |', 'vrt49_start has ROOM, LIST, in'),
    ('| FORMAT, COUNT, VALUE, ROOM |', '| FORMAT, COUNT, ROOM |', 'vrt49_pack has FORMAT, COUNT, ROOM, in'),
    ('| `coordinates_of`, `item_at` | FORMAT, COUNT, VALUE |', '| `coordinates_of`, `item_at` | COUNT, FORMAT, VALUE |', 'vrt49_item_at has COUNT, FORMAT, VALUE, in'),
    ('| `page_length` | TABLE, SIZE |', '| `page_length` | TABLE, SIZE, ROOM |', 'vrt49_page_length has TABLE, SIZE, ROOM, in'),
    ('BITS, SHORT, CUT, CLASS', 'SHORT, BITS, CUT, CLASS', 'vrt49_read has EMPTY, TYPE, SHORT'),
    ('FIELD, PAD: CLASS', 'PAD, FIELD: CLASS', 'vrt49_read_survey has EMPTY, TYPE'),
    ('FIELD, PAD, ROOM |', 'FIELD, ROOM, PAD |', 'vrt49_write_survey has TYPE, VALUE'),
    ('TABLE, those of `read_survey`, STREAM', 'those of `read_survey`, TABLE, STREAM', 'vrt49_play has EMPTY'),
    ('those of `read_survey`', 'those of `pack`', 'vrt49_play has TABLE, FORMAT'),
    ('| `signed` | FORMAT, VALUE |\n', '', 'vrt49_signed has no row'),
    ('| `readings`, `identity` |', '| `readings`, `identify` |', 'vrt49_identify has TABLE, STREAM, in'),
    ('`well_made` | none |', '`well_made` | TABLE |', 'vrt49_well_made has TABLE, in'),
    ('`play_run`, `reading` and `readings`.', '`play`, `reading` and `readings`.', 'or the calls that they make, are others'),
    ('| 1 | UTC, since', '| 1 | local time, since', 'VRT49_TSI_UTC is 1, in'),
    ('| sample count: ', '| count of samples: ', 'VRT49_TSF_SAMPLE_COUNT is 1, in'),
    ('| 31 | 19 | calibrated', '| 31 | 18 | calibrated', 'the row of `VRT49_TRAILER_CALIBRATED_TIME` does not agree'),
    ('| 0x040 | `VRT49_TRAILER_SP', '| 0x080 | `VRT49_TRAILER_SP', 'the row of `VRT49_TRAILER_SPECTRAL_INVERSION` does not agree'),
    ('| 18 | valid data |', '| 18 | data |', 'the row of `VRT49_TRAILER_VALID_DATA` does not agree'),
    ('`VRT49_TRAILER_SAMPLE_LOSS`', '`VRT49_TRAILER_LOSS`', 'VRT49_TRAILER_LOSS is missing'),
    ('`VRT49_STATE_DETECTED_SIGNAL` |', '`VRT49_STATE_SIGNAL` |', 'VRT49_STATE_SIGNAL is missing'),
    ('| `VRT49_STATE_CALIBRATED_TIME` |', '| `VRT49_STATE_VALID_DATA` |', 'the row of `VRT49_STATE_VALID_DATA` does not agree'),
    ('OVER_RANGE` | never: it is of one data packet |', 'OVER_RANGE` | `VRT49_STATE_OVER_RANGE` |', 'VRT49_STATE_OVER_RANGE is missing'),
    ('user-defined bits (7-0), which', 'user-defined bits (3-0), which', 'VRT49_STATE_USER is 0xFFu, in'),
]

# the same of the exports, and of the functions that they are: a file of crates/ before it
EXPORTS = [
    ('vrt49_c/src/packets.rt', 'vrt49::vrt49_read(words, answer)', 'vrt49::vrt49_read_survey(words, answer)', 'vrt49_read does something else'),
    ('vrt49_c/src/packets.rt', '    vrt49::vrt49_field_count(indicator)', '    vrt49::vrt49_field_count(indicator);\n    0', 'vrt49_field_count does something else'),
    ('vrt49_c/src/payloads.rt', 'vrt49::vrt49_words_needed(first, second,', 'vrt49::vrt49_words_needed(second, first,', 'vrt49_words_needed does something else'),
    ('vrt49_c/src/pages.rt', '{ Tells plain (length_of table.now) length.old result length.new }', '{ Tells plain (length_of table.now) length.old result length.old }',
     'vrt49_page_length has other parameters, another result or other clauses'),
    ('vrt49_c/src/tables.rt', '    ensures { result ≡ when (well_made table.now) 1 }\n', '', 'vrt49_well_made has other parameters, another result or other clauses'),
    ('vrt49_c/src/tables.rt', 'table: &[u32]) -> u32\n', 'table: &[u32]) -> u32\n    requires { 0 < length table.now }\n', 'vrt49_well_made has other parameters'),
    ('vrt49_c/src/tables.rt', 'Rattle.table.specs.Well.{well_made}', 'Rattle.page.specs.Well.{well_made}', 'the clauses name what those of'),
    ('vrt49/src/streams.rt', '    fields: &mut u32,', '    bits: &mut u32,', 'vrt49_changed has other parameters'),
    ('vrt49_c/src/readings.rt', '#[unsafe(no_mangle)]\npub extern "C" fn vrt49_reading(', 'pub fn vrt49_reading(', 'vrt49_reading of crates/vrt49/src/readings.rt is not exported'),
    ('vrt49_c/src/readings.rt', 'pub extern "C" fn vrt49_reading(', 'pub fn vrt49_reading(', 'has an export that cannot be read'),
]


def said(*paths, root=ROOT):
    done = subprocess.run([os.path.join(root, 'tools/check_header'), *paths], capture_output=True, text=True)
    return done.returncode, done.stdout + done.stderr


def not_found(path, rows, before=()):
    """How many of the rows are not found, each put into a copy of a file, which is handed over behind those before."""
    with open(os.path.join(ROOT, path), encoding='utf-8') as file:
        whole = file.read()
    wrong = 0
    for old, new, part in rows:
        with tempfile.NamedTemporaryFile('w', encoding='utf-8') as bent:
            bent.write(whole.replace(old, new, 1))
            bent.flush()
            status, lines = said(*before, bent.name)
        if old not in whole or status != 1 or part not in lines:
            wrong += 1
            print(f'not found: {old!r} as {new!r}; tools/check_header says, with status {status}:\n{lines}')
    return wrong


def exports_not_found():
    """How many of the spoilt exports are not found, each in a copy of what tools/check_header reads."""
    wrong = 0
    with tempfile.TemporaryDirectory() as copy:
        for pattern in ('tools/check_header', 'include/*.h', 'docs/*.md', 'crates/*/src', 'crates/*/specs'):
            for path in glob.glob(os.path.join(ROOT, pattern)):
                to = os.path.join(copy, os.path.relpath(path, ROOT))
                os.makedirs(os.path.dirname(to), exist_ok=True)
                (shutil.copytree if os.path.isdir(path) else shutil.copy)(path, to)
        if said(root=copy)[0] != 0:
            sys.exit('test_header.py: the copy is not taken as it is')
        for path, old, new, part in EXPORTS:
            place = f'{copy}/crates/{path}'
            with open(place, encoding='utf-8') as file:
                whole = file.read()
            with open(place, 'w', encoding='utf-8') as file:
                file.write(whole.replace(old, new, 1))
            status, lines = said(root=copy)
            if old not in whole or status != 1 or part not in lines:
                wrong += 1
                print(f'not found: {old!r} as {new!r} in {path}; tools/check_header says, with status {status}:\n{lines}')
            with open(place, 'w', encoding='utf-8') as file:
                file.write(whole)
    return wrong


wrong = not_found('include/vrt49.h', HEADERS)
print(f'{len(HEADERS)} spoilt headers, {len(HEADERS) - wrong} found')
missed = not_found('docs/MANUAL.md', MANUALS, ['include/vrt49.h'])
print(f'{len(MANUALS)} spoilt manuals, {len(MANUALS) - missed} found')
lost = exports_not_found()
print(f'{len(EXPORTS)} spoilt exports, {len(EXPORTS) - lost} found')
sys.exit(1 if wrong or missed or lost else 0)
