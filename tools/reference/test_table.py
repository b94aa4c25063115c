"""Document 01's "Samples from the bench" that concern the table, and its
sentences on starting, playing and what is well made, held against the reference; and
the sentences of C-11 of document 02 on the state word and field 22, of C-13 on the
choice of each stream, and of C-15 on places.  The expectations are document 01's own, or
worked out on paper from those of C-11, C-13 and C-15."""

import copy
import unittest

import table
import vrt49

PATTERN = 0xA5A5A5A5
ONES = 0xFFFFFFFF


def started(*ids, choices=None):
    choices = [0] * len(ids) if choices is None else choices
    answer, found = table.start(list(ids), choices, table.layout_length(len(ids)))
    assert answer == "started", (answer, found)
    return found


def data(count, identifier=7, kind=1):
    """A packet of a type other than 4, with no body."""
    return [kind * 2**28 + count * 2**16 + 2, identifier]


def context(count, indicator, words=(), identifier=7):
    return [0x40000003 + count * 2**16 + len(words), identifier, indicator, *words]


def added(found, *counts):
    """What each packet of type 1 with these counts adds to missing."""
    return [table.play(found, data(count))[4] for count in counts]


class List(unittest.TestCase):
    # "32 identifiers pass; 33 is LIST."

    def test_32_and_33(self):
        answer, found = table.start(list(range(32)), [0] * 32, 2900)
        self.assertEqual((answer, len(found)), ("started", 32))
        answer = table.start(list(range(33)), [0] * 33, 2900)
        self.assertEqual(answer, ("refused", table.LIST))

    def test_none_and_one_twice(self):
        # "0 or over 32 identifiers, or one twice"
        for ids in ([], [7, 7], [1, 2, 3, 1], [0, 5, 0]):
            answer = table.start(ids, [0] * len(ids), 2900)
            self.assertEqual(answer, ("refused", table.LIST))

    def test_list_before_room(self):
        # "Start: LIST, ROOM."
        for ids in ([], [7, 7], list(range(33))):
            self.assertEqual(table.start(ids, [0] * len(ids), 0), ("refused", table.LIST))
        self.assertEqual(table.start([7], [2], 0), ("refused", table.LIST))
        self.assertEqual(table.start([7], [1], 0), ("refused", table.ROOM))

    def test_choices(self):
        # C-13: "plain 49.0 (word 0) or 49A (1) for each stream in the list ...  Another
        # word, or choices unlike the identifiers in number, is LIST."
        for ids, choices in (
            ([7], []), ([7], [0, 0]), ([7], [1, 1]), ([7, 8], [1]), ([7, 8], [0, 1, 0]),
            ([7], [2]), ([7], [ONES]), ([7, 8], [0, 2]), ([7, 8], [2, 1]), ([], [0]),
            ([7, 7], [0, 1]), (list(range(32)), [0] * 31), (list(range(32)), [0] * 33),
            (list(range(33)), [0] * 32), (list(range(32)), [1] * 31 + [256]),
        ):
            self.assertEqual(table.start(ids, choices, 2900), ("refused", table.LIST))
        for choices in ([0, 0], [0, 1], [1, 0], [1, 1]):
            answer, found = table.start([7, 8], choices, 179)
            self.assertEqual(answer, "started")
            self.assertEqual([stream["choice"] for stream in found], choices)


class Room(unittest.TestCase):
    # "at most 2,900 words"

    def test_lengths(self):
        self.assertEqual(table.RECORD_WORDS, 89)
        self.assertEqual(table.layout_length(1), 90)
        self.assertEqual(table.layout_length(32), 2849)
        self.assertLessEqual(table.layout_length(32), 2900)

    def test_edges(self):
        for n in range(1, 33):
            ids = list(range(100, 100 + n))
            need = 1 + 89 * n
            choices = [1] * n
            self.assertEqual(table.start(ids, choices, need - 1), ("refused", table.ROOM))
            self.assertEqual(table.start(ids, choices, need)[0], "started")
            self.assertEqual(table.start(ids, choices, need + 1)[0], "started")

    def test_lent_words(self):
        # "it starts as zeroed words apart from the list"; "words past it are
        # neither read nor changed"
        answer, after = table.start_lent([5, 9], [0, 1], [PATTERN] * 182)
        self.assertEqual(answer, ("started", 179))
        self.assertEqual(after[0], 2)
        self.assertEqual((after[1], after[90]), (5, 9))
        self.assertEqual((after[15], after[104]), (0, 1))
        self.assertEqual(sum(after[:179]), 2 + 5 + 9 + 1)
        self.assertEqual(after[179:], [PATTERN] * 3)
        answer, after = table.start_lent([5, 9], [0, 1], [PATTERN] * 178)
        self.assertEqual(answer, ("refused", table.ROOM))
        self.assertEqual(after, [PATTERN] * 178)


class Missing(unittest.TestCase):
    # "last 14, then 2: missing 3.  Last 2, then 2: 15."

    def test_14_then_2(self):
        self.assertEqual(added(started(7), 14, 2), [0, 3])

    def test_2_then_2(self):
        self.assertEqual(added(started(7), 2, 2), [0, 15])

    def test_first_packet(self):
        # "The first packet adds nothing to missing"
        for count in range(16):
            self.assertEqual(added(started(7), count), [0])

    def test_next_count(self):
        self.assertEqual(added(started(7), *range(16), *range(16)), [0] * 32)

    def test_every_gap(self):
        for last in range(16):
            for gap in range(16):
                self.assertEqual(added(started(7), last, (last + 1 + gap) % 16), [0, gap])

    def test_program_sample(self):
        # "at 2 type 1 stream 0 missing 0", "at 7 type 1 stream 0 missing 2"
        found = started(7)
        self.assertEqual(
            table.play(found, [0x140F0005, 7, 0xABCDEF12, 0x30000000, 0]), ("played", 5, 1, 0, 0)
        )
        self.assertEqual(table.play(found, [0x14020005, 7, 0, 0, 0]), ("played", 5, 1, 0, 2))
        self.assertEqual(table.layout(found)[:6], [1, 7, 0, 2, 2, 3])

    def test_modulo_2_32(self):
        # "Each has seen and missing, both kept modulo 2^32"
        found = started(7)
        found[0]["counts"][1] = {"seen": ONES, "missing": ONES - 4, "last": 2}
        self.assertEqual(added(found, 2), [15])
        self.assertEqual(found[0]["counts"][1], {"seen": 0, "missing": 10, "last": 2})
        # A started count may have seen 0.
        self.assertEqual(added(found, 4), [1])
        self.assertEqual(found[0]["counts"][1], {"seen": 1, "missing": 11, "last": 4})


class CountedApart(unittest.TestCase):
    # "Types 1, 3, 4 and 5 are counted apart within a stream."

    def test_types(self):
        found = started(7)
        for round_ in range(3):
            for kind in (1, 3, 4, 5):
                count = (4 * kind + 2 * round_) % 16
                packet = context(count, 0) if kind == 4 else data(count, kind=kind)
                answer = table.play(found, packet)
                self.assertEqual(answer[2:], (kind, 0, 0 if round_ == 0 else 1))
        for kind in (1, 3, 4, 5):
            count = found[0]["counts"][kind]
            self.assertEqual((count["seen"], count["missing"]), (3, 2))

    def test_streams(self):
        found = started(7, 8)
        self.assertEqual(table.play(found, data(3)), ("played", 2, 1, 0, 0))
        self.assertEqual(table.play(found, data(9, 8)), ("played", 2, 1, 1, 0))
        self.assertEqual(table.play(found, data(4)), ("played", 2, 1, 0, 0))
        self.assertEqual(table.play(found, data(9, 8)), ("played", 2, 1, 1, 15))


class Held(unittest.TestCase):
    # "An accepted Context packet replaces each field from bits 30 to 10 that it
    # carries, whole."

    def test_replaced_whole(self):
        found = started(7)
        table.play(found, context(0, 1 << 14, range(1, 12)))
        table.play(found, context(1, 1 << 14, [5] + [0] * 10))
        self.assertEqual(found[0]["held"], {14: [5] + [0] * 10})

    def test_kept(self):
        # "Easy misreadings": "Zeroing a held field that a later packet does not
        # carry."
        found = started(7)
        table.play(found, context(0, 1 << 30 | 1 << 10, [3, 4]))
        table.play(found, context(1, 1 << 23, [9]))
        table.play(found, context(2, 1 << 31))
        table.play(found, data(3, kind=5))
        self.assertEqual(found[0]["held"], {30: [3], 10: [4], 23: [9]})

    def test_not_held(self):
        # "Bits 31, 9 and 8 are not held."
        found = started(7)
        packet = context(0, 1 << 31 | 1 << 10 | 1 << 9 | 1 << 8, [6, 0, 1, 2, 1, 0, 3])
        self.assertEqual(table.play(found, packet), ("played", 10, 4, 0, 0))
        self.assertEqual(found[0]["held"], {10: [6]})
        self.assertEqual(table.layout(found)[2], 1 << 10)

    def test_places(self):
        # "Bits 30 to 10 are 21 fields of 74 words together", and field 30 first.
        found = started(7)
        table.play(found, context(0, 1 << 30 | 1 << 10, [3, 4]))
        words = table.layout(found)
        self.assertEqual((len(words), words[16], words[89]), (90, 3, 4))
        self.assertEqual(sum(words[15:]), 7)


# The six persistent indicators, enable and value, and the two of one data packet.
CALIBRATED, VALID, LOCK = 1 << 31 | 1 << 19, 1 << 30 | 1 << 18, 1 << 29 | 1 << 17
AGC, DETECTED, INVERTED = 1 << 28 | 1 << 16, 1 << 27 | 1 << 15, 1 << 26 | 1 << 14
SIX = (CALIBRATED, VALID, LOCK, AGC, DETECTED, INVERTED)
ALL_ON, ALL_OFF = 0xFC0FC000, 0xFC000000
OVER_RANGE, SAMPLE_LOSS = 0x02002000, 0x01001000


class State(unittest.TestCase):
    # C-11: "In field 16 an enabled persistent indicator replaces its held enable and
    # value, one not enabled stays, over-range and sample loss (25/13, 24/12) are never
    # held, and user bits 7-0 are replaced together."

    def held(self, *words):
        """The held state word after packets that carry these, one after another."""
        found = started(7)
        for place, word in enumerate(words):
            answer = table.play(found, context(place % 16, 1 << 16, [word]))
            self.assertEqual(answer, ("played", 4, 4, 0, 0))
            self.assertEqual(list(found[0]["held"]), [16])
        words = table.layout(found)
        # Bit 16 is held, its word is word 37 of the record, and no other is.
        self.assertEqual((words[2], words[38]), (1 << 16, sum(words[15:])))
        self.assertTrue(table.well_made(words))
        return words[38]

    def test_pairs(self):
        self.assertEqual(sum(SIX), ALL_ON)
        for pair in SIX:
            enable, value = pair & ALL_OFF, pair & 0x000FC000
            # First: on, off, and not enabled.
            self.assertEqual(self.held(pair), pair)
            self.assertEqual(self.held(enable), enable)
            self.assertEqual(self.held(value), 0)
            # Where all are on, and where all are off.
            self.assertEqual(self.held(ALL_ON, pair), ALL_ON)
            self.assertEqual(self.held(ALL_ON, enable), ALL_ON - value)
            self.assertEqual(self.held(ALL_ON, value), ALL_ON)
            self.assertEqual(self.held(ALL_OFF, pair), ALL_OFF + value)
            self.assertEqual(self.held(ALL_OFF, enable), ALL_OFF)
            self.assertEqual(self.held(ALL_OFF, value), ALL_OFF)
            # The others enabled, and the value of this one set without its enable.
            self.assertEqual(self.held(pair, ALL_OFF - enable), ALL_OFF + value)
            self.assertEqual(self.held(enable, ALL_ON - enable), ALL_ON - value)

    def test_one_after_another(self):
        self.assertEqual(self.held(VALID, LOCK & ALL_OFF), 0x60040000)
        self.assertEqual(self.held(VALID, LOCK & ALL_OFF, VALID & ALL_OFF), 0x60000000)
        self.assertEqual(self.held(*SIX), ALL_ON)
        self.assertEqual(self.held(*SIX, *[pair & ALL_OFF for pair in SIX]), ALL_OFF)

    def test_every_choice_of_enables(self):
        # Those enabled are turned, from on to off and from off to on; the others stay.
        for chosen in range(64):
            on = [pair for place, pair in enumerate(SIX) if chosen >> place & 1]
            off = [pair & ALL_OFF for pair in on]
            values = sum(on) - sum(off)
            self.assertEqual(self.held(ALL_ON, sum(off)), ALL_ON - values)
            self.assertEqual(self.held(ALL_OFF, sum(on)), ALL_OFF + values)
            self.assertEqual(self.held(sum(on)), sum(on))

    def test_one_data_packet(self):
        # Never held, whatever is enabled; the rest of the word counts.
        for word in (OVER_RANGE, SAMPLE_LOSS, 1 << 25, 1 << 24, 1 << 13, 1 << 12, 0x03003000):
            self.assertEqual(self.held(word), 0)
            self.assertEqual(self.held(ALL_ON, word), ALL_ON)
            self.assertEqual(self.held(word | VALID | 0x5A), VALID | 0x5A)
            self.assertEqual(self.held(ALL_OFF | 0x11, word | 0x22), ALL_OFF | 0x22)

    def test_user_bits(self):
        # "user bits 7-0 are replaced together", by every state word
        self.assertEqual(self.held(0xFF), 0xFF)
        self.assertEqual(self.held(0xFF, 0), 0)
        self.assertEqual(self.held(0x5A, 0xA5), 0xA5)
        self.assertEqual(self.held(0x5A, LOCK), LOCK)
        self.assertEqual(self.held(LOCK | 0x5A, 0x81), LOCK | 0x81)

    def test_nothing_that_persists(self):
        # The field is held, and its word is that of the user bits.
        self.assertEqual(self.held(0), 0)
        self.assertEqual(self.held(0x000FF000), 0)
        self.assertEqual(self.held(ALL_ON, 0), ALL_ON)
        self.assertEqual(self.held(0xFF0FF0FF), ALL_ON | 0xFF)

    def test_packets_without_it(self):
        found = started(7, 8)
        table.play(found, context(0, 1 << 16, [LOCK | 0x33]))
        table.play(found, context(1, 1 << 30, [5]))
        table.play(found, context(2, 0))
        table.play(found, data(3))
        table.play(found, context(0, 1 << 16, [VALID], identifier=8))
        # Refused: a reserved bit is set.
        answer = table.play(found, context(3, 1 << 16, [VALID | 1 << 20]))
        self.assertEqual(answer, ("refused", vrt49.FIELD, 3, 16))
        self.assertEqual(found[0]["held"], {16: [LOCK | 0x33], 30: [5]})
        self.assertEqual(found[1]["held"], {16: [VALID]})


class OverRangeCount(unittest.TestCase):
    # C-11: "field 22, which is now checked and never held"

    def test_alone(self):
        found = started(7)
        self.assertEqual(table.play(found, context(0, 1 << 22, [ONES])), ("played", 4, 4, 0, 0))
        self.assertEqual(found[0]["held"], {})
        self.assertEqual(table.layout(found), [1, 7] + [0] * 7 + [1, 0, 1] + [0] * 78)

    def test_checked(self):
        # Its word is one of the packet.
        found = started(7)
        for words in ([], [1, 2]):
            answer = table.play(found, context(0, 1 << 22, words))
            self.assertEqual(answer, ("refused", vrt49.LAYOUT, 2, None))
        answer = table.play(found, context(0, 1 << 22 | 1 << 18, [5, 0x10000]))
        self.assertEqual(answer, ("refused", vrt49.FIELD, 4, 18))

    def test_fields_behind(self):
        # Their words are those after its own.
        found = started(7)
        indicator = 1 << 23 | 1 << 22 | 1 << 21 | 1 << 18 | 1 << 16 | 1 << 10
        words = [9, ONES, 0, 3, 0x1F, VALID, 6]
        self.assertEqual(table.play(found, context(0, indicator, words))[0], "played")
        held = {23: [9], 21: [0, 3], 18: [0x1F], 16: [VALID], 10: [6]}
        self.assertEqual(found[0]["held"], held)
        self.assertEqual(table.layout(found)[2], indicator - (1 << 22))
        self.assertEqual(table.layout(found)[28:32], [9, 0, 0, 3])

    def test_what_is_held_stays(self):
        found = started(7)
        table.play(found, context(0, 1 << 23, [9]))
        table.play(found, context(1, 1 << 22, [8]))
        self.assertEqual(found[0]["held"], {23: [9]})


class Refusals(unittest.TestCase):
    # "A refusal ... writes nothing."  C-15: "Play passes it on", the place.

    def refused(self, words, number, place, bit=None):
        found = started(7, 0)
        table.play(found, data(3))
        before = copy.deepcopy(found)
        self.assertEqual(table.play(found, words), ("refused", number, place, bit))
        self.assertEqual(found, before)

    def test_stream(self):
        # "no identifier (types 0, 2), one not declared"; C-15: "the identifier, or the
        # header if none, for STREAM"
        self.refused(data(4, kind=0), table.STREAM, 0)
        self.refused(data(4, kind=2), table.STREAM, 0)
        self.refused(data(4, 8), table.STREAM, 1)
        for kind in (3, 5):
            self.refused(data(4, 8, kind), table.STREAM, 1)
        self.refused(context(4, 1 << 30, [5], 8), table.STREAM, 1)
        # With a class and a time behind the header, or behind the identifier.
        self.refused([0x08500006, 7, 7, 7, 7, 7], table.STREAM, 0)
        self.refused([0x2C500007, 7, 7, 7, 7, 7, 7], table.STREAM, 0)
        self.refused([0x1C500008, 8, 7, 7, 7, 7, 7, 7], table.STREAM, 1)

    def test_read_order_before_stream(self):
        self.refused([], vrt49.EMPTY, 0)
        self.refused(context(4, 1 << 24, [ONES], 8), vrt49.FIELD, 3, 24)
        self.refused(context(4, 1 << 30 | 1 << 24, [5, ONES]), vrt49.FIELD, 4, 24)

    def test_places(self):
        self.refused([0x70000002, 7], vrt49.TYPE, 0)
        self.refused([0x11000002, 7], vrt49.BITS, 0)
        self.refused([0x10000001, 7], vrt49.SHORT, 0)
        self.refused([0x10000003, 7], vrt49.CUT, 0)
        self.refused([0x18000004, 7, 1 << 24, 0], vrt49.CLASS, 2)
        self.refused([0x08000003, 1 << 24, 0], vrt49.CLASS, 1)
        self.refused([0x10600005, 7, 0, 0xE8, 0xD4A51000], vrt49.TIME, 3)
        self.refused([0x40400004, 7, 0, 1], vrt49.INDICATOR, 3)
        self.refused([0x48000005, 7, 0, 0, 1 << 30], vrt49.LAYOUT, 4)
        self.refused([0x48000007, 7, 0, 0, 1 << 17, 0, 1 << 16], vrt49.FIELD, 5, 17)

    def test_table_first(self):
        # C-15: "TABLE none"
        lent = table.layout(started(7)) + [PATTERN]
        lent[5] = 17
        for words in ([], data(4), data(4, 8), context(0, 1 << 24, [ONES])):
            refused = ("refused", table.TABLE, None, None)
            self.assertEqual(table.play_lent(lent, words), (refused, lent))

    def test_lent(self):
        lent = table.layout(started(7)) + [PATTERN]
        for words, refused in (
            (data(4, 8), ("refused", table.STREAM, 1, None)),
            (data(4, kind=0), ("refused", table.STREAM, 0, None)),
            (context(0, 1 << 30 | 1 << 24, [5, ONES]), ("refused", vrt49.FIELD, 4, 24)),
        ):
            self.assertEqual(table.play_lent(lent, words), (refused, lent))

    def test_start(self):
        # Starting has no places.
        self.assertEqual(table.start([], [], 90), ("refused", table.LIST))
        self.assertEqual(table.start_lent([7], [0], []), (("refused", table.ROOM), []))


class Choice(unittest.TestCase):
    # C-13: "The choice governs type 1 only; other types, packets of no declared stream and
    # `vrtplay` stay plain."

    def packet(self, identifier, pad=0, kind=1, count=0):
        """A survey packet of one word, its items of one bit."""
        header = kind * 2**28 + 0x0C000006 + count * 2**16
        return [header, identifier, pad * 2**27 + 0xFFFFFA, 0x00080000, 5, 0]

    def test_by_stream(self):
        for choices in ([0, 1], [1, 0]):
            found = started(7, 8, choices=choices)
            for place, identifier in enumerate((7, 8)):
                padded = table.play(found, self.packet(identifier, 3))
                bare = table.play(found, self.packet(identifier, count=1))
                plain = table.play(found, data(2, identifier))
                if choices[place]:
                    self.assertEqual(padded, ("played", 6, 1, place, 0))
                    self.assertEqual(bare, ("played", 6, 1, place, 0))
                    self.assertEqual(plain, ("refused", vrt49.PAD, 0, None))
                else:
                    self.assertEqual(padded, ("refused", vrt49.CLASS, 2, None))
                    self.assertEqual(bare, ("played", 6, 1, place, 0))
                    self.assertEqual(plain, ("played", 2, 1, place, 0))

    def test_not_declared(self):
        for choice in (0, 1):
            found = started(7, choices=[choice])
            stream = ("refused", table.STREAM, 1, None)
            padded = ("refused", vrt49.CLASS, 2, None)
            self.assertEqual(table.play(found, self.packet(9)), stream)
            self.assertEqual(table.play(found, self.packet(9, 3)), padded)
            self.assertEqual(table.play(found, data(0, 9)), stream)
            self.assertEqual(found, started(7, choices=[choice]))

    def test_other_types(self):
        for choice in (0, 1):
            found = started(7, choices=[choice])
            self.assertEqual(table.play(found, self.packet(7, 0, 3)), ("played", 6, 3, 0, 0))
            padded = ("refused", vrt49.CLASS, 2, None)
            self.assertEqual(table.play(found, self.packet(7, 3, 3)), padded)
            self.assertEqual(table.play(found, data(1, kind=3)), ("played", 2, 3, 0, 0))
            self.assertEqual(table.play(found, data(1, kind=5)), ("played", 2, 5, 0, 0))
            self.assertEqual(table.play(found, context(0, 1 << 30, [5])), ("played", 4, 4, 0, 0))

    def test_kept(self):
        found = started(7, 8, choices=[1, 0])
        for words in (self.packet(7, 3), data(4, 8), context(0, 0)):
            self.assertEqual(table.play(found, words)[0], "played")
        self.assertEqual([stream["choice"] for stream in found], [1, 0])
        words = table.layout(found)
        self.assertEqual((words[15], words[104]), (1, 0))

    def test_few_words(self):
        # No word 1, or none at all.
        found = started(7, choices=[1])
        self.assertEqual(table.play(found, []), ("refused", vrt49.EMPTY, 0, None))
        self.assertEqual(table.play(found, [0x1C000005]), ("refused", vrt49.CUT, 0, None))
        self.assertEqual(table.play(found, [0x10000001]), ("refused", vrt49.SHORT, 0, None))

    def test_pad(self):
        # C-15: "the class's first word, or the header if none, for PAD"
        found = started(7, choices=[1])
        pad = self.packet(7)
        pad[3] = 0
        for words, place in ((pad, 2), ([0x18000004, *pad[1:4]], 2), ([0x14000003, 7, 0], 0)):
            self.assertEqual(table.play(found, words), ("refused", vrt49.PAD, place, None))


class WellMade(unittest.TestCase):
    # "Well made: the whole layout is there; a valid list; unheld fields and
    # words of no stated meaning zero; held fields obey their rules; a count not
    # started has zeros; a last count is at most 15; no field held unless type 4
    # has started."

    def broken(self, stores, ids=(7,), past=0):
        words = table.layout(started(*ids)) + [PATTERN] * past
        for place, word in stores.items():
            words[place] = word
        return table.broken_rules(words)

    def test_started(self):
        for n in (1, 2, 32):
            self.assertEqual(self.broken({}, range(n)), [])
            self.assertEqual(self.broken({}, range(n), past=3), [])

    def test_layout(self):
        for n in (1, 2, 32):
            words = table.layout(started(*range(n)))
            self.assertEqual(table.broken_rules(words[:-1]), ["layout"])
        self.assertEqual(table.broken_rules([]), ["layout", "number"])

    def test_list(self):
        self.assertEqual(self.broken({0: 0}), ["number"])
        self.assertEqual(self.broken({0: 33}, past=2848), ["number"])
        self.assertEqual(self.broken({90: 7}, (7, 8)), ["identifiers"])
        self.assertEqual(self.broken({90: 6}, (7, 8)), [])

    def test_choice(self):
        # "a valid list": C-13 has 0 or 1 for each stream, in word 14 of its record.
        for place, ids in ((15, (7,)), (15, (7, 8)), (104, (7, 8))):
            self.assertEqual(self.broken({place: 1}, ids), [])
            for wrong in (2, 3, 256, 1 << 31, ONES):
                self.assertEqual(self.broken({place: wrong}, ids), ["choice"])

    def test_fields(self):
        # Type 4 has started with the last count 0.
        self.assertEqual(self.broken({11: 1, 16: 1}), ["unheld"])
        self.assertEqual(self.broken({11: 1, 2: 1 << 30, 16: 1}), [])
        self.assertEqual(self.broken({2: 1 << 30, 16: 1}), ["type 4"])
        self.assertEqual(self.broken({11: 1, 2: 1 << 24, 27: 0x10000}), ["field"])
        self.assertEqual(self.broken({11: 1, 2: 1 << 24, 27: 0xFFFF}), [])
        for bit in (31, 22, 9, 8, 7, 0):
            self.assertEqual(self.broken({11: 1, 2: 1 << bit}), ["indicator"])

    def test_over_range_count(self):
        # C-11: "a page that holds field 22 ... is PAGE, a table likewise TABLE"; its
        # word is word 28 of a record.
        self.assertEqual(self.broken({29: 1}), ["unheld"])
        self.assertEqual(self.broken({11: 1, 29: 1 << 31}), ["unheld"])
        self.assertEqual(self.broken({118: 1}, (7, 8)), ["unheld"])
        self.assertEqual(self.broken({2: 1 << 22}), ["indicator"])
        self.assertEqual(self.broken({11: 1, 2: 1 << 22, 29: 5}), ["indicator", "unheld"])
        self.assertEqual(self.broken({11: 1, 2: 0x7FFFFC00}), ["indicator"])
        self.assertEqual(self.broken({11: 1, 2: 0x7FBFFC00}), [])

    def test_state(self):
        # C-11: "those bits or a value without its enable"; document 01: "state (16) has
        # zero in 23-20 and 11-8".
        def broken(word):
            return self.broken({11: 1, 2: 1 << 16, 38: word})

        for word in (0, 0xFF, ALL_ON, ALL_OFF, ALL_ON | 0xFF, *SIX):
            self.assertEqual(broken(word), [])
        for bit in (25, 24, 13, 12):
            for more in (0, ALL_ON, 0xFF):
                self.assertEqual(broken(1 << bit | more), ["state"])
        for word in (OVER_RANGE, SAMPLE_LOSS):
            self.assertEqual(broken(word), ["state"])
        for pair in SIX:
            enable, value = pair & ALL_OFF, pair & 0x000FC000
            self.assertEqual(broken(enable), [])
            self.assertEqual(broken(value), ["state"])
            self.assertEqual(broken(ALL_OFF - enable + value), ["state"])
            self.assertEqual(broken(ALL_ON - enable), ["state"])
        for bit in (23, 22, 21, 20, 11, 10, 9, 8):
            self.assertEqual(broken(1 << bit), ["field"])
            self.assertEqual(broken(1 << bit | ALL_ON), ["field"])
        self.assertEqual(broken(ONES), ["field", "state"])

    def test_counts(self):
        for place in (3, 6, 9, 12):
            self.assertEqual(self.broken({place: 1}), ["not started"])
            self.assertEqual(self.broken({place + 1: 1}), ["not started"])
            self.assertEqual(self.broken({place + 2: 17}), ["last"])
            self.assertEqual(self.broken({place: ONES, place + 1: ONES, place + 2: 16}), [])
            # A started count may have seen 0.
            self.assertEqual(self.broken({place + 1: 9, place + 2: 1}), [])

    def test_words_and_back(self):
        found = started(7, 8, choices=[0, 1])
        table.play(found, data(3))
        table.play(found, context(15, 1 << 29 | 1 << 12, [1, 2, *range(13)], 8))
        words = table.layout(found)
        self.assertTrue(table.well_made(words))
        self.assertEqual(table.table_of(words), found)


if __name__ == "__main__":
    unittest.main()
