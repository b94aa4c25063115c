"""The answers about single streams, held against the samples and sentences of document 01, the
sentences of C-11 of document 02, and words laid out by hand.  Each number is worked out on
paper from C-13: word 1 + 89 s has the identifier of stream s, the next word its held
indicator, then come three words for each of the types 1, 3, 4 and 5, then the choice, and
then the slots."""

import unittest

import streams
import table
from panel import VALUE
from table import ROOM, STREAM, TABLE

PATTERN = 0xA5A5A5A5
ONES = 0xFFFFFFFF

# Document 01's example: two packets of type 1, counts 15 and 2.
EXAMPLE = [1, 7, 0, 2, 2, 3] + [0] * 84

# Document 01's Context packet: bandwidth 0 1, level 2, sample rate 0 3; count 5.  The
# slots of 29, 24 and 21 are 16, 26 and 29 words from the record's start; the choice, 1, is
# 14 words from it.
TUNED = [0] * 90
TUNED[0:3] = [1, 7, 0x21200000]
TUNED[9:12] = [1, 0, 6]
TUNED[15] = 1
TUNED[17:19] = [0, 1]
TUNED[27] = 2
TUNED[30:32] = [0, 3]

# Both, for the identifiers 5 and 9.
TWO = [2, 5, *EXAMPLE[2:], 9, *TUNED[2:]]


def with_words(words, stores):
    words = list(words)
    for place, word in stores.items():
        words[place] = word
    return words


class Laid(unittest.TestCase):
    """The words above are those that the reference plays."""

    def test_example(self):
        lent = table.layout(table.start([7], [0], 90)[1])
        lent = table.play_lent(lent, [0x140F0005, 7, 0xABCDEF12, 0x30000000, 0])[1]
        lent = table.play_lent(lent, [0x14020005, 7, 0, 0, 0])[1]
        self.assertEqual(lent, EXAMPLE)

    def test_tuned(self):
        lent = table.layout(table.start([7], [1], 90)[1])
        words = [0x4065000B, 7, 100, 0, 200, 0x21200000, 0, 1, 2, 0, 3]
        self.assertEqual(table.play_lent(lent, words), (("played", 11, 4, 0, 0), TUNED))

    def test_lengths(self):
        self.assertEqual((len(EXAMPLE), len(TUNED), len(TWO)), (90, 90, 179))
        self.assertEqual(table.broken_rules(TWO), [])


class Identity(unittest.TestCase):
    def test_declared(self):
        self.assertEqual(streams.identity(EXAMPLE, 0), ("declared", 7, 0, 0))
        self.assertEqual(streams.identity(TUNED, 0), ("declared", 7, 1, 0x21200000))
        self.assertEqual(streams.identity(TWO, 0), ("declared", 5, 0, 0))
        self.assertEqual(streams.identity(TWO, 1), ("declared", 9, 1, 0x21200000))

    def test_edges(self):
        # Any identifier may be declared, 0 too; 0x7FBFFC00 has the bits 30 to 10 without
        # 22: "field 22, which is now checked and never held".
        self.assertEqual(streams.identity([1] + [0] * 89, 0), ("declared", 0, 0, 0))
        self.assertEqual(streams.identity([1, ONES] + [0] * 88, 0), ("declared", ONES, 0, 0))
        every = with_words([1] + [0] * 89, {2: 0x7FBFFC00, 11: 1, 15: 1})
        self.assertEqual(streams.identity(every, 0), ("declared", 0, 1, 0x7FBFFC00))
        self.assertEqual(streams.identity(with_words(every, {15: 2}), 0), ("refused", TABLE))
        every = with_words(every, {2: 0x7FFFFC00})
        self.assertEqual(streams.identity(every, 0), ("refused", TABLE))

    def test_over_range_count(self):
        # With the sample rate as it is held; 0x00600000 has the bits 22 and 21.
        answer, after = table.play_lent(TUNED, [0x40060006, 7, 0x00600000, 9, 0, 3])
        self.assertEqual(answer, ("played", 6, 4, 0, 0))
        self.assertEqual(streams.identity(after, 0), ("declared", 7, 1, 0x21200000))
        self.assertEqual(streams.changed(TUNED, 0, after, 0), ("changed", 0))
        own = with_words(TUNED, {9: 2, 11: 7})
        self.assertEqual(streams.own_table(after, 0, [0] * 90), (("table", 90), own))

    def test_refused(self):
        for stream in (2, 3, 32, ONES):
            self.assertEqual(streams.identity(TWO, stream), ("refused", STREAM))
        # 17 is a last count of 16.
        broken = with_words(TWO, {5: 17})
        for stream in (0, 1, 2, ONES):
            self.assertEqual(streams.identity(broken, stream), ("refused", TABLE))
        for words in ([], TWO[:-1], with_words(TWO, {0: 0}), with_words(TWO, {90: 5})):
            self.assertEqual(streams.identity(words, 0), ("refused", TABLE))

    def test_past_the_layout(self):
        # "words past it are neither read nor changed"
        one = with_words(TWO, {0: 1, 90: 5, 104: 2})
        self.assertEqual(streams.identity(one, 0), ("declared", 5, 0, 0))
        self.assertEqual(streams.identity(one, 1), ("refused", STREAM))


class Counts(unittest.TestCase):
    def test_started(self):
        # "at 7 type 1 stream 0 missing 2", the last count being 2
        self.assertEqual(streams.counts(EXAMPLE, 0, 1), ("started", 2, 2, 2))
        # "header 0x4065000B: type 4, TSI 1, TSF 2, count 5"
        self.assertEqual(streams.counts(TUNED, 0, 4), ("started", 1, 0, 5))
        self.assertEqual(streams.counts(TWO, 0, 1), ("started", 2, 2, 2))
        self.assertEqual(streams.counts(TWO, 1, 4), ("started", 1, 0, 5))

    def test_not_started(self):
        for kind in (3, 4, 5):
            self.assertEqual(streams.counts(EXAMPLE, 0, kind), ("not started",))
        for kind in (1, 3, 5):
            self.assertEqual(streams.counts(TUNED, 0, kind), ("not started",))
            self.assertEqual(streams.counts(TWO, 1, kind), ("not started",))

    def test_places(self):
        lent = with_words(EXAMPLE, dict(zip(range(3, 15), range(4, 16))))
        self.assertEqual(streams.counts(lent, 0, 1), ("started", 4, 5, 5))
        self.assertEqual(streams.counts(lent, 0, 3), ("started", 7, 8, 8))
        self.assertEqual(streams.counts(lent, 0, 4), ("started", 10, 11, 11))
        self.assertEqual(streams.counts(lent, 0, 5), ("started", 13, 14, 14))

    def test_edges(self):
        # "both kept modulo 2^32": a started count may have seen 0.
        lent = with_words(EXAMPLE, {3: 0, 4: 0, 5: 1, 6: ONES, 7: ONES, 8: 16})
        self.assertEqual(streams.counts(lent, 0, 1), ("started", 0, 0, 0))
        self.assertEqual(streams.counts(lent, 0, 3), ("started", ONES, ONES, 15))

    def test_refused(self):
        # "Types 1, 3, 4 and 5 are counted"
        for kind in (0, 2, 6, 7, 8, 15, 16, 17, 257, ONES):
            self.assertEqual(streams.counts(TWO, 0, kind), ("refused", VALUE))
            self.assertEqual(streams.counts(TWO, 2, kind), ("refused", STREAM))
            self.assertEqual(streams.counts(TWO[:-1], 0, kind), ("refused", TABLE))
            self.assertEqual(streams.counts(TWO[:-1], 2, kind), ("refused", TABLE))
        self.assertEqual(streams.counts(TWO, 2, 1), ("refused", STREAM))
        self.assertEqual(streams.counts(TWO[:-1], 2, 1), ("refused", TABLE))


class OwnTable(unittest.TestCase):
    def test_words(self):
        out = [PATTERN] * 92
        first, second = [1, 5, *EXAMPLE[2:]], [1, 9, *TUNED[2:]]
        self.assertEqual(streams.own_table(TWO, 0, out), (("table", 90), first + out[90:]))
        self.assertEqual(streams.own_table(TWO, 1, out), (("table", 90), second + out[90:]))
        self.assertEqual(streams.own_table(TUNED, 0, out[:90]), (("table", 90), TUNED))
        self.assertEqual(out, [PATTERN] * 92)

    def test_refused(self):
        for room in (0, 1, 89):
            out = [PATTERN] * room
            self.assertEqual(streams.own_table(TWO, 1, out), (("refused", ROOM), out))
        for room in (0, 89, 90, 100):
            out = [PATTERN] * room
            self.assertEqual(streams.own_table(TWO, 2, out), (("refused", STREAM), out))
            for stream in (0, 1, 2):
                answer = (("refused", TABLE), out)
                self.assertEqual(streams.own_table(TWO[:-1], stream, out), answer)


class Changed(unittest.TestCase):
    def fields(self, before, after):
        found = streams.changed(before, 0, after, 0)
        self.assertEqual(streams.changed(after, 0, before, 0), found)
        self.assertEqual(found[0], "changed")
        return found[1]

    def test_the_same(self):
        self.assertEqual(self.fields(TUNED, TUNED), 0)
        self.assertEqual(self.fields(EXAMPLE, EXAMPLE), 0)
        self.assertEqual(streams.changed(TWO, 1, TUNED, 0), ("changed", 0))

    def test_words(self):
        # One word of a field is enough, and either of two.
        self.assertEqual(self.fields(TUNED, with_words(TUNED, {17: 1})), 1 << 29)
        self.assertEqual(self.fields(TUNED, with_words(TUNED, {18: 0})), 1 << 29)
        self.assertEqual(self.fields(TUNED, with_words(TUNED, {27: 3})), 1 << 24)
        self.assertEqual(self.fields(TUNED, with_words(TUNED, {31: 4})), 1 << 21)
        after = with_words(TUNED, {18: 2, 31: 2})
        self.assertEqual(self.fields(TUNED, after), 1 << 29 | 1 << 21)

    def test_absent(self):
        # "unheld fields ... zero", and a held field may be zero: it is not absent.
        self.assertEqual(self.fields(EXAMPLE, TUNED), 0x21200000)
        after = with_words(TUNED, {2: 0x21200400})
        self.assertEqual(self.fields(TUNED, after), 1 << 10)
        before = with_words(TUNED, {2: 0x01200000, 18: 0})
        self.assertEqual(self.fields(before, with_words(TUNED, {18: 0})), 1 << 29)

    def test_nothing_else(self):
        # The identifier, the counts, the choice and words past the layout are no fields.
        after = with_words(TUNED, {1: 8, 3: 1, 5: 2, 9: 77, 10: 6, 11: 1, 15: 0}) + [PATTERN]
        self.assertEqual(self.fields(TUNED, after), 0)

    def test_a_packet(self):
        # Of a packet that carries bandwidth 0 1, as held, and level 5: the level alone.
        words = [0x40060006, 7, 0x21000000, 0, 1, 5]
        answer, after = table.play_lent(TUNED, words)
        self.assertEqual(answer, ("played", 6, 4, 0, 0))
        own = streams.own_table(TUNED, 0, [0] * 90)[1]
        self.assertEqual(streams.changed(own, 0, after, 0), ("changed", 1 << 24))

    def test_state(self):
        # Each word against what is held after those before it: the word that is held is
        # what is compared, not the one that was sent.
        lent = TUNED
        for count, (word, fields) in enumerate((
            (0x40040000, 1 << 16),  # valid data on
            (0x40040000, 0),
            (0x43043000, 0),  # with over-range and sample loss
            (0x00080000, 0),  # a value without its enable
            (0x00000001, 1 << 16),  # a user bit
            (0x40040001, 0),
            (0x40000001, 1 << 16),  # valid data off
            (0x20000001, 1 << 16),  # lock off, of which nothing was held
            (0x60000001, 0),
            (0x00000000, 1 << 16),
            (0x00000000, 0),
        )):
            before = lent
            packet = [0x40000004 + (6 + count) % 16 * 2**16, 7, 1 << 16, word]
            answer, lent = table.play_lent(before, packet)
            self.assertEqual(answer, ("played", 4, 4, 0, 0))
            self.assertEqual(streams.changed(before, 0, lent, 0), ("changed", fields))
        self.assertEqual(lent[38], 0x60000000)
        # Held as zero and absent.
        zero = with_words(TUNED, {2: 0x21210000})
        self.assertEqual(self.fields(TUNED, zero), 1 << 16)

    def test_streams(self):
        self.assertEqual(streams.changed(TWO, 0, TWO, 1), ("changed", 0x21200000))
        self.assertEqual(streams.changed(TWO, 1, TWO, 0), ("changed", 0x21200000))
        self.assertEqual(streams.changed(TWO, 1, TWO, 1), ("changed", 0))
        self.assertEqual(streams.changed(EXAMPLE, 0, TWO, 0), ("changed", 0))

    def test_refused(self):
        cut = TWO[:-1]
        for before, one, after, other, number in (
            (cut, 0, TWO, 0, TABLE), (TWO, 0, cut, 0, TABLE), (cut, 0, cut, 0, TABLE),
            (TWO, 2, TWO, 0, STREAM), (TWO, 0, TWO, 2, STREAM), (TWO, 2, TWO, 2, STREAM),
            (cut, 2, TWO, 0, TABLE), (cut, 0, TWO, 2, TABLE), (TWO, 2, cut, 0, TABLE),
            (TWO, 0, cut, 2, TABLE), (TWO, 1, TUNED, 1, STREAM), (TUNED, 1, TWO, 1, STREAM),
        ):
            found = streams.changed(before, one, after, other)
            self.assertEqual(found, ("refused", number))


if __name__ == "__main__":
    unittest.main()
