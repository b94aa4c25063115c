"""Document 01's "Samples from the bench" that concern readings, and its
sentences on them, held against the reference.  The expectations are document
01's own."""

import struct
import unittest
from fractions import Fraction

import panel
import table

PATTERN = 0xA5A5A5A5
ONES = 0xFFFFFFFF


def holding(bit, *words, identifier=7):
    """The words of a table of one stream that holds one field."""
    found = table.start([identifier], [0], 90)[1]
    header = 0x40000003 + len(words)
    answer = table.play(found, [header, identifier, 1 << bit, *words])
    assert answer[0] == "played", answer
    return table.layout(found)


def read(bit, *words):
    return panel.reading(holding(bit, *words), 0, bit)


class Frequencies(unittest.TestCase):
    # "rate 0x00000000 00100000 is 1 Hz; frequency 0xFFFFFFFF FFFFFFFF is whole
    # -1, parts 1,048,575"

    def test_samples(self):
        self.assertEqual(read(21, 0, 0x00100000), ("frequency", 1, 0))
        self.assertEqual(read(27, ONES, ONES), ("frequency", -1, 1048575))

    def test_rounded_down(self):
        # "Easy misreadings": "Rounding negative frequencies towards zero."
        for bit in (28, 27, 26, 25):
            self.assertEqual(read(bit, ONES, 0xFFF00000), ("frequency", -1, 0))
            self.assertEqual(read(bit, ONES, 0xFFEFFFFF), ("frequency", -2, 1048575))
            self.assertEqual(read(bit, ONES, 0xFFF00001), ("frequency", -1, 1))
            self.assertEqual(read(bit, 1 << 31, 0), ("frequency", -(2**43), 0))

    def test_largest(self):
        for bit in (29, 28, 27, 26, 25, 21):
            self.assertEqual(read(bit, 0x7FFFFFFF, ONES), ("frequency", 2**43 - 1, 1048575))
            self.assertEqual(read(bit, 0, 0), ("frequency", 0, 0))
            self.assertEqual(read(bit, 0, 1), ("frequency", 0, 1))
            self.assertEqual(read(bit, 1, 0), ("frequency", 4096, 0))


class Halves(unittest.TestCase):
    # "level 0xFF80 is -1; temperature 0xFFE0 is -0.5"

    def test_samples(self):
        self.assertEqual(read(24, 0xFF80), ("level", -1))
        self.assertEqual(read(18, 0xFFE0), ("temperature", Fraction(-1, 2)))

    def test_gain(self):
        # "stage 1 the lower half, stage 2 the upper"
        self.assertEqual(read(23, 0x0080FF80), ("gain", -1, 1))
        self.assertEqual(read(23, 0x80000001), ("gain", Fraction(1, 128), -256))

    def test_edges(self):
        self.assertEqual(read(24, 0x8000), ("level", -256))
        self.assertEqual(read(24, 0x7FFF), ("level", Fraction(32767, 128)))
        self.assertEqual(read(18, 0x8000), ("temperature", -512))
        self.assertEqual(read(18, 0x7FFF), ("temperature", Fraction(32767, 64)))


class OtherAndAbsent(unittest.TestCase):
    def test_other(self):
        # "other (held, nothing more said)"
        self.assertEqual(read(30, 5), ("other",))
        self.assertEqual(read(16, 5), ("other",))
        self.assertEqual(read(16, 0), ("other",))
        self.assertEqual(read(14, *range(11)), ("other",))
        self.assertEqual(read(10, 0), ("other",))

    def test_absent(self):
        fresh = table.layout(table.start([7], [1], 90)[1])
        for bit in range(10, 31):
            self.assertEqual(panel.reading(fresh, 0, bit), ("absent",))
        self.assertEqual(panel.reading(holding(24, 5), 0, 23), ("absent",))

    def test_over_range_count(self):
        # C-11: "field 22, which is now checked and never held"; "a field bit is not 30
        # to 10" is not said of it.
        lent = holding(22, 5)
        self.assertEqual(panel.reading(lent, 0, 22), ("absent",))
        self.assertEqual(panel.readings(lent, 0), [("absent",)] * 21)
        for room in (0, 1, 13):
            out = [PATTERN] * room
            self.assertEqual(panel.held_words(lent, 0, 22, out), (("held", 0), out))
        self.assertEqual(panel.reading(lent, 1, 22), ("refused", table.STREAM))

    def test_state(self):
        # Valid data on and user bits 0x5A are held, over-range is not.
        lent = holding(16, 0x4204205A)
        self.assertEqual(panel.reading(lent, 0, 16), ("other",))
        self.assertEqual(panel.held_words(lent, 0, 16, [0, 7]), (("held", 1), [0x4004005A, 7]))
        self.assertEqual(panel.held_words(lent, 0, 16, []), (("refused", table.ROOM), []))


class Readings(unittest.TestCase):
    # "Bits 30 to 10 are 21 fields": entry i is of bit 30 - i.

    def test_none_held(self):
        fresh = table.layout(table.start([7, 8], [1, 0], 179)[1])
        for stream in (0, 1):
            self.assertEqual(panel.readings(fresh, stream), [("absent",)] * 21)

    def test_places(self):
        # Bits 30, 29, 24, 23, 18 and 10 are the entries 0, 1, 6, 7, 12 and 20.
        found = table.start([7, 8], [0, 1], 179)[1]
        indicator = 1 << 30 | 1 << 29 | 1 << 24 | 1 << 23 | 1 << 18 | 1 << 10
        words = [5, 0, 0x00180001, 0xFF80, 0x0080FF80, 0xFFE0, 6]
        self.assertEqual(table.play(found, [0x4000000A, 8, indicator, *words])[0], "played")
        expected = [("absent",)] * 21
        expected[0] = ("other",)
        expected[1] = ("frequency", 1, 0x80001)
        expected[6] = ("level", -1)
        expected[7] = ("gain", -1, 1)
        expected[12] = ("temperature", Fraction(-1, 2))
        expected[20] = ("other",)
        lent = table.layout(found)
        self.assertEqual(panel.readings(lent, 1), expected)
        self.assertEqual(panel.readings(lent, 0), [("absent",)] * 21)

    def test_every_bit_alone(self):
        for place in range(21):
            bit = 30 - place
            words = [0] * (13 if bit in (12, 11) else 11 if bit in (14, 13) else 1)
            if bit in (29, 28, 27, 26, 25, 21, 20, 17, 15):
                words = [0, 0]
            expected = [("absent",)] * 21
            expected[place] = ("other",) if bit != 22 else ("absent",)
            if bit in (29, 28, 27, 26, 25, 21):
                expected[place] = ("frequency", 0, 0)
            elif bit in (24, 18):
                expected[place] = ("level" if bit == 24 else "temperature", 0)
            elif bit == 23:
                expected[place] = ("gain", 0, 0)
            self.assertEqual(panel.readings(holding(bit, *words), 0), expected)

    def test_refused(self):
        # Each entry is the refusal; TABLE before STREAM.
        lent = holding(24, 5)
        for stream in (1, 32, ONES):
            self.assertEqual(panel.readings(lent, stream), [("refused", table.STREAM)] * 21)
        lent[5] = 17
        for stream in (0, 1, ONES):
            self.assertEqual(panel.readings(lent, stream), [("refused", table.TABLE)] * 21)
        self.assertEqual(panel.readings([], 0), [("refused", table.TABLE)] * 21)


class Refusals(unittest.TestCase):
    # "Reading: TABLE, STREAM, VALUE."

    def test_order(self):
        lent = holding(24, 5)
        self.assertEqual(panel.reading(lent, 1, 24), ("refused", table.STREAM))
        self.assertEqual(panel.reading(lent, 1, 31), ("refused", table.STREAM))
        self.assertEqual(panel.reading(lent, ONES, 24), ("refused", table.STREAM))
        for bit in (31, 9, 8, 7, 0, 32, 286, ONES):
            self.assertEqual(panel.reading(lent, 0, bit), ("refused", panel.VALUE))
        lent[5] = 17
        for stream, bit in ((0, 24), (1, 24), (0, 31), (1, 31)):
            self.assertEqual(panel.reading(lent, stream, bit), ("refused", table.TABLE))

    def test_held_words(self):
        lent = holding(27, 3, 4)
        for room, answer in ((1, ("refused", table.ROOM)), (2, ("held", 2)), (3, ("held", 2))):
            out = [PATTERN] * room
            written = [3, 4] if answer[0] == "held" else []
            after = written + out[len(written) :]
            self.assertEqual(panel.held_words(lent, 0, 27, out), (answer, after))
        self.assertEqual(panel.held_words(lent, 0, 26, []), (("held", 0), []))
        self.assertEqual(panel.held_words(lent, 0, 9, []), (("refused", panel.VALUE), []))


class Numbers(unittest.TestCase):
    def test_text(self):
        self.assertEqual(panel.decimal(Fraction(-1), 7), "-1.0000000")
        self.assertEqual(panel.decimal(Fraction(1, 128), 7), "0.0078125")
        self.assertEqual(panel.decimal(Fraction(-1, 2), 6), "-0.500000")
        self.assertEqual(panel.decimal(Fraction(0), 6), "0.000000")
        self.assertEqual(panel.decimal(Fraction(-1, 128), 7), "-0.0078125")
        with self.assertRaises(ValueError):
            panel.decimal(Fraction(1, 128), 6)

    def test_single(self):
        # "These three are f32 and exact", by a conversion made elsewhere.
        for over in (64, 128):
            for half in range(-(2**15), 2**15, 7):
                value = Fraction(half, over)
                word = struct.unpack(">I", struct.pack(">f", float(value)))[0]
                sign, exponent, fraction = panel.single(value)
                self.assertEqual(sign * 2**31 + exponent * 2**23 + fraction, word)
                self.assertEqual(Fraction(struct.unpack(">f", struct.pack(">I", word))[0]), value)
        self.assertEqual(panel.single(Fraction(0)), (0, 0, 0))


if __name__ == "__main__":
    unittest.main()
