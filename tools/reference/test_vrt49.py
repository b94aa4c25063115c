"""Document 01's "Samples from the bench" that concern reading, C-13's sentences on
spectrum-survey packets, and C-15's on places, held against the reference.  The
expectations are theirs, or worked out on paper from those of C-15."""

import unittest

import payload
import vrt49
from vrt49 import PAD


def accepted(words):
    answer, packet = vrt49.read(words)
    assert answer == "accepted", (answer, packet)
    return packet


class ContextHeader(unittest.TestCase):
    # "header 0x4065000B: type 4, TSI 1, TSF 2, count 5, size 11.  Indicator
    # 0x21200000 then asks 5 words."
    WORDS = [0x4065000B, 7, 100, 0, 200, 0x21200000, 0, 1, 2, 0, 3]

    def test_header(self):
        packet = accepted(self.WORDS)
        self.assertEqual(packet.type, 4)
        self.assertEqual(packet.class_flag, 0)
        self.assertEqual(packet.trailer_flag, 0)
        self.assertEqual(packet.tsm, 0)
        self.assertEqual(packet.tsi, 1)
        self.assertEqual(packet.tsf, 2)
        self.assertEqual(packet.count, 5)
        self.assertEqual(packet.size, 11)

    def test_parts(self):
        packet = accepted(self.WORDS)
        self.assertEqual(packet.identifier, 7)
        self.assertEqual(packet.seconds, 100)
        self.assertEqual(packet.fraction, 200)
        self.assertEqual((packet.body, packet.length), (5, 6))
        self.assertEqual((packet.oui, packet.information, packet.packet), (0, 0, 0))
        self.assertEqual(packet.trailer, 0)

    def test_fields(self):
        found = vrt49.fields(self.WORDS[5:])
        self.assertEqual(found, [(29, 1, 2), (24, 3, 1), (21, 4, 2)])
        self.assertEqual(sum(count for _, _, count in found), 5)

    def test_one_field_word_fewer_or_more(self):
        # C-15: "the indicator for LAYOUT", which is word 5.
        refused = ("refused", vrt49.LAYOUT, 5, None)
        self.assertEqual(vrt49.read([0x4065000A] + self.WORDS[1:]), refused)
        self.assertEqual(vrt49.read([0x4065000C] + self.WORDS[1:] + [0]), refused)


class DataHeader(unittest.TestCase):
    # "0x140F0005: type 1, trailer, count 15, two payload words.  Given 4
    # words: CUT.  Size 2: SHORT.  Size 3: accepted, empty body."
    WORDS = [0x140F0005, 7, 0xABCDEF12, 0x30000000, 0]

    def test_header(self):
        packet = accepted(self.WORDS)
        self.assertEqual(packet.type, 1)
        self.assertEqual(packet.trailer_flag, 1)
        self.assertEqual(packet.count, 15)
        self.assertEqual(packet.size, 5)
        self.assertEqual(packet.identifier, 7)
        self.assertEqual((packet.body, packet.length), (2, 2))
        self.assertEqual(packet.trailer, 0)

    def test_given_4_words(self):
        self.assertEqual(vrt49.read(self.WORDS[:4]), ("refused", vrt49.CUT, 0, None))

    def test_size_2(self):
        self.assertEqual(
            vrt49.read([0x140F0002] + self.WORDS[1:]), ("refused", vrt49.SHORT, 0, None)
        )

    def test_size_3(self):
        packet = accepted([0x140F0003] + self.WORDS[1:])
        self.assertEqual(packet.size, 3)
        self.assertEqual(packet.length, 0)
        self.assertEqual(packet.trailer, 0xABCDEF12)

    def test_size_0(self):
        self.assertEqual(
            vrt49.read([0x140F0000] + self.WORDS[1:]), ("refused", vrt49.SHORT, 0, None)
        )


class Fraction(unittest.TestCase):
    # "Fraction 999,999,999,999 passes at TSF 2; 10^12 is TIME there and passes
    # at TSF 1."

    def at(self, tsf, fraction):
        header = 0x10000004 + tsf * 2**20
        return vrt49.read([header, 7, fraction // 2**32, fraction % 2**32])

    def test_last_picosecond(self):
        answer, packet = self.at(2, 999_999_999_999)
        self.assertEqual(answer, "accepted")
        self.assertEqual(packet.fraction, 999_999_999_999)

    def test_whole_second(self):
        self.assertEqual(self.at(2, 10**12), ("refused", vrt49.TIME, 2, None))

    def test_whole_second_of_samples(self):
        answer, packet = self.at(1, 10**12)
        self.assertEqual(answer, "accepted")
        self.assertEqual(packet.fraction, 10**12)


class Format(unittest.TestCase):
    # "0xA00003CF: link, complex, 16-bit signed."

    def test_kept(self):
        self.assertTrue(vrt49.format_kept([0xA00003CF, 0]))


class Table(unittest.TestCase):
    # "Bits 30 to 10 are 21 fields of 74 words together."

    def test_fixed_fields(self):
        self.assertEqual(sorted(vrt49.FIXED_WORDS), list(range(10, 31)))
        self.assertEqual(len(vrt49.FIXED_WORDS), 21)
        self.assertEqual(sum(vrt49.FIXED_WORDS.values()), 74)


class ByHand(unittest.TestCase):
    """Two survey packets worked out by hand."""

    # 16-bit signed complex items in two words, and three 8-bit unsigned items as one
    # vector in a word with 8 pad bits.
    COMPLEX = [0x1C000007, 7, 0x00FFFFFA, 0x00130000, 0xABCDEF12, 0x30000000, 0]
    VECTOR = [0x1C000006, 7, 0x40FFFFFA, 0x000A0002, 0x01020300, 0]

    def test_survey(self):
        _, (packet, survey) = vrt49.read_survey(self.COMPLEX)
        self.assertEqual(survey, (0, 0x200003CF, 0, 4))
        self.assertEqual((packet.body, packet.length), (4, 2))
        self.assertEqual((packet.oui, packet.information, packet.packet), (0xFFFFFA, 0x13, 0))
        _, (packet, survey) = vrt49.read_survey(self.VECTOR)
        self.assertEqual(survey, (8, 0x100001C7, 2, 3))

    def test_plain(self):
        self.assertEqual(
            vrt49.read(self.COMPLEX), ("accepted", vrt49.read_survey(self.COMPLEX)[1][0])
        )
        self.assertEqual(vrt49.read(self.VECTOR), ("refused", vrt49.CLASS, 2, None))

    def test_unpacked(self):
        for words in (self.COMPLEX, self.VECTOR):
            packet, survey = vrt49.read_survey(words)[1]
            body = words[packet.body : packet.body + packet.length]
            n = survey.items
            answer, found = payload.unpack(survey.first, survey.second, n, body, (n, n, n))
            self.assertEqual(answer, "unpacked")
            items = [0xABCD, 0xEF12, 0x3000, 0] if n == 4 else [1, 2, 3]
            self.assertEqual(found[0], items)


def survey(high=0x00FFFFFA, low=0x00080000, body=(1,), header=0x1C000000, trailer=(0,)):
    """A survey packet; items are of one bit and real if nothing else is asked for."""
    words = [header, 7]
    if header >> 27 & 1:
        words += [high, low]
    words += body
    if header >> 26 & 1:
        words += trailer
    words[0] += len(words)
    return words


class SurveyTable(unittest.TestCase):
    # Table 4-4: "31-27 Pad Bit Count", "26-24 Reserved", "23-0 OUI: FF-FF-FA"; "31-24
    # Fixed Value bits set to zero", "23-22 Reserved", "21-20 R/C 0x00: Real, 0x01:
    # Complex Cartesian", "19-16 Data Type 0x1 - 0xD", "15-0 Vector Size".

    def refused(self, **given):
        self.assertEqual(vrt49.read_survey(survey(**given)), ("refused", PAD, 2, None))

    def test_each_bit(self):
        for bit in range(27):
            self.refused(high=0x00FFFFFA ^ 1 << bit)
        for bit in range(22, 32):
            self.refused(low=0x00080000 | 1 << bit)
        for bit in range(27, 32):
            self.assertEqual(
                vrt49.read_survey(survey(high=0x00FFFFFA | 1 << bit))[0], "accepted"
            )

    def test_kinds(self):
        for low in range(0x40):
            right = low >> 4 < 2 and 1 <= low & 15 <= 13
            answer = vrt49.read_survey(survey(low=low << 16, body=[1, 2, 3, 4]))
            self.assertEqual(answer[0] == "accepted", right, low)
            if not right:
                self.assertEqual(answer, ("refused", PAD, 2, None))

    def test_types(self):
        # Table 4-5, left column and right column.
        left = ["4 signed", "8 signed", "16 signed", "32 signed", "64 signed"]
        left += ["32 single", "64 double"]
        right = ["1 unsigned", "4 unsigned", "8 unsigned", "16 unsigned", "32 unsigned"]
        right += ["64 unsigned"]
        codes = {"signed": 0, "single": 14, "double": 15, "unsigned": 16}
        self.assertEqual(sorted(vrt49.SURVEY_TYPES), list(range(1, 14)))
        for data, text in enumerate(left + right, 1):
            size, code = text.split()
            self.assertEqual(vrt49.SURVEY_TYPES[data], (codes[code], int(size)))

    def test_formats(self):
        # Each format is one that packed samples have, processing-efficient.
        for data, (code, item) in vrt49.SURVEY_TYPES.items():
            for rc in (0, 1):
                first, second = vrt49.survey_format(rc << 20 | data << 16 | 0x1234)
                self.assertEqual(first >> 31, 0)
                self.assertEqual(first >> 29 & 3, rc)
                self.assertEqual(first >> 24 & 31, code)
                self.assertEqual(first >> 12 & 0xFFF, 0)
                self.assertEqual((first >> 6 & 63, first & 63), (item - 1, item - 1))
                self.assertEqual(second, 0x1234)
                self.assertTrue(vrt49.format_kept([first, second]))

    def test_no_data(self):
        self.refused(low=0x20110002, body=[])


class SurveyParts(unittest.TestCase):
    # "20 PAD, after FIELD, when class or trailer is absent"

    def test_absent(self):
        # C-15: "the class's first word, or the header if none, for PAD"
        for header, place in ((0x10000000, 0), (0x14000000, 0), (0x18000000, 2)):
            words = survey(header=header)
            self.assertEqual(vrt49.read_survey(words), ("refused", PAD, place, None))
            self.assertEqual(vrt49.read(words)[0], "accepted")

    def test_earlier_refusals(self):
        words = survey(low=0, header=0x1C200000, body=[0xE8, 0xD4A51000, 1])
        self.assertEqual(vrt49.read_survey(words), ("refused", vrt49.TIME, 4, None))
        self.assertEqual(vrt49.read_survey(words[:-1]), ("refused", vrt49.CUT, 0, None))
        words[0] -= 5
        self.assertEqual(vrt49.read_survey(words), ("refused", vrt49.SHORT, 0, None))

    def test_other_types(self):
        # "The choice governs type 1 only"
        for kind in (0, 2, 3, 4, 5):
            trailer = 4 if kind < 4 else 0
            identifier = [7] if kind in (1, 3, 4, 5) else []
            for high in (0x00FFFFFA, 0x40FFFFFA, 0x00123456, 0x01FFFFFA):
                words = [kind << 28 | (8 + trailer) << 24] + identifier + [high, 0x00080000, 0]
                words += [0] * (trailer // 4)
                words[0] += len(words)
                answer = vrt49.read_survey(words)
                if high >> 24:
                    place = 1 + len(identifier)
                    self.assertEqual(answer, ("refused", vrt49.CLASS, place, None))
                    self.assertEqual(vrt49.read(words), answer)
                else:
                    self.assertEqual((answer[0], answer[1][0]), vrt49.read(words))
                    self.assertEqual(answer[1][1], (0, 0, 0, 0))


class SurveyItems(unittest.TestCase):
    # "or the payload less its padding is negative or not a whole number of sample
    # vectors"

    def shapes(self):
        for data in vrt49.SURVEY_TYPES:
            for rc in (0, 1):
                for vector in (1, 2, 3, 5, 7, 8, 33, 65536):
                    yield rc << 20 | data << 16 | vector - 1

    def test_laid_out_and_divided(self):
        for low in self.shapes():
            shape = vrt49.vector_shape(low)
            for length in [*range(0, 140), 256, 448, 640, 1024, 2048]:
                self.assertEqual(
                    vrt49.items_laid_out(length, shape), vrt49.items_divided(length, shape)
                )

    def test_negative(self):
        for pad in range(32):
            n = vrt49.survey_items(pad << 27 | 0xFFFFFA, 0x00080000, 0)
            self.assertEqual(n, 0 if pad == 0 else None)

    def test_one_n(self):
        # "An accepted 49A packet has one n."
        for low in self.shapes():
            first, second = vrt49.survey_format(low)
            item, _, _ = vrt49.vector_shape(low)
            for length in range(9):
                for pad in range(32):
                    n = vrt49.survey_items(pad << 27 | 0xFFFFFA, low, length)
                    if n is None:
                        continue
                    fitting = [m for m in range(300) if m * item + pad == 32 * length]
                    self.assertEqual(fitting, [n])
                    self.assertEqual(
                        payload.words_needed(first, second, n), ("words", length)
                    )

    def test_odd_number_of_words(self):
        for data in (5, 7, 13):
            for length in range(1, 9, 2):
                for pad in range(32):
                    self.assertIsNone(
                        vrt49.survey_items(pad << 27 | 0xFFFFFA, data << 16, length)
                    )

    def test_largest(self):
        words = survey(body=[0] * 65530)
        self.assertEqual(len(words), 65535)
        self.assertEqual(vrt49.read_survey(words)[1][1].items, 2_096_960)


class Places(unittest.TestCase):
    # C-15: "Every reading refusal is to carry the word place from the packet's start, and
    # FIELD also the field bit."

    def refused(self, words, number, place, bit=None):
        """Read both ways, as none of these is a survey packet but by its type."""
        self.assertEqual(vrt49.read(words), ("refused", number, place, bit))
        self.assertEqual(vrt49.read_survey(words), ("refused", number, place, bit))

    def test_header(self):
        # "The place is the header for types, bits, sizes and cuts"; "EMPTY has place 0"
        self.refused([], vrt49.EMPTY, 0)
        self.refused([0x68F00003, 7, 0], vrt49.TYPE, 0)
        self.refused([0x12000003, 7, 0], vrt49.BITS, 0)
        self.refused([0x4A500008, 7, 0, 0, 0, 0, 0, 0], vrt49.BITS, 0)
        self.refused([0x48500007, 7, 0, 0, 0, 0, 0, 0], vrt49.SHORT, 0)
        self.refused([0x00000000], vrt49.SHORT, 0)
        self.refused([0x00000002], vrt49.CUT, 0)
        # Inside the class, with the identifier alone, and with a class that is wrong.
        self.refused([0x18000005, 7, 0], vrt49.CUT, 0)
        self.refused([0x18000005, 7], vrt49.CUT, 0)
        self.refused([0x38000005, 7, 0xFFFFFFFF, 0], vrt49.CUT, 0)

    def test_class(self):
        # "the offending word for CLASS": word 1 without an identifier, else word 2
        for kind, place in ((0, 1), (2, 1), (3, 2), (4, 2), (5, 2)):
            words = [kind << 28 | 0x08500000, 7, 7, 7, 7, 7, 7, 0, 0]
            words[place] = 0x01000000
            words[0] += len(words)
            self.refused(words, vrt49.CLASS, place)
        words = [0x18000005, 7, 0x80123456, 0, 0]
        self.assertEqual(vrt49.read(words), ("refused", vrt49.CLASS, 2, None))
        self.assertEqual(vrt49.read_survey(words), ("refused", PAD, 2, None))

    def test_time(self):
        # "the fraction's first word for TIME": behind the identifier, the two words of the
        # class and the word of the seconds, as they are there
        late = [0xE8, 0xD4A51000]
        self.refused([0x00200003, *late], vrt49.TIME, 1)
        self.refused([0x00600004, 0, *late], vrt49.TIME, 2)
        self.refused([0x08200005, 0, 0, *late], vrt49.TIME, 3)
        self.refused([0x08600006, 0, 0, 0, *late], vrt49.TIME, 4)
        self.refused([0x10200004, 7, *late], vrt49.TIME, 2)
        self.refused([0x30E00005, 7, 0, *late], vrt49.TIME, 3)
        self.refused([0x58200006, 7, 0, 0, *late], vrt49.TIME, 4)
        self.refused([0x1C600008, 7, 0, 0, 0, *late, 0], vrt49.TIME, 5)

    # What stands before the body of a type 4 packet, without the size, and the words of it.
    PROLOGUES = (
        (0x40000000, 2), (0x40400000, 3), (0x40100000, 4), (0x40F00000, 5), (0x48000000, 4),
        (0x49800000, 5), (0x48300000, 6), (0x49500000, 7),
    )

    def body(self, header, place, *body):
        words = [header, 7, 0, 0, 0, 0, 0][:place] + list(body)
        return [header + len(words)] + words[1:]

    def test_indicator_and_layout(self):
        # "the offending word for ... INDICATOR", "the indicator for LAYOUT"
        for header, place in self.PROLOGUES:
            for wrong in (0x00000001, 0x40000080, 0x01000001):
                self.refused(self.body(header, place, wrong), vrt49.INDICATOR, place)
            for wrong in ([0x40000000], [0, 0], [0x01000000, 0x10000, 0], [0x200, 0, 1]):
                self.refused(self.body(header, place, *wrong), vrt49.LAYOUT, place)

    def test_field(self):
        # "the first word of the highest broken field for FIELD"
        for header, place in self.PROLOGUES:
            # Bandwidth, level, temperature: words 1 and 2, 3, and 4 of the body.
            for bandwidth, level, temperature, offset, bit in (
                (0x80000000, 0, 0, 1, 29), (0, 0x10000, 0, 3, 24), (0, 0, 0x10000, 4, 18),
                (0x80000000, 0x10000, 0x10000, 1, 29), (0, 0x10000, 0x10000, 3, 24),
            ):
                words = self.body(header, place, 0x21040000, bandwidth, 0, level, temperature)
                self.refused(words, vrt49.FIELD, place + offset, bit)

    def test_first_word_of_the_field(self):
        # The device's second word is wrong: the place is its first.
        self.refused([0x40000005, 7, 0x00020000, 0, 0x10000], vrt49.FIELD, 3, 17)
        self.refused([0x40000006, 7, 0x00820000, 0, 0, 0x10000], vrt49.FIELD, 4, 17)
        self.refused([0x40000005, 7, 0x00020000, 1 << 24, 0x10000], vrt49.FIELD, 3, 17)

    def test_nine_fields(self):
        # 29, 24, 21, 18, 17, 16, 15, 9 and 8, with their first words at 1, 3, 4, 6, 7, 9,
        # 10, 12 and 15 of the body, as the text has one word.
        right = [[0, 0], [0], [0, 0], [0], [0, 0], [0], [0x3CF, 0], [0, 1, 5], [0, 0]]
        wrong = [[0x80000000, 0], [0x10000], [0x80000000, 0], [0x10000], [0, 0x10000]]
        wrong += [[0x100], [0x13CF, 0], [0x01000000, 1, 5], [0x200, 0]]
        offsets = [1, 3, 4, 6, 7, 9, 10, 12, 15]
        bits = [29, 24, 21, 18, 17, 16, 15, 9, 8]
        for chosen in range(1, 512):
            body = [0x21278300]
            for n in range(9):
                body += wrong[n] if chosen >> n & 1 else right[n]
            highest = min(n for n in range(9) if chosen >> n & 1)
            words = self.body(0x40600000, 5, *body)
            self.refused(words, vrt49.FIELD, 5 + offsets[highest], bits[highest])

    def test_behind_a_long_text(self):
        for n in (0, 1, 500, 65528):
            words = self.body(0x40000000, 2, 0x300, 0, n, *[1] * n, 0x02000000, 0)
            self.refused(words, vrt49.FIELD, 5 + n, 8)
            self.refused(words + [0, 0], vrt49.FIELD, 5 + n, 8)
            words[3] = 0x01000000
            self.refused(words, vrt49.FIELD, 3, 9)

    def test_free_fields(self):
        # A field without a rule is not told, whatever its words are.
        ones = 0xFFFFFFFF
        words = [0x40000000, 7, 0x40C40000, ones, ones, ones, ones]
        self.refused(self.body(0x40000000, 2, *words[2:]), vrt49.FIELD, 6, 18)

    def test_pad(self):
        # "the class's first word, or the header if none, for PAD"
        for words, place in (
            ([0x10000002, 7], 0), ([0x14500006, 7, 0, 0, 0, 0], 0), ([0x18000004, 7, 0, 0], 2),
            # Only the trailer is absent; only the second word of the class does not fit; the
            # payload is not whole.
            ([0x18000005, 7, 0x00FFFFFA, 0x00080000, 5], 2),
            ([0x1C000006, 7, 0x00FFFFFA, 0x80080000, 5, 0], 2),
            ([0x1CF00009, 7, 0x08FFFFFA, 0x000C0000, 0, 0, 0, 5, 0], 2),
        ):
            self.assertEqual(vrt49.read_survey(words), ("refused", PAD, place, None))

    def test_the_number_first(self):
        # The place goes with the number that is given: a class, a time, an indicator and a
        # field that are wrong.
        words = [0x48600009, 7, 0x01000000, 0, 0, 0xE8, 0xD4A51000, 0x01000001, 0x10000]
        self.refused(words, vrt49.CLASS, 2)
        words[2] = 0
        self.refused(words, vrt49.TIME, 5)
        words[5] = 0
        self.refused(words, vrt49.INDICATOR, 7)
        words[7] = 0x01800000
        self.refused(words, vrt49.LAYOUT, 7)
        words[7] = 0x01000000
        self.refused(words, vrt49.FIELD, 8, 24)
        words[8] = 0
        self.assertEqual(vrt49.read(words)[0], "accepted")


if __name__ == "__main__":
    unittest.main()
