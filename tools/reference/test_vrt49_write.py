"""Document 01's "Samples from the bench" that concern writing, its sentences on what
writing refuses, and C-13's on spectrum-survey packets, held against the reference.  The
expectations are theirs."""

import unittest

import vrt49
import vrt49_write
from vrt49_write import Parts

PATTERN = 0xA5A5A5A5


def parts(**given):
    """Parts that are all zero but for those given."""
    names = Parts.__dataclass_fields__
    return Parts(**{**{name: 0 for name in names}, **given})


def written(parts, body, before=2, after=3):
    """The words of a packet written into a longer buffer, the rest of which
    stays."""
    size = vrt49_write.packet_size(parts, body)
    out = [PATTERN] * (before + size + after)
    answer, found = vrt49_write.write(parts, body, out, before)
    assert answer == ("written", size), answer
    assert found[:before] == out[:before]
    assert found[before + size :] == out[before + size :]
    assert len(found) == len(out)
    return found[before : before + size]


def refusal(parts, body, room=100, at=0):
    """The number of a refusal, which has written nothing."""
    out = [PATTERN] * room
    (answer, number), found = vrt49_write.write(parts, body, out, at)
    assert answer == "refused", answer
    assert found == [PATTERN] * room
    return number


class ContextHeader(unittest.TestCase):
    # "header 0x4065000B: type 4, TSI 1, TSF 2, count 5, size 11.  Indicator
    # 0x21200000 then asks 5 words."
    PARTS = parts(type=4, tsi=1, tsf=2, count=5, identifier=7, seconds=100, fraction=200)
    BODY = [0x21200000, 0, 1, 2, 0, 3]

    def test_words(self):
        self.assertEqual(
            written(self.PARTS, self.BODY), [0x4065000B, 7, 100, 0, 200] + self.BODY
        )

    def test_one_field_word_fewer_or_more(self):
        self.assertEqual(refusal(self.PARTS, self.BODY[:-1]), vrt49.LAYOUT)
        self.assertEqual(refusal(self.PARTS, self.BODY + [0]), vrt49.LAYOUT)

    def test_no_indicator_word(self):
        # "size below the required parts (the indicator word is one, for type
        # 4)"
        self.assertEqual(refusal(self.PARTS, []), vrt49.SHORT)


class DataHeader(unittest.TestCase):
    # "0x140F0005: type 1, trailer, count 15, two payload words.  ...  Size 3:
    # accepted, empty body."
    PARTS = parts(type=1, trailer_flag=1, count=15, identifier=7)

    def test_two_payload_words(self):
        self.assertEqual(
            written(self.PARTS, [0xABCDEF12, 0x30000000]),
            [0x140F0005, 7, 0xABCDEF12, 0x30000000, 0],
        )

    def test_empty_body(self):
        self.assertEqual(written(self.PARTS, []), [0x140F0003, 7, 0])

    def test_next_packet(self):
        # "14020005 00000007 00000000 00000000 00000000"
        self.assertEqual(
            written(parts(type=1, trailer_flag=1, count=2, identifier=7), [0, 0]),
            [0x14020005, 7, 0, 0, 0],
        )


class Fraction(unittest.TestCase):
    # "Fraction 999,999,999,999 passes at TSF 2; 10^12 is TIME there and passes
    # at TSF 1."

    def test_last_picosecond(self):
        self.assertEqual(
            written(parts(type=1, tsf=2, identifier=7, fraction=999_999_999_999), []),
            [0x10200004, 7, 0x000000E8, 0xD4A50FFF],
        )

    def test_whole_second(self):
        self.assertEqual(refusal(parts(type=1, tsf=2, fraction=10**12), []), vrt49.TIME)

    def test_whole_second_of_samples(self):
        self.assertEqual(
            written(parts(type=1, tsf=1, identifier=7, fraction=10**12), []),
            [0x10100004, 7, 0x000000E8, 0xD4A51000],
        )


class Order(unittest.TestCase):
    # "Order: header; stream identifier (types 1, 3, 4, 5); class (two words, if
    # C); integer seconds (if TSI is not 0); fraction (two words, high first, if
    # TSF is not 0); body; trailer (if T)."

    def test_every_part(self):
        everything = parts(
            type=3, class_flag=1, trailer_flag=1, tsi=2, tsf=3, count=6, identifier=0x11111111,
            oui=0x222222, information=0x3333, packet=0x4444, seconds=0x55555555,
            fraction=0x66666666_77777777, trailer=0x99999999,
        )
        self.assertEqual(
            written(everything, [0x88888888]),
            [
                0x3CB60009, 0x11111111, 0x00222222, 0x33334444, 0x55555555, 0x66666666,
                0x77777777, 0x88888888, 0x99999999,
            ],
        )

    def test_absent_parts_are_ignored(self):
        wild = parts(
            type=2, identifier=1, oui=2**24, information=2**16, packet=2**16, seconds=1,
            fraction=2**64 - 1, trailer=1,
        )
        self.assertEqual(written(wild, [5]), [0x20000002, 5])


class Value(unittest.TestCase):
    # "T asked of types 4-5, or TSM of 0-3, is VALUE"

    def test_trailer(self):
        for kind in (4, 5):
            self.assertEqual(
                refusal(parts(type=kind, trailer_flag=1), [0]), vrt49_write.VALUE
            )

    def test_tsm(self):
        for kind in (0, 1, 2, 3):
            self.assertEqual(refusal(parts(type=kind, tsm=1), [0]), vrt49_write.VALUE)
        self.assertEqual(written(parts(type=5, tsm=1), []), [0x51000002, 0])


class Size(unittest.TestCase):
    # "a packet to be written ... exceeds 65,535 words"

    def test_largest(self):
        self.assertEqual(written(parts(), [0] * 65534)[0], 0x0000FFFF)
        self.assertEqual(refusal(parts(), [0] * 65535, room=70000), vrt49_write.SIZE)


class Room(unittest.TestCase):
    # "A start past the end is ROOM."

    def test_places(self):
        packet = parts(type=0)
        self.assertEqual(written(packet, [1], before=0, after=0), [0x00000002, 1])
        for room, at in ((1, 0), (2, 1), (2, 2), (2, 3), (100, 101), (0, 0), (9, 2**32 - 1)):
            self.assertEqual(refusal(packet, [1], room, at), vrt49_write.ROOM)


class Trailer(unittest.TestCase):
    # "Trailer: enables 31-20, indicators 19-8, E 7, associated count 6-0"

    def test_word(self):
        self.assertEqual(
            vrt49_write.trailer_word(0xABC, 0x123, 1, 0x45), ("trailer", 0xABC123C5)
        )
        self.assertEqual(
            vrt49_write.trailer_word(0xFFF, 0xFFF, 1, 0x7F), ("trailer", 0xFFFFFFFF)
        )

    def test_one_that_does_not_fit(self):
        for numbers in ((2**12, 0, 0, 0), (0, 2**12, 0, 0), (0, 0, 2, 0), (0, 0, 0, 2**7)):
            self.assertEqual(
                vrt49_write.trailer_word(*numbers), ("refused", vrt49_write.VALUE)
            )


class Survey(unittest.TestCase):
    """C-13: what is written as a survey packet."""

    COMPLEX = parts(
        type=1, class_flag=1, trailer_flag=1, identifier=7, oui=0xFFFFFA, information=0x13
    )
    VECTOR = parts(
        type=1, class_flag=1, trailer_flag=1, identifier=7, oui=0xFFFFFA, information=0x0A,
        packet=2,
    )

    def survey(self, given, pad, body, room=20, at=2):
        answer, found = vrt49_write.write_survey(given, pad, body, [PATTERN] * room, at)
        if answer[0] == "refused":
            self.assertEqual(found, [PATTERN] * room)
            return answer[1]
        end = at + answer[1]
        self.assertEqual(found[:at] + found[end:], [PATTERN] * (room - answer[1]))
        return found[at:end]

    def test_by_hand(self):
        self.assertEqual(
            self.survey(self.COMPLEX, 0, [0xABCDEF12, 0x30000000]),
            [0x1C000007, 7, 0x00FFFFFA, 0x00130000, 0xABCDEF12, 0x30000000, 0],
        )
        self.assertEqual(
            self.survey(self.VECTOR, 8, [0x01020300]),
            [0x1C000006, 7, 0x40FFFFFA, 0x000A0002, 0x01020300, 0],
        )

    def test_pad_counts(self):
        ones = parts(**{**self.VECTOR.__dict__, "information": 8, "packet": 0})
        for pad in range(32):
            words = self.survey(ones, pad, [5])
            self.assertEqual(words[2], pad * 2**27 + 0xFFFFFA)
            _, (packet, survey) = vrt49.read_survey(words)
            self.assertEqual(vrt49_write.parts_of(packet), ones)
            self.assertEqual((survey.pad, survey.items), (pad, 32 - pad))
        for pad in (32, 2**27, 2**32 - 1):
            self.assertEqual(self.survey(ones, pad, [5]), vrt49_write.VALUE)

    def test_pad_of_others(self):
        # Neither another type nor a packet without a class has one.
        for kind in (0, 2, 3, 5):
            other = parts(**{**self.VECTOR.__dict__, "type": kind, "trailer_flag": 0})
            for pad in (0, 31, 32, 2**32 - 1):
                self.assertEqual(self.survey(other, pad, [5]), written(other, [5]))
        bare = parts(type=1, trailer_flag=1, identifier=7)
        for pad in (0, 32):
            self.assertEqual(self.survey(bare, pad, [5]), vrt49.PAD)

    def test_order(self):
        # "20 PAD, after FIELD", and before ROOM
        late = parts(**{**self.VECTOR.__dict__, "tsf": 2, "fraction": 10**12})
        self.assertEqual(self.survey(late, 7, [5]), vrt49.TIME)
        self.assertEqual(self.survey(self.VECTOR, 7, [5], room=0, at=1), vrt49.PAD)
        self.assertEqual(self.survey(self.VECTOR, 8, [5], room=5, at=0), vrt49_write.ROOM)
        self.assertEqual(self.survey(self.VECTOR, 32, [0] * 65531), vrt49_write.VALUE)
        self.assertEqual(self.survey(self.VECTOR, 7, [0] * 65531), vrt49_write.SIZE)


if __name__ == "__main__":
    unittest.main()
