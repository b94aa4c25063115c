"""The sentences of C-16 of document 02 held against the reference.  The expectations are
their own, with words of an index laid out by hand."""

import unittest

import index
import page
import table
from index import PLACE
from page import PAGE
from table import ROOM, TABLE

PATTERN = 0xA5A5A5A5
ONES = 0xFFFFFFFF

# A data packet of stream 7, one of stream 8, one of a stream that is not declared, and one
# without an identifier.
DATA = [0x10000002, 7]
OTHER = [0x30010003, 8, 5]
STRANGE = [0x10000004, 9, 1, 2]
NAMELESS = [0x00000001]


def started(*ids, choices=None, past=0):
    choices = [0] * len(ids) if choices is None else choices
    room = [PATTERN] * (table.layout_length(len(ids)) + past)
    return table.start_lent(list(ids), choices, room)[1]


def fresh(lent, words=4200):
    answer, found = index.start_index(lent, [PATTERN] * words)
    assert answer[0] == "started", answer
    return found


def grown(lent, packets, found):
    """The table and the index behind these packets, each handed alone."""
    for words in packets:
        answer, lent, found = index.grow(lent, words, found)
        assert answer[0] != "refused", answer
    return lent, found


def joined(packets):
    return [word for words in packets for word in words]


def by_hand(entries, packets, place, given, words):
    """An index with these contents; given has place, offset and length of entries."""
    found = [entries, packets, place >> 32, place & ONES]
    for at, offset, length in given:
        found += [at >> 32, at & ONES, offset, length]
    found += [PATTERN] * (4100 - len(found))
    return (found + [PATTERN] * words)[:words]


class Start(unittest.TestCase):
    # "starting TABLE, ROOM"

    def test_words(self):
        lent = started(7)
        answer, found = index.start_index(lent, [PATTERN] * 4125)
        self.assertEqual(answer, ("started", 4119))
        self.assertEqual(found[:8], [1, 0, 0, 0, 0, 0, 4100, 19])
        self.assertEqual(found[8:4100], [PATTERN] * 4092)
        self.assertEqual(found[4100:4119], [1, 19, 4, 15, 7] + [0] * 14)
        self.assertEqual(found[4119:], [PATTERN] * 6)

    def test_room(self):
        lent = started(7, 8)
        for words in (0, 4, 4099, 4100, 4135):
            answer, found = index.start_index(lent, [PATTERN] * words)
            self.assertEqual((answer, found), (("refused", ROOM), [PATTERN] * words))
        self.assertEqual(index.start_index(lent, [0] * 4136)[0], ("started", 4136))

    def test_table_first(self):
        lent = started(7)
        lent[5] = 17
        for words in (0, 4118, 4119):
            answer, found = index.start_index(lent, [PATTERN] * words)
            self.assertEqual((answer, found), (("refused", TABLE), [PATTERN] * words))

    def test_well_made(self):
        self.assertTrue(index.well_made(fresh(started(7))))


class Contents(unittest.TestCase):
    # "Contents are well made when wholly there, with one entry for each boundary reached, no
    # word place over 65,535 words for each packet before it, and pages behind the contents
    # in order, without gaps, inside the buffer."

    def broken(self, *given):
        return index.broken_rules(by_hand(*given))

    def test_whole(self):
        one = [(0, 4100, 0)]
        self.assertEqual(self.broken(1, 0, 0, one, 4100), [])
        self.assertEqual(self.broken(1, 0, 0, one, 4099), ["whole"])
        self.assertEqual(index.broken_rules([]), ["whole"])

    def test_boundaries(self):
        for packets, entries in ((0, 1), (1, 1), (1023, 1), (1024, 2), (1025, 2), (2048, 3)):
            given = [(0, 4100, 0)] * entries
            self.assertEqual(self.broken(entries, packets, 0, given, 4100), [])
            for wrong in (0, entries - 1, entries + 1, 1024, 1025, ONES):
                given = [(0, 4100, 0)] * (entries + 1)
                self.assertIn("boundaries", self.broken(wrong, packets, 0, given, 4100))

    def test_full(self):
        given = [(0, 4100, 0)] * 1024
        self.assertEqual(self.broken(1024, 1048575, 0, given, 4100), [])
        self.assertEqual(self.broken(1025, 1048576, 0, given, 4100), ["entries"])
        self.assertEqual(self.broken(1 << 22, ONES, 0, given, 4100), ["entries"])

    def test_places(self):
        one = [(0, 4100, 0)]
        for packets in (0, 1, 2, 1023):
            most = 65535 * packets
            self.assertEqual(self.broken(1, packets, most, one, 4100), [])
            self.assertEqual(self.broken(1, packets, most + 1, one, 4100), ["place"])
            self.assertEqual(self.broken(1, packets, 1 << 32, one, 4100), ["place"])
        self.assertEqual(self.broken(1, 5, 0, [(1, 4100, 0)], 4100), ["places"])
        self.assertEqual(self.broken(1, 5, 0, [(1 << 32, 4100, 0)], 4100), ["places"])
        most = 65535 * 1024
        two = [(0, 4100, 0), (most, 4100, 0)]
        self.assertEqual(self.broken(2, 1024, 0, two, 4100), [])
        two[1] = (most + 1, 4100, 0)
        self.assertEqual(self.broken(2, 1024, 0, two, 4100), ["places"])
        # The last of 1,024 may be above 2^32.
        all_of_them = [(65535 * 1024 * j, 4100, 0) for j in range(1024)]
        packets = 1048575
        most = 65535 * packets
        self.assertEqual(self.broken(1024, packets, most, all_of_them, 4100), [])
        self.assertEqual(self.broken(1024, packets, most + 1, all_of_them, 4100), ["place"])

    def test_offsets(self):
        two = [(0, 4100, 10), (5, 4110, 20)]
        self.assertEqual(self.broken(2, 1024, 0, two, 4130), [])
        self.assertEqual(self.broken(2, 1024, 0, two, 4131), [])
        self.assertEqual(self.broken(2, 1024, 0, two, 4129), ["inside"])
        for entry, part in ((0, 1), (0, 2), (1, 1)):
            for step in (1, -1):
                bent = [list(one) for one in two]
                bent[entry][part] += step
                self.assertEqual(self.broken(2, 1024, 0, bent, 4150), ["offsets"])
        # The last length may be another: the pages themselves are not looked at.
        two[1] = (5, 4110, 40)
        self.assertEqual(self.broken(2, 1024, 0, two, 4150), [])
        self.assertEqual(self.broken(2, 1024, 0, two, 4149), ["inside"])

    def test_nothing_else(self):
        # Places need not rise, and words of other entries are any.
        three = [(0, 4100, 0), (9, 4100, 0), (3, 4100, 0), (ONES << 32, 7, ONES)]
        self.assertEqual(self.broken(3, 2048, 1, three, 4100), [])


class Grow(unittest.TestCase):
    def test_heard(self):
        lent, found = started(7, 8, past=3), fresh(started(7, 8))
        answer, after, behind = index.grow(lent, OTHER + DATA, found)
        self.assertEqual(answer, ("heard", 3, 3, 1, 0))
        self.assertEqual((answer[0], after), ("heard", table.play_lent(lent, OTHER)[1]))
        self.assertEqual(behind, [1, 1, 0, 3] + found[4:])

    def test_undeclared(self):
        # "On a STREAM refusal growing leaves the table, counts the packet and answers
        # "undeclared" with the place."
        lent, found = started(7), fresh(started(7))
        for words, place in ((STRANGE, 1), (NAMELESS, 0), ([0x20000002, 7], 0)):
            answer, after, behind = index.grow(lent, words, found)
            self.assertEqual(answer, ("undeclared", len(words), place))
            self.assertEqual(after, lent)
            self.assertEqual(behind, [1, 1, 0, len(words)] + found[4:])

    def test_reading_refusals(self):
        # "any other ends the recording"
        lent, found = started(7, 8, choices=[0, 1]), fresh(started(7, 8))
        for words, told in (
            ([], (1, 0, None)),
            ([0x60000001], (2, 0, None)),
            ([0x12000002, 7], (3, 0, None)),
            ([0x10000001, 7], (4, 0, None)),
            ([0x10000003, 7], (5, 0, None)),
            ([0x18000004, 7, 1 << 24, 0], (6, 2, None)),
            ([0x10200004, 7, ONES, 0], (7, 2, None)),
            ([0x40000003, 7, 1], (8, 2, None)),
            ([0x40000003, 7, 1 << 30], (9, 2, None)),
            ([0x40000004, 7, 1 << 24, ONES], (10, 3, 24)),
            ([0x10000002, 8], (20, 0, None)),
        ):
            answer = index.grow(lent, words, found)
            self.assertEqual(answer, (("refused", *told), lent, found))

    def test_boundary(self):
        # "a saved page at packet boundary 0 and every 1,024th reached after it, with its
        # word place"
        lent, found = grown(started(7), [DATA] * 1023, fresh(started(7)))
        self.assertEqual(found[:8], [1, 1023, 0, 2046, 0, 0, 4100, 19])
        self.assertEqual(found[8:12], [PATTERN] * 4)
        lent, found = grown(lent, [STRANGE], found)
        self.assertEqual(found[:8], [2, 1024, 0, 2050, 0, 0, 4100, 19])
        self.assertEqual(found[8:12], [0, 2050, 4119, 19])
        self.assertEqual(found[4119:4138], page.page_of(table.table_of(lent)))
        self.assertEqual(found[4138:], [PATTERN] * 62)
        before = list(found)
        lent, found = grown(lent, [DATA] * 1023, found)
        self.assertEqual(found, [2, 2047, 0, 4096] + before[4:])
        lent, found = grown(lent, [DATA], found)
        self.assertEqual(found[:4], [3, 2048, 0, 4098])
        self.assertEqual(found[12:16], [0, 4098, 4138, 19])
        self.assertEqual(found[4138:4157], page.page_of(table.table_of(lent)))

    def at_1023(self, words):
        found = fresh(started(7), words)
        found[1] = 1023
        return found

    def test_room(self):
        # The page is that of the table behind the packet: 19 words, or 21 with a bandwidth.
        lent = started(7)
        tuning = [0x40000005, 7, 1 << 29, 0, 5]
        for words, least in ((DATA, 4138), (STRANGE, 4138), (tuning, 4140)):
            for length in (4119, 4137, 4138, 4139, 4140, 4141):
                found = self.at_1023(length)
                answer, after, behind = index.grow(lent, words, found)
                if length < least:
                    self.assertEqual(answer, ("refused", ROOM, None, None))
                    self.assertEqual((after, behind), (lent, found))
                else:
                    self.assertNotEqual(answer[0], "refused")
                    self.assertEqual(behind[:2], [2, 1024])
                    self.assertEqual(behind[8:12], [0, len(words), 4119, least - 4119])
        # A packet that reaches no such boundary needs no room.
        found = self.at_1023(4119)
        found[1] = 1022
        self.assertEqual(index.grow(lent, tuning, found)[0], ("heard", 5, 4, 0, 0))

    def test_full(self):
        # "contents ... full"
        given = [(0, 4100, 0)] * 1024
        lent = started(7)
        found = by_hand(1024, 1048575, 7, given, 5000)
        for words in (DATA, STRANGE):
            answer = index.grow(lent, words, found)
            self.assertEqual(answer, (("refused", ROOM, None, None), lent, found))
        found = by_hand(1024, 1048574, ONES, given, 4100)
        answer, _, behind = index.grow(lent, DATA, found)
        self.assertEqual(answer, ("heard", 2, 1, 0, 0))
        self.assertEqual(behind[:4], [1024, 1048575, 1, 1])

    def test_high_places(self):
        # "with its word place": behind 67,584 packets it may need a second word
        lent = started(7)
        for reached, size, high, low in (
            (ONES - 1, 1, 0, ONES), (ONES, 1, 1, 0), (ONES - 1, 2, 1, 0), (ONES - 3, 9, 1, 5),
            (ONES + 6, 1, 1, 6),
        ):
            words = [size] + [0] * (size - 1)
            for packets, entries in ((67582, 66), (67583, 67)):
                found = by_hand(66, packets, reached, [(0, 4100, 0)] * 66, 4119)
                answer, _, behind = index.grow(lent, words, found)
                self.assertEqual(answer, ("undeclared", size, 0))
                self.assertEqual(behind[:4], [entries, packets + 1, high, low])
                entry = [high, low, 4100, 19] if entries == 67 else [PATTERN] * 4
                self.assertEqual(behind[268:272], entry)

    def test_order(self):
        # "growing TABLE, PAGE for contents, reading refusals, ROOM"
        right, wrong = started(7), started(7)
        wrong[5] = 17
        full, bad = self.at_1023(4137), self.at_1023(4137)
        bad[6] = 4101
        for lent, words, found, number in (
            (wrong, [], bad, TABLE), (wrong, DATA, full, TABLE), (wrong, [], full, TABLE),
            (right, [], bad, PAGE), (right, DATA, bad, PAGE), (right, [], full, 1),
            (right, DATA, full, ROOM),
        ):
            answer, after, behind = index.grow(lent, words, found)
            self.assertEqual(answer[:2], ("refused", number))
            self.assertEqual((after, behind), (lent, found))


class Jump(unittest.TestCase):
    def recording(self):
        """2,060 packets of two streams, one plain and one of survey packets, some of
        neither, now and then a Context packet; and the table at each boundary."""
        packets = []
        for k in range(2060):
            count = k * 7 // 5 % 16 << 16
            packets.append(
                [
                    [0x10000002 + count, 7],
                    [0x1C000006 + count, 8, 0x18FFFFFA, 0x00080000, k, 0],
                    [0x40000004 + count, 7 + k % 3 // 2, 1 << (30, 23)[k % 2], k],
                    STRANGE,
                    [0x50000003 + count, 8, k],
                    NAMELESS,
                    [0x40000004 + count, 8, 1 << 16, 1 << 26 + k % 6 | k % 256],
                ][k % 7]
            )
        found = table.table_of(started(7, 8, choices=[0, 1]))
        tables, places = [table.layout(found)], [0]
        for words in packets:
            answer = table.play(found, words)
            self.assertTrue(answer[0] == "played" or answer[1] == table.STREAM, answer)
            tables.append(table.layout(found))
            places.append(places[-1] + len(words))
        return packets, tables, places

    def test_as_played(self):
        # "the table equals that from playing all earlier packets on the first", jumps both
        # ways
        packets, tables, places = self.recording()
        words = joined(packets)
        lent, found = started(7, 8, choices=[0, 1]), fresh(started(7, 8, choices=[0, 1]), 4800)
        for n, one in enumerate(packets):
            answer, lent, found = index.grow(lent, words[places[n] :], found)
            self.assertNotEqual(answer[0], "refused")
            self.assertEqual(lent, tables[n + 1])
            if n == 1100:
                self.assertEqual(index.jump(words, 0, found, 1102, [0] * 179)[0][1], PLACE)
        for n in (2060, 0, 1, 1023, 1024, 1025, 500, 2047, 2048, 2049, 1024, 0, 2060):
            for more in (0, 3):
                answer, after = index.jump(words, 0, found, n, [PATTERN] * (179 + more))
                self.assertEqual(answer, ("jumped", 179, places[n]))
                self.assertEqual(after, tables[n] + [PATTERN] * more)
            # The words from the entry's place on do as well, those behind it do not.
            first = places[n // 1024 * 1024]
            answer, after = index.jump(words[first:], first, found, n, [0] * 179)
            self.assertEqual((answer, after), (("jumped", 179, places[n]), tables[n]))
            behind = index.jump(words[first + 1 :], first + 1, found, n, [0] * 179)
            self.assertEqual(behind, (("refused", PAGE), [0] * 179))
        for n in (2061, 1 << 32, (1 << 32) + 5, (1 << 64) - 1):
            self.assertEqual(
                index.jump(words, 0, found, n, [1] * 179), (("refused", PLACE), [1] * 179)
            )
        self.assertEqual(index.jump(words, 0, found, 5, [1] * 178), (("refused", ROOM), [1] * 178))

    def small(self):
        packets = [DATA, STRANGE, OTHER, NAMELESS, DATA]
        lent, found = grown(started(7, 8), packets, fresh(started(7, 8)))
        return joined(packets), lent, found

    def test_all_small(self):
        words, lent, found = self.small()
        for n, place in enumerate((0, 2, 6, 9, 10, 12)):
            answer, after = index.jump(words, 0, found, n, [PATTERN] * 180)
            self.assertEqual(answer, ("jumped", 179, place))
        self.assertEqual(after, lent + [PATTERN])
        self.assertEqual(index.jump(words, 0, found, 6, [0] * 179)[0], ("refused", PLACE))

    def test_recording_changed(self):
        # "or an entry from which the recording has no boundary N"
        words, _, found = self.small()
        lent = [0] * 179
        self.assertEqual(index.jump(words[:-1], 0, found, 4, lent)[0], ("jumped", 179, 10))
        self.assertEqual(index.jump(words[:-1], 0, found, 5, lent), (("refused", PAGE), lent))
        self.assertEqual(index.jump([], 0, found, 0, lent)[0], ("jumped", 179, 0))
        self.assertEqual(index.jump([], 0, found, 1, lent), (("refused", PAGE), lent))
        other = list(words)
        other[2] = 0x60000004
        self.assertEqual(index.jump(other, 0, found, 1, lent)[0], ("jumped", 179, 2))
        self.assertEqual(index.jump(other, 0, found, 2, lent), (("refused", PAGE), lent))
        # Of no declared stream it goes on.
        other = list(words)
        other[1] = 10
        answer, after = index.jump(other, 0, found, 1, lent)
        self.assertEqual((answer, after), (("jumped", 179, 2), started(7, 8)))

    def test_entry(self):
        # "PAGE for ... an entry not well made"; the others are served
        words = page.page_of(table.table_of(started(7)))
        given = [(0, 4100, 19), (3, 4119, 19), (1, 4138, 19), (5, 4157, 0)]
        found = by_hand(4, 4000, 100, given, 4157)
        for entry in (0, 1, 2):
            found[4100 + 19 * entry : 4119 + 19 * entry] = words
        found[4119] = 2
        recording = DATA + DATA
        lent = [PATTERN] * 90
        for n, answer in (
            (0, ("jumped", 90, 0)), (1, ("jumped", 90, 2)), (1024, ("refused", PAGE)),
            (2048, ("jumped", 90, 1)), (3072, ("refused", PAGE)), (4001, ("refused", PLACE)),
        ):
            self.assertEqual(index.jump(recording, 0, found, n, lent)[0], answer)
        found[4119] = 1
        self.assertEqual(index.jump(recording, 0, found, 1024, lent)[0], ("jumped", 90, 3))
        # A place just at the end of the words, and one past it.
        self.assertEqual(index.jump(recording[:3], 0, found, 1024, lent)[0], ("jumped", 90, 3))
        self.assertEqual(index.jump(recording[:2], 0, found, 1024, lent)[0], ("refused", PAGE))

    def test_high_places(self):
        # The words of a recording from a place of two words on: packets of 2, 4 and 1 words.
        words = DATA + STRANGE + NAMELESS
        lent = [PATTERN] * 90
        for place, behind in (
            (0xFFFFFFFD, (0xFFFFFFFD, 0xFFFFFFFF, 0x100000003, 0x100000004)),
            (0xFFFFFFFF, (0xFFFFFFFF, 0x100000001, 0x100000005, 0x100000006)),
            (0x100000000, (0x100000000, 0x100000002, 0x100000006, 0x100000007)),
            (0x100000005, (0x100000005, 0x100000007, 0x10000000B, 0x10000000C)),
        ):
            given = [(0, 4100, 0)] * 65 + [(place, 4100, 19)]
            found = by_hand(66, 66600, 0, given, 4119)
            found[4100:] = page.page_of(table.table_of(started(7)))
            for r in range(4):
                for before in (0, 9):
                    handed, first = [ONES] * before + words, place - before
                    answer, after = index.jump(handed, first, found, 66560 + r, lent)
                    self.assertEqual(answer, ("jumped", 90, behind[r]))
                    played = started(7) if r == 0 else table.play_lent(started(7), DATA)[1]
                    self.assertEqual(after, played)
                for first in (place + 1, place - 0x100000000, place + 0x100000000, place & 7):
                    if first >= 0:
                        answer = index.jump(words, first, found, 66560 + r, lent)
                        self.assertEqual(answer, (("refused", PAGE), lent))
            # The words end at the entry, one before it, and one before the last packet's end.
            for given_words, first, r, right in (
                ([ONES] * 9, place - 9, 0, ("jumped", 90, place)),
                ([ONES] * 8, place - 9, 0, ("refused", PAGE)),
                (words[:-1], place, 2, ("jumped", 90, behind[2])),
                (words[:-1], place, 3, ("refused", PAGE)),
                (words[:5], place, 2, ("refused", PAGE)),
            ):
                self.assertEqual(index.jump(given_words, first, found, 66560 + r, lent)[0], right)

    def test_order(self):
        # "jumping PAGE for contents, PLACE, PAGE for the entry, ROOM"
        words, _, found = self.small()
        page_bad, contents_bad, both = list(found), list(found), list(found)
        page_bad[4100] = 3
        contents_bad[0] = 2
        both[0], both[4100] = 2, 3
        for given, n, room, number in (
            (both, 6, 178, PAGE), (contents_bad, 6, 179, PAGE), (contents_bad, 5, 178, PAGE),
            (page_bad, 6, 179, PLACE), (page_bad, 6, 178, PLACE), (found, 6, 0, PLACE),
            (page_bad, 5, 178, PAGE), (found, 5, 178, ROOM),
        ):
            lent = [PATTERN] * room
            self.assertEqual(index.jump(words, 0, given, n, lent), (("refused", number), lent))
        # Words that do not go on, with a table that is too short.
        lent = [PATTERN] * 178
        self.assertEqual(index.jump(words[:3], 0, found, 2, lent), (("refused", PAGE), lent))


class Sizes(unittest.TestCase):
    def test_contents(self):
        self.assertEqual(index.CONTENTS_WORDS, 4100)

    def test_places_need_two_words(self):
        self.assertGreater(65535 * 1048575, 2**32)


if __name__ == "__main__":
    unittest.main()
