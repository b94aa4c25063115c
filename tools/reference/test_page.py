"""Document 01's sentences on the page, and those of C-11 and C-13 of document 02, held
against the reference.  The expectations are their own."""

import unittest

import page
import table

PATTERN = 0xA5A5A5A5
ONES = 0xFFFFFFFF

# The words of the fields 30 to 10 of a packet, each rule kept; the over-range count, the
# fourteenth word, is not held.
FIELDS = [0] * 23 + [0xA00003CF, 0] + [0] * 49
FIELDS[13] = 77
ALL_BITS = 0x7FFFFC00
ALL_HELD = 0x7FBFFC00


def started(*ids, choices=None):
    choices = [0] * len(ids) if choices is None else choices
    return table.start(list(ids), choices, table.layout_length(len(ids)))[1]


def full(*ids, choices=None):
    """A table of which each stream holds every field that is held."""
    found = started(*ids, choices=choices)
    for identifier in ids:
        header = 0x40000003 + len(FIELDS)
        answer = table.play(found, [header, identifier, ALL_BITS, *FIELDS])
        assert answer[0] == "played", answer
    return found


class Lengths(unittest.TestCase):
    # C-13: "the page body records it in one word more (2 + 17S to 2 + 90S)"

    def test_one_and_32(self):
        self.assertEqual(len(page.page_of(started(7))), 19)
        self.assertEqual(len(page.page_of(full(7))), 92)
        self.assertEqual(len(page.page_of(started(*range(32)))), 546)
        self.assertEqual(len(page.page_of(full(*range(32)))), 2882)

    def test_body(self):
        words = page.page_of(full(7))
        self.assertEqual((words[3], words[5]), (88, ALL_HELD))
        self.assertEqual(words[19:], [0] * 22 + [0xA00003CF, 0] + [0] * 49)
        other = page.page_of(full(7, choices=[1]))
        self.assertEqual(other, words[:18] + [1] + words[19:])

    def test_each_number(self):
        for n in range(1, 33):
            least, most = table.layout(started(*range(n))), table.layout(full(*range(n)))
            self.assertEqual(page.page_length(least), ("length", 2 + 17 * n))
            self.assertEqual(page.page_length(most), ("length", 2 + 90 * n))

    def test_size_cannot_be(self):
        self.assertLess(2 + 90 * 32, page.MOST_WORDS)


class Form(unittest.TestCase):
    # "Page, contents first: word 0 is S; word 1 the page's length; then S pairs
    # ...; then bodies."

    def test_fresh(self):
        words = page.page_of(started(7))
        self.assertEqual(words, [1, 19, 4, 15, 7] + [0] * 14)
        words = page.page_of(started(7, 8, choices=[1, 0]))
        first, second = [7] + [0] * 13 + [1], [8] + [0] * 14
        self.assertEqual(words, [2, 36, 6, 15, 21, 15, *first, *second])

    def test_two_streams(self):
        found = started(0x21, 0x22)
        # Type 4 of the second stream: bandwidth 5, level -1; then type 1 of the
        # first, with the counts 14 and 2.
        table.play(found, [0x40050006, 0x22, 1 << 29 | 1 << 24, 0, 5, 0xFF80])
        table.play(found, [0x100E0002, 0x21])
        table.play(found, [0x10020002, 0x21])
        first = [0x21, 0, 2, 3, 3] + [0] * 10
        second = [0x22, 1 << 29 | 1 << 24] + [0] * 6 + [1, 0, 6] + [0] * 4 + [0, 5, 0xFF80]
        self.assertEqual(page.page_of(found), [2, 39, 6, 15, 21, 18, *first, *second])

    def test_field_order(self):
        # "then the held words in field order", whatever came first
        found = started(7)
        for bit, word in ((10, 1), (30, 2), (23, 3)):
            table.play(found, [0x40000004, 7, 1 << bit, word])
        self.assertEqual(page.page_of(found)[19:], [2, 3, 1])


class Save(unittest.TestCase):
    # "Save: TABLE, SIZE, ROOM."

    def test_room(self):
        for found in (started(7), full(7), started(1, 2, 3)):
            lent = table.layout(found)
            words = page.page_of(found)
            out = [PATTERN] * (len(words) - 1)
            self.assertEqual(page.save(lent, out), (("refused", table.ROOM), out))
            for more in (0, 1, 5):
                out = [PATTERN] * (len(words) + more)
                answer, after = page.save(lent, out)
                self.assertEqual(answer, ("saved", len(words)))
                self.assertEqual(after, words + [PATTERN] * more)

    def test_longer_table(self):
        lent = table.layout(full(7)) + [PATTERN] * 3
        self.assertEqual(page.save(lent, [0] * 92), (("saved", 92), page.page_of(full(7))))

    def test_table_first(self):
        lent = table.layout(started(7))
        lent[5] = 17
        for room in (0, 18, 19, 92):
            out = [PATTERN] * room
            self.assertEqual(page.save(lent, out), (("refused", table.TABLE), out))
        self.assertEqual(page.page_length(lent), ("refused", table.TABLE))


class PutBack(unittest.TestCase):
    # "Put back: PAGE, ROOM."

    def test_the_same_table(self):
        tables = [started(7), full(7), full(1, 2, 3), started(*range(32))]
        tables += [started(7, choices=[1]), full(1, 2, 3, choices=[0, 1, 1])]
        for found in tables:
            lent = table.layout(found)
            words = page.page_of(found)
            for more in (0, 1, 5):
                answer, after = page.put_back(words, [PATTERN] * (len(lent) + more))
                self.assertEqual(answer, ("put", len(lent)))
                self.assertEqual(after, lent + [PATTERN] * more)
            short = [PATTERN] * (len(lent) - 1)
            self.assertEqual(page.put_back(words, short), (("refused", table.ROOM), short))

    def test_exactly_one_page(self):
        # "Put back takes exactly one page."
        words = page.page_of(started(7))
        lent = [PATTERN] * 90
        for other in (words + [0], words[:-1], words + words, []):
            self.assertEqual(page.put_back(other, lent), (("refused", page.PAGE), lent))

    def test_page_first(self):
        for lent in ([], [PATTERN] * 89):
            self.assertEqual(page.put_back([0, 2], lent), (("refused", page.PAGE), lent))

    def test_resumed(self):
        # What is played after it is put back is as if it had not been saved.
        packets = [[0x100E0002, 7], [0x40050004, 7, 1 << 30, 5], [0x10020002, 7], [0x10020002, 7]]
        # Valid data on, then lock off and another user bit, between them an over-range count.
        packets += [[0x40060004, 7, 1 << 16, 0x40040001], [0x40070004, 7, 1 << 22, 5]]
        packets += [[0x40080004, 7, 1 << 16, 0x20000002], [0x40090004, 7, 1 << 16, 0x40000002]]
        whole = started(7)
        answers = [table.play(whole, packet) for packet in packets]
        for cut in range(len(packets) + 1):
            found = started(7)
            before = [table.play(found, packet) for packet in packets[:cut]]
            lent = page.put_back(page.page_of(found), [PATTERN] * 90)[1]
            found = table.table_of(lent)
            after = [table.play(found, packet) for packet in packets[cut:]]
            self.assertEqual(before + after, answers)
            self.assertEqual(found, whole)
        self.assertEqual(whole[0]["held"], {30: [5], 16: [0x60000002]})

    def test_resumed_surveys(self):
        # Streams of both choices: what is read as a survey packet before is so after.
        packets = []
        for identifier in (7, 8):
            for pad in (0, 3):
                packets.append([0x1C000006, identifier, pad << 27 | 0xFFFFFA, 0x00080000, 5, 0])
            packets.append([0x10010002, identifier])
        for choices in ([0, 1], [1, 0], [1, 1]):
            whole = started(7, 8, choices=choices)
            answers = [table.play(whole, packet) for packet in packets]
            self.assertEqual(len([one for one in answers if one[0] == "refused"]), 2)
            for cut in range(len(packets) + 1):
                found = started(7, 8, choices=choices)
                before = [table.play(found, packet) for packet in packets[:cut]]
                lent = page.put_back(page.page_of(found), [PATTERN] * 179)[1]
                found = table.table_of(lent)
                after = [table.play(found, packet) for packet in packets[cut:]]
                self.assertEqual(before + after, answers)
                self.assertEqual(found, whole)


class WellMade(unittest.TestCase):
    # "A page is well made when some well-made table saves exactly its words."

    def broken(self, stores, found=None, past=()):
        words = page.page_of(found or started(7)) + list(past)
        for place, word in stores.items():
            words[place] = word
        self.assertEqual(page.well_made(words), page.broken_rules(words) == [])
        return page.broken_rules(words)

    def test_contents(self):
        self.assertEqual(self.broken({0: 0}), ["number"])
        self.assertEqual(self.broken({0: 33}), ["number"])
        self.assertEqual(self.broken({0: 32}), ["contents"])
        self.assertEqual(self.broken({1: 18}), ["length"])
        self.assertEqual(self.broken({1: 20}), ["length"])
        self.assertEqual(self.broken({2: 3}), ["offsets", "end"])
        self.assertEqual(self.broken({3: 14}), ["end"])
        self.assertEqual(self.broken({1: 20, 3: 16}, past=[0]), ["bodies"])
        self.assertEqual(self.broken({1: 20}, past=[0]), ["end"])

    def test_bodies(self):
        self.assertEqual(self.broken({5: 1 << 30}), ["bodies"])
        self.assertEqual(self.broken({5: 1 << 31}), ["indicator"])
        self.assertEqual(self.broken({8: 17}), ["last"])
        self.assertEqual(self.broken({8: 16}), [])
        self.assertEqual(self.broken({6: 1}), ["not started"])
        self.assertEqual(self.broken({14: 0}, full(7)), ["not started", "type 4"])
        self.assertEqual(self.broken({12: 0, 14: 0}, full(7)), ["type 4"])
        self.assertEqual(self.broken({21: 7}, started(7, 8)), ["identifiers"])

    def test_choice(self):
        # Word 14 of a body: 0 or 1.
        for place, found in ((18, started(7)), (20, started(7, 8)), (35, started(7, 8))):
            self.assertEqual(self.broken({place: 1}, found), [])
            for wrong in (2, 3, 256, 1 << 31, ONES):
                self.assertEqual(self.broken({place: wrong}, found), ["choice"])
        self.assertEqual(self.broken({18: 1}, full(7)), [])
        self.assertEqual(self.broken({18: 2}, full(7)), ["choice"])
        # A body as it was without the word.
        self.assertEqual(page.broken_rules([1, 18, 4, 14, 7] + [0] * 13), ["bodies"])

    def test_fields(self):
        # bandwidth, level, sample rate, temperature, device, state and format
        for place in (20, 30, 32, 37, 38):
            self.assertEqual(self.broken({place: 1 << 31}, full(7)), ["field"])
        self.assertEqual(self.broken({39: 1 << 16}, full(7)), ["field"])
        self.assertEqual(self.broken({40: 1 << 23}, full(7)), ["field"])
        self.assertEqual(self.broken({41: ONES}, full(7)), ["field"])
        for place in (19, 22, 24, 26, 28, 31, 34, 36, 42, 43, 91):
            self.assertEqual(self.broken({place: ONES}, full(7)), [])

    def test_over_range_count(self):
        # C-11: "a page that holds field 22 ... is PAGE": its bit with its word, in order,
        # alone and among all the others; and without its word.
        alone = [1, 20, 4, 16, 7, 1 << 22] + [0] * 6 + [1, 0, 1] + [0] * 4 + [5]
        self.assertEqual(page.broken_rules(alone), ["indicator"])
        self.assertFalse(page.well_made(alone))
        words = page.page_of(full(7))
        among = [1, 93, 4, 89, 7, ALL_BITS, *words[6:32], 5, *words[32:]]
        self.assertEqual(page.broken_rules(among), ["indicator"])
        self.assertFalse(page.well_made(among))
        self.assertEqual(self.broken({5: ALL_BITS}, full(7)), ["bodies"])

    def test_state(self):
        # C-11: "those bits or a value without its enable"; the state word is word 40.
        def broken(word):
            return self.broken({40: word}, full(7))

        for word in (0, 0xFF, 0xFC000000, 0xFC0FC0FF, 0x80080000, 0x04004000):
            self.assertEqual(broken(word), [])
        for bit in (25, 24, 13, 12, 19, 18, 17, 16, 15, 14):
            self.assertEqual(broken(1 << bit), ["state"])
        for bit in (31, 30, 29, 28, 27, 26):
            self.assertEqual(broken(1 << bit), [])
            self.assertEqual(broken(1 << bit | 1 << bit - 12), [])
            self.assertEqual(broken(0xFC0FC000 - (1 << bit)), ["state"])
        for bit in (23, 22, 21, 20, 11, 10, 9, 8):
            self.assertEqual(broken(1 << bit), ["field"])

    def test_both_ways(self):
        # Each word of a page changed, and the page then a word shorter or longer:
        # the sentence and the rules agree, or well_made fails.
        found = started(7, 8, choices=[1, 0])
        table.play(found, [0x40050006, 8, 1 << 29 | 1 << 24, 0, 5, 0xFF80])
        table.play(found, [0x40060004, 8, 1 << 16, 0x40040000])
        table.play(found, [0x100E0002, 7])
        words = page.page_of(found)
        made = 0
        for place, old in enumerate(words):
            for new in (0, 1, 14, 16, 17, 1 << 8, 1 << 23, 1 << 31, ONES, old + 1, old ^ 1):
                other = words[:place] + [new] + words[place + 1 :]
                made += page.well_made(other)
                for more in (other[:-1], other + [0]):
                    self.assertFalse(page.well_made(more))
                    page.well_made([more[0], len(more)] + more[2:])
        self.assertGreater(made, 50)


if __name__ == "__main__":
    unittest.main()
