"""Document 01's "Samples from the bench" that concern packed samples, C-12's
sentences, and the rules and examples of source document 003, held against the
reference.  The expectations are those documents' own."""

import unittest

import payload


def packed(first, items, events=None, channels=None, second=0):
    none = [0] * len(items)
    answer, words = payload.pack(first, second, items, events or none, channels or none, 1000)
    assert answer == "packed", (answer, words)
    return words


def unpacked(first, n, words, second=0):
    answer, parts = payload.unpack(first, second, n, words, (n, n, n))
    assert answer == "unpacked", (answer, parts)
    return parts


class TwelveBits(unittest.TestCase):
    # "12-bit items ABC, DEF, 123: link ABCDEF12 30000000; processing ABCDEF00
    # 12300000."
    ITEMS = [0xABC, 0xDEF, 0x123]
    LINK = 0x800002CB
    PROCESSING = 0x000002CB

    def test_link_efficient(self):
        words = [0xABCDEF12, 0x30000000]
        self.assertEqual(packed(self.LINK, self.ITEMS), words)
        self.assertEqual(unpacked(self.LINK, 3, words)[0], self.ITEMS)

    def test_processing_efficient(self):
        words = [0xABCDEF00, 0x12300000]
        self.assertEqual(packed(self.PROCESSING, self.ITEMS), words)
        self.assertEqual(unpacked(self.PROCESSING, 3, words)[0], self.ITEMS)

    def test_unused_bits_are_ignored(self):
        # "Writers put zero in unused bits; readers ignore them."
        self.assertEqual(unpacked(self.LINK, 3, [0xABCDEF12, 0x3FFFFFFF])[0], self.ITEMS)
        self.assertEqual(
            unpacked(self.PROCESSING, 3, [0xABCDEFFF, 0x123FFFFF])[0], self.ITEMS
        )


class Tags(unittest.TestCase):
    # "f 16, item 12 bits ABC, one event bit 1, two channel bits 2: ABC6."

    def test_abc6(self):
        for first in (0x801203CB, 0x001203CB):
            self.assertEqual(packed(first, [0xABC], [1], [2]), [0xABC60000])
            self.assertEqual(
                packed(first, [0, 0xABC], [0, 1], [0, 2]), [0x0000ABC6]
            )
            self.assertEqual(unpacked(first, 1, [0xABC60000]), ([0xABC], [1], [2]))
            # The unused bit, and the bits past the field.
            self.assertEqual(unpacked(first, 1, [0xABCEFFFF]), ([0xABC], [1], [2]))


class ComplexFormat(unittest.TestCase):
    # "0xA00003CF: link, complex, 16-bit signed."
    FIRST = 0xA00003CF

    def test_parts(self):
        self.assertTrue(payload.link_efficient(self.FIRST))
        self.assertTrue(payload.complex_samples(self.FIRST))
        self.assertEqual(payload.item_size(self.FIRST), 16)
        self.assertEqual(payload.field_size(self.FIRST), 16)
        self.assertFalse(payload.format_refused(self.FIRST))

    def test_two_items_for_each_sample(self):
        self.assertEqual(payload.words_needed(self.FIRST, 0, 2), ("words", 1))
        self.assertEqual(payload.words_needed(self.FIRST, 0, 1), ("refused", payload.COUNT))


class Signed(unittest.TestCase):
    # "12-bit 0x800 is -2048; one-bit 1 is -1."

    def test_samples(self):
        self.assertEqual(payload.signed(12, 0x800), ("value", -2048))
        self.assertEqual(payload.signed(1, 1), ("value", -1))

    def test_largest(self):
        self.assertEqual(payload.signed(64, 2**63), ("value", -(2**63)))
        self.assertEqual(payload.signed(64, 2**63 - 1), ("value", 2**63 - 1))
        self.assertEqual(payload.signed(64, 2**64 - 1), ("value", -1))

    def test_refused(self):
        self.assertEqual(payload.signed(0, 0), ("refused", payload.FORMAT))
        self.assertEqual(payload.signed(65, 0), ("refused", payload.FORMAT))
        self.assertEqual(payload.signed(12, 0x1000), ("refused", payload.VALUE))


class Count(unittest.TestCase):
    # "n is at most 2,097,120".  C-12: "n becomes a multiple of the whole group."  "n of
    # 0 is legal with no words."

    def test_most(self):
        self.assertEqual(payload.words_needed(0x80000000, 0, 2_097_120), ("words", 65_535))
        self.assertEqual(
            payload.words_needed(0x80000000, 0, 2_097_121), ("refused", payload.COUNT)
        )

    def test_none(self):
        self.assertEqual(packed(0x800002CB, []), [])
        self.assertEqual(unpacked(0x800002CB, 0, []), ([], [], []))

    def test_vectors(self):
        self.assertEqual(payload.words_needed(0x000001C7, 3, 8), ("words", 2))
        self.assertEqual(payload.words_needed(0x000001C7, 3, 6), ("refused", payload.COUNT))

    def test_groups(self):
        # 003, Rule 6.1.6.5-1: "the number of Data Items in a Data Sample multiplied by
        # the vector size multiplied by the Repeat Count"
        for first, second, items in (
            (0x000001C7, 0x00030003, 16), (0x208001C7, 0x00030000, 8),
            (0x408001C7, 0x00020004, 30), (0x000001C7, 0x00000000, 1),
            (0x200001C7, 0xFFFFFFFF, 2**33), (0x000001C7, 0xFFFF0000, 65_536),
        ):
            self.assertEqual(payload.group(first, second), items)
        # 2 groups of 16; 24 is a multiple of the vector size alone.
        first, second = 0x000001C7, 0x00030003
        self.assertEqual(payload.words_needed(first, second, 32), ("words", 8))
        self.assertEqual(payload.words_needed(first, second, 24), ("refused", payload.COUNT))

    def test_large_groups(self):
        # C-12: "A group over 2,097,120 items is legal only with n of 0."  65,535 * 16 * 2
        # is 2,097,120 and 169 * 12,409 one more.
        first, second = 0x200001C7, 0x000FFFFE
        self.assertEqual(payload.words_needed(first, second, 2_097_120), ("words", 524_280))
        for first, second, group in (
            (0x000001C7, 168 << 16 | 12_408, 2_097_121), (0x000001C7, 0x001FFFFF, 2**21),
            (0x000001C7, 0xFFFFFFFF, 2**32), (0x200001C7, 0xFFFFFFFF, 2**33),
        ):
            self.assertEqual(payload.group(first, second), group)
            self.assertEqual(payload.words_needed(first, second, 0), ("words", 0))
            for n in (1, 65_536, 2**20, 2_097_120, group, 2 * group):
                self.assertEqual(payload.words_needed(first, second, n), ("refused", payload.COUNT))


class Refused(unittest.TestCase):
    # "Processing-efficient fields of 33 to 63 bits are refused (ours)."

    def test_fields(self):
        for f in range(1, 65):
            word = (f - 1) * 64
            answer = "refused" if 33 <= f <= 63 else "words"
            self.assertEqual(payload.words_needed(word, 0, 1)[0], answer)
            self.assertEqual(payload.words_needed(0x80000000 + word, 0, 1)[0], "words")

    # C-12: "FORMAT no longer covers repeat or bit 23".

    def test_repeat(self):
        for first in (0x000001C7, 0x208001C7, 0x408001C7, 0x008001C7):
            for second in (0, 0x00010000, 0x00030003, 0x80000000, 0xFFFFFFFF):
                self.assertEqual(payload.words_needed(first, second, 0), ("words", 0))


class Figures(unittest.TestCase):
    # Source document 003, appendix B.9.

    def test_common_sizes(self):
        # Figures B.9-3 to B.9-8.
        items = [0x01, 0x23, 0x45, 0x67]
        for first in (0x000007DF, 0x100007DF, 0x0E0007DF, 0x200007DF, 0x4E0007DF):
            self.assertEqual(packed(first, items), items)
        for first in (0x000003CF, 0x100003CF, 0x200003CF, 0x400003CF):
            self.assertEqual(packed(first, items), [0x00010023, 0x00450067])
        for first in (0x000001C7, 0x100001C7, 0x200001C7, 0x400001C7):
            self.assertEqual(packed(first, items), [0x01234567])

    def test_fourteen_bits(self):
        # Figures B.9-9 to B.9-11.
        items = [0x3FFF, 0x0001, 0x2001]
        self.assertEqual(packed(0x8000034D, items), [0xFFFC0018, 0x00400000])
        self.assertEqual(packed(0x0000034D, items), [0xFFFC0010, 0x80040000])
        self.assertEqual(packed(0x000003CD, items), [0xFFFC0004, 0x80040000])
        self.assertEqual(packed(0x800003CD, items), [0xFFFC0004, 0x80040000])

    def test_tags(self):
        # Figures B.9-12 and B.9-14: 8-bit items in 10-bit fields.
        items = [0xAA, 0xBB, 0xCC, 0xDD]
        tags = [0, 1, 2, 3]
        words = [0xAA2EDCC8, 0xDDC00000]
        self.assertEqual(packed(0x00200247, items, events=tags), words)
        self.assertEqual(packed(0x00020247, items, channels=tags), words)
        self.assertEqual(unpacked(0x00200247, 4, words), (items, tags, [0] * 4))
        self.assertEqual(unpacked(0x00020247, 4, words), (items, [0] * 4, tags))


    def test_repeats(self):
        # Figures B.9-15 and B.9-16: Data Item 1 is in the first packing field, and so on.
        items = [*range(1, 33)]
        words = [0x01010101 * k + 0x00010203 for k in range(1, 33, 4)]
        self.assertEqual(words[:2], [0x01020304, 0x05060708])
        for first, second in (
            (0x000001C7, 0x00030003), (0x100001C7, 0x00030003),
            (0x208001C7, 0x00030000), (0x408001C7, 0x00030000),
        ):
            self.assertEqual(packed(first, items, second=second), words)
            self.assertEqual(unpacked(first, 32, words, second)[0], items)


def coordinates(first, second, n, item):
    answer, found = payload.coordinates_of(first, second, n, item)
    assert answer == "coordinates", (answer, found)
    return found


def instant(second, time, repeat):
    """The sample's number within its channel, from 0."""
    return time * payload.repeat_of(second) + repeat


class OrderInFigures(unittest.TestCase):
    # Source document 003, appendix B.9; its data items and samples are counted from 1,
    # and where samples are real the components of a sample vector too.

    def test_sample_vector(self):
        # Figure B.9-13: "Data Item 1 (Component 1, Sample 1)", ..
        figure = "1,1 2,1 3,1 4,1 1,2 2,2 3,2 4,2 1,3 2,3 3,3 4,3 1,4 2,4 3,4 4,4".split()
        self.assertEqual(len(figure), 16)
        for first in (0x000001C7, 0x100001C7):
            self.held_to(figure, first, 0x00000003, 16)

    def test_channel_repeating(self):
        # Figure B.9-15, which ends inside the second group.
        figure = (
            "1,1 1,2 1,3 1,4  2,1 2,2 2,3 2,4  3,1 3,2 3,3 3,4  4,1 4,2 4,3 4,4"
            "  1,5 1,6 1,7 1,8  2,5 2,6 2,7 2,8"
        ).split()
        self.assertEqual(len(figure), 24)
        for first in (0x000001C7, 0x100001C7):
            self.held_to(figure, first, 0x00030003, 32)

    def held_to(self, figure, first, second, n):
        for item, said in enumerate(figure):
            time, channel, component, repeat = coordinates(first, second, n, item)
            self.assertEqual(f"{channel + 1},{instant(second, time, repeat) + 1}", said)
            self.assertEqual(component, 0)

    def test_sample_component_repeating(self):
        # Figure B.9-16: "Data Item 1 (Sample 1 Real/Ampl)", ..
        figure = "1R 2R 3R 4R  1I 2I 3I 4I  5R 6R 7R 8R  5I 6I 7I 8I".split()
        self.assertEqual(len(figure), 16)
        for first in (0x208001C7, 0x408001C7):
            for item, said in enumerate(figure):
                time, channel, component, repeat = coordinates(first, 0x00030000, 16, item)
                self.assertEqual(f"{instant(0x00030000, time, repeat) + 1}{'RI'[component]}", said)
                self.assertEqual(channel, 0)


def small_formats():
    """Real, Cartesian and polar samples in both orders, of vectors of 1 to 5 samples,
    with repeats of 1 to 5."""
    for kind in range(3):
        for bit in range(2):
            for vector in range(1, 6):
                for repeat in range(1, 6):
                    yield kind << 29 | bit << 23 | 0x1C7, repeat - 1 << 16 | vector - 1


def three_groups(first, second):
    """The coordinates of the items of three groups."""
    n = 3 * payload.group(first, second)
    return [coordinates(first, second, n, item) for item in range(n)]


class OrderInRules(unittest.TestCase):
    # Source document 003, section 6.1.6.3, for three groups of every small format.

    def each(self):
        """The formats, with the item at each (channel, component, instant)."""
        for first, second in small_formats():
            items = {}
            for item, place in enumerate(three_groups(first, second)):
                time, channel, component, repeat = place
                items[channel, component, instant(second, time, repeat)] = item
            yield first, second, items

    def test_earlier_items_precede(self):
        # Rule -2: "Earlier (i.e. corresponding to lower time values) Data Items shall
        # always precede later Data Items in sequential Item Packing Fields", of one
        # channel and component.
        for _, _, items in self.each():
            for channel, component, when in items:
                if when > 0:
                    earlier = items[channel, component, when - 1]
                    self.assertLess(earlier, items[channel, component, when])

    def test_second_component_follows(self):
        # Rules -3 and -4: I, or amplitude, "shall always be packed into a lower-numbered
        # Item packing Field than its corresponding" Q, or phase, which "shall immediately
        # follow" when Sample-Component Repeating is not in use; Rules -6 and -7: "a value
        # of one indicating that Sample-Component Repeating is not in use".
        for first, second, items in self.each():
            in_use = payload.component_repeat(first) and payload.repeat_of(second) > 1
            for channel, component, when in items:
                if component == 1:
                    after = items[channel, 1, when] - items[channel, 0, when]
                    self.assertEqual(after, payload.repeat_of(second) if in_use else 1)

    def test_component_runs(self):
        # Rules -6 and -7: "the number of "I" Data Items specified by the Repeat Count
        # parameter shall be packed into sequential Item Packing Fields with earlier Data
        # Items going into lower-numbered Item Packing Fields.  This shall be followed by
        # the corresponding "Q" Data Items similarly arranged."
        for first, second, items in self.each():
            if payload.component_repeat(first) and payload.complex_samples(first):
                run = payload.repeat_of(second)
                for channel in range(payload.vector_of(second)):
                    for start in range(0, 3 * run, run):
                        found = [items[channel, component, start + k]
                                 for component in range(2) for k in range(run)]
                        self.assertEqual(found, [*range(found[0], found[0] + 2 * run)])

    def test_channel_runs(self):
        # Rule -8: "the number of Data Samples specified for each Channel by the Repeat
        # Count shall be packed into sequential Item Packing Fields with earlier Data
        # Samples going into lower-numbered Item Packing Fields."
        for first, second, items in self.each():
            if not payload.component_repeat(first):
                run, parts = payload.repeat_of(second), payload.component_count(first)
                for channel in range(payload.vector_of(second)):
                    for start in range(0, 3 * run, run):
                        found = [items[channel, component, start + k]
                                 for k in range(run) for component in range(parts)]
                        self.assertEqual(found, [*range(found[0], found[0] + parts * run)])

    def test_next_channel(self):
        # Definition -4: the samples of a channel are packed "prior to packing Data Samples
        # from the next Channel."
        for first, second, items in self.each():
            run, parts = payload.repeat_of(second), range(payload.component_count(first))
            for start in range(0, 3 * run, run):
                found = [[items[channel, component, start + k] for component in parts
                          for k in range(run)] for channel in range(payload.vector_of(second))]
                for lower, higher in zip(found, found[1:]):
                    self.assertEqual(max(lower) + 1, min(higher))

    def test_same_order(self):
        # Rule -5: "Sample-Component Repeating shall only be used with complex Data
        # Samples."  With real ones, and with a repeat of one, bit 23 changes nothing.
        for first, second in small_formats():
            same = payload.component_count(first) == 1 or payload.repeat_of(second) == 1
            other = three_groups(first ^ 1 << 23, second)
            self.assertEqual(three_groups(first, second) == other, same)


class Numbering(unittest.TestCase):
    # C-12: "the numbering from an item to time, channel, component and repeat and back,
    # proved one-to-one and onto".

    def test_one_to_one_and_onto(self):
        for first, second in small_formats():
            found = three_groups(first, second)
            box = {
                (time, channel, component, repeat)
                for time in range(3)
                for channel in range(second % 65_536 + 1)
                for component in range(2 if first >> 29 else 1)
                for repeat in range((second >> 16) + 1)
            }
            self.assertEqual(set(found), box)
            self.assertEqual(len(box), len(found))
            for item, place in enumerate(found):
                answer = payload.item_at(first, second, len(found), *place)
                self.assertEqual(answer, ("item", item))

    def test_division(self):
        # The lists against divisions and sums: every small format, and larger groups.
        larger = [(first, second) for first in (0x000001C7, 0x200001C7, 0x208001C7)
                  for second in (0x00100052, 0x00520010, 0x000007FF, 0x07FF0000)]
        for first, second in [*small_formats(), *larger]:
            n = 3 * payload.group(first, second)
            for item, place in enumerate(payload.listed(first, second, n)):
                self.assertEqual(payload.divided(first, second, item), place)
                self.assertEqual(payload.items_before(first, second, *place), item)

    def test_few_and_many(self):
        # The same coordinates on both sides of what is listed.
        for first, second in ((0x200001C7, 0x00030007), (0x208001C7, 0x00030007)):
            for n in (4096, 4160):
                place = coordinates(first, second, n, 4091)
                self.assertEqual(place[:2], (63, 7))
                self.assertEqual(place[2:], (0, 3) if first >> 23 & 1 else (1, 1))
                self.assertEqual(payload.item_at(first, second, n, *place), ("item", 4091))

    def test_refusals(self):
        # 000001C7 00030003 and 32 items: time below 2, channel and repeat below 4.
        def asked(first=0x000001C7, second=0x00030003, n=32, item=0, place=(0, 0, 0, 0)):
            answers = (
                payload.coordinates_of(first, second, n, item),
                payload.item_at(first, second, n, *place),
            )
            return {what if answer == "refused" else None for answer, what in answers}

        self.assertEqual(asked(item=31, place=(1, 3, 0, 3)), {None})
        for item, place in ((32, (2, 0, 0, 0)), (33, (0, 4, 0, 0)), (2**32 - 1, (0, 0, 1, 0)),
                            (2**64 - 1, (0, 0, 0, 4)), (2**32, (2**32 - 1, 0, 0, 0))):
            self.assertEqual(asked(item=item, place=place), {payload.VALUE})
            self.assertEqual(asked(n=24, item=item, place=place), {payload.COUNT})
            found = asked(first=0x000011C7, n=24, item=item, place=place)
            self.assertEqual(found, {payload.FORMAT})
        self.assertEqual(asked(n=0), {payload.VALUE})
        self.assertEqual(asked(second=0xFFFFFFFF, n=0), {payload.VALUE})
        self.assertEqual(asked(n=2_097_120 + 16), {payload.COUNT})
        self.assertEqual(asked(n=31, item=31), {payload.COUNT})


def by_sums(first, items, events, channels):
    """The words of packed samples, by sums and without strings."""
    f, item = payload.field_size(first), payload.item_size(first)
    channel = payload.channel_size(first)
    fields = [i * 2 ** (f - item) + e * 2**channel + c
              for i, e, c in zip(items, events, channels)]
    # The fields that lie together, and the words they take.
    if payload.link_efficient(first):
        together, words = max(len(fields), 1), -(-len(fields) * f // 32)
    else:
        together, words = max(32 // f, 1), max(f // 32, 1)
    found = []
    for start in range(0, len(fields), together):
        total = 0
        for field in fields[start : start + together]:
            total = total * 2**f + field
        total = total * 2 ** (32 * words - f * len(fields[start : start + together]))
        found += [total // 2 ** (32 * (words - 1 - i)) % 2**32 for i in range(words)]
    return found


class Sums(unittest.TestCase):
    """The strings against sums, for every size of packing field."""

    def test_every_field(self):
        state = 49
        for f in range(1, 65):
            for link in (0, 1):
                if link == 0 and 33 <= f <= 63:
                    continue
                for n in (0, 1, 2, 7, 32, 33):
                    draws = []
                    for _ in range(3 + 3 * n):
                        state = (state * 6364136223846793005 + 1442695040888963407) % 2**64
                        draws.append(state >> 13)
                    item = 1 + draws[0] % f
                    event = draws[1] % min(8, f - item + 1)
                    channel = draws[2] % min(16, f - item - event + 1)
                    first = (
                        link * 2**31 + event * 2**20 + channel * 2**16 + (f - 1) * 2**6 + item - 1
                    )
                    items = [draw % 2**item for draw in draws[3 : 3 + n]]
                    events = [draw % 2**event for draw in draws[3 + n : 3 + 2 * n]]
                    channels = [draw % 2**channel for draw in draws[3 + 2 * n :]]
                    words = by_sums(first, items, events, channels)
                    self.assertEqual(packed(first, items, events, channels), words)
                    self.assertEqual(unpacked(first, n, words), (items, events, channels))
                    self.assertEqual(payload.words_needed(first, 0, n), ("words", len(words)))


if __name__ == "__main__":
    unittest.main()
