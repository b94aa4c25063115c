"""Writes recordings to be played into a table and the reference's answers to
them.

    python3 tools/reference/play_vectors.py INPUT EXPECTED

README.md gives the form of both files.  Each recording and each packet that is
built for one answer says which answer that is, and each table that is built not
to be well made says which rule it breaks; where the reference says another, the
program ends without writing.  So it does where a table's words at the end are
not those that follow from the packets that were played, taken together, and where a
refusal has another place than the one that is found by walking over the words.
"""

import sys

sys.dont_write_bytecode = True

import read_vectors
import table
import vrt49
from read_vectors import (
    FIXED, FIXED_BITS, FORMAT, ITEM_BITS, ONES, OUI, PAD_FAULTS, TERA, Numbers, Shape, Told,
    all_fixed, context, counted, every_shape, fields_of, format_word, laid, lists_of, packet,
    plain, random_field, random_packet, random_survey, refusal_text, some_shapes, survey,
    survey_class, text_of, whole,
)
from table import LIST, ROOM, STREAM, TABLE
from vrt49 import BITS, CLASS, CUT, EMPTY, FIELD, INDICATOR, LAYOUT, PAD, SHORT, TIME, TYPE

STARTED = 0
PATTERN = 0xA5A5A5A5
MOST_ROOM = 2900
MOST_STREAMS = 40
MOST_STORES = 200
MOST_PACKETS = 400
MOST_WORDS = 4096

COUNTED = (1, 3, 4, 5)
READ_ORDER = (EMPTY, TYPE, BITS, SHORT, CUT, CLASS, TIME, INDICATOR, LAYOUT, FIELD)

# Where each word of a record is, from the record's start.
INDICATOR_PLACE = 1
COUNT_PLACES = {1: 2, 3: 5, 4: 8, 5: 11}
CHOICE_PLACE = 14
SLOT_PLACES = {
    30: 15, 29: 16, 28: 18, 27: 20, 26: 22, 25: 24, 24: 26, 23: 27, 22: 28, 21: 29, 20: 31,
    19: 33, 18: 34, 17: 35, 16: 37, 15: 38, 14: 40, 13: 51, 12: 62, 11: 75, 10: 88,
}
SIZES = dict(FIXED)

# The fields that are held, all but 22, and the word of their bits.
HELD = tuple((bit, n) for bit, n in FIXED if bit != 22)
HELD_BITS = FIXED_BITS - (1 << 22)

# The enable and the value of each indicator of a state word: those that persist, and
# over-range and sample loss, which do not.
INDICATORS = ((31, 19), (30, 18), (29, 17), (28, 16), (27, 15), (26, 14))
NOT_HELD = ((25, 13), (24, 12))
ALL_ON, ALL_OFF, VALUES, USER = 0xFC0FC000, 0xFC000000, 0x000FC000, 0xFF

recordings = []

# Refusals of which one packet has both faults, the earlier one first.
both_faults = set()


class Recording:
    """One recording, with the answer of start that it is built for.  The choices are
    zeros if no others are named.  The packets are pairs of their words and what they are
    meant to be answered: the number of a refusal, or Told with its place too, or type,
    stream and missing of a packet that is played, or None.  The stores are pairs of place
    and word.  Broken names the rules that the table then breaks, and beside the rule that
    a well-made table is just within.  After has words that are meant to be in the table
    at the end, by their place."""

    def __init__(self, ids, choices, packets, answer, room, stores, broken, beside, after):
        self.ids = list(ids)
        self.choices = [0] * len(self.ids) if choices is None else list(choices)
        self.packets = packets
        self.answer = answer
        self.room = room
        self.stores = stores
        self.broken = broken
        self.beside = beside
        self.after = after


def recording(
    ids, packets=(), answer=STARTED, room=None, stores=(), broken=(), beside=None, after=None,
    choices=None,
):
    """If no room is named there is enough, with two words left after."""
    if room is None:
        room = 1 + 89 * len(ids) + 2
    if isinstance(stores, dict):
        stores = stores.items()
    packets, stores = list(packets), list(stores)
    recordings.append(
        Recording(ids, choices, packets, answer, room, stores, broken, beside, after or {})
    )


def record_place(stream):
    return 1 + 89 * stream


def count_place(kind, stream=0):
    return record_place(stream) + COUNT_PLACES[kind]


def slot_place(bit, stream=0):
    return record_place(stream) + SLOT_PLACES[bit]


def choice_place(stream=0):
    return record_place(stream) + CHOICE_PLACE


def indicator_place(stream=0):
    return record_place(stream) + INDICATOR_PLACE


def at_places(place, words):
    return {place + i: word for i, word in enumerate(words)}


def gap(last, count):
    """The counts that are passed over from last to count."""
    passed = 0
    number = 0 if last == 15 else last + 1
    while number != count:
        passed += 1
        number = 0 if number == 15 else number + 1
    return passed


def short_packet(kind, identifier, count, **rest):
    """A packet of few words."""
    body = [0x80000000] if kind == 4 else []
    return packet(kind, body, identifier=identifier, count=count, **rest)


# Starting.


def starts():
    # The number of identifiers.
    for room in (0, 1, 2, 90, MOST_ROOM):
        recording([], answer=LIST, room=room)
    for n in (33, 34, 40):
        recording(range(100, 100 + n), answer=LIST, room=MOST_ROOM)
    # LIST before ROOM.
    for ids in (range(33), range(40), [7, 7], [1, 2, 3, 2], [5] * 32, [5] * 33):
        for room in (0, 1, 89, 178):
            recording(ids, answer=LIST, room=room)
    # One twice: every pair of places among four, and some among 32.
    for first in range(4):
        for second in range(first + 1, 4):
            ids = [10, 11, 12, 13]
            ids[second] = ids[first]
            recording(ids, answer=LIST)
    for first, second in ((0, 31), (30, 31), (0, 1), (15, 16), (7, 24)):
        ids = [0x1000 * i for i in range(32)]
        ids[second] = ids[first]
        recording(ids, answer=LIST, room=MOST_ROOM)
    for identifier in (0, 1, 1 << 31, ONES, PATTERN):
        recording([identifier, identifier], answer=LIST)
        recording([identifier, 5, identifier], answer=LIST)
    recording([9] * 32, answer=LIST, room=MOST_ROOM)
    recording([*range(32), 0], answer=LIST, room=MOST_ROOM)
    # Identifiers that differ in one bit.
    for bit in (0, 1, 7, 8, 15, 16, 24, 31):
        recording([0x5A5A5A5A, 0x5A5A5A5A ^ 1 << bit], answer=STARTED)
    recording([0, ONES], after={0: 2, 1: 0, 90: ONES})
    recording([ONES, 0])
    # The room.
    for n in (1, 2, 3, 31, 32):
        need = 1 + 89 * n
        ids = [0xC0000000 + 3 * i for i in range(n)]
        for room in (need - 1, need - 89, 0):
            recording(ids, answer=ROOM, room=room)
    for n in (1, 2, 3):
        need = 1 + 89 * n
        ids = [0xC0000000 + 3 * i for i in range(n)]
        for room in (need, need + 1, need + 89, need + 200):
            recording(ids, room=room, after={0: n, 1: 0xC0000000})
    recording(range(32), room=2848, answer=ROOM)
    recording(range(32), room=2849, after={0: 32, 1 + 89 * 31: 31})
    recording(range(32), room=MOST_ROOM, after={0: 32, 1 + 89 * 31: 31})
    # What follows a list that is refused.
    follow = [(short_packet(1, 7, 3), None), ([], None)]
    recording([7, 7], follow, answer=LIST, stores=[(5, 17), (0, 1)])
    recording([7], follow, answer=ROOM, room=89, stores=[(5, 17), (88, 0)])
    recording(range(33), follow, answer=LIST, room=MOST_ROOM, stores=[(2899, 0)])


# Document 01's own samples.


def samples():
    recording(
        [7],
        [
            ([0x140F0005, 7, 0xABCDEF12, 0x30000000, 0], (1, 0, 0)),
            ([0x14020005, 7, 0, 0, 0], (1, 0, 2)),
        ],
        room=90,
        after={0: 1, 1: 7, 2: 0, 3: 2, 4: 2, 5: 3, 6: 0, 7: 0, 8: 0},
    )
    recording(
        [7],
        [(short_packet(1, 7, 14), (1, 0, 0)), (short_packet(1, 7, 2), (1, 0, 3))],
        after={3: 2, 4: 3, 5: 3},
    )
    recording(
        [7],
        [(short_packet(1, 7, 2), (1, 0, 0)), (short_packet(1, 7, 2), (1, 0, 15))],
        after={3: 2, 4: 15, 5: 3},
    )
    # "Indicator 0x21200000 then asks 5 words."
    recording(
        [7],
        [([0x4065000B, 7, 100, 0, 200, 0x21200000, 0, 1, 2, 0, 3], (4, 0, 0))],
        after={2: 0x21200000, 9: 1, 10: 0, 11: 6, 17: 0, 18: 1, 27: 2, 30: 0, 31: 3},
    )
    # No packets.
    recording([7], room=90, after={0: 1, 1: 7})


# The counts.


def every_pair():
    """The counts 0 to 15 so that each follows each, itself too, once."""
    order = []
    for first in range(16):
        order.append(first)
        for second in range(first + 1, 16):
            order += [first, second]
    return order + order[:1]


def gaps():
    """Each type with each count after each, in one recording for each type."""
    order = every_pair()
    for turn, kind in enumerate(COUNTED):
        # Another place of the circle to begin with for each type.
        start = 61 * turn
        circle = order[start:-1] + order[:start]
        circle.append(circle[0])
        packets = []
        total = 0
        for place, count in enumerate(circle):
            missing = gap(circle[place - 1], count) if place else 0
            total += missing
            packets.append((short_packet(kind, 7, count), (kind, 0, missing)))
        recording(
            [7], packets, room=90,
            after=at_places(count_place(kind), [257, total, circle[-1] + 1]),
        )


def first_counts():
    """Each type's first packet at each count, in a stream of its own."""
    packets = [
        (short_packet(kind, 0x80 + count, count), (kind, count, 0))
        for count in range(16)
        for kind in COUNTED
    ]
    packets += [
        (short_packet(kind, 0x80 + count, count), (kind, count, 15))
        for count in range(15, -1, -1)
        for kind in COUNTED
    ]
    after = {}
    for count in range(16):
        for kind in COUNTED:
            after.update(at_places(count_place(kind, count), [2, 15, count + 1]))
    recording(range(0x80, 0x90), packets, after=after)


def wraps():
    for kind in COUNTED:
        # 14, 15, 0, 1: nothing is missing.
        packets = [
            (short_packet(kind, 7, count), (kind, 0, 0)) for count in (13, 14, 15, 0, 1, 2)
        ]
        # Round and round.
        packets += [(short_packet(kind, 7, n % 16), (kind, 0, 0)) for n in range(3, 40)]
        # Over the end with 1, 7 and 14 missing, and one back.
        for last, count, missing in ((7, 9, 1), (9, 1, 7), (1, 0, 14), (0, 15, 14), (15, 0, 0)):
            packets.append((short_packet(kind, 7, count), (kind, 0, missing)))
        recording(
            [7], packets, after=at_places(count_place(kind), [len(packets), 36, 1])
        )


def counted_apart():
    # One stream, the types in turn, each with its own counts.
    packets = []
    for turn in range(6):
        for kind, first, step in ((1, 3, 1), (3, 15, 2), (4, 8, 3), (5, 0, 16)):
            count = (first + turn * step) % 16
            packets.append((short_packet(kind, 7, count), (kind, 0, (step - 1) if turn else 0)))
    recording(
        [7], packets,
        after={
            **at_places(count_place(1), [6, 0, 9]),
            **at_places(count_place(3), [6, 5, 10]),
            **at_places(count_place(4), [6, 10, 8]),
            **at_places(count_place(5), [6, 75, 1]),
        },
    )
    # Each two types, in turn with the same counts.
    for first in COUNTED:
        for second in COUNTED:
            if first != second:
                packets = []
                for count in (4, 5, 6, 9):
                    missing = 2 if count == 9 else 0
                    packets.append((short_packet(first, 7, count), (first, 0, missing)))
                    packets.append((short_packet(second, 7, count), (second, 0, missing)))
                after = {**at_places(count_place(first), [4, 2, 10])}
                after.update(at_places(count_place(second), [4, 2, 10]))
                recording([7], packets, after=after)
    # Three streams in turn with the same counts, the second not at all.
    packets = []
    for count in (1, 2, 3, 3):
        missing = 15 if len(packets) == 6 else 0
        packets.append((short_packet(1, 0x21, count), (1, 0, missing)))
        packets.append((short_packet(1, 0x23, count), (1, 2, missing)))
    after = {**at_places(count_place(1), [4, 15, 4])}
    after.update(at_places(count_place(1, 2), [4, 15, 4]))
    after.update(at_places(record_place(1), [0x22] + [0] * 88))
    recording([0x21, 0x22, 0x23], packets, after=after)


def many_missing():
    """Missing of more than one turn of the counts, and more than a byte."""
    packets = [(short_packet(3, 7, 9), (3, 0, 0))]
    packets += [(short_packet(3, 7, 9), (3, 0, 15))] * 40
    recording([7], packets, after=at_places(count_place(3), [41, 600, 10]))


# Words that are near 2^32.


def past_2_32():
    for kind in COUNTED:
        place = count_place(kind)
        for seen, missing, last, count, after in (
            (ONES, 0, 3, 4, [0, 0, 5]),
            (ONES, ONES, 3, 4, [0, ONES, 5]),
            (ONES - 1, ONES, 3, 5, [ONES, 0, 6]),
            (5, ONES - 14, 2, 2, [6, 0, 3]),
            (5, ONES - 15, 2, 2, [6, ONES, 3]),
            (5, ONES - 7, 14, 2, [6, ONES - 4, 3]),
            (5, ONES - 2, 14, 2, [6, 0, 3]),
            (5, ONES, 15, 15, [6, 14, 16]),
            (ONES, ONES, 15, 15, [0, 14, 16]),
            (1 << 31, 1 << 31, 15, 0, [(1 << 31) + 1, 1 << 31, 1]),
            ((1 << 31) - 1, (1 << 31) - 1, 0, 2, [1 << 31, 1 << 31, 3]),
        ):
            recording(
                [7],
                [(short_packet(kind, 7, count), (kind, 0, gap(last, count)))],
                stores=at_places(place, [seen, missing, last + 1]),
                after=at_places(place, after),
            )
        # A started count that has seen 0 goes on as any other.
        recording(
            [7],
            [
                (short_packet(kind, 7, 3), (kind, 0, 15)),
                (short_packet(kind, 7, 5), (kind, 0, 1)),
            ],
            stores=at_places(place, [0, 0, 4]),
            after=at_places(place, [2, 16, 6]),
        )
        # Seen passes 2^32, and the next packet is not the first.
        recording(
            [7],
            [
                (short_packet(kind, 7, 9), (kind, 0, 0)),
                (short_packet(kind, 7, 9), (kind, 0, 15)),
                (short_packet(kind, 7, 8), (kind, 0, 14)),
            ],
            stores=at_places(place, [ONES, ONES - 20, 9]),
            after=at_places(place, [2, 8, 9]),
        )


# The fields that are held.


def other(bit):
    """Words of a field that differ in each word from those of plain, its rule
    kept."""
    n = SIZES[bit]
    if bit == 15:
        return [format_word(code=1, packing=12, item=12), 0x00030004]
    if bit == 16:
        return [0xA00A0011]
    if bit == 17:
        return [0x00FFFFFF, 0x0000FFFF]
    if bit in (24, 18):
        return [0xFFFF]
    if bit in (29, 21):
        return [0x7FFFFFFF, ONES]
    return [ONES - i for i in range(n)]


def first_held(bit):
    """What is held of the words of plain where nothing was: of the state word not the
    values 18 and 16, whose enables are not set.  The words of other replace it."""
    return [0x80000044] if bit == 16 else plain(bit, SIZES[bit])


def slots_of(choose):
    """The words of all the slots, each field with what is chosen for it, and 22 with
    none."""
    return [word for bit, _ in FIXED for word in (choose(bit) if bit != 22 else [0])]


def each_field():
    for bit, n in HELD:
        place = slot_place(bit)
        words, others = first_held(bit), other(bit)
        beside = 19 if bit == 23 else 23
        extra = slot_place(beside)
        held = context(1 << bit, plain(bit, n), identifier=7)
        again = context(1 << bit, others, identifier=7, count=1)
        without = context(1 << beside, [0xFEED], identifier=7, count=2)
        indicator = {indicator_place(): 1 << bit}
        both = {indicator_place(): 1 << bit | 1 << beside, extra: 0xFEED}
        # Held.
        recording([7], [(held, (4, 0, 0))], after={**indicator, **at_places(place, words)})
        # Held in the second of two streams, and not in the first.
        second = context(1 << bit, others, identifier=8, count=15)
        recording(
            [7, 8], [(second, (4, 1, 0))],
            after={
                indicator_place(0): 0, indicator_place(1): 1 << bit,
                **at_places(place, [0] * n), **at_places(slot_place(bit, 1), others),
            },
        )
        # Replaced, then kept when others are carried, or none.
        empty = context(0, identifier=7, count=3)
        changed = context(1 << 31, identifier=7, count=4)
        recording(
            [7],
            [(held, (4, 0, 0)), (again, (4, 0, 0)), (without, (4, 0, 0)), (empty, (4, 0, 0)),
             (changed, (4, 0, 0))],
            after={**both, **at_places(place, others)},
        )
        # Replaced by zeros: zero words may be held.
        if bit not in (15, 16):
            zero = context(1 << bit, [0] * n, identifier=7, count=2)
            recording(
                [7], [(again, (4, 0, 0)), (zero, (4, 0, 0))],
                after={**indicator, **at_places(place, [0] * n)},
            )
        # Each word of a field of more words replaced: only the last one differs.
        if n > 1 and bit not in (17, 15):
            last = context(1 << bit, words[:-1] + [0x55], identifier=7, count=1)
            recording(
                [7], [(held, (4, 0, 0)), (last, (4, 0, 0))],
                after={**indicator, **at_places(place, words[:-1] + [0x55])},
            )
        # Not held by a packet of another type that has the same words.
        packets = [(held, (4, 0, 0))]
        for kind in (1, 3, 5):
            packets.append((packet(kind, [1 << bit, *others], identifier=7), (kind, 0, 0)))
        recording([7], packets, after={**indicator, **at_places(place, words)})
        # Every field but this one.
        rest = [word for b, size in FIXED if b != bit for word in other(b)]
        all_but = context(FIXED_BITS ^ 1 << bit, rest, identifier=7, count=7)
        recording(
            [7], [(all_but, (4, 0, 0))],
            after={indicator_place(): HELD_BITS ^ 1 << bit, **at_places(place, [0] * n)},
        )
        recording(
            [7], [(held, (4, 0, 0)), (all_but, (4, 0, 6))],
            after={indicator_place(): HELD_BITS, **at_places(place, words)},
        )


def all_fields():
    others = [word for bit, _ in FIXED for word in other(bit)]
    held = {indicator_place(): HELD_BITS, **at_places(slot_place(30), slots_of(other))}
    tail = [0x00ABCDEF, 1, 7] + lists_of(0, 2) + [8, 9]
    slots = record_place(0) + 15
    for indicator, words in (
        (FIXED_BITS, all_fixed()),
        (1 << 31 | FIXED_BITS, all_fixed()),
        (FIXED_BITS | 3 << 8, all_fixed() + tail),
        (ONES - 0xFF, all_fixed() + tail),
    ):
        first = context(indicator, words, identifier=7)
        recording(
            [7], [(first, (4, 0, 0))], room=90,
            after={indicator_place(): HELD_BITS, **at_places(slots, slots_of(first_held))},
        )
        second = context(FIXED_BITS, others, identifier=7, count=1)
        recording([7], [(first, (4, 0, 0)), (second, (4, 0, 0))], after=held)
    # One field after another until all are held.
    for order in (FIXED, FIXED[::-1]):
        packets = [
            (context(1 << bit, other(bit), identifier=7, count=i % 16), (4, 0, 0))
            for i, (bit, _) in enumerate(order)
        ]
        recording([7], packets, after=held)


# Field 22, which has its word in a packet and is not held.


def over_range_counts():
    fresh = at_places(1, [7] + [0] * 88)
    once = {**fresh, **at_places(count_place(4), [1, 0, 1])}
    for word in (0, 1, ONES):
        recording([7], [(context(1 << 22, [word], identifier=7), (4, 0, 0))], after=once)
    # Again and again, and among packets that hold something.
    packets = [
        (context(1 << 23, [0xFEED], identifier=7), (4, 0, 0)),
        (context(1 << 22, [5], identifier=7, count=1), (4, 0, 0)),
        (context(1 << 22, [6], identifier=7, count=2), (4, 0, 0)),
        (context(1 << 31, identifier=7, count=3), (4, 0, 0)),
    ]
    after = {indicator_place(): 1 << 23, slot_place(23): 0xFEED, slot_place(22): 0}
    recording([7], packets, after=after)
    # With each other field, in a stream of its own, and with all those behind it: their
    # words are those after its own.
    ids, packets, after = [], [], {}
    for stream, (bit, n) in enumerate(HELD):
        ids.append(0x2200 + bit)
        words = [*other(bit), ONES] if bit > 22 else [ONES, *other(bit)]
        sent = context(1 << 22 | 1 << bit, words, identifier=ids[stream])
        packets.append((sent, (4, stream, 0)))
        after.update({indicator_place(stream): 1 << bit, slot_place(22, stream): 0})
        after.update(at_places(slot_place(bit, stream), other(bit)))
    recording(ids, packets, after=after)
    behind = sum(1 << bit for bit, _ in FIXED if bit < 22)
    words = [word for bit, _ in FIXED if bit < 22 for word in other(bit)]
    after = {indicator_place(): behind, **at_places(slot_place(30), [0] * 14)}
    after.update(at_places(slot_place(21), words))
    both = context(1 << 22 | behind, [0xABCD, *words], identifier=7)
    recording([7], [(both, (4, 0, 0))], after=after)
    # Without its word, with a word too many, and with a rule broken behind it.
    for indicator, words, number in (
        (1 << 22, [], LAYOUT), (1 << 22, [1, 2], LAYOUT), (1 << 22 | 1 << 10, [1], LAYOUT),
        (1 << 22 | 1 << 18, [1, 0x10000], FIELD), (1 << 22 | 1 << 16, [1, 1 << 20], FIELD),
    ):
        recording([7], [(context(indicator, words, identifier=7), number)], after=fresh)


# The state word.


def states_of(streams):
    """A recording in which each stream is sent state words: the words of each, and what
    it is then meant to hold."""
    ids, packets, after = [], [], {}
    for stream, (words, held) in enumerate(streams):
        ids.append(0x1600 + stream)
        for count, word in enumerate(words):
            sent = context(1 << 16, [word], identifier=ids[stream], count=count)
            packets.append((sent, (4, stream, 0)))
        after.update({indicator_place(stream): 1 << 16, slot_place(16, stream): held})
    recording(ids, packets, after=after)


def each_indicator():
    """Each alone: on, off, and its value without its enable, where nothing is held and
    where all are on and off."""
    for before in ([], [ALL_ON | 0x5A], [ALL_OFF | 0xA5]):
        held = before[0] & ~USER if before else 0
        streams = []
        for enable, value in INDICATORS:
            enable, value = 1 << enable, 1 << value
            streams.append(([*before, enable | value], held | enable | value))
            streams.append(([*before, enable], (held | enable) & ~value))
            streams.append(([*before, value], held))
        for enable, value in NOT_HELD:
            for word in (1 << enable | 1 << value, 1 << enable, 1 << value):
                streams.append(([*before, word], held))
        states_of(streams)


def each_choice_of_enables():
    """Those that are enabled are turned; the others stay, whatever their values are."""
    for first in (0, 32):
        chosen = [(enables << 26, enables << 14) for enables in range(first, first + 32)]
        states_of([
            ([ALL_ON | 0x0F, enables | 0xF0], ALL_ON - values | 0xF0)
            for enables, values in chosen
        ])
        states_of([
            ([ALL_OFF | 0x3C, enables | VALUES | 0x03003000], ALL_OFF | values)
            for enables, values in chosen
        ])


def state_words():
    on = {enable: 1 << enable | 1 << value for enable, value in INDICATORS}
    states_of([
        # Words of which nothing is held but the user bits.
        ([0], 0), ([0x000FF000], 0), ([0x03003000], 0), ([USER], USER), ([0x0300305A], 0x5A),
        # All that may be set.
        ([0xFF0FF0FF], ALL_ON | USER), ([0xFF0000A5], ALL_OFF | 0xA5),
        # User bits are replaced by every word, and leave the indicators.
        ([USER, 0], 0), ([0x5A, 0xA5], 0xA5), ([ALL_ON | 0x5A, 0xA5], ALL_ON | 0xA5),
        ([0x5A, on[29]], on[29]), ([on[29] | 1, 2, on[30] | 4], on[29] | on[30] | 4),
        # One after another, and off again in another order.
        (list(on.values()), ALL_ON),
        ([*on.values(), *[1 << enable for enable in (28, 31, 26, 30, 27, 29)]], ALL_OFF),
        # On, off, on; over-range lit in between and not said again.
        ([on[30], 1 << 30, on[30]], on[30]), ([on[28], on[28] | 0x02002000, 0x02000000], on[28]),
    ])
    # The first word is 0; then packets without a state word, of every type, refused ones
    # too, and of another stream.
    others = [
        (context(1 << 30, [5], identifier=7, count=1), (4, 0, 0)),
        (context(1 << 31, identifier=7, count=2), (4, 0, 0)),
        (packet(1, [1 << 16, ALL_OFF], identifier=7), (1, 0, 0)),
        (packet(3, [1 << 16, ALL_OFF], identifier=7), (3, 0, 0)),
        (packet(5, [1 << 16, ALL_OFF], identifier=7), (5, 0, 0)),
        (context(1 << 16, [ALL_OFF | 1 << 20], identifier=7, count=3), FIELD),
        (context(1 << 24 | 1 << 16, [1 << 16, ALL_OFF], identifier=7, count=3), FIELD),
        (context(1 << 16, [ALL_OFF], identifier=8), (4, 1, 0)),
        (context(1 << 16, [ALL_OFF], identifier=9), STREAM),
    ]
    for word, held in ((0, 0), (ALL_ON | 0x5A, ALL_ON | 0x5A), (0x03003000, 0)):
        first = (context(1 << 16, [word], identifier=7), (4, 0, 0))
        recording(
            [7, 8], [first, *others],
            after={
                indicator_place(): 1 << 30 | 1 << 16, slot_place(16): held,
                slot_place(16, 1): ALL_OFF,
            },
        )
    # Among all fields: the other words are replaced whole.
    fields = [word for bit, _ in FIXED for word in ([on[31]] if bit == 16 else other(bit))]
    held = slots_of(lambda bit: [on[31] | 1 << 26] if bit == 16 else other(bit))
    packets = [
        (context(1 << 16, [1 << 26 | 0x77], identifier=7), (4, 0, 0)),
        (context(FIXED_BITS, fields, identifier=7, count=1), (4, 0, 0)),
    ]
    recording([7], packets, after={indicator_place(): HELD_BITS, **at_places(slot_place(30), held)})


def not_held():
    """Fields 9 and 8, and bit 31."""
    ascii_words = [0x00ABCDEF, 3, 0x24475047, ONES, 1]
    list_words = lists_of(1, 1, 1, 1, 1) + counted(5, 0x111)
    before = (context(1 << 30 | 1 << 10, [5, 6], identifier=7), (4, 0, 0))
    for changed in (0, 1 << 31):
        for choice, words in (
            (0, []),
            (1 << 9, ascii_words),
            (1 << 9, [0, 0]),
            (1 << 8, list_words),
            (1 << 8, [0, 0]),
            (3 << 8, ascii_words + list_words),
        ):
            alone = context(changed | choice, words, identifier=7)
            recording(
                [7], [(alone, (4, 0, 0))],
                after={indicator_place(): 0, **at_places(slot_place(30), [0] * 74)},
            )
            again = context(changed | choice, words, identifier=7, count=1)
            recording(
                [7], [before, (again, (4, 0, 0))],
                after={
                    indicator_place(): 1 << 30 | 1 << 10, slot_place(30): 5, slot_place(10): 6,
                },
            )
            ten = context(changed | 1 << 10 | choice, [0xAAAA, *words], identifier=7, count=1)
            recording(
                [7], [before, (ten, (4, 0, 0))],
                after={
                    indicator_place(): 1 << 30 | 1 << 10, slot_place(30): 5,
                    slot_place(10): 0xAAAA,
                },
            )


def other_parts():
    """A Context packet with every choice of optional parts, and words beyond its
    size."""
    packets = []
    for choice in range(16):
        c, m, seconds, fraction = (choice >> i & 1 for i in (3, 2, 1, 0))
        words = context(
            1 << 29 | 1 << 18, [choice, 0x100 + choice, 0x200 + choice], identifier=9, c=c, m=m,
            tsi=(1 + choice % 3) * seconds, tsf=(1 + choice // 3 % 3) * fraction, count=choice,
        )
        packets.append((words + [ONES] * (choice % 4), (4, 1, 0)))
        after = {
            indicator_place(1): 1 << 29 | 1 << 18, slot_place(18, 1): 0x200 + choice,
            **at_places(slot_place(29, 1), [choice, 0x100 + choice]),
        }
        recording([8, 9], packets[-1:], after=after)
    recording([8, 9], packets, after=after)
    for kind in (1, 3):
        words = packet(
            kind, counted(5), identifier=9, c=1, t=1, tsi=3, tsf=2, count=12, trailer=ONES,
        )
        recording(
            [8, 9], [(words, (kind, 1, 0)), (words + [7] * 9, (kind, 1, 15))],
            after=at_places(count_place(kind, 1), [2, 15, 13]),
        )


def long_packets():
    recording(
        [8, 9],
        [
            (packet(1, counted(2046), identifier=9, count=4), (1, 1, 0)),
            (context(3 << 9, [5, 0, 700] + counted(700), identifier=9), (4, 1, 0)),
            (packet(1, counted(254), identifier=9, count=5), (1, 1, 0)),
            (packet(1, counted(253), identifier=9, count=6), (1, 1, 0)),
        ],
        after={indicator_place(1): 1 << 10, slot_place(10, 1): 5},
    )


# Packets that are refused.


def refused_packets(identifier, count=5):
    """For each refusal of reading, packets that it alone applies to, but for
    STREAM if the identifier is not declared."""
    given = dict(identifier=identifier, count=count)
    return [
        ([], EMPTY),
        (packet(6, [identifier, 1], count=count), TYPE),
        (packet(15, [identifier, 0], count=count), TYPE),
        (packet(1, [1], reserved=1 << 25, **given), BITS),
        (packet(4, [0], reserved=1 << 26, **given), BITS),
        ([0x10000001 | count << 16, identifier], SHORT),
        ([0x40000002 | count << 16, identifier, 0], SHORT),
        (packet(3, counted(3), **given)[:-1], CUT),
        (context(1 << 30, [5], **given)[:-1], CUT),
        (packet(1, [1], c=1, oui=1 << 24, **given), CLASS),
        (packet(5, [1], c=1, oui=1 << 31, **given), CLASS),
        (packet(1, [1], tsf=2, fraction=TERA, **given), TIME),
        (context(1 << 30, [5], tsf=2, fraction=TERA, **given), TIME),
        (context(0x00000001, **given), INDICATOR),
        (context(1 << 30 | 0x80, [5], **given), INDICATOR),
        (context(1 << 30, **given), LAYOUT),
        (context(1 << 30, [5, 6], **given), LAYOUT),
        (context(1 << 30 | 1 << 24, [5, 0x10000], **given), FIELD),
        (context(1 << 30 | 1 << 15, [5, ONES, 0], **given), FIELD),
        (context(1 << 30 | 1 << 9, [5, 1 << 24, 0], **given), FIELD),
        (context(1 << 30 | 1 << 8, [5, 1 << 9, 0], **given), FIELD),
    ]


def no_stream_packets(identifier, count=5):
    """Packets that STREAM alone applies to; the identifier is not declared.  In
    types 0 and 2 the word after the header is no identifier, whatever it is."""
    return [
        (packet(0, [7, 7], count=count), STREAM),
        (packet(2, [7, 7], count=count), STREAM),
        (packet(0, [], count=count), STREAM),
        (packet(2, [], count=count), STREAM),
        (packet(0, [7], c=1, t=1, tsi=1, tsf=2, count=count, trailer=7), STREAM),
        *[(short_packet(kind, identifier, count), STREAM) for kind in COUNTED],
        (context(1 << 30, [5], identifier=identifier, count=count), STREAM),
    ]


def refusals():
    begin = [
        (short_packet(1, 7, 3), (1, 0, 0)),
        (short_packet(3, 7, 3), (3, 0, 0)),
        (context(1 << 30, [0xF1E1D], identifier=7, count=3), (4, 0, 0)),
        (short_packet(5, 7, 3), (5, 0, 0)),
    ]
    # Their counts would be missing had a refused packet been counted.
    end = [(short_packet(kind, 7, 4), (kind, 0, 0)) for kind in COUNTED]
    after = {indicator_place(): 1 << 30, slot_place(30): 0xF1E1D}
    for kind in COUNTED:
        after.update(at_places(count_place(kind), [2, 0, 5]))
    # Each alone, and all of them; as the first packet too.
    every = refused_packets(7) + no_stream_packets(8)
    for one in every:
        recording([7], begin + [one] + end, after=after)
    recording([7], begin + every + end, after=after)
    fresh = {0: 1, **at_places(1, [7] + [0] * 88)}
    recording([7], every, after=fresh)
    # The refusals of reading before STREAM.
    undeclared = refused_packets(8)
    recording([7], undeclared, after=fresh)
    for words, number in undeclared:
        if words:
            both_faults.add((number, STREAM))
    no_identifier = [
        (packet(0, [7], reserved=1 << 24), BITS),
        ([0x04000001], SHORT),
        (packet(2, [7, 7])[:-1], CUT),
        (packet(0, [7], c=1, oui=1 << 24), CLASS),
        (packet(2, [], tsf=2, fraction=TERA), TIME),
    ]
    recording([7], no_identifier, after=fresh)
    # No identifier reads as zero, which may be declared.
    recording(
        [0], no_stream_packets(8) + [(short_packet(1, 0, 5), (1, 0, 0))],
        after=at_places(count_place(1), [1, 0, 6]),
    )
    # Identifiers beside those that are declared.
    near = [0x10, 0x12, 0x80000011, 0x00110000, 0x11000000, 0, ONES, 1, 2, 3]
    recording(
        [0x11, 0x13],
        [(short_packet(kind, identifier, 0), STREAM) for identifier in near for kind in COUNTED],
        after={2: 0, 3: 0, 91: 0, 92: 0},
    )
    # The first and the last of the list, and one past it in memory.
    ids = [0x20 + i for i in range(32)]
    recording(
        ids,
        [
            (short_packet(1, 0x20, 1), (1, 0, 0)),
            (short_packet(1, 0x3F, 1), (1, 31, 0)),
            (short_packet(1, 0x40, 1), STREAM),
            (short_packet(1, PATTERN, 1), STREAM),
            (short_packet(1, 0x30, 1), (1, 16, 0)),
        ],
    )


# Spectrum-survey packets, and the choice of each stream.


def choices_of_lists():
    """Choices that are not as many as the identifiers, or neither 0 nor 1."""
    for ids in ([7], [7, 8], [7, 8, 9], list(range(31)), list(range(32))):
        n = len(ids)
        for choice in (0, 1):
            for number in (0, n - 1, n + 1, n + 2, 40):
                if number != n:
                    recording(ids, answer=LIST, choices=[choice] * number)
            recording(ids, choices=[choice] * n, after={choice_place(n - 1): choice})
        for wrong in (2, 3, 4, 1 << 8, 1 << 16, 1 << 31, (1 << 31) + 1, ONES, PATTERN):
            for place in {0, n // 2, n - 1}:
                choices = [place % 2] * n
                choices[place] = wrong
                recording(ids, answer=LIST, choices=choices)
    # With a list that is refused for its identifiers.
    for ids in ([], [7, 7], [1, 2, 1], list(range(33)), list(range(40))):
        n = len(ids)
        for number in {0, max(n - 1, 0), n, min(n + 1, 40), 32}:
            recording(ids, answer=LIST, choices=[1] * number, room=MOST_ROOM)
        recording(ids, answer=LIST, choices=[2] * n, room=MOST_ROOM)
    # LIST before ROOM, and ROOM with choices that are right.
    for room in (0, 1, 89, 178):
        recording([7, 8], answer=LIST, choices=[1], room=room)
        recording([7, 8], answer=LIST, choices=[1, 0, 1], room=room)
        recording([7, 8], answer=LIST, choices=[0, 2], room=room)
        recording([7, 8], answer=ROOM, choices=[1, 0], room=room)
    recording([7, 8], choices=[1, 0], room=179)
    recording(range(32), choices=[1] * 32, room=2848, answer=ROOM)
    # Every place of the list.
    for place in range(32):
        for turn in (0, 1):
            choices = [turn] * 32
            choices[place] = 1 - turn
            if turn or place in (0, 1, 16, 30, 31):
                after = {choice_place(i): choice for i, choice in enumerate(choices)}
                after.update({record_place(i): 0x900 + i for i in range(32)})
                packets = [(survey([1], pad=1, identifier=0x900 + place), None)]
                if place % 8 == 0:
                    recording(range(0x900, 0x920), packets, choices=choices, after=after)


def pad_packets(identifier, count=5):
    """Packets of type 1 that PAD alone applies to, under the choice 1."""
    found = []
    for fault in PAD_FAULTS.values():
        given = {"body": [1, 2], **fault}
        found.append((survey(**given, identifier=identifier, count=count), PAD))
        words = survey(**given, identifier=identifier, count=count, tsi=2, tsf=3)
        found.append((words + [7], PAD))
    found += [
        (short_packet(1, identifier, count), PAD),
        (packet(1, [1, 2], identifier=identifier, count=count), PAD),
        (survey([1], high=1 << 24, identifier=identifier, count=count), PAD),
        (survey([1], high=1 << 26, pad=3, identifier=identifier, count=count), PAD),
        (survey([1], rc=2, identifier=identifier, count=count), PAD),
        (survey([1, 2, 3], data=13, identifier=identifier, count=count), PAD),
        (survey([1, 2], vector=65, identifier=identifier, count=count), PAD),
        (packet(1, [], c=1, t=1, oui=OUI, classes=0x20110002, identifier=identifier), PAD),
    ]
    return found


def before_pad(identifier, count=5):
    """Packets of type 1 that PAD and an earlier refusal apply to."""
    given = dict(identifier=identifier, count=count)
    bad = survey([1, 2], data=14, **given)
    return [
        (survey([1, 2], data=14, tsf=2, fraction=TERA, **given), TIME),
        (packet(1, [1], tsf=2, fraction=TERA, **given), TIME),
        (bad[:-1], CUT),
        (bad[:2], CUT),
        (bad[:1], CUT),
        ([bad[0] - 3] + bad[1:], SHORT),
        ([0x10000001, identifier], SHORT),
        ([0x10000000], SHORT),
        ([bad[0] | 1 << 24] + bad[1:], BITS),
        ([0x60000000 | bad[0] & 0x0FFFFFFF] + bad[1:], TYPE),
    ]


def survey_by_hand():
    one = [0x1C000007, 7, 0x00FFFFFA, 0x00130000, 0xABCDEF12, 0x30000000, 0]
    other = [0x1C000006, 7, 0x40FFFFFA, 0x000A0002, 0x01020300, 0]
    recording([7], [(one, (1, 0, 0)), (other, (1, 0, 15))], choices=[1], after={3: 2, 4: 15})
    recording([7], [(one, (1, 0, 0)), (other, CLASS)], choices=[0], after={3: 1, 4: 0})
    recording([8], [(one, STREAM), (other, CLASS)], choices=[1], after={3: 0, 4: 0})


def survey_counts():
    """Survey packets count as type 1; those that are refused do not."""
    packets = []
    for turn, (count, missing) in enumerate(((14, 0), (2, 3), (2, 15), (3, 0), (3, 15), (0, 12))):
        words = survey(counted(turn), pad=turn, identifier=7, count=count) if turn else survey(
            [], identifier=7, count=count)
        packets.append((words, (1, 0, missing)))
        packets.append(pad_packets(7, count)[turn])
    recording(
        [7], packets, choices=[1], after={**at_places(3, [6, 45, 1]), choice_place(): 1},
    )
    # All of them, before and after packets that are played.
    begin = [(short_packet(kind, 7, 3), (kind, 0, 0)) for kind in (3, 4, 5)]
    begin.append((survey([1], identifier=7, count=3), (1, 0, 0)))
    end = [(short_packet(kind, 7, 4), (kind, 0, 0)) for kind in (3, 4, 5)]
    end.append((survey([1], identifier=7, count=4), (1, 0, 0)))
    after = {}
    for kind in COUNTED:
        after.update(at_places(count_place(kind), [2, 0, 5]))
    refused = pad_packets(7) + before_pad(7)
    recording([7], begin + refused + end, choices=[1], after=after)
    fresh = {0: 1, **at_places(1, [7] + [0] * 13 + [1] + [0] * 74)}
    recording([7], refused, choices=[1], after=fresh)
    for one in refused:
        recording([7], begin + [one] + end, choices=[1], after=after)
    # The same words where the choice is 0: what is left is read plainly.
    for words, _ in refused:
        answer, what = vrt49.read(words)[:2]
        meant = what if answer == "refused" else (1, 0, 0)
        recording([7], [(words, meant)], choices=[0])


def survey_kinds():
    """Each data type, real and complex, under both choices."""
    for choices in ([1, 0], [0, 1]):
        packets = []
        for data, item in ITEM_BITS.items():
            for rc in (0, 1):
                n = (item * (1 + rc) + 31) // 32
                pad = 32 * n - item * (1 + rc)
                for stream in (0, 1):
                    words = survey(counted(n), pad, data, rc, identifier=7 + stream)
                    packets.append((words, None if choices[stream] or not pad else CLASS))
                    words = survey(counted(n), 0, data, rc, identifier=7 + stream)
                    right = not choices[stream] or whole(n, 0, data, rc, 1)
                    packets.append((words, None if right else PAD))
        recording([7, 8], packets, choices=choices)


def survey_others():
    """The choice governs type 1 of a declared stream: other types, and packets of no
    declared stream, are plain."""
    oui, classes = survey_class()
    padded, _ = survey_class(pad=8)
    for choices in ([1, 1], [0, 0], [1, 0], [0, 1]):
        packets = []
        for kind in (3, 4, 5):
            body = [0] if kind == 4 else [1, 2]
            for stream in (0, 1):
                given = dict(c=1, classes=classes, identifier=7 + stream)
                packets.append((packet(kind, body, oui=oui, **given), None))
                packets.append((packet(kind, body, oui=padded, **given), CLASS))
                packets.append((packet(kind, body, identifier=7 + stream), None))
                packets.append((packet(kind, body, oui=0x123456, **given), None))
                if kind == 3:
                    packets.append((packet(kind, body, oui=padded, t=1, **given), CLASS))
                    packets.append((packet(kind, body, oui=oui, t=1, **given), None))
        packets += [
            (context(0x00000001, identifier=7), INDICATOR),
            (context(1 << 30, identifier=7), LAYOUT),
            (context(1 << 24, [1 << 16], identifier=8), FIELD),
        ]
        for kind in (0, 2):
            given = dict(c=1, t=1, classes=classes)
            packets.append((packet(kind, [7, 8], oui=oui, **given), STREAM))
            packets.append((packet(kind, [7, 8], oui=padded, **given), CLASS))
        for identifier in (6, 9, 7 | 1 << 31, 0, ONES, PATTERN):
            given = dict(identifier=identifier)
            packets += [
                (survey([1, 2], **given), STREAM),
                (survey([1, 2], pad=8, **given), CLASS),
                (survey([1, 2], high=1 << 26, **given), CLASS),
                (survey([1, 2], data=15, **given), STREAM),
                (survey([1, 2, 3], data=13, **given), STREAM),
                (survey([1, 2], t=0, **given), STREAM),
                (survey([1, 2], c=0, **given), STREAM),
                (survey([1, 2], pad=8, t=0, **given), CLASS),
                (survey([1, 2], pad=8, tsf=2, fraction=TERA, **given), CLASS),
                (survey([1, 2], tsf=2, fraction=TERA, **given), TIME),
            ]
        recording([7, 8], packets, choices=choices)
    # The word of an identifier that is not there, or is another part.
    recording(
        [8, 7], [([0x10000001], SHORT), ([0x1C000005], CUT), ([0x1C000005, 7], CUT),
                 (survey([1], pad=1, identifier=7), (1, 1, 0))], choices=[0, 1],
    )


def survey_mixed():
    """Lists of both choices: each stream is sent a survey packet with a pad count, one
    without, and a plain packet."""
    for n, turn in ((2, 0), (2, 1), (3, 0), (5, 1), (32, 0), (32, 1)):
        ids = [0x4900 + 3 * i for i in range(n)]
        choices = [(i + turn) % 2 for i in range(n)]
        if n == 32 and turn:
            choices = [i % 3 == 0 for i in range(n)]
            choices = [int(choice) for choice in choices]
        packets, after = [], {}
        for stream, (identifier, choice) in enumerate(zip(ids, choices)):
            sent = (
                (survey([1], pad=1, identifier=identifier), choice == 1, CLASS),
                (survey([1], identifier=identifier, count=1), True, None),
                (packet(1, [1], identifier=identifier, count=2), choice == 0, PAD),
            )
            for words, right, number in sent:
                packets.append((words, None if right else number))
            last = 2 if choice else 3
            after.update(at_places(count_place(1, stream), [2, 0, last]))
            after[choice_place(stream)] = choice
        recording(ids, packets, choices=choices, after=after)
    # A walk over two streams in turn, with context between.
    packets = []
    for turn in range(8):
        packets += [
            (survey([turn], pad=turn, identifier=7, count=turn), (1, 0, 0)),
            (packet(1, [turn], identifier=8, count=turn), (1, 1, 0)),
            (context(1 << 23, [turn], identifier=7, count=turn), (4, 0, 0)),
        ]
    packets.insert(10, (packet(1, [7], identifier=7, count=9), PAD))
    packets.insert(15, (survey([7], pad=9, identifier=8, count=9), CLASS))
    packets.insert(20, (survey([7], identifier=9, count=9), STREAM))
    recording([7, 8], packets, choices=[1, 0])


def long_surveys():
    recording(
        [8, 9],
        [
            (survey(counted(2048), vector=65536, identifier=9, count=4), (1, 1, 0)),
            (survey(counted(2047), vector=65536, identifier=9, count=5), PAD),
            (survey(counted(130), pad=16, data=3, vector=5, identifier=9, count=5), PAD),
            (survey(counted(130), pad=0, data=5, rc=1, vector=5, identifier=9, count=5), PAD),
            (survey(counted(140), pad=0, data=5, rc=1, vector=7, identifier=9, count=5), (1, 1, 0)),
        ],
        choices=[0, 1],
    )


def wrong_choices():
    for wrong in (2, 3, 4, 1 << 8, 1 << 16, 1 << 31, (1 << 31) + 1, ONES, PATTERN):
        not_made({choice_place(): wrong}, "choice")
        for stream in range(3):
            not_made({choice_place(stream): wrong}, "choice", ids=(7, 8, 9))
    not_made({choice_place(31): 2}, "choice", ids=range(32), probe=0)
    not_made({choice_place(30): ONES}, "choice", ids=range(32), probe=0)
    not_made({choice_place(): 2, count_place(1) + 2: 17}, "choice", "last")
    # Of a table that is otherwise full.
    fields = at_places(slot_place(30), slots_of(first_held))
    stores = {**START_4, indicator_place(): HELD_BITS, **fields}
    not_made({**stores, choice_place(): 2}, "choice")
    # A word past the records.
    neighbour({choice_place(1): 2}, "choice", room=200)
    # The other choice: packets are then read by it.
    for before in (0, 1):
        after = {choice_place(): 1 - before}
        padded = survey([1], pad=1, identifier=7)
        bare = short_packet(1, 7, 0)
        meant = [(padded, CLASS), (bare, (1, 0, 0))] if before else [
            (padded, (1, 0, 0)), (bare, PAD)]
        recording([7], meant, choices=[before], stores=after, beside="choice", after=after)
        for full in (stores, {**stores, choice_place(): 1 - before}):
            again = 1 - before if choice_place() in full else before
            words = padded if again else bare
            recording(
                [7], [(words, (1, 0, 0))], choices=[before], stores=full, beside="choice",
                after={choice_place(): again, **fields},
            )


# Tables that are not well made, and their neighbours that are.


START_4 = {count_place(4) + 2: 1}


def probes(identifier):
    """Packets that a well-made table plays, and each refusal; a table that is
    not well made answers TABLE to all of them."""
    return [
        short_packet(1, identifier, 0),
        context(FIXED_BITS, all_fixed(), identifier=identifier),
        *[words for words, _ in refused_packets(identifier)[::5]],
        short_packet(3, 0x0BADBAD0, 0),
        packet(0, [identifier]),
        survey([1], identifier=identifier, pad=1),
        survey([1], identifier=identifier, t=0),
    ]


def not_made(stores, *broken, ids=(7,), probe=None, **rest):
    """A table that breaks these rules, the choices of its streams now these and now
    those."""
    words = probes(ids[-1] if probe is None else probe)
    # All the probes in every eighth recording, two of them in the others.
    turn = len(recordings)
    if turn % 8:
        words = [words[turn % 2], words[turn % len(words)]]
    choices = [(turn >> i % 4) % 2 for i in range(len(ids))]
    recording(
        ids, [(one, TABLE) for one in words], stores=stores, broken=broken,
        after=dict(stores), choices=choices, **rest,
    )


def neighbour(stores, beside, ids=(7,), stream=0, **rest):
    """A table just within the rule that a neighbour breaks; a packet of each type
    is played into one of its streams."""
    packets = []
    for kind in COUNTED:
        last = dict(stores).get(count_place(kind, stream) + 2, 0)
        missing = gap(last - 1, 6) if last else 0
        packets.append((short_packet(kind, ids[stream], 6), (kind, stream, missing)))
    recording(ids, packets, stores=stores, beside=beside, **rest)


def every_refusal_after_table():
    """TABLE before each refusal that there is."""
    packets = refused_packets(7) + no_stream_packets(8)
    stores = {count_place(5) + 2: 17}
    recording(
        [7], [(words, TABLE) for words, _ in packets], stores=stores, broken=("last",),
        after=stores,
    )
    refused = pad_packets(7)
    recording(
        [7], [(words, TABLE) for words, _ in refused], stores=stores, broken=("last",),
        after=stores, choices=[1],
    )
    for _, number in packets + refused:
        both_faults.add((TABLE, number))


def wrong_numbers():
    not_made({0: 0}, "number")
    not_made({0: 0}, "number", ids=(7, 8, 9))
    # 33 records do not fit into 2,900 words, so two rules are broken.
    for number in (33, 34, 64, 1 << 16, 1 << 31, ONES):
        not_made({0: number}, "layout", "number", ids=(7, 8))
    not_made({0: 33}, "layout", "number", ids=range(32), room=MOST_ROOM)
    # Lengths that come out right if they wrap at 2^32, or a number of which only
    # the lowest bits are looked at.
    for number in (
        1 << 29, (1 << 29) + 1, (1 << 29) + 2, 3 << 29, 0x101, 0x10001, (1 << 31) + 1,
    ):
        not_made({0: number}, "layout", "number")
    for words in (1, 2, 3, 88):
        not_made({0: words * pow(89, -1, 1 << 32) % (1 << 32)}, "layout", "number")
    # A smaller number, the words past its records being what they may.
    neighbour({0: 1}, "number", ids=(7, 8))
    neighbour({0: 2}, "number", ids=(7, 8, 9), stream=1)
    neighbour({0: 31}, "number", ids=range(32), stream=30)
    wild = {0: 1, **at_places(90, [7, ONES, 1, 2, 0, 5, 6, 17])}
    neighbour(wild, "number", ids=(7, 8))
    recording(
        [7, 8], [(short_packet(1, 8, 6), STREAM), (short_packet(1, 7, 6), (1, 0, 0))],
        stores=wild, beside="layout", after=wild,
    )


def wrong_layouts():
    # Two records where the words of one are, and then those of both but one.
    not_made({0: 2}, "layout", room=90)
    not_made({0: 32}, "layout")
    zeros = at_places(90, [8] + [0] * 88)
    short = {place: word for place, word in zeros.items() if place < 178}
    not_made({0: 2, **short}, "layout", room=178)
    neighbour({0: 2, **zeros}, "layout", room=179)
    neighbour({0: 2, **zeros}, "layout", room=180)
    recording(
        [7], [(short_packet(1, 8, 6), (1, 1, 0)), (short_packet(1, 7, 6), (1, 0, 0))],
        stores={0: 2, **zeros}, room=179, beside="layout",
        after={0: 2, **at_places(92, [1, 0, 7])},
    )
    not_made({0: 3}, "layout", ids=(7, 8), room=267)
    # The whole of a second record, but of words that were not stored.
    broken = ("choice", "indicator", "unheld", "field", "state", "last")
    not_made({0: 2}, *broken, room=179, probe=PATTERN)
    neighbour({90: 7, 91: ONES}, "layout", room=179)


def wrong_lists():
    for ids, places in (
        ((7, 8), (0, 1)), ((7, 8), (1, 0)), ((7, 8, 9), (0, 2)), ((7, 8, 9), (1, 2)),
        ((0, 5), (1, 0)), ((7, 8, 9, 10), (0, 3)), ((ONES, 1), (1, 0)),
    ):
        to, source = places
        not_made({record_place(to): ids[source]}, "identifiers", ids=ids)
        for bit in (0, 31):
            near = ids[source] ^ 1 << bit
            if near not in ids:
                gone = (short_packet(1, ids[to], 0), STREAM)
                there = (short_packet(1, near, 3), (1, to, 0))
                recording(
                    ids, [gone, there], stores={record_place(to): near}, beside="identifiers"
                )
    not_made({record_place(31): 0}, "identifiers", ids=range(32))
    not_made({record_place(30): 31}, "identifiers", ids=range(32))


def wrong_indicators():
    for bit in (31, 22, *range(10)):
        not_made({**START_4, indicator_place(): 1 << bit}, "indicator")
    for bit in (31, 22, 9, 8, 0):
        # Among fields that are held, and with type 4 not started.
        fields = at_places(slot_place(30), slots_of(first_held))
        stores = {**START_4, indicator_place(): HELD_BITS | 1 << bit, **fields}
        not_made(stores, "indicator")
        not_made({indicator_place(): 1 << bit}, "indicator")
        second = {indicator_place(1): 1 << bit, count_place(4, 1) + 2: 16}
        not_made(second, "indicator", ids=(7, 8))
    not_made({**START_4, indicator_place(): 0x804003FF}, "indicator")
    # Field 22 with a word.
    for stream in (0, 1):
        stores = {count_place(4, stream) + 2: 1, indicator_place(stream): 1 << 22}
        stores[slot_place(22, stream)] = 5
        not_made(stores, "indicator", "unheld", ids=(7, 8))
    for bit, _ in HELD:
        neighbour(
            {**START_4, indicator_place(): 1 << bit, slot_place(bit): 0}, "indicator",
            after={indicator_place(): 1 << bit},
        )


def wrong_unheld():
    # Each word of each field.
    for bit, n in FIXED:
        for i in range(n):
            word = (1, 1 << 31, ONES, PATTERN)[(bit + i) % 4]
            not_made({**START_4, slot_place(bit) + i: word}, "unheld")
    # Among all the others held.
    fields = at_places(slot_place(30), slots_of(first_held))
    for word in (1, 1 << 31):
        stores = {**START_4, indicator_place(): HELD_BITS, **fields, slot_place(22): word}
        not_made(stores, "unheld")
    for bit, _ in HELD:
        stores = {**START_4, indicator_place(): HELD_BITS ^ 1 << bit, **fields}
        not_made(stores, "unheld")
        without = {**stores, **at_places(slot_place(bit), [0] * SIZES[bit])}
        neighbour(without, "unheld", after={slot_place(bit): 0})
    # In other streams, and with type 4 not started.
    for stream in range(3):
        not_made({slot_place(10, stream): 1}, "unheld", ids=(7, 8, 9), probe=7)
        not_made({slot_place(22, stream): 1}, "unheld", ids=(7, 8, 9), probe=8)
        not_made({slot_place(30, stream): 1 << 31}, "unheld", ids=(7, 8, 9), probe=9)
    everything = {**START_4, indicator_place(): HELD_BITS, **fields}
    neighbour(everything, "unheld", after={indicator_place(): HELD_BITS, **fields})
    # Field 10's word is the layout's last; the word past it is free.
    neighbour({90: 5}, "unheld", after={89: 0})


# For each field with a rule, words that break it and words just within it.
FIELD_EDGES = {
    29: (
        [[1 << 31, 0], [ONES, ONES]],
        [[0x7FFFFFFF, ONES], [0, 1 << 31]],
    ),
    24: (
        [[1 << place] for place in range(16, 32)] + [[0xFFFFFF80]],
        [[0xFFFF], [0x8000]],
    ),
    21: (
        [[1 << 31, 0], [ONES, 0]],
        [[0x7FFFFFFF, ONES], [0, 1 << 31]],
    ),
    18: (
        [[1 << place] for place in range(16, 32)] + [[0xFFFFFFE0]],
        [[0xFFFF], [0x8000]],
    ),
    17: (
        [[1 << place, 0] for place in range(24, 32)]
        + [[0, 1 << place] for place in range(16, 32)],
        [[0x00FFFFFF, 0xFFFF], [1 << 23, 1 << 15]],
    ),
    16: (
        [[1 << place] for place in (23, 22, 21, 20, 11, 10, 9, 8)],
        [[ALL_ON | USER], [1 << 26 | 1 << 14], [1 << 7]],
    ),
    15: (
        [[FORMAT | 1 << place, 0] for place in (12, 13, 14, 15)]
        + [[format_word(complexity=3), 0]]
        + [[format_word(code=code), 0] for code in (7, 8, 13, 23, 31)]
        + [[format_word(code=14, packing=64, item=item), 0] for item in (31, 33)]
        + [[format_word(code=15, packing=64, item=63), 0]]
        + [[format_word(packing=16, item=17), 0]]
        + [[format_word(packing=16, item=16, event=1), 0]]
        + [[format_word(packing=16, item=16, channel=1), 0]]
        + [[format_word(packing=64, item=43, event=7, channel=15), ONES]],
        [[format_word(complexity=2, rest=1 << 31 | 1 << 23), ONES]]
        + [[format_word(code=code), 0] for code in (6, 16, 22)]
        + [[format_word(code=14, packing=32, item=32), 0]]
        + [[format_word(code=15, packing=64, item=64), 0]]
        + [[format_word(packing=16, item=15, event=1), 0]]
        + [[format_word(packing=16, item=15, channel=1), 0]]
        + [[format_word(packing=64, item=42, event=7, channel=15), 0], [0, 0]],
    ),
}


def wrong_fields():
    for bit, (wrong, right) in FIELD_EDGES.items():
        held = {**START_4, indicator_place(): 1 << bit}
        for words in wrong:
            not_made({**held, **at_places(slot_place(bit), words)}, "field")
        for words in right:
            after = at_places(slot_place(bit), words)
            neighbour({**held, **after}, "field", after=after)
        # Among all the fields, in the second of two streams.
        fields = at_places(slot_place(30, 1), slots_of(first_held))
        fields.update(at_places(slot_place(bit, 1), wrong[-1]))
        stores = {count_place(4, 1) + 2: 16, indicator_place(1): HELD_BITS, **fields}
        not_made(stores, "field", ids=(7, 8), probe=7)
    # Fields without a rule.
    fields = {}
    indicator = 0
    for bit, n in HELD:
        if bit not in FIELD_EDGES:
            indicator |= 1 << bit
            fields.update(at_places(slot_place(bit), [ONES] * n))
    neighbour({**START_4, indicator_place(): indicator, **fields}, "field", after=fields)


# State words that keep the rule of the field and cannot be held, and some that can.
WRONG_STATES = [
    *[1 << bit for pair in NOT_HELD for bit in pair],
    *[ALL_ON | 1 << bit for pair in NOT_HELD for bit in pair],
    0x02002000, 0x01001000, 0x030030FF,
    *[1 << value for _, value in INDICATORS],
    *[ALL_OFF - (1 << enable) + (1 << value) for enable, value in INDICATORS],
    *[ALL_ON - (1 << enable) | USER for enable, _ in INDICATORS],
    VALUES, 0xFF0FF0FF,
]
RIGHT_STATES = [
    0, 1, USER, ALL_OFF, ALL_ON, ALL_ON | USER,
    *[1 << enable for enable, _ in INDICATORS],
    *[1 << enable | 1 << value for enable, value in INDICATORS],
    *[ALL_ON - (1 << enable) - (1 << value) for enable, value in INDICATORS],
]


def wrong_states():
    held = {**START_4, indicator_place(): 1 << 16}
    for word in WRONG_STATES:
        not_made({**held, slot_place(16): word}, "state")
    for word in RIGHT_STATES:
        neighbour({**held, slot_place(16): word}, "state", after={slot_place(16): word})
    not_made({**held, slot_place(16): ONES}, "field", "state")
    # Among all the fields, in one of two streams.
    for stream in (0, 1):
        fields = at_places(slot_place(30, stream), slots_of(first_held))
        stores = {count_place(4, stream) + 2: 16, indicator_place(stream): HELD_BITS, **fields}
        for word in (1 << 25, 1 << 14):
            not_made({**stores, slot_place(16, stream): word}, "state", ids=(7, 8))
    # What is held goes on from there.
    for before, word, after in (
        (ALL_ON | 0x11, 1 << 29 | 0x22, ALL_ON - (1 << 17) | 0x22),
        (0, 1 << 29 | 1 << 17, 1 << 29 | 1 << 17),
        (1 << 26 | 1 << 14, 0x03003000 | 1 << 19, 1 << 26 | 1 << 14),
    ):
        recording(
            [7], [(context(1 << 16, [word], identifier=7, count=1), (4, 0, 0))],
            stores={**held, slot_place(16): before}, beside="state",
            after={slot_place(16): after},
        )


def wrong_counts():
    for kind in COUNTED:
        place = count_place(kind)
        # Not started.
        for word in (1, 1 << 31, ONES):
            not_made({place: word}, "not started")
            not_made({place + 1: word}, "not started")
        not_made({place: 1, place + 1: 1}, "not started")
        # The other types have started.
        others = {count_place(one) + 2: 16 for one in COUNTED if one != kind}
        not_made({**others, place: 1}, "not started")
        for seen, missing in ((0, 0), (1, 0), (0, 1), (ONES, ONES)):
            neighbour(at_places(place, [seen, missing, 1]), "not started")
        # The last count.
        for last_plus_one in (17, 18, 32, 33, 256, 1 << 16, 1 << 31, ONES):
            not_made({place + 2: last_plus_one}, "last")
        not_made(at_places(place, [4, 5, 17]), "last")
        for last_plus_one in range(1, 17):
            neighbour(at_places(place, [4, 5, last_plus_one]), "last")
        for stream in (0, 1, 2):
            not_made({count_place(kind, stream) + 2: 17}, "last", ids=(7, 8, 9), probe=8)
            not_made({count_place(kind, stream): 1}, "not started", ids=(7, 8, 9), probe=8)
    not_made({count_place(5, 31) + 2: 17}, "last", ids=range(32), probe=0)


def wrong_starts():
    for bit, n in HELD:
        # The field's words zero, and not.
        not_made({indicator_place(): 1 << bit}, "type 4")
        not_made(
            {indicator_place(): 1 << bit, **at_places(slot_place(bit), other(bit))}, "type 4"
        )
    fields = at_places(slot_place(30), slots_of(first_held))
    not_made({indicator_place(): HELD_BITS, **fields}, "type 4")
    # The other types have started, or type 4 of the other stream.
    others = {count_place(kind) + 2: 5 for kind in (1, 3, 5)}
    not_made({**others, indicator_place(): 1 << 10}, "type 4")
    not_made({count_place(4, 1) + 2: 5, indicator_place(0): 1 << 10}, "type 4", ids=(7, 8))
    not_made({count_place(4, 0) + 2: 5, indicator_place(1): 1 << 10}, "type 4", ids=(7, 8))
    for last_plus_one in (1, 16):
        stores = {count_place(4) + 2: last_plus_one, indicator_place(): HELD_BITS, **fields}
        neighbour(stores, "type 4", after={indicator_place(): HELD_BITS, **fields})
    # Type 4 has started and nothing is held.
    neighbour(START_4, "type 4", after={indicator_place(): 0})
    neighbour(
        {count_place(4, 1) + 2: 5, indicator_place(1): 1 << 10}, "type 4", ids=(7, 8), stream=1
    )


# Pseudo-random recordings.


def random_ids(numbers, n):
    """Identifiers that are near to each other, or not."""
    way = numbers.below(3)
    found = []
    while len(found) < n:
        if way == 0:
            one = numbers.word()
        elif way == 1:
            one = 0x40000000 + numbers.below(2 * n)
        else:
            one = numbers.below(64) << 26 | 7
        if one not in found:
            found.append(one)
    return found


def random_play(numbers, ids, chance, choices=None):
    """A packet of one of the streams, or one with no identifier; with a chance of
    one in so many it is of another identifier, or damaged, or followed by other
    words, and with a smaller one there are no words.  Of type 1 it is mostly read as
    its stream's choice says."""
    if numbers.below(10 * chance) == 0:
        return []
    words = random_packet(numbers)
    while words[0] >> 28 in (0, 2) and numbers.below(3):
        words = random_packet(numbers)
    if words[0] >> 28 in COUNTED:
        stream = numbers.below(len(ids))
        if choices is not None and words[0] >> 28 == 1:
            if numbers.below(chance) != 0 and choices[stream] == 1:
                words = random_survey(numbers)
            elif numbers.below(chance) == 0:
                words = random_survey(numbers)
        words[1] = ids[stream]
        if numbers.below(chance) == 0:
            words[1] ^= 1 << numbers.below(32)
    if numbers.below(chance) == 0:
        words = read_vectors.damaged(numbers, words)
    if numbers.below(chance) == 0:
        words = words + numbers.some(1 + numbers.below(3))
    return words


def random_recordings():
    numbers = Numbers(4949)
    for n in range(1, 33):
        ids = random_ids(numbers, n)
        choices = [numbers.below(2) for _ in ids]
        packets = [(random_play(numbers, ids, 10, choices), None) for _ in range(12 + 2 * n)]
        recording(ids, packets, room=1 + 89 * n + numbers.below(3), choices=choices)
    for _ in range(24):
        n = 1 + numbers.below(4)
        ids = random_ids(numbers, n)
        choices = [numbers.below(2) for _ in ids]
        packets = [(random_play(numbers, ids, 6, choices), None) for _ in range(40)]
        recording(ids, packets, room=1 + 89 * n + numbers.below(90), choices=choices)
    # A stream as a receiver sends it: data in order with a loss now and then, and
    # context of a few fields.
    for _ in range(6):
        identifier = numbers.word()
        lasts = {}
        packets = []
        for _ in range(120):
            kind = (1, 1, 1, 1, 1, 3, 4, 5)[numbers.below(8)]
            lost = numbers.below(15) if numbers.below(8) == 0 else 0
            last = lasts.get(kind)
            count = numbers.below(16) if last is None else (last + 1 + lost) % 16
            body = random_few(numbers) if kind == 4 else numbers.some(numbers.below(4))
            words = packet(kind, body, identifier=identifier, count=count)
            packets.append((words, (kind, 0, 0 if last is None else lost)))
            lasts[kind] = count
        recording([identifier], packets)
    # Any well-made table to begin with, and one word of it changed.
    for turn in range(60):
        n = 1 + numbers.below(2)
        ids = random_ids(numbers, n)
        stores = random_stores(numbers, n)
        if turn % 2:
            place = numbers.below(1 + 89 * n)
            word = (numbers.below(20), 1 << numbers.below(32), numbers.word())[numbers.below(3)]
            stores[place] = word
        choices = [numbers.below(2) for _ in ids]
        packets = [(random_play(numbers, ids, 6, choices), None) for _ in range(8)]
        broken = None if turn % 2 else ()
        recording(ids, packets, stores=stores, broken=broken, choices=choices)


def random_few(numbers):
    """The body of a Context packet with a few fields."""
    body = [0]
    for bit, n in FIXED:
        if n < 3 and numbers.below(6) == 0:
            body[0] |= 1 << bit
            body += random_field(numbers, bit, n)
    return body


def random_held(numbers, bit, n):
    """The words of a field as it may be held."""
    words = random_field(numbers, bit, n)
    return [table.state_after(0, words[0])] if bit == 16 else words


def random_stores(numbers, n):
    stores = {}
    for stream in range(n):
        for kind in COUNTED:
            if numbers.below(4):
                count = [numbers.word(), numbers.word(), 1 + numbers.below(16)]
                stores.update(at_places(count_place(kind, stream), count))
        if count_place(4, stream) in stores:
            indicator = 0
            for bit, size in HELD:
                if numbers.below(3) == 0:
                    indicator |= 1 << bit
                    words = random_held(numbers, bit, size)
                    stores.update(at_places(slot_place(bit, stream), words))
            stores[indicator_place(stream)] = indicator
    return stores


# The places of refusals: C-15.


# Four streams, the first and the third plain, the others of survey packets.  The tables
# that streams_vectors.py takes have three at most.
PLACE_IDS = (0x1500, 0x1501, 0x1502, 0x1503)
PLACE_CHOICES = (0, 1, 0, 1)


def places_recording(packets):
    """Packets that are refused, a packet of each stream before them and its next behind
    them: what is between is not counted."""
    begin, end, after = [], [], {}
    for stream, identifier in enumerate(PLACE_IDS):
        begin.append((context(1 << 30, [stream], identifier=identifier), (4, stream, 0)))
        end.append((context(1 << 10, [9], identifier=identifier, count=1), (4, stream, 0)))
        after.update({indicator_place(stream): 1 << 30 | 1 << 10, slot_place(10, stream): 9})
        after.update(at_places(count_place(4, stream), [2, 0, 2]))
    recording(PLACE_IDS, begin + packets + end, after=after, choices=PLACE_CHOICES)


def reading_places():
    """Those of reading: to a plain stream, then those of type 1 to one of survey packets,
    and some to no declared stream."""
    packets = []
    for turn, (words, told, _) in enumerate(read_vectors.placed(PLACE_IDS[0])):
        # The words of read_vectors.py that have many fields are few here.
        if told is not None and (len(words) < 40 or turn % 3 == 0):
            packets.append((words, told))
    for words, _, told in read_vectors.placed(PLACE_IDS[1]):
        if words and words[0] >> 28 == 1:
            packets.append((words, told))
    # STREAM comes after them all.
    for turn, (words, told, _) in enumerate(read_vectors.placed(0x15FF)):
        if told is not None and turn % 9 == 0 and len(words) < 40:
            packets.append((words, told))
    for first in range(0, len(packets), 300):
        places_recording(packets[first : first + 300])


def stream_places():
    """STREAM with every choice of optional parts: the header of types 0 and 2, the
    identifier of the others."""
    packets = []
    shapes = list(some_shapes())
    for kind in (0, 1, 2):
        shapes += [one for one in every_shape(kind) if one.tsi > 1 or one.tsf > 1]
    for turn, shape in enumerate(shapes):
        identifier = (0, 0x15FF, ONES, PLACE_IDS[0] ^ 1 << 31)[turn % 4]
        # In types 0 and 2 what stands at word 1 may be a declared identifier.
        body = None if shape.kind == 4 else [("body", [PLACE_IDS[turn % 4]] * 2)]
        words, places = laid(shape, body, identifier)
        packets.append((words, Told(STREAM, places.get("identifier", 0))))
    places_recording(packets)


def far_places():
    """The longest packets there are here: field 8 is their last two words.  Then one with
    the text broken too, and the words of another packet behind it."""
    packets = []
    for stream, shape in ((0, Shape(4, 0, 0, 0, 0)), (1, Shape(4, 1, 1, 3, 3))):
        other_words = len(laid(shape, [("body", [0, 0, 0, 0, 0])])[0])
        body = fields_of({9: text_of(MOST_WORDS - other_words)}, {8: [0x02000000, 0]})
        words, places = laid(shape, body, PLACE_IDS[stream])
        packets.append((words, Told(FIELD, places[8], 8)))
    body = fields_of((30,), {9: text_of(2000, 1 << 31), 8: [1 << 9, 0]})
    words, places = laid(shape, body, PLACE_IDS[2])
    packets.append((words + packet(1, [1]), Told(FIELD, places[9], 9)))
    places_recording(packets)


def table_places():
    """TABLE has no place, whatever the packet is."""
    stores = {count_place(5, 3) + 2: 17}
    packets = [
        (words, Told(TABLE, None))
        for words, _, _ in read_vectors.placed(PLACE_IDS[0])
        if len(words) < 12
    ]
    recording(
        PLACE_IDS, packets[::9], stores=stores, broken=("last",), after=stores,
        choices=PLACE_CHOICES,
    )


# The two files.


def carried(words, found):
    """The fields 30 to 10 that a packet carries, by bit."""
    place = found.body + 1
    fields = {}
    for bit, n in FIXED:
        if words[found.body] >> bit & 1:
            fields[bit] = words[place : place + n]
            place += n
    return fields


def state_together(before, words):
    """The state word that is held after these, taken together: of each indicator the
    last word that enables it, and of the user bits the last one."""
    held = before & ~USER | words[-1] & USER
    for enable, value in INDICATORS:
        enabling = [word for word in words if word >> enable & 1]
        if enabling:
            held = held & ~(1 << value) | 1 << enable | enabling[-1] & 1 << value
    return held


def check_together(k, before, after, played):
    """The table's words at the end against the packets that were played, taken
    together, each stream and type by itself."""
    streams = before[0]
    expected = list(before)
    for stream in range(streams):
        for kind in COUNTED:
            place = count_place(kind, stream)
            counts = [p.count for s, p, _ in played if s == stream and p.type == kind]
            if not counts:
                continue
            if before[place + 2]:
                steps = [before[place + 2] - 1, *counts]
            else:
                steps = counts
            missing = sum(gap(last, count) for last, count in zip(steps, steps[1:]))
            expected[place] = (before[place] + len(counts)) & ONES
            expected[place + 1] = (before[place + 1] + missing) & ONES
            expected[place + 2] = counts[-1] + 1
        contexts = [carried(w, p) for s, p, w in played if s == stream and p.type == 4]
        for bit, n in HELD:
            values = [fields[bit] for fields in contexts if bit in fields]
            if values:
                place = slot_place(bit, stream)
                last = values[-1]
                if bit == 16:
                    last = [state_together(before[place], [word for (word,) in values])]
                expected[place : place + n] = last
                expected[indicator_place(stream)] |= 1 << bit
    if after != expected:
        sys.exit(f"recording {k} has a table that does not follow from its packets")


class Coverage:
    """What has been seen in the recordings, beside the number of each answer."""

    def __init__(self):
        self.tally = {}
        self.streams = set()
        self.starts = set()
        self.firsts = set()
        self.follows = set()
        self.fields = set()
        self.bits = set()
        self.states = set()
        self.enables = set()
        self.broken = {}
        self.beside = {}
        self.past_2_32 = set()
        self.no_identifier = set()
        self.choices = set()
        self.places = {"plain": set(), "survey": set()}

    def add(self, label):
        self.tally[label] = self.tally.get(label, 0) + 1


def note_played(cover, before, after, found, stream):
    """What one packet that is played covers."""
    place = count_place(found.type, stream)
    last = before[place + 2]
    if last == 0:
        cover.firsts.add((found.type, found.count))
    else:
        cover.follows.add((found.type, last - 1, found.count))
    if after[place] < before[place]:
        cover.past_2_32.add((found.type, "seen"))
    if after[place + 1] < before[place + 1]:
        cover.past_2_32.add((found.type, "missing"))


def note_fields(cover, before, after, words, found, stream):
    indicator = words[found.body]
    for bit in (31, 22, 9, 8):
        if indicator >> bit & 1:
            cover.bits.add(bit)
            if indicator == 1 << bit:
                cover.bits.add((bit, "alone"))
    if indicator & FIXED_BITS == FIXED_BITS:
        cover.bits.add("all")
    held = before[indicator_place(stream)]
    if indicator >> 16 & 1:
        place = slot_place(16, stream)
        old = before[place] if held >> 16 & 1 else None
        note_state(cover, old, carried(words, found)[16][0])
    for bit, n in HELD:
        place = slot_place(bit, stream)
        old, new = before[place : place + n], after[place : place + n]
        if indicator >> bit & 1:
            if not held >> bit & 1:
                cover.fields.add((bit, "held"))
            elif all(one != two for one, two in zip(old, new)):
                cover.fields.add((bit, "replaced"))
        elif held >> bit & 1 and any(old):
            cover.fields.add((bit, "kept"))
        if after[indicator_place(stream)] >> bit & 1 and not any(new):
            cover.fields.add((bit, "held and zero"))


def note_state(cover, old, word):
    """What a state word covers, with the one that is held before it, or None."""
    def of(one, enable, value):
        return "not enabled" if not one >> enable & 1 else "on" if one >> value & 1 else "off"

    cover.enables.add(word >> 26)
    for enable, value in INDICATORS:
        was = "absent" if old is None else of(old, enable, value)
        stray = " and set" if of(word, enable, value) == "not enabled" and word >> value & 1 else ""
        cover.states.add((enable, was, of(word, enable, value) + stray))
    for enable, value in NOT_HELD:
        if word & ~USER == 1 << enable | 1 << value:
            cover.states.add((enable, "alone"))
    if word == 0:
        cover.states.add("0 first" if old is None else "0 again")


def note_choice(cover, lent, words, answer):
    """What a packet covers, by the choice of the stream that it names."""
    if len(words) < 4 or not words[0] >> 27 & 1:
        return
    kind = words[0] >> 28
    place = 2 if kind in COUNTED else 1
    choice = "undeclared"
    for stream in range(lent[0]):
        if kind in COUNTED and lent[record_place(stream)] == words[1]:
            choice = lent[choice_place(stream)]
    said = "played" if answer[0] == "played" else answer[1]
    padded = "pad" if words[place] >> 27 else "no pad"
    if words[place] & 0x07FFFFFF == OUI:
        cover.choices.add((choice, kind, padded, said))


def note_refused(cover, lent, words, answer):
    """What a refusal covers, by its place, and whether it is the one that is found by
    walking over the words."""
    _, number, place, bit = answer
    if number == TABLE:
        fail((place, bit) != (None, None), f"TABLE has the place {place}")
        return
    kind = words[0] >> 28 if words else None
    if number == STREAM:
        right = 1 if kind in COUNTED else 0
        fail((place, bit) != (right, None), f"STREAM of type {kind} has the place {place}")
        shape = read_vectors.seen_shape(words)
        cover.places["plain"].add((STREAM, *shape))
        cover.places["plain"].add((STREAM, "type", kind, "place", place))
        return
    chosen = "plain"
    for stream in range(lent[0]):
        if kind == 1 and len(words) > 1 and lent[record_place(stream)] == words[1]:
            chosen = "survey" if lent[choice_place(stream)] else "plain"
    read_vectors.note_place(cover.places[chosen], words, answer)


def of_recording(k, one, cover):
    """The words of a recording in the input, and its lines."""
    if one.room > MOST_ROOM or max(len(one.ids), len(one.choices)) > MOST_STREAMS:
        sys.exit(f"recording {k} has a room or a list that is too large")
    if len(one.stores) > MOST_STORES or len(one.packets) > MOST_PACKETS:
        sys.exit(f"recording {k} has too many stores or packets")
    if len({place for place, _ in one.stores}) != len(one.stores):
        sys.exit(f"recording {k} stores twice at one place")
    given = [one.room, len(one.ids), *one.ids, len(one.choices), *one.choices, len(one.stores)]
    for place, word in one.stores:
        if place >= one.room:
            sys.exit(f"recording {k} stores past its room")
        given += [place, word]
    given.append(len(one.packets))
    for words, _ in one.packets:
        if len(words) > MOST_WORDS:
            sys.exit(f"recording {k} has a packet of over {MOST_WORDS} words")
        given += [len(words), *words]
    untouched = [PATTERN] * one.room
    (answer, what), lent = table.start_lent(one.ids, one.choices, untouched)
    number = what if answer == "refused" else STARTED
    if number != one.answer:
        sys.exit(f"recording {k} is built for {one.answer}, the reference says {number}")
    cover.starts.add((number, "S", len(one.ids)))
    cover.starts.add((number, "room", one.room - (1 + 89 * len(one.ids))))
    right_ids = 1 <= len(one.ids) <= 32 and len(set(one.ids)) == len(one.ids)
    cover.starts.add((number, right_ids, "more choices", len(one.choices) - len(one.ids)))
    for choice in set(one.choices):
        cover.starts.add((number, right_ids, "choice", choice))
    if number != STARTED:
        if lent != untouched:
            sys.exit(f"recording {k} is refused and has written")
        cover.add(f"start refused {number}")
        return given, [f"{k} refused {number}", f"  past {sum(lent) % 2**32}"]
    cover.add("started")
    length = what
    if length != 1 + 89 * len(one.ids) or lent[length:] != untouched[length:]:
        sys.exit(f"recording {k} has a layout of {length} words")
    listed = len(one.ids) + sum(one.ids) + sum(one.choices)
    if table.broken_rules(lent) or sum(lent[:length]) != listed:
        sys.exit(f"recording {k} does not start well made, or not with zeros")
    for place, word in one.stores:
        lent[place] = word
    broken = tuple(table.broken_rules(lent))
    if one.broken is not None and broken != one.broken:
        sys.exit(f"recording {k} is built to break {one.broken}, the reference says {broken}")
    if broken:
        cover.add("not well made")
        cover.broken[broken] = cover.broken.get(broken, 0) + 1
    else:
        cover.streams.add(lent[0])
        if one.beside is not None:
            cover.beside[one.beside] = cover.beside.get(one.beside, 0) + 1
    first = list(lent)
    lines = [f"{k} started {length}"]
    played = []
    for j, (words, meant) in enumerate(one.packets):
        before = lent
        answer, lent = table.play_lent(before, words)
        if not broken:
            note_choice(cover, before, words, answer)
        if answer[0] == "refused":
            number = answer[1]
            if lent != before:
                sys.exit(f"recording {k} packet {j} is refused and has written")
            said = answer[1:] if isinstance(meant, Told) else number
            if meant is not None and meant != said:
                sys.exit(f"recording {k} packet {j} is meant for {meant}, not {said}")
            cover.add(f"play refused {number}")
            if number == STREAM:
                cover.no_identifier.add(words[0] >> 28)
            note_refused(cover, before, words, answer)
            lines.append(f"  {j} {refusal_text(answer)}")
            continue
        _, size, kind, stream, missing = answer
        if meant is not None and meant != (kind, stream, missing):
            sys.exit(f"recording {k} packet {j} is meant for {meant}, not {answer}")
        if not table.well_made(lent) or lent[0] != first[0] or size != words[0] & 0xFFFF:
            sys.exit(f"recording {k} packet {j} has a wrong size or leaves a broken table")
        found = vrt49.packet_of(words)
        played.append((stream, found, words))
        cover.add(f"played type {kind}")
        note_played(cover, before, lent, found, stream)
        if kind == 4:
            note_fields(cover, before, lent, words, found, stream)
        lines.append(f"  {j} type {kind} stream {stream} missing {missing} size {size}")
    if broken and lent != first:
        sys.exit(f"recording {k} has changed a table that is not well made")
    if not broken:
        check_together(k, first, lent, played)
    for place, word in one.after.items():
        if lent[place] != word:
            sys.exit(f"recording {k} is meant to have {word} at {place}, not {lent[place]}")
    lines.append("  table" + "".join(f" {word}" for word in lent[:length]))
    lines.append(f"  past {sum(lent[length:]) % 2**32}")
    return given, lines


def build():
    samples()
    starts()
    gaps()
    first_counts()
    wraps()
    counted_apart()
    many_missing()
    past_2_32()
    each_field()
    all_fields()
    over_range_counts()
    each_indicator()
    each_choice_of_enables()
    state_words()
    not_held()
    other_parts()
    long_packets()
    refusals()
    choices_of_lists()
    survey_by_hand()
    survey_counts()
    survey_kinds()
    survey_others()
    survey_mixed()
    long_surveys()
    every_refusal_after_table()
    wrong_numbers()
    wrong_layouts()
    wrong_lists()
    wrong_choices()
    wrong_indicators()
    wrong_unheld()
    wrong_fields()
    wrong_states()
    wrong_counts()
    wrong_starts()
    random_recordings()
    reading_places()
    stream_places()
    far_places()
    table_places()


# Each answer, and the least number of its cases.
LEAST = {
    "started": 80,
    f"start refused {LIST}": 12,
    f"start refused {ROOM}": 12,
    "not well made": 25,
    **{f"played type {kind}": 300 for kind in COUNTED},
    **{f"play refused {number}": 12 for number in (*READ_ORDER, PAD, STREAM, TABLE)},
}

RULES = [name for name, _ in table.RULES_OF_WORDS + table.RULES_OF_RECORDS]


def fail(condition, message):
    if condition:
        sys.exit(message)


def check(cover):
    """The cases that there have to be."""
    for label in cover.tally:
        fail(label not in LEAST, f"{label}: not an answer that is asked for")
    for label, n in LEAST.items():
        found = cover.tally.get(label, 0)
        fail(found < n, f"{label}: {found} cases, fewer than {n}")
    # Where there are no words STREAM has nothing to apply to.
    pairs = [(number, STREAM) for number in READ_ORDER if number != EMPTY]
    pairs += [(TABLE, number) for number in (*READ_ORDER, PAD, STREAM)]
    for wanted, found in (
        ("streams", cover.streams == set(range(1, 33))),
        ("first counts", len(cover.firsts) == 4 * 16),
        ("counts after each other", len(cover.follows) == 4 * 256),
        ("bits 31, 22, 9, 8 and all fields", cover.bits >= {31, 22, 9, 8, "all"}),
        ("bits 31, 22, 9 and 8 alone", cover.bits >= {(bit, "alone") for bit in (31, 22, 9, 8)}),
        ("choices of enables", cover.enables == set(range(64))),
        ("seen and missing past 2^32", len(cover.past_2_32) == 4 * 2),
        ("no stream by type", cover.no_identifier == set(range(6))),
        ("pairs of faults", both_faults >= set(pairs)),
    ):
        fail(not found, f"{wanted}: not all of them are there")
    for bit, _ in HELD:
        for what in ("held", "replaced", "kept", "held and zero"):
            fail((bit, what) not in cover.fields, f"field {bit} is not {what}")
    states = [(enable, "alone") for enable, _ in NOT_HELD] + ["0 first", "0 again"]
    for enable, _ in INDICATORS:
        for was in ("absent", "not enabled", "on", "off"):
            for now in ("on", "off", "not enabled", "not enabled and set"):
                states.append((enable, was, now))
    for state in states:
        fail(state not in cover.states, f"no state word: {state}")
    for edge in (
        (LIST, "S", 0), (LIST, "S", 33), (LIST, "S", 40), (LIST, "S", 2), (LIST, "S", 32),
        (STARTED, "S", 1), (STARTED, "S", 32), (ROOM, "S", 1), (ROOM, "S", 32),
        (STARTED, "room", 0), (STARTED, "room", 1), (ROOM, "room", -1), (LIST, "room", -1),
        (LIST, "room", 0),
        *[(LIST, True, "more choices", more) for more in (-1, 1)],
        *[(LIST, right, "choice", choice) for right in (True, False) for choice in (2, 1)],
        (LIST, True, "choice", 3), (LIST, True, "choice", ONES), (LIST, False, "more choices", 1),
        (LIST, False, "more choices", 0), (STARTED, True, "choice", 1),
        (STARTED, True, "choice", 0), (ROOM, True, "choice", 1),
    ):
        fail(edge not in cover.starts, f"no case at the edge {edge}")
    for edge in (
        (1, 1, "pad", "played"), (1, 1, "no pad", "played"), (1, 1, "pad", PAD),
        (1, 1, "no pad", PAD), (1, 1, "no pad", TIME), (1, 1, "no pad", CUT),
        (1, 1, "no pad", SHORT), (1, 1, "no pad", BITS),
        (0, 1, "pad", CLASS), (0, 1, "no pad", "played"),
        ("undeclared", 1, "pad", CLASS), ("undeclared", 1, "no pad", STREAM),
        ("undeclared", 0, "pad", CLASS), ("undeclared", 0, "no pad", STREAM),
        *[(choice, kind, "pad", CLASS) for choice in (0, 1) for kind in (3, 4, 5)],
        *[(choice, kind, "no pad", "played") for choice in (0, 1) for kind in (3, 4, 5)],
    ):
        fail(edge not in cover.choices, f"no packet at the edge {edge}")
    for edge in ((1, 1, "pad", CLASS), (0, 1, "pad", "played"), (0, 1, "no pad", PAD)):
        fail(edge in cover.choices, f"a packet at {edge}")
    for name in RULES:
        fail(cover.broken.get((name,), 0) < 2, f"rule {name}: fewer than 2 break it alone")
        fail(cover.beside.get(name, 0) < 2, f"rule {name}: fewer than 2 are beside it")
    # The edges of C-15; under the choice 1 those of type 1, as the others are plain.
    wanted = read_vectors.places_wanted(READ_ORDER, False)
    wanted += [(STREAM, *shape) for shape in read_vectors.shapes_refused(STREAM, False)]
    wanted += [(STREAM, "type", kind, "place", 0) for kind in (0, 2)]
    wanted += [(STREAM, "type", kind, "place", 1) for kind in COUNTED]
    wanted += [(CLASS, "type", 1, "place", 2), (FIELD, "place", MOST_WORDS - 2)]
    for edge in wanted:
        fail(edge not in cover.places["plain"], f"no packet at the edge {edge}")
    for number in (BITS, SHORT, CUT, TIME, PAD):
        for shape in read_vectors.shapes_refused(number, True):
            if shape[0] == 1:
                edge = (number, *shape)
                fail(edge not in cover.places["survey"], f"no survey packet at the edge {edge}")


def main():
    if len(sys.argv) != 3:
        sys.exit("usage: play_vectors.py INPUT EXPECTED")
    build()
    given = bytearray()
    expected = []
    cover = Coverage()
    for k, one in enumerate(recordings):
        words, lines = of_recording(k, one, cover)
        for word in words:
            given += word.to_bytes(4, "big")
        expected += lines
    check(cover)
    text = "".join(line + "\n" for line in expected)
    fail(len(given) > 845_000, f"the input has {len(given)} bytes, more than 845,000")
    fail(len(text) > 1_300_000, f"the output has {len(text)} bytes, more than 1,300,000")
    with open(sys.argv[1], "wb") as file:
        file.write(given)
    with open(sys.argv[2], "w", encoding="ascii", newline="\n") as file:
        file.write(text)
    for label in LEAST:
        print(f"{label}: {cover.tally[label]}")
    for name in RULES:
        print(f"rule {name}: {cover.broken[(name,)]} broken, {cover.beside[name]} beside")
    print(f"recordings {len(recordings)}")


if __name__ == "__main__":
    main()
