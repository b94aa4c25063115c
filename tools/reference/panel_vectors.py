"""Writes the cases for readings, held words and all the readings of a stream, and
the reference's answers to them.

    python3 tools/reference/panel_vectors.py INPUT EXPECTED

README.md gives the form of both files.  Each case says for which answer it is
built, and a frequency, a level, a gain or a temperature with the numbers from
which its words are made; where the reference says another, the program ends
without writing.
"""

import functools
import sys
from fractions import Fraction

sys.dont_write_bytecode = True

import panel
import play_vectors
import table
from panel import VALUE
from play_vectors import (
    ALL_OFF, ALL_ON, FIELD_EDGES, HELD, MOST_ROOM, PATTERN, RIGHT_STATES, SIZES, WRONG_STATES,
    at_places, count_place, first_held, indicator_place, other, random_held, random_ids,
    random_stores, record_place, slot_place,
)
from read_vectors import FIXED, FIXED_BITS, ONES, Numbers, all_fixed, context
from table import ROOM, STREAM, TABLE

MOST_HELD = 20

# What is asked.
READING, WORDS, SWEEP, READINGS = 1, 2, 3, 4

FREQUENCIES = (29, 28, 27, 26, 25, 21)
NOT_NEGATIVE = (29, 21)
OTHERS = (30, 20, 19, 17, 16, 15, 14, 13, 12, 11, 10)
BITS = tuple(bit for bit, _ in FIXED)

# Bits that are not 30 to 10, those among them of which the lowest bits are.
WRONG_BITS = (
    31, 9, 8, 7, 6, 5, 4, 3, 2, 1, 0, 32, 33, 42, 56, 62, 63, 64 + 24, 256 + 24, 256 + 30,
    (1 << 16) + 23, (1 << 31) + 18, ONES - 30, ONES - 9, ONES - 1, ONES,
)

cases = []


class Case:
    """One case, with the answer it is built for: the number of a refusal, or what
    reading gives, or the number of held words, or None."""

    def __init__(self, words, stream, bit, answer, room):
        self.words = list(words)
        self.stream = stream
        self.bit = bit
        self.answer = answer
        self.room = room


def ask(words, stream, bit, answer):
    """A reading."""
    cases.append(Case(words, stream, bit, answer, None))


def held(words, stream, bit, room, answer):
    """The words of a field, into a buffer of so many words."""
    cases.append(Case(words, stream, bit, answer, room))


# The cases for all the readings of a stream, which come after the sweep: the words of
# the table, the stream, and the 21 answers that they are built for.
panels = []


def show(words, stream, answers):
    """All the readings of a stream."""
    panels.append((list(words), stream, answers))


def refused(number):
    return ("refused", number)


# Tables.


def choice_for(identifier):
    """The choice of a stream in these tables: 1 where its identifier is odd."""
    return identifier % 2


def fresh(ids=(7,), past=0):
    """The words of a table that has just started, and words past it."""
    choices = [choice_for(identifier) for identifier in ids]
    return table.start_lent(list(ids), choices, [PATTERN] * (1 + 89 * len(ids) + past))[1]


def stored(words, stores):
    words = list(words)
    for place, word in stores.items():
        words[place] = word
    return words


def of_fields(fields, stream=0):
    """The stores of a stream that holds these fields, by their bit."""
    stores = {
        indicator_place(stream): sum(1 << bit for bit in fields),
        **at_places(count_place(4, stream), [1, 0, 1]),
    }
    for bit, words in fields.items():
        stores.update(at_places(slot_place(bit, stream), words))
    return stores


def one_field(bit, words):
    """A table of one stream that holds one field; in turn it is lent longer."""
    return stored(fresh(past=len(cases) % 3), of_fields({bit: words}))


def two_words(number):
    """The two words of a number of 64 bits in two's complement, high first."""
    number %= 2**64
    return [number // 2**32, number % 2**32]


def half(number):
    """The 16 bits of a number in two's complement."""
    return number % 2**16


# Document 01's own samples.


def samples():
    ask(one_field(21, [0, 0x00100000]), 0, 21, ("frequency", 1, 0))
    ask(one_field(27, [ONES, ONES]), 0, 27, ("frequency", -1, 1048575))
    ask(one_field(24, [0xFF80]), 0, 24, ("level", -1))
    ask(one_field(18, [0xFFE0]), 0, 18, ("temperature", Fraction(-1, 2)))
    ask(one_field(23, [0xFF800080]), 0, 23, ("gain", 1, -1))


# Readings.

MOST_HERTZ = 2**43 - 1
MOST_PARTS = 2**20 - 1

# Whole hertz and parts; beside 0, the ends, and where a word carries.
HERTZ = (
    (0, 0), (0, 1), (-1, MOST_PARTS), (MOST_HERTZ, MOST_PARTS), (-(2**43), 0),
    (0, MOST_PARTS), (1, 0), (1, 1), (1, MOST_PARTS), (2, 0),
    (-1, 0), (-1, 1), (-2, MOST_PARTS), (-2, 0), (-2, 1),
    (MOST_HERTZ, 0), (MOST_HERTZ, 1), (MOST_HERTZ - 1, MOST_PARTS),
    (-(2**43), 1), (-(2**43), MOST_PARTS), (-(2**43) + 1, 0),
    (0, 2**19), (-1, 2**19), (0, 2**19 - 1), (-1, 2**19 + 1),
    (4095, MOST_PARTS), (4096, 0), (4096, 1), (-4096, 0), (-4096, 1), (-4097, MOST_PARTS),
    (2047, MOST_PARTS), (2048, 0), (-2048, 0), (-2049, MOST_PARTS),
    (2**31 - 1, MOST_PARTS), (2**31, 0), (-(2**31), 0), (-(2**31) - 1, MOST_PARTS),
    (2**32 - 1, MOST_PARTS), (2**32, 0), (-(2**32), 0), (-(2**32) - 1, MOST_PARTS),
    (10_000_000, 0), (12_500_000, 0), (1_575_420_000, 0), (-10_700_000, 524288),
)


def frequencies():
    for bit in FREQUENCIES:
        for hertz, parts in HERTZ:
            words = two_words(hertz * 2**20 + parts)
            if bit in NOT_NEGATIVE and hertz < 0:
                # Not in a well-made table.
                ask(one_field(bit, words), 0, bit, refused(TABLE))
            else:
                ask(one_field(bit, words), 0, bit, ("frequency", hertz, parts))
    numbers = Numbers(2100)
    for turn in range(60):
        bit = FREQUENCIES[turn % 6]
        # Of all sizes.
        number = (numbers.word() << 31 | numbers.word() >> 1) >> numbers.below(62)
        if bit not in NOT_NEGATIVE and numbers.below(2):
            number = -number - 1
        hertz, parts = number // 2**20, number % 2**20
        ask(one_field(bit, two_words(number)), 0, bit, ("frequency", hertz, parts))


HALVES = (
    0, 1, -1, 2, -2, 31, 32, 33, 63, 64, 65, 127, 128, 129, -31, -32, -33, -63, -64, -65, -127,
    -128, -129, 255, 256, -256, 0x5A5A, 0x7FFE, 0x7FFF, -0x7FFF, -0x8000, 12345, -12345,
)


def halves():
    for number in HALVES:
        ask(one_field(24, [half(number)]), 0, 24, ("level", Fraction(number, 128)))
        ask(one_field(18, [half(number)]), 0, 18, ("temperature", Fraction(number, 64)))
    # An upper half that is not zero is in no well-made table.
    for bit in (24, 18):
        for word in (0x10000, 1 << 31, 0xFFFFFF80, 0xFFFFFFE0, ONES):
            ask(one_field(bit, [word]), 0, bit, refused(TABLE))
    for first in (0, 1, -1, 128, -128, 0x7FFF, -0x8000, 200):
        for second in (0, 1, -1, 128, -128, 0x7FFF, -0x8000, -300):
            word = half(first) + 2**16 * half(second)
            answer = ("gain", Fraction(first, 128), Fraction(second, 128))
            ask(one_field(23, [word]), 0, 23, answer)


def reading_of(bit, words):
    """What a field whose rule is kept reads as, by sums without fractions."""
    if bit in FREQUENCIES:
        number = words[0] * 2**32 + words[1]
        if words[0] >> 31:
            number -= 2**64
        return ("frequency", number >> 20, number & MOST_PARTS)
    if bit in (24, 23, 18):
        low, high = words[0] & 0xFFFF, words[0] >> 16
        low -= 2 * (low & 0x8000)
        high -= 2 * (high & 0x8000)
        if bit == 23:
            return ("gain", Fraction(low, 128), Fraction(high, 128))
        return ("level", Fraction(low, 128)) if bit == 24 else ("temperature", Fraction(low, 64))
    return ("other",)


ABSENT = ("absent",)


EVERY = {bit: first_held(bit) for bit, _ in HELD}
OTHER_WORDS = {bit: other(bit) for bit, _ in HELD}


def every_bit():
    every, others = EVERY, OTHER_WORDS
    full = stored(fresh(), of_fields(every))
    nothing = stored(fresh(), at_places(count_place(4), [5, 6, 7]))
    for bit, n in HELD:
        # Held: among all, alone, and with zero words.
        ask(full, 0, bit, reading_of(bit, every[bit]))
        ask(one_field(bit, others[bit]), 0, bit, reading_of(bit, others[bit]))
        ask(one_field(bit, [0] * n), 0, bit, reading_of(bit, [0] * n))
        # Absent: nothing held, type 4 not started or started; all the others held;
        # the neighbours of the one that is held.
        ask(fresh(), 0, bit, ABSENT)
        ask(nothing, 0, bit, ABSENT)
        rest = {one: words for one, words in others.items() if one != bit}
        ask(stored(fresh(), of_fields(rest)), 0, bit, ABSENT)
        for near in (bit + 1, bit - 1):
            if near in SIZES:
                ask(one_field(bit, others[bit]), 0, near, ABSENT)
        # Held in the other stream.
        for stream in (0, 1):
            lent = stored(fresh((7, 8)), of_fields({bit: others[bit]}, stream))
            ask(lent, stream, bit, reading_of(bit, others[bit]))
            ask(lent, 1 - stream, bit, ABSENT)


def carrying(indicator, words):
    """A table of one stream after a packet that carries these fields."""
    return table.play_lent(fresh(), context(indicator, words, identifier=7))[1]


def over_range_counts():
    """Bit 22: one of 30 to 10, and absent, whatever a packet carried; a table that holds
    it is not well made."""
    for lent in (
        fresh(), stored(fresh(), of_fields(EVERY)), carrying(1 << 22, [5]),
        carrying(FIXED_BITS, all_fixed()), one_field(23, [7]), one_field(21, [0, 9]),
    ):
        ask(lent, 0, 22, ABSENT)
        ask(lent, 1, 22, refused(STREAM))
        for room in (0, 1, MOST_HELD):
            held(lent, 0, 22, room, ("held", 0))
        held(lent, 1, 22, 1, refused(STREAM))
        show(lent, 0, panel_of(lent))
    for bit, _ in FIXED:
        # Those behind it in a packet have their own words.
        if bit < 22:
            lent = carrying(1 << 22 | 1 << bit, [ONES, *other(bit)])
            ask(lent, 0, bit, reading_of(bit, other(bit)))
            held(lent, 0, bit, SIZES[bit], ("held", SIZES[bit]))
    for word in (0, 5):
        lent = one_field(22, [word])
        for bit in (22, 23, 10):
            ask(lent, 0, bit, refused(TABLE))
            held(lent, 0, bit, MOST_HELD, refused(TABLE))
        show(lent, 0, [refused(TABLE)] * 21)
    ask(stored(fresh(), {slot_place(22): 1}), 0, 22, refused(TABLE))


def states():
    """Bit 16: other, and its held word, which need not be the one that was sent."""
    for word, kept in (
        (0, 0), (0x5A, 0x5A), (0xFF0FF0FF, ALL_ON | 0xFF), (0x03003000, 0), (0x000FC000, 0),
        (ALL_OFF, ALL_OFF), (1 << 30 | 1 << 18 | 1 << 17, 1 << 30 | 1 << 18),
    ):
        lent = carrying(1 << 16, [word])
        if lent[slot_place(16)] != kept:
            sys.exit(f"after the state word {word} not {kept} is held")
        ask(lent, 0, 16, ("other",))
        held(lent, 0, 16, 2, ("held", 1))
        held(lent, 0, 16, 0, refused(ROOM))
        show(lent, 0, panel_of(lent))
    for word in RIGHT_STATES[::3]:
        held(one_field(16, [word]), 0, 16, 1, ("held", 1))
    for word in WRONG_STATES[::2]:
        ask(one_field(16, [word]), 0, 16, refused(TABLE))
        held(one_field(16, [word]), 0, 16, 1, refused(TABLE))
    show(one_field(16, [1 << 24]), 0, [refused(TABLE)] * 21)


# Streams.


def streams():
    for n in (1, 2, 3, 4):
        ids = [0x50 + i for i in range(n)]
        lent = fresh(ids, past=n - 1)
        for stream in range(n):
            fields = {24: [100 + stream], 27: [stream, 5], 23: [stream << 16 | 7]}
            lent = stored(lent, of_fields(fields, stream))
        for stream in range(n):
            ask(lent, stream, 24, ("level", Fraction(100 + stream, 128)))
            ask(lent, stream, 27, ("frequency", 4096 * stream, 5))
            ask(lent, stream, 23, ("gain", Fraction(7, 128), Fraction(stream, 128)))
            ask(lent, stream, 18, ABSENT)
        for stream in (
            n, n + 1, 32, 33, ids[0], 256, 256 + n - 1, 1 << 16, 1 << 31, ONES - 1, ONES,
        ):
            ask(lent, stream, 24, refused(STREAM))
    # The words of a record past the layout are no stream.
    two = stored(fresh((7, 8)), {**of_fields({24: [1]}), **of_fields({24: [2]}, 1)})
    one = stored(two, {0: 1})
    ask(two, 1, 24, ("level", Fraction(2, 128)))
    ask(one, 1, 24, refused(STREAM))
    ask(one, 0, 24, ("level", Fraction(1, 128)))
    # Thirty-two.
    lent = fresh(range(32))
    for stream in (0, 15, 31):
        lent = stored(lent, of_fields({18: [64 * stream]}, stream))
    ask(lent, 31, 18, ("temperature", 31))
    ask(lent, 15, 18, ("temperature", 15))
    ask(lent, 30, 18, ABSENT)
    ask(lent, 32, 18, refused(STREAM))
    ask(stored(lent, {0: 31}), 31, 18, refused(STREAM))


# The bit, and the order of the refusals.


def wrong_bits():
    full = stored(fresh(), of_fields(EVERY))
    for bit in WRONG_BITS:
        ask(full, 0, bit, refused(VALUE))
        ask(fresh(), 0, bit, refused(VALUE))
    for bit in (30, 10):
        ask(full, 0, bit, ("other",))
    # STREAM before VALUE.
    for bit in (31, 9, 0, 32, ONES):
        for stream in (1, 2, ONES):
            ask(full, stream, bit, refused(STREAM))


@functools.cache
def broken_tables():
    """For each rule of what is well made, a few tables that break it alone."""
    play_vectors.build()
    found = {}
    for one in play_vectors.recordings:
        if one.answer != play_vectors.STARTED or not one.broken or len(one.ids) > 3:
            continue
        if len(one.broken) == 1 and len(found.get(one.broken, [])) < 6:
            lent = table.start_lent(one.ids, one.choices, [PATTERN] * one.room)[1]
            found.setdefault(one.broken, []).append(stored(lent, dict(one.stores)))
    found[("layout", "number")] = [[]]
    return found


tables_broken = set()


def orders():
    for rules, tables in broken_tables().items():
        tables_broken.update([rules] if len(rules) == 1 else [])
        for words in tables:
            # TABLE alone, before STREAM, before VALUE, before both.
            for stream, bit in ((0, 24), (ONES, 24), (0, 31), (33, 9)):
                ask(words, stream, bit, refused(TABLE))
    # What is held and its neighbours, in tables that break a field's rule.
    for bit, (wrong, right) in FIELD_EDGES.items():
        ask(one_field(bit, wrong[0]), 0, bit, refused(TABLE))
        ask(one_field(bit, wrong[0]), 0, 30, refused(TABLE))
        ask(one_field(bit, right[0]), 0, bit, reading_of(bit, right[0]))


# Held words.


def held_fields():
    full = stored(fresh(), of_fields(OTHER_WORDS))
    for bit, n in HELD:
        lent = one_field(bit, other(bit))
        for room in sorted({0, n - 1}):
            held(lent, 0, bit, room, refused(ROOM))
        for room in (n, n + 1, MOST_HELD):
            held(lent, 0, bit, room, ("held", n))
        held(full, 0, bit, n, ("held", n))
        held(one_field(bit, [0] * n), 0, bit, n + 2, ("held", n))
        # Absent, whatever the room.
        for room in (0, 1, n, MOST_HELD):
            held(fresh(), 0, bit, room, ("held", 0))
        rest = {one: words for one, words in OTHER_WORDS.items() if one != bit}
        held(stored(fresh(), of_fields(rest)), 0, bit, n - 1, ("held", 0))
        # In the second of two streams.
        lent = stored(fresh((7, 8), past=1), of_fields({bit: other(bit)}, 1))
        held(lent, 1, bit, n, ("held", n))
        held(lent, 0, bit, n, ("held", 0))
        held(lent, 2, bit, n, refused(STREAM))


def held_orders():
    lent = stored(fresh(), of_fields({24: [5], 14: other(14)}))
    for bit in WRONG_BITS:
        for room in (0, MOST_HELD):
            held(lent, 0, bit, room, refused(VALUE))
    for stream in (1, 32, 1 << 31, ONES):
        for bit in (24, 14, 31, 0):
            for room in (0, MOST_HELD):
                held(lent, stream, bit, room, refused(STREAM))
    for tables in broken_tables().values():
        for words in tables[:2]:
            for stream, bit, room in (
                (0, 24, MOST_HELD), (0, 24, 0), (ONES, 24, 3), (0, 9, 0), (ONES, 31, 0),
            ):
                held(words, stream, bit, room, refused(TABLE))


# Pseudo-random tables.


def random_tables():
    numbers = Numbers(2310)
    for turn in range(140):
        n = 1 + numbers.below(3)
        lent = stored(fresh(random_ids(numbers, n), turn % 3), random_stores(numbers, n))
        if turn % 7 == 6:
            lent[numbers.below(1 + 89 * n)] ^= 1 << numbers.below(32)
        stream = numbers.below(n) if numbers.below(8) else numbers.below(40)
        bit = BITS[numbers.below(21)] if numbers.below(8) else numbers.below(40)
        if turn % 3:
            ask(lent, stream, bit, None)
        else:
            held(lent, stream, bit, numbers.below(MOST_HELD + 1), None)


# All the readings of a stream.


def readings_of(fields):
    """What a stream that holds these fields reads as, bit 30 first."""
    return [reading_of(bit, fields[bit]) if bit in fields else ABSENT for bit in BITS]


def panel_of(lent, stream=0):
    """What a stream of a well-made table reads as, from the words at their places."""
    fields = {}
    for bit, n in HELD:
        if lent[indicator_place(stream)] >> bit & 1:
            place = slot_place(bit, stream)
            fields[bit] = lent[place : place + n]
    return readings_of(fields)


def show_every_stream(lent, fields, more=()):
    """Every stream of a table, by the fields that each holds, then the number past
    the last, and more that are not in the table."""
    for stream, one in enumerate(fields):
        show(lent, stream, readings_of(one))
    for stream in (len(fields), *more):
        show(lent, stream, [refused(STREAM)] * 21)


def held_by_streams(n, fields_of, past=0):
    """A table of n streams and the fields that each holds."""
    fields = [fields_of(stream) for stream in range(n)]
    lent = fresh([0x90 + 3 * stream for stream in range(n)], past)
    for stream, one in enumerate(fields):
        lent = stored(lent, of_fields(one, stream) if one else {})
    return lent, fields


def panels_of_streams():
    far = (33, 256, 1 << 16, 1 << 31, ONES)

    def in_turn(stream):
        # Nothing, all, all with other words, every second field, the other ones.
        which = stream % 5
        if which < 3:
            return ({}, EVERY, OTHER_WORDS)[which]
        return {bit: words for bit, words in OTHER_WORDS.items() if bit % 2 == which % 2}

    def scattered(stream):
        # Fields whose words are of the stream, each bit held by some streams.
        numbers = Numbers(6000 + stream)
        return {
            bit: random_held(numbers, bit, n)
            for bit, n in HELD
            if (bit + 7 * stream) % 5 < 2
        }

    for n in (1, 2, 5):
        show_every_stream(*held_by_streams(n, in_turn), (n + 1, 32))
        show_every_stream(*held_by_streams(n, scattered, past=2), far if n < 5 else ())
        show_every_stream(*held_by_streams(n, lambda stream: EVERY, past=n))
    show_every_stream(*held_by_streams(32, scattered))
    lent, fields = held_by_streams(32, in_turn, past=51)
    for stream in (16, 31):
        show(lent, stream, readings_of(fields[stream]))
    # The words of a record past the layout are no stream.
    lent, fields = held_by_streams(2, in_turn)
    show(stored(lent, {0: 1}), 0, readings_of(fields[0]))
    show(stored(lent, {0: 1}), 1, [refused(STREAM)] * 21)


def panels_of_fields():
    for bit, n in HELD:
        # One field alone, with other words and with zeros; all the others.
        rest = {one: words for one, words in OTHER_WORDS.items() if one != bit}
        for fields in ({bit: other(bit)}, {bit: [0] * n}, rest):
            show(stored(fresh(), of_fields(fields)), 0, readings_of(fields))
    # Type 4 has started and nothing is held.
    show(stored(fresh(), at_places(count_place(4), [5, 6, 7])), 0, [ABSENT] * 21)
    # The ends of what each kind of reading has.
    for hertz, parts in HERTZ[:5]:
        words = two_words(hertz * 2**20 + parts)
        fields = {bit: words for bit in FREQUENCIES if hertz >= 0 or bit not in NOT_NEGATIVE}
        show(stored(fresh(), of_fields(fields)), 0, readings_of(fields))
    for number in (1, -1, 0x7FFF, -0x8000):
        both = half(number) + 2**16 * half(-number)
        fields = {24: [half(number)], 23: [both], 18: [half(number)]}
        show(stored(fresh(), of_fields(fields)), 0, readings_of(fields))


def panels_at_random():
    numbers = Numbers(2311)
    for turn in range(30):
        n = 1 + numbers.below(3)
        lent = stored(fresh(random_ids(numbers, n), turn % 3), random_stores(numbers, n))
        stream = numbers.below(n)
        show(lent, stream, panel_of(lent, stream))


def panels_refused():
    for rules, tables in broken_tables().items():
        for words in tables[:3]:
            # TABLE alone, and before STREAM.
            for stream in (0, 40):
                show(words, stream, [refused(TABLE)] * 21)
    # A table of 32 streams that is cut by one word, and one with a word too many in it.
    lent, _ = held_by_streams(32, lambda stream: {30: [stream]})
    show(lent[:-1], 0, [refused(TABLE)] * 21)
    show(stored(lent, {slot_place(10, 31): 1}), 0, [refused(TABLE)] * 21)
    show(stored(lent, {0: 33}), 0, [refused(TABLE)] * 21)


# The two files.


class Coverage:
    """What has been seen in the cases, beside the number of each answer."""

    def __init__(self):
        self.tally = {}
        self.read = set()
        self.edges = set()
        self.faults = set()
        # Of all the readings of a stream: kinds and bits, numbers of streams and
        # stream, faults together, rules broken.
        self.shown = set()
        self.shown_streams = set()
        self.shown_faults = set()
        self.shown_broken = set()

    def add(self, label):
        self.tally[label] = self.tally.get(label, 0) + 1


def faults_of(one):
    """Every refusal that applies to a case, in whatever order."""
    found = set()
    if not table.well_made(one.words):
        found.add(TABLE)
    if not one.words or one.stream >= one.words[0]:
        found.add(STREAM)
    if not 10 <= one.bit <= 30:
        found.add(VALUE)
    if not found and one.room is not None and one.words[0] > one.stream:
        place = record_place(one.stream)
        if one.words[place + 1] >> one.bit & 1 and one.room < SIZES[one.bit]:
            found.add(ROOM)
    return found


def check_faults(k, one, number, cover):
    """A refusal is one that applies, and the first in the order."""
    order = (TABLE, STREAM, VALUE, ROOM)
    found = [one_fault for one_fault in order if one_fault in faults_of(one)]
    if (number is None) != (found == []) or found and found[0] != number:
        sys.exit(f"case {k} has the faults {found}, the reference says {number}")
    what = "read" if one.room is None else "held"
    cover.faults.add((what, *found))


def of_case(k, one, cover):
    """The words of a case in the input, and its lines."""
    if len(one.words) > MOST_ROOM:
        sys.exit(f"case {k} has a table that is too large")
    if one.room is None:
        given = [READING, len(one.words), *one.words, one.stream, one.bit]
        found = panel.reading(one.words, one.stream, one.bit)
        lines = [f"{k} {panel.line(found)}"]
        label = f"reading {found[0]}"
        cover.read.add((found[0], one.bit))
        for name, *values in (found,) if found[0] in panel.DIGITS else ():
            for value, text in zip(values, panel.line(found).split()[1:]):
                # Exact as text, and as f32.
                if Fraction(text) != value or len(text.split(".")[1]) != panel.DIGITS[name]:
                    sys.exit(f"case {k} is written as {text} and is {value}")
                panel.single(value)
        if found[0] == "frequency":
            cover.edges.add((one.bit, found[1], found[2]))
    else:
        if one.room > MOST_HELD:
            sys.exit(f"case {k} has a room that is too large")
        given = [WORDS, len(one.words), *one.words, one.stream, one.bit, one.room]
        untouched = [PATTERN] * one.room
        found, after = panel.held_words(one.words, one.stream, one.bit, untouched)
        if found[0] == "refused":
            if after != untouched:
                sys.exit(f"case {k} is refused and has written")
        else:
            n = found[1]
            place = record_place(one.stream) + play_vectors.SLOT_PLACES[one.bit]
            if after != one.words[place : place + n] + untouched[n:]:
                sys.exit(f"case {k} has not the words of the table")
            if n not in (0, SIZES[one.bit]):
                sys.exit(f"case {k} has {n} words")
            cover.read.add(("held" if n else "held none", one.bit))
            cover.edges.add(("room", one.bit, one.room - n if n else "absent"))
        lines = [
            f"{k} {found[0]} {found[1]}", "  words" + "".join(f" {word}" for word in after),
        ]
        label = f"held words {found[0]}"
    number = found[1] if found[0] == "refused" else None
    if number is not None:
        label += f" {number}"
        if number == ROOM:
            cover.edges.add(("room", one.bit, one.room - SIZES[one.bit]))
    if one.answer is not None and found != one.answer:
        sys.exit(f"case {k} is built for {one.answer}, the reference says {found}")
    check_faults(k, one, number, cover)
    cover.add(label)
    return given, lines


def of_panel(k, words, stream, answers, cover):
    """The words of a case of all the readings in the input, and its line."""
    if len(words) > MOST_ROOM:
        sys.exit(f"case {k} has a table that is too large")
    found = panel.readings(words, stream)
    if found != answers or len(found) != 21:
        sys.exit(f"case {k} is built for {answers}, the reference says {found}")
    for place, one in enumerate(found):
        if one != panel.reading(words, stream, 30 - place):
            sys.exit(f"case {k} differs from the reading of bit {30 - place}")
        cover.shown.add((one[0], 30 - place))
    broken = tuple(table.broken_rules(words))
    faults = [TABLE] if broken else []
    if not words or stream >= words[0]:
        faults.append(STREAM)
    if {one[1] for one in found if one[0] == "refused"} != set(faults[:1]):
        sys.exit(f"case {k} has the faults {faults}, the reference says {found}")
    cover.shown_faults.add(tuple(faults))
    cover.shown_broken.add(broken)
    if not faults:
        cover.shown_streams.add((words[0], stream))
    cover.add(f"readings refused {faults[0]}" if faults else "readings")
    text = " ".join(panel.line(one) for one in found)
    return [READINGS, len(words), *words, stream], [f"{k} {text}"]


def sweep(k):
    """Every half as level, as temperature and as stage 1 of a gain, and another
    one with it as stage 2."""
    lines = [f"{k} sweep"]
    for number in range(2**16):
        word = number + 2**16 * (number * 40503 % 2**16)
        fields = {24: [number], 23: [word], 18: [number]}
        found = [panel.held_reading(bit, field) for bit, field in fields.items()]
        if found != [reading_of(bit, field) for bit, field in fields.items()]:
            sys.exit(f"the sweep is wrong at {number}")
        if number % 997 == 0 or number in (1, 0x7FFF, 0x8000, 0xFFFF):
            # The same of a whole table.
            lent = stored(fresh(), of_fields(fields))
            if found != [panel.reading(lent, 0, bit) for bit in fields]:
                sys.exit(f"the sweep differs from the table's reading at {number}")
        lines.append(f"{number} " + " ".join(panel.line(one) for one in found))
    return lines


def build():
    samples()
    frequencies()
    halves()
    every_bit()
    over_range_counts()
    states()
    streams()
    wrong_bits()
    orders()
    held_fields()
    held_orders()
    random_tables()
    panels_of_streams()
    panels_of_fields()
    panels_at_random()
    panels_refused()


# Each answer, and the least number of its cases.
LEAST = {
    f"reading refused {TABLE}": 100,
    f"reading refused {STREAM}": 40,
    f"reading refused {VALUE}": 40,
    "reading frequency": 200,
    "reading level": 30,
    "reading gain": 60,
    "reading temperature": 30,
    "reading other": 36,
    "reading absent": 100,
    f"held words refused {TABLE}": 40,
    f"held words refused {STREAM}": 30,
    f"held words refused {VALUE}": 30,
    f"held words refused {ROOM}": 21,
    "held words held": 150,
    f"readings refused {TABLE}": 50,
    f"readings refused {STREAM}": 25,
    "readings": 150,
}

# The readings of each bit that there have to be; 22 has none.
KINDS = {
    **{bit: "frequency" for bit in FREQUENCIES},
    **{bit: "other" for bit in OTHERS},
    24: "level", 23: "gain", 18: "temperature",
}


def fail(condition, message):
    if condition:
        sys.exit(message)


def check(cover):
    """The cases that there have to be."""
    for label in cover.tally:
        fail(label not in LEAST, f"{label}: not an answer that is asked for")
    for label, n in LEAST.items():
        found = cover.tally.get(label, 0)
        fail(found < n, f"{label}: {found} cases, fewer than {n}")
    fail({*KINDS, 22} != set(BITS), "a bit has no kind of reading")
    read = {what for what, bit in cover.read if bit == 22}
    fail(read != {"absent", "held none", "refused"}, f"bit 22 reads as {read}")
    for bit, kind in KINDS.items():
        for what in (kind, "absent", "held", "held none"):
            fail((what, bit) not in cover.read, f"bit {bit} does not read as {what}")
        fail(
            {name for name, one in cover.read if one == bit and name in KINDS.values()} != {kind},
            f"bit {bit} reads as something other than {kind}",
        )
        for more in (-1, 0, 1, "absent"):
            edge = ("room", bit, more)
            fail(edge not in cover.edges, f"no case at the edge {edge}")
    for bit in FREQUENCIES:
        for hertz, parts in HERTZ:
            wanted = bit not in NOT_NEGATIVE or hertz >= 0
            found = (bit, hertz, parts) in cover.edges
            fail(wanted != found, f"bit {bit}: no case of {hertz} hertz and {parts} parts")
    for bit in WRONG_BITS:
        fail(10 <= bit <= 30, f"{bit} is a field bit")
    for faults in (
        (TABLE,), (STREAM,), (VALUE,), (TABLE, STREAM), (TABLE, VALUE), (STREAM, VALUE),
        (TABLE, STREAM, VALUE),
    ):
        for what in ("read", "held"):
            fail((what, *faults) not in cover.faults, f"{what}: no case with the faults {faults}")
    rules = {(name,) for name, _ in table.RULES_OF_WORDS + table.RULES_OF_RECORDS}
    fail(tables_broken != rules, "a rule of what is well made is not broken alone")
    check_panels(cover, rules)


def check_panels(cover, rules):
    """The cases of all the readings that there have to be."""
    for bit in BITS:
        found = {what for what, one in cover.shown if one == bit}
        kinds = {KINDS[bit]} if bit in KINDS else set()
        fail(found != kinds | {"absent", "refused"}, f"bit {bit} is shown as {found}")
    for n in (1, 2, 5, 32):
        for stream in range(n):
            seen = (n, stream) in cover.shown_streams
            fail(not seen, f"stream {stream} of {n} is not shown")
    for faults in ((TABLE,), (STREAM,), (TABLE, STREAM)):
        fail(faults not in cover.shown_faults, f"no stream is shown with the faults {faults}")
    for rule in rules:
        fail(rule not in cover.shown_broken, f"no stream is shown with {rule} broken alone")


def main():
    if len(sys.argv) != 3:
        sys.exit("usage: panel_vectors.py INPUT EXPECTED")
    build()
    given = bytearray()
    expected = []
    cover = Coverage()
    for k, one in enumerate(cases):
        words, lines = of_case(k, one, cover)
        for word in words:
            given += word.to_bytes(4, "big")
        expected += lines
    given += SWEEP.to_bytes(4, "big")
    expected += sweep(len(cases))
    for place, one in enumerate(panels):
        words, lines = of_panel(len(cases) + 1 + place, *one, cover)
        for word in words:
            given += word.to_bytes(4, "big")
        expected += lines
    check(cover)
    text = "".join(line + "\n" for line in expected)
    fail(len(given) > 1_600_000, f"the input has {len(given)} bytes, more than 1,600,000")
    fail(len(text) > 5_200_000, f"the output has {len(text)} bytes, more than 5,200,000")
    with open(sys.argv[1], "wb") as file:
        file.write(given)
    with open(sys.argv[2], "w", encoding="ascii", newline="\n") as file:
        file.write(text)
    for label in LEAST:
        print(f"{label}: {cover.tally[label]}")
    print(f"cases {len(cases) + 1 + len(panels)}")


if __name__ == "__main__":
    main()
