"""Writes recordings that are stopped and resumed, pages to be put back and tables
to be saved, and the reference's answers to them.

    python3 tools/reference/page_vectors.py INPUT EXPECTED

README.md gives the form of both files.  Each page and each table says for which
answer it is built, and each page that is built not to be well made says which
rules it breaks; where the reference says another, the program ends without
writing.  So it does where a recording that is resumed does not answer, or end,
as it does unbroken, and where a page is not the one that is built here, word by
word, from the words of its table.
"""

import copy
import sys

sys.dont_write_bytecode = True

import page
import play_vectors
import table
from page import PAGE, SIZE
from play_vectors import (
    ALL_OFF, ALL_ON, COUNTED, FIELD_EDGES, HELD, HELD_BITS, INDICATORS, MOST_PACKETS, MOST_ROOM,
    PATTERN, RIGHT_STATES, SIZES, WRONG_STATES, at_places, choice_place, count_place, first_held,
    indicator_place, other, random_held, random_ids, random_stores, record_place, short_packet,
    slot_place, slots_of,
)
from read_vectors import (
    FIXED, FIXED_BITS, ONES, RULED, Numbers, all_fixed, context, packet, random_survey, survey,
)
from table import ROOM, STREAM, TABLE
from vrt49 import FIELD, PAD

ACCEPTED = 0
MOST_STREAMS = 32
MOST_PACKET_WORDS = 60_000
MOST_PAGE = 3000
PAGE_BUFFER = 2882
# Buffers of so many words or fewer are written out whole.
WHOLE = 200
MOST_CUTS = 25

# What is asked.
RESUME, PUT, SAVE = 1, 2, 3

cases = []

# Refusals of which one case has both faults, the earlier one first.
both_faults = set()


def fold(words):
    """The check number over words."""
    y = 0
    for word in words:
        y = (y % 2**16 * 65497 + y // 2**16 + word) % 2**32
    return y


# Recordings that are stopped and resumed.


class Resumed:
    def __init__(self, ids, choices, packets, room, room2):
        self.ids = list(ids)
        self.choices = list(choices)
        self.packets = [list(words) for words in packets]
        self.room = room
        self.room2 = room2
        most = len(packets)
        if most <= MOST_CUTS:
            self.cuts = list(range(most + 1))
        else:
            steps = MOST_CUTS - 1
            self.cuts = [(most * i + steps // 2) // steps for i in range(MOST_CUTS)]


def resumed(ids, packets, room=None, choices=None):
    """A recording, the second table longer than its layout by 0, 1 or some
    words; the choices are zeros if no others are named."""
    need = 1 + 89 * len(ids)
    turn = len(cases)
    more = (0, 1, 2 + turn % 7)[turn % 3]
    if room is None:
        room = need + turn % 4
    if choices is None:
        choices = [0] * len(ids)
    cases.append(Resumed(ids, choices, packets, room, min(need + more, MOST_ROOM)))


def played_recordings():
    """Those of play_vectors.py that start and have packets.  A word cannot be
    stored into these tables, so those that have stores are left out."""
    play_vectors.build()
    for one in play_vectors.recordings:
        if one.answer == play_vectors.STARTED and one.packets and not one.stores:
            resumed(one.ids, [words for words, _ in one.packets], one.room, one.choices)


def full_recordings():
    """Streams that come to hold every field that is held, one after another: bodies of
    88 words."""
    for n in (1, 2, 8, 32):
        ids = [0x51000000 + 7 * i for i in range(n)]
        packets = [
            context(FIXED_BITS, all_fixed(), identifier=identifier, count=i % 16)
            for i, identifier in enumerate(ids)
        ]
        packets += [short_packet(1, identifier, 3) for identifier in ids[:4]]
        resumed(ids, packets)
        packets += [survey([1], pad=3, identifier=identifier) for identifier in ids[:4]]
        resumed(ids, packets, choices=[(i + n) % 2 for i in range(n)])


def split_recordings():
    """A loss, a field and a count that wraps on both sides of each cut."""
    for kind in COUNTED:
        counts = (13, 14, 15, 0, 2, 2, 1, 9)
        resumed([6, 7], [short_packet(kind, 7, count) for count in counts])
    tunings = []
    for i, (bit, _) in enumerate(FIXED):
        tunings.append(context(1 << bit, other(bit), identifier=7, count=i % 16))
    resumed([7], tunings)
    resumed([7, 8], tunings[::-1])
    # A field that is held, and replaced after the cut; others kept.
    resumed(
        [7],
        [
            context(1 << 29 | 1 << 23, [1, 2, 3], identifier=7, count=15),
            context(1 << 23, [4], identifier=7, count=0),
            packet(1, [9, 9], identifier=7, count=4),
            context(1 << 29, [0, 0], identifier=7, count=2),
            context(0, identifier=7, count=2),
            packet(1, [9, 9], identifier=8, count=5),
            [],
            packet(1, [9], identifier=7, count=5),
        ],
    )
    # State words: each enables another indicator, on and off, or none; without an
    # over-range count and with one.
    states = []
    for enable, value in INDICATORS:
        states += [1 << enable | 1 << value, 0x02002000 | enable, 1 << enable]
    states += [ALL_ON | 0x5A, 1 << 31 | 0xA5, 0x000FC000, 0]
    for counted in ([], [5]):
        indicator = 1 << 16 | len(counted) << 22
        resumed(
            [7],
            [
                context(indicator, [*counted, word], identifier=7, count=i % 16)
                for i, word in enumerate(states)
            ],
        )
    # Over-range counts alone, of both streams, between two state words of one.
    resumed(
        [8, 7],
        [
            context(1 << 16, [1 << 30 | 1 << 18 | 1], identifier=7),
            context(1 << 22, [5], identifier=7, count=1),
            context(1 << 22, [6], identifier=8),
            context(1 << 16, [1 << 29 | 2], identifier=7, count=2),
        ],
    )


def survey_recordings():
    """Lists of both choices, stopped at each packet."""
    numbers = Numbers(4949)
    for choices in ([0, 0], [0, 1], [1, 0], [1, 1]):
        packets = []
        for turn in range(3):
            for identifier in (7, 8):
                given = dict(identifier=identifier, count=5 * turn % 16)
                packets.append(survey([turn, 1], pad=turn, **given))
                packets.append(packet(1, [turn], **given))
                packets.append(packet(3, [turn], **given))
            packets.append(context(1 << 16, [turn << 31 & ONES | turn], identifier=7, count=turn))
        packets += [survey([1], pad=1, identifier=9), survey([1], identifier=9)]
        resumed([7, 8], packets, choices=choices)
    for n in (1, 3, 32):
        ids = random_ids(numbers, n)
        packets = []
        for turn in range(24):
            words = random_survey(numbers)
            words[1] = ids[numbers.below(n)]
            packets.append(words if turn % 4 else short_packet(1, words[1], turn % 16))
        for turn in range(3):
            choices = [(0, 1, numbers.below(2))[turn] for _ in ids]
            resumed(ids, packets, choices=choices)


# Pages that are built here, from the words of each body.


def body(identifier, held=None, counts=None, choice=0):
    """The words of a body.  Held has the words of fields by their bit, counts the
    three words of a count by type; where fields are held and there is no count of
    type 4, it has started."""
    held = held or {}
    counts = dict(counts or {})
    if held:
        counts.setdefault(4, [1, 0, 1])
    words = [identifier, sum(1 << bit for bit in held)]
    for kind in COUNTED:
        words += counts.get(kind, [0, 0, 0])
    words.append(choice)
    for bit, _ in FIXED:
        words += held.get(bit, [])
    return words


def every_field(choose=first_held):
    return {bit: choose(bit) for bit, _ in HELD}


def joined(*bodies):
    """The words of a page with these bodies."""
    pairs, words = [], []
    for one in bodies:
        pairs += [2 + 2 * len(bodies) + len(words), len(one)]
        words += one
    return [len(bodies), 2 + len(pairs) + len(words)] + pairs + words


def page_from_words(lent):
    """The page of a well-made table's words, word by word."""
    bodies = []
    for stream in range(lent[0]):
        place = record_place(stream)
        words = lent[place : place + 15]
        for bit, n in HELD:
            if lent[place + 1] >> bit & 1:
                words += lent[slot_place(bit, stream) : slot_place(bit, stream) + n]
        bodies.append(words)
    return joined(*bodies)


class Put:
    def __init__(self, words, answer, room, broken, beside):
        self.words = list(words)
        self.answer = answer
        self.room = room
        self.broken = broken
        self.beside = beside


def put(words, answer, room=None, broken=None, beside=None):
    """A page to be put back.  If no room is named there is enough, with some words
    left after; every fourth table of a page that is refused is written out
    whole."""
    if room is None:
        need = 1 + 89 * (words[0] if words and 1 <= words[0] <= 32 else 1)
        turn = len(cases)
        room = need + turn % 3
        if answer == PAGE and turn % 4:
            room = max(need, WHOLE + 1) + turn % 5
    cases.append(Put(words, answer, room, broken, beside))


def bent(words, *broken, **rest):
    """A page that breaks these rules."""
    put(words, PAGE, broken=broken, **rest)


def beside(words, rule, **rest):
    """A page just within the rule that a neighbour breaks."""
    put(words, ACCEPTED, beside=rule, **rest)


def changed(words, stores):
    words = list(words)
    for place, word in stores.items():
        words[place] = word
    return words


def with_length(words):
    """The words with their number in word 1."""
    return changed(words, {1: len(words)})


FRESH = body(7)
FULL = body(7, every_field(), {4: [3, 1, 16], 1: [9, 9, 9]}, 1)
FEW = body(8, {29: [0, 5], 24: [0xFF80], 10: [6]}, {3: [1, 2, 3], 5: [ONES, ONES, 1]})
ONE_WORD = body(9, {23: [0x00800040]}, choice=1)

# Pages of one, two and three streams to be bent.
BASES = {
    "fresh": joined(FRESH),
    "full": joined(FULL),
    "one word": joined(ONE_WORD),
    "two": joined(FEW, FULL),
    "two fresh": joined(FRESH, body(8)),
    "three": joined(ONE_WORD, FRESH, FEW),
}


def good_pages():
    for words in BASES.values():
        for rule in ("number", "length", "offsets", "end", "bodies"):
            beside(words, rule)
        put(words, ACCEPTED, room=MOST_ROOM)
    for n in range(1, 33):
        ids = [0x70000000 + 5 * i for i in range(n)]
        bodies = [body(identifier, choice=i % 3 % 2) for i, identifier in enumerate(ids)]
        beside(joined(*bodies), "number")
    for n in (2, 3, 4, 9, 32):
        fields = every_field(other)
        words = joined(*[body(0x100 + i, fields, {4: [i, i, 1 + i % 16]}) for i in range(n)])
        beside(words, "contents")


def wrong_numbers():
    for words in BASES.values():
        streams = words[0]
        for number in (0, 33, 34, 64, 256 + streams, 1 << 16 | streams, 1 << 31, ONES):
            bent(changed(words, {0: number}), "number")
        # The contents would be as long if twice the number were taken modulo
        # 2^32.
        bent(changed(words, {0: 1 << 31 | streams}), "number")
        bent(changed(words, {0: 1 << 30 | streams}), "number")
    for number in (0, 33, ONES):
        bent([number], "number")
        bent([number, 2], "number")
    bent([], "number")
    bent([0, 2], "number")
    bent([0, 1], "number")
    # One more and one fewer than the bodies.
    bent(changed(BASES["fresh"], {0: 2}), "offsets", "end")
    bent(changed(BASES["two"], {0: 1}), "offsets", "end")
    bent(changed(BASES["two"], {0: 3}), "offsets", "end")
    bent(changed(BASES["three"], {0: 2}), "offsets", "end")
    bent(changed(BASES["three"], {0: 4}), "offsets", "end")
    # Thirty-three bodies that are right but for their number.
    bent(joined(*[body(i) for i in range(33)]), "number", room=MOST_ROOM)
    beside(joined(*[body(i) for i in range(32)]), "number", room=MOST_ROOM)
    # Fewer, the pairs and offsets as they would be, a body left after the last.
    three = BASES["three"]
    two = [2] + three[1:6] + three[8:]
    two = changed(with_length(two), {2: 6, 4: 6 + two[3]})
    bent(two, "end")


def wrong_contents():
    # Every cut of a page within its contents, and just after them.
    for name in ("fresh", "two"):
        words = BASES[name]
        contents = 2 + 2 * words[0]
        for n in range(1, contents):
            broken = ("contents",) if n >= 2 else ("contents", "length")
            bent(with_length(words[:n]) if n >= 2 else words[:n], *broken)
            if n >= 2:
                bent(words[:n], "contents", "length")
        bent(with_length(words[:contents]), "end")
    bent([1], "contents", "length")
    bent([32, 2], "contents")
    bent([32, 65] + [0] * 63, "contents")
    bent([32, 66] + [0] * 64, "offsets", "end")
    for streams in (3, 8, 9, 31, 32):
        # The page of one stream with a number of streams that asks for more.
        words = changed(BASES["fresh"], {0: streams})
        bent(words, *(("contents",) if 2 + 2 * streams > 19 else ("offsets", "end")))


def wrong_lengths():
    for words in BASES.values():
        n = len(words)
        for wrong in (n - 1, n + 1, 0, 1, n - 2, n << 16, n | 1 << 16, n | 1 << 31, ONES):
            bent(changed(words, {1: wrong}), "length")
        # Cut by one, and one word more.
        bent(words[:-1], "length")
        bent(words + [0], "length")
        bent(words + [PATTERN], "length")
        bent(words + words, "length")
        # The same with word 1 right.
        bent(with_length(words[:-1]), "end")
        bent(with_length(words + [0]), "end")
        # And with the last body's length right as well.
        place = 3 + 2 * (words[0] - 1)
        bent(changed(with_length(words[:-1]), {place: words[place] - 1}), "bodies")
        bent(changed(with_length(words + [0]), {place: words[place] + 1}), "bodies")


def wrong_offsets():
    for words in BASES.values():
        last = words[0] - 1
        for stream in range(words[0]):
            place = 2 + 2 * stream
            offset, length = words[place], words[place + 1]
            broken = ("offsets", "end") if stream == last else ("offsets",)
            for wrong in (offset - 1, offset + 1, 0, offset | 1 << 16, offset | 1 << 31, ONES):
                bent(changed(words, {place: wrong}), *broken)
            # The length too, so that the next body begins where it did.
            for step in (1, -1):
                stores = {place: offset + step, place + 1: length - step}
                bent(changed(words, stores), "offsets")
            # The length alone.
            broken = ("end",) if stream == last else ("offsets",)
            for wrong in (length - 1, length + 1, 0, length | 1 << 16, length | 1 << 31, ONES):
                bent(changed(words, {place + 1: wrong}), *broken)
            # A compensating neighbour: the border of two bodies moved by one word.
            if stream < last:
                for step in (1, -1):
                    stores = {
                        place + 1: length + step,
                        place + 2: words[place + 2] + step,
                        place + 3: words[place + 3] - step,
                    }
                    bent(changed(words, stores), "bodies")
                # No words, and all of them to the next; or the next one has none.
                stores = {
                    place + 1: 0, place + 2: offset, place + 3: length + words[place + 3],
                }
                bent(changed(words, stores), "bodies")
                both = length + words[place + 3]
                stores = {place + 1: both, place + 2: offset + both, place + 3: 0}
                bent(changed(words, stores), "bodies")
                # Lengths that come out right modulo 2^32.
                stores = {place + 1: ONES, place + 2: offset - 1}
                stores[place + 3] = words[place + 2] + words[place + 3] - stores[place + 2]
                bent(changed(words, stores), "offsets")


def moved(words, at, inserted, streams):
    """The words with others put in before word at, the offsets of these streams
    and the length of the page being right again."""
    found = with_length(words[:at] + inserted + words[at:])
    for stream in streams:
        found[2 + 2 * stream] += len(inserted)
    return found


def gaps():
    for name in ("fresh", "two", "three", "two fresh"):
        words = BASES[name]
        streams = words[0]
        for stream in range(streams):
            at = words[2 + 2 * stream]
            for inserted in ([0], [PATTERN], [0] * 15):
                bent(moved(words, at, inserted, range(stream, streams)), "offsets")
        # After the last body.
        bent(moved(words, len(words), [0], ()), "end")
        bent(moved(words, len(words), [0] * 17, ()), "end")


def overlaps():
    # Two bodies that have words in common: all of them, and one.
    same = joined(FRESH, FRESH)
    bent(with_length(changed(same, {4: 6})[:21]), "offsets")
    bent(same, "identifiers")
    # The first body's last word, which is zero, is the second's identifier.
    first, second = body(7), body(0)
    words = joined(first, second)
    shared = words[:21] + words[22:]
    bent(changed(with_length(shared), {4: 20}), "offsets")
    beside(words, "offsets")
    # The first body begins within the contents: the pair of the last is read as
    # its identifier and held indicator.
    words = joined(FRESH, body(8))
    bent(changed(words, {2: 4}), "offsets")
    bent(changed(words, {2: 0}), "offsets")


def orders():
    first, second, third = FEW, FULL, ONE_WORD
    # The bodies in another order than the list, each pair naming its own.
    right = joined(first, second)
    beside(right, "offsets")
    swapped = [2, right[1], 6 + len(second), len(first), 6, len(second)] + second + first
    bent(swapped, "offsets", "end")
    # The pairs swapped, the bodies not.
    bent(changed(right, {2: right[4], 3: right[5], 4: right[2], 5: right[3]}), "offsets", "end")
    # The lengths swapped, and the offset between them right.
    lengths = {3: right[5], 4: 6 + right[5], 5: right[3]}
    bent(changed(right, lengths), "bodies")
    # The bodies swapped, the contents not; swapped with the contents is another
    # page.
    bent(right[:6] + second + first, "bodies")
    beside(joined(second, first), "bodies")
    three = joined(first, third, second)
    places = [8, 8 + len(second), 8 + len(second) + len(third)]
    bent(
        [3, three[1], places[2], len(first), places[1], len(third), places[0], len(second)]
        + second + third + first,
        "offsets", "end",
    )
    beside(three, "offsets")
    # Bodies of one length in any order are pages.
    beside(joined(body(7), body(8)), "offsets")
    beside(joined(body(8), body(7)), "offsets")
    # The bodies before the contents' end, or the contents last.
    fresh = BASES["fresh"]
    bent([1, 19, 2, 15] + fresh[4:], "offsets", "end")
    bent([1, 19] + fresh[4:] + fresh[2:4], "offsets", "end")


# The held indicator and the held words.


def wrong_held():
    for bit, n in HELD:
        held = {bit: other(bit)}
        right = joined(body(7, held))
        beside(right, "bodies")
        # The bit without its words, and the words without the bit.
        bent(joined(changed(body(7, counts={4: [1, 0, 1]}), {1: 1 << bit})), "bodies")
        bent(changed(right, {5: 0}), "bodies")
        # One word more, one fewer.
        bent(joined(body(7, held) + [0]), "bodies")
        bent(joined(body(7, held)[:-1]), "bodies")
        # Another bit: of as many words, if there is one without a rule, or not.
        for near in (bit + 1, bit - 1):
            if near == 22 and n == 1:
                bent(changed(right, {5: 1 << near}), "indicator")
            elif near in SIZES and SIZES[near] != n:
                bent(changed(right, {5: 1 << near}), "bodies")
            elif near in SIZES and near not in FIELD_EDGES:
                beside(changed(right, {5: 1 << near}), "bodies")
        # Among all the others.
        without = {one: words for one, words in every_field().items() if one != bit}
        beside(joined(body(7, without)), "bodies")
        bent(changed(joined(body(7, without)), {5: HELD_BITS}), "bodies")
        bent(changed(joined(body(7, every_field())), {5: HELD_BITS ^ 1 << bit}), "bodies")
    # The word is the next stream's: a bit more in one and a bit fewer in the
    # other, the lengths as they were.
    words = joined(body(7, {30: [5]}), body(8, {23: [6]}))
    second = words[4]
    bent(changed(words, {7: 0, second + 1: 1 << 30 | 1 << 23}), "bodies")
    bent(changed(words, {7: 1 << 30 | 1 << 10, second + 1: 0}), "bodies")
    # With the border moved, too: the words of the first are then those of the
    # second, shifted.
    moved_border = changed(words, {3: 15, 4: 21, 5: 17, 7: 0})
    bent(moved_border, "bodies")
    beside(words, "bodies")


def wrong_indicators():
    for bit in (31, *range(9, -1, -1)):
        started = body(7, counts={4: [1, 0, 1]})
        bent(joined(changed(started, {1: 1 << bit})), "indicator")
        # With one word, and with the two that field 9 or 8 has when it is empty.
        bent(joined(changed(started, {1: 1 << bit}) + [0]), "bodies")
        bent(joined(changed(started, {1: 1 << bit}) + [0, 0]), "bodies")
        # Among all the fields, and where type 4 has not started.
        bent(joined(changed(body(7, every_field()), {1: HELD_BITS | 1 << bit})), "indicator")
        bent(joined(changed(body(7), {1: 1 << bit})), "indicator")
        bent(joined(FEW, changed(body(7), {1: 1 << bit})), "indicator")
    bent(joined(changed(body(7), {1: 0x800003FF})), "indicator")
    bent(joined(changed(body(7, every_field()), {1: ONES})), "bodies")
    for bit in (30, 23, 19, 16, 10):
        beside(joined(body(7, {bit: [0]})), "indicator")
    beside(joined(body(7, every_field())), "indicator")


def wrong_over_range_counts():
    """Field 22 held: with its word, in its place among the others, and without; and its
    word without the bit."""
    for word in (0, 5, ONES):
        bent(joined(body(7, {22: [word]})), "indicator")
        bent(joined(body(7, {23: [1], 22: [word], 21: [0, 2]})), "indicator")
        bent(joined(body(7, {**every_field(), 22: [word]})), "indicator")
        bent(joined(FEW, body(9, {30: [4], 22: [word]}), FULL), "indicator")
    bent(joined(body(7, {22: [5]}, {4: [0, 0, 0]})), "indicator")
    for held in ({}, {23: [1], 21: [0, 2]}, every_field()):
        indicator = sum(1 << bit for bit in held)
        right = body(7, held, {4: [1, 0, 1]})
        beside(joined(right), "indicator")
        bent(joined(changed(right, {1: indicator | 1 << 22})), "bodies")
        with_word = body(7, {**held, 22: [5]})
        bent(joined(changed(with_word, {1: indicator})), "bodies")
    # The longest page that there is, and with field 22 in its last stream.
    many = [body(0x300 + i, every_field()) for i in range(32)]
    beside(joined(*many), "indicator", room=2849)
    many[31] = body(0x31F, {**every_field(), 22: [5]})
    bent(joined(*many), "indicator", room=2849)


def wrong_choices():
    """Choices other than 0 and 1, and bodies as they were without one."""
    for wrong in (2, 3, 4, 16, 1 << 8, 1 << 16, 1 << 31, (1 << 31) + 1, ONES):
        bent(joined(body(7, choice=wrong)), "choice")
        bent(joined(body(7, every_field(), choice=wrong)), "choice")
        bent(joined(FEW, body(7, choice=wrong)), "choice")
        bent(joined(body(7, {10: [1]}, choice=wrong), FEW), "choice")
        bent(joined(FEW, body(7, choice=wrong), ONE_WORD), "choice")
    for choice in (0, 1):
        beside(joined(body(7, choice=choice)), "choice")
        beside(joined(body(7, every_field(), choice=choice)), "choice")
        beside(joined(FEW, body(7, {10: [1]}, choice=choice)), "choice")
        beside(joined(*[body(i, choice=choice) for i in range(32)]), "choice")
    for held in ({}, {10: [1]}, {30: [0]}, every_field()):
        words = body(7, held)
        bent(joined(words[:14] + words[15:]), "bodies")
        bent(joined(words[:14] + [0] + words[14:]), "bodies")
    # The choice is no held word: a body without it whose first held word is 0.
    words = body(7, {30: [0], 10: [5]})
    bent(joined(words[:14] + words[15:]), "bodies")


def wrong_lists():
    for ids in ((7, 7), (0, 0), (ONES, ONES), (1, 2, 1), (1, 2, 2), (1, 1, 2), (5, 5, 5)):
        bent(joined(*[body(identifier) for identifier in ids]), "identifiers")
    bent(joined(FULL, body(7)), "identifiers")
    bent(joined(body(7), FULL), "identifiers")
    for first, second in ((0, 31), (30, 31), (0, 1), (15, 16)):
        ids = [0x1000 * i for i in range(32)]
        beside(joined(*[body(identifier) for identifier in ids]), "identifiers")
        ids[second] = ids[first]
        bent(joined(*[body(identifier) for identifier in ids]), "identifiers")
    for bit in (0, 1, 8, 16, 31):
        beside(joined(body(0x5A5A5A5A), body(0x5A5A5A5A ^ 1 << bit)), "identifiers")


def wrong_counts():
    for kind in COUNTED:
        for wrong in (17, 18, 32, 256, 1 << 16, 1 << 16 | 1, 1 << 31, ONES):
            bent(joined(body(7, counts={kind: [4, 5, wrong]})), "last")
        for right in (1, 2, 15, 16):
            beside(joined(body(7, counts={kind: [4, 5, right]})), "last")
        bent(joined(body(7, counts={kind: [0, 0, 17]})), "last")
        for seen, missing in ((1, 0), (0, 1), (ONES, 0), (0, ONES), (1 << 31, 1 << 31)):
            bent(joined(body(7, counts={kind: [seen, missing, 0]})), "not started")
            beside(joined(body(7, counts={kind: [seen, missing, 1]})), "not started")
        # A started count may have seen 0.
        beside(joined(body(7, counts={kind: [0, 0, 1]})), "not started")
        # The other types have started; in the second stream.
        others = {one: [1, 2, 3] for one in COUNTED if one != kind}
        bent(joined(body(7, counts={**others, kind: [1, 0, 0]})), "not started")
        bent(joined(FEW, body(7, counts={**others, kind: [1, 0, 17]})), "last")
        beside(joined(FEW, body(7, counts=others)), "not started")
    every = {kind: [ONES, ONES, 16] for kind in COUNTED}
    beside(joined(body(7, every_field(), every)), "last")


def wrong_starts():
    others = {1: [1, 0, 1], 3: [1, 0, 1], 5: [1, 0, 1]}
    for bit, _ in HELD:
        words = other(bit)
        bent(joined(body(7, {bit: words}, {4: [0, 0, 0]})), "type 4")
        # The other types have started; type 4 of the other stream.
        bent(joined(body(7, {bit: words}, {**others, 4: [0, 0, 0]})), "type 4")
        bent(joined(body(7, {bit: words}), body(8, {bit: words}, {4: [0, 0, 0]})), "type 4")
        beside(joined(body(7, {bit: words}, {4: [0, 0, 1]})), "type 4")
    bent(joined(body(7, every_field(), {4: [0, 0, 0]})), "type 4")
    bent(joined(body(7, every_field(), {4: [1, 0, 0]})), "not started", "type 4")
    beside(joined(body(7, counts={4: [1, 0, 16]})), "type 4")


def wrong_fields():
    for bit, (wrong, right) in FIELD_EDGES.items():
        for words in wrong:
            bent(joined(body(7, {bit: words})), "field")
        for words in right:
            beside(joined(body(7, {bit: words})), "field")
        # Among all the fields, in the second of two streams, and in both.
        among = body(7, {**every_field(), bit: wrong[0]})
        bent(joined(among), "field")
        bent(joined(ONE_WORD, among), "field")
        bent(joined(among, ONE_WORD), "field")
        beside(joined(body(7, {**every_field(), bit: right[0]}), ONE_WORD), "field")
    free = {bit: [ONES] * n for bit, n in HELD if bit not in FIELD_EDGES}
    beside(joined(body(7, free)), "field")


def wrong_states():
    """A held state word with over-range or sample loss, or a value without its enable."""
    for word in WRONG_STATES:
        bent(joined(body(7, {16: [word]})), "state")
    for word in RIGHT_STATES:
        beside(joined(body(7, {16: [word]})), "state")
    bent(joined(body(7, {16: [ONES]})), "field", "state")
    # Among all the fields, before and behind another stream.
    for word in (1 << 25, 1 << 12, 1 << 19, ALL_ON - (1 << 26)):
        among = body(7, {**every_field(), 16: [word]})
        bent(joined(among), "state")
        bent(joined(ONE_WORD, among), "state")
        bent(joined(among, ONE_WORD), "state")
    beside(joined(body(7, {**every_field(), 16: [ALL_OFF]}), ONE_WORD), "state")


def many_streams():
    """The same in the last of 32 streams, and in one of the middle."""
    bodies = [body(0x200 + i) for i in range(32)]
    right = joined(*bodies)
    for stream in (16, 31):
        place = 2 + 2 * stream
        end = ("offsets", "end") if stream == 31 else ("offsets",)
        bent(changed(right, {place: right[place] + 1}), *end)
        bent(changed(right, {place + 1: 16}), *(("end",) if stream == 31 else ("offsets",)))
        for one, rule in (
            (body(0x200 + stream, {10: [3]}, {4: [0, 0, 0]}), "type 4"),
            (body(0x200 + stream, {18: [1 << 16]}), "field"),
            (body(0x200 + stream, {16: [1 << 25]}), "state"),
            (body(0x200 + stream, counts={5: [0, 0, 17]}), "last"),
            (body(0x200 + stream, counts={5: [0, 1, 0]}), "not started"),
            (changed(bodies[stream], {1: 1}), "indicator"),
            (body(0x200 + stream, choice=2), "choice"),
            (bodies[stream] + [0], "bodies"),
        ):
            bent(joined(*bodies[:stream], one, *bodies[stream + 1 :]), rule)
        whole = body(0x200 + stream, every_field(), {5: [0, 1, 16]})
        beside(joined(*bodies[:stream], whole, *bodies[stream + 1 :]), "bodies")


# The room of the table.


def rooms():
    for n in (1, 2, 3, 16, 31, 32):
        need = 1 + 89 * n
        for fields in ({}, {10: [4], 23: [5]}) if n < 4 else ({10: [4]},):
            words = joined(*[body(0x40 + i, fields) for i in range(n)])
            for room in (need - 1, need - 89, 0, len(words) if len(words) < need else 1):
                put(words, ROOM, room=room)
            for room in (need, need + 1, min(need + 90, MOST_ROOM)):
                put(words, ACCEPTED, room=room)
    full = joined(*[body(0x40 + i, every_field()) for i in range(32)])
    put(full, ROOM, room=2848)
    put(full, ACCEPTED, room=2849)
    # PAGE before ROOM: each rule, and a table that is too short.
    fresh = BASES["fresh"]
    for words, rule in (
        ([], "number"),
        (changed(fresh, {0: 0}), "number"),
        (with_length(fresh[:3]), "contents"),
        (changed(fresh, {1: 20}), "length"),
        (changed(fresh, {2: 3, 3: 16}), "offsets"),
        (with_length(fresh + [0]), "end"),
        (joined(FRESH + [0]), "bodies"),
        (joined(FRESH, FRESH), "identifiers"),
        (joined(body(7, choice=2)), "choice"),
        (joined(changed(FRESH, {1: 1 << 8})), "indicator"),
        (joined(body(7, {24: [1 << 16]})), "field"),
        (joined(body(7, {16: [1 << 19]})), "state"),
        (joined(body(7, counts={1: [1, 0, 0]})), "not started"),
        (joined(body(7, counts={5: [1, 0, 17]})), "last"),
        (joined(body(7, {10: [3]}, {4: [0, 0, 0]})), "type 4"),
    ):
        for room in (0, 89):
            bent(words, rule, room=room)
        both_faults.add((PAGE, ROOM, rule))


# Pseudo-random pages.


def random_body(numbers, identifier):
    counts = {}
    for kind in COUNTED:
        if numbers.below(4):
            counts[kind] = [numbers.word(), numbers.word(), 1 + numbers.below(16)]
    held = {}
    if 4 in counts:
        chance = 1 + numbers.below(6)
        for bit, n in HELD:
            if numbers.below(chance) == 0:
                held[bit] = random_held(numbers, bit, n)
    return body(identifier, held, counts, numbers.below(2))


def random_pages():
    numbers = Numbers(4901)
    for _ in range(30):
        n = 1 + numbers.below(4)
        bodies = [random_body(numbers, identifier) for identifier in random_ids(numbers, n)]
        put(joined(*bodies), ACCEPTED)
    # One word changed, or a bit of it; most of these are refused.
    for turn in range(100):
        n = 1 + numbers.below(3)
        bodies = [random_body(numbers, identifier) for identifier in random_ids(numbers, n)]
        words = joined(*bodies)
        most = len(words) if turn % 3 == 0 else 2 + 2 * n + 15
        place = numbers.below(most)
        way = numbers.below(4)
        if way == 0:
            words[place] = numbers.word()
        elif way == 1:
            words[place] = numbers.below(20)
        else:
            words[place] ^= 1 << numbers.below(32)
        put(words, None, room=1 + 89 * 3 + numbers.below(3))


# Tables to be saved.


class Save:
    def __init__(self, words, answer, room, broken):
        self.words = list(words)
        self.answer = answer
        self.room = room
        self.broken = broken


def save(words, answer, room, broken=None):
    cases.append(Save(words, answer, room, broken))


def tables_with_stores():
    """The tables of play_vectors.py into which words have been stored: of those
    that break the same rules of what is well made the first thirty, and every
    second of those just within."""
    numbers = Numbers(1848)
    turns = {}
    for one in play_vectors.recordings:
        # Tables of many streams are few, as their words are many.
        many = len(one.ids) > 5
        if one.answer != play_vectors.STARTED or not one.stores:
            continue
        if many and one.broken != ("last",):
            continue
        _, lent = table.start_lent(one.ids, one.choices, [PATTERN] * one.room)
        for place, word in one.stores:
            lent[place] = word
        broken = tuple(table.broken_rules(lent))
        if one.broken is not None and broken != one.broken:
            sys.exit(f"a table is built to break {one.broken}, the reference says {broken}")
        add_to(turns, broken)
        turn = turns[broken]
        if broken and turn <= 30:
            # TABLE before ROOM, in turn with enough room.
            room = (19, 0, 20, 18, MOST_PAGE)[turn % 5]
            save(lent, TABLE, room, broken)
            if room < 19:
                both_faults.add((TABLE, ROOM, broken))
        elif not broken and turn % 2:
            need = len(page_from_words(lent))
            answer, room = (
                (ACCEPTED, need), (ACCEPTED, need + 1), (ROOM, need - 1),
                (ACCEPTED, need + numbers.below(100)), (ROOM, numbers.below(need)),
            )[turn % 5]
            save(lent, answer, room, ())


def tables_of_streams():
    """Tables of 1 to 32 streams, with the edges of the room."""
    numbers = Numbers(3217)
    for n in range(1, 32):
        ids = random_ids(numbers, n)
        choices = [numbers.below(2) for _ in ids]
        _, lent = table.start_lent(ids, choices, [PATTERN] * (1 + 89 * n + n % 3))
        for place, word in random_stores(numbers, n).items():
            lent[place] = word
        need = len(page_from_words(lent))
        save(lent, ACCEPTED, need + (0, 1, 5)[n % 3], ())
        if n < 5:
            save(lent, ROOM, need - 1, ())
            save(lent, ROOM, 0, ())
    for n in (1, 2, 32):
        choices = [1 - i % 2 for i in range(n)]
        fresh = table.start_lent(range(n), choices, [PATTERN] * (1 + 89 * n))[1]
        full = list(fresh)
        for stream in range(n):
            full[indicator_place(stream)] = HELD_BITS
            full[count_place(4, stream) + 2] = 1 + stream % 16
            slots = slots_of(first_held)
            for place, word in at_places(slot_place(30, stream), slots).items():
                full[place] = word
        for words, need in ((fresh, 2 + 17 * n), (full, 2 + 90 * n)):
            if len(page_from_words(words)) != need:
                sys.exit(f"a page of {n} streams has not {need} words")
            save(words, ROOM, need - 1, ())
            save(words, ACCEPTED, need, ())
            if n < 32:
                save(words, ROOM, 1, ())
                save(words, ACCEPTED, need + 1, ())
                save(words, ACCEPTED, MOST_PAGE, ())
                # Not the whole layout, and a word past it.
                save(words[:-1], TABLE, need, ("layout",))
                save(words + [ONES], ACCEPTED, need, ())
    save([], TABLE, 19, ("layout", "number"))
    save([], TABLE, 0, ("layout", "number"))
    save([1], TABLE, 19, ("layout",))


# The two files.


class Coverage:
    """What has been seen in the cases, beside the number of each answer."""

    def __init__(self):
        self.tally = {}
        self.streams = set()
        self.lengths = set()
        self.cuts = 0
        self.past = set()
        self.rooms = set()
        self.broken = {}
        self.beside = {}
        self.tables_broken = {}
        self.saved_streams = set()
        self.put_streams = set()
        self.choices = set()
        self.told = set()

    def add(self, label):
        self.tally[label] = self.tally.get(label, 0) + 1


def add_to(counts, key):
    counts[key] = counts.get(key, 0) + 1


def words_line(name, words, room):
    """The line of a buffer of so many words."""
    if room <= WHOLE:
        return f"  {name}" + "".join(f" {word}" for word in words)
    return f"  fold {fold(words)}"


def five_words(answer):
    """What goes into the check number of the answers, for one packet."""
    if answer[0] == "refused":
        _, number, place, bit = answer
        return [number, 0, place, 0 if bit is None else bit, 0]
    _, size, kind, stream, missing = answer
    return [0, size, kind, stream, missing]


def of_resumed(k, one, cover):
    """The words of a recording in the input, and its lines."""
    inner = [word for words in one.packets for word in [len(words), *words]]
    if max(one.room, one.room2) > MOST_ROOM or len(one.ids) > MOST_STREAMS:
        sys.exit(f"case {k} has a room or a list that is too large")
    if len(one.packets) > MOST_PACKETS or len(inner) > MOST_PACKET_WORDS:
        sys.exit(f"case {k} has too many packets")
    given = [RESUME, one.room, one.room2, len(one.ids), *one.ids, *one.choices]
    given += [len(one.packets), len(inner), *inner, len(one.cuts), *one.cuts]
    need = 1 + 89 * len(one.ids)
    # Unbroken, on one table.
    answer, whole = table.start(one.ids, one.choices, one.room)
    if answer != "started":
        sys.exit(f"case {k} does not start")
    states, answers = [copy.deepcopy(whole)], []
    for words in one.packets:
        answers.append(table.play(whole, words))
        states.append(copy.deepcopy(whole))
        if answers[-1][0] == "refused":
            cover.told.add(answers[-1][1:])
    numbers = {answer[1] for answer in answers if answer[0] == "refused"}
    if PAD in numbers:
        cover.choices.add("PAD in a recording")
    both = (0 in one.choices, 1 in one.choices)
    cover.choices.add(("recording", *both))
    if both == (True, True) and PAD in numbers and len(one.cuts) > len(one.packets):
        cover.choices.add("both choices and PAD, stopped at each packet")
    end = table.layout(whole)
    folded = fold([word for answer in answers for word in five_words(answer)])
    lines = [f"{k} recording"]
    for cut in one.cuts:
        lent = table.layout(states[cut]) + [PATTERN] * (one.room - need)
        (answer, length), buffer = page.save(lent, [PATTERN] * PAGE_BUFFER)
        if answer != "saved" or buffer[:length] != page_from_words(lent):
            sys.exit(f"case {k} is not saved as it should be at the cut {cut}")
        if buffer[length:] != [PATTERN] * (PAGE_BUFFER - length):
            sys.exit(f"case {k} has words written past its page at the cut {cut}")
        (answer, put_length), second = page.put_back(buffer[:length], [PATTERN] * one.room2)
        if (answer, put_length) != ("put", need) or second[:need] != lent[:need]:
            sys.exit(f"case {k} is not put back as it was at the cut {cut}")
        resumed_table = table.table_of(second)
        after = [table.play(resumed_table, words) for words in one.packets[cut:]]
        if answers[:cut] + after != answers or table.layout(resumed_table) != end:
            sys.exit(f"case {k} differs from the unbroken play at the cut {cut}")
        past = sum(second[need:]) % 2**32
        lines.append(
            f"  cut {cut} saved {length} fold {fold(buffer[:length])} put {put_length}"
            f" answers {folded} table {fold(end)} past {past}"
        )
        cover.lengths.add(length)
        cover.cuts += 1
    cover.add("recording")
    cover.streams.add(len(one.ids))
    cover.past.add(min(one.room2 - need, 2))
    return given, lines


def of_put(k, one, cover):
    if one.room > MOST_ROOM or len(one.words) > MOST_PAGE:
        sys.exit(f"case {k} has a room or a page that is too large")
    given = [PUT, one.room, len(one.words), *one.words]
    untouched = [PATTERN] * one.room
    (answer, what), lent = page.put_back(one.words, untouched)
    number = what if answer == "refused" else ACCEPTED
    if one.answer is not None and number != one.answer:
        sys.exit(f"case {k} is built for {one.answer}, the reference says {number}")
    broken = tuple(page.broken_rules(one.words))
    if one.broken is not None and broken != one.broken:
        sys.exit(f"case {k} is built to break {one.broken}, the reference says {broken}")
    if broken:
        add_to(cover.broken, broken)
    elif one.beside is not None:
        add_to(cover.beside, one.beside)
    if number != ACCEPTED:
        if lent != untouched:
            sys.exit(f"case {k} is refused and has written")
        cover.add(f"put refused {number}")
        if number == ROOM:
            cover.rooms.add(("put", ROOM, one.words[0], one.room - (1 + 89 * one.words[0])))
        return given, [f"{k} refused {number}", words_line("table", lent, one.room)]
    if what != 1 + 89 * one.words[0] or not table.well_made(lent):
        sys.exit(f"case {k} is put back as a table that is not well made")
    if page_from_words(lent) != one.words or lent[what:] != untouched[what:]:
        sys.exit(f"case {k} is put back as another table")
    (answer, length), buffer = page.save(lent, [PATTERN] * PAGE_BUFFER)
    if answer != "saved" or buffer[:length] != one.words:
        sys.exit(f"case {k} is not saved again as it was")
    cover.add("put")
    for stream in range(one.words[0]):
        cover.choices.add(("put", lent[choice_place(stream)]))
    cover.put_streams.add(one.words[0])
    cover.rooms.add(("put", ACCEPTED, one.words[0], one.room - what))
    return given, [
        f"{k} put {what}", words_line("table", lent, one.room),
        f"  saved {length} fold {fold(buffer[:length])}",
    ]


def of_save(k, one, cover):
    if one.room > MOST_PAGE or len(one.words) > MOST_ROOM:
        sys.exit(f"case {k} has a room or a table that is too large")
    given = [SAVE, one.room, len(one.words), *one.words]
    untouched = [PATTERN] * one.room
    (answer, what), buffer = page.save(one.words, untouched)
    number = what if answer == "refused" else ACCEPTED
    if one.answer is not None and number != one.answer:
        sys.exit(f"case {k} is built for {one.answer}, the reference says {number}")
    broken = tuple(table.broken_rules(one.words))
    if one.broken is not None and broken != one.broken:
        sys.exit(f"case {k} is built to break {one.broken}, the reference says {broken}")
    if broken:
        add_to(cover.tables_broken, broken)
    kind, length = page.page_length(one.words)
    if (kind == "refused") != bool(broken):
        sys.exit(f"case {k} has a page length that does not fit its table")
    last = f"  length refused {length}" if kind == "refused" else f"  length {length}"
    if number != ACCEPTED:
        if buffer != untouched:
            sys.exit(f"case {k} is refused and has written")
        cover.add(f"save refused {number}")
        if number == ROOM:
            cover.rooms.add(("save", ROOM, one.words[0], one.room - length))
        return given, [f"{k} refused {number}", words_line("page", buffer, one.room), last]
    expected = page_from_words(one.words)
    if what != length or buffer != expected + untouched[length:]:
        sys.exit(f"case {k} is saved as another page")
    cover.add("saved")
    for stream in range(one.words[0]):
        cover.choices.add(("saved", one.words[choice_place(stream)]))
    cover.saved_streams.add(one.words[0])
    cover.rooms.add(("save", ACCEPTED, one.words[0], one.room - length))
    return given, [f"{k} saved {what}", words_line("page", buffer, one.room), last]


def build():
    played_recordings()
    full_recordings()
    split_recordings()
    survey_recordings()
    good_pages()
    wrong_numbers()
    wrong_contents()
    wrong_lengths()
    wrong_offsets()
    gaps()
    overlaps()
    orders()
    wrong_held()
    wrong_indicators()
    wrong_over_range_counts()
    wrong_lists()
    wrong_choices()
    wrong_counts()
    wrong_starts()
    wrong_fields()
    wrong_states()
    many_streams()
    rooms()
    random_pages()
    tables_with_stores()
    tables_of_streams()


# Each answer, and the least number of its cases.
LEAST = {
    "recording": 350,
    f"put refused {PAGE}": 300,
    f"put refused {ROOM}": 30,
    "put": 200,
    f"save refused {TABLE}": 200,
    f"save refused {ROOM}": 30,
    "saved": 100,
}

# What is there of both choices: recordings of either alone and of both.
CHOICES = {
    "PAD in a recording", "both choices and PAD, stopped at each packet",
    ("recording", True, False), ("recording", False, True),
    ("recording", True, True), ("put", 0), ("put", 1), ("saved", 0), ("saved", 1),
}

# What is there of refusals in recordings: each number of play but TABLE, the identifier
# and the header as the place of STREAM, and each field that has a rule.
TOLD_NUMBERS = {*range(1, 11), PAD, STREAM}
TOLD_STREAMS = {(STREAM, 0, None), (STREAM, 1, None)}

TABLE_RULES = [name for name, _ in table.RULES_OF_WORDS + table.RULES_OF_RECORDS]


def fail(condition, message):
    if condition:
        sys.exit(message)


def check(cover):
    """The cases that there have to be."""
    # SIZE cannot be reached: 32 streams with every field held are 2,882 words.
    fail(2 + 90 * 32 > page.MOST_WORDS, f"{SIZE} can be reached")
    for label in cover.tally:
        fail(label not in LEAST, f"{label}: not an answer that is asked for")
    for label, n in LEAST.items():
        found = cover.tally.get(label, 0)
        fail(found < n, f"{label}: {found} cases, fewer than {n}")
    every = set(range(1, 33))
    for wanted, found in (
        ("streams of a recording", cover.streams == every),
        ("streams of a page put back", cover.put_streams == every),
        ("streams of a table saved", cover.saved_streams == every),
        ("lengths of a page", cover.lengths >= {19, 92, 546, 2882}),
        ("choices put back and saved", cover.choices >= CHOICES),
        ("refusals in recordings", {number for number, _, _ in cover.told} == TOLD_NUMBERS),
        ("places of STREAM", cover.told >= TOLD_STREAMS),
        ("fields", {bit for number, _, bit in cover.told if number == FIELD} == set(RULED)),
        ("words past the second table", cover.past == {0, 1, 2}),
        ("PAGE before ROOM", {rule for a, b, rule in both_faults if a == PAGE} == set(page.RULES)),
        (
            "TABLE before ROOM",
            {rules for a, b, rules in both_faults if a == TABLE}
            >= {(rule,) for rule in TABLE_RULES},
        ),
    ):
        fail(not found, f"{wanted}: not all of them are there")
    fail(cover.cuts < 2500, f"{cover.cuts} cuts, fewer than 2500")
    for edge in (
        *[("put", ROOM, n, -1) for n in (1, 2, 32)],
        *[("put", ACCEPTED, n, more) for n in (1, 2, 32) for more in (0, 1)],
        *[("save", ROOM, n, -1) for n in (1, 2, 32)],
        *[("save", ACCEPTED, n, more) for n in (1, 2) for more in (0, 1)],
        ("save", ACCEPTED, 32, 0),
    ):
        fail(edge not in cover.rooms, f"no case at the edge {edge}")
    for name in page.RULES:
        fail(cover.broken.get((name,), 0) < 4, f"rule {name}: fewer than 4 pages break it alone")
        fail(cover.beside.get(name, 0) < 4, f"rule {name}: fewer than 4 pages are beside it")
    for name in TABLE_RULES:
        broken = cover.tables_broken.get((name,), 0)
        fail(broken < 2, f"rule {name}: fewer than 2 tables break it alone")


def main():
    if len(sys.argv) != 3:
        sys.exit("usage: page_vectors.py INPUT EXPECTED")
    build()
    given = bytearray()
    expected = []
    cover = Coverage()
    ways = {Resumed: of_resumed, Put: of_put, Save: of_save}
    for k, one in enumerate(cases):
        words, lines = ways[type(one)](k, one, cover)
        for word in words:
            given += word.to_bytes(4, "big")
        expected += lines
    check(cover)
    text = "".join(line + "\n" for line in expected)
    fail(len(given) > 1_690_000, f"the input has {len(given)} bytes, more than 1,690,000")
    fail(len(text) > 1_300_000, f"the output has {len(text)} bytes, more than 1,300,000")
    with open(sys.argv[1], "wb") as file:
        file.write(given)
    with open(sys.argv[2], "w", encoding="ascii", newline="\n") as file:
        file.write(text)
    for label in LEAST:
        print(f"{label}: {cover.tally[label]}")
    for name in page.RULES:
        print(f"rule {name}: {cover.broken[(name,)]} broken, {cover.beside[name]} beside")
    print(f"cuts {cover.cuts}")
    print(f"cases {len(cases)}")


if __name__ == "__main__":
    main()
