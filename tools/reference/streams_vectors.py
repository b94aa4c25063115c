"""Writes the cases for identities, counts, own tables and changed fields of streams and
the reference's answers to them.

    python3 tools/reference/streams_vectors.py INPUT EXPECTED

README.md gives the form of both files.  Each case says for which answer it is built;
where the reference says another, the program ends without writing.  So it does where an
answer is not the one that the words of the tables give, taken word by word from their
places, and where a refusal is not the first of those that apply.
"""

import sys

sys.dont_write_bytecode = True

import play_vectors
import streams
import table
from panel import VALUE
from panel_vectors import broken_tables, choice_for, fresh, of_fields, refused, stored
from play_vectors import (
    ALL_OFF, ALL_ON, COUNTED, FIELD_EDGES, HELD, HELD_BITS, MOST_ROOM, PATTERN, SIZES,
    WRONG_STATES, at_places, choice_place, count_place, first_held, indicator_place, other,
    random_few, random_held, random_ids, random_stores, record_place, short_packet, slot_place,
    state_together,
)
from read_vectors import FIXED, ONES, Numbers, context, survey
from table import ROOM, STREAM, TABLE

MOST_OUT = 200
OWN = 90

# What is asked.
IDENTITY, COUNTS, OWN_TABLE, CHANGED = 1, 2, 3, 4

BITS = tuple(bit for bit, _ in HELD)

# Types that are not counted, those among them of which the lowest bits are.
WRONG_TYPES = (
    0, 2, 6, 7, 8, 9, 10, 11, 12, 13, 14, 15, 16, 17, 19, 20, 21, 33, 64 + 3, 256 + 1, 256 + 4,
    (1 << 16) + 5, (1 << 28) + 1, (1 << 31) + 4, ONES - 4, ONES - 3, ONES - 1, ONES,
)

# Stream numbers that no table has, those among them of which the lowest bits are in most.
FAR_STREAMS = (32, 33, 256, (1 << 16), (1 << 31), ONES - 1, ONES)

cases = []


class Case:
    """One case, with the answer it is built for, or None.  The tables are one pair of
    words and stream, or two of changed fields; more is the type or the room."""

    def __init__(self, what, tables, more, answer):
        self.what = what
        self.tables = [(list(words), stream) for words, stream in tables]
        self.more = more
        self.answer = answer


def identify(words, stream, answer=None):
    """Which stream it is."""
    cases.append(Case(IDENTITY, [(words, stream)], None, answer))


def count(words, stream, kind, answer=None):
    """What a stream counted of a type."""
    cases.append(Case(COUNTS, [(words, stream)], kind, answer))


def own(words, stream, room, answer=None):
    """The table of a stream alone, into a buffer of so many words."""
    cases.append(Case(OWN_TABLE, [(words, stream)], room, answer))


def compare(before, before_stream, after, after_stream, answer=None):
    """Which held fields differ."""
    cases.append(Case(CHANGED, [(before, before_stream), (after, after_stream)], None, answer))


def differ(before, after, *bits):
    """These fields differ in the first streams of two tables, asked both ways."""
    answer = ("changed", sum(1 << bit for bit in bits))
    compare(before, 0, after, 0, answer)
    compare(after, 0, before, 0, answer)


# Tables.


def holding(fields, ids=(7,), stream=0, past=0):
    """A table in which one stream holds these fields, by their bit."""
    return stored(fresh(ids, past), of_fields(fields, stream))


EVERY = {bit: first_held(bit) for bit in BITS}
OTHERS = {bit: other(bit) for bit in BITS}


def without(fields, bit):
    return {one: words for one, words in fields.items() if one != bit}


def table_of_streams(n, past=0):
    """A table of n streams: identifiers, counts and fields of each are its own."""
    lent = fresh([0xC0000000 + 0x01010101 * stream for stream in range(n)], past)
    for stream in range(n):
        stores = {}
        for place, kind in enumerate(COUNTED):
            if (stream + place) % 5:
                words = [1000 * stream + kind, 100 * stream + kind, 1 + (3 * stream + kind) % 16]
                stores.update(at_places(count_place(kind, stream), words))
        if count_place(4, stream) in stores:
            fields = {bit: OTHERS[bit] for bit in BITS if (bit + stream) % 3}
            fields[30] = [stream]
            fields[27] = [stream, ONES - stream]
            stores[indicator_place(stream)] = sum(1 << bit for bit in fields)
            for bit, words in fields.items():
                stores.update(at_places(slot_place(bit, stream), words))
        lent = stored(lent, stores)
    return lent


def played_tables():
    """The tables at the end of some recordings of few streams, and the packet that was
    played into each last, with the table before it."""
    broken_tables()
    found = []
    for one in play_vectors.recordings:
        if one.answer != play_vectors.STARTED or one.stores or not 1 <= len(one.ids) <= 3:
            continue
        lent = table.start_lent(one.ids, one.choices, [PATTERN] * one.room)[1]
        before, last = lent, None
        for words, _ in one.packets:
            answer, after = table.play_lent(lent, words)
            if answer[0] == "played":
                before, last, lent = lent, answer, after
        if last is not None:
            found.append((before, lent, last[3]))
    return found


# Identities.


def identities():
    for identifier in (0, 1, 7, 89, 0x7FFFFC00, 1 << 31, PATTERN, ONES):
        identify(fresh((identifier,)), 0, ("declared", identifier, identifier % 2, 0))
        # The other choice, and words that are none.
        other_choice = {choice_place(): 1 - identifier % 2}
        answer = ("declared", identifier, 1 - identifier % 2, 0)
        identify(stored(fresh((identifier,)), other_choice), 0, answer)
    for wrong in (2, 3, 256, 1 << 31, ONES):
        identify(stored(fresh(), {choice_place(): wrong}), 0, refused(TABLE))
        for stream in (0, 1):
            identify(stored(fresh((7, 8)), {choice_place(1): wrong}), stream, refused(TABLE))
    for bit, n in HELD:
        # Alone, with zero words, all the others, and in the other stream.
        identify(holding({bit: OTHERS[bit]}), 0, ("declared", 7, 1, 1 << bit))
        identify(holding({bit: [0] * n}, (8,), past=1), 0, ("declared", 8, 0, 1 << bit))
        rest = holding(without(EVERY, bit))
        identify(rest, 0, ("declared", 7, 1, HELD_BITS - (1 << bit)))
    identify(holding(EVERY), 0, ("declared", 7, 1, HELD_BITS))
    two = holding({24: [5], 10: [6]}, (7, 8), 1)
    identify(two, 0, ("declared", 7, 1, 0))
    identify(two, 1, ("declared", 8, 0, 1 << 24 | 1 << 10))
    # Type 4 has started and nothing is held.
    identify(stored(fresh(), at_places(count_place(4), [5, 6, 7])), 0, ("declared", 7, 1, 0))
    for n in (1, 2, 5):
        lent = table_of_streams(n, past=n % 2)
        for stream in range(n):
            indicator = lent[indicator_place(stream)]
            identifier = 0xC0000000 + 0x01010101 * stream
            identify(lent, stream, ("declared", identifier, choice_for(identifier), indicator))
        for stream in (n, n + 1, *(FAR_STREAMS if n < 5 else ())):
            identify(lent, stream, refused(STREAM))
    lent = table_of_streams(32)
    for stream in (0, 15, 31):
        identify(lent, stream)
    identify(lent, 32, refused(STREAM))
    # The words of a record past the layout are no stream.
    two = table_of_streams(2)
    one = stored(two, {0: 1})
    identify(two, 1)
    identify(one, 1, refused(STREAM))
    identify(one, 0, ("declared", 0xC0000000, 0, two[indicator_place(0)]))


# Counts.


def counts():
    # Every type from 0 to 15 and far ones, nothing started and all started.
    started = fresh()
    for place, kind in enumerate(COUNTED):
        words = [10 * kind, 20 * kind, 2 + 4 * place]
        started = stored(started, at_places(count_place(kind), words))
    for place, kind in enumerate(COUNTED):
        count(fresh(), 0, kind, ("not started",))
        count(started, 0, kind, ("started", 10 * kind, 20 * kind, 1 + 4 * place))
    for kind in WRONG_TYPES:
        count(fresh(), 0, kind, refused(VALUE))
        count(started, 0, kind, refused(VALUE))
    for kind in COUNTED:
        place = count_place(kind)
        # Each last count; seen and missing at their ends.
        for last in range(16):
            lent = stored(fresh(), at_places(place, [40 + last, 50 + last, last + 1]))
            count(lent, 0, kind, ("started", 40 + last, 50 + last, last))
        for seen in (0, 1, 1 << 31, ONES):
            for missing in (0, ONES):
                lent = stored(fresh(past=2), at_places(place, [seen, missing, 1]))
                count(lent, 0, kind, ("started", seen, missing, 0))
        # The others have started, and this one has not; this one alone has.
        rest = {count_place(one) + 2: 16 for one in COUNTED if one != kind}
        count(stored(fresh(), rest), 0, kind, ("not started",))
        alone = stored(fresh(), {place + 2: 16})
        for one in COUNTED:
            count(alone, 0, one, ("started", 0, 0, 15) if one == kind else ("not started",))
        # In the other of two streams.
        for stream in (0, 1):
            words = [3, 4, 5]
            lent = stored(fresh((7, 8)), at_places(count_place(kind, stream), words))
            count(lent, stream, kind, ("started", 3, 4, 4))
            count(lent, 1 - stream, kind, ("not started",))
    for n in (1, 2, 5):
        lent = table_of_streams(n, past=n % 3)
        for stream in range(n):
            for kind in COUNTED:
                count(lent, stream, kind)
        for stream in (n, n + 1, *(FAR_STREAMS if n < 5 else ())):
            count(lent, stream, COUNTED[stream % 4], refused(STREAM))
    lent = table_of_streams(32)
    for stream, kind in ((0, 3), (31, 4)):
        count(lent, stream, kind)
    count(lent, 32, 1, refused(STREAM))
    # Fields that are held are no counts, and the next record is none of this one's.
    full = holding(EVERY)
    for kind in (1, 3, 5):
        count(full, 0, kind, ("not started",))
    count(full, 0, 4, ("started", 1, 0, 0))


# Own tables.

ROOMS = (0, 1, 88, 89, 90, 91, 150, MOST_OUT)


def own_tables():
    for words in (fresh(), holding(EVERY), holding(OTHERS, past=2), table_of_streams(1)):
        for room in ROOMS:
            own(words, 0, room, ("table", OWN) if room >= OWN else refused(ROOM))
    for n in (2, 5):
        lent = table_of_streams(n, past=n % 3)
        for stream in range(n):
            for room in (89, 90, 91, 150):
                own(lent, stream, room, ("table", OWN) if room >= OWN else refused(ROOM))
    lent = table_of_streams(32, past=51)
    for stream in (0, 17, 31):
        own(lent, stream, 91, ("table", OWN))
    own(lent, 31, 89, refused(ROOM))
    own(lent, 32, 91, refused(STREAM))
    for bit, n in HELD:
        own(holding({bit: OTHERS[bit]}, (7, 8), 1), 1, 90, ("table", OWN))
        own(holding({bit: [0] * n}, (8, 7), 0), 1, 90, ("table", OWN))
    # STREAM alone, and before ROOM.
    lent = table_of_streams(2)
    for stream in (2, 3, *FAR_STREAMS):
        for room in (0, 89, 90):
            own(lent, stream, room, refused(STREAM))
    one = stored(lent, {0: 1})
    own(one, 0, 90, ("table", OWN))
    own(one, 1, 90, refused(STREAM))


# Changed fields.


def ruled(bit, place, one):
    """Whether the rule of a field, or of the state word that is held, fixes a bit of the
    upper half of a word of OTHERS."""
    if bit in (24, 18):
        return True
    if bit == 17:
        return one >= (16 if place else 24)
    if bit == 16:
        # The values 19 and 17 are set: their enables stay.  Free are the other enables
        # that can be held, and these values.
        return one not in (30, 28, 27, 26, 19, 17)
    return bit in (29, 21) and place == 0 and one == 31


def changed_words():
    full = holding(EVERY)
    for bit, n in HELD:
        # Among all the others, and alone: other words; held against absent; zero
        # words against absent; the same.
        alone, answer = holding({bit: OTHERS[bit]}), ("changed", 1 << bit)
        compare(full, 0, holding({**EVERY, bit: OTHERS[bit]}), 0, answer)
        compare(holding({bit: EVERY[bit]}, past=1), 0, alone, 0, answer)
        compare(full, 0, holding(without(EVERY, bit)), 0, answer)
        differ(alone, fresh(), bit)
        differ(holding({bit: [0] * n}), fresh(), bit)
        compare(holding(without(EVERY, bit)), 0, holding({**EVERY, bit: [0] * n}), 0, answer)
        compare(alone, 0, alone, 0, ("changed", 0))
        # One word, by one bit: each word of the field, by its lowest bit and by the
        # highest one of its upper half that the field's rule leaves free.
        for place in range(n):
            free = [one for one in range(31, 15, -1) if not ruled(bit, place, one)]
            for flipped in (0, *free[:1]):
                words = list(OTHERS[bit])
                words[place] ^= 1 << flipped
                compare(holding(OTHERS), 0, holding({**OTHERS, bit: words}), 0, answer)
        # The words that one field has, the next one has on the other side.
        for near in (bit - 1, bit - 2):
            if near in BITS and SIZES[near] == n:
                answer = ("changed", 1 << bit | 1 << near)
                compare(holding({bit: [0] * n}), 0, holding({near: [0] * n}), 0, answer)


def changed_together():
    full, others = holding(EVERY), holding(OTHERS)
    differ(full, others, *BITS)
    differ(full, fresh(), *BITS)
    differ(holding({bit: [0] * n for bit, n in HELD}), fresh(), *BITS)
    compare(full, 0, full, 0, ("changed", 0))
    compare(fresh(), 0, fresh(), 0, ("changed", 0))
    for chosen in ((30, 10), (29, 28), (14, 13), (12, 11), (24, 23, 18), BITS[::2], BITS[1::2]):
        some = {bit: OTHERS[bit] for bit in chosen}
        differ(full, holding({**EVERY, **some}), *chosen)
        differ(fresh(), holding(some), *chosen)
        differ(full, holding({bit: EVERY[bit] for bit in BITS if bit not in chosen}), *chosen)
    # Some carried the same, some held by one alone, some by neither.
    one = holding({30: [1], 29: [2, 3], 24: [4], 10: [5]})
    two = holding({29: [2, 3], 24: [5], 23: [6], 10: [5]}, (8, 9))
    differ(one, two, 30, 24, 23)
    # What is no field: the identifier, counts, the choice, words past the layout.
    lent = holding(EVERY, past=3)
    for stores in (
        {1: 8}, {1: ONES}, {90: 0}, {91: 1}, {92: ONES}, {choice_place(): 0},
        at_places(count_place(1), [5, 6, 7]), at_places(count_place(3), [0, 0, 1]),
        at_places(count_place(4), [ONES, ONES, 16]), at_places(count_place(5), [1, 1, 1]),
    ):
        differ(lent, stored(lent, stores))


def changed_streams():
    # Streams of one table, with themselves and with each other.
    for n in (2, 5):
        lent = table_of_streams(n)
        for before in range(n):
            for after in (before, (before + 1) % n):
                compare(lent, before, lent, after, ("changed", 0) if before == after else None)
    # Tables of unlike numbers of streams; the stream's own table.
    tables = {n: table_of_streams(n, past=n % 4) for n in (1, 2, 5, 32)}
    for n, m in ((1, 2), (2, 1), (1, 5), (5, 1), (2, 5), (5, 2)):
        compare(tables[n], n - 1, tables[m], m - 1)
        compare(tables[n], 0, tables[m], 0, ("changed", 0))
    compare(tables[1], 0, tables[32], 31)
    compare(tables[32], 0, tables[5], 0, ("changed", 0))
    for n, stream in ((2, 0), (2, 1), (5, 0), (5, 4), (32, 31)):
        lent = tables[n]
        alone = streams.own_table(lent, stream, [0] * OWN)[1]
        compare(alone, 0, lent, stream, ("changed", 0))
        compare(lent, stream, alone, 0, ("changed", 0))
    # The same stream number, its fields in another stream.
    for stream in (0, 1, 2):
        held = holding({27: [1, 2]}, (7, 8, 9), stream)
        for asked in (0, 1, 2):
            fields = 1 << 27 if asked == stream else 0
            compare(held, asked, fresh((7, 8, 9)), asked, ("changed", fields))
            compare(fresh((7, 8, 9)), 0, held, asked, ("changed", fields))
    # A stream that is not in its table: the first, the second, both.
    one, two = tables[1], tables[2]
    for stream in (1, 2, *FAR_STREAMS):
        compare(one, stream, two, 0, refused(STREAM))
        compare(two, 0, one, stream, refused(STREAM))
        compare(one, stream, one, stream, refused(STREAM))
    compare(two, 1, one, 1, refused(STREAM))
    compare(one, 1, two, 1, refused(STREAM))
    compare(stored(two, {0: 1}), 1, two, 1, refused(STREAM))


# What a packet changed, asked of the stream's own table from before it.


def changed_by_packets():
    lent = fresh((6, 7))
    held = {}
    numbers = Numbers(4904)

    def play(words, fields, asked=1):
        nonlocal lent
        before = streams.own_table(lent, asked, [0] * OWN)[1]
        lent = table.play_lent(lent, words)[1]
        compare(before, 0, lent, asked, ("changed", sum(1 << bit for bit in fields)))

    def carry(fields, identifier=7):
        indicator = sum(1 << bit for bit in fields)
        words = [word for bit, _ in FIXED if bit in fields for word in fields[bit]]
        return context(indicator, words, identifier=identifier)

    # Each field as the first, again with the same words, and with others.
    for bit in BITS:
        play(carry({bit: EVERY[bit]}), [bit])
        play(carry({bit: EVERY[bit]}), [])
        play(carry({bit: OTHERS[bit]}), [bit])
        held[bit] = OTHERS[bit]
    # Several, of which some change; none; other types; another stream; refused.
    play(carry({**OTHERS, 24: [1], 14: [0] * 11}), [24, 14])
    play(context(1 << 31, [], identifier=7), [])
    for kind in (1, 3, 5):
        play(short_packet(kind, 7, 3), [])
    play(survey([1], pad=3, identifier=7), [])
    play(carry(EVERY, identifier=6), [])
    play(carry({29: [1 << 31, 0], 30: [1]}), [])
    play([], [])
    play(carry({24: [2]}, identifier=8), [])
    play(carry({24: [2]}, identifier=6), [24], asked=0)
    held.update({24: [1], 14: [0] * 11})
    # Over-range counts: nothing changes by them, and the fields behind are their own.
    play(carry({22: [5]}), [])
    play(carry({22: [6]}), [])
    play(carry({22: [6], 21: held[21], 19: [9]}), [19])
    identify(lent, 1, ("declared", 7, 1, HELD_BITS))
    own(lent, 1, 90, ("table", OWN))
    held[19] = [9]
    # State words: those that leave what is held, and those that do not.
    for word, fields in (
        (held[16][0], []), (ALL_ON | 0x11, [16]), (0x11, []), (0x03003011, []), (0x000FF011, []),
        (0x10, [16]), (1 << 28 | 0x10, [16]), (1 << 28 | 0x10, []), (1 << 28 | 1 << 16, [16]),
        (ALL_OFF, [16]), (0, []),
    ):
        play(carry({16: [word]}), fields)
    held[16] = [ALL_OFF]
    for _ in range(20):
        body = random_few(numbers)
        fields, place = {}, 1
        for bit, n in FIXED:
            if body[0] >> bit & 1:
                fields[bit] = body[place : place + n]
                place += n
        # Every second field as it is held already; state words as they come.
        for bit in fields:
            if bit % 2 == 0 and bit not in (22, 16):
                fields[bit] = held[bit]
        after = {bit: words for bit, words in fields.items() if bit != 22}
        if 16 in fields:
            after[16] = [state_together(held[16][0], fields[16])]
        play(carry(fields), [bit for bit, words in after.items() if words != held[bit]])
        held.update(after)


# The order of the refusals.


tables_broken = set()


def orders():
    good = table_of_streams(2)
    one = holding({24: [5]})
    for rules, tables in broken_tables().items():
        tables_broken.update([rules] if len(rules) == 1 else [])
        for words in tables[:2]:
            # TABLE alone, and before each of the others, and all of them.
            for stream in (0, 40):
                identify(words, stream, refused(TABLE))
                for kind in (1, 2):
                    count(words, stream, kind, refused(TABLE))
                for room in (90, 89):
                    own(words, stream, room, refused(TABLE))
            compare(words, 0, one, 0, refused(TABLE))
            compare(one, 0, words, 0, refused(TABLE))
        words = tables[-1]
        # TABLE of the one before STREAM of the other, and of itself; both tables.
        compare(words, 0, one, 1, refused(TABLE))
        compare(one, 1, words, 0, refused(TABLE))
        compare(words, 40, one, 0, refused(TABLE))
        compare(one, 0, words, 40, refused(TABLE))
        compare(words, 40, one, 1, refused(TABLE))
        compare(words, 0, words, 0, refused(TABLE))
    # STREAM before VALUE.
    for kind in (0, 2, 6, 16, ONES):
        for stream in (2, ONES):
            count(good, stream, kind, refused(STREAM))
    # Tables that break a field's rule, and those just within it.
    for bit, (wrong, right) in FIELD_EDGES.items():
        identify(holding({bit: wrong[0]}), 0, refused(TABLE))
        identify(holding({bit: right[0]}), 0, ("declared", 7, 1, 1 << bit))
        compare(holding({bit: right[0]}), 0, holding({bit: wrong[0]}), 0, refused(TABLE))
        if len(right) > 1:
            compare(holding({bit: right[0]}), 0, holding({bit: right[1]}), 0, ("changed", 1 << bit))
    # Tables that hold field 22, or a state word that cannot be held.
    for lent in (holding({22: [0]}), holding({22: [5]}), stored(fresh(), {slot_place(22): 5})):
        identify(lent, 0, refused(TABLE))
        own(lent, 0, 90, refused(TABLE))
        compare(lent, 0, one, 0, refused(TABLE))
        compare(one, 0, lent, 0, refused(TABLE))
    for word in WRONG_STATES[::3]:
        identify(holding({16: [word]}), 0, refused(TABLE))
        own(holding({16: [word]}), 0, 90, refused(TABLE))
        compare(holding({16: [word]}), 0, one, 0, refused(TABLE))
    # 32 streams: one word too few, 33 of them, and a last record that is not good.
    many = table_of_streams(32)
    for words in (many[:-1], stored(many, {0: 33}), stored(many, {count_place(5, 31) + 2: 17})):
        identify(words, 0, refused(TABLE))
    compare(one, 0, many[:-1], 0, refused(TABLE))


# Tables after packets, and pseudo-random ones.


def after_packets():
    found = played_tables()
    for turn, (before, after, stream) in enumerate(found[:: 1 + len(found) // 32]):
        identify(after, stream)
        for kind in (COUNTED[turn % 4], COUNTED[(turn + 1) % 4]):
            count(after, stream, kind)
        own(after, stream, (90, 91, 150)[turn % 3])
        compare(before, stream, after, stream)


def random_tables():
    numbers = Numbers(8989)

    def some_table():
        n = 1 + numbers.below(3)
        lent = stored(fresh(random_ids(numbers, n), numbers.below(3)), random_stores(numbers, n))
        if numbers.below(9) == 0:
            lent[numbers.below(1 + 89 * n)] ^= 1 << numbers.below(32)
        return lent, numbers.below(n) if numbers.below(8) else numbers.below(40)

    for turn in range(56):
        words, stream = some_table()
        if turn % 4 == 0:
            identify(words, stream)
        elif turn % 4 == 1:
            kind = COUNTED[numbers.below(4)] if numbers.below(6) else numbers.below(20)
            count(words, stream, kind)
        elif turn % 4 == 2:
            own(words, stream, 80 + numbers.below(40))
        else:
            compare(words, stream, *some_table())
        # A table and itself with a few fields replaced.
        after = list(words)
        if table.well_made(words) and stream < words[0]:
            for bit, n in HELD:
                if words[indicator_place(stream)] >> bit & 1 and numbers.below(3) == 0:
                    place = slot_place(bit, stream)
                    after[place : place + n] = random_held(numbers, bit, n)
        compare(words, stream, after, stream)


# The two files.


class Coverage:
    """What has been seen in the cases, beside the number of each answer."""

    def __init__(self):
        self.tally = {}
        self.faults = set()
        self.streams = set()
        self.types = set()
        self.rooms = set()
        self.changed = set()
        self.words = set()
        self.choices = set()

    def add(self, label):
        self.tally[label] = self.tally.get(label, 0) + 1


NAMES = {IDENTITY: "identity", COUNTS: "counts", OWN_TABLE: "own table", CHANGED: "changed"}

# The order of each.
ORDERS = {
    IDENTITY: (TABLE, STREAM),
    COUNTS: (TABLE, STREAM, VALUE),
    OWN_TABLE: (TABLE, STREAM, ROOM),
    CHANGED: (TABLE, STREAM),
}


def faults_of(one):
    """Every refusal that applies to a case, in its order, and for each table which of
    its own apply."""
    places = []
    for words, stream in one.tables:
        found = [] if table.well_made(words) else [TABLE]
        places.append(tuple(found + ([STREAM] if not words or stream >= words[0] else [])))
    applies = set(places[0]) | set(places[-1])
    if one.what == COUNTS and one.more not in (1, 3, 4, 5):
        applies.add(VALUE)
    if one.what == OWN_TABLE and one.more < 90:
        applies.add(ROOM)
    return [number for number in ORDERS[one.what] if number in applies], places


def asked(one):
    """What the reference answers, and the buffer of an own table afterwards."""
    (words, stream), *rest = one.tables
    if one.what == IDENTITY:
        return streams.identity(words, stream), None
    if one.what == COUNTS:
        return streams.counts(words, stream, one.more), None
    if one.what == OWN_TABLE:
        return streams.own_table(words, stream, [PATTERN] * one.more)
    return streams.changed(words, stream, *rest[0]), None


def held_at(words, stream, bit):
    """The words of a field at its place, or None where its bit is not set."""
    if not words[indicator_place(stream)] >> bit & 1:
        return None
    place = slot_place(bit, stream)
    return words[place : place + SIZES[bit]]


def by_words(one):
    """What the words of well-made tables say, from their places."""
    words, stream = one.tables[0]
    place = record_place(stream)
    if one.what == IDENTITY:
        return ("declared", words[place], words[place + 14], words[place + 1])
    if one.what == COUNTS:
        seen, missing, last_plus_one = words[count_place(one.more, stream) :][:3]
        return ("started", seen, missing, last_plus_one - 1) if last_plus_one else ("not started",)
    if one.what == OWN_TABLE:
        return ("table", OWN)
    pairs = {
        bit: [held_at(*both, bit) for both in one.tables] for bit in range(10, 31)
    }
    return ("changed", sum(1 << bit for bit, (before, after) in pairs.items() if before != after))


def text_of(k, one, found, after):
    """The lines of a case."""
    if found[0] == "declared":
        return [f"{k} identifier {found[1]} choice {found[2]} held {found[3]}"]
    if found[0] == "started":
        return [f"{k} started seen {found[1]} missing {found[2]} last {found[3]}"]
    lines = [" ".join(str(part) for part in (k, *found))]
    if one.what == OWN_TABLE:
        lines.append("  words" + "".join(f" {word}" for word in after))
    return lines


def check_own(k, one, found, after):
    """The buffer of an own table, word by word; the table is well made."""
    untouched = [PATTERN] * one.more
    if found[0] == "refused":
        if after != untouched:
            sys.exit(f"case {k} is refused and has written")
        return
    words, stream = one.tables[0]
    place = record_place(stream)
    if after != [1, *words[place : place + 89], *untouched[OWN:]] or not table.well_made(after):
        sys.exit(f"case {k} has not the words of the record")


def note(one, found, faults, places, cover):
    """What a case shows."""
    cover.faults.add((one.what, *faults))
    if one.what == CHANGED:
        cover.faults.add((one.what, "each", *places))
    if one.what == COUNTS and not {TABLE, STREAM} & set(faults):
        cover.types.add((one.more, found[0]))
    if one.what == OWN_TABLE and not {TABLE, STREAM} & set(faults):
        cover.rooms.add((one.more, found[0]))
    if not faults:
        cover.streams.update((one.what, words[0], stream) for words, stream in one.tables)
        choices = [words[choice_place(stream)] for words, stream in one.tables]
        cover.choices.add((one.what, *choices))
    if found[0] == "changed":
        cover.changed.add(found[1])
        for bit in range(10, 31):
            before, after = (held_at(*both, bit) for both in one.tables)
            kinds = tuple(
                "absent" if held is None else "held" if any(held) else "zero"
                for held in (before, after)
            )
            if before != after:
                cover.changed.add((bit, *kinds))
            if before is not None and after is not None:
                flips = [one ^ two for one, two in zip(before, after)]
                if len(flips) - flips.count(0) == 1:
                    word = max(flips)
                    upper = "upper" if word % 2**16 == 0 else "lower" if word < 2**16 else "both"
                    cover.words.add((bit, flips.index(word), upper))


def of_case(k, one, cover):
    """The words of a case in the input, and its lines."""
    given = [one.what]
    for words, stream in one.tables:
        if len(words) > MOST_ROOM:
            sys.exit(f"case {k} has a table that is too large")
        given += [len(words), *words, stream]
    if one.more is not None:
        given.append(one.more)
    if one.what == OWN_TABLE and one.more > MOST_OUT:
        sys.exit(f"case {k} has a room that is too large")
    found, after = asked(one)
    if one.answer is not None and found != one.answer:
        sys.exit(f"case {k} is built for {one.answer}, the reference says {found}")
    faults, places = faults_of(one)
    if found != (refused(faults[0]) if faults else by_words(one)):
        sys.exit(f"case {k} has the faults {faults}, the reference says {found}")
    if one.what == OWN_TABLE:
        check_own(k, one, found, after)
    note(one, found, faults, places, cover)
    label = f"{NAMES[one.what]} {found[0]}"
    cover.add(f"{label} {found[1]}" if found[0] == "refused" else label)
    return given, text_of(k, one, found, after)


def build():
    identities()
    counts()
    own_tables()
    changed_words()
    changed_together()
    changed_streams()
    changed_by_packets()
    orders()
    after_packets()
    random_tables()


# Each answer, and the least number of its cases.
LEAST = {
    f"identity refused {TABLE}": 40,
    f"identity refused {STREAM}": 20,
    "identity declared": 120,
    f"counts refused {TABLE}": 70,
    f"counts refused {STREAM}": 30,
    f"counts refused {VALUE}": 50,
    "counts started": 150,
    "counts not started": 60,
    f"own table refused {TABLE}": 70,
    f"own table refused {STREAM}": 25,
    f"own table refused {ROOM}": 20,
    "own table table": 90,
    f"changed refused {TABLE}": 100,
    f"changed refused {STREAM}": 25,
    "changed changed": 500,
}


def fail(condition, message):
    if condition:
        sys.exit(message)


def check(cover):
    """The cases that there have to be."""
    for label in cover.tally:
        fail(label not in LEAST, f"{label}: not an answer that is asked for")
    for label, n in LEAST.items():
        found = cover.tally.get(label, 0)
        fail(found < n, f"{label}: {found} cases, fewer than {n}")
    # Each refusal alone, and every two and three of them in one case.
    for what, order in ORDERS.items():
        for chosen in range(1, 1 << len(order)):
            faults = tuple(number for i, number in enumerate(order) if chosen >> i & 1)
            seen = (what, *faults) in cover.faults
            fail(not seen, f"{NAMES[what]}: no case with the faults {faults}")
        for n in (1, 2, 5, 32):
            seen = (what, n, n - 1) in cover.streams
            fail(not seen, f"{NAMES[what]}: the last of {n} streams is not asked")
    faults_of_one = ((), (TABLE,), (STREAM,), (TABLE, STREAM))
    for before in faults_of_one:
        for after in faults_of_one:
            seen = (CHANGED, "each", before, after) in cover.faults
            both = TABLE in before and TABLE in after
            fail(not seen and not both, f"changed: no case with {before} and {after}")
    rules = {(name,) for name, _ in table.RULES_OF_WORDS + table.RULES_OF_RECORDS}
    fail(tables_broken != rules, "a rule of what is well made is not broken alone")
    check_values(cover)


def check_values(cover):
    """The types, rooms and fields that there have to be."""
    for kind in range(16):
        answers = ("started", "not started") if kind in COUNTED else ("refused",)
        for answer in answers:
            fail((kind, answer) not in cover.types, f"no case of type {kind}, {answer}")
    for kind in WRONG_TYPES:
        fail(kind in COUNTED, f"type {kind} is counted")
    for edge in [(what, choice) for what in (IDENTITY, COUNTS, OWN_TABLE) for choice in (0, 1)]:
        fail(edge not in cover.choices, f"{NAMES[edge[0]]}: no stream of choice {edge[1]}")
    for choices in ((0, 0), (0, 1), (1, 0), (1, 1)):
        seen = (CHANGED, *choices) in cover.choices
        fail(not seen, f"changed: no streams of the choices {choices}")
    for room in (0, 89, 90, 91, 150, MOST_OUT):
        answer = "table" if room >= OWN else "refused"
        fail((room, answer) not in cover.rooms, f"no own table into {room} words")
    fail(0 not in cover.changed, "no case where nothing changed")
    fail(HELD_BITS not in cover.changed, "no case where every field changed")
    for bit, n in HELD:
        fail(1 << bit not in cover.changed, f"bit {bit} does not change alone")
        for kinds in (
            ("held", "held"), ("held", "absent"), ("absent", "held"), ("zero", "absent"),
            ("absent", "zero"),
        ):
            fail((bit, *kinds) not in cover.changed, f"bit {bit} does not change as {kinds}")
        for place in range(n):
            free = [one for one in range(16, 32) if not ruled(bit, place, one)]
            for half in ("lower", "upper") if free else ("lower",):
                seen = (bit, place, half) in cover.words
                fail(not seen, f"bit {bit}: the {half} half of word {place} does not change alone")


def main():
    if len(sys.argv) != 3:
        sys.exit("usage: streams_vectors.py INPUT EXPECTED")
    build()
    given = bytearray()
    expected = []
    cover = Coverage()
    for k, one in enumerate(cases):
        words, lines = of_case(k, one, cover)
        for word in words:
            given += word.to_bytes(4, "big")
        expected += lines
    check(cover)
    text = "".join(line + "\n" for line in expected)
    fail(len(given) > 1_600_000, f"the input has {len(given)} bytes, more than 1,600,000")
    fail(len(text) > 600_000, f"the output has {len(text)} bytes, more than 600,000")
    with open(sys.argv[1], "wb") as file:
        file.write(given)
    with open(sys.argv[2], "w", encoding="ascii", newline="\n") as file:
        file.write(text)
    for label in LEAST:
        print(f"{label}: {cover.tally[label]}")
    print(f"cases {len(cases)}")


if __name__ == "__main__":
    main()
