"""Writes operations on a table, a recording and an index, and the reference's answers to
them.

    python3 tools/reference/index_vectors.py INPUT EXPECTED

README.md gives the form of both files.  Each operation that is built for one answer says
which answer that is; where the reference says another, the program ends without writing.
So it does where an answer is not the first of the faults that the words have, which are
looked for here once more; where the words of an index that has grown are not those that
are laid out here; where a jump over a recording as it was grown does not give the table
that playing all its packets, one by one, gave; and where a refusal has written.
"""

import sys
from array import array

sys.dont_write_bytecode = True

import index
import page
import table
from index import PLACE
from page import PAGE
from page_vectors import body, fold, joined, page_from_words
from play_vectors import (
    COUNTED, HELD, MOST_ROOM, MOST_STREAMS, PATTERN, at_places, count_place, first_held,
    indicator_place, no_stream_packets, pad_packets, random_few, random_ids, random_stores,
    refused_packets, short_packet, slot_place, slots_of,
)
from read_vectors import (
    BREAKING, FIXED_BITS, ONES, RULED, Numbers, all_fixed, context, counted, packet, survey,
)
from table import LIST, ROOM, STREAM, TABLE
from vrt49 import CUT, EMPTY, FIELD, PAD, TYPE

ACCEPTED = 0
MOST_WORDS = 40_000
MOST_INDEX = 24_000
CONTENTS = 4100
# The place of a boundary for each entry before it.
MOST_STEP = 65535 * 1024

# The first place that needs its high word, and places beside it.
HIGH = 1 << 32
BESIDE_HIGH = (HIGH - 3, HIGH - 1, HIGH, HIGH + 5)

# A jump over so many packets is a long one.
LONG = 200

# What is done.
(
    START_TABLE, WORDS, NEW_INDEX, POKE, POKE_TABLE, START, GROW, JUMP, LONGER, AT, ENTRY,
) = range(1, 12)


def fail(condition, message):
    if condition:
        sys.exit(message)


class Coverage:
    """What has been seen in the operations, beside the number of each answer."""

    def __init__(self):
        self.tally = {}
        # Faults of which one operation has several, the first one first.
        self.faults = set()
        self.rules = {}
        self.beside = set()
        # Of an index as it was grown: the packets taken in and the packet jumped to.
        self.jumps = set()
        self.held_to_play = 0
        # Those of them that land at a place of two words.
        self.held_high = 0
        self.ways = set()
        # Numbers of packets that are undeclared, with their places.
        self.undeclared = set()
        # Refusals of growing, with their places and bits, and where they were.
        self.told = set()
        self.rooms = set()
        self.firsts = set()
        # Jumps from entries at places beside 2^32.
        self.high = set()
        self.walks = set()
        self.entries = set()
        self.others = set()
        self.grown = 0
        self.long_jumps = 0

    def add(self, label):
        self.tally[label] = self.tally.get(label, 0) + 1


cover = Coverage()


class Grown:
    """An index as it was grown over a recording: the packets taken in and the word place at
    first, the table, the index and the recording's words since then, and the table of each
    boundary with its place among these words."""

    def __init__(self, lent, found):
        self.packets = found[1]
        self.base = found[2] << 32 | found[3]
        self.lent = list(lent)
        self.index = list(found)
        self.words = []
        layout = lent[: table.layout_length(lent[0])]
        self.tables = [array("I", layout)]
        self.places = [0]


class Machine:
    """What the operations work on."""

    def __init__(self):
        self.table = []
        self.words = []
        self.index = []
        self.at = 0
        self.given = []
        self.lines = []
        self.grown = None
        self.last_jump = None

    def number(self):
        return len(self.lines)

    def done(self, given, line):
        for word in given:
            assert 0 <= word <= ONES
        self.given += given
        self.lines.append(f"{self.number()} {line}")


m = Machine()


def built(answer, found):
    """Ends where an operation is built for another answer."""
    if answer is not None and answer != found:
        sys.exit(f"operation {m.number()} is built for {answer}, the reference says {found}")


# The faults of an operation, looked for once more.


def contents_good(words):
    """Whether the words of an index have contents that are well made."""
    if len(words) < CONTENTS:
        return False
    entries, packets = words[0], words[1]
    if not 1 <= entries <= 1024 or not 1024 * (entries - 1) <= packets < 1024 * entries:
        return False
    if words[2] << 32 | words[3] > 0xFFFF * packets:
        return False
    behind = CONTENTS
    for entry in range(entries):
        high, low, offset, length = words[4 + 4 * entry : 8 + 4 * entry]
        if (high << 32 | low) > MOST_STEP * entry or offset != behind:
            return False
        behind += length
    return behind <= len(words)


def entry_words(words, entry):
    """The four words of an entry, those that are there."""
    return words[4 + 4 * entry : 8 + 4 * entry] if entry < 1024 else []


def end_of_pages(words):
    """Where the last page ends by the contents, or None where they do not say it."""
    if len(words) < CONTENTS or not 1 <= words[0] <= 1024:
        return None
    _, _, offset, length = entry_words(words, words[0] - 1)
    return offset + length


def grow_faults(lent, words, found):
    """All the faults of a growth, in their order; those behind another are found by what
    the words say."""
    faults = []
    good = table.well_made(lent)
    if not good:
        faults.append("table")
    if not contents_good(found):
        faults.append("contents")
    own = table.table_of(lent) if good else []
    if table.read(own, words)[0] == "refused":
        faults.append("reading")
    if len(found) >= CONTENTS and found[1] % 1024 == 1023:
        end = end_of_pages(found)
        if good:
            table.play(own, words)
            length = len(page.page_of(own))
        else:
            # The least that a page of so many streams has.
            length = 2 + 17 * (lent[0] if lent and lent[0] <= 32 else 1)
        if found[0] == 1024 or end is not None and end + length > len(found):
            faults.append("room")
    return faults


def walk(words, at, found, packets):
    """The place behind so many packets, played on a table, or None."""
    while packets:
        answer = table.play(found, words[at : at + 0x10000])
        if answer[0] == "refused":
            if answer[1] != STREAM:
                return None
            at += words[at] & 0xFFFF
        else:
            at += answer[1]
        packets -= 1
    return at


def jump_faults(words, first, found, n, room):
    """All the faults of a jump, in their order, and the table and the place it gives where
    there is none."""
    faults = []
    if not contents_good(found):
        faults.append("contents")
    if len(found) >= 2 and n > found[1]:
        faults.append("place")
    whole = entry_words(found, n >> 10) if n >> 10 < 1024 else []
    if len(whole) < 4 or n >> 10 >= found[0]:
        return faults, None, None
    high, low, offset, length = whole
    saved = found[offset : offset + length]
    if not page.well_made(saved):
        faults.append("entry")
        # The number of streams it says.
        if saved and 1 <= saved[0] <= 32 and room < table.layout_length(saved[0]):
            faults.append("room")
        return faults, None, None
    played = table.table_of(page.candidate(saved))
    at = (high << 32 | low) - first
    end = walk(words, at, played, n & 1023) if 0 <= at <= len(words) else None
    if end is None:
        faults.append("entry")
    if room < table.layout_length(saved[0]):
        faults.append("room")
    return faults, played, None if end is None else first + end


def note_contents(found):
    """What the contents are, of those that an operation looks at."""
    broken = tuple(index.broken_rules(found))
    fail(
        (broken == ()) != contents_good(found),
        f"operation {m.number()} has contents of which the rules say {broken}",
    )
    if broken:
        cover.rules[broken] = cover.rules.get(broken, 0) + 1


# The operations.


def started_table(ids, choices=None, room=None, answer=ACCEPTED):
    """A table is started; if no room is named there is enough."""
    ids = list(ids)
    choices = [0] * len(ids) if choices is None else list(choices)
    if room is None:
        room = table.layout_length(len(ids)) + m.number() % 3
    fail(len(ids) > MOST_STREAMS or len(choices) != len(ids), "a list that cannot be given")
    fail(room > MOST_ROOM, "a table that is too long")
    (verdict, what), m.table = table.start_lent(ids, choices, [PATTERN] * room)
    built(answer, what if verdict == "refused" else ACCEPTED)
    line = f"table refused {what}" if verdict == "refused" else f"table {what}"
    cover.add(line if verdict == "refused" else "table")
    m.done([START_TABLE, len(ids), *ids, *choices, room], line)


def words_are(words):
    fail(len(words) > MOST_WORDS, f"operation {m.number()} has {len(words)} words")
    m.words = list(words)
    cover.add("words")
    m.done([WORDS, len(words), *words], f"words {len(words)}")


def new_index(words):
    fail(words > MOST_INDEX, f"operation {m.number()} has an index that is too long")
    m.index = [PATTERN] * words
    cover.add("room")
    m.done([NEW_INDEX, words], f"room {words}")


def poke(place, *words):
    fail(place + len(words) > len(m.index) or not words, f"operation {m.number()} is outside")
    m.index[place : place + len(words)] = words
    cover.add("poke")
    m.done([POKE, place, len(words), *words], f"poke {len(words)}")


def poke_table(place, *words):
    fail(place + len(words) > len(m.table) or not words, f"operation {m.number()} is outside")
    m.table[place : place + len(words)] = words
    cover.add("poke table")
    m.done([POKE_TABLE, place, len(words), *words], f"poke {len(words)}")


def start(answer=ACCEPTED):
    before = list(m.index)
    (verdict, what), m.index = index.start_index(m.table, m.index)
    number = what if verdict == "refused" else ACCEPTED
    built(answer, number)
    good = table.well_made(m.table)
    saved = page_from_words(m.table) if good else [0] * 19
    faults = [] if good else ["table"]
    if len(before) < CONTENTS + len(saved):
        faults.append("room")
    cover.faults.add(("start", *faults))
    fail(
        number != ({"table": TABLE, "room": ROOM}[faults[0]] if faults else ACCEPTED),
        f"operation {m.number()} has the faults {faults}, the reference says {number}",
    )
    if good:
        cover.rooms.add(("start", m.table[0], len(saved), len(before) - 4100 - len(saved)))
    if number == ACCEPTED:
        right = [1, 0, 0, 0, 0, 0, CONTENTS, len(saved), *before[8:CONTENTS], *saved]
        fail(what != len(right), f"operation {m.number()} answers another number")
        fail(m.index != right + before[what:], f"operation {m.number()} has other words")
        m.at = 0
        m.grown = Grown(m.table, m.index)
    else:
        fail(m.index != before, f"operation {m.number()} is refused and has written")
    line = f"start {what}" if number == ACCEPTED else f"start refused {what}"
    cover.add("start" if number == ACCEPTED else line)
    m.done([START], f"{line} fold {fold(m.index)}")


def grown_on():
    """From these contents, made by hand, the index grows on with the recording's words."""
    fail(m.at != 0 or not contents_good(m.index), f"operation {m.number()} cannot grow on")
    m.grown = Grown(m.table, m.index)


def index_after(before, size, lent):
    """The words of an index behind a packet, laid out; lent is the table behind it."""
    packets = before[1] + 1
    place = (before[2] << 32 | before[3]) + size
    after = [(packets >> 10) + 1, packets, place >> 32, place & ONES, *before[4:]]
    if packets & 1023 == 0:
        entry = packets >> 10
        end = end_of_pages(before)
        saved = page_from_words(lent)
        after[4 + 4 * entry : 8 + 4 * entry] = [place >> 32, place & ONES, end, len(saved)]
        after[end : end + len(saved)] = saved
    return after


def still_grown():
    """Whether the index is as it was grown, the table the one that was left, and the words
    those of the recording, so that it may grow on."""
    one = m.grown
    if one is None or m.at != one.places[-1] or m.table != one.lent:
        return False
    return m.index[: len(one.index)] == one.index and m.words[: m.at] == one.words


def handed(alone):
    """The words that a growth is handed."""
    if m.at >= len(m.words):
        return []
    if not alone:
        return m.words[m.at :]
    size = m.words[m.at] & 0xFFFF
    fail(size == 0, f"operation {m.number()} is handed a size of 0 alone")
    return m.words[m.at : m.at + size]


def note_refused(answer, words, faults):
    """What a refusal of growing shows."""
    _, number, place, bit = answer
    boundary = len(m.index) > 1 and m.index[1] % 1024 == 1023
    kind = {"table": (TABLE,), "contents": (PAGE,), "room": (ROOM,)}
    wanted = kind[faults[0]] if faults[0] in kind else (*range(1, 11), PAD)
    fail(
        number not in wanted,
        f"operation {m.number()} has the faults {faults}, the reference says {number}",
    )
    cover.told.add((number, place, bit, boundary))
    if number == ROOM:
        found = table.table_of(m.table)
        before = len(page.page_of(found))
        table.play(found, words)
        end = end_of_pages(m.index)
        left = len(m.index) - end
        behind = len(page.page_of(found))
        full = m.index[0] == 1024
        cover.rooms.add(("grow", "full" if full else left - behind, behind - before, ROOM))


def note_taken(answer, lent, faults, before):
    """What a packet that is taken in shows."""
    fail(faults != [], f"operation {m.number()} has the faults {faults}, and is taken in")
    number = before[1]
    if answer[0] == "undeclared":
        cover.undeclared.add((number, answer[2]))
    if number % 1024 == 1023:
        # lent is the table before it
        old = len(page_from_words(lent))
        new = len(page_from_words(m.table))
        left = len(before) - end_of_pages(before)
        cover.rooms.add(("grow", min(left - new, 2), new - old, ACCEPTED))
        entry = number // 1024 + 1
        cover.entries.add(entry)
        cover.entries.add(("high", m.index[4 + 4 * entry] > 0))
    if before[CONTENTS:] and before[CONTENTS] != lent[0]:
        cover.others.add("a table of another list")
    if before[2] != m.index[2]:
        cover.others.add("a place over 2^32 by growing")
    if m.index[1] == 1048575:
        cover.others.add("full by growing")


def grow(most, taken=None, refused=None, alone=0):
    """Grows up to so many times; taken and refused are what it is built for: how many are
    taken in, and the number of a refusal, or the number with its place and bit."""
    sound = still_grown()
    count = undeclared = 0
    answers, last = [], None
    own = table.table_of(m.table) if table.well_made(m.table) else None
    while count < most and last is None:
        words = handed(alone)
        before = list(m.table), list(m.index)
        faults = grow_faults(m.table, words, m.index) if count % 64 in (0, 63) or most < 9 else None
        answer, m.table, m.index = index.grow(m.table, words, m.index)
        if answer[0] == "refused":
            fail(
                (m.table, m.index) != before, f"operation {m.number()} is refused and has written"
            )
            if faults is None:
                faults = grow_faults(m.table, words, m.index)
            cover.faults.add(("grow", *faults))
            note_refused(answer, words, faults)
            last = answer
            continue
        # The same by playing on a table of our own.
        played = table.play(own, words)
        if played[0] == "played":
            fail(answer != ("heard", *played[1:]), f"operation {m.number()} answers otherwise")
            answers += [0, *played[1:]]
        else:
            size = words[0] & 0xFFFF
            fail(played[1] != STREAM, f"operation {m.number()} takes in what play refuses")
            fail(answer != ("undeclared", size, played[2]), f"operation {m.number()}: undeclared")
            answers += [STREAM, size, played[2], 0, 0]
            undeclared += 1
        layout = table.layout(own)
        fail(
            m.table != layout + before[0][len(layout) :],
            f"operation {m.number()} has another table than play",
        )
        fail(
            m.index != index_after(before[1], answer[1], m.table),
            f"operation {m.number()} has other words in the index",
        )
        note_taken(answer, before[0], faults or [], before[1])
        m.at += answer[1]
        count += 1
        if sound:
            m.grown.tables.append(array("I", layout))
            m.grown.places.append(m.at)
    if sound:
        m.grown.lent, m.grown.index = list(m.table), list(m.index)
        m.grown.words = m.words[: m.at]
    note_contents(m.index)
    cover.grown += count
    cover.ways.add((alone, "taken" if count else "none", "refused" if last else "all"))
    built(taken, count)
    line = f"grow {count} undeclared {undeclared} answers {fold(answers)}"
    if last is not None:
        _, number, place, bit = last
        line += f" refused {number} place {place or 0} bit {bit or 0}"
        if isinstance(refused, tuple):
            built(refused, (number, place, bit))
        else:
            built(ACCEPTED if refused is None and taken is not None else refused, number)
        cover.add(f"grow refused {number}")
    else:
        built(refused, None)
        cover.add("grow")
    m.done(
        [GROW, most, alone], f"{line} table {fold(m.table)} index {fold(m.index)}"
    )


def check_grown(n, room, first, left_out, answer, lent):
    """A jump over an index as it was grown, held to playing all packets one by one."""
    one = m.grown
    if one is None or m.index[: len(one.index)] != one.index:
        return
    packets = one.packets + len(one.places) - 1
    fail(m.index[1] != packets, f"operation {m.number()}: another number of packets")
    if n > packets:
        cover.jumps.add((packets, n))
        fail(answer != ("refused", PLACE), f"operation {m.number()}: {n} of {packets}")
        return
    # The boundary of the entry, which was there already, or not.
    begin = n // 1024 * 1024 - one.packets
    if begin < 0:
        return
    place = one.places[n - one.packets]
    if m.words[:place] != one.words[:place]:
        if answer[0] == "jumped" and n % 1024:
            cover.others.add("a changed recording that goes on")
        return
    if first != one.base + left_out or left_out > one.places[begin]:
        return
    layout = list(one.tables[n - one.packets])
    if room < len(layout):
        fail(answer != ("refused", ROOM), f"operation {m.number()} finds room")
        return
    cover.jumps.add((packets, n))
    right = ("jumped", len(layout), one.base + place)
    fail(answer != right, f"operation {m.number()} jumps elsewhere")
    fail(
        lent != layout + [PATTERN] * (room - len(layout)),
        f"operation {m.number()} has another table than playing all packets",
    )
    cover.held_to_play += 1
    cover.held_high += one.base + place >= HIGH
    if m.last_jump is not None:
        cover.others.add("backwards" if n < m.last_jump else "forwards")
    m.last_jump = n
    if m.at < len(m.words):
        cover.others.add("in the middle of growing")
    if len(one.index) < len(m.index):
        cover.others.add("a longer index than it was grown in")


def jump(n, answer=None, first=0, room=None, left_out=None):
    """A jump, with the words from first on, or all but those that are left out, of which the
    next then stands at the word place first; if no room is named there is enough, for the
    streams of the table."""
    if room is None:
        streams = m.table[0] if m.table and 1 <= m.table[0] <= 32 else 1
        room = min(table.layout_length(streams) + m.number() % 4, MOST_ROOM)
    left_out = first if left_out is None else left_out
    fail(room > MOST_ROOM or not 0 <= n < 1 << 64, "a jump that cannot be given")
    fail(not 0 <= first < 1 << 64 or left_out > ONES, "a place that cannot be given")
    words = m.words[left_out:]
    untouched = [PATTERN] * room
    before = list(m.index)
    found, lent = index.jump(words, first, m.index, n, untouched)
    number = found[1] if found[0] == "refused" else ACCEPTED
    built(answer, number)
    faults, played, place = jump_faults(words, first, m.index, n, room)
    cover.faults.add(("jump", *faults))
    numbers = {"contents": PAGE, "place": PLACE, "entry": PAGE, "room": ROOM}
    fail(
        number != (numbers[faults[0]] if faults else ACCEPTED),
        f"operation {m.number()} has the faults {faults}, the reference says {number}",
    )
    fail(m.index != before, f"operation {m.number()} has changed the index")
    note_contents(m.index)
    if number == ACCEPTED:
        layout = table.layout(played)
        fail(found != ("jumped", len(layout), place), f"operation {m.number()}: another answer")
        fail(lent != layout + untouched[len(layout) :], f"operation {m.number()}: another table")
        line = f"jump {found[1]} place {found[2]}"
        cover.add("jump")
        note_landed(words, first, n, room, layout, place)
    else:
        fail(lent != untouched, f"operation {m.number()} is refused and has written")
        line = f"jump refused {number}"
        cover.add(line)
        if faults == ["room"]:
            streams = m.index[entry_words(m.index, n // 1024)[2]]
            cover.rooms.add(("jump", streams, room - table.layout_length(streams)))
        if faults == ["entry"]:
            note_walk(words, first, n)
    check_grown(n, room, first, left_out, found, lent)
    if faults in ([], ["entry"], ["room"]) and n % 1024 >= LONG:
        cover.long_jumps += 1
    given = [JUMP, left_out, *index.two_words(first), *index.two_words(n), room]
    m.done(given, f"{line} table {fold(lent)}")


def note_landed(words, first, n, room, layout, place):
    """What a jump that is accepted shows; place is where it lands."""
    cover.rooms.add(("jump", layout[0], min(room - len(layout), 2)))
    cover.beside.add(m.index[0])
    high, low, *_ = entry_words(m.index, n // 1024)
    at = high << 32 | low
    kind = "at" if first == at else "before" if first else "whole"
    cover.firsts.add((kind, min(n % 1024, 2)))
    if at == first + len(words):
        cover.firsts.add("at the end of the words")
    if 2 <= m.index[0] <= 3:
        pages = [entry_words(m.index, number)[2:] for number in range(m.index[0])]
        if not all(page.well_made(m.index[one : one + two]) for one, two in pages):
            cover.others.add("an entry beside one that is not well made")
    cover.high.add((kind, at))
    if at == first + len(words):
        cover.high.add(("end", at))
    if first < HIGH <= at:
        cover.high.add("an entry over 2^32, the words from below it")
    if at < HIGH <= place:
        cover.high.add(("over", at, place))
    if at == MOST_STEP * (n // 1024) >= HIGH:
        cover.high.add(("most", n // 1024))


def note_walk(words, first, n):
    """Why an entry is refused, where nothing else is wrong."""
    high, low, offset, length = entry_words(m.index, n // 1024)
    if not page.well_made(m.index[offset : offset + length]):
        cover.walks.add("page")
        return
    place = high << 32 | low
    if place < first:
        cover.walks.add("before the words")
        cover.high.add(("behind", place, first - place))
    elif place - first > len(words):
        cover.high.add(("past", place, place - first - len(words)))
        if place - first == len(words) + 1:
            cover.walks.add("one past the words")
        if 0 <= place - HIGH - first <= len(words):
            cover.walks.add("past the words by 2^32")
            cover.high.add(("past by 2^32", first >= HIGH))
    else:
        found = table.table_of(page.candidate(m.index[offset : offset + length]))
        for packets in range(n % 1024):
            at = walk(words, place - first, found, 1)
            if at is None:
                answer = table.read(found, words[place - first :])
                cover.walks.add(answer[1])
                if place < HIGH <= first + len(words):
                    cover.high.add("a packet that passes 2^32 does not go on")
                if packets == n % 1024 - 1:
                    cover.walks.add("the last packet")
                if packets == 0:
                    cover.walks.add("the first packet")
                return
            place = at + first


def longer(words):
    fail(not len(m.index) <= words <= MOST_INDEX, f"operation {m.number()} is not longer")
    m.index += [PATTERN] * (words - len(m.index))
    cover.add("longer")
    m.done([LONGER, words], f"longer {words}")


def at(place):
    m.at = place
    cover.add("at")
    m.done([AT, place], f"at {place}")


def entry(number):
    found = entry_words(m.index, number)
    fail(len(found) != 4, f"operation {m.number()} has no such entry")
    cover.add("entry")
    m.done([ENTRY, number], "entry " + " ".join(str(word) for word in found))


# Recordings.


def declared_packet(numbers, ids, choices, lasts):
    """A packet of one of the streams, mostly short, with its count."""
    stream = numbers.below(len(ids))
    kind = (1, 1, 1, 1, 3, 4, 4, 5)[numbers.below(8)]
    last = lasts.get((stream, kind), numbers.below(16))
    lost = numbers.below(16) if numbers.below(6) == 0 else 0
    count = (last + 1 + lost) % 16
    lasts[stream, kind] = count
    given = dict(identifier=ids[stream], count=count)
    if kind == 1 and choices[stream] == 1:
        n = numbers.below(3)
        return survey(numbers.some(n), pad=numbers.below(32) if n else 0, **given)
    if kind == 4:
        return packet(4, random_few(numbers) if numbers.below(3) == 0 else [0], **given)
    return packet(kind, numbers.some(numbers.below(2)), **given)


def strange_packet(numbers, ids, place):
    """A packet of no declared stream, whose identifier is the place, or that has none."""
    if place == 0:
        return packet((0, 2)[numbers.below(2)], numbers.some(numbers.below(2)))
    identifier = ids[numbers.below(len(ids))] ^ 1 << numbers.below(32)
    while identifier in ids:
        identifier = numbers.word()
    return short_packet(COUNTED[numbers.below(4)], identifier, numbers.below(16))


def recorded(seed, ids, choices, n, strange=None, chance=12):
    """So many packets; strange has the places of those that are undeclared, by their
    number, and others are so with a chance of one in so many."""
    numbers = Numbers(seed)
    strange = strange or {}
    lasts, packets = {}, []
    for k in range(n):
        if k in strange or numbers.below(chance) == 0:
            place = strange[k] if k in strange else numbers.below(2)
            packets.append(strange_packet(numbers, ids, place))
        else:
            packets.append(declared_packet(numbers, ids, choices, lasts))
    return packets


def together(packets):
    return [word for words in packets for word in words]


# The numbers of packets on either side of the boundaries, one undeclared without an
# identifier and one with, and the other way round.
STRANGE = ({}, {})
for _k in (1022, 1023, 1024, 2046, 2047, 2048):
    STRANGE[0][_k] = _k // 2 % 2 if _k % 2 else 1 - _k % 4 // 2
    STRANGE[1][_k] = 1 - STRANGE[0][_k]

STOPS = (0, 1, 1023, 1024, 1025, 2047, 2048, 2049)


def around(packets):
    """The packets to jump to where so many are taken in."""
    return sorted({0, 1, packets - 1, packets, packets + 1, 1023, 1024, 1025} - {-1})


def long_recording(ids, choices, packets, words, alone=0, stops=STOPS, jumps=around):
    """A recording that is grown, with jumps where it stops."""
    started_table(ids, choices)
    words_are(together(packets))
    new_index(words)
    start()
    for turn, stop in enumerate(stops):
        if stop:
            grow(stop - m.index[1], stop - m.index[1], alone=(alone + turn) % 2)
        if stop and stop % 1024 == 0:
            entry(stop // 1024)
        for n in jumps(stop):
            jump(n, PLACE if n > stop else ACCEPTED)


def long_recordings():
    # One stream, which ends with its words and goes on with more.
    packets = recorded(1601, [7], [0], 2060, STRANGE[0])
    long_recording([7], [0], packets[:2049], CONTENTS + 3 * 92)
    grow(5, 0, (EMPTY, 0, None))
    words_are(together(packets))
    grow(100, 11, (EMPTY, 0, None), alone=1)
    for n in (2060, 0, 1500, 2055, 1024, 2048, 1030, 2061, 3, 2059, 1 << 32, (1 << 32) + 5):
        jump(n, PLACE if n > 2060 else ACCEPTED)
    for n in ((1 << 64) - 1, 1 << 63, (1 << 32) - 1, (1 << 32) + 1024, (5 << 32) + 2060):
        jump(n, PLACE)
    # Two streams of both choices, which end with a survey packet of the wrong length.
    ids, choices = [0x21, 0x22], [0, 1]
    packets = recorded(1602, ids, choices, 2049, STRANGE[1])
    packets.append(survey([1, 2, 3], data=13, identifier=0x22))
    long_recording(ids, choices, packets, CONTENTS + 3 * 182 + 500, alone=1)
    grow(9, 0, (PAD, 2, None))
    jump(2049, ACCEPTED)
    jump(2050, PLACE)
    # Thirty-two streams of both choices, cut within a packet.
    numbers = Numbers(1603)
    ids = random_ids(numbers, 32)
    choices = [numbers.below(2) for _ in ids]
    packets = recorded(1604, ids, choices, 2049, STRANGE[0])
    packets[700:700] = [
        context(FIXED_BITS, all_fixed(), identifier=identifier) for identifier in ids[:9]
    ]
    packets = packets[:1000] + packets[1009:] + [packet(1, [1, 2, 3], identifier=ids[0])[:-1]]
    long_recording(ids, choices, packets, CONTENTS + 3 * 2882)
    grow(2, 0, (CUT, 0, None), alone=1)
    jump(2049, ACCEPTED, room=2849)
    jump(2049, ROOM, room=2848)
    jump(2048, ACCEPTED, room=2850)
    jump(2048, ROOM, room=0)
    # No packet is of a declared stream, and the shortest are one word.
    packets = [[0x00000001 | k % 16 << 16 | k % 2 << 29] for k in range(2049)]
    long_recording(
        [7], [1], packets, CONTENTS + 3 * 19, stops=(0, 1023, 1024, 2048, 2049),
        jumps=lambda stop: (0, stop, stop + 1, 1024),
    )
    # Long packets, so that places pass 2^15, and a stream that comes to hold every field.
    ids, choices = [9, 8, 7], [1, 0, 0]
    packets = recorded(1605, ids, choices, 1100, chance=20)
    for k, n in ((3, 9000), (500, 9000), (1023, 7000), (1050, 5000)):
        packets[k] = packet(3, counted(n), identifier=8, count=k % 16)
    packets[1024] = context(FIXED_BITS, all_fixed(), identifier=8)
    while len(together(packets)) > MOST_WORDS:
        packets.pop()
    n = len(packets)
    long_recording(
        ids, choices, packets, CONTENTS + 2 * 272, alone=1, stops=(500, 1023, 1024, 1025, n),
        jumps=lambda stop: (stop, 4, stop // 3, stop - 1, stop + 1, 3),
    )


# Recordings that end.


def bad_packets():
    """Packets that reading refuses, of the streams 7, which is plain, and 8, which is of
    survey packets, with the number and, where it is known, the place and the bit."""
    found = list(refused_packets(7))
    found += pad_packets(8)[::3]
    for bit in RULED:
        bad = context(1 << 30 | 1 << bit, [5, *BREAKING[bit][-1]], identifier=7, tsi=1)
        found.append((bad, (FIELD, 5, bit)))
    # Of no declared stream too.
    found.append((packet(0, [1], reserved=1 << 24), (3, 0, None)))
    found.append((packet(2, [1], c=1, oui=1 << 31), (6, 1, None)))
    found.append((packet(1, [1], c=1, oui=1 << 31, identifier=9), (6, 2, None)))
    found.append((packet(5, [], tsf=2, fraction=10**12, identifier=9, tsi=2), (7, 3, None)))
    return found


BEGIN = (
    short_packet(1, 7, 3),
    context(1 << 30 | 1 << 23, [0xF1E1D, 5], identifier=7, count=2),
    short_packet(3, 9, 0),
    survey([5], pad=3, identifier=8),
    [0x20000001],
)


def endings():
    started_table([7, 8], [0, 1])
    words_are(together(BEGIN))
    new_index(CONTENTS + 200)
    start()
    grow(5, 5)
    # The same index, at an ordinary boundary and just before a 1,024th one, with room for
    # the page and without it: a refusal of reading comes first.
    for packets, room in ((5, True), (1023, True), (1023, False)):
        poke(1, packets)
        if not room:
            # The first page reaches to the end.
            poke(7, len(m.index) - CONTENTS)
        for turn, (words, told) in enumerate(bad_packets()):
            if not room and turn % 5:
                continue
            alone = turn % 2
            if words and words[0] & 0xFFFF == 0:
                alone = 0
            behind = [] if told in (EMPTY, CUT) else together(BEGIN[: turn % 3])
            words_are(words + behind)
            at(0)
            grow(1 + turn % 3, 0, told, alone)
            if turn % 10 == 0:
                jump(0, ACCEPTED if room else PAGE)
                jump(packets + 1, PLACE)
    poke(7, 36)
    words_are(together(BEGIN))
    at(0)
    grow(7, 5, (EMPTY, 0, None))
    # A few of them whole: from the start, with the bad packet behind others, and jumps.
    for turn, (words, told) in enumerate(bad_packets()):
        if turn % 6 == 0:
            started_table([7, 8], [0, 1])
            words_are(together(BEGIN) + words)
            start()
            grow(9, 5, told, alone=0 if words and words[0] & 0xFFFF == 0 else 1)
            for n in (5, 6, turn % 5, 4):
                jump(n, PLACE if n > 5 else ACCEPTED)
    # Cut at each word of the last packet.
    whole = together(BEGIN) + packet(1, counted(3), identifier=7, count=4)
    for n in range(len(whole) - 4, len(whole) + 1):
        words_are(whole[:n])
        started_table([7, 8], [0, 1])
        start()
        if n < len(whole):
            grow(9, 5, (CUT, 0, None), alone=n % 2)
            jump(5, ACCEPTED)
            jump(6, PLACE)
        else:
            grow(9, 6, (EMPTY, 0, None))
            jump(6, ACCEPTED)
    # All the packets of no declared stream, which go on.
    strange = [words for words, _ in no_stream_packets(6)]
    started_table([7, 8], [0, 1])
    words_are(together(strange))
    start()
    grow(99, len(strange), (EMPTY, 0, None))
    for n in range(len(strange) + 1):
        jump(n, ACCEPTED)


# The room of an index.


def full_table(n):
    """The words of a table whose streams hold every field."""
    lent = table.start_lent(range(n), [0] * n, [PATTERN] * table.layout_length(n))[1]
    for stream in range(n):
        lent[indicator_place(stream)] = sum(1 << bit for bit, _ in HELD)
        lent[count_place(4, stream) + 2] = 1 + stream % 16
        for place, word in at_places(slot_place(30, stream), slots_of(first_held)).items():
            lent[place] = word
    return lent


def room_of_starts():
    for n, full in ((1, 0), (1, 1), (2, 0), (32, 0), (32, 1)):
        need = CONTENTS + 2 + (90 if full else 17) * n
        started_table(range(n))
        if full:
            poke_table(1, *full_table(n)[1:])
        for words in (0, 3, CONTENTS - 1, CONTENTS, need - 1):
            new_index(words)
            start(ROOM)
        longer(need)
        start()
        for more in (1, 77):
            new_index(need + more)
            start()
        # It starts anew where another one was, and leaves the other words.
        poke(0, 9, 8, 7, 6, 5, 4, 3, 2, 1)
        start()
        jump(0, ACCEPTED)
    # Not a list, or no room for the table.
    started_table([], answer=LIST)
    start(TABLE)
    started_table([7, 7], answer=LIST)
    started_table(range(33), room=MOST_ROOM, answer=LIST)
    started_table([7], [2], answer=LIST)
    started_table([7], room=89, answer=ROOM)
    new_index(CONTENTS + 18)
    start(TABLE)
    new_index(CONTENTS + 19)
    start(TABLE)
    started_table([7], room=90)
    start()
    # A table that is not well made, with room and without.
    for place, word in ((0, 0), (0, 2), (0, 33), (5, 17), (2, 1 << 22), (15, 2), (20, 1)):
        old = m.table[place]
        poke_table(place, word)
        start(TABLE)
        grow(1, 0, TABLE)
        poke_table(place, old)
    start()


def room_of_boundaries():
    """The packet that reaches boundary 1,024 or 2,048, with room for its page or not."""
    given = dict(identifier=7, count=3)
    fields = (
        (short_packet(1, 7, 3), 0),
        (short_packet(5, 9, 3), 0),
        ([0x00000001], 0),
        (context(0, **given), 0),
        # What is held already, and what is never held.
        (context(1 << 29, [0, 9], **given), 0),
        (context(1 << 22, [9], **given), 0),
        (context(1 << 30, [9], **given), 1),
        (context(1 << 30 | 1 << 22, [9, 9], **given), 1),
        (context(1 << 16, [1 << 31], **given), 1),
        (context(1 << 28, [0, 9], **given), 2),
        (context(1 << 29 | 1 << 28, [0, 9, 0, 9], **given), 2),
        (context(1 << 13, counted(11), **given), 11),
        (context(1 << 11, counted(13), **given), 13),
        (context(FIXED_BITS, all_fixed(), **given), 71),
    )
    for entries in (1, 2):
        for words, more in fields[:: 1 if entries == 1 else 3]:
            started_table([7])
            new_index(CONTENTS + 19)
            start()
            # A bandwidth is held, so the page before the packet has 21 words.
            words_are(context(1 << 29, [0, 5], identifier=7, count=2) + words)
            grow(1, 1)
            end = CONTENTS + 19
            if entries == 2:
                longer(end + 19)
                poke(8, 0, 4, end, 19)
                poke(end, *m.index[CONTENTS:end])
                end += 19
            poke(0, entries, 1024 * entries - 1)
            # Where the packet adds words, the page from before it would fit.
            for room in sorted({end + 20, end + 21 if more else end, end + 20 + more}):
                longer(room)
                grow(1, 0, ROOM, alone=room % 2)
            longer(end + 21 + more + (more == 2))
            grow(1, 1)
            entry(entries)
            jump(1024 * entries, ACCEPTED)
    # In a recording: one word short again and again.
    packets = recorded(1606, [7, 8], [1, 0], 2100, chance=9)
    started_table([7, 8], [1, 0])
    words_are(together(packets))
    found = table.table_of(m.table)
    new_index(CONTENTS + 35)
    start(ROOM)
    longer(CONTENTS + 36)
    start()
    reached = 0
    for stop in (1024, 2048):
        for words in packets[reached:stop]:
            table.play(found, words)
        need = len(page.page_of(found))
        grow(5000, stop - 1 - reached, ROOM, alone=stop // 1024 % 2)
        jump(stop - 1, ACCEPTED)
        jump(stop, PLACE)
        have = len(m.index)
        for room in (have + 1, have + need - 1):
            longer(room)
            grow(3, 0, ROOM)
        longer(have + need)
        jump(stop - 1000, ACCEPTED)
        grow(1, 1)
        entry(stop // 1024)
        jump(stop, ACCEPTED)
        reached = stop
    grow(9000, 52, (EMPTY, 0, None))
    for n in (2100, 1500, 1024, 77, 2048):
        jump(n, ACCEPTED)


# Contents made by hand.


def runs(stores):
    """Words by their places, as places and the words from there on."""
    found = []
    for place in sorted(stores):
        if found and found[-1][0] + len(found[-1]) - 1 == place:
            found[-1].append(stores[place])
        else:
            found.append([place, stores[place]])
    return found


def hold(place, *words):
    """Stores words into the index and gives the place and the words that were there."""
    old = m.index[place : place + len(words)]
    poke(place, *words)
    return [place, *old]


# Whether the contents of each probe are well made.
probes = []


def probe(stores, good, n=None, answer=None):
    """The contents with these words, which are then well made or not: a jump past the
    packets is PLACE or PAGE, every second time a growth without words EMPTY or PAGE; and a
    jump to n."""
    back = [hold(*run) for run in runs(stores)]
    jump(m.index[1] + 1, PLACE if good else PAGE)
    probes.append(good)
    if len(probes) % 2:
        grow(1, 0, EMPTY if good else PAGE)
    if n is not None:
        jump(n, answer, room=table.layout_length(3))
    for place, *words in back:
        poke(place, *words)


def pages_by_hand():
    """Three pages: of one stream, of two that hold fields, and of three."""
    one = joined(body(7, counts={1: [5, 1, 9]}))
    two = joined(body(7, {29: [0, 5]}, {4: [3, 3, 4]}, choice=1), body(8, {23: [9], 10: [1]}))
    three = joined(body(1), body(7, choice=1), body(3, counts={5: [1, 2, 3]}))
    return one, two, three


def lay_out(packets, place, given):
    """Stores contents with these entries, each a place and the words of its page, and the
    pages."""
    contents = [len(given), packets, place >> 32, place & ONES]
    pages = []
    for at_place, saved in given:
        offset = CONTENTS + len(pages)
        contents += [at_place >> 32, at_place & ONES, offset, len(saved)]
        pages += saved
    poke(0, *contents)
    if pages:
        poke(CONTENTS, *pages)


def off_by_one():
    """Every word of the contents that is asked about."""
    one, two, three = pages_by_hand()
    packets = recorded(1607, [7, 8], [0, 0], 40, chance=5)
    words_are(together(packets))
    started_table([7, 8])
    end = CONTENTS + len(one) + len(two) + len(three)
    new_index(end)
    lay_out(2500, 100, ((0, one), (5, two), (2, three)))
    at(len(m.words))
    probe({}, True)
    for n in (0, 1024, 2048, 2500, 2501):
        answer = ACCEPTED if n % 1024 == 0 else PAGE if n == 2500 else PLACE
        jump(n, answer, room=table.layout_length(3))
    # The number of entries and of packets.
    for wrong in (0, 1, 2, 4, 1024, 1025, 1 << 16 | 3, 1 << 31 | 3, ONES):
        probe({0: wrong}, False)
    for number, good in (
        (2047, False), (2048, True), (2049, True), (3071, True), (3072, False), (1023, False),
        (0, False), (1 << 16 | 2500, False), (1 << 31 | 2500, False), (ONES, False),
    ):
        probe({1: number}, good, 2048, ACCEPTED if good else PAGE)
    # The place of the packets that are taken in.
    most = 65535 * 2500
    for place, good in (
        (0, True), (1, True), (most - 1, True), (most, True), (most + 1, False),
        (1 << 32, False), (1 << 32 | 100, False), (ONES, False), ((1 << 64) - 1, False),
        (ONES << 32, False),
    ):
        probe({2: place >> 32, 3: place & ONES}, good, 2048, ACCEPTED if good else PAGE)
    probe({1: 2048, 2: 0, 3: 65535 * 2048}, True)
    probe({1: 2048, 2: 0, 3: 65535 * 2048 + 1}, False)
    # The place of each entry.
    for number in range(3):
        most = MOST_STEP * number
        for place, good in (
            (0, True), (most, True), (most + 1, False), (1 << 32 | most, False),
            (most | 1 << 31, False), ((1 << 64) - 1, False),
        ):
            if place != most or number:
                word = 4 + 4 * number
                probe({word: place >> 32, word + 1: place & ONES}, good)
    # Offsets and lengths, the border of two pages too, and sums past 2^32.
    for number in range(3):
        word = 6 + 4 * number
        offset, length = m.index[word], m.index[word + 1]
        for wrong in (offset - 1, offset + 1, 0, offset | 1 << 31):
            probe({word: wrong}, False)
        for wrong in (length - 1, length + 1, 0, ONES):
            # The last page may be shorter, and is then not well made.
            good = number == 2 and wrong < length
            probe({word + 1: wrong}, good, 2048, PAGE)
        for step in (1, -1):
            probe({word: offset + step, word + 1: length - step}, False)
        if number < 2:
            for step in (1, -1):
                stores = {word + 1: length + step, word + 4: offset + length + step}
                probe(stores, number == 1 and step < 0)
                stores[word + 5] = m.index[word + 5] - step
                probe(stores, True, 1024 * number, PAGE)
    probe({11: m.index[11] - 1, 14: m.index[14] - 1}, True, 0, ACCEPTED)
    probe({7: (1 << 32) - CONTENTS, 10: 0, 11: m.index[14]}, False)
    probe({7: 0, 10: CONTENTS, 11: len(one) + len(two)}, True, 0, PAGE)
    probe({7: 0, 10: CONTENTS, 11: 0, 14: CONTENTS, 15: 0}, True, 1024, PAGE)
    probe({15: (1 << 32) - m.index[14]}, False)
    # Entries past those that are there.
    for word in (16, 18, 19, 4099):
        probe({word: ONES}, True)
    # The whole of it longer: the last page may then be said to be longer.
    longer(end + 1)
    probe({15: m.index[15] + 1}, True, 2048, PAGE)
    probe({15: m.index[15] + 2}, False)
    probe({}, True, 2048, ACCEPTED)
    longer(end + 500)
    probe({}, True, 1024, ACCEPTED)
    # It grows on from these contents, with the list of the table that is handed in.
    at(0)
    grow(3, 3)
    jump(2503, PAGE)
    jump(2504, PLACE)
    # No more than the contents, and one word less; they may have pages of no words.
    new_index(CONTENTS)
    lay_out(3000, 0, ((0, []), (0, []), (0, [])))
    at(0)
    jump(3001, PLACE)
    jump(0, PAGE)
    grow(4, 4)
    poke(1, 3071)
    grow(1, 0, ROOM)
    for words in (CONTENTS - 1, CONTENTS - 4, 4, 1, 0):
        new_index(words)
        if words >= 4:
            poke(0, 1, 5, 0, 0)
        for n in (0, 5, 6):
            jump(n, PAGE)
        grow(1, 0, PAGE)
    # All words of the pattern, as no index was started.
    new_index(CONTENTS + 19)
    jump(0, PAGE)
    grow(1, 0, PAGE)


def places_above_2_32():
    one, two, three = pages_by_hand()
    words_are(together(recorded(1608, [7, 8], [1, 0], 60, chance=5)))
    started_table([7, 8], [1, 0])
    new_index(CONTENTS + 400)
    given = [(MOST_STEP * j, []) for j in range(130)]
    given[0] = (0, one)
    given[3] = (0, two)
    given[64] = (7, one)
    given[65] = (ONES, two)
    given[66] = (1 << 32, three)
    given[67] = (1 << 32 | 3, one)
    given[129] = (0, two)
    packets = 132_200
    lay_out(packets, 65535 * packets, given)
    at(len(m.words))
    room = table.layout_length(3)
    for n, answer, first in (
        (0, ACCEPTED, 0), (3 * 1024, ACCEPTED, 0), (3 * 1024, PAGE, 1), (64 * 1024, ACCEPTED, 0),
        (64 * 1024, ACCEPTED, 7), (64 * 1024, PAGE, 8), (64 * 1024, ACCEPTED, 6),
        (65 * 1024, ACCEPTED, ONES), (65 * 1024 + 1, PAGE, ONES), (65 * 1024, PAGE, ONES - 1),
        (65 * 1024, PAGE, 0), (66 * 1024, PAGE, ONES), (66 * 1024, PAGE, 0),
        (67 * 1024, PAGE, 0), (67 * 1024 + 1, PAGE, 3), (67 * 1024, PAGE, ONES),
        (129 * 1024, ACCEPTED, 0), (128 * 1024, PAGE, 0), (1024, PAGE, 0),
        (packets, PAGE, 0), (packets + 1, PLACE, 0), (packets + (1 << 32), PLACE, 0),
    ):
        jump(n, answer, first, room)
    for number in (64, 65, 129):
        most, word = MOST_STEP * number, 4 + 4 * number
        for place, good in (
            (most - 1, True), (most, True), (most + 1, False), (most + (1 << 32), False),
            ((most >> 32) << 32, True), ((most >> 32) + 1 << 32, False), (ONES, most >= ONES),
        ):
            probe({word: place >> 32, word + 1: place & ONES}, good)
    most = 65535 * packets
    for place, good in (
        (most, True), (most + 1, False), (most + (1 << 32), False), (most - (1 << 32), True),
        ((most >> 32) + 1 << 32, False), (most >> 32 << 32 | 0, True), (most & ONES, True),
    ):
        probe({2: place >> 32, 3: place & ONES}, good)
    # Growing over 2^32, at an ordinary boundary and at a 1,024th one.
    for number in (packets, 130 * 1024 - 1):
        for place, size in (
            (ONES, 1), (ONES, 2), (ONES - 1, 1), ((1 << 32) - 60000, 60), ((2 << 32) - 6, 7),
        ):
            poke(0, 130, number, place >> 32, place & ONES)
            words = packet(3, counted(size - 2), identifier=7) if size > 2 else [size] + [7] * 99
            words_are(words[:size])
            at(0)
            grow(2, 1, (EMPTY, 0, None))
            entry(130)
    jump(130 * 1024, PAGE)
    # As large as a packet can be is not asked of a place: it may stand still.
    poke(0, 130, 130 * 1024 - 2, 0, 0)
    at(0)
    grow(1, 1)
    # A place of its most, and a packet more.
    poke(0, 130, packets, most >> 32, most & ONES)
    at(0)
    grow(1, 1)
    jump(packets + 2, PLACE)


def full_contents():
    one, two, three = pages_by_hand()
    packets = recorded(1609, [7, 8], [0, 0], 1100, chance=8)
    words_are(together(packets))
    behind = [0]
    for words in packets:
        behind.append(behind[-1] + len(words))
    started_table([7, 8])
    new_index(CONTENTS + 8 * 60)
    given = [(j % 7 if j else 0, []) for j in range(1024)]
    for j, place, saved in (
        (0, 0, one), (1, behind[4], two), (2, behind[9], joined(body(7), body(8))),
        (511, behind[100], three), (512, behind[1], one), (1022, behind[20], two),
        (1023, behind[30], joined(body(8), body(7))),
    ):
        given[j] = (place, saved)
    lay_out(1048575, 65535 * 1048575, given)
    at(0)
    room = table.layout_length(3)
    grow(3, 0, ROOM)
    for n, answer in (
        (0, ACCEPTED), (5, ACCEPTED), (1024, PAGE), (2048, ACCEPTED), (2051, ACCEPTED),
        (511 * 1024, ACCEPTED), (512 * 1024 + 3, ACCEPTED), (1022 * 1024 + 2, PAGE),
        (1023 * 1024, ACCEPTED), (1023 * 1024 + 7, ACCEPTED), (1048575, ACCEPTED),
        (1048576, PLACE), (700 * 1024, PAGE), (1048575 + (1 << 32), PLACE),
    ):
        # Those of the second page have the choice 1, under which short packets are PAD.
        jump(n, None if answer == PAGE and n >> 10 in (1, 1022) else answer, room=room)
    # As long as you like: the contents are full.
    longer(CONTENTS + 2000)
    grow(1, 0, ROOM)
    for words, told in ((short_packet(1, 9, 0), ROOM), ([0x60000001], (TYPE, 0, None))):
        words_are(words)
        at(0)
        grow(1, 0, told)
    words_are(together(packets))
    # One packet before, and then full; one entry before, and then the last.
    poke(1, 1048574, 15, 5)
    at(0)
    grow(3, 1, ROOM)
    jump(1048575, ACCEPTED, room=room)
    poke(0, 1023, 1047551, 0, behind[10])
    at(behind[10])
    grow(9, 9)
    entry(1023)
    jump(1023 * 1024, ACCEPTED, room=room)
    jump(1023 * 1024 + 8, ACCEPTED, room=room)
    jump(1023 * 1024 + 9, PLACE, room=room)
    at(len(m.words))
    for stores, good in (
        ({0: 1025, 1: 1048576}, False), ({0: 1024, 1: 1048576}, False),
        ({0: 1025, 1: 1048575}, False), ({0: 1024, 1: 1048575}, True),
        ({0: 1 << 22, 1: ONES}, False), ({0: 0, 1: ONES}, False), ({0: 1023, 1: 1047551}, True),
        ({0: 1024, 1: 1047551}, False), ({0: 1023, 1: 1047552}, False),
        ({4098: m.index[4098] + 1}, False), ({4094: m.index[4094] - 1}, False),
        ({4096: 15, 4097: 0}, True), ({4096: 16}, False), ({2052: 7, 2053: 0}, True),
        ({2052: 8}, False), ({2052: 0, 2053: ONES}, True),
    ):
        probe(stores, good)
    # The first words of the pages as an entry more, which would be right.
    back = hold(CONTENTS, 0, 0, end_of_pages(m.index), 0)
    probe({0: 1025, 1: 1048576}, False, 1023 * 1024, PAGE)
    probe({0: 1024, 1: 1048575}, True, 1023 * 1024, ACCEPTED)
    poke(*back)


# Entries and recordings that are not as they were.


def grown_three():
    """An index of three entries over a recording of two streams."""
    packets = recorded(1610, [7, 8], [0, 1], 2080, chance=8)
    started_table([7, 8], [0, 1])
    words_are(together(packets))
    new_index(CONTENTS + 3 * 182)
    start()
    grow(2080, 2080)
    return packets


def damaged_entries():
    packets = grown_three()
    targets = (0, 3, 1024, 1030, 2048, 2080)
    for number in range(3):
        _, _, offset, length = entry_words(m.index, number)
        stores = [(0, 3), (0, 0), (0, 33), (1, length + 1), (2, 7), (4, 0)]
        # The identifiers the same, a count over 15, and no choice.
        first = m.index[offset + 2]
        stores += [(first, m.index[offset + m.index[offset + 4]]), (first + 4, 17)]
        stores += [(first + 14, 2), (length - 1, ONES)]
        for turn, (place, word) in enumerate(stores):
            old = m.index[offset + place]
            poke(offset + place, word)
            for n in targets if turn == 0 else (1024 * number, 1024 * number + 3):
                jump(n, (PAGE if n // 1024 == number else ACCEPTED) if turn < 9 else None)
            jump(2081, PLACE)
            poke(offset + place, old)
    # It grows on, whatever the pages are.
    _, _, offset, _ = entry_words(m.index, 2)
    poke(offset, 0)
    grow(1, 0, EMPTY)
    words_are(together(packets) + short_packet(1, 7, 0))
    grow(1, 1)
    jump(2081, PAGE)
    jump(1100, ACCEPTED)
    poke(offset, 2)
    jump(2081, ACCEPTED)


def firsts():
    """Jumps with the words from some place on."""
    grown_three()
    places = [entry_words(m.index, number)[1] for number in range(3)]
    for number, place in enumerate(places):
        for first in {0, 1, max(place - 1, 0), place, place + 1, place + 5}:
            for r in (0, 1, 20):
                n = 1024 * number + r
                jump(n, PAGE if first > place else ACCEPTED, first)
    jump(1023, ACCEPTED, 0)
    jump(2047, ACCEPTED, places[1])
    jump(2047, PAGE, places[1] + 1)
    jump(2050, ACCEPTED, places[1])
    # Past the end, and at it.
    words = len(m.words)
    for first in (words, words + 1, words - 1, 1 << 31, ONES):
        jump(2080, PAGE, first)
        jump(2081, PLACE, first)
    # With the wrong words before the first, which are not handed over.
    cut = list(m.words)
    cut[: places[1]] = [ONES] * places[1]
    words_are(cut)
    jump(1030, ACCEPTED, places[1])
    jump(1030, ACCEPTED, 0)
    jump(0, ACCEPTED, 0)
    jump(1, PAGE, 0)
    jump(1023, PAGE, 0)
    jump(2049, ACCEPTED, places[1] - 1)
    # The recording cut at the place of an entry, and a word before it.
    words = m.words[: places[1]]
    words_are(words)
    jump(1024, ACCEPTED)
    jump(1024, ACCEPTED, places[1])
    jump(1025, PAGE)
    jump(1025, PAGE, places[1])
    jump(2048, PAGE)
    words_are(words[:-1])
    jump(1024, PAGE)
    jump(1024, PAGE, 5)
    jump(0, ACCEPTED)
    jump(2081, PLACE)
    # No words at all.
    words_are([])
    jump(0, ACCEPTED)
    jump(1, PAGE)
    jump(1024, PAGE)
    jump(0, PAGE, 1)
    jump(2081, PLACE)


def changed_recordings():
    """A packet on the way that does not go on, or is undeclared now."""
    begin = [*BEGIN, context(1 << 29, [0, 7], identifier=7, count=3), short_packet(5, 8, 1)]
    behind = [0]
    for words in begin:
        behind.append(behind[-1] + len(words))
    started_table([7, 8], [0, 1])
    words_are(together(begin))
    new_index(CONTENTS + 60)
    start()
    grow(99, 7, EMPTY)
    for turn, (words, told) in enumerate(bad_packets()):
        if words:
            k = turn % 7
            number = told[0] if isinstance(told, tuple) else told
            changed = together(begin[:k]) + words
            changed += [] if number == CUT else together(begin[k + 1 :])
            words_are(changed)
            for n in (k, k + 1, 7)[: 2 + turn % 2]:
                jump(n, ACCEPTED if n <= k else PAGE)
    for turn, (words, _) in enumerate(no_stream_packets(6)):
        k = turn % 7
        words_are(together(begin[:k]) + words + together(begin[k + 1 :]))
        for n in (k, k + 1, 7):
            jump(n, ACCEPTED)
    # Cut at each word.
    for n in range(0, behind[7], 3):
        words_are(together(begin)[:n])
        for k in range(1, 8, 2):
            jump(k, ACCEPTED if behind[k] <= n else PAGE)
    # The packet just before a boundary, of a recording of more than 1,024.
    packets = recorded(1611, [7, 8], [0, 1], 1030, chance=8)
    started_table([7, 8], [0, 1])
    words_are(together(packets))
    new_index(CONTENTS + 400)
    start()
    grow(1030, 1030, alone=1)
    packets[1022] = [packets[1022][0] | 7 << 28, *packets[1022][1:]]
    words_are(together(packets))
    jump(1022, ACCEPTED)
    jump(1023, PAGE)
    jump(1024, ACCEPTED)
    jump(1030, ACCEPTED)
    packets[1022] = [0x00000000 | len(packets[1022]), *packets[1022][1:]]
    packets[1025] = [ONES, *packets[1025][1:]]
    words_are(together(packets))
    jump(1023, ACCEPTED)
    jump(1025, ACCEPTED)
    jump(1026, PAGE)
    jump(1030, PAGE)
    jump(1031, PLACE)


def other_lists():
    """A table of another list is handed to the index."""
    packets = recorded(1612, [7, 8], [0, 0], 1024, chance=8)
    started_table([7, 8])
    words_are(together(packets))
    new_index(CONTENTS + 36 + 70)
    start()
    grow(1000, 1000)
    started_table([8, 9, 10], room=300)
    grow(24, 24)
    entry(1)
    jump(1024, ACCEPTED, room=268)
    jump(1024, ROOM, room=267)
    jump(1023, ACCEPTED, room=179)
    jump(1023, ROOM, room=178)
    jump(1000, ACCEPTED, room=200)
    # Longer than the room for the page.
    started_table(range(100, 132))
    poke(0, 1, 1023, 0, 0)
    at(0)
    grow(1, 0, ROOM)
    longer(CONTENTS + 36 + 545)
    grow(1, 0, ROOM)
    longer(CONTENTS + 36 + 546)
    grow(1, 1)
    entry(1)
    jump(1024, ACCEPTED, room=2849)
    jump(1024, ROOM, room=2848)
    jump(1024, ACCEPTED, room=2850)
    jump(0, ACCEPTED, room=179)
    jump(0, ACCEPTED, room=2900)
    # One word short, exact and longer with other numbers of streams.
    for n in (1, 2, 3, 5, 32):
        ids = [0x300 + i for i in range(n)]
        started_table(ids, [i % 2 for i in range(n)])
        words_are(
            [word for i in range(n) for word in short_packet(3, ids[i], i % 16)]
        )
        new_index(CONTENTS + 2 + 17 * n)
        start()
        grow(99, n, EMPTY)
        need = table.layout_length(n)
        for target in (0, n, n // 2):
            jump(target, ROOM, room=need - 1)
            jump(target, ACCEPTED, room=need)
            jump(target, ACCEPTED, room=need + 1)
        jump(n, ROOM, room=0)
        jump(n, ACCEPTED, room=MOST_ROOM)


# Two faults at once.


def orders():
    started_table([7, 8], [0, 1], room=181)
    words_are(together(BEGIN))
    new_index(CONTENTS + 36 + 35)
    start()
    lent = list(m.table)
    right = {0: (1, 1023, 0, 5000), 4: (0, 0, CONTENTS, 36)}
    tables = {"good": {}, "table": {5: 17}}
    # Contents that are not well made, and yet full or not.
    contents = {
        "good": {1: 1000}, "room": {}, "contents": {1: 1000, 6: 4101}, "contents, room": {5: 1},
    }
    for table_name, table_stores in tables.items():
        for place, word in table_stores.items():
            poke_table(place, word)
        for name, stores in contents.items():
            for place, words in right.items():
                poke(place, *words)
            for place, word in stores.items():
                poke(place, word)
            for words in (BEGIN[0], [], [0x60000001], short_packet(1, 8, 3)):
                words_are(words)
                at(0)
                refused = words != BEGIN[0]
                answer = EMPTY if not words else TYPE if words == [0x60000001] else PAD
                if table_name != "good":
                    answer = TABLE
                elif "contents" in name:
                    answer = PAGE
                elif not refused:
                    answer = ROOM if name == "room" else None
                grow(1, 1 if answer is None else 0, answer)
                if answer is None:
                    poke(1, 1000, 0, 5000)
                    poke_table(0, *lent)
        poke_table(0, *lent)
    # Starting.
    poke_table(5, 17)
    new_index(CONTENTS + 35)
    start(TABLE)
    new_index(0)
    start(TABLE)
    poke_table(5, 0)
    start(ROOM)
    new_index(CONTENTS + 36)
    start()
    # Jumping.
    words_are(together(BEGIN))
    grow(9, 5, EMPTY)
    for bad_contents in (0, 1):
        if bad_contents:
            poke(0, 2)
        for bad_page in (0, 1, 2):
            if bad_page == 1:
                poke(CONTENTS + 1, 35)
            if bad_page == 2:
                words_are([0x60000001])
            for n in (5, 6):
                for room in (179, 178):
                    answer = ACCEPTED if room == 179 else ROOM
                    if bad_page:
                        answer = PAGE
                    if n == 6:
                        answer = PLACE
                    if bad_contents:
                        answer = PAGE
                    jump(n, answer, room=room)
            if bad_page == 1:
                poke(CONTENTS + 1, 36)
            if bad_page == 2:
                words_are(together(BEGIN))
    # The entry's place with the others.
    poke(0, 1)
    for n, first, room, answer in (
        (5, 1, 178, PAGE), (6, 1, 178, PLACE), (0, 1, 178, PAGE), (0, 0, 178, ROOM),
    ):
        jump(n, answer, first, room)


# Pseudo-random ones.


def random_indexes():
    numbers = Numbers(1613)
    for turn in range(4):
        n = 1 + numbers.below(4)
        ids = random_ids(numbers, n)
        choices = [numbers.below(2) for _ in ids]
        packets = recorded(1700 + turn, ids, choices, 60, chance=6)
        started_table(ids, choices)
        # Any well-made table to begin with.
        if turn % 2:
            for place, word in random_stores(numbers, n).items():
                m.table[place] = word
            poke_table(0, *m.table)
        words_are(together(packets))
        new_index(CONTENTS + 5 * (2 + 90 * n))
        start()
        grow(60, 60, alone=turn // 2 % 2)
        for _ in range(3):
            jump(numbers.below(61), ACCEPTED)
        # Moved on to other boundaries, and from there grown with a page.
        poke(1, 1010)
        at(0)
        grow(60, 60, alone=turn % 2)
        entry(1)
        for _ in range(4):
            jump(numbers.below(1030))
        for _ in range(3):
            jump(1024 + numbers.below(47), first=numbers.below(3) * m.index[9] // 2)
        # A word of the contents or of the pages changed.
        for _ in range(8):
            at(numbers.below(2) * len(m.words))
            place = numbers.below(12) if numbers.below(3) else CONTENTS + numbers.below(60)
            old = m.index[place]
            way = numbers.below(4)
            word = (old + 1, old - 1, old ^ 1 << numbers.below(32), numbers.word())[way] & ONES
            poke(place, word)
            jump(numbers.below(1080), room=table.layout_length(n) - (numbers.below(6) == 0))
            before, lent = list(m.index), list(m.table)
            grow(1 + numbers.below(3), alone=0)
            if m.index != before:
                poke(0, *before[:12])
                poke_table(0, *lent)
            poke(place, old)


# Places beside 2^32.

# Words before those of the packets, which no jump may read.
FRONT = [ONES] * 30


def packets_beside():
    """Packets of the streams 7, of survey packets, and 8; from 2^32 - 3 on the boundaries
    behind the first three are at 2^32 - 1, at 2^32 and at 2^32 + 5."""
    begin = [short_packet(3, 8, 1), [0x20000001], context(1 << 29, [0, 7], identifier=8)]
    return begin + recorded(1614, [7, 8], [1, 0], 30, chance=5)


def ends_of(packets):
    """The places behind so many of the packets."""
    ends = [0]
    for words in packets:
        ends.append(ends[-1] + len(words))
    return ends


def contents_beside(entries, left, places):
    """An index of two streams with so many entries, so many packets behind the last, and these
    places of entries, which have pages."""
    one, two, _ = pages_by_hand()
    given = [(MOST_STEP * number, []) for number in range(entries)]
    given[0] = (0, one)
    for number, place in places.items():
        given[number] = (place, two)
    started_table([7, 8], [1, 0])
    new_index(CONTENTS + 500)
    packets = 1024 * (entries - 1) + left
    lay_out(packets, 65535 * packets, given)


def entry_stands(number, place):
    poke(4 + 4 * number, *index.two_words(place))


def jumps_beside():
    """An entry at each of the places, with the words from it on, from before it and from
    behind it, and from far away."""
    packets = packets_beside()
    words_are(FRONT + together(packets))
    contents_beside(67, 40, {65: HIGH - 3, 66: HIGH + 5})
    for place in BESIDE_HIGH:
        entry_stands(65, place)
        for back, r in ((0, 0), (0, 1), (0, 2), (0, 3), (0, 33), (1, 1), (8, 3), (30, 0), (30, 9)):
            jump(65 * 1024 + r, ACCEPTED, place - back, left_out=30 - back)
        for r, left_out in ((0, 31), (1, 31), (0, 30), (3, 30)):
            jump(65 * 1024 + r, PAGE, place + 1, left_out=left_out)
        for first in (place ^ HIGH, place & 7, place + HIGH, 1 << 63, (1 << 64) - 1):
            jump(65 * 1024 + 1, PAGE, first, left_out=30)
    # The entry behind it, with words from below 2^32 and from 2^32 on.
    for first in (HIGH - 25, HIGH - 3, HIGH - 1, HIGH, HIGH + 5):
        for r in (0, 1, 40):
            answer = PAGE if r == 40 else ACCEPTED
            jump(66 * 1024 + r, answer, first, left_out=first - HIGH + 25)
    jump(66 * 1024 + 41, PLACE, HIGH, left_out=25)
    jump(66 * 1024, ROOM, HIGH, room=178, left_out=25)


def cuts_beside():
    """The same entry where the words end before it, at it and within the packets behind it, and
    where one of these packets does not go on."""
    packets = packets_beside()
    ends = ends_of(packets)
    contents_beside(67, 40, {65: HIGH - 3})
    for cut in (0, 1, 2, 3, 7, 8):
        words_are(FRONT + together(packets)[:cut])
        for place in BESIDE_HIGH:
            entry_stands(65, place)
            for r in range(4) if place < HIGH else (0, 1, 3):
                jump(65 * 1024 + r, ACCEPTED if ends[r] <= cut else PAGE, place, left_out=30)
            if cut == 0:
                jump(65 * 1024, ACCEPTED, place - 30, left_out=0)
                jump(65 * 1024 + 1, PAGE, place - 30, left_out=0)
                jump(65 * 1024, PAGE, place - 31, left_out=0)
                jump(65 * 1024, PAGE, place - 1, left_out=30)
    entry_stands(65, HIGH - 3)
    for k, bad in enumerate(([0x60000002, 8], [0x60000001], [0x60000005, 8, 0, 0, 0])):
        words_are(together([*packets[:k], bad, *packets[k + 1 :]]))
        for r in (k, k + 1, 4):
            jump(65 * 1024 + r, ACCEPTED if r <= k else PAGE, HIGH - 3, left_out=0)


def jumps_far():
    """Entries at places with other high words, those that are the most for their entries too."""
    packets = packets_beside()
    words_are(FRONT + together(packets))
    places = {number: MOST_STEP * number for number in (65, 128, 1023)}
    places[129] = 2 * HIGH + 5
    contents_beside(1024, 1023, places)
    for number, place in places.items():
        for back, r in ((0, 0), (0, 20), (30, 3)):
            jump(number * 1024 + r, ACCEPTED, place - back, left_out=30 - back)
        jump(number * 1024, PAGE, place + 1, left_out=31)
        for first in (place - HIGH, place & ONES, place + HIGH, place - HIGH - 20):
            jump(number * 1024, PAGE, first, left_out=30)
    # One word above the most that an entry may have.
    entry_stands(1023, MOST_STEP * 1023 + 1)
    jump(1023 * 1024, PAGE, MOST_STEP * 1023 + 1, left_out=30)


def grown_beside(ends, k, place):
    """Grows over a boundary that has an entry, which stands at the place behind k packets, and
    jumps from there."""
    started_table([7, 8], [1, 0])
    reached = place - ends[k]
    poke(0, 66, 66 * 1024 - k, *index.two_words(reached))
    at(0)
    grown_on()
    if k > 1:
        grow(k - 1, k - 1)
        jump(66 * 1024, PLACE, reached, left_out=0)
    grow(1, 1, alone=k % 2)
    entry(66)
    grow(15, 15, alone=1 - k % 2)
    for r in (0, 1, 15):
        jump(66 * 1024 + r, ACCEPTED, place, left_out=ends[k])
    jump(66 * 1024 + 7, ACCEPTED, reached, left_out=0)
    jump(66 * 1024 + 7, PAGE, place + 1, left_out=ends[k] + 1)
    jump(66 * 1024 + 16, PLACE, place, left_out=ends[k])


def growing_beside():
    """Growing from just below 2^32 on, and past it."""
    packets = recorded(1615, [7, 8], [1, 0], 40, chance=5)
    ends = ends_of(packets)
    contents_beside(66, 1023, {65: HIGH - 3})
    words_are(together(packets))
    for place in BESIDE_HIGH:
        for k in (1, 6):
            grown_beside(ends, k, place)
    # The recording's words from below 2^32 on are long enough to pass it behind the entry.
    grown_beside(ends, 2, HIGH - 20)
    # One word short for the page: the place stays below 2^32, and then becomes it.
    started_table([7, 8], [1, 0])
    words_are([0x00000001])
    new_index(CONTENTS + 35)
    given = [(HIGH - 9 if number == 65 else 0, []) for number in range(66)]
    lay_out(66 * 1024 - 1, HIGH - 1, given)
    at(0)
    grow(1, 0, ROOM)
    longer(CONTENTS + 36)
    grow(1, 1)
    entry(66)
    jump(66 * 1024, ACCEPTED, HIGH - 1, left_out=0)


def reached_beside():
    """The packets with which the place of the boundary reached may be 2^32 - 1 and 2^32, at the
    least: 65,535 words each."""
    contents_beside(65, 1, {})
    words_are([0x00000001, 0x20000001, *short_packet(3, 8, 1)])
    at(4)
    for packets, place, good in (
        (65537, HIGH - 1, True), (65537, HIGH, False), (65536, HIGH - 1, False),
        (65538, HIGH, True), (65538, HIGH + 65534, True), (65538, HIGH + 65535, False),
    ):
        probe({1: packets, 2: place >> 32, 3: place & ONES}, good)
    poke(1, 65537, 0, ONES)
    at(0)
    grow(1, 1)
    grow(1, 1)
    grow(2, 1, (EMPTY, 0, None), alone=1)
    jump(65540, PAGE, HIGH - 1, left_out=0)
    jump(65541, PLACE, HIGH - 1, left_out=0)


def build():
    long_recordings()
    endings()
    room_of_starts()
    room_of_boundaries()
    off_by_one()
    places_above_2_32()
    full_contents()
    damaged_entries()
    firsts()
    changed_recordings()
    other_lists()
    orders()
    random_indexes()
    jumps_beside()
    cuts_beside()
    jumps_far()
    growing_beside()
    reached_beside()


# Each answer, and the least number of its operations.
LEAST = {
    "table": 50, f"table refused {LIST}": 4, f"table refused {ROOM}": 1, "words": 200,
    "room": 60, "poke": 400, "poke table": 20, "longer": 50, "at": 150, "entry": 30,
    "start": 50, f"start refused {TABLE}": 10, f"start refused {ROOM}": 25,
    "grow": 80, f"grow refused {TABLE}": 15, f"grow refused {PAGE}": 50,
    f"grow refused {ROOM}": 50, f"grow refused {PAD}": 15, f"grow refused {FIELD}": 25,
    **{f"grow refused {number}": 4 for number in range(1, 10)},
    "jump": 400, f"jump refused {PAGE}": 250, f"jump refused {PLACE}": 150,
    f"jump refused {ROOM}": 25,
}

# Faults that come together in one operation.
PAIRS = {
    "start": ("table", "room"),
    "grow": ("table", "contents", "reading", "room"),
    "jump": ("contents", "place", "entry", "room"),
}

OTHERS = {
    "backwards", "forwards", "in the middle of growing", "a longer index than it was grown in",
    "a place over 2^32 by growing", "full by growing", "a table of another list",
    "a changed recording that goes on", "an entry beside one that is not well made",
}

WALKS = {
    "page", "before the words", "one past the words", "past the words by 2^32",
    "the last packet", "the first packet", *range(1, 11), PAD,
}


def check():
    """The operations that there have to be."""
    for label in cover.tally:
        fail(label not in LEAST, f"{label}: not an answer that is asked for")
    for label, n in LEAST.items():
        found = cover.tally.get(label, 0)
        fail(found < n, f"{label}: {found} operations, fewer than {n}")
    for packets in STOPS:
        for n in around(packets):
            seen = (packets, n) in cover.jumps
            fail(not seen, f"no jump to {n} where {packets} packets are taken in")
    for packets in (2060,):
        for n in (1 << 32, (1 << 64) - 1, (1 << 32) + 5):
            fail((packets, n) not in cover.jumps, f"no jump to {n}")
    for number in (1022, 1023, 1024, 2046, 2047, 2048):
        for place in (0, 1):
            seen = (number, place) in cover.undeclared
            fail(not seen, f"packet {number} is not undeclared with the place {place}")
    for boundary in (False, True):
        numbers = {one[0] for one in cover.told if one[3] == boundary}
        wanted = {*range(1, 11), PAD, TABLE, PAGE}
        fail(not wanted <= numbers, f"growing, {boundary}: {wanted - numbers} not refused")
        bits = {bit for number, _, bit, at_one in cover.told if at_one == boundary}
        fail(not {*RULED} <= bits, f"growing, {boundary}: not each field is refused")
    for number, place, _, _ in cover.told:
        fail((place is None) != (number in (TABLE, PAGE, ROOM)), f"a place of {number}")
    check_rooms()
    for way, names in PAIRS.items():
        for i, first in enumerate(names):
            fail((way, first) not in cover.faults, f"{way}: {first} is not alone")
            for second in names[i + 1 :]:
                seen = any(
                    one[0] == way and one[1:2] == (first,) and second in one
                    for one in cover.faults
                )
                fail(not seen, f"{way}: {first} is not together with {second}")
    for name in index.RULES:
        n = cover.rules.get((name,), 0)
        fail(n < 2, f"rule {name}: fewer than 2 contents break it alone")
    for way in (0, 1):
        for what in (("taken", "all"), ("taken", "refused"), ("none", "refused")):
            fail((way, *what) not in cover.ways, f"growing, {way}: {what} is not there")
    for kind in ("at", "before", "whole"):
        for r in (0, 1, 2):
            seen = (kind, r) in cover.firsts
            fail(not seen, f"no jump of {r} packets, the words from {kind}")
    fail("at the end of the words" not in cover.firsts, "no entry at the end of the words")
    fail(not WALKS <= cover.walks, f"jumping: {WALKS - cover.walks} not there")
    fail(not OTHERS <= cover.others, f"{OTHERS - cover.others} not there")
    check_beside()
    wanted = {1, 2, 66, 130, 1023, ("high", True), ("high", False)}
    fail(not wanted <= cover.entries, f"entries {wanted - cover.entries} not made by growing")
    fail(not {1, 2, 3, 67, 130, 1024} <= cover.beside, "not each number of entries is jumped in")
    fail(cover.held_to_play < 150, f"{cover.held_to_play} jumps are held to playing")
    fail(cover.grown > 40_000, f"{cover.grown} packets are taken in, more than 40,000")
    fail(cover.long_jumps > 150, f"{cover.long_jumps} long jumps, more than 150")


def check_beside():
    """Jumps from entries beside 2^32 and above it."""
    wanted = {
        *[(kind, place) for kind in ("at", "before", "end") for place in BESIDE_HIGH],
        # The words begin one behind the entry, or end one before it.
        *[(kind, place, 1) for kind in ("behind", "past") for place in BESIDE_HIGH],
        *[("over", HIGH - 3, place) for place in (HIGH, HIGH + 5)],
        "an entry over 2^32, the words from below it", "a packet that passes 2^32 does not go on",
        ("past by 2^32", False), ("past by 2^32", True), ("most", 65), ("most", 1023),
    }
    fail(not wanted <= cover.high, f"{wanted - cover.high} not there")
    n = cover.held_high
    fail(n < 25, f"{n} jumps to places over 2^32 are held to playing")


def check_rooms():
    """The edges of ROOM: of starting, growing and jumping."""
    for edge in (
        *[("start", n, length, more) for n, length in ((1, 19), (1, 92), (2, 36), (32, 546))
          for more in (-1, 0, 1)],
        *[("start", 32, 2882, more) for more in (-1, 0, 1)],
        # A packet that adds so many words to the page: one short, and exact.
        *[("grow", -1, more, ROOM) for more in (0, 1, 2, 11, 13, 71)],
        *[("grow", 0, more, ACCEPTED) for more in (0, 1, 11, 13, 71)],
        *[("grow", 1, 2, ACCEPTED), ("grow", 2, 0, ACCEPTED), ("grow", "full", 0, ROOM)],
        # The page from before the packet would fit exactly.
        *[("grow", -more, more, ROOM) for more in (1, 2, 11, 13, 71)],
        *[("jump", n, more) for n in (1, 2, 3, 5, 32) for more in (-1, 0, 1, 2)],
    ):
        fail(edge not in cover.rooms, f"no operation at the edge {edge}")


def main():
    if len(sys.argv) != 3:
        sys.exit("usage: index_vectors.py INPUT EXPECTED")
    build()
    check()
    given = b"".join(word.to_bytes(4, "big") for word in m.given)
    text = "".join(line + "\n" for line in m.lines)
    fail(len(given) > 900_000, f"the input has {len(given)} bytes, more than 900,000")
    fail(not 400 <= len(m.lines) <= 3500, f"{len(m.lines)} lines")
    with open(sys.argv[1], "wb") as file:
        file.write(given)
    with open(sys.argv[2], "w", encoding="ascii", newline="\n") as file:
        file.write(text)
    for label in LEAST:
        print(f"{label}: {cover.tally[label]}")
    for name in index.RULES:
        print(f"rule {name}: {cover.rules[(name,)]} broken")
    print(f"packets taken in {cover.grown}")
    print(f"long jumps {cover.long_jumps}, held to playing {cover.held_to_play}", end="")
    print(f", of these at places over 2^32 {cover.held_high}")
    print(f"operations {len(m.lines)}")


if __name__ == "__main__":
    main()
