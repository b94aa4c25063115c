"""A reference index: it starts beside a recording, grows over it packet by packet, and a
jump gives the table just before a packet.

It is written from C-16 of document 02, with the words of an index that this project has fixed,
and from nothing else.  Tables are those of table.py and pages those of page.py.  Words are
whole numbers from 0 to 2^32 - 1 in a list; the sentences in quotation marks are C-16's own,
or those of document 01, C-13 or C-15 where they are named.

The words of an index are

    0           E, the entries
    1           P, the packets taken in
    2, 3        the word place of boundary P, high and low
    4 to 4,099  1,024 entries of four words each: entry j is of boundary 1,024 j, and has
                the boundary's word place, high and low, the offset of its page from word 0
                and the length of its page
    4,100 on    the pages

Boundary k is just before packet k, which are counted from 0; its word place is the words
of the packets before it.
"""

import page
import table
import vrt49
from page import PAGE
from table import ROOM, STREAM, TABLE

# "21 PLACE"
PLACE = 21

# "boundary 0 and every 1,024th reached after it"
EVERY = 1024

# "contents for up to 1,024 entries"
MOST_ENTRIES = 1024
ENTRIES_PLACE = 4
ENTRY_WORDS = 4
CONTENTS_WORDS = ENTRIES_PLACE + ENTRY_WORDS * MOST_ENTRIES

# "no word place over 65,535 words for each packet before it"
MOST_PACKET_WORDS = 65535

# The words of the longest layout, that of 32 streams.
MOST_TABLE = table.layout_length(32)


def two_words(number):
    """A number below 2^64, high and low."""
    return [number // 2**32, number % 2**32]


def number_of(high, low):
    return high * 2**32 + low


# The words of an index.


def entries_in(index):
    return index[0]


def packets_in(index):
    # "the number of packets taken in, which the index holds"
    return index[1]


def place_in(index):
    """The word place of the boundary behind all packets that were taken in."""
    return number_of(index[2], index[3])


def entry_in(index, entry):
    """The word place, the page's offset and the page's length of an entry."""
    at = ENTRIES_PLACE + ENTRY_WORDS * entry
    high, low, offset, length = index[at : at + ENTRY_WORDS]
    return number_of(high, low), offset, length


def place_of(index, entry):
    return entry_in(index, entry)[0]


def page_in(index, entry):
    """The words of the page of an entry."""
    _, offset, length = entry_in(index, entry)
    return index[offset : offset + length]


def pages_end(index):
    """The offset behind the last page."""
    _, offset, length = entry_in(index, entries_in(index) - 1)
    return offset + length


# What well-made contents are, rule by rule.  The rules stand in stages: those of a stage
# are asked when all the stages before it are kept.


def wholly_there(index):
    # "wholly there"
    return len(index) >= CONTENTS_WORDS


def each_boundary(index):
    # "one entry for each boundary reached": boundary 0, and one for each whole 1,024
    # packets
    return entries_in(index) == packets_in(index) // EVERY + 1


def not_too_many(index):
    # "contents for up to 1,024 entries"
    return entries_in(index) <= MOST_ENTRIES


def right_place(index):
    # "no word place over 65,535 words for each packet before it"
    return place_in(index) <= MOST_PACKET_WORDS * packets_in(index)


def right_places(index):
    # the same, of the boundary of each entry
    return all(
        place_of(index, entry) <= MOST_PACKET_WORDS * EVERY * entry
        for entry in range(entries_in(index))
    )


def right_offsets(index):
    # "pages behind the contents in order, without gaps"
    offset = CONTENTS_WORDS
    for entry in range(entries_in(index)):
        _, found, length = entry_in(index, entry)
        if found != offset:
            return False
        offset = found + length
    return True


def inside(index):
    # "inside the buffer"
    return pages_end(index) <= len(index)


STAGES = (
    (("whole", wholly_there),),
    (("boundaries", each_boundary), ("entries", not_too_many)),
    (
        ("place", right_place),
        ("places", right_places),
        ("offsets", right_offsets),
        ("inside", inside),
    ),
)
# More than 1,024 entries have words of pages for entries, so nothing more is asked of them.
RULES = tuple(name for stage in STAGES for name, _ in stage)


def broken_rules(index):
    """The names of the rules that the contents of an index break."""
    for stage in STAGES:
        broken = [name for name, kept in stage if not kept(index)]
        if broken:
            return broken
    return []


def well_made(index):
    """Whether the contents of an index are well made; its pages are not looked at."""
    return broken_rules(index) == []


# Starting.


def start_index(lent, index):
    """('refused', number) or ('started', words of contents and page), for the words of the
    table at boundary 0, and the index afterwards."""
    # "starting TABLE, ROOM"
    if not table.well_made(lent):
        return ("refused", TABLE), list(index)
    first = page.page_of(table.table_of(lent))
    needed = CONTENTS_WORDS + len(first)
    # Document 01: "a buffer to be written is too short"
    if len(index) < needed:
        return ("refused", ROOM), list(index)
    after = list(index)
    # One entry, no packet, and the place of boundary 0, which is 0.
    after[:ENTRIES_PLACE] = [1, 0, 0, 0]
    # "then a saved page at packet boundary 0"
    after[ENTRIES_PLACE : ENTRIES_PLACE + ENTRY_WORDS] = [0, 0, CONTENTS_WORDS, len(first)]
    after[CONTENTS_WORDS:needed] = first
    return ("started", needed), after


# Growing.


def counted_answer(found, words):
    """What growing answers to a packet that has a number, the table changed as play
    changes it, or the refusal that ends the recording."""
    # "Packets are numbered as `vrtplay` walks them, each read by its stream's choice
    # (C-13): STREAM refusals have numbers, any other ends the recording."
    answer = table.play(found, words)
    if answer[0] == "played":
        return ("heard", *answer[1:])
    _, number, place, _ = answer
    if number == STREAM:
        # "On a STREAM refusal growing leaves the table, counts the packet and answers
        # "undeclared" with the place."
        return ("undeclared", vrt49.size_of(words[0]), place)
    return answer


def no_room(index, length):
    """Whether there is no room for an entry more with a page of so many words."""
    # "ROOM also when growing finds contents or buffer full"
    if entries_in(index) == MOST_ENTRIES:
        return True
    # An offset is one word.
    return pages_end(index) >= 2**32 or pages_end(index) + length > len(index)


def grow(lent, words, index):
    """('refused', number, place, bit), ('heard', size, type, stream, missing) or
    ('undeclared', size, place), for the words of the table at the boundary that the index
    has reached and the recording's words from there on; the lent table and the index
    afterwards.  TABLE, PAGE and ROOM have no place."""
    # "growing TABLE, PAGE for contents, reading refusals, ROOM"
    untouched = list(lent), list(index)
    if not table.well_made(lent):
        return ("refused", TABLE, None, None), *untouched
    if not well_made(index):
        return ("refused", PAGE, None, None), *untouched
    found = table.table_of(lent)
    answer = counted_answer(found, words)
    if answer[0] == "refused":
        return answer, *untouched
    packets = packets_in(index) + 1
    place = place_in(index) + answer[1]
    after = list(index)
    # "every 1,024th reached": this packet reaches one, and the page is that of the table
    # behind it
    if packets % EVERY == 0:
        saved = page.page_of(found)
        if no_room(index, len(saved)):
            return ("refused", ROOM, None, None), *untouched
        end = pages_end(index)
        at = ENTRIES_PLACE + ENTRY_WORDS * (packets // EVERY)
        after[at : at + ENTRY_WORDS] = [*two_words(place), end, len(saved)]
        after[end : end + len(saved)] = saved
    after[:ENTRIES_PLACE] = [packets // EVERY + 1, packets, *two_words(place)]
    layout = table.layout(found)
    return answer, layout + lent[len(layout) :], after


# Jumping.


def gone_on(found, words, at, packets):
    """The place behind so many packets, played on a table, or None where one of them does
    not go on."""
    for _ in range(packets):
        # With no words left play answers EMPTY.
        answer = table.play(found, words[at:])
        if answer[0] == "refused" and answer[1] != STREAM:
            return None
        at += vrt49.size_of(words[at])
    return at


def jump(words, first, index, n, lent):
    """('refused', number) or ('jumped', words of the layout, word place of boundary n), for
    the recording's words from the word place first on, and the lent table afterwards."""
    # "jumping PAGE for contents, PLACE, PAGE for the entry, ROOM"
    if not well_made(index):
        return ("refused", PAGE), list(lent)
    # "21 PLACE exactly for N above that number"
    if n > packets_in(index):
        return ("refused", PLACE), list(lent)
    # "A jump plays at most 1,023 packets."
    entry, packets = divmod(n, EVERY)
    # "PAGE for ... an entry not well made"
    answer, back = page.put_back(page_in(index, entry), [0] * MOST_TABLE)
    if answer[0] == "refused":
        return ("refused", PAGE), list(lent)
    # "or an entry from which the recording has no boundary N": its place is not among the
    # words, or its packets do not reach that far
    place = place_of(index, entry)
    if place < first or place - first > len(words):
        return ("refused", PAGE), list(lent)
    found = table.table_of(back)
    end = gone_on(found, words, place - first, packets)
    if end is None:
        return ("refused", PAGE), list(lent)
    layout = table.layout(found)
    # Document 01: "a buffer to be written is too short"
    if len(lent) < len(layout):
        return ("refused", ROOM), list(lent)
    # Document 01: "A lent table may be longer than its layout: words past it are neither
    # read nor changed."
    return ("jumped", len(layout), first + end), layout + lent[len(layout) :]
