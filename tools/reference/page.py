"""Reference pages: a table of streams is saved as a page and put back from it.

It is written from document 01, from C-11 and C-13 of document 02 and from nothing else.
Tables and their words are those of table.py, and so is what a state word is that can
be held.  Words are whole numbers from 0 to 2^32 - 1 in a list; the sentences in
quotation marks are document 01's own, or C-11's or C-13's where they are named.

What a well-made page is stands here twice: by document 01's sentence, that some
well-made table saves exactly its words, and by rules of the words themselves.
Putting back asks both and fails if they differ.
"""

import table
from table import CHOICES, COUNTED_TYPES, FIELD_BITS, HELD_BITS, ROOM, STATE_BIT, TABLE
from vrt49 import FIELD_RULES, FIXED_WORDS, bits

# "Numbers given back", those of a page beside TABLE and ROOM.
SIZE = 15
PAGE = 19

# "a packet to be written, or a page, exceeds 65,535 words"
MOST_WORDS = 65535

# "A body: identifier, held indicator, for types 1, 3, 4, 5 three words each"; C-13: "the
# page body records it", the choice, "in one word more", which stands behind these.
CHOICE_PLACE = 2 + 3 * len(COUNTED_TYPES)
FIRST_WORDS = CHOICE_PLACE + 1


def contents_length(streams):
    """The words of the contents of so many streams."""
    # "word 0 is S; word 1 the page's length; then S pairs"
    return 2 + 2 * streams


# Saving.


def body_of(stream):
    """The words of one stream's body, from its dictionary."""
    # "identifier, held indicator"
    words = [stream["identifier"], sum(2**bit for bit in stream["held"])]
    for kind in COUNTED_TYPES:
        # "for types 1, 3, 4, 5 three words each (seen, missing, last plus one
        # or 0 if not started)"
        count = stream["counts"][kind]
        last_plus_one = 0 if count["last"] is None else count["last"] + 1
        words += [count["seen"], count["missing"], last_plus_one]
    words.append(stream["choice"])
    # "then the held words in field order"
    for bit in sorted(stream["held"], reverse=True):
        words += stream["held"][bit]
    return words


def page_of(found):
    """The words of the page of a table, which is a list of dictionaries."""
    bodies = [body_of(stream) for stream in found]
    pairs = []
    place = contents_length(len(found))
    for body in bodies:
        # "then S pairs, offset from word 0 and length of each body, in list
        # order without gaps"
        pairs += [place, len(body)]
        place += len(body)
    # "Page, contents first: word 0 is S; word 1 the page's length; ... then
    # bodies."
    words = [len(found), place] + pairs
    for body in bodies:
        words += body
    return words


def page_length(lent):
    """('refused', number) or ('length', words of the page), for the words of a
    table."""
    # "Save: TABLE, SIZE, ROOM."
    if not table.well_made(lent):
        return ("refused", TABLE)
    length = len(page_of(table.table_of(lent)))
    if length > MOST_WORDS:
        return ("refused", SIZE)
    return ("length", length)


def save(lent, out):
    """('refused', number) or ('saved', words of the page), for the words of a
    table, and the buffer afterwards."""
    # "Save: TABLE, SIZE, ROOM."
    answer, length = page_length(lent)
    if answer == "refused":
        return (answer, length), list(out)
    # "a buffer to be written is too short"
    if len(out) < length:
        return ("refused", ROOM), list(out)
    # "Only words needed by an accepted answer change."
    return ("saved", length), page_of(table.table_of(lent)) + out[length:]


# What a well-made page is, by document 01's sentence.


def word_at(words, place):
    return words[place] if place < len(words) else 0


def candidate(words):
    """The words of a table that saves this page, if any does.

    The contents say where each body is, the body has the words of its stream one
    after another, and nothing else of a well-made table is free: its unheld
    fields are zero.  So no other table comes into question.  For words that are
    no page it is some list of words.
    """
    streams = min(word_at(words, 0), 32)
    lent = [streams]
    for place in range(streams):
        at = word_at(words, 2 + 2 * place)
        lent += [word_at(words, at + i) for i in range(FIRST_WORDS)]
        indicator = word_at(words, at + 1)
        at += FIRST_WORDS
        for bit in FIELD_BITS:
            if bits(indicator, bit, bit) == 1:
                lent += [word_at(words, at + i) for i in range(FIXED_WORDS[bit])]
                at += FIXED_WORDS[bit]
            else:
                lent += [0] * FIXED_WORDS[bit]
    return lent


def saved_by_a_table(words):
    # "A page is well made when some well-made table saves exactly its words."
    lent = candidate(words)
    return table.well_made(lent) and page_of(table.table_of(lent)) == words


# What a well-made page is, rule by rule.  The rules stand in stages: those of a
# stage are asked when all the stages before it are kept.


def pairs_of(words):
    """The offset and the length of each body."""
    return [(words[2 + 2 * place], words[3 + 2 * place]) for place in range(words[0])]


def bodies_of(words):
    return [words[offset : offset + length] for offset, length in pairs_of(words)]


def held_words(indicator):
    """The words of the fields of an indicator, field 22 too, which no page may have."""
    return sum(FIXED_WORDS[bit] for bit in FIELD_BITS if bits(indicator, bit, bit) == 1)


def held_fields(body):
    """The words of each field of a body, by bit."""
    found = {}
    at = FIRST_WORDS
    for bit in FIELD_BITS:
        if bits(body[1], bit, bit) == 1:
            found[bit] = body[at : at + FIXED_WORDS[bit]]
            at += FIXED_WORDS[bit]
    return found


def counts_of(body):
    return [body[2 + 3 * place : 5 + 3 * place] for place in range(len(COUNTED_TYPES))]


def right_number(words):
    # "word 0 is S", and a list is valid that has 1 to 32 identifiers
    return len(words) >= 1 and 1 <= words[0] <= 32


def whole_contents(words):
    # "then S pairs"
    return len(words) >= contents_length(words[0])


def right_length(words):
    # "word 1 the page's length"; "Put back takes exactly one page."
    return len(words) >= 2 and words[1] == len(words)


def right_offsets(words):
    # "in list order without gaps; then bodies"
    place = contents_length(words[0])
    for offset, length in pairs_of(words):
        if offset != place:
            return False
        place = offset + length
    return True


def right_end(words):
    # the last body ends with the page
    offset, length = pairs_of(words)[-1]
    return offset + length == len(words)


def right_bodies(words):
    # "A body: identifier, held indicator, for types 1, 3, 4, 5 three words each
    # ..., then the held words in field order", and the choice before these.
    return all(
        len(body) >= FIRST_WORDS and len(body) == FIRST_WORDS + held_words(body[1])
        for body in bodies_of(words)
    )


def different_identifiers(words):
    # not "one twice"
    return len({body[0] for body in bodies_of(words)}) == words[0]


def right_choices(words):
    # C-13: "plain 49.0 (word 0) or 49A (1)"
    return all(body[CHOICE_PLACE] in CHOICES for body in bodies_of(words))


def only_fields_held(words):
    # "Bits 31, 9 and 8 are not held", and bits 7 to 0 have no field; C-11: "a page
    # that holds field 22 ... is PAGE"
    return all(
        bits(body[1], 31, 31) == 0 and bits(body[1], 22, 22) == 0 and bits(body[1], 9, 0) == 0
        for body in bodies_of(words)
    )


def held_kept(words):
    # "held fields obey their rules"
    return all(
        FIELD_RULES[bit](field)
        for body in bodies_of(words)
        for bit, field in held_fields(body).items()
        if bit in FIELD_RULES
    )


def states_good(words):
    # C-11: "those bits or a value without its enable"
    return all(
        table.state_good(held_fields(body).get(STATE_BIT, [0])[0]) for body in bodies_of(words)
    )


def not_started_zero(words):
    # "a count not started has zeros"
    return all(
        last_plus_one != 0 or (seen == 0 and missing == 0)
        for body in bodies_of(words)
        for seen, missing, last_plus_one in counts_of(body)
    )


def last_at_most_15(words):
    # "a last count is at most 15"
    return all(
        last_plus_one <= 16 for body in bodies_of(words) for _, _, last_plus_one in counts_of(body)
    )


def held_after_start(words):
    # "no field held unless type 4 has started"
    return all(
        counts_of(body)[COUNTED_TYPES.index(4)][2] != 0
        or not any(bits(body[1], bit, bit) == 1 for bit in HELD_BITS)
        for body in bodies_of(words)
    )


STAGES = (
    (("number", right_number),),
    (("contents", whole_contents), ("length", right_length)),
    (("offsets", right_offsets), ("end", right_end)),
    (("bodies", right_bodies),),
    (
        ("identifiers", different_identifiers),
        ("choice", right_choices),
        ("indicator", only_fields_held),
        ("field", held_kept),
        ("state", states_good),
        ("not started", not_started_zero),
        ("last", last_at_most_15),
        ("type 4", held_after_start),
    ),
)
RULES = tuple(name for stage in STAGES for name, _ in stage)


def broken_rules(words):
    """The names of the rules that the words of a page break."""
    for stage in STAGES:
        broken = [name for name, kept in stage if not kept(words)]
        if broken:
            return broken
    return []


def well_made(words):
    """Whether words are a page that is well made, by the sentence and by the
    rules."""
    by_sentence = saved_by_a_table(words)
    by_rules = broken_rules(words) == []
    if by_sentence != by_rules:
        raise AssertionError(f"by the sentence {by_sentence}, by the rules {by_rules}")
    return by_sentence


# Putting back.


def put_back(words, lent):
    """('refused', number) or ('put', words of the layout), for the words of a
    page, and the lent table afterwards."""
    # "Put back: PAGE, ROOM."
    if not well_made(words):
        return ("refused", PAGE), list(lent)
    found = candidate(words)
    # "a buffer to be written is too short"
    if len(lent) < len(found):
        return ("refused", ROOM), list(lent)
    # "A lent table may be longer than its layout: words past it are neither
    # read nor changed."
    return ("put", len(found)), found + lent[len(found) :]
