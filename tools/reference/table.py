"""A reference table of streams: it starts, plays packets and is well made or not.

It is written from document 01, from C-11 of document 02, which corrects it on
fields 16 and 22, from C-13, which has a choice for each stream, from C-15, which has a
place for each refusal, and from nothing else.  Reading a packet, its fields and the
field rules are those of vrt49.py.  Words are whole numbers from 0 to 2^32 - 1 in a list;
the sentences in quotation marks are document 01's own, or those of C-11, C-13 or C-15
where they are named.

A table is a list of dictionaries, one for each stream in the order of the list:

    identifier  the stream's identifier
    choice      0 for plain packets, 1 for survey packets
    counts      for each of the types 1, 3, 4 and 5 a dictionary of seen, missing
                and last, which is None while the count has not started
    held        for each field that is held, by its bit, the field's words

The words of a table are word 0, the number of streams S, and S records of 89
words: identifier; held indicator; for types 1, 3, 4, 5 in this order three words
each, seen, missing, and the last count plus one or 0 if it has not started; the choice;
then 74 words, the fields 30 to 10 in this order, zero where a field is not held, as field
22 always is.
"""

import vrt49
from vrt49 import FIELD_RULES, FIXED_WORDS, bits

# "Numbers given back", those of the table.
STREAM = 11
LIST = 12
ROOM = 13
TABLE = 18

# "Types 1, 3, 4 and 5 are counted apart within a stream."
COUNTED_TYPES = (1, 3, 4, 5)

# "Bits 30 to 10 are 21 fields of 74 words together."
FIELD_BITS = tuple(range(30, 9, -1))

# "Bits 31, 9 and 8 are not held."  C-11: "field 22, which is now checked and never
# held".
HELD_BITS = tuple(bit for bit in FIELD_BITS if bit != 22)
STATE_BIT = 16

# C-13: "plain 49.0 (word 0) or 49A (1)"
CHOICES = (0, 1)

# identifier, held indicator, four counts of three words, then the choice
CHOICE_PLACE = 2 + 3 * len(COUNTED_TYPES)
SLOTS_PLACE = CHOICE_PLACE + 1

# all these, and 74 words of fields
RECORD_WORDS = SLOTS_PLACE + sum(FIXED_WORDS.values())


def layout_length(streams):
    """The words of the layout of so many streams."""
    return 1 + RECORD_WORDS * streams


# The state word, field 16.  Source document 004, table 5-4, has an enable and a value
# for each indicator: six are persistent, two have a life of one data packet.

PERSISTENT = {
    31: 19,  # calibrated time
    30: 18,  # valid data
    29: 17,  # reference lock
    28: 16,  # AGC
    27: 15,  # detected signal
    26: 14,  # spectral inversion
}
ONE_DATA_PACKET = {
    25: 13,  # over-range
    24: 12,  # sample loss
}

# C-11: "user bits 7-0 are replaced together"
USER_BITS = tuple(range(8))


def is_set(word, bit):
    return bits(word, bit, bit) == 1


def spoken_of(word):
    """The bits of what is held that a state word replaces."""
    # C-11: "an indicator counts only if its enable is set"; "an enabled persistent
    # indicator replaces its held enable and value, one not enabled stays, over-range
    # and sample loss (25/13, 24/12) are never held, and user bits 7-0 are replaced
    # together".
    spoken = list(USER_BITS)
    for enable, value in PERSISTENT.items():
        if is_set(word, enable):
            spoken += [enable, value]
    return spoken


def state_after(held, word):
    """The state word that is held after one that a packet carries."""
    spoken = spoken_of(word)
    return sum(2**bit for bit in range(32) if is_set(word if bit in spoken else held, bit))


def state_good(word):
    """Whether a state word, its field rule kept, is one that can be held."""
    # C-11: "a page that holds field 22, those bits or a value without its enable is
    # PAGE, a table likewise TABLE", those bits being "25/13, 24/12".
    for pair in ONE_DATA_PACKET.items():
        if any(is_set(word, bit) for bit in pair):
            return False
    return all(
        is_set(word, enable) for enable, value in PERSISTENT.items() if is_set(word, value)
    )


# Starting.


def fresh_stream(identifier, choice):
    # "it starts as zeroed words apart from the list"; C-13: "Demands 2 and 3 count it as
    # part of the list."
    return {
        "identifier": identifier,
        "choice": choice,
        "counts": {kind: {"seen": 0, "missing": 0, "last": None} for kind in COUNTED_TYPES},
        "held": {},
    }


def list_refused(ids, choices):
    # "0 or over 32 identifiers, or one twice"
    if len(ids) == 0 or len(ids) > 32 or len(set(ids)) != len(ids):
        return True
    # C-13: "The caller chooses plain 49.0 (word 0) or 49A (1) for each stream in the list
    # ...  Another word, or choices unlike the identifiers in number, is LIST."
    return len(choices) != len(ids) or any(choice not in CHOICES for choice in choices)


def start(ids, choices, room):
    """('refused', number) or ('started', table), for a lent table of so many
    words."""
    # "Start: LIST, ROOM."
    if list_refused(ids, choices):
        return ("refused", LIST)
    # "a buffer to be written is too short"
    if room < layout_length(len(ids)):
        return ("refused", ROOM)
    return ("started", [fresh_stream(*pair) for pair in zip(ids, choices)])


# Playing.


def choice_of(table, words):
    """How the words of a packet are read."""
    # C-13: "The choice governs type 1 only; other types, packets of no declared stream
    # ... stay plain."  The identifier of type 1 is word 1.
    if len(words) >= 2 and vrt49.type_of(words[0]) == 1:
        for stream in table:
            if stream["identifier"] == words[1]:
                return stream["choice"]
    return 0


def read(table, words):
    """The answer of reading, by the choice of the packet's stream."""
    if choice_of(table, words) == 0:
        return vrt49.read(words)
    answer = vrt49.read_survey(words)
    if answer[0] == "refused":
        return answer
    packet, _ = answer[1]
    return ("accepted", packet)


def stream_of(table, packet):
    """The number of the stream that a packet is of, or None."""
    # "no identifier (types 0, 2), one not declared"
    if packet.type not in COUNTED_TYPES:
        return None
    # "stream number (place in the list, from 0)"
    for place, stream in enumerate(table):
        if stream["identifier"] == packet.identifier:
            return place
    return None


def stream_place(header):
    # C-15: "the identifier, or the header if none, for STREAM"
    if vrt49.identifier_words(header) == 0:
        return 0
    return vrt49.identifier_place(header)


def missing_added(count, number):
    """What a packet with this number adds to the missing of its count."""
    # "The first packet adds nothing to missing; later ones add (count - last -
    # 1) modulo 16.  An equal count adds 15."
    if count["last"] is None:
        return 0
    return (number - count["last"] - 1) % 16


def play(table, words):
    """('refused', number, place, bit) or ('played', size, type, stream, missing added).
    The bit is None but for FIELD.  A packet that is played changes the table."""
    # "Play: TABLE, read order, STREAM."  These dictionaries are those of a
    # well-made table.
    answer = read(table, words)
    if answer[0] == "refused":
        # C-15: "Play passes it on"
        return answer
    packet = answer[1]
    place = stream_of(table, packet)
    if place is None:
        return ("refused", STREAM, stream_place(words[0]), None)
    stream = table[place]
    # "Each has seen and missing, both kept modulo 2^32, and the last count."
    count = stream["counts"][packet.type]
    added = missing_added(count, packet.count)
    count["seen"] = (count["seen"] + 1) % 2**32
    count["missing"] = (count["missing"] + added) % 2**32
    count["last"] = packet.count
    # "An accepted Context packet replaces each field from bits 30 to 10 that it
    # carries, whole", but for the state word and field 22.
    if packet.type == 4:
        body = words[packet.body : packet.body + packet.length]
        for bit, at, length in vrt49.fields(body):
            if bit == STATE_BIT:
                # Nothing held is no indicator and no user bit.
                before = stream["held"].get(bit, [0])
                stream["held"][bit] = [state_after(before[0], body[at])]
            elif bit in HELD_BITS:
                stream["held"][bit] = body[at : at + length]
    # "Play answers size, type, stream number (place in the list, from 0) and
    # missing added."
    return ("played", packet.size, packet.type, place, added)


# The words of a table.


def record_of(stream):
    """The 89 words of one stream."""
    words = [stream["identifier"], sum(2**bit for bit in stream["held"])]
    for kind in COUNTED_TYPES:
        count = stream["counts"][kind]
        # "seen, missing, last plus one or 0 if not started"
        words += [count["seen"], count["missing"]]
        words.append(0 if count["last"] is None else count["last"] + 1)
    words.append(stream["choice"])
    for bit in FIELD_BITS:
        words += stream["held"].get(bit, [0] * FIXED_WORDS[bit])
    return words


def layout(table):
    """The words of a table."""
    words = [len(table)]
    for stream in table:
        words += record_of(stream)
    return words


# Words that are to be a table.


def records(words):
    """The records of the words, when the whole layout is there."""
    return [
        words[layout_length(place) : layout_length(place + 1)] for place in range(words[0])
    ]


def count_words(record):
    """The three words of each count of a record, by type."""
    return {
        kind: record[2 + 3 * place : 5 + 3 * place] for place, kind in enumerate(COUNTED_TYPES)
    }


def slots(record):
    """The words of each of the fields 30 to 10 of a record, held or not, by
    bit."""
    found = {}
    place = SLOTS_PLACE
    for bit in FIELD_BITS:
        found[bit] = record[place : place + FIXED_WORDS[bit]]
        place = place + FIXED_WORDS[bit]
    return found


def held_bit(record, bit):
    return is_set(record[1], bit)


# What well made means, rule by rule.  The first two take all the words and say
# whether the rule is kept; the others take the records.


def whole_layout(words):
    # "the whole layout is there"
    return len(words) >= 1 and len(words) >= layout_length(words[0])


def right_number(words):
    # "a valid list": not "0 or over 32 identifiers"
    return len(words) >= 1 and 1 <= words[0] <= 32


def different_identifiers(found):
    # "a valid list": not "one twice"
    return len({record[0] for record in found}) == len(found)


def right_choices(found):
    # "a valid list"; C-13: "plain 49.0 (word 0) or 49A (1) for each stream in the list"
    return all(record[CHOICE_PLACE] in CHOICES for record in found)


def only_fields_held(found):
    # "Bits 31, 9 and 8 are not held", C-11 adds 22, and bits 7 to 0 have no field:
    # "words of no stated meaning zero"
    return all(
        not held_bit(record, bit)
        for record in found
        for bit in range(32)
        if bit not in HELD_BITS
    )


def unheld_zero(found):
    # "unheld fields ... zero"; the word of field 22 is always that of one
    return all(
        bit in HELD_BITS and held_bit(record, bit) or not any(field)
        for record in found
        for bit, field in slots(record).items()
    )


def held_kept(found):
    # "held fields obey their rules"
    return all(
        FIELD_RULES[bit](field)
        for record in found
        for bit, field in slots(record).items()
        if held_bit(record, bit) and bit in FIELD_RULES
    )


def states_good(found):
    # C-11: "those bits or a value without its enable"
    return all(
        state_good(slots(record)[STATE_BIT][0]) for record in found if held_bit(record, STATE_BIT)
    )


def not_started_zero(found):
    # "a count not started has zeros"
    return all(
        last_plus_one != 0 or (seen == 0 and missing == 0)
        for record in found
        for seen, missing, last_plus_one in count_words(record).values()
    )


def last_at_most_15(found):
    # "a last count is at most 15"
    return all(
        last_plus_one <= 16
        for record in found
        for _, _, last_plus_one in count_words(record).values()
    )


def held_after_start(found):
    # "no field held unless type 4 has started"
    return all(
        count_words(record)[4][2] != 0 or not any(held_bit(record, bit) for bit in HELD_BITS)
        for record in found
    )


RULES_OF_WORDS = (
    ("layout", whole_layout),
    ("number", right_number),
)
RULES_OF_RECORDS = (
    ("identifiers", different_identifiers),
    ("choice", right_choices),
    ("indicator", only_fields_held),
    ("unheld", unheld_zero),
    ("field", held_kept),
    ("state", states_good),
    ("not started", not_started_zero),
    ("last", last_at_most_15),
    ("type 4", held_after_start),
)


def broken_rules(words):
    """The names of the rules that a lent table breaks.  The records are looked
    at when the layout is there and the number of streams is right."""
    # "words past it are neither read nor changed"
    broken = [name for name, kept in RULES_OF_WORDS if not kept(words)]
    if not broken:
        found = records(words)
        broken = [name for name, kept in RULES_OF_RECORDS if not kept(found)]
    return broken


def well_made(words):
    return broken_rules(words) == []


def table_of(words):
    """The table that well-made words are."""
    table = []
    for record in records(words):
        counts = {}
        for kind, (seen, missing, last_plus_one) in count_words(record).items():
            last = None if last_plus_one == 0 else last_plus_one - 1
            counts[kind] = {"seen": seen, "missing": missing, "last": last}
        held = {bit: field for bit, field in slots(record).items() if held_bit(record, bit)}
        choice = record[CHOICE_PLACE]
        stream = {"identifier": record[0], "choice": choice, "counts": counts, "held": held}
        table.append(stream)
    return table


# The same with the words of a lent table.


def start_lent(ids, choices, lent):
    """('refused', number) or ('started', words of the layout), and the lent
    table afterwards."""
    answer, what = start(ids, choices, len(lent))
    # "A refusal returns its number alone and writes nothing."
    if answer == "refused":
        return (answer, what), list(lent)
    words = layout(what)
    return (answer, len(words)), words + lent[len(words) :]


def play_lent(lent, words):
    """The answer of play, and the lent table afterwards."""
    # "Play: TABLE, read order, STREAM."  C-15: "TABLE none", no place.
    if not well_made(lent):
        return ("refused", TABLE, None, None), list(lent)
    table = table_of(lent)
    answer = play(table, words)
    if answer[0] == "refused":
        return answer, list(lent)
    # "A lent table may be longer than its layout: words past it are neither
    # read nor changed."
    after = layout(table)
    return answer, after + lent[len(after) :]
