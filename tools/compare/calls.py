"""The calls of include/vrt49.h: for each, cases and what the reference says of
them.

A case is what the call is lent, in the order of the header, and what is expected:
the number, and the entries afterwards of the buffers that change.  What document
01 leaves to the header is said here in its words.
"""

from array import array
from collections import namedtuple

import index
import making
import page
import panel
import payload
import streams
import table
import vrt49
import vrt49_write
from making import ONES

MOST_ITEMS = 2_097_120

# Buffers that a call writes begin as noise, the same words in drive.c.
NOISE = 65536
CONTENTS_FOLLOW = 0xFFFFFFFF


def noise_words():
    made, x = [], 1
    for _ in range(NOISE):
        x = (x * 1664525 + 1013904223) & ONES
        made.append(x ^ x >> 16)
    return made


_noise = noise_words()
NOISE_OF = {
    "I": array("I", _noise),
    "Q": array("Q", [w << 32 | w ^ ONES for w in _noise]),
    "H": array("H", [w & 0xFFFF for w in _noise]),
    "B": array("B", [w & 0xFF for w in _noise]),
}

Buffer = namedtuple("Buffer", "entries place")


def given(entries, code="I"):
    """A buffer with these contents."""
    return Buffer(array(code, entries), CONTENTS_FOLLOW)


def noisy(r, n, code="I"):
    """A buffer of n entries of noise."""
    place = r.randrange(NOISE)
    noise = NOISE_OF[code]
    if place + n > NOISE:
        noise = noise * (2 + n // NOISE)
    return Buffer(noise[place : place + n], place)


def put(buffer, front):
    """The entries of a buffer when its first ones are these."""
    return array(buffer.entries.typecode, front) + buffer.entries[len(front) :]


# What a case lends, the number, and {place among the lent: entries afterwards}.
Case = namedtuple("Case", "lent number after")


def refused(lent, number):
    return Case(lent, number, {})


def refused_at(lent, said):
    """A case of a call that says where it refuses, as vrt49_read does: said is the
    reference's ('refused', number, place, bit).  "its number, in bits 7-0; of FIELD the
    bit of the field, in bits 15-8 ...; and the place of the word that is refused, in
    bits 31-16"; TABLE has no place."""
    _, number, place, bit = said
    return refused(lent, number | (bit or 0) << 8 | (place or 0) << 16)


def length_place(r):
    """The place of a length, which is a size_t."""
    return noisy(r, 1, "Q")


def around(r, n):
    """A number of entries that is enough or just not."""
    return max(0, n + r.choice((0, 0, 0, 0, 1, 2, 5, 20, -1, -1, -r.randrange(n + 1))))


# Packets.


def packet_entries(p):
    """The eighteen words of a packet that was read."""
    return [
        p.type, p.class_flag, p.trailer_flag, p.tsm, p.tsi, p.tsf, p.count, p.size, p.identifier,
        p.oui, p.information, p.packet, p.seconds, p.fraction >> 32, p.fraction & ONES, p.body,
        p.length, p.trailer,
    ]


def read_of(words, answer):
    lent = [words, answer]
    said = vrt49.read(list(words.entries))
    if said[0] == "refused":
        return refused_at(lent, said)
    return Case(lent, 0, {1: put(answer, packet_entries(said[1]))})


def read(r):
    if r.randrange(500) == 0:
        return read_of(given(long_packet(r)), noisy(r, 18))
    return read_of(given(making.some_packet(r)), noisy(r, 18))


def long_packet(r):
    """A packet of about as many words as a size can say."""
    made = making.parts(r, r.choice((1, 2, 4)))
    made.trailer_flag = 0
    room = r.choice((65535, 65535, 65534, 65000)) - vrt49.body_place(vrt49_write.without_size(made))
    words = vrt49_write.packet_words(made, long_body(r, made.type, room))
    return r.choice((words, words, words[:-1], words + [0, 1]))


def long_body(r, kind, n):
    if kind == 4:
        # GPS ASCII, or lists that vectors fill
        front = [1 << 9, 7, n - 3]
        if n - 3 < 65536 and r.randrange(2):
            front = [1 << 8, 0, (n - 3) << 16]
        return front + list(noisy(r, n - 3).entries)
    return list(noisy(r, n).entries)


def parts_words(p):
    return [
        p.type, p.class_flag, p.trailer_flag, p.tsm, p.tsi, p.tsf, p.count, p.identifier, p.oui,
        p.information, p.packet, p.seconds, p.fraction >> 32, p.fraction & ONES, p.trailer,
    ]


def write_of(parts, body, out, at, length):
    lent = [parts, body, out, at, length]
    p = parts.entries
    # "VALUE (also for C, T or TSM above 1)"
    if p[0] <= 5 and max(p[1:4]) > 1:
        return refused(lent, vrt49_write.VALUE)
    asked = vrt49_write.Parts(*p[:12], p[12] << 32 | p[13], p[14])
    (said, number), after = vrt49_write.write(
        asked, list(body.entries), list(out.entries), at
    )
    if said == "refused":
        return refused(lent, number)
    return Case(lent, 0, {2: array("I", after), 4: put(length, [number])})


def write(r):
    p = making.parts(r)
    body = making.body_for(r, p.type)
    if r.randrange(4) == 0:
        body = making.some_body(r)
    if r.randrange(12) == 0:
        p.type = r.choice((0, 1, 2, 3, 4, 5, 6, 7, 15, 16, making.word(r)))
    if r.randrange(300) == 0:
        # about 65,535 words
        size = vrt49_write.packet_size(p, []) if p.type < 6 else 7
        n = 65535 - size + r.choice((-1, 0, 0, 1, 1, 2, 50))
        body = long_body(r, p.type, n)
    parts = parts_words(p)
    if r.randrange(6) == 0:
        # a number that may not fit, and now and then its flag
        which = r.choice((1, 2, 3, 4, 5, 6, 8, 9, 10))
        bits = {1: 1, 2: 1, 3: 1, 4: 2, 5: 2, 6: 4, 8: 24, 9: 16, 10: 16}[which]
        parts[which] = r.choice((1 << bits, (1 << bits) - 1, (1 << bits) + 1, 1 << 31, ONES, making.word(r)))
    if r.randrange(40) == 0:
        parts = making.words(r, 15)
    size = 20 + len(body)
    if parts[0] < 6 and max(parts[1:7]) < 16:
        size = vrt49_write.packet_size(vrt49_write.Parts(*parts[:12], 0, 0), body)
    at = r.choice((0, 0, 1, 3, r.randrange(20)))
    room = max(0, at + size + r.choice((0, 0, 0, 1, 7, r.randrange(30))))
    if r.randrange(6) == 0:
        room = r.choice((max(0, at + size - 1), r.randrange(at + size), at, max(0, at - 1)))
    if r.randrange(20) == 0:
        at = r.choice((room, room + 1, 2**32 - 1, 2**32, 2**63, 2**64 - 1, 2**64 - size))
    return write_of(given(parts), given(body), noisy(r, room), at, length_place(r))


def read_survey_of(words, answer):
    lent = [words, answer]
    said = vrt49.read_survey(list(words.entries))
    if said[0] == "refused":
        return refused_at(lent, said)
    packet, survey = said[1]
    return Case(lent, 0, {1: put(answer, packet_entries(packet) + list(survey))})


def read_survey(r):
    if r.randrange(500) == 0:
        return read_survey_of(given(long_survey(r)), noisy(r, 22))
    make = making.some_packet if r.randrange(4) == 0 else making.some_survey
    return read_survey_of(given(make(r)), noisy(r, 22))


def long_survey(r):
    """A survey packet of about as many words as a size can say."""
    made, _, _ = making.survey_parts(r)
    made.packet = r.choice((0, 1, 4, 65529, 65535))
    room = r.choice((65535, 65534, 65000)) - vrt49_write.packet_size(made, [])
    pad = r.choice((0, 0, 8, 31))
    words = vrt49_write.survey_words(made, pad, list(noisy(r, room).entries))
    return r.choice((words, words, words[:-1], words + [0, 1]))


def write_survey_of(parts, body, out, at, length):
    lent = [parts, body, out, at, length]
    p = parts.entries
    # as vrt49_write: flags above 1 are VALUE
    if p[0] <= 5 and max(p[1:4]) > 1:
        return refused(lent, vrt49_write.VALUE)
    asked = vrt49_write.Parts(*p[:12], p[12] << 32 | p[13], p[14])
    (said, number), after = vrt49_write.write_survey(
        asked, p[15], list(body.entries), list(out.entries), at
    )
    if said == "refused":
        return refused(lent, number)
    return Case(lent, 0, {2: array("I", after), 4: put(length, [number])})


def write_survey(r):
    if r.randrange(4) == 0:
        # a plain packet, of any type; the pad count is for no other than type 1
        p = making.parts(r)
        body, pad = making.body_for(r, p.type), r.choice((0, 0, 31, 32, making.word(r)))
        if r.randrange(3) == 0:
            body = making.some_body(r)
    else:
        p, pad, body = making.survey_parts(r)
        if r.randrange(3) == 0:
            p, pad, body = making.bent_survey(r, p, pad, body)
    if r.randrange(20) == 0:
        p.type = r.choice((0, 1, 2, 3, 4, 5, 6, 7, 15, 16, making.word(r)))
    if r.randrange(300) == 0 and p.type < 6:
        # about 65,535 words
        body = long_body(r, p.type, 65535 - vrt49_write.packet_size(p, []) + r.choice((0, 0, 1, 2)))
    parts = parts_words(p) + [pad]
    if r.randrange(8) == 0:
        # a number that may not fit
        which = r.choice((1, 2, 3, 4, 5, 6, 8, 9, 10, 15, 15, 15))
        bits = {1: 1, 2: 1, 3: 1, 4: 2, 5: 2, 6: 4, 8: 24, 9: 16, 10: 16, 15: 5}[which]
        parts[which] = r.choice((1 << bits, (1 << bits) - 1, (1 << bits) + 1, 1 << 27, ONES, making.word(r)))
    if r.randrange(60) == 0:
        parts = making.words(r, 16)
    size = 20 + len(body)
    if parts[0] < 6 and max(parts[1:7]) < 16:
        size = vrt49_write.packet_size(vrt49_write.Parts(*parts[:12], 0, 0), body)
    at = r.choice((0, 0, 1, 3, r.randrange(20)))
    room = at + size + r.choice((0, 0, 0, 1, 7, r.randrange(30)))
    if r.randrange(8) == 0:
        room = r.choice((max(0, at + size - 1), r.randrange(at + size), at, max(0, at - 1), 0))
    if r.randrange(25) == 0:
        at = r.choice((room, room + 1, 2**32 - 1, 2**32, 2**63, 2**64 - 1, 2**64 - size))
    return write_survey_of(given(parts), given(body), noisy(r, room), at, length_place(r))


def trailer_parts(r):
    word, answer = making.word(r), noisy(r, 4)
    return Case([word, answer], 0, {1: put(answer, vrt49.trailer_parts(word))})


def trailer_word(r):
    numbers = [r.getrandbits(bits) for bits in (12, 12, 1, 7)]
    if r.randrange(3) == 0:
        place = r.randrange(4)
        edge = 1 << (12, 12, 1, 7)[place]
        numbers[place] = r.choice((edge, edge - 1, edge + 1, ONES, making.word(r)))
    word = noisy(r, 1)
    lent = numbers + [word]
    said, what = vrt49_write.trailer_word(*numbers)
    if said == "refused":
        return refused(lent, what)
    return Case(lent, 0, {4: put(word, [what])})


# Fields.


def carried(indicator):
    """The bits of an indicator that have a field, from bit 30 downwards."""
    # bits 7 to 0 have none: document 01's table of words ends with bit 8
    return vrt49.carried_bits(indicator)


def field_count_of(indicator):
    return Case([indicator], len(carried(indicator)), {})


def field_count(r):
    return field_count_of(r.choice((making.word, making.indicator))(r))


def check_body_of(body):
    if len(body.entries) == 0:
        # the indicator word is not there: more words are needed than it has
        return refused([body], vrt49.LAYOUT)
    # as the body of a packet of type 4
    words = [4 << 28 | 2 + len(body.entries), 0] + list(body.entries)
    for number, applies in (
        (vrt49.INDICATOR, vrt49.indicator_refused),
        (vrt49.LAYOUT, vrt49.layout_refused),
        (vrt49.FIELD, vrt49.field_refused),
    ):
        if applies(words):
            return refused([body], number)
    return Case([body], 0, {})


def check_body(r):
    if r.randrange(500) == 0:
        return check_body_of(given(long_body(r, 4, r.choice((1000, 65533)))))
    return check_body_of(given(making.some_body(r)))


def found(body, bit):
    """Where a field stands: there, place and words.

    docs/DECISIONS.md has what document 01 does not say: words past the end of the
    body read as 0, bits 7 to 0 have no field, and a field that does not lie wholly
    inside the body is not there.
    """

    def word(place):
        return body[place] if place < len(body) else 0

    place = 1
    for there in carried(word(0)):
        if there == 9:
            count = vrt49.gps_ascii_words(word(place), word(place + 1))
        elif there == 8:
            count = vrt49.lists_words(word(place), word(place + 1))
        else:
            count = vrt49.FIXED_WORDS.get(there, 0)
        if there == bit and place + count <= len(body):
            return [1, place, count]
        place += count
    return [0, 0, 0]


def find(r):
    body = given(making.some_body(r))
    there = carried(body.entries[0]) if body.entries else []
    bit = r.choice(there) if there and r.randrange(3) else r.choice((r.randrange(40), making.word(r)))
    answer = noisy(r, 3, "Q")
    lent = [body, bit, answer]
    return Case(lent, 0, {2: put(answer, found(body.entries, bit))})


# Packed samples.


def some_count(r, first, second):
    """A number of items, mostly one that the format takes."""
    group = payload.group(first, second)
    if group > 1000 or (group > 100 and r.randrange(8)):
        return 0 if r.randrange(3) else r.randrange(100)
    n = group * r.choice((0, 1, 1, 2, 3, r.randrange(max(1, 100 // group) + 1)))
    if r.randrange(12) == 0 and n:
        # whole vectors more or fewer are whole groups only where the repeat is 1
        vectors = group // payload.repeat_of(second)
        return n + r.choice((-1, 1, r.randrange(5), vectors, -vectors))
    return n


def any_count(r, first, second):
    """A number of items, up to the most and past it, mostly one that the format takes."""
    group = payload.group(first, second)
    most = MOST_ITEMS // group
    n = r.choice((
        some_count(r, first, second), most * group, (most + 1) * group,
        group * r.randrange(most + 1), making.word(r),
    ))
    if r.randrange(10) == 0:
        n = r.choice((n + 1, max(0, n - 1), MOST_ITEMS, MOST_ITEMS + 1, n + 2**32, 2**64 - 1, r.getrandbits(64)))
    return n


def unpack_of(first, second, n, words, outs):
    lent = [first, second, n, words, *outs]
    said, what = payload.unpack(
        first, second, n, list(words.entries), [len(out.entries) for out in outs]
    )
    if said == "refused":
        return refused(lent, what)
    return Case(lent, 0, {4 + k: put(out, what[k]) for k, out in enumerate(outs)})


def unpack(r):
    first, second = making.payload_format(r)
    n = some_count(r, first, second)
    needed = 3 if payload.format_refused(first) else payload.words_for(first, n)
    if r.randrange(12) == 0:
        needed = around(r, needed)
    if r.randrange(60) == 0:
        n = r.choice((MOST_ITEMS, MOST_ITEMS + 1, 2**32, 2**64 - 1, making.word(r)))
    room = min(n, 5000)
    outs = [noisy(r, room + r.choice((0, 0, 1, 3)), code) for code in "QBH"]
    if r.randrange(10) == 0:
        place = r.randrange(3)
        outs[place] = noisy(r, r.choice((max(0, room - 1), r.randrange(room + 1))), "QBH"[place])
    return unpack_of(first, second, n, given(making.words(r, needed)), outs)


def pack_of(first, second, items, events, channels, out, length):
    lent = [first, second, items, events, channels, out, length]
    said, what = payload.pack(
        first, second, items.entries, events.entries, channels.entries, len(out.entries)
    )
    if said == "refused":
        return refused(lent, what)
    return Case(lent, 0, {5: put(out, what), 6: put(length, [len(what)])})


def pack(r):
    first, second = making.payload_format(r)
    n = some_count(r, first, second)
    sizes = (payload.item_size(first), payload.event_size(first), payload.channel_size(first))
    numbers = [[r.getrandbits(size) if r.randrange(8) else (1 << size) - 1 for _ in range(n)] for size in sizes]
    if r.randrange(10) == 0 and n:
        # one that may not fit
        place = r.randrange(3)
        most = (64, 8, 16)[place]
        edge = r.choice((1 << sizes[place], 1 << most - 1, (1 << most) - 1, r.getrandbits(most)))
        numbers[place][r.randrange(n)] = edge % (1 << most)
    if r.randrange(15) == 0:
        place = r.randrange(3)
        numbers[place] = numbers[place][:-1] if r.randrange(2) else numbers[place] + [0]
    needed = 3 if payload.format_refused(first) else payload.words_for(first, n)
    room = needed + r.choice((0, 0, 1, 4))
    if r.randrange(10) == 0:
        room = around(r, needed)
    lent = [given(entries, code) for entries, code in zip(numbers, "QBH")]
    return pack_of(first, second, *lent, noisy(r, room), length_place(r))


def words_needed_of(r, first, second, n):
    length = length_place(r)
    lent = [first, second, n, length]
    said, what = payload.words_needed(first, second, n)
    if said == "refused":
        return refused(lent, what)
    return Case(lent, 0, {3: put(length, [what])})


def words_needed(r):
    first, second = making.payload_format(r)
    return words_needed_of(r, first, second, any_count(r, first, second))


def below(r, end):
    """A number below an end, often the first or the last; 0 where there is none."""
    return r.choice((0, end - 1, r.randrange(end), r.randrange(end))) if end else 0


def coordinates_case(r, first, second, n, item):
    coordinates = noisy(r, 4)
    lent = [first, second, n, item, coordinates]
    said, what = payload.coordinates_of(first, second, n, item)
    if said == "refused":
        return refused(lent, what)
    return Case(lent, 0, {4: put(coordinates, what)})


def coordinates_of(r):
    first, second = making.payload_format(r)
    n = any_count(r, first, second)
    item = below(r, n)
    if r.randrange(5) == 0:
        item = r.choice((n, n + 1, ONES, item + 2**32, 2**64 - 1, making.word(r), r.getrandbits(64))) % 2**64
    return coordinates_case(r, first, second, n, item)


def item_case(r, first, second, n, coordinates):
    item = noisy(r, 1, "Q")
    lent = [first, second, n, given(coordinates), item]
    said, what = payload.item_at(first, second, n, *coordinates)
    if said == "refused":
        return refused(lent, what)
    return Case(lent, 0, {4: put(item, [what])})


def item_at(r):
    first, second = making.payload_format(r)
    n = any_count(r, first, second)
    ends = payload.ends(first, second, n)
    coordinates = [below(r, end) % 2**32 for end in ends]
    if r.randrange(4) == 0:
        # one that is outside, mostly
        place = r.randrange(4)
        coordinates[place] = r.choice((ends[place], ends[place] + 1, ONES, 1 << 31, making.word(r))) % 2**32
    return item_case(r, first, second, n, coordinates)


def signed(r):
    width = r.randint(1, 64) if r.randrange(10) else r.choice((0, 1, 64, 65, ONES, making.word(r)))
    bits = min(width, 64)
    item = r.choice((r.getrandbits(64), r.getrandbits(bits) if bits else 0, (1 << bits) - 1, 1 << max(0, bits - 1)))
    if r.randrange(5) == 0:
        item = (1 << bits) % 2**64
    elif r.randrange(8):
        item %= 1 << bits
    value = noisy(r, 1, "Q")
    lent = [width, item, value]
    said, what = payload.signed(width, item)
    if said == "refused":
        return refused(lent, what)
    return Case(lent, 0, {2: put(value, [what % 2**64])})


# Tables.


def start_of(ids, choices, lent_table, length):
    lent = [ids, choices, lent_table, length]
    (said, what), after = table.start_lent(
        list(ids.entries), list(choices.entries), list(lent_table.entries)
    )
    if said == "refused":
        return refused(lent, what)
    return Case(lent, 0, {2: array("I", after), 3: put(length, [what])})


def start(r):
    n = r.choice((making.streams(r), r.randrange(36), 0, 31, 32, 33))
    ids = making.identifiers(r, n)
    if n > 1 and r.randrange(6) == 0:
        ids[r.randrange(n)] = ids[r.randrange(n)]
    choices = [r.randrange(2) for _ in ids]
    if r.randrange(12) == 0:
        choices = r.choice((choices[:-1], choices + [0], choices + [1], [], [0] * 32))
    if choices and r.randrange(12) == 0:
        choices[r.randrange(len(choices))] = r.choice((2, 3, 256, 1 << 31, ONES, making.word(r)))
    room = table.layout_length(n) + r.choice((0, 0, 0, 1, 5, 100))
    if r.randrange(8) == 0:
        room = around(r, table.layout_length(n))
    return start_of(given(ids), given(choices), noisy(r, room), length_place(r))


def well_made(r):
    lent = making.some_table(r)
    if r.randrange(3) == 0 and lent[0:1] and 1 <= lent[0] <= 32 and len(lent) > making.RECORD:
        lent = making.bend_table(r, lent)
    if r.randrange(60) == 0:
        lent = making.words(r, r.choice((0, 1, 2, 89, 90, 91, 200)))
    return Case([given(lent)], 1 if table.well_made(lent) else 0, {})


def declared(r, lent):
    """An identifier that a table has, mostly."""
    if r.randrange(12) and lent and 1 <= lent[0] <= (len(lent) - 1) // making.RECORD:
        return lent[1 + making.RECORD * r.randrange(lent[0])]
    return making.word(r)


def sent(r, lent, kind, plain=making.packet, survey=making.survey):
    """A packet of one of a table's streams, mostly: of type 1 as the choice of its stream
    says, and now and then as it does not."""
    identifier = declared(r, lent)
    choices = [
        lent[at + making.CHOICE] for at in range(1, len(lent) - making.RECORD + 1, making.RECORD)
        if lent[at] == identifier
    ]
    asked = choices[0] if choices else r.randrange(2)
    if kind == 1 and (asked == 1) != (r.randrange(6) == 0):
        return survey(r, identifier)
    return plain(r, kind, identifier)


def lent_table(r):
    """A table for playing, saving and reading: mostly good, now and then of no words."""
    if r.randrange(100) == 0:
        return []
    if r.randrange(10) == 0:
        return making.some_table(r)
    return table.layout(making.some_streams(r)) + making.words(r, r.choice((0, 0, 0, 2)))


def play_of(lent_words, words, answer):
    lent = [lent_words, words, answer]
    said, after = table.play_lent(list(lent_words.entries), list(words.entries))
    if said[0] == "refused":
        return refused_at(lent, said)
    return Case(lent, 0, {0: array("I", after), 2: put(answer, said[1:])})


def play(r):
    lent = lent_table(r)
    kind = r.choice((1, 1, 1, 3, 4, 4, 4, 5)) if r.randrange(10) else None
    made = (making.packet, making.survey) if r.randrange(3) else (making.some_packet, making.some_survey)
    words = sent(r, lent, kind, *made)
    if r.randrange(60) == 0:
        words = []
    return play_of(given(lent), given(words), noisy(r, 4))


def run(lent, words, start_at, entries):
    """Plays packets from a place on: ('refused', number), or ('ran', packets, place
    reached) with five words for each packet; and the table afterwards.

    It stops when no word is left, when there is no room for another entry, and at
    a refusal other than STREAM, which goes on by the size.  A refusal's entry has its
    place and its bit in the words of type and stream.
    """
    if not table.well_made(lent):
        return ("refused", table.TABLE), [], list(lent)
    made, place, written = table.table_of(lent), start_at, []
    while place < len(words) and len(written) < 5 * entries:
        answer = table.play(made, words[place:])
        if answer[0] == "played":
            _, size, kind, stream, missing = answer
            written += [0, size, kind, stream, missing]
        else:
            _, number, offset, bit = answer
            size = vrt49.size_of(words[place]) if number == table.STREAM else 0
            written += [number, size, offset, bit or 0, 0]
        place += size
        if size == 0:
            break
    after = table.layout(made)
    return ("ran", len(written) // 5, place), written, after + lent[len(after) :]


def play_run_of(r, lent, words, start_at, room):
    answer, packets, after_them = noisy(r, room), length_place(r), length_place(r)
    args = [given(lent), given(words), start_at, answer, packets, after_them]
    said, written, after = run(lent, words, start_at, room // 5)
    if said[0] == "refused":
        return refused(args, said[1])
    return Case(args, 0, {
        0: array("I", after), 3: put(answer, written), 4: put(packets, said[1:2]), 5: put(after_them, said[2:]),
    })


def play_run(r):
    lent = lent_table(r)
    words, places = [], []
    for _ in range(r.choice((0, 1, 2, 3, 5, 8, r.randrange(20)))):
        places.append(len(words))
        made = sent(r, lent, r.choice((0, 1, 1, 1, 3, 4, 4, 5, 2)))
        words += making.bent_packet(r, made) if r.randrange(10) == 0 else made
    if r.randrange(12) == 0:
        words = making.bent(r, words)
    start_at = 0 if r.randrange(3) else r.choice(places or [0])
    if r.randrange(20) == 0:
        start_at = r.choice((len(words), len(words) + 1, 2**32, 2**64 - 1, r.randrange(len(words) + 1)))
    room = r.choice((5 * len(places), 5 * len(places) + r.randrange(12), r.randrange(5 * len(places) + 1), 500))
    return play_run_of(r, lent, words, start_at, room)


# Pages.


def page_length_of(r, lent):
    length = length_place(r)
    args = [given(lent), length]
    said, what = page.page_length(lent)
    if said == "refused":
        return refused(args, what)
    return Case(args, 0, {1: put(length, [what])})


def page_length(r):
    return page_length_of(r, lent_table(r))


def save_of(r, lent, room):
    out, length = noisy(r, room), length_place(r)
    args = [given(lent), out, length]
    (said, what), after = page.save(lent, list(out.entries))
    if said == "refused":
        return refused(args, what)
    return Case(args, 0, {1: array("I", after), 2: put(length, [what])})


def save(r):
    lent = lent_table(r)
    said, needed = page.page_length(lent)
    room = 100 if said == "refused" else needed + r.choice((0, 0, 1, 3, 50))
    if r.randrange(8) == 0:
        room = around(r, room)
    return save_of(r, lent, room)


def put_back(r):
    made = page.page_of(making.some_streams(r))
    streams = made[0]
    if r.randrange(2):
        made = making.bend_page(r, made)
    if r.randrange(40) == 0:
        made = making.words(r, r.choice((0, 1, 2, 18, 19, 20, 36)))
    room = table.layout_length(streams) + r.choice((0, 0, 1, 4, making.RECORD))
    if r.randrange(8) == 0:
        room = around(r, table.layout_length(streams))
    out, length = noisy(r, room), length_place(r)
    args = [given(made), out, length]
    (said, what), after = page.put_back(made, list(out.entries))
    if said == "refused":
        return refused(args, what)
    return Case(args, 0, {1: array("I", after), 2: put(length, [what])})


# Indexes.


def index_of(r, pages, packets, places, room=0):
    """The words of an index with these pages, one for each entry: so many packets, the word
    places of its entries and of the boundary reached, noise in the entries that are not used,
    and room behind the pages."""
    made = [len(pages), packets, *index.two_words(places[-1])]
    offset = index.CONTENTS_WORDS
    for place, one in zip(places, pages):
        made += [*index.two_words(place), offset, len(one)]
        offset += len(one)
    made += noisy(r, index.CONTENTS_WORDS - len(made)).entries
    return [*made, *(word for one in pages for word in one), *noisy(r, room).entries]


def some_index(r, pages, left=None):
    """An index of some entries, all of them of one of these pages; left: the packets from the
    last entry to the boundary reached."""
    entries = r.choice((1, 1, 2, 3, 5, r.randrange(1, 40)))
    packets = index.EVERY * (entries - 1)
    places = [r.randrange(index.MOST_PACKET_WORDS * index.EVERY * entry + 1) for entry in range(entries)]
    packets += r.choice((0, 1, 2, 700, 1022, 1023, r.randrange(1024))) if left is None else left
    places.append(r.randrange(index.MOST_PACKET_WORDS * packets + 1))
    return index_of(r, [r.choice(pages) for _ in range(entries)], packets, places, r.choice((0, 0, 1, 50)))


def high_place(r, most):
    """A word place of at most so many words, often beside a multiple of 2^32."""
    if r.randrange(4) == 0:
        return r.randrange(most + 1)
    return min(most, r.choice((1, 1, 1, 2, 15)) * 2**32 + r.randrange(-70, 6))


def high_index(r, one, left=None):
    """An index of so many entries that places have two words, and an entry of it: that one has
    the page, and the others have pages of no words."""
    entries = r.choice((66, 66, 67, 130, r.randrange(66, index.MOST_ENTRIES + 1)))
    entry = r.randrange(65, entries)
    packets = index.EVERY * (entries - 1) + (r.choice((0, 1, 8, 1022, 1023)) if left is None else left)
    most = index.MOST_PACKET_WORDS
    places = [r.randrange(most * index.EVERY * number + 1) for number in range(entries)]
    places[entry] = high_place(r, most * index.EVERY * entry)
    places.append(high_place(r, most * packets))
    pages = [one if number == entry else [] for number in range(entries)]
    return index_of(r, pages, packets, places, r.choice((0, 0, 1, 50))), entry


def bent_index(r, words):
    """One word of the contents changed, or the words cut."""
    bent = list(words)
    if r.randrange(6) == 0:
        return bent[: r.choice((0, 4, 4099, len(bent) - 1, r.randrange(len(bent))))]
    place = r.choice((0, 1, 2, 3, *(4 + 4 * r.randrange(bent[0]) + k for k in range(4))))
    bent[place] = r.choice((bent[place] + 1, bent[place] - 1, bent[place] ^ 1 << r.randrange(32), 0)) % 2**32
    return bent


def start_index_of(r, lent, room):
    out, length = noisy(r, room), length_place(r)
    args = [given(lent), out, length]
    (said, what), after = index.start_index(lent, list(out.entries))
    if said == "refused":
        return refused(args, what)
    return Case(args, 0, {1: array("I", after), 2: put(length, [what])})


def start_index(r):
    lent = lent_table(r)
    said, needed = page.page_length(lent)
    room = index.CONTENTS_WORDS + (100 if said == "refused" else needed)
    room = around(r, room) if r.randrange(3) == 0 else room + r.choice((0, 0, 1, 50))
    return start_index_of(r, lent, r.choice((room, room, room, 0)) if r.randrange(20) == 0 else room)


def grow_of(r, lent, words, kept):
    answer = noisy(r, 5)
    args = [given(lent), given(words), given(kept), answer]
    said, table_after, after = index.grow(lent, words, kept)
    if said[0] == "refused":
        return refused_at(args, said)
    entry = [0, *said[1:]] if said[0] == "heard" else [table.STREAM, *said[1:], 0, 0]
    return Case(args, 0, {0: array("I", table_after), 2: array("I", after), 3: put(answer, entry)})


def grow(r):
    lent = lent_table(r)
    good = table.well_made(lent)
    own = page.page_of(table.table_of(lent)) if good else page.page_of(making.some_streams(r, 1))
    left = r.choice((None, None, 1023))
    kept = some_index(r, [own], left) if r.randrange(4) else high_index(r, own, left)[0]
    # at a boundary the page behind the packet fits, or just does not, mostly
    if r.randrange(2):
        kept += noisy(r, len(own) + r.choice((-1, 0, 0, 1, 20, 80))).entries
    if r.randrange(8) == 0:
        kept = bent_index(r, kept)
    if r.randrange(60) == 0:
        kept = []
    kind = r.choice((0, 1, 1, 1, 2, 3, 4, 4, 4, 5))
    made = (making.packet, making.survey) if r.randrange(3) else (making.some_packet, making.some_survey)
    words = sent(r, lent, kind, *made)
    if r.randrange(60) == 0:
        words = []
    return grow_of(r, lent, words, kept)


def jump_of(r, words, first, kept, n, room):
    lent, length, place = noisy(r, room), length_place(r), noisy(r, 1, "Q")
    args = [given(words), first, given(kept), n, lent, length, place]
    said, after = index.jump(words, first, kept, n, list(lent.entries))
    if said[0] == "refused":
        return refused(args, said[1])
    return Case(args, 0, {4: array("I", after), 5: put(length, said[1:2]), 6: put(place, said[2:])})


def jump(r):
    """A jump over few packets, from an entry that stands somewhere in a recording."""
    streams = making.some_streams(r)
    lent, words = table.layout(streams), []
    for _ in range(r.choice((0, 1, 2, 3, 5, 8))):
        made = sent(r, lent, r.choice((0, 1, 1, 1, 3, 4, 4, 5, 2)))
        words += making.bent_packet(r, made) if r.randrange(25) == 0 else made
    own = page.page_of(streams)
    kept, entry = (some_index(r, [own]), None) if r.randrange(4) else high_index(r, own)
    entry = r.randrange(kept[0]) if entry is None else entry
    n = index.EVERY * entry + r.choice((0, 0, 1, 2, 3, 5, 8))
    place = index.place_of(kept, entry)
    first = max(0, place - r.choice((0, 0, 0, 1, 30)))
    words = making.words(r, place - first) + words
    if r.randrange(3) == 0 and kept[1] < n <= index.EVERY * kept[0]:
        kept[1] = n if n < index.EVERY * kept[0] else kept[1]
    if r.randrange(10) == 0:
        ends = (place + len(words), place + len(words) + 1, 2**64 - 1, 2**32)
        first = r.choice((0, first + 1, first ^ 2**32, first + 2**32, place % 2**32, *ends))
    if r.randrange(10) == 0:
        n = r.choice((kept[1], kept[1] + 1, 2**32, 2**32 + n, 2**64 - 1))
    if r.randrange(10) == 0:
        kept = bent_index(r, kept)
    if r.randrange(10) == 0 and len(kept) > index.CONTENTS_WORDS:
        kept[r.randrange(index.CONTENTS_WORDS, len(kept))] ^= 1 << r.randrange(32)
    if r.randrange(60) == 0:
        words, kept = r.choice((([], kept), (words, [])))
    room = table.layout_length(len(streams))
    room = around(r, room) if r.randrange(6) == 0 else room + r.choice((0, 1, making.RECORD))
    return jump_of(r, words, first, kept, n, 0 if r.randrange(60) == 0 else room)


# The panel.


def some_place(r, lent):
    """A stream and a bit, mostly of a field that the table holds."""
    streams = lent[0] if lent and 1 <= lent[0] <= 32 else 1
    stream = r.randrange(streams)
    place = 2 + making.RECORD * stream
    held = lent[place] if len(lent) > place else 0
    bits = [bit for bit in table.HELD_BITS if held >> bit & 1]
    bit = r.choice(bits) if bits and r.randrange(6) else r.choice((*range(10, 31), 22, 22, 22))
    if r.randrange(15) == 0:
        stream = r.choice((streams, streams + 1, 32, 2**32, 2**32 + stream, 2**64 - 1))
    if r.randrange(15) == 0:
        bit = r.choice((0, 8, 9, 31, 32, 32 + bit, 256 + bit, ONES, making.word(r)))
    return stream, bit


def panel_table(r):
    """A table for readings: the fields that are shown are held more often."""
    if r.randrange(3):
        return lent_table(r)
    made = making.some_streams(r, r.choice((1, 1, 2)))
    for stream in made:
        if stream["counts"][4]["last"] is not None:
            for bit in r.sample((29, 28, 27, 26, 25, 21, 24, 23, 18), 4):
                stream["held"][bit] = making.field(r, bit)
    return table.layout(made)


KINDS = {"frequency": 1, "level": 2, "gain": 3, "temperature": 4, "other": 5, "absent": 6}


def float_word(value):
    """The word of the f32 that a value is exactly."""
    sign, exponent, fraction = panel.single(value)
    return sign << 31 | exponent << 23 | fraction


def reading_numbers(said):
    """A reading as numbers: its kind, parts, whole hertz and two levels."""
    if said[0] == "frequency":
        return KINDS[said[0]], said[2], said[1] % 2**64, 0, 0
    levels = [float_word(value) for value in said[1:]]
    return KINDS[said[0]], 0, 0, *levels, *[0] * (2 - len(levels))


def reading_of(r, lent, stream, bit):
    kind, parts_place, hertz, levels = noisy(r, 1), noisy(r, 1), noisy(r, 1, "Q"), noisy(r, 2)
    args = [given(lent), stream, bit, kind, parts_place, hertz, levels]
    said = panel.reading(lent, stream, bit)
    if said[0] == "refused":
        return refused(args, said[1])
    number, parts, whole, *shown = reading_numbers(said)
    after = {3: put(kind, [number]), 4: put(parts_place, [parts]), 5: put(hertz, [whole]), 6: put(levels, shown)}
    return Case(args, 0, after)


def reading(r):
    lent = panel_table(r)
    return reading_of(r, lent, *some_place(r, lent))


def readings_of(r, lent, stream):
    """Entry i of each column is what a reading of bit 30 - i gives."""
    columns = [noisy(r, 21, code) for code in "IIQII"]
    args = [given(lent), stream, *columns]
    said = panel.readings(lent, stream)
    if said[0][0] == "refused":
        return refused(args, said[0][1])
    rows = map(reading_numbers, said)
    return Case(args, 0, {2 + i: put(*both) for i, both in enumerate(zip(columns, zip(*rows)))})


def readings(r):
    lent = panel_table(r)
    stream, _ = some_place(r, lent)
    return readings_of(r, lent, stream)


def held_words_of(r, lent, stream, bit, room):
    out, length = noisy(r, room), length_place(r)
    args = [given(lent), stream, bit, out, length]
    (said, what), after = panel.held_words(lent, stream, bit, list(out.entries))
    if said == "refused":
        return refused(args, what)
    return Case(args, 0, {3: array("I", after), 4: put(length, [what])})


def held_words(r):
    lent = panel_table(r)
    return held_words_of(r, lent, *some_place(r, lent), r.choice((0, 1, 2, 2, 13, 13, 13, 14, 20)))


# What a table says of a stream.


def identity_of(r, lent, stream):
    found = [noisy(r, 1) for _ in range(3)]
    args = [given(lent), stream, *found]
    said = streams.identity(lent, stream)
    if said[0] == "refused":
        return refused(args, said[1])
    # identifier, choice and held indicator
    return Case(args, 0, {2 + k: put(one, [said[1 + k]]) for k, one in enumerate(found)})


def identity(r):
    lent = lent_table(r)
    stream, _ = some_place(r, lent)
    return identity_of(r, lent, stream)


def counts(r):
    lent = lent_table(r)
    stream, _ = some_place(r, lent)
    kind = r.choice((1, 3, 4, 5)) if r.randrange(6) else r.choice((0, 2, 6, 7, 8, 257, ONES, making.word(r)))
    answer = noisy(r, 4)
    args = [given(lent), stream, kind, answer]
    said = streams.counts(lent, stream, kind)
    if said[0] == "refused":
        return refused(args, said[1])
    return Case(args, 0, {3: put(answer, [1, *said[1:]] if said[0] == "started" else [0, 0, 0, 0])})


def own_table_of(r, lent, stream, room):
    out, length = noisy(r, room), length_place(r)
    args = [given(lent), stream, out, length]
    (said, what), after = streams.own_table(lent, stream, list(out.entries))
    if said == "refused":
        return refused(args, what)
    return Case(args, 0, {2: array("I", after), 3: put(length, [what])})


def own_table(r):
    lent = lent_table(r)
    stream, _ = some_place(r, lent)
    return own_table_of(r, lent, stream, r.choice((0, 89, 90, 90, 90, 91, 120)))


def played_on(r, lent):
    """The table after some packets of its own streams; a table that is not well made stays."""
    for _ in range(r.randrange(4)):
        lent = table.play_lent(lent, sent(r, lent, r.choice((1, 4, 4))))[1]
    return lent


def changed_of(r, before, stream, after, other):
    fields = noisy(r, 1)
    args = [given(before), stream, given(after), other, fields]
    said, what = streams.changed(before, stream, after, other)
    if said == "refused":
        return refused(args, what)
    return Case(args, 0, {4: put(fields, [what])})


def changed(r):
    """A table and itself after some packets, its own table among them; or two tables that have nothing to do with each other."""
    before = panel_table(r)
    stream, _ = some_place(r, before)
    after, other = played_on(r, list(before)), stream
    if r.randrange(3) == 0:
        after = panel_table(r)
        other, _ = some_place(r, after)
    elif r.randrange(3) == 0:
        said, own = streams.own_table(before, stream, [0] * streams.OWN_WORDS)
        before, stream = (own, 0) if said[0] == "table" else (before, stream)
    return changed_of(r, before, stream, after, other)


# The calls in drive.c's order: what each takes (its letters, as there), how many
# cases, and the numbers that must occur; of the calls that say where they refuse, which
# are in PLACED, FIELD must occur for every field that has a rule.  SIZE does not occur
# for a page: it has at most 2,882 words.

PLACED = ("vrt49_read", "vrt49_read_survey", "vrt49_play", "vrt49_grow")

Call = namedtuple("Call", "name takes make cases occur")

CALLS = (
    Call("vrt49_read", "iI", read, 100000, tuple(range(11))),
    Call("vrt49_write", "iiIqL", write, 50000, (0, 2, 4, 7, 8, 9, 10, 13, 14, 15)),
    Call("vrt49_read_survey", "iI", read_survey, 60000, (*range(11), 20)),
    Call("vrt49_write_survey", "iiIqL", write_survey, 40000, (0, 2, 4, 7, 8, 9, 10, 13, 14, 15, 20)),
    Call("vrt49_trailer_parts", "wI", trailer_parts, 5000, (0,)),
    Call("vrt49_trailer_word", "wwwwI", trailer_word, 20000, (0, 14)),
    Call("vrt49_field_count", "w", field_count, 5000, tuple(range(24))),
    Call("vrt49_check_body", "i", check_body, 60000, (0, 8, 9, 10)),
    Call("vrt49_find", "iwL", find, 40000, (0,)),
    Call("vrt49_unpack", "wwqiLBH", unpack, 15000, (0, 13, 16, 17)),
    Call("vrt49_pack", "wwlbhIL", pack, 15000, (0, 13, 14, 16, 17)),
    Call("vrt49_words_needed", "wwqL", words_needed, 30000, (0, 16, 17)),
    Call("vrt49_coordinates_of", "wwqqI", coordinates_of, 30000, (0, 14, 16, 17)),
    Call("vrt49_item_at", "wwqiL", item_at, 30000, (0, 14, 16, 17)),
    Call("vrt49_signed", "wqL", signed, 20000, (0, 14, 16)),
    Call("vrt49_start", "iiIL", start, 10000, (0, 12, 13)),
    Call("vrt49_well_made", "i", well_made, 30000, (0, 1)),
    Call("vrt49_play", "IiI", play, 40000, (*range(12), 18, 20)),
    Call("vrt49_play_run", "IiqILL", play_run, 15000, (0, 18)),
    Call("vrt49_page_length", "iL", page_length, 6000, (0, 18)),
    Call("vrt49_save", "iIL", save, 10000, (0, 13, 18)),
    Call("vrt49_put_back", "iIL", put_back, 20000, (0, 13, 19)),
    Call("vrt49_start_index", "iIL", start_index, 2000, (0, 13, 18)),
    Call("vrt49_grow", "IiII", grow, 10000, (*range(11), 13, 18, 19, 20)),
    Call("vrt49_jump", "iqiqILL", jump, 8000, (0, 13, 19, 21)),
    Call("vrt49_reading", "iqwIILI", reading, 30000, (0, 11, 14, 18)),
    Call("vrt49_readings", "iqIILII", readings, 20000, (0, 11, 18)),
    Call("vrt49_held_words", "iqwIL", held_words, 15000, (0, 11, 13, 14, 18)),
    Call("vrt49_identity", "iqIII", identity, 8000, (0, 11, 18)),
    Call("vrt49_counts", "iqwI", counts, 12000, (0, 11, 14, 18)),
    Call("vrt49_own_table", "iqIL", own_table, 8000, (0, 11, 13, 18)),
    Call("vrt49_changed", "iqiqI", changed, 15000, (0, 11, 18)),
)
