"""Makes packets, bodies, formats, tables and pages for the cases: good ones, and
bent ones.

Every function takes a random.Random first.  What is made here need not be as
document 01 says; what it should give is asked of the reference.
"""

import table
import vrt49
import vrt49_write
from vrt49 import FIXED_WORDS, ITEM_CODES

ONES = 0xFFFFFFFF
TERA = 10**12

# Words at the edges of what the rules look at.
EDGES = (
    0, 1, 2, 15, 16, 17, 32, 0x7F, 0x80, 0xFF80, 0xFFFF, 0x10000, 0xFFFFFF,
    0x1000000, 0x7FFFFFFF, 0x80000000, 0xFFFFFF00, ONES,
)


def word(r):
    kind = r.randrange(8)
    if kind < 4:
        return r.getrandbits(32)
    if kind == 4:
        return r.getrandbits(r.randrange(33))
    if kind == 5:
        return 1 << r.randrange(32)
    return r.choice(EDGES)


def words(r, n):
    return [word(r) for _ in range(n)]


# Bending.


def bend_bit(r, made):
    """A bit changed, often one of the first words."""
    if not made:
        return [word(r)]
    bent = list(made)
    place = r.randrange(min(len(bent), 8) if r.randrange(2) else len(bent))
    bent[place] ^= 1 << r.randrange(32)
    return bent


def bend_word(r, made):
    if not made:
        return [word(r)]
    bent = list(made)
    place = r.randrange(min(len(bent), 8) if r.randrange(2) else len(bent))
    if r.randrange(3) == 0:
        bent[place] = (bent[place] + r.choice((1, ONES))) & ONES
    else:
        bent[place] = word(r)
    return bent


def bend_length(r, made):
    """Words taken away or put in, at the end or inside."""
    bent = list(made)
    kind = r.randrange(5)
    if kind == 0:
        return bent[: r.randrange(len(bent) + 1)]
    if kind == 1:
        return bent[:-1]
    if kind == 2:
        return bent + words(r, r.randrange(1, 4))
    place = r.randrange(len(bent) + 1)
    if kind == 3:
        return bent[:place] + bent[place + 1 :]
    return bent[:place] + [word(r)] + bent[place:]


def bent(r, made):
    return r.choice((bend_bit, bend_bit, bend_word, bend_length))(r, made)


# Formats.


def format_first(r):
    """The first word of a format that keeps its rule."""
    code = r.choice(ITEM_CODES)
    item = {14: 32, 15: 64}.get(code) or r.choice((1, r.randint(1, 64), r.randint(1, 16), 16, 32))
    event = min(r.choice((0, 0, r.randrange(8))), 64 - item)
    channel = min(r.choice((0, 0, r.randrange(16))), 64 - item - event)
    least = item + event + channel
    packing = r.choice((least, least, r.randint(least, 64), min(64, least + r.randrange(4))))
    link = r.randrange(2)
    if not link and 33 <= packing <= 63:
        # mostly one that packing takes
        packing, link = r.choice(((packing, 1), (64, 0), (64, 0), (packing, 0)))
    return (
        link * 2**31
        + r.randrange(3) * 2**29
        + code * 2**24
        + r.randrange(2) * 2**23
        + event * 2**20
        + channel * 2**16
        + (packing - 1) * 2**6
        + (item - 1)
    )


def format_second(r):
    """The second word of a format: repeat and vector are small, mostly, and many of them 1."""
    repeat, vector = (r.choice((0, 0, 0, 1, 2, r.randrange(8))) for _ in range(2))
    kind = r.randrange(8)
    if kind in (0, 1):
        vector = r.choice((r.randrange(200), r.getrandbits(16), 0xFFFF))
    if kind in (1, 2):
        repeat = r.choice((r.randrange(200), r.getrandbits(16), 0xFFFF))
    return repeat << 16 | vector


def payload_format(r):
    """The two words of a format, now and then bent."""
    pair = [format_first(r), format_second(r)]
    if r.randrange(10) == 0:
        pair[r.randrange(2)] ^= 1 << r.randrange(32)
    if r.randrange(50) == 0:
        pair = words(r, 2)
    return pair


# Fields and bodies.


def state_word(r):
    """A state word that keeps the rule of its field: any; or with few enables, their values
    and others set or not; or with the two indicators that are not held, alone or not."""
    kind = r.randrange(6)
    if kind < 2:
        return word(r) & ~0x00F00F00 & ONES
    enables = sum(1 << bit for bit in table.PERSISTENT if r.randrange(3) == 0)
    values = sum(1 << bit for bit in table.PERSISTENT.values() if r.randrange(2))
    brief = r.getrandbits(32) & 0x03003000
    user = r.choice((0, 0xFF, r.getrandbits(8)))
    return (enables | values | user, enables | values | brief | user, brief | user, user)[kind - 2]


def field(r, bit):
    """The words of a field of bits 30 to 10 that keeps its rule."""
    if bit == table.STATE_BIT:
        return [state_word(r)]
    made = words(r, FIXED_WORDS[bit])
    if bit in (29, 21):
        made[0] &= 0x7FFFFFFF
    if bit in (24, 18):
        made[0] &= 0xFFFF
    if bit == 17:
        made = [made[0] & 0xFFFFFF, made[1] & 0xFFFF]
    if bit == 15:
        made[0] = format_first(r)
    return made


def held_field(r, bit):
    """The words of a field as a table may hold it."""
    if bit == table.STATE_BIT:
        return [table.state_after(0, state_word(r))]
    return field(r, bit)


def gps_ascii(r):
    n = r.choice((0, 1, 2, r.randrange(12)))
    return [word(r) & 0xFFFFFF, n] + words(r, n)


def lists(r):
    source, system, vector, asynchronous = (r.choice((0, 0, 1, r.randrange(6))) for _ in range(4))
    twice = r.randrange(2)
    n = source + system + vector + asynchronous * (1 + twice)
    return [source * 2**16 + system, vector * 2**16 + twice * 2**15 + asynchronous] + words(r, n)


def indicator(r):
    """An indicator word with few, some, many or all of the bits 31 to 8."""
    kind = r.randrange(10)
    made = r.getrandbits(32)
    if kind < 6:
        made &= r.getrandbits(32) & r.getrandbits(32)
    elif kind == 6:
        made = r.choice((0, 1 << 31, 0x7FFFFC00, 0x7FFFFF00, ONES, 1 << 9, 1 << 8, 3 << 8))
    elif kind == 7:
        made = 1 << r.randrange(8, 31)
    return made & 0xFFFFFF00


def context_body(r):
    """A type 4 body as document 01 says; the state word and the over-range count are
    among its fields more often than others."""
    body = [indicator(r)]
    if r.randrange(4) == 0:
        body[0] |= r.choice((1 << 16, 1 << 16, 1 << 22, 1 << 22 | 1 << 16))
    for bit in range(30, 7, -1):
        if body[0] >> bit & 1:
            body += gps_ascii(r) if bit == 9 else lists(r) if bit == 8 else field(r, bit)
    return body


def break_rules(r, body):
    """A bit changed in the first two words of one of the fields of a good body, of two or
    of all, often one that the rule forbids; the layout mostly stays."""
    found = vrt49.fields(body)
    if not found:
        return bent(r, body)
    ruled = [f for f in found if f[0] in vrt49.FIELD_RULES] or found
    broken = list(body)
    for _, place, count in r.sample(ruled, r.choice((1, 1, 1, min(2, len(ruled)), len(ruled)))):
        broken[place + r.randrange(min(count, 2))] ^= 1 << r.choice((r.randrange(32), 31, 24, 16, 12, 23, 25, 9))
    return broken


def some_body(r):
    """A type 4 body, good or not."""
    kind = r.randrange(10)
    if kind < 4:
        return context_body(r)
    if kind < 6:
        return break_rules(r, context_body(r))
    if kind < 9:
        return bent(r, context_body(r))
    made = words(r, r.randrange(12))
    if made and r.randrange(3):
        made[0] &= 0xFFFFFF00
    return made


# Packets.


def fraction(r, tsf):
    kind = r.randrange(8)
    if kind == 0:
        return r.choice((0, TERA - 1, TERA, TERA + 1, 2**32 - 1, 2**32, 2**64 - 1, 232 * 2**32, 233 * 2**32))
    if kind == 1:
        return r.getrandbits(64)
    return r.randrange(TERA) if tsf == 2 else r.getrandbits(64)


def parts(r, kind=None, identifier=None):
    """The parts of a packet that writing takes, but for the time, mostly."""
    kind = r.choice((0, 1, 1, 2, 3, 4, 4, 4, 5)) if kind is None else kind
    tsi, tsf = r.randrange(4), r.randrange(4)
    return vrt49_write.Parts(
        type=kind,
        class_flag=r.randrange(2),
        trailer_flag=r.randrange(2) if kind < 4 else 0,
        tsm=r.randrange(2) if kind > 3 else 0,
        tsi=tsi,
        tsf=tsf,
        count=r.randrange(16),
        identifier=word(r) if identifier is None else identifier,
        oui=word(r) & 0xFFFFFF,
        information=word(r) & 0xFFFF,
        packet=word(r) & 0xFFFF,
        seconds=word(r),
        fraction=fraction(r, tsf),
        trailer=word(r),
    )


def body_for(r, kind):
    if kind == 4:
        return context_body(r)
    return words(r, r.choice((0, 0, 1, 2, r.randrange(9), r.randrange(40))))


def packet(r, kind=None, identifier=None):
    """The words of a packet, good but for the time, now and then."""
    made = parts(r, kind, identifier)
    return vrt49_write.packet_words(made, body_for(r, made.type))


# Survey packets.


def survey_class(r):
    """The information and packet class of a class that fits, and the bits of one vector: of
    a data type, real or complex, and a vector that is small, mostly."""
    data, rc = r.randint(1, 13), r.randrange(2)
    vector = r.choice((1, 1, 1, 2, 3, 7, r.randint(1, 40), r.randint(1, 40)))
    if r.randrange(60) == 0:
        vector = r.choice((65535, 65536, r.randint(1, 65536)))
    _, item = vrt49.SURVEY_TYPES[data]
    return rc << 4 | data, vector - 1, item * (1 + rc) * vector


def survey_parts(r, identifier=None):
    """The parts of a survey packet with its pad count and its body, which has whole
    vectors."""
    made = parts(r, 1, identifier)
    made.class_flag = made.trailer_flag = 1
    made.oui = vrt49.SURVEY_OUI
    made.information, made.packet, vector = survey_class(r)
    vectors = r.choice((0, 1, 1, 2, 3, r.randrange(20)))
    length = vector * (vectors if vector * vectors < 4000 else min(vectors, 1) if vector < 4000 else 0)
    n = (length + 31) // 32
    return made, 32 * n - length, words(r, n)


def bent_survey(r, made, pad, body):
    """The parts of a survey packet, with one thing about them bent."""
    kind = r.randrange(9)
    if kind == 0:
        made.class_flag = 0
    elif kind == 1:
        made.trailer_flag = 0
    elif kind == 2:
        made.oui ^= 1 << r.randrange(24)
    elif kind == 3:
        made.information ^= 1 << r.randrange(16)
    elif kind == 4:
        made.packet = r.choice((0, 1, 2, 6, r.randrange(64), r.getrandbits(16)))
    elif kind == 5:
        pad = r.randrange(32)
    elif kind == 6:
        body = body + words(r, r.randint(1, 3))
    elif kind == 7:
        body = body[: r.randrange(len(body) + 1)]
    else:
        # the class of a No Data packet, now and then with a payload
        made.information, made.packet = 0x2011, 2
        body = body if r.randrange(2) else []
    return made, pad, body


def survey(r, identifier=None):
    """The words of a survey packet, good but for the time, now and then."""
    return vrt49_write.survey_words(*survey_parts(r, identifier))


def some_survey(r, identifier=None):
    """A survey packet, good or not, with words past it, now and then."""
    how = r.randrange(20)
    if how < 7:
        made = survey(r, identifier)
    elif how < 15:
        made = vrt49_write.survey_words(*bent_survey(r, *survey_parts(r, identifier)))
        if r.randrange(6) == 0 and made[0] >> 27 & 1:
            # a reserved bit
            made[2] |= 1 << r.randrange(24, 27)
    elif how < 19:
        made = bent_packet(r, survey(r, identifier))
    else:
        # the class of a survey packet in another type
        made = survey_parts(r, identifier)
        made[0].type = r.choice((0, 2, 3))
        made = vrt49_write.packet_words(made[0], made[2])
        made[vrt49.class_place(made[0])] |= r.choice((0, 0, r.getrandbits(5) << 27))
    return made + words(r, r.choice((0, 0, 0, 1, 5)))


def resized(made, size):
    """The same words with another size in the header."""
    return [made[0] & 0xFFFF0000 | size % 65536] + made[1:]


def bent_packet(r, made):
    """A packet bent in one way, or in two."""
    kind = r.randrange(10)
    if kind == 0:
        return resized(made, len(made) + r.choice((-2, -1, 1, 2, -len(made), r.randrange(65536))))
    if kind == 1:
        # its size cut to few words, so that parts are missing
        return resized(made, r.randrange(min(len(made), 10) + 1))
    if kind == 2:
        # longer or shorter inside, with a size that says so
        other = bend_length(r, made)
        return resized(other, len(other)) if other else other
    if kind == 3 and made[0] >> 28 == 4:
        place = vrt49.body_place(made[0])
        other = made[:place] + break_rules(r, made[place:])
        return resized(other, len(other))
    if kind == 4 and made[0] >> 27 & 1:
        other = list(made)
        other[vrt49.class_place(made[0])] |= 1 << r.randrange(24, 32)
        return other
    if kind == 5:
        return bent(r, bent(r, made))
    if kind == 6:
        return bend_bit(r, [made[0]]) + made[1:]
    return bent(r, made)


def random_packet(r):
    """Words without a plan, with a header whose size is not far off."""
    made = words(r, r.randrange(1, 40))
    if r.randrange(2):
        made[0] = r.randrange(6) << 28 | r.getrandbits(12) << 16 | len(made)
    return resized(made, max(0, len(made) - r.choice((0, 0, 1, 3)))) if r.randrange(2) else made


def some_packet(r, kind=None, identifier=None):
    """A packet, good or not, with words past it, now and then."""
    how = r.randrange(20)
    if how < 8:
        made = packet(r, kind, identifier)
    elif how < 18:
        made = bent_packet(r, packet(r, kind, identifier))
    else:
        made = random_packet(r)
    return made + words(r, r.choice((0, 0, 0, 1, 5)))


# Tables and pages.


def streams(r):
    return r.choice((1, 1, 1, 1, 2, 2, 3, r.randint(1, 5), r.choice((1, 2, r.randint(1, 32), 32))))


def identifiers(r, n):
    made = []
    while len(made) < n:
        identifier = word(r) if r.randrange(2) else r.randrange(64)
        if identifier not in made:
            made.append(identifier)
    return made


def count(r):
    if r.randrange(3) == 0:
        return {"seen": 0, "missing": 0, "last": None}
    return {"seen": word(r), "missing": word(r), "last": r.randrange(16)}


def stream(r, identifier):
    """One stream of a table that is well made."""
    counts = {kind: count(r) for kind in table.COUNTED_TYPES}
    held = {}
    if counts[4]["last"] is not None and r.randrange(5):
        carried = indicator(r) | r.choice((0, 0, 1 << 16))
        held = {bit: held_field(r, bit) for bit in table.HELD_BITS if carried >> bit & 1}
    return {"identifier": identifier, "choice": r.randrange(2), "counts": counts, "held": held}


def some_streams(r, n=None):
    """A well-made table, as dictionaries."""
    return [stream(r, i) for i in identifiers(r, n or streams(r))]


# A record's words, and those before its fields: identifier, held indicator, counts, choice.
RECORD = 89
FRONT_WORDS = 15

# The choice, and the slots of the over-range count, which is never held, and of the state
# word.
CHOICE, COUNT_SLOT, STATE_SLOT = 14, 28, 37


def bend_state(r, held):
    """A held state word with a bit that none may have, or with a value and not its enable."""
    if r.randrange(2):
        return held | 1 << r.choice((25, 24, 13, 12))
    enable, value = r.choice(list(table.PERSISTENT.items()))
    return held & ~(1 << enable) | 1 << value


def bend_table(r, made):
    """The words of a table, bent where a rule looks."""
    bent_words = list(made)
    kind = r.randrange(12)
    record = 1 + RECORD * r.randrange((len(made) - 1) // RECORD)
    if kind == 0:
        return bend_length(r, made)
    if kind == 1:
        bent_words[0] = r.choice((0, 33, made[0] + 1, made[0] - 1, word(r)))
    elif kind == 2:
        # one identifier twice, or another
        other = 1 + RECORD * r.randrange((len(made) - 1) // RECORD)
        bent_words[record] = bent_words[other]
    elif kind == 3:
        bent_words[record + 1] ^= 1 << r.randrange(32)
    elif kind == 4:
        place = record + 2 + r.randrange(12)
        bent_words[place] = r.choice((0, 0, 1, 15, 16, 17, word(r)))
    elif kind == 5:
        # a slot, by a bit or a word
        place = record + FRONT_WORDS + r.randrange(74)
        bent_words[place] = bent_words[place] ^ 1 << r.randrange(32) if r.randrange(2) else word(r)
    elif kind == 6:
        # a slot that has a rule
        place = record + r.choice((16, 26, 29, 34, 35, 36, 37, 38))
        bent_words[place] ^= 1 << r.randrange(32)
    elif kind == 7:
        # type 4 not started
        bent_words[record + 8 : record + 11] = [0, 0, 0]
    elif kind == 8:
        # the over-range count held, its word not zero, or both
        way = r.randrange(3)
        bent_words[record + 1] |= (way != 1) << 22
        bent_words[record + COUNT_SLOT] = word(r) if way else 0
    elif kind == 9:
        # a state word held that cannot be
        bent_words[record + 1] |= 1 << 16
        bent_words[record + STATE_SLOT] = bend_state(r, bent_words[record + STATE_SLOT])
    elif kind == 10:
        # the other choice, or none
        bent_words[record + CHOICE] = r.choice((0, 1, 2, 3, 256, 1 << 31, ONES, word(r)))
    else:
        return bent(r, made)
    return bent_words


def some_table(r, n=None):
    """The words of a table, good or bent, with words past it, now and then."""
    made = table.layout(some_streams(r, n))
    if r.randrange(3) == 0:
        made = bend_table(r, made)
    return made + words(r, r.choice((0, 0, 0, 1, 7, 90)))


def field_place(at, indicator, bit):
    """Where the words of a field are, or would be, in a body that begins at a place."""
    higher = [one for one in table.FIELD_BITS if one > bit and indicator >> one & 1]
    return at + FRONT_WORDS + sum(FIXED_WORDS[one] for one in higher)


def hold_count(r, made, stream):
    """The words of a page in which a stream holds the over-range count, with its word; the
    lengths and offsets are right."""
    at = made[2 + 2 * stream]
    place = field_place(at, made[at + 1], 22)
    other = made[:place] + [word(r)] + made[place:]
    other[at + 1] |= 1 << 22
    other[1] += 1
    other[3 + 2 * stream] += 1
    for behind in range(stream + 1, made[0]):
        other[2 + 2 * behind] += 1
    return other


def bend_page(r, made):
    """The words of a page, bent where a rule looks."""
    bent_words = list(made)
    n = made[0]
    kind = r.randrange(13)
    stream = r.randrange(n)
    at = made[2 + 2 * stream]
    if kind == 0:
        return bend_length(r, made)
    if kind == 1:
        # another length, said in word 1 as well
        other = bend_length(r, made)
        return other[:1] + [len(other)] + other[2:] if len(other) > 1 else other
    if kind == 2:
        bent_words[r.randrange(2)] = r.choice((0, 33, n + 1, n - 1, len(made) + 1, word(r)))
    elif kind == 3:
        place = 2 + r.randrange(2 * n)
        bent_words[place] = (bent_words[place] + r.choice((1, ONES, RECORD, word(r)))) & ONES
    elif kind == 4:
        bent_words[at + 1] ^= 1 << r.randrange(32)
    elif kind == 5:
        bent_words[at + 2 + r.randrange(12)] = r.choice((0, 0, 1, 15, 16, 17, word(r)))
    elif kind == 6:
        bent_words[at] = made[made[2 + 2 * r.randrange(n)]]
    elif kind == 7:
        bent_words[at + 8 : at + 11] = [0, 0, 0]
    elif kind == 8:
        # one word moved from a body to its neighbour
        place = r.randrange(n)
        bent_words[3 + 2 * place] += 1
        if place + 1 < n:
            bent_words[4 + 2 * place] += 1
            bent_words[5 + 2 * place] -= 1
    elif kind == 9:
        return hold_count(r, made, stream)
    elif kind == 10 and made[at + 1] >> 16 & 1:
        place = field_place(at, made[at + 1], 16)
        bent_words[place] = bend_state(r, bent_words[place])
    elif kind == 11:
        # the other choice, or none, or a body without the word
        if r.randrange(4) == 0:
            other = made[: at + CHOICE] + made[at + CHOICE + 1 :]
            return other[:1] + [len(other)] + other[2:]
        bent_words[at + CHOICE] = r.choice((0, 1, 2, 3, 256, 1 << 31, ONES, word(r)))
    else:
        return bent(r, made)
    return bent_words
