"""Writes the cases for writing packets and the reference's answers to them.

    python3 tools/reference/write_vectors.py INPUT EXPECTED

README.md gives the form of both files.  Each case that is built for one answer
says which answer that is; a case where the reference says another ends the
program without writing.  So does a written packet that is not, word for word,
the one that read_vectors.py builds from the same numbers.
"""

import sys

sys.dont_write_bytecode = True

import read_vectors
import vrt49
import vrt49_write
from read_vectors import (
    CONTEXT_TYPES, DATA_TYPES, IDENTIFIER, ITEM_BITS, ONES, OUI, SURVEY, TERA, TYPES, counted,
)
from vrt49_write import (
    FIELD, INDICATOR, LAYOUT, PAD, ROOM, SHORT, SIZE, TIME, TYPE, VALUE, Parts,
)

# The five kinds of case.
WRITE = 1
AGAIN = 2
TRAILER = 3
SURVEY_WRITE = 4
SURVEY_AGAIN = 5

WRITTEN = 0
PATTERN = 0xA5A5A5A5

# "Write: TYPE, VALUE, SHORT, SIZE, TIME, INDICATOR, LAYOUT, FIELD, ROOM."
ORDER = (TYPE, VALUE, SHORT, SIZE, TIME, INDICATOR, LAYOUT, FIELD, ROOM)

cases = []

# C-13: "20 PAD, after FIELD"
SURVEY_ORDER = (TYPE, VALUE, SHORT, SIZE, TIME, INDICATOR, LAYOUT, FIELD, PAD, ROOM)

# Refusals of which one case has both faults, the earlier one first, of plain packets
# and of survey packets.
both_faults = set()
survey_faults = set()


def write_case(
    answer,
    kind,
    body=(),
    c=0,
    t=0,
    m=0,
    tsi=0,
    tsf=0,
    count=0,
    identifier=IDENTIFIER,
    oui=0x00123456,
    information=7,
    packet=9,
    seconds=0x5F5E1000,
    fraction=1,
    trailer=0x0BADCAFE,
    at=1,
    room=None,
    pad=None,
):
    """One case of writing, with the answer it is built for, if it is built for
    one.  If no room is named there is enough, with words left after.  With a pad
    count it is one of writing a survey packet."""
    if room is None:
        room = at + len(body) + 10
    parts = Parts(
        type=kind,
        class_flag=c,
        trailer_flag=t,
        tsm=m,
        tsi=tsi,
        tsf=tsf,
        count=count,
        identifier=identifier,
        oui=oui,
        information=information,
        packet=packet,
        seconds=seconds,
        fraction=fraction,
        trailer=trailer,
    )
    if pad is None:
        cases.append((WRITE, (parts, list(body), at, room), answer))
    else:
        cases.append((SURVEY_WRITE, (parts, pad, list(body), at, room), answer))


def again_case(answer, words, at=1, room=None):
    """One case of reading, writing and reading again."""
    if room is None:
        room = at + len(words) + 2
    cases.append((AGAIN, (list(words), at, room), answer))


def trailer_case(answer, *numbers):
    cases.append((TRAILER, numbers, answer))


def right_body(kind):
    """A short body that is not refused."""
    if kind == 4:
        return [0x81200000, 0x0000FF80, 0, 1 << 20]
    return counted(3, 0xB0D10000)


# TYPE


def types():
    for kind in range(6, 16):
        write_case(TYPE, kind, counted(3))
    # What would be a type if only its lowest bits were looked at.
    for kind in (16, 17, 20, 21, 0x100, 0x104, 0x10001, 0x10000004, 1 << 31, ONES):
        write_case(TYPE, kind, right_body(4))
    write_case(TYPE, 6)
    write_case(TYPE, 15, [], at=0, room=0)
    for kind in TYPES:
        write_case(WRITTEN, kind, right_body(kind), count=kind)


# VALUE


WIDTHS = (
    ("count", 4), ("tsi", 2), ("tsf", 2), ("oui", 24), ("information", 16), ("packet", 16),
)


def values():
    for kind in TYPES:
        body = right_body(kind)
        for name, width in WIDTHS:
            write_case(WRITTEN, kind, body, c=1, **{name: 2**width - 1})
            write_case(VALUE, kind, body, c=1, **{name: 2**width})
    for name, width in WIDTHS:
        write_case(WRITTEN, 1, [5], c=1, **{name: 2 ** (width - 1)})
        write_case(VALUE, 1, [5], c=1, **{name: 2**width + 1})
        write_case(VALUE, 4, [0], c=1, **{name: 1 << 31})
        write_case(VALUE, 2, [], c=1, **{name: ONES})
    # All of them at their largest, and one of them over.
    largest = {name: 2**width - 1 for name, width in WIDTHS}
    write_case(WRITTEN, 3, [6], c=1, **largest)
    for name, width in WIDTHS:
        write_case(VALUE, 3, [6], c=1, **{**largest, name: 2**width})


def flags():
    for kind in DATA_TYPES:
        write_case(WRITTEN, kind, [8], t=1)
        write_case(VALUE, kind, [8], m=1)
        write_case(VALUE, kind, [8], t=1, m=1)
        write_case(VALUE, kind, m=1, c=1, tsi=1, tsf=1)
    for kind in CONTEXT_TYPES:
        body = right_body(kind)
        write_case(WRITTEN, kind, body, m=1)
        write_case(VALUE, kind, body, t=1)
        write_case(VALUE, kind, body, t=1, m=1)
        write_case(VALUE, kind, body, t=1, c=1, tsi=1, tsf=1)


# All types with all choices of optional parts.


def choices():
    """What is absent is given as a number that could not be written, or as
    all ones."""
    step = 0
    for kind in TYPES:
        for choice in range(16):
            c, flag, seconds, fraction = (choice >> i & 1 for i in (3, 2, 1, 0))
            t = flag if kind in DATA_TYPES else 0
            tsi = (1 + step % 3) * seconds
            tsf = (1 + step // 3 % 3) * fraction
            identified = kind in (1, 3, 4, 5)
            wild = (ONES, 1 << 24, 1 << 31)[step % 3]
            write_case(
                WRITTEN,
                kind,
                right_body(kind) if step % 2 else right_body(kind)[:1] if kind != 4 else [0],
                c=c,
                t=t,
                m=flag if kind in CONTEXT_TYPES else 0,
                tsi=tsi,
                tsf=tsf,
                count=step % 16,
                identifier=0x1D000000 + step if identified else ONES,
                oui=0x00C1A500 + step if c else wild,
                information=0x8001 + step if c else wild,
                packet=0x4001 + step if c else wild,
                seconds=0x80000001 + step if tsi else ONES,
                fraction=0x000000E8_80000001 + step if tsf else (1 << 64) - 1,
                trailer=0x7A110000 + step if t else ONES,
                at=step % 5,
            )
            step += 1


def absent_parts():
    # Each absent part alone.
    write_case(WRITTEN, 1, [1], oui=1 << 24)
    write_case(WRITTEN, 1, [1], oui=ONES)
    write_case(WRITTEN, 1, [1], information=1 << 16)
    write_case(WRITTEN, 1, [1], packet=1 << 16)
    write_case(WRITTEN, 1, [1], seconds=ONES)
    write_case(WRITTEN, 1, [1], fraction=TERA)
    write_case(WRITTEN, 1, [1], tsi=1, fraction=(1 << 64) - 1)
    write_case(WRITTEN, 1, [1], tsf=2, seconds=ONES)
    write_case(WRITTEN, 1, [1], trailer=ONES)
    write_case(WRITTEN, 4, [0], trailer=ONES)
    write_case(WRITTEN, 5, [0], trailer=ONES, m=1)
    for kind in (0, 2):
        write_case(WRITTEN, kind, [], identifier=ONES)
        write_case(WRITTEN, kind, [1], identifier=ONES, c=1, t=1)
    # The same parts present.
    write_case(WRITTEN, 1, [1], tsi=1, seconds=ONES)
    write_case(WRITTEN, 1, [1], tsf=1, fraction=(1 << 64) - 1)
    write_case(WRITTEN, 1, [1], t=1, trailer=ONES)
    write_case(WRITTEN, 1, [1], identifier=ONES)
    write_case(WRITTEN, 1, [1], c=1, t=1, tsi=3, tsf=3, identifier=0, oui=0,
               information=0, packet=0, seconds=0, fraction=0, trailer=0)


# SHORT


def short_bodies():
    for choice in range(16):
        c, m, seconds, fraction = (choice >> i & 1 for i in (3, 2, 1, 0))
        write_case(SHORT, 4, [], c=c, m=m, tsi=2 * seconds, tsf=3 * fraction)
        write_case(WRITTEN, 4, [0], c=c, m=m, tsi=2 * seconds, tsf=3 * fraction)
    # "A data body may have no words (ours)."
    for kind in (0, 1, 2, 3, 5):
        write_case(WRITTEN, kind)
        write_case(WRITTEN, kind, t=1 if kind in DATA_TYPES else 0, c=1, tsi=1, tsf=1)


# SIZE.  The words of one such case are a quarter of a megabyte, so there are
# few of them.


def sizes():
    everything = dict(c=1, t=1, tsi=2, tsf=2, count=9, fraction=TERA - 1)
    body = [i * 0x9E3779B1 & ONES for i in range(65600)]
    # Eight words of other parts.
    write_case(WRITTEN, 1, body[: 65535 - 8], at=0, room=65535, **everything)
    write_case(SIZE, 3, body[: 65536 - 8], at=0, room=65600, **everything)
    # No other part than the header.
    write_case(SIZE, 0, body[: 65536 - 1], at=0, room=65536)
    # SIZE before TIME, INDICATOR, LAYOUT and ROOM.
    write_case(SIZE, 4, [ONES] + body[: 65536 - 5], tsf=2, fraction=TERA, at=ONES, room=0)
    both_faults.add((SIZE, TIME))
    # VALUE before SIZE.
    write_case(VALUE, 5, body, count=16, at=0, room=0)
    both_faults.add((VALUE, SIZE))


# TIME


def times():
    edges = (
        TERA - 1,
        TERA,
        TERA + 1,
        TERA >> 32 << 32,
        (TERA >> 32) + 1 << 32,
        1 << 63,
        ONES,
        (1 << 64) - 1,
    )
    for fraction in edges:
        for tsf in range(4):
            late = tsf == 2 and fraction >= TERA
            write_case(TIME if late else WRITTEN, 1, [1], tsf=tsf, fraction=fraction)
    for kind in TYPES:
        body = right_body(kind)
        write_case(TIME, kind, body, c=1, tsi=3, tsf=2, fraction=TERA)
        write_case(WRITTEN, kind, body, c=1, tsi=3, tsf=2, fraction=TERA - 1)


# INDICATOR, LAYOUT and FIELD: what reading refuses, writing refuses.


def as_in_reading():
    """The cases of read_vectors.py: what reading accepts is written again, and
    what it refuses from TIME on is refused in writing with the same number.
    The longest are left out, and those that are built for a place."""
    refused_before = [0] * 11
    step = 0
    for way, words, _, told in read_vectors.cases:
        if way == SURVEY or read_vectors.has_survey_class(words) or len(words) > 60000:
            continue
        if told is not None:
            continue
        answer, what = vrt49.read(words)[:2]
        step += 1
        at = (0, 1, 3, 8)[step % 4]
        if answer == "accepted":
            # Every ninth time one word too few.
            room = at + what.size + (0, 1, 5)[step % 3]
            if step % 9 == 0:
                again_case(ROOM, words, at, at + what.size - 1)
            else:
                again_case(WRITTEN, words, at, room)
        else:
            refused_before[what] += 1
            if refused_before[what] <= 8:
                again_case(what, words, at)
            if what in (TIME, INDICATOR, LAYOUT, FIELD) and len(words) < 1000:
                parts = vrt49_write.parts_of(vrt49.packet_of(words))
                body = vrt49.body_of(words)
                cases.append((WRITE, (parts, body, at, at + len(words) + 1), what))


# ROOM


def rooms():
    for step, kind in enumerate(TYPES):
        parts = dict(c=step % 2, tsi=step % 3, tsf=step % 4, count=step)
        body = right_body(kind)
        size = 1 + (kind in (1, 3, 4, 5)) + 2 * parts["c"] + (parts["tsi"] > 0)
        size += 2 * (parts["tsf"] > 0) + len(body)
        for room in (size, size + 7):
            places = (
                (0, WRITTEN),
                (room - size, WRITTEN),
                (room - size + 1, ROOM),
                (room - 1, ROOM),
                (room, ROOM),
                (room + 1, ROOM),
                # Sums that would come out even if they wrapped at 2^32.
                (2**32 - size, ROOM),
                (2**32 - size + 1, ROOM),
                (1 << 31, ROOM),
                (ONES, ROOM),
            )
            for at, answer in places:
                write_case(answer, kind, body, at=at, room=room, **parts)
        write_case(WRITTEN, kind, body, at=3, room=size + 7, **parts)
        write_case(ROOM, kind, body, at=0, room=size - 1, **parts)
        write_case(ROOM, kind, body, at=0, room=0, **parts)
        write_case(ROOM, kind, body, at=1, room=0, **parts)
        write_case(ROOM, kind, body, at=ONES, room=0, **parts)
    # One word.
    for room in (1, 2):
        write_case(WRITTEN, 0, at=room - 1, room=room)
        write_case(ROOM, 0, at=room, room=room)
        write_case(ROOM, 2, at=room + 1, room=room)
        write_case(ROOM, 2, at=ONES, room=room)
    # Buffers whose words are printed, and buffers whose sum is.
    for room in (299, 300, 301, 302, 1000, 65535, 65536, 65600):
        for at, answer in ((0, WRITTEN), (room // 2, WRITTEN), (room - 7, WRITTEN),
                           (room - 6, ROOM), (room, ROOM), (room + 1, ROOM), (ONES, ROOM)):
            write_case(answer, 1, counted(4), t=1, at=at, room=room)
    for number, wrong in ((TYPE, dict(kind=6)), (VALUE, dict(kind=1, count=16)),
                          (TIME, dict(kind=1, tsf=2, fraction=TERA))):
        write_case(number, **wrong, at=4, room=301)
        write_case(number, **wrong, at=4, room=65600)
    # Five words that were read.
    words = read_vectors.packet(1, counted(2), t=1, trailer=0x80080000)
    for at, room, answer in (
        (0, 5, WRITTEN), (2, 7, WRITTEN), (3, 7, ROOM), (7, 7, ROOM), (8, 7, ROOM),
        (ONES, 7, ROOM), (2**32 - 5, 7, ROOM), (0, 0, ROOM), (0, 400, WRITTEN),
        (395, 400, WRITTEN), (396, 400, ROOM), (65595, 65600, WRITTEN),
    ):
        again_case(answer, words, at, room)


# The order of the refusals.


def with_faults(faults, step, pad=None):
    """A type 4 packet with just these faults."""
    level = 0x00010000 << step % 16 if FIELD in faults else 0x0000FF80
    indicator = 0x81000400 | (1 << step % 8 if INDICATOR in faults else 0)
    body = [indicator, level, 7]
    if LAYOUT in faults:
        body = body + [0] if step % 2 else body[:2]
    if SHORT in faults:
        body = []
    parts = dict(c=step % 2, tsi=step % 3, count=step % 16)
    if TIME in faults:
        parts.update(tsf=2, fraction=TERA)
    size = 2 + 2 * parts["c"] + (parts["tsi"] > 0) + 2 * (TIME in faults) + len(body)
    if VALUE in faults:
        wrong = (
            dict(count=16), dict(tsi=4), dict(c=1, oui=1 << 24), dict(t=1),
            dict(c=1, information=1 << 16), dict(c=1, packet=1 << 16),
        )
        parts.update(wrong[step % 6])
    at = step % 4
    if ROOM in faults:
        # One word too few, or a start past the end.
        room, at = (size - 1, 0) if step % 2 else (20, 21)
    else:
        room = at + size + 4
    kind = 6 + step % 10 if TYPE in faults else 4
    write_case(min(faults, key=ORDER.index), kind, body, at=at, room=room, pad=pad, **parts)


def order():
    """Every set of faults that one packet can have, without SIZE.  A body with
    no words has no fault of its own."""
    step = 0
    possible = (TYPE, VALUE, SHORT, TIME, INDICATOR, LAYOUT, FIELD, ROOM)
    for chosen in range(1, 1 << len(possible)):
        faults = [number for i, number in enumerate(possible) if chosen >> i & 1]
        if SHORT in faults and not {INDICATOR, LAYOUT, FIELD}.isdisjoint(faults):
            continue
        with_faults(faults, step)
        step += 1
        if len(faults) == 2:
            # Once more, with other faults of the same numbers.
            with_faults(faults, step)
            step += 1
            both_faults.add(tuple(faults))


# Spectrum-survey packets.


def survey_write(answer, body=(), pad=0, data=8, rc=0, vector=1, high=OUI, low=0, **rest):
    """A case of writing a survey packet of type 1, with a class and a trailer if no
    other is asked for; high is its OUI, low names bits of the second word to be turned
    over."""
    _, classes = read_vectors.survey_class(pad, data, rc, vector, 0, low)
    given = dict(c=1, t=1, oui=high, information=classes >> 16, packet=classes & 0xFFFF)
    write_case(answer, 1, body, pad=pad, **{**given, **rest})


def survey_again(answer, words, at=1, room=None):
    """One case of reading, writing and reading again as survey packets."""
    if room is None:
        room = at + len(words) + 2
    cases.append((SURVEY_AGAIN, (list(words), at, room), answer))


def survey_vectors():
    """Every data type, real and complex, in vectors of 1, 2, 3 and 7, with 0, 1, 2 and
    5 of them; each third time also with another pad count, or another and a word more."""
    step = 0
    for data, item in ITEM_BITS.items():
        for rc in (0, 1):
            for vector in (1, 2, 3, 7):
                for vectors in (0, 1, 2, 5):
                    length = item * (1 + rc) * vector * vectors
                    n = (length + 31) // 32
                    pad = 32 * n - length
                    shape = dict(data=data, rc=rc, vector=vector)
                    time = dict(tsi=step % 4, tsf=step // 4 % 4, count=step % 16)
                    body = counted(n, 0xB0D10000)
                    survey_write(WRITTEN, body, pad, **shape, **time, at=step % 3)
                    step += 1
                    if step % 3 != 0:
                        continue
                    if step % 2:
                        n, pad = n + 1, (pad + step) % 32
                    else:
                        pad = (pad + 1 + step % 31) % 32
                    right = read_vectors.whole(n, pad, **shape)
                    body = counted(n, 0xB0D20000)
                    survey_write(WRITTEN if right else PAD, body, pad, **shape)


def survey_pads():
    for pad in range(32):
        survey_write(WRITTEN, [ONES], pad)
        survey_write(WRITTEN if pad % 8 == 0 else PAD, [1, 2], pad, data=2)
        survey_write(WRITTEN if pad == 0 else PAD, [], pad, data=9)
        # A pad count that is read is written again.
        survey_again(WRITTEN, read_vectors.survey([ONES, pad], pad), pad % 3)
    # A count over 31 is VALUE, where it is written.
    for pad in (32, 33, 40, 63, 64, 0x100, 1 << 27, 1 << 31, ONES):
        survey_write(VALUE, [1], pad)
        survey_write(VALUE, [], pad, data=14)
        survey_write(VALUE, [1], pad, t=0)
        # No class has none.
        survey_write(PAD, [1], pad, c=0)
        survey_write(PAD, [1], pad, c=0, t=0)
        # Nor has another type.
        for kind in (0, 2, 3, 4, 5):
            t = 1 if kind in DATA_TYPES else 0
            write_case(WRITTEN, kind, right_body(kind), c=1, t=t, pad=pad)
    for kind in (0, 2, 3, 4, 5):
        for pad in (1, 8, 31):
            given = dict(oui=OUI, information=8, packet=0)
            write_case(WRITTEN, kind, right_body(kind), c=1, pad=pad, **given)
            write_case(WRITTEN, kind, right_body(kind), c=0, pad=pad, **given)
    # 64-bit items, and the largest vectors.
    for data in (5, 7, 13):
        for n in range(5):
            survey_write(PAD if n % 2 else WRITTEN, counted(n), data=data)
            survey_write(PAD if n % 4 else WRITTEN, counted(n), data=data, rc=1)
    for n in range(5):
        survey_write(PAD if n else WRITTEN, counted(n), data=5, rc=1, vector=65536)
    survey_write(WRITTEN, [1, 2], 0, data=8, vector=64)
    survey_write(PAD, [1, 2], 0, data=8, vector=65)


def survey_classes():
    """Each bit of the class that is fixed or reserved, alone; parts have none for the
    bits 26 to 24 of the first word."""
    for bit in range(24):
        survey_write(PAD, [1, 2], high=OUI ^ 1 << bit)
    for bit in range(22, 32):
        survey_write(PAD, [1, 2], low=1 << bit)
    for oui in (0, 0x00FFFFFB, 0x00FFFFFF, 0x00123456):
        survey_write(PAD, [1], 3, high=oui)
    for oui in (OUI | 1 << 24, OUI | 1 << 27, ONES):
        survey_write(VALUE, [1], 3, high=oui)
    for rc in range(4):
        for data in range(16):
            right = rc < 2 and data in ITEM_BITS
            survey_write(WRITTEN if right else PAD, counted(4), data=data, rc=rc)
    # The class of the No Data packet, FF-FF-FA:2011.0002.
    survey_write(PAD, [], information=0x2011, packet=2)
    for c, t in ((0, 0), (0, 1), (1, 0), (1, 1)):
        for body in ([], [1], [1, 2]):
            survey_write(WRITTEN if c and t else PAD, body, c=c, t=t)
    # By hand.
    hand = dict(identifier=7, trailer=0, at=0)
    survey_write(WRITTEN, [0xABCDEF12, 0x30000000], 0, 3, 1, 1, room=7, **hand)
    survey_write(WRITTEN, [0x01020300], 8, 10, 0, 3, room=6, **hand)
    survey_again(WRITTEN, [0x1C000007, 7, OUI, 0x00130000, 0xABCDEF12, 0x30000000, 0])
    survey_again(WRITTEN, [0x1C000006, 7, 0x40FFFFFA, 0x000A0002, 0x01020300, 0])
    again_case(vrt49.CLASS, [0x1C000006, 7, 0x40FFFFFA, 0x000A0002, 0x01020300, 0])


def survey_choices():
    """All types with all choices of optional parts.  What is absent is given as a
    number that could not be written; so is the pad count of types other than 1."""
    step = 0
    for kind in TYPES:
        for choice in range(16):
            c, flag, seconds, fraction = (choice >> i & 1 for i in (3, 2, 1, 0))
            t = flag if kind in DATA_TYPES else 0
            tsi = (1 + step % 3) * seconds
            tsf = (1 + step // 3 % 3) * fraction
            wild = (ONES, 1 << 24, 1 << 31)[step % 3]
            answer = WRITTEN
            if kind == 1 and not (c and t):
                answer = PAD
            write_case(
                answer,
                kind,
                right_body(kind),
                c=c,
                t=t,
                m=flag if kind in CONTEXT_TYPES else 0,
                tsi=tsi,
                tsf=tsf,
                count=step % 16,
                oui=OUI if c else wild,
                information=0x0008 if c else wild,
                packet=1 if c else wild,
                seconds=0x80000001 + step if tsi else ONES,
                fraction=0x000000E8_80000001 + step if tsf else (1 << 64) - 1,
                trailer=0x7A110000 + step if t else ONES,
                at=step % 5,
                pad=step // 16 % 2 * 2 if kind == 1 and c else wild,
            )
            step += 1
    for kind in TYPES:
        body = right_body(kind)
        given = dict(oui=OUI, information=8, packet=0, t=1 if kind == 1 else 0, pad=5)
        for name, width in WIDTHS:
            write_case(VALUE, kind, body, c=1, **{**given, name: 2**width})
            if kind != 1 or name in ("count", "tsi", "tsf"):
                write_case(WRITTEN, kind, body, c=1, **{**given, name: 2**width - 1})
        write_case(TYPE, 6 + kind, body, c=1, **given)
        write_case(TYPE, 16 + kind, body, c=1, **given)
    for c in (0, 1):
        for m in (0, 1):
            write_case(SHORT, 4, [], c=c, m=m, tsi=c, tsf=m, pad=c * 32)
            write_case(WRITTEN, 4, [0], c=c, m=m, tsi=c, tsf=m, pad=c * 32)


def survey_rooms():
    for n, pad in ((0, 0), (1, 8), (4, 31)):
        size = 5 + n
        body = counted(n)
        for room in (size, size + 7):
            places = (
                (0, WRITTEN), (room - size, WRITTEN), (room - size + 1, ROOM), (room, ROOM),
                (room + 1, ROOM), (2**32 - size, ROOM), (ONES, ROOM),
            )
            for at, answer in places:
                survey_write(answer, body, pad, at=at, room=room)
        survey_write(WRITTEN, body, pad, at=3, room=size + 7)
        survey_write(ROOM, body, pad, at=0, room=size - 1)
        survey_write(ROOM, body, pad, at=0, room=0)
    words = read_vectors.survey([1, 2], 24, 10)
    for at, room, answer in (
        (0, 7, WRITTEN), (2, 9, WRITTEN), (3, 9, ROOM), (9, 9, ROOM), (10, 9, ROOM),
        (ONES, 9, ROOM), (0, 0, ROOM), (0, 400, WRITTEN), (394, 400, ROOM),
    ):
        survey_again(answer, words, at, room)


def survey_with_faults(faults, step):
    """A packet of type 1 with just these faults, or one of type 4 where it needs a
    body."""
    if not {SHORT, INDICATOR, LAYOUT, FIELD}.isdisjoint(faults):
        with_faults(faults, step, pad=(0, 8, 32, ONES)[step % 4])
        return
    parts = dict(tsi=step % 3, count=step % 16)
    body = counted(3)
    size = 5 + (parts["tsi"] > 0) + len(body)
    pad = 8
    if TIME in faults:
        parts.update(tsf=2, fraction=TERA)
        size += 2
    if PAD in faults:
        wrong = (
            dict(t=0), dict(data=14), dict(rc=2), dict(high=OUI - 1), dict(low=1 << 31),
            dict(data=12), dict(vector=2), dict(data=0),
        )
        parts.update(wrong[step % 8])
        size -= step % 8 == 0
    if VALUE in faults:
        wrong = (
            dict(count=16), dict(tsi=4), dict(high=1 << 24), dict(m=1),
            dict(information=1 << 16), dict(packet=1 << 16), None, None,
        )
        if wrong[step // 3 % 8] is None:
            pad = 32 << step % 3
        else:
            parts.update(wrong[step // 3 % 8])
    at = step % 4
    if ROOM in faults:
        room, at = (size - 1, 0) if step % 2 else (20, 21)
    else:
        room = at + size + 4
    answer = min(faults, key=SURVEY_ORDER.index)
    given = {**dict(data=2), **parts}
    if TYPE in faults:
        given.pop("data")
        for name in ("rc", "vector", "low", "high"):
            given.pop(name, None)
        write_case(answer, 6 + step % 10, body, at=at, room=room, pad=pad, c=1, **given)
    else:
        survey_write(answer, body, pad, at=at, room=room, **given)


def survey_order():
    """Every set of faults that one packet can have, without SIZE.  PAD is one of type
    1, and SHORT, INDICATOR, LAYOUT and FIELD are of type 4."""
    step = 0
    possible = (TYPE, VALUE, SHORT, TIME, INDICATOR, LAYOUT, FIELD, PAD, ROOM)
    for chosen in range(1, 1 << len(possible)):
        faults = [number for i, number in enumerate(possible) if chosen >> i & 1]
        if SHORT in faults and not {INDICATOR, LAYOUT, FIELD}.isdisjoint(faults):
            continue
        if PAD in faults and not {SHORT, INDICATOR, LAYOUT, FIELD}.isdisjoint(faults):
            continue
        # Each fault of PAD with each other.
        for _ in range(1 if len(faults) > 2 else 8 if PAD in faults else 4):
            survey_with_faults(faults, step)
            step += 1
        if len(faults) == 2:
            survey_faults.add(tuple(faults))


def survey_as_in_reading():
    """The cases of read_vectors.py that are read as survey packets: what reading
    accepts is written again, and what it refuses with PAD is refused in writing, but for
    the bits 26 to 24 of the class, for which parts have no number.  Of those that are no
    survey packets each eighth is taken, and of those that are built for a place none."""
    refused_before = {}
    step = 0
    for way, words, _, told in read_vectors.cases:
        if way != SURVEY or len(words) > 1000 or told is not None:
            continue
        step += 1
        answer, what = vrt49.read_survey(words)[:2]
        if not read_vectors.has_survey_class(words) and step % 8 != 0:
            if answer == "accepted" or refused_before.get(what, 0) >= 5:
                continue
        at = (0, 1, 3, 8)[step % 4]
        if answer == "accepted":
            size = what[0].size
            if step % 9 == 0:
                survey_again(ROOM, words, at, at + size - 1)
            elif step % 3 == 0:
                survey_again(WRITTEN, words, at, at + size + (0, 1, 5)[step % 5 % 3])
            continue
        refused_before[what] = refused_before.get(what, 0) + 1
        if refused_before[what] <= 8 or what == PAD and step % 12 == 0:
            survey_again(what, words, at)
        if what == PAD and step % 12 == 0:
            parts = vrt49_write.parts_of(vrt49.packet_of(words))
            body = vrt49.body_of(words)
            pad = words[2] >> 27 if parts.class_flag else 0
            reserved = parts.class_flag and words[2] >> 24 & 7
            given = (parts, pad, body, at, at + len(words) + 1)
            cases.append((SURVEY_WRITE, given, None if reserved else PAD))


def survey_size():
    """SIZE before PAD, and before ROOM: the words of this case are a quarter of a
    megabyte."""
    body = [i * 0x9E3779B1 & ONES for i in range(65531)]
    survey_write(SIZE, body, 1, data=13, at=1, room=0)
    survey_faults.add((SIZE, PAD))


def random_surveys():
    numbers = read_vectors.Numbers(4130)
    for _ in range(60):
        words = read_vectors.random_survey(numbers)
        at = numbers.below(12)
        room = at + len(words) + numbers.below(8)
        survey_again(WRITTEN, words + numbers.some(numbers.below(3)), at, room)
    for _ in range(120):
        # The parts of a survey packet, one of them changed.
        words = read_vectors.random_survey(numbers)
        packet, survey = vrt49.read_survey(words)[1]
        parts = vrt49_write.parts_of(packet)
        body = vrt49.body_of(words)
        pad = survey.pad
        way = numbers.below(9)
        if way == 0:
            parts.type = numbers.below(6)
        elif way == 1:
            parts.oui ^= 1 << numbers.below(25)
        elif way == 2:
            parts.information ^= 1 << numbers.below(17)
        elif way == 3:
            parts.packet = numbers.below(8)
        elif way == 4:
            parts.class_flag = numbers.below(2)
        elif way == 5:
            parts.trailer_flag = numbers.below(2)
        elif way == 6:
            pad = numbers.below(40)
        elif way == 7:
            body = body + [numbers.word()]
        elif way == 8:
            body = body[:-1]
        at = numbers.below(6)
        room = at + len(body) + 5 + numbers.below(9)
        cases.append((SURVEY_WRITE, (parts, pad, body, at, room), None))


# The places of refusals.


def places():
    """Of the cases that read_vectors.py has for places a few: each number and each bit
    once, read plainly, and each number with a place other than 0, read as a survey packet.
    They are short ones."""
    found = set()
    for way, words, number, told in read_vectors.cases:
        if told is None or len(words) > 12:
            continue
        place, bit = told
        one = (way, number, bit)
        if one in found or way == SURVEY and (place == 0 or bit not in (None, 8)):
            continue
        found.add(one)
        (survey_again if way == SURVEY else again_case)(number, words)


# Trailer words


def trailers():
    right = (
        (0, 0, 0, 0), (0xFFF, 0xFFF, 1, 0x7F), (0xFFF, 0, 0, 0), (0, 0xFFF, 0, 0),
        (0, 0, 1, 0), (0, 0, 0, 0x7F), (0x800, 0x001, 1, 0x40), (0x001, 0x800, 0, 0x01),
        (0x123, 0x456, 0, 0x78), (0xABC, 0xDEF, 1, 0x12),
    )
    for numbers in right:
        trailer_case(WRITTEN, *numbers)
    for place, width in enumerate((12, 12, 1, 7)):
        for wrong in (2**width, 2**width + 1, 2 ** (width + 1), 1 << 31, ONES):
            for others in ((0, 0, 0, 0), (0xFFF, 0xFFF, 1, 0x7F)):
                numbers = list(others)
                numbers[place] = wrong
                trailer_case(VALUE, *numbers)
    trailer_case(VALUE, ONES, ONES, ONES, ONES)
    numbers = read_vectors.Numbers(7)
    for _ in range(20):
        word = numbers.word()
        trailer_case(WRITTEN, word >> 20, word >> 8 & 0xFFF, word >> 7 & 1, word & 0x7F)


# Pseudo-random cases.


def random_cases():
    numbers = read_vectors.Numbers(490)
    for _ in range(80):
        words = read_vectors.random_packet(numbers)
        at = numbers.below(12)
        room = at + len(words) + numbers.below(8)
        again_case(WRITTEN, words + numbers.some(numbers.below(3)), at, room)
    for _ in range(120):
        # The parts of a packet, one of them changed, near the end of the room.
        words = read_vectors.random_packet(numbers)
        parts = vrt49_write.parts_of(vrt49.read(words)[1])
        body = vrt49.body_of(words)
        way = numbers.below(12)
        if way == 0:
            parts.type = numbers.below(8)
        elif way == 1:
            parts.count = numbers.below(20)
        elif way == 2:
            parts.tsi = numbers.below(6)
        elif way == 3:
            parts.tsf = numbers.below(6)
        elif way == 4:
            parts.oui = numbers.word() >> numbers.below(10)
        elif way == 5:
            parts.information = numbers.word() >> numbers.below(18)
        elif way == 6:
            parts.packet = numbers.word() >> numbers.below(18)
        elif way == 7:
            parts.trailer_flag = numbers.below(2)
        elif way == 8:
            parts.tsm = numbers.below(2)
        elif way == 9 and body:
            body[numbers.below(len(body))] ^= 1 << numbers.below(32)
        elif way == 10:
            body = body + [numbers.word()]
        elif way == 11:
            body = body[:-1]
        at = numbers.below(6)
        room = at + len(body) + 2 + numbers.below(9)
        cases.append((WRITE, (parts, body, at, room), None))


# The two files.


def buffer_line(words):
    if len(words) <= 300:
        return "  words" + "".join(f" {word}" for word in words)
    return f"  sum {sum(words) % 2**32}"


def built(parts, body, pad=None):
    """The words that read_vectors.py makes of the parts."""
    padded = pad is not None and parts.type == 1 and parts.class_flag
    return read_vectors.packet(
        parts.type,
        body,
        c=parts.class_flag,
        t=parts.trailer_flag,
        m=parts.tsm,
        tsi=parts.tsi,
        tsf=parts.tsf,
        count=parts.count,
        identifier=parts.identifier,
        oui=pad << 27 | parts.oui if padded else parts.oui,
        classes=parts.information << 16 | parts.packet,
        seconds=parts.seconds,
        fraction=parts.fraction,
        trailer=parts.trailer,
    )


def written_lines(k, parts, body, at, room, pad=None):
    """The answer, the buffer afterwards, and the lines for both; of a survey packet,
    where there is a pad count."""
    if max(room, len(body)) > 65600:
        sys.exit(f"case {k} has a count over 65,600")
    before = [PATTERN] * room
    if pad is None:
        (answer, what), after = vrt49_write.write(parts, body, before, at)
    else:
        (answer, what), after = vrt49_write.write_survey(parts, pad, body, before, at)
    if answer == "refused":
        if after != before:
            sys.exit(f"case {k} is refused and has written")
        return what, after, [f"{k} refused {what}", buffer_line(after)]
    words = built(parts, body, pad)
    if what != len(words):
        sys.exit(f"case {k} has written {what} words, not {len(words)}")
    if after != before[:at] + words + before[at + len(words) :] or len(after) != room:
        sys.exit(f"case {k} has not written the packet that was asked for")
    return WRITTEN, after, [f"{k} wrote {what}", buffer_line(after)]


def parts_words(parts):
    """The fifteen words of the parts."""
    return [
        parts.type, parts.class_flag, parts.trailer_flag, parts.tsm, parts.tsi, parts.tsf,
        parts.count, parts.identifier, parts.oui, parts.information, parts.packet,
        parts.seconds, parts.fraction >> 32, parts.fraction & ONES, parts.trailer,
    ]


def of_write(k, arguments):
    parts, body, at, room = arguments
    given = [*parts_words(parts), at, room, len(body), *body]
    number, _, found = written_lines(k, parts, body, at, room)
    if number != WRITTEN:
        return given, number, f"write refused {number}", found
    return given, number, "write wrote", found


# What refusals of reading say, in cases of reading, writing and reading again.
told_in_reading = set()


def refused_in_reading(k, op, given, said):
    """A case of reading, writing and reading again that reading refuses."""
    _, number, place, bit = said
    told_in_reading.add((op, number, place > 0, bit))
    label = f"{'survey ' if op == SURVEY_AGAIN else ''}again refused {number} in reading"
    return given, number, label, [f"{k} {read_vectors.refusal_text(said)}"]


def of_again(k, arguments):
    words, at, room = arguments
    given = [at, room, len(words), *words]
    said = vrt49.read(words)
    if said[0] == "refused":
        return refused_in_reading(k, AGAIN, given, said)
    what = said[1]
    parts = vrt49_write.parts_of(what)
    number, after, found = written_lines(k, parts, vrt49.body_of(words), at, room)
    if number != WRITTEN:
        return given, number, f"again refused {number} in writing", found
    # What was read is written word for word, and reads back as it was.
    if after[at : at + what.size] != words[: what.size]:
        sys.exit(f"case {k} has not written the words that were read")
    if vrt49.read(after[at:]) != ("accepted", what):
        sys.exit(f"case {k} does not read back as it was")
    return given, number, "again wrote", found + read_vectors.packet_lines("  ", what)


def of_survey_write(k, arguments):
    parts, pad, body, at, room = arguments
    given = [*parts_words(parts), pad, at, room, len(body), *body]
    number, after, found = written_lines(k, parts, body, at, room, pad)
    if number != WRITTEN:
        return given, number, f"survey write refused {number}", found
    # What is written reads back: the parts, the pad count of type 1, and the body.
    said = vrt49.read_survey(after[at:])
    if said[0] != "accepted":
        sys.exit(f"case {k} does not read back")
    packet, survey = said[1]
    if survey.pad != (pad if parts.type == 1 else 0):
        sys.exit(f"case {k} reads back another pad count")
    if after[at + packet.body : at + packet.body + packet.length] != body:
        sys.exit(f"case {k} reads back another body")
    return given, number, "survey write wrote", found


def of_survey_again(k, arguments):
    words, at, room = arguments
    given = [at, room, len(words), *words]
    said = vrt49.read_survey(words)
    if said[0] == "refused":
        return refused_in_reading(k, SURVEY_AGAIN, given, said)
    what = said[1]
    packet, survey = what
    parts, body = vrt49_write.parts_of(packet), vrt49.body_of(words)
    number, after, found = written_lines(k, parts, body, at, room, survey.pad)
    if number != WRITTEN:
        return given, number, f"survey again refused {number} in writing", found
    if after[at : at + packet.size] != words[: packet.size]:
        sys.exit(f"case {k} has not written the words that were read")
    if vrt49.read_survey(after[at:]) != ("accepted", what):
        sys.exit(f"case {k} does not read back as it was")
    found = found + read_vectors.packet_lines("  ", packet, survey)
    return given, number, "survey again wrote", found


def of_trailer(k, arguments):
    answer, what = vrt49_write.trailer_word(*arguments)
    if answer == "refused":
        return list(arguments), what, f"trailer refused {what}", [f"{k} refused {what}"]
    if vrt49.trailer_parts(what) != arguments:
        sys.exit(f"case {k} is a trailer word of other parts")
    return list(arguments), WRITTEN, "trailer word", [f"{k} trailer {what}"]


ASK = {
    WRITE: of_write,
    AGAIN: of_again,
    TRAILER: of_trailer,
    SURVEY_WRITE: of_survey_write,
    SURVEY_AGAIN: of_survey_again,
}


def build():
    read_vectors.build()
    types()
    values()
    flags()
    choices()
    absent_parts()
    short_bodies()
    times()
    as_in_reading()
    rooms()
    order()
    trailers()
    random_cases()
    sizes()
    survey_vectors()
    survey_pads()
    survey_classes()
    survey_choices()
    survey_rooms()
    survey_order()
    survey_as_in_reading()
    random_surveys()
    survey_size()
    places()


# Each answer, and the least number of its cases.
LEAST = {
    "write wrote": 150,
    **{f"write refused {number}": 8 for number in ORDER},
    f"write refused {SIZE}": 3,
    "again wrote": 300,
    f"again refused {ROOM} in writing": 8,
    **{f"again refused {number} in reading": 5 for number in range(1, 11)},
    "trailer word": 10,
    f"trailer refused {VALUE}": 8,
    "survey write wrote": 500,
    **{f"survey write refused {number}": 8 for number in SURVEY_ORDER},
    f"survey write refused {PAD}": 300,
    f"survey write refused {SIZE}": 1,
    "survey again wrote": 250,
    f"survey again refused {ROOM} in writing": 8,
    **{f"survey again refused {number} in reading": 5 for number in range(1, 11)},
    f"survey again refused {PAD} in reading": 40,
}


def check(tally):
    """The cases that there have to be."""
    for label in tally:
        if label not in LEAST:
            sys.exit(f"{label}: not an answer that is asked for")
    for label, n in LEAST.items():
        if tally.get(label, 0) < n:
            sys.exit(f"{label}: {tally.get(label, 0)} cases, fewer than {n}")
    if len(cases) < 400:
        sys.exit(f"{len(cases)} cases, fewer than 400")
    # A body with no words is not too large, so SHORT and SIZE do not meet.
    pairs = [pair for pair in zip(ORDER, ORDER[1:]) if pair != (SHORT, SIZE)]
    for pair in pairs + [(VALUE, SIZE), (SHORT, TIME)]:
        if pair not in both_faults:
            sys.exit(f"no case has the faults {pair[0]} and {pair[1]}")
    # PAD is one of type 1, which has no field: FIELD and PAD do not meet.
    pairs = [pair for pair in pairs if SIZE not in pair and pair != (FIELD, ROOM)]
    pairs += [(number, PAD) for number in (TYPE, VALUE, SIZE, TIME)] + [(PAD, ROOM)]
    for pair in pairs + [(SHORT, TIME), (FIELD, ROOM)]:
        if pair not in survey_faults:
            sys.exit(f"no survey case has the faults {pair[0]} and {pair[1]}")
    chosen = set()
    places = set()
    for op, arguments, answer in cases:
        if op != WRITE or answer not in (WRITTEN, ROOM):
            continue
        parts, body, at, room = arguments
        size = vrt49_write.packet_size(parts, body)
        if answer == WRITTEN:
            chosen.add((
                parts.type, parts.class_flag, parts.trailer_flag, parts.tsm,
                parts.tsi > 0, parts.tsf > 0,
            ))
        for name, there in (
            ("the start", at == 0 and answer == WRITTEN),
            ("the middle", at > 0 and at + size < room),
            ("the last place that fits", at > 0 and at + size == room),
            ("one word too few", at + size == room + 1),
            ("the room", at == room),
            ("past the room", at == room + 1),
            ("2^32 - 1", at == ONES),
        ):
            if there:
                places.add((parts.type, name))
    if len(chosen) != 6 * 16:
        sys.exit(f"{len(chosen)} of 96 choices of type and optional parts are written")
    if len(places) != 6 * 7:
        sys.exit(f"{len(places)} of 42 types and places to write at are there")


def check_edges():
    """The edges of TYPE, VALUE and TIME, and absent parts that would not fit."""
    found = set()
    for op, arguments, answer in cases:
        if op != WRITE:
            continue
        parts, _, _, _ = arguments
        found.add((answer, "type", parts.type))
        found.add((answer, parts.type, "trailer", parts.trailer_flag, "tsm", parts.tsm))
        found.add((answer, "tsf", parts.tsf, "fraction", parts.fraction))
        for name, width in WIDTHS:
            there = parts.class_flag == 1 or name in ("count", "tsi", "tsf")
            if there:
                found.add((answer, name, getattr(parts, name) - 2**width))
            elif getattr(parts, name) >= 2**width:
                found.add((answer, name, "absent"))
    wanted = [(WRITTEN, "type", 5), (TYPE, "type", 6), (TYPE, "type", 16), (TYPE, "type", ONES)]
    for kind in DATA_TYPES:
        wanted += [(WRITTEN, kind, "trailer", 1, "tsm", 0), (VALUE, kind, "trailer", 0, "tsm", 1)]
    for kind in CONTEXT_TYPES:
        wanted += [(WRITTEN, kind, "trailer", 0, "tsm", 1), (VALUE, kind, "trailer", 1, "tsm", 0)]
    wanted += [(TIME, "tsf", 2, "fraction", TERA), (WRITTEN, "tsf", 2, "fraction", TERA - 1)]
    wanted += [(WRITTEN, "tsf", tsf, "fraction", TERA) for tsf in (0, 1, 3)]
    for name, _ in WIDTHS:
        wanted += [(WRITTEN, name, -1), (VALUE, name, 0)]
    for name in ("oui", "information", "packet"):
        wanted.append((WRITTEN, name, "absent"))
    for edge in wanted:
        if edge not in found:
            sys.exit(f"no case at the edge {edge}")


def check_places():
    """Every number of reading, those of other words than the header with a place, and
    every field that has a rule."""
    wanted = [(AGAIN, FIELD, True, bit) for bit in read_vectors.RULED]
    for op in (AGAIN, SURVEY_AGAIN):
        wanted += [(op, number, False, None) for number in range(1, 6)]
        wanted += [(op, number, True, None) for number in range(6, 10)]
    wanted += [(SURVEY_AGAIN, FIELD, True, 8)]
    wanted += [(SURVEY_AGAIN, PAD, there, None) for there in (False, True)]
    for one in wanted:
        if one not in told_in_reading:
            sys.exit(f"no case that reading refuses with {one}")


def check_survey_edges():
    """The edges of C-13 in writing."""
    found = set()
    for op, arguments, answer in cases:
        if op == SURVEY_AGAIN:
            words, _, _ = arguments
            if answer == WRITTEN and read_vectors.has_survey_class(words):
                found.add((WRITTEN, "pad again", words[2] >> 27))
        if op != SURVEY_WRITE:
            continue
        parts, pad, body, _, _ = arguments
        c, t = parts.class_flag, parts.trailer_flag
        found.add((answer, parts.type, "class", c, "pad", pad))
        if parts.type != 1:
            continue
        found.add((answer, "class", c, "trailer", t))
        low = parts.information << 16 | parts.packet
        if not c or not t or low > ONES or pad > 31:
            continue
        if parts.oui != OUI and low >> 22 == 0:
            found.add((answer, "oui", parts.oui ^ OUI))
        if parts.oui == OUI and low >> 22 != 0:
            found.add((answer, "low", low >> 22))
            if low == 0x20110002:
                found.add((answer, "no data"))
        if parts.oui != OUI or low >> 22 != 0:
            continue
        data, rc, vector = low >> 16 & 15, low >> 20 & 3, (low & 0xFFFF) + 1
        found.add((answer, "rc", rc, "data", data))
        if rc < 2 and data in ITEM_BITS:
            size = ITEM_BITS[data] * (1 + rc) * vector
            if (32 * len(body) - pad) % size == 0:
                vectors = (32 * len(body) - pad) // size
                found.add((answer, data, rc, vector, "vectors", vectors))
            if ITEM_BITS[data] == 64 and pad == 0:
                found.add((answer, "64 bits", "odd" if len(body) % 2 else "even"))
        found.add((answer, "words", len(body), "pad", pad))
    wanted = []
    for data in ITEM_BITS:
        for rc in (0, 1):
            for vector in (1, 2, 3, 7):
                for vectors in (0, 1, 2, 5):
                    wanted.append((WRITTEN, data, rc, vector, "vectors", vectors))
    for pad in range(32):
        wanted += [(WRITTEN, 1, "class", 1, "pad", pad), (WRITTEN, "pad again", pad)]
    for pad in (32, 1 << 27, ONES):
        wanted += [(VALUE, 1, "class", 1, "pad", pad), (PAD, 1, "class", 0, "pad", pad)]
        wanted += [(WRITTEN, kind, "class", 1, "pad", pad) for kind in (0, 2, 3, 4, 5)]
    wanted += [(WRITTEN, "words", 0, "pad", 0), (PAD, "words", 0, "pad", 1)]
    wanted += [(PAD, "64 bits", "odd"), (WRITTEN, "64 bits", "even")]
    wanted += [(WRITTEN, 5, 1, 65536, "vectors", 0), (PAD, "no data")]
    wanted += [(PAD, "oui", 1 << bit) for bit in range(24)]
    wanted += [(PAD, "low", 1 << bit) for bit in range(10)]
    for rc in range(4):
        for data in range(16):
            right = rc < 2 and data in ITEM_BITS
            wanted.append((WRITTEN if right else PAD, "rc", rc, "data", data))
    for c, t in ((0, 0), (0, 1), (1, 0)):
        wanted.append((PAD, "class", c, "trailer", t))
    wanted.append((WRITTEN, "class", 1, "trailer", 1))
    for edge in wanted:
        if edge not in found:
            sys.exit(f"no survey case at the edge {edge}")


def main():
    if len(sys.argv) != 3:
        sys.exit("usage: write_vectors.py INPUT EXPECTED")
    build()
    given = bytearray()
    expected = []
    tally = {}
    for k, (op, arguments, answer) in enumerate(cases):
        words, number, label, found = ASK[op](k, arguments)
        if answer is not None and number != answer:
            sys.exit(f"case {k} is built for {answer}, the reference says {number}")
        tally[label] = tally.get(label, 0) + 1
        for word in [op, *words]:
            given += word.to_bytes(4, "big")
        expected += found
    check(tally)
    check_edges()
    check_survey_edges()
    check_places()
    if len(given) > 1_950_000:
        sys.exit(f"the input has {len(given)} bytes, more than 1,950,000")
    with open(sys.argv[1], "wb") as file:
        file.write(given)
    with open(sys.argv[2], "w", encoding="ascii", newline="\n") as file:
        file.write("".join(line + "\n" for line in expected))
    for label in LEAST:
        print(f"{label}: {tally[label]}")
    print(f"cases {len(cases)}")


if __name__ == "__main__":
    main()
