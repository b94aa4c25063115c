"""Writes the cases for reading packets and the reference's answers to them.

    python3 tools/reference/read_vectors.py INPUT EXPECTED

README.md gives the form of both files.  Each case that is built for one answer
says which answer that is, and each that is built for one place which place; a case
where the reference says another ends the program without writing.  So does a refusal
whose place is not the one that is found by walking over the words.
"""

import sys
from collections import namedtuple

sys.dont_write_bytecode = True

import payload
import vrt49
from vrt49 import (
    BITS, CLASS, CUT, EMPTY, FIELD, INDICATOR, LAYOUT, PAD, SHORT, TIME, TYPE,
)

ACCEPTED = 0
ONES = 0xFFFFFFFF
IDENTIFIER = 0x00C0FFEE
TERA = 10**12

DATA_TYPES = (0, 1, 2, 3)
CONTEXT_TYPES = (4, 5)
TYPES = DATA_TYPES + CONTEXT_TYPES

# The 21 fields of fixed size, from bit 30 downwards.
FIXED = (
    (30, 1), (29, 2), (28, 2), (27, 2), (26, 2), (25, 2), (24, 1), (23, 1),
    (22, 1), (21, 2), (20, 2), (19, 1), (18, 1), (17, 2), (16, 1), (15, 2),
    (14, 11), (13, 11), (12, 13), (11, 13), (10, 1),
)
FIXED_BITS = 0x7FFFFC00

# A format word whose rule is kept: link-efficient, complex, 16-bit signed.
FORMAT = 0xA00003CF

# The two ways to read.
PLAIN = 0
SURVEY = 1

cases = []


def case(words, answer=None, way=PLAIN, told=None):
    """One case, with the answer it is built for, if it is built for one, and with the
    place and the bit, if it is built for these."""
    for word in words:
        assert 0 <= word <= ONES
    cases.append((way, list(words), answer, told))


def survey_case(words, answer=None):
    """The same, to be read as a survey packet."""
    case(words, answer, SURVEY)


def packet(
    kind,
    body=(),
    c=0,
    t=0,
    m=0,
    tsi=0,
    tsf=0,
    count=0,
    size=None,
    identifier=IDENTIFIER,
    oui=0x00123456,
    classes=0x00070009,
    seconds=0x5F5E1000,
    fraction=1,
    trailer=0,
    reserved=0,
):
    """The words of a packet; a size other than its own may be asked for, and
    reserved names header bits to be set besides."""
    words = [0]
    if kind in (1, 3, 4, 5):
        words.append(identifier)
    if c:
        words += [oui, classes]
    if tsi:
        words.append(seconds)
    if tsf:
        words += [fraction >> 32, fraction & ONES]
    words += body
    if t:
        words.append(trailer)
    if size is None:
        size = len(words)
    words[0] = (
        kind << 28 | c << 27 | t << 26 | m << 24 | tsi << 22 | tsf << 20
        | count << 16 | size | reserved
    )
    return words


def context(indicator, words=(), **rest):
    """A type 4 packet of an indicator word and the words after it."""
    return packet(4, [indicator, *words], **rest)


def counted(n, first=1):
    """n words to fill a body, each one different."""
    return [first + i for i in range(n)]


def plain(bit, n):
    """The n words of a fixed field, its rule kept."""
    if bit == 15:
        return [FORMAT, 0]
    if bit == 16:
        return [0x80050044]
    return [0x100 * bit] * (n - 1) + [bit]


def all_fixed():
    return [word for bit, n in FIXED for word in plain(bit, n)]


def no_words():
    case([], EMPTY)


# TYPE


def types():
    for kind in range(6, 16):
        case(packet(kind, counted(3)), TYPE)
    case([0x60000001], TYPE)
    case([ONES], TYPE)
    case([ONES] * 8, TYPE)
    for kind in TYPES:
        case(packet(kind, [0], count=kind), ACCEPTED)
    no_words()


# BITS


def reserved_bits():
    for kind in TYPES:
        upper, lower = (25, 24) if kind in DATA_TYPES else (26, 25)
        case(packet(kind, [0], reserved=1 << upper), BITS)
        case(packet(kind, [0], reserved=1 << lower), BITS)
        case(packet(kind, [0], c=1, tsi=1, tsf=1, reserved=1 << upper | 1 << lower), BITS)
        # The other kind's bit.
        if kind in DATA_TYPES:
            case(packet(kind, [5], t=1, trailer=9), ACCEPTED)
            case(packet(kind, [5], t=1, trailer=9, reserved=1 << lower), BITS)
        else:
            case(packet(kind, [0], m=1), ACCEPTED)
            case(packet(kind, [0], m=1, reserved=1 << upper), BITS)
    no_words()


# SHORT


def required_parts():
    """Every type with every choice of optional parts, at exactly the size of
    the required parts and one below."""
    step = 0
    for kind in TYPES:
        for choice in range(16):
            c, flag, seconds, fraction = (choice >> i & 1 for i in (3, 2, 1, 0))
            parts = dict(
                c=c,
                t=flag if kind in DATA_TYPES else 0,
                m=flag if kind in CONTEXT_TYPES else 0,
                tsi=(1 + step % 3) * seconds,
                tsf=(1 + step // 3 % 3) * fraction,
                count=step % 16,
                trailer=0xA5A5A500 + step,
                fraction=0x00000012_00000034 + step,
            )
            body = [0x80000000] if kind == 4 else []
            right = packet(kind, body, **parts)
            case(right, ACCEPTED)
            # In turn with the last word given and without it.
            below = [right[0] - 1] + right[1:]
            if len(below) > 1 and step % 2 == 1:
                below = below[:-1]
            case(below, SHORT)
            step += 1
    no_words()


def small_sizes():
    for kind in TYPES:
        case(packet(kind, [0, 0, 0], size=0), SHORT)
    case([0x00000000], SHORT)
    case([0x10000001], SHORT)
    case([0x10000001, 7], SHORT)
    case([0x00000001], ACCEPTED)
    case([0x20000001, 7], ACCEPTED)
    case([0x04000001], SHORT)
    case([0x04000002, 7], ACCEPTED)
    case([0x40000002, 7, 0], SHORT)
    case([0x50000002, 7, 0], ACCEPTED)
    case([0x40000003, 7, 0], ACCEPTED)


# CUT


def cut_off():
    for kind in TYPES:
        body = [0] if kind == 4 else counted(2)
        right = packet(kind, body, count=kind)
        case([right[0] + 1] + right[1:], CUT)
        case(right[:-1], CUT)
        case(right[:1], CUT)
        case(packet(kind, body, size=65535), CUT)
        # Words beyond the size.
        case(right + [ONES] * (1 + kind), ACCEPTED)
    case(packet(1, counted(2), t=1, trailer=0x11) + [0x22], ACCEPTED)
    case(packet(1, counted(2), t=1, trailer=0x11)[:-1], CUT)
    case(context(0x00800000, [1]) + [ONES], ACCEPTED)
    case(context(0x00C00000, [1]) + [2], LAYOUT)
    case(packet(1, [], c=1, tsi=1, tsf=1)[:4], CUT)
    no_words()


# CLASS


def classes():
    for bit in range(24, 32):
        case(packet(1, [1], c=1, oui=1 << bit), CLASS)
    for kind in TYPES:
        body = [0] if kind == 4 else [1]
        case(packet(kind, body, c=1, oui=0x01FFFFFF, tsi=1), CLASS)
        case(packet(kind, body, c=1, oui=0x00FFFFFF, classes=ONES, tsi=2), ACCEPTED)
    case(packet(0, [1], c=1, oui=ONES), CLASS)
    case(packet(0, [], c=1, oui=0x00800000, classes=0x80000000), ACCEPTED)
    case(packet(0, [], c=1, oui=0x00000001, classes=0x00010000), ACCEPTED)
    case(packet(0, [], c=1, oui=0x00000000, classes=0x00008001), ACCEPTED)
    # No class: the word at that place is something else.
    case(packet(0, [ONES, ONES]), ACCEPTED)
    case(packet(1, [], tsi=1, seconds=ONES), ACCEPTED)
    case(packet(3, [ONES], identifier=ONES), ACCEPTED)
    no_words()


# TIME


def times():
    edges = (
        TERA - 1,
        TERA,
        TERA + 1,
        TERA >> 32 << 32,
        (TERA >> 32) + 1 << 32,
        1 << 63,
        ONES,
        (1 << 64) - 1,
    )
    for fraction in edges:
        for tsf in (1, 2, 3):
            late = tsf == 2 and fraction >= TERA
            case(packet(1, [1], tsf=tsf, fraction=fraction), TIME if late else ACCEPTED)
    for kind in TYPES:
        body = [0] if kind == 4 else []
        case(packet(kind, body, c=1, tsi=3, tsf=2, fraction=TERA), TIME)
        case(packet(kind, body, c=1, tsi=3, tsf=2, fraction=TERA - 1), ACCEPTED)
    # No fraction: the two words at that place are something else.
    case(packet(0, [ONES, ONES], tsi=1, seconds=ONES), ACCEPTED)
    no_words()


def stamps():
    for kind in (1, 4):
        for tsi in range(4):
            for tsf in range(4):
                body = [0x80000000] if kind == 4 else [0xB0D1, 0xB0D2]
                words = packet(
                    kind, body, tsi=tsi, tsf=tsf, count=4 * tsi + tsf,
                    seconds=0x80000001, fraction=0x000000E8_80000001,
                )
                case(words, ACCEPTED)


# INDICATOR


def indicators():
    for bit in range(8):
        case(context(1 << bit), INDICATOR)
    for bit in (7, 0):
        case(context(0x80000000 | 1 << bit), INDICATOR)
        case(context(0x00800000 | 1 << bit, [5]), INDICATOR)
        case(context(0x00000100 | 1 << bit, [0, 0], c=1, tsi=1, tsf=3), INDICATOR)
        # In an Extension Context packet or a data packet the word is opaque.
        case(packet(5, [1 << bit]), ACCEPTED)
        case(packet(1, [1 << bit]), ACCEPTED)
    case(context(0x000000FF), INDICATOR)
    case(context(0x00000000), ACCEPTED)
    case(context(0x80000000), ACCEPTED)
    case(context(0x00000000, m=1), ACCEPTED)
    no_words()


# LAYOUT


def fixed_fields():
    for bit, n in FIXED:
        words = plain(bit, n)
        case(context(1 << bit, words), ACCEPTED)
        case(context(1 << bit, words + [0]), LAYOUT)
        case(context(1 << bit, words[:-1]), LAYOUT)
    for changed in (0, 0x80000000):
        words = all_fixed()
        assert len(words) == 74
        case(context(changed | FIXED_BITS, words), ACCEPTED)
        case(context(changed | FIXED_BITS, words + [0]), LAYOUT)
        case(context(changed | FIXED_BITS, words[:-1]), LAYOUT)
        # Bit 31 has no field.
        case(context(changed, [0]), LAYOUT)
        case(context(changed | 1 << 30, [7]), ACCEPTED)
        case(context(changed | 1 << 30), LAYOUT)
    case(context(0x21200000, [0, 1, 2, 0, 3], tsi=1, tsf=2, count=5), ACCEPTED)


def gps_ascii():
    nine = 1 << 9
    for n in (0, 1, 2, 3, 7, 100):
        text = counted(n, 0x24475047)
        case(context(nine, [0x00ABCDEF, n] + text), ACCEPTED)
        case(context(nine, [0x00ABCDEF, n + 1] + text), LAYOUT)
        if n > 0:
            case(context(nine, [0x00ABCDEF, n - 1] + text), LAYOUT)
    three = counted(3)
    for n in (
        0x10000, 0x10003, 0x40000003, 1 << 31, (1 << 31) + 3, ONES - 3, ONES - 2,
        ONES - 1, ONES,
    ):
        case(context(nine, [0, n] + three), LAYOUT)
    case(context(nine, [0, ONES]), LAYOUT)
    case(context(nine, [0, ONES - 1]), LAYOUT)
    # Its own two words past the body, or one of them.
    case(context(nine), LAYOUT)
    case(context(nine, [0]), LAYOUT)
    case(context(1 << 10 | nine, [5]), LAYOUT)
    case(context(1 << 10 | nine, [5, 0]), LAYOUT)
    case(context(1 << 10 | nine, [5, 0, 0]), ACCEPTED)
    # The words past the size are not the body's.
    case(context(nine, [0]) + [0], LAYOUT)
    case(context(nine) + [0, 0], LAYOUT)
    case(context(nine, [0, 1]) + [0x24], LAYOUT)
    case(context(FIXED_BITS | nine, all_fixed() + [0x00FFFFFF, 2, 8, 9]), ACCEPTED)
    case(context(FIXED_BITS | nine, all_fixed() + [0x00FFFFFF, 3, 8, 9]), LAYOUT)
    no_words()


def lists_of(source=0, system=0, vector=0, asynchronous=0, twice=0):
    return [source << 16 | system, vector << 16 | twice << 15 | asynchronous]


def lists():
    eight = 1 << 8
    case(context(eight, [0, 0]), ACCEPTED)
    case(context(eight, [0, 0x8000]), ACCEPTED)
    case(context(eight, [0, 0, 0]), LAYOUT)
    # Each list alone, right, one word past the body, one word fewer.
    for name in ("source", "system", "vector", "asynchronous"):
        for n in (1, 5):
            case(context(eight, lists_of(**{name: n}) + counted(n)), ACCEPTED)
            case(context(eight, lists_of(**{name: n}) + counted(n - 1)), LAYOUT)
            case(context(eight, lists_of(**{name: n}) + counted(n + 1)), LAYOUT)
    # The asynchronous list counted twice.
    for n in (1, 5):
        head = lists_of(asynchronous=n, twice=1)
        case(context(eight, head + counted(2 * n)), ACCEPTED)
        case(context(eight, head + counted(2 * n - 1)), LAYOUT)
        case(context(eight, head + counted(2 * n + 1)), LAYOUT)
        case(context(eight, head + counted(n)), LAYOUT)
        case(context(eight, lists_of(asynchronous=n) + counted(2 * n)), LAYOUT)
    # Bit 15 counts no other list twice.
    case(context(eight, lists_of(1, 2, 3, 0, 1) + counted(6)), ACCEPTED)
    case(context(eight, lists_of(1, 2, 3, 4, 0) + counted(10)), ACCEPTED)
    case(context(eight, lists_of(1, 2, 3, 4, 1) + counted(14)), ACCEPTED)
    case(context(eight, lists_of(1, 2, 3, 4, 1) + counted(13)), LAYOUT)
    case(context(eight, lists_of(1, 2, 3, 4, 1) + counted(20)), LAYOUT)
    # Every bit of a size counts; the largest lists are not given.
    case(context(eight, lists_of(source=0x100) + counted(0x100)), ACCEPTED)
    case(context(eight, lists_of(system=0x100) + counted(0x100)), ACCEPTED)
    case(context(eight, lists_of(vector=0x200) + counted(0x200)), ACCEPTED)
    case(context(eight, lists_of(asynchronous=0x200) + counted(0x200)), ACCEPTED)
    for bit in range(12, 16):
        case(context(eight, lists_of(vector=1 << bit)), LAYOUT)
    for bit in range(12, 15):
        case(context(eight, lists_of(asynchronous=1 << bit)), LAYOUT)
        case(context(eight, lists_of(asynchronous=1 << bit, twice=1)), LAYOUT)
    case(context(eight, lists_of(511, 511) + counted(1022)), ACCEPTED)
    case(context(eight, lists_of(511, 511) + counted(1021)), LAYOUT)
    # The largest together, and sums that pass 2^16.
    case(context(eight, lists_of(511, 511, 65535, 32767, 1)), LAYOUT)
    case(context(eight, lists_of(511, 511, 65535, 32767, 1) + counted(20)), LAYOUT)
    case(context(eight, lists_of(511, 511, 65535, 32767, 1) + counted(1020)), LAYOUT)
    case(context(eight, lists_of(vector=65535, source=4) + counted(3)), LAYOUT)
    case(context(eight, lists_of(vector=65534)), LAYOUT)
    case(context(eight, lists_of(asynchronous=32767, system=5, twice=1) + counted(3)), LAYOUT)
    # Its own two words past the body, or one of them.
    case(context(eight), LAYOUT)
    case(context(eight, [0]), LAYOUT)
    case(context(1 << 10 | eight, [5]), LAYOUT)
    case(context(1 << 10 | eight, [5, 0]), LAYOUT)
    case(context(1 << 10 | eight, [5, 0, 0]), ACCEPTED)
    case(context(eight, [0]) + [0], LAYOUT)
    case(context(eight, lists_of(system=1)) + [7], LAYOUT)
    no_words()


def both_long_fields():
    both = 3 << 8
    case(context(both, [0, 0, 0, 0]), ACCEPTED)
    case(context(both, [0, 2, 8, 9] + lists_of(1, 0, 1) + [5, 6]), ACCEPTED)
    case(context(both, [0, 2, 8, 9] + lists_of(1, 0, 1) + [5]), LAYOUT)
    case(context(both, [0, 2, 8, 9] + lists_of(1, 0, 1) + [5, 6, 7]), LAYOUT)
    # Field 9 comes first, and what it takes is not there for field 8.
    case(context(both, [0, 1, 0, 0]), LAYOUT)
    case(context(both, [0, 2, 0, 0]), LAYOUT)
    case(context(both, [0, 3, 0, 0]), LAYOUT)
    case(context(both, [0, 0]), LAYOUT)
    case(context(both, [0, 0, 0]), LAYOUT)
    case(context(both, [0]), LAYOUT)
    case(context(both), LAYOUT)
    # Sums that would come out even if they wrapped at 2^32.
    case(context(both, [0, ONES - 2] + [0] * 255), LAYOUT)
    case(context(both, [0, ONES, 0] + [0] * 1022), LAYOUT)
    case(context(both, [0, ONES - 1, 0, 0]), LAYOUT)
    case(context(both, [0, ONES, 0, 0]), LAYOUT)
    case(context(both, [0, ONES - 1] + lists_of(vector=4)), LAYOUT)
    case(context(FIXED_BITS | both, all_fixed() + [0, 1, 7] + lists_of(0, 2) + [8, 9]), ACCEPTED)
    case(context(FIXED_BITS | both, all_fixed() + [0, 1, 7] + lists_of(0, 2) + [8]), LAYOUT)
    case(context(FIXED_BITS | both, all_fixed() + [0, 1, 7] + lists_of(0, 2) + [8, 9, 10]), LAYOUT)
    case(context(ONES - 0xFF, all_fixed() + [0, 0, 0, 0], m=1, c=1, tsi=1, tsf=2), ACCEPTED)
    case(context(1 << 30 | both, [ONES, 0, 0, 0, 0x8000]), ACCEPTED)


# FIELD


def free_fields():
    """Every field without a rule, all ones."""
    for bit, n in FIXED:
        if bit not in (29, 24, 21, 18, 17, 16, 15):
            case(context(1 << bit, [ONES] * n), ACCEPTED)


def not_negative():
    for bit in (29, 21):
        case(context(1 << bit, [0x80000000, 0]), FIELD)
        case(context(1 << bit, [ONES, ONES]), FIELD)
        case(context(1 << bit, [0x7FFFFFFF, ONES]), ACCEPTED)
        case(context(1 << bit, [0x40000000, 0]), ACCEPTED)
        case(context(1 << bit, [0, 0x80000000]), ACCEPTED)


def upper_halves():
    for bit in (24, 18):
        for place in range(16, 32):
            case(context(1 << bit, [1 << place]), FIELD)
        case(context(1 << bit, [1 << 15]), ACCEPTED)
        case(context(1 << bit, [0xFFFF]), ACCEPTED)
        case(context(1 << bit, [ONES]), FIELD)


def devices():
    for place in range(24, 32):
        case(context(1 << 17, [1 << place, 0]), FIELD)
    for place in range(16, 32):
        case(context(1 << 17, [0, 1 << place]), FIELD)
    case(context(1 << 17, [1 << 23, 0]), ACCEPTED)
    case(context(1 << 17, [0, 1 << 15]), ACCEPTED)
    case(context(1 << 17, [0x00FFFFFF, 0x0000FFFF]), ACCEPTED)
    case(context(1 << 17, [ONES, ONES]), FIELD)


def states():
    for place in (23, 22, 21, 20, 11, 10, 9, 8):
        case(context(1 << 16, [1 << place]), FIELD)
    for place in (31, 24, 19, 12, 7, 0):
        case(context(1 << 16, [1 << place]), ACCEPTED)
    case(context(1 << 16, [0xFF0FF0FF]), ACCEPTED)
    case(context(1 << 16, [ONES]), FIELD)
    no_words()


def format_word(code=0, packing=16, item=16, event=0, channel=0, complexity=0, rest=0):
    return (
        complexity << 29 | code << 24 | event << 20 | channel << 16
        | packing - 1 << 6 | item - 1 | rest
    )


def formats():
    def held(answer, second=0, **rest):
        case(context(1 << 15, [format_word(**rest), second]), answer)

    # Every item code; 14 and 15 with other sizes too, and their neighbours.
    named = (0, 1, 2, 3, 4, 5, 6, 14, 15, 16, 17, 18, 19, 20, 21, 22)
    for code in range(32):
        kept = code in named and code not in (14, 15)
        held(ACCEPTED if kept else FIELD, code=code)
    held(FIELD, code=13, packing=32, item=32)
    held(ACCEPTED, code=16, packing=64, item=64)
    held(FIELD, code=30, packing=32, item=32)
    held(FIELD, code=31, packing=64, item=64)
    for item in (1, 31, 32, 33, 64):
        held(ACCEPTED if item == 32 else FIELD, code=14, packing=64, item=item)
    for item in (1, 32, 63, 64):
        held(ACCEPTED if item == 64 else FIELD, code=15, packing=64, item=item)
    for complexity in range(4):
        held(FIELD if complexity == 3 else ACCEPTED, complexity=complexity)
        held(FIELD if complexity == 3 else ACCEPTED, complexity=complexity, rest=1 << 31)
    for place in (12, 13, 14, 15):
        held(FIELD, rest=1 << place)
    held(FIELD, rest=0xF000)
    # Bits 31 and 23, and the second word, are free in reading.
    held(ACCEPTED, rest=1 << 23)
    held(ACCEPTED, second=ONES, rest=1 << 31 | 1 << 23)
    held(ACCEPTED, second=0x00010000)
    # Sizes: equal to the packing field, and one more.
    for item, event, channel in (
        (1, 0, 0), (1, 1, 0), (1, 0, 1), (12, 1, 2), (16, 0, 0), (16, 7, 0),
        (16, 0, 15), (31, 0, 1), (33, 4, 8), (42, 7, 15), (57, 7, 0), (49, 0, 15),
        (63, 1, 0), (63, 0, 1), (64, 0, 0),
    ):
        together = item + event + channel
        held(ACCEPTED, packing=together, item=item, event=event, channel=channel)
        if together > 1:
            held(FIELD, packing=together - 1, item=item, event=event, channel=channel)
    held(FIELD, packing=1, item=1, event=1)
    held(FIELD, packing=1, item=1, channel=1)
    held(FIELD, packing=1, item=2)
    held(FIELD, packing=64, item=64, event=1)
    held(FIELD, packing=64, item=64, channel=1)
    held(FIELD, packing=64, item=64, event=7, channel=15)
    held(FIELD, packing=63, item=64)
    held(FIELD, packing=64, item=43, event=7, channel=15)
    held(ACCEPTED, packing=64, item=1)
    held(ACCEPTED, code=14, packing=54, item=32, event=7, channel=15)
    held(FIELD, code=14, packing=53, item=32, event=7, channel=15)
    held(FIELD, code=15, packing=64, item=64, channel=1)
    held(FIELD, code=15, packing=63, item=64)
    case(context(1 << 15, [FORMAT, 0]), ACCEPTED)
    case(context(1 << 15, [0, 0]), ACCEPTED)
    case(context(1 << 15, [ONES, ONES]), FIELD)


def long_field_rules():
    for place in range(24, 32):
        case(context(1 << 9, [1 << place, 1, 5]), FIELD)
    case(context(1 << 9, [1 << 23, 1, 5]), ACCEPTED)
    case(context(1 << 9, [0x00FFFFFF, 1, ONES]), ACCEPTED)
    for place in list(range(25, 32)) + list(range(9, 16)):
        case(context(1 << 8, [1 << place | 1, 0, 5]), FIELD)
    case(context(1 << 8, lists_of(source=256) + counted(256)), ACCEPTED)
    case(context(1 << 8, [0, 0x00018001] + [ONES] * 3), ACCEPTED)
    no_words()


def rules_among_others():
    """Each rule broken alone among all the fields, at its place."""
    broken = {
        29: [0x80000000, 0],
        24: [0x00010000],
        21: [ONES, ONES],
        18: [0x80000000],
        17: [0, 0x00010000],
        16: [0x00000100],
        15: [FORMAT | 0x1000, 0],
    }
    tail = [0, 1, 7] + lists_of(1, 1) + [8, 9]
    everything = FIXED_BITS | 3 << 8
    for wrong in broken:
        words = [w for b, n in FIXED for w in (broken[b] if b == wrong else plain(b, n))]
        case(context(everything, words + tail), FIELD)
    case(context(everything, all_fixed() + tail), ACCEPTED)
    case(context(everything, all_fixed() + [1 << 24] + tail[1:]), FIELD)
    case(context(everything, all_fixed() + tail[:3] + [0x02010001, 0, 8, 9]), FIELD)
    case(context(everything, all_fixed() + tail[:3] + [0x00010201, 0, 8, 9]), FIELD)
    # A field that is not carried has no rule.
    case(context(1 << 28 | 1 << 23, [ONES, ONES, ONES]), ACCEPTED)


# The order of the refusals.


def order():
    # TYPE before BITS, SHORT, CUT.
    for kind in (6, 7, 14, 15):
        case([kind << 28 | 7 << 24 | 9, 0], TYPE)
        case([kind << 28], TYPE)
    # BITS before SHORT.
    case([0x02000000], BITS)
    case([0x11000000, 7], BITS)
    case([0x11000001, 7], BITS)
    case([0x44000002, 7, 0], BITS)
    case([0x52000001, 7], BITS)
    # BITS before CUT.
    case([0x12000009, 7], BITS)
    # SHORT before CUT.
    case([0x18000002], SHORT)
    case([0x18000003, 7], SHORT)
    case([0x40000002], SHORT)
    case([0x10700004, 7], SHORT)
    # SHORT before CLASS.
    case([0x18000003, 7, ONES, 0], SHORT)
    # CUT before CLASS, with the class word there and not there.
    case(packet(1, [1], c=1, oui=ONES, size=6), CUT)
    case(packet(1, [1], c=1, oui=ONES)[:4], CUT)
    case(packet(1, [1], c=1, oui=ONES)[:2], CUT)
    # CUT before TIME, INDICATOR, LAYOUT, FIELD.
    case(packet(1, [1], tsf=2, fraction=TERA, size=6), CUT)
    case(context(0x00000001, size=4), CUT)
    case(context(0x00800000, size=4), CUT)
    case(context(0x01000000, [ONES], size=5), CUT)
    # CLASS before TIME.
    case(packet(1, [1], c=1, oui=1 << 24, tsf=2, fraction=TERA), CLASS)
    case(packet(2, [], c=1, oui=1 << 31, tsi=1, tsf=2, fraction=(1 << 64) - 1), CLASS)
    # CLASS before INDICATOR, LAYOUT, FIELD.
    case(context(0x00000001, c=1, oui=1 << 24), CLASS)
    case(context(0x00800000, c=1, oui=1 << 24), CLASS)
    case(context(0x01000000, [ONES], c=1, oui=1 << 24), CLASS)
    # CLASS before TIME before INDICATOR.
    case(context(0x00000001, c=1, oui=1 << 24, tsf=2, fraction=TERA), CLASS)
    case(context(0x00000001, c=1, tsf=2, fraction=TERA), TIME)
    case(context(0x00000080, tsi=1, tsf=2, fraction=TERA), TIME)
    # TIME before LAYOUT and FIELD.
    case(context(0x00800000, tsf=2, fraction=TERA), TIME)
    case(context(0x01000000, [ONES], tsf=2, fraction=TERA), TIME)
    # INDICATOR before LAYOUT.
    case(context(0x00800001), INDICATOR)
    case(context(0x00800080, [1, 2]), INDICATOR)
    case(context(0x00000201, [0, ONES]), INDICATOR)
    # INDICATOR before FIELD.
    case(context(0x01000001, [ONES]), INDICATOR)
    # LAYOUT before FIELD, wherever the two faults are.
    case(context(0x01000000, [ONES, 0]), LAYOUT)
    case(context(0x20000000, [ONES]), LAYOUT)
    case(context(0x20000100, [ONES, ONES, 0]), LAYOUT)
    case(context(0x00008400, [ONES, ONES]), LAYOUT)
    case(context(0x01000300, [ONES, 0, 0, 0]), LAYOUT)
    case(context(0x00000200, [ONES, 1]), LAYOUT)
    case(context(0x00000100, [0xFE00FE00, 1]), LAYOUT)
    case(context(0x00000300, [ONES, 0, ONES, 0]), LAYOUT)
    case(context(FIXED_BITS, [ONES] * 75), LAYOUT)
    case(context(FIXED_BITS, [ONES] * 73), LAYOUT)
    case(context(FIXED_BITS, [ONES] * 74), FIELD)
    no_words()


# What is free.


def bodies():
    for kind in (0, 1, 2, 3, 5):
        case(packet(kind), ACCEPTED)
        case(packet(kind, [ONES] * 6, identifier=ONES, count=15), ACCEPTED)
        case(packet(kind, [0] * 6, identifier=0), ACCEPTED)
    for kind in DATA_TYPES:
        case(packet(kind, t=1, trailer=0x80000080), ACCEPTED)
    # Bodies of Extension packets that would be refused in a type 4 packet.
    for kind in (2, 3, 5):
        case(packet(kind, [0x000000FF]), ACCEPTED)
        case(packet(kind, [0x7FFFFF00]), ACCEPTED)
        case(packet(kind, [0x01000000, ONES]), ACCEPTED)
    case(packet(5, [ONES] * 3, m=1, c=1, tsi=3, tsf=3, fraction=(1 << 64) - 1), ACCEPTED)


def trailers():
    for word in (
        0, ONES, 0xFFF00000, 0x000FFF00, 0x00000080, 0x0000007F, 1 << 31, 1 << 20,
        1 << 19, 1 << 8, 1 << 6, 1, 0x00100080, 0x12345678, 0xAAAAAAAA, 0x55555555,
    ):
        case(packet(1, [0xFEED], t=1, trailer=word), ACCEPTED)
    for kind in (0, 2, 3):
        case(packet(kind, counted(3), c=1, t=1, tsi=1, tsf=1, trailer=0xDEADBEEF), ACCEPTED)
    # The trailer is the last word of the size, not of the words given.
    case(packet(3, [1], t=1, trailer=0x76543210) + [ONES, ONES], ACCEPTED)
    no_words()


def largest():
    """65,535 words: eight of other parts, the rest body."""
    body = [i * 0x9E3779B1 & ONES for i in range(65535 - 8)]
    words = packet(
        1, body, c=1, t=1, tsi=2, tsf=2, count=9, fraction=TERA - 1, trailer=0x0F0F0F0F
    )
    assert len(words) == 65535
    case(words, ACCEPTED)


# Pseudo-random cases.


class Numbers:
    """A linear congruential generator, so that the cases are the same
    everywhere and always."""

    def __init__(self, seed):
        self.state = seed

    def word(self):
        self.state = (self.state * 6364136223846793005 + 1442695040888963407) % 2**64
        return self.state >> 32

    def below(self, n):
        return self.word() % n

    def some(self, n):
        return [self.word() for _ in range(n)]


def random_field(numbers, bit, n):
    """The words of a fixed field, its rule kept."""
    words = numbers.some(n)
    if bit in (29, 21):
        words[0] &= 0x7FFFFFFF
    elif bit in (24, 18):
        words[0] &= 0x0000FFFF
    elif bit == 17:
        words[0] &= 0x00FFFFFF
        words[1] &= 0x0000FFFF
    elif bit == 16:
        words[0] &= 0xFF0FF0FF
    elif bit == 15:
        item = 1 + numbers.below(42)
        event = numbers.below(8)
        channel = numbers.below(16)
        together = item + event + channel
        words[0] = format_word(
            code=(0, 1, 6, 16, 17, 22)[numbers.below(6)],
            packing=together + numbers.below(65 - together),
            item=item,
            event=event,
            channel=channel,
            complexity=numbers.below(3),
            rest=words[0] & 0x80800000,
        )
    return words


def random_context(numbers):
    # Each field with a chance of one in two, four or eight.
    chance = 2 << numbers.below(3)
    indicator = numbers.below(2) << 31
    words = []
    for bit, n in FIXED:
        if numbers.below(chance) == 0:
            indicator |= 1 << bit
            words += random_field(numbers, bit, n)
    if numbers.below(chance) == 0:
        indicator |= 1 << 9
        n = numbers.below(9)
        words += [numbers.word() & 0x00FFFFFF, n] + numbers.some(n)
    if numbers.below(chance) == 0:
        indicator |= 1 << 8
        source, system, vector, asynchronous = (numbers.below(6) for _ in range(4))
        twice = numbers.below(2)
        words += lists_of(source, system, vector, asynchronous, twice)
        words += numbers.some(source + system + vector + asynchronous * (1 + twice))
    return [indicator] + words


def random_packet(numbers):
    kind = (0, 1, 2, 3, 4, 4, 4, 4, 4, 5)[numbers.below(10)]
    tsf = numbers.below(4)
    fraction = numbers.word() << 32 | numbers.word()
    return packet(
        kind,
        random_context(numbers) if kind == 4 else numbers.some(numbers.below(12)),
        c=numbers.below(2),
        t=numbers.below(2) if kind in DATA_TYPES else 0,
        m=numbers.below(2) if kind in CONTEXT_TYPES else 0,
        tsi=numbers.below(4),
        tsf=tsf,
        count=numbers.below(16),
        identifier=numbers.word(),
        oui=numbers.word() & 0x00FFFFFF,
        classes=numbers.word(),
        seconds=numbers.word(),
        fraction=fraction % TERA if tsf == 2 else fraction,
        trailer=numbers.word(),
    )


def damaged(numbers, words):
    """The words with one of them changed: a bit, the whole word, or the size
    by one."""
    words = list(words)
    way = numbers.below(4)
    if way == 0:
        words[0] ^= 1 << numbers.below(32)
    elif way == 1:
        words[numbers.below(min(len(words), 12))] ^= 1 << numbers.below(32)
    elif way == 2:
        words[numbers.below(len(words))] = numbers.word()
    else:
        words[0] = words[0] - 1 if numbers.below(2) else words[0] + 1
    return words


def random_cases():
    numbers = Numbers(49)
    for _ in range(70):
        words = random_packet(numbers)
        case(words + numbers.some(numbers.below(3)), ACCEPTED)
    for _ in range(130):
        words = random_packet(numbers)
        case(damaged(numbers, words) + numbers.some(numbers.below(3)))
    for _ in range(10):
        case(numbers.some(1 + numbers.below(20)))
    for _ in range(30):
        # Any words, but a type that is read, no reserved bit, and a size near
        # the number of words given.
        words = numbers.some(3 + numbers.below(20))
        kind = numbers.below(6)
        free = 0x0CFF0000 if kind in DATA_TYPES else 0x09FF0000
        words[0] = kind << 28 | words[0] & free | len(words) + 1 - numbers.below(3)
        case(words)
    no_words()


# Spectrum-survey packets: C-13 of document 02, and table 4-4 and table 4-5 of source
# document 004.

OUI = 0x00FFFFFA

# The bits of an item of each data type.
ITEM_BITS = {
    1: 4, 2: 8, 3: 16, 4: 32, 5: 64, 6: 32, 7: 64, 8: 1, 9: 4, 10: 8, 11: 16, 12: 32, 13: 64,
}


def survey_class(pad=0, data=8, rc=0, vector=1, high=0, low=0):
    """The two words of a class; high and low name bits to be turned over besides."""
    return (pad << 27 | OUI) ^ high, (rc << 20 | data << 16 | vector - 1) ^ low


def survey(body=(), pad=0, data=8, rc=0, vector=1, high=0, low=0, c=1, t=1, **rest):
    """A survey packet of type 1."""
    oui, classes = survey_class(pad, data, rc, vector, high, low)
    return packet(1, body, c=c, t=t, oui=oui, classes=classes, **rest)


def has_survey_class(words):
    """Whether words have the OUI of a survey packet where type 1 has its class."""
    return len(words) > 3 and words[0] >> 28 == 1 and words[2] & 0x00FFFFFF == OUI


def whole(n, pad, data, rc, vector):
    """Whether n words, without the pad bits, are whole vectors."""
    left = 32 * n - pad
    return left >= 0 and left % (ITEM_BITS[data] * (1 + rc) * vector) == 0


def sized(n, pad=0, data=8, rc=0, vector=1, **rest):
    """A survey packet with a payload of n words, asked both ways; what is in the pad
    bits is free."""
    words = survey(counted(n, 0x5A5A0001), pad, data, rc, vector, **rest)
    survey_case(words, ACCEPTED if whole(n, pad, data, rc, vector) else PAD)
    case(words, CLASS if pad > 0 else ACCEPTED)


# Two packets worked out by hand, each with its pad count, format and n, and with what it
# is answered when it is read plainly.
HANDS = (
    (
        (0x1C000007, 7, 0x00FFFFFA, 0x00130000, 0xABCDEF12, 0x30000000, 0),
        (0, 0x200003CF, 0, 4),
        ACCEPTED,
    ),
    (
        (0x1C000006, 7, 0x40FFFFFA, 0x000A0002, 0x01020300, 0),
        (8, 0x100001C7, 2, 3),
        CLASS,
    ),
)


def by_hand():
    for words, _, plain_answer in HANDS:
        survey_case(words, ACCEPTED)
        case(words, plain_answer)


def survey_vectors():
    """Every data type, real and complex, in vectors of 1, 2, 3 and 7, with 0, 1, 2 and
    5 of them, and the same payload with another pad count, or a word more."""
    step = 0
    for data, item in ITEM_BITS.items():
        for rc in (0, 1):
            for vector in (1, 2, 3, 7):
                for vectors in (0, 1, 2, 5):
                    length = item * (1 + rc) * vector * vectors
                    n = (length + 31) // 32
                    pad = 32 * n - length
                    words = survey(
                        counted(n, step << 8), pad, data, rc, vector, count=step % 16,
                        tsi=step % 4, tsf=step // 4 % 4, trailer=0x5A5A0000 + step,
                    )
                    survey_case(words, ACCEPTED)
                    other = (pad + 1 + step % 31) % 32
                    more = step % 2
                    sized(n + more, other, data, rc, vector)
                    step += 1


def pad_counts():
    for pad in range(32):
        # Every pad count leaves whole items of one bit.
        sized(1, pad)
        sized(2, pad)
        sized(1, pad, rc=1)
        sized(1, pad, vector=3)
        for data in (9, 10, 11, 12, 13):
            sized(2, pad, data)
    # An empty payload.
    for data in ITEM_BITS:
        for rc in (0, 1):
            sized(0, 0, data, rc)
            sized(0, 1, data, rc, 2)
    for pad in (4, 8, 16, 31):
        sized(0, pad, 2)
    # 64-bit items in an odd number of words, whatever the pad count.
    for data in (5, 7, 13):
        for n in (1, 2, 3, 4):
            sized(n, 0, data)
            sized(n, 0, data, 1)
            sized(n, 31, data)
        sized(3, 16, data)
    # The largest vectors.
    sized(0, 0, 5, 1, 65536)
    sized(0, 1, 5, 1, 65536)
    for n in (1, 2, 4, 64):
        sized(n, 0, 5, 1, 65536)
        sized(n, 0, 13, 0, 65535)
    for n in (2047, 2048, 2049):
        sized(n, 0, 8, 0, 65536)
    sized(2048, 1, 8, 0, 65536)
    sized(2048, 1, 8, 0, 65535)
    sized(1, 0, 8, 0, 32)
    sized(1, 0, 8, 0, 33)
    # More words than are laid out item by item.
    for n in (63, 64, 65, 66, 130):
        sized(n, 0, 3, 1, 3)
        sized(n, 16, 3, 0, 3)
        sized(n, 0, 7, 0, 5)


def class_bits():
    """Each bit of the class that is fixed or reserved, alone."""
    for bit in range(27):
        words = survey([1, 2], high=1 << bit)
        survey_case(words, PAD)
        case(words, CLASS if bit >= 24 else ACCEPTED)
        survey_case(survey([1, 2], pad=5, high=1 << bit), PAD)
    for bit in range(22, 32):
        words = survey([1, 2], low=1 << bit)
        survey_case(words, PAD)
        case(words, ACCEPTED)
        survey_case(survey([], low=1 << bit), PAD)
    for oui in (0, 0x00FFFFFB, 0x00FFFFFF, 0x00FFFEFA, 0x007FFFFA, 0x00123456):
        survey_case(survey([1, 2], high=OUI ^ oui), PAD)
    for rc in range(4):
        for data in (0, 1, 8, 13, 14, 15):
            right = rc < 2 and data in ITEM_BITS
            for body in ([], [1, 2]):
                words = survey(body, data=data, rc=rc)
                survey_case(words, ACCEPTED if right and whole(len(body), 0, data, rc, 1) else PAD)
                case(words, ACCEPTED)
    for data in range(16):
        survey_case(survey([1, 2, 3, 4], data=data), ACCEPTED if data in ITEM_BITS else PAD)
    # The class of the No Data packet, FF-FF-FA:2011.0002.
    no_data = packet(1, [], c=1, t=1, oui=OUI, classes=0x20110002)
    survey_case(no_data, PAD)
    case(no_data, ACCEPTED)
    # The pad count is five bits; the bit below it is reserved.
    survey_case(survey([1], pad=1), ACCEPTED)
    survey_case(survey([1], pad=0, high=1 << 26), PAD)
    survey_case(survey([1], pad=16), ACCEPTED)


def absent():
    """No class, no trailer, and neither."""
    for c, t in ((0, 0), (0, 1), (1, 0), (1, 1)):
        for tsi, tsf in ((0, 0), (1, 2), (3, 3)):
            for body in ([], [1], [1, 2]):
                words = survey(body, c=c, t=t, tsi=tsi, tsf=tsf)
                survey_case(words, ACCEPTED if c and t else PAD)
                case(words, ACCEPTED)
    # Words that would be a class, or a trailer.
    survey_case(packet(1, [*survey_class(), 1], t=1), PAD)
    survey_case(survey([1, 0], t=0), PAD)
    survey_case(survey([1], pad=9, t=0), PAD)


# A survey packet for each reason to refuse it with PAD.
PAD_FAULTS = {
    "class absent": dict(c=0),
    "trailer absent": dict(t=0),
    "class does not fit": dict(low=1 << 31),
    "data type": dict(data=14),
    "negative": dict(body=[], pad=7),
    "not whole": dict(pad=1, data=10),
}


def survey_order():
    for fault in PAD_FAULTS.values():
        given = {"body": [1, 2], **fault}
        right = survey(**given, tsi=1, tsf=2)
        survey_case(right, PAD)
        survey_case(right + [ONES], PAD)
        # TIME before PAD.
        for fraction in (TERA, (1 << 64) - 1):
            survey_case(survey(**given, tsf=2, fraction=fraction), TIME)
        survey_case(survey(**given, tsf=3, fraction=TERA), PAD)
        survey_case(survey(**given, tsf=2, fraction=TERA - 1), PAD)
        # CUT before PAD, and before TIME.
        survey_case(right[:-1], CUT)
        survey_case(right[:1], CUT)
        survey_case([right[0] + 1] + right[1:], CUT)
        survey_case(survey(**given, tsf=2, fraction=TERA)[:-1], CUT)
        # SHORT before PAD, the parts being those that the header says.
        required = len(right) - len(given["body"])
        survey_case([(right[0] >> 16 << 16) + required - 1] + right[1:], SHORT)
        survey_case([right[0] >> 16 << 16] + right[1:], SHORT)
        # BITS and TYPE before PAD.
        for bit in (24, 25):
            survey_case([right[0] | 1 << bit] + right[1:], BITS)
        survey_case([0x60000000 | right[0] & 0x0FFFFFFF] + right[1:], TYPE)
        # CLASS is not given, with any of the top eight bits of the class.
        for bit in (24, 27, 31):
            words = survey(**{**given, "high": 1 << bit})
            survey_case(words)
            case(words, CLASS if given.get("c", 1) and words[2] >> 24 else ACCEPTED)
    # TIME, and nothing else wrong.
    survey_case(survey([1, 2], pad=3, tsf=2, fraction=TERA), TIME)
    survey_case(survey([1, 2], pad=3, tsf=2, fraction=TERA - 1), ACCEPTED)
    survey_case(survey([1, 2], pad=3, tsf=1, fraction=TERA), ACCEPTED)
    survey_case(survey([1, 2], pad=3)[:-1], CUT)
    survey_case([0x1C000004, 7, OUI, 0x00080000, 0], SHORT)
    survey_case([0x1C000005, 7, OUI, 0x00080000, 0], ACCEPTED)


def survey_free():
    """What is free: identifier, trailer, time, and what lies in the pad bits."""
    for identifier in (0, 1, 0x7FFFFFFF, 0x80000000, ONES):
        survey_case(survey([1], identifier=identifier), ACCEPTED)
    for trailer in (0, ONES, 1 << 31, 0x00000080, 0x12345678):
        survey_case(survey([1], pad=7, trailer=trailer), ACCEPTED)
    for tsi in range(4):
        for tsf in range(4):
            survey_case(survey([1, 2], tsi=tsi, tsf=tsf, pad=tsi), ACCEPTED)
    for word in (0, ONES, 0x0000FFFF):
        survey_case(survey([word], pad=16, data=3), ACCEPTED)
    survey_case(survey([1], pad=31) + [ONES, ONES], ACCEPTED)


def other_types():
    """The choice governs type 1 alone: the class of a survey packet in the other
    types, with a pad count and without."""
    for kind in (0, 2, 3, 4, 5):
        body = [0] if kind == 4 else [1, 2]
        t = 1 if kind in DATA_TYPES else 0
        for pad in (0, 1, 8, 31):
            oui, classes = survey_class(pad)
            words = packet(kind, body, c=1, t=t, oui=oui, classes=classes)
            for way in (PLAIN, SURVEY):
                case(words, CLASS if pad else ACCEPTED, way)
        for high in (1 << 24, 1 << 26, 1 << 27, 1 << 31, ONES ^ OUI):
            oui, classes = survey_class(high=high)
            survey_case(packet(kind, body, c=1, t=t, oui=oui, classes=classes), CLASS)
        # Without a class, without a trailer, and with a class of no survey packet.
        survey_case(packet(kind, body), ACCEPTED)
        survey_case(packet(kind, body, c=1), ACCEPTED)
        if kind in DATA_TYPES:
            survey_case(packet(kind, body, t=1), ACCEPTED)
            survey_case(packet(kind, [], c=1, t=1, oui=OUI, classes=0x20110002), ACCEPTED)


def largest_survey():
    """65,535 words: five of other parts, 65,530 of items of one bit."""
    body = [i * 0x9E3779B1 & ONES for i in range(65530)]
    words = survey(body)
    assert len(words) == 65535
    survey_case(words, ACCEPTED)


def random_survey(numbers):
    """A survey packet with whole vectors."""
    data = 1 + numbers.below(13)
    rc = numbers.below(2)
    vector = 1 + numbers.below((1, 4, 12)[numbers.below(3)])
    length = ITEM_BITS[data] * (1 + rc) * vector * numbers.below(5)
    n = (length + 31) // 32
    tsf = numbers.below(4)
    fraction = numbers.word() << 32 | numbers.word()
    return survey(
        numbers.some(n),
        32 * n - length,
        data,
        rc,
        vector,
        tsi=numbers.below(4),
        tsf=tsf,
        count=numbers.below(16),
        identifier=numbers.word(),
        seconds=numbers.word(),
        fraction=fraction % TERA if tsf == 2 else fraction,
        trailer=numbers.word(),
    )


def random_surveys():
    numbers = Numbers(4913)
    for _ in range(60):
        words = random_survey(numbers)
        survey_case(words + numbers.some(numbers.below(3)), ACCEPTED)
    for _ in range(140):
        words = random_survey(numbers)
        survey_case(damaged(numbers, words) + numbers.some(numbers.below(3)))
    for _ in range(40):
        # A bit of the class turned over.
        words = random_survey(numbers)
        words[2 + numbers.below(2)] ^= 1 << numbers.below(32)
        survey_case(words)


def plain_as_survey():
    """Every case from before, but the largest, read as a survey packet: of a type
    other than 1 the answer is the same."""
    for _, words, answer, _ in list(cases):
        if len(words) > 60000:
            continue
        if words and vrt49.type_of(words[0]) == 1:
            # None of them has the OUI of a survey packet.
            if answer in (ACCEPTED, CLASS):
                answer = PAD if answer == ACCEPTED else None
        survey_case(words, answer)


def survey_edges():
    """The names of the edges of C-13 that the cases have, with their answers."""
    found = set()
    twice = {}
    for way, words, _, _ in cases:
        verdict, what = (vrt49.read, vrt49.read_survey)[way](words)[:2]
        answer = what if verdict == "refused" else ACCEPTED
        twice.setdefault(tuple(words), {})[way] = answer
        if way != SURVEY or not words:
            continue
        kind = vrt49.type_of(words[0])
        c, t = vrt49.class_flag(words[0]), vrt49.trailer_flag(words[0])
        if answer not in (ACCEPTED, PAD, TIME):
            # Where a class or trailer is absent, PAD would be given next.
            found.add((answer, "type 1" if kind == 1 else "another type"))
            found.add((answer, kind, "class", c, "trailer", t))
            continue
        if kind != 1:
            found.add((answer, "type", kind))
            continue
        if not (c and t):
            found.add((answer, "class", c, "trailer", t))
            continue
        high, low = vrt49.class_of(words)
        n = vrt49.body_length(words[0])
        pad = high >> 27
        data, rc, vector = low >> 16 & 15, low >> 20 & 3, (low & 0xFFFF) + 1
        right_high = high & 0x07FFFFFF == OUI
        if not right_high and low >> 22 == 0:
            found.add((answer, "high", high & 0x07FFFFFF ^ OUI))
        if right_high and low >> 22 != 0:
            found.add((answer, "low", low >> 22))
        if right_high and low == 0x20110002:
            found.add((answer, "no data"))
        if not right_high or low >> 22 != 0:
            continue
        if rc > 1 or data not in ITEM_BITS:
            found.add((answer, "rc", rc, "data", data))
            continue
        found.add((answer, "rc", rc, "data", data))
        size = ITEM_BITS[data] * (1 + rc) * vector
        if (32 * n - pad) % size == 0:
            found.add((answer, data, rc, vector, "vectors", (32 * n - pad) // size))
        found.add((answer, "words", n, "pad", pad))
        found.add((answer, "bits", ITEM_BITS[data], "pad", pad))
        if ITEM_BITS[data] == 64:
            found.add((answer, "64 bits", "odd" if n % 2 else "even"))
        if vector == 65536:
            found.add((answer, "largest vector", data, rc, "words", n))
        if answer == ACCEPTED:
            _, s = what
            found.add(("items", s.items))
            found.add(("by hand", tuple(words), tuple(s)))
            # The one n: its items and the pad bits are the payload, and packed samples
            # of this format have exactly its words.
            if s.items * ITEM_BITS[data] + s.pad != 32 * n:
                sys.exit(f"{s.items} items are not those of {words}")
            if payload.words_needed(s.first, s.second, s.items) != ("words", n):
                sys.exit(f"{s} does not need the payload of {words}")
    for words, answers in twice.items():
        if len(answers) == 2:
            found.add(("both ways", answers[PLAIN], answers[SURVEY]))
            found.add(("both ways", words, answers[PLAIN]))
    return found


def survey_wanted():
    """The edges that have to be there."""
    wanted = []
    for data in ITEM_BITS:
        for rc in (0, 1):
            for vector in (1, 2, 3, 7):
                for vectors in (0, 1, 2, 5):
                    wanted.append((ACCEPTED, data, rc, vector, "vectors", vectors))
    for pad in range(32):
        wanted.append((ACCEPTED, "bits", 1, "pad", pad))
    wanted += [(ACCEPTED, "words", 0, "pad", 0), (PAD, "words", 0, "pad", 1)]
    wanted += [(PAD, "64 bits", "odd"), (ACCEPTED, "64 bits", "even")]
    wanted.append((ACCEPTED, "largest vector", 5, 1, "words", 0))
    wanted += [(PAD, "largest vector", 5, 1, "words", n) for n in (1, 2, 4)]
    wanted += [(ACCEPTED, "largest vector", 8, 0, "words", 2048)]
    for bit in range(27):
        wanted.append((PAD, "high", 1 << bit))
    for bit in range(10):
        wanted.append((PAD, "low", 1 << bit))
    for data in ITEM_BITS:
        wanted += [(ACCEPTED, "rc", rc, "data", data) for rc in (0, 1)]
    for data in (0, 14, 15):
        wanted += [(PAD, "rc", rc, "data", data) for rc in range(4)]
    wanted += [(PAD, "rc", rc, "data", data) for rc in (2, 3) for data in (1, 8, 13)]
    wanted.append((PAD, "no data"))
    for c, t in ((0, 0), (0, 1), (1, 0)):
        wanted.append((PAD, "class", c, "trailer", t))
        wanted.append((TIME, "class", c, "trailer", t))
        wanted += [(answer, 1, "class", c, "trailer", t) for answer in (SHORT, CUT, BITS)]
    for words, said, plain_answer in HANDS:
        wanted += [("by hand", words, said), ("both ways", words, plain_answer)]
    wanted += [(answer, "type 1") for answer in (BITS, SHORT, CUT)]
    wanted += [(answer, "another type") for answer in (TYPE, BITS, SHORT, CUT, CLASS)]
    wanted += [(answer, "another type") for answer in (INDICATOR, LAYOUT, FIELD)]
    wanted += [(answer, "type", kind) for answer in (ACCEPTED, TIME) for kind in (0, 2, 3, 4, 5)]
    wanted += [("both ways", CLASS, ACCEPTED), ("both ways", ACCEPTED, ACCEPTED)]
    wanted += [("both ways", CLASS, PAD), ("both ways", ACCEPTED, PAD)]
    wanted += [("both ways", CLASS, CLASS), ("both ways", TIME, TIME)]
    wanted += [("items", n) for n in (0, 1, 3, 4, 65535, 65536, 32 * 65530)]
    return wanted


def check_survey():
    found = survey_edges()
    for edge in survey_wanted():
        if edge not in found:
            sys.exit(f"no case at the edge {edge}")
    for edge in ((CLASS, "type 1"), (PAD, "type", 3), (ACCEPTED, "no data")):
        if edge in found:
            sys.exit(f"a case at {edge}")


# The places of refusals: C-15 of document 02.

# What a refusal says: the number, the place, and the bit of FIELD or else None.
Told = namedtuple("Told", "number place bit", defaults=[None])

# The optional parts of a packet; flag is T for types 0-3 and TSM for types 4-5.
Shape = namedtuple("Shape", "kind c flag tsi tsf")


def some_shapes():
    """Every type with every choice of optional parts."""
    step = 0
    for kind in TYPES:
        for choice in range(16):
            c, flag, seconds, fraction = (choice >> i & 1 for i in (3, 2, 1, 0))
            yield Shape(kind, c, flag, (1 + step % 3) * seconds, (1 + step // 3 % 3) * fraction)
            step += 1


def every_shape(kind):
    """One type with every choice of optional parts, every TSI and every TSF."""
    for choice in range(64):
        yield Shape(kind, choice >> 5, choice >> 4 & 1, choice >> 2 & 3, choice & 3)


def laid(
    shape, body=None, identifier=IDENTIFIER, high=0x00123456, low=0x00070009, fraction=1
):
    """The words of a packet that is laid out part by part, and the place at which each
    part was put, by its name.  The body is a list of parts."""
    words, places = [0], {"header": 0}

    def put(name, part):
        places[name] = len(words)
        words.extend(part)

    if shape.kind in (1, 3, 4, 5):
        put("identifier", [identifier])
    if shape.c:
        put("class", [high, low])
    if shape.tsi:
        put("seconds", [0x5F5E1000])
    if shape.tsf:
        put("fraction", [fraction >> 32, fraction & ONES])
    if body is None:
        body = [("body", [1 << 31 if shape.kind == 4 else 0xB0D1])]
    for name, part in body:
        put(name, part)
    flag = 24 if shape.kind in CONTEXT_TYPES else 26
    if shape.flag and flag == 26:
        put("trailer", [0x0BADCAFE])
    words[0] = (
        shape.kind << 28 | shape.c << 27 | shape.flag << flag | shape.tsi << 22
        | shape.tsf << 20 | len(words)
    )
    return words, places


def both(words, *told):
    """Words that are answered the same, read plainly and as a survey packet."""
    return words, Told(*told), Told(*told)


def header_places(identifier):
    """EMPTY, and what is wrong with the header: TYPE, BITS, SHORT and CUT."""
    yield both([], EMPTY, 0)
    for kind in range(6, 16):
        for choice in range(8):
            c, seconds, fraction = (choice >> i & 1 for i in (2, 1, 0))
            shape = Shape(kind, c, choice % 3 % 2, seconds * (kind % 3 + 1), fraction * 2)
            yield both(laid(shape, identifier=identifier)[0], TYPE, 0)
    for step, shape in enumerate(some_shapes()):
        words, places = laid(shape, identifier=identifier)
        bits = (25, 24) if shape.kind in DATA_TYPES else (26, 25)
        yield both([words[0] | 1 << bits[step % 2]] + words[1:], BITS, places["header"])
        # One word below what is required, which the word of the body is of type 4 alone.
        least = len(words) if shape.kind == 4 else len(words) - 1
        yield both([(words[0] >> 16 << 16) + least - 1] + words[1:], SHORT, places["header"])
        yield both(words[:-1], CUT, places["header"])
        yield both(words[: 1 + step % (len(words) - 1)], CUT, places["header"])
        if shape.c:
            # Inside the class, whose first word is wrong too.
            first = words[places["class"]] | 0xFF000000
            yield both(words[: places["class"]] + [first], CUT, places["header"])


def class_places(identifier):
    """CLASS, every second time with TIME behind it.  Type 1 read as a survey packet has
    PAD instead, at the same word."""
    for step, shape in enumerate(some_shapes()):
        if not shape.c:
            continue
        high = 0x00123456 | 1 << 24 + step % 8
        late = step % 2 == 1
        fraction = TERA if late else 1
        words, places = laid(shape, identifier=identifier, high=high, fraction=fraction)
        told = Told(CLASS, places["class"])
        survey_told = told
        if shape.kind == 1:
            survey_told = Told(PAD, places["class"])
            if late and shape.tsf == 2:
                survey_told = Told(TIME, places["fraction"])
        yield words, told, survey_told


def time_places(identifier):
    """TIME, every second time with a bad indicator behind it."""
    edges = (TERA, TERA + 1, 1 << 63, (1 << 64) - 1)
    for kind in TYPES:
        for step, shape in enumerate(every_shape(kind)):
            if shape.tsf != 2:
                continue
            fraction = edges[(step // 4 + kind) % 4]
            body = [("body", [0x00000081])] if step // 4 % 2 else None
            words, places = laid(shape, body, identifier, fraction=fraction)
            yield both(words, TIME, places["fraction"])


def indicator_places(identifier):
    """INDICATOR, also with the faults of LAYOUT and FIELD behind it."""
    for step, shape in enumerate(every_shape(4)):
        rest = ([], [1, 2], [ONES])[step % 3]
        indicator = 1 << step % 8 | (0, 1 << 30, 1 << 24)[step % 3]
        words, places = laid(shape, [("body", [indicator, *rest])], identifier)
        yield both(words, INDICATOR, places["body"])


# Bodies whose fields need other words than they have, some with the fault of FIELD too.
LAID_WRONG = (
    [1 << 30], [1 << 30, 1, 2], [1 << 24, ONES, 0], [1 << 29, ONES], [0, 0], [1 << 9],
    [1 << 9, ONES, 1], [1 << 8, 0], [1 << 8, ONES, 1], [3 << 8, 0, 1, 0, 0],
)


def layout_places(identifier):
    for step, shape in enumerate(every_shape(4)):
        body = LAID_WRONG[step % len(LAID_WRONG)]
        words, places = laid(shape, [("body", body)], identifier)
        yield both(words, LAYOUT, places["body"])


# The nine fields that have a rule, and for each of them words that break it.
RULED = (29, 24, 21, 18, 17, 16, 15, 9, 8)
BREAKING = {
    29: ([0x80000000, 0], [ONES, ONES]),
    24: ([0x00010000], [0x8000FF80]),
    21: ([0x80000000, 1], [ONES, ONES]),
    18: ([0x00010000], [0xFFFFFFE0]),
    17: ([0x01000000, 0], [0, 0x00010000], [0x00FFFFFF, 0x80000000], [ONES, ONES]),
    16: ([0x00100000], [0x00000100]),
    15: ([FORMAT | 0x1000, 0], [format_word(complexity=3), 0], [format_word(item=17), ONES]),
    9: ([0x01000000, 0], [0x80000000, 2, 5, 6]),
    8: ([0x02000000, 0], [0x00000200, 0], [0xFE01FE01, 0x00010000, 5, 6, 7]),
}
FIELD_SIZES = dict(FIXED)
FIELD_BITS = (*FIELD_SIZES, 9, 8)


def keeping(bit):
    """The words of a field whose rule, if it has one, is kept."""
    if bit == 9:
        return [0x00ABCDEF, 2, 8, 9]
    if bit == 8:
        return lists_of(1, 0, 1) + [5, 6]
    return plain(bit, FIELD_SIZES[bit])


def fields_of(kept, broken, changed=0):
    """The parts of a body: the indicator, then each field, named by its bit.  Kept has
    bits, or the words of fields by their bits, as broken has."""
    fields = dict(kept) if isinstance(kept, dict) else {bit: keeping(bit) for bit in kept}
    fields.update(broken)
    bits = sorted(fields, reverse=True)
    indicator = changed << 31 | sum(1 << bit for bit in bits)
    return [("body", [indicator]), *[(bit, fields[bit]) for bit in bits]]


def text_of(n, first=0x00ABCDEF):
    """Field 9 with n words of text."""
    return [first, n, *counted(n, 0x24475047)]


def broken_bodies():
    """Fields that are kept and fields that are broken."""
    numbers = Numbers(15)
    for bit in RULED:
        above = [other for other in FIELD_BITS if other > bit]
        below = [other for other in FIELD_BITS if other < bit]
        free = {other: [ONES] * FIELD_SIZES[other] for other in above if other not in RULED}
        for words in BREAKING[bit]:
            # Nothing above it, nothing or every field below.
            yield (), {bit: words}
            yield below, {bit: words}
            # Every field above it.
            yield above, {bit: words}
            # Behind a few, without and with others below.
            few = [other for other in above if numbers.below(4) == 0] or above[:1]
            some = [other for other in below if numbers.below(4) == 0]
            yield few, {bit: words}
            yield few + some, {bit: words}
        # Among all, and behind all those without a rule, which are all ones.
        yield above + below, {bit: BREAKING[bit][-1]}
        yield free, {bit: BREAKING[bit][0]}
        # It and all below it.
        yield above + below, {other: BREAKING[other][0] for other in RULED if other <= bit}
        yield (), {other: BREAKING[other][-1] for other in RULED if other <= bit}
        # Two of them.
        for turn, other in enumerate(low for low in RULED if low < bit):
            two = {bit: BREAKING[bit][turn % 2], other: BREAKING[other][turn % 2]}
            yield (), two
            if turn == 0:
                yield FIELD_BITS, two
    # Field 8 behind a text of many words, and the text broken itself.
    for n in (0, 1, 3, 64, 1000):
        yield {9: text_of(n)}, {8: [0x02000000, 0]}
        yield {10: [ONES]}, {9: text_of(n, 1 << 24), 8: [0x02000000, 0]}
    yield {9: text_of(40)}, {16: [0x00000800], 8: [1 << 9, 0]}


def field_places(identifier):
    """FIELD with each of these bodies, in every shape of prologue, which come in turn."""
    shapes = list(every_shape(4))
    for step, (kept, broken) in enumerate(broken_bodies()):
        shape = shapes[step * 27 % 64]
        words, places = laid(shape, fields_of(kept, broken, step % 2), identifier)
        bit = max(broken)
        yield both(words, FIELD, places[bit], bit)


def pad_places(identifier):
    """PAD in every shape of prologue that type 1 has, for each of its reasons."""
    for step, shape in enumerate(every_shape(1)):
        # Where class and trailer are there, the other reasons in turn.
        turn = 2 + (step + step // 4) % 4
        given = list(PAD_FAULTS.values())[turn] if shape.c and shape.flag else {}
        body = given.get("body", [1, 2])
        chosen = {name: given[name] for name in given if name in ("pad", "data", "low")}
        high, low = survey_class(**chosen)
        words, places = laid(shape, [("body", body)], identifier, high, low)
        plainly = Told(CLASS, places["class"]) if shape.c and high >> 24 else None
        yield words, plainly, Told(PAD, places["class"] if shape.c else places["header"])


def placed(identifier=IDENTIFIER):
    """Words, and what they are told, read plainly and as a survey packet, or None."""
    yield from header_places(identifier)
    yield from class_places(identifier)
    yield from time_places(identifier)
    yield from indicator_places(identifier)
    yield from layout_places(identifier)
    yield from field_places(identifier)
    yield from pad_places(identifier)


def place_cases():
    for words, plainly, as_survey in placed():
        for way, told in ((PLAIN, plainly), (SURVEY, as_survey)):
            if told is not None:
                case(words, told.number, way, (told.place, told.bit))


def farthest_field():
    """65,535 words, of which the last two are a field 8 that is broken."""
    shape = Shape(4, 1, 1, 1, 1)
    # Seven words of other parts, the indicator, 74 words of fields, and two of field 9.
    text = text_of(65535 - 7 - 1 - 74 - 2 - 2)
    kept = {**{bit: keeping(bit) for bit in FIELD_SIZES}, 9: text}
    words, places = laid(shape, fields_of(kept, {8: [1 << 31, 0]}))
    assert len(words) == 65535
    case(words, FIELD, told=(places[8], 8))


# The same by walking over the words.

# For each field with a rule, the bits of its first and of its second word that are zero;
# the format has more to its rule.
ZERO_BITS = {
    29: (0x80000000, 0), 24: (0xFFFF0000, 0), 21: (0x80000000, 0), 18: (0xFFFF0000, 0),
    17: (0xFF000000, 0xFFFF0000), 16: (0x00F00F00, 0), 15: (0x0000F000, 0),
    9: (0xFF000000, 0), 8: (0xFE00FE00, 0),
}


def breaks(bit, first, second):
    """Whether a field with these first words breaks its rule."""
    zero_first, zero_second = ZERO_BITS.get(bit, (0, 0))
    if first & zero_first or second & zero_second:
        return True
    if bit != 15:
        return False
    code, item = first >> 24 & 31, (first & 63) + 1
    if first >> 29 & 3 == 3 or 7 <= code <= 13 or code >= 23:
        return True
    if item != {14: 32, 15: 64}.get(code, item):
        return True
    return item + (first >> 20 & 7) + (first >> 16 & 15) > (first >> 6 & 63) + 1


def walked_fields(words, at):
    """The place and the bit of each broken field of a body at this place."""
    found = []
    indicator = words[at]
    at += 1
    for bit in FIELD_BITS:
        if indicator >> bit & 1:
            first, second = (words[at : at + 2] + [0])[:2]
            if breaks(bit, first, second if FIELD_SIZES.get(bit, 2) > 1 else 0):
                found.append((at, bit))
            at += 2 + second if bit == 9 else FIELD_SIZES.get(bit, 0)
    return found


def walked(words, number):
    """The place and the bit that a refusal has."""
    if number in (EMPTY, TYPE, BITS, SHORT, CUT):
        return 0, None
    header, at = words[0], 1
    if header >> 28 in (1, 3, 4, 5):
        at += 1
    if number == CLASS or number == PAD and header >> 27 & 1:
        return at, None
    if number == PAD:
        return 0, None
    if header >> 27 & 1:
        at += 2
    if header >> 22 & 3:
        at += 1
    if number == TIME:
        return at, None
    if header >> 20 & 3:
        at += 2
    return walked_fields(words, at)[0] if number == FIELD else (at, None)


def seen_shape(words):
    """The type of a packet, and whether it has a class, a trailer, seconds and a
    fraction."""
    header = words[0]
    kind = header >> 28
    trailer = header >> 26 & 1 if kind in DATA_TYPES else 0
    return kind, header >> 27 & 1, trailer, int(header >> 22 & 3 > 0), int(header >> 20 & 3 > 0)


def shapes_refused(number, as_survey):
    """The shapes that a refusal of reading can have, as they are seen."""
    flags = (0, 1)
    found = [
        (kind, c, t, i, f)
        for kind in (range(6, 16) if number == TYPE else TYPES)
        for c in flags
        for t in (flags if kind in DATA_TYPES else (0,))
        for i in flags
        for f in flags
    ]
    if number == CLASS:
        return [one for one in found if one[1] and not (as_survey and one[0] == 1)]
    if number == TIME:
        return [one for one in found if one[4]]
    if number in (INDICATOR, LAYOUT, FIELD):
        return [one for one in found if one[0] == 4]
    if number == PAD:
        return [one for one in found if one[0] == 1]
    return found


def note_place(seen, words, said):
    """What a refusal covers, by its place."""
    _, number, place, bit = said
    if (place, bit) != walked(words, number):
        sys.exit(f"{said} is not what walking finds in {words[:12]}")
    seen.add((number, "place", place))
    if not words:
        return
    shape = seen_shape(words)
    kind, c, _, seconds, _ = shape
    seen.add((number, *shape))
    seen.add((number, "type", kind, "place", place))
    seen.add((number, "class", c, "seconds", seconds))
    start = 2 if kind in (1, 3, 4, 5) else 1
    if number == CUT and c and len(words) == start + 1:
        seen.add((CUT, "inside the class"))
    if number != FIELD:
        return
    body = start + 2 * c + seconds + 2 * shape[4]
    carried = [one for one in FIELD_BITS if words[body] >> one & 1]
    above = [one for one in carried if one > bit]
    every = [one for one in FIELD_BITS if one > bit]
    how = "nothing" if not above else "all" if above == every else "some"
    seen.add((FIELD, bit, f"{how} above"))
    broken = [one for _, one in walked_fields(words, body)]
    seen.add((FIELD, "broken", *broken))
    if bit == 17 and not breaks(17, words[place], 0):
        seen.add((FIELD, 17, "in its second word", "alone" if len(carried) == 1 else "behind"))
    if bit == 8 and 9 in carried and place - body > 1000:
        seen.add((FIELD, 8, "behind a long field 9"))


def places_wanted(numbers, as_survey):
    """The edges of C-15 that have to be there."""
    wanted = []
    for number in numbers:
        if number == EMPTY:
            wanted.append((EMPTY, "place", 0))
        else:
            wanted += [(number, *shape) for shape in shapes_refused(number, as_survey)]
    wanted += [(CLASS, "type", kind, "place", 1) for kind in (0, 2)]
    wanted += [(CLASS, "type", kind, "place", 2) for kind in (3, 4, 5)]
    wanted += [(TIME, "type", kind, "place", 1 + n) for kind in (0, 2) for n in range(4)]
    wanted += [(TIME, "type", kind, "place", 2 + n) for kind in (1, 3, 4, 5) for n in range(4)]
    wanted += [(TIME, "class", c, "seconds", i) for c in (0, 1) for i in (0, 1)]
    wanted += [(number, "place", 2 + n) for number in (INDICATOR, LAYOUT) for n in range(6)]
    wanted.append((CUT, "inside the class"))
    if PAD in numbers:
        wanted += [(PAD, "place", 0), (PAD, "place", 2)]
    for bit in RULED:
        wanted += [(FIELD, bit, "nothing above"), (FIELD, bit, "all above")]
        wanted += [(FIELD, bit, "some above")] if bit != 29 else []
        wanted.append((FIELD, "broken", bit))
        wanted += [(FIELD, "broken", bit, other) for other in RULED if other < bit]
        wanted.append((FIELD, "broken", *[other for other in RULED if other <= bit]))
    wanted += [(FIELD, 17, "in its second word", how) for how in ("alone", "behind")]
    wanted.append((FIELD, 8, "behind a long field 9"))
    return wanted


def check_places(answers):
    """The places of all refusals, read both ways."""
    for way, numbers in NUMBERS.items():
        seen = set()
        for one, words, said in answers:
            if one == way and said[0] == "refused":
                note_place(seen, words, said)
        wanted = places_wanted(numbers, way == SURVEY)
        if way == PLAIN:
            # No FIELD is farther back, as field 8 has two words at least.
            wanted.append((FIELD, "place", 65533))
            wanted.append((CLASS, "type", 1, "place", 2))
        for edge in wanted:
            if edge not in seen:
                sys.exit(f"no case, asked {way}, at the edge {edge}")


# The two files.


def refusal_text(said):
    """A refusal as it stands in a line: its number, its place where it has one, and the
    bit of FIELD."""
    _, number, place, bit = said
    text = f"refused {number}"
    if place is not None:
        text += f" place {place}"
    return text if bit is None else text + f" bit {bit}"


def survey_line(s):
    """The line of a survey reading behind the second line of its packet."""
    return f"  survey pad {s.pad} first {s.first} second {s.second} items {s.items}"


def packet_lines(start, p, s=None):
    """The lines of an accepted packet, but for its fields; the first begins
    with start."""
    found = [
        f"{start}accepted type {p.type} class {p.class_flag} trailer {p.trailer_flag}"
        f" tsm {p.tsm} tsi {p.tsi} tsf {p.tsf} count {p.count} size {p.size}",
        f"  identifier {p.identifier} oui {p.oui} information {p.information}"
        f" packet {p.packet} seconds {p.seconds} fraction {p.fraction}"
        f" body {p.body} length {p.length} word {p.trailer}",
    ]
    if s is not None:
        found.append(survey_line(s))
    if p.trailer_flag == 1:
        parts = vrt49.trailer_parts(p.trailer)
        found.append(
            f"  trailer enables {parts.enables} indicators {parts.indicators}"
            f" e {parts.e} associated {parts.associated}"
        )
    return found


def read(way, words):
    """('refused', number, place, bit) or ('accepted', packet, survey), which is None
    where the packet is read plainly."""
    said = vrt49.read(words) if way == PLAIN else vrt49.read_survey(words)
    if said[0] == "refused":
        return said
    return ("accepted", said[1], None) if way == PLAIN else ("accepted", *said[1])


def lines(k, said, words):
    if said[0] == "refused":
        return [f"{k} {refusal_text(said)}"]
    _, p, s = said
    found = packet_lines(f"{k} ", p, s)
    if p.type == 4:
        for bit, place, n in vrt49.fields(words[p.body : p.body + p.length]):
            found.append(f"  field {bit} at {place} words {n}")
    return found


def build():
    no_words()
    types()
    reserved_bits()
    required_parts()
    small_sizes()
    cut_off()
    classes()
    times()
    stamps()
    indicators()
    fixed_fields()
    gps_ascii()
    lists()
    both_long_fields()
    free_fields()
    not_negative()
    upper_halves()
    devices()
    states()
    formats()
    long_field_rules()
    rules_among_others()
    order()
    bodies()
    trailers()
    largest()
    random_cases()
    plain_as_survey()
    by_hand()
    survey_vectors()
    pad_counts()
    class_bits()
    absent()
    survey_order()
    survey_free()
    other_types()
    largest_survey()
    random_surveys()
    place_cases()
    farthest_field()


# The refusals of each way to read.
NUMBERS = {PLAIN: tuple(range(1, 11)), SURVEY: (*range(1, 11), PAD)}


def main():
    if len(sys.argv) != 3:
        sys.exit("usage: read_vectors.py INPUT EXPECTED")
    build()
    given = bytearray()
    expected = []
    tally = {}
    answers = []
    for k, (way, words, answer, told) in enumerate(cases):
        said = read(way, words)
        number = said[1] if said[0] == "refused" else ACCEPTED
        if answer is not None and number != answer:
            sys.exit(f"case {k} is built for {answer}, the reference says {number}")
        if told is not None and said[2:] != told:
            sys.exit(f"case {k} is built for the place {told}, the reference says {said[2:]}")
        tally[way, number] = tally.get((way, number), 0) + 1
        answers.append((way, words, said))
        for word in [way, len(words), *words]:
            given += word.to_bytes(4, "big")
        expected += lines(k, said, words)
    for way, numbers in NUMBERS.items():
        for number in numbers:
            if tally.get((way, number), 0) < 10:
                sys.exit(f"refusal {number}, asked {way}, has fewer than 10 cases")
        if sum(n for (other, _), n in tally.items() if other == way) < 450:
            sys.exit(f"fewer than 450 cases are asked {way}")
    check_survey()
    check_places(answers)
    if len(given) > 1_350_000:
        sys.exit(f"the input has {len(given)} bytes, more than 1,350,000")
    with open(sys.argv[1], "wb") as file:
        file.write(given)
    with open(sys.argv[2], "w", encoding="ascii", newline="\n") as file:
        file.write("".join(line + "\n" for line in expected))
    for way, name in ((PLAIN, "plain"), (SURVEY, "survey")):
        print(f"{name} accepted {tally[way, ACCEPTED]}")
        for number in NUMBERS[way]:
            print(f"{name} refused {number} {tally[way, number]}")
    print(f"cases {len(cases)}")


if __name__ == "__main__":
    main()
