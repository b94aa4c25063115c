"""Cases at the edges of document 01's rules, and of those of C-11, C-12, C-13, C-15 and C-16, for
each call: the samples of document 01 with the number it states, every choice of optional parts, every
bit of a field with a rule, every item of small groups, groups of as many items as may be and
of more, every bit of a table and a page, every pair of counts, every choice of the enables
of a state word; of survey packets every data type, pad count and bit of the class, and every
choice of a list of streams; the place of every refusal of a packet, behind every choice of
class, seconds and fraction, and the bit of every two fields that break their rules; of an index
every bit of its contents that is looked at, the packets around an entry, pages that just fit,
contents that are full, every number of words from an entry on, and word places beside 2^32."""

import itertools
import random

import calls
import index
import making
import page
import payload
import table
import vrt49
import vrt49_write
from calls import MOST_ITEMS, given, noisy
from making import ONES, TERA


def sure(case, number, place=None, bit=0):
    """A case whose number document 01 states, and whose place and bit C-15, where a place is
    given."""
    assert case.number & 255 == number, (case, number)
    assert place is None or case.number >> 8 == place << 8 | bit, (case, number, place, bit)
    return case


# The body of the sample 0x21200000 and one with every field of bits 30 to 8.
SAMPLE_BODY = [0x21200000, 0, 0, 0xFF80, 0, 0x00100000]
DATA = [0x140F0005, 7, 0xABCDEF12, 0x30000000, 0]
FORMAT = 0xA00003CF


def full_field(bit):
    """A field whose words keep its rule, all of them different from zero."""
    if bit == 9:
        return [0x123456, 2, 0x41424344, 0x45000000]
    if bit == 8:
        return [0x00010002, 0x00018001, 1, 2, 3, 4, 5, 6]
    if bit == 15:
        return [FORMAT, 0x00010002]
    if bit == 16:
        return [0xFC0A805A]
    return [bit * 5 + place for place in range(vrt49.FIXED_WORDS[bit])]


def body_of(*bits):
    made = [sum(1 << bit for bit in bits)]
    for bit in sorted(bits, reverse=True):
        made += full_field(bit)
    return made


ALL_FIELDS = body_of(*range(8, 31))


def context(body):
    return [4 << 28 | 2 + len(body), 7] + body


def bits_of(words, places):
    """The words with one bit changed, for each bit of the words at these places."""
    for place in places:
        for bit in range(32):
            yield words[:place] + [words[place] ^ 1 << bit] + words[place + 1 :]


def bodies():
    """Bodies of every field alone, longer, shorter, and with each bit of its first
    two words changed."""
    yield from ([], [0], SAMPLE_BODY, ALL_FIELDS)
    yield from bits_of(ALL_FIELDS, [0])
    for bit in range(8, 31):
        made = body_of(bit)
        yield from (made, made[:-1], made[:2], made[:1], made + [0])
        yield from bits_of(made, range(1, min(3, len(made))))
    # sizes that pass 2^32 when summed
    for second in (ONES, ONES - 1, 0x7FFFFFFF):
        yield [1 << 9, 0, second, 0]
        yield [3 << 8, 0, second, 0, 0]
        yield [1 << 8, 0x01FF01FF, second, 0]
    # field 9 would have one word, and the layout fit, if its size were cut to 32 bits
    yield [3 << 8, 0, ONES, 0] + [0] * 1022


# Where a packet is refused (C-15): words, with the number, the place and the bit that they give.

# A bit that breaks the rule of a field: the word of the field, and the bit in it.
BREAKS = {29: (0, 31), 24: (0, 16), 21: (0, 31), 18: (0, 16), 17: (0, 24), 16: (0, 20), 15: (0, 12), 9: (0, 24), 8: (0, 25)}


def shaped(kind, c, tsi, tsf, body):
    """A packet of identifier 7 with a body: its class, its seconds and its fraction are zeros;
    and the places of class, fraction and body."""
    words = [kind << 28 | c << 27 | tsi << 22 | tsf << 20]
    words += [7] * (kind in (1, 3, 4, 5))
    class_at = len(words)
    words += [0, 0] * c + [0] * (tsi > 0)
    fraction_at = len(words)
    words += [0, 0] * (tsf > 0)
    body_at = len(words)
    words += body
    words[0] |= len(words)
    return words, class_at, fraction_at, body_at


def put_at(words, place, *others):
    return words[:place] + list(others) + words[place + len(others) :]


def refused_parts():
    """Every refusal of a packet but FIELD and PAD, for each type and each choice of class,
    seconds and fraction; those of the later ones break an even later rule too."""
    for kind, c, tsi, tsf in itertools.product(range(6), range(2), range(4), range(4)):
        body = [1 << 21, 1 << 31, 0] if kind == 4 else [1]
        words, class_at, fraction_at, body_at = shaped(kind, c, tsi, tsf, body)
        late = put_at(words, fraction_at, ONES, ONES) if tsf == 2 else words
        yield put_at(words, 0, words[0] | 6 << 28), 2, 0, 0
        yield put_at(words, 0, words[0] | 1 << 25), 3, 0, 0
        yield put_at(words, 0, words[0] & ~0xFFFF), 4, 0, 0
        yield put_at(words, 0, words[0] & ~0xFFFF | body_at - 1), 4, 0, 0
        yield from ((words[:n], 5, 0, 0) for n in range(1, len(words)))
        if c:
            yield from ((put_at(late, class_at, 1 << bit), 6, class_at, 0) for bit in (24, 31))
        if tsf == 2:
            yield late, 7, fraction_at, 0
            yield put_at(words, fraction_at, TERA >> 32, TERA & ONES), 7, fraction_at, 0
        if kind == 4:
            yield put_at(words, body_at, words[body_at] | 1), 8, body_at, 0
            yield put_at(words, body_at, words[body_at] | 1 << 30), 9, body_at, 0
            yield [words[0] + 1, *words[1:], 0], 9, body_at, 0
            yield words, 10, body_at + 1, 21


def broken_fields():
    """FIELD, of bodies that have every field: with each rule broken, each two, all but the
    highest ones, and all; and of bodies of two fields; behind few and many parts."""
    ruled = sorted(BREAKS, reverse=True)
    several = [*itertools.combinations(ruled, 1), *itertools.combinations(ruled, 2)]
    several += [tuple(ruled[first:]) for first in range(len(ruled) - 2)]
    for parts in ((0, 0, 0), (1, 2, 3), (1, 0, 1)):
        for broken in several:
            yield broken_body(range(8, 31), broken, parts)
            yield broken_body(broken, broken, parts)
    # the second word of a device; lists behind a long text
    body = put_at(body_of(29, 17), 4, 1 << 16)
    yield shaped(4, 0, 0, 0, body)[0], 10, 2 + 3, 17
    for n in (0, 1, 300, 65000):
        text = [0, n, *[ONES] * n]
        yield shaped(4, 1, 1, 1, [3 << 8, *text, 1 << 25, 0])[0], 10, 7 + 1 + len(text), 8
        yield shaped(4, 1, 1, 1, [3 << 8, 1 << 24, *text[1:], 1 << 25, 0])[0], 10, 7 + 1, 9


def broken_body(bits, broken, parts):
    """A packet of the fields of these bits, with the rules of some broken."""
    body = body_of(*bits)
    places = {bit: 1 + sum(len(full_field(higher)) for higher in bits if higher > bit) for bit in bits}
    for bit in broken:
        word, place = BREAKS[bit]
        body[places[bit] + word] |= 1 << place
    words, _, _, body_at = shaped(4, *parts, body)
    return words, 10, body_at + places[max(broken)], max(broken)


def read(r):
    def ask(words):
        return calls.read_of(given(words), noisy(r, 18))

    for words, *told in [*refused_parts(), *broken_fields()]:
        yield sure(ask(words), *told)

    yield sure(ask([]), 1)
    yield sure(ask([0x4065000B, 7, 1, 0, 0] + SAMPLE_BODY), 0)
    yield sure(ask(DATA), 0)
    yield sure(ask(DATA[:4]), 5)
    yield sure(ask([0x140F0002] + DATA[1:]), 4)
    yield sure(ask([0x140F0003] + DATA[1:]), 0)
    for tsf, fraction, number in ((2, TERA - 1, 0), (2, TERA, 7), (1, TERA, 0), (3, TERA, 0)):
        yield sure(ask([1 << 28 | tsf << 20 | 4, 7, fraction >> 32, fraction & ONES]), number)
    for header in range(0, 1 << 32, 1 << 20):
        # every choice of the header's upper bits: with as many words as are required,
        # one more, a size of one fewer, and a word too few
        kind = header >> 28
        needed = vrt49.required_words(header) if kind < 6 else 9
        filled = [0] * needed
        yield ask([header | needed] + filled[1:])
        yield ask([header | needed + 1] + filled)
        if kind < 6:
            yield ask([header | needed - 1] + filled)
            yield ask([header | needed] + filled[1:-1])
    yield from map(ask, bits_of([0x18000004, 7, 0, 0], [2]))
    for body in bodies():
        yield ask(context(body))
    for n in (65534, 65535):
        yield sure(ask([2 << 28 | 65535] + [1] * (n - 1)), 5 if n == 65534 else 0)


def write(r):
    def ask(parts, body, room=None, at=0):
        room = len(body) + 9 if room is None else room
        return calls.write_of(given(parts), given(body), noisy(r, room), at, calls.length_place(r))

    yield sure(ask([1, 0, 1, 0, 0, 0, 15, 7] + [0] * 7, DATA[2:4], 5), 0)
    yield sure(ask([1, 0, 1, 0, 0, 0, 15, 7] + [0] * 7, DATA[2:4], 4), 13)
    for kind in range(7):
        for flags in range(8):
            for tsi in range(5):
                for tsf in range(5):
                    parts = [kind, flags & 1, flags >> 1 & 1, flags >> 2, tsi, tsf, 3, 7, 8, 9, 10, 11, 12, 13, 14]
                    yield ask(parts, [0] if kind == 4 else [])
    for place, bits in ((1, 1), (2, 1), (3, 1), (4, 2), (5, 2), (6, 4), (8, 24), (9, 16), (10, 16)):
        for c in range(2):
            for number in ((1 << bits) - 1, 1 << bits, (1 << bits) + 1, ONES):
                parts = [1, c, 0, 0, 1, 1, 0, 7, 0, 0, 0, 0, 0, 0, 0]
                parts[place] = number
                yield ask(parts, [1, 2])
    yield sure(ask([1] * 15, []), 14)
    # TYPE comes before VALUE, VALUE before ROOM
    yield sure(ask([6] + [2] * 14, [], 0), 2)
    yield sure(ask([1, 2] + [0] * 13, [], 0), 14)
    for fraction in (TERA - 1, TERA):
        parts = [1, 0, 0, 0, 0, 2, 0, 7, 0, 0, 0, 0, fraction >> 32, fraction & ONES, 0]
        yield sure(ask(parts, []), 0 if fraction < TERA else 7)
    for n in (65532, 65533, 65534, 65535):
        yield sure(ask([1] + [0] * 14, [5] * n), 0 if n < 65534 else 15)
    for at in (0, 1, 2, 3, 4, 2**32, 2**63, 2**64 - 2, 2**64 - 1):
        yield sure(ask([1] + [0] * 14, [], 3, at), 0 if at < 2 else 13)
    for body in bodies():
        yield ask([4] + [0] * 14, body)


# Survey packets.

HANDS = (
    [0x1C000007, 7, 0x00FFFFFA, 0x00130000, 0xABCDEF12, 0x30000000, 0],
    [0x1C000006, 7, 0x40FFFFFA, 0x000A0002, 0x01020300, 0],
)


def survey(high, low, body, flags=0x0C, tsf=0, fraction=0, kind=1, identifier=7):
    """A survey packet; flags have C in bit 3 and T in bit 2."""
    words = [kind << 28 | flags << 24 | tsf << 20]
    words += [identifier] if kind in (1, 3, 4, 5) else []
    words += [high, low] if flags & 8 else []
    words += [fraction >> 32, fraction & ONES] if tsf else []
    words += body
    words += [0x5A5A] if flags & 4 else []
    words[0] += len(words)
    return words


def survey_high(pad=0):
    return pad << 27 | 0xFFFFFA


def survey_shapes():
    """Classes of every data type, real and complex, in vectors, with their bits."""
    for data, (_, item) in vrt49.SURVEY_TYPES.items():
        for rc in (0, 1):
            for vector in (1, 2, 3, 7):
                yield rc << 20 | data << 16 | vector - 1, item * (1 + rc) * vector


def survey_payloads():
    """The words of a class, a body, and whether the body has whole vectors: every pad count in
    few words, whole vectors, large vectors."""
    for low, vector in survey_shapes():
        for vectors in (0, 1, 2, 5):
            n = (vector * vectors + 31) // 32
            pad = 32 * n - vector * vectors
            yield survey_high(pad), low, [*range(n)], True
            for other in {(pad + 1) % 32, pad ^ 16, 0, 31} - {pad}:
                right = 32 * n >= other and (32 * n - other) % vector == 0
                yield survey_high(other), low, [*range(n)], right
        for n in range(4):
            for pad in range(32):
                right = 32 * n >= pad and (32 * n - pad) % vector == 0
                if right or pad in (0, 1, 8, 16, 31):
                    yield survey_high(pad), low, [*range(n)], right
    for data, rc, vector, n, right in (
        (5, 1, 65536, 0, True), (5, 1, 65536, 4, False), (8, 0, 65536, 2048, True),
        (8, 0, 65536, 2047, False), (8, 0, 65530, 65530, True), (13, 0, 32765, 65530, True),
        (13, 1, 32765, 65530, False), (8, 0, 1, 65530, True), (7, 0, 1, 65529, False),
    ):
        yield survey_high(), rc << 20 | data << 16 | vector - 1, [*range(n)], right


def survey_classes():
    """The words of a class with one thing wrong, and their first eight bits."""
    for bit in range(27):
        yield survey_high() ^ 1 << bit, 0x00080000
        yield survey_high(9) ^ 1 << bit, 0x00080000
    for bit in range(22, 32):
        yield survey_high(), 0x00080000 ^ 1 << bit
    for low in range(64):
        if low >> 4 > 1 or not 1 <= low & 15 <= 13:
            yield survey_high(), low << 16
    yield survey_high(), 0x20110002


def read_survey(r):
    def ask(words):
        return calls.read_survey_of(given(words), noisy(r, 22))

    for words, number, *told in [*refused_parts(), *broken_fields()]:
        if words[0] >> 28 != 1 or number != 6:
            yield sure(ask(words), number, *told)
    yield sure(ask([]), 1, 0)
    cases = [ask(words) for words in HANDS]
    assert [list(case.after[1][18:]) for case in cases] == [[0, 0x200003CF, 0, 4], [8, 0x100001C7, 2, 3]]
    yield from (sure(case, 0) for case in cases)
    for high, low, body, right in survey_payloads():
        case = ask(survey(high, low, body))
        if right:
            pad, first, second, n = case.after[1][18:]
            assert payload.words_needed(first, second, n) == ("words", len(body))
            assert n * payload.item_size(first) + pad == 32 * len(body)
        yield sure(case, 0 if right else 20)
    for high, low in survey_classes():
        for body in ([], [1], [1, 2]):
            yield sure(ask(survey(high, low, body)), 20, 2)
            # the earlier refusals come first
            yield sure(ask(survey(high, low, body, tsf=2, fraction=TERA)), 7, 4)
            yield sure(ask(survey(high, low, body)[:-1]), 5, 0)
    for flags in (0, 4, 8):
        for high in (survey_high(), survey_high(3), ONES):
            words = survey(high, 0x00080000, [1, 2], flags)
            yield sure(ask(words), 20, 2 if flags & 8 else 0)
            yield sure(ask(words[:-1]), 5)
            yield sure(ask([words[0] & ~0xFFFF] + words[1:]), 4)
            yield sure(ask(survey(high, 0x00080000, [1], flags, 2, TERA)), 7)
            yield sure(ask(survey(high, 0x00080000, [1], flags | 1)), 3)
    # other types stay plain
    for kind in (0, 2, 3, 4, 5):
        for pad in range(32):
            flags = 8 if kind > 3 else 0x0C
            case = ask(survey(survey_high(pad), 0x00080000, [0], flags, kind=kind))
            yield sure(case, 6 if pad else 0)
            assert pad or list(case.after[1][18:]) == [0] * 4
    for header in range(0, 1 << 32, 1 << 20):
        kind = header >> 28
        needed = vrt49.required_words(header) if kind < 6 else 9
        yield ask([header | needed] + [0] * (needed - 1))
        yield ask([header | needed + 1] + [0] * needed)
    for body in [*bodies()][::5]:
        yield ask(context(body))


def write_survey(r):
    def ask(parts, body, room=None, at=0):
        room = len(body) + 9 if room is None else room
        return calls.write_survey_of(given(parts), given(body), noisy(r, room), at, calls.length_place(r))

    def of(words, room=None, at=0, **changed):
        """The parts of a survey packet's words, with some of them changed, and its body."""
        p = vrt49_write.parts_of(vrt49.packet_of(words))
        pad = changed.pop("pad", words[2] >> 27 if p.class_flag else 0)
        for name, number in changed.items():
            setattr(p, name, number)
        return ask(calls.parts_words(p) + [pad], vrt49.body_of(words), room, at)

    for words in HANDS:
        case = of(words, len(words))
        assert list(case.after[2]) == words
        yield sure(case, 0)
        yield sure(of(words, len(words) - 1), 13)
        yield sure(of(words, len(words), 1), 13)
    for high, low, body, right in survey_payloads():
        words = survey(high, low, body)
        case = of(words)
        assert not right or list(case.after[2][: len(words)]) == words
        yield sure(case, 0 if right else 20)
    for high, low in survey_classes():
        # the bits 26 to 24 are not among the parts
        right = high >> 24 & 7 != 0
        yield sure(of(survey(high, low, [1])), 0 if right else 20)
        yield sure(of(survey(high, low, [1], tsf=2, fraction=TERA)), 7)
        yield sure(of(survey(high, low, [1]), 0), 13 if right else 20)
    good = survey(survey_high(8), 0x000A0002, [1])
    for pad in range(40):
        yield sure(of(good, pad=pad), 14 if pad > 31 else 0 if pad == 8 else 20)
        # no class, or another type: it is not looked at
        yield sure(of(good, class_flag=0, pad=pad), 20)
        for kind in (0, 2, 3):
            yield sure(of(good, type=kind, pad=pad), 0)
        yield sure(of(good, type=5, trailer_flag=0, pad=pad), 0)
    for pad in (64, 1 << 27, 1 << 31, ONES):
        yield sure(of(good, pad=pad), 14)
        yield sure(of(good, type=3, pad=pad), 0)
        yield sure(of(good, trailer_flag=0, pad=pad), 14)
    yield sure(of(good, trailer_flag=0), 20)
    yield sure(of(good, type=6, pad=ONES), 2)
    for place, bits in ((1, 1), (2, 1), (3, 1), (4, 2), (5, 2), (6, 4), (8, 24), (9, 16), (10, 16)):
        for number in (1 << bits, (1 << bits) + 1, ONES):
            parts = calls.parts_words(vrt49_write.parts_of(vrt49.packet_of(good))) + [8]
            parts[place] = number
            yield sure(ask(parts, [1]), 14)
    yield sure(ask([4, 0, 0, 0, 0, 0, 0, 7] + [0] * 7 + [ONES], []), 4)
    for n in (65530, 65531):
        words = survey(survey_high(0), 0x00080000, [])
        p = calls.parts_words(vrt49_write.parts_of(vrt49.packet_of(words))) + [1]
        yield sure(ask(p, [5] * n), 0 if n == 65530 else 15)
    for kind in range(7):
        for flags in range(8):
            for tsi in range(5):
                for tsf in range(5):
                    parts = [kind, flags & 1, flags >> 1 & 1, flags >> 2, tsi, tsf, 3, 7, 0xFFFFFA, 8, 0, 11, 12, 13, 14, 2]
                    yield ask(parts, [0] if kind == 4 else [])
    for body in [*bodies()][::5]:
        yield ask([4] + [0] * 14 + [32], body)


def trailer_parts(r):
    for word in [0, ONES, 0x40040000] + [1 << bit for bit in range(32)]:
        answer = noisy(r, 4)
        yield calls.Case([word, answer], 0, {1: calls.put(answer, vrt49.trailer_parts(word))})


def field_count(r):
    some = [0, ONES, 0x21200000, 0x7FFFFC00, 1 << 31]
    for word in some + [1 << bit for bit in range(32)] + [ONES << bit & ONES for bit in range(32)]:
        yield calls.field_count_of(word)


def check_body(r):
    for body in bodies():
        yield calls.check_body_of(given(body))


def find(r):
    for body in [*bodies()][::7] + [[], [0], ALL_FIELDS, ALL_FIELDS[:-1], ALL_FIELDS[:40], SAMPLE_BODY]:
        for bit in [*range(34), ONES]:
            lent = [given(body), bit, noisy(r, 3, "Q")]
            yield calls.Case(lent, 0, {2: calls.put(lent[2], calls.found(body, bit))})


def formats():
    """Formats of every size of packing field and of item, in both packings, and one
    with each bit changed."""
    for link in (0, 1):
        for f in range(1, 65):
            yield link << 31 | (f - 1) << 6 | (f - 1), 0
            yield link << 31 | (f - 1) << 6, 0
    for bit in range(32):
        yield FORMAT ^ 1 << bit, 0
        yield FORMAT, 1 << bit
        yield 0x007F0FE3 ^ 1 << bit, 0
    for code in range(32):
        yield code << 24 | 0xFFF, 0
        yield code << 24 | 0x7DF, 0


def small_groups():
    """Formats of real, Cartesian and polar samples in both orders, of vectors of 1 to 5
    samples, with repeats of 1 to 5; half of them have tags."""
    for kind in range(3):
        for bit in range(2):
            for vector in range(5):
                for repeat in range(5):
                    first = (0x000001C7, 0x801203CB)[(vector + repeat) % 2]
                    yield first | kind << 29 | bit << 23, repeat << 16 | vector


def large_groups():
    """Formats with groups of 2,097,119 items and more, up to 2^33, in both orders; one has
    2^32 + 4."""
    for kind, vector, repeat in (
        (0, 61, 34379), (1, 65535, 16), (0, 65535, 32), (2, 16, 65535), (0, 169, 12409),
        (1, 911, 1151), (0, 65536, 32), (0, 32, 65536), (2, 65536, 16), (0, 65536, 65536),
        (1, 65536, 32768), (2, 34346, 62525), (1, 65536, 65536),
    ):
        for bit in range(2):
            yield kind << 29 | bit << 23 | 0x1C7, repeat - 1 << 16 | vector - 1


def few_items(first, second):
    """Numbers of items: none, some, and at most 100 around the group, vectors that are no whole
    group among them."""
    group = payload.group(first, second)
    around = {group - 1, group, group + 1, group // payload.repeat_of(second), 2 * group}
    return sorted({0, 1, 2, 3, 4, 33} | {n for n in around if n <= 100})


def unpack(r):
    def ask(first, second, n, words, room):
        return calls.unpack_of(first, second, n, given(words), [noisy(r, room, code) for code in "QBH"])

    yield sure(ask(0x800002CB, 0, 3, [0xABCDEF12, 0x30000000], 3), 0)
    yield sure(ask(0x000002CB, 0, 3, [0xABCDEF00, 0x12300000], 3), 0)
    yield sure(ask(0x801203CB, 0, 1, [0xABC60000], 1), 0)
    yield sure(ask(0x80000000, 0, MOST_ITEMS + 1, [0] * 65536, 3), 17)
    for first, second in [*formats(), *small_groups(), *large_groups()]:
        for n in few_items(first, second):
            needed = 2 if payload.format_refused(first) else payload.words_for(first, n)
            yield ask(first, second, n, making.words(r, needed), n)
            yield ask(first, second, n, making.words(r, needed + 1), n)
    # the most items, of one bit
    yield sure(ask(0x80000000, 0, MOST_ITEMS, list(noisy(r, 65535).entries), MOST_ITEMS), 0)


def pack(r):
    def ask(first, second, items, events, channels, room):
        lent = (given(items, "Q"), given(events, "B"), given(channels, "H"))
        return calls.pack_of(first, second, *lent, noisy(r, room), calls.length_place(r))

    yield sure(ask(0x800002CB, 0, [0xABC, 0xDEF, 0x123], [0] * 3, [0] * 3, 2), 0)
    yield sure(ask(0x000002CB, 0, [0xABC, 0xDEF, 0x123], [0] * 3, [0] * 3, 2), 0)
    yield sure(ask(0x801203CB, 0, [0xABC], [1], [2], 1), 0)
    yield sure(ask(0x801203CB, 0, [0xABC], [2], [2], 1), 14)
    yield sure(ask(0x801203CB, 0, [0xABC], [1], [4], 1), 14)
    yield sure(ask(0x801203CB, 0, [0x1ABC], [1], [2], 1), 14)
    for first, second in [*formats(), *small_groups(), *large_groups()]:
        for n in few_items(first, second):
            refused = payload.format_refused(first)
            needed = 2 if refused else payload.words_for(first, n)
            items = [r.getrandbits(payload.item_size(first)) for _ in range(n)]
            events = [r.getrandbits(payload.event_size(first)) for _ in range(n)]
            channels = [r.getrandbits(payload.channel_size(first)) for _ in range(n)]
            yield ask(first, second, items, events, channels, needed)
            if n:
                yield ask(first, second, items, events, channels, needed - 1)
                yield ask(first, second, items, events[1:], channels, needed)
                # one number of a bit more than fits, where its type can say it
                for place, (numbers, most) in enumerate(((items, 64), (events, 8), (channels, 16))):
                    size = (payload.item_size, payload.event_size, payload.channel_size)[place](first)
                    if size < most:
                        wrong = numbers[:-1] + [1 << size]
                        yield ask(first, second, *[wrong if k == place else x for k, x in enumerate((items, events, channels))], needed)
    # one item too many, and the most items, of one bit
    n = MOST_ITEMS + 1
    lent = [noisy(r, n, code) for code in "QBH"]
    yield sure(calls.pack_of(0x80000FFF, 0, *lent, noisy(r, 3), calls.length_place(r)), 17)
    items = [word & 1 for word in noisy(r, MOST_ITEMS).entries]
    yield sure(ask(0x80000000, 0, items, bytes(MOST_ITEMS), [0] * MOST_ITEMS, 65535), 0)


def many_items(first, second):
    """Numbers of items at the edges of COUNT, and beyond what a word can say."""
    group = payload.group(first, second)
    most = MOST_ITEMS // group * group
    return sorted({
        0, 1, 31, 32, 33, MOST_ITEMS - 1, MOST_ITEMS, MOST_ITEMS + 1, most, most + group, group - 1,
        group, group + 1, group // payload.repeat_of(second), 2**32, 2**32 + group, 2**64 - 1,
    })


def words_needed(r):
    for first, second in [*formats(), *small_groups(), *large_groups(), (FORMAT, 0), (FORMAT, 2), (0xFFF, 0xFFFF)]:
        for n in many_items(first, second):
            yield calls.words_needed_of(r, first, second, n)
    case = calls.words_needed_of(r, 0x200001C7, 0x000FFFFE, MOST_ITEMS)
    assert case.after[3][0] == 524_280
    yield sure(case, 0)
    for first, second in large_groups():
        yield sure(calls.words_needed_of(r, first, second, 0), 0)
        # each is over the most, or no multiple of the group
        for n in (1, 4, 65536, 2**20, 2**21, 2**32, 2**33):
            yield sure(calls.words_needed_of(r, first, second, n), 17)


# The figures of source document 003 that show an order: B.9-15 and B.9-16, with n and the
# coordinates of the items in their order.
FIGURES = (
    (0x000001C7, 0x00030003, 32, [(k // 16, k // 4 % 4, 0, k % 4) for k in range(24)]),
    (0x208001C7, 0x00030000, 16, [(k // 8, 0, k // 4 % 2, k % 4) for k in range(16)]),
    (0x408001C7, 0x00030000, 16, [(k // 8, 0, k // 4 % 2, k % 4) for k in range(16)]),
)


def coordinates_of(r):
    def ask(first, second, n, item):
        return calls.coordinates_case(r, first, second, n, item % 2**64)

    for first, second, n, places in FIGURES:
        for item, place in enumerate(places):
            case = ask(first, second, n, item)
            assert tuple(case.after[4]) == place
            yield sure(case, 0)
    for first, second in small_groups():
        n = 2 * payload.group(first, second)
        yield from (sure(ask(first, second, n, item), 0) for item in range(n))
        for item in (n, n + 1, ONES, 2**32, 2**32 + n - 1, 2**63, 2**64 - 1):
            yield sure(ask(first, second, n, item), 14)
        yield sure(ask(first, second, 0, 0), 14)
        # a number of items that fits if it is cut to 32 bits; COUNT comes before VALUE
        yield sure(ask(first, second, n + 2**32, 0), 17)
        yield sure(ask(first, second, n + 2**32, 2**64 - 1), 17)
    for first, second in [*formats(), *small_groups(), *large_groups()]:
        for n in many_items(first, second):
            for item in (0, n - 1, n):
                yield ask(first, second, n, item)
    # FORMAT comes before COUNT and VALUE
    yield sure(ask(0x000011C7, 0x00030003, 31, 31), 16)


def item_at(r):
    def ask(first, second, n, *coordinates):
        return calls.item_case(r, first, second, n, [number % 2**32 for number in coordinates])

    for first, second, n, places in FIGURES:
        for item, place in enumerate(places):
            case = ask(first, second, n, *place)
            assert case.after[4][0] == item
            yield sure(case, 0)
    for first, second in [*small_groups(), *large_groups()]:
        group = payload.group(first, second)
        n = min(2 * group, MOST_ITEMS // group * group)
        yield from inside_and_outside(ask, first, second, n)
        yield sure(ask(first, second, 0, 0, 0, 0, 0), 14)
        yield sure(ask(first, second, n + 2**32, 0, 0, 0, 0), 17)
    for first, second in small_groups():
        n = 2 * payload.group(first, second)
        for place in itertools.product(*map(range, payload.ends(first, second, n))):
            yield sure(ask(first, second, n, *place), 0)
    for first, second in [*formats(), *small_groups(), *large_groups()]:
        for n in many_items(first, second):
            yield ask(first, second, n, 0, 0, 0, 0)
    # FORMAT comes before COUNT, COUNT before VALUE
    yield sure(ask(0x000011C7, 0x00030003, 31, ONES, ONES, ONES, ONES), 16)
    yield sure(ask(0x000001C7, 0x00030003, 31, ONES, ONES, ONES, ONES), 17)


def inside_and_outside(ask, first, second, n):
    """Each coordinate at the edges of its range, the others first or last; VALUE for all where
    n is 0."""
    ends = payload.ends(first, second, n)
    for others in ([0] * 4, [max(0, end - 1) for end in ends]):
        for place, end in enumerate(ends):
            for number in (0, max(0, end - 1), end, end + 1, 1 << 31, ONES):
                coordinates = others[:place] + [number] + others[place + 1 :]
                yield sure(ask(first, second, n, *coordinates), 0 if n and number < end else 14)


def signed(r):
    for width in [*range(67), ONES]:
        for item in (0, 1, 0x800, 2**64 - 1, *[(1 << min(width, 64)) + k for k in (-1, 0)], 1 << max(0, min(width, 64) - 1)):
            value = noisy(r, 1, "Q")
            said, what = payload.signed(width, item % 2**64)
            lent = [width, item % 2**64, value]
            yield calls.refused(lent, what) if said == "refused" else calls.Case(lent, 0, {2: calls.put(value, [what % 2**64])})


def start(r):
    def ask(ids, room, choices=None):
        choices = [one % 2 for one in range(len(ids))] if choices is None else choices
        return calls.start_of(given(ids), given(choices), noisy(r, room), calls.length_place(r))

    for n in range(41):
        room = table.layout_length(n)
        yield sure(ask(range(n), room), 0 if 1 <= n <= 32 else 12)
        yield sure(ask(range(n), room - 1), 13 if 1 <= n <= 32 else 12)
        yield sure(ask(range(n), 0), 13 if 1 <= n <= 32 else 12)
    for place in range(32):
        for other in range(place):
            ids = [*range(32)]
            ids[other] = ids[place]
            yield sure(ask(ids, 2849), 12)
    for n in range(1, 33):
        room = table.layout_length(n)
        for number in {0, n - 1, n + 1, 32, 33} - {n}:
            for choice in (0, 1):
                yield sure(ask(range(n), room, [choice] * number), 12)
                yield sure(ask(range(n), 0, [choice] * number), 12)
        for place in range(n):
            for choice in (0, 1):
                choices = [1 - choice] * n
                choices[place] = choice
                case = ask(range(n), room, choices)
                assert [case.after[2][15 + 89 * one] for one in range(n)] == choices
                yield sure(case, 0)
            for choice in (2, 3, 256, 1 << 31, ONES):
                choices = [place % 2] * n
                choices[place] = choice
                yield sure(ask(range(n), room, choices), 12)
                yield sure(ask(range(n), 0, choices), 12)
    for ids in ([], [7, 7], range(33)):
        for choices in ([], [0], [1] * 33, [2]):
            yield sure(ask(ids, 2900, choices), 12)


def fresh_stream(identifier, choice=0):
    return table.fresh_stream(identifier, choice)


def full_stream(identifier, choice=1):
    """A stream that has started all its counts and holds every field that is held."""
    counts = {kind: {"seen": kind, "missing": 9, "last": kind} for kind in table.COUNTED_TYPES}
    held = {bit: full_field(bit) for bit in table.HELD_BITS}
    return {"identifier": identifier, "choice": choice, "counts": counts, "held": held}


ALL_ON, ALL_OFF, VALUES, BRIEF = 0xFC0FC000, 0xFC000000, 0x000FC000, 0x03003000


def holding_state(word):
    """A table of one stream that holds a state word alone."""
    stream = fresh_stream(7, word % 2)
    stream["counts"][4] = {"seen": 1, "missing": 0, "last": 3}
    stream["held"] = {16: [word]}
    return [stream]


def states():
    """State words with whether they can be held: every choice of enables with all the values
    and with their own, and each bit alone, with and without all that can be held."""
    for enables in range(64):
        yield enables << 26 | enables << 14, True
        yield enables << 26 | VALUES, enables == 63
    for bit in range(32):
        yield 1 << bit, bit < 8 or bit > 25
        yield ALL_ON | 1 << bit, bit < 8 or bool(ALL_ON >> bit & 1)


def spoilt_tables():
    """Tables of one stream that are not well made: with a state word that cannot be held; with
    field 22 held, its word not zero, or both, where nothing else is held and where all is; with
    a choice that is neither 0 nor 1."""
    for word in (*[1 << bit for bit in range(12, 20)], 1 << 24, 1 << 25, 1 << 20, ALL_ON - (1 << 26)):
        yield table.layout(holding_state(word))
    for stream in (*holding_state(0), full_stream(7)):
        for held, word in ((1 << 22, 0), (0, 5), (1 << 22, 5)):
            words = table.layout([stream])
            words[2], words[29] = words[2] | held, word
            yield words
        for choice in (2, 3, 256, 1 << 31, ONES):
            words = table.layout([stream])
            words[15] = choice
            yield words


def state_tables():
    """Tables of one stream after state words and over-range counts, each with what is held."""
    lent = table.layout([fresh_stream(7, 1)])
    for body in (
        [1 << 22, 5], [1 << 16, 0], [1 << 16, BRIEF | 0x5A], [1 << 22 | 1 << 16, 6, ALL_ON],
        [1 << 16, 1 << 29 | VALUES | 0xA5], [1 << 22 | 1 << 10, 7, 8], [1 << 16, ALL_OFF],
    ):
        lent = table.play_lent(lent, context(body))[1]
        yield lent


def tables():
    """Tables of one stream, fresh, started and full, of some and of 32."""
    yield table.layout([fresh_stream(7)])
    yield table.layout([full_stream(7)])
    yield table.layout([fresh_stream(7), full_stream(8), fresh_stream(9, 1)])
    yield table.layout([full_stream(i, i % 2) for i in range(32)])


def well_made(r):
    def ask(lent):
        return calls.Case([given(lent)], 1 if table.well_made(lent) else 0, {})

    for lent in tables():
        yield sure(ask(lent), 1)
        yield sure(ask(lent + [5]), 1)
        yield sure(ask(lent[:-1]), 0)
    one, full, three, _ = tables()
    for made in (one, full):
        yield from map(ask, bits_of(made, range(len(made))))
    yield from map(ask, bits_of(three, [0, 1, 2, 15, 91, 104, 180, 193, 267]))
    for word, good in states():
        yield sure(ask(table.layout(holding_state(word))), good)
    for spoilt in spoilt_tables():
        yield sure(ask(spoilt), 0)


def played_table(last, seen=1, missing=0):
    stream = fresh_stream(7)
    for kind in table.COUNTED_TYPES:
        stream["counts"][kind] = {"seen": seen, "missing": missing, "last": last}
    return table.layout([fresh_stream(5, 1), stream])


def play(r):
    def ask(lent, words):
        return calls.play_of(given(lent), given(words), noisy(r, 4))

    def packet(kind, count):
        return [kind << 28 | count << 16 | (3 if kind == 4 else 2), 7] + ([0] if kind == 4 else [])

    for kind in table.COUNTED_TYPES:
        for count in range(16):
            yield sure(ask(table.layout([fresh_stream(7)]), packet(kind, count)), 0)
            for last in range(16):
                case = ask(played_table(last, ONES, ONES - count), packet(kind, count))
                assert case.after[2][3] == (count - last - 1) % 16
                yield sure(case, 0)
    assert ask(played_table(14), packet(1, 2)).after[2][3] == 3
    assert ask(played_table(2), packet(1, 2)).after[2][3] == 15
    for lent in tables():
        for body in [*bodies()][::11]:
            yield ask(lent, context(body))
        for bit in range(8, 31):
            yield ask(lent, context(body_of(bit)))
    # state words over none, over all on and over all off: the enables decide
    for enables in range(64):
        own = enables << 14
        for before, word, after in (
            (None, enables << 26 | VALUES | BRIEF, enables << 26 | own),
            (ALL_ON | 0x5A, enables << 26 | BRIEF | 0xA5, ALL_ON - own | 0xA5),
            (ALL_OFF | 0x5A, enables << 26 | VALUES, ALL_OFF | own),
        ):
            lent = table.layout(holding_state(before) if before else [fresh_stream(7)])
            case = ask(lent, context([1 << 16, word]))
            assert (case.after[0][2], case.after[0][38]) == (1 << 16, after)
            yield sure(case, 0)
    # the over-range count, alone and before each field, and before all of them
    for lent in tables():
        yield sure(ask(lent, context([1 << 22, ONES])), 0)
    for bit in range(10, 22):
        case = ask(table.layout([fresh_stream(7)]), context(body_of(22, bit)))
        assert case.after[0][2] == 1 << bit and case.after[0][29] == 0
        yield sure(case, 0)
    yield sure(ask(table.layout([fresh_stream(7)]), context(body_of(*range(10, 23)))), 0)
    for kind in (0, 2):
        yield sure(ask(played_table(1), [kind << 28 | 1]), 11, 0)
    yield sure(ask(played_table(1), [1 << 28 | 2, 8]), 11, 1)
    # both a table that is not well made and a packet that is refused
    yield sure(ask([0], []), 18, 0)
    yield sure(ask([], [ONES]), 18, 0)
    yield from play_by_choice(ask)
    yield from play_refused(ask)
    for spoilt in spoilt_tables():
        yield sure(ask(spoilt, packet(1, 0)), 18)
        yield sure(ask(spoilt, HANDS[1]), 18)
        yield sure(ask(spoilt, context([1 << 22 | 1 << 16, 5, ALL_ON])), 18)


def play_refused(ask, ask_stream=11):
    """What reading refuses, with its place, whether the stream is declared or not; and what
    playing refuses of packets that reading accepts, which growing takes in."""
    declared, other = table.layout([fresh_stream(5, 1), fresh_stream(7)]), table.layout([fresh_stream(5)])
    for words, *told in [*refused_parts(), *broken_fields()]:
        yield sure(ask(declared, words), *told)
        yield sure(ask(other, words), *told)
    for kind, c, tsi, tsf in itertools.product(range(6), range(2), range(4), range(4)):
        words = shaped(kind, c, tsi, tsf, [0])[0]
        case = sure(ask(other, words), ask_stream, None if ask_stream == 0 else 0 if kind in (0, 2) else 1)
        assert ask_stream or list(case.after[3])[2] == (0 if kind in (0, 2) else 1)
        yield case


def play_by_choice(ask):
    """Packets of type 1 to streams of either choice and to none, those of other types, and each
    stream of 32 that alone has the other choice."""
    for choice in (0, 1):
        for before in ([], [fresh_stream(5, 1 - choice)], [full_stream(5, 1 - choice), fresh_stream(6)]):
            lent = table.layout([*before, fresh_stream(7, choice), fresh_stream(8, 1 - choice)])
            for high, low, body, right in [*survey_payloads()][:200:9]:
                number = (0 if right else 20) if choice else 6 if high >> 24 else 0
                yield sure(ask(lent, survey(high, low, body)), number)
            for high, low in [*survey_classes()][::3]:
                number = 20 if choice else 6 if high >> 24 else 0
                yield sure(ask(lent, survey(high, low, [1])), number, 2 if number else 0)
                # not declared
                words = survey(high, low, [1], identifier=9)
                yield sure(ask(lent, words), *((6, 2) if high >> 24 else (11, 1)))
            for flags in (0, 4, 8):
                words = survey(survey_high(), 0x00080000, [1, 2], flags)
                yield sure(ask(lent, words), 20 if choice else 0, 2 if choice and flags & 8 else 0)
                yield sure(ask(lent, words[:1] + [9] + words[2:]), 11, 1)
                yield sure(ask(lent, words[:1]), 5)
            for pad in (0, 1, 8, 31):
                for kind in (0, 2, 3, 4, 5):
                    flags = 8 if kind > 3 else 0x0C
                    words = survey(survey_high(pad), 0x00080000, [0], flags, kind=kind)
                    yield sure(ask(lent, words), 6 if pad else 11 if kind in (0, 2) else 0)
                words = survey(survey_high(pad), 0x00080000, [1], tsf=2, fraction=TERA)
                yield sure(ask(lent, words), 7 if choice or not pad else 6)
        for place in range(32):
            streams = [fresh_stream(one, choice if one == place else 1 - choice) for one in range(32)]
            for identifier in {place, (place + 1) % 32, 31 - place}:
                words = survey(survey_high(1), 0x00080000, [1], identifier=identifier)
                mine = streams[identifier]["choice"]
                yield sure(ask(table.layout(streams), words), 0 if mine else 6)


def play_run(r):
    data = [*DATA, 0x14020005, 7, 0, 0, 0]
    # valid data on, an over-range count before a temperature, and lock off
    states = context([1 << 16, 0x40040001]) + context([1 << 22 | 1 << 18, 5, 64]) + context([1 << 16, 0x20000002])
    lent = table.layout([fresh_stream(7)])
    cuts = [(recording, n) for recording in (data, states) for n in range(len(recording) + 1)]
    for recording, n in cuts:
        for entries in (0, 4, 5, 10, 14, 15):
            for start_at in (0, 5, 10, 11):
                yield sure(calls.play_run_of(r, lent, recording[:n], start_at, entries), 0)
    # streams of both choices in turn: STREAM goes on, PAD and CLASS end
    mixed = [fresh_stream(7, 1), fresh_stream(8, 0)]
    run = [*HANDS[0], *survey(survey_high(), 0, [], identifier=9), *HANDS[1]]
    run += [0x10000002, 8] + survey(survey_high(), 0x00080000, [1], identifier=8)
    for end in (survey(survey_high(), 0x00080000, [1], 8), survey(survey_high(3), 0x00080000, [1], identifier=8)):
        for last in (end, []):
            words = run + last + [0x10010002, 8]
            for entries in (0, 5, 10, 15, 20, 25, 30, 35, 60):
                for streams in (mixed, mixed[::-1], mixed[:1], mixed[1:], [fresh_stream(7, 0), fresh_stream(8, 1)]):
                    yield sure(calls.play_run_of(r, table.layout(streams), words, 0, entries), 0)
    written = calls.run(table.layout(mixed), run + survey(survey_high(), 0x00080000, [1], 8), 0, 9)[1]
    assert written[::5] == [0, 11, 0, 0, 0, 20], written
    written = calls.run(table.layout(mixed), run + survey(survey_high(3), 0x00080000, [1], identifier=8), 0, 9)[1]
    assert written[::5] == [0, 11, 0, 0, 0, 6], written
    # the entry of a refusal behind one of no stream and a good packet, and before others
    for words, number, place, bit in [*refused_parts(), *broken_fields()]:
        front = [0x20000001, 0x10000002, 7]
        written = calls.run(lent, front + words, 0, 9)[1]
        assert written == [11, 1, 0, 0, 0, 0, 2, 1, 0, 0, number, 0, place, bit, 0], written
        for room in (14, 15, 30):
            yield sure(calls.play_run_of(r, lent, front + words, 0, room), 0)
    yield sure(calls.play_run_of(r, lent, [0x10000002, 8, 0x30000003, 8, 0, 0x50000002, 9, 0x10000001], 0, 60), 0)
    for spoilt in spoilt_tables():
        yield sure(calls.play_run_of(r, spoilt, data, 0, 10), 18)


def page_length(r):
    for streams in range(1, 33):
        for made, length in (
            ([fresh_stream(i, i % 2) for i in range(streams)], 2 + 17 * streams),
            ([full_stream(i, i % 3 % 2) for i in range(streams)], 2 + 90 * streams),
        ):
            case = calls.page_length_of(r, table.layout(made))
            assert case.after[1][0] == length
            yield sure(case, 0)
    for spoilt in spoilt_tables():
        yield sure(calls.page_length_of(r, spoilt), 18)


def save(r):
    for streams in (1, 2, 31, 32):
        made = [full_stream(i, i % 2) for i in range(streams)]
        lent = table.layout(made)
        length = 2 + 90 * streams
        for room in (length, length + 1, length - 1, 0):
            yield sure(calls.save_of(r, lent, room), 0 if room >= length else 13)
    for lent in state_tables():
        yield sure(calls.save_of(r, lent, 92), 0)
    for choice in (0, 1):
        for stream in (fresh_stream(7, choice), full_stream(7, choice)):
            case = calls.save_of(r, table.layout([stream]), 92)
            assert case.after[1][18] == choice
            yield sure(case, 0)
    for spoilt in spoilt_tables():
        yield sure(calls.save_of(r, spoilt, 93), 18)


def put_back(r):
    def ask(words, room=179):
        out, length = noisy(r, room), calls.length_place(r)
        args = [given(words), out, length]
        (said, what), after = page.put_back(words, list(out.entries))
        if said == "refused":
            return calls.refused(args, what)
        return calls.Case(args, 0, {1: calls.array("I", after), 2: calls.put(length, [what])})

    fresh, full = page.page_of([fresh_stream(7)]), page.page_of([full_stream(7)])
    yield sure(ask([]), 19)
    for made in (fresh, full):
        yield sure(ask(made), 0)
        yield sure(ask(made, 90), 0)
        yield sure(ask(made, 89), 13)
        for choice in (0, 1, 2, 3, 256, 1 << 31, ONES):
            words = made[:18] + [choice] + made[19:]
            case = ask(words)
            assert choice > 1 or case.after[1][15] == choice
            yield sure(case, 0 if choice < 2 else 19)
            yield sure(ask(words, 0), 13 if choice < 2 else 19)
        # without the word, the lengths right
        yield sure(ask([1, made[1] - 1, 4, made[3] - 1] + made[4:18] + made[19:]), 19)
        yield sure(ask(made + [0]), 19)
        yield sure(ask(made[:-1]), 19)
        yield from map(ask, bits_of(made, range(len(made))))
    three = page.page_of([fresh_stream(7, 1), full_stream(8), fresh_stream(9)])
    yield from (ask(words, 268) for words in bits_of(three, range(9)))
    for word, good in states():
        yield sure(ask(page.page_of(holding_state(0))[:-1] + [word]), 0 if good else 19)
    # field 22 held, with its word and without it
    for made, stream in ((page.page_of(holding_state(5)), 0), (full, 0), (three, 1)):
        yield sure(ask(making.hold_count(r, made, stream), 268), 19)
        held = made[2 + 2 * stream] + 1
        yield sure(ask(made[:held] + [made[held] | 1 << 22] + made[held + 1 :], 268), 19)
    for streams in (31, 32):
        yield sure(ask(page.page_of([full_stream(i, i % 2) for i in range(streams)]), 2849), 0)


# Indexes.


def start_index(r):
    for streams in (1, 2, 31, 32):
        for made, words in ((fresh_stream, 17), (full_stream, 90)):
            lent = table.layout([made(i, i % 2) for i in range(streams)])
            length = 4100 + 2 + words * streams
            for room in (length, length + 1, length - 1, 4100, 4099, 0):
                yield sure(calls.start_index_of(r, lent, room), 0 if room >= length else 13)
    for spoilt in spoilt_tables():
        yield sure(calls.start_index_of(r, spoilt, 4200), 18)
        yield sure(calls.start_index_of(r, spoilt, 0), 18)


def index_before(r, packets, pages, room=0, step=index.MOST_PACKET_WORDS):
    """An index that has taken in so many packets, each of so many words."""
    entries = packets // index.EVERY + 1
    places = [step * index.EVERY * entry for entry in range(entries)]
    made = [pages[entry % len(pages)] for entry in range(entries)]
    return calls.index_of(r, made, packets, [*places, step * packets], room)


def grow(r):
    fresh, data = table.layout([fresh_stream(7)]), [0x10000002, 7]
    page_of_fresh = page.page_of([fresh_stream(7)])

    def ask(lent, words, kept=None):
        return calls.grow_of(r, lent, words, kept or index_before(r, 3, [page_of_fresh]))

    yield from play_refused(ask, ask_stream=0)
    yield from grow_high(r, fresh, page_of_fresh)
    # the packets around an entry, and room for its page, one word less, and none
    for packets in (0, 1, 1022, 1023, 1024, 2046, 2047, 2048, 1023 * 1024 - 1, 1023 * 1024, 1024 * 1024 - 2):
        for room in (0, 18, 19, 20):
            for words in (data, [0x00000001], [0x10000002, 8]):
                kept = index_before(r, packets, [page_of_fresh], room)
                at_entry = packets % 1024 == 1023
                yield sure(ask(fresh, words, kept), 13 if at_entry and room < 19 else 0)
    # contents that are full, whatever room there is; a refusal of reading comes first
    kept = index_before(r, 1024 * 1024 - 1, [page_of_fresh], 4000)
    yield sure(ask(fresh, data, kept), 13)
    yield sure(ask(fresh, [0x00000001], kept), 13)
    yield sure(ask(fresh, [], kept), 1)
    # a packet that lengthens the page: its page is the one behind it
    for bits in ((29,), (14,), (12, 11), tuple(range(10, 31))):
        body = body_of(*bits)
        for less in (0, 1, len(body) - 1):
            held = len(body) - 1 - (22 in bits)
            kept = index_before(r, 1023, [page_of_fresh], 19 + held - less)
            yield sure(ask(fresh, context(body), kept), 13 if less else 0)
    # one stream of two is changed, the other not; words behind the layout stay
    lent = table.layout([full_stream(5), fresh_stream(7, 1)]) + [1, 2, 3]
    for packets in (5, 1023):
        kept = index_before(r, packets, [page_of_fresh], 300)
        yield sure(ask(lent, context(body_of(30)), kept), 0)
        yield sure(ask(lent, data, kept), 20)
    for spoilt in spoilt_tables():
        yield sure(ask(spoilt, data), 18)
        yield sure(ask(spoilt, [], [0]), 18)
    yield sure(ask(fresh, data, [0] * 4099), 19)
    for kept in bent_contents(r, page_of_fresh):
        yield ask(fresh, data, kept)
        yield ask(fresh, [], kept)


def grow_high(r, fresh, page_words):
    """Packets that end just before 2^32, at it and behind it, at a boundary that has an entry
    and at others."""
    for words in ([0x00000001], [0x10000002, 7], [0x10000002, 8], context(body_of(29)), [0x1000FFFF, 7, *[0] * 65533]):
        held = 2 * (len(words) == 5)
        for packets in (65538, 65 * 1024, 66 * 1024 - 2, 66 * 1024 - 1):
            for over in (-1, 0, 1, len(words) - 1):
                kept = index_before(r, packets, [[]], 19 + held, 0)
                kept[2:4] = index.two_words(2**32 + over - len(words))
                case = sure(calls.grow_of(r, fresh, words, kept), 0)
                after = index.two_words(2**32 + over)
                assert [*case.after[2][1:4]] == [packets + 1, *after]
                assert packets % 1024 < 1023 or [*case.after[2][268:272]] == [*after, 4100, 19 + held]
                yield case
    # the least numbers of packets that may reach 2^32 - 1 and 2^32, and one packet less
    last = 2**32 - 1
    for packets, place, number in ((65537, last, 0), (65537, last + 1, 19), (65538, last + 1, 0), (65536, last, 19)):
        kept = index_before(r, packets, [page_words], 0, 0)
        kept[2:4] = index.two_words(place)
        yield sure(calls.grow_of(r, fresh, [0x10000002, 7], kept), number)
    # without room the place stays
    kept = index_before(r, 66 * 1024 - 1, [[]], 18, 0)
    kept[2:4] = index.two_words(2**32 - 1)
    yield sure(calls.grow_of(r, fresh, [0x10000002, 7], kept), 13)


def bent_contents(r, page_words):
    """Every bit of the words that are looked at, of one entry, of two and of three; places that
    are as far as they may be; and words behind the pages."""
    for packets in (0, 1, 1024, 2050):
        for step in (0, index.MOST_PACKET_WORDS):
            kept = index_before(r, packets, [page_words], r.choice((0, 7)), step)
            yield from bits_of(kept, range(4 + 4 * (packets // 1024 + 2)))
    # more entries than there may be, with what contents do not have room for in pages
    for entries in (1024, 1025):
        kept = index_before(r, 1023 * 1024, [page_words], 40)
        yield [entries, (entries - 1) * 1024, *kept[2:]]


def jump(r):
    streams = [fresh_stream(7), full_stream(8, 1)]
    saved, layout = page.page_of(streams), table.layout_length(2)
    packets = [[0x10000002, 7], context(body_of(29, 24)), [0x00000001], [0x10010002, 9], [0x50000002, 8]]
    recording = [word for words in packets * 3 for word in words]
    ends = [0]
    for words in packets * 3:
        ends.append(ends[-1] + len(words))

    def kept_at(place, taken, entries=3):
        """An index whose second entry stands at a place."""
        kept = index_before(r, 1024 * (entries - 1) + taken, [saved], 0, 0)
        kept[8:10] = index.two_words(place)
        return kept

    def ask(words, first, kept, n, room=layout):
        return calls.jump_of(r, words, first, kept, n, room)

    yield from jump_high(r, saved, recording, ends)
    # every number of packets and of words, from the entry on, from before it and from behind it
    for left in range(16):
        for words in range(0, len(recording) + 1, 1 if left < 6 else 9):
            case = ask(recording[:words], 5, kept_at(5, 0), 1024 + left)
            yield sure(case, 0 if ends[left] <= words else 19)
    for place in (0, 5, 2**16, 1024 * 65535):
        for first in (place, max(0, place - 3), place + 1):
            words = [ONES] * (place - first) + recording
            case = ask(words, first, kept_at(place, 0), 1027)
            yield sure(case, 19 if first > place else 0)
            assert case.number or case.after[6][0] == place + ends[3]
    for n in (0, 1024, 2048):
        kept = index_before(r, 2048, [saved], 0, 7)
        place = 7 * n
        for words, first in (([], place), ([1], place - 1), ([], place - 1), ([], place + 1), ([], 2**64 - 1)):
            if first >= 0:
                yield sure(ask(words, first, kept, n), 0 if first + len(words) == place else 19)
    # each packet refused, each in its place; one of no declared stream is not
    for words, *told in [*refused_parts(), *broken_fields()]:
        yield sure(ask([0x10000002, 7, *words], 0, kept_at(0, 0), 1026), 19)
    # the number of packets, and beyond it
    for taken in (0, 1, 1023):
        kept = kept_at(0, taken, 2)
        for n in (1024 + taken + 1, 2**32, 2**32 + 1024, 2**63, 2**64 - 1):
            yield sure(ask(recording, 0, kept, n), 21)
    # two faults, the first of which is given
    yield sure(ask(recording, 0, [0, *kept_at(0, 0)[1:]], 2**64 - 1, 0), 19)
    yield sure(ask(recording, 0, kept_at(0, 0), 2**64 - 1, 0), 21)
    yield sure(ask([], 0, kept_at(0, 0), 1025, 0), 19)
    for room in (0, 1, layout - 1):
        yield sure(ask(recording, 0, kept_at(0, 0), 1025, room), 13)
    # every bit of a page, and the entry beside it; and of the contents
    for kept in bits_of(kept_at(0, 0), range(4100 + len(saved), 4100 + 2 * len(saved))):
        yield ask(recording, 0, kept, 1025)
    bent = kept_at(0, 0)
    bent[4100 + len(saved)] = 0
    for n, number in ((0, 0), (1023, 19), (1024, 19), (1030, 19), (2048, 0)):
        yield sure(ask(recording, 0, bent, n), number)
    for kept in bent_contents(r, page.page_of([fresh_stream(7)])):
        yield ask(recording, 0, kept, 0)
        yield ask(recording, 0, kept, 1)


def jump_high(r, saved, recording, ends):
    """Jumps from an entry whose word place is beside 2^32, or has another high word."""

    def ask(words, first, place, left, number=65, room=table.layout_length(2)):
        pages = [saved if one == number else [] for one in range(number + 2)]
        places = [place if one == number else 0 for one in range(number + 3)]
        kept = calls.index_of(r, pages, 1024 * (number + 1), places)
        return calls.jump_of(r, words, first, kept, 1024 * number + left, room)

    # it lands just before 2^32, at it and behind it, with the words from the entry on and from before it
    for left in range(16):
        for over in (-1, 0, 1):
            place = 2**32 + over - ends[left]
            for before in (0, 1, 30):
                case = sure(ask([ONES] * before + recording, place - before, place, left), 0)
                assert case.after[6][0] == 2**32 + over
                yield case
    for place in (2**32 - 3, 2**32 - 1, 2**32, 2**32 + 5):
        for left in (0, 1, 2, 3, 15):
            case = sure(ask(recording, place, place, left), 0)
            assert case.after[6][0] == place + ends[left]
            yield case
            for first in (place + 1, place ^ 2**32, place + 2**32, place & 7, 2**63, 2**64 - 1):
                yield sure(ask(recording, first, place, left), 19)
            yield sure(ask(recording, place, place, left, room=178), 13)
        # the words end before the entry, at it and within its packets
        yield sure(ask([ONES] * 29, place - 30, place, 0), 19)
        yield sure(ask([ONES] * 30, place - 30, place, 0), 0)
        for words in range(len(recording) + 1):
            yield sure(ask(recording[:words], place, place, 3), 0 if ends[3] <= words else 19)
    # the most that an entry may have, and one more; words that are 2^32 away
    for number in (65, 128, 129, 1022):
        most = number * 1024 * 65535
        for place, answer in ((most, 0), (most + 1, 19)):
            yield sure(ask(recording, place, place, 3, number), answer)
        for first in (most - 2**32, most % 2**32, most + 2**32):
            yield sure(ask(recording, first, most, 3, number), 19)
    yield sure(ask(recording, 2**32 + 5, 2**33 + 5, 3, 129), 19)
    yield sure(ask(recording, 2**33 + 5, 2**33 + 5, 3, 129), 0)


# What a table says of a stream: state words and field 22; the rest is among the other cases.


def reading(r):
    for lent in state_tables():
        for bit in range(10, 31):
            yield sure(calls.reading_of(r, lent, 0, bit), 0)
    for spoilt in spoilt_tables():
        for bit in (22, 16):
            yield sure(calls.reading_of(r, spoilt, 0, bit), 18)


def readings(r):
    for lent in state_tables():
        yield sure(calls.readings_of(r, lent, 0), 0)
    for spoilt in spoilt_tables():
        yield sure(calls.readings_of(r, spoilt, 0), 18)


def held_words(r):
    for lent in state_tables():
        for room in (0, 1, 2):
            yield sure(calls.held_words_of(r, lent, 0, 22, room), 0)
            yield sure(calls.held_words_of(r, lent, 0, 16, room), 0 if room or not lent[2] >> 16 & 1 else 13)
    for spoilt in spoilt_tables():
        for bit in (22, 16):
            yield sure(calls.held_words_of(r, spoilt, 0, bit, 2), 18)


def identity(r):
    for lent in state_tables():
        yield sure(calls.identity_of(r, lent, 0), 0)
    for choice in (0, 1):
        lent = table.layout([fresh_stream(7, 1 - choice), full_stream(8, choice)])
        case = calls.identity_of(r, lent, 1)
        assert [case.after[place][0] for place in (2, 3, 4)] == [8, choice, 0x7FBFFC00]
        yield sure(case, 0)
    for spoilt in spoilt_tables():
        yield sure(calls.identity_of(r, spoilt, 0), 18)


def own_table(r):
    for lent in state_tables():
        yield sure(calls.own_table_of(r, lent, 0, 90), 0)
        yield sure(calls.own_table_of(r, lent, 0, 89), 13)
    for choice in (0, 1):
        lent = table.layout([fresh_stream(7, 1 - choice), full_stream(8, choice)])
        case = calls.own_table_of(r, lent, 1, 90)
        assert case.after[2][15] == choice
        yield sure(case, 0)
    for spoilt in spoilt_tables():
        yield sure(calls.own_table_of(r, spoilt, 0, 90), 18)


def changed(r):
    # the choice is no field
    for stream in (fresh_stream, full_stream):
        both = [table.layout([stream(7, choice)]) for choice in (0, 1)]
        case = calls.changed_of(r, both[0], 0, both[1], 0)
        assert case.after[4][0] == 0
        yield sure(case, 0)
    made = [*state_tables()]
    for before in made:
        for after in made:
            yield sure(calls.changed_of(r, before, 0, after, 0), 0)
    for spoilt in spoilt_tables():
        yield sure(calls.changed_of(r, spoilt, 0, made[0], 0), 18)
        yield sure(calls.changed_of(r, made[0], 0, spoilt, 0), 18)


def edges(name):
    """The edges of a call, the same each time; trailer_word and counts have theirs among the
    others."""
    make = globals().get(name.removeprefix("vrt49_"))
    return list(make(random.Random(f"edges {name}"))) if make else []
