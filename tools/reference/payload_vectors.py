"""Writes the cases for packed samples and the reference's answers to them.

    python3 tools/reference/payload_vectors.py INPUT EXPECTED

README.md gives the form of both files.  Each case that is built for one answer
says which answer that is, and what the answer gives where that is known; a case
where the reference says another ends the program without writing.
"""

import sys

sys.dont_write_bytecode = True

import payload
from payload import COUNT, FORMAT, ROOM, VALUE
from read_vectors import ONES, Numbers, format_word
from vrt49 import ITEM_CODES

# The six kinds of case.
UNPACK = 1
PACK = 2
SIGNED = 3
WORDS = 4
COORDINATES = 5
ITEM = 6

DONE = 0
MOST = 2_097_120

ITEM_PATTERN = 0xA5A5A5A5A5A5A5A5
EVENT_PATTERN = 0xA5
CHANNEL_PATTERN = 0xA5A5
WORD_PATTERN = 0xA5A5A5A5

# The orders.
ORDERS = {
    UNPACK: (FORMAT, COUNT, ROOM),
    PACK: (FORMAT, COUNT, VALUE, ROOM),
    SIGNED: (FORMAT, VALUE),
    WORDS: (FORMAT, COUNT),
    COORDINATES: (FORMAT, COUNT, VALUE),
    ITEM: (FORMAT, COUNT, VALUE),
}

cases = []

# Refusals of which one case has both faults, the earlier one first, by kind.
both_faults = {op: set() for op in ORDERS}


def unpack_case(answer, first, second, n, words, rooms=None, meant=None):
    """One case of unpacking, with the answer it is built for and, if that is
    known, the items, event tags and channel tags that are meant to come out."""
    if rooms is None:
        rooms = (n + 1, n + 2, n + 3)
    cases.append((UNPACK, (first, second, n, tuple(rooms), list(words)), answer, meant))


def pack_case(answer, first, second, items, events, channels, room=None, meant=None):
    if room is None:
        room = payload.words_for(first, len(items)) + 2
    arguments = (first, second, list(items), list(events), list(channels), room)
    cases.append((PACK, arguments, answer, meant))


def signed_case(answer, width, item, meant=None):
    cases.append((SIGNED, (width, item), answer, meant))


def words_case(answer, first, second, n, meant=None):
    cases.append((WORDS, (first, second, n), answer, meant))


def coordinates_case(answer, first, second, n, item, meant=None):
    cases.append((COORDINATES, (first, second, n, item), answer, meant))


def item_case(answer, first, second, n, coordinates, meant=None):
    cases.append((ITEM, (first, second, n, *coordinates), answer, meant))


def form(
    link=0, code=0, f=16, item=16, event=0, channel=0, complexity=0, component_repeat=0
):
    """A first format word."""
    rest = link << 31 | component_repeat << 23
    return format_word(code, f, item, event, channel, complexity, rest)


def second_word(vector=1, repeat=1):
    """A second format word."""
    return repeat - 1 << 16 | vector - 1


def small_formats(most=5):
    """Every vector size and repeat from 1 on: real, Cartesian and polar, in both orders."""
    for vector in range(1, most + 1):
        for repeat in range(1, most + 1):
            for complexity in range(3):
                for component_repeat in range(2):
                    yield vector, repeat, complexity, component_repeat


# The same samples packed, and unpacked again.


def long_word(numbers):
    return numbers.word() << 32 | numbers.word()


def fitting(numbers, n, width):
    return [long_word(numbers) % 2**width for _ in range(n)]


def samples(numbers, first, n):
    """n items, event tags and channel tags that fit; the first are all ones."""
    found = []
    for width in (
        payload.item_size(first), payload.event_size(first), payload.channel_size(first)
    ):
        found.append(fitting(numbers, n, width))
        if n > 2:
            found[-1][0] = 2**width - 1
    return found


def used_bits(first, second, n):
    """The words of n packing fields with just the bits that are read set."""
    full = [
        [2**width - 1] * n
        for width in (
            payload.item_size(first), payload.event_size(first), payload.channel_size(first)
        )
    ]
    return payload.pack(first, second, *full, n * 2 + 1)[1]


def exchange(numbers, first, second, n, step=0):
    """The same samples packed, unpacked, and unpacked from words whose unused
    bits are set."""
    given = samples(numbers, first, n)
    answer, words = payload.pack(first, second, *given, 2 * n)
    if answer != "packed":
        sys.exit(f"format {first:08X} {second:08X} is built to be packed")
    needed = payload.words_for(first, n)
    if len(words) != needed:
        sys.exit(f"format {first:08X}: {len(words)} words packed, {needed} needed")
    pack_case(DONE, first, second, *given, room=needed + step % 3, meant=words)
    rooms = (n + step % 2, n + step // 2 % 2, n + step // 4 % 2)
    unpack_case(DONE, first, second, n, words, rooms, meant=tuple(given))
    noise = [ONES] * needed if step % 2 else numbers.some(needed)
    used = used_bits(first, second, n)
    noisy = [word | other & ~bits for word, other, bits in zip(words, noise, used)]
    if noisy != words:
        unpack_case(DONE, first, second, n, noisy, meant=tuple(given))
    words_case(DONE, first, second, n, meant=needed)


class Steps:
    """Gives each format its number of groups: none, one or more."""

    def __init__(self, seed):
        self.numbers = Numbers(seed)
        self.step = 0

    def format(self, vector=1, **rest):
        first = form(**rest)
        second = second_word(vector)
        group = payload.group(first, second)
        groups = (0, 1)[self.step % 8] if self.step % 8 < 2 else 2 + self.numbers.below(7)
        exchange(self.numbers, first, second, groups * group, self.step)
        # One that is not packed here.
        many = self.numbers.below(MOST // group + 1) * group
        words_case(DONE, first, second, many)
        self.step += 1


def item_widths():
    steps = Steps(1)
    for item in range(1, 65):
        code = (0, 16, 1, 17, 2, 18, 3, 19)[item % 8]
        complexity = item % 3
        steps.format(link=1, code=code, f=item, item=item, complexity=complexity)
        steps.format(
            link=0, code=code, f=item if item <= 32 else 64, item=item, complexity=complexity
        )
        # With tags and unused bits, as far as they go.
        left = 64 - item
        event = min(item % 8, left)
        channel = min(item % 16, left - event)
        unused = min(item % 5, left - event - channel)
        f = item + event + channel + unused
        parts = dict(code=code, item=item, event=event, channel=channel)
        steps.format(link=1, f=f, **parts)
        steps.format(link=0, f=f if f <= 32 else 64, **parts)


def field_sizes():
    steps = Steps(2)
    for f in range(1, 65):
        for link in (1, 0):
            if link == 0 and 33 <= f <= 63:
                continue
            for _ in range(2):
                item = 1 + steps.numbers.below(f)
                event = steps.numbers.below(min(8, f - item + 1))
                channel = steps.numbers.below(min(16, f - item - event + 1))
                steps.format(
                    link=link, f=f, item=item, event=event, channel=channel,
                    code=(0, 4, 5, 6, 20, 21, 22, 16)[steps.step % 8],
                    complexity=steps.numbers.below(3),
                )


def tag_sizes():
    steps = Steps(3)
    for event in range(8):
        for channel in range(16):
            for link in (1, 0):
                tags = event + channel
                item = 1 + steps.numbers.below(9)
                unused = steps.numbers.below(32 - item - tags + 1) if item + tags < 32 else 0
                f = item + tags + unused
                if steps.step % 7 == 0:
                    f = 64
                steps.format(
                    link=link, f=f, item=item, event=event, channel=channel,
                    complexity=steps.numbers.below(3),
                )


def item_codes():
    steps = Steps(4)
    for code in ITEM_CODES:
        for complexity in range(3):
            for link in (1, 0):
                if code == 14:
                    item, f = 32, (32, 64)[steps.step % 2]
                elif code == 15:
                    item, f = 64, 64
                else:
                    item = 2 + steps.numbers.below(30)
                    f = item + steps.numbers.below(33 - item)
                steps.format(
                    link=link, code=code, f=f, item=item, complexity=complexity,
                    vector=(1, 2, 3, 4, 7)[steps.step % 5],
                )


def repeats():
    """One group or two of every small format, with tags and without."""
    numbers = Numbers(7)
    sizes = ((8, 8, 0, 0), (12, 7, 2, 3), (6, 5, 0, 1), (5, 2, 3, 0), (1, 1, 0, 0))
    for step, (vector, repeat, complexity, component_repeat) in enumerate(small_formats()):
        f, item, event, channel = sizes[step % 5]
        first = form(
            step // 5 % 2, f=f, item=item, event=event, channel=channel,
            complexity=complexity, component_repeat=component_repeat,
        )
        second = second_word(vector, repeat)
        group = payload.group(first, second)
        exchange(numbers, first, second, group if group > 16 else 2 * group, step)


def long_runs():
    numbers = Numbers(5)
    for step, (n, rest) in enumerate((
        (96, dict(link=1, f=1, item=1)),
        (96, dict(link=0, f=1, item=1)),
        (300, dict(link=1, f=12, item=12)),
        (300, dict(link=0, f=12, item=12)),
        (256, dict(link=1, f=16, item=16, complexity=1)),
        (256, dict(link=0, f=16, item=16, complexity=2)),
        (200, dict(link=1, f=24, item=24)),
        (200, dict(link=0, f=24, item=24)),
        (250, dict(link=1, f=8, item=8)),
        (250, dict(link=0, f=8, item=8)),
        (100, dict(link=1, f=32, item=32, code=14)),
        (100, dict(link=0, f=64, item=64, code=15)),
        (129, dict(link=1, f=7, item=7)),
        (129, dict(link=0, f=7, item=7)),
        (161, dict(link=1, f=33, item=33)),
        (131, dict(link=1, f=63, item=63)),
        (162, dict(link=1, f=20, item=12, event=3, channel=5)),
        (162, dict(link=0, f=10, item=6, event=2, channel=1)),
        (162, dict(link=1, f=47, item=20, event=7, channel=15)),
    )):
        exchange(numbers, form(**rest), second_word(), n, step)
    # The largest that a case may have.
    for link in (1, 0):
        unpack_case(DONE, form(link, f=1, item=1), 0, 4096, numbers.some(128), (4096,) * 3)
    unpack_case(DONE, form(1, f=32, item=32), 0, 4096, numbers.some(4096), (4096,) * 3)
    unpack_case(DONE, form(0, f=64, item=40), 0, 2048, numbers.some(4096), (2048,) * 3)
    ones = [1] * 4096
    none = [0] * 4096
    pack_case(DONE, form(1, f=32, item=1), 0, ones, none, none, 4096, [1 << 31] * 4096)


def any_words():
    """Words of which nothing is known."""
    numbers = Numbers(6)
    for step in range(60):
        link = step % 2
        f = 1 + numbers.below(64 if link or step % 6 == 0 else 32)
        if link == 0 and f > 32:
            f = 64
        item = 1 + numbers.below(f)
        event = numbers.below(min(8, f - item + 1))
        channel = numbers.below(min(16, f - item - event + 1))
        first = form(link, f=f, item=item, event=event, channel=channel)
        n = numbers.below(24)
        unpack_case(DONE, first, 0, n, numbers.some(payload.words_for(first, n)))


# What documents say word for word.


def known():
    # "12-bit items ABC, DEF, 123: link ABCDEF12 30000000; processing ABCDEF00
    # 12300000."
    items = [0xABC, 0xDEF, 0x123]
    none = [0, 0, 0]
    for link, words in ((1, [0xABCDEF12, 0x30000000]), (0, [0xABCDEF00, 0x12300000])):
        first = form(link, f=12, item=12)
        pack_case(DONE, first, 0, items, none, none, meant=words)
        unpack_case(DONE, first, 0, 3, words, meant=(items, none, none))
        unpack_case(
            DONE, first, 0, 3, [words[0] | (0 if link else 0xFF), words[1] | 0x000FFFFF],
            meant=(items, none, none),
        )
    # "f 16, item 12 bits ABC, one event bit 1, two channel bits 2: ABC6."
    for link in (1, 0):
        first = form(link, f=16, item=12, event=1, channel=2)
        pack_case(DONE, first, 0, [0xABC], [1], [2], meant=[0xABC60000])
        unpack_case(DONE, first, 0, 1, [0xABC60000], meant=([0xABC], [1], [2]))
        unpack_case(DONE, first, 0, 1, [0xABCEFFFF], meant=([0xABC], [1], [2]))
        pack_case(DONE, first, 0, [0xABC] * 2, [0, 1], [3, 0], meant=[0xABC3ABC4])
    # "0xA00003CF: link, complex, 16-bit signed."
    pack_case(DONE, 0xA00003CF, 0, [0x8001, 0x7FFE], [0, 0], [0, 0], meant=[0x80017FFE])
    unpack_case(DONE, 0xA00003CF, 0, 2, [0x80017FFE], meant=([0x8001, 0x7FFE], [0, 0], [0, 0]))
    pack_case(COUNT, 0xA00003CF, 0, [0x8001], [0], [0])
    # "12-bit 0x800 is -2048; one-bit 1 is -1."
    signed_case(DONE, 12, 0x800, -2048)
    signed_case(DONE, 1, 1, -1)
    # A field of up to 32 bits does not cross words in processing-efficient
    # packing; one of 64 takes two.
    pack_case(DONE, form(0, f=31, item=31), 0, [ONES >> 1] * 2, [0] * 2, [0] * 2,
              meant=[0xFFFFFFFE] * 2)
    pack_case(DONE, form(1, f=31, item=31), 0, [ONES >> 1] * 2, [0] * 2, [0] * 2,
              meant=[0xFFFFFFFF, 0xFFFFFFFC])
    pack_case(DONE, form(0, f=17, item=17), 0, [0x1FFFF, 0x10001], [0] * 2, [0] * 2,
              meant=[0xFFFF8000, 0x80008000])
    pack_case(DONE, form(0, f=64, item=33), 0, [0x1_23456789], [0], [0],
              meant=[0x91A2B3C4, 0x80000000])
    pack_case(DONE, form(0, f=64, item=40, event=7, channel=15), 0, [0xABCDEF0123], [0x7F],
              [0x7FFF], meant=[0xABCDEF01, 0x233FFFFF])
    pack_case(DONE, form(1, f=64, item=64), 0, [0x01234567_89ABCDEF], [0], [0],
              meant=[0x01234567, 0x89ABCDEF])
    # 003, figures B.9-15 and B.9-16: Data Item 1 is in the first packing field, and so on.
    for first, second in ((0x000001C7, 0x00030003), (0x208001C7, 0x00030000)):
        items, none = [*range(1, 17)], [0] * 16
        words = [0x01020304, 0x05060708, 0x090A0B0C, 0x0D0E0F10]
        pack_case(DONE, first, second, items, none, none, meant=words)
        unpack_case(DONE, first, second, 16, words, meant=(items, none, none))
    # No items, no words.
    for first in (form(1), form(0), form(0, f=64), 0xA00003CF):
        pack_case(DONE, first, 0, [], [], [], room=0, meant=[])
        unpack_case(DONE, first, 0, 0, [], (0, 0, 0), meant=([], [], []))
        pack_case(DONE, first, 0xFFFF, [], [], [], room=1, meant=[])
        unpack_case(DONE, first, 0xFFFF, 0, [], (1, 1, 1), meant=([], [], []))
        words_case(DONE, first, 0xFFFF, 0, 0)


# FORMAT


def format_case(answer, first, second=0):
    """A format in each kind of case, with no items and with one group."""
    n = payload.group(first, second)
    of_none = VALUE if answer == DONE else answer
    words_case(answer, first, second, 0)
    unpack_case(answer, first, second, 0, [], (1, 1, 1))
    pack_case(answer, first, second, [], [], [], 1)
    coordinates_case(of_none, first, second, 0, 0)
    item_case(of_none, first, second, 0, (0, 0, 0, 0))
    if n <= MOST:
        words_case(answer, first, second, n)
        coordinates_case(answer, first, second, n, 0)
        item_case(answer, first, second, n, (0, 0, 0, 0))
    if n <= 64:
        needed = payload.words_for(first, n) if answer == DONE else 2 * n
        unpack_case(answer, first, second, n, [ONES] * needed)
        pack_case(answer, first, second, [1] * n, [0] * n, [0] * n, 2 * n)


def formats():
    # Processing-efficient fields of 33 to 63 bits.
    for f in range(31, 65):
        format_case(FORMAT if 33 <= f <= 63 else DONE, form(0, f=f, item=12, event=2, channel=3))
    for f in (32, 33, 48, 63, 64):
        format_case(DONE, form(1, f=f, item=12, event=2, channel=3))
        format_case(FORMAT if 33 <= f <= 63 else DONE, form(0, f=f, item=f))
    # Bit 23 and the second word are free, and where FORMAT is given they change nothing.
    for link in (1, 0):
        for complexity in range(3):
            for component_repeat in range(2):
                first = form(link, complexity=complexity, component_repeat=component_repeat)
                for second in (0, 0x00010000, 0x00030003, 0x80000000, 0xFFFF0000, ONES):
                    format_case(DONE, first, second)
                format_case(FORMAT, first | 1 << 12, 0x00020001)
        for second in (1, 3, 0x7FFF, 0x8000, 0xFFFF):
            format_case(DONE, form(link), second)
        format_case(FORMAT, form(link, complexity=3, component_repeat=1), ONES)
    # The rule of field 15.
    for code in range(32):
        named = code in ITEM_CODES
        format_case(FORMAT if not named or code in (14, 15) else DONE, form(1, code))
        format_case(FORMAT if not named or code == 15 else DONE, form(1, code, f=32, item=32))
        format_case(FORMAT if not named or code == 14 else DONE, form(0, code, f=64, item=64))
    for code, item in ((14, 31), (14, 33), (14, 1), (15, 63), (15, 1)):
        format_case(FORMAT, form(1, code, f=64, item=item))
    for place in (12, 13, 14, 15):
        format_case(FORMAT, form(place % 2) | 1 << place)
    for link in (1, 0):
        format_case(FORMAT, form(link, complexity=3))
    for item, event, channel in (
        (1, 0, 0), (1, 1, 0), (1, 0, 1), (12, 1, 2), (9, 7, 0), (9, 0, 15), (10, 7, 15),
        (31, 0, 1), (42, 7, 15), (57, 7, 0), (49, 0, 15), (63, 1, 0), (63, 0, 1), (64, 0, 0),
    ):
        f = item + event + channel
        for link in (1, 0):
            if f <= 32 or f == 64 or link:
                format_case(DONE, form(link, f=f, item=item, event=event, channel=channel))
            if f > 1:
                format_case(FORMAT, form(link, f=f - 1, item=item, event=event, channel=channel))
    format_case(FORMAT, form(1, f=64, item=64, event=1))
    format_case(FORMAT, form(1, f=64, item=64, channel=1))
    format_case(FORMAT, form(0, f=64, item=64, event=7, channel=15))
    format_case(FORMAT, ONES, ONES)
    format_case(DONE, 0, 0)


# COUNT


def most_items():
    for link, f, words in (
        (1, 1, 65_535), (1, 12, 786_420), (1, 16, 1_048_560), (1, 31, 2_031_585),
        (1, 32, MOST), (1, 33, 2_162_655), (1, 63, 4_128_705), (1, 64, 2 * MOST),
        (0, 1, 65_535), (0, 12, 1_048_560), (0, 16, 1_048_560), (0, 17, MOST),
        (0, 32, MOST), (0, 64, 2 * MOST),
    ):
        first = form(link, f=f, item=f)
        words_case(DONE, first, 0, MOST, words)
        words_case(DONE, first, 0, MOST - 1)
        words_case(COUNT, first, 0, MOST + 1)
        unpack_case(COUNT, first, 0, MOST, [], (0, 0, 0))
        unpack_case(COUNT, first, 0, MOST + 1, [1], (2, 2, 2))
    for n in (MOST + 2, 1 << 21, 1 << 22, 1 << 26, 1 << 27, 1 << 31, ONES):
        words_case(COUNT, form(1, f=64, item=64), 0, n)
        unpack_case(COUNT, form(1, f=64, item=64), 0, n, [], (0, 0, 0))
        unpack_case(COUNT, form(0, f=32, item=32), 0, n, [], (1, 1, 1))
    complexes = form(1, complexity=1)
    words_case(DONE, complexes, 0, MOST, 1_048_560)
    words_case(COUNT, complexes, 0, MOST - 1)
    words_case(COUNT, complexes, 0, MOST + 2)
    # 2,097,120 is 65,535 times 32.
    words_case(DONE, form(1), second_word(65535), MOST, 1_048_560)
    words_case(DONE, complexes, second_word(65535), MOST, 1_048_560)
    words_case(COUNT, form(1), second_word(65536), MOST)
    words_case(DONE, form(1), second_word(65536), 31 * 65536)
    words_case(COUNT, form(1), second_word(65536), 32 * 65536)
    words_case(DONE, complexes, second_word(65536), 30 * 65536)
    words_case(COUNT, complexes, second_word(65536), 31 * 65536)


def multiples():
    numbers = Numbers(8)
    for complexity in range(3):
        for vector in (1, 2, 3, 5):
            first = form(complexity % 2, complexity=complexity)
            second = second_word(vector)
            group = payload.group(first, second)
            for n in range(2 * group + 2):
                answer = COUNT if n % group else DONE
                words = numbers.some(payload.words_for(first, n))
                words_case(answer, first, second, n)
                unpack_case(answer, first, second, n, words)
                pack_case(answer, first, second, *samples(numbers, first, n))
    words_case(COUNT, form(), 0xFFFF, 1)
    words_case(COUNT, form(), 0xFFFF, 65535)
    words_case(DONE, form(), 0xFFFF, 65536, 32768)
    words_case(COUNT, form(), 0xFFFF, 65537)
    words_case(COUNT, form(complexity=2), 0xFFFF, 65536)
    words_case(DONE, form(complexity=2), 0xFFFF, 131072, 65536)


def parts_of_groups():
    """Multiples of a part of the group, such as the vector size, and of the group."""
    numbers = Numbers(13)
    for vector, repeat, complexity, component_repeat in (
        (2, 3, 0, 0), (3, 2, 1, 0), (2, 2, 2, 1), (1, 4, 1, 1), (4, 1, 2, 0), (5, 3, 0, 1),
    ):
        first = form(repeat % 2, complexity=complexity, component_repeat=component_repeat)
        second = second_word(vector, repeat)
        group, parts = payload.group(first, second), payload.component_count(first)
        for n in sorted({
            vector, repeat, vector * parts, repeat * parts, vector * repeat, group - 1, group,
            group + 1, group + vector * parts, group + repeat * parts, 2 * group,
        }):
            answer = COUNT if n % group else DONE
            words = numbers.some(payload.words_for(first, n))
            words_case(answer, first, second, n)
            unpack_case(answer, first, second, n, words)
            pack_case(answer, first, second, *samples(numbers, first, n))
            coordinates_case(answer, first, second, n, n - 1)
            if n >= group:
                item_case(answer, first, second, n, (0, 0, 0, 0))


def most_in_a_group():
    """Groups of just the most items, and of one item less."""
    for vector, repeat, complexity in (
        (65535, 16, 1), (65535, 32, 0), (16, 65535, 2), (32, 65535, 0), (61680, 17, 2),
    ):
        for component_repeat in range(2):
            first = form(
                f=8, item=8, complexity=complexity, component_repeat=component_repeat
            )
            second = second_word(vector, repeat)
            words_case(DONE, first, second, 0, 0)
            words_case(DONE, first, second, MOST, 524_280)
            unpack_case(COUNT, first, second, MOST, [], (0, 0, 0))
            for n in (1, MOST // 64, MOST - 1, MOST + 1, 2 * MOST):
                refused_count(first, second, n)
    first, second = form(1, f=8, item=8), second_word(61, 34379)
    words_case(DONE, first, second, MOST - 1, 524_280)
    refused_count(first, second, MOST)


def too_large_groups():
    """Groups of more than the most items: only no items are taken."""
    for vector, repeat, complexity in (
        (169, 12409, 0), (911, 1151, 1), (65536, 32, 0), (32, 65536, 0), (65536, 16, 2),
        (65536, 65536, 0), (65536, 32768, 2), (65536, 65536, 1), (34346, 62525, 1),
    ):
        for component_repeat in range(2):
            first = form(1, complexity=complexity, component_repeat=component_repeat)
            second = second_word(vector, repeat)
            words_case(DONE, first, second, 0, 0)
            unpack_case(DONE, first, second, 0, [], (0, 0, 0), ([], [], []))
            pack_case(DONE, first, second, [], [], [], 0, [])
            for item in (0, 1, ONES):
                coordinates_case(VALUE, first, second, 0, item)
                item_case(VALUE, first, second, 0, (item, 0, 0, 0))
            # 34,346 times 62,525 times 2 is 2^32 + 4.
            for n in (1, 2, 4, 8, 65536, MOST, MOST + 1, 1 << 20, 1 << 21, 1 << 31, ONES):
                refused_count(first, second, n)


def refused_count(first, second, n):
    """A number of items that COUNT refuses, in each kind of case; packed if they are few."""
    words_case(COUNT, first, second, n)
    unpack_case(COUNT, first, second, n, [], (0, 0, 0))
    if n <= 8:
        pack_case(COUNT, first, second, [0] * n, [0] * n, [0] * n)
    coordinates_case(COUNT, first, second, n, 0)
    item_case(COUNT, first, second, n, (0, 0, 0, 0))


def word_counts():
    """Unpacking with one word too few and one too many."""
    numbers = Numbers(9)
    for link, f in (
        (1, 1), (1, 12), (1, 16), (1, 31), (1, 32), (1, 33), (1, 63), (1, 64),
        (0, 1), (0, 10), (0, 12), (0, 16), (0, 17), (0, 31), (0, 32), (0, 64),
    ):
        first = form(link, f=f, item=f)
        for n in (0, 1, 31, 32, 33):
            needed = payload.words_for(first, n)
            words = numbers.some(needed + 1)
            unpack_case(DONE, first, 0, n, words[:needed])
            unpack_case(COUNT, first, 0, n, words)
            if needed > 0:
                unpack_case(COUNT, first, 0, n, words[: needed - 1])
                unpack_case(COUNT, first, 0, n, [])
    # The words that the other packing would take.
    unpack_case(COUNT, form(1, f=12, item=12), 0, 6, [0] * 2)
    unpack_case(DONE, form(1, f=12, item=12), 0, 6, [0] * 3)
    unpack_case(COUNT, form(0, f=12, item=12), 0, 5, [0] * 2)
    unpack_case(DONE, form(0, f=12, item=12), 0, 5, [0] * 3)


def unlike_inputs():
    for link in (1, 0):
        for first in (
            form(link), form(link, f=16, item=12, event=1, channel=2),
            form(link, f=64, item=33, event=7, channel=15), form(link, complexity=1),
        ):
            for ni, ne, nc in (
                (4, 4, 3), (4, 3, 4), (4, 3, 3), (3, 4, 4), (4, 4, 5), (4, 5, 4), (4, 5, 5),
                (5, 4, 4), (4, 0, 4), (4, 4, 0), (4, 0, 0), (0, 4, 4), (0, 0, 1), (0, 1, 0),
                (0, 1, 1), (2, 0, 0), (2, 4, 2), (2, 2, 4),
            ):
                pack_case(COUNT, first, 0, [1] * ni, [0] * ne, [0] * nc, room=16)
            pack_case(DONE, first, 0, [1] * 4, [0] * 4, [0] * 4, room=16)


# VALUE


def item_values():
    numbers = Numbers(10)
    for item in range(1, 65):
        first = form(item % 2, f=item if item <= 32 or item % 2 else 64, item=item)
        for place in (0, 2):
            right = fitting(numbers, 3, item)
            right[place] = 2**item - 1
            pack_case(DONE, first, 0, right, [0] * 3, [0] * 3)
            if item < 64:
                for wrong in (2**item, 2**64 - 1):
                    right[place] = wrong
                    pack_case(VALUE, first, 0, right, [0] * 3, [0] * 3)
    # A field with unused bits, and a number that fits the field alone.
    first = form(1, f=64, item=12)
    pack_case(DONE, first, 0, [0xFFF], [0], [0])
    pack_case(VALUE, first, 0, [0x1000], [0], [0])
    pack_case(VALUE, first, 0, [1 << 63], [0], [0])


def tag_values():
    for link in (1, 0):
        for event in range(8):
            first = form(link, f=32, item=8, event=event, channel=3)
            for place in (0, 2):
                tags = [0, 0, 0]
                tags[place] = 2**event - 1
                pack_case(DONE, first, 0, [5] * 3, tags, [7] * 3)
                for wrong in (2**event, 255):
                    tags[place] = wrong
                    pack_case(VALUE, first, 0, [5] * 3, tags, [7] * 3)
        for channel in range(16):
            first = form(link, f=32, item=8, event=2, channel=channel)
            for place in (0, 2):
                tags = [0, 0, 0]
                tags[place] = 2**channel - 1
                pack_case(DONE, first, 0, [5] * 3, [3] * 3, tags)
                for wrong in (2**channel, 65535):
                    tags[place] = wrong
                    pack_case(VALUE, first, 0, [5] * 3, [3] * 3, tags)


# ROOM


def rooms():
    numbers = Numbers(11)
    for link, f, item, event, channel in (
        (1, 12, 12, 0, 0), (0, 12, 12, 0, 0), (1, 20, 12, 3, 5), (0, 20, 12, 3, 5),
        (1, 64, 64, 0, 0), (0, 64, 42, 7, 15), (1, 1, 1, 0, 0), (0, 7, 5, 1, 1),
    ):
        first = form(link, f=f, item=item, event=event, channel=channel)
        for n in (1, 5, 33):
            given = samples(numbers, first, n)
            needed = payload.words_for(first, n)
            words = payload.pack(first, 0, *given, needed)[1]
            pack_case(DONE, first, 0, *given, room=needed, meant=words)
            pack_case(DONE, first, 0, *given, room=needed + 3, meant=words)
            pack_case(ROOM, first, 0, *given, room=needed - 1)
            pack_case(ROOM, first, 0, *given, room=0)
            given = tuple(given)
            unpack_case(DONE, first, 0, n, words, (n, n, n), given)
            for place in range(3):
                for length in (n, n - 1, 0):
                    lengths = [n + 2] * 3
                    lengths[place] = length
                    if length == n:
                        unpack_case(DONE, first, 0, n, words, lengths, given)
                    else:
                        unpack_case(ROOM, first, 0, n, words, lengths)
                        lengths = [n] * 3
                        lengths[place] = length
                        unpack_case(ROOM, first, 0, n, words, lengths)
            unpack_case(ROOM, first, 0, n, words, (n - 1,) * 3)


# The order of the refusals.


def right_format(step):
    """12-bit items with tags, in groups of 2 or 4."""
    first = form(
        step % 2, f=16, item=12, event=1, channel=2,
        complexity=1 + step // 2 % 2, component_repeat=step // 4 % 2,
    )
    return first, second_word(*((1, 1), (1, 2), (2, 1))[step % 3])


def wrong_format(step):
    """The same with one fault: a reserved bit, item code 7, item code 14 with other than 32
    bits, real/complex 3, a processing-efficient field of 40 bits, a field too small."""
    first, second = right_format(step)
    return (
        first | 1 << 12,
        first | 7 << 24,
        first | 14 << 24,
        first | 3 << 29,
        first & ~(1 << 31 | 63 << 6) | 39 << 6,
        first & ~(63 << 6) | 13 << 6,
    )[step % 6], second


def format_for(faults, step):
    return (wrong_format if FORMAT in faults else right_format)(step)


def sets_of(order):
    for chosen in range(1, 1 << len(order)):
        yield [number for i, number in enumerate(order) if chosen >> i & 1]


def packing_faults(faults, step):
    first, second = format_for(faults, step)
    lengths = [4, 4, 4]
    if COUNT in faults:
        lengths = ([4, 3, 4], [4, 4, 3], [3, 3, 3], [4, 4, 5], [5, 5, 5])[step % 5]
    items, events, channels = ([1] * length for length in lengths)
    if VALUE in faults:
        (items, events, channels)[step % 3][step % 3] = (0x1000, 2, 4)[step % 3]
    room = 1 if ROOM in faults else 2
    if COUNT in faults and ROOM not in faults:
        room = 3
    pack_case(faults[0], first, second, items, events, channels, room)


def unpacking_faults(faults, step):
    first, second = format_for(faults, step)
    n = 4
    words = [0xABC6ABC5] * 2
    if COUNT in faults:
        if step % 4 == 0:
            n = 3
        elif step % 4 == 1:
            words = words[:1]
        elif step % 4 == 2:
            words = words * 2
        else:
            n = MOST + 2
    lengths = [4, 4, 4]
    if ROOM in faults:
        lengths[step % 3] = 2
    unpack_case(faults[0], first, second, n, words, lengths)


def coordinates_faults(faults, step):
    first, second = format_for(faults, step)
    n = (5, 7, 9, MOST + 4)[step % 4] if COUNT in faults else 8
    item = (n, n + 1, ONES)[step % 3] if VALUE in faults else n - 1
    coordinates_case(faults[0], first, second, n, item)


def item_faults(faults, step):
    first, second = format_for(faults, step)
    n = (5, 7, 9, MOST + 4)[step % 4] if COUNT in faults else 8
    coordinates = [0, 0, 0, 0]
    if VALUE in faults:
        place = step // 3 % 4
        coordinates[place] = ONES if step % 3 == 0 else payload.ends(first, second, n)[place]
    item_case(faults[0], first, second, n, coordinates)


def order():
    for step in range(12):
        for op, with_faults in (
            (PACK, packing_faults), (UNPACK, unpacking_faults),
            (COORDINATES, coordinates_faults), (ITEM, item_faults),
        ):
            for faults in sets_of(ORDERS[op]):
                with_faults(faults, step)
                if len(faults) == 2:
                    both_faults[op].add(tuple(faults))
        first, second = wrong_format(step)
        words_case(FORMAT, first, second, 3)
        words_case(FORMAT, first, second, MOST + 2)
        both_faults[WORDS].add((FORMAT, COUNT))
    for item in (1, 2, 1 << 63, 2**64 - 1):
        signed_case(FORMAT, 0, item)
        both_faults[SIGNED].add((FORMAT, VALUE))


# The order of the items.


def there_and_back(first, second, n, item, meant=None):
    """The coordinates of an item, which are these if that is known, and the item at them."""
    answer, coordinates = payload.coordinates_of(first, second, n, item)
    if answer != "coordinates":
        sys.exit(f"format {first:08X} {second:08X}: item {item} of {n} is built to be there")
    coordinates_case(DONE, first, second, n, item, meant)
    item_case(DONE, first, second, n, coordinates, item)


def figures():
    """Source document 003, figures B.9-13, B.9-15 and B.9-16, row by row."""
    for first in (0x000001C7, 0x100001C7):
        # Components 1 to 4 of each sample.
        for item in range(16):
            there_and_back(first, 0x00000003, 16, item, (item // 4, item % 4, 0, 0))
        # Four samples of a component in each row, of which the last begin with sample 5.
        rows = ((1, 1), (2, 1), (3, 1), (4, 1), (1, 5), (2, 5))
        for row, (component, sample) in enumerate(rows):
            for k in range(4):
                meant = (sample // 4, component - 1, 0, k)
                there_and_back(first, 0x00030003, 32, 4 * row + k, meant)
    for first in (0x208001C7, 0x408001C7):
        # Real of samples 1 to 4, imaginary of them, then those of samples 5 to 8.
        for row, (sample, component) in enumerate(((1, 0), (1, 1), (5, 0), (5, 1))):
            for k in range(4):
                meant = (sample // 4, 0, component, k)
                there_and_back(first, 0x00030000, 16, 4 * row + k, meant)


def small_groups():
    """Two groups with all items where vector size and repeat are at most 3, and the ends of
    the groups and some between of three groups of every small format."""
    numbers = Numbers(14)
    for vector, repeat, complexity, component_repeat in small_formats():
        first = form(
            repeat % 2, f=8, item=8, complexity=complexity, component_repeat=component_repeat
        )
        second = second_word(vector, repeat)
        group = payload.group(first, second)
        if vector <= 3 and repeat <= 3:
            for item in range(2 * group):
                there_and_back(first, second, 2 * group, item)
        n = 3 * group
        for item in sorted({0, group - 1, group, n - 1, numbers.below(n), numbers.below(n)}):
            there_and_back(first, second, n, item)


def large_groups():
    """As many groups as may be, of many channels, of many repeats and of both."""
    numbers = Numbers(15)
    for vector, repeat in (
        (65535, 16), (16, 65535), (65536, 1), (1, 65536), (65536, 15), (15, 65536), (1000, 1000),
        (257, 255), (2, 65536), (65536, 2), (1, 1), (3, 1), (1, 3), (1024, 512), (4095, 256),
    ):
        for complexity in range(3):
            for component_repeat in range(2):
                first = form(complexity=complexity, component_repeat=component_repeat)
                second = second_word(vector, repeat)
                group = payload.group(first, second)
                n = MOST // group * group
                for item in sorted({0, group // 2, n - group, n - 1, numbers.below(n)}):
                    there_and_back(first, second, n, item)


# VALUE of an item and of coordinates.


def places_outside():
    for vector, repeat, complexity, groups in (
        (1, 1, 0, 1), (1, 1, 1, 5), (4, 4, 0, 2), (3, 2, 1, 2), (2, 5, 2, 3), (1, 4, 1, 2),
        (5, 1, 2, 1), (65535, 16, 1, 1), (65536, 4, 0, 7), (16, 65536, 0, 1), (8, 4, 2, 32767),
    ):
        for component_repeat in range(2):
            first = form(1, complexity=complexity, component_repeat=component_repeat)
            second = second_word(vector, repeat)
            n = groups * payload.group(first, second)
            coordinates_case(DONE, first, second, n, n - 1)
            for item in (n, n + 1, 1 << 31, ONES):
                coordinates_case(VALUE, first, second, n, item)
            coordinates_outside(first, second, n)


def coordinates_outside(first, second, n):
    """Each coordinate just inside, just outside and far outside, the others first or last."""
    ends = payload.ends(first, second, n)
    for others in ([0] * 4, [end - 1 for end in ends]):
        for place, end in enumerate(ends):
            for number in (end - 1, end, end + 1, 1 << 31, ONES):
                coordinates = list(others)
                coordinates[place] = number
                item_case(DONE if number < end else VALUE, first, second, n, coordinates)
    # Times whose items would be the first and the last if they were kept modulo 2^32.
    group = payload.group(first, second)
    if group > 1 and (1 << 32) % group == 0:
        around = (1 << 32) // group
        item_case(VALUE, first, second, n, (around, 0, 0, 0))
        item_case(VALUE, first, second, n, (around + ends[0] - 1, *(end - 1 for end in ends[1:])))


# Signed values


def signed_values():
    numbers = Numbers(12)
    for width in range(1, 65):
        half = 2 ** (width - 1)
        signed_case(DONE, width, 0, 0)
        signed_case(DONE, width, half - 1, half - 1)
        signed_case(DONE, width, half, -half)
        signed_case(DONE, width, 2 * half - 1, -1)
        item = long_word(numbers) % half
        signed_case(DONE, width, item, item)
        signed_case(DONE, width, half + item, item - half)
        if width < 64:
            signed_case(VALUE, width, 2 * half)
            signed_case(VALUE, width, 2 * half + item)
            signed_case(VALUE, width, 2**64 - 1)
            signed_case(VALUE, width, 1 << 63)
    for width in (0, 65, 66, 96, 128, 255, 256, 257, 320, 0x10001, 0x10040, 1 << 31, ONES):
        for item in (0, 1, 2**64 - 1):
            signed_case(FORMAT, width, item)


# The two files.


def halves(item):
    return [item >> 32, item & ONES]


def numbers_line(name, found):
    return f"  {name}" + "".join(f" {number}" for number in found)


def over(found, length, pattern):
    """A buffer that held a pattern, after its first numbers are written."""
    return found + [pattern] * (length - len(found))


def small(k, *counts):
    if max(counts) > 4096:
        sys.exit(f"case {k} has a count over 4,096")


def of_unpack(k, arguments):
    first, second, n, lengths, words = arguments
    small(k, len(words), *lengths)
    given = [first, second, n, *lengths, len(words), *words]
    answer, what = payload.unpack(first, second, n, words, lengths)
    number, parts = (what, ([], [], [])) if answer == "refused" else (DONE, what)
    found = [f"{k} unpacked {n}" if number == DONE else f"{k} refused {number}"]
    for name, length, part, pattern in zip(
        ("items", "events", "channels"),
        lengths,
        parts,
        (ITEM_PATTERN, EVENT_PATTERN, CHANNEL_PATTERN),
    ):
        found.append(numbers_line(name, over(part, length, pattern)))
    return given, number, what, found


def of_pack(k, arguments):
    first, second, items, events, channels, room = arguments
    small(k, room, len(items), len(events), len(channels))
    if max(events, default=0) > 255 or max(channels, default=0) > 65535:
        sys.exit(f"case {k} has a tag that is not 8 or 16 bits")
    given = [first, second, len(items), len(events), len(channels), room]
    for item in items:
        given += halves(item)
    given += events + channels
    answer, what = payload.pack(first, second, items, events, channels, room)
    number, words = (what, []) if answer == "refused" else (DONE, what)
    found = [f"{k} packed {len(words)}" if number == DONE else f"{k} refused {number}"]
    found.append(numbers_line("words", over(words, room, WORD_PATTERN)))
    return given, number, what, found


def of_signed(k, arguments):
    width, item = arguments
    answer, what = payload.signed(width, item)
    number = what if answer == "refused" else DONE
    return [width, *halves(item)], number, what, [f"{k} {answer} {what}"]


def of_words(k, arguments):
    answer, what = payload.words_needed(*arguments)
    number = what if answer == "refused" else DONE
    return list(arguments), number, what, [f"{k} {answer} {what}"]


def of_coordinates(k, arguments):
    answer, what = payload.coordinates_of(*arguments)
    if answer == "refused":
        return list(arguments), what, what, [f"{k} refused {what}"]
    names = ("time", "channel", "component", "repeat")
    line = " ".join(f"{name} {number}" for name, number in zip(names, what))
    return list(arguments), DONE, what, [f"{k} {line}"]


def of_item(k, arguments):
    answer, what = payload.item_at(*arguments)
    number = what if answer == "refused" else DONE
    return list(arguments), number, what, [f"{k} {answer} {what}"]


ASK = {
    UNPACK: of_unpack, PACK: of_pack, SIGNED: of_signed, WORDS: of_words,
    COORDINATES: of_coordinates, ITEM: of_item,
}
NAMES = {
    UNPACK: "unpack", PACK: "pack", SIGNED: "signed", WORDS: "words",
    COORDINATES: "coordinates", ITEM: "item",
}


def build():
    known()
    item_widths()
    field_sizes()
    tag_sizes()
    item_codes()
    repeats()
    long_runs()
    any_words()
    formats()
    most_items()
    multiples()
    parts_of_groups()
    most_in_a_group()
    too_large_groups()
    word_counts()
    unlike_inputs()
    item_values()
    tag_values()
    rooms()
    order()
    figures()
    small_groups()
    large_groups()
    places_outside()
    signed_values()


def fail(condition, message):
    if condition:
        sys.exit(message)


def asked(op, answer):
    """The two words of the format, and n, of each case of a kind with an answer."""
    for kind, arguments, number, _ in cases:
        if kind == op and number == answer:
            first, second, n = arguments[:3]
            yield first, second, len(n) if op == PACK else n


def check_formats(op):
    """What the formats of the cases that are not refused have to cover."""
    seen = {(case[1][0], case[1][1]) for case in cases if case[0] == op and case[2] == DONE}
    name = NAMES[op]
    fail(len(seen) < 300, f"{name}: {len(seen)} formats, fewer than 300")
    for link in (True, False):
        firsts = [first for first, _ in seen if payload.link_efficient(first) == link]
        sizes = range(1, 65) if link else [*range(1, 33), 64]
        for what, wanted, found in (
            ("item code", ITEM_CODES, {first >> 24 & 31 for first in firsts}),
            ("real/complex", range(3), {first >> 29 & 3 for first in firsts}),
            ("item size", range(1, 65), {payload.item_size(first) for first in firsts}),
            ("event size", range(8), {payload.event_size(first) for first in firsts}),
            ("channel size", range(16), {payload.channel_size(first) for first in firsts}),
            ("packing field", sizes, {payload.field_size(first) for first in firsts}),
        ):
            missing = sorted(set(wanted) - found)
            fail(missing, f"{name}, link-efficient {link}: no {what} {missing}")
    groups = {"none": 0, "one": 0, "many": 0, "vectors": 0, "repeats": 0, "tagged repeats": 0}
    for first, second, n in asked(op, DONE):
        group = payload.group(first, second)
        groups["none" if n == 0 else "one" if n == group else "many"] += 1
        groups["vectors"] += n > 0 and payload.vector_of(second) > 1
        repeated = n > 0 and payload.repeat_of(second) > 1
        groups["repeats"] += repeated
        tags = payload.event_size(first) + payload.channel_size(first)
        groups["tagged repeats"] += repeated and tags > 0
    for what, n in groups.items():
        fail(n < 30, f"{name}, groups {what}: {n} cases, fewer than 30")


def check_edges():
    """The edges that there have to be."""
    found = set()
    for op, arguments, answer, _ in cases:
        if op == UNPACK:
            first, second, n, lengths, words = arguments
            if answer in (DONE, ROOM):
                for place in range(3):
                    others = [length for i, length in enumerate(lengths) if i != place]
                    if min(others) >= n > 0:
                        found.add((op, answer, place, lengths[place] - n))
            if answer in (DONE, COUNT) and not payload.count_refused(first, second, n):
                found.add((op, answer, "words", len(words) - payload.words_for(first, n)))
        elif op == PACK:
            first, second, items, events, channels, room = arguments
            widths = (
                payload.item_size(first), payload.event_size(first), payload.channel_size(first)
            )
            if len(set(map(len, (items, events, channels)))) > 1:
                for place, part in enumerate((items, events, channels)):
                    others = [len(items), len(events), len(channels)]
                    del others[place]
                    if others[0] == others[1]:
                        found.add((op, answer, "unlike", place, len(part) - others[0]))
            if answer in (DONE, ROOM):
                found.add((op, answer, "room", room - payload.words_for(first, len(items))))
            if answer in (DONE, VALUE) and items:
                most = [max(numbers) - 2**width for numbers, width in
                        zip((items, events, channels), widths)]
                for place in range(3):
                    if all(other < 0 for i, other in enumerate(most) if i != place):
                        found.add((op, answer, place, most[place]))
        elif op == SIGNED:
            width, item = arguments
            found.add((op, answer, "width", width))
            if answer == VALUE:
                found.add((op, answer, "width", width, item - 2**width))
        elif op == WORDS:
            first, second, n = arguments
            if payload.group(first, second) == 1:
                found.add((op, answer, "n", n))
        if op != SIGNED and arguments[1] == 0:
            first = arguments[0]
            link = payload.link_efficient(first)
            found.add((op, answer, "link", link, "f", payload.field_size(first)))
    wanted = []
    for place in range(3):
        wanted += [(UNPACK, DONE, place, 0), (UNPACK, ROOM, place, -1)]
        wanted += [(PACK, DONE, place, -1), (PACK, VALUE, place, 0)]
    wanted += [(UNPACK, DONE, "words", 0), (UNPACK, COUNT, "words", -1)]
    wanted += [(UNPACK, COUNT, "words", 1), (PACK, DONE, "room", 0), (PACK, ROOM, "room", -1)]
    wanted += [(WORDS, DONE, "n", MOST), (WORDS, COUNT, "n", MOST + 1)]
    for place in range(3):
        wanted += [(PACK, COUNT, "unlike", place, more) for more in (-1, 1)]
    for op in (UNPACK, PACK, WORDS, COORDINATES, ITEM):
        wanted += [(op, FORMAT, "link", False, "f", f) for f in range(33, 64)]
        wanted += [(op, DONE, "link", False, "f", f) for f in (32, 64)]
    wanted += [(SIGNED, DONE, "width", width) for width in range(1, 65)]
    wanted += [(SIGNED, VALUE, "width", width, 0) for width in range(1, 64)]
    wanted += [(SIGNED, FORMAT, "width", width) for width in (0, 65)]
    for edge in wanted:
        fail(edge not in found, f"no case at the edge {edge}")


def small_format(first, second):
    """A format as small_formats gives it."""
    vector, repeat = payload.vector_of(second), payload.repeat_of(second)
    return vector, repeat, first >> 29 & 3, first >> 23 & 1


def check_small_formats(op):
    """Every small format has a case with items that is not refused."""
    seen = {small_format(first, second) for first, second, n in asked(op, DONE) if n > 0}
    missing = sorted(set(small_formats()) - seen)
    fail(missing, f"{NAMES[op]}: no vector, repeat, real/complex and bit 23 {missing}")


def check_groups(op):
    """Groups of more than the most items with none and with some, and parts of groups."""
    of_none = VALUE if op in (COORDINATES, ITEM) else DONE
    none = {(payload.group(first, second), n) for first, second, n in asked(op, of_none)}
    some = {payload.group(first, second) for first, second, n in asked(op, COUNT) if n > 0}
    for group in (MOST + 1, MOST + 2, 1 << 21, 1 << 32, (1 << 32) + 4, 1 << 33):
        fail((group, 0) not in none, f"{NAMES[op]}: no group of {group} with no items")
        fail(group not in some, f"{NAMES[op]}: no group of {group} with items")
    parts = [
        n for first, second, n in asked(op, COUNT)
        if n <= MOST and n % (payload.group(first, second) // payload.repeat_of(second)) == 0
        and n % payload.group(first, second) != 0
    ]
    fail(not parts, f"{NAMES[op]}: no whole number of vectors that is not one of groups")


def check_most(op):
    """The most items are there as one group."""
    groups = [payload.group(first, second) for first, second, n in asked(op, DONE) if n == MOST]
    fail(MOST not in groups, f"{NAMES[op]}: no group of {MOST}")


def check_whole(op):
    """All the items of two groups are there where vector size and repeat are at most 3."""
    seen = {}
    for kind, arguments, answer, _ in cases:
        if kind == op and answer == DONE:
            seen.setdefault(arguments[:3], set()).add(arguments[3:])
    whole = {
        small_format(first, second) for (first, second, n), places in seen.items()
        if n == len(places) == 2 * payload.group(first, second)
    }
    missing = sorted(set(small_formats(3)) - whole)
    fail(missing, f"{NAMES[op]}: not all items of {missing}")


def check_bit_23(op):
    """There are cases in which the other order answers otherwise."""
    ask = payload.coordinates_of if op == COORDINATES else payload.item_at
    n = sum(
        ask(*arguments) != ask(arguments[0] ^ 1 << 23, *arguments[1:])
        for kind, arguments, answer, _ in cases if kind == op and answer == DONE
    )
    fail(n < 300, f"{NAMES[op]}: {n} cases in which bit 23 counts, fewer than 300")


def check_outside():
    """Items and coordinates are just inside and just outside, the other coordinates inside."""
    found = set()
    for op, arguments, answer, _ in cases:
        if op in (COORDINATES, ITEM):
            first, second, n, *places = arguments
            ends = payload.ends(first, second, n) if op == ITEM else (n,)
            outside = [i for i, end in enumerate(ends) if places[i] >= end]
            for i, end in enumerate(ends):
                if outside in ([], [i]):
                    found.add((op, answer, i, places[i] - end))
                    found.add((op, answer, i, "ones" if places[i] == ONES else "other"))
            found.add((op, answer, "n", n))
    wanted = [(COORDINATES, 0), *((ITEM, i) for i in range(4))]
    for op, i in wanted:
        for edge in ((op, DONE, i, -1), (op, VALUE, i, 0), (op, VALUE, i, "ones")):
            fail(edge not in found, f"no case at the edge {edge}")
        fail((op, VALUE, "n", 0) not in found, f"{NAMES[op]}: no case of no items")


def check(tally):
    for op, refusals in ORDERS.items():
        for number in (DONE, *refusals):
            n = tally[op].get(number, 0)
            fail(n < 12, f"{NAMES[op]}, answer {number}: {n} cases, fewer than 12")
        fail(set(tally[op]) != {DONE, *refusals}, f"{NAMES[op]}: an answer out of place")
        for pair in zip(refusals, refusals[1:]):
            fail(
                pair not in both_faults[op],
                f"{NAMES[op]}: no case has the faults {pair[0]} and {pair[1]}",
            )
    for op in (UNPACK, PACK):
        check_formats(op)
    check_edges()
    for op in (UNPACK, PACK, WORDS, COORDINATES, ITEM):
        check_small_formats(op)
        check_groups(op)
    for op in (WORDS, COORDINATES, ITEM):
        check_most(op)
    for op in (COORDINATES, ITEM):
        check_whole(op)
        check_bit_23(op)
    check_outside()


def main():
    if len(sys.argv) != 3:
        sys.exit("usage: payload_vectors.py INPUT EXPECTED")
    build()
    given = bytearray()
    expected = []
    tally = {op: {} for op in ORDERS}
    for k, (op, arguments, answer, meant) in enumerate(cases):
        words, number, what, found = ASK[op](k, arguments)
        if number != answer:
            sys.exit(f"case {k} is built for {answer}, the reference says {number}")
        if meant is not None and what != meant:
            sys.exit(f"case {k} is meant to give {meant}, the reference gives {what}")
        tally[op][number] = tally[op].get(number, 0) + 1
        for word in [op, *words]:
            given += word.to_bytes(4, "big")
        expected += found
    check(tally)
    text = "".join(line + "\n" for line in expected)
    fail(len(given) > 1_000_000, f"the input has {len(given)} bytes, more than 1,000,000")
    fail(len(text) > 2_000_000, f"the output has {len(text)} bytes, more than 2,000,000")
    with open(sys.argv[1], "wb") as file:
        file.write(given)
    with open(sys.argv[2], "w", encoding="ascii", newline="\n") as file:
        file.write(text)
    for op, refusals in ORDERS.items():
        print(f"{NAMES[op]} given: {tally[op][DONE]}")
        for number in refusals:
            print(f"{NAMES[op]} refused {number}: {tally[op][number]}")
    print(f"cases {len(cases)}")


if __name__ == "__main__":
    main()
