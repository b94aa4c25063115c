"""Writes recordings for the program vrtplay, and what they should give.

    python3 tools/reference/recordings.py FOLDER

README.md gives the form of the files.  Each packet of a recording says what it is
meant to be answered: the number of a refusal, or its place too, or type, stream and
missing of one that is played.  The lines are put together from that, the places by
walking over the words, and held against those of vrtplay.py; where they differ the
program ends without writing.
"""

import os
import sys

sys.dont_write_bytecode = True

import vrtplay
from play_vectors import (
    COUNTED, INDICATORS, NOT_HELD, gap, no_stream_packets, other, random_few, refused_packets,
    short_packet,
)
from read_vectors import (
    FIXED, FIXED_BITS, FORMAT, ONES, TERA, Numbers, Told, all_fixed, context, counted,
    format_word, lists_of, packet, walked,
)
from table import LIST, STREAM
from vrt49 import BITS, CLASS, CUT, FIELD, INDICATOR, LAYOUT, SHORT, TIME, TYPE

MOST_BYTES = 65536
MOST_FOLDER = 740 * 1024

# The name, the bytes and the lines of each recording.
recordings = []


def to_bytes(words):
    return b"".join(word.to_bytes(4, "big") for word in words)


def raw(name, data, lines):
    """A recording of any bytes."""
    recordings.append((name, bytes(data), lines))


def place_in(words, number):
    """The place of a refusal in its packet."""
    if number == STREAM:
        return 1 if words[0] >> 28 in COUNTED else 0
    return walked(words, number)[0]


def recording(name, ids, steps, tail=b""):
    """A list, then packets with what each is meant to be answered, then bytes that
    make no word."""
    words = [len(ids), *ids]
    lines = []
    ended = None
    for packet_words, meant in steps:
        place = len(words)
        if ended is None:
            if isinstance(meant, int):
                meant = Told(meant, place_in(packet_words, meant))
            if isinstance(meant, Told):
                lines.append(f"at {place} refused {meant.number} place {meant.place}")
                if meant.number != STREAM:
                    ended = place
            else:
                kind, stream, missing = meant
                lines.append(f"at {place} type {kind} stream {stream} missing {missing}")
        words += packet_words
    ended = len(words) if ended is None else ended
    lines.append(f"end {ended} tail {len(tail)}")
    raw(name, to_bytes(words) + tail, lines)


# Document 01's own.


def example():
    data = bytes.fromhex(
        "00000001 00000007 140F0005 00000007 ABCDEF12 30000000 00000000 14020005 00000007"
        " 00000000 00000000 00000000"
    )
    lines = ["at 2 type 1 stream 0 missing 0", "at 7 type 1 stream 0 missing 2", "end 12 tail 0"]
    raw("example", data, lines)
    for n in (1, 2, 3):
        raw(f"example_tail_{n}", data + b"\x40\x65\x00"[:n], lines[:2] + [f"end 12 tail {n}"])


# A survey: three receivers look for carriers, each in its band.


def hertz(number):
    """The two words of a frequency of so many hertz."""
    parts = number * 2**20 % 2**64
    return [parts >> 32, parts & ONES]


def tuning(identifier, count, second, frequency, rate=None, level=None, temperature=None):
    """A Context packet of a receiver: what it says has changed."""
    fields = {27: hertz(frequency)}
    if rate is not None:
        fields[29] = hertz(rate * 4 // 5)
        fields[21] = hertz(rate)
        fields[15] = [FORMAT, 0]
    if level is not None:
        fields[24] = [level * 128 % 2**16]
        fields[23] = [(3 * 128 << 16) + 20 * 128]
    if temperature is not None:
        fields[18] = [temperature * 64]
    words = [word for bit in sorted(fields, reverse=True) for word in fields[bit]]
    indicator = 1 << 31 | sum(1 << bit for bit in fields)
    return context(
        indicator, words, identifier=identifier, count=count, tsi=1, tsf=2, seconds=second,
        fraction=0, m=1,
    )


def samples_of(numbers, identifier, count, second, turn):
    """A data packet with a few samples and a trailer that says they are valid."""
    return packet(
        1, numbers.some(2 + numbers.below(5)), t=1, identifier=identifier, count=count, tsi=1,
        tsf=2, seconds=second, fraction=250_000_000_000 * turn, trailer=0x40040000,
    )


def survey():
    numbers = Numbers(2611)
    begin = 1794715200
    receivers = (0x0A01, 0x0A02, 0x0B03)
    bands = (88_500_000, 433_920_000, 1_090_000_000)
    rates = (2_000_000, 1_000_000, 12_500_000)
    # The counts of data and of context, each receiver with its own.
    data = [13, 2, 7]
    contexts = [0, 15, 9]
    steps = []
    for turn in range(4):
        second = begin + turn
        for stream, identifier in enumerate(receivers):
            first = turn == 0
            missing = 0
            if (turn, stream) == (3, 1):
                # A Context packet of the second receiver is lost.
                contexts[stream] += 1
                missing = 1
            steps.append(
                (
                    tuning(
                        identifier, contexts[stream] % 16, second,
                        bands[stream] + turn * rates[stream],
                        rate=rates[stream] if first else None,
                        level=-40 - turn if turn % 2 == 0 else None,
                        temperature=31 + turn if stream == 2 else None,
                    ),
                    (4, stream, missing),
                )
            )
            contexts[stream] += 1
            for part in range(3):
                missing = 0
                if (turn, stream, part) == (1, 0, 1):
                    # A data packet of the first receiver is lost.
                    data[stream] += 1
                    missing = 1
                steps.append(
                    (
                        samples_of(numbers, identifier, data[stream] % 16, second, part),
                        (1, stream, missing),
                    )
                )
                data[stream] += 1
        if turn == 1:
            # A receiver that was not declared, and data without an identifier.
            stranger = tuning(0x0C04, 0, second, 2_400_000_000, rate=20_000_000)
            steps.append((stranger, STREAM))
            steps.append((samples_of(numbers, 0x0C04, 0, second, 3), STREAM))
            steps.append((packet(0, numbers.some(3), count=4, tsi=1, seconds=second), STREAM))
    steps.append((packet(5, [1, 2], identifier=receivers[2], count=6), (5, 2, 0)))
    recording("survey", receivers, steps)


# Streams and types.


def streams():
    for n in (1, 2, 3, 16, 31, 32):
        ids = [0xC0000000 + 0x101 * i for i in range(n)]
        steps = []
        for count in (3, 4, 6):
            for stream, identifier in enumerate(ids):
                kind = COUNTED[(stream + count) % 4]
                steps.append((short_packet(kind, identifier, count), (kind, stream, 0)))
        # The type of the first turn again: 4, 5 and 6 are missing.
        for stream, identifier in enumerate(ids):
            kind = COUNTED[(stream + 3) % 4]
            steps.append((short_packet(kind, identifier, 7), (kind, stream, 3)))
        recording(f"streams_{n}", ids, steps)


def types():
    steps = []
    for turn in range(5):
        for kind in range(6):
            body = [0x80000000] if kind == 4 else counted(turn)
            words = packet(
                kind, body, identifier=7, count=(3 * turn) % 16, c=turn % 2,
                t=1 if kind < 4 and turn > 2 else 0, tsi=turn % 4, tsf=(turn + 1) % 4,
            )
            meant = (kind, 1, 2 if turn else 0) if kind in COUNTED else STREAM
            steps.append((words, meant))
    recording("types", [8, 7], steps)
    # Packets of the one word that a type 0 or 2 needs at least.
    ones = [(packet(kind, count=count), STREAM) for count in range(5) for kind in (0, 2)]
    recording("one_word_packets", [7], ones + [(short_packet(1, 7, 0), (1, 0, 0))])


def counts():
    for kind in COUNTED:
        order = (13, 14, 15, 0, 1, 4, 3, 3, 11, 10, 15, 0, 15)
        steps = []
        last = None
        for count in order:
            missing = 0 if last is None else gap(last, count)
            steps.append((short_packet(kind, 7, count), (kind, 0, missing)))
            last = count
        recording(f"counts_type_{kind}", [7], steps)
    # The types of one stream counted apart, and two streams.
    steps = []
    for turn in range(6):
        for stream, identifier in enumerate((0x21, 0x22)):
            for kind, step in ((1, 1), (3, 2), (4, 3), (5, 16)):
                missing = step - 1 if turn else 0
                count = (stream + turn * step) % 16
                steps.append((short_packet(kind, identifier, count), (kind, stream, missing)))
    recording("counted_apart", [0x21, 0x22], steps)


def retunings():
    steps = [(context(FIXED_BITS, all_fixed(), identifier=7, count=14), (4, 0, 0))]
    count = 15
    for bit, _ in FIXED:
        words = context(1 << bit, other(bit), identifier=7, count=count % 16)
        steps.append((words, (4, 0, 0)))
        count += 1
    long_fields = [0x00ABCDEF, 2, 3, 4] + lists_of(1, 1, 1, 1, 1) + counted(5)
    words = context(ONES - 0xFF, all_fixed() + long_fields, identifier=7, count=count % 16)
    steps.append((words, (4, 0, 0)))
    recording("retunings", [7], steps)


def states():
    """State words of two streams, each indicator on, off and not enabled, over-range and
    sample loss too; over-range counts, alone and with fields behind them."""
    steps, counts = [], [0, 0]

    def told(stream, indicator, *words):
        count = counts[stream] % 16
        counts[stream] += 1
        carried = context(indicator, words, identifier=0x160 + stream, count=count)
        steps.append((carried, (4, stream, 0)))

    for turn, (enable, value) in enumerate((*INDICATORS, *NOT_HELD)):
        on, off = 1 << enable | 1 << value, 1 << enable
        told(0, 1 << 16, on | turn)
        told(1, 1 << 16, off)
        told(0, 1 << 16, 1 << value)
        told(1, 1 << 22 | 1 << 16, 5, on | 0xF0 + turn)
        told(0, 1 << 22 | 1 << 18 | 1 << 16, 5, 64 * turn, off)
        told(1, 1 << 16, 0)
        steps.append((packet(1, counted(3), identifier=0x160, count=turn), (1, 0, 0)))
    told(0, 1 << 22, 9)
    told(0, 1 << 22 | 1 << 21, 9, *hertz(5))
    told(0, 1 << 16, 0xFF0FF0FF)
    recording("states", [0x160, 0x161], steps)


# Refusals.


def stream_refusals():
    steps = [(short_packet(1, 7, 3), (1, 0, 0))]
    for words, number in no_stream_packets(8):
        steps.append((words, number))
    steps.append((short_packet(1, 7, 4), (1, 0, 0)))
    # Nothing but packets of no stream.
    recording("stream_refusals", [7], steps)
    recording("no_stream_at_all", [7], [(words, STREAM) for words, _ in no_stream_packets(9)])
    # Many words to go on by.
    steps = [
        (packet(1, counted(700), identifier=8), STREAM),
        (packet(0, counted(300), t=1), STREAM),
        (short_packet(5, 7, 0), (5, 0, 0)),
    ]
    recording("stream_refusals_long", [7], steps)


BEGIN = [
    (short_packet(1, 7, 15), (1, 0, 0)),
    (context(1 << 30, [5], identifier=7, count=3), (4, 0, 0)),
    (short_packet(3, 8, 3), STREAM),
]
# What is not looked at any more.
REST = [(short_packet(1, 7, 0), None), (short_packet(1, 7, 1), None)]


def ends(name, words, number, rest=REST, tail=b""):
    """A recording that ends at a packet, with others after it."""
    recording(name, [7], BEGIN + [(words, number)] + list(rest), tail)


def refusals():
    given = dict(identifier=7, count=1)
    ends("type_6", packet(6, [7, 1]), TYPE)
    ends("type_15", [ONES], TYPE, tail=b"\xff")
    ends("bits_data", packet(1, [1], reserved=1 << 25, **given), BITS)
    ends("bits_context", packet(4, [0], reserved=1 << 26, **given), BITS)
    ends("short_size_0", [0], SHORT)
    ends("short_by_one", packet(1, [], size=1, **given), SHORT)
    ends("short_indicator", packet(4, [], size=2, **given), SHORT)
    ends("short_trailer", packet(3, [], t=1, size=2, **given), SHORT, tail=b"ab")
    ends("class", packet(1, [1], c=1, oui=1 << 24, **given), CLASS)
    ends("class_of_no_stream", packet(0, [1], c=1, oui=1 << 31), CLASS)
    ends("time", packet(1, [1], tsf=2, fraction=TERA, **given), TIME)
    ends("time_of_another", context(0, tsf=2, fraction=TERA, identifier=9), TIME)
    ends("indicator", context(0x00000080, **given), INDICATOR)
    ends("layout_more", context(1 << 30, [5, 6], **given), LAYOUT)
    ends("layout_fewer", context(3 << 29, [5], **given), LAYOUT)
    ends("layout_text", context(1 << 9, [0, 2, 1], **given), LAYOUT)
    ends("field_level", context(1 << 24, [1 << 16], **given), FIELD)
    ends("field_rate", context(1 << 21, [1 << 31, 0], **given), FIELD)
    ends("field_format", context(1 << 15, [format_word(item=17), 0], **given), FIELD)
    ends("field_lists", context(1 << 8, [1 << 9, 0], identifier=9), FIELD)
    # As the first packet.
    for words, number in refused_packets(7)[1::4]:
        recording(f"first_refused_{number}", [7], [(words, number)] + REST)
    # The edges that pass.
    steps = [
        (packet(1, [1], tsf=2, fraction=TERA - 1, identifier=7, count=0), (1, 0, 0)),
        (packet(1, [1], tsf=1, fraction=TERA, identifier=7, count=1), (1, 0, 0)),
        (packet(1, [1], c=1, oui=0x00FFFFFF, identifier=7, count=2), (1, 0, 0)),
        (packet(1, [], t=1, identifier=7, count=15), (1, 0, 12)),
        (context(0x80000000, identifier=7), (4, 0, 0)),
        (context(1 << 24, [0xFFFF], identifier=7, count=0), (4, 0, 15)),
        (context(1 << 29, [0x7FFFFFFF, ONES], identifier=7, count=1), (4, 0, 0)),
    ]
    recording("just_within", [7], steps)


def places():
    """Refusals that go on, then one of a field: temperature, device and text are broken,
    and the first of them is told.  The places are counted by hand."""
    given = dict(c=1, tsi=1, tsf=2)
    temperature, device, text = [0x00010000], [0, 0x00010000], [1 << 24, 1, 0x24475047]
    steps = [
        (context(1 << 24, [0xFF80], identifier=7, **given), (4, 0, 0)),
        # Types 0 and 2 have no identifier, whatever stands at word 1.
        (packet(0, [7, 7]), Told(STREAM, 0)),
        (packet(2, [7], t=1, **given), Told(STREAM, 0)),
        (packet(1, [7, 7], identifier=9, t=1, **given), Told(STREAM, 1)),
        (context(0, identifier=9, **given), Told(STREAM, 1)),
        (short_packet(3, 7, 0), (3, 0, 0)),
        # Header, identifier, class, seconds, fraction, indicator, bandwidth, gain: word 11.
        (
            context(
                1 << 29 | 1 << 23 | 1 << 18 | 1 << 17 | 1 << 9,
                [0, 5, 0x01000080, *temperature, *device, *text],
                identifier=7, count=1, **given,
            ),
            Told(FIELD, 11),
        ),
    ]
    recording("places", [7], steps + REST)


def cuts():
    """The last packet is not whole."""
    last = packet(1, counted(5), t=1, identifier=7, count=0)
    for name, n in (("cut_by_one", len(last) - 1), ("cut_after_header", 1)):
        ends(name, last[:n], CUT, rest=())
    # Within a word.
    for tail in (1, 2, 3):
        ends(f"cut_within_word_{tail}", last[:-1], CUT, rest=(), tail=b"\x5a" * tail)
    # Of a stream that is not declared, and of a header that is not whole.
    ends("cut_of_no_stream", packet(1, [1, 2], identifier=9)[:-1], CUT, rest=())
    recording("header_cut", [7], BEGIN, tail=b"\x10\x00\x00")


# The list.


def lists():
    bad = f"at 0 refused {LIST}"
    raw("nothing", b"", [bad, "end 0 tail 0"])
    for n in (1, 2, 3):
        raw(f"no_number_{n}", b"\x00\x00\x01"[:n], [bad, f"end 0 tail {n}"])
    follow = short_packet(1, 7, 0)
    for name, words in (
        ("list_none", [0]),
        ("list_none_and_packet", [0, *follow]),
        ("list_33", [33, *range(33)]),
        ("list_33_and_packet", [33, *range(33), *follow]),
        ("list_twice", [2, 7, 7, *follow]),
        ("list_twice_of_32", [32, *range(31), 0, *follow]),
        ("list_number_alone", [1]),
        ("list_one_fewer", [3, 7, 8]),
        ("list_huge", [ONES, 7, *follow]),
        ("list_number_wraps", [1 << 30, 7, *follow]),
    ):
        raw(name, to_bytes(words), [bad, "end 0 tail 0"])
    raw("list_one_fewer_tail", to_bytes([2, 7]) + b"\0\0\0", [bad, "end 0 tail 3"])
    recording("list_alone", [7], [])
    recording("list_alone_32", list(range(32)), [], tail=b"\0")
    # Identifiers that differ in one bit, the words of a packet among them.
    ids = [0, ONES, 1, 1 << 31, 0x10000002]
    steps = [(short_packet(1, one, 9), (1, place, 0)) for place, one in enumerate(ids)]
    recording("list_edges", ids, steps + [(short_packet(1, 2, 9), STREAM)])


# As much as is read, and more.


def most_bytes():
    full = MOST_BYTES // 4
    # Nearly as many packets as there can be, of one word; every thirty-first is of
    # the last stream.
    ids = list(range(0x30, 0x50))
    steps = []
    left = full - 33
    count = 0
    while left >= 64:
        steps += [(packet(0, count=count % 16), STREAM)] * 30
        meant = (1, 31, 14 if count else 0)
        steps.append((short_packet(1, 0x4F, count % 16), meant))
        count += 15
        left -= 32
    steps.append((packet(3, counted(left - 2), identifier=0x30), (3, 0, 0)))
    recording("most_packets", ids, steps)
    # Two packets that end with the bytes that are read, and a byte more.
    words = [1, 7] + packet(1, [0] * 9998, identifier=7)
    place = len(words)
    words += packet(5, [0] * (full - place - 2), identifier=7)
    lines = ["at 2 type 1 stream 0 missing 0", f"at {place} type 5 stream 0 missing 0"]
    raw("a_byte_more", to_bytes(words) + b"\x77", lines + [f"end {full} tail 0"])
    # The last packet goes on past the bytes that are read.
    words = [1, 7] + packet(1, [0] * 15998, identifier=7)
    place = len(words)
    words += packet(1, counted(full - place - 1), identifier=7, count=1)
    lines = ["at 2 type 1 stream 0 missing 0", f"at {place} refused {CUT} place 0"]
    raw("cut_at_the_limit", to_bytes(words), lines + [f"end {place} tail 0"])
    # One byte fewer than are read.
    data = to_bytes([1, 7] + packet(1, [0] * (full - 5), identifier=7)) + b"\0\0\0"
    raw("a_byte_fewer", data, ["at 2 type 1 stream 0 missing 0", f"end {full - 1} tail 3"])


# Pseudo-random recordings.


def random_recordings():
    numbers = Numbers(7749)
    for turn in range(6):
        n = 1 + numbers.below(5)
        ids = sorted({numbers.word() for _ in range(n)})
        lasts = {}
        steps = []
        for _ in range(40):
            stream = numbers.below(len(ids) + 1)
            kind = COUNTED[numbers.below(4)]
            count = numbers.below(16)
            body = random_few(numbers) if kind == 4 else numbers.some(numbers.below(6))
            identifier = ids[stream] if stream < len(ids) else ids[0] ^ 1 << numbers.below(32)
            words = packet(
                kind, body, identifier=identifier, count=count, c=numbers.below(2),
                tsi=numbers.below(4), t=numbers.below(2) if kind in (1, 3) else 0,
            )
            if identifier not in ids:
                steps.append((words, STREAM))
                continue
            stream = ids.index(identifier)
            last = lasts.get((stream, kind))
            missing = 0 if last is None else gap(last, count)
            lasts[stream, kind] = count
            steps.append((words, (kind, stream, missing)))
        recording(f"random_{turn}", ids, steps, tail=bytes(turn % 4))


# The files.


def build():
    example()
    survey()
    streams()
    types()
    counts()
    retunings()
    states()
    stream_refusals()
    refusals()
    places()
    cuts()
    lists()
    most_bytes()
    random_recordings()


def fail(condition, message):
    if condition:
        sys.exit(message)


def check():
    """The recordings that there have to be."""
    seen = set()
    for name, data, lines in recordings:
        found = vrtplay.play(data)
        fail(found != lines, f"{name}: built for {lines[-3:]}, the reference says {found[-3:]}")
        size = min(len(data), MOST_BYTES + 1) if len(data) >= MOST_BYTES - 1 else "fewer"
        seen.add(("bytes", size))
        for line in lines:
            parts = line.split()
            if parts[2] == "refused":
                number = int(parts[3])
                seen.add(("refused", number))
                place = int(parts[5]) if parts[4:5] == ["place"] else None
                fail(number != LIST and place is None, f"{name}: no place in {line}")
                fail(number == LIST and len(parts) != 4, f"{name}: a place in {line}")
                seen.add(("place", number, place))
            elif parts[2] == "type":
                seen.add(("type", int(parts[3])))
                seen.add(("stream", int(parts[5])))
                seen.add(("missing", int(parts[7])))
            else:
                seen.add(("tail", int(parts[3])))
                seen.add(("last", lines[-2].split()[2] if len(lines) > 1 else "none"))
    wanted = {("refused", number) for number in range(2, 13)}
    wanted |= {("place", STREAM, 0), ("place", STREAM, 1), ("place", FIELD, 11)}
    wanted |= {("place", CLASS, 1), ("place", CLASS, 2), ("place", LIST, None)}
    wanted |= {("type", kind) for kind in COUNTED}
    wanted |= {("stream", stream) for stream in range(32)}
    wanted |= {("missing", missing) for missing in range(16)}
    wanted |= {("tail", tail) for tail in range(4)}
    wanted |= {("last", what) for what in ("none", "refused", "type")}
    wanted |= {("bytes", size) for size in (MOST_BYTES - 1, MOST_BYTES, MOST_BYTES + 1, "fewer")}
    fail(not wanted <= seen, f"not there: {sorted(wanted - seen, key=str)}")
    names = [name for name, _, _ in recordings]
    fail(len(set(names)) != len(names), "a name is there twice")
    fail(len(names) < 40, f"{len(names)} recordings, fewer than 40")
    packets = [len(lines) - 1 for name, _, lines in recordings if name == "survey"]
    fail(not 30 <= packets[0] <= 60, f"the survey has {packets[0]} packets")


def main():
    if len(sys.argv) != 2:
        sys.exit("usage: recordings.py FOLDER")
    build()
    check()
    texts = ["".join(line + "\n" for line in lines) for _, _, lines in recordings]
    size = sum(len(data) + len(text) for (_, data, _), text in zip(recordings, texts))
    fail(size > MOST_FOLDER, f"the recordings have {size} bytes, more than {MOST_FOLDER}")
    os.makedirs(sys.argv[1], exist_ok=True)
    for (name, data, _), text in zip(recordings, texts):
        path = os.path.join(sys.argv[1], name)
        with open(path + ".vrt", "wb") as file:
            file.write(data)
        with open(path + ".txt", "w", encoding="ascii", newline="\n") as file:
            file.write(text)
    print(f"recordings {len(recordings)}, bytes {size}")


if __name__ == "__main__":
    main()
