"""Holds vrtshow to the reference: its lines, its summary, its CSV and its picture.

    python3 tools/compare/show.py [GROUP ..] -- COMMAND ..

COMMAND runs vrtshow; a group is one of those at the end, and without one all are tried.
What happens in a recording is worked out with tools/reference (table.py, panel.py,
vrt49.py), and the lines and rows are put together here from that.  What is in doubt is
worked out twice: packet by packet, and for each field and each loss by itself; both must say
the same.  The picture is parsed: every column with packets missing, with Context packets
missing, with packets refused, and every span whose tuning cannot be trusted must have its
mark, with the right packets and number, and nothing else has one; the bands and the centres
must be those of the reference, and its head must say what was refused, and where.  The table
just before a packet must be that of table.py, with an index and without one, and the file of an
index have the words that index.py gives.  The first difference ends the program with status 1.
"""

import copy
import os
import pty
import re
import resource
import subprocess
import sys
import tempfile
import tty
import xml.etree.ElementTree as tree
from bisect import bisect_left, insort
from collections import Counter
from fractions import Fraction
from itertools import zip_longest
from pathlib import Path

sys.dont_write_bytecode = True
HERE = Path(__file__).resolve().parent
ROOT = HERE.parent.parent
sys.path.insert(0, str(HERE.parent / "reference"))

import index
import make_survey
import page
import panel
import table
import vrt49
import vrtplay
from read_vectors import FIXED, ONES, context, packet, plain
from table import COUNTED_TYPES, LIST, STREAM
from vrt49 import FIELD

split = sys.argv.index("--")
GROUPS_ASKED, COMMAND = sys.argv[1:split], sys.argv[split + 1 :]
folder = tempfile.TemporaryDirectory()
tried = Counter()

NAMES = dict(
    enumerate(
        "EMPTY TYPE BITS SHORT CUT CLASS TIME INDICATOR LAYOUT FIELD STREAM LIST".split(), 1
    )
)
NAMES[20] = "PAD"
WHY = {
    2: "its type is above 5",
    3: "a reserved header bit is set",
    4: "its size is below the parts that its header announces",
    5: "its size exceeds what is left: the recording ends inside it",
    6: "the top eight class bits are not zero",
    7: "its fraction is a second or more",
    8: "indicator bits 7-0 are not zero",
    9: "its fields need more or fewer words than its body has",
    10: "a field breaks its rule",
    12: "it does not begin with 1 to 32 identifiers, each once",
    20: "it is no data packet of 49A: its class, its trailer or its padding",
}
TYPES = {
    0: "data without identifier", 1: "data", 2: "extension data without identifier",
    3: "extension data", 4: "Context", 5: "extension Context",
}
# The fields that have a rule, as docs/PACKET.md names them.
RULED = {
    29: "bandwidth", 24: "level", 21: "sample rate", 18: "temperature", 17: "device", 16: "state",
    15: "format", 9: "GPS ASCII", 8: "lists",
}
# The fields with values, in the order of the lines; those that are the tuning; the others.
VALUES = {
    27: ("RF", "MHz"), 28: ("IF", "MHz"), 26: ("RF offset", "MHz"), 25: ("IF band offset", "MHz"),
    29: ("bandwidth", "MHz"), 21: ("sample rate", "MHz"), 24: ("level", "dBm"),
    23: ("gain", "dB"), 18: ("temperature", "degrees C"),
}
TUNING = {29, 28, 27, 26, 25, 24, 23, 21}
OTHERS = {
    30: "reference point", 20: "timestamp adjustment", 19: "timestamp calibration time",
    17: "device", 16: "state", 15: "format", 14: "GPS geolocation",
    13: "INS geolocation", 12: "ECEF ephemeris", 11: "relative ephemeris",
    10: "ephemeris reference",
}
# The indicators of a state word that are held, by their enables; a value is 12 bits below.
INDICATORS = {
    31: "calibrated time", 30: "valid data", 29: "reference lock", 28: "AGC",
    27: "detected signal", 26: "spectral inversion",
}
CSV_HEAD = (
    "packet,word,event,stream,identifier,type,missing,unsure_since,refusal,name,changed,in_doubt,"
    "tsi,seconds,tsf,fraction,rf_hz,if_hz,rf_offset_hz,if_band_offset_hz,bandwidth_hz,"
    "sample_rate_hz,level_dbm,gain_1_db,gain_2_db,temperature_c,state"
)
SURVEY_HEAD = ",items,format,vector"  # behind it where 49A is chosen for a stream
PLACE_HEAD = ",place,bit"  # behind both
# What the items of 49A are, and their bits, by the data type of the class (004, Table 4-5).
ITEMS = {number: (bits, "signed") for number, bits in enumerate((4, 8, 16, 32, 64), 1)}
ITEMS |= {6: (32, "float"), 7: (64, "float")}
ITEMS |= {number: (bits, "unsigned") for number, bits in enumerate((1, 4, 8, 16, 32, 64), 8)}
MOST_COLUMNS, STRANGERS = 2048, 8
# The first bytes of captures: pcap in both orders, to microseconds and nanoseconds; pcapng.
CAPTURES = [bytes.fromhex(text) for text in "D4C3B2A1 A1B2C3D4 4D3CB2A1 A1B23C4D 0A0D0D0A".split()]
CAPTURE_HINT = "vrtshow: it looks like a capture: vrtcapture (tools/capture) makes a recording of it"


def differs(what, *lines):
    print(f"{what}:", *(str(line)[:600] for line in lines), sep="\n  ", flush=True)
    sys.exit(1)


# Numbers as text.


def exact(value):
    """All decimals of a number whose denominator is a power of two."""
    value = Fraction(value)
    digits = value.denominator.bit_length() - 1
    scaled = abs(value.numerator) * 10**digits // value.denominator
    whole, rest = divmod(scaled, 10**digits)
    tail = f".{rest:0{digits}d}".rstrip("0").rstrip(".") if digits else ""
    return f"{'-' if value < 0 else ''}{whole}{tail}"


def megahertz(hertz):
    """To a millihertz, halves up, with a mark where it is rounded."""
    scaled = Fraction(hertz) * 1000
    milli = (scaled + Fraction(1, 2)).__floor__()
    whole, rest = divmod(abs(milli), 10**9)
    tail = f".{rest:09d}".rstrip("0").rstrip(".")
    return f"{'' if milli == scaled else '~'}{'-' if milli < 0 else ''}{whole}{tail}"


def to_a_hertz(mhz):
    text = f"{mhz:.6f}".rstrip("0").rstrip(".")
    return "0" if text == "-0" else text


def values_of(held, bit):
    """The values of a held field: hertz, or one or two levels."""
    reading = panel.held_reading(bit, held[bit])
    if reading[0] == "frequency":
        return [reading[1] + Fraction(reading[2], 2**20)]
    return list(reading[1:])


def shown(held, bit):
    values = values_of(held, bit)
    if VALUES[bit][1] == "MHz":
        return megahertz(values[0])
    return " and ".join(exact(value) for value in values)


def state_text(held):
    """What is held of the state word: each indicator, on or off, and the user bits."""
    word = held[16][0]
    said = [
        f"{name} {'on' if word >> enable - 12 & 1 else 'off'}"
        for enable, name in INDICATORS.items()
        if word >> enable & 1
    ]
    return ", ".join([*said, f"user bits 0x{word & 0xFF:02X}"])


# What happens in a recording, by the reference.


class Samples:
    """What a data packet of 49A says of its samples: its class is words 2 and 3.  n is cut from
    the payload here, and must be what the reference says."""

    def __init__(self, words):
        self.complex, self.vector = words[3] >> 20 & 3, (words[3] & 0xFFFF) + 1
        self.bits, self.kind = ITEMS[words[3] >> 16 & 15]
        head = words[0]
        before = 4 + (head >> 22 & 3 > 0) + 2 * (head >> 20 & 3 > 0)
        self.items, left = divmod(32 * (len(words) - before - 1) - (words[2] >> 27), self.bits)
        said = vrt49.read_survey(words)[1][1].items
        if left or said != self.items:
            differs("the check itself, items", said, self.items, left)

    def what(self, between):
        return f"{'complex' if self.complex else 'real'}{between}{self.bits} bits {self.kind}"

    def format(self):
        return (self.complex, self.bits, self.kind, self.vector)

    def __str__(self):
        return f"{self.items:,} items, {self.what(', ')}, vector size {self.vector}"


class Event:
    """One thing that happens.  kind is tuning, other, missing, trusted, samples or refused; held
    is what the stream holds then, read what its packet says of itself, where it can be read,
    samples what it says of its samples, where it is a data packet of 49A; in_doubt are the
    fields in doubt after the packet, unsure_since the packet since which the tuning is not, or
    was not, to be trusted, and unsure the data packets since then; refusal is the number of a
    refusal, offset its place in the packet and bit the field's.  quiet is what is only said
    with -a."""

    def __init__(self, kind, number, place, read=None, stream=None, held=None, **more):
        self.kind, self.number, self.place, self.read = kind, number, place, read
        self.stream, self.held, self.quiet, self.samples = stream, held, kind == "other", None
        self.missing = self.unsure_since = self.unsure = self.refusal = self.changed = None
        self.in_doubt = self.offset = self.bit = None
        self.__dict__.update(more)

    def where(self, comma=""):
        """What is said of where it is refused: nothing of LIST, which is of no packet."""
        if self.refusal == LIST:
            return ""
        field = f"field {self.bit}, {RULED[self.bit]}, " if self.refusal == FIELD else ""
        word = f"{self.place + self.offset:{comma}}"
        return f" ({field}at word {self.offset} of the packet, {word} of the recording)"

    def why(self, comma=""):
        """The refusal that ends a recording, with its reason and where."""
        text = f"refused {self.refusal} {NAMES[self.refusal]}: {WHY[self.refusal]}"
        return text + self.where(comma)


class Trust:
    """What of a stream's tuning is in doubt, packet by packet."""

    def __init__(self):
        self.fields, self.since, self.data = set(), None, 0  # in doubt, since when, data packets
        self.context, self.after = None, 0  # the last Context packet, data packets after it
        self.total, self.untuned = 0, 0  # data packets of all doubts that ended; before a tuning
        self.numbers, self.contexts, self.losses = [], [], []  # for intervals()

    def data_comes(self, number, held):
        self.numbers.append(number)
        self.after += 1
        self.data += bool(self.fields)
        self.untuned += not TUNING & set(held)

    def context_comes(self, number, carried, held, missing):
        """held is before the packet.  Since when the tuning is not trusted and how many data
        packets came, where it is in doubt as the packet comes; and whether that ends by it."""
        if missing:
            self.losses.append((self.context, number, TUNING & set(held)))
            if not self.fields:
                self.since, self.data = self.context, self.after
            self.fields |= TUNING & set(held)
        self.contexts.append((number, carried))
        self.context, self.after = number, 0
        if not self.fields:
            return (None, None), False
        self.fields = self.fields - carried
        if not self.fields:
            self.total += self.data
        return (self.since, self.data), not self.fields

    def in_all(self):
        return self.total + (self.data if self.fields else 0)

    def intervals(self, packets):
        """The first packet and the one past the last, where a field is in doubt by a loss, for
        each field of each loss: from the Context packet before it to the next that carries it."""
        sent = {bit: [at for at, carried in self.contexts if bit in carried] for bit in TUNING}
        found = []
        for before, number, fields in self.losses:
            for bit in fields:
                at = bisect_left(sent[bit], number)
                found.append((before, sent[bit][at] if at < len(sent[bit]) else packets))
        return found

    def unsure_packets(self, packets):
        """The spans of packets in which some field is in doubt, by intervals()."""
        spans = []
        for first, past in sorted(self.intervals(packets)):
            if spans and first <= spans[-1][1]:
                spans[-1][1] = max(past, spans[-1][1])
            else:
                spans.append([first, past])
        return spans

    def data_in(self, spans):
        at = self.numbers
        return sum(bisect_left(at, past) - bisect_left(at, first) for first, past in spans)


class Story:
    """All that happens in the bytes of a recording, big-endian; chosen are the identifiers of the
    streams that are by 49A."""

    def __init__(self, data, chosen=()):
        words = vrtplay.words_of(data)
        self.tail, self.events, self.packets, self.place = len(data) % 4, [], 0, 0
        self.table, self.chosen = vrtplay.started(words) or [], chosen
        for stream in self.table:
            stream["choice"] = int(stream["identifier"] in chosen)
        self.sampled = [[] for _ in self.table]  # of each packet by 49A what its samples are
        self.seen = [[] for _ in self.table]  # the numbers of the packets of each stream
        self.bands = [[] for _ in self.table]  # packet, low, centre and high, where they change
        self.trust = [Trust() for _ in self.table]
        self.stopped, self.capture = None, data[:4] in CAPTURES  # stopped: the last event, if so
        if not self.table:
            self.events.append(Event("refused", None, 0, refusal=LIST))
            self.stopped = self.events[-1]
            return
        self.place = 1 + words[0]
        while self.place < len(words) and self.stopped is None:
            self.next(words[self.place : self.place + max(1, vrt49.size_of(words[self.place]))])
            self.packets += 1
        for place, trust in enumerate(self.trust):
            by_field = trust.data_in(trust.unsure_packets(self.packets))
            if by_field != trust.in_all():
                differs(f"the check itself, stream {place}", by_field, trust.in_all())

    def add(self, kind, words, **more):
        answer = table.read(self.table, words)
        read = answer[1] if answer[0] == "accepted" else None
        if read and table.choice_of(self.table, words):
            more["samples"] = Samples(words)
        self.events.append(Event(kind, self.packets, self.place, read, **more))

    def next(self, words):
        before = [dict(stream["held"]) for stream in self.table] if words[0] >> 28 == 4 else None
        answer = table.play(self.table, words)
        if answer[0] == "refused":
            _, number, offset, bit = answer
            self.add("refused", words, refusal=number, offset=offset, bit=bit)
            if number != STREAM:
                self.stopped = self.events[-1]
                return
            self.place += vrt49.size_of(words[0])
            return
        _, size, kind, stream, missing = answer
        self.seen[stream].append(self.packets)
        trust, after = self.trust[stream], self.table[stream]["held"]
        held = before[stream] if kind == 4 else after
        unsure, ended = (None, None), False
        if kind == 4:
            carried = set(vrt49.carried_bits(words[vrt49.body_place(words[0])]))
            unsure, ended = trust.context_comes(self.packets, carried, held, missing)
        elif kind != 5:
            trust.data_comes(self.packets, held)
        if missing:
            self.say("missing", words, stream, held, unsure, missing=missing)
        if kind == 1 and self.table[stream]["choice"]:
            self.sample(words, stream, held)
        if kind == 4:
            self.look(words, stream, held)
        if ended and not missing:
            self.say("trusted", words, stream, after, unsure)
        self.place += size

    def say(self, kind, words, stream, held, unsure=(None, None), **more):
        self.add(
            kind, words, stream=stream, held=dict(held), in_doubt=set(self.trust[stream].fields),
            unsure_since=unsure[0], unsure=unsure[1], **more,
        )

    def sample(self, words, stream, held):
        found, before = Samples(words), self.sampled[stream][-1:]
        self.sampled[stream].append(found)
        if not before or before[0].format() != found.format():
            self.say("samples", words, stream, held)
        elif before[0].items != found.items:
            self.say("samples", words, stream, held, quiet=True)

    def look(self, words, stream, before):
        after = self.table[stream]["held"]
        changed = {bit for bit in table.HELD_BITS if before.get(bit) != after.get(bit)}
        if changed & {29, 28, 27, 26, 25}:
            self.band(stream, after)
        if changed:
            kind = "tuning" if changed & TUNING else "other"
            self.say(kind, words, stream, after, before=before, changed=changed)

    def band(self, stream, held):
        hertz = {bit: values_of(held, bit)[0] for bit in (29, 28, 27, 26, 25) if bit in held}
        if 27 not in hertz and 28 not in hertz:
            return
        centre = hertz[27] + hertz.get(26, 0) if 27 in hertz else hertz[28]
        centre += hertz.get(25, 0)
        half = hertz.get(29, Fraction(0)) / 2
        band = [float(value / 10**6) for value in (centre - half, centre, centre + half)]
        self.bands[stream].append((self.packets, *band))

    # sums

    def missing(self, kinds=COUNTED_TYPES):
        return sum(stream["counts"][kind]["missing"] for stream in self.table for kind in kinds)

    def refused(self):
        return sum(event.refusal is not None and event.number is not None for event in self.events)


# The lines.


def identifier(story, stream):
    return f"0x{story.table[stream]['identifier']:08X}"


def front(event):
    text = f"at {event.place}"
    if event.number is not None:
        text += f" packet {event.number}"
    if event.read and event.read.tsi:
        text += f" time {event.read.seconds}"
        if event.read.tsf == 2 and event.read.fraction:
            text += f".{event.read.fraction:012d}".rstrip("0")
    return text


def fields_text(event):
    parts = []
    for bit, (name, unit) in VALUES.items():
        if bit in event.changed:
            old = f"{shown(event.before, bit)} -> " if bit in event.before else ""
            parts.append(f"{name} {old}{shown(event.held, bit)} {unit}")
    named = [name for bit, name in OTHERS.items() if bit in event.changed]
    if 16 in event.changed:
        named[named.index("state")] += f" ({state_text(event.held)})"
    text = ", ".join(parts)
    return text + ("; also " if parts and named else "") + ", ".join(named)


def in_doubt_text(fields):
    """What a line says behind it, where fields are still in doubt."""
    named = ", ".join(VALUES[bit][0] for bit in VALUES if bit in fields)
    return f"; still in doubt: {named}" if fields else ""


def line_of(story, event):
    if event.refusal == STREAM:
        why = f"type {event.read.type}, {TYPES[event.read.type]}"
        if event.read.type in COUNTED_TYPES:
            why = f"identifier 0x{event.read.identifier:08X} is not declared"
        return f"{front(event)} refused {STREAM} STREAM: {why}{event.where()}"
    if event.kind == "refused":
        return f"{front(event)} {event.why()}"
    text = f"{front(event)} stream {event.stream} ({identifier(story, event.stream)})"
    unsure = f"since packet {event.unsure_since}, for {event.unsure} data packets"
    if event.kind == "trusted":
        return f"{text} tuning trusted again: it was not {unsure}"
    if event.kind == "samples":
        return f"{text} samples: {event.samples}"
    if event.kind != "missing":
        return f"{text} {'tuned' if event.kind == 'tuning' else 'changed'}: {fields_text(event)}"
    text += f" missing {event.missing} of type {event.read.type} ({TYPES[event.read.type]})"
    if event.unsure_since is not None:
        text += f": tuning not to be trusted {unsure}{in_doubt_text(event.in_doubt)}"
    return text


def lines(story, everything=False):
    return [line_of(story, event) for event in story.events if everything or not event.quiet]


def strangers(story):
    """The lines of undeclared packets: eight identifiers, the other ones, and none at all."""
    found, others, unnamed = {}, 0, 0
    for event in story.events:
        if event.refusal != STREAM:
            continue
        if event.read.type not in COUNTED_TYPES:
            unnamed += 1
        elif event.read.identifier in found or len(found) < STRANGERS:
            found[event.read.identifier] = found.get(event.read.identifier, 0) + 1
        else:
            others += 1
    named = [(f"0x{number:08X}", count) for number, count in found.items()]
    named += [("other identifiers", others)] * (others > 0)
    named += [("no identifier", unnamed)] * (unnamed > 0)
    return [f"not declared: {what}, packets {count:,}" for what, count in named]


def survey_text(sampled):
    """What the summary says of the data packets of a stream by 49A."""
    items = sum(one.items for one in sampled)
    text = f"{len(sampled):,} data packets, {items:,} items"
    return f"{text}; the last has {sampled[-1]}" if sampled else text


def summary(story):
    said = []
    if story.table:
        heads = ("data (1)", "extension data (3)", "Context (4)", "extension Context (5)")
        said.append("")
        said.append(" " * 17 + "".join(f"{head:>24}" for head in heads))
        said.append("stream identifier" + f"{'seen   missing':>24}" * 4)
    for place, stream in enumerate(story.table):
        line = f"{place:>6} {identifier(story, place)}"
        for kind in COUNTED_TYPES:
            count = stream["counts"][kind]
            started = count["last"] is not None
            pair = (f"{count['seen']:,}", f"{count['missing']:,}") if started else ("-", "-")
            line += f"{pair[0]:>14} {pair[1]:>9}"
        said.append(line)
        if stream["choice"]:
            said.append(f"       49A: {survey_text(story.sampled[place])}")
        held = stream["held"]
        tuning = [f"{VALUES[b][0]} {shown(held, b)} {VALUES[b][1]}" for b in VALUES if b in held]
        said.append(f"       last tuning: {', '.join(tuning) or 'none'}")
        if 16 in held:
            said.append(f"       state: {state_text(held)}")
        trust = story.trust[place]
        if trust.untuned:
            said.append(f"       without a tuning: {trust.untuned:,} data packets")
        if trust.in_all() or trust.fields:
            line = f"       tuning not to be trusted for {trust.in_all():,} data packets"
            said.append(line + in_doubt_text(trust.fields))
    contexts = story.missing((4,))
    of_them = f" (Context {contexts:,})" if contexts else ""
    said.append("")
    sums = f"packets {story.packets:,}, missing {story.missing():,}{of_them}"
    said.append(f"{sums}, refused {story.refused():,}")
    said += strangers(story)
    if story.stopped:
        said.append(f"stopped: {story.stopped.why()}")
    return [*said, f"end {story.place} tail {story.tail}"]


# The rows.


def mask(fields):
    return f"0x{sum(1 << bit for bit in fields):08X}"


def row_of(story, event):
    def cell(value):
        return "" if value is None else str(value)

    read = event.read
    row = [cell(event.number), event.place, event.kind, cell(event.stream)]
    named = read and read.type in COUNTED_TYPES
    row += [f"0x{read.identifier:08X}" if named else "", read.type if read else ""]
    row += [cell(event.missing), cell(event.unsure_since)]
    row += [cell(event.refusal), NAMES.get(event.refusal, "")]
    row.append(mask(event.changed) if event.changed else "")
    row.append("" if event.in_doubt is None else mask(event.in_doubt))
    row += [read.tsi, read.seconds if read.tsi else ""] if read else ["", ""]
    row += [read.tsf, read.fraction if read.tsf else ""] if read else ["", ""]
    for bit in VALUES:
        if event.held is not None and bit in event.held:
            row += [exact(value) for value in values_of(event.held, bit)]
        else:
            row += [""] * (2 if bit == 23 else 1)
    row.append(f"0x{event.held[16][0]:08X}" if event.held is not None and 16 in event.held else "")
    if story.chosen:
        one = event.samples
        row += [one.items, one.what(" "), one.vector] if one else [""] * 3
    row += [cell(event.offset), cell(event.bit)]
    return ",".join(str(value) for value in row)


def rows(story, everything=False):
    return [CSV_HEAD + SURVEY_HEAD * bool(story.chosen) + PLACE_HEAD] + [
        row_of(story, event) for event in story.events if everything or not event.quiet
    ]


# The picture.

SPACE = "{http://www.w3.org/2000/svg}"
LEAST = 2  # a span is as wide as its packets, and at least so that it can be seen


def frame(what, root):
    """Where the rows begin, and how wide they are: all packets."""
    backs = [back for back in root.iter(SPACE + "rect") if back.get("class") == "back"]
    found = {(back.get("x"), back.get("width")) for back in backs}
    if len(found) != 1:
        differs(what, f"rows of {found}")
    return map(float, found.pop())


def columns_of(story):
    """How many packets a column has: the least power of two that gives at most 2,048."""
    width = 1
    while (story.packets - 1) // width >= MOST_COLUMNS:
        width *= 2
    return width


def expected_marks(story):
    """By group of the picture and class: how many, by the first packet of the column."""
    width, marks = columns_of(story), {}
    for event in story.events:
        if event.number is None:
            continue
        first = event.number // width * width
        if event.kind == "refused":
            key, many = ("refused", "refused"), 1
        elif event.kind == "missing":
            kind = "context" if event.read.type == 4 else "missing"
            key, many = (f"stream{event.stream}", kind), event.missing
        else:
            continue
        marks.setdefault(key, Counter())[first] += many
    marks = {key: dict(found) for key, found in marks.items()}
    for place, trust in enumerate(story.trust):
        for first, past in trust.unsure_packets(story.packets):
            spans = marks.setdefault((f"stream{place}", "unsure"), set())
            spans.update(range(first // width * width, past, width))
    return marks


WHAT = {"missing": "missing", "context": "missing Context", "refused": "refused"}


def whole(text):
    return int(text.replace(",", ""))


def spanned(what, title, story):
    """The first and the last packet that a title speaks of, and what it says of them."""
    found = re.fullmatch(r"packets? ([\d,]+)(?: to ([\d,]+))?: (.*)", title)
    if not found:
        differs(what, f"title {title}")
    first, last, said = found.groups()
    return whole(first), whole(last or first), said


def found_marks(what, story, root):
    width, marks = columns_of(story), {}
    left, wide = frame(what, root)
    for group in root.iter(SPACE + "g"):
        for drawn in group:
            kind = drawn.get("class")
            if kind not in (*WHAT, "unsure") or group.get("id") is None:
                continue
            first, last, said = spanned(what, drawn.findtext(SPACE + "title"), story)
            x = float(drawn.get("x") or re.match(r"M([\d.]+) ", drawn.get("d")).group(1))
            if abs(x - left - wide * first / story.packets) > 0.051 or first % width:
                differs(what, f"{kind} of packet {first} stands at {x}")
            if kind == "context" and not drawn.get("d").endswith("z"):
                differs(what, "a missing Context packet has not a mark of its own")
            key = (group.get("id"), kind)
            if kind == "unsure":
                end = min(last + 1, story.packets)
                span, exactly = float(drawn.get("width")), wide * (end - first) / story.packets
                if not exactly - 0.11 < span < max(exactly, LEAST) + 0.11:
                    differs(what, f"the span from {first} to {last} is {span} wide, not {exactly}")
                if said != "tuning not to be trusted":
                    differs(what, f"the span from {first} to {last} says: {said}")
                marks.setdefault(key, set()).update(range(first, last + 1, width))
                continue
            many = whole(said.removeprefix(WHAT[kind] + " "))
            if first in marks.setdefault(key, {}) or last != min(first + width, story.packets) - 1:
                differs(what, f"{kind}: {drawn.findtext(SPACE + 'title')}")
            marks[key][first] = many
    return marks


def close(what, got, wanted, most=0.11):
    """Points of the picture, which must be as wanted to a tenth of a unit."""
    for one, two in zip_longest(got, wanted):
        if one is None or two is None or any(abs(a - b) > most for a, b in zip(one, two)):
            differs(what, f"drawn {one}", f"expected {two}")


def check_bands(what, story, stream, group, left, wide):
    """Bands and centres, where no column has two changes: their places, and their heights,
    which must follow from the frequencies by one scale."""
    width, bands = columns_of(story), story.bands[stream]
    drawn = {path.get("class", "").split()[0]: path.get("d") for path in group.iter(SPACE + "path")}
    if not bands:
        if "band" in drawn or "centre" in drawn:
            differs(what, f"stream {stream} has a band and no tuning")
        return
    starts = [band[0] // width * width for band in bands]
    if len(set(starts)) < len(starts):
        return
    tried["streams whose bands are drawn"] += 1
    scale = [float(y) for y in re.findall(r"V([\d.]+)", drawn["centre"])]
    scale.insert(0, float(re.match(r"M[\d.]+ ([\d.]+)", drawn["centre"]).group(1)))
    edges = [*starts, story.packets]
    x = [left + wide * start / story.packets for start in edges]
    rects = re.findall(r"M([\d.]+) ([\d.]+)H([\d.]+)V([\d.]+)H[\d.]+z", drawn["band"])
    low, high = min(band[1] for band in bands), max(band[3] for band in bands)
    tops = [float(top) for _, top, _, _ in rects]
    bottoms = [float(bottom) for _, _, _, bottom in rects]
    if high == low:
        per_mhz, base = 0, scale[0]
    else:
        per_mhz = (max(bottoms) - min(tops)) / (high - low)
        base = max(bottoms)
    y = [[base - (mhz - low) * per_mhz for mhz in band[1:]] for band in bands]
    centres = [(one[1],) for one in y]
    close(f"{what}, centres of stream {stream}", [(one,) for one in scale], centres)
    wanted = [(x[i], one[2], x[i + 1], one[0]) for i, one in enumerate(y) if x[i + 1] > x[i]]
    close(f"{what}, bands of stream {stream}", [tuple(map(float, rect)) for rect in rects], wanted)


def check_seen(what, group):
    """A mark of missing packets does not lie under a diamond that is drawn after it."""
    diamonds = []
    for drawn in reversed(group):
        if drawn.get("class") not in ("missing", "context"):
            continue
        x, y, *shape = map(float, re.findall(r"[\d.]+", drawn.get("d")))
        if drawn.get("class") == "context":
            insort(diamonds, (x, y, *shape[:2]))
            continue
        near = diamonds[bisect_left(diamonds, (x - 9,)) : bisect_left(diamonds, (x + 9,))]
        for at, top, wide, high in near:
            ends = [abs(end - top - high) / high for end in (y, y + shape[0])]
            if all(abs(x - at) / wide + end < 1 for end in ends):
                title = drawn.findtext(SPACE + "title")
                differs(what, f"the mark of {title} lies under the diamond at {at}")


def check_labels(what, story, stream, group):
    """What stands beside a stream: its last band, its packets, what is missing."""
    texts = [text.text for text in group.iter(SPACE + "text")]
    counts, bands = story.table[stream]["counts"], story.bands[stream]
    lost, contexts = sum(count["missing"] for count in counts.values()), counts[4]["missing"]
    seen, retuned = len(story.seen[stream]), max(0, len(bands) - 1)
    wanted = [f"stream {stream}", identifier(story, stream), "no tuning"]
    if bands:
        _, low, centre, high = bands[-1]
        wanted[2] = f"{to_a_hertz(centre)} MHz"
        wanted[2] += f", {to_a_hertz(high - low)} wide" if high > low else ""
    wanted.append(f"packets {seen:,}, retunings {retuned:,}")
    wanted.append(f"missing {lost:,}" + (f" (Context {contexts:,})" if contexts else ""))
    if texts[:5] != wanted:
        differs(what, f"expected {wanted}", f"drawn {texts[:5]}")


def check_stop(what, story, root):
    """The mark where a refusal ended the recording; the one that explains it has no title."""
    left, wide = frame(what, root)
    wanted, found = [], []
    if story.stopped is not None and story.packets > 0:
        at = f"{left + wide * (story.packets - 1) / story.packets:.1f}"
        end = story.stopped
        stop = f"ended by refusal {end.refusal} {NAMES[end.refusal]}{end.where(',')}"
        wanted.append((at, f"packet {story.packets - 1:,}: {stop}"))
    for path in root.iter(SPACE + "path"):
        title = path.findtext(SPACE + "title")
        if path.get("class") == "stop" and title:
            found.append((re.match(r"M([\d.]+) ", path.get("d")).group(1), title))
    if found != wanted:
        differs(what, f"expected {wanted}", f"marks where it stopped {found}")


def check_head(what, story, root):
    """What stands above the rows: what is missing and refused in all, and how it ended."""
    contexts = story.missing((4,))
    wanted = f"missing {story.missing():,}" + (f" (Context {contexts:,})" if contexts else "")
    wanted += f", refused {story.refused():,}; "
    wanted += f"stopped: {story.stopped.why(',')}" if story.stopped else "played to the end"
    found = [text.text for text in root.findall(SPACE + "text")][1]
    if found != wanted:
        differs(what, f"expected {wanted}", f"drawn {found}")


def parsed(what, path):
    try:
        return tree.parse(path).getroot()
    except tree.ParseError as error:
        differs(what, error)


def check_picture(what, story, path):
    root = parsed(what, path)
    wanted, found = expected_marks(story), found_marks(what, story, root)
    if wanted != found:
        for key in sorted(set(wanted) | set(found)):
            if wanted.get(key) != found.get(key):
                drawn = f"drawn {found.get(key)}"
                differs(f"{what}, marks {key}", f"expected {wanted.get(key)}", drawn)
    groups = {group.get("id"): group for group in root.iter(SPACE + "g") if group.get("id")}
    names = [f"stream{place}" for place in range(len(story.table))]
    if list(groups) != [*names, "refused"]:
        differs(what, f"groups {list(groups)}")
    for place, name in enumerate(names):
        check_labels(what, story, place, groups[name])
        check_seen(what, groups[name])
        check_bands(what, story, place, groups[name], *frame(what, root))
    check_stop(what, story, root)
    check_head(what, story, root)
    tried["pictures"] += 1
    tried["marks"] += sum(len(marks) for marks in found.values())


# Running it.


def run(*arguments, data=None, file=None, skip=0):
    """Standard input is data, by a pipe, or a file from some byte on."""
    command = [*COMMAND, *map(str, arguments)]
    if file is None:
        return subprocess.run(command, input=data, capture_output=True)
    with open(file, "rb", buffering=0) as given:
        given.seek(skip)
        return subprocess.run(command, stdin=given, capture_output=True)


def same(what, done, wanted, story, name="standard input"):
    found = done.stdout.decode().splitlines()
    for number, (one, two) in enumerate(zip_longest(wanted, found)):
        if one != two:
            said = done.stderr.decode()
            differs(what, f"line {number}", f"expected {one}", f"printed  {two}", said)
    says = ""
    if story.stopped:
        says = f"vrtshow: {name}: stopped at word {story.place}: {story.stopped.why()}"
    error, *hints = done.stderr.decode().split("\n")
    if done.returncode != (1 if story.stopped else 0) or error != says:
        differs(what, f"status {done.returncode}", f"expected {says}", f"printed  {error}")
    if hints.count(CAPTURE_HINT) != (story.capture and not story.table):
        differs(what, "that it looks like a capture is said wrongly", done.stderr.decode())
    tried["runs"] += 1


def little(data):
    """The same words, little-endian."""
    words = len(data) // 4
    swapped = b"".join(data[4 * i : 4 * i + 4][::-1] for i in range(words))
    return swapped + data[4 * words :]


def file_of(data, name="recording"):
    path = Path(folder.name, name)
    path.write_bytes(data)
    return path


def hold(
    what, data, orders=("big", "little"), everything=(False, True), picture=True, chosen=()
):
    """A recording, from a file and from standard input, in both orders of bytes, as lines,
    as a summary, as CSV and as a picture; 49A is chosen for some identifiers, every second of
    which is given as decimal."""
    story = Story(data, chosen)
    tried["recordings"] += 1
    for order in orders:
        path = file_of(data if order == "big" else little(data))
        option = ["-l"] * (order == "little")
        if chosen:
            listed = [f"0x{one:X}" if at % 2 == 0 else str(one) for at, one in enumerate(chosen)]
            option += ["--survey", ",".join(listed)]
        svg = Path(folder.name, "svg")
        for all_fields in everything:
            more = [*option, *["-a"] * all_fields]
            said = [*lines(story, all_fields), *summary(story)]
            same(f"{what}, {order}, lines", run(*more, path), said, story, path)
            said = rows(story, all_fields)
            same(f"{what}, {order}, CSV", run(*more, "--csv", path), said, story, path)
        done = run(*option, "-q", *(["--svg", svg] if picture else []), "-", data=path.read_bytes())
        same(f"{what}, {order}, summary", done, summary(story), story)
        if picture:
            check_picture(f"{what}, {order}, picture", story, svg)
    return story


def to_bytes(words):
    return b"".join(word.to_bytes(4, "big") for word in words)


def recording_of(ids, *packets):
    return to_bytes([len(ids), *ids, *(word for words in packets for word in words)])


# Tables just before a packet, and indexes.

EVERY, MOST_TAKEN = 1024, 1_048_575


class Walk:
    """The packets of a recording as an index numbers them: the word in the file and, for the
    numbers asked for, the table just before each; and how it ends."""

    def __init__(self, data, chosen=(), wanted=None):
        words = vrtplay.words_of(data)
        self.table, self.front = vrtplay.started(words) or [], 1 + words[0]
        for stream in self.table:
            stream["choice"] = int(stream["identifier"] in chosen)
        self.places, self.tables = [self.front], {0: copy.deepcopy(self.table)}
        self.refused, at = None, self.front
        while at < len(words):
            answer = table.play(self.table, words[at : at + max(1, vrt49.size_of(words[at]))])
            if answer[0] == "refused" and answer[1] != STREAM:
                _, number, offset, bit = answer
                self.refused = Event("refused", None, at, refusal=number, offset=offset, bit=bit)
                break
            at += vrt49.size_of(words[at])
            self.places.append(at)
            number = len(self.places) - 1
            if wanted is None or number in wanted or number % EVERY == 0:
                self.tables[number] = copy.deepcopy(self.table)
        self.packets, self.end, self.tail = len(self.places) - 1, at, len(data) % 4
        self.tables[self.packets] = self.table

    def index(self, others={}):
        """The words of its index: contents, of which those that are not used are 0, and pages;
        others: tables that stand in place of those just before some packets."""
        entries = range(0, self.packets + 1, EVERY)
        made = [len(entries), self.packets, *index.two_words(self.places[-1] - self.front)]
        pages = []
        for number in entries:
            saved = page.page_of(others.get(number, self.tables[number]))
            place = index.two_words(self.places[number] - self.front)
            made += [*place, index.CONTENTS_WORDS + len(pages), len(saved)]
            pages += saved
        return made + [0] * (index.CONTENTS_WORDS - len(made)) + pages

    def index_line(self):
        size = len(self.index())
        text = f"packets {self.packets:,}, entries {self.packets // EVERY + 1:,}, words {size:,}; "
        if self.refused:
            return f"{text}stopped at word {self.end}: {self.refused.why()}"
        return f"{text}end {self.end} tail {self.tail}"


def heads():
    named = ("data (1)", "extension data (3)", "Context (4)", "extension Context (5)")
    yield ""
    yield " " * 17 + "".join(f"{head:>24}" for head in named)
    yield "stream identifier" + f"{'seen   missing':>24}" * 4


def table_lines(found, number, place):
    said = [f"at {place} packet {number}: the table just before it", *heads()]
    for at, stream in enumerate(found):
        line = f"{at:>6} 0x{stream['identifier']:08X}"
        for kind in COUNTED_TYPES:
            count = stream["counts"][kind]
            started = count["last"] is not None
            pair = (f"{count['seen']:,}", f"{count['missing']:,}") if started else ("-", "-")
            line += f"{pair[0]:>14} {pair[1]:>9}"
        held = stream["held"]
        tuning = [f"{VALUES[b][0]} {shown(held, b)} {VALUES[b][1]}" for b in VALUES if b in held]
        said += [line, *["       49A"] * stream["choice"]]
        said.append(f"       tuning: {', '.join(tuning) or 'none'}")
        if 16 in held:
            said.append(f"       state: {state_text(held)}")
    return said


TABLE_HEAD = "packet,word,stream,identifier,choice,held," + CSV_HEAD.split(",fraction,")[1]
TABLE_HEAD += "".join(f",seen_{kind},missing_{kind},last_{kind}" for kind in COUNTED_TYPES)


def table_rows(found, number, place):
    said = [TABLE_HEAD]
    for at, stream in enumerate(found):
        held = stream["held"]
        row = [number, place, at, f"0x{stream['identifier']:08X}", stream["choice"], mask(held)]
        for bit in VALUES:
            blank = [""] * (2 if bit == 23 else 1)
            row += [exact(value) for value in values_of(held, bit)] if bit in held else blank
        row.append(f"0x{held[16][0]:08X}" if 16 in held else "")
        for kind in COUNTED_TYPES:
            count = stream["counts"][kind]
            started = count["last"] is not None
            row += [count["seen"], count["missing"], count["last"]] if started else [""] * 3
        said.append(",".join(map(str, row)))
    return said


def says(what, done, wanted, errors=(), status=0):
    """What a run prints, line by line, on standard error too, and its status."""
    for out, lines in ((done.stdout, wanted), (done.stderr, errors)):
        for number, (one, two) in enumerate(zip_longest(lines, out.decode().splitlines())):
            if one != two:
                differs(what, f"line {number}", f"expected {one}", f"printed  {two}")
    if done.returncode != status:
        differs(what, f"status {done.returncode}, not {status}")
    tried["runs"] += 1


def fewer(walk, number, name):
    """What is said where a recording has not so many packets."""
    many = f"it has {walk.packets:,} packets, to word {walk.end}"
    yield f"vrtshow: {name}: packet {number} refused 21 PLACE: {many}"
    if walk.refused:
        yield f"vrtshow: {name}: stopped at word {walk.end}: {walk.refused.why()}"


def hold_table(what, walk, number, arguments, name, **given):
    """The table just before a packet, as lines and as CSV."""
    for option, wanted in ([], table_lines), (["--csv"], table_rows):
        done = run("--at", number, *option, *arguments, **given)
        if number > walk.packets:
            says(what, done, [], fewer(walk, number, name), 1)
        else:
            says(what, done, wanted(walk.tables[number], number, walk.places[number]))
        tried["tables"] += 1


def hold_index(what, walk, path):
    """The words of the file of an index."""
    wanted, found = to_bytes(walk.index()), path.read_bytes() if path.exists() else b""
    if wanted != found:
        pairs = enumerate(zip_longest(wanted, found))
        at = next(at for at, (one, two) in pairs if one != two)
        differs(what, f"{len(found)} bytes, not {len(wanted)}; they differ at word {at // 4}")
    alone(what, path)
    tried["indexes"] += 1


def alone(what, path):
    """Nothing is left beside the file of an index."""
    if left := [file.name for file in path.parent.glob(path.name + ".*")]:
        differs(what, f"left beside it: {left}")


def fresh(name="index"):
    path = Path(folder.name, name)
    path.unlink(missing_ok=True)
    return path


def hold_tables(what, data, numbers, chosen=(), orders=("big", "little")):
    """Tables of a recording without an index, with one that is made at the first of them, and
    with one that was made before."""
    walk = Walk(data, chosen, set(numbers))
    choices = ["--survey", ",".join(map(str, chosen))] if chosen else []
    for order in orders:
        path, kept = file_of(data if order == "big" else little(data)), fresh()
        options = [*choices, *["-l"] * (order == "little")]
        known = f"{what}, {order}"
        for number in numbers:
            hold_table(f"{known}, --at {number}", walk, number, [*options, path], path)
            more = [*options, "--index", kept, path]
            hold_table(f"{known}, --at {number}, index", walk, number, more, path)
            hold_index(f"{known}, --at {number}", walk, kept)
        kept = fresh()
        stopped = [f"vrtshow: {path}: stopped at word {walk.end}: {walk.refused.why()}"] if walk.refused else []
        for again in (1, 2):
            done = run("--index", kept, path, *options)
            says(f"{known}, --index", done, [walk.index_line()], stopped, bool(stopped))
            hold_index(known, walk, kept)
    given = [*choices, "-"]
    hold_table(f"{what}, by a pipe", walk, numbers[-1], given, "standard input", data=data)
    return walk


def around_of(packets):
    """Numbers of packets around the boundaries that an index has, and around the end."""
    edges = {0, 1, packets // 2, packets - 1, packets, packets + 1, packets + EVERY}
    edges |= {at + by for at in range(EVERY, packets + 1, EVERY) for by in (-1, 0, 1)}
    return sorted(edge for edge in edges if edge >= 0)


# The groups.


def samples():
    for path in sorted((ROOT / "samples" / "recordings").glob("*.vrt")):
        hold(path.name, path.read_bytes(), everything=(False,))


def pictures():
    """The pictures of the manual are those that are drawn of their recordings, and its lines
    those that are printed of the sample survey; where it shows a table, all of its lines."""
    survey = (ROOT / "samples/recordings/survey.vrt").read_bytes()
    printed = run(data=survey).stdout.decode().splitlines()
    manual = (ROOT / "docs/MANUAL.md").read_text()
    for number in re.findall(r"^    at \d+ packet (\d+): the table just before it$", manual, re.M):
        lines_of = run("--at", number, data=survey).stdout.decode().splitlines()
        if "\n" + "".join(f"    {line}".rstrip() + "\n" for line in lines_of) not in manual:
            differs("docs/MANUAL.md", f"it is not what is printed now of survey.vrt --at {number}")
        printed += lines_of
    for line in re.findall(r"^    (at \d+ packet .*)$", manual, re.M):
        if line not in printed:
            differs("docs/MANUAL.md", "it is not what is printed now of survey.vrt", line)
    for name, data in (
        ("survey", survey),
        ("hops", make_survey.survey(seed=12)),
        ("streams_32", make_survey.survey(60000, 32)),
    ):
        svg = Path(folder.name, "svg")
        run("-q", "--svg", svg, file_of(data, f"{name}.vrt"))
        if svg.read_bytes() != (ROOT / f"docs/pictures/{name}.svg").read_bytes():
            differs(f"docs/pictures/{name}.svg", f"it is not what is drawn now of {name}.vrt")
        tried["runs"] += 1


def surveys():
    for streams, packets, dwell, seed in (
        (1, 3000, 40, 1), (2, 10, 2, 2), (3, 20000, 160, 3), (5, 2100, 30, 4), (8, 3000, 20, 5),
        (17, 4000, 25, 6), (32, 12000, 30, 7),
    ):
        data = make_survey.survey(packets, streams, seed, dwell, payload=6, loss=0.01)
        hold(f"survey of {streams} streams", data, orders=("big",))
    for streams, packets, dwell, seed in (
        (1, 2000, 10, 21), (3, 4000, 20, 22), (3, 30000, 60, 23), (9, 6000, 8, 24),
        (32, 9000, 12, 25),
    ):
        sparing = (streams + 1) * 2 // 3
        data = make_survey.survey(packets, streams, seed, dwell, 3, loss=0.015, sparing=sparing)
        hold(f"survey of {streams} streams, {sparing} sparing", data, orders=("big",))
    for end in make_survey.ENDS:
        data = make_survey.survey(800, 4, 8, 10, payload=3, loss=0.02, sparing=2, end=end)
        hold(f"survey that ends with {end}", data)


def columns():
    """Around the numbers of packets where columns are joined."""
    for packets in (1, 2, 2047, 2048, 2049, 2050, 4095, 4096, 4097, 8191, 8193, 70000):
        end = "bits" if packets in (1, 4096, 8191) else None
        data = make_survey.survey(packets, 3, packets, 7, payload=1, loss=0.03, sparing=2, end=end)
        hold(f"{packets} packets", data, orders=("big",), everything=(False,))


def million():
    """A million packets; what is missing, refused and unsure has its mark."""
    data = make_survey.survey(1_000_000, 4, 11, 300, payload=1, loss=0.0004, sparing=2)
    hold("a million packets", data, orders=("big",), everything=(False,))


def values():
    """Frequencies that are rounded, negative, at both ends; levels at both ends; every field."""
    def tuned(bits, count=0):
        words = [word for bit in sorted(bits, reverse=True) for word in bits[bit]]
        return context(sum(1 << bit for bit in bits), words, identifier=7, count=count % 16)

    def hertz(parts):
        return [parts >> 32 & ONES, parts & ONES]

    edges = [0, 1, -1, 2**19, -(2**19), 2**20, -(2**20), 524, 525, 1048051, 1048052, -3 * 2**18]
    edges += [2**63 - 1, -(2**63), 177 * 10**6 << 19, (1090 * 10**6 << 20) + 1, (10**9 << 20) - 1]
    packets = [tuned({bit: hertz(edge)}) for edge in edges for bit in (27, 28, 26, 25)]
    packets += [tuned({29: hertz(edge), 21: hertz(edge)}) for edge in edges if edge >= 0]
    ends = [0, 1, 0x7FFF, 0x8000, 0xFFFF, 0xFF80, 0x1234]
    for one in ends:
        packets += [tuned({24: [one], 18: [two], 23: [one << 16 | two]}, 3) for two in ends]
    hold("values", recording_of([7], *packets))
    words = {bit: plain(bit, n) for bit, n in FIXED}
    packets = [tuned({bit: words[bit]}, i) for i, bit in enumerate(words)] * 2
    packets += [tuned(words, 5)] * 2
    for bit in words:
        packets.append(tuned({bit: words[bit][:-1] + [words[bit][-1] ^ (0 if bit == 15 else 1)]}))
    stamped = [
        packet(1, [1], identifier=7, tsi=tsi, tsf=tsf, seconds=ONES, fraction=fraction)
        for tsi in range(4) for tsf in range(4) for fraction in (0, 10**11, 10**12 - 1)
    ]
    hold("every field", recording_of([8, 7], *packets, *stamped))


def seams():
    """Context packets that are missing, with packets of each type before and after."""
    def of(kind, count, stream=7):
        body = [0x08000000, 0, count << 20] if kind == 4 else [1, 2]
        return packet(kind, body, identifier=stream, count=count)

    packets = [of(1, 0), of(4, 3), of(1, 1), of(3, 0), of(5, 0), of(1, 2), of(4, 5), of(4, 7)]
    packets += [of(5, 3), of(4, 8), of(1, 3, 9), of(4, 8), of(3, 9), of(4, 1, 9), of(4, 3, 9)]
    packets += [of(1, 5), of(4, 10, 9), of(4, 0)]
    for many in (1, 120, 250):
        hold(f"seams, {many} times", recording_of([9, 7], *packets * many), everything=(False,))


BIT_OF = {"rf": 27, "if_": 28, "off": 26, "if_off": 25, "wide": 29, "rate": 21}
BIT_OF |= {"level": 24, "gain": 23, "over": 22, "warm": 18, "state": 16, "point": 30}
EIGHT = {"rf": 100, "if_": 10, "off": 1, "if_off": 2, "wide": 5, "rate": 6, "level": 640, "gain": 9}
EIGHT_NAMES = "RF, IF, RF offset, IF band offset, bandwidth, sample rate, level, gain"


class Sender:
    """A stream that sends packets, each with the next count of its type, behind others."""

    def __init__(self, name=7, sent=None):
        self.name, self.counts, self.sent = name, Counter(), [] if sent is None else sent

    def sends(self, kind, many=1, body=(1, 2)):
        for _ in range(many):
            count = self.counts[kind] % 16
            self.sent.append(packet(kind, list(body), identifier=self.name, count=count))
            self.counts[kind] += 1
        return self

    def data(self, many=1):
        return self.sends(1, many)

    def tells(self, **fields):
        """A Context packet: frequencies in MHz, other fields as words."""
        bits = {BIT_OF[name]: value for name, value in fields.items()}
        words = [1 << 31 | sum(1 << bit for bit in bits)]
        for bit in sorted(bits, reverse=True):
            hertz = bit in panel.FREQUENCY_BITS
            words += make_survey.frequency(bits[bit]) if hertz else [bits[bit]]
        return self.sends(4, body=words)

    def loses(self, many=1, kind=4):
        self.counts[kind] += many
        return self


def unsure(at, since, data, still="", stream=0, name=7, many=1):
    """The line of lost Context packets, without its place."""
    text = f"packet {at} stream {stream} (0x{name:08X}) missing {many} of type 4 (Context): "
    text += f"tuning not to be trusted since packet {since}, for {data} data packets"
    return text + (f"; still in doubt: {still}" if still else "")


def again(at, since, data, stream=0, name=7):
    text = f"packet {at} stream {stream} (0x{name:08X}) tuning trusted again: "
    return text + f"it was not since packet {since}, for {data} data packets"


def total(data, still=""):
    text = f"tuning not to be trusted for {data} data packets"
    return text + (f"; still in doubt: {still}" if still else "")


def untrusted(at, many=1):
    """The same where nothing is held that could be in doubt."""
    return f"packet {at} stream 0 (0x00000007) missing {many} of type 4 (Context)"


def doubts_of_a_stream():
    """What a case is, its streams, its packets, and all that is to be said of doubt and of
    missing Context packets, as the manual has it: lines without place, then the summary."""
    s = Sender().tells(rf=100).loses().tells(warm=64).data(20).tells(rf=300).data(3)
    said = [unsure(1, 0, 0, "RF"), again(22, 0, 20), total(20)]
    yield "RF is lost, and the temperature comes alone", [7], s.sent, said
    s = Sender().tells(rf=100).data(2).loses().tells().data().tells(rf=100).data()
    said = [unsure(3, 0, 2, "RF"), again(5, 0, 3), total(3)]
    yield "a Context packet without fields; RF comes again as it was", [7], s.sent, said
    s = Sender().tells(rf=100, wide=5).data(2).loses().tells(warm=1).data(3)
    s.loses(2).tells(rf=101).data().tells(wide=6).data(4)
    said = [unsure(3, 0, 2, "RF, bandwidth"), unsure(7, 0, 5, "bandwidth", many=2)]
    yield "a second loss in a doubt", [7], s.sent, [*said, again(9, 0, 6), total(6)]
    s = Sender().tells(rf=100, wide=5).data().loses().tells(rf=101).data(2).tells(level=7).data()
    s.loses().tells(wide=6).data(4).tells(rf=99).data(8).tells(wide=7).tells(level=7).data(16)
    said = [unsure(2, 0, 1, "bandwidth"), unsure(7, 0, 4, "RF, level"), again(22, 0, 16), total(16)]
    yield "a field comes into doubt again, and one that came meanwhile", [7], s.sent, said
    s = Sender().tells(rf=100).data().loses().tells(warm=1).data(2).tells(rf=1).data(4)
    s.loses().tells(warm=2).data(8).tells(rf=2).data(16)
    said = [unsure(2, 0, 1, "RF"), again(5, 0, 3), unsure(10, 5, 4, "RF"), again(19, 5, 12)]
    yield "two doubts, one after the other", [7], s.sent, [*said, total(15)]
    s = Sender().tells(**EIGHT).data().loses().tells(**EIGHT).data().loses(15).tells(**EIGHT)
    s.data().tells(warm=2).data(2).loses().tells(**EIGHT)
    said = [unsure(2, 0, 1), unsure(4, 2, 1, many=15), unsure(9, 6, 2), total(4)]
    yield "the packet itself sends all fields, three times", [7], s.sent, said
    s = Sender().tells(warm=64).data(2).loses().tells(warm=70).data(3).loses()
    s.tells(rf=100, gain=128).data(5).loses().tells(rf=100, gain=128)
    said = [untrusted(3), untrusted(7), unsure(13, 7, 5), "without a tuning: 5 data packets"]
    yield "no field of the tuning is held at the loss", [7], s.sent, [*said, total(5)]
    s = Sender().data().sends(3).sends(5).loses(2, 1).data().tells().loses().tells()
    said = [untrusted(5), "without a tuning: 3 data packets"]
    yield "nothing is ever tuned", [7], s.sent, said
    for order in (list(EIGHT), list(EIGHT)[::-1], "gain rf off rate if_off level wide if_".split()):
        s = Sender().tells(**EIGHT).loses().tells(state=1 << 31).data()
        for turn, name in enumerate(order, 1):
            s.tells(**{name: EIGHT[name] + turn % 2}).data(turn).tells(warm=turn)
        said = [unsure(1, 0, 0, EIGHT_NAMES), again(45, 0, 29), total(29)]
        yield f"fields come again one by one, {order[0]} first", [7], s.sent, said
    s = Sender().tells(**EIGHT).loses().tells(rf=1, off=1, wide=1, level=1).data(2)
    s.tells(if_=1, rate=1).data(2).tells(rf=2, if_off=1).data(2)
    said = [unsure(1, 0, 0, "IF, IF band offset, sample rate, gain"), total(6, "gain")]
    yield "fields come again over three packets, one never", [7], s.sent, said
    s = Sender().tells(rf=100, rate=6).data(3).loses(3).tells(rate=6).data(1233)
    said = unsure(4, 0, 3, "RF", many=3)
    yield "doubt to the end", [7], [*s.sent], [said, total("1,236", "RF")]
    s.data(1000)
    yield "doubt to the end, in columns of two", [7], s.sent, [said, total("2,236", "RF")]
    s = Sender().data(1002).tells(rf=100).data(2).loses().tells(warm=9)
    said = [unsure(1005, 1002, 2, "RF"), "without a tuning: 1,002 data packets", total(2, "RF")]
    yield "doubt by the last packet", [7], s.sent, said
    s = Sender().tells(rf=100).sends(3, 2).sends(5, 3).loses().tells(warm=9)
    s.sends(5, 1, [0x08000000, 0, 0]).sends(3).data().loses(4, 5).sends(5).sends(3)
    s.loses(2, 3).sends(3).tells(rf=1).sends(3, 4).loses(1, 5).sends(5)
    said = [unsure(6, 0, 2, "RF"), again(13, 0, 6), total(6)]
    yield "Extension packets in a doubt", [7], s.sent, said
    for many in (1, 800):
        s, said, at = Sender().tells(rf=5), [], 0
        for turn in range(many):
            more = turn % 2
            s.data(1 + more).loses(3, 1).loses().data().tells(rf=1 + turn % 9)
            said.append(unsure(at + 3 + more, at, 2 + more))
            at += 3 + more
        said.append(total(f"{at - many:,}"))
        yield f"{many} bursts that lose data and Context packets", [7], s.sent, said
    s = Sender().tells(rf=100).data(2)
    s.sent.append(s.sent[0])
    s.data(3).sent.append(s.sent[0])
    said = [unsure(3, 0, 2, many=15), unsure(7, 3, 3, many=15), total(5)]
    yield "a Context packet that comes three times", [7], s.data().sent, said


def doubts_among_streams():
    """The same, of several streams."""
    s = Sender().tells(rf=100).loses().tells(warm=9)
    Sender(9, s.sent).tells(rf=7).data(3)
    said = unsure(1, 0, 0, "RF")
    yield "doubt without data packets, to the end", [7, 9], [*s.sent], [said, total(0, "RF")]
    s.data(2).sent.append(packet(4, [1 << 24, ONES], identifier=7, count=3))
    yield "doubt to a packet that ends it all", [7, 9], s.sent, [said, total(2, "RF")]
    s = Sender().tells(rf=100).loses().tells(warm=9)
    Sender(8, s.sent).tells(rf=7).data(3)
    s.data().tells(rf=1).data()
    yield "refused packets in a doubt", [7], s.sent, [said, again(7, 0, 1), total(1)]
    s = Sender().tells(rf=100, gain=1)
    o = Sender(9, s.sent).tells(if_=5, rate=2)
    s.data()
    o.data(2)
    s.loses().tells(gain=2)
    o.data().loses(4).tells(if_=5)
    s.data(3)
    o.data(5)
    s.tells(rf=1)
    o.data(7)
    s.data(11).loses().tells(gain=1).data(13)
    o.tells(rate=2)
    s.data()
    o.data()
    said = [unsure(5, 0, 1, "RF", 1), unsure(7, 1, 3, "sample rate", 0, 9, 4), again(16, 0, 4, 1)]
    said += [unsure(35, 16, 11, "RF", 1), again(49, 1, 15, 0, 9), total(15), total(29, "RF")]
    yield "two streams in doubt at once", [9, 7], s.sent, said


def doubts():
    """What is in doubt after lost Context packets, with all that is to be said of it."""
    for what, ids, packets, said in (*doubts_of_a_stream(), *doubts_among_streams()):
        story = hold(what, recording_of(ids, *packets), orders=("big",))
        told = [re.sub(r"^at \d+ ", "", line) for line in lines(story)]
        told = [line for line in told if "type 4" in line or "trusted" in line]
        ends = "       tuning not", "       without"
        told += [line.strip() for line in summary(story) if line.startswith(ends)]
        for one, two in zip_longest(told, said):
            if one != two:
                differs(f"{what}: the check itself", one, two)


def states_of_a_stream():
    """State words and over-range counts: what a case is, its packets, the parts of lines that
    are to be said of them, the last state of the summary, and the state column of each row."""
    on = {enable: 1 << enable | 1 << enable - 12 for enable in INDICATORS}
    s = Sender().tells(rf=100, state=on[30] | 1 << 29).tells(state=1 << 30 | 0x5A)
    said = [
        "tuned: RF 100 MHz; also state (valid data on, reference lock off, user bits 0x00)",
        "changed: state (valid data off, reference lock off, user bits 0x5A)",
    ]
    column = ["0x60040000", "0x6000005A"]
    last = "valid data off, reference lock off, user bits 0x5A"
    yield "on, off and user bits", s.sent, said, last, column
    s, said, column, before, enables = Sender(), [], [], "", 0
    for enable, name in INDICATORS.items():
        # on; over-range, and the value alone, which change nothing; off
        s.tells(state=on[enable]).tells(state=0x02002000).tells(state=1 << enable - 12)
        s.tells(state=1 << enable)
        said += [f"changed: state ({before}{name} {lit}, user bits 0x00)" for lit in ("on", "off")]
        before, enables = f"{before}{name} off, ", enables | 1 << enable
        column += [f"0x{enables | 1 << enable - 12:08X}", f"0x{enables:08X}"]
    yield "each indicator, one after another", s.sent, said, f"{before}user bits 0x00", column
    s = Sender().tells(state=0).tells(state=0x000FF000).tells(state=0x03003000)
    s.tells(state=0x0300300F).tells(state=0x0F).tells(state=0xF0).tells(rf=1)
    said = ["changed: state (user bits 0x00)", "changed: state (user bits 0x0F)"]
    said += ["changed: state (user bits 0xF0)", "tuned: RF 1 MHz"]
    column = ["0x00000000", "0x0000000F", "0x000000F0", "0x000000F0"]
    yield "nothing that persists", s.sent, said, "user bits 0xF0", column
    s = Sender().tells(state=0x0F).tells(state=0)
    said = ["changed: state (user bits 0x0F)", "changed: state (user bits 0x00)"]
    yield "a word of zero at the end", s.sent, said, "user bits 0x00", ["0x0000000F", "0x00000000"]
    s = Sender().tells(state=0xFF0FF0FF).tells(warm=64).tells(state=0x80000000, warm=128, point=3)
    every = [f"{name} on" for name in INDICATORS.values()]
    first = ", ".join([*every, "user bits 0xFF"])
    last = ", ".join(["calibrated time off", *every[1:], "user bits 0x00"])
    said = [f"changed: state ({first})", "changed: temperature 1 degrees C"]
    said.append(f"changed: temperature 1 -> 2 degrees C; also reference point, state ({last})")
    yield "all of them", s.sent, said, last, ["0xFC0FC0FF", "0xFC0FC0FF", "0xFC07C000"]
    s = Sender().tells(over=5).tells(over=6, rf=1, rate=2).tells(over=7, warm=64).tells(over=8)
    said = ["tuned: RF 1 MHz, sample rate 2 MHz", "changed: temperature 1 degrees C"]
    yield "over-range counts", s.sent, said, None, ["", ""]
    s = Sender().tells(state=on[28], rf=1).loses().tells(state=1 << 28 | 1).data()
    s.loses(2, 1).data().tells(over=1, rf=1)
    said = ["tuned: RF 1 MHz; also state (AGC on, user bits 0x00)", "missing 1 of type 4 (Context)"]
    said += ["changed: state (AGC off, user bits 0x01)", "missing 2 of type 1 (data)"]
    said += ["tuning trusted again"]
    column = ["0x10010000", "0x10010000", "0x10000001", "0x10000001", "0x10000001"]
    yield "losses", s.sent, said, "AGC off, user bits 0x01", column
    s = Sender().tells(state=on[26])
    Sender(8, s.sent).tells(state=on[27])
    s.sent.append(packet(4, [1 << 16, 1 << 20], identifier=7, count=1))
    last = "spectral inversion on, user bits 0x00"
    said = [f"changed: state ({last})", "refused 11", "refused 10"]
    yield "refused packets", s.sent, said, last, ["0x04004000", "", ""]


def states():
    """What is held of state words, and that over-range counts are not, with all that is to be
    said of it."""
    for what, packets, said, last, column in states_of_a_stream():
        story = hold(what, recording_of([7], *packets), orders=("big",))
        told = lines(story, True)
        if len(told) != len(said) or not all(part in line for part, line in zip(said, told)):
            differs(f"{what}: the check itself", *told)
        ends = [line for line in summary(story) if line.startswith("       state: ")]
        if ends != ([f"       state: {last}"] if last else []):
            differs(f"{what}: the check itself", *ends)
        if [row.split(",")[-3] for row in rows(story, True)] != ["state", *column]:
            differs(f"{what}: the check itself", *rows(story, True))
    # of two streams, each its own; the last holds nothing
    s = Sender().tells(state=1 << 31)
    o = Sender(9, s.sent).tells(state=1 << 30 | 1 << 18, rf=3)
    s.tells(state=1 << 19 | 1)
    o.tells(state=1 << 30)
    hold("states of two streams", recording_of([9, 8, 7], *s.sent))


def refused_packets():
    """What a case is, a packet, and what is to be said of it: the refusal with its name, the
    field or none, and the place in the packet, worked out by hand."""
    good, long = {"identifier": 7}, {"identifier": 7, "c": 1, "tsi": 1, "tsf": 2}
    yield "a type", [0x60000001], "2 TYPE", "", 0
    yield "a bit", packet(1, [1], reserved=1 << 25, **long), "3 BITS", "", 0
    yield "a size", [0x10000001, 7], "4 SHORT", "", 0
    yield "a cut", packet(1, [1, 2], **long)[:-1], "5 CUT", "", 0
    yield "a class", packet(3, [1], oui=1 << 24, **long), "6 CLASS", "", 2
    yield "a class without an identifier", packet(2, [1], c=1, oui=1 << 31), "6 CLASS", "", 1
    yield "a time", packet(1, [1], fraction=10**12, **long), "7 TIME", "", 5
    yield "a time alone", packet(0, [1], tsf=2, fraction=10**12), "7 TIME", "", 1
    yield "an indicator", packet(4, [1], **long), "8 INDICATOR", "", 7
    yield "a layout", packet(4, [1 << 29, 0], **good), "9 LAYOUT", "", 2
    every = [word for bit, n in FIXED for word in plain(bit, n)] + [0, 1, 5, 0, 0]
    broken = {29: (2, 31), 24: (12, 16), 21: (15, 31), 18: (20, 16), 17: (21, 24), 16: (23, 20)}
    broken |= {15: (24, 12), 9: (75, 24), 8: (78, 25)}
    for bit, (at, forbidden) in broken.items():
        body = [0x7FFFFF00, *every]
        body[at] |= 1 << forbidden
        body[78] |= 1 << 31  # the lowest one is broken too
        field = f"field {bit}, {RULED[bit]}, "
        yield f"field {bit}", packet(4, body, **long), "10 FIELD", field, 7 + at


def refusals():
    """Every refusal of a packet, behind one of each type that has no stream, and one of no
    declared stream, with all that is to be said of it."""
    front = [packet(0, [1]), packet(2, [1, 2]), packet(1, [1], identifier=9)]
    strangers = [
        "type 0, data without identifier (at word 0 of the packet, 2 of the recording)",
        "type 2, extension data without identifier (at word 0 of the packet, 4 of the recording)",
        "identifier 0x00000009 is not declared (at word 1 of the packet, 8 of the recording)",
    ]
    for what, words, refusal, field, place in refused_packets():
        story = hold(f"refused: {what}", recording_of([7], *front, words), everything=(False,))
        *passed, last = lines(story)
        where = f" ({field}at word {place} of the packet, {10 + place} of the recording)"
        if [line.split(" STREAM: ")[1] for line in passed] != strangers:
            differs(f"{what}: the check itself", *passed)
        if not last.startswith(f"at 10 packet 3 refused {refusal}: ") or not last.endswith(where):
            differs(f"{what}: the check itself", last)


def surveyed(identifier, kind, complex_samples=0, vector=1, vectors=1, count=0, **more):
    """A data packet of 49A of so many whole vectors, with the padding that they need."""
    bits = ITEMS[kind][0] * (complex_samples + 1) * vector * vectors
    low = complex_samples << 20 | kind << 16 | vector - 1
    given = {"c": 1, "t": 1, "oui": (-bits % 32) << 27 | 0xFFFFFA, "classes": low}
    body = [(7 * at + bits) & ONES for at in range((bits + 31) // 32)]
    return packet(1, body, identifier=identifier, count=count % 16, **given | more)


def surveys_49a():
    """Streams by 49A, beside plain ones: every data type, their lines, and what is refused."""
    packets, count = [], 0
    for kind in ITEMS:
        for shape in ((0, 1, 1), (0, 1, 1), (0, 1, 9), (0, 3, 3), (1, 3, 2)):
            packets.append(surveyed(7, kind, *shape, count))
            count += 1
        packets.append(packet(1, [kind], identifier=9, count=kind))
        packets.append(context(0x08000000, [kind, 0], identifier=7, count=kind % 16))
        packets.append(packet(3, [kind], identifier=7, count=kind % 16, c=1))
    story = hold("49A, every data type", recording_of([9, 7], *packets), chosen=[7])
    told = lines(story, True)
    if len([line for line in told if " samples: " in line]) != 4 * len(ITEMS):
        differs("49A, every data type: the check itself", *told)
    # the examples of docs/PACKET.md, part 3; with time, and a packet that is lost
    first = packet(
        1, [0xABCDEF12, 0x30000000], c=1, t=1, identifier=7, oui=0xFFFFFA, classes=0x130000
    )
    second = packet(
        1, [0x01020300], c=1, t=1, identifier=7, oui=0x40FFFFFA, classes=0xA0002, count=2, tsi=1,
        tsf=2, seconds=9, fraction=5 * 10**11,
    )
    story = hold("49A, by hand", recording_of([7], first, second), chosen=[7])
    of, last = "stream 0 (0x00000007)", "3 items, real, 8 bits unsigned, vector size 3"
    by_hand = [
        f"at 2 packet 0 {of} samples: 4 items, complex, 16 bits signed, vector size 1",
        f"at 9 packet 1 time 9.5 {of} missing 1 of type 1 (data)",
        f"at 9 packet 1 time 9.5 {of} samples: {last}",
    ]
    end = f"       49A: 2 data packets, 7 items; the last has {last}"
    if lines(story) != by_hand or summary(story)[4] != end:
        differs("49A, by hand: the check itself", *lines(story), *summary(story))
    hold("the same, not chosen", recording_of([7, 8], first, second), chosen=[8])
    hold("no packet of a stream by 49A", recording_of([7, 8]), chosen=[8, 7])
    # what is refused, each behind a good packet; and what is read as plain 49.0
    good, none = surveyed(7, 3), {"identifier": 7}
    for what, bad in {
        "no class": packet(1, [1], t=1, **none), "no trailer": surveyed(7, 3, t=0),
        "an OUI": surveyed(7, 3, oui=0x800FFFFA), "a reserved bit": surveyed(7, 3, oui=0x85FFFFFA),
        "a fixed bit": surveyed(7, 3, classes=0x01030000), "data type 0": surveyed(7, 3, classes=0),
        "No Data": surveyed(7, 3, vectors=0, classes=0x20110002),
        "data type 14": surveyed(7, 3, classes=0xE0000), "polar": surveyed(7, 3, classes=0x230000),
        "no whole vector": surveyed(7, 3, classes=0x30001),
        "padding alone": surveyed(7, 3, vectors=0, oui=0x08FFFFFA), "a word too few": good[:-1],
        "a time": surveyed(7, 3, oui=0, tsf=2, fraction=10**12),
        "a pad count of no stream": surveyed(8, 3), "no stream": packet(1, [1], identifier=8),
        "type 3": packet(3, [1], c=1, t=1, oui=0x80FFFFFA, **none),
        "type 5": packet(5, [1], c=1, oui=0xFFFFFA, **none), "no item": surveyed(7, 3, vectors=0),
    }.items():
        hold(f"49A, {what}", recording_of([9, 7], good, bad, good), orders=("big",), chosen=[7])
    packets = [surveyed(i, 1 + i % 13, i % 2, 1 + i % 5, i) for i in range(32)]
    data = recording_of([*range(32)], *packets)
    hold("32 streams by 49A", data, chosen=[*range(32)])
    hold("32 streams, one by 49A", data, orders=("big",), chosen=[0])


def pieces():
    """Standard input that comes by few bytes at a time, and packets of every length."""
    sizes = [65535, 3, 65534, 2, 40000, 65535, 65535, 65535, 65535]
    long = [packet(1, [i] * (size - 2), identifier=7, count=i % 16) for i, size in enumerate(sizes)]
    for what, data in (
        ("survey", (ROOT / "samples/recordings/survey.vrt").read_bytes()),
        ("random", (ROOT / "samples/recordings/random_1.vrt").read_bytes()),
        ("long packets", recording_of([7], *long)),
    ):
        story = hold(what, data, everything=(False,))
        path = file_of(data)
        command = [sys.executable, "-B", HERE / "by_pieces.py", path]
        if len(data) > 10**5:
            command = ["dd", f"if={path}", "bs=999", "status=none"]
        given = subprocess.Popen(command, stdout=subprocess.PIPE)
        done = subprocess.run(COMMAND, stdin=given.stdout, capture_output=True)
        given.stdout.close()
        given.wait()
        same(f"{what} by pieces", done, [*lines(story), *summary(story)], story)


def cut():
    """A recording that ends after each of its bytes, in the list and in packets."""
    ids = [7, 9]
    data = recording_of(
        ids, context(0x28000000, [0, 1 << 20, 0, 5 << 20], identifier=7, tsi=1, tsf=2, fraction=5),
        packet(0, [1]), packet(1, [1, 2], identifier=9, t=1), packet(4, [0], identifier=7, count=5),
    )
    for length in range(len(data) + 1):
        hold(f"cut after {length} bytes", data[:length], orders=("big",), everything=(False,))


def live():
    """Where it is no file, lines are out before more is waited for.  A pipe holds 64 KB, so
    when the last byte is handed over the program has waited for bytes after the first."""
    tuned = context(0x08000000, [0, 1 << 20], identifier=7)
    data = recording_of([7], tuned, *[packet(1, [0] * 10000, identifier=7)] * 2)
    more = recording_of([7], *[packet(1, [0] * 10000, identifier=7, count=1)] * 16)[8:]
    with subprocess.Popen(COMMAND, stdin=subprocess.PIPE, stdout=subprocess.PIPE) as done:
        for part in (data, more):
            done.stdin.write(part)
            done.stdin.flush()
        os.set_blocking(done.stdout.fileno(), False)
        said = done.stdout.read() or b""
        done.stdin.close()
    if said.decode().split("\n")[0] != lines(Story(data))[0]:
        differs("a recording that is being made", f"out before its end: {said}")
    tried["runs"] += 1


def outside():
    """Wrong use, files that cannot be had, help, names, progress."""
    survey, never = ROOT / "samples/recordings/survey.vrt", Path(folder.name, "never")
    for arguments, says in (
        (["-x"], "-x: no such option"), (["-lq"], "-lq: no such option"),
        (["--svg=a", survey], "--svg=a: no such option"), ([survey, "-x"], "-x: no such option"),
        (["--svg"], "--svg: has no file behind it"),
        ([survey, "--svg"], "--svg: has no file behind it"),
        ([survey, survey], f"{survey}: one too many"), (["-", survey], f"{survey}: one too many"),
        ([survey, "-"], "-: one too many"), ([survey, "-q", "b"], "b: one too many"),
        (["-q", "--csv"], "--csv: one too many"), (["--csv", survey, "-q"], "-q: one too many"),
        (["--svg", never, "--svg", never], "--svg: one too many"),
        (["--svg", never, survey, survey], f"{survey}: one too many"),
        (["--survey"], "--survey: has no identifiers behind it"),
        ([survey, "--survey"], "--survey: has no identifiers behind it"),
        (["--survey", "7", survey, "--survey", "7"], "--survey: one too many"),
        (["--at"], "--at: has no packet behind it"), (["--at", 1, "--at", 1], "--at: one too many"),
        (["--index"], "--index: has no index file behind it"),
        (["--index", never, survey, "--index", never], "--index: one too many"),
        (["--at", 1, "--svg", never, survey], "--svg: not with --at or --index"),
        (["--index", never, "--svg", never, survey], "--svg: not with --at or --index"),
        (["--at", 1, "-a", survey], "-a: not with --at or --index"),
        (["--index", never, "-a", survey], "-a: not with --at or --index"),
        (["-q", "--at", 1, survey], "-q: not with --at or --index"),
        (["--index", never, survey, "-q"], "-q: not with --at or --index"),
        (["--index", never, survey, "--csv"], "--csv: not with --index alone"),
        *(
            (["--at", text, survey], f"{text}: is not the number of a packet")
            for text in ("", "x", "1x", "-1", "+1", " 1", "1 ", "0x1", "1.0", "18446744073709551616")
        ),
        *(
            (["--survey", text, survey], f"{text}: is not a list of 1 to 32 identifiers")
            for text in (
                "", ",", "7,", ",7", "7,,9", "7;9", "x", "0x", "-7", "+7", " 7", "7 ", "0x7g", "7a",
                "4294967296", "0x100000000", "99999999999999999999999", ",".join(["7"] * 33),
            )
        ),
    ):
        done = run(*arguments)
        first, _, usage = done.stderr.decode().partition("\n")
        wrong = first != f"vrtshow: {says}" or not usage.startswith("vrtshow [-l]")
        if done.returncode != 2 or done.stdout or wrong or never.exists():
            differs(f"wrong use {arguments}", f"expected {says}", done)
        tried["runs"] += 1
    for arguments, says in (
        (["nothing/there"], "nothing/there: cannot be opened: No such file"),
        (["--svg", "nothing/there", survey], "nothing/there: cannot be written: No such file"),
        (["--svg", folder.name, survey], f"{folder.name}: cannot be written: Is a directory"),
        (["--svg", "/dev/full", survey], "/dev/full: cannot be written: No space"),
    ):
        done = run(*arguments)
        if done.returncode != 2 or says not in done.stderr.decode():
            differs(f"trouble {arguments}", done)
        tried["runs"] += 1
    for more in ([], ["-q"], ["--csv"], ["-a"]):
        done = run("--survey", "0xA01,3084", *more, survey)
        says = f"vrtshow: {survey}: 0x00000C0C of --survey is not in its list\n"
        said = done.stdout.decode()
        most = more == ["--csv"]  # its head
        if done.returncode != 2 or done.stderr.decode() != says or said.count("\n") > most:
            differs(f"--survey of no stream {more}", f"expected {says}", done)
        tried["runs"] += 1
    with open("/dev/full", "wb") as out:
        full = subprocess.run([*COMMAND, survey], stdout=out, stderr=subprocess.PIPE)
    if full.returncode != 2 or b"standard output: cannot be written" not in full.stderr:
        differs("standard output is full", full)
    done = run("--help")
    if done.returncode != 0 or not done.stdout.startswith(b"vrtshow [-l]") or done.stderr:
        differs("--help", done)
    data = survey.read_bytes()
    for data, option, order in ((little(data), [], "little"), (data, ["-l"], "big")):
        if f"{order}-endian".encode() not in run(*option, file_of(data)).stderr:
            differs(f"{order}-endian words", "it is not said which they are")
    named, svg = file_of(survey.read_bytes(), "a<b&c>\u00e4.vrt"), Path(folder.name, "svg")
    run("--svg", svg, named)
    title = parsed("a name that SVG cannot have", svg).find(SPACE + "text").text
    if not re.fullmatch(r"a<b&c>\?+\.vrt: tuning of 3 streams over 52 packets", title):
        differs("a name that SVG cannot have", title)
    tried["runs"] += 5


def behind():
    """Options behind the recording are as those before it."""
    data, svg = (ROOT / "samples/recordings/survey.vrt").read_bytes(), Path(folder.name, "svg")
    story, path, swapped = Story(data), file_of(data), file_of(little(data), "little")
    every = [*lines(story, True), *summary(story)]
    for arguments, said in (
        ([path, "-q"], summary(story)), ([path, "-a"], every), ([path, "--csv"], rows(story)),
        (["-a", path, "--csv"], rows(story, True)), ([swapped, "-l", "-q"], summary(story)),
        ([path, "-q", "--svg", svg], summary(story)), (["--svg", svg, path, "-q"], summary(story)),
    ):
        svg.unlink(missing_ok=True)
        same(f"options behind, {arguments}", run(*arguments), said, story)
        if svg in arguments:
            check_picture(f"options behind, {arguments}", story, svg)
    same("options behind -", run("-", "-q", data=data), summary(story), story)


def kept():
    """A picture is written over a picture, and over no other file."""
    data = (ROOT / "samples/recordings/survey.vrt").read_bytes()
    path, svg = file_of(data), Path(folder.name, "svg")
    run("-q", "--svg", svg, path)
    drawn, at = svg.read_bytes(), Path(folder.name, "at")
    link = Path(folder.name, "link")
    link.symlink_to(at)

    def refused(what, text, *arguments, **more):
        kept, stamp = at.read_bytes(), at.stat().st_mtime_ns
        done = run(*arguments, **more)
        said = done.stderr.decode()
        if done.returncode != 2 or done.stdout or said not in [f"vrtshow: {one}\n" for one in text]:
            differs(f"--svg, {what}", f"expected {text}", done)
        if at.read_bytes() != kept or at.stat().st_mtime_ns != stamp:
            differs(f"--svg, {what}", "the file is changed")
        tried["runs"] += 1

    no_picture = [f"{at}: is not a picture: not written over"]
    for what, content in (
        ("a recording", data), ("one in the other order", little(data)), ("a text", b"text"),
        ("a zero byte", b"\0"), ("a space", b" <svg/>"), ("an end of line", b"\n<svg/>"),
        ("a mark of UTF-8", b"\xef\xbb\xbf<svg/>"), ("a long file", bytes(10**7)),
    ):
        at.write_bytes(content)
        for arguments in (
            ["--svg", at, path], [path, "-q", "--svg", at], ["--csv", "--svg", at, path],
            ["--svg", at, "-l", path],
        ):
            refused(what, no_picture, *arguments)
        refused(what, no_picture, "--svg", at, "-", data=data)
        refused(what, [f"{link}: is not a picture: not written over"], "--svg", link, path)
    # the recording's own place: it is no picture, or it begins as one, or it is empty
    other = Path(folder.name, "other")
    for what, content in (("a recording", data), ("<", b"<svg/>"), ("nothing", b"")):
        at.write_bytes(content)
        other.unlink(missing_ok=True)
        os.link(at, other)
        ends = ["is the recording"] + ["is not a picture"] * (content == data)
        for name in (at, link, other):
            text = [f"{name}: {end}: not written over" for end in ends]
            for recording in (at, link, other):
                refused(f"{what} is the recording", text, "--svg", name, recording)
            refused(f"{what} is the recording", text, "--csv", "--svg", name, file=at)
            refused(f"{what} is the recording", text, "-", "-q", "--svg", name, file=at)
    other.unlink()
    # what may be written over is the picture afterwards, and no byte more
    for what, content in (
        ("no file", None), ("nothing", b""), ("<", b"<"), ("a picture", drawn),
        ("a longer picture", drawn + b"<!-- -->" * 10**5), ("a longer text", b"<" * 10**6),
    ):
        for name in (at, link):
            at.unlink(missing_ok=True)
            if content is not None:
                at.write_bytes(content)
            done = run("-q", "--svg", name, path)
            if done.returncode or done.stderr or at.read_bytes() != drawn:
                differs(f"--svg over {what}", done)
            tried["runs"] += 1
    for name in ("/dev/null", "/dev/stdout"):
        done = run("-q", "--svg", name, path)
        if done.returncode or done.stderr or (name != "/dev/null") != (drawn in done.stdout):
            differs(f"--svg {name}", done)
        tried["runs"] += 1


def failing():
    """A read that fails is no refusal: of a folder, of a file that gives an error, and of a
    line that breaks inside a packet, after others."""
    def fails(what, done, says, may_say):
        said = done.stdout.decode().splitlines()
        wrong = [line for line in said if line not in may_say]
        if done.returncode != 2 or wrong or done.stderr.decode() != f"vrtshow: {says}\n":
            differs(what, f"expected {says}", f"not to be said: {wrong[:3]}", done)
        tried["runs"] += 1

    svg = Path(folder.name, "svg")
    for name, why in ((folder.name, "Is a directory"), ("/proc/self/mem", "Input/output error")):
        for more in ([], ["-q"], ["-a"], ["--csv"], ["-l"], ["--svg", svg]):
            done = run(*more, name)
            fails(f"{name} {more}", done, f"{name}: cannot be read: {why}", [CSV_HEAD + PLACE_HEAD])
    data = recording_of(
        [7], context(0x08000000, [0, 1 << 20], identifier=7), packet(1, [1] * 20, identifier=7)
    )
    for length in (0, 2, 4, 8, 10, 12, 28, 30, 50, 112, len(data)):
        for more in ([], ["-q"], ["--csv"]):
            ours, theirs = pty.openpty()
            tty.setraw(theirs)
            os.write(theirs, data[:length])
            os.close(theirs)
            done = subprocess.run([*COMMAND, *more], stdin=ours, capture_output=True)
            os.close(ours)
            story = Story(data[:28])
            may_say = [*(lines(story) if length >= 28 else []), *rows(story)]
            says = "standard input: cannot be read: Input/output error"
            fails(f"a line that breaks after {length} bytes {more}", done, says, may_say)


def captures():
    """A capture is no recording, and it is said what it may be."""
    for first in CAPTURES:
        for many in (0, 2, 20, 100_000):
            story = hold(f"a capture, {first.hex()}", first + bytes(many), everything=(False,))
        said = [*lines(story), *summary(story)]
        same(f"a capture, {first.hex()}, no name", run(data=first + bytes(many)), said, story)
        for length in range(4):
            hold(f"{length} bytes of a capture", first[:length], everything=(False,))
        hold("a capture behind", recording_of([7]) + first, everything=(False,))
        hold("a capture behind", first[1:] + first, everything=(False,))
        hold("nearly a capture", first[:3] + b"\x00" + bytes(9), everything=(False,))


def tails():
    """The tail is that of the whole recording, where a refusal ended it early too."""
    good = [packet(1, [i] * 20, identifier=7, count=i % 16) for i in range(30)]
    bad = packet(1, [1], identifier=7, reserved=1 << 25)
    for what, start, lengths in (
        ("a refused packet", recording_of([7], *good, bad), (0, 65536, 2**20, 1_500_000)),
        ("no list", to_bytes([33]), (0, 2**20, 3_000_000)),
        ("a refused packet, far behind", recording_of([7], *good * 450, bad), (0, 3_000_000)),
    ):
        for length in lengths:
            for tail in range(4):
                data = start + bytes(max(0, length - len(start)) // 4 * 4 + tail)
                story, path = Story(data), file_of(data)
                said = [*lines(story), *summary(story)]
                known = f"{what}, {len(data)} bytes"
                same(known, run(path), said, story, path)
                same(f"{known}, standard input", run(file=path), said, story)
                done = run("-", file=file_of(b"skip it" + data), skip=7)
                same(f"{known}, standard input from a byte on", done, said, story)
                if len(data) <= 4096:
                    same(f"{known}, by a pipe", run(data=data), said, story)
        # of more than a pipe hands over at once, the program alone knows what it read
        found = run(data=data).stdout.decode().splitlines()
        if found[:-1] != said[:-1] or not re.fullmatch(f"end {story.place} tail [0-3]", found[-1]):
            differs(f"{what}, by a pipe", found[-1])
        tried["runs"] += 1


def tables():
    """The table just before packets of the samples, and of surveys with all that there is."""
    for path in sorted((ROOT / "samples" / "recordings").glob("*.vrt")):
        data = path.read_bytes()
        if vrtplay.started(vrtplay.words_of(data)):
            packets = Walk(data).packets
            numbers = sorted({0, 1, packets // 2, packets, packets + 1})
            hold_tables(path.name, data, numbers[::-1], orders=("big",))
            continue
        story, named, kept = Story(data), file_of(data), fresh()
        error = f"vrtshow: {named}: stopped at word 0: {story.stopped.why()}"
        for more in ([], ["--index", kept], ["--csv"]):
            done = run("--at", 0, *more, named)
            if done.stdout or done.returncode != 1 or done.stderr.decode().splitlines()[0] != error:
                differs(f"{path.name}, no list", done)
            tried["runs"] += 1
        if kept.exists():
            differs(f"{path.name}, no list", "an index is written")
    for streams, packets, sparing, seed in ((1, 2049, 0, 31), (3, 3100, 2, 32), (32, 1500, 9, 33)):
        data = make_survey.survey(packets, streams, seed, 9, 2, loss=0.02, sparing=sparing)
        hold_tables(f"survey of {streams} streams", data, around_of(packets))
    for end in make_survey.ENDS:
        data = make_survey.survey(1026, 4, 34, 10, payload=3, loss=0.02, end=end)
        numbers = [1030, 1026, 1025, 1024, 1023, 3]
        hold_tables(f"survey that ends with {end}", data, numbers, orders=("big",))
    mixed = [surveyed(7, 1 + i % 13, i % 2, 1 + i % 5, 1 + i % 3, i) for i in range(40)]
    plain_ones = [packet(1, [i], identifier=9, count=i % 16) for i in range(30)]
    data = recording_of([9, 7], *mixed, *plain_ones, surveyed(7, 3)[:-1])
    hold_tables("49A", data, [0, 1, 39, 40, 41, 69, 70, 71], chosen=[7])
    hold_tables("49A, not chosen", data, [0, 1, 2], orders=("big",))


class Beside:
    """A recording of 2,600 packets, and the file of an index beside it; the bytes of a good index,
    and of one that has taken in 1,500 packets."""

    def __init__(self):
        self.data = make_survey.survey(2600, 3, 41, 12, 2, loss=0.02, sparing=1)
        self.words, self.whole = vrtplay.words_of(self.data), Walk(self.data)
        self.path, self.kept = file_of(self.data, "growing"), fresh()
        self.good = to_bytes(self.whole.index())
        self.short = to_bytes(self.until(1500).index())

    def until(self, packets):
        return Walk(self.data[: 4 * self.whole.places[packets]])

    def put(self, content):
        self.kept.write_bytes(content)
        return content

    def serves(self, what, *numbers):
        """The tables just before packets are those of the recording."""
        for number in numbers:
            arguments = ["--index", self.kept, self.path]
            hold_table(f"{what}, --at {number}", self.whole, number, arguments, self.path)

    def refuses(self, what, text, *arguments):
        """The index is refused, and its file is left as it is."""
        before, done = self.kept.read_bytes(), run("--index", self.kept, *arguments)
        says(f"{what} {arguments}", done, [], [f"vrtshow: {self.kept}: refused 19 PAGE: {text}"], 2)
        if self.kept.read_bytes() != before:
            differs(what, "it is written over")
        alone(what, self.kept)

    def refuses_all(self, what, content, text, *more, name=None):
        """It is refused whatever is asked for."""
        self.put(content)
        for asked in ([], ["--at", 2100], ["--at", 3]):
            self.refuses(what, text, *asked, *more, name or self.path)


NO_INDEX = "it is no index, or a damaged one: not written over"
DAMAGED = "it is damaged, or the recording is not the one that it was grown over"


def more_than(word, words):
    """What is said of an index that goes to a word, where the recording has so many words."""
    longer = "it has taken in more than the recording has"
    return f"{longer}: it goes to word {word}, and the recording has {words} words"


def index_grown(beside):
    """A recording that grows, cut at packets, inside words and inside packets; packets of every
    length, more of them than are read at once; packets in reach and out of it."""
    whole, path, kept = beside.whole, beside.path, beside.kept
    cuts = [0, 1, 700, 1023, 1024, 1025, 1999, 2047, 2048, 2049, 2600]
    for number, extra in [(at, by) for at in cuts for by in (0, 3, 4)]:
        path.write_bytes(beside.data[: 4 * whole.places[number] + extra])
        walk, done = Walk(path.read_bytes()), run("--index", kept, path)
        stopped = walk.refused and f"vrtshow: {path}: stopped at word {walk.end}: {walk.refused.why()}"
        errors = [stopped] if stopped else []
        says(f"grown to {number}, {extra}", done, [walk.index_line()], errors, bool(errors))
        hold_index(f"grown to {number}, {extra}", walk, kept)
    sizes = [65535, 3, 65534, 2, 40000, 65535, 65535, 65535, 65535, 1000, 65535]
    long = [packet(1, [i] * (size - 2), identifier=7, count=i % 16) for i, size in enumerate(sizes)]
    hold_tables("long packets", recording_of([7], *long), [11, 10, 5, 0], orders=("big",))
    # one whose index does not reach the packet goes on, and one that does stays
    path.write_bytes(beside.data)
    beside.put(beside.short)
    beside.serves("in reach", 1024)
    if kept.read_bytes() != beside.short:
        differs("in reach", "the index is written")
    beside.serves("out of reach", 2048)
    hold_index("out of reach", whole, kept)
    # a new one has all packets, also where it is asked for packet 0
    kept.unlink()
    beside.serves("new", 0)
    hold_index("new", whole, kept)


def index_links(beside):
    """By a link, which stays one, with the rights that the file had; by a link to no file, which
    stays one too; on a disk that is full, which leaves the old one."""
    path, kept, link, nowhere = beside.path, beside.kept, fresh("link"), fresh("nowhere")
    link.symlink_to(kept)
    beside.put(beside.short)
    kept.chmod(0o640)
    says("a link", run("--index", link, path), [beside.whole.index_line()])
    hold_index("a link", beside.whole, kept)
    if not link.is_symlink() or kept.stat().st_mode & 0o777 != 0o640:
        differs("a link", "it is none any more, or its file has other rights")
    for lead in (nowhere, nowhere.name, "no folder/nowhere"):
        fresh("link").symlink_to(lead)
        error = f"vrtshow: {link}: is a link to a file that is not there: give that file's name"
        for asked in ([], ["--at", 3]):
            says(f"a link to no file, {lead}", run(*asked, "--index", link, path), [], [error], 2)
        if not link.is_symlink() or nowhere.exists():
            differs(f"a link to no file, {lead}", "it is none any more, or its file was made")
    beside.put(beside.short)
    least = (resource.RLIMIT_FSIZE, (8192, 8192))
    done = subprocess.run(
        [*COMMAND, "--index", str(kept), str(path)], capture_output=True, restore_signals=False,
        preexec_fn=lambda: resource.setrlimit(*least),
    )
    says("a full disk", done, [], [f"vrtshow: {kept}: cannot be written: File too large"], 2)
    alone("a full disk", kept)
    if kept.read_bytes() != beside.short:
        differs("a full disk", "the old index is not there any more")


def index_damaged(beside):
    """What is no index, and damaged contents; an entry that is damaged: it alone is not served."""
    good = beside.good
    for what, content in (
        ("nothing", b""), ("a text", b"text"), ("the recording's words", beside.data),
        ("zeros", bytes(20000)), ("a byte too few", good[:-1]), ("a word too few", good[:-4]),
        ("a word more", good + bytes(4)), ("a byte more", good + b"1"),
        ("no page", good[: 4 * 4100]), ("contents cut", good[: 4 * 4099]),
        ("the other order", little(good)), ("too long", good + bytes(12_000_000)),
    ):
        beside.refuses_all(what, content, NO_INDEX)
    for place in (0, 1, 2, 4, 5, 6, 7, 10, 11, 14, 15, 4100, 4101):
        bent = bytearray(good)
        bent[4 * place + 3] ^= 0xFF if place == 1 else 1
        bent[4 * place + 2] ^= 0x08 if place == 1 else 0
        beside.refuses_all(f"word {place} bent", bytes(bent), NO_INDEX)
    bent = bytearray(good)
    bent[4 * beside.whole.index()[4 + 4 + 2] + 3] ^= 0x40
    beside.put(bytes(bent))
    for number in (1024, 1025, 2047):
        text = f"packet {number} is not reached from its entry 1: {DAMAGED}"
        beside.refuses("a damaged page", text, "--at", number, beside.path)
    beside.serves("beside a damaged page", 0, 1023, 2048, 2600)


def index_places(beside):
    """Places that do not lie in the recording, or are those of other packets: that of an entry, and
    the one reached, words 2 and 3, before the recording has grown and after it."""
    whole, path = beside.whole, beside.path

    def bent_by(content, place, by):
        bent = vrtplay.words_of(content)
        bent[place] += by
        return beside.put(to_bytes(bent))

    bent_by(beside.good, 9, 0x3000000)
    for number in (1024, 1500):
        text = more_than(whole.places[1024] + 0x3000000, whole.end)
        beside.refuses("a place too far", text, "--at", number, path)
    bent_by(beside.good, 9, whole.front + 3 - whole.places[1024])
    text = f"packet 1500 is not reached from its entry 1: {DAMAGED}"
    beside.refuses("a place inside a packet", text, "--at", 1500, path)
    beside.refuses_all("word 3 too high", bent_by(beside.good, 3, 1), more_than(whole.end + 1, whole.end))
    bent_by(beside.good, 3, -1)
    text = f"packet 2600 is not reached from its entry 2: {DAMAGED}"
    for asked in ([], ["--at", 2600], ["--at", 2601]):
        beside.refuses("word 3 too low", text, *asked, path)
    for packets in (1, 1024, 1500, 2048):
        walk = beside.until(packets)
        at = f"packet {packets} is at word {walk.end} from its entry {packets // EVERY} on"
        for by in (1, 7) if packets % EVERY else (1, 7, -1):
            bent_by(to_bytes(walk.index()), 3, by)
            text = f"{at}, and at word {walk.end + by} by its words 2 and 3: {DAMAGED}"
            for asked in ([], ["--at", packets + 1], ["--at", packets]):
                beside.refuses(f"word 3 off by {by}", text, *asked, path)
            beside.serves(f"word 3 off by {by} at {packets}", packets - 1)


OF_ANOTHER = "it is the index of another recording: its entry"
OTHER_CHOICE = "it was grown with another choice of 49A: its entry"


def index_of_another(beside):
    """Of another list, of another choice, of a longer recording, and started behind other packets:
    these are counted, and fields are held or not."""
    data, good, whole = beside.data, beside.good, beside.whole
    first, second, third = (f"0x{word:08X}" for word in beside.words[1:4])
    swapped = file_of(to_bytes([3, *beside.words[3:0:-1]]) + data[16:], "other")
    text = f"{OF_ANOTHER} 0 has {first} as stream 0, and the list has {third}"
    beside.refuses_all("another order of the list", good, text, name=swapped)
    two = file_of(to_bytes([2, *beside.words[1:3]]) + data[16:], "other")
    text = f"{OF_ANOTHER} 0 has 3 streams, and the list has 2"
    beside.refuses_all("two of its streams", good, text, name=two)
    text = f"{OTHER_CHOICE} 0 has stream 1 ({second}) as plain, and --survey names it"
    beside.refuses_all("another choice", good, text, "--survey", second)
    chosen = copy.deepcopy(whole.tables[0])
    chosen[1]["choice"] = 1
    text = f"{OTHER_CHOICE} 0 has stream 1 ({second}) as 49A, and --survey does not name it"
    beside.refuses_all("no choice", to_bytes(whole.index({0: chosen})), text)
    for what, cut in (("a recording that is cut", data[:-4]), ("a list alone", data[:16])):
        text = more_than(whole.end, len(cut) // 4)
        beside.refuses_all(what, good, text, name=file_of(cut, "other"))
    text = "it was not started with a fresh table: that of its entry 0 has counted packets already"
    for taken in (("counts",), ("counts", "held")):
        found = copy.deepcopy(whole.tables[0])
        found[1].update((what, whole.tables[700][1][what]) for what in taken)
        beside.refuses_all(f"not fresh, {taken}", to_bytes(whole.index({0: found})), text)


def index_entries(beside):
    """A later entry with another list, or another choice: what lies behind the others is served."""
    first, second, third = (f"0x{word:08X}" for word in beside.words[1:4])
    for what, bend, text in (
        ("fewer streams", lambda found: found.pop(), "2 streams, and the list has 3"),
        (
            "more streams", lambda found: found.append(dict(found[0], identifier=1)),
            "4 streams, and the list has 3",
        ),
        (
            "another identifier", lambda found: found[1].update(identifier=99),
            f"0x00000063 as stream 1, and the list has {second}",
        ),
        (
            "another order", lambda found: found.reverse(),
            f"{third} as stream 0, and the list has {first}",
        ),
        (
            "another choice", lambda found: found[2].update(choice=1),
            f"stream 2 ({third}) as 49A, and --survey does not name it",
        ),
    ):
        for entry, at in ((1, EVERY), (2, 2 * EVERY)):
            found = copy.deepcopy(beside.whole.tables[at])
            bend(found)
            beside.put(to_bytes(beside.whole.index({at: found})))
            known, start = f"{what} in entry {entry}", OF_ANOTHER if "list" in text else OTHER_CHOICE
            # read by 49A, the packets behind the entry may be refused
            asks = [["--at", at + by] for by in ((0,) if start == OTHER_CHOICE else (0, 1, 500))]
            for asked in asks + [[]] * (entry == 2 and start == OF_ANOTHER):
                beside.refuses(known, f"{start} {entry} has {text}", *asked, beside.path)
            beside.serves(known, 3, at - 1, EVERY if entry == 2 else 2 * EVERY)


def index_files(beside):
    """In the recording's place, in a folder that is none, and no regular files."""
    data, path, whole, pipe = beside.data, beside.path, beside.whole, fresh("pipe")
    os.mkfifo(pipe)
    for arguments, text in (
        ([path, "--index", path], f"{path}: is the recording: not written over"),
        (["--index", folder.name, path], f"{folder.name}: is not a regular file"),
        (["--index", "/dev/null", path], "/dev/null: is not a regular file"),
        (["--index", pipe, path], f"{pipe}: is not a regular file"),
        (
            ["--index", "nothing/there", path],
            "nothing/there: cannot be written: No such file or directory",
        ),
        (
            ["--index", fresh("never"), "/dev/null"],
            "/dev/null: is not a regular file: it has no index",
        ),
    ):
        says(f"{arguments}", run(*arguments), [], [f"vrtshow: {text}"], 2)
    if path.read_bytes() != data or Path(folder.name, "never").exists():
        differs("--index", "a file is written")
    done = run("--index", fresh("never"), data=data)
    error = "vrtshow: standard input: is not a regular file: it has no index"
    says("by a pipe", done, [], [error], 2)
    # standard input that is a file, from a byte on
    shifted = file_of(b"skip it" + data, "shifted")
    for number in (0, 1025, 2600):
        done = run("--at", number, "--index", fresh("shifted index"), file=shifted, skip=7)
        wanted = table_lines(whole.tables[number], number, whole.places[number])
        says("from a byte on", done, wanted)


def indexes():
    """The file of an index: made, gone on with, left alone, and what is said of others."""
    beside = Beside()
    for part in (
        index_grown, index_links, index_damaged, index_places, index_of_another, index_entries,
        index_files,
    ):
        part(beside)


def full():
    """An index that is full: packets behind it are played."""
    tuned = {}
    for turn, number in enumerate((0, 5, 1023, 500_000, 1_048_574, 1_048_575, 1_048_576, 1_048_600)):
        tuned[number] = context(0x08000000, [turn, 1 << 20], identifier=7, count=turn)
    empty, parts = to_bytes(packet(0, [])), []
    packets = 1_048_700
    for number in range(packets):
        parts.append(to_bytes(tuned[number]) if number in tuned else empty)
    path, kept = file_of(to_bytes([1, 7]) + b"".join(parts)), fresh()
    more = len(tuned[0]) - 1

    def place_of(number):
        return 2 + number + more * sum(at < number for at in tuned)

    def table_of(number):
        made = table.table_of(table.layout(vrtplay.started([1, 7])))
        for at in tuned:
            if at < number:
                table.play(made, tuned[at])
        return made

    is_full = f"vrtshow: {kept}: refused 13 ROOM: the index is full after {MOST_TAKEN:,} packets"
    done = run("--index", kept, path)
    size = kept.stat().st_size // 4
    line = f"packets {MOST_TAKEN:,}, entries 1,024, words {size:,}; "
    line += f"stopped at word {place_of(MOST_TAKEN)}: refused 13 ROOM: the index is full"
    says("a full index", done, [line], [is_full], 1)
    before = kept.stat().st_mtime_ns
    for number in (0, 6, 1024, 999_999, 1_048_574, MOST_TAKEN, MOST_TAKEN + 1, 1_048_577, 1_048_601, packets):
        done = run("--at", number, "--index", kept, path)
        told = [is_full] if number > MOST_TAKEN else []
        says(f"a full index, --at {number}", done, table_lines(table_of(number), number, place_of(number)), told)
        done = run("--at", number, "--csv", path)
        says(f"no index, --at {number}", done, table_rows(table_of(number), number, place_of(number)))
    many = f"it has {packets:,} packets, to word {place_of(packets)}"
    error = f"vrtshow: {path}: packet {packets + 1} refused 21 PLACE: {many}"
    says("a full index, too far", run("--at", packets + 1, "--index", kept, path), [], [is_full, error], 1)
    if kept.stat().st_mtime_ns != before:
        differs("a full index", "it is written again")
    # of so many packets the place reached may be above 2^32: word 2 bent
    bent = bytearray(kept.read_bytes())
    bent[11] ^= 1
    kept.write_bytes(bent)
    far = more_than(2**32 + place_of(MOST_TAKEN), place_of(packets))
    error = f"vrtshow: {kept}: refused 19 PAGE: {far}"
    for asked in ([], ["--at", packets], ["--at", 3]):
        says(f"a full index, word 2 bent {asked}", run(*asked, "--index", kept, path), [], [error], 2)
    if kept.read_bytes() != bent:
        differs("a full index, word 2 bent", "it is written over")


def on_terminal(*arguments):
    """What a run says on standard error, which is a terminal; and its status."""
    ours, theirs = pty.openpty()
    command = [*COMMAND, *map(str, arguments)]
    done = subprocess.Popen(command, stderr=theirs, stdout=subprocess.DEVNULL)
    os.close(theirs)
    said, more = b"", b" "
    while more:
        try:
            more = os.read(ours, 65536)
        except OSError:  # the other end is closed
            more = b""
        said += more
    os.close(ours)
    tried["runs"] += 1
    return said, done.wait()


def progress():
    """How far it is, on a terminal, of a large recording; nothing of a small one. An index that
    cannot be written is told of before the recording is played."""
    one = to_bytes(packet(1, [0] * 65000, identifier=7))
    for many, expected in ((270, True), (3, False)):
        path, kept = file_of(to_bytes([1, 7]) + one * many), fresh()
        for more in (["-q"], ["--index", kept]):
            said, status = on_terminal(*more, path)
            if (b" 50 %" in said) != expected or (not expected and said) or status:
                differs(f"progress of {many} packets {more}", status, said[:300])
        said, status = on_terminal("--index", "nothing/there", path)
        error = b"vrtshow: nothing/there: cannot be written: No such file or directory\r\n"
        if not said.endswith(error) or b" 50 %" in said or status != 2:
            differs(f"an index of {many} packets that cannot be written", status, said[-300:])


GROUPS = {
    group.__name__: group
    for group in (
        samples, pictures, surveys, columns, million, values, seams, doubts, states, refusals,
        surveys_49a, pieces, cut, live, outside, behind, kept, failing, captures, tails, tables,
        indexes, full, progress,
    )
}


def main():
    for name in GROUPS_ASKED or GROUPS:
        GROUPS[name]()
    said = ", ".join(f"{what} {many:,}" for what, many in tried.items())
    print(f"vrtshow: {said}: as the reference says")


if __name__ == "__main__":
    main()
