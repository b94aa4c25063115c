"""A reference writer of VITA 49.0 packets, and of spectrum-survey packets (49A).

It is written from document 01, from C-13 of document 02 and from nothing else.  The
places of the parts, the time rule, the layout, the field rules and what PAD is given
for are those of vrt49.py.  Words are whole numbers from 0 to 2^32 - 1 in a list; the
sentences in quotation marks are document 01's own, or C-13's where it is named.
"""

from dataclasses import dataclass

import vrt49
from vrt49 import FIELD, INDICATOR, LAYOUT, PAD, SHORT, TIME, TYPE

# "Numbers given back", those of writing that reading does not give.
ROOM = 13
VALUE = 14
SIZE = 15


# What a packet is written from.  The flags are 0 or 1; the identifier, the
# seconds and the trailer are words, the fraction is below 2^64.  The other
# numbers may be too large for their bits.


@dataclass
class Parts:
    type: int
    class_flag: int
    trailer_flag: int
    tsm: int
    tsi: int
    tsf: int
    count: int
    identifier: int
    oui: int
    information: int
    packet: int
    seconds: int
    fraction: int
    trailer: int


def parts_of(packet):
    """The parts of a packet that reading gave."""
    return Parts(
        type=packet.type,
        class_flag=packet.class_flag,
        trailer_flag=packet.trailer_flag,
        tsm=packet.tsm,
        tsi=packet.tsi,
        tsf=packet.tsf,
        count=packet.count,
        identifier=packet.identifier,
        oui=packet.oui,
        information=packet.information,
        packet=packet.packet,
        seconds=packet.seconds,
        fraction=packet.fraction,
        trailer=packet.trailer,
    )


def fits(number, width):
    """Whether a number has no more than so many bits."""
    return number < 2**width


# The words of a packet, for parts to which neither TYPE nor VALUE applies.


def header_of(parts, size):
    # "Header: type 31-28, C 27, then for types 0-3 T (trailer) 26 and 25-24
    # reserved; for types 4-5, 26-25 reserved and TSM 24.  TSI 23-22, TSF 21-20,
    # count 19-16, size 15-0 in words with the header."
    return (
        parts.type * 2**28
        + parts.class_flag * 2**27
        + parts.trailer_flag * 2**26
        + parts.tsm * 2**24
        + parts.tsi * 2**22
        + parts.tsf * 2**20
        + parts.count * 2**16
        + size
    )


def without_size(parts):
    """The header before its size is known; the words of each part but the body
    do not depend on the size."""
    return header_of(parts, 0)


def packet_size(parts, body):
    header = without_size(parts)
    return vrt49.body_place(header) + len(body) + vrt49.trailer_words(header)


def packet_words(parts, body):
    # "Order: header; stream identifier (types 1, 3, 4, 5); class (two words, if
    # C); integer seconds (if TSI is not 0); fraction (two words, high first, if
    # TSF is not 0); body; trailer (if T)."
    header = header_of(parts, packet_size(parts, body))
    words = [header]
    if vrt49.identifier_words(header) == 1:
        words.append(parts.identifier)
    if vrt49.class_words(header) == 2:
        # "The class's first word has eight zero bits (ours), then the OUI; the
        # second has information and packet class."
        words.append(parts.oui)
        words.append(parts.information * 2**16 + parts.packet)
    if vrt49.seconds_words(header) == 1:
        words.append(parts.seconds)
    if vrt49.fraction_words(header) == 2:
        words.append(parts.fraction // 2**32)
        words.append(parts.fraction % 2**32)
    words += body
    if vrt49.trailer_words(header) == 1:
        words.append(parts.trailer)
    return words


# The refusals.  Each function says whether its refusal applies to a writing to
# which no earlier one applies.


def type_refused(parts, body, out, at):
    # "type above 5"
    return parts.type > 5


def value_refused(parts, body, out, at):
    # "a number to be written ... does not fit its bits or type"
    if not fits(parts.count, 4):
        return True
    if not fits(parts.tsi, 2) or not fits(parts.tsf, 2):
        return True
    # "T asked of types 4-5, or TSM of 0-3, is VALUE"
    if parts.trailer_flag == 1 and parts.type in (4, 5):
        return True
    if parts.tsm == 1 and parts.type in (0, 1, 2, 3):
        return True
    # "absent parts are ignored"
    if parts.class_flag == 0:
        return False
    if not fits(parts.oui, 24):
        return True
    return not fits(parts.information, 16) or not fits(parts.packet, 16)


def short(parts, body, out, at):
    # "size below the required parts (the indicator word is one, for type 4)"
    return packet_size(parts, body) < vrt49.required_words(without_size(parts))


def size_refused(parts, body, out, at):
    # "a packet to be written ... exceeds 65,535 words"
    return packet_size(parts, body) > 65535


# TIME, INDICATOR, LAYOUT and FIELD apply to the words to be written as they
# apply in reading.


def time_refused(parts, body, out, at):
    return vrt49.time_refused(packet_words(parts, body))


def indicator_refused(parts, body, out, at):
    return vrt49.indicator_refused(packet_words(parts, body))


def layout_refused(parts, body, out, at):
    return vrt49.layout_refused(packet_words(parts, body))


def field_refused(parts, body, out, at):
    return vrt49.field_refused(packet_words(parts, body))


def room_refused(parts, body, out, at):
    # "A start past the end is ROOM."
    if at > len(out):
        return True
    # "a buffer to be written is too short"
    return packet_size(parts, body) > len(out) - at


# "The first that applies is given, in these orders.  ...  Write: TYPE, VALUE,
# SHORT, SIZE, TIME, INDICATOR, LAYOUT, FIELD, ROOM."
REFUSALS = (
    (TYPE, type_refused),
    (VALUE, value_refused),
    (SHORT, short),
    (SIZE, size_refused),
    (TIME, time_refused),
    (INDICATOR, indicator_refused),
    (LAYOUT, layout_refused),
    (FIELD, field_refused),
    (ROOM, room_refused),
)


def write(parts, body, out, at):
    """('refused', number) or ('written', words), and the buffer afterwards."""
    # "A refusal returns its number alone and writes nothing."
    for number, applies in REFUSALS:
        if applies(parts, body, out, at):
            return ("refused", number), list(out)
    # "A packet, its body given as words, is written into a part of a longer
    # buffer that starts at the caller's chosen word."  "Only words needed by an
    # accepted answer change."
    words = packet_words(parts, body)
    after = out[:at] + words + out[at + len(words) :]
    return ("written", len(words)), after


# Spectrum-survey packets.


def pad_written(parts):
    # C-13: "The choice governs type 1 only", and the pad count is one of the class.
    return parts.type == 1 and parts.class_flag == 1


def survey_words(parts, pad, body):
    words = packet_words(parts, body)
    if pad_written(parts):
        # C-13: "bits 31-27 of the class's first word are a pad count"
        words[vrt49.class_place(words[0])] += pad * 2**27
    return words


def survey_value_refused(parts, pad, body, out, at):
    if value_refused(parts, body, out, at):
        return True
    # "absent parts are ignored"
    return pad_written(parts) and not fits(pad, 5)


def pad_refused(parts, pad, body, out, at):
    return vrt49.pad_refused(survey_words(parts, pad, body))


def plainly(applies):
    """A refusal of writing, which the pad count does not touch."""
    return lambda parts, pad, body, out, at: applies(parts, body, out, at)


# C-13: "20 PAD, after FIELD"
SURVEY_REFUSALS = (
    (TYPE, plainly(type_refused)),
    (VALUE, survey_value_refused),
    (SHORT, plainly(short)),
    (SIZE, plainly(size_refused)),
    (TIME, plainly(time_refused)),
    (INDICATOR, plainly(indicator_refused)),
    (LAYOUT, plainly(layout_refused)),
    (FIELD, plainly(field_refused)),
    (PAD, pad_refused),
    (ROOM, plainly(room_refused)),
)


def write_survey(parts, pad, body, out, at):
    """('refused', number) or ('written', words), and the buffer afterwards."""
    for number, applies in SURVEY_REFUSALS:
        if applies(parts, pad, body, out, at):
            return ("refused", number), list(out)
    words = survey_words(parts, pad, body)
    after = out[:at] + words + out[at + len(words) :]
    return ("written", len(words)), after


def trailer_word(enables, indicators, e, associated):
    """('refused', number) or ('trailer', word)."""
    # "Trailer: enables 31-20, indicators 19-8, E 7, associated count 6-0"
    if not fits(enables, 12) or not fits(indicators, 12):
        return ("refused", VALUE)
    if not fits(e, 1) or not fits(associated, 7):
        return ("refused", VALUE)
    return ("trailer", enables * 2**20 + indicators * 2**8 + e * 2**7 + associated)
