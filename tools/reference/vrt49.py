"""A reference reader of VITA 49.0 packets, and of spectrum-survey packets (49A).

It is written from document 01, from C-13 and C-15 of document 02, from tables 4-4 and
4-5 of source document 004, which C-13 names, and from nothing else.  Words are whole
numbers from 0 to 2^32 - 1 in a list; the sentences in quotation marks are document 01's
own, or C-13's or C-15's where they are named.
"""

from collections import namedtuple
from dataclasses import dataclass

# "Numbers given back", those of reading.
EMPTY = 1
TYPE = 2
BITS = 3
SHORT = 4
CUT = 5
CLASS = 6
TIME = 7
INDICATOR = 8
LAYOUT = 9
FIELD = 10

# C-13: "20 PAD"
PAD = 20


def bits(word, high, low):
    """The number in the bits high to low of a word."""
    return (word >> low) % (1 << (high - low + 1))


# The header.


def type_of(header):
    # "type 31-28"
    return bits(header, 31, 28)


def class_flag(header):
    # "C 27"
    return bits(header, 27, 27)


def trailer_flag(header):
    # "then for types 0-3 T (trailer) 26"
    return bits(header, 26, 26) if type_of(header) in (0, 1, 2, 3) else 0


def tsm_flag(header):
    # "for types 4-5, 26-25 reserved and TSM 24"
    return bits(header, 24, 24) if type_of(header) in (4, 5) else 0


def reserved(header):
    # "for types 0-3 T (trailer) 26 and 25-24 reserved; for types 4-5, 26-25
    # reserved and TSM 24"
    if type_of(header) in (0, 1, 2, 3):
        return bits(header, 25, 24)
    return bits(header, 26, 25)


def tsi_of(header):
    # "TSI 23-22"
    return bits(header, 23, 22)


def tsf_of(header):
    # "TSF 21-20"
    return bits(header, 21, 20)


def count_of(header):
    # "count 19-16"
    return bits(header, 19, 16)


def size_of(header):
    # "size 15-0 in words with the header"
    return bits(header, 15, 0)


# The parts.  "Order: header; stream identifier; class; integer seconds;
# fraction; body; trailer".  Each function gives the words of one part.


def identifier_words(header):
    # "stream identifier (types 1, 3, 4, 5)"
    return 1 if type_of(header) in (1, 3, 4, 5) else 0


def class_words(header):
    # "class (two words, if C)"
    return 2 if class_flag(header) == 1 else 0


def seconds_words(header):
    # "integer seconds (if TSI is not 0)"
    return 1 if tsi_of(header) != 0 else 0


def fraction_words(header):
    # "fraction (two words, high first, if TSF is not 0)"
    return 2 if tsf_of(header) != 0 else 0


def indicator_words(header):
    # "A type 4 body begins with the indicator word."
    return 1 if type_of(header) == 4 else 0


def trailer_words(header):
    # "trailer (if T)"
    return 1 if trailer_flag(header) == 1 else 0


# Where each part starts, in words from the packet's start.


def identifier_place(header):
    return 1


def class_place(header):
    return identifier_place(header) + identifier_words(header)


def seconds_place(header):
    return class_place(header) + class_words(header)


def fraction_place(header):
    return seconds_place(header) + seconds_words(header)


def body_place(header):
    return fraction_place(header) + fraction_words(header)


def trailer_place(header):
    return size_of(header) - trailer_words(header)


def body_length(header):
    return trailer_place(header) - body_place(header)


def required_words(header):
    # "the required parts (the indicator word is one, for type 4)".
    # "A data body may have no words (ours)."
    return body_place(header) + indicator_words(header) + trailer_words(header)


def fraction_of(words):
    # "fraction (two words, high first, if TSF is not 0)"
    if fraction_words(words[0]) == 0:
        return 0
    place = fraction_place(words[0])
    return words[place] * 2**32 + words[place + 1]


def body_of(words):
    place = body_place(words[0])
    return words[place : place + body_length(words[0])]


# The fields of a type 4 body.

# "Words for each bit"
FIXED_WORDS = {}
for _bit in (30, 24, 23, 22, 19, 18, 16, 10):
    FIXED_WORDS[_bit] = 1
for _bit in (29, 28, 27, 26, 25, 21, 20, 17, 15):
    FIXED_WORDS[_bit] = 2
for _bit in (14, 13):
    FIXED_WORDS[_bit] = 11
for _bit in (12, 11):
    FIXED_WORDS[_bit] = 13


def gps_ascii_words(first, second):
    # "9 (GPS ASCII): 2 + N, N the second word"
    return 2 + second


def lists_words(first, second):
    # "8 (lists): 2 + source (first word 24-16) + system (8-0) + vector (second
    # word 31-16) + asynchronous (14-0), the last twice if bit 15"
    source = bits(first, 24, 16)
    system = bits(first, 8, 0)
    vector = bits(second, 31, 16)
    asynchronous = bits(second, 14, 0)
    if bits(second, 15, 15) == 1:
        asynchronous = 2 * asynchronous
    return 2 + source + system + vector + asynchronous


def carried_bits(indicator):
    # "Bit 31 says "changed" and has no field.  Fields follow from bit 30
    # downwards."
    return [bit for bit in range(30, 7, -1) if bits(indicator, bit, bit) == 1]


def fields(body):
    """Each carried field of a type 4 body, highest bit first, as its bit, its
    place from the start of the body, and its number of words.

    None when the two words that give the length of field 9 or 8 lie past the
    body.  For a body that LAYOUT does not refuse, the fields lie one after
    another from word 1 to the body's end.
    """
    found = []
    place = 1
    for bit in carried_bits(body[0]):
        if bit in (9, 8):
            if place + 2 > len(body):
                return None
            measure = gps_ascii_words if bit == 9 else lists_words
            count = measure(body[place], body[place + 1])
        else:
            count = FIXED_WORDS[bit]
        found.append((bit, place, count))
        place = place + count
    return found


# The field rules.  Each takes the words of one field and says whether its rule
# is kept.


def upper_half_zero(field):
    # "level (24) and temperature (18) have a zero upper half"
    return bits(field[0], 31, 16) == 0


def not_negative(field):
    # "bandwidth (29) and sample rate (21) are not negative"
    return bits(field[0], 31, 31) == 0


def device_kept(field):
    # "device (17) has zero in 31-24 of its first and 31-16 of its second word"
    return bits(field[0], 31, 24) == 0 and bits(field[1], 31, 16) == 0


def state_kept(field):
    # "state (16) has zero in 23-20 and 11-8"
    return bits(field[0], 23, 20) == 0 and bits(field[0], 11, 8) == 0


def gps_ascii_kept(field):
    # "field 9 has zero in 31-24 of its first word"
    return bits(field[0], 31, 24) == 0


def lists_kept(field):
    # "field 8 in 31-25 and 15-9 of its first"
    return bits(field[0], 31, 25) == 0 and bits(field[0], 15, 9) == 0


# "item code (28-24) one of 0-6, 14-22"
ITEM_CODES = (0, 1, 2, 3, 4, 5, 6, 14, 15, 16, 17, 18, 19, 20, 21, 22)


def format_kept(field):
    # "event size 22-20, channel size 19-16, packing field minus one 11-6, item
    # minus one 5-0"
    word = field[0]
    code = bits(word, 28, 24)
    event = bits(word, 22, 20)
    channel = bits(word, 19, 16)
    packing = bits(word, 11, 6) + 1
    item = bits(word, 5, 0) + 1
    # "Format (15): 15-12 zero"
    if bits(word, 15, 12) != 0:
        return False
    # "real/complex (30-29) not 3"
    if bits(word, 30, 29) == 3:
        return False
    # "item code (28-24) one of 0-6, 14-22"
    if code not in ITEM_CODES:
        return False
    # "code 14 has 32-bit items, 15 has 64"
    if code == 14 and item != 32:
        return False
    if code == 15 and item != 64:
        return False
    # "item, event and channel sizes together do not exceed the packing field"
    return item + event + channel <= packing


# "Other contents are free."
FIELD_RULES = {
    29: not_negative,
    24: upper_half_zero,
    21: not_negative,
    18: upper_half_zero,
    17: device_kept,
    16: state_kept,
    15: format_kept,
    9: gps_ascii_kept,
    8: lists_kept,
}


# The refusals.  Each function says whether its refusal applies to words to
# which no earlier one applies.


def empty(words):
    # "no words"
    return len(words) == 0


def type_refused(words):
    # "type above 5"
    return type_of(words[0]) > 5


def bits_refused(words):
    # "reserved header bit set"
    return reserved(words[0]) != 0


def short(words):
    # "size below the required parts (the indicator word is one, for type 4)"
    return size_of(words[0]) < required_words(words[0])


def cut(words):
    # "size exceeds the words given"
    return size_of(words[0]) > len(words)


def class_refused(words):
    # "top eight class bits not zero"
    if class_words(words[0]) == 0:
        return False
    return bits(words[class_place(words[0])], 31, 24) != 0


def time_refused(words):
    # "TSF is 2 and the fraction is 10^12 or more"
    return tsf_of(words[0]) == 2 and fraction_of(words) >= 10**12


def indicator_refused(words):
    # "bits 7-0 not zero"
    if type_of(words[0]) != 4:
        return False
    return bits(words[body_place(words[0])], 7, 0) != 0


def layout_refused(words):
    # "fields need more or fewer words than the body has"
    if type_of(words[0]) != 4:
        return False
    body = body_of(words)
    found = fields(body)
    if found is None:
        return True
    return 1 + sum(count for _, _, count in found) != len(body)


def broken_fields(words):
    """Each field whose rule is broken, highest bit first, as its bit and its place from
    the packet's start, for a type 4 packet that LAYOUT does not refuse."""
    found = []
    body = body_of(words)
    for bit, place, count in fields(body):
        if bit in FIELD_RULES:
            if not FIELD_RULES[bit](body[place : place + count]):
                found.append((bit, body_place(words[0]) + place))
    return found


def field_refused(words):
    # "a field rule is broken"
    return type_of(words[0]) == 4 and broken_fields(words) != []


# "The first that applies is given, in these orders.  Read: 1 to 10 as listed"
REFUSALS = (
    (EMPTY, empty),
    (TYPE, type_refused),
    (BITS, bits_refused),
    (SHORT, short),
    (CUT, cut),
    (CLASS, class_refused),
    (TIME, time_refused),
    (INDICATOR, indicator_refused),
    (LAYOUT, layout_refused),
    (FIELD, field_refused),
)


# The places.  C-15: "Every reading refusal is to carry the word place from the packet's
# start, and FIELD also the field bit."  Each function gives the place, and the bit or
# None, for words to which its refusal is the first that applies.


def at_header(words):
    # C-15: "The place is the header for types, bits, sizes and cuts"; "EMPTY has place 0"
    return 0, None


def at_class(words):
    # C-15: "the offending word for CLASS": the first of the class, which alone has bits
    # that are looked at
    return class_place(words[0]), None


def at_fraction(words):
    # C-15: "the fraction's first word for TIME"
    return fraction_place(words[0]), None


def at_indicator(words):
    # C-15: "the offending word for ... INDICATOR", "the indicator for LAYOUT"
    return body_place(words[0]), None


def at_field(words):
    # C-15: "the first word of the highest broken field for FIELD"
    bit, place = broken_fields(words)[0]
    return place, bit


def at_class_or_header(words):
    # C-15: "the class's first word, or the header if none, for PAD"
    return at_class(words) if class_words(words[0]) != 0 else at_header(words)


PLACES = {
    EMPTY: at_header,
    TYPE: at_header,
    BITS: at_header,
    SHORT: at_header,
    CUT: at_header,
    CLASS: at_class,
    TIME: at_fraction,
    INDICATOR: at_indicator,
    LAYOUT: at_indicator,
    FIELD: at_field,
    PAD: at_class_or_header,
}


def refusal(words, refusals):
    """('refused', number, place, bit) for the first refusal that applies, or None.  The
    bit is None but for FIELD."""
    for number, applies in refusals:
        if applies(words):
            place, bit = PLACES[number](words)
            return ("refused", number, place, bit)
    return None


# What an accepted packet gives.  What is absent is zero.


@dataclass
class Packet:
    type: int
    class_flag: int
    trailer_flag: int
    tsm: int
    tsi: int
    tsf: int
    count: int
    size: int
    identifier: int
    oui: int
    information: int
    packet: int
    seconds: int
    fraction: int
    body: int
    length: int
    trailer: int


def packet_of(words):
    header = words[0]
    identifier = 0
    if identifier_words(header) == 1:
        identifier = words[identifier_place(header)]
    # "The class's first word has eight zero bits (ours), then the OUI; the
    # second has information and packet class."
    oui, information, packet = 0, 0, 0
    if class_words(header) == 2:
        place = class_place(header)
        oui = bits(words[place], 23, 0)
        information = bits(words[place + 1], 31, 16)
        packet = bits(words[place + 1], 15, 0)
    seconds = 0
    if seconds_words(header) == 1:
        seconds = words[seconds_place(header)]
    trailer = 0
    if trailer_words(header) == 1:
        trailer = words[trailer_place(header)]
    return Packet(
        type=type_of(header),
        class_flag=class_flag(header),
        trailer_flag=trailer_flag(header),
        tsm=tsm_flag(header),
        tsi=tsi_of(header),
        tsf=tsf_of(header),
        count=count_of(header),
        size=size_of(header),
        identifier=identifier,
        oui=oui,
        information=information,
        packet=packet,
        seconds=seconds,
        fraction=fraction_of(words),
        body=body_place(header),
        length=body_length(header),
        trailer=trailer,
    )


def read(words):
    """('refused', number, place, bit) or ('accepted', packet)."""
    # "words beyond the size are ignored"
    return refusal(words, REFUSALS) or ("accepted", packet_of(words))


# Spectrum-survey packets.

# Table 4-5 of source document 004: for each data type the item code, as the format
# field has it, and the bits of one item.  The codes are those of source document 003:
# 0 signed fixed point, 14 IEEE 754 single, 15 IEEE 754 double, 16 unsigned fixed point.
SURVEY_TYPES = {
    0b0001: (0, 4),  # 4-bit Signed Fixed Point
    0b0010: (0, 8),  # 8-bit Signed Fixed Point
    0b0011: (0, 16),  # 16-bit Signed Fixed Point
    0b0100: (0, 32),  # 32-bit Signed Fixed Point
    0b0101: (0, 64),  # 64-bit Signed Fixed Point
    0b0110: (14, 32),  # 32-bit IEEE 754 Single Precision
    0b0111: (15, 64),  # 64-bit IEEE 754 Double Precision
    0b1000: (16, 1),  # 1-bit Unsigned Fixed Point
    0b1001: (16, 4),  # 4-bit Unsigned Fixed Point
    0b1010: (16, 8),  # 8-bit Unsigned Fixed Point
    0b1011: (16, 16),  # 16-bit Unsigned Fixed Point
    0b1100: (16, 32),  # 32-bit Unsigned Fixed Point
    0b1101: (16, 64),  # 64-bit Unsigned Fixed Point
}

# Table 4-4, word 1: "OUI: FF-FF-FA"
SURVEY_OUI = 0xFFFFFA

# Table 4-4, word 2: "0x00: Real, 0x01: Complex Cartesian"; the items of one sample
SURVEY_COMPONENTS = {0: 1, 1: 2}

# Payloads of at most so many words are laid out item by item, longer ones are
# divided.  The tests hold one to the other.
LAID_OUT_WORDS = 64


def governed(words):
    # C-13: "The choice governs type 1 only; other types ... stay plain."
    return type_of(words[0]) == 1


def pad_count(high):
    # C-13: "bits 31-27 of the class's first word are a pad count"
    return bits(high, 31, 27)


def class_fits(high, low):
    """Whether the two words of a class fit table 4-4."""
    # "26-24 Reserved", "23-0 OUI 0xFFFFFA"
    if bits(high, 26, 24) != 0 or bits(high, 23, 0) != SURVEY_OUI:
        return False
    # "31-24 Fixed Value bits set to zero", "23-22 Reserved"
    if bits(low, 31, 24) != 0 or bits(low, 23, 22) != 0:
        return False
    # "21-20 R/C", "19-16 Data Type 0x1 - 0xD"; any pad count and any vector size fits
    return bits(low, 21, 20) in SURVEY_COMPONENTS and bits(low, 19, 16) in SURVEY_TYPES


def vector_shape(low):
    """The bits of one item, the items of one sample, and the samples of one vector, for
    the second word of a class that fits."""
    _, item = SURVEY_TYPES[bits(low, 19, 16)]
    components = SURVEY_COMPONENTS[bits(low, 21, 20)]
    # "15-0 Vector Size: Unsigned that is one less than actual Vector Size"
    return item, components, bits(low, 15, 0) + 1


def items_laid_out(length, shape):
    """The items of a payload of so many bits, vector by vector, or None if the last
    vector is not whole."""
    item, components, vector = shape
    place, items = 0, 0
    while place < length:
        for _ in range(vector):
            for _ in range(components):
                place, items = place + item, items + 1
                if place > length:
                    return None
    return items


def items_divided(length, shape):
    """The same by division."""
    item, components, vector = shape
    vectors, left = divmod(length, item * components * vector)
    return None if left != 0 else vectors * components * vector


def survey_items(high, low, words):
    """The n of a payload of so many words, or None if it has none."""
    # C-13: "the payload less its padding is negative or not a whole number of sample
    # vectors"
    length = 32 * words - pad_count(high)
    if length < 0:
        return None
    laid_out = items_laid_out if words <= LAID_OUT_WORDS else items_divided
    return laid_out(length, vector_shape(low))


def survey_format(low):
    """The two words of the payload format that a class says."""
    # "Format word: link-efficient 31 (0 is processing-efficient), component repeat 23,
    # event size 22-20, channel size 19-16, packing field minus one 11-6, item minus one
    # 5-0.  Second word: repeat minus one 31-16, vector minus one 15-0."  "real/complex
    # (30-29)", "item code (28-24)"
    code, item = SURVEY_TYPES[bits(low, 19, 16)]
    first = bits(low, 21, 20) * 2**29 + code * 2**24 + (item - 1) * 2**6 + (item - 1)
    return first, bits(low, 15, 0)


def class_of(words):
    place = class_place(words[0])
    return words[place], words[place + 1]


def pad_refused(words):
    if not governed(words):
        return False
    # C-13: "when class or trailer is absent"
    if class_words(words[0]) == 0 or trailer_words(words[0]) == 0:
        return True
    # C-13: "the class does not fit the table"
    high, low = class_of(words)
    if not class_fits(high, low):
        return True
    return survey_items(high, low, body_length(words[0])) is None


def survey_class_refused(words):
    # C-13: "CLASS is not given for 49A"
    return not governed(words) and class_refused(words)


# C-13: "CLASS is not given for 49A; 20 PAD, after FIELD"
SURVEY_REFUSALS = (
    (EMPTY, empty),
    (TYPE, type_refused),
    (BITS, bits_refused),
    (SHORT, short),
    (CUT, cut),
    (CLASS, survey_class_refused),
    (TIME, time_refused),
    (INDICATOR, indicator_refused),
    (LAYOUT, layout_refused),
    (FIELD, field_refused),
    (PAD, pad_refused),
)

# The pad count, the two words of the payload format, and n.
Survey = namedtuple("Survey", "pad first second items")

NO_SURVEY = Survey(0, 0, 0, 0)


def survey_of(words):
    if not governed(words):
        return NO_SURVEY
    high, low = class_of(words)
    first, second = survey_format(low)
    items = survey_items(high, low, body_length(words[0]))
    return Survey(pad_count(high), first, second, items)


def read_survey(words):
    """('refused', number, place, bit) or ('accepted', (packet, survey))."""
    refused = refusal(words, SURVEY_REFUSALS)
    return refused or ("accepted", (packet_of(words), survey_of(words)))


TrailerParts = namedtuple("TrailerParts", "enables indicators e associated")


def trailer_parts(word):
    # "Trailer: enables 31-20, indicators 19-8, E 7, associated count 6-0; no
    # bit combination is refused (ours)."
    return TrailerParts(
        enables=bits(word, 31, 20),
        indicators=bits(word, 19, 8),
        e=bits(word, 7, 7),
        associated=bits(word, 6, 0),
    )
