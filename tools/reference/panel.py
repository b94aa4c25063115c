"""Reference readings for the panel.

It is written from document 01 and from nothing else.  Tables and their words are
those of table.py, which never hold field 22; values are exact fractions.  The
sentences in quotation marks are document 01's own.

A reading is one of

    ('frequency', whole hertz, parts of 2^20)
    ('level', value)
    ('gain', stage 1, stage 2)
    ('temperature', value)
    ('other',)
    ('absent',)
"""

from fractions import Fraction

import table
from table import FIELD_BITS, ROOM, STREAM, TABLE

# "Numbers given back", that of a reading beside TABLE and STREAM.
VALUE = 14

# "Frequencies (29 to 25, 21)"
FREQUENCY_BITS = (29, 28, 27, 26, 25, 21)

# The field rules of document 01 name 24 level and 18 temperature; the gain is 23.
LEVEL_BIT = 24
GAIN_BIT = 23
TEMPERATURE_BIT = 18


def signed(number, width):
    """The two's complement value of so many bits."""
    return number - 2**width if number >= 2 ** (width - 1) else number


def lower_half(word):
    return word % 2**16


def upper_half(word):
    return word // 2**16


# The readings of a field that is held.


def frequency(field):
    # A frequency is two words, high first, in parts of 2^20 hertz; "Frequencies
    # are whole hertz rounded down, and 0 to 1,048,575 parts of 2^20."
    hertz = Fraction(signed(field[0] * 2**32 + field[1], 64), 2**20)
    whole = hertz.numerator // hertz.denominator
    parts = (hertz - whole) * 2**20
    return ("frequency", whole, parts.numerator)


def level(field):
    # "Level is the lower half, signed, over 128"
    return ("level", Fraction(signed(lower_half(field[0]), 16), 128))


def gain(field):
    # "a gain reading shows both stages together (stage 1 the lower half, stage 2
    # the upper), each over 128"
    first = Fraction(signed(lower_half(field[0]), 16), 128)
    second = Fraction(signed(upper_half(field[0]), 16), 128)
    return ("gain", first, second)


def temperature(field):
    # "temperature over 64"
    return ("temperature", Fraction(signed(lower_half(field[0]), 16), 64))


def held_reading(bit, field):
    """The reading of the words of a field that is held."""
    if bit in FREQUENCY_BITS:
        return frequency(field)
    if bit == LEVEL_BIT:
        return level(field)
    if bit == GAIN_BIT:
        return gain(field)
    if bit == TEMPERATURE_BIT:
        return temperature(field)
    # "other (held, nothing more said)"
    return ("other",)


def held_field(lent, stream, bit):
    """('refused', number), or ('held', words of the field), which are None where
    it is absent."""
    # "Reading: TABLE, STREAM, VALUE."
    if not table.well_made(lent):
        return ("refused", TABLE)
    # "a stream number not in the table"
    found = table.table_of(lent)
    if stream >= len(found):
        return ("refused", STREAM)
    # "a field bit is not 30 to 10"; 22 is one of them, and absent
    if bit not in FIELD_BITS:
        return ("refused", VALUE)
    return ("held", found[stream]["held"].get(bit))


def reading(lent, stream, bit):
    """('refused', number) or a reading, for the words of a table."""
    answer, field = held_field(lent, stream, bit)
    if answer == "refused":
        return (answer, field)
    if field is None:
        return ("absent",)
    return held_reading(bit, field)


def readings(lent, stream):
    """The 21 readings of a stream, bit 30 first and bit 10 last, for the words of a
    table.  Each is ('refused', number) where the table or the stream is refused."""
    # "Reading: TABLE, STREAM, VALUE."  Of the bits 30 to 10, VALUE is given of none.
    return [reading(lent, stream, bit) for bit in FIELD_BITS]


def held_words(lent, stream, bit, out):
    """('refused', number) or ('held', words of the field), and the buffer
    afterwards.  A field that is absent has no words."""
    answer, field = held_field(lent, stream, bit)
    if answer == "refused":
        return (answer, field), list(out)
    field = field or []
    # "a buffer to be written is too short"
    if len(out) < len(field):
        return ("refused", ROOM), list(out)
    # "Only words needed by an accepted answer change."
    return ("held", len(field)), field + out[len(field) :]


# Exact numbers as text, and as f32.


def decimal(value, digits):
    """A value with so many digits after the point, which must be all it has."""
    size = abs(value)
    whole = size.numerator // size.denominator
    rest = (size - whole) * 10**digits
    if rest.denominator != 1:
        raise ValueError(f"{value} has more than {digits} digits")
    sign = "-" if value < 0 else ""
    return f"{sign}{whole}.{rest.numerator:0{digits}d}"


def single(value):
    """The sign, exponent and fraction of the f32 that is exactly this value."""
    # "the promise fixes each f32 by its sign, exponent and fraction as whole
    # numbers, zero being plus zero"
    if value == 0:
        return (0, 0, 0)
    sign = 1 if value < 0 else 0
    size = abs(value)
    exponent = 127
    while size >= 2:
        size, exponent = size / 2, exponent + 1
    while size < 1:
        size, exponent = size * 2, exponent - 1
    fraction = (size - 1) * 2**23
    if fraction.denominator != 1 or not 1 <= exponent <= 254:
        raise ValueError(f"{value} is not an f32")
    return (sign, exponent, fraction.numerator)


# The lines of a reading.

# Multiples of 1/128 have seven digits after the point, those of 1/64 six.
DIGITS = {"level": 7, "gain": 7, "temperature": 6}


def line(found):
    """A reading, or a refusal, as text."""
    if found[0] == "frequency":
        return f"frequency {found[1]} parts {found[2]}"
    if found[0] in DIGITS:
        values = [decimal(value, DIGITS[found[0]]) for value in found[1:]]
        return " ".join([found[0], *values])
    return " ".join(str(part) for part in found)
