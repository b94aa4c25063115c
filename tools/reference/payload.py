"""A reference packer and unpacker of samples, and the order of their items.

It is written from document 01, from C-12 of document 02, which adds repeats, and
from the sections of source document 003 that C-12 leads to, 6.1.6.3 and 6.1.6.5;
from nothing else.  It packs bit by bit: a packing field and a word are strings of
the characters 0 and 1, the leftmost bit first.  It lists the order of items by
loops, and counts and divides where there are many.  The rule of the format field
is that of vrt49.py.  The sentences in quotation marks are document 01's own, or
those of C-12 or 003 where it is named.

Items are numbered from 0 in the order of the payload.  The coordinates of an item
are four numbers, each from 0:

    time       the group, 003's Item Packing Structure
    channel    the sample's place in its sample vector
    component  0 is real, I or amplitude; 1 is Q or phase
    repeat     the sample among those of its channel in the group, earliest first
"""

from functools import lru_cache

import vrt49
from vrt49 import bits

# "Numbers given back", those of packing, unpacking and the order of items.
ROOM = 13
VALUE = 14
FORMAT = 16
COUNT = 17


# Strings of bits.


def string_of(number, width):
    """A number as a string of so many bits."""
    string = ""
    for _ in range(width):
        string = str(number % 2) + string
        number = number // 2
    return string


def number_of(string):
    """The number that a string of bits stands for; 0 for the empty one."""
    number = 0
    for character in string:
        number = 2 * number + int(character)
    return number


def filled(string):
    """A word's string with zeros at its right up to 32 bits."""
    while len(string) < 32:
        string = string + "0"
    return string


# The format words.


def link_efficient(first):
    # "link-efficient 31 (0 is processing-efficient)"
    return bits(first, 31, 31) == 1


def complex_samples(first):
    # "real/complex (30-29)": 0 is real, 1 and 2 are complex.
    return bits(first, 30, 29) != 0


def component_count(first):
    # "2 (complex) or 1 (real)"
    return 2 if complex_samples(first) else 1


def component_repeat(first):
    # "component repeat 23"
    return bits(first, 23, 23) == 1


def event_size(first):
    # "event size 22-20"
    return bits(first, 22, 20)


def channel_size(first):
    # "channel size 19-16"
    return bits(first, 19, 16)


def field_size(first):
    # "packing field minus one 11-6"
    return bits(first, 11, 6) + 1


def item_size(first):
    # "item minus one 5-0"
    return bits(first, 5, 0) + 1


def unused_size(first):
    return field_size(first) - item_size(first) - event_size(first) - channel_size(first)


def repeat_of(second):
    # "Second word: repeat minus one 31-16"
    return bits(second, 31, 16) + 1


def vector_of(second):
    # "vector minus one 15-0"
    return bits(second, 15, 0) + 1


def format_refused(first):
    # "rule of field 15 broken", which is a rule of its first word.  C-12: "FORMAT no
    # longer covers repeat or bit 23".
    if not vrt49.format_kept([first]):
        return True
    # "a processing-efficient field of 33 to 63 bits"
    return not link_efficient(first) and 33 <= field_size(first) <= 63


# The number of items.


def group(first, second):
    # 003, Rule 6.1.6.5-1: "the number of Data Items in a Data Sample multiplied by the
    # vector size multiplied by the Repeat Count"
    return component_count(first) * vector_of(second) * repeat_of(second)


def count_refused(first, second, n):
    # "n is at most 2,097,120"; C-12: "n becomes a multiple of the whole group."
    return n > 2_097_120 or n % group(first, second) != 0


def rounded_up(number, by):
    """The least whole number that is at least number divided by by."""
    return (number + by - 1) // by


def words_for(first, n):
    """The words that n packing fields take."""
    f = field_size(first)
    # "n of them take n times f over 32 words, rounded up."
    if link_efficient(first):
        return rounded_up(n * f, 32)
    # "f of 64 takes two words"
    if f == 64:
        return 2 * n
    # "each word holds as many whole fields as fit"
    return rounded_up(n, 32 // f)


def words_needed(first, second, n):
    """('refused', number) or ('words', number of words)."""
    if format_refused(first):
        return ("refused", FORMAT)
    if count_refused(first, second, n):
        return ("refused", COUNT)
    return ("words", words_for(first, n))


# One packing field.


def field_of(first, item, event, channel):
    # "A packing field holds the item at its left, unused bits, event tags, then
    # the channel tag at its right."  "Writers put zero in unused bits"
    return (
        string_of(item, item_size(first))
        + string_of(0, unused_size(first))
        + string_of(event, event_size(first))
        + string_of(channel, channel_size(first))
    )


def parts_of(first, field):
    """The item, event tags and channel tag of a packing field."""
    rest = field
    item, rest = rest[: item_size(first)], rest[item_size(first) :]
    # "readers ignore them"
    _, rest = rest[: unused_size(first)], rest[unused_size(first) :]
    event, rest = rest[: event_size(first)], rest[event_size(first) :]
    # "Size-zero tags read as 0."
    return number_of(item), number_of(event), number_of(rest)


# The packing fields in words.


def words_of(first, fields):
    """The strings of the words that hold packing fields."""
    strings = []
    word = ""
    # "Link-efficient fields of f bits follow without a gap"; "f of 64 takes two
    # words".
    if link_efficient(first) or field_size(first) == 64:
        for field in fields:
            for bit in field:
                if len(word) == 32:
                    strings.append(word)
                    word = ""
                word = word + bit
    # "Processing-efficient: each word holds as many whole fields as fit, from
    # the left"
    else:
        for field in fields:
            if len(word) + len(field) > 32:
                strings.append(word)
                word = ""
            word = word + field
    if word != "":
        strings.append(word)
    # "Writers put zero in unused bits"
    return [filled(string) for string in strings]


def fields_of(first, n, strings):
    """The first n packing fields that the strings of words hold."""
    f = field_size(first)
    fields = []
    if link_efficient(first) or f == 64:
        field = ""
        for word in strings:
            for bit in word:
                field = field + bit
                if len(field) == f:
                    fields.append(field)
                    field = ""
    else:
        for word in strings:
            rest = word
            while len(rest) >= f:
                fields.append(rest[:f])
                rest = rest[f:]
    return fields[:n]


# Packing and unpacking.


def pack(first, second, items, events, channels, room):
    """('refused', number) or ('packed', words)."""
    # "Pack: FORMAT, COUNT, VALUE, ROOM."
    if format_refused(first):
        return ("refused", FORMAT)
    # "in packing, the three inputs have n entries each.  Otherwise COUNT."
    n = len(items)
    if count_refused(first, second, n) or len(events) != n or len(channels) != n:
        return ("refused", COUNT)
    # "a number to be written ... does not fit its bits"
    for numbers, width in (
        (items, item_size(first)),
        (events, event_size(first)),
        (channels, channel_size(first)),
    ):
        for number in numbers:
            if number >= 2**width:
                return ("refused", VALUE)
    # "a buffer to be written is too short"
    if words_for(first, n) > room:
        return ("refused", ROOM)
    fields = [field_of(first, *parts) for parts in zip(items, events, channels)]
    return ("packed", [number_of(string) for string in words_of(first, fields)])


def unpack(first, second, n, words, rooms):
    """('refused', number) or ('unpacked', (items, events, channels)), each of n
    numbers; rooms are the entries of the three buffers to be written."""
    # "Unpack: FORMAT, COUNT, ROOM."
    if format_refused(first):
        return ("refused", FORMAT)
    # "Unpacking is given n and exactly the words needed"; "Otherwise COUNT."
    if count_refused(first, second, n) or len(words) != words_for(first, n):
        return ("refused", COUNT)
    # "a buffer to be written is too short"
    for room in rooms:
        if room < n:
            return ("refused", ROOM)
    # "Items come out as raw bits."
    items, events, channels = [], [], []
    for field in fields_of(first, n, [string_of(word, 32) for word in words]):
        item, event, channel = parts_of(first, field)
        items.append(item)
        events.append(event)
        channels.append(channel)
    return ("unpacked", (items, events, channels))


# The order of the items.  C-12: "the numbering from an item to time, channel,
# component and repeat and back".  The refusals of both calls are this project's own:
# FORMAT, COUNT, and VALUE for an item or a coordinate that n items do not reach.

# Up to so many items are listed.
FEW = 4096


def of_one_channel(first, second):
    """Component and repeat of the items of one channel in one group, in order."""
    found = []
    if component_repeat(first):
        # 003, Rule 6.1.6.3-6, and -7 likewise of amplitude and phase: "the number of
        # "I" Data Items specified by the Repeat Count parameter shall be packed into
        # sequential Item Packing Fields with earlier Data Items going into
        # lower-numbered Item Packing Fields.  This shall be followed by the
        # corresponding "Q" Data Items similarly arranged."
        for component in range(component_count(first)):
            for repeat in range(repeat_of(second)):
                found.append((component, repeat))
    else:
        # 003, Rule 6.1.6.3-8: "the number of Data Samples specified for each Channel
        # by the Repeat Count shall be packed into sequential Item Packing Fields with
        # earlier Data Samples going into lower-numbered Item Packing Fields."
        for repeat in range(repeat_of(second)):
            # 003, Rule 6.1.6.3-3, and -4 likewise of amplitude and phase: "The "Q"
            # component shall immediately follow the corresponding "I" component when
            # Sample-Component repeating is not in use."
            for component in range(component_count(first)):
                found.append((component, repeat))
    return found


@lru_cache(16)
def listed(first, second, n):
    """The coordinates of n items, in the order of the items."""
    found = []
    # 003, Definition 6.1.6.5-1: "the entire data payload can be described as a
    # sequence of identical Item Packing Structures."
    for time in range(n // group(first, second)):
        # 003, Definition 6.1.6.3-4: "some number of Data Samples for each Channel is
        # packed sequentially prior to packing Data Samples from the next Channel."
        # With bit 23 it is the same: by Definition 6.1.6.3-3 the Repeat Count is "The
        # number of sequential components of the same type", of one channel therefore.
        for channel in range(vector_of(second)):
            for component, repeat in of_one_channel(first, second):
                found.append((time, channel, component, repeat))
    return tuple(found)


def divided(first, second, item):
    """The coordinates of an item, by dividing how many items come before it."""
    time, inside = divmod(item, group(first, second))
    channel, inside = divmod(inside, component_count(first) * repeat_of(second))
    if component_repeat(first):
        component, repeat = divmod(inside, repeat_of(second))
    else:
        repeat, component = divmod(inside, component_count(first))
    return time, channel, component, repeat


def items_before(first, second, time, channel, component, repeat):
    """How many items come before the one at coordinates: those of earlier groups, of
    lower channels in its group, and of its channel there."""
    groups = time * group(first, second)
    channels = channel * component_count(first) * repeat_of(second)
    if component_repeat(first):
        return groups + channels + component * repeat_of(second) + repeat
    return groups + channels + repeat * component_count(first) + component


def ends(first, second, n):
    """What the coordinates of n items are below: time, channel, component, repeat."""
    times = n // group(first, second)
    return times, vector_of(second), component_count(first), repeat_of(second)


def coordinates_of(first, second, n, item):
    """('refused', number) or ('coordinates', (time, channel, component, repeat))."""
    if format_refused(first):
        return ("refused", FORMAT)
    if count_refused(first, second, n):
        return ("refused", COUNT)
    if item >= n:
        return ("refused", VALUE)
    if n <= FEW:
        return ("coordinates", listed(first, second, n)[item])
    return ("coordinates", divided(first, second, item))


def item_at(first, second, n, time, channel, component, repeat):
    """('refused', number) or ('item', number)."""
    if format_refused(first):
        return ("refused", FORMAT)
    if count_refused(first, second, n):
        return ("refused", COUNT)
    coordinates = (time, channel, component, repeat)
    for coordinate, end in zip(coordinates, ends(first, second, n)):
        if coordinate >= end:
            return ("refused", VALUE)
    if n <= FEW:
        return ("item", listed(first, second, n).index(coordinates))
    return ("item", items_before(first, second, *coordinates))


# Signed values.


def signed(width, item):
    """('refused', number) or ('value', number)."""
    # "Signed value: FORMAT, VALUE."
    # "an item width outside 1 to 64"
    if width < 1 or width > 64:
        return ("refused", FORMAT)
    # "an item to be shown signed, does not fit its bits"
    if item >= 2**width:
        return ("refused", VALUE)
    # "the two's complement value of a 1 to 64 bit item": the leftmost bit
    # stands for minus its place value, the others for their own.
    string = string_of(item, width)
    value = number_of(string[1:])
    if string[0] == "1":
        value = value - 2 ** (width - 1)
    return ("value", value)
