"""Reference answers about single streams of a table: which stream it is, what it
counted, a table of it alone, and which held fields two streams do not share.

It is written from document 01 and from nothing else but the rules of these calls,
which are this project's own and stand with each.  Tables and their words are those of
table.py.  The sentences in quotation marks are document 01's own.
"""

import table
from panel import VALUE
from table import COUNTED_TYPES, HELD_BITS, ROOM, STREAM, TABLE

# The words of the layout of one stream.
OWN_WORDS = table.layout_length(1)


def stream_at(lent, stream):
    """('refused', number) or ('stream', the stream's dictionary), for the words of
    a table."""
    # "table not well made"
    if not table.well_made(lent):
        return ("refused", TABLE)
    # "a stream number not in the table"
    found = table.table_of(lent)
    if stream >= len(found):
        return ("refused", STREAM)
    return ("stream", found[stream])


def identity(lent, stream):
    """('refused', number) or ('declared', identifier, choice, held indicator)."""
    # The order: TABLE, STREAM.
    answer, found = stream_at(lent, stream)
    if answer == "refused":
        return (answer, found)
    # Bit b of the indicator is set exactly where the field of bit b is held.
    held = sum(2**bit for bit in found["held"])
    return ("declared", found["identifier"], found["choice"], held)


def counts(lent, stream, kind):
    """('refused', number), ('not started',) or ('started', seen, missing, last), for
    one type of packet."""
    # The order: TABLE, STREAM, VALUE.
    answer, found = stream_at(lent, stream)
    if answer == "refused":
        return (answer, found)
    # "Types 1, 3, 4 and 5 are counted apart within a stream."  Any other is VALUE.
    if kind not in COUNTED_TYPES:
        return ("refused", VALUE)
    # "Each has seen and missing, both kept modulo 2^32, and the last count."
    count = found["counts"][kind]
    if count["last"] is None:
        return ("not started",)
    return ("started", count["seen"], count["missing"], count["last"])


def own_table(lent, stream, out):
    """('refused', number) or ('table', words of the layout), and the buffer
    afterwards.  The stream stands in the buffer as a table of one stream."""
    # The order: TABLE, STREAM, ROOM.
    answer, found = stream_at(lent, stream)
    if answer == "refused":
        return (answer, found), list(out)
    # "a buffer to be written is too short"
    if len(out) < OWN_WORDS:
        return ("refused", ROOM), list(out)
    # "Only words needed by an accepted answer change."
    return ("table", OWN_WORDS), table.layout([found]) + out[OWN_WORDS:]


def words_held(found, bit):
    """The words that a stream holds for a field; none where it is absent."""
    return found["held"].get(bit, [])


def changed(before, before_stream, after, after_stream):
    """('refused', number) or ('changed', fields), for the words of two tables and a
    stream of each.  Bit b of the fields is set exactly where the words that the two
    streams hold for the field of bit b are not the same."""
    found = [stream_at(before, before_stream), stream_at(after, after_stream)]
    # The order: TABLE of either, STREAM of either.
    for number in (TABLE, STREAM):
        if ("refused", number) in found:
            return ("refused", number)
    (_, one), (_, other) = found
    # "each field from bits 30 to 10"; of 22, which is never held, no words differ
    differ = [bit for bit in HELD_BITS if words_held(one, bit) != words_held(other, bit)]
    return ("changed", sum(2**bit for bit in differ))
