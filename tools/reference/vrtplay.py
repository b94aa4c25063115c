"""A reference of the program vrtplay: it plays a recording and prints a line for
each packet.

    python3 tools/reference/vrtplay.py <RECORDING

It is written from document 01, from C-13 and C-15 of document 02 and from nothing else;
the sentences in quotation marks are document 01's own, or those of C-13 or C-15 where
they are named.  Starting and playing are those of table.py.
"""

import sys

sys.dont_write_bytecode = True

import table
import vrt49
from table import LIST, STREAM

MOST_BYTES = 65536


def words_of(data):
    """The big-endian words of bytes; those that are no whole word are left."""
    return [int.from_bytes(data[at : at + 4], "big") for at in range(0, len(data) - 3, 4)]


def started(words):
    """The table of the list at the start of the words, or None."""
    # "A bad list, no S, or fewer identifiers than S, prints `at 0 refused 12`"
    if not words:
        return None
    streams = words[0]
    if streams > len(words) - 1:
        return None
    ids = words[1 : 1 + streams]
    # C-13: "other types, packets of no declared stream and `vrtplay` stay plain"
    answer, found = table.start(ids, [0] * streams, table.layout_length(streams))
    return found if answer == "started" else None


def play(data):
    """The lines for the bytes of a recording."""
    # "reads up to 65,536 bytes from standard input as big-endian words: S, S
    # identifiers, packets"
    data = data[:MOST_BYTES]
    words = words_of(data)
    lines = []
    found = started(words)
    if found is None:
        # C-15: "except for LIST"
        lines.append(f"at 0 refused {LIST}")
        place = 0
    else:
        place = 1 + words[0]
        # "It stops when no word is left, with no line for that."
        while place < len(words):
            answer = table.play(found, words[place:])
            if answer[0] == "played":
                # "It prints each packet's word place, type, stream and missing."
                _, size, kind, stream, missing = answer
                lines.append(f"at {place} type {kind} stream {stream} missing {missing}")
            else:
                # "A refusal prints `at W refused N`; STREAM goes on by the size,
                # any other ends at W."  C-15: "`vrtplay` prints `place P` after the
                # number", counted "from the packet's start".
                _, number, offset, _ = answer
                lines.append(f"at {place} refused {number} place {offset}")
                if number != STREAM:
                    break
                size = vrt49.size_of(words[place])
            place += size
    # "Last come the stopping place and the bytes modulo 4."
    lines.append(f"end {place} tail {len(data) % 4}")
    return lines


def main():
    data = sys.stdin.buffer.read(MOST_BYTES)
    sys.stdout.write("".join(line + "\n" for line in play(data)))


if __name__ == "__main__":
    main()
