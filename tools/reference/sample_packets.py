"""Writes the sample packets of README, which `read_vectors` reads.

The form is big-endian words, each packet as one word that says how it is read, 0 for
plain 49.0 and 1 for 49A, one word n, and then its n words.
"""

import struct
import sys

# document 01, 'Samples from the bench', and a tuning as a receiver sends it
PLAIN = [
    # A Context packet of stream 7 at 2026-11-15 04:00:00 UTC: bandwidth 10 MHz,
    # level -1 dBm, sample rate 12.5 MHz.
    [0x4065000B, 7, 1794715200, 0, 0, 0x21200000]
    + [0x00000989, 0x68000000, 0x0000FF80, 0x00000BEB, 0xC2000000],
    # A data packet of two payload words, with a trailer.
    [0x140F0005, 7, 0xABCDEF12, 0x30000000, 0x40040000],
    # The same, cut after four words.
    [0x140F0005, 7, 0xABCDEF12, 0x30000000],
    # Its size below the required parts.
    [0x140F0002, 7, 0xABCDEF12, 0x30000000],
    # An empty body.
    [0x140F0003, 7, 0],
    # A temperature whose upper half is not zero.
    [0x40000004, 7, 0x00040000, 0x00010000],
]

SURVEY = [
    # A data packet of 49A: a vector of three unsigned bytes, and eight bits of padding.
    [0x1C000006, 7, 0x40FFFFFA, 0x000A0002, 0x01020300, 0],
]

PACKETS = [(0, packet) for packet in PLAIN] + [(1, packet) for packet in SURVEY]


def main(path):
    with open(path, "wb") as out:
        for choice, packet in PACKETS:
            out.write(struct.pack(">2I", choice, len(packet)))
            out.write(struct.pack(">%dI" % len(packet), *packet))


if __name__ == "__main__":
    main(sys.argv[1])
