"""Document 01's example of the program vrtplay, and its sentences on it, held
against the reference.  The expectations are document 01's own, C-13's and C-15's."""

import unittest

import vrtplay

EXAMPLE = (
    "00000001 00000007 140F0005 00000007 ABCDEF12 30000000 00000000 14020005 00000007"
    " 00000000 00000000 00000000"
)


def given(text, rest=b""):
    return bytes.fromhex(text.replace(" ", "")) + rest


class Example(unittest.TestCase):
    def test_example(self):
        self.assertEqual(
            vrtplay.play(given(EXAMPLE)),
            [
                "at 2 type 1 stream 0 missing 0",
                "at 7 type 1 stream 0 missing 2",
                "end 12 tail 0",
            ],
        )

    def test_tail(self):
        # "Last come the stopping place and the bytes modulo 4."
        for tail in (1, 2, 3):
            lines = vrtplay.play(given(EXAMPLE, b"\xff" * tail))
            self.assertEqual(lines[:2], vrtplay.play(given(EXAMPLE))[:2])
            self.assertEqual(lines[2:], [f"end 12 tail {tail}"])


class Lists(unittest.TestCase):
    # "A bad list, no S, or fewer identifiers than S, prints `at 0 refused 12` and
    # ends at 0."

    def bad(self, data):
        expected = ["at 0 refused 12", f"end 0 tail {len(data) % 4}"]
        self.assertEqual(vrtplay.play(data), expected)

    def test_no_number(self):
        for n in range(4):
            self.bad(bytes(n))

    def test_bad(self):
        self.bad(given("00000000"))
        self.bad(given("00000000 10000002 00000007"))
        self.bad(given("00000002 00000007 00000007"))
        self.bad(given("00000021") + bytes(range(33 * 4)))

    def test_fewer_identifiers(self):
        self.bad(given("00000001"))
        self.bad(given("00000002 00000007"))
        self.bad(given("00000002 00000007", b"\0\0\0"))
        self.bad(given("FFFFFFFF 00000007"))

    def test_no_packets(self):
        self.assertEqual(vrtplay.play(given("00000001 00000007")), ["end 2 tail 0"])


class Refusals(unittest.TestCase):
    # "STREAM goes on by the size, any other ends at W"

    def test_stream(self):
        lines = vrtplay.play(
            given(
                "00000001 00000007 10000003 00000008 FFFFFFFF 00000002 00000000 10000002"
                " 00000007"
            )
        )
        self.assertEqual(
            lines,
            [
                "at 2 refused 11 place 1",
                "at 5 refused 11 place 0",
                "at 7 type 1 stream 0 missing 0",
                "end 9 tail 0",
            ],
        )

    def test_any_other(self):
        for word, number in (
            ("60000001", 2), ("12000002", 3), ("10000001", 4), ("10000004", 5),
        ):
            lines = vrtplay.play(given(f"00000001 00000007 {word} 00000007 10000002"))
            self.assertEqual(lines, [f"at 2 refused {number} place 0", "end 2 tail 0"])

    def test_places(self):
        # C-15: "`vrtplay` prints `place P` after the number", "from the packet's start"; the
        # packet is at word 4, and no bit is printed.
        for words, number, place in (
            ("18000004 00000007 01000000 00000000", 6, 2),
            ("08000003 80000000 00000000", 6, 1),
            ("10200004 00000007 000000E8 D4A51000", 7, 2),
            ("1C600008 00000007 00000000 00000000 00000000 000000E8 D4A51000 00000000", 7, 5),
            ("40000003 00000007 00000001", 8, 2),
            ("40400004 00000007 00000000 40000000", 9, 3),
            ("40000005 00000007 41000000 00000000 00010000", 10, 4),
            ("40000006 00000007 00820000 00000000 00000000 00010000", 10, 4),
        ):
            before = "00000001 00000007 10000002 00000007"
            lines = vrtplay.play(given(f"{before} {words} 10010002 00000007"))
            self.assertEqual(
                lines,
                [
                    "at 2 type 1 stream 0 missing 0",
                    f"at 4 refused {number} place {place}",
                    "end 4 tail 0",
                ],
            )


class Plain(unittest.TestCase):
    # C-13: "`vrtplay` stay plain": a pad count is CLASS, and a packet without a class is
    # played.

    def test_surveys(self):
        bare = "1C000006 00000007 00FFFFFA 00080000 00000005 00000000"
        padded = "1C010006 00000007 40FFFFFA 000A0002 01020300 00000000"
        lines = vrtplay.play(given(f"00000001 00000007 {bare} 10010002 00000007 {padded}"))
        self.assertEqual(
            lines,
            [
                "at 2 type 1 stream 0 missing 0",
                "at 8 type 1 stream 0 missing 0",
                "at 10 refused 6 place 2",
                "end 10 tail 0",
            ],
        )


class MostBytes(unittest.TestCase):
    # "reads up to 65,536 bytes"

    def test_more(self):
        # A packet that ends with the 65,536 bytes, and one that needs a word more.
        head = given("00000001 00000007 10003FFE 00000007")
        full = head + bytes(65536 - len(head))
        expected = ["at 2 type 1 stream 0 missing 0", "end 16384 tail 0"]
        for more in (b"", b"\x10", b"\x10\x00\x00\x02\x00\x00\x00\x07"):
            self.assertEqual(vrtplay.play(full + more), expected)
        head = given("00000001 00000007 10003FFF 00000007")
        long = head + bytes(65540 - len(head))
        self.assertEqual(vrtplay.play(long), ["at 2 refused 5 place 0", "end 2 tail 0"])


if __name__ == "__main__":
    unittest.main()
