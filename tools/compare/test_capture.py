"""Holds capture.py to finding a fault of tools/capture.

    python3 tools/compare/test_capture.py FILE

Each fault below is put into a copy of the program, one at a time; the group of captures
above it must find a difference.  FILE is the one that capture.py takes.
"""

import subprocess
import sys
import tempfile
from pathlib import Path

HERE = Path(__file__).resolve().parent
TOOL = HERE.parent / "capture"

# By the group of capture.py: what stands in the program, once, and what takes its place.
FAULTS = {
    "lists": [
        ("MOST_STREAMS = 32", "MOST_STREAMS = 33"),
        ("WITH_IDENTIFIER = (1, 3, 4, 5)", "WITH_IDENTIFIER = (1, 3, 4)"),
        ("for identifier in self.packets if", "for identifier in sorted(self.packets, key=str) if"),
        ("or account.left or crowded", "or account.left"),
    ],
    "payloads": [
        ("HIGHEST_TYPE = 5", "HIGHEST_TYPE = 6"),
        ("size < (2 if kind in WITH_IDENTIFIER else 1)", "size < 1"),
        ("if at + size > len(words):", "if at > len(words):"),
        ("        at += size\n", "        at = len(words)\n"),
        ("if len(payload) % 4:", "if len(payload) % 4 == 1:"),
        ("'<' if little else '>'", "'>' if little else '>'"),
        ('[:4] == b"VRLP"', '[:4] == b"VRL"'),
    ],
    "ports": [('struct.unpack(">2xH", data[:4])', 'struct.unpack(">H", data[:2])')],
    "links": [
        ("typed(data[14:])", "typed(data[12:])"),
        ("typed(data[:2] + data[20:])", "typed(data[:2] + data[18:])"),
        ("return typed(data[4:])", "return None"),
        ("IP_TYPES = (0x0800, 0x86DD)", "IP_TYPES = (0x0800,)"),
        ("6: dpkt.ip6.IP6", "5: dpkt.ip6.IP6"),
        ('"its header"))[0] % 2**16', '"its header"))[0]'),
    ],
    "fragments": [
        ("MOST_WAIT = 10000", "MOST_WAIT = 20000"),
        ('        fragments.end_before(float("inf"))', "        pass"),
        ("if place != len(data):", "if place > len(data) + 8:"),
        ("found.parts.get(place, data) != data", "place in found.parts"),
        ("            self.give_up(self.waiting.pop(key))", "            self.waiting.pop(key)"),
        ("(ip.src, ip.dst, number)", "number"),
        ("8 * header.frag_off", "header.frag_off"),
        ('found.parts.get(0, b"")', 'b""'),
    ],
    "cut": [
        ("if length > len(data):", "if length > len(data) + 100:"),
        ("data[UDP_HEADER:length]", "data[UDP_HEADER:]"),
        ("    if len(data) < count:", "    if not data and count:"),
        ("if stopped or account.left", "if account.left"),
    ],
    "files": [
        (r'b"\xa1\xb2\x3c\x4d"', r'b"\xa1\xb2\x3c\x4e"'),
        ("if kind == 0x0A0D0D0A:", "if kind == 0:"),
        ('(order + "I8xI", body)', '(order + "8xII", body)'),
        ("    if len(body) < place + count:", "    if len(body) < place:"),
        ("    if count > MOST_FRAME:", "    if False:"),
    ],
    "outside": [
        ("asked.out or sys.stdout.fileno()", "sys.stdout.fileno()"),
        ("if asked.out and same_file(asked.capture, asked.out):", "if asked.out == asked.capture:"),
        ("os.path.samefile(one, other)", "False"),
    ],
    "samples": [("HIGHEST_TYPE = 5", "HIGHEST_TYPE = 15")],
    "survey": [("asked.stream or streams", "streams")],
    "uhd": [("MOST_STREAMS = 32", "MOST_STREAMS = 31")],
}


def main():
    program, noticed = TOOL.read_text(), 0
    with tempfile.TemporaryDirectory() as folder:
        copy = Path(folder, "capture")
        for group, faults in FAULTS.items():
            for stands, fault in faults:
                if program.count(stands) != 1:
                    sys.exit(f"tools/capture has not once: {stands}")
                copy.write_text(program.replace(stands, fault))
                copy.chmod(0o755)
                command = [sys.executable, HERE / "capture.py", copy, sys.argv[1], group]
                done = subprocess.run(command, capture_output=True, text=True)
                # a difference is status 1, and so is a mistake of capture.py, which stops on stderr
                if done.returncode != 1 or done.stderr:
                    sys.exit(f"{group}: not noticed: {stands} became {fault}\n{done.stderr}")
                noticed += 1
    print(f"tools/capture itself: {noticed} faults put into a copy, each noticed")


if __name__ == "__main__":
    main()
