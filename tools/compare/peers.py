"""Holds reading and writing against two programs of others.

    python3 tools/compare/peers.py uhd FILE -- DRIVE ..
    python3 tools/compare/peers.py tshark FOLDER -- DRIVE ..

uhd: FILE has the packets that UHD packed, as uhd_pack.cpp prints them; each is read
by vrt49_read, which must give the values that UHD was given and those that UHD
reads.  tshark: vrt49_write writes packets, which go as UDP into FOLDER/packets.pcap;
tshark's VITA 49 dissector must give the same values.  README.md has what the peers
understand differently.  DRIVE is the command that runs drive.c's program.  The first
difference ends the program with status 1.
"""

import random
import struct
import subprocess
import sys
from array import array
from collections import Counter
from pathlib import Path

sys.dont_write_bytecode = True
sys.path.insert(0, str(Path(__file__).resolve().parent.parent / "reference"))

import calls
import making
import vrt49
import vrt49_write
from cases import SEED, WHICH, asked
from making import ONES

READ = calls.CALLS[WHICH["vrt49_read"]]
WRITE = calls.CALLS[WHICH["vrt49_write"]]

# The entries of vrt49_read's answer, as the header has them.
ANSWER = (
    "type C T TSM TSI TSF count size identifier OUI information packet seconds high low place words "
    "trailer"
).split()


def drive_all(drive, call, made):
    """The bytes that drive writes for cases of a call; what they expect is not
    looked at."""
    given = b"".join(asked(call, calls.Case(lent, 0, {})) for lent in made)
    answer = subprocess.run([*drive, "0"], input=given, stdout=subprocess.PIPE)
    if answer.returncode != 0:
        sys.exit(1)
    return answer.stdout


def differs(place, words, one, other):
    print(f"packet {place}: {' '.join(f'{word:08x}' for word in words[:12])} ..")
    print(f"  {one}\n  {other}", flush=True)
    sys.exit(1)


# UHD.

PACKED = (
    "type has_sid sid has_cid cid has_tsi tsi has_tsf tsf has_tlr tlr sob eob count header payload"
).split()


def packed(line):
    """What UHD was given, what it reads, and the words of one line."""
    given, reads, words = (part.split() for part in line.split("|"))
    return (
        dict(zip(PACKED, (int(number, 16) for number in given))),
        dict(zip(PACKED, (int(number, 16) for number in reads))) if reads != ["-"] else None,
        [int(word, 16) for word in words],
    )


def values(p, words):
    """What vrt49_read should give of a packet, from UHD's values of it."""
    return {
        # UHD's data, extension and context are each a type without and one with an
        # identifier
        "type": 2 * p["type"] + p["has_sid"],
        "C": p["has_cid"],
        "T": p["has_tlr"],
        # UHD's end of burst is bit 24
        "TSM": p["eob"] if p["type"] == 2 else 0,
        # UHD says other time, and sample count
        "TSI": 3 * p["has_tsi"],
        "TSF": p["has_tsf"],
        "count": p["count"],
        "size": p["header"] + p["payload"] + p["has_tlr"],
        "identifier": p["sid"] * p["has_sid"],
        # UHD leaves the two class words zero
        "OUI": 0,
        "information": 0,
        "packet": 0,
        "seconds": p["tsi"] * p["has_tsi"],
        "high": (p["tsf"] >> 32) * p["has_tsf"],
        "low": (p["tsf"] & ONES) * p["has_tsf"],
        "place": p["header"],
        "words": p["payload"],
        # UHD makes the trailer word
        "trailer": p["tlr"] * p["has_tlr"],
    }


def bits_refused(p):
    """Whether UHD was asked for a header bit that 49.0 reserves."""
    # "for types 0-3 T (trailer) 26 and 25-24 reserved; for types 4-5, 26-25 reserved"
    if p["type"] == 2:
        return p["sob"] == 1 or p["has_tlr"] == 1
    return p["sob"] == 1 or p["eob"] == 1


def uhd(path, drive):
    packets = [packed(line) for line in open(path)]
    # UHD's context packet without an identifier has type 4, which always has one
    packets = [found for found in packets if (found[0]["type"], found[0]["has_sid"]) != (2, 0)]
    r = random.Random(SEED)
    answers = drive_all(
        drive, READ, [[calls.given(words), calls.noisy(r, 18)] for _, _, words in packets]
    )
    length = 4 * (1 + 18)
    said = Counter()
    for place, (given, reads, words) in enumerate(packets):
        numbers = array("I", answers[length * place : length * (place + 1)])
        if bits_refused(given):
            if numbers[0] != vrt49.BITS:
                differs(place, words, "a reserved bit is set", f"vrt49_read answers {numbers[0]}")
            said["refused"] += 1
            continue
        answer = dict(zip(ANSWER, numbers[1:]))
        for peer in (given, reads):
            if peer is None or numbers[0] != 0 or answer != values(peer, words):
                differs(place, words, f"UHD: {peer}", f"vrt49_read: {numbers[0]} {answer}")
        said[f"type {answer['type']}"] += 1
    refused = said.pop("refused")
    counts = ", ".join(f"{times} {what}" for what, times in sorted(said.items()))
    print(
        f"UHD: {sum(said.values())} packets that it packed, read with its values ({counts}), and {refused} refused "
        "for a reserved bit"
    )


# tshark.

FIELDS = (
    "hdr type cidflag tflag tsmflag tsi tsf seq len sid oui icc pcc ts_int ts_frac_sample "
    "ts_frac_picosecond trailer enables indicators e acpc data"
).split()
PORT = 4991
PACKETS = 1500


def pcap(packets):
    """A capture of packets on UDP."""
    made = [struct.pack("<IHHiIII", 0xA1B2C3D4, 2, 4, 0, 0, 262144, 228)]
    for words in packets:
        data = struct.pack(f">{len(words)}I", *words)
        udp = struct.pack(">HHHH", PORT, PORT, 8 + len(data), 0) + data
        ip = struct.pack(
            ">BBHHHBBH4s4s", 0x45, 0, 20 + len(udp), 0, 0, 64, 17, 0, bytes(4), bytes(4)
        )
        made.append(struct.pack("<IIII", 0, 0, len(ip + udp), len(ip + udp)) + ip + udp)
    return b"".join(made)


def dissected(p, body):
    """What tshark should give of a packet, field by field; empty where it is absent."""
    trailer = vrt49.trailer_parts(p.trailer)
    size = vrt49_write.packet_size(p, body)
    return {
        "hdr": vrt49_write.header_of(p, size),
        "type": p.type,
        "cidflag": p.class_flag,
        # bit 26 as T, of type 5 too, and TSM of type 4 alone
        "tflag": p.trailer_flag if p.type != 4 else "",
        "tsmflag": p.tsm if p.type == 4 else "",
        "tsi": p.tsi,
        "tsf": p.tsf,
        "seq": p.count,
        "len": size,
        "sid": p.identifier if p.type in (1, 3, 4, 5) else "",
        "oui": p.oui if p.class_flag else "",
        "icc": p.information if p.class_flag else "",
        "pcc": p.packet if p.class_flag else "",
        "ts_int": p.seconds if p.tsi else "",
        # counts of samples and free running ones are one field
        "ts_frac_sample": p.fraction if p.tsf in (1, 3) else "",
        "ts_frac_picosecond": p.fraction if p.tsf == 2 else "",
        "trailer": p.trailer if p.trailer_flag else "",
        "enables": trailer.enables if p.trailer_flag else "",
        "indicators": trailer.indicators if p.trailer_flag else "",
        "e": trailer.e if p.trailer_flag else "",
        "acpc": trailer.associated if p.trailer_flag else "",
        "data": struct.pack(f">{len(body)}I", *body).hex() if body else "",
    }


def shown(line):
    """The numbers of a line of tshark."""
    found = dict(zip(FIELDS, line.split("\t")))
    return {
        name: text if name == "data" or text == "" else int(text, 0) for name, text in found.items()
    }


def tshark(folder, drive):
    r = random.Random(SEED)
    made = []
    while len(made) < PACKETS:
        p = making.parts(r, len(made) % 6)
        body = making.body_for(r, p.type)
        if r.randrange(50) == 0 and p.type != 4:
            # as long as UDP carries
            body = making.words(r, 16376 - vrt49_write.packet_size(p, []))
        if not (p.tsf == 2 and p.fraction >= 10**12):
            made.append((p, body))
    asks = [
        [
            calls.given(calls.parts_words(p)), calls.given(body),
            calls.noisy(r, vrt49_write.packet_size(p, body)), 0, calls.length_place(r),
        ]
        for p, body in made
    ]
    answers = array("I", drive_all(drive, WRITE, asks))
    packets, at = [], 0
    for place, (p, body) in enumerate(made):
        size = vrt49_write.packet_size(p, body)
        number, words, length = answers[at], list(answers[at + 1 : at + 1 + size]), answers[at + 1 + size]
        # the number, the words, and the length in two
        at += 1 + size + 2
        if number != 0 or length != size:
            differs(place, words, f"{p}", f"vrt49_write answers {number}, {length} words")
        packets.append(words)
    path = f"{folder}/packets.pcap"
    Path(path).write_bytes(pcap(packets))
    asked_for = [word for name in FIELDS for word in ("-e", f"vrt.{name}")]
    found = subprocess.run(
        ["tshark", "-r", path, "-d", f"udp.port=={PORT},vrt", "-T", "fields", *asked_for],
        stdout=subprocess.PIPE, stderr=subprocess.DEVNULL, check=True, text=True,
    ).stdout.split("\n")[:-1]
    if len(found) != len(packets):
        sys.exit(f"tshark has {len(found)} lines for {len(packets)} packets")
    said = Counter()
    for place, ((p, body), line) in enumerate(zip(made, found)):
        if shown(line) != dissected(p, body):
            differs(place, packets[place], f"written: {dissected(p, body)}", f"tshark: {shown(line)}")
        said[f"type {p.type}"] += 1
    counts = ", ".join(f"{times} {what}" for what, times in sorted(said.items()))
    print(f"tshark: {len(packets)} packets that vrt49_write wrote, dissected with the same values ({counts})")


if __name__ == "__main__":
    peer, path, dashes, *command = sys.argv[1:]
    {"uhd": uhd, "tshark": tshark}[peer](path, command)
