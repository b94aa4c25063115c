"""Holds tools/capture to captures whose packets are known.

    python3 tools/compare/capture.py TOOL FILE [GROUP ..]

TOOL is the program, FILE has the packets that UHD packed, as uhd_pack.cpp prints them;
a group is one of those at the end, and without one all are tried.
Captures of the sample packets, of the sample survey and of UHD's packets are made by
text2pcap; those with tags, fragments, cut frames, other links and damage are made here,
byte by byte.  Each recording must have the list and the packets that are put together
here, and each datagram that is left out must be named with its frame and the reason.
Some recordings are played by vrtplay: VRTPLAY is the command, or tools/run plays it.
The first difference ends the program with status 1.
"""

import os
import struct
import subprocess
import sys
import tempfile
from itertools import zip_longest
from pathlib import Path

sys.dont_write_bytecode = True
sys.path.insert(0, str(Path(__file__).resolve().parent.parent / "reference"))

import peers
import vrt49
import vrtplay

PORT = 4991
MOST_UDP = 65535 - 20 - 8
FRONT = "the frame has only the front of its datagram, as a snap length leaves it"
FRAGMENTS = "not all of its datagram's IP fragments are there, or one has only its front"
WORDS = "its payload is not a whole number of words"
EMPTY = "its payload is empty"
TYPE = "a packet's type is above 5: 49.2, or not VITA 49"
SHORT = "a packet's size is below its header and identifier"
EXCEEDS = "a packet's size exceeds the payload"
VRL = "its payload is a frame of 49.1 (VRLP), not packets alone"
APART = "it cannot be taken apart"

tool = sys.argv[1]
folder = tempfile.TemporaryDirectory()
tried = {"made by text2pcap": 0, "made here": 0, "played": 0}


def differs(what, *lines):
    print(f"{what}:", *lines, sep="\n  ", flush=True)
    sys.exit(1)


def expect(what, capture, recording, left=(), status=None, says=(), arguments=()):
    """The recording of a capture, which must be as said, or None for none; the lines of
    what is left out; the exit status; lines that it says too."""
    path = Path(folder.name, "capture")
    path.write_bytes(capture)
    done = subprocess.run([tool, *arguments, path], capture_output=True)
    lines = [line.removeprefix("tools/capture: ") for line in done.stderr.decode().splitlines()]
    if done.stdout != (recording or b""):
        differs(what, f"expected {recording}", f"recording {done.stdout}", *lines)
    found = [line for line in lines if line.startswith("left out")]
    if found != [f"left out: {line}" for line in left]:
        differs(what, *(f"expected {line}" for line in left), *lines)
    if status is None:
        status = 2 if recording is None else 1 if left else 0
    if done.returncode != status:
        differs(what, f"expected status {status}", f"status {done.returncode}", *lines)
    for line in says:
        if line not in lines:
            differs(what, f"expected {line}", *lines)
    return done.stdout


def play(what, recording, lines):
    """vrtplay must print the lines."""
    command = (os.environ.get("VRTPLAY") or "tools/run vrtplay").split()
    done = subprocess.run(command, input=recording, capture_output=True)
    found = done.stdout.decode().splitlines()
    if found != lines:
        pairs = [pair for pair in zip_longest(lines, found) if pair[0] != pair[1]][:10]
        said = [f"expected {one}, printed {two}" for one, two in pairs]
        differs(f"{what}, played", *said, *done.stderr.decode().splitlines()[-5:])
    tried["played"] += 1


def to_bytes(words):
    return struct.pack(f">{len(words)}I", *words)


def recording_of(ids, *payloads):
    return to_bytes([len(ids), *ids]) + b"".join(payloads)


# Made by text2pcap.


def text2pcap(payloads, *options):
    """A capture of payloads, each a datagram."""
    dump = []
    for data in payloads:
        dump += [f"{at:06x} {data[at : at + 16].hex(' ')}\n" for at in range(0, len(data), 16)]
    path = Path(folder.name, "text2pcap")
    command = ["text2pcap", "-q", *options, "-u", f"40000,{PORT}", "-", path]
    subprocess.run(command, input="".join(dump).encode(), check=True, capture_output=True)
    tried["made by text2pcap"] += 1
    return path.read_bytes()


def forms(payloads):
    """The same capture as pcap, as pcapng, and with IPv6."""
    return {
        "pcap": text2pcap(payloads, "-F", "pcap"),
        "pcapng": text2pcap(payloads, "-F", "pcapng"),
        "IPv6": text2pcap(payloads, "-F", "pcap", "-6", "fe80::1,fe80::2"),
    }


def samples():
    words, packets = vrtplay.words_of(Path("samples/packets").read_bytes()), []
    # each has before it how it is read, and how many words it has
    while words:
        packets.append(to_bytes(words[2 : 2 + words[1]]))
        del words[: 2 + words[1]]
    # the third is cut, and the fourth's size leaves words that are no packet
    wanted = recording_of([7], packets[0], packets[1], packets[4], packets[5], packets[6])
    for form, capture in forms(packets).items():
        expect(f"sample packets, {form}", capture, wanted, [f"frame 3: {EXCEEDS}", f"frame 4: {TYPE}"])


def survey():
    recording = Path("samples/recordings/survey.vrt").read_bytes()
    lines = Path("samples/recordings/survey.txt").read_text().splitlines()
    words = vrtplay.words_of(recording)
    ids, rest, packets = words[1 : 1 + words[0]], words[1 + words[0] :], []
    while rest:
        size = vrt49.size_of(rest[0])
        packets.append(to_bytes(rest[:size]))
        del rest[:size]
    chosen = [word for identifier in ids for word in ("-s", hex(identifier))]
    # a stream that the sample does not declare joins its three
    wanted = recording_of([0xA01, 0xA02, 0xB03, 0xC04], *packets)
    for form, capture in forms(packets).items():
        play(f"survey, {form}", expect(f"survey, {form}", capture, recording, arguments=chosen), lines)
        expect(f"survey, all streams, {form}", capture, wanted)
    play("survey, all streams", wanted, vrtplay.play(wanted))


def uhd():
    packets = [peers.packed(line) for line in open(sys.argv[2])]
    # as in peers.py; and UDP does not carry the longest
    packets = [
        (given, to_bytes(words)) for given, _, words in packets
        if (given["type"], given["has_sid"]) != (2, 0) and 4 * len(words) <= MOST_UDP
    ]
    sids = list(dict.fromkeys(given["sid"] for given, _ in packets if given["has_sid"]))
    sent = [data for _, data in packets]
    first = next(at for at, (given, _) in enumerate(packets, 1) if given["sid"] == sids[32])
    line = f"not declared: 0x{sids[32]:08X}, packets 1, first in frame {first}"
    for form, capture in forms(sent).items():
        expect(f"UHD, {form}", capture, recording_of(sids[:32], *sent), status=1, says=[line])
    last = sids[:-33:-1]
    chosen = [word for sid in last for word in ("--stream", str(sid))]
    expect("UHD, chosen", text2pcap(sent), recording_of(last, *sent), arguments=chosen)
    # vrtplay would end at a reserved bit; it goes on behind a stream that is not declared
    few = [(given, data) for given, data in packets if not peers.bits_refused(given)][::8]
    sids = list(dict.fromkeys(given["sid"] for given, _ in few if given["has_sid"]))
    sent = [data for _, data in few]
    made = expect("UHD, few", text2pcap(sent), recording_of(sids[:32], *sent), status=1)
    lines = vrtplay.play(made)
    if sum(" type " in line for line in lines) < 20:
        differs("UHD, few: too few are played", *lines)
    play("UHD, few", made, lines)
    tried["packets of UHD"] = len(packets)


# Made here.


def packet(identifier, count=0, kind=1, body=3):
    header = kind << 28 | count % 16 << 16 | 2 + body
    return to_bytes([header, identifier, *range(body)])


def udp(payload, port=PORT, length=None):
    length = 8 + len(payload) if length is None else length
    return struct.pack(">4H", 40000, port, length, 0) + payload


def ip4(data, number=1, place=0, more=0, protocol=17, options=b""):
    return struct.pack(
        ">BBHHHBBH4s4s", 0x45 + len(options) // 4, 0, 20 + len(options) + len(data), number,
        more << 13 | place // 8, 64, protocol, 0, b"\n\1\1\1", b"\n\2\2\2",
    ) + options + data


def ip6(data, following=17):
    source, target = b"\xfe\x80" + bytes(14), b"\xfe\x80" + b"\1" * 14
    return struct.pack(">IHBB16s16s", 6 << 28, len(data), following, 64, source, target) + data


def ip6_fragment(data, number, place, more):
    return ip6(struct.pack(">BBHI", 17, 0, place | more, number) + data, 44)


def ether(data, kind=0x0800, tags=()):
    tags = b"".join(struct.pack(">HH", tag, 7) for tag in tags)
    return b"\1" * 6 + b"\2" * 6 + tags + struct.pack(">H", kind) + data


def pcap(*frames, link=1, order="<", magic=0xA1B2C3D4, snap=65535):
    made = [struct.pack(order + "IHHiIII", magic, 2, 4, 0, 0, snap, link)]
    for at, frame in enumerate(frames):
        kept = frame[:snap]
        made.append(struct.pack(order + "4I", at, 0, len(kept), len(frame)) + kept)
    tried["made here"] += 1
    return b"".join(made)


def block(order, kind, body):
    body += bytes(-len(body) % 4)
    return struct.pack(order + "2I", kind, 12 + len(body)) + body + struct.pack(order + "I", 12 + len(body))


def section(order, *links):
    """The start of a pcapng file: a section and its interfaces."""
    tried["made here"] += 1
    return block(order, 0x0A0D0D0A, struct.pack(order + "IHHq", 0x1A2B3C4D, 1, 0, -1)) + b"".join(
        block(order, 1, struct.pack(order + "HHI", link, 0, 0)) for link in links
    )


def frame_block(order, interface, data):
    head = struct.pack(order + "5I", interface, 0, 0, len(data), len(data))
    return block(order, 6, head + data)


A, B, C = packet(7), packet(9, 1, 4), packet(5, 2, 3)


def plain(*payloads):
    return pcap(*(ether(ip4(udp(payload))) for payload in payloads))


def lists():
    kinds = [packet(0x10 + kind, kind=kind) for kind in (3, 0, 5, 2, 4, 1)]
    expect("the types with an identifier", plain(*kinds), recording_of([0x13, 0x15, 0x14, 0x11], *kinds))
    expect("the first appearance", plain(B, A, B, C, A), recording_of([9, 7, 5], B, A, B, C, A))
    many = [packet(0x100 + at, body=1) for at in range(33)]
    expect("32 streams", plain(*many[:32]), recording_of(range(0x100, 0x120), *many[:32]))
    expect(
        "33 streams", plain(*many, many[32]), recording_of(range(0x100, 0x120), *many, many[32]), status=1,
        says=["not declared: 0x00000120, packets 2, first in frame 33"],
    )
    nameless = packet(0, kind=0)
    expect("no identifier", plain(nameless), None, says=["no packet with an identifier: nothing is written"])
    expect("a stream that is chosen", plain(nameless), recording_of([7], nameless), arguments=["-s", "7"])
    for arguments in (["-s", "7", "-s", "7"], [f"-s{at}" for at in range(33)], ["-s", "4294967296"]):
        expect(f"refused: {arguments}", plain(A), None, arguments=arguments)


def payloads():
    expect("several packets in a datagram", plain(A + B, C + A + A), recording_of([7, 9, 5], A, B, C, A, A))
    little = b"".join(A[at : at + 4][::-1] for at in range(0, len(A), 4))
    expect("little-endian words", plain(little), recording_of([7], A), arguments=["--little"])
    for what, payload, why in (
        ("a byte too many", A + b"\0", WORDS), ("two bytes too few", A[:-2], WORDS), ("no word", b"", EMPTY),
        ("a cut packet", A[:-4], EXCEEDS), ("a word too many", A + bytes(4), SHORT),
        ("no room for the identifier", to_bytes([0x10000001]), SHORT), ("a size of 0", to_bytes([0]), SHORT),
        ("type 6", packet(7, kind=6), TYPE), ("type 15 behind another", A + packet(7, kind=15), TYPE),
        ("49.1", b"VRLP" + bytes(8), VRL),
    ):
        expect(what, plain(B, payload, C), recording_of([9, 5], B, C), [f"frame 2: {why}"])
    bad = [bytes(4)] * 10
    expect(
        "ten frames left out", plain(A, *bad), recording_of([7], A),
        [f"frames 2, 3, 4, 5, 6, 7, 8, 9 and 2 more, the last 11: {SHORT}"],
    )
    broken = packet(7, kind=4)  # bits 7-0 of its indicator are for the player to refuse
    expect("what a player refuses", plain(broken), recording_of([7], broken))


def ports():
    two = pcap(ether(ip4(udp(A))), ether(ip4(udp(B, 99))), ether(ip4(udp(C, 100))))
    expect("all ports", two, recording_of([7, 9, 5], A, B, C))
    expect("a port", two, recording_of([9], B), arguments=["-p", "99"])
    expect("two ports", two, recording_of([7, 5], A, C), arguments=["-p", "100", "--port", str(PORT)])
    expect("another port", two, None, arguments=["-p", "4992"], says=["no packet: nothing is written"])
    expect("no port", two, None, arguments=["-p", "65536"])
    bad = pcap(ether(ip4(udp(A))), ether(ip4(udp(b"\0", 99))), ether(ip4(udp(B, 99)))[:60])
    expect("bad payloads to another port", bad, recording_of([7], A), arguments=["-p", str(PORT)])


def links():
    wanted = recording_of([7], A)
    four, six = ip4(udp(A)), ip6(udp(A))
    for what, link, frame in (
        ("padding behind IP", 1, ether(four) + bytes(6)),
        ("IP options", 1, ether(ip4(udp(A), options=bytes(8)))),
        ("a VLAN tag", 1, ether(four, tags=[0x8100])),
        ("three VLAN tags", 1, ether(four, tags=[0x9100, 0x88A8, 0x8100])),
        ("IPv6", 1, ether(six, 0x86DD)), ("IPv6 with a tag", 1, ether(six, 0x86DD, tags=[0x8100])),
        ("IPv6 with options", 1, ether(ip6(bytes([17, 0, 1, 4, 0, 0, 0, 0]) + udp(A), 0), 0x86DD)),
        ("all interfaces", 113, bytes(14) + b"\x08\x00" + four),
        ("all interfaces, a tag", 113, bytes(14) + b"\x81\x00\0\7\x86\xdd" + six),
        ("all interfaces, second form", 276, b"\x86\xdd" + bytes(18) + six),
        ("loopback, little-endian", 0, b"\2\0\0\0" + four), ("loopback, big-endian", 0, b"\0\0\0\2" + four),
        ("loopback, IPv6", 0, b"\x1e\0\0\0" + six), ("loopback, network order", 108, b"\0\0\0\x18" + six),
        ("IP alone", 101, four), ("IPv6 alone", 101, six), ("IPv4 by its link type", 228, four),
    ):
        expect(what, pcap(frame, link=link), wanted)
    expect("an unknown link", pcap(four, link=147), None, ["frame 1: its link type, 147, is not known here"])
    other = pcap(ether(bytes(28), 0x0806), ether(ip4(udp(B), protocol=6)), ether(ip6(bytes(8), 58), 0x86DD))
    expect("no UDP", other, None, says=["frames 3, UDP datagrams 0, packets 0"])
    expect("a checksum behind the frames", pcap(ether(four) + bytes(4), link=1 | 0x24000000), wanted)


def fragmented(data, make, size=1480):
    """The fragments of a datagram."""
    return [make(data[at : at + size], at, int(at + size < len(data))) for at in range(0, len(data), size)]


def fragments():
    long = packet(7, body=2500)

    def four(number=5, port=PORT):
        return fragmented(udp(long, port), lambda data, at, more: ether(ip4(data, number, at, more)))

    six = fragmented(udp(long), lambda data, at, more: ether(ip6_fragment(data, 5, at, more), 0x86DD))
    wanted = recording_of([7], long)
    expect("fragments", pcap(*four()), wanted)
    expect("fragments of IPv6", pcap(*six), wanted)
    expect("fragments, the last first", pcap(*four()[::-1]), wanted)
    expect("a fragment twice", pcap(four()[0], *four()), wanted)
    mixed = [frame for pair in zip(four(), six) for frame in pair]
    expect("fragments of two datagrams", pcap(*mixed), recording_of([7], long, long))
    between = pcap(*four()[:-1], ether(ip4(udp(A))), four()[-1])
    expect("fragments come whole where the last is", between, recording_of([7], A, long))
    b = ether(ip4(udp(B)))
    for lost in (0, 3, 6):
        some = [frame for at, frame in enumerate(four()) if at != lost]
        expect(f"fragment {lost} lost", pcap(b, *some), recording_of([9], B), [f"frame 2: {FRAGMENTS}"])
    short = udp(A)
    over = [ether(ip4(short[at:to], 5, at, int(to < 28))) for at, to in ((0, 16), (8, 16), (24, 28))]
    expect("fragments that overlap", pcap(b, *over), recording_of([9], B), [f"frame 2: {FRAGMENTS}"])
    expect("fragments, snapped", pcap(b, *four(), snap=1000), recording_of([9], B), [f"frame 2: {FRAGMENTS}"])
    expect(
        "a fragment lost to another port", pcap(b, *four(port=99)[:-1]), recording_of([9], B),
        arguments=["-p", str(PORT)],
    )
    other = fragmented(udp(packet(6, body=2500)), lambda data, at, more: ether(ip4(data, 5, at, more)))
    expect(
        "a number that comes round", pcap(*four()[:-1], *other), recording_of([6], packet(6, body=2500)),
        [f"frame 1: {FRAGMENTS}"],
    )
    far = pcap(four()[0], *[b] * 10000, *four()[1:])
    expect("a number that comes late", far, recording_of([9], *[B] * 10000), [f"frames 1, 10002: {FRAGMENTS}"])


def stopped(line, frames=0):
    """What the tool says where it cannot read on."""
    return f"{Path(folder.name, 'capture')}: {line}; frames before: {frames}"


def cut():
    long = ether(ip4(udp(packet(7, body=100))))
    b = ether(ip4(udp(B)))
    wanted = recording_of([9], B)
    expect("snapped", pcap(long, b, snap=120), wanted, [f"frame 1: {FRONT}"])
    expect("snapped in the UDP header", pcap(long[:40], b), wanted, [f"frame 1: {FRONT}"])
    expect("snapped in the Ethernet header", pcap(long[:10], b), wanted, [f"frame 1: {APART}"])
    expect("snapped in the IP header", pcap(long[:30], b), wanted, [f"frame 1: {APART}"])
    tagged = ether(ip6(udp(A)), 0x86DD, tags=[0x8100])
    expect("snapped in the IPv6 header", pcap(tagged[:50], b), wanted, [f"frame 1: {APART}"])
    expect("an empty frame", pcap(b"", b, link=1), wanted, [f"frame 1: {APART}"])
    expect("a UDP length past the end", pcap(ether(ip4(udp(A, length=99))), b), wanted, [f"frame 1: {FRONT}"])
    expect("no UDP length", pcap(ether(ip4(udp(A, length=0))), b), wanted, [f"frame 1: {EMPTY}"])
    expect("bytes behind UDP", pcap(ether(ip4(udp(B) + A))), wanted)
    whole, ends = pcap(b, long), [stopped("the file ends inside a frame", 1)]
    for lost in (1, len(long), len(long) + 1, len(long) + 15):
        expect(f"a pcap without the last {lost}", whole[:-lost], wanted, status=1, says=ends)
    whole = section("<", 1) + frame_block("<", 0, b) + frame_block("<", 0, long)
    ends, block_bytes = [stopped("the file ends inside a block", 1)], len(frame_block("<", 0, long))
    for lost in (1, 100, block_bytes - 11, block_bytes - 1):
        expect(f"a pcapng without the last {lost}", whole[:-lost], wanted, status=1, says=ends)


def files():
    a, b = ether(ip4(udp(A))), ether(ip4(udp(B)))
    wanted = recording_of([7, 9], A, B)
    for order in "<>":
        for magic in (0xA1B2C3D4, 0xA1B23C4D):
            expect(f"pcap {order} {magic:x}", pcap(a, b, order=order, magic=magic), wanted)
        simple = block(order, 3, struct.pack(order + "I", len(b)) + b)
        expect(f"pcapng {order}", section(order, 1) + frame_block(order, 0, a) + simple, wanted)
        older = block(order, 2, struct.pack(order + "HH4I", 0, 0, 0, 0, len(b), len(b)) + b)
        expect(f"pcapng {order}, older form", section(order, 1) + frame_block(order, 0, a) + older, wanted)
    # statistics and names stand between, and are no frames
    between = block("<", 5, bytes(12)) + block("<", 4, bytes(4))
    two = section("<", 1, 101) + frame_block("<", 0, a) + between + frame_block("<", 1, b[14:])
    expect("two interfaces", two, wanted)
    sections = section("<", 1) + frame_block("<", 0, a) + section(">", 101) + frame_block(">", 0, b[14:])
    expect("two sections", sections, wanted)
    damaged = [stopped("a block of the file is not well made")]
    expect("no such interface", section("<", 1) + frame_block("<", 1, a), None, says=damaged)
    past = block("<", 6, struct.pack("<5I", 0, 0, 0, 99, 99) + a)
    expect("a frame past its block", section("<", 1) + past, None, says=damaged)
    small = section("<", 1) + struct.pack("<3I", 6, 8, 0)
    expect("a block too small", small, None, says=[stopped("a block of the file has 8 bytes")])
    huge = pcap(a) + struct.pack("<4I", 0, 0, 2**32 - 1, 2**32 - 1)
    large = [stopped("a frame says that it has 4294967295 bytes", 1)]
    expect("a frame too large", huge, recording_of([7], A), status=1, says=large)
    for what, data, line in (
        ("no byte", b"", "the file is empty"), ("a recording", wanted, "it is neither pcap nor pcapng"),
        ("a text", b"captured\n", "it is neither pcap nor pcapng"),
        ("half a pcap header", pcap()[:12], "the file ends inside its header"),
        ("half a section", section("<")[:9], "the file ends inside a block"),
    ):
        tried["made here"] += 1
        expect(what, data, None, says=[stopped(line), "no packet: nothing is written"])
    for what, capture in (("pcap", pcap()), ("pcapng", section("<", 1))):
        expect(f"{what} without a frame", capture, None, says=["frames 0, UDP datagrams 0, packets 0"])


def over_itself():
    """A recording in the place of its capture, by the same name and by others, is refused, and the capture stays."""
    capture, data = Path(folder.name, "capture"), plain(A)
    capture.write_bytes(data)
    Path(folder.name, "linked").symlink_to(capture)
    os.link(capture, Path(folder.name, "twice"))
    for name in ("capture", "linked", "twice", "./capture"):
        out = f"{folder.name}/{name}"
        said = f"error: {out} is the capture itself; name another file with -o"
        expect(f"over itself: {name}", data, None, says=[said], arguments=["-o", out])
        if capture.read_bytes() != data:
            differs(f"over itself: {name}", "the capture has changed")
    for name in ("linked", "twice"):
        Path(folder.name, name).unlink()


def outside():
    """What the tool does with files."""
    out = Path(folder.name, "recording")
    expect("into a file", plain(A), b"", status=0, arguments=["-o", str(out)])
    if out.read_bytes() != recording_of([7], A):
        differs("into a file", f"recording {out.read_bytes()}")
    expect("nothing into a file", plain(b"no"), None, [f"frame 1: {WORDS}"], arguments=["-o", str(out)])
    if out.read_bytes() != recording_of([7], A):
        differs("nothing into a file", "the file has changed")
    over_itself()
    done = subprocess.run([tool, Path(folder.name, "nothing")], capture_output=True)
    if done.returncode != 2 or b"No such file" not in done.stderr or done.stdout:
        differs("no such file", f"status {done.returncode}", done.stderr.decode())
    long = packet(7, body=16000)
    said = "the recording has 128024 bytes; vrtplay reads the first 65536"
    made = expect("a long recording", plain(long, long), recording_of([7], long, long), says=[said])
    play("a long recording", made, vrtplay.play(made))


GROUPS = (lists, payloads, ports, links, fragments, cut, files, outside, samples, survey, uhd)


def main():
    for group in GROUPS:
        if group.__name__ in sys.argv[3:] or not sys.argv[3:]:
            group()
    counts = ", ".join(f"{times} {what}" for what, times in tried.items())
    print(f"tools/capture: captures with known packets: {counts}")


if __name__ == "__main__":
    main()
