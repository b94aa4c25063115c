"""Makes a survey: receivers that retune, warm up, lose packets and fall silent.

    python3 tools/compare/make_survey.py [--packets N] [--streams S] [--seed K] [--dwell D]
        [--payload W] [--loss P] [--sparing R] [--end cut|type|bits|class|field] FILE

FILE is a recording as vrtplay and vrtshow take it.  Each receiver hops through the channels of
its band and sends a Context packet at every hop, a whole one now and then, some that change
nothing, some that change the temperature or the state alone, some with a count of the samples
over range; data follows.  A state word enables some indicators, on and off, and has values
without their enables, over-range and sample loss among them.  The first R receivers are
sparing: they send what changed alone, now and then in several packets, all of it at every
sixteenth hop, and every third of them never again.  Packets are lost, single and in bursts,
Context packets among them.  The last receiver is silent for a while.  Streams that are not
declared join for a while, and a few packets have no identifier.  --end spoils the last packet.
The same arguments make the same recording.
"""

import argparse
import os
import random
import struct
import sys

sys.dont_write_bytecode = True
sys.path.insert(0, os.path.join(os.path.dirname(os.path.abspath(__file__)), "..", "reference"))

from read_vectors import FORMAT, ONES, context, packet

START = 1_794_715_200
TICK = 250_000_000  # picoseconds between two packets

# The first channel, the spacing, how many channels, the usual and the narrow bandwidth, in MHz.
BANDS = [
    (1350, 25, 5, 25, 5),
    (6600, 12.5, 9, 12.5, 2.5),
    (16650, 160, 6, 156.25, 40),
    (406, 0.5, 12, 0.4, 0.1),
    (2290, 10, 8, 8, 2),
    (9300, 50, 7, 40, 10),
]

ENDS = ("cut", "type", "bits", "class", "field")


def frequency(mhz, parts=0):
    """The two words of a frequency, and some parts of 2^20 hertz."""
    number = (round(mhz * 1_000_000) << 20) + parts
    return [number >> 32 & ONES, number & ONES]


def halves(lower, scale, upper=0):
    return (round(upper * scale) & 0xFFFF) << 16 | round(lower * scale) & 0xFFFF


class Receiver:
    """A receiver; every eighth from the fourth on says its IF alone, from the sixth on sends
    Extension packets too, and from the eighth on says no tuning."""

    def __init__(self, number, identifier, dwell, chance, sparing=False):
        self.number, self.identifier, self.chance = number, identifier, chance
        self.sparing, self.told, self.late = sparing, {}, 0
        self.first, self.spacing, self.channels, self.usual, self.narrow = BANDS[number % len(BANDS)]
        self.first += 7 * self.spacing * (number // len(BANDS))
        self.dwell = max(2, dwell + chance.randrange(-(dwell // 4), dwell // 4 + 1))
        self.left, self.channel, self.bandwidth, self.direction = 0, 0, self.usual, 1
        self.temperature, self.state, self.hops = 28.0 + number, 0, 0
        self.lamps = random.Random(identifier)  # of its own: the hops do not follow from them
        self.counts = {kind: chance.randrange(16) for kind in (1, 3, 4, 5)}

    def made(self, kind, clock, body, **rest):
        second, fraction = divmod(clock, 10**12)
        count, self.counts[kind] = self.counts[kind], (self.counts[kind] + 1) % 16
        return packet(
            kind, body, identifier=self.identifier, count=count, tsi=1, tsf=2,
            seconds=START + second, fraction=fraction, **rest,
        )

    def light(self):
        """Another state word: user bits stay, mostly."""
        enables = sum(1 << bit for bit in range(31, 23, -1) if self.lamps.random() < 0.3)
        values = sum(1 << bit for bit in range(19, 11, -1) if self.lamps.random() < 0.5)
        user = self.lamps.getrandbits(8) if self.lamps.random() < 0.2 else self.state & 0xFF
        self.state = enables | values | user

    def tuning(self, whole):
        centre = self.first + self.spacing * self.channel
        fields = {29: frequency(self.bandwidth), 18: [halves(self.temperature, 64)]}
        if self.number % 8 == 3:
            fields |= {28: frequency(self.spacing * self.channel, self.channel << 17)}
            fields |= {25: frequency(-self.spacing * (self.channel % 3), 77)}
        else:
            fields |= {27: frequency(centre)}
        if self.number % 8 == 1:
            fields |= {26: frequency(-0.25 * self.channel)}
        if whole:
            fields |= {24: [halves(-20 - self.channel / 4, 128)], 23: [halves(10, 128, -3.5)]}
            fields |= {21: frequency(self.bandwidth * 1.25), 15: [FORMAT, 0], 16: [self.state]}
            if self.state >> 25 & 1:
                fields |= {22: [self.channel]}
        return fields

    def sent(self, clock, fields):
        self.told |= fields
        indicator = 1 << 31 | sum(1 << bit for bit in fields)
        words = [word for bit in sorted(fields, reverse=True) for word in fields[bit]]
        return self.made(4, clock, [indicator, *words], m=1)

    def spare(self, clock):
        """What differs from what it sent last; at times one field of that, and the rest soon."""
        fields = self.tuning(True)
        changed = {bit: fields[bit] for bit in fields if self.told.get(bit) != fields[bit]}
        if len(changed) > 1 and self.chance.random() < 0.4:
            self.late = self.chance.randrange(1, 6)
            bit = self.chance.choice(sorted(changed))
            changed = {bit: changed[bit]}
        return self.sent(clock, changed)

    def hop(self):
        self.channel += self.direction
        if not 0 <= self.channel < self.channels:
            self.direction = -self.direction
            self.channel = min(max(self.channel, 0), self.channels - 1)
            if self.chance.random() < 0.5:
                self.bandwidth = self.narrow if self.bandwidth == self.usual else self.usual
                return True
        return False

    def next(self, clock, payload):
        """The next packet: a Context packet at a hop, now and then one between, else data."""
        self.left, self.late = self.left - 1, self.late - 1
        if self.late == 0:
            return self.spare(clock)
        if self.left >= 0 or self.number % 8 == 7:
            draw = self.chance.random()
            if draw < 0.01 and self.number % 8 != 7:
                if draw < 0.003:
                    self.temperature += 0.25
                    return self.sent(clock, {18: [halves(self.temperature, 64)]})
                if draw < 0.006:
                    self.light()
                    return self.sent(clock, {16: [self.state]})
                over = {22: [self.hops]} if self.lamps.random() < 0.5 else {}
                return self.sent(clock, over)
            if draw < 0.05 and self.number % 8 == 5:
                return self.made(3 if draw < 0.03 else 5, clock, [1, 2, 3])
            body = [self.chance.getrandbits(32) for _ in range(payload)]
            return self.made(1, clock, body, t=1, trailer=0x40040000)
        whole = self.hops % 8 == 0
        if self.hops:
            whole |= self.hop()
        self.left, self.hops = self.dwell, self.hops + 1
        self.temperature += self.chance.choice((0, 0.25, 0.5)) * (45 - self.temperature) / 30
        if self.lamps.random() < 0.3:
            self.light()
        if self.sparing and self.hops > 1 and (self.number % 3 == 2 or self.hops % 16):
            return self.spare(clock)
        return self.sent(clock, self.tuning(whole or self.sparing))


def spoilt(words, end):
    """The last packet of a recording, spoilt in one way."""
    if end == "cut":
        return words[:-1]
    if end == "type":
        return [words[0] | 0xF0000000, *words[1:]]
    if end == "bits":
        return [words[0] & 0x0FFFFFFF | 0x42000000, *words[1:]]
    if end == "class":
        return packet(1, [0], c=1, oui=ONES)
    return context(1 << 24, [ONES])


def survey(
    packets=20000, streams=3, seed=49, dwell=160, payload=24, loss=0.0015, sparing=0, end=None
):
    """The bytes of a recording."""
    chance = random.Random(seed)
    receivers = [Receiver(n, 0xA01 + 0x101 * n, dwell, chance, n < sparing) for n in range(streams)]
    strangers = [Receiver(n, 0xD0000 + n, dwell, chance) for n in range(11)]
    parts, clock, made = [struct.pack(">I", streams)], 0, 0
    parts += [struct.pack(">I", receiver.identifier) for receiver in receivers]
    while made < packets:
        clock += TICK
        share, receiver = made / packets, receivers[chance.randrange(streams)]
        if receiver is receivers[-1] and streams > 1 and 0.36 < share < 0.43:
            continue
        if 0.62 < share < 0.68 and chance.random() < 0.1:
            words = strangers[min(10, int(chance.expovariate(0.5)))].next(clock, payload)
        elif share > 0.2 and chance.random() < 5 / packets:
            words = packet(2 * chance.randrange(2), [1, 2, 3, 4])
        else:
            if receiver.hops and chance.random() < loss:
                for _ in range(chance.choice((1, 1, 1, 2, 3, 6, 11))):
                    receiver.next(clock, payload)
            words = receiver.next(clock, payload)
        made += 1
        words = spoilt(words, end) if end and made == packets else words
        parts.append(struct.pack(f">{len(words)}I", *words))
    return b"".join(parts)


def main():
    parser = argparse.ArgumentParser(description=__doc__.split("\n")[0])
    for name, kind, usual in (
        ("packets", int, 20000), ("streams", int, 3), ("seed", int, 49), ("dwell", int, 160),
        ("payload", int, 24), ("loss", float, 0.0015), ("sparing", int, 0),
    ):
        parser.add_argument(f"--{name}", type=kind, default=usual, help=f"{usual} if not said")
    parser.add_argument("--end", choices=ENDS)
    parser.add_argument("file")
    asked = vars(parser.parse_args())
    file = asked.pop("file")
    with open(file, "wb") as out:
        out.write(survey(**asked))


if __name__ == "__main__":
    main()
