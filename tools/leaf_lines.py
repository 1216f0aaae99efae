#!/usr/bin/env python3
"""Prints the input lines of leaf_vectors (oracle/README.md), the same for the same seed."""
import random
import struct
import sys

NAN, INF, NINF = 0x7FC00000, 0x7F800000, 0xFF800000
ZERO, NEG_ZERO, ONE = 0, 0x80000000, 0x3F800000
LEAST, NEG_LEAST = 0x00000001, 0x80000001          # the subnormals next to 0
LARGEST_SUB, LEAST_NORMAL = 0x007FFFFF, 0x00800000
MOST, NEG_MOST = 0x7F7FFFFF, 0xFF7FFFFF
FADED = 0x38D1B717                                  # the level at which a held note counts as faded
KILL = 0x3BA3D70A                                   # the release time of a kill
CUT = 0x3C23D70A                                    # the least cutoff
RATES = [8000, 8192, 11025, 22050, 44100, 48000, 96000, 191999, 192000]
BAD_RATES = [0, 7999, 192001, 0xFFFFFFFF]


def bits(x):
    return struct.unpack(">I", struct.pack(">f", x))[0]


TIMES = [ZERO, NEG_ZERO, bits(-1.0), LEAST, NEG_LEAST, LARGEST_SUB, LEAST_NORMAL, NEG_MOST, MOST, bits(1e30), bits(1e-30),
         bits(2 ** -11), bits(0.0001), bits(0.001), KILL, KILL + 1, KILL - 1, bits(0.01), bits(0.25), ONE, bits(100.0)]
LEVELS = [ZERO, NEG_ZERO, bits(-0.5), NEG_MOST, LEAST, NEG_LEAST, LEAST_NORMAL, FADED - 1, FADED, FADED + 1, bits(0.1),
          bits(0.5), bits(0.7), ONE - 1, ONE, ONE + 1, bits(2.0), MOST]
WIDTHS = [ZERO, NEG_ZERO, bits(0.25), bits(1 / 3), bits(0.5), bits(0.9), ONE, ONE + 1, bits(1.5), bits(2.0), bits(1e30), MOST,
          LEAST, LEAST_NORMAL, bits(-0.3), bits(-1.0), bits(-2.0), NEG_MOST]
SCALES = [ZERO, NEG_ZERO, LEAST, NEG_LEAST, LARGEST_SUB, LEAST_NORMAL, bits(0.5), bits(0.9438743), ONE - 1, ONE, ONE + 1,
          bits(1.0594631), bits(2.0), bits(1e20), MOST, NEG_MOST, bits(-1.0), NAN, INF, NINF]
COEFFS = [ZERO, NEG_ZERO, LEAST, NEG_LEAST, LARGEST_SUB, LEAST_NORMAL, LEAST_NORMAL + 1, bits(1e-6), bits(0.001), bits(0.25),
          bits(0.5), ONE - 1, ONE, ONE + 1, bits(2.0), MOST, NEG_MOST, bits(-0.5), NAN, INF, NINF]
CUTS = [ZERO, NEG_ZERO, CUT - 1, CUT, CUT + 1, bits(0.001), LEAST, ONE, bits(1.5), MOST, NEG_MOST, bits(-3.0), NAN, INF, NINF]
MODS = [ZERO, NEG_ZERO, LEAST, NEG_LEAST, ONE, bits(5.5), bits(-1.0), bits(20.0), MOST, NAN, INF, NINF]


class Lines:
    def __init__(self, seed):
        self.random = random.Random(seed)
        self.lines = []

    def say(self, letter, *words):
        self.lines.append(letter + "".join(f" {w:08X}" for w in (list(words) + [0] * 7)[:7]))

    def pick(self, values, wild=0.1):
        """One of the values, or now and then any number that is no NaN or infinity."""
        if self.random.random() < wild:
            return self.random.getrandbits(32) & 0x807FFFFF | self.random.randrange(255) << 23
        return self.random.choice(values)

    def notes(self):
        for n in range(256):
            self.say("N", n)

    def floats(self):
        """The methods of f32: every pair of extremes, then numbers with a whole and a broken part."""
        ends = sorted({ZERO, NEG_ZERO, LEAST, NEG_LEAST, LEAST_NORMAL, LARGEST_SUB, ONE - 1, ONE, ONE + 1, bits(-1.0), MOST, NEG_MOST,
                       INF, NINF, NAN, 0xFF800001})
        for a in ends:
            for b in ends:
                self.say("X", a, b)
        wholes = [0.5, 1.5, 2.0, 2.5, 1e6 + 0.25, 2.0 ** 22 + 0.5, 2.0 ** 23 - 0.5, 2.0 ** 23, 2.0 ** 24, 1e20, 1e-20]
        for x in wholes:
            self.say("X", bits(x), bits(-x))
            self.say("X", bits(-x), bits(x))
        for _ in range(120):
            a = self.pick([], 1)
            self.say("X", a, self.random.choice([a, a ^ 1, a ^ NEG_ZERO, self.pick([], 1)]))

    def env(self, a, d, s, r, rate, moves):
        """An envelope and what is done to it: o on, f off, k kill, a number of ticks, or 1*count for single ones."""
        self.say("E", a, d, s, r, rate)
        for m in moves:
            if m in "ofk":
                self.say("G", "ofk".index(m))
            elif "*" in m:
                for _ in range(int(m[2:])):
                    self.say("T", 1)
            else:
                self.say("T", int(m))

    def envelopes(self):
        """The ways through the stages that a list of random moves may miss, then random ones."""
        slow = (bits(0.001), bits(0.002), bits(0.5), bits(0.01), 8000)
        for moves in ["1*2 f 1 k 1 o 1*9 1*3", "o 4 f 1*2 f 1*3 f 200", "o 20 1 f 1*3 k 1*3 k 1*60", "o 3 k 1*2 f 1*2 o 1*8 f 1*2 200",
                      "o 8 o 1*2 100 o 1 k 50 f k 1", "o 8 1*16 1*2 f 79 1*4"]:
            self.env(*slow, moves.split())
        self.env(bits(2 ** -11), ZERO, bits(0.5), ZERO, 8192, "o 1*6 f 1*2 f o 1*2 k 1*2".split())
        self.env(ZERO, ZERO, NEG_ZERO, ONE, 48000, "o 1*3 f 1*2 k 1*3".split())
        self.env(ZERO, ZERO, FADED, ZERO, 48000, "o 1*3 f 1*2".split())
        self.env(ZERO, ZERO, FADED + 1, ZERO, 48000, "o 1*3 f 1*2".split())
        self.env(ZERO, bits(0.001), bits(2.0), bits(0.001), 48000, "o 1*3 f 1*2 100".split())
        self.env(LEAST, LEAST, bits(0.25), LEAST, 192000, "o 1*3 f 1*2".split())
        self.env(MOST, MOST, bits(0.25), MOST, 192000, "o 1*2 1000 f 1*2 k 1*2 2000".split())
        self.env(bits(1e-3), bits(1e30), bits(0.25), bits(1e30), 8000, "o 1*9 1000 f 1*2 1000 k 1*3".split())
        for s in LEVELS:
            self.env(bits(0.0005), bits(0.001), s, bits(0.002), 8000, "o 1*4 5 1*4 f 1*2 30".split())
        for t in TIMES:
            self.env(t, t, bits(0.3), t, 44100, "o 1*3 50 1 f 1*2 k 1*2".split())
        for bad in (NAN, INF, NINF, 0xFFC00001):
            for i in range(4):
                four = [bits(0.01)] * 4
                four[i] = bad
                self.env(*four, 48000, "o 1*2".split())
        for rate in BAD_RATES:
            self.env(*[bits(0.01)] * 4, rate, "o 1*2 k 1".split())
            self.env(*[NAN] * 4, rate, ["1"])
        for _ in range(90):
            moves = ["o"] + [self.random.choice(["o", "f", "k", "1", "1", "1*3", "7", "40", "333"]) for _ in range(8)]
            self.env(self.pick(TIMES), self.pick(TIMES), self.pick(LEVELS), self.pick(TIMES), self.random.choice(RATES), moves)

    def copies(self):
        for n in range(1, 9):
            for k in range(n):
                for w in WIDTHS:
                    self.say("C", k, n, w, ONE, ONE)
                self.say("C", k, n, self.pick([], 1), ONE, ONE)
                self.say("C", k, n, bits(0.7), self.pick(SCALES), self.pick(CUTS))
        for bend in SCALES:
            self.say("C", 0, 2, ONE, bend, ONE)
        for cut in CUTS:
            self.say("C", 1, 2, ONE, ONE, cut)

    def glides(self):
        self.say("C", 0, 1, ZERO, ONE, ONE)
        self.say("P", bits(2.0), bits(0.5))
        self.say("B", bits(2.0))
        self.say("L", 2)
        for scale in SCALES:
            self.say("C", 0, 1, ZERO, ONE, ONE)
            self.say("P", scale, bits(0.25))
            self.say("L", 8)
        for coeff in COEFFS:
            self.say("C", 0, 1, ZERO, ONE, ONE)
            self.say("P", bits(1.5), coeff)
            self.say("L", 8)
        for bend in SCALES:
            self.say("B", bend)
            self.say("L", 3)
        for cut in CUTS:
            self.say("F", cut)
        for count in [0, 1, 7, 8, 9, 64, 255, 256, 257, 1024]:
            self.say("C", 2, 5, bits(0.6), bits(1.1), ONE)
            self.say("P", bits(1.4983071), bits(0.003))
            self.say("L", count)
            self.say("L", 5)
        for _ in range(60):
            n = self.random.randint(1, 8)
            self.say("C", self.random.randrange(n), n, self.pick(WIDTHS), ONE, ONE)
            for _ in range(5):
                letter = self.random.choice("PPBFLLL")
                first = self.random.choice([1, 2, 3, 5, 8, 13, 21]) if letter == "L" else self.pick(CUTS if letter == "F" else SCALES)
                self.say(letter, first, self.pick(COEFFS) if letter == "P" else 0)

    def designs(self):
        self.say("E", *[bits(0.1)] * 4, 48000)
        for i in range(6):
            for x in MODS:
                six = [ONE] * 6
                six[i] = x
                six[(i ^ 1) - 2] = six[(i ^ 1) - 4] = ZERO
                self.say("M", *six)
                self.say("D", 48000, 4, 1, ZERO, ONE)
        for _ in range(60):
            self.say("M", *[self.pick(MODS) for _ in range(6)])
        self.say("M", *[ZERO] * 6)
        for rate in RATES + BAD_RATES:
            self.say("D", rate, 32, 8, ONE, ONE)
        for most in [0, 1, 2, 31, 32, 33, 0xFFFFFFFF]:
            for unison in [0, 1, 7, 8, 9, 256, 0xFFFFFFFF]:
                self.say("D", 8000, most, unison, self.pick(WIDTHS), self.pick(COEFFS))
        for x in [NAN, INF, NINF, MOST, NEG_MOST]:
            self.say("D", 48000, 4, 2, x, ONE)
            self.say("D", 48000, 4, 2, ONE, x)
            self.say("D", 48000, 0, 2, ONE, x)


def main():
    lines = Lines(int(sys.argv[1]) if len(sys.argv) > 1 else 1)
    lines.notes()
    lines.floats()
    lines.envelopes()
    lines.copies()
    lines.glides()
    lines.designs()
    print("\n".join(lines.lines))


main()
