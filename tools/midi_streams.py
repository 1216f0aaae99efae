#!/usr/bin/env python3
"""Makes the stored cases of crates/midi_cases: stdin, and stdout by a reader of its own.

    tools/midi_streams.py [--seed N] [--count N] [--out DIR]

The reader below is written from MIDI 1.0 and shares nothing with the proved one: it drops the real-time bytes first, and
then takes whole messages off the list that is left.
"""

import argparse
import os
import random
import re
from fractions import Fraction

REAL_TIME = range(0xF8, 0x100)
SYSTEM = range(0xF0, 0xF8)
CHANNEL = range(0x80, 0xF0)


def single(value):
    """The bits of the binary32 number nearest to a positive fraction, ties to even. No subnormals are needed."""
    exponent = 0
    while value >= 2:
        value /= 2
        exponent += 1
    while value < 1:
        value *= 2
        exponent -= 1
    scaled = value * 2**23
    digits = scaled.numerator // scaled.denominator
    rest = scaled - digits
    if rest > Fraction(1, 2) or (rest == Fraction(1, 2) and digits % 2 == 1):
        digits += 1
    if digits == 2**24:
        digits //= 2
        exponent += 1
    return (exponent + 127) << 23 | (digits - 2**23)


def event(status, data):
    kind = status >> 4
    if kind == 0x8 or (kind == 0x9 and data[1] == 0):
        return f"(off {data[0]})"
    if kind == 0x9:
        return f"(on {data[0]} {single(Fraction(data[1], 127)):08X})"
    if kind == 0xB and data[0] == 64:
        return f"(pedal {int(data[1] >= 64)})"
    if kind == 0xB and data[0] in (123, 124, 125, 126, 127):
        return "(alloff)"
    if kind == 0xE:
        return f"(bend {data[1] << 7 | data[0]})"
    return "(other)"


def step(stream, place, status):
    """One step: what it prints, whether it is the last, and the cursor after it."""
    if place > len(stream) or not (status == 0 or status in CHANNEL):
        return f"(refused 9 {place} {status:02X})", True, place, status
    left = [(b, i + 1) for i, b in enumerate(stream) if i >= place and b not in REAL_TIME]
    running = status
    while left:
        byte = left[0][0]
        if byte in SYSTEM:
            running = 0
            left = left[1:]
            continue
        if byte in CHANNEL:
            running = byte
            data = left[1:]
        elif running == 0:
            left = left[1:]
            continue
        else:
            data = left
        wanted = 1 if running >> 4 in (0xC, 0xD) else 2
        have = 0
        while have < wanted and have < len(data) and data[have][0] < 0x80:
            have += 1
        if have == wanted:
            return event(running, [b for b, _ in data[:wanted]]), False, data[wanted - 1][1], running
        if have == len(data):
            return f"(refused 10 {place} {status:02X})", True, place, status
        left = data[have:]
    return f"(end {len(stream)} {running:02X})", True, len(stream), running


LINE = re.compile(r"\(midi (0|[1-9][0-9]*) ([0-9A-F]{2}) (-|(?:[0-9A-F]{2}){1,100})\)")


def answers(line):
    form = LINE.fullmatch(line)
    if len(line) > 256 or not form or int(form[1]) >= 2**32:
        return ["(unread)"]
    stream = b"" if form[3] == "-" else bytes.fromhex(form[3])
    place, status = int(form[1]), int(form[2], 16)
    out = []
    while True:
        text, last, place, status = step(stream, place, status)
        out.append(text)
        if last:
            return out


def line(place, status, text):
    digits = text.replace(" ", "")
    return f"(midi {place} {status:02X} {digits or '-'})"


# The byte cases of MIDI 1.0, each with its name.
PUBLISHED = [
    ("note on, note off", 0, 0, "90 3C 40 80 3C 40"),
    ("note off by velocity 0", 0, 0, "90 3C 40 90 3C 00"),
    ("running status", 0, 0, "90 3C 40 3E 40 40 40"),
    ("running status, off by velocity 0", 0, 0, "90 3C 7F 3C 00 3E 7F 3E 00"),
    ("running status changes with the next status", 0, 0, "90 3C 40 3E 41 B0 40 7F 40 00 91 3C 42"),
    ("running status of a cursor", 0, 0x90, "3C 40 3E 40"),
    ("running status of a cursor, inside the stream", 2, 0x9F, "00 00 3C 40"),
    ("status repeated", 0, 0, "90 3C 40 90 3E 40"),
    ("every kind of message, channel 0", 0, 0, "80 3C 40 90 3C 40 A0 3C 40 B0 01 40 C0 05 D0 40 E0 00 40"),
    ("every kind of message, channel 15", 0, 0, "8F 3C 40 9F 3C 40 AF 3C 40 BF 01 40 CF 05 DF 40 EF 00 40"),
    ("one data byte, running", 0, 0, "C0 01 02 03 D3 04 05"),
    ("two data bytes, running", 0, 0, "A0 01 02 03 04 E0 01 02 03 04"),
    ("pitch bend lowest", 0, 0, "E0 00 00"),
    ("pitch bend highest", 0, 0, "E0 7F 7F"),
    ("pitch bend centre", 0, 0, "E0 00 40"),
    ("pitch bend, one step beside the centre", 0, 0, "E0 01 40 7F 3F"),
    ("pitch bend, low and high seven bits", 0, 0, "E0 7F 00 00 7F"),
    ("active sensing inside a message", 0, 0, "90 FE 3C FE 40"),
    ("active sensing between messages", 0, 0, "FE 90 3C 40 FE FE 3E 40 FE"),
    ("clock inside a message and under running status", 0, 0, "90 3C 40 F8 3E 40"),
    ("clock between the data bytes under running status", 0, 0, "90 3C 40 3E F8 40"),
    ("start, continue, stop, reset inside a message", 0, 0, "90 FA 3C FB FC FF 40"),
    ("undefined real-time F9 and FD", 0, 0, "90 F9 3C FD 40 F9"),
    ("every real-time byte alone", 0, 0, "F8 F9 FA FB FC FD FE FF"),
    ("real-time bytes keep running status", 0, 0x95, "F8 F9 FA FB FC FD FE FF 3C 40"),
    ("exclusive", 0, 0, "F0 7E 7F 09 01 F7"),
    ("exclusive with real-time bytes inside", 0, 0, "F0 43 F8 12 00 FE 07 F7 90 3C 40"),
    ("exclusive clears running status", 0, 0, "90 3C 40 F0 01 02 F7 3E 40"),
    ("exclusive ended by a status byte", 0, 0, "F0 01 02 03 90 3C 40"),
    ("exclusive without an end", 0, 0, "90 3C 40 F0 01 02"),
    ("end of exclusive alone", 0, 0, "F7 3C 40"),
    ("end of exclusive alone clears running status", 0, 0x90, "F7 3C 40"),
    ("quarter frame", 0, 0x90, "F1 35 3C 40"),
    ("song position", 0, 0x90, "F2 10 08 3C 40"),
    ("song select", 0, 0x90, "F3 02 3C 40"),
    ("undefined F4 and F5", 0, 0x90, "F4 3C 40 F5 3C 40"),
    ("tune request", 0, 0, "90 3C 40 F6 3E 40 90 3E 40"),
    ("sustain pedal at 0, 63, 64, 127", 0, 0, "B0 40 00 40 3F 40 40 40 7F"),
    ("all notes off and the four modes", 0, 0, "B0 7B 00 7C 00 7D 00 7E 01 7F 00"),
    ("all sound off, reset controllers, local control", 0, 0, "B0 78 00 79 00 7A 7F"),
    ("controllers beside 64", 0, 0, "B0 3F 7F 41 7F 42 7F 43 7F"),
    ("bank select, modulation, volume", 0, 0, "B0 00 01 01 7F 07 64 20 00"),
    ("lowest and highest note and velocity", 0, 0, "90 00 01 7F 7F"),
    ("message abandoned by a status byte", 0, 0, "90 3C 80 3C 40"),
    ("message abandoned before any data", 0, 0, "90 B0 40 7F"),
    ("message abandoned by exclusive", 0, 0, "90 3C F0 01 F7 3E 40"),
    ("message abandoned by a tune request", 0, 0, "90 3C F6 40"),
    ("running message abandoned by a status byte", 0, 0x90, "3C C0 05 07"),
    ("message not abandoned by a real-time byte", 0, 0, "90 3C FF 40"),
    ("data bytes without status", 0, 0, "00 3C 40 7F"),
    ("data bytes without status, then a message", 0, 0, "3C 40 90 3C 40"),
    ("channel pressure, then note by its own status", 0, 0, "D0 10 90 3C 40"),
    ("empty stream", 0, 0, ""),
    ("empty stream under running status", 0, 0x90, ""),
    ("at the end", 3, 0, "90 3C 40"),
    ("at the end under running status", 3, 0x90, "90 3C 40"),
    ("running status with only real-time bytes behind", 0, 0x90, "F8 FE"),
    # document 01, E11 to E13
    ("E11", 0, 0, "90 3C 40 F8 3E 40"),
    ("E12", 0, 0, "90 3C 00"),
    ("E13", 0, 0, "90 3C"),
    # refusal 10
    ("ends behind a status byte", 0, 0, "90"),
    ("ends behind the status byte of a program change", 0, 0, "C0"),
    ("ends behind a status byte and real-time bytes", 0, 0, "90 F8 FE"),
    ("ends behind the first of two data bytes", 0, 0, "E0 7F"),
    ("ends behind a data byte and a real-time byte", 0, 0, "90 3C FE"),
    ("ends inside a message under running status", 0, 0, "90 3C 40 3E"),
    ("ends inside a message under the cursor's status", 0, 0x90, "3C"),
    ("ends inside a message behind skips, which are undone", 0, 0x90, "F6 01 02 90 3C"),
    ("ends inside a message behind an abandoned one", 0, 0x80, "01 90 3C C0"),
    ("ends inside a message, one byte from the end", 2, 0xB3, "90 3C 40"),
    # refusal 9
    ("place one beyond", 4, 0, "01 02 03"),
    ("place one beyond an empty stream", 1, 0, ""),
    ("place far beyond", 2**32 - 1, 0x90, "90 3C 40"),
    ("running status 01", 0, 0x01, "90 3C 40"),
    ("running status 7F", 0, 0x7F, ""),
    ("running status F0", 0, 0xF0, "90 3C 40"),
    ("running status F7", 0, 0xF7, ""),
    ("running status F8", 0, 0xF8, "F8"),
    ("running status FF", 0, 0xFF, ""),
    ("both: 9 comes before 10", 5, 0x90, "90 3C"),
    ("bad status on a stream cut short: 9 comes before 10", 0, 0x10, "90 3C"),
    ("first running status", 0, 0x80, "3C 40"),
    ("last running status", 0, 0xEF, "00 40"),
]

# Lines of another form.
UNREAD = [
    "",
    "midi",
    "(midi)",
    "(midi 0 00)",
    "(midi 0 00 )",
    "(midi 0 00 9)",
    "(midi 0 00 903)",
    "(midi 0 00 90 3C 40)",
    "(midi 0 00 903c40)",
    "(midi 0 9f 903C40)",
    "(midi 0 0 903C40)",
    "(midi 0 000 903C40)",
    "(midi 00 00 903C40)",
    "(midi 01 00 903C40)",
    "(midi -1 00 903C40)",
    "(midi  0 00 903C40)",
    "(midi 0  00 903C40)",
    "(midi 0 00  903C40)",
    " (midi 0 00 903C40)",
    "(midi 0 00 903C40) ",
    "(midi 0 00 903C40))",
    "(midi 0 00 903C40",
    "(midi 0 00 --)",
    "(midi 0 00 -",
    "(Midi 0 00 -)",
    "(midi x 00 -)",
    "(midi 4294967296 00 -)",
    "(midi 9999999999 00 -)",
    "(midi 10000000000000000000000 00 -)",
    "(midi 0 00 -)\r",
    "(midi 0 00 " + "F8" * 101 + ")",
    "(midi 0 00 " + "F8" * 122 + ")",
    "(midi 0 00 " + "F8" * 123 + ")",
    "(midi 0 00 " + "F8" * 400 + ")",
]

FULL = [line(0, 0, "F8" * 100), line(0, 0, "90" + "3C40" * 49 + "FE"), line(100, 0x90, "00" * 100)]


def message(rng, status=None):
    status = status or rng.randrange(0x80, 0xF0)
    count = 1 if status >> 4 in (0xC, 0xD) else 2
    data = [rng.randrange(0x80) for _ in range(count)]
    if status >> 4 == 0xB and rng.random() < 0.6:
        data[0] = rng.choice([63, 64, 65, 119, 120, 121, 122, 123, 124, 125, 126, 127])
        data[1] = rng.choice([0, 1, 63, 64, 65, 127])
    if status >> 4 == 0x9 and rng.random() < 0.3:
        data[1] = 0
    return [status] + data


def random_stream(rng):
    """Bytes of four mixtures: all alike, by class, whole messages, and whole messages with faults."""
    kind = rng.randrange(4)
    size = rng.choice([0, 1, 2, 3, 4, 6, 9, 14, 25, 60, 100])
    out = []
    if kind == 0:
        out = [rng.randrange(256) for _ in range(size)]
    elif kind == 1:
        classes = [range(0x80), CHANNEL, SYSTEM, REAL_TIME]
        weights = [rng.random() + 0.2 for _ in classes]
        out = [rng.choice(rng.choices(classes, weights)[0]) for _ in range(size)]
    else:
        last = None
        while len(out) < size:
            if last and rng.random() < 0.4:
                out += message(rng, last)[1:]
            else:
                out += message(rng)
                last = out[-2] if out[-2] >= 0x80 else out[-3]
            if kind == 3 and rng.random() < 0.3:
                out.insert(rng.randrange(len(out) + 1), rng.choice([0xF0, 0xF6, 0xF7, 0xFE, 0xF8, rng.randrange(256)]))
            if rng.random() < 0.2:
                out.insert(rng.randrange(len(out) + 1), rng.choice(list(REAL_TIME)))
        out = out[:size]
    return out


def random_line(rng):
    stream = random_stream(rng)
    place = 0
    if rng.random() < 0.3:
        place = rng.randrange(len(stream) + 3)
    status = 0
    draw = rng.random()
    if draw < 0.45:
        status = rng.randrange(0x80, 0xF0)
    elif draw < 0.5:
        status = rng.randrange(256)
    return line(place, status, "".join(f"{b:02X}" for b in stream))


def main():
    here = os.path.dirname(os.path.abspath(__file__))
    args = argparse.ArgumentParser()
    args.add_argument("--seed", type=int, default=1983)
    args.add_argument("--count", type=int, default=3000)
    args.add_argument("--out", default=os.path.join(here, "..", "crates", "midi_cases"))
    args = args.parse_args()
    rng = random.Random(args.seed)
    lines = [line(place, status, text) for _, place, status, text in PUBLISHED]
    lines += UNREAD + FULL
    lines += [random_line(rng) for _ in range(args.count)]
    # the last line has no line feed
    with open(os.path.join(args.out, "stdin"), "w", newline="") as f:
        f.write("\n".join(lines))
    with open(os.path.join(args.out, "stdout"), "w", newline="") as f:
        for text in lines:
            f.write("".join(a + "\n" for a in answers(text)))


if __name__ == "__main__":
    main()
