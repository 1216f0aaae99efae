#!/usr/bin/env python3
"""Fails unless the note table's two forms are what the compiled Rust answers (oracle/run notes)."""
import pathlib
import re
import struct
import subprocess
import sys
from fractions import Fraction

ROOT = pathlib.Path(__file__).resolve().parent.parent


def value(bits):
    return Fraction(struct.unpack(">f", bits.to_bytes(4, "big"))[0])


def reads_as(literal, bits):
    """Whether a decimal literal, rounded once, is the positive float of that pattern."""
    near = Fraction(literal)
    low, x, high = value(bits - 1), value(bits), value(bits + 1)
    return (low + x) / 2 < near < (x + high) / 2


def main():
    rust = [int(w, 16) for w in subprocess.run([ROOT / "oracle/run", "notes"], capture_output=True, text=True, check=True).stdout.split()]
    spec = (ROOT / "crates/note/specs/Frequency.antt").read_text()
    patterns = [int(w.replace("_", ""), 16) for w in re.findall(r"0x([0-9a-f_]+)", spec)]
    code = (ROOT / "crates/note/src/lib.rt").read_text()
    literals = re.search(r"const FREQ: \[f32; 256\] = \[(.*?)\];", code, re.S).group(1).replace(",", " ").split()
    bad = 0
    if not len(rust) == len(patterns) == len(literals) == 256:
        sys.exit(f"lengths: rust {len(rust)}, patterns {len(patterns)}, constants {len(literals)}")
    for n in range(256):
        if rust[n] != patterns[n] or not reads_as(literals[n], rust[n]):
            print(f"note {n}: rust {rust[n]:08X}, pattern {patterns[n]:08X}, constant {literals[n]}")
            bad += 1
    if bad:
        sys.exit(f"{bad} notes differ")
    print("256 notes: the Rust, specs/Frequency.antt and src/lib.rt agree")


main()
