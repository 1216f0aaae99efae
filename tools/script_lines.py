#!/usr/bin/env python3
"""Prints the lines that voicescript is run on in the gate (crates/voicescript/stdin).

    tools/script_lines.py > crates/voicescript/stdin
    oracle/run script < crates/voicescript/stdin > crates/voicescript/stdout

The example of the specification comes first, but a session has one accepted design, so lines that are unread or refused
before a design come before it. Then come lines that are nearly a form, then notes on a larger table. The last line has no line feed.
"""
import random
import sys

EXAMPLE = ("(design (rate 48000) (max 1) (mode poly) (unison 1 00000000) (amp 00000000 00000000 3F000000 00000000) "
           "(glide 3F800000) (mod 00000000 00000000 00000000 00000000 00000000 00000000))")


def before():
    """No design is accepted yet: everything is unread or refused."""
    yield "(on 60 3F800000 1)"
    yield "(voices)"
    yield ""
    for old, new in [("48000", "7999"), ("48000", "192001"), ("48000", "4294967295"), ("max 1", "max 0"), ("max 1", "max 33"),
                     ("max 1", "max 257"), ("max 1", "max 4294967295"), ("unison 1", "unison 9"), ("unison 1", "unison 264"),
                     ("3F000000", "7FC00000"), ("3F000000", "7F800000"), ("(glide 3F800000)", "(glide FF800000)"),
                     ("unison 1 00000000", "unison 1 7F800001")]:
        yield EXAMPLE.replace(old, new)
    for old, new in [("48000", "048000"), ("48000", "4294967296"), ("48000", "-1"), ("48000", "48000.0"), ("48000", ""),
                     ("max 1", "max  1"), ("max 1", "max 01"), ("poly", "Poly"), ("poly", "poly "), ("poly", "monos"),
                     ("3F000000", "3f000000"), ("3F000000", "3F00000"), ("3F000000", "3F0000000"), ("(amp", "( amp"),
                     ("(glide 3F800000) ", ""), ("(design", "(Design"), ("(design ", "(design  "), ("))", ")"), ("))", ")))"),
                     ("00000000))", "00000000 00000000))"), ("(unison 1 00000000)", "(unison 1)"), ("(rate", "\t(rate")]:
        yield EXAMPLE.replace(old, new, 1) if old != "))" else EXAMPLE[:-2] + new
    yield EXAMPLE + " "
    yield " " + EXAMPLE
    yield EXAMPLE + "\r"
    yield EXAMPLE + EXAMPLE


def example():
    yield EXAMPLE
    yield "(on 60 3F800000 1)"
    yield "(on 64 3F000000 1)"
    yield "(on 67 3F800000 1)"
    yield "(voices)"


def near():
    """After the design: another design, and lines that are nearly a form."""
    yield EXAMPLE
    yield EXAMPLE.replace("max 1", "max 0")
    for line in ["(on 256 3F800000 1)", "(on 060 3F800000 1)", "(on 60 3F800000 2)", "(on 60 3F800000 01)", "(on 60 3f800000 1)",
                 "(on 60 3F80000G 1)", "(on 60 3F800000)", "(on 60 3F800000 1 1)", "(on  60 3F800000 1)", "(on 60 3F800000 1))",
                 "on 60 3F800000 1", "(ON 60 3F800000 1)", "(on 4294967296 3F800000 1)", "(on 60 3F800000 1) ", "(voices )",
                 "( voices)", "(voices)(voices)", "(voice)", "()", "(", ")", " ", "(on 60 3F800000 1)\r", "\0", "(voices\0)",
                 "\u00e9", "x" * 255, "x" * 256, "x" * 257, "x" * 5000, "(voices)" + " " * 248, "(voices)" + " " * 249]:
        yield line
    yield "(voices)"


def notes(seed):
    """Struck, silent, faint, no number and off."""
    r = random.Random(seed)
    words = ["3F800000", "3F000000", "00000000", "80000000", "7FC00000", "FFC00001", "BF800000", "7F800000", "FF800000", "00000001",
             "3F800001", "3F7FFFFF"]
    for _ in range(200):
        if r.random() < 0.2:
            yield "(voices)"
        else:
            yield f"(on {r.choice([0, 59, 60, 61, 127, 255])} {r.choice(words)} {r.choice([0, 1, 1, 1])})"


def main():
    lines = [*before(), *example(), *near(), *notes(1), "(voices)"]
    sys.stdout.buffer.write("\n".join(lines).encode("utf-8"))


main()
