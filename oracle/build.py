#!/usr/bin/env python3
"""Builds target/oracle from the Rust in ../shared/docs/src and the files beside this one (README.md)."""
import pathlib
import re
import shutil
import subprocess
import sys

HERE = pathlib.Path(__file__).resolve().parent
RUST = HERE.parent.parent / "shared/docs/src/crates/tono-core/src"
OUT = HERE / "target"
CRATE = OUT / "crate"

# file, pattern, what stands for it, what it takes out. Each pattern must be met exactly once.
REPLACED = [
    ("instrument/mod.rs", r"2f32\.powf\(semitones [^;]*\)(?=;)", "crate::host::bend_factor(semitones)", "bend's powf"),
    ("instrument/mod.rs", r"1\.0 - \(-1\.0 [^\n]*\)\.exp\(\)", "crate::host::glide()", "glide_coeff's exp"),
    ("instrument/mod.rs", r"2f32\.powf\([^\n]*vib_phase\)\.sin\(\)\)", "crate::host::vibrato()", "vibrato's powf and sin"),
    ("instrument/mod.rs", r"2f32\.powf\([^\n]*flt_phase\)\.sin\(\)\)", "crate::host::filter()", "wobble's powf and sin"),
    ("instrument/mod.rs", r"\(tau \* self\.trem_phase\)\.sin\(\)", "crate::host::sine()", "tremolo's sin"),
]

# Each gets one line more at its end, which declares the probe module below it.
PROBED = ["instrument/mod.rs", "instrument/envelope.rs", "streaming/mod.rs"]
PLAIN = ["instrument/note.rs", "instrument/design.rs"]


def generate():
    shutil.rmtree(CRATE, ignore_errors=True)
    shutil.copytree(HERE / "src", CRATE)
    for name in PROBED + PLAIN:
        text = (RUST / name).read_text(encoding="utf-8")
        for where, pattern, new, what in REPLACED:
            if where != name:
                continue
            text, count = re.subn(pattern, new, text)
            if count != 1:
                sys.exit(f"oracle: {name}: {what} was found {count} times")
        if name in PROBED:
            text += "\npub(crate) mod probe;\n"
        place = CRATE / name
        place.parent.mkdir(parents=True, exist_ok=True)
        place.write_text(text, encoding="utf-8")


def rustc(*args):
    if subprocess.run(["rustc", "--edition", "2024", *map(str, args)]).returncode:
        sys.exit("oracle: rustc failed")


def main():
    generate()
    rustc("--crate-type", "proc-macro", "--crate-name", "serde", "--out-dir", OUT, HERE / "serde/lib.rs")
    serde = next(OUT.glob("libserde.*"))
    if sys.argv[1:] == ["bench"]:
        # The speed comparison: the Rust as fast as rustc makes it, with the Rattle side beside it.
        rustc("-C", "opt-level=3", "-C", "lto=fat", "-C", "codegen-units=1", "-C", "panic=abort", "-C", "debuginfo=1", "--cfg", "bench",
              "--check-cfg", "cfg(bench, test)", "--crate-name", "bench", "--extern", f"serde={serde}",
              "-C", f"link-arg={HERE.parent / 'crates/bench/out/libbench.a'}", "-o", OUT / "bench", CRATE / "bench.rs")
        return
    rustc("-C", "opt-level=2", "-C", "overflow-checks=on", "--check-cfg", "cfg(bench, test)", "--crate-name", "oracle", "--extern", f"serde={serde}",
          "-o", OUT / "oracle", CRATE / "main.rs")


main()
