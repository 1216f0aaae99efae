//! Answers of the Rust (README.md). Input comes on standard input, answers go to standard output.

#![allow(dead_code, unused_imports, unused_variables)]

mod dsl;
mod dsp;
mod host;
mod instrument;
mod leaf;
mod midi;
mod parse;
mod patch;
mod replay;
mod runtime;
mod streaming;

use std::io::{BufWriter, Write};

fn main() {
    let which = std::env::args().nth(1).unwrap_or_default();
    let mut out = BufWriter::with_capacity(1 << 16, std::io::stdout().lock());
    match which.as_str() {
        "leaf" => leaf::run(&mut out),
        "notes" => leaf::notes(&mut out),
        "replay" => replay::run(&mut out, false),
        "script" => replay::run(&mut out, true),
        _ => {
            eprintln!("usage: oracle leaf|notes|replay|script");
            std::process::exit(2);
        }
    }
    .expect("write");
    out.flush().expect("flush");
}
