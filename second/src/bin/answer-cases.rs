//! `answer-cases FILE` reads framed inputs and prints one line each.

use second::{answer, frames};
use std::io::Write;

fn main() {
    let file = std::fs::read(frames::file_argument()).expect("the file cannot be read");
    let mut out = std::io::BufWriter::new(std::io::stdout().lock());
    for input in frames::cases(&file).expect("framed inputs are wanted") {
        out.write_all(answer::line(input).as_bytes()).expect("the line cannot be printed");
    }
    out.flush().expect("the lines cannot be printed");
}
