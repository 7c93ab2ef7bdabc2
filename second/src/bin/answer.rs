//! `answer` reads one input on standard input and prints the line.

use std::io::Read;

fn main() {
    let mut input = Vec::new();
    std::io::stdin().read_to_end(&mut input).expect("standard input cannot be read");
    print!("{}", second::answer::line(&input));
}
