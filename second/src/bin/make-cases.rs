//! `make-cases FILE [GROUP]` writes the framed inputs, of one group if it is named, and prints the counts.

use second::{cases, frames};

fn main() {
    let only = std::env::args().nth(2);
    let mut groups = cases::groups();
    groups.retain(|group| only.as_deref().is_none_or(|name| name == group.name));
    let bytes = frames::framed(groups.iter().flat_map(|group| &group.inputs));
    std::fs::write(frames::file_argument(), &bytes).expect("the file cannot be written");
    groups.iter().for_each(|group| println!("{} {}", group.inputs.len(), group.name));
    let inputs: usize = groups.iter().map(|group| group.inputs.len()).sum();
    println!("{inputs} inputs, {} bytes", bytes.len());
}
