//! `bench-answer` times the whole way, bytes in and line out: the C entry beside the answer of this program, in one run. Each turn
//! times both on a case, and the best turn of each counts. The feature `entry` builds it: it links the C entry's library.

use second::answer;
use second::cases::tables::Run;
use second::cases::{input, whole_case};
use second::rows::Table;
use std::hint::black_box;
use std::time::Instant;

const TURNS: usize = 40;
const LINE: usize = 1295;
/// How long a turn of one program lasts at least, in microseconds.
const TURN: f64 = 2000.0;

#[link(name = "host", kind = "static")]
extern "C" {
    fn polashvek_answer(input: *const u8, input_length: usize, answer: *mut u8, answer_length: usize) -> usize;
}

/// The line of the C entry, at the front of the buffer.
fn entry<'a>(input: &[u8], answer: &'a mut [u8; LINE]) -> &'a [u8] {
    // Both are whole slices, apart from each other, and lent for this call alone.
    let length = unsafe { polashvek_answer(input.as_ptr(), input.len(), answer.as_mut_ptr(), LINE) };
    &answer[..length]
}

/// Microseconds of one call, over so many of them.
fn timed(calls: usize, mut call: impl FnMut()) -> f64 {
    let start = Instant::now();
    (0..calls).for_each(|_| call());
    start.elapsed().as_secs_f64() * 1e6 / calls as f64
}

/// The best times of both calls over all turns.
fn best(mut first: impl FnMut(), mut second: impl FnMut()) -> (f64, f64) {
    let calls = |once: f64| (TURN / once) as usize + 1;
    let (many, few) = (calls(timed(3, &mut first)), calls(timed(3, &mut second)));
    let turns = (0..TURNS).map(|_| (timed(many, &mut first), timed(few, &mut second)));
    turns.fold((f64::INFINITY, f64::INFINITY), |best, turn| (best.0.min(turn.0), best.1.min(turn.1)))
}

fn measure(name: &str, input: &[u8]) {
    let mut room = [0; LINE];
    let line = answer::line(input);
    assert_eq!(entry(input, &mut room), line.as_bytes(), "{name}: the lines differ");
    let (proved, second) =
        best(|| _ = black_box(entry(black_box(input), &mut room)), || _ = black_box(answer::line(black_box(input))));
    let word = line.split(' ').next().unwrap();
    let (bytes, rate, ratio) = (input.len(), 1e6 / proved, proved / second);
    println!("{name:28} {bytes:6} bytes  {word:8} {proved:8.1} us {rate:8.0} a second   second program {ratio:6.4}");
}

/// One label, a chain with a leaf left of each link.
fn comb(height: u16) -> Table {
    let depths: Vec<u16> = (0..2 * height - 1).map(|row| (row + 1) / 2).collect();
    Table { labels: vec![1; depths.len()], depths }
}

/// A recipe and a listing: the comb with a label of its own in its last row, and the comb with chains of that label behind each leaf.
fn comb_among(height: u16, chains: usize, rows: u16) -> [Table; 2] {
    let mut tables = [(); 2].map(|()| Table { depths: vec![], labels: vec![] });
    let grow = |table: &mut Table, depth, label| {
        table.depths.push(depth);
        table.labels.push(label);
    };
    for depth in 0..height {
        for table in &mut tables {
            (depth..height.min(depth + 2)).for_each(|depth| grow(table, depth, 1));
        }
        for _ in 0..if depth + 1 < height { chains } else { 0 } {
            (depth + 1..=63.min(depth + rows)).for_each(|depth| grow(&mut tables[1], depth, 2));
        }
    }
    tables.iter_mut().for_each(|table| *table.labels.last_mut().unwrap() = 2);
    tables
}

fn main() {
    println!("the whole way: microseconds of the C entry, questions a second, and its ratio to the second program");
    measure("document 01's whole case", &whole_case());
    let run = |tiles| Run { lanes: 10, cycles: 20, tiles, same: false }.table();
    let (recipe, listing) = (run(0), run(18));
    let whole = input(&recipe, &listing);
    measure("run folder, whole", &whole);
    let mut lost = listing.clone();
    let last_cycle = lost.depths.iter().rposition(|&depth| depth == 4).unwrap();
    lost.labels[last_cycle] = 7;
    measure("run folder, one row lost", &input(&recipe, &lost));
    let small = Table { depths: recipe.depths[..19].to_vec(), labels: recipe.labels[..19].to_vec() };
    measure("run folder, small recipe", &input(&small, &listing));
    measure("comb, h = 63", &input(&comb(31), &comb(63)));
    let mut other = comb(31);
    *other.labels.last_mut().unwrap() = 2;
    measure("comb, h = 63, last label new", &input(&other, &comb(63)));
    let [recipe, listing] = comb_among(63, 31, 2);
    measure("comb among pairs, h = 63", &input(&recipe, &listing));
    let [recipe, listing] = comb_among(5, 100, 10);
    measure("small comb among chains", &input(&recipe, &listing));
    let mut damaged = whole;
    *damaged.last_mut().unwrap() ^= 1;
    measure("run folder, a sum differs", &damaged);
}
