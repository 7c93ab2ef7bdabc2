//! `parcel-cases FILE` writes framed cases for the parcel's reader and writer, and prints the counts.
//!
//! A frame is a 4-byte little-endian length in bytes and then one case. All numbers are 4-byte
//! little-endian words (depths too take a word each), the runs called bytes are raw, without gaps.
//! Before the call every byte of the lent row slices is 0x5A and every lent byte is 0xC3.
//!
//! Reader: 1, limit (256 or 4096), start, depth slots D, label slots L, input length N
//!         N bytes                                            the input
//!         number, place, rows, end                           the outcome (number 0: read)
//!         D depths, L labels                                 the lent row slices afterwards
//!
//! Writer: 2, depth slots D, label slots L, lent bytes B
//!         D depths, L labels                                 the rows
//!         number, place, length                              the outcome (number 0: written)
//!         B bytes                                            the lent bytes afterwards
//!
//! When the number is not 0, `rows`, `end` and `length` are 0; when it is 0, the place is 0.

use second::cases::damage::{byte_changes, cuts, damaged};
use second::cases::tables::{by_chance, Manner};
use second::cases::Chance;
use second::frames::{file_argument, framed, push_words};
use second::parcel::{self, Fields, Parcel};
use second::rows::{Refusal, Table};

/// A lent row slice for the reader: how many depth and label slots.
type Slots = (usize, usize);

fn reader_case(input: &[u8], start: usize, limit: usize, slots: Slots) -> Vec<u8> {
    let (mut depths, mut labels) = (vec![0x5a5a; slots.0], vec![0x5a5a_5a5a; slots.1]);
    let outcome = parcel::read(input, start, limit, &mut depths, &mut labels);
    let refusal = outcome.err().unwrap_or(Refusal { number: 0, place: 0 });
    let Parcel { rows, end } = outcome.unwrap_or(Parcel { rows: 0, end: 0 });
    let mut case = Vec::new();
    push_words(&mut case, [1, limit, start, slots.0, slots.1, input.len()].map(|number| number as u32));
    case.extend(input);
    push_words(&mut case, [refusal.number, refusal.place as u32, rows as u32, end as u32]);
    push_words(&mut case, depths.iter().map(|&depth| depth as u32).chain(labels));
    case
}

fn writer_case(table: &Table, lent: usize) -> Vec<u8> {
    let mut bytes = vec![0xc3; lent];
    let outcome = parcel::write(&table.depths, &table.labels, &mut bytes);
    let refusal = outcome.err().unwrap_or(Refusal { number: 0, place: 0 });
    let mut case = Vec::new();
    push_words(&mut case, [2, table.depths.len(), table.labels.len(), lent].map(|number| number as u32));
    push_words(&mut case, table.depths.iter().map(|&depth| depth as u32).chain(table.labels.iter().copied()));
    push_words(&mut case, [refusal.number, refusal.place as u32, outcome.unwrap_or(0) as u32]);
    case.extend(bytes);
    case
}

fn parcel_of(table: &Table) -> Vec<u8> {
    Fields::of(&table.depths, &table.labels).bytes()
}

/// Rows of any depths and any labels.
fn any_rows(chance: &mut Chance, rows: usize) -> Table {
    let mut table = Table::default();
    for _ in 0..rows {
        let depth = if chance.percent(50) { chance.below(4) as u16 } else { chance.word() as u16 };
        let label = [chance.below(4) as u32, chance.word() as u32, u32::MAX][chance.below(3)];
        table.push(depth, label);
    }
    table
}

fn small(chance: &mut Chance) -> Table {
    let rows = chance.below(7);
    any_rows(chance, rows)
}

/// A limit of either kind.
fn limit(chance: &mut Chance) -> usize {
    [256, 4096][chance.below(2)]
}

/// Every cut of small parcels, at the front of the input and after other bytes.
fn read_cuts(chance: &mut Chance) -> Vec<Vec<u8>> {
    let mut cases = Vec::new();
    for rows in 0..8 {
        let parcel = parcel_of(&any_rows(chance, rows));
        for before in [0, 1, 17] {
            let input = [vec![2; before], parcel.clone()].concat();
            let whole = std::iter::once(input.clone()).chain(cuts(&input));
            cases.extend(whole.map(|input| reader_case(&input, before, limit(chance), (rows, rows + 1))));
        }
    }
    cases
}

/// Every single-byte change of a small parcel, at both limits.
fn read_changes() -> Vec<Vec<u8>> {
    let recipe = parcel_of(&Table::brackets("10(20)"));
    let listing = [vec![0; 3], parcel_of(&Table::brackets("10(30(20))"))].concat();
    let mut cases: Vec<Vec<u8>> =
        byte_changes(&recipe).iter().map(|input| reader_case(input, 0, 256, (3, 3))).collect();
    cases.extend(byte_changes(&listing).iter().map(|input| reader_case(input, 3, 4096, (3, 3))));
    cases
}

fn read_damage(chance: &mut Chance) -> Vec<Vec<u8>> {
    let mut case = || {
        let parcel = parcel_of(&small(chance));
        let mut input = damaged(chance, parcel);
        input.extend((0..chance.below(9)).map(|_| 0));
        reader_case(&input, 0, limit(chance), (chance.below(12), chance.below(12)))
    };
    (0..4000).map(|_| case()).collect()
}

/// Every start inside the input and a few beyond it; two parcels stand in it.
fn read_starts(chance: &mut Chance) -> Vec<Vec<u8>> {
    let mut cases = Vec::new();
    for _ in 0..30 {
        let input = [parcel_of(&small(chance)), parcel_of(&small(chance))].concat();
        let beyond = [input.len() + 7, 4096, 65_536, u32::MAX as usize - 1, u32::MAX as usize];
        let starts = (0..=input.len() + 4).chain(beyond);
        cases.extend(starts.map(|start| reader_case(&input, start, limit(chance), (6, 6))));
    }
    cases
}

/// Lent slices one too short, just long enough and longer, with right and with wrong sums.
fn read_slots(chance: &mut Chance) -> Vec<Vec<u8>> {
    let mut cases = Vec::new();
    for _ in 0..40 {
        let table = small(chance);
        let rows = table.rows();
        for code in 0..32 {
            let slots = [rows.saturating_sub(1), rows, rows + 1, 0];
            let mut input = parcel_of(&table);
            input[6 * rows + 12] ^= (code / 16) as u8;
            cases.push(reader_case(&input, 0, limit(chance), (slots[code % 4], slots[code / 4 % 4])));
        }
    }
    cases
}

/// Counts at both limits and one over, whole, cut short, and with slots at and below the count.
fn read_limits(chance: &mut Chance) -> Vec<Vec<u8>> {
    let mut cases = Vec::new();
    for rows in [255, 256, 257, 4095, 4096, 4097] {
        let parcel = parcel_of(&any_rows(chance, rows));
        for limit in [256, 4096] {
            for slots in [(rows, rows), (rows - 1, rows), (rows, rows - 1), (rows + 1, rows + 2)] {
                cases.push(reader_case(&parcel, 0, limit, slots));
            }
            cases.push(reader_case(&parcel[..parcel.len() - 1], 0, limit, (rows, rows)));
            cases.push(reader_case(&parcel[..3], 0, limit, (2, 2)));
            cases.push(reader_case(&parcel[..4], 0, limit, (2, 2)));
        }
    }
    for count in [0x0001_0000, 0x0100_0000, 0x4000_0001, u32::MAX - 1, u32::MAX] {
        let input = [&count.to_le_bytes()[..], &[0; 40]].concat();
        [256, 4096].iter().for_each(|&limit| cases.push(reader_case(&input, 0, limit, (4, 4))));
    }
    cases
}

/// One field wrong at a time, or several, with wrapping sums.
fn read_fields(chance: &mut Chance) -> Vec<Vec<u8>> {
    let mut case = || {
        let table = small(chance);
        let mut fields = Fields::of(&table.depths, &table.labels);
        for _ in 0..chance.between(1, 2) {
            let by = [1, u32::MAX, 256, 1 << 31, chance.word() as u32][chance.below(5)];
            match chance.below(6) {
                0 => fields.first = fields.first.wrapping_add(by),
                1 => fields.second = fields.second.wrapping_add(by),
                2 => fields.third = fields.third.wrapping_add(by),
                3 => fields.sums[0] = fields.sums[0].wrapping_add(by),
                4 => fields.sums[1] = fields.sums[1].wrapping_add(by),
                _ => fields.labels.reverse(),
            }
        }
        reader_case(&fields.bytes(), 0, limit(chance), (6, 6))
    };
    (0..2000).map(|_| case()).collect()
}

/// Written with too few, just enough and more lent bytes; slices that differ in length.
fn written(chance: &mut Chance) -> Vec<Vec<u8>> {
    let case = |i: usize| {
        let mut table = small(chance);
        if i % 5 == 0 {
            table.labels.resize(chance.below(8), 4);
        }
        let length = 20 + 6 * table.rows();
        let lent = [length, length - 1, length + 1, length + chance.below(30), chance.below(length), 0][i % 6];
        writer_case(&table, lent)
    };
    (0..3000).map(case).collect()
}

/// The writer at the limit and one over, with well-formed rows and with any.
fn write_limits(chance: &mut Chance) -> Vec<Vec<u8>> {
    let mut cases = Vec::new();
    for rows in [256, 257, 4095, 4096, 4097] {
        let good = by_chance(chance, rows, Manner { rise: 50, deepest: 63, labels: 9 });
        let mut differing = good.clone();
        differing.labels.pop();
        for table in [good, any_rows(chance, rows), differing] {
            let length = 20 + 6 * rows;
            [length, length - 1, length + 6, 0].iter().for_each(|&lent| cases.push(writer_case(&table, lent)));
        }
    }
    cases
}

/// Rows in even steps that keep the low byte of the lent bytes: the proved program's cases can fill rows and bytes so.
fn write_steps(chance: &mut Chance) -> Vec<Vec<u8>> {
    let mut cases = Vec::new();
    let sizes: Vec<usize> = (0..600).map(|i| i % 12).chain([255, 256, 257, 4095, 4096, 4097]).collect();
    for rows in sizes {
        let (first, step) = (chance.word() as u32 & !0xff | 0xc3, chance.word() as u32 & !0xff);
        let labels = |count| (0..count as u32).map(|i| first.wrapping_add(i.wrapping_mul(step))).collect::<Vec<_>>();
        let depths = |count| labels(count).iter().map(|&label| label as u16).collect::<Vec<_>>();
        let length = 20 + 6 * rows;
        for lent in [0, length - 1, length, length + chance.below(30)] {
            cases.push(writer_case(&Table { depths: depths(rows), labels: labels(rows) }, lent));
        }
        cases.push(writer_case(&Table { depths: depths(rows), labels: labels(rows + 1) }, length));
        cases.push(writer_case(&Table { depths: depths(rows + 1), labels: labels(rows) }, length));
    }
    cases
}

fn main() {
    let mut chance = Chance(5);
    let groups = [
        ("read-cuts", read_cuts(&mut chance)),
        ("read-changes", read_changes()),
        ("read-damage", read_damage(&mut chance)),
        ("read-starts", read_starts(&mut chance)),
        ("read-slots", read_slots(&mut chance)),
        ("read-limits", read_limits(&mut chance)),
        ("read-fields", read_fields(&mut chance)),
        ("written", written(&mut chance)),
        ("write-limits", write_limits(&mut chance)),
        ("write-steps", write_steps(&mut chance)),
    ];
    let bytes = framed(groups.iter().flat_map(|(_, group)| group));
    std::fs::write(file_argument(), &bytes).expect("the file cannot be written");
    groups.iter().for_each(|(name, group)| println!("{} {name}", group.len()));
    println!("{} cases, {} bytes", groups.iter().map(|(_, group)| group.len()).sum::<usize>(), bytes.len());
}
