//! Damaged bytes: cuts, single-byte changes, chance damage and extra bytes.

use super::tables::{by_chance, Manner};
use super::{input, whole_case, Chance, Group};
use crate::rows::Table;

pub fn groups() -> Vec<Group> {
    let mut chance = Chance(3);
    let forest = input(&Table::brackets("7 7(8)"), &Table::brackets("7(7) 8 7(9(8))"));
    vec![
        Group { name: "cuts", inputs: [whole_case(), forest].iter().flat_map(|bytes| cuts(bytes)).collect() },
        Group { name: "byte-changes", inputs: byte_changes(&whole_case()) },
        Group { name: "chance-damage", inputs: chance_damage(&mut chance) },
        Group { name: "extra-bytes", inputs: extra_bytes(&mut chance) },
    ]
}

/// Every beginning of the bytes, the empty one included.
pub fn cuts(bytes: &[u8]) -> Vec<Vec<u8>> {
    (0..bytes.len()).map(|length| bytes[..length].to_vec()).collect()
}

/// Every change of a single byte.
pub fn byte_changes(bytes: &[u8]) -> Vec<Vec<u8>> {
    let changes = (0..bytes.len()).flat_map(|at| (1..=255).map(move |change| (at, change)));
    changes
        .map(|(at, change): (usize, u8)| {
            let mut changed = bytes.to_vec();
            changed[at] = changed[at].wrapping_add(change);
            changed
        })
        .collect()
}

/// A few changed bytes, a removed byte, an inserted byte, or a cut.
pub fn damaged(chance: &mut Chance, mut bytes: Vec<u8>) -> Vec<u8> {
    for _ in 0..chance.between(1, 3) {
        let at = chance.below(bytes.len().max(1));
        match chance.below(6) {
            _ if bytes.is_empty() => bytes.push(chance.word() as u8),
            0 => drop(bytes.remove(at)),
            1 => bytes.insert(at, chance.word() as u8),
            2 => bytes.truncate(at),
            3 => bytes[at] ^= 1 << chance.below(8),
            _ => bytes[at] = chance.word() as u8,
        }
    }
    bytes
}

fn small_input(chance: &mut Chance) -> Vec<u8> {
    let manner = Manner { rise: 50, deepest: 4, labels: 3 };
    let (recipe_rows, listing_rows) = (chance.between(1, 5), chance.between(0, 9));
    input(&by_chance(chance, recipe_rows, manner), &by_chance(chance, listing_rows, manner))
}

fn chance_damage(chance: &mut Chance) -> Vec<Vec<u8>> {
    let mut inputs: Vec<Vec<u8>> = (0..6000)
        .map(|_| {
            let bytes = small_input(chance);
            damaged(chance, bytes)
        })
        .collect();
    inputs.extend((0..1000).map(|_| (0..chance.below(90)).map(|_| chance.below(4) as u8).collect()));
    inputs
}

fn extra_bytes(chance: &mut Chance) -> Vec<Vec<u8>> {
    (1..=400)
        .map(|extra| {
            let mut bytes = small_input(chance);
            bytes.extend((0..extra % 80 + 1).map(|_| chance.word() as u8));
            bytes
        })
        .collect()
}
