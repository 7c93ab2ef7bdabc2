//! Every number of refusal an input can get, alone and together with others.

use super::tables::{beside, by_chance, chain, Manner};
use super::{Chance, Group};
use crate::parcel::Fields;
use crate::rows::Table;

/// Both parcels field by field, and the bytes after them.
#[derive(Clone)]
struct Draft {
    parcels: [Fields; 2],
    after: Vec<u8>,
}

impl Draft {
    fn of(recipe: &Table, listing: &Table) -> Draft {
        let parcels = [recipe, listing].map(|table| Fields::of(&table.depths, &table.labels));
        Draft { parcels, after: Vec::new() }
    }

    fn bytes(&self) -> Vec<u8> {
        [self.parcels[0].bytes(), self.parcels[1].bytes(), self.after.clone()].concat()
    }
}

pub fn groups() -> Vec<Group> {
    let mut chance = Chance(2);
    vec![
        Group { name: "bad-depths", inputs: bad_depths(&mut chance) },
        Group { name: "no-recipe-rows", inputs: no_recipe_rows(&mut chance) },
        Group { name: "bad-fields", inputs: bad_fields(&mut chance) },
        Group { name: "several-refusals", inputs: several(&mut chance) },
    ]
}

fn small(chance: &mut Chance, least: usize, most: usize) -> Table {
    let rows = chance.between(least, most);
    by_chance(chance, rows, Manner { rise: 60, deepest: 5, labels: 3 })
}

/// Sets one depth, mostly to a bad one; sums are made after this, so they hold.
fn spoil_depth(chance: &mut Chance, table: &mut Table) {
    if table.rows() > 0 {
        let row = chance.below(table.rows());
        let before = if row == 0 { 0 } else { table.depths[row - 1] };
        table.depths[row] = [before.wrapping_add(1), before.wrapping_add(2), 63, 64, 65, 100, 65535][chance.below(7)];
    }
}

/// Numbers 4, 5, 8 and 9 at every row, alone and several at once.
fn bad_depths(chance: &mut Chance) -> Vec<Vec<u8>> {
    let mut inputs = Vec::new();
    for _ in 0..1500 {
        let (mut recipe, mut listing) = (small(chance, 1, 6), small(chance, 1, 9));
        let (in_recipe, in_listing) = (chance.below(3), chance.below(3));
        (0..in_recipe).for_each(|_| spoil_depth(chance, &mut recipe));
        (0..in_listing).for_each(|_| spoil_depth(chance, &mut listing));
        inputs.push(Draft::of(&recipe, &listing).bytes());
    }
    // A chain reaches a depth over 63 by good steps; a bad step stands before, in the same row, or after it.
    for last in 63..70 {
        for bad in [0, 1, 30, 63, 64, 65, 66] {
            for depth in [0, 31, 64, 65, 66, 67, 200] {
                let mut long = beside(&[chain(last, 3), chain(1, 3)]);
                if let Some(slot) = long.depths.get_mut(bad) {
                    *slot = depth;
                }
                let other = small(chance, 1, 3);
                inputs.push(Draft::of(&long, &other).bytes());
                inputs.push(Draft::of(&other, &long).bytes());
                inputs.push(Draft::of(&long, &long).bytes());
            }
        }
    }
    inputs
}

/// Number 2, before whatever is wrong with the listing.
fn no_recipe_rows(chance: &mut Chance) -> Vec<Vec<u8>> {
    let mut inputs = Vec::new();
    for _ in 0..200 {
        let mut listing = small(chance, 0, 6);
        if chance.percent(50) {
            spoil_depth(chance, &mut listing);
        }
        let mut draft = Draft::of(&Table::default(), &listing);
        if chance.percent(30) {
            spoil_field(chance, &mut draft);
        }
        inputs.push(draft.bytes());
    }
    inputs
}

/// A word near the right one, or far from it.
fn other_word(chance: &mut Chance, word: u32) -> u32 {
    let by = [1, 2, 255, 256, 1 << 16, 1 << 24, 1 << 31][chance.below(7)];
    match chance.below(4) {
        0 => word.wrapping_add(by),
        1 => word.wrapping_sub(by),
        2 => [0, 1, 2, 3, 256, 257, 4096, 4097, u32::MAX][chance.below(9)],
        _ => chance.word() as u32,
    }
}

/// Spoils one field: numbers 11 to 16.
fn spoil_field(chance: &mut Chance, draft: &mut Draft) {
    let field = chance.below(9);
    let parcel = &mut draft.parcels[chance.below(2)];
    match field {
        0 => parcel.first = other_word(chance, parcel.first),
        1 => parcel.second = other_word(chance, parcel.second),
        2 => parcel.third = other_word(chance, parcel.third),
        3 => parcel.sums[0] = other_word(chance, parcel.sums[0]),
        4 => parcel.sums[1] = other_word(chance, parcel.sums[1]),
        // Two labels exchanged leave the first sum right and the second wrong.
        5 if parcel.labels.len() > 1 => parcel.labels.rotate_left(1),
        6 if !parcel.depths.is_empty() => parcel.depths[0] ^= 1 << chance.below(16),
        7 => drop(parcel.labels.pop()),
        _ => draft.after = (0..chance.between(1, 40)).map(|_| chance.word() as u8).collect(),
    }
}

fn bad_fields(chance: &mut Chance) -> Vec<Vec<u8>> {
    (0..4000)
        .map(|_| {
            let mut draft = Draft::of(&small(chance, 1, 5), &small(chance, 0, 6));
            spoil_field(chance, &mut draft);
            draft.bytes()
        })
        .collect()
}

/// Bad depths, bad fields and a cut together, to try the order.
fn several(chance: &mut Chance) -> Vec<Vec<u8>> {
    let mut inputs = Vec::new();
    for _ in 0..4000 {
        let (mut recipe, mut listing) = (small(chance, 0, 5), small(chance, 0, 6));
        spoil_depth(chance, &mut recipe);
        spoil_depth(chance, &mut listing);
        let mut draft = Draft::of(&recipe, &listing);
        let spoiled = chance.below(4);
        (0..spoiled).for_each(|_| spoil_field(chance, &mut draft));
        let mut bytes = draft.bytes();
        if chance.percent(30) {
            bytes.truncate(chance.below(bytes.len() + 1));
        }
        inputs.push(bytes);
    }
    inputs
}
