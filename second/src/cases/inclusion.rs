//! Inputs that are answered with `included` or `absent`, and those at the limits.

use super::tables::{beside, by_chance, chain, every_table, every_table_of, kept, left_comb, right_comb, Manner, Run};
use super::{input, whole_case, Chance, Group, MARKED};
use crate::rows::{Table, LISTING_ROWS, RECIPE_ROWS};

pub fn groups() -> Vec<Group> {
    let mut chance = Chance(1);
    vec![
        Group { name: "marked", inputs: marked() },
        Group { name: "exhaustive", inputs: exhaustive() },
        Group { name: "small", inputs: by_size(&mut chance, 24_000, 9, 24) },
        Group { name: "middle", inputs: by_size(&mut chance, 3_000, 40, 300) },
        Group { name: "large", inputs: by_size(&mut chance, 160, RECIPE_ROWS, LISTING_ROWS) },
        Group { name: "combs", inputs: combs(&mut chance) },
        Group { name: "run-folders", inputs: run_folders(&mut chance) },
        Group { name: "limits", inputs: limits(&mut chance) },
    ]
}

fn marked() -> Vec<Vec<u8>> {
    let pairs = MARKED.iter().map(|(recipe, listing, _)| input(&Table::brackets(recipe), &Table::brackets(listing)));
    std::iter::once(whole_case()).chain(pairs).collect()
}

/// All pairs of up to 4 rows over two labels; with 5 listing rows, those whose recipe begins with label 1
/// (the others are the same with the labels exchanged).
fn exhaustive() -> Vec<Vec<u8>> {
    let (recipes, five) = (every_table_of(1, 4, 2), every_table(5, 2));
    let mut inputs = Vec::new();
    for recipe in &recipes {
        inputs.extend(every_table_of(0, 4, 2).iter().map(|listing| input(recipe, listing)));
        if recipe.labels[0] == 1 {
            inputs.extend(five.iter().map(|listing| input(recipe, listing)));
        }
    }
    inputs
}

/// Deep, wide and mixed, with one, few and many labels.
fn manner(chance: &mut Chance) -> Manner {
    let rise = [5, 20, 50, 80, 95][chance.below(5)];
    let deepest = [1, 2, 5, 20, 63][chance.below(5)];
    let labels = [1, 2, 3, 10, 1000, u32::MAX][chance.below(6)];
    Manner { rise, deepest, labels }
}

/// A recipe near a listing: kept from it, kept with one label or depth changed, or made apart.
fn recipe_for(chance: &mut Chance, listing: &Table, manner: Manner, most: usize) -> Table {
    let rows = chance.between(1, most);
    let mut recipe = kept(chance, listing, rows);
    if chance.percent(34) || recipe.rows() == 0 {
        return by_chance(chance, rows, manner);
    }
    if chance.percent(50) {
        let row = chance.below(recipe.rows());
        if chance.percent(50) {
            recipe.labels[row] = listing.labels[chance.below(listing.rows())];
        } else if row > 0 {
            recipe.depths[row] = chance.below(recipe.depths[row - 1] as usize + 2).min(63) as u16;
            (row + 1..recipe.rows()).for_each(|i| recipe.depths[i] = recipe.depths[i].min(recipe.depths[i - 1] + 1));
        }
    }
    recipe
}

fn by_size(chance: &mut Chance, inputs: usize, recipe_rows: usize, listing_rows: usize) -> Vec<Vec<u8>> {
    let mut pair = || {
        let manner = manner(chance);
        let rows = chance.between(0, listing_rows);
        let listing = by_chance(chance, rows, manner);
        input(&recipe_for(chance, &listing, manner, recipe_rows), &listing)
    };
    (0..inputs).map(|_| pair()).collect()
}

/// Combs of both sorts against each other, one beside another, with one label and with two.
fn combs(chance: &mut Chance) -> Vec<Vec<u8>> {
    let comb = |chance: &mut Chance, levels: usize| {
        let tooth = 1 + chance.below(2) as u32;
        let make = if chance.percent(50) { right_comb } else { left_comb };
        make(levels as u16, 1, tooth)
    };
    let forest = |chance: &mut Chance, combs: usize, levels: usize| {
        let combs: Vec<Table> = (0..combs).map(|_| comb(chance, levels)).collect();
        beside(&combs)
    };
    let mut inputs = Vec::new();
    for _ in 0..1500 {
        let (combs, levels) = (chance.between(1, 2), chance.between(1, 12));
        let recipe = forest(chance, combs, levels);
        let (combs, levels) = (chance.between(1, 4), chance.between(1, 20));
        inputs.push(input(&recipe, &forest(chance, combs, levels)));
    }
    for levels in [20, 40, 62, 63] {
        for combs in [1, 2, 8, 32] {
            let recipe = forest(chance, 1 + combs % 2, levels);
            inputs.push(input(&recipe, &forest(chance, combs, 63)));
            inputs.push(input(&forest(chance, 2, levels), &forest(chance, combs, levels)));
        }
    }
    inputs
}

/// A run folder against a smaller one, an equal one, or one with a lane, cycle or tile too many.
fn run_folders(chance: &mut Chance) -> Vec<Vec<u8>> {
    let mut inputs = Vec::new();
    while inputs.len() < 900 {
        let most = if inputs.len() < 850 { 6 } else { 60 };
        let (lanes, cycles) = (chance.between(1, 8), chance.between(1, most));
        let run = Run { lanes, cycles, tiles: chance.between(0, most), same: chance.percent(50) };
        let mut part = Run {
            lanes: chance.between(1, run.lanes + 1),
            cycles: chance.between(1, run.cycles + 1),
            tiles: chance.between(0, run.tiles + 1),
            same: run.same,
        };
        if part.rows() > RECIPE_ROWS {
            part = Run { lanes: 1, cycles: 1, ..part };
        }
        if run.rows() <= LISTING_ROWS {
            let recipe = if chance.percent(60) { part.table() } else { kept(chance, &run.table(), 30) };
            inputs.push(input(&recipe, &run.table()));
        }
    }
    inputs
}

/// Recipes of 255 to 257 rows, listings of 4,095 to 4,097, chains whose last depth is 62 to 64.
fn limits(chance: &mut Chance) -> Vec<Vec<u8>> {
    let mut inputs = Vec::new();
    for labels in [1, 2, 40] {
        let manner = Manner { rise: 50, deepest: 63, labels };
        for listing_rows in [0, 255, 256, 4095, 4096, 4097] {
            for recipe_rows in [0, 1, 255, 256, 257] {
                let listing = by_chance(chance, listing_rows, manner);
                let apart = by_chance(chance, recipe_rows, manner);
                inputs.push(input(&kept(chance, &listing, recipe_rows), &listing));
                inputs.push(input(&apart, &listing));
            }
        }
        for (recipe_last, listing_last) in (0..9).map(|i| (62 + i / 3, 62 + i % 3)) {
            inputs.push(input(&chain(recipe_last, labels), &chain(listing_last, labels)));
            let few = beside(&[chain(3, labels), chain(recipe_last, labels)]);
            inputs.push(input(&few, &beside(&[chain(9, labels), few.clone(), chain(listing_last, labels)])));
        }
    }
    let flat = |rows| Table::zeros(rows);
    for (recipe_rows, listing_rows) in [(256, 4096), (256, 256), (256, 255), (257, 4096), (256, 4097), (257, 4097)] {
        inputs.push(input(&flat(recipe_rows), &flat(listing_rows)));
    }
    inputs
}
