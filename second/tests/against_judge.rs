//! The table over pairs against brute force, and number 29 against its definition.

use second::answer::include;
use second::cases::tables::{by_chance, every_table, every_table_of, kept, Manner};
use second::cases::Chance;
use second::journal::{entry, returned, struck};
use second::judge::judge;
use second::rows::{closings, Table};

/// Corner, yes or no, and map must be the judge's.
fn same(recipe: &Table, listing: &Table) {
    let (recipe, listing) = ((&recipe.depths[..], &recipe.labels[..]), (&listing.depths[..], &listing.labels[..]));
    let mut map = vec![9999; recipe.0.len() + 1];
    let answer = include(recipe, listing, &mut map).unwrap();
    let (expected, images) = judge(recipe, listing);
    assert_eq!(answer, expected, "{recipe:?} {listing:?}");
    let images: Vec<u16> = match answer.included {
        true => images.iter().map(|&image| image as u16).chain([9999]).collect(),
        false => vec![9999; map.len()],
    };
    assert_eq!(map, images, "{recipe:?} {listing:?}");
}

#[test]
fn all_small_pairs() {
    for recipe in every_table_of(1, 4, 2) {
        every_table_of(0, 4, 2).iter().for_each(|listing| same(&recipe, listing));
    }
}

#[test]
fn chance_pairs() {
    let mut chance = Chance(11);
    for i in 0..6000 {
        let manner = Manner { rise: chance.between(20, 80), deepest: 9, labels: 1 + i % 3 };
        let (rows, wanted) = (chance.between(1, 12), chance.between(1, 6));
        let listing = by_chance(&mut chance, rows, manner);
        same(&by_chance(&mut chance, wanted, manner), &listing);
        same(&kept(&mut chance, &listing, wanted), &listing);
    }
}

/// Too large for brute force: kept rows are included, and every map handed out is an embedding.
#[test]
fn maps_are_embeddings() {
    let mut chance = Chance(12);
    for i in 0..400 {
        let manner = Manner { rise: chance.between(20, 95), deepest: 63, labels: 1 + i % 7 };
        let (rows, wanted) = (chance.between(40, 600), chance.between(1, 40));
        let listing = by_chance(&mut chance, rows, manner);
        let recipe = kept(&mut chance, &listing, wanted);
        let mut map = vec![0; recipe.rows()];
        let (lent, onto) = ((&recipe.depths[..], &recipe.labels[..]), (&listing.depths[..], &listing.labels[..]));
        assert!(include(lent, onto, &mut map).unwrap().included);
        let (from, to) = (closings(&recipe.depths), closings(&listing.depths));
        for v in 1..=recipe.rows() {
            let s = map[v - 1] as usize;
            assert_eq!(recipe.labels[v - 1], listing.labels[s - 1]);
            for w in v + 1..=recipe.rows() {
                let t = map[w - 1] as usize;
                assert!(s < t && (from[v] < from[w]) == (to[s] < to[t]));
            }
        }
    }
}

#[test]
fn number_29_by_its_definition() {
    for table in every_table_of(0, 3, 2) {
        let larger = every_table(table.rows() + 1, 2);
        for code in 0..6 * 2 * 5 * 6u32 {
            let newest = [code % 6, 1 + code / 6 % 2, code / 12 % 5, code / 60];
            let row = newest[0] as usize;
            let says = |back: &&Table| {
                row >= 1 && row <= back.rows() && entry(back, row) == newest && struck(back, row) == table
            };
            let found: Vec<&Table> = larger.iter().filter(says).collect();
            assert_eq!(returned(&table, newest).as_ref(), found.first().copied(), "{table:?} {newest:?}");
            assert!(found.len() <= 1);
        }
    }
}

#[test]
fn strikes_come_back() {
    for table in every_table_of(1, 5, 2) {
        for row in 1..=table.rows() {
            let left = struck(&table, row);
            assert!(second::rows::well_formed(&left.depths));
            assert_eq!(returned(&left, entry(&table, row)), Some(table.clone()));
        }
    }
}
