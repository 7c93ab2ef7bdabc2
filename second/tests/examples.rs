//! The marked examples, the whole case, and every number of refusal on lent slices.

use second::answer::{include, line, Answer};
use second::cases::{input, whole_case, MARKED};
use second::journal::{Counts, Working};
use second::parcel::{self, Parcel};
use second::rows::{Refusal, Table};

#[test]
fn marked_examples() {
    for (recipe, listing, expected) in MARKED {
        assert_eq!(line(&input(&Table::brackets(recipe), &Table::brackets(listing))), expected, "{recipe} | {listing}");
    }
}

#[test]
fn whole_case_bytes_and_line() {
    let words = |words: &[u32]| words.iter().flat_map(|word| word.to_le_bytes()).collect::<Vec<u8>>();
    let recipe = [words(&[2, 10, 20, 2]), vec![0, 0, 1, 0], words(&[2, 33, 111])].concat();
    let listing = [words(&[3, 10, 30, 20, 3]), vec![0, 0, 1, 0, 2, 0], words(&[2, 66, 315])].concat();
    assert_eq!((recipe.len(), listing.len()), (32, 38));
    assert_eq!(whole_case(), [recipe, listing].concat());
    assert_eq!(line(&whole_case()), "included 1 0 1 3\n");
}

/// A working table with its slots and journal, and the call `then` on it.
fn session(text: &str, spare: usize, then: impl Fn(&mut Working)) -> (Table, Vec<u32>, Counts) {
    let mut table = Table::brackets(text);
    let rows = table.rows();
    (0..spare).for_each(|_| table.push(7, 7));
    let mut journal = vec![9; 8];
    let counts = Counts { rows, entries: 0 };
    let (depths, labels) = (&mut table.depths[..], &mut table.labels[..]);
    let mut working = Working { depths, labels, journal: &mut journal, counts };
    then(&mut working);
    let counts = working.counts;
    (table, journal, counts)
}

#[test]
fn s1_s2_s3() {
    let (table, journal, counts) = session("10(30(20))", 1, |working| assert!(working.strike(2).is_ok()));
    assert_eq!((table.depths, table.labels), (vec![0, 1, 0, 7], vec![10, 20, 0, 7]));
    assert_eq!((journal, counts), (vec![2, 30, 1, 1, 9, 9, 9, 9], Counts { rows: 2, entries: 1 }));
    let (table, journal, counts) = session("10(30(20))", 0, |working| assert!(working.strike(1).is_ok()));
    assert_eq!((table.depths, table.labels), (vec![0, 1, 0], vec![30, 20, 0]));
    assert_eq!((journal, counts), (vec![1, 10, 0, 2, 9, 9, 9, 9], Counts { rows: 2, entries: 1 }));
    let (table, journal, counts) = session("10(30(20))", 1, |working| {
        working.strike(2).unwrap();
        working.undo().unwrap();
    });
    assert_eq!((table.depths, table.labels), (vec![0, 1, 2, 7], vec![10, 30, 20, 7]));
    assert_eq!((journal, counts), (vec![0, 0, 0, 0, 9, 9, 9, 9], Counts { rows: 3, entries: 0 }));
}

/// The number and place of the inclusion answer on slices of zeros with these depths.
fn included(recipe: (&[u16], usize), listing: (&[u16], usize), map: usize) -> Result<Answer, (u32, usize)> {
    let (recipe_labels, listing_labels, mut map) = (vec![0; recipe.1], vec![0; listing.1], vec![5; map]);
    let outcome = include((recipe.0, &recipe_labels), (listing.0, &listing_labels), &mut map);
    assert!(matches!(outcome, Ok(answer) if answer.included) || map.iter().all(|&slot| slot == 5));
    outcome.map_err(|Refusal { number, place }| (number, place))
}

#[test]
fn refusals_of_inclusion() {
    let (good, step, flat): (&[u16], &[u16], &[u16]) = (&[0, 1], &[0, 2], &[0; 4097]);
    let deep: Vec<u16> = (0..65).collect();
    assert_eq!(included((&good, 1), (&step, 1), 0), Err((1, 0)));
    assert_eq!(included((&[], 0), (&step, 1), 0), Err((2, 0)));
    assert_eq!(included((&flat[..257], 257), (&step, 1), 0), Err((3, 0)));
    assert_eq!(included((&step, 2), (&step, 1), 0), Err((4, 2)));
    assert_eq!(included((&[1], 1), (&step, 1), 0), Err((4, 1)));
    assert_eq!(included((&deep, 65), (&step, 1), 0), Err((5, 65)));
    assert_eq!(included((&good, 2), (&step, 1), 0), Err((6, 0)));
    assert_eq!(included((&good, 2), (&flat, 4097), 0), Err((7, 0)));
    assert_eq!(included((&good, 2), (&step, 2), 0), Err((8, 2)));
    assert_eq!(included((&good, 2), (&deep, 65), 0), Err((9, 65)));
    assert_eq!(included((&good, 2), (&good, 2), 1), Err((10, 0)));
    assert_eq!(included((&good, 2), (&good, 2), 3), Ok(Answer { width: 1, row: 0, included: true }));
    assert_eq!(included((&flat[..256], 256), (&flat[..4096], 4096), 256).map(|answer| answer.width), Ok(256));
}

#[test]
fn refusals_of_parcels() {
    let whole = whole_case();
    let read = |input: &[u8], start, limit, slots: (usize, usize)| {
        let (mut depths, mut labels) = (vec![5; slots.0], vec![5; slots.1]);
        let outcome = parcel::read(input, start, limit, &mut depths, &mut labels);
        assert!(outcome.is_ok() || (depths == vec![5; slots.0] && labels == vec![5; slots.1]));
        outcome.map_err(|Refusal { number, place }| (number, place))
    };
    let changed = |at: usize| {
        let mut bytes = whole.clone();
        bytes[at] += 1;
        bytes
    };
    assert_eq!(read(&whole, 0, 256, (2, 2)), Ok(Parcel { rows: 2, end: 32 }));
    assert_eq!(read(&whole, 32, 4096, (4, 3)), Ok(Parcel { rows: 3, end: 70 }));
    assert_eq!(read(&whole[..31], 0, 256, (2, 2)), Err((11, 31)));
    assert_eq!(read(&whole, 90, 256, (2, 2)), Err((11, 70)));
    assert_eq!(read(&changed(12), 0, 256, (2, 2)), Err((12, 12)));
    assert_eq!(read(&changed(20), 0, 256, (2, 2)), Err((13, 20)));
    assert_eq!(read(&changed(4), 0, 256, (2, 2)), Err((14, 24)));
    assert_eq!(read(&changed(28), 0, 256, (0, 0)), Err((14, 24)));
    assert_eq!(read(&whole, 32, 2, (3, 3)), Err((16, 32)));
    assert_eq!(read(&whole, 0, 256, (1, 2)), Err((18, 0)));
    assert_eq!(read(&whole, 0, 256, (2, 1)), Err((18, 0)));
    assert_eq!(line(&[whole.clone(), vec![0]].concat()), "refused 15 70\n");
    let write = |depths: usize, labels: usize, bytes: usize| {
        let mut bytes = vec![3; bytes];
        let outcome = parcel::write(&vec![65535; depths], &vec![1; labels], &mut bytes);
        let length = outcome.unwrap_or(0);
        assert!(bytes[length..].iter().all(|&byte| byte == 3));
        outcome.map_err(|Refusal { number, place }| (number, place))
    };
    assert_eq!(write(4097, 4096, 0), Err((6, 0)));
    assert_eq!(write(4097, 4097, 0), Err((7, 0)));
    assert_eq!(write(4096, 4096, 24_595), Err((17, 0)));
    assert_eq!(write(4096, 4096, 24_600), Ok(24_596));
}

/// The number and place of one call, a strike of `row` or an undo; a refusal changes nothing.
fn journal(
    depths: &[u16],
    labels: usize,
    words: &[u32],
    rows: usize,
    entries: usize,
    row: Option<usize>,
) -> (u32, usize) {
    let (mut new_depths, mut labels, mut new_words) = (depths.to_vec(), vec![4; labels], words.to_vec());
    let counts = Counts { rows, entries };
    let mut working = Working { depths: &mut new_depths, labels: &mut labels, journal: &mut new_words, counts };
    let outcome = match row {
        Some(row) => working.strike(row),
        None => working.undo(),
    };
    let refusal = outcome.err().unwrap_or(Refusal { number: 0, place: 0 });
    let same = working.counts == counts && new_depths == depths && new_words == words && labels.iter().all(|&l| l == 4);
    assert_eq!(same, refusal.number != 0);
    (refusal.number, refusal.place)
}

#[test]
fn refusals_of_strike_and_undo() {
    let (table, full, words): (&[u16], &[u16], &[u32]) = (&[0, 1, 9], &[0; 4097], &[1, 4, 0, 1]);
    for row in [Some(3), None] {
        assert_eq!(journal(table, 2, words, 9, 9, row), (21, 0));
        assert_eq!(journal(full, 4097, words, 9999, 9, row), (21, 0));
        assert_eq!(journal(table, 3, &words[1..], 4, 9, row), (22, 0));
        assert_eq!(journal(table, 3, &words[1..], 3, 9, row), (23, 3));
        assert_eq!(journal(table, 3, &words[1..], 2, 0, row), (24, 0));
        assert_eq!(journal(table, 3, &[0; 16_388], 2, 0, row), (24, 0));
        assert_eq!(journal(table, 3, words, 2, 2, row), (24, 0));
    }
    assert_eq!(journal(table, 3, words, 2, 1, Some(0)), (25, 0));
    assert_eq!(journal(table, 3, words, 2, 1, Some(3)), (25, 0));
    assert_eq!(journal(table, 3, words, 2, 1, Some(2)), (26, 0));
    assert_eq!(journal(table, 3, words, 2, 0, Some(2)), (0, 0));
    assert_eq!(journal(&full[..4096], 4096, &[0; 16_384], 4096, 4095, Some(4096)), (0, 0));
    assert_eq!(journal(&table[..2], 2, words, 2, 0, None), (27, 0));
    assert_eq!(journal(&table[..2], 2, words, 2, 1, None), (28, 0));
    assert_eq!(journal(table, 3, words, 2, 1, None), (29, 0));
    assert_eq!(journal(table, 3, &[1, 4, 0, 2], 2, 1, None), (0, 0));
}
