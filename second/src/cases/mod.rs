//! Inputs for the answer, made with a fixed seed.

pub mod damage;
pub mod inclusion;
pub mod refusals;
pub mod tables;

use crate::parcel::Fields;
use crate::rows::Table;

/// A small generator of chance numbers (splitmix64).
pub struct Chance(pub u64);

impl Chance {
    pub fn word(&mut self) -> u64 {
        self.0 = self.0.wrapping_add(0x9e37_79b9_7f4a_7c15);
        let mixed = (self.0 ^ self.0 >> 30).wrapping_mul(0xbf58_476d_1ce4_e5b9);
        let mixed = (mixed ^ mixed >> 27).wrapping_mul(0x94d0_49bb_1331_11eb);
        mixed ^ mixed >> 31
    }

    /// A number from 0 up to, not including, `end`.
    pub fn below(&mut self, end: usize) -> usize {
        (self.word() % end as u64) as usize
    }

    pub fn between(&mut self, least: usize, most: usize) -> usize {
        least + self.below(most - least + 1)
    }

    pub fn percent(&mut self, share: usize) -> bool {
        self.below(100) < share
    }
}

/// A named group of inputs.
pub struct Group {
    pub name: &'static str,
    pub inputs: Vec<Vec<u8>>,
}

/// A recipe's parcel followed by a listing's, whatever their sizes.
pub fn input(recipe: &Table, listing: &Table) -> Vec<u8> {
    let mut bytes = Fields::of(&recipe.depths, &recipe.labels).bytes();
    bytes.extend(Fields::of(&listing.depths, &listing.labels).bytes());
    bytes
}

/// The whole case of the paper: 32 + 38 bytes.
pub fn whole_case() -> Vec<u8> {
    input(&Table::brackets("10(20)"), &Table::brackets("10(30(20))"))
}

/// The marked examples: recipe, listing and line.
pub const MARKED: [(&str, &str, &str); 10] = [
    ("10(20)", "10(30(20))", "included 1 0 1 3\n"),
    ("10(20)", "10(20)", "included 1 0 1 2\n"),
    ("10(20 30)", "10(30 20)", "absent 1 1\n"),
    ("10", "", "absent 0 1\n"),
    ("10(20)", "10(20 10(20))", "included 1 0 3 4\n"),
    ("10 20", "10(20)", "absent 1 0\n"),
    ("10(10)", "10(10(10))", "included 1 0 2 3\n"),
    ("10(20(30) 40)", "10(20(40) 30)", "absent 1 2\n"),
    ("10(20 20)", "10(20(20))", "absent 1 1\n"),
    ("10(20)", "20", "absent 1 1\n"),
];

/// Every group of inputs, in a fixed order.
pub fn groups() -> Vec<Group> {
    let mut groups = inclusion::groups();
    groups.extend(refusals::groups());
    groups.extend(damage::groups());
    groups
}
