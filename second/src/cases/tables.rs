//! Makers of tables.

use super::Chance;
use crate::rows::{Table, DEEPEST};

/// All well-formed tables of `rows` rows over the labels 1 to `labels`.
pub fn every_table(rows: usize, labels: u32) -> Vec<Table> {
    let mut tables = vec![Table::default()];
    for _ in 0..rows {
        let mut longer = Vec::new();
        for table in &tables {
            let most = table.depths.last().map_or(0, |&depth| depth + 1);
            for (depth, label) in (0..=most).flat_map(|depth| (1..=labels).map(move |label| (depth, label))) {
                let mut next = table.clone();
                next.push(depth, label);
                longer.push(next);
            }
        }
        tables = longer;
    }
    tables
}

/// All well-formed tables with between `least` and `most` rows.
pub fn every_table_of(least: usize, most: usize, labels: u32) -> Vec<Table> {
    (least..=most).flat_map(|rows| every_table(rows, labels)).collect()
}

/// How a table is made by chance.
#[derive(Clone, Copy)]
pub struct Manner {
    /// How often, in percent, a row goes beneath the one before it.
    pub rise: usize,
    pub deepest: u16,
    /// Labels run from 0 up to, not including, this.
    pub labels: u32,
}

/// A well-formed table made by chance.
pub fn by_chance(chance: &mut Chance, rows: usize, manner: Manner) -> Table {
    let mut table = Table::default();
    for row in 0..rows {
        let before = if row == 0 { 0 } else { table.depths[row - 1] };
        let depth = match () {
            _ if row == 0 => 0,
            _ if chance.percent(manner.rise) => (before + 1).min(manner.deepest),
            _ if chance.percent(50) => before,
            _ => chance.below(before as usize + 1) as u16,
        };
        table.push(depth, chance.below(manner.labels as usize) as u32);
    }
    table
}

/// About `wanted` rows of a listing, kept with their order and ancestry: a recipe that is included.
pub fn kept(chance: &mut Chance, listing: &Table, wanted: usize) -> Table {
    let (mut recipe, mut open): (Table, Vec<bool>) = Default::default();
    let mut most = wanted;
    for row in 0..listing.rows() {
        let keep = most > 0 && chance.below(listing.rows() - row) < most;
        open.truncate(listing.depths[row] as usize);
        if keep {
            recipe.push(open.iter().filter(|&&kept| kept).count() as u16, listing.labels[row]);
            most -= 1;
        }
        open.push(keep);
    }
    recipe
}

/// One table after another, as a forest.
pub fn beside(tables: &[Table]) -> Table {
    let depths = tables.iter().flat_map(|table| table.depths.clone()).collect();
    let labels = tables.iter().flat_map(|table| table.labels.clone()).collect();
    Table { depths, labels }
}

/// A chain whose last depth is `last`; labels repeat after `labels` rows.
pub fn chain(last: u16, labels: u32) -> Table {
    let depths: Vec<u16> = (0..=last).collect();
    Table { labels: depths.iter().map(|&depth| depth as u32 % labels).collect(), depths }
}

/// A comb `a(a a(a ..))` with the spine right of each tooth.
pub fn right_comb(levels: u16, spine: u32, tooth: u32) -> Table {
    let mut comb = Table::default();
    for level in 0..levels.min(DEEPEST) {
        comb.push(level, spine);
        comb.push(level + 1, tooth);
    }
    comb
}

/// A comb `a(a(a(..) a) a)` with the spine left of each tooth.
pub fn left_comb(levels: u16, spine: u32, tooth: u32) -> Table {
    let levels = levels.min(DEEPEST);
    let mut comb = Table::default();
    (0..levels).for_each(|level| comb.push(level, spine));
    (1..=levels).rev().for_each(|depth| comb.push(depth, tooth));
    comb
}

/// The sizes of a run folder.
#[derive(Clone, Copy)]
pub struct Run {
    pub lanes: usize,
    pub cycles: usize,
    pub tiles: usize,
    /// Do all lanes, all cycles and all tiles share one label each?
    pub same: bool,
}

impl Run {
    pub fn rows(&self) -> usize {
        6 + self.lanes * (1 + self.cycles * (1 + self.tiles))
    }

    /// Run, then data above lanes of cycles of tiles, then a few rows after them.
    pub fn table(&self) -> Table {
        let number = |base: u32, i: usize| base + if self.same { 0 } else { i as u32 };
        let mut table = Table::default();
        [1, 2, 3].iter().enumerate().for_each(|(depth, &label)| table.push(depth as u16, label));
        for lane in 0..self.lanes {
            table.push(3, number(100, lane));
            for cycle in 0..self.cycles {
                table.push(4, number(1000, cycle));
                (0..self.tiles).for_each(|tile| table.push(5, number(10_000, tile)));
            }
        }
        table.push(1, 4);
        table.push(2, 5);
        table.push(1, 6);
        table
    }
}
