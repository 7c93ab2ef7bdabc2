//! Strike and undo over lent slices, by building the new table anew each time.

use crate::rows::{descendants, first_bad, refuse, well_formed, Refusal, Table, LISTING_ROWS};

/// The new counts.
#[derive(Clone, Copy, Debug, PartialEq, Eq)]
pub struct Counts {
    pub rows: usize,
    pub entries: usize,
}

/// A working table and its journal, all lent.
pub struct Working<'a> {
    pub depths: &'a mut [u16],
    pub labels: &'a mut [u32],
    pub journal: &'a mut [u32],
    pub counts: Counts,
}

/// A journal entry: row, label, depth, descendants before the strike.
pub type Entry = [u32; 4];

/// The entry that a strike of `row` writes.
pub fn entry(table: &Table, row: usize) -> Entry {
    let descendants = descendants(&table.depths, row) as u32;
    [row as u32, table.labels[row - 1], table.depths[row - 1] as u32, descendants]
}

/// The table without `row`, its descendants one less deep.
pub fn struck(table: &Table, row: usize) -> Table {
    let below = row + 1..=row + descendants(&table.depths, row);
    let mut left = Table::default();
    for other in (1..=table.rows()).filter(|&other| other != row) {
        let depth = table.depths[other - 1];
        left.push(if below.contains(&other) { depth - 1 } else { depth }, table.labels[other - 1]);
    }
    left
}

/// The first table with the standing strikes applied, oldest first.
pub fn rebuilt(first: &Table, strikes: &[usize]) -> Table {
    strikes.iter().fold(first.clone(), |table, &row| struck(&table, row))
}

/// The only table whose row could be as the entry says, without judging it; none if a row is amiss.
fn candidate(table: &Table, entry: Entry) -> Option<Table> {
    let [row, label, depth, descendants] = entry;
    let (row, descendants) = (row as usize, descendants as usize);
    if row == 0 || row > table.rows() + 1 || depth > u16::MAX as u32 {
        return None;
    }
    let mut back = Table::default();
    for other in 1..=table.rows() + 1 {
        if other == row {
            back.push(depth as u16, label);
        }
        if other <= table.rows() {
            let risen = (other >= row && other < row + descendants) as u16;
            back.push(table.depths[other - 1] + risen, table.labels[other - 1]);
        }
    }
    Some(back)
}

/// The well-formed table with a row as the entry says whose strike leaves `table`, if there is one.
pub fn returned(table: &Table, newest: Entry) -> Option<Table> {
    let row = newest[0] as usize;
    candidate(table, newest)
        .filter(|back| well_formed(&back.depths) && entry(back, row) == newest && struck(back, row) == *table)
}

impl Working<'_> {
    /// Refusals 21 to 24.
    fn sound(&self) -> Result<(), Refusal> {
        let (capacity, words) = (self.depths.len(), self.journal.len());
        if capacity != self.labels.len() || capacity > LISTING_ROWS {
            return refuse(21, 0);
        }
        if self.counts.rows > capacity {
            return refuse(22, 0);
        }
        if let Some((_, row)) = first_bad(&self.depths[..self.counts.rows]) {
            return refuse(23, row);
        }
        if words % 4 != 0 || words > 4 * LISTING_ROWS || self.counts.entries > words / 4 {
            return refuse(24, 0);
        }
        Ok(())
    }

    fn table(&self) -> Table {
        let rows = self.counts.rows;
        Table { depths: self.depths[..rows].to_vec(), labels: self.labels[..rows].to_vec() }
    }

    /// Puts the rows in the first slots and the four words in place of an entry.
    fn put(&mut self, table: &Table, place: usize, words: Entry) {
        self.depths[..table.rows()].copy_from_slice(&table.depths);
        self.labels[..table.rows()].copy_from_slice(&table.labels);
        self.journal[4 * place..4 * place + 4].copy_from_slice(&words);
    }

    /// Strikes `row` and returns the new counts, which also become those of the working table.
    pub fn strike(&mut self, row: usize) -> Result<Counts, Refusal> {
        self.sound()?;
        let Counts { rows, entries } = self.counts;
        if row < 1 || row > rows {
            return refuse(25, 0);
        }
        if entries == self.journal.len() / 4 {
            return refuse(26, 0);
        }
        let table = self.table();
        self.put(&struck(&table, row), entries, entry(&table, row));
        self.depths[rows - 1] = 0;
        self.labels[rows - 1] = 0;
        self.counts = Counts { rows: rows - 1, entries: entries + 1 };
        Ok(self.counts)
    }

    /// Undoes the newest entry and returns the new counts.
    pub fn undo(&mut self) -> Result<Counts, Refusal> {
        self.sound()?;
        let Counts { rows, entries } = self.counts;
        if entries == 0 {
            return refuse(27, 0);
        }
        if rows == self.depths.len() {
            return refuse(28, 0);
        }
        let newest: Entry = self.journal[4 * entries - 4..4 * entries].try_into().unwrap();
        let Some(back) = returned(&self.table(), newest) else {
            return refuse(29, 0);
        };
        self.put(&back, entries - 1, [0; 4]);
        self.counts = Counts { rows: rows + 1, entries: entries - 1 };
        Ok(self.counts)
    }
}
