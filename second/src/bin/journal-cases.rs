//! `journal-cases FILE` writes framed sessions of strikes and undos, and prints the counts.
//!
//! A frame is a 4-byte little-endian length in bytes and then one session. A session is nothing but
//! 4-byte little-endian words (depths too take a word each), without gaps:
//!
//!   depth slots D, label slots L, journal words J, rows, entries, steps K
//!   D depths, L labels, J journal words                      the lent slices at the start
//!   then K times:
//!     kind, first, second                                    the step
//!     number, place, rows, entries                           the outcome (number 0: accepted)
//!     D depths, L labels, J journal words                    the lent slices after the step
//!
//! Kinds: 1 strike row `first`; 2 undo; and without a call, always with outcome number 0:
//! 3 journal word `first` (from 0) becomes `second`; 4 depth slot `first` (from 0) becomes `second`;
//! 5 the count of rows becomes `first`; 6 the count of entries becomes `first`.
//! After an accepted call the counts are the returned ones, after a refused one those before it.

use second::cases::tables::{by_chance, chain, every_table_of, Manner};
use second::cases::Chance;
use second::frames::{file_argument, framed, push_words};
use second::journal::{rebuilt, Counts, Working};
use second::rows::{well_formed, Refusal, Table};

/// The lent slices, the counts, and the steps written so far.
struct Session {
    slots: Table,
    journal: Vec<u32>,
    counts: Counts,
    start: Vec<u32>,
    steps: u32,
    written: Vec<u32>,
    /// The first table and the standing strikes, as long as the slices were changed by calls alone.
    standing: Option<(Table, Vec<usize>)>,
}

impl Session {
    fn new(slots: Table, rows: usize, journal: Vec<u32>, entries: usize) -> Session {
        let fits = rows <= slots.depths.len().min(slots.labels.len()) && well_formed(&slots.depths[..rows]);
        let first = || Table { depths: slots.depths[..rows].to_vec(), labels: slots.labels[..rows].to_vec() };
        let standing = fits.then(|| (first(), Vec::new()));
        let counts = Counts { rows, entries };
        let mut session = Session { slots, journal, counts, start: vec![], steps: 0, written: vec![], standing };
        session.start = session.slices();
        session.start.splice(0..0, [rows as u32, entries as u32]);
        session
    }

    fn slices(&self) -> Vec<u32> {
        let depths = self.slots.depths.iter().map(|&depth| depth as u32);
        depths.chain(self.slots.labels.iter().copied()).chain(self.journal.iter().copied()).collect()
    }

    /// Writes a step with its outcome and the slices after it.
    fn step(&mut self, step: [u32; 3], outcome: Result<Counts, Refusal>) {
        let refusal = outcome.err().unwrap_or(Refusal { number: 0, place: 0 });
        let Counts { rows, entries } = self.counts;
        self.written.extend(step);
        self.written.extend([refusal.number, refusal.place as u32, rows as u32, entries as u32]);
        self.written.extend(self.slices());
        self.steps += 1;
    }

    /// Strikes the row, or undoes if there is none; the counts become the new ones.
    fn call(&mut self, row: Option<usize>) -> Result<Counts, Refusal> {
        let Session { slots, journal, counts, .. } = self;
        let Table { depths, labels } = slots;
        let mut working = Working { depths, labels, journal, counts: *counts };
        let outcome = match row {
            Some(row) => working.strike(row),
            None => working.undo(),
        };
        *counts = outcome.unwrap_or(*counts);
        outcome
    }

    fn strike(&mut self, row: usize) {
        let outcome = self.call(Some(row));
        if let (Some((_, strikes)), Ok(_)) = (&mut self.standing, outcome) {
            strikes.push(row);
        }
        self.rebuild();
        self.step([1, row as u32, 0], outcome);
    }

    fn undo(&mut self) {
        let outcome = self.call(None);
        if let (Some((_, strikes)), Ok(_)) = (&mut self.standing, outcome) {
            if strikes.pop().is_none() {
                self.standing = None;
            }
        }
        self.rebuild();
        self.step([2, 0, 0], outcome);
    }

    /// The table must be the first one with the standing strikes applied, oldest first.
    fn rebuild(&self) {
        if let Some((first, strikes)) = &self.standing {
            let (rows, table) = (self.counts.rows, rebuilt(first, strikes));
            assert_eq!(
                (&self.slots.depths[..rows], &self.slots.labels[..rows]),
                (&table.depths[..], &table.labels[..])
            );
        }
    }

    fn put(&mut self, kind: u32, first: usize, second: u32) {
        match kind {
            3 => self.journal[first] = second,
            4 => self.slots.depths[first] = second as u16,
            5 => self.counts.rows = first,
            _ => self.counts.entries = first,
        }
        self.standing = None;
        self.step([kind, first as u32, second], Ok(self.counts));
    }

    fn bytes(&self) -> Vec<u8> {
        let lengths = [self.slots.depths.len(), self.slots.labels.len(), self.journal.len()];
        let mut bytes = Vec::new();
        push_words(&mut bytes, lengths.iter().map(|&length| length as u32));
        push_words(&mut bytes, self.start[..2].iter().copied().chain([self.steps]));
        push_words(&mut bytes, self.start[2..].iter().copied());
        push_words(&mut bytes, self.written.iter().copied());
        bytes
    }
}

/// Which words chance gives: any, or those alone for which the proved program's sessions have a byte.
#[derive(Clone, Copy)]
enum Words {
    Any,
    Bytes,
}

impl Words {
    fn word(self, chance: &mut Chance) -> u32 {
        match (self, chance.word() as u32) {
            (Words::Any, word) => word,
            (Words::Bytes, word) if word % 256 == 255 => 70_000,
            (Words::Bytes, word) => word % 256,
        }
    }
}

/// Slots beyond the rows hold whatever chance gives.
fn slots(chance: &mut Chance, words: Words, mut table: Table, capacity: usize) -> Table {
    while table.rows() < capacity {
        table.push(chance.below(200) as u16, words.word(chance));
    }
    table
}

fn journal(chance: &mut Chance, words: Words, length: usize) -> Vec<u32> {
    (0..length).map(|_| if chance.percent(50) { chance.below(5) as u32 } else { words.word(chance) }).collect()
}

/// A small session that has taken no step: up to 12 rows, some spare slots, an empty journal.
fn small(chance: &mut Chance, spare: usize, entries: usize) -> Session {
    let manner = Manner { rise: chance.between(20, 90), deepest: 63, labels: 4 };
    let rows = chance.below(13);
    let table = by_chance(chance, rows, manner);
    let words = if chance.percent(20) { Words::Any } else { Words::Bytes };
    let slots = slots(chance, words, table, rows + spare);
    let journal = journal(chance, words, 4 * entries);
    Session::new(slots, rows, journal, 0)
}

/// Takes strikes and undos by chance; some rows named are none.
fn call_by_chance(chance: &mut Chance, session: &mut Session, steps: usize, strikes: usize) {
    for _ in 0..steps {
        if chance.percent(strikes) {
            let rows = session.counts.rows;
            let row = chance.between(1, rows.max(1));
            session.strike(if chance.percent(8) { [0, rows + 1, rows + 2][chance.below(3)] } else { row });
        } else {
            session.undo();
        }
    }
}

/// S1, S2 and S3, with a spare slot and without.
fn marked() -> Vec<Session> {
    let mut sessions = Vec::new();
    for spare in [0, 1] {
        let mut table = Table::brackets("10(30(20))");
        (0..spare).for_each(|_| table.push(7, 7));
        let session = || Session::new(table.clone(), 3, vec![9; 8], 0);
        let (mut s1, mut s2, mut s3) = (session(), session(), session());
        s1.strike(2);
        s2.strike(1);
        s3.strike(2);
        s3.undo();
        sessions.extend([s1, s2, s3]);
    }
    sessions
}

/// Strikes and undos alone, with roomy and with narrow journals and tables.
fn plain(chance: &mut Chance) -> Vec<Session> {
    let session = |i: usize| {
        let spare = if i % 3 == 0 { 0 } else { chance.below(4) };
        let entries = if i % 2 == 0 { 12 } else { chance.below(5) };
        let mut session = small(chance, spare, entries);
        call_by_chance(chance, &mut session, 24, [50, 65, 90][i % 3]);
        session
    };
    (0..400).map(session).collect()
}

/// Entries counted at the start that no strike wrote; the table is often full.
fn strange_entries(chance: &mut Chance) -> Vec<Session> {
    let session = |_| {
        let (spare, entries) = (chance.below(3), chance.between(1, 6));
        let mut session = small(chance, spare, entries);
        let counted = chance.between(1, entries);
        session = Session::new(session.slots, session.counts.rows, session.journal, counted);
        call_by_chance(chance, &mut session, 8, 30);
        session
    };
    (0..200).map(session).collect()
}

/// A word of the newest entry is changed before the undo, and after a refusal put back.
fn damaged_entries(chance: &mut Chance) -> Vec<Session> {
    let session = |_| {
        let spare = chance.below(2);
        let mut session = small(chance, spare, 8);
        call_by_chance(chance, &mut session, 5, 100);
        for _ in 0..3 {
            if session.counts.entries > 0 {
                let at = 4 * session.counts.entries - 4 + chance.below(4);
                let (before, word) = (session.journal[at], chance.word() as u32);
                let others =
                    [before.wrapping_add(1), before.wrapping_sub(1), 0, 1, 70_000, 65536 + before, u32::MAX, word];
                session.put(3, at, others[chance.below(8)]);
                session.undo();
                if session.journal[at] != 0 {
                    session.put(3, at, before);
                }
                session.undo();
            }
        }
        session
    };
    (0..400).map(session).collect()
}

/// Every entry near every table of up to 3 rows.
fn every_entry() -> Vec<Session> {
    let mut sessions = Vec::new();
    for table in every_table_of(0, 3, 1) {
        for code in 0..6 * 5 * 6u32 {
            let mut slots = table.clone();
            slots.push(99, 99);
            let journal = vec![code % 6, 8, code / 6 % 5, code / 30];
            let mut session = Session::new(slots, table.rows(), journal, 1);
            session.undo();
            sessions.push(session);
        }
    }
    sessions
}

/// Number 23 before what is wrong after it; a bad slot beyond the rows does no harm.
fn bad_tables(chance: &mut Chance) -> Vec<Session> {
    let session = |_| {
        let mut session = small(chance, 1, 3);
        call_by_chance(chance, &mut session, 3, 80);
        for _ in 0..3 {
            let at = chance.below(session.slots.rows());
            let before = session.slots.depths[at];
            let others = [before as u32 + 1, before as u32 + 2, 0, 63, 64, 65535];
            session.put(4, at, others[chance.below(6)]);
            call_by_chance(chance, &mut session, 3, 50);
            session.put(4, at, before as u32);
        }
        session
    };
    (0..200).map(session).collect()
}

/// Lengths and counts that are refused with 21, 22 or 24, and 23 between them.
fn bad_lengths(chance: &mut Chance) -> Vec<Session> {
    let session = |_| {
        let mut session = small(chance, 2, 3);
        match chance.below(4) {
            0 => drop(session.slots.labels.pop()),
            1 => session.slots.labels.push(5),
            2 => session.journal.push(5),
            _ => drop(session.journal.pop()),
        }
        let rows = session.counts.rows;
        session = Session::new(session.slots, rows, session.journal, chance.below(5));
        call_by_chance(chance, &mut session, 2, 50);
        session.put(6, chance.below(7), 0);
        call_by_chance(chance, &mut session, 2, 50);
        session.put(5, [0, rows + 1, rows + 2, rows + 3, 70_000][chance.below(5)], 0);
        call_by_chance(chance, &mut session, 2, 50);
        session.put(4, chance.below(session.slots.depths.len()), 64);
        call_by_chance(chance, &mut session, 2, 50);
        session
    };
    (0..200).map(session).collect()
}

/// Counts alone are wrong: more rows than slots, more entries than fit.
fn bad_counts(chance: &mut Chance) -> Vec<Session> {
    let session = |i: usize| {
        let mut session = small(chance, i % 3, 2);
        let capacity = session.slots.rows();
        session.put(5 + i as u32 % 2, [capacity, capacity + 1, 3, 4, 16_385, u32::MAX as usize][i / 2 % 6], 0);
        call_by_chance(chance, &mut session, 3, 50);
        session.put(6, [0, 2, 3][i % 3], 0);
        call_by_chance(chance, &mut session, 3, 50);
        session
    };
    (0..120).map(session).collect()
}

/// Chains to depth 63, struck, given back, and made one too deep by an entry.
fn deep(chance: &mut Chance) -> Vec<Session> {
    let mut sessions = Vec::new();
    for last in [62, 63] {
        let table = slots(chance, Words::Bytes, chain(last, 5), 66);
        let rows = last as usize + 1;
        let mut session = Session::new(table.clone(), rows, vec![0; 12], 0);
        [1, rows - 1, 30].iter().for_each(|&row| session.strike(row));
        (0..4).for_each(|_| session.undo());
        sessions.push(session);
        for (row, depth, descendants) in [(1, 0, rows), (rows, rows - 1, 1), (rows + 1, rows, 0), (rows, rows - 1, 0)] {
            let journal = vec![row as u32, 3, depth as u32, descendants as u32];
            let mut session = Session::new(table.clone(), rows, journal, 1);
            session.undo();
            session.strike(row);
            sessions.push(session);
        }
    }
    sessions
}

/// Capacities of 4,096 and 4,097, and journals of 16,380 to 16,388 words, nearly full.
fn large(chance: &mut Chance) -> Vec<Session> {
    let mut sessions = Vec::new();
    for (rows, capacity, length) in
        [(4096, 4096, 16), (4090, 4096, 16_384), (4096, 4097, 8), (9, 12, 16_388), (9, 12, 16_380)]
    {
        let table = by_chance(chance, rows, Manner { rise: 50, deepest: 63, labels: 9 });
        let slots = slots(chance, Words::Any, table, capacity);
        let (journal, counted) = (journal(chance, Words::Any, length), (length / 4).saturating_sub(2));
        let mut session = Session::new(slots, rows, journal, counted);
        session.undo();
        [1, rows / 2, rows - 2].iter().for_each(|&row| session.strike(row));
        (0..3).for_each(|_| session.undo());
        sessions.push(session);
    }
    sessions
}

fn main() {
    let mut chance = Chance(4);
    let groups = [
        ("marked", marked()),
        ("plain", plain(&mut chance)),
        ("strange-entries", strange_entries(&mut chance)),
        ("damaged-entries", damaged_entries(&mut chance)),
        ("every-entry", every_entry()),
        ("bad-tables", bad_tables(&mut chance)),
        ("bad-lengths", bad_lengths(&mut chance)),
        ("bad-counts", bad_counts(&mut chance)),
        ("deep", deep(&mut chance)),
        ("large", large(&mut chance)),
    ];
    let sessions: Vec<Vec<u8>> = groups.iter().flat_map(|(_, group)| group.iter().map(Session::bytes)).collect();
    let bytes = framed(&sessions);
    std::fs::write(file_argument(), &bytes).expect("the file cannot be written");
    for (name, group) in &groups {
        println!("{} {name}, {} steps", group.len(), group.iter().map(|session| session.steps).sum::<u32>());
    }
    println!("{} sessions, {} bytes", sessions.len(), bytes.len());
}
