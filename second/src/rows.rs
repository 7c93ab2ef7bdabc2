//! Tables of rows in preorder. Rows are numbered from 1; 0 is the virtual parent of all roots.

pub const DEEPEST: u16 = 63;
pub const RECIPE_ROWS: usize = 256;
pub const LISTING_ROWS: usize = 4096;

/// A refusal: its number and a place, nothing else.
#[derive(Clone, Copy, Debug, PartialEq, Eq)]
pub struct Refusal {
    pub number: u32,
    pub place: usize,
}

/// Shorthand for a refused outcome.
pub fn refuse<T>(number: u32, place: usize) -> Result<T, Refusal> {
    Err(Refusal { number, place })
}

/// Owned rows: depths and labels.
#[derive(Clone, Debug, Default, PartialEq, Eq)]
pub struct Table {
    pub depths: Vec<u16>,
    pub labels: Vec<u32>,
}

impl Table {
    pub fn rows(&self) -> usize {
        self.depths.len()
    }

    pub fn push(&mut self, depth: u16, label: u32) {
        self.depths.push(depth);
        self.labels.push(label);
    }

    /// All slots 0.
    pub fn zeros(slots: usize) -> Table {
        Table { depths: vec![0; slots], labels: vec![0; slots] }
    }

    /// Brackets hold children: `10(20 30)`; several roots make a forest.
    pub fn brackets(text: &str) -> Table {
        let spaced = text.replace('(', " ( ").replace(')', " ) ");
        let (mut table, mut depth) = (Table::default(), 0);
        for word in spaced.split_whitespace() {
            match word {
                "(" => depth += 1,
                ")" => depth -= 1,
                label => table.push(depth, label.parse().unwrap()),
            }
        }
        table
    }
}

/// What is wrong with a row; the step is judged first.
#[derive(Clone, Copy, Debug, PartialEq, Eq)]
pub enum Bad {
    Step,
    Depth,
}

/// The first bad row and what is wrong with it.
pub fn first_bad(depths: &[u16]) -> Option<(Bad, usize)> {
    for (i, &depth) in depths.iter().enumerate() {
        let most = if i == 0 { 0 } else { depths[i - 1] as u32 + 1 };
        if depth as u32 > most {
            return Some((Bad::Step, i + 1));
        }
        if depth > DEEPEST {
            return Some((Bad::Depth, i + 1));
        }
    }
    None
}

pub fn well_formed(depths: &[u16]) -> bool {
    first_bad(depths).is_none()
}

/// The rows after `row` up to the next row of equal or smaller depth.
pub fn descendants(depths: &[u16], row: usize) -> usize {
    depths[row..].iter().take_while(|&&depth| depth > depths[row - 1]).count()
}

/// The closing number: row number plus descendants minus depth.
pub fn closing(depths: &[u16], row: usize) -> usize {
    row + descendants(depths, row) - depths[row - 1] as usize
}

/// The closing numbers of all rows; slot 0 is not used.
pub fn closings(depths: &[u16]) -> Vec<usize> {
    let each = (1..=depths.len()).map(|row| closing(depths, row));
    std::iter::once(0).chain(each).collect()
}

/// The parent of each row, 0 for roots; slot 0 is not used.
pub fn parents(depths: &[u16]) -> Vec<usize> {
    let (mut parents, mut open) = (vec![0], Vec::new());
    for (i, &depth) in depths.iter().enumerate() {
        open.truncate(depth as usize);
        parents.push(open.last().copied().unwrap_or(0));
        open.push(i + 1);
    }
    parents
}

/// The children of each row in order; slot 0 holds the roots.
pub fn children(depths: &[u16]) -> Vec<Vec<usize>> {
    let mut children = vec![Vec::new(); depths.len() + 1];
    for (row, &parent) in parents(depths).iter().enumerate().skip(1) {
        children[parent].push(row);
    }
    children
}
