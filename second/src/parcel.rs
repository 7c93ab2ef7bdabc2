//! Reader and writer of the parcel.

use crate::rows::{refuse, Refusal, LISTING_ROWS};

/// A read parcel: the count of rows and the place after it.
#[derive(Clone, Copy, Debug, PartialEq, Eq)]
pub struct Parcel {
    pub rows: usize,
    pub end: usize,
}

/// Both sums over the count, all labels and all depths, in that order.
pub fn sums(depths: &[u16], labels: &[u32]) -> [u32; 2] {
    let count = std::iter::once(labels.len() as u32);
    let words = count.chain(labels.iter().copied()).chain(depths.iter().map(|&depth| depth as u32));
    words.fold([0, 0], |[first, second]: [u32; 2], word| {
        let first = first.wrapping_add(word);
        [first, second.wrapping_add(first)]
    })
}

/// A parcel field by field, so that any field can be made wrong.
#[derive(Clone, Debug)]
pub struct Fields {
    pub first: u32,
    pub labels: Vec<u32>,
    pub second: u32,
    pub depths: Vec<u16>,
    pub third: u32,
    pub sums: [u32; 2],
}

impl Fields {
    pub fn of(depths: &[u16], labels: &[u32]) -> Fields {
        Fields {
            first: labels.len() as u32,
            labels: labels.to_vec(),
            second: depths.len() as u32,
            depths: depths.to_vec(),
            third: 2,
            sums: sums(depths, labels),
        }
    }

    pub fn bytes(&self) -> Vec<u8> {
        let mut bytes = self.first.to_le_bytes().to_vec();
        bytes.extend(self.labels.iter().flat_map(|label| label.to_le_bytes()));
        bytes.extend(self.second.to_le_bytes());
        bytes.extend(self.depths.iter().flat_map(|depth| depth.to_le_bytes()));
        bytes.extend(self.third.to_le_bytes());
        bytes.extend(self.sums.iter().flat_map(|sum| sum.to_le_bytes()));
        bytes
    }
}

/// Writes the parcel to the front of `bytes` and returns its length.
pub fn write(depths: &[u16], labels: &[u32], bytes: &mut [u8]) -> Result<usize, Refusal> {
    if depths.len() != labels.len() {
        return refuse(6, 0);
    }
    if labels.len() > LISTING_ROWS {
        return refuse(7, 0);
    }
    let parcel = Fields::of(depths, labels).bytes();
    if bytes.len() < parcel.len() {
        return refuse(17, 0);
    }
    bytes[..parcel.len()].copy_from_slice(&parcel);
    Ok(parcel.len())
}

/// The next field of `width` bytes, refused with 11 when the input ends inside it.
fn field(input: &[u8], at: &mut usize, width: usize) -> Result<u32, Refusal> {
    let end = at.saturating_add(width);
    let Some(bytes) = input.get(*at..end) else {
        return refuse(11, input.len());
    };
    *at = end;
    Ok(bytes.iter().rev().fold(0, |value, &byte| value << 8 | byte as u32))
}

/// Reads the parcel at `start`; fills only the first slots, one per row.
pub fn read(
    input: &[u8],
    start: usize,
    limit: usize,
    depths: &mut [u16],
    labels: &mut [u32],
) -> Result<Parcel, Refusal> {
    let mut at = start;
    let first = field(input, &mut at, 4)?;
    let rows = first as usize;
    if rows > limit {
        return refuse(16, start);
    }
    let read_labels: Vec<u32> = (0..rows).map(|_| field(input, &mut at, 4)).collect::<Result<_, _>>()?;
    if field(input, &mut at, 4)? != first {
        return refuse(12, at - 4);
    }
    let wide_depths: Vec<u32> = (0..rows).map(|_| field(input, &mut at, 2)).collect::<Result<_, _>>()?;
    let read_depths: Vec<u16> = wide_depths.iter().map(|&depth| depth as u16).collect();
    if field(input, &mut at, 4)? != 2 {
        return refuse(13, at - 4);
    }
    let read_sums = [field(input, &mut at, 4)?, field(input, &mut at, 4)?];
    if read_sums != sums(&read_depths, &read_labels) {
        return refuse(14, at - 8);
    }
    if depths.len() < rows || labels.len() < rows {
        return refuse(18, 0);
    }
    depths[..rows].copy_from_slice(&read_depths);
    labels[..rows].copy_from_slice(&read_labels);
    Ok(Parcel { rows, end: at })
}
