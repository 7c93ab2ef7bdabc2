//! Framing of a file of cases: for each case a 4-byte little-endian length, then the bytes.

/// Frames all cases one after another.
pub fn framed<'a>(cases: impl IntoIterator<Item = &'a Vec<u8>>) -> Vec<u8> {
    let mut bytes = Vec::new();
    for case in cases {
        bytes.extend((case.len() as u32).to_le_bytes());
        bytes.extend(case);
    }
    bytes
}

/// The cases of a framed file; a file that ends inside a case is an error.
pub fn cases(mut file: &[u8]) -> Result<Vec<&[u8]>, String> {
    let mut cases = Vec::new();
    while !file.is_empty() {
        let (length, rest) = file.split_at_checked(4).ok_or("file ends inside a length")?;
        let length = u32::from_le_bytes(length.try_into().unwrap()) as usize;
        let (case, rest) = rest.split_at_checked(length).ok_or("file ends inside a case")?;
        cases.push(case);
        file = rest;
    }
    Ok(cases)
}

/// Appends words of 4 bytes, little-endian.
pub fn push_words(bytes: &mut Vec<u8>, words: impl IntoIterator<Item = u32>) {
    bytes.extend(words.into_iter().flat_map(|word| word.to_le_bytes()));
}

/// The first argument of a program, a file name.
pub fn file_argument() -> String {
    std::env::args().nth(1).expect("a file name is wanted")
}
