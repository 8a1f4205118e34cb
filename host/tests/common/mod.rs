//! The stored lists of fixed answers, read; vectors/FORMAT.md says what stands in them.
use std::{
    fs,
    path::{Path, PathBuf},
};

/// A path from the root of the repository, for the tests of this crate and of the tool's.
pub fn at_root(path: &str) -> PathBuf {
    let all = Path::new(env!("CARGO_MANIFEST_DIR")).ancestors().map(|folder| folder.join(path));
    all.into_iter().find(|path| path.exists()).expect(path)
}

/// The bytes of a stored list.
pub fn list(name: &str) -> Vec<u8> {
    fs::read(at_root("crates/replay/data").join(name)).expect(name)
}

/// What is left of a list or of one record; numbers stand low byte first.
pub struct Bytes<'a>(pub &'a [u8]);

impl<'a> Bytes<'a> {
    pub fn part(&mut self, length: usize) -> &'a [u8] {
        let (part, rest) = self.0.split_at(length);
        self.0 = rest;
        part
    }

    pub fn number(&mut self, bytes: usize) -> u64 {
        self.part(bytes).iter().rev().fold(0, |n, b| n << 8 | u64::from(*b))
    }

    /// A part after its length in four bytes.
    pub fn counted(&mut self) -> &'a [u8] {
        let length = self.number(4) as usize;
        self.part(length)
    }
}

/// The records of a list, each after its size in four bytes.
pub fn records(list: &[u8]) -> Vec<Bytes<'_>> {
    let (mut list, mut found) = (Bytes(list), Vec::new());
    while !list.0.is_empty() {
        found.push(Bytes(list.counted()));
    }
    found
}

/// The sheets of the stored list that the list itself calls accepted: its number is 0, or 30 for a buffer that does not fit the sheet.
pub fn accepted() -> Vec<Vec<u8>> {
    let list = list("sheets");
    let said = records(&list).into_iter().map(|mut case| {
        let sheet = case.counted();
        case.part(4 + 1);
        (sheet, case.number(1))
    });
    said.filter(|(_, number)| [0, 30].contains(number)).map(|(sheet, _)| sheet.to_vec()).collect()
}
