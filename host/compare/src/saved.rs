//! The state of a sheet in a file.

use reference::machine::Lent;
use std::{fs, io, path::Path};

/// All that a sheet needs to be taken up again.
pub struct Saved {
    /// What its runs are lent.
    pub lent: Lent,
    /// The cursor's record and strip.
    pub cursor: (i32, i32),
}

impl Saved {
    /// Replaces the file's state. Whatever happens meanwhile, the file has the old state or the new one.
    pub fn write(&self, path: &Path) -> io::Result<()> {
        let numbers = [self.cursor.0, self.cursor.1].into_iter().chain(self.lent.answers.iter().copied());
        let mut bytes: Vec<u8> = numbers.flat_map(i32::to_le_bytes).collect();
        bytes.extend(self.lent.arrays.iter().flatten().flat_map(|x| x.to_bits().to_le_bytes()));
        let beside = path.with_extension("new");
        fs::write(&beside, bytes)?;
        fs::rename(beside, path)
    }

    /// Reads the file's state; `like` has as many answers and elements.
    pub fn read(path: &Path, like: &Lent) -> io::Result<Saved> {
        let bytes = fs::read(path)?;
        let (numbers, elements) = bytes.split_at(4 * (2 + like.answers.len()));
        let number = |bytes: &[u8]| i32::from_le_bytes(bytes.try_into().expect("four bytes"));
        let element = |bytes: &[u8]| f64::from_bits(u64::from_le_bytes(bytes.try_into().expect("eight bytes")));
        let numbers: Vec<i32> = numbers.chunks(4).map(number).collect();
        let mut elements = elements.chunks(8).map(element);
        let arrays = [0, 1, 2].map(|array| elements.by_ref().take(like.arrays[array].len()).collect());
        Ok(Saved { lent: Lent { arrays, answers: numbers[2..].to_vec() }, cursor: (numbers[0], numbers[1]) })
    }
}
