//! The snapshot: register and ledger together in one file.
//!
//! Numbers take four bytes, the high byte first. Five of them are the contents:
//! the edition, then start and length in bytes of the register's used words,
//! then of the ledger's. The words themselves follow, without a gap.

use crate::words::{padded, Form};
use crate::{Records, Refusal, Routes};

pub const EDITION: u32 = 1;
/// Bytes of the contents.
pub const CONTENTS: usize = 20;

const NUMBER: usize = 4;
/// The two counts, which every table has.
const SHORTEST_PART: u64 = 8;

pub fn write(records: &Records, routes: &Routes) -> Vec<u8> {
    file(&records.write(), &routes.write())
}

/// The file with these words of a register and of a ledger.
pub fn file(register: &[u32], ledger: &[u32]) -> Vec<u8> {
    let (first, second) = (NUMBER * register.len(), NUMBER * ledger.len());
    let places = [CONTENTS, first, CONTENTS + first, second].map(|place| place as u32);
    [&[EDITION], &places[..], register, ledger].iter().flat_map(|part| bytes(part)).collect()
}

/// Rows 24 for an input without whole contents, 22, 23, 24, 2, 3.
pub fn read(input: &[u8]) -> Result<(Records, Routes), Refusal> {
    if input.len() < CONTENTS {
        return Err(Refusal::row(24));
    }
    let (contents, bodies) = input.split_at(CONTENTS);
    let contents = numbers(contents);
    if contents[0] != EDITION {
        return Err(Refusal::row(22));
    }
    // In 64 bits no sum of two wraps round.
    let first = Part { start: contents[1].into(), length: contents[2].into() };
    let second = Part { start: contents[3].into(), length: contents[4].into() };
    let start = CONTENTS as u64;
    if !first.fits::<Records>(start) || !second.fits::<Routes>(start + first.length) {
        return Err(Refusal::row(23));
    }
    if bodies.len() as u64 != first.length + second.length {
        return Err(Refusal::row(24));
    }
    let (register, ledger) = bodies.split_at(first.length as usize);
    Ok((table(register)?, table(ledger)?))
}

/// What the contents say of one table.
struct Part {
    start: u64,
    length: u64,
}

impl Part {
    /// Row 23 is not given for this part, which has to begin at `start`.
    fn fits<T: Form>(&self, start: u64) -> bool {
        let longest = (NUMBER * T::LENGTH) as u64;
        self.start == start
            && (SHORTEST_PART..=longest).contains(&self.length)
            && self.length.is_multiple_of(NUMBER as u64)
    }
}

/// Row 2 or 3. The words stand for a table with zeros behind them. Its own rules
/// can't see how many of these zeros the file has, so the length is compared too.
fn table<T: Form>(body: &[u8]) -> Result<T, Refusal> {
    let words = numbers(body);
    let whole = T::used(&words) == words.len() as u64;
    let words = padded(words, T::LENGTH);
    if !whole || !T::well_formed(&words) {
        return Err(Refusal::row(T::DAMAGED));
    }
    Ok(T::read(&words))
}

fn bytes(numbers: &[u32]) -> Vec<u8> {
    numbers.iter().flat_map(|number| number.to_be_bytes()).collect()
}

fn numbers(bytes: &[u8]) -> Vec<u32> {
    bytes.chunks_exact(NUMBER).map(|b| u32::from_be_bytes([b[0], b[1], b[2], b[3]])).collect()
}

// For streams and tests

/// Counts whose used words or bytes, in 32 bits, would wrap round to what is there.
pub const WRAPPING_COUNTS: [[u32; 2]; 9] = [
    [1 << 28, 0],
    [1 << 30, 0],
    [0, 1 << 30],
    [1 << 31, 1 << 31],
    [1 << 30, 3 << 30],
    [477_218_589, 4_294_967_291],
    [u32::MAX, 4],
    [u32::MAX, 9],
    [u32::MAX, u32::MAX],
];

/// Number `index` of a file that has it.
pub fn number_at(file: &[u8], index: usize) -> u32 {
    numbers(&file[NUMBER * index..][..NUMBER])[0]
}

/// The file with some of its numbers, counted from 0, replaced.
pub fn with(file: &[u8], numbers: &[(usize, u32)]) -> Vec<u8> {
    let mut file = file.to_vec();
    for (index, number) in numbers {
        file[NUMBER * index..][..NUMBER].copy_from_slice(&bytes(&[*number]));
    }
    file
}

/// The words of the register and of the ledger of a file whose second start is right.
pub fn parts(file: &[u8]) -> [Vec<u32>; 2] {
    let second = number_at(file, 3) as usize;
    [numbers(&file[CONTENTS..second]), numbers(&file[second..])]
}
