//! Row files: little-endian words, a head of five, then n records of one word "next" and a row.

use crate::checks::{self, refuse, Refusal, LARGEST_SIZE};
use crate::residue::LARGEST_PRIME;
use crate::table::Shape;

const WORD: usize = 4;
const HEAD: usize = 5 * WORD;

/// The rows of a file, in the order of its chain, as a table. Gives the prime, which is the largest where the file says 0.
pub fn read_file(file: &[u8], result: &mut [u32]) -> Result<u32, Refusal> {
    refuse(file.len() < HEAD, 9, 6, 0)?;
    let p = if word(file, 0) == 0 { LARGEST_PRIME } else { word(file, 0) };
    let shape = checks::shape_in(6, LARGEST_SIZE, p, word(file, 1), word(file, 2), word(file, 3))?;
    refuse(file.len() != file_bytes(shape), 9, 6, 0)?;
    checks::length(5, result, shape.table_words())?;
    let file = File { shape, bytes: file };
    file.check_chain()?;
    checks::first_bad(6, file.rows().enumerate().position(|(k, row)| shape.used(k).any(|place| word(row, place) >= p)))?;
    for (k, (new, row)) in result.chunks_exact_mut(shape.row_words()).zip(file.rows()).enumerate() {
        new.fill(0);
        shape.used(k).for_each(|place| new[place] = word(row, place));
    }
    Ok(p)
}

/// The file of a table: its rows in order, idle words 0.
pub fn write_file(p: u32, n: u32, r: u32, s: u32, table: &[u32], file: &mut [u8]) -> Result<(), Refusal> {
    let shape = checks::shape(p, n, r, s)?;
    checks::length(1, table, shape.table_words())?;
    checks::length(6, file, file_bytes(shape))?;
    checks::table(1, shape, table)?;
    let (head, records) = file.split_at_mut(HEAD);
    [p, n, r, s, 1].into_iter().enumerate().for_each(|(place, x)| put(head, place, x));
    let rows = table.chunks_exact(shape.row_words()).take(shape.n);
    for (k, (record, row)) in records.chunks_exact_mut(record_bytes(shape)).zip(rows).enumerate() {
        let (next, new) = record.split_at_mut(WORD);
        put(next, 0, if shape.is_last(k) { 0 } else { k as u32 + 2 });
        new.fill(0);
        shape.used(k).for_each(|place| put(new, place, row[place]));
    }
    Ok(())
}

/// A file of the right length.
#[derive(Clone, Copy)]
struct File<'t> {
    shape: Shape,
    bytes: &'t [u8],
}

impl<'t> File<'t> {
    fn first(self) -> u32 {
        word(self.bytes, 4)
    }

    /// The number after a record's and its row; records are numbered from 1.
    fn record(self, number: u32) -> (u32, &'t [u8]) {
        let bytes = record_bytes(self.shape);
        let (next, row) = self.bytes[HEAD + (number as usize - 1) * bytes..][..bytes].split_at(WORD);
        (word(next, 0), row)
    }

    /// A chain that returns to a record never meets 0, so it is wrong after n rows at the latest.
    fn check_chain(self) -> Result<(), Refusal> {
        let n = self.shape.n as u32;
        let mut met = self.first();
        for k in 0..n {
            refuse(met == 0 || met > n, 10, 6, k)?;
            met = self.record(met).0;
        }
        refuse(met != 0, 10, 6, n)
    }

    /// The rows in the order of the chain, which is right.
    fn rows(self) -> impl Iterator<Item = &'t [u8]> {
        let mut met = self.first();
        (0..self.shape.n).map(move |_| {
            let (next, row) = self.record(met);
            met = next;
            row
        })
    }
}

fn record_bytes(shape: Shape) -> usize {
    WORD * (1 + shape.row_words())
}

fn file_bytes(shape: Shape) -> usize {
    HEAD + shape.n * record_bytes(shape)
}

fn word(bytes: &[u8], place: usize) -> u32 {
    let bytes = &bytes[place * WORD..][..WORD];
    u32::from_le_bytes([bytes[0], bytes[1], bytes[2], bytes[3]])
}

fn put(bytes: &mut [u8], place: usize, x: u32) {
    bytes[place * WORD..][..WORD].copy_from_slice(&x.to_le_bytes());
}
