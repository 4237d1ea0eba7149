//! The examples of reading and writing a row file.

use super::{m_with, Examples, ANY, M};
use crate::calls::{read_file, write_file};
use crate::case::{Buffer, Case, Holds};
use crate::refusals::LARGEST_PRIME;
use crate::row_file::bytes;

/// File M: row 1 is record 2, row 2 is record 3, row 3 is record 1.
#[rustfmt::skip]
const FILE_M: [u32; 29] = [
    7, 3, 1, 1, 2,
    0, 5, 3, 9, 9, 9, 9, 4,
    3, 1, 9, 9, 2, 1, 9, 9,
    1, 3, 1, 2, 1, 2, 3, 1,
];
const M_READ: [u32; 21] = [1, 0, 0, 2, 1, 0, 0, 3, 1, 2, 1, 2, 3, 1, 5, 3, 0, 0, 0, 0, 4];
/// The file that M's table is written as.
#[rustfmt::skip]
const M_WRITTEN: [u32; 29] = [
    7, 3, 1, 1, 1,
    2, 1, 0, 0, 2, 1, 0, 0,
    3, 3, 1, 2, 1, 2, 3, 1,
    0, 5, 3, 0, 0, 0, 0, 4,
];

/// File M with some words changed.
fn file_with(changes: &[(usize, u32)]) -> Vec<u32> {
    let mut words = FILE_M.to_vec();
    changes.iter().for_each(|&(place, word)| words[place] = word);
    words
}

fn writing(p: u32, n: u32, orders: (u32, u32), table: &[u32], count: usize) -> Case {
    let file = vec![0xa5; count];
    let buffers = vec![Buffer::new(1, Holds::Table(0), table.to_vec()), Buffer::new(6, Holds::WrittenFile, file)];
    Case { p, q: 1, n, orders: vec![orders], place: (1, 1), k: 1, c: 1, buffers, faults: vec![] }
}

impl Examples<'_> {
    pub fn of_files(&mut self) -> Result<(), String> {
        self.reading_m()?;
        self.chains_of_m()?;
        self.bad_words_of_m()?;
        self.order_of_refusals_of_reading()?;
        self.reading_at_the_limits()?;
        self.writing_m()?;
        self.bytes_in_order()?;
        self.refusals_of_writing()
    }

    fn reads(&mut self, file: &[u32], count: usize, p: u32, table: &[u32]) -> Result<(), String> {
        self.expect(&read_file::CALL, Case::reading(vec![8; count], &bytes(file)), [0, 0, 0, p], &[(5, table)])
    }

    /// Reading these bytes is refused, with so many words lent as the result.
    fn refuses_file(&mut self, file: &[u32], count: usize, refusal: [u32; 3]) -> Result<(), String> {
        let [number, buffer, row] = refusal;
        self.refuses(&read_file::CALL, Case::reading(vec![8; count], file), number, buffer, row)
    }

    fn writes(&mut self, case: Case, file: &[u32]) -> Result<(), String> {
        self.expect(&write_file::CALL, case, [0; 4], &[(6, file)])
    }

    /// File M, with and without surplus; its records in the order of the rows.
    fn reading_m(&mut self) -> Result<(), String> {
        self.reads(&FILE_M, 21, 7, &M_READ)?;
        self.reads(&FILE_M, 25, 7, &M_READ)?;
        self.reads(&M_WRITTEN, 21, 7, &M_READ)?;
        self.reads(&[2, 3, 0, 0, 3, 2, 1, 0, 1, 1, 1], 3, 2, &[1, 1, 1])?;
        self.reads(&[7, 3, 0, 0, 2, 0, 3, 3, 1, 1, 2], 3, 7, &[1, 2, 3])?;
        self.reads(&[7, 1, 1, 1, 1, 0, 3, ANY, ANY, 7, ANY, 8, ANY], 7, 7, &[3, 0, 0, 0, 0, 0, 0])
    }

    /// Example 10, and the other ways in which M's chain may be wrong.
    fn chains_of_m(&mut self) -> Result<(), String> {
        let chains: [(&[(usize, u32)], u32); 14] = [
            (&[(4, 4)], 0),
            (&[(5, 1)], 3),
            (&[(4, 0)], 0),
            (&[(4, ANY)], 0),
            (&[(4, 65_538)], 0),
            (&[(4, 3)], 2),
            (&[(4, 1)], 1),
            (&[(5, 2)], 3),
            (&[(5, 4)], 3),
            (&[(13, 0)], 1),
            (&[(13, 2)], 3),
            (&[(13, 4)], 1),
            (&[(13, 1)], 2),
            (&[(21, 0)], 2),
        ];
        for (changes, rows) in chains {
            self.refuses_file(&bytes(&file_with(changes)), 21, [10, 6, rows])?;
        }
        Ok(())
    }

    /// The first bad row in the order of the chain, not of the file; a bad word beside a wrong chain is not reached.
    fn bad_words_of_m(&mut self) -> Result<(), String> {
        let words: [(&[(usize, u32)], u32); 8] = [
            (&[(6, 7)], 3),
            (&[(7, 7)], 3),
            (&[(12, ANY)], 3),
            (&[(14, 7)], 1),
            (&[(17, 7)], 1),
            (&[(6, 7), (22, 7)], 2),
            (&[(6, 7), (22, 7), (18, 8)], 1),
            (&[(24, 7)], 2),
        ];
        for (changes, row) in words {
            self.refuses_file(&bytes(&file_with(changes)), 21, [5, 6, row])?;
        }
        self.refuses_file(&bytes(&file_with(&[(14, 7), (5, 1)])), 21, [10, 6, 3])
    }

    /// 9 (under 20), 1, 2, 3, 9 (length), 4, 10, 5.
    fn order_of_refusals_of_reading(&mut self) -> Result<(), String> {
        let all = bytes(&[9, 0, 9, 1, 1]);
        self.refuses_file(&[], 0, [9, 6, 0])?;
        self.refuses_file(&all[..4], 0, [9, 6, 0])?;
        self.refuses_file(&all[..19], 0, [9, 6, 0])?;
        self.refuses_file(&all, 0, [1, 0, 0])?;
        self.refuses_file(&bytes(&[7, 0, 9, 1, 1]), 0, [2, 0, 0])?;
        self.refuses_file(&bytes(&[7, 1_025, 1, 9, 1]), 0, [2, 0, 0])?;
        self.refuses_file(&bytes(&[7, 1, 9, 1, 1]), 0, [3, 6, 0])?;
        self.refuses_file(&bytes(&[7, 1, 1, 9, 1]), 0, [3, 6, 0])?;
        self.refuses_file(&bytes(&[7, 1, 0, 0, 1]), 0, [9, 6, 0])?;
        self.refuses_file(&bytes(&[7, 1, 0, 0, 2, 0, 9]), 0, [4, 5, 0])?;
        self.refuses_file(&bytes(&[7, 1, 0, 0, 2, 0, 9]), 1, [10, 6, 0])?;
        self.refuses_file(&bytes(&[7, 1, 0, 0, 1, 0, 9]), 1, [5, 6, 1])?;
        let m = bytes(&FILE_M);
        self.refuses_file(&[&m[..], &[0]].concat(), 0, [9, 6, 0])?;
        self.refuses_file(&[&m[..], &[0; 4]].concat(), 21, [9, 6, 0])?;
        self.refuses_file(&m[..115], 21, [9, 6, 0])?;
        self.refuses_file(&m[..112], 21, [9, 6, 0])?;
        self.refuses_file(&m, 20, [4, 5, 0])
    }

    /// 0 is the house prime; N 1,024 passes and 1,025 gives 2; orders 8 pass.
    fn reading_at_the_limits(&mut self) -> Result<(), String> {
        self.reads(&[0, 1, 0, 0, 1, 0, LARGEST_PRIME - 1], 1, LARGEST_PRIME, &[LARGEST_PRIME - 1])?;
        self.reads(&[LARGEST_PRIME, 1, 0, 0, 1, 0, LARGEST_PRIME - 1], 1, LARGEST_PRIME, &[LARGEST_PRIME - 1])?;
        self.refuses_file(&bytes(&[0, 1, 0, 0, 1, 0, LARGEST_PRIME]), 1, [5, 6, 1])?;
        for p in [1, 4, 9, 2_047, 2_147_483_648, ANY] {
            self.refuses_file(&bytes(&[p, 1, 0, 0, 1, 0, 0]), 1, [1, 0, 0])?;
        }
        // record m leads to the one before it
        let backwards = |n: u32| [vec![7, n, 0, 0, n], (1..=n).flat_map(|m| [m - 1, m % 7]).collect()].concat();
        let table: Vec<u32> = (1..=1024).rev().map(|m| m % 7).collect();
        self.reads(&backwards(1024), 1024, 7, &table)?;
        self.refuses_file(&bytes(&backwards(1025)), 1025, [2, 0, 0])?;
        self.refuses_file(&bytes(&[7, 0, 0, 0, 0]), 1, [2, 0, 0])?;
        let eights = [vec![7, 1, 8, 8, 1, 0, 6], vec![ANY; 160]].concat();
        self.reads(&eights, 161, 7, &[vec![6], vec![0; 160]].concat())
    }

    /// M's table, exact and with surplus, and what was read of it.
    fn writing_m(&mut self) -> Result<(), String> {
        let file = bytes(&M_WRITTEN);
        self.writes(writing(7, 3, (1, 1), &M, 116), &file)?;
        self.writes(writing(7, 3, (1, 1), &M, 121), &file)?;
        self.writes(writing(7, 3, (1, 1), &M_READ, 116), &file)?;
        self.writes(writing(7, 3, (1, 1), &[&M[..], &[ANY; 3]].concat(), 116), &file)
    }

    /// The least byte of a word comes first; the house prime is written in full.
    fn bytes_in_order(&mut self) -> Result<(), String> {
        #[rustfmt::skip]
        let file = [
            0xff, 0xff, 0xff, 0x7f,  2, 0, 0, 0,  0, 0, 0, 0,  0, 0, 0, 0,  1, 0, 0, 0,
            2, 0, 0, 0,  0x04, 0x03, 0x02, 0x01,
            0, 0, 0, 0,  0xfe, 0xff, 0xff, 0x7f,
        ];
        let table = [0x0102_0304, LARGEST_PRIME - 1];
        self.writes(writing(LARGEST_PRIME, 2, (0, 0), &table, 36), &file)?;
        let read = Case::reading(vec![8; 2], &file);
        self.expect(&read_file::CALL, read, [0, 0, 0, LARGEST_PRIME], &[(5, &table)])
    }

    fn refusals_of_writing(&mut self) -> Result<(), String> {
        let call = &write_file::CALL;
        self.refuses(call, writing(9, 0, (9, 0), &[], 0), 1, 0, 0)?;
        self.refuses(call, writing(0, 1, (0, 0), &[0], 28), 1, 0, 0)?;
        self.refuses(call, writing(7, 0, (9, 0), &[], 0), 2, 0, 0)?;
        self.refuses(call, writing(7, 1_025, (0, 0), &[0; 1025], 9_000), 2, 0, 0)?;
        self.refuses(call, writing(7, 3, (9, 0), &[], 0), 3, 1, 0)?;
        self.refuses(call, writing(7, 3, (0, 9), &[], 0), 3, 1, 0)?;
        self.refuses(call, writing(7, 3, (1, 1), &M[..20], 0), 4, 1, 0)?;
        self.refuses(call, writing(7, 3, (1, 1), &m_with(&[(0, 7)]), 115), 4, 6, 0)?;
        self.refuses(call, writing(7, 3, (1, 1), &m_with(&[(0, 7)]), 116), 5, 1, 1)?;
        self.refuses(call, writing(7, 3, (1, 1), &m_with(&[(20, 7)]), 120), 5, 1, 3)
    }
}
