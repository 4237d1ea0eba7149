//! Cases whose answers stand in the papers or were worked by hand, as numbers: they test the dense program too.

use crate::calls::{apply, apply_transpose, entry, matrix, multiple, transpose, Call};
use crate::case::{Buffer, Case, Holds};
use crate::refusals::{Reply, LARGEST_PRIME};
use crate::tally::Tally;
use crate::trial::{compare, owed};

mod dense;
mod files;
mod fractions;
mod kernel;
mod solved;
mod two;

const ANY: u32 = u32::MAX;

/// The calls that are lent one table and sweep no pivots.
const ON_ONE_TABLE: [&Call; 6] =
    [&entry::CALL, &matrix::CALL, &apply::CALL, &apply_transpose::CALL, &transpose::CALL, &multiple::CALL];

/// File M's table, in row order: P 7, N 3, r and s 1.
const M: [u32; 21] = [1, 9, 9, 2, 1, 9, 9, 3, 1, 2, 1, 2, 3, 1, 5, 3, 9, 9, 9, 9, 4];
const M_MATRIX: [u32; 9] = [1, 1, 5, 2, 3, 1, 5, 3, 5];
const M_INVERSE: [u32; 21] = [3, 0, 0, 2, 1, 0, 0, 2, 2, 5, 4, 3, 0, 6, 2, 1, 0, 0, 0, 0, 6];
const M_SQUARE: [[u32; 17]; 3] = [
    [0, 0, 0, 0, 0, 0, 0, 2, 2, 1, 1, 0, 0, 0, 0, 0, 0],
    [0, 1, 2, 2, 1, 0, 2, 0, 1, 2, 5, 3, 2, 0, 3, 4, 1],
    [4, 3, 1, 0, 0, 0, 0, 0, 0, 0, 0, 0, 0, 0, 0, 6, 4],
];

pub fn run(tally: &mut Tally) -> Result<(), String> {
    let mut examples = Examples { tally };
    examples.file_m()?;
    examples.inverse_of_m()?;
    examples.m_times_m()?;
    examples.diagonal()?;
    examples.limits()?;
    examples.order_of_refusals()?;
    examples.bad_words()?;
    examples.short_buffers()?;
    examples.idle_words()?;
    examples.order_of_products()?;
    examples.large_products()?;
    examples.one_table_as_column()?;
    examples.on_two_tables()?;
    examples.of_pivots()?;
    examples.of_dense_solve()?;
    examples.of_kernel()?;
    examples.of_files()?;
    examples.of_fractions()
}

struct Examples<'t> {
    tally: &'t mut Tally,
}

/// A call's case with the given buffers, in their order.
fn case(call: &Call, p: u32, n: u32, orders: (u32, u32), buffers: &[&[u32]]) -> Case {
    assert_eq!(call.buffers.len(), buffers.len());
    let lent = call.buffers.iter().zip(buffers).map(|(&(number, holds), words)| Buffer::new(number, holds, words.to_vec()));
    Case { p, q: 1, n, orders: vec![orders], place: (1, 1), k: 1, c: 1, buffers: lent.collect(), faults: vec![] }
}

fn entry_case(p: u32, n: u32, orders: (u32, u32), place: (u32, u32), table: &[u32]) -> Case {
    Case { place, ..case(&entry::CALL, p, n, orders, &[table]) }
}

fn multiple_case(p: u32, n: u32, orders: (u32, u32), c: u32, table: &[u32], result: &[u32]) -> Case {
    Case { c, ..case(&multiple::CALL, p, n, orders, &[table, result]) }
}

/// File M's table with some words changed.
fn m_with(changes: &[(usize, u32)]) -> Vec<u32> {
    let mut words = M.to_vec();
    changes.iter().for_each(|&(place, word)| words[place] = word);
    words
}

impl Examples<'_> {
    /// The library and the dense program both owe this reply and these words at the beginning of the written buffers.
    fn expect(&mut self, call: &Call, case: Case, reply: [u32; 4], written: &[(u32, &[u32])]) -> Result<(), String> {
        let [number, buffer, row, value] = reply;
        let reply = Reply { number, buffer, row, value };
        let owed = owed(call, &case);
        if owed.reply != reply || !owed.written.iter().map(|(number, words)| (*number, &words[..])).eq(written.iter().copied()) {
            return Err(format!(
                "the dense program owes {} {:?}, not {reply} {written:?}, for {case:?}",
                owed.reply, owed.written
            ));
        }
        compare(call, &case, &owed)?;
        self.tally.record(call, &case, reply);
        Ok(())
    }

    fn accepts(&mut self, call: &Call, case: Case, result: &[u32]) -> Result<(), String> {
        self.expect(call, case, [0; 4], &[(5, result)])
    }

    fn refuses(&mut self, call: &Call, case: Case, number: u32, buffer: u32, row: u32) -> Result<(), String> {
        self.expect(call, case, [number, buffer, row, 0], &[])
    }

    fn entry_is(&mut self, case: Case, value: u32) -> Result<(), String> {
        self.expect(&entry::CALL, case, [0, 0, 0, value], &[])
    }

    /// Example 1, and every other call on file M's table.
    fn file_m(&mut self) -> Result<(), String> {
        let orders = (1, 1);
        self.accepts(&matrix::CALL, case(&matrix::CALL, 7, 3, orders, &[&M, &[8; 10]]), &M_MATRIX)?;
        self.accepts(&apply::CALL, case(&apply::CALL, 7, 3, orders, &[&M, &[1, 2, 3], &[8; 3]]), &[4, 4, 5])?;
        let transposed = case(&apply_transpose::CALL, 7, 3, orders, &[&M, &[1, 2, 3], &[8; 4]]);
        self.accepts(&apply_transpose::CALL, transposed, &[6, 2, 1])?;
        for (place, &value) in M_MATRIX.iter().enumerate() {
            let place = (place as u32 / 3 + 1, place as u32 % 3 + 1);
            self.entry_is(entry_case(7, 3, orders, place, &M), value)?;
        }
        let transposed = [1, 0, 0, 1, 2, 0, 0, 3, 1, 3, 2, 1, 2, 1, 5, 4, 0, 0, 0, 0, 3];
        self.accepts(&transpose::CALL, case(&transpose::CALL, 7, 3, orders, &[&M, &[8; 22]]), &transposed)?;
        let tripled = [3, 0, 0, 2, 3, 0, 0, 2, 3, 2, 1, 6, 3, 1, 1, 2, 0, 0, 0, 0, 4];
        self.accepts(&multiple::CALL, multiple_case(7, 3, orders, 3, &M, &[8; 22]), &tripled)
    }

    /// Example 3: the inverse's table stands for rows 3 6 0, 4 2 4, 3 4 2, and takes example 1 back.
    fn inverse_of_m(&mut self) -> Result<(), String> {
        let rows = [3, 6, 0, 4, 2, 4, 3, 4, 2];
        self.accepts(&matrix::CALL, case(&matrix::CALL, 7, 3, (1, 1), &[&M_INVERSE, &[8; 9]]), &rows)?;
        self.accepts(&apply::CALL, case(&apply::CALL, 7, 3, (1, 1), &[&M_INVERSE, &[4, 4, 5], &[8; 3]]), &[1, 2, 3])
    }

    /// Example 4: M sends its own columns to those of M times M, rows 0 5 3, 6 0 4, 1 1 4.
    fn m_times_m(&mut self) -> Result<(), String> {
        let columns = [([1, 2, 5], [0, 6, 1]), ([1, 3, 3], [5, 0, 1]), ([5, 1, 5], [3, 4, 4])];
        for (x, y) in columns {
            self.accepts(&apply::CALL, case(&apply::CALL, 7, 3, (1, 1), &[&M, &x, &[8; 3]]), &y)?;
        }
        Ok(())
    }

    /// Example 7: orders 0, diagonal 2, 3 modulo 5.
    fn diagonal(&mut self) -> Result<(), String> {
        for call in [&apply::CALL, &apply_transpose::CALL] {
            self.accepts(call, case(call, 5, 2, (0, 0), &[&[2, 3], &[1, 1], &[8; 2]]), &[2, 3])?;
        }
        self.accepts(&matrix::CALL, case(&matrix::CALL, 5, 2, (0, 0), &[&[2, 3], &[8; 4]]), &[2, 0, 0, 3])
    }

    /// Example 9, what concerns these calls: N 1,024 passes, 1,025 gives 2, P 1 and 9 give 1.
    fn limits(&mut self) -> Result<(), String> {
        let identity: Vec<u32> = (0..1024 * 1024).map(|place| u32::from(place / 1024 == place % 1024)).collect();
        let with = |call: &Call, p, n| {
            let words = |&(number, _): &(u32, Holds)| if number == 5 { vec![8; 1025 * 1025] } else { vec![1; 1025] };
            let buffers: Vec<Vec<u32>> = call.buffers.iter().map(words).collect();
            case(call, p, n, (0, 0), &buffers.iter().map(|words| &words[..]).collect::<Vec<_>>())
        };
        self.entry_is(with(&entry::CALL, 7, 1024), 1)?;
        self.accepts(&matrix::CALL, with(&matrix::CALL, 7, 1024), &identity)?;
        for call in [&apply::CALL, &apply_transpose::CALL, &transpose::CALL, &multiple::CALL] {
            self.accepts(call, with(call, 7, 1024), &[1; 1024])?;
        }
        for call in ON_ONE_TABLE {
            self.refuses(call, with(call, 7, 1025), 2, 0, 0)?;
            for p in [0, 1, 4, 9, 2_047, 2_147_483_648, 2_147_483_659, ANY] {
                self.refuses(call, with(call, p, 2), 1, 0, 0)?;
            }
        }
        self.entry_is(entry_case(2, 1, (0, 0), (1, 1), &[1]), 1)?;
        self.entry_is(entry_case(LARGEST_PRIME, 1, (0, 0), (1, 1), &[LARGEST_PRIME - 1]), LARGEST_PRIME - 1)
    }

    /// Several causes at once: the first of the table decides.
    fn order_of_refusals(&mut self) -> Result<(), String> {
        let e = &entry::CALL;
        self.refuses(e, entry_case(9, 0, (9, 0), (0, 1), &[]), 1, 0, 0)?;
        self.refuses(e, entry_case(7, 0, (9, 0), (0, 1), &[]), 2, 0, 0)?;
        self.refuses(e, entry_case(7, 3, (9, 0), (0, 1), &[]), 3, 1, 0)?;
        self.refuses(e, entry_case(7, 3, (0, 9), (0, 1), &[]), 3, 1, 0)?;
        self.refuses(e, entry_case(7, 3, (1, 1), (4, 1), &[]), 8, 0, 0)?;
        self.refuses(e, entry_case(7, 3, (1, 1), (1, 0), &[]), 8, 0, 0)?;
        self.refuses(e, entry_case(7, 3, (1, 1), (3, 3), &[]), 4, 1, 0)?;
        self.refuses(e, entry_case(7, 3, (1, 1), (3, 3), &m_with(&[(0, ANY)])[..20]), 4, 1, 0)?;
        let bad = m_with(&[(7, 7)]);
        self.refuses(&matrix::CALL, case(&matrix::CALL, 7, 3, (1, 1), &[&bad, &[8; 8]]), 4, 5, 0)?;
        self.refuses(&multiple::CALL, multiple_case(7, 3, (1, 1), 7, &bad, &[8; 20]), 4, 5, 0)?;
        self.refuses(&multiple::CALL, multiple_case(7, 3, (1, 1), 7, &bad, &[8; 21]), 5, 0, 0)?;
        self.refuses(&multiple::CALL, multiple_case(7, 3, (1, 1), 6, &bad, &[8; 21]), 5, 1, 2)
    }

    /// Every used word is tested, by row, also where the answer needs only some.
    fn bad_words(&mut self) -> Result<(), String> {
        self.refuses(&entry::CALL, entry_case(7, 3, (1, 1), (1, 1), &m_with(&[(20, 7)])), 5, 1, 3)?;
        self.refuses(&entry::CALL, entry_case(7, 3, (1, 1), (3, 3), &m_with(&[(0, 7), (20, 7)])), 5, 1, 1)?;
        for call in [&apply::CALL, &apply_transpose::CALL] {
            let with = |table: &[u32], column: &[u32]| case(call, 7, 3, (1, 1), &[table, column, &[8; 3]]);
            self.refuses(call, with(&M, &[1, 7, 7]), 5, 3, 2)?;
            self.refuses(call, with(&m_with(&[(15, ANY)]), &[7, 7, 7]), 5, 1, 3)?;
            self.refuses(call, with(&M, &[1, 2, 7, 7]), 5, 3, 3)?;
        }
        let column = [1, 2, 3, 7, ANY];
        self.accepts(&apply::CALL, case(&apply::CALL, 7, 3, (1, 1), &[&M, &column, &[8; 5]]), &[4, 4, 5])
    }

    /// Of several short buffers the lowest is named.
    fn short_buffers(&mut self) -> Result<(), String> {
        let call = &apply::CALL;
        let with = |table: usize, column: usize, result: usize| {
            case(call, 7, 3, (1, 1), &[&M[..table], &[ANY; 3][..column], &[8; 3][..result]])
        };
        self.refuses(call, with(20, 2, 2), 4, 1, 0)?;
        self.refuses(call, with(21, 2, 2), 4, 3, 0)?;
        self.refuses(call, with(21, 3, 2), 4, 5, 0)?;
        self.refuses(call, with(0, 0, 0), 4, 1, 0)
    }

    /// With N 1 all but d is idle; with N 2 a and b are idle in both rows.
    fn idle_words(&mut self) -> Result<(), String> {
        let one = [3, ANY, ANY, ANY, ANY, ANY, ANY];
        self.accepts(&matrix::CALL, case(&matrix::CALL, 7, 1, (1, 1), &[&one, &[8; 2]]), &[3])?;
        self.accepts(&apply::CALL, case(&apply::CALL, 7, 1, (1, 1), &[&one, &[4], &[8]]), &[5])?;
        self.accepts(&transpose::CALL, case(&transpose::CALL, 7, 1, (1, 1), &[&one, &[8; 7]]), &[3, 0, 0, 0, 0, 0, 0])?;
        self.accepts(&multiple::CALL, multiple_case(7, 1, (1, 1), 6, &one, &[8; 7]), &[4, 0, 0, 0, 0, 0, 0])?;
        let two = [3, ANY, ANY, 2, 5, ANY, ANY, 6, 4, ANY, ANY, ANY, ANY, 3];
        self.accepts(&matrix::CALL, case(&matrix::CALL, 7, 2, (1, 1), &[&two, &[8; 4]]), &[3, 1, 1, 6])?;
        let transposed = [3, 0, 0, 5, 2, 0, 0, 6, 3, 0, 0, 0, 0, 4];
        self.accepts(&transpose::CALL, case(&transpose::CALL, 7, 2, (1, 1), &[&two, &[8; 14]]), &transposed)
    }

    /// The a's multiply falling, a(3) a(2), and the b's rising, b(2) b(3); here neither commutes.
    fn order_of_products(&mut self) -> Result<(), String> {
        let table = [
            [1, ANY, ANY, ANY, ANY, ANY, ANY, 0, 1, 1, 0, ANY, ANY, ANY, ANY, ANY, ANY],
            [1, 0, 0, 1, 1, 0, 1, 0, 0, 0, 0, 1, 1, 0, 1, 0, 0],
            [1, 0, 0, 1, 0, 1, 1, 0, 0, 0, 0, 1, 0, 1, 1, 0, 0],
            [1, 0, 1, ANY, ANY, ANY, ANY, ANY, ANY, ANY, ANY, ANY, ANY, ANY, ANY, 1, 1],
        ]
        .concat();
        self.entry_is(entry_case(7, 4, (2, 2), (4, 1), &table), 2)?;
        self.entry_is(entry_case(7, 4, (2, 2), (1, 4), &table), 3)?;
        let rows = [1, 0, 0, 3, 0, 1, 0, 0, 0, 0, 1, 0, 2, 0, 0, 1];
        self.accepts(&matrix::CALL, case(&matrix::CALL, 7, 4, (2, 2), &[&table, &[8; 16]]), &rows)?;
        let applied = |call| case(call, 7, 4, (2, 2), &[&table, &[1, 0, 0, 1], &[8; 4]]);
        self.accepts(&apply::CALL, applied(&apply::CALL), &[4, 0, 0, 3])?;
        self.accepts(&apply_transpose::CALL, applied(&apply_transpose::CALL), &[3, 0, 0, 4])?;
        let transposed = [
            [1, 0, 0, 0, 0, 0, 0, 1, 0, 0, 1, 0, 0, 0, 0, 0, 0],
            [1, 0, 0, 1, 0, 1, 1, 0, 0, 0, 0, 1, 0, 1, 1, 0, 0],
            [1, 0, 0, 1, 1, 0, 1, 0, 0, 0, 0, 1, 1, 0, 1, 0, 0],
            [1, 1, 1, 0, 0, 0, 0, 0, 0, 0, 0, 0, 0, 0, 0, 0, 1],
        ]
        .concat();
        self.accepts(&transpose::CALL, case(&transpose::CALL, 7, 4, (2, 2), &[&table, &[8; 68]]), &transposed)
    }

    /// Eight products near 2⁶² do not fit 64 bits: p a q of order 8, all words P − 1, is −64.
    fn large_products(&mut self) -> Result<(), String> {
        let most = LARGEST_PRIME - 1;
        let table = vec![most; 3 * 161];
        self.entry_is(entry_case(LARGEST_PRIME, 3, (8, 8), (3, 1), &table), 2_147_483_583)?;
        self.entry_is(entry_case(LARGEST_PRIME, 3, (8, 8), (1, 3), &table), 2_147_483_583)?;
        self.entry_is(entry_case(LARGEST_PRIME, 3, (8, 8), (2, 1), &table), 8)?;
        for call in [&apply::CALL, &apply_transpose::CALL] {
            let ones = case(call, LARGEST_PRIME, 3, (8, 8), &[&table, &[1; 3], &[9; 3]]);
            self.accepts(call, ones, &[LARGEST_PRIME - 57, 15, LARGEST_PRIME - 57])?;
        }
        Ok(())
    }

    /// Two buffers that are only read may be the same memory: the column here is 3, 0, 0.
    fn one_table_as_column(&mut self) -> Result<(), String> {
        for (call, result) in [(&apply::CALL, [2, 5, 2]), (&apply_transpose::CALL, [2, 4, 0])] {
            let mut case = case(call, 7, 3, (1, 1), &[&M_INVERSE, &M_INVERSE, &[8; 3]]);
            case.buffers[1].shared = true;
            self.accepts(call, case, &result)?;
        }
        Ok(())
    }
}
