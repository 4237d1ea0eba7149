//! The entry at (i, j), as the reply's value.

use super::{no_more, Answer, Call, Number};
use crate::case::{Case, Holds};
use crate::lent::Lent;
use crate::refusals::{lengths, orders, place, prime, size, words};

extern "C" {
    fn residues_entry(p: u32, n: u32, r: u32, s: u32, i: u32, j: u32, table: *const u32, table_len: usize) -> u64;
}

pub const CALL: Call = Call {
    name: "residues_entry",
    tables: 1,
    pivots: false,
    number: Number::Place,
    buffers: &[(1, Holds::Table(0))],
    checks: &[prime, size, orders, place, lengths, words],
    outcomes: &[(0, 0), (1, 0), (2, 0), (3, 1), (8, 0), (4, 1), (5, 1)],
    answer,
    meaning: no_more,
    run,
};

fn answer(case: &Case) -> Answer {
    Answer::value(case.table().entry(case.place.0 as usize, case.place.1 as usize))
}

fn run(case: &Case, lent: &mut Lent) -> u64 {
    let ((r, s), (i, j)) = (case.orders[0], case.place);
    let (table, table_len) = lent.read(1);
    unsafe { residues_entry(case.p, case.n, r, s, i, j, table, table_len) }
}
