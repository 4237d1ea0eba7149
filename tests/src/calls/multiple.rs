//! A residue times the table.

use super::{no_more, Answer, Call, Number};
use crate::case::{Case, Holds};
use crate::lent::Lent;
use crate::refusals::{factor, lengths, orders, prime, size, words};

extern "C" {
    fn residues_multiple(
        p: u32,
        n: u32,
        r: u32,
        s: u32,
        c: u32,
        table: *const u32,
        table_len: usize,
        result: *mut u32,
        result_len: usize,
    ) -> u64;
}

pub const CALL: Call = Call {
    name: "residues_multiple",
    tables: 1,
    pivots: false,
    number: Number::Factor,
    buffers: &[(1, Holds::Table(0)), (5, Holds::Table(0))],
    checks: &[prime, size, orders, lengths, factor, words],
    outcomes: &[(0, 0), (1, 0), (2, 0), (3, 1), (4, 1), (4, 5), (5, 0), (5, 1)],
    answer,
    meaning: no_more,
    run,
};

fn answer(case: &Case) -> Answer {
    Answer::result(case.table().multiple(case.c))
}

fn run(case: &Case, lent: &mut Lent) -> u64 {
    let (r, s) = case.orders[0];
    let ((table, table_len), (result, result_len)) = (lent.read(1), lent.write(5));
    unsafe { residues_multiple(case.p, case.n, r, s, case.c, table, table_len, result, result_len) }
}
