//! The table times a column.

use super::{no_more, Answer, Call, Number};
use crate::case::{Case, Holds};
use crate::lent::Lent;
use crate::refusals::{lengths, orders, prime, size, words};

extern "C" {
    fn residues_apply(
        p: u32,
        n: u32,
        r: u32,
        s: u32,
        table: *const u32,
        table_len: usize,
        column: *const u32,
        column_len: usize,
        result: *mut u32,
        result_len: usize,
    ) -> u64;
}

pub const CALL: Call = Call {
    name: "residues_apply",
    tables: 1,
    pivots: false,
    number: Number::None,
    buffers: &[(1, Holds::Table(0)), (3, Holds::Column), (5, Holds::Column)],
    checks: &[prime, size, orders, lengths, words],
    outcomes: &[(0, 0), (1, 0), (2, 0), (3, 1), (4, 1), (4, 3), (4, 5), (5, 1), (5, 3)],
    answer,
    meaning: no_more,
    run,
};

fn answer(case: &Case) -> Answer {
    Answer::result(case.table().matrix().sends(case.column()))
}

fn run(case: &Case, lent: &mut Lent) -> u64 {
    let (r, s) = case.orders[0];
    let ((table, table_len), (column, column_len), (result, result_len)) = (lent.read(1), lent.read(3), lent.write(5));
    unsafe { residues_apply(case.p, case.n, r, s, table, table_len, column, column_len, result, result_len) }
}
