//! Whether a column shows that a corner is singular, as the reply's value.

use super::{no_more, Answer, Call, Number};
use crate::case::{Case, Holds};
use crate::lent::Lent;
use crate::refusals::{corner, lengths, orders, prime, size, words};

extern "C" {
    fn residues_kernel_check(
        p: u32,
        n: u32,
        r: u32,
        s: u32,
        k: u32,
        table: *const u32,
        table_len: usize,
        column: *const u32,
        column_len: usize,
    ) -> u64;
}

pub const CALL: Call = Call {
    name: "residues_kernel_check",
    tables: 1,
    pivots: false,
    number: Number::Corner,
    buffers: &[(1, Holds::Table(0)), (3, Holds::Column)],
    checks: &[prime, size, orders, corner, lengths, words],
    outcomes: &[(0, 0), (1, 0), (2, 0), (3, 1), (8, 0), (4, 1), (4, 3), (5, 1), (5, 3)],
    answer,
    meaning: no_more,
    run,
};

fn answer(case: &Case) -> Answer {
    Answer::value(u32::from(case.table().matrix().shows(case.k as usize, case.column())))
}

fn run(case: &Case, lent: &mut Lent) -> u64 {
    let (r, s) = case.orders[0];
    let ((table, table_len), (column, column_len)) = (lent.read(1), lent.read(3));
    unsafe { residues_kernel_check(case.p, case.n, r, s, case.k, table, table_len, column, column_len) }
}
