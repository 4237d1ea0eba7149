//! The column that shows the first singular corner: its last word is 1, and the corner sends it to zeros.

use super::{no_more, Answer, Call, Number};
use crate::case::{Case, Holds};
use crate::lent::Lent;
use crate::refusals::{lengths, orders, prime, size, words};

extern "C" {
    fn residues_kernel(
        p: u32,
        n: u32,
        r: u32,
        s: u32,
        table: *const u32,
        table_len: usize,
        result: *mut u32,
        result_len: usize,
    ) -> u64;
}

pub const CALL: Call = Call {
    name: "residues_kernel",
    tables: 1,
    pivots: false,
    number: Number::None,
    buffers: &[(1, Holds::Table(0)), (5, Holds::Column)],
    checks: &[prime, size, orders, lengths, words],
    outcomes: &[(0, 0), (1, 0), (2, 0), (3, 1), (4, 1), (4, 5), (5, 1), (13, 0)],
    answer,
    meaning: no_more,
    run,
};

fn answer(case: &Case) -> Answer {
    Answer::kernel(case.table().matrix().kernel())
}

fn run(case: &Case, lent: &mut Lent) -> u64 {
    let (r, s) = case.orders[0];
    let ((table, table_len), (result, result_len)) = (lent.read(1), lent.write(5));
    unsafe { residues_kernel(case.p, case.n, r, s, table, table_len, result, result_len) }
}
