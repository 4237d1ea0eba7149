//! The transposed table times a column.

use super::{Answer, Call};
use crate::case::Case;
use crate::lent::Lent;

extern "C" {
    fn residues_apply_transpose(
        p: u32,
        n: u32,
        r: u32,
        s: u32,
        table: *const u32,
        table_len: usize,
        column: *const u32,
        column_len: usize,
        result: *mut u32,
        result_len: usize,
    ) -> u64;
}

pub const CALL: Call = Call { name: "residues_apply_transpose", answer, run, ..super::apply::CALL };

fn answer(case: &Case) -> Answer {
    Answer::result(case.table().matrix().transposed().sends(case.column()))
}

fn run(case: &Case, lent: &mut Lent) -> u64 {
    let (r, s) = case.orders[0];
    let ((table, table_len), (column, column_len), (result, result_len)) = (lent.read(1), lent.read(3), lent.write(5));
    unsafe { residues_apply_transpose(case.p, case.n, r, s, table, table_len, column, column_len, result, result_len) }
}
