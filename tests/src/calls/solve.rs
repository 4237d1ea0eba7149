//! The column that the table sends to a given one.

use super::{no_more, Answer, Call, Number};
use crate::case::{Case, Holds};
use crate::lent::Lent;
use crate::refusals::{lengths, orders, prime, size, words, Reply};
use crate::swept::Swept;

extern "C" {
    fn residues_solve(
        p: u32,
        n: u32,
        r: u32,
        s: u32,
        table: *const u32,
        table_len: usize,
        column: *const u32,
        column_len: usize,
        work: *mut u32,
        work_len: usize,
        result: *mut u32,
        result_len: usize,
    ) -> u64;
}

pub const CALL: Call = Call {
    name: "residues_solve",
    tables: 1,
    pivots: true,
    number: Number::None,
    buffers: &[(1, Holds::Table(0)), (3, Holds::Column), (4, Holds::Work), (5, Holds::Column)],
    checks: &[prime, size, orders, lengths, words],
    outcomes: &[(0, 0), (1, 0), (2, 0), (3, 1), (4, 1), (4, 3), (4, 4), (4, 5), (5, 1), (5, 3), (7, 1)],
    answer,
    meaning: no_more,
    run,
};

fn answer(case: &Case) -> Answer {
    match Swept::new(case.table()) {
        Ok(swept) => Answer { written: vec![(4, swept.work()), (5, swept.solution(case.column()))], ..Answer::value(0) },
        Err(row) => Answer::refused(Reply::zero_pivot(row)),
    }
}

fn run(case: &Case, lent: &mut Lent) -> u64 {
    let (r, s) = case.orders[0];
    let ((table, table_len), (column, column_len)) = (lent.read(1), lent.read(3));
    let ((work, work_len), (result, result_len)) = (lent.write(4), lent.write(5));
    unsafe { residues_solve(case.p, case.n, r, s, table, table_len, column, column_len, work, work_len, result, result_len) }
}
