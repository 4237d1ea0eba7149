//! The column that the table sends to a given one, wherever the whole matrix is not singular: worked out in a lent square.

use super::{no_more, Answer, Call, Number};
use crate::case::{Case, Holds};
use crate::lent::Lent;
use crate::refusals::{dense_size, lengths, orders, prime, words};

extern "C" {
    fn residues_solve_dense(
        p: u32,
        n: u32,
        r: u32,
        s: u32,
        table: *const u32,
        table_len: usize,
        column: *const u32,
        column_len: usize,
        square: *mut u32,
        square_len: usize,
        result: *mut u32,
        result_len: usize,
    ) -> u64;
}

pub const CALL: Call = Call {
    name: "residues_solve_dense",
    tables: 1,
    pivots: false,
    number: Number::None,
    buffers: &[(1, Holds::Table(0)), (3, Holds::Column), (4, Holds::Square), (5, Holds::Column)],
    checks: &[prime, dense_size, orders, lengths, words],
    outcomes: &[(0, 0), (1, 0), (2, 0), (3, 1), (4, 1), (4, 3), (4, 4), (4, 5), (5, 1), (5, 3), (7, 1)],
    answer,
    meaning: no_more,
    run,
};

fn answer(case: &Case) -> Answer {
    Answer::dense(case.n as usize, case.table().matrix().only_solution(case.column()))
}

fn run(case: &Case, lent: &mut Lent) -> u64 {
    let (r, s) = case.orders[0];
    let ((table, table_len), (column, column_len)) = (lent.read(1), lent.read(3));
    let ((square, square_len), (result, result_len)) = (lent.write(4), lent.write(5));
    let (p, n) = (case.p, case.n);
    unsafe { residues_solve_dense(p, n, r, s, table, table_len, column, column_len, square, square_len, result, result_len) }
}
