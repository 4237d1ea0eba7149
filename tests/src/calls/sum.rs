//! The sum of two tables, of the added orders.

use super::{Answer, Call, Number};
use crate::block::sum_of_two;
use crate::case::{Case, Holds};
use crate::dense::{Table, LITERAL_SIZE};
use crate::joined::Pair;
use crate::lent::Lent;
use crate::refusals::{lengths, order_sums, orders, prime, size, words};

extern "C" {
    fn residues_sum(
        p: u32,
        n: u32,
        r1: u32,
        s1: u32,
        r2: u32,
        s2: u32,
        first: *const u32,
        first_len: usize,
        second: *const u32,
        second_len: usize,
        result: *mut u32,
        result_len: usize,
    ) -> u64;
}

pub const CALL: Call = Call {
    name: "residues_sum",
    tables: 2,
    pivots: false,
    number: Number::None,
    buffers: &[(1, Holds::Table(0)), (2, Holds::Table(1)), (5, Holds::Joined)],
    checks: &[prime, size, orders, order_sums, lengths, words],
    outcomes: &[(0, 0), (1, 0), (2, 0), (3, 1), (3, 2), (6, 0), (4, 1), (4, 2), (4, 5), (5, 1), (5, 2)],
    answer,
    meaning,
    run,
};

fn answer(case: &Case) -> Answer {
    Answer::result(case.pair().sum())
}

/// The result stands for the sum of the matrices; in large ones some rows and columns are compared.
fn meaning(case: &Case, result: Table) -> Result<(), String> {
    let Pair { one, two } = case.pair();
    let n = result.shape.n;
    if n <= LITERAL_SIZE {
        return result.matrix().compare(&one.matrix().plus(&two.matrix()));
    }
    for k in (0..6).map(|t| 1 + t * 397 % n).chain([1, n]) {
        let row = one.row(k).into_iter().zip(two.row(k)).map(|(x, y)| sum_of_two(x, y, case.p));
        let column = one.column(k).into_iter().zip(two.column(k)).map(|(x, y)| sum_of_two(x, y, case.p));
        if !row.eq(result.row(k)) || !column.eq(result.column(k)) {
            return Err(format!("the result's row {k} or column {k} is not that of the sum"));
        }
    }
    Ok(())
}

fn run(case: &Case, lent: &mut Lent) -> u64 {
    let ((r1, s1), (r2, s2)) = (case.orders[0], case.orders[1]);
    let ((first, first_len), (second, second_len), (result, result_len)) = (lent.read(1), lent.read(2), lent.write(5));
    unsafe { residues_sum(case.p, case.n, r1, s1, r2, s2, first, first_len, second, second_len, result, result_len) }
}
