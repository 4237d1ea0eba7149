//! The table of the inverse matrix, of the same orders.

use super::{Answer, Call, Number};
use crate::block::sum_of_products;
use crate::case::{Case, Holds};
use crate::dense::{Matrix, Table, LITERAL_SIZE};
use crate::lent::Lent;
use crate::refusals::{lengths, orders, prime, size, words, Reply};
use crate::swept::Swept;

extern "C" {
    fn residues_inverse(
        p: u32,
        n: u32,
        r: u32,
        s: u32,
        table: *const u32,
        table_len: usize,
        result: *mut u32,
        result_len: usize,
    ) -> u64;
}

pub const CALL: Call = Call {
    name: "residues_inverse",
    tables: 1,
    pivots: true,
    number: Number::None,
    buffers: &[(1, Holds::Table(0)), (5, Holds::Table(0))],
    checks: &[prime, size, orders, lengths, words],
    outcomes: &[(0, 0), (1, 0), (2, 0), (3, 1), (4, 1), (4, 5), (5, 1), (7, 1)],
    answer,
    meaning,
    run,
};

fn answer(case: &Case) -> Answer {
    match Swept::new(case.table()) {
        Ok(swept) => Answer::result(swept.inverse()),
        Err(row) => Answer::refused(Reply::zero_pivot(row)),
    }
}

/// The result's matrix times the table's is the identity, on either side; in large ones some entries are compared.
fn meaning(case: &Case, result: Table) -> Result<(), String> {
    let (table, n) = (case.table(), result.shape.n);
    if n <= LITERAL_SIZE {
        let (one, two, identity) = (table.matrix(), result.matrix(), Matrix::identity(case.p, n));
        let on_the_right = one.times(&two).compare(&identity).map_err(|account| format!("times the result, {account}"));
        return on_the_right.and_then(|()| two.times(&one).compare(&identity));
    }
    let places = (0..10).map(|t| (1 + t * 397 % n, 1 + t * 211 % n)).chain((0..10).map(|t| (1 + t * 397 % n, 1 + t * 397 % n)));
    for (i, k) in places.chain([(1, n), (n, 1), (n, n)]) {
        let of = |one: &Table, two: &Table| sum_of_products(one.row(i).into_iter().zip(two.column(k)), case.p);
        let (owed, came) = (u32::from(i == k), (of(&table, &result), of(&result, &table)));
        if came != (owed, owed) {
            return Err(format!("times the result, and the other way round, entry ({i}, {k}): owed {owed}, came {came:?}"));
        }
    }
    Ok(())
}

fn run(case: &Case, lent: &mut Lent) -> u64 {
    let (r, s) = case.orders[0];
    let ((table, table_len), (result, result_len)) = (lent.read(1), lent.write(5));
    unsafe { residues_inverse(case.p, case.n, r, s, table, table_len, result, result_len) }
}
