//! The first table times the second, of the added orders.

use super::{Answer, Call};
use crate::block::sum_of_products;
use crate::case::Case;
use crate::dense::{Table, LITERAL_SIZE};
use crate::joined::Pair;
use crate::lent::Lent;

extern "C" {
    fn residues_product(
        p: u32,
        n: u32,
        r1: u32,
        s1: u32,
        r2: u32,
        s2: u32,
        first: *const u32,
        first_len: usize,
        second: *const u32,
        second_len: usize,
        result: *mut u32,
        result_len: usize,
    ) -> u64;
}

pub const CALL: Call = Call { name: "residues_product", answer, meaning, run, ..super::sum::CALL };

fn answer(case: &Case) -> Answer {
    Answer::result(case.pair().product())
}

/// The result stands for the first matrix times the second; in large ones some entries are compared.
fn meaning(case: &Case, result: Table) -> Result<(), String> {
    let Pair { one, two } = case.pair();
    let n = result.shape.n;
    if n <= LITERAL_SIZE {
        return result.matrix().compare(&one.matrix().times(&two.matrix()));
    }
    for (i, k) in (0..20).map(|t| (1 + t * 397 % n, 1 + t * 211 % n)).chain([(1, n), (n, 1), (1, 1), (n, n), (n / 2, n / 2)]) {
        let owed = sum_of_products(one.row(i).into_iter().zip(two.column(k)), case.p);
        let came = result.entry(i, k);
        if came != owed {
            return Err(format!("the result's entry ({i}, {k}): owed {owed}, came {came}"));
        }
    }
    Ok(())
}

fn run(case: &Case, lent: &mut Lent) -> u64 {
    let ((r1, s1), (r2, s2)) = (case.orders[0], case.orders[1]);
    let ((first, first_len), (second, second_len), (result, result_len)) = (lent.read(1), lent.read(2), lent.write(5));
    unsafe { residues_product(case.p, case.n, r1, s1, r2, s2, first, first_len, second, second_len, result, result_len) }
}
