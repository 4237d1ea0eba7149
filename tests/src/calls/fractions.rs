//! The fractions of residues under two primes.

use super::{no_more, Answer, Call, Number};
use crate::case::{Case, Holds};
use crate::lent::Lent;
use crate::refusals::{equal_primes, lengths, prime, second_prime, size, words};

extern "C" {
    fn residues_fractions(
        p1: u32,
        p2: u32,
        n: u32,
        first: *const u32,
        first_len: usize,
        second: *const u32,
        second_len: usize,
        numerators: *mut i32,
        numerators_len: usize,
        denominators: *mut u32,
        denominators_len: usize,
    ) -> u64;
}

pub const CALL: Call = Call {
    name: "residues_fractions",
    tables: 0,
    pivots: false,
    number: Number::Prime,
    buffers: &[(1, Holds::Residues(0)), (2, Holds::Residues(1)), (4, Holds::Signed), (5, Holds::Column)],
    checks: &[prime, second_prime, equal_primes, size, lengths, words],
    outcomes: &[(0, 0), (1, 0), (2, 0), (4, 1), (4, 2), (4, 4), (4, 5), (5, 1), (5, 2), (11, 0), (12, 0)],
    answer,
    meaning: no_more,
    run,
};

fn answer(case: &Case) -> Answer {
    let primes = case.primes();
    Answer::fractions(&case.residues().map(|residues| primes.fraction(residues)).collect::<Vec<_>>())
}

fn run(case: &Case, lent: &mut Lent) -> u64 {
    let ((first, first_len), (second, second_len)) = (lent.read(1), lent.read(2));
    let ((numerators, numerators_len), (denominators, denominators_len)) = (lent.write(4), lent.write(5));
    let (p, q, n, numerators) = (case.p, case.q, case.n, numerators.cast());
    unsafe {
        residues_fractions(
            p,
            q,
            n,
            first,
            first_len,
            second,
            second_len,
            numerators,
            numerators_len,
            denominators,
            denominators_len,
        )
    }
}
