//! The calls, one module each: the buffers it is lent, its checks, the dense answer, and how it is reached.
//! A further call is one more module and one more element of CALLS.

use crate::case::{Case, Holds};
use crate::dense::Table;
use crate::fractions::Fraction;
use crate::lent::Lent;
use crate::refusals::{Check, Reply, LARGEST_DENSE_SIZE, LARGEST_SIZE};

pub mod apply;
pub mod apply_transpose;
pub mod entry;
pub mod fractions;
pub mod inverse;
pub mod kernel;
pub mod kernel_check;
pub mod matrix;
pub mod multiple;
pub mod product;
pub mod read_file;
pub mod solve;
pub mod solve_dense;
pub mod sum;
pub mod transpose;
pub mod write_file;

pub const CALLS: [&Call; 16] = [
    &entry::CALL,
    &matrix::CALL,
    &apply::CALL,
    &apply_transpose::CALL,
    &transpose::CALL,
    &multiple::CALL,
    &sum::CALL,
    &product::CALL,
    &solve::CALL,
    &solve_dense::CALL,
    &kernel::CALL,
    &kernel_check::CALL,
    &inverse::CALL,
    &read_file::CALL,
    &write_file::CALL,
    &fractions::CALL,
];

/// What a call takes beside P, N and the orders.
#[derive(Clone, Copy, PartialEq)]
pub enum Number {
    None,
    /// i and j
    Place,
    /// k
    Corner,
    /// c
    Factor,
    /// the second prime
    Prime,
}

/// A call of the library, and all that is owed about it.
pub struct Call {
    pub name: &'static str,
    /// How many tables it is lent.
    pub tables: usize,
    /// Whether a zero pivot is refused, after every check.
    pub pivots: bool,
    pub number: Number,
    /// The buffers by ascending number, and what each has room for.
    pub buffers: &'static [(u32, Holds)],
    /// The checks, in the order of the table of refusals; reading a file has an order of its own.
    pub checks: &'static [Check],
    /// The numbers that must be reached, each with the buffer beside it.
    pub outcomes: &'static [(u32, u32)],
    /// What is owed where every check passes.
    pub answer: fn(&Case) -> Answer,
    /// What is wrong with the matrix of the table that an accepted call left as its result, beside the words.
    pub meaning: fn(&Case, Table) -> Result<(), String>,
    /// Calls the library.
    pub run: fn(&Case, &mut Lent) -> u64,
}

impl Call {
    /// Whether P, N and the orders stand in a file.
    pub fn reads_file(&self) -> bool {
        self.buffers.iter().any(|&(_, holds)| holds == Holds::ReadFile)
    }

    /// Whether it is lent a square: then a singular matrix is refused, after every check, and its corners do not matter.
    pub fn is_dense(&self) -> bool {
        self.buffers.contains(&(4, Holds::Square))
    }

    /// Whether a table without a zero pivot is refused, after every check.
    pub fn needs_zero_pivot(&self) -> bool {
        self.outcomes.contains(&(13, 0))
    }

    pub fn largest_size(&self) -> u32 {
        if self.is_dense() {
            LARGEST_DENSE_SIZE
        } else {
            LARGEST_SIZE
        }
    }
}

/// For calls whose words are all that is owed.
pub fn no_more(_: &Case, _: Table) -> Result<(), String> {
    Ok(())
}

/// What is owed: the reply, and the words, or bytes, that are left at the beginning of the buffers it writes.
#[derive(Debug)]
pub struct Answer {
    pub reply: Reply,
    pub written: Vec<(u32, Vec<u32>)>,
}

impl Answer {
    pub fn value(value: u32) -> Answer {
        Answer { reply: Reply::accepted(value), written: vec![] }
    }

    /// The result, buffer 5.
    pub fn result(words: Vec<u32>) -> Answer {
        Answer { reply: Reply::accepted(0), written: vec![(5, words)] }
    }

    /// The numerators, buffer 4, negative ones in two's complement, and the denominators, buffer 5; or the first place without.
    pub fn fractions(found: &[Option<Fraction>]) -> Answer {
        if let Some(place) = found.iter().position(Option::is_none) {
            return Answer::refused(Reply::no_fraction(place + 1));
        }
        let numerator = |&(numerator, _): &Fraction| i32::try_from(numerator).expect("B is below 2³¹") as u32;
        let denominator = |&(_, denominator): &Fraction| u32::try_from(denominator).expect("a denominator is above 0");
        let (numerators, denominators) = (found.iter().flatten().map(numerator), found.iter().flatten().map(denominator));
        Answer { written: vec![(4, numerators.collect()), (5, denominators.collect())], ..Answer::value(0) }
    }

    /// The only solution of the dense solve, or none; the square, buffer 4, is zeros either way.
    pub fn dense(n: usize, solution: Option<Vec<u32>>) -> Answer {
        let square = (4, vec![0; n * n]);
        match solution {
            Some(column) => Answer { written: vec![square, (5, column)], ..Answer::value(0) },
            None => Answer { reply: Reply::singular(), written: vec![square] },
        }
    }

    /// The column that shows the first singular corner, whose row is the value, or none is singular.
    pub fn kernel(column: Option<Vec<u32>>) -> Answer {
        match column {
            Some(column) => Answer { reply: Reply::accepted(column.len() as u32), written: vec![(5, column)] },
            None => Answer::refused(Reply::regular()),
        }
    }

    /// Nothing is written.
    pub fn refused(reply: Reply) -> Answer {
        Answer { reply, written: vec![] }
    }
}
