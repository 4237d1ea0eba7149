//! The refusals, each by its cause. A call runs its checks in the order of the table of refusals.

use crate::residue::is_prime;
use crate::table::{Row, Shape, LARGEST_ORDER};

pub const LARGEST_SIZE: usize = 1024;

/// Why a call did nothing: the number, and beside it a buffer and a row.
#[derive(Clone, Copy, Debug, PartialEq)]
pub struct Refusal {
    pub number: u32,
    pub buffer: u32,
    pub row: u32,
}

pub fn refuse(cause: bool, number: u32, buffer: u32, row: u32) -> Result<(), Refusal> {
    if cause {
        Err(Refusal { number, buffer, row })
    } else {
        Ok(())
    }
}

/// The shape of the only table of a call.
pub fn shape(p: u32, n: u32, r: u32, s: u32) -> Result<Shape, Refusal> {
    shape_in(1, LARGEST_SIZE, p, n, r, s)
}

/// The shape of a table of at most so many rows, whose orders belong to the given buffer.
pub fn shape_in(buffer: u32, largest: usize, p: u32, n: u32, r: u32, s: u32) -> Result<Shape, Refusal> {
    refuse(!is_prime(p), 1, 0, 0)?;
    let n = size(largest, n)?;
    refuse(is_above(r) || is_above(s), 3, buffer, 0)?;
    Ok(Shape { p, n, r: r as usize, s: s as usize })
}

pub fn size(largest: usize, n: u32) -> Result<usize, Refusal> {
    refuse(!(1..=largest as u32).contains(&n), 2, 0, 0)?;
    Ok(n as usize)
}

/// The shapes of two tables and of the result that joins them, all buffers checked.
pub fn two_tables(
    p: u32,
    n: u32,
    (r1, s1): (u32, u32),
    (r2, s2): (u32, u32),
    first: &[u32],
    second: &[u32],
    result: &[u32],
) -> Result<[Shape; 3], Refusal> {
    let one = shape(p, n, r1, s1)?;
    refuse(is_above(r2) || is_above(s2), 3, 2, 0)?;
    refuse(is_above(r1 + r2) || is_above(s1 + s2), 6, 0, 0)?;
    let two = Shape { r: r2 as usize, s: s2 as usize, ..one };
    let both = Shape { r: one.r + two.r, s: one.s + two.s, ..one };
    length(1, first, one.table_words())?;
    length(2, second, two.table_words())?;
    length(5, result, both.table_words())?;
    table(1, one, first)?;
    table(2, two, second)?;
    Ok([one, two, both])
}

fn is_above(order: u32) -> bool {
    order > LARGEST_ORDER as u32
}

pub fn length<T>(buffer: u32, lent: &[T], needed: usize) -> Result<(), Refusal> {
    refuse(lent.len() < needed, 4, buffer, 0)
}

/// A table's words that are used, row by row.
pub fn table(buffer: u32, shape: Shape, words: &[u32]) -> Result<(), Refusal> {
    let bad = |k: &usize| largest_used(&shape.row(words, *k), shape.is_first(*k), shape.is_last(*k)) >= shape.p;
    first_bad(buffer, (0..shape.n).find(bad))
}

/// A column's n words.
pub fn column(buffer: u32, shape: Shape, words: &[u32]) -> Result<(), Refusal> {
    residues(buffer, shape.p, &words[..shape.n])
}

pub fn residues(buffer: u32, p: u32, words: &[u32]) -> Result<(), Refusal> {
    first_bad(buffer, words.iter().position(|&x| x >= p))
}

/// The first row, from 0, with a word that is no residue.
pub fn first_bad(buffer: u32, row: Option<usize>) -> Result<(), Refusal> {
    row.map_or(Ok(()), |k| refuse(true, 5, buffer, k as u32 + 1))
}

fn largest_used(row: &Row, first: bool, last: bool) -> u32 {
    let above = if first { 0 } else { largest(row.p).max(largest(row.h)) };
    let below = if last { 0 } else { largest(row.q).max(largest(row.g)) };
    let through = if first || last { 0 } else { largest(row.a).max(largest(row.b)) };
    row.d.max(above).max(below).max(through)
}

fn largest(words: &[u32]) -> u32 {
    words.iter().fold(0, |most, &x| most.max(x))
}
