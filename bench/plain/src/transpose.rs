//! The transposed table: p and h change places, q and g, and a and b transposed.

use crate::checks::{self, Refusal};
use crate::table::RowMut;

pub fn transpose(p: u32, n: u32, r: u32, s: u32, table: &[u32], result: &mut [u32]) -> Result<(), Refusal> {
    let shape = checks::shape(p, n, r, s)?;
    checks::length(1, table, shape.table_words())?;
    checks::length(5, result, shape.table_words())?;
    checks::table(1, shape, table)?;
    for (k, words) in result.chunks_mut(shape.row_words()).take(shape.n).enumerate() {
        let old = shape.row(table, k);
        let new = RowMut::of(words, shape.s, shape.r);
        *new.d = old.d;
        new.p.copy_from_slice(old.h);
        new.q.copy_from_slice(old.g);
        new.g.copy_from_slice(old.q);
        new.h.copy_from_slice(old.p);
        copy_transposed(old.b, new.a, shape.s);
        copy_transposed(old.a, new.b, shape.r);
        new.clear_idle(shape.is_first(k), shape.is_last(k));
    }
    Ok(())
}

fn copy_transposed(old: &[u32], new: &mut [u32], order: usize) {
    for (place, &word) in old.iter().enumerate() {
        new[place % order * order + place / order] = word;
    }
}
