//! The table of a row file; the reply's value is P. What the file says stands in the case's own P, N and orders too.

use super::{Answer, Call, Number};
use crate::case::{Case, Holds};
use crate::dense::Table;
use crate::lent::Lent;
use crate::refusals::{chain, file_head, file_length, file_orders, file_words, lengths, prime, size};
use crate::row_file;

extern "C" {
    fn residues_read_file(file: *const u8, file_len: usize, result: *mut u32, result_len: usize) -> u64;
}

pub const CALL: Call = Call {
    name: "residues_read_file",
    tables: 1,
    pivots: false,
    number: Number::None,
    buffers: &[(5, Holds::Table(0)), (6, Holds::ReadFile)],
    checks: &[file_head, prime, size, file_orders, file_length, lengths, chain, file_words],
    outcomes: &[(0, 0), (1, 0), (2, 0), (3, 6), (4, 5), (5, 6), (9, 6), (10, 6)],
    answer,
    meaning,
    run,
};

fn answer(case: &Case) -> Answer {
    let rows = row_file::without_idle(case.shape(0), &case.file_rows());
    Answer { written: vec![(5, rows)], ..Answer::value(case.p) }
}

/// The result is a written table.
fn meaning(_: &Case, result: Table) -> Result<(), String> {
    result.check_written();
    Ok(())
}

fn run(_: &Case, lent: &mut Lent) -> u64 {
    let ((file, file_len), (result, result_len)) = (lent.read_bytes(6), lent.write(5));
    unsafe { residues_read_file(file, file_len, result, result_len) }
}
