//! The row file of a table.

use super::{no_more, Answer, Call, Number};
use crate::case::{Case, Holds};
use crate::lent::Lent;
use crate::refusals::{lengths, orders, prime, size, words};
use crate::row_file;

extern "C" {
    fn residues_write_file(
        p: u32,
        n: u32,
        r: u32,
        s: u32,
        table: *const u32,
        table_len: usize,
        file: *mut u8,
        file_len: usize,
    ) -> u64;
}

pub const CALL: Call = Call {
    name: "residues_write_file",
    tables: 1,
    pivots: false,
    number: Number::None,
    buffers: &[(1, Holds::Table(0)), (6, Holds::WrittenFile)],
    checks: &[prime, size, orders, lengths, words],
    outcomes: &[(0, 0), (1, 0), (2, 0), (3, 1), (4, 1), (4, 6), (5, 1)],
    answer,
    meaning: no_more,
    run,
};

fn answer(case: &Case) -> Answer {
    Answer { written: vec![(6, row_file::bytes(&row_file::written(&case.table())))], ..Answer::value(0) }
}

fn run(case: &Case, lent: &mut Lent) -> u64 {
    let (r, s) = case.orders[0];
    let ((table, table_len), (file, file_len)) = (lent.read(1), lent.write_bytes(6));
    unsafe { residues_write_file(case.p, case.n, r, s, table, table_len, file, file_len) }
}
