//! The C boundary, as include/residues.h declares it. All that is unsafe stands here.
#![allow(unsafe_code, clippy::missing_safety_doc, clippy::too_many_arguments)]

use crate::checks::Refusal;
use core::slice::{from_raw_parts, from_raw_parts_mut};

/// number + 256 buffer + 65536 row + 4294967296 value
fn packed(answer: Result<u32, Refusal>) -> u64 {
    match answer {
        Ok(value) => (value as u64) << 32,
        Err(refusal) => refusal.number as u64 + ((refusal.buffer as u64) << 8) + ((refusal.row as u64) << 16),
    }
}

fn done(answer: Result<(), Refusal>) -> u64 {
    packed(answer.map(|()| 0))
}

unsafe fn read<'t, T>(lent: *const T, count: usize) -> &'t [T] {
    if count == 0 {
        &[]
    } else {
        from_raw_parts(lent, count)
    }
}

unsafe fn written<'t, T>(lent: *mut T, count: usize) -> &'t mut [T] {
    if count == 0 {
        &mut []
    } else {
        from_raw_parts_mut(lent, count)
    }
}

#[no_mangle]
pub unsafe extern "C" fn residues_entry(
    p: u32,
    n: u32,
    r: u32,
    s: u32,
    i: u32,
    j: u32,
    table: *const u32,
    table_len: usize,
) -> u64 {
    packed(crate::entry(p, n, r, s, i, j, read(table, table_len)))
}

#[no_mangle]
pub unsafe extern "C" fn residues_matrix(
    p: u32,
    n: u32,
    r: u32,
    s: u32,
    table: *const u32,
    table_len: usize,
    result: *mut u32,
    result_len: usize,
) -> u64 {
    done(crate::matrix(p, n, r, s, read(table, table_len), written(result, result_len)))
}

#[no_mangle]
pub unsafe extern "C" fn residues_apply(
    p: u32,
    n: u32,
    r: u32,
    s: u32,
    table: *const u32,
    table_len: usize,
    column: *const u32,
    column_len: usize,
    result: *mut u32,
    result_len: usize,
) -> u64 {
    done(crate::apply(p, n, r, s, read(table, table_len), read(column, column_len), written(result, result_len)))
}

#[no_mangle]
pub unsafe extern "C" fn residues_apply_transpose(
    p: u32,
    n: u32,
    r: u32,
    s: u32,
    table: *const u32,
    table_len: usize,
    column: *const u32,
    column_len: usize,
    result: *mut u32,
    result_len: usize,
) -> u64 {
    done(crate::apply_transpose(p, n, r, s, read(table, table_len), read(column, column_len), written(result, result_len)))
}

#[no_mangle]
pub unsafe extern "C" fn residues_transpose(
    p: u32,
    n: u32,
    r: u32,
    s: u32,
    table: *const u32,
    table_len: usize,
    result: *mut u32,
    result_len: usize,
) -> u64 {
    done(crate::transpose(p, n, r, s, read(table, table_len), written(result, result_len)))
}

#[no_mangle]
pub unsafe extern "C" fn residues_multiple(
    p: u32,
    n: u32,
    r: u32,
    s: u32,
    c: u32,
    table: *const u32,
    table_len: usize,
    result: *mut u32,
    result_len: usize,
) -> u64 {
    done(crate::multiple(p, n, r, s, c, read(table, table_len), written(result, result_len)))
}

#[no_mangle]
pub unsafe extern "C" fn residues_sum(
    p: u32,
    n: u32,
    r1: u32,
    s1: u32,
    r2: u32,
    s2: u32,
    first: *const u32,
    first_len: usize,
    second: *const u32,
    second_len: usize,
    result: *mut u32,
    result_len: usize,
) -> u64 {
    let (first, second, result) = (read(first, first_len), read(second, second_len), written(result, result_len));
    done(crate::sum(p, n, r1, s1, r2, s2, first, second, result))
}

#[no_mangle]
pub unsafe extern "C" fn residues_product(
    p: u32,
    n: u32,
    r1: u32,
    s1: u32,
    r2: u32,
    s2: u32,
    first: *const u32,
    first_len: usize,
    second: *const u32,
    second_len: usize,
    result: *mut u32,
    result_len: usize,
) -> u64 {
    let (first, second, result) = (read(first, first_len), read(second, second_len), written(result, result_len));
    done(crate::product(p, n, r1, s1, r2, s2, first, second, result))
}

#[no_mangle]
pub unsafe extern "C" fn residues_solve(
    p: u32,
    n: u32,
    r: u32,
    s: u32,
    table: *const u32,
    table_len: usize,
    column: *const u32,
    column_len: usize,
    work: *mut u32,
    work_len: usize,
    result: *mut u32,
    result_len: usize,
) -> u64 {
    let (work, result) = (written(work, work_len), written(result, result_len));
    done(crate::solve(p, n, r, s, read(table, table_len), read(column, column_len), work, result))
}

#[no_mangle]
pub unsafe extern "C" fn residues_solve_dense(
    p: u32,
    n: u32,
    r: u32,
    s: u32,
    table: *const u32,
    table_len: usize,
    column: *const u32,
    column_len: usize,
    square: *mut u32,
    square_len: usize,
    result: *mut u32,
    result_len: usize,
) -> u64 {
    let (square, result) = (written(square, square_len), written(result, result_len));
    done(crate::solve_dense(p, n, r, s, read(table, table_len), read(column, column_len), square, result))
}

#[no_mangle]
pub unsafe extern "C" fn residues_kernel(
    p: u32,
    n: u32,
    r: u32,
    s: u32,
    table: *const u32,
    table_len: usize,
    result: *mut u32,
    result_len: usize,
) -> u64 {
    packed(crate::kernel(p, n, r, s, read(table, table_len), written(result, result_len)))
}

#[no_mangle]
pub unsafe extern "C" fn residues_kernel_check(
    p: u32,
    n: u32,
    r: u32,
    s: u32,
    k: u32,
    table: *const u32,
    table_len: usize,
    column: *const u32,
    column_len: usize,
) -> u64 {
    packed(crate::kernel_check(p, n, r, s, k, read(table, table_len), read(column, column_len)))
}

#[no_mangle]
pub unsafe extern "C" fn residues_inverse(
    p: u32,
    n: u32,
    r: u32,
    s: u32,
    table: *const u32,
    table_len: usize,
    result: *mut u32,
    result_len: usize,
) -> u64 {
    done(crate::inverse(p, n, r, s, read(table, table_len), written(result, result_len)))
}

#[no_mangle]
pub unsafe extern "C" fn residues_read_file(file: *const u8, file_len: usize, result: *mut u32, result_len: usize) -> u64 {
    packed(crate::read_file(read(file, file_len), written(result, result_len)))
}

#[no_mangle]
pub unsafe extern "C" fn residues_write_file(
    p: u32,
    n: u32,
    r: u32,
    s: u32,
    table: *const u32,
    table_len: usize,
    file: *mut u8,
    file_len: usize,
) -> u64 {
    done(crate::write_file(p, n, r, s, read(table, table_len), written(file, file_len)))
}

#[no_mangle]
pub unsafe extern "C" fn residues_fractions(
    p: u32,
    q: u32,
    n: u32,
    first: *const u32,
    first_len: usize,
    second: *const u32,
    second_len: usize,
    numerators: *mut i32,
    numerators_len: usize,
    denominators: *mut u32,
    denominators_len: usize,
) -> u64 {
    let (first, second) = (read(first, first_len), read(second, second_len));
    let (numerators, denominators) = (written(numerators, numerators_len), written(denominators, denominators_len));
    done(crate::fractions(p, q, n, first, second, numerators, denominators))
}

extern "C" {
    fn abort() -> !;
}

/// No call panics; a program without the standard library must still say what would happen.
#[panic_handler]
fn panic(_: &core::panic::PanicInfo) -> ! {
    unsafe { abort() }
}
