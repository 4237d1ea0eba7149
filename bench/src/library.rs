//! The library's calls on slices, with the arguments of the plain program's, and those of an older archive of it. All that is
//! unsafe in them stands here.
#![allow(clippy::too_many_arguments)]

/// The calls of the library, and in the module old the same of the older archive.
macro_rules! archives {
    ($($calls:tt)*) => {
        calls! { "" $($calls)* }

        #[cfg(old)]
        pub mod old {
            use super::value;
            calls! { "old_" $($calls)* }
        }
    };
}

/// Declares C calls and wraps them: numbers, then buffers that are read, then buffers that are written, each with its length.
/// The archive has their symbols with this prefix.
macro_rules! calls {
    ($prefix:literal
    $($name:ident = $symbol:ident($($number:ident),*; $($read:ident: $from:ty),*; $($written:ident: $to:ty),*);)*) => {
        mod c {
            extern "C" {
                $(#[link_name = concat!($prefix, stringify!($symbol))]
                pub fn $symbol($($number: u32,)* $($read: *const $from, _: usize,)* $($written: *mut $to, _: usize),*) -> u64;)*
            }
        }

        $(pub fn $name($($number: u32,)* $($read: &[$from],)* $($written: &mut [$to]),*) -> Option<u32> {
            value(unsafe {
                c::$symbol($($number,)* $($read.as_ptr(), $read.len(),)* $($written.as_mut_ptr(), $written.len()),*)
            })
        })*
    };
}

archives! {
    entry = residues_entry(p, n, r, s, i, j; table: u32;);
    matrix = residues_matrix(p, n, r, s; table: u32; result: u32);
    apply = residues_apply(p, n, r, s; table: u32, column: u32; result: u32);
    apply_transpose = residues_apply_transpose(p, n, r, s; table: u32, column: u32; result: u32);
    transpose = residues_transpose(p, n, r, s; table: u32; result: u32);
    multiple = residues_multiple(p, n, r, s, c; table: u32; result: u32);
    sum = residues_sum(p, n, r1, s1, r2, s2; first: u32, second: u32; result: u32);
    product = residues_product(p, n, r1, s1, r2, s2; first: u32, second: u32; result: u32);
    solve = residues_solve(p, n, r, s; table: u32, column: u32; work: u32, result: u32);
    solve_dense = residues_solve_dense(p, n, r, s; table: u32, column: u32; square: u32, result: u32);
    kernel = residues_kernel(p, n, r, s; table: u32; result: u32);
    kernel_check = residues_kernel_check(p, n, r, s, k; table: u32, column: u32;);
    inverse = residues_inverse(p, n, r, s; table: u32; result: u32);
    read_file = residues_read_file(; file: u8; result: u32);
    write_file = residues_write_file(p, n, r, s; table: u32; file: u8);
    fractions = residues_fractions(p, q, n; first: u32, second: u32; numerators: i32, denominators: u32);
}

/// The value of a reply whose number is 0.
fn value(reply: u64) -> Option<u32> {
    (reply & 255 == 0).then_some((reply >> 32) as u32)
}
