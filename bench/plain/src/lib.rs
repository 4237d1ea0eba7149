//! Linear algebra modulo a prime on matrices given by generators, by plain sweeps, and fractions from residues under two primes:
//! what the library is measured against.
//! Every call takes the library's numbers and buffers and gives its answers and refusals.
#![no_std]
#![deny(unsafe_code)]

mod apply;
mod block;
#[cfg(feature = "c")]
mod c;
mod checks;
mod entry;
mod file;
mod fractions;
mod inverse;
mod kernel;
mod multiple;
mod pivot;
mod product;
mod residue;
mod solve;
mod solve_dense;
mod state;
mod sum;
mod table;
mod transpose;

pub use apply::{apply, apply_transpose};
pub use checks::Refusal;
pub use entry::{entry, matrix};
pub use file::{read_file, write_file};
pub use fractions::fractions;
pub use inverse::inverse;
pub use kernel::{kernel, kernel_check};
pub use multiple::multiple;
pub use product::product;
pub use solve::solve;
pub use solve_dense::solve_dense;
pub use sum::sum;
pub use transpose::transpose;
