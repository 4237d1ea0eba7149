//! The calls that are timed, by the library and by the other program: the plain one, or an older archive of the library.

use crate::lent::Lent;
use crate::library;
#[cfg(old)]
use crate::library::old as other;
#[cfg(not(old))]
use plain as other;
use plain::Refusal;
use std::hint::black_box;

pub const OTHER: &str = if cfg!(old) { "older archive" } else { "plain program" };

/// Both orders of each table.
const ORDERS: [u32; 4] = [1, 2, 4, 8];

/// N 1 shows the part of a call that does not grow: mostly the test that P is a prime.
pub const SIZES: [u32; 5] = [1, 128, 256, 512, 1024];

/// Those of the dense solve, which takes N to 256.
pub const DENSE_SIZES: [u32; 4] = [1, 64, 128, 256];

/// A call by one program on what it is lent: the value of its reply, 0 where it has none, or nothing where it is refused.
pub type Run<T> = fn(&mut T) -> Option<u32>;

pub struct Call {
    pub name: &'static str,
    pub library: Run<Lent>,
    pub other: Run<Lent>,
    pub leaves: Leaves,
}

/// The result: a table that joins two, of twice their order, a table of the same order, a column, one that is worked out in a lent
/// square, one that shows a zero pivot in the last row, or whether it does, the whole matrix, the value of the reply, a row file,
/// or fractions, which have no orders.
#[derive(Clone, Copy, PartialEq)]
pub enum Leaves {
    Joined,
    Table,
    Column,
    Dense,
    Kernel,
    Matrix,
    Value,
    File,
    Fractions,
}

/// The call of this name by both programs, with the same arguments. The lent passes through black_box: neither program may know
/// its numbers and buffers beforehand.
macro_rules! call {
    ($name:ident, $leaves:ident, $lent:ident: $($argument:expr),*) => {
        Call {
            name: stringify!($name),
            library: |$lent| {
                let $lent = black_box($lent);
                library::$name($($argument),*)
            },
            other: |$lent| {
                let $lent = black_box($lent);
                other::$name($($argument),*).value()
            },
            leaves: Leaves::$leaves,
        }
    };
}

pub static CALLS: [Call; 16] = [
    // The entry farthest from the diagonal.
    call!(entry, Value, l: l.p, l.n, l.order, l.order, l.n, 1, &l.first),
    call!(matrix, Matrix, l: l.p, l.n, l.order, l.order, &l.first, &mut l.result),
    call!(apply, Column, l: l.p, l.n, l.order, l.order, &l.first, &l.column, &mut l.result),
    call!(apply_transpose, Column, l: l.p, l.n, l.order, l.order, &l.first, &l.column, &mut l.result),
    call!(transpose, Table, l: l.p, l.n, l.order, l.order, &l.first, &mut l.result),
    call!(multiple, Table, l: l.p, l.n, l.order, l.order, l.factor, &l.first, &mut l.result),
    call!(sum, Joined, l: l.p, l.n, l.order, l.order, l.order, l.order, &l.first, &l.second, &mut l.result),
    call!(product, Joined, l: l.p, l.n, l.order, l.order, l.order, l.order, &l.first, &l.second, &mut l.result),
    call!(solve, Column, l: l.p, l.n, l.order, l.order, &l.first, &l.column, &mut l.work, &mut l.result),
    call!(solve_dense, Dense, l: l.p, l.n, l.order, l.order, &l.first, &l.column, &mut l.work, &mut l.result),
    call!(kernel, Kernel, l: l.p, l.n, l.order, l.order, &l.first, &mut l.result),
    // The whole matrix, with a column that it sends to zeros.
    call!(kernel_check, Kernel, l: l.p, l.n, l.order, l.order, l.n, &l.first, &l.column),
    call!(inverse, Table, l: l.p, l.n, l.order, l.order, &l.first, &mut l.result),
    call!(read_file, Table, l: &l.file, &mut l.result),
    call!(write_file, File, l: l.p, l.n, l.order, l.order, &l.first, &mut l.new_file),
    call!(fractions, Fractions, l: l.p, l.q, l.n, &l.first, &l.second, &mut l.numerators, &mut l.result),
];

impl Call {
    /// The name and the orders of the tables.
    pub fn title(&self, order: u32) -> String {
        match self.leaves {
            Leaves::Joined => format!("{} {order}+{order}", self.name),
            Leaves::Fractions => self.name.into(),
            _ => format!("{} {order}", self.name),
        }
    }

    /// The orders that are timed, 0 where there are none. Added orders above 8 are refused (6).
    pub fn orders(&self) -> &'static [u32] {
        match self.leaves {
            Leaves::Joined => &ORDERS[..3],
            Leaves::Fractions => &[0],
            _ => &ORDERS,
        }
    }

    /// The sizes that are timed.
    pub fn sizes(&self) -> &'static [u32] {
        match self.leaves {
            Leaves::Dense => &DENSE_SIZES,
            _ => &SIZES,
        }
    }

    /// What the time grows with: about the products of the dense solve, the entries of the whole matrix, else the rows.
    pub fn units(&self, n: u32) -> f64 {
        let rows = n as f64;
        match self.leaves {
            Leaves::Dense => rows * rows * rows / 3.0,
            Leaves::Matrix => rows * rows,
            _ => rows,
        }
    }
}

/// A reply of the other program as the library's.
trait Reply {
    fn value(self) -> Option<u32>;
}

impl Reply for Option<u32> {
    fn value(self) -> Option<u32> {
        self
    }
}

impl Reply for Result<u32, Refusal> {
    fn value(self) -> Option<u32> {
        self.ok()
    }
}

impl Reply for Result<(), Refusal> {
    fn value(self) -> Option<u32> {
        self.ok().map(|()| 0)
    }
}
