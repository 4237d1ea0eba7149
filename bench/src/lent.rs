//! What a call is lent: numbers and buffers of random residues, the same in every run.

use crate::calls::{Call, Leaves};

pub const P: u32 = 2_147_483_647;

/// The second prime of fractions.
pub const Q: u32 = 2_147_483_629;

/// The numbers and buffers for tables of one order, below the diagonal and above it, or for fractions. No table in use has a zero
/// pivot, but for one in the last row where the kernel is asked for, and no place is without a fraction.
pub struct Lent {
    pub p: u32,
    pub q: u32,
    pub n: u32,
    pub order: u32,
    pub factor: u32,
    pub first: Vec<u32>,
    pub second: Vec<u32>,
    pub column: Vec<u32>,
    /// The row file of the first table, its records in the order of the rows.
    pub file: Vec<u8>,
    /// The square too.
    pub work: Vec<u32>,
    pub numerators: Vec<i32>,
    /// Denominators too.
    pub result: Vec<u32>,
    pub new_file: Vec<u8>,
}

impl Lent {
    pub fn new(call: &Call, n: u32, order: u32) -> Lent {
        let mut random = Random(n as u64);
        let (rows, words) = (n as usize, n as usize * row_words(order));
        let first = random.residues(words);
        let mut file = vec![0; 4 * (5 + rows + words)];
        plain::write_file(P, n, order, order, &first, &mut file).expect("a table of residues");
        let lent = Lent {
            p: P,
            q: Q,
            n,
            order,
            second: random.residues(words),
            column: random.residues(rows),
            factor: random.residue(),
            work: vec![0; rows * if call.leaves == Leaves::Dense { rows } else { order as usize }],
            numerators: vec![0; if call.leaves == Leaves::Fractions { rows } else { 0 }],
            result: vec![0; result_words(call, rows, order)],
            new_file: vec![0; file.len()],
            first,
            file,
        };
        match call.leaves {
            Leaves::Fractions => lent.with_fractions(&mut random),
            Leaves::Kernel => lent.with_zero_pivot(),
            _ => lent,
        }
    }

    /// In place of the tables, residues that have fractions.
    fn with_fractions(self, random: &mut Random) -> Lent {
        let has_fraction = |&(x, y): &(u32, u32)| plain::fractions(P, Q, 1, &[x], &[y], &mut [0], &mut [0]).is_ok();
        let places = std::iter::repeat_with(|| (random.residue_of(P), random.residue_of(Q))).filter(has_fraction);
        let (first, second) = places.take(self.n as usize).unzip();
        Lent { first, second, ..self }
    }

    /// The last d less by its pivot, and the column that shows it. The matrix sends a column to 0, .., 0, 1 that ends with 1 over
    /// the last pivot.
    fn with_zero_pivot(mut self) -> Lent {
        let Lent { p, n, order, .. } = self;
        let (mut column, mut pivot) = (vec![0; n as usize], [0]);
        let (last, d) = (n as usize - 1, self.first.len() - row_words(order));
        self.column.fill(0);
        self.column[last] = 1;
        let solved = plain::solve(p, n, order, order, &self.first, &self.column, &mut self.work, &mut column);
        solved.and_then(|()| plain::solve(p, 1, 0, 0, &column[last..], &[1], &mut [], &mut pivot)).expect("no zero pivot");
        self.first[d] = (self.first[d] + p - pivot[0]) % p;
        let row = plain::kernel(p, n, order, order, &self.first, &mut self.column);
        let shown = plain::kernel_check(p, n, order, order, n, &self.first, &self.column);
        assert!(row == Ok(n) && shown == Ok(1), "the first zero pivot is not in the last row");
        self
    }

    /// Takes what a call has written, and leaves other words.
    pub fn take_written(&mut self) -> (Vec<u32>, Vec<i32>, Vec<u32>, Vec<u8>) {
        let (work, result) = (take(&mut self.work, u32::MAX), take(&mut self.result, u32::MAX));
        (work, take(&mut self.numerators, i32::MAX), result, take(&mut self.new_file, u8::MAX))
    }
}

fn take<T: Copy>(written: &mut Vec<T>, other: T) -> Vec<T> {
    let others = vec![other; written.len()];
    std::mem::replace(written, others)
}

fn result_words(call: &Call, rows: usize, order: u32) -> usize {
    match call.leaves {
        Leaves::Joined => rows * row_words(2 * order),
        Leaves::Table => rows * row_words(order),
        Leaves::Column | Leaves::Dense | Leaves::Kernel | Leaves::Fractions => rows,
        Leaves::Matrix => rows * rows,
        Leaves::Value | Leaves::File => 0,
    }
}

/// d, p, a, q, g, b, h.
fn row_words(order: u32) -> usize {
    let order = order as usize;
    1 + 2 * (2 * order + order * order)
}

/// A small generator of numbers (splitmix64), the same on every machine.
struct Random(u64);

impl Random {
    fn residues(&mut self, count: usize) -> Vec<u32> {
        (0..count).map(|_| self.residue()).collect()
    }

    fn residue(&mut self) -> u32 {
        self.residue_of(P)
    }

    fn residue_of(&mut self, p: u32) -> u32 {
        (self.next() % p as u64) as u32
    }

    fn next(&mut self) -> u64 {
        self.0 = self.0.wrapping_add(0x9e37_79b9_7f4a_7c15);
        let x = (self.0 ^ self.0 >> 30).wrapping_mul(0xbf58_476d_1ce4_e5b9);
        let x = (x ^ x >> 27).wrapping_mul(0x94d0_49bb_1331_11eb);
        x ^ x >> 31
    }
}
