//! Tables drawn so that it is known whether they, their products and their inverses have zero pivots.

use super::{Factor, Laws};
use crate::block::{sum_of_products, sum_of_two};
use crate::cases;
use crate::dense::Table;
use crate::eliminated::reciprocal;
use crate::joined::Pair;
use crate::layout::{Kind, Shape, KINDS};
use crate::refusals::{LARGEST_ORDER, LARGEST_PRIME};
use crate::swept::{choose_pivots, first_zero_pivot};

/// The tables of an identity are drawn in so many ways, by turns.
const WAYS: u64 = 7;

/// After so many draws there is a table as it is wanted.
const DRAWS: usize = 100_000;

/// The largest size of the trials that are not large.
const SMALL_SIZE: usize = 40;

/// Sizes of large tables, below and above those where the dense program changes its ways.
const LARGE_SIZES: [usize; 5] = [1_024, 64, 256, 1_023, 130];

/// What is known of the pivots of a table, since it was drawn so.
#[derive(Clone, Copy)]
pub enum Pivots {
    /// None is zero.
    Regular,
    /// One is zero.
    Zero,
    /// One may be.
    Any,
}

/// A and B, and what is known of AB.
pub struct Two {
    pub a: Factor,
    pub b: Factor,
    pub product: Pivots,
}

/// A prime, a size, and r and s of one table.
pub type One = (u32, usize, u32, u32);

/// A prime, a size, and the orders of two tables.
pub type Both = (u32, usize, Orders);

/// r and s of A, then of B.
type Orders = [u32; 4];

impl Pivots {
    /// The first zero pivot that was found should be one that can be.
    pub fn check(self, row: Option<usize>) -> Result<(), String> {
        match (self, row) {
            (Pivots::Regular, Some(row)) => Err(format!("a zero pivot in row {row} of a table that was drawn without")),
            (Pivots::Zero, None) => Err("no zero pivot in a table that was drawn with one".into()),
            _ => Ok(()),
        }
    }
}

impl Factor {
    pub fn table(&self) -> Table<'_> {
        Table { p: self.p, shape: self.shape, words: &self.words }
    }

    pub fn zero_pivot(&self) -> Option<usize> {
        first_zero_pivot(self.table())
    }

    fn is_regular(&self) -> bool {
        self.zero_pivot().is_none()
    }

    /// The pivot of a row, where none before it is zero.
    fn pivot(&self, wanted: usize) -> Option<u32> {
        let mut found = None;
        let keep = |row, m| {
            found = if row == wanted { Some(m) } else { found };
            m
        };
        choose_pivots(self.p, self.shape, &mut self.words.clone(), keep);
        found
    }

    /// The product's table by the dense program.
    pub fn times(&self, right: &Factor) -> Factor {
        let pair = Pair { one: self.table(), two: right.table() };
        Factor { p: self.p, shape: pair.shape(), words: pair.product() }
    }

    /// The table of the matrix with rows and columns in reverse order: its rows too, and the sides of the diagonal change places.
    fn reversed(&self) -> Factor {
        let Shape { n, r, s } = self.shape;
        let shape = Shape { n, r: s, s: r };
        let mut words = vec![0; shape.table_words()];
        for (kind, k) in (1..=n).flat_map(|k| KINDS.map(|kind| (kind, k))) {
            words[shape.places(beyond(kind), n + 1 - k)].copy_from_slice(&self.words[self.shape.places(kind, k)]);
        }
        Factor { p: self.p, shape, words }
    }
}

/// The generator that does the same on the other side of the diagonal.
fn beyond(kind: Kind) -> Kind {
    match kind {
        Kind::D => Kind::D,
        Kind::P => Kind::G,
        Kind::A => Kind::B,
        Kind::Q => Kind::H,
        Kind::G => Kind::P,
        Kind::B => Kind::A,
        Kind::H => Kind::Q,
    }
}

/// A prime and a size for which pivots that are drawn anew are all other than zero before long.
fn within_chance(p: u32, n: usize) -> (u32, usize) {
    match n {
        _ if p > 10_000 => (p, n),
        0..=SMALL_SIZE => (p, n.min(6)),
        _ => (10_007, n),
    }
}

impl Laws {
    /// 2, 3 or the largest prime for half of the seeds, else any.
    fn draw_prime(&mut self) -> u32 {
        if self.random.once_in(2) {
            self.random.one_of(&[2, 3, LARGEST_PRIME])
        } else {
            cases::draw_prime(&mut self.random)
        }
    }

    /// Mostly to 12, at times to the largest that is not large.
    fn draw_size(&mut self) -> usize {
        match self.random.below(16) {
            0..=3 => self.between(1, 3),
            4..=12 => self.between(4, 12),
            13..=14 => self.between(13, 24),
            _ => self.between(25, SMALL_SIZE as u32),
        }
    }

    /// One prime for all ways of drawing, then the next one; all sizes for each way.
    fn large_size(&self) -> (u32, usize) {
        let primes = [LARGEST_PRIME, 2, 10_007];
        (primes[(self.number / WAYS) as usize % primes.len()], LARGE_SIZES[self.number as usize % LARGE_SIZES.len()])
    }

    /// The first row, the last, or any.
    fn draw_row(&mut self, last: usize) -> usize {
        let any = self.between(1, last as u32);
        self.random.one_of(&[1, last, any, any])
    }

    /// Orders to 4 or to 8.
    pub fn draw_one(&mut self) -> One {
        let (p, n, most) = (self.draw_prime(), self.draw_size(), self.random.one_of(&[4, LARGEST_ORDER]));
        (p, n, self.random.between(0, most), self.random.between(0, most))
    }

    pub fn draw_large_one(&mut self) -> One {
        let (p, n) = self.large_size();
        (p, n, self.random.between(1, 4), self.random.between(1, 4))
    }

    /// Orders to 4 each, or such that add up to at most 8.
    pub fn draw_pair(&mut self) -> Both {
        let (p, n) = (self.draw_prime(), self.draw_size());
        if self.random.once_in(2) {
            return (p, n, std::array::from_fn(|_| self.random.between(0, 4)));
        }
        let (rs, ss) = (self.split(LARGEST_ORDER, 2), self.split(LARGEST_ORDER, 2));
        (p, n, [rs[0], ss[0], rs[1], ss[1]])
    }

    pub fn draw_large_pair(&mut self) -> Both {
        let (p, n) = self.large_size();
        (p, n, std::array::from_fn(|_| self.random.between(1, 4)))
    }

    /// A table without zero pivots.
    pub fn draw_regular(&mut self, p: u32, n: usize, r: u32, s: u32) -> Factor {
        let mut table = self.draw(p, n, r, s);
        cases::make_regular(p, table.shape, &mut table.words, &mut self.random);
        table
    }

    /// A table as it comes, without zero pivots, or with one in the first row, in the last or in any.
    pub fn draw_pivots(&mut self, (p, n, r, s): One) -> (Factor, Pivots) {
        let row = match self.number % WAYS {
            0 | 1 => return (self.draw(p, n, r, s), Pivots::Any),
            2 | 3 => return (self.draw_regular(p, n, r, s), Pivots::Regular),
            4 => 1,
            5 => n,
            _ => self.between(1, n as u32),
        };
        let drawn = self.draw(p, n, r, s);
        (self.with_zero_pivot(&drawn, row), Pivots::Zero)
    }

    /// The table with its first zero pivot at row k; the rows after it are as they were.
    pub fn with_zero_pivot(&mut self, drawn: &Factor, k: usize) -> Factor {
        let mut table = drawn.clone();
        cases::make_zero_pivot(table.p, table.shape, &mut table.words, k, &mut self.random);
        table
    }

    /// A table without zero pivots, and what is known of its inverse, which has none where one side of the diagonal is zero.
    pub fn draw_inverse(&mut self, (p, n, r, s): One) -> (Factor, Pivots) {
        match self.number % WAYS {
            0 => (self.draw_regular(p, n, 0, s), Pivots::Regular),
            1 => (self.draw_regular(p, n, r, 0), Pivots::Regular),
            2 => (self.draw_regular_inverse(LARGEST_PRIME, n, r, s), Pivots::Regular),
            3 => {
                let (p, n) = within_chance(p, n);
                (self.draw_regular_inverse(p, n, r, s), Pivots::Regular)
            }
            4 | 5 => (self.draw_singular_inverse(p, n.max(2), r.max(1), s.max(1)), Pivots::Zero),
            _ => (self.draw_regular(p, n, r, s), Pivots::Any),
        }
    }

    fn draw_regular_inverse(&mut self, p: u32, n: usize, r: u32, s: u32) -> Factor {
        let mut drawn = (0..DRAWS).map(|_| self.draw_regular(p, n, r, s));
        drawn.find(|table| table.reversed().is_regular()).expect("a regular inverse")
    }

    /// A corner of the inverse is singular where the table's corner at the other end is, that of all other rows: by chance, as is
    /// likely for a small prime, or as it is made.
    fn draw_singular_inverse(&mut self, p: u32, n: usize, r: u32, s: u32) -> Factor {
        let drawn = (0..DRAWS).find_map(|_| {
            let table = self.draw_regular(p, n, r, s);
            let reversed = table.reversed();
            if !reversed.is_regular() {
                return Some(table);
            }
            let row = self.draw_row(n - 1);
            let made = self.with_zero_pivot(&reversed, row).reversed();
            made.is_regular().then_some(made)
        });
        drawn.expect("an inverse with a zero pivot")
    }

    /// Two tables, mostly without zero pivots. The corners of AB are those of A times those of B where A is lower or B upper
    /// triangular.
    pub fn draw_factors(&mut self, (p, n, orders): Both) -> Two {
        let [r1, s1, r2, s2] = orders;
        match self.number % WAYS {
            0 => Two { product: Pivots::Regular, ..self.draw_two_regular(p, n, [r1, 0, r2, s2]) },
            1 => Two { product: Pivots::Regular, ..self.draw_two_regular(p, n, [r1, s1, 0, s2]) },
            2 => self.draw_regular_product(LARGEST_PRIME, n, orders),
            3 => {
                let (p, n) = within_chance(p, n);
                self.draw_regular_product(p, n, orders)
            }
            4 => self.draw_singular_product(p, n.max(2), [r1.min(7), s1.max(1), r2.max(1), s2.min(7)]),
            5 => self.draw_two_regular(p, n, orders),
            _ => Two { a: self.draw(p, n, r1, s1), b: self.draw(p, n, r2, s2), product: Pivots::Any },
        }
    }

    /// A and B have no zero pivots, AB may have some.
    fn draw_two_regular(&mut self, p: u32, n: usize, [r1, s1, r2, s2]: Orders) -> Two {
        Two { a: self.draw_regular(p, n, r1, s1), b: self.draw_regular(p, n, r2, s2), product: Pivots::Any }
    }

    fn draw_regular_product(&mut self, p: u32, n: usize, orders: Orders) -> Two {
        let drawn = (0..DRAWS).map(|_| self.draw_two_regular(p, n, orders)).find(|two| two.a.times(&two.b).is_regular());
        Two { product: Pivots::Regular, ..drawn.expect("a regular product") }
    }

    /// A and B have no zero pivots, AB has one: by chance, as is likely for a small prime, or as it is made.
    fn draw_singular_product(&mut self, p: u32, n: usize, orders: Orders) -> Two {
        let drawn = (0..DRAWS).find_map(|_| {
            let Two { a, b, .. } = self.draw_two_regular(p, n, orders);
            let by_chance = !a.times(&b).is_regular();
            let a = if by_chance { a } else { self.with_singular_product(&a, &b)? };
            Some(Two { a, b, product: Pivots::Zero })
        });
        drawn.expect("a product with a zero pivot")
    }

    /// A with another d in a row, so that AB has its first zero pivot there and A has none. AB's pivot is a multiple of d plus
    /// something: its values for d and d + 1 tell where it is 0.
    fn with_singular_product(&mut self, a: &Factor, b: &Factor) -> Option<Factor> {
        let (p, row) = (a.p, self.draw_row(a.shape.n - 1));
        let plus = |residue| {
            let mut other = a.clone();
            let d = &mut other.words[a.shape.places(Kind::D, row).start];
            *d = sum_of_two(*d, residue, p);
            other
        };
        let (m, next) = (a.times(b).pivot(row)?, plus(1).times(b).pivot(row)?);
        if m == next {
            return None;
        }
        let factor = reciprocal(sum_of_two(m, p - next, p), p);
        let mut made = plus(sum_of_products([(m, factor)].into_iter(), p));
        cases::make_regular(p, made.shape, &mut made.words, &mut self.random);
        (made.times(b).zero_pivot() == Some(row)).then_some(made)
    }
}
