//! The words of a table: which generator lies where, and which words are idle.

/// The generators of a row, in their order in memory.
#[derive(Clone, Copy, PartialEq, Eq, Debug)]
pub enum Kind {
    D,
    P,
    A,
    Q,
    G,
    B,
    H,
}

pub const KINDS: [Kind; 7] = [Kind::D, Kind::P, Kind::A, Kind::Q, Kind::G, Kind::B, Kind::H];

/// A size and two orders within limits.
#[derive(Clone, Copy, PartialEq, Debug)]
pub struct Shape {
    pub n: usize,
    pub r: usize,
    pub s: usize,
}

impl Shape {
    /// The shape of a sum or product: the orders are added.
    pub fn joined(self, other: Shape) -> Shape {
        Shape { n: self.n, r: self.r + other.r, s: self.s + other.s }
    }

    pub fn row_words(self) -> usize {
        KINDS.iter().map(|&kind| self.block_words(kind)).sum()
    }

    pub fn table_words(self) -> usize {
        self.n * self.row_words()
    }

    /// The rows and columns of a generator's block.
    pub fn sides(self, kind: Kind) -> (usize, usize) {
        match kind {
            Kind::D => (1, 1),
            Kind::P => (1, self.r),
            Kind::A => (self.r, self.r),
            Kind::Q => (self.r, 1),
            Kind::G => (1, self.s),
            Kind::B => (self.s, self.s),
            Kind::H => (self.s, 1),
        }
    }

    pub fn block_words(self, kind: Kind) -> usize {
        let (rows, columns) = self.sides(kind);
        rows * columns
    }

    /// The words of a generator in row k, from 1.
    pub fn places(self, kind: Kind, k: usize) -> std::ops::Range<usize> {
        let before: usize = KINDS.iter().take_while(|&&other| other != kind).map(|&other| self.block_words(other)).sum();
        let start = (k - 1) * self.row_words() + before;
        start..start + self.block_words(kind)
    }

    /// Idle: p, a, b, h of row 1, and a, q, g, b of row N.
    pub fn is_idle(self, kind: Kind, k: usize) -> bool {
        match kind {
            Kind::D => false,
            Kind::P | Kind::H => k == 1,
            Kind::Q | Kind::G => k == self.n,
            Kind::A | Kind::B => k == 1 || k == self.n,
        }
    }

    /// The words of row k that are not idle.
    pub fn used_places(self, k: usize) -> impl Iterator<Item = usize> {
        KINDS.into_iter().filter(move |&kind| !self.is_idle(kind, k)).flat_map(move |kind| self.places(kind, k))
    }

    /// The idle words of row k.
    pub fn idle_places(self, k: usize) -> impl Iterator<Item = usize> {
        KINDS.into_iter().filter(move |&kind| self.is_idle(kind, k)).flat_map(move |kind| self.places(kind, k))
    }

    /// The generator and the row that a word belongs to.
    pub fn owner(self, place: usize) -> (Kind, usize) {
        let k = place / self.row_words() + 1;
        let kind = KINDS.into_iter().find(|&kind| self.places(kind, k).contains(&place));
        (kind.expect("every word of a row has an owner"), k)
    }
}
