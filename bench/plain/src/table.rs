//! A table's rows, and the generators of a row, as slices of the lent words.

/// The largest lower or upper order.
pub const LARGEST_ORDER: usize = 8;

/// The prime, the size and the orders of a table, all within limits.
#[derive(Clone, Copy)]
pub struct Shape {
    pub p: u32,
    pub n: usize,
    pub r: usize,
    pub s: usize,
}

impl Shape {
    pub fn row_words(self) -> usize {
        1 + self.r * (2 + self.r) + self.s * (2 + self.s)
    }

    pub fn table_words(self) -> usize {
        self.n * self.row_words()
    }

    pub fn modulus(self) -> u64 {
        self.p as u64
    }

    /// The generators of row k, from 0.
    pub fn row(self, table: &[u32], k: usize) -> Row<'_> {
        let w = self.row_words();
        Row::of(&table[k * w..][..w], self.r, self.s)
    }

    /// The generators of row k, from 0, to be written.
    pub fn row_mut(self, table: &mut [u32], k: usize) -> RowMut<'_> {
        let w = self.row_words();
        RowMut::of(&mut table[k * w..][..w], self.r, self.s)
    }

    /// The places in row k, from 0, of the words that are used.
    pub fn used(self, k: usize) -> impl Iterator<Item = usize> {
        let (r, s) = (self.r, self.s);
        let (above, below) = (!self.is_first(k), !self.is_last(k));
        let through = above && below;
        let mut end = 0;
        [(1, true), (r, above), (r * r, through), (r, below), (s, below), (s * s, through), (s, above)]
            .map(|(count, used)| {
                let start = end;
                end += count;
                start..if used { end } else { start }
            })
            .into_iter()
            .flatten()
    }

    pub fn is_first(self, k: usize) -> bool {
        k == 0
    }

    pub fn is_last(self, k: usize) -> bool {
        k + 1 == self.n
    }
}

/// The generators of one row, blocks row by row.
pub struct Row<'t> {
    pub d: u32,
    pub p: &'t [u32],
    pub a: &'t [u32],
    pub q: &'t [u32],
    pub g: &'t [u32],
    pub b: &'t [u32],
    pub h: &'t [u32],
}

impl<'t> Row<'t> {
    fn of(words: &'t [u32], r: usize, s: usize) -> Row<'t> {
        let (d, words) = words.split_at(1);
        let (p, words) = words.split_at(r);
        let (a, words) = words.split_at(r * r);
        let (q, words) = words.split_at(r);
        let (g, words) = words.split_at(s);
        let (b, h) = words.split_at(s * s);
        Row { d: d[0], p, a, q, g, b, h }
    }

    pub fn lower(&self) -> Half<'t> {
        Half { row: self.p, block: self.a, column: self.q }
    }

    pub fn upper(&self) -> Half<'t> {
        Half { row: self.g, block: self.b, column: self.h }
    }
}

/// The generators of one side of the diagonal: p, a, q below it, g, b, h above it.
#[derive(Clone, Copy)]
pub struct Half<'t> {
    pub row: &'t [u32],
    pub block: &'t [u32],
    pub column: &'t [u32],
}

/// The generators of one row that is written, blocks row by row.
pub struct RowMut<'t> {
    pub d: &'t mut u32,
    pub p: &'t mut [u32],
    pub a: &'t mut [u32],
    pub q: &'t mut [u32],
    pub g: &'t mut [u32],
    pub b: &'t mut [u32],
    pub h: &'t mut [u32],
}

impl<'t> RowMut<'t> {
    pub fn of(words: &'t mut [u32], r: usize, s: usize) -> RowMut<'t> {
        let (d, words) = words.split_at_mut(1);
        let (p, words) = words.split_at_mut(r);
        let (a, words) = words.split_at_mut(r * r);
        let (q, words) = words.split_at_mut(r);
        let (g, words) = words.split_at_mut(s);
        let (b, h) = words.split_at_mut(s * s);
        RowMut { d: &mut d[0], p, a, q, g, b, h }
    }

    /// Sets the idle words of an end row to 0.
    pub fn clear_idle(self, first: bool, last: bool) {
        if first {
            self.p.fill(0);
            self.h.fill(0);
        }
        if last {
            self.q.fill(0);
            self.g.fill(0);
        }
        if first || last {
            self.a.fill(0);
            self.b.fill(0);
        }
    }
}

/// The words x followed by the words y.
pub fn join(new: &mut [u32], x: &[u32], y: &[u32]) {
    let (left, right) = new.split_at_mut(x.len());
    copy(left, x);
    copy(right, y);
}

/// The block x at upper left, y at lower right, zeros elsewhere.
pub fn join_blocks(new: &mut [u32], x: &[u32], y: &[u32], x_order: usize, y_order: usize) {
    let order = x_order + y_order;
    new.fill(0);
    for (line, x) in new.chunks_exact_mut(order.max(1)).zip(x.chunks_exact(x_order.max(1))) {
        copy(line, x);
    }
    for (line, y) in new.chunks_exact_mut(order.max(1)).skip(x_order).zip(y.chunks_exact(y_order.max(1))) {
        copy(&mut line[x_order..], y);
    }
}

/// A few words one by one, which is faster here than copy_from_slice.
pub fn copy(new: &mut [u32], old: &[u32]) {
    new.iter_mut().zip(old).for_each(|(new, &old)| *new = old);
}
