//! A case: the numbers and the buffers handed to a call, and the faults planted in it.

use crate::dense::Table;
use crate::fractions::{Primes, Residues};
use crate::joined::Pair;
use crate::layout::Shape;
use crate::row_file;

/// What a buffer has room for.
#[derive(Clone, Copy, PartialEq, Debug)]
pub enum Holds {
    /// A table of the orders of the first lent table (0) or of the second (1).
    Table(usize),
    /// A table of the added orders of both.
    Joined,
    /// N words.
    Column,
    /// N residues under the first prime (0) or under the second (1).
    Residues(usize),
    /// N signed words.
    Signed,
    /// N² words.
    Square,
    /// N·s words.
    Work,
    /// A row file of the first lent table.
    WrittenFile,
    /// A row file that says its own P, N and orders.
    ReadFile,
}

impl Holds {
    /// Whether bytes are lent, not words.
    pub fn is_file(self) -> bool {
        matches!(self, Holds::WrittenFile | Holds::ReadFile)
    }
}

/// A lent buffer: its number in the papers, its room, its words, or its bytes as numbers.
#[derive(Clone, Debug)]
pub struct Buffer {
    pub number: u32,
    pub holds: Holds,
    pub words: Vec<u32>,
    /// An empty buffer that is handed over as NULL.
    pub null: bool,
    /// The buffer is the first table's own memory.
    pub shared: bool,
}

impl Buffer {
    pub fn new(number: u32, holds: Holds, words: Vec<u32>) -> Buffer {
        Buffer { number, holds, words, null: false, shared: false }
    }

    /// Tables and columns are read, work and result are written, and files are either.
    pub fn is_read(&self) -> bool {
        self.number <= 3 || self.holds == Holds::ReadFile
    }
}

/// A fault that was planted, in the order of planting: pivots, singular matrices and places without a fraction are made of sound
/// words, numbers go out of limits last, and only then a file loses its head.
#[derive(Clone, Copy, PartialEq, Eq, PartialOrd, Ord, Debug)]
pub enum Fault {
    Pivot,
    Regular,
    Singular,
    Fraction,
    Word(u32),
    Short(u32),
    Chain,
    Length,
    Factor,
    Place,
    Corner,
    OrderSums,
    Orders(usize),
    Size,
    Prime,
    SecondPrime,
    EqualPrimes,
    Head,
}

/// Everything that is handed to a call; numbers that the call does not take are 1.
#[derive(Clone, Debug)]
pub struct Case {
    pub p: u32,
    /// The second prime.
    pub q: u32,
    pub n: u32,
    /// r and s of each table.
    pub orders: Vec<(u32, u32)>,
    /// i and j.
    pub place: (u32, u32),
    pub k: u32,
    pub c: u32,
    /// By ascending number.
    pub buffers: Vec<Buffer>,
    pub faults: Vec<Fault>,
}

impl Case {
    /// The shape of a table; N and the orders are within limits.
    pub fn shape(&self, which: usize) -> Shape {
        let (r, s) = self.orders[which];
        Shape { n: self.n as usize, r: r as usize, s: s as usize }
    }

    /// The shape of a sum or product.
    pub fn joined(&self) -> Shape {
        self.shape(0).joined(self.shape(1))
    }

    /// The shape of the table that a buffer has room for.
    pub fn table_shape(&self, holds: Holds) -> Option<Shape> {
        match holds {
            Holds::Table(which) => Some(self.shape(which)),
            Holds::Joined => Some(self.joined()),
            Holds::Column | Holds::Residues(_) | Holds::Signed | Holds::Square | Holds::Work => None,
            Holds::WrittenFile | Holds::ReadFile => None,
        }
    }

    /// The words that a buffer needs, or bytes; N and the orders are within limits.
    pub fn needed(&self, holds: Holds) -> usize {
        match holds {
            Holds::Table(which) => self.shape(which).table_words(),
            Holds::Joined => self.joined().table_words(),
            Holds::Column | Holds::Residues(_) | Holds::Signed => self.n as usize,
            Holds::Square => self.n as usize * self.n as usize,
            Holds::Work => self.n as usize * self.shape(0).s,
            Holds::WrittenFile | Holds::ReadFile => row_file::length(self.shape(0)),
        }
    }

    pub fn buffer(&self, number: u32) -> &Buffer {
        self.buffers.iter().find(|buffer| buffer.number == number).expect("the call has this buffer")
    }

    pub fn buffer_mut(&mut self, number: u32) -> &mut Buffer {
        self.buffers.iter_mut().find(|buffer| buffer.number == number).expect("the call has this buffer")
    }

    /// Whether a square is lent beside the result.
    pub fn is_dense(&self) -> bool {
        self.buffers.iter().any(|buffer| (buffer.number, buffer.holds) == (4, Holds::Square))
    }

    /// The words of a column that is read.
    pub fn column(&self) -> &[u32] {
        &self.buffer(3).words[..self.n as usize]
    }

    /// The prime that the words of a buffer are below.
    pub fn prime_of(&self, holds: Holds) -> u32 {
        match holds {
            Holds::Residues(1) => self.q,
            _ => self.p,
        }
    }

    /// The two primes, which are different.
    pub fn primes(&self) -> Primes {
        Primes::new(self.p, self.q)
    }

    /// The residues of each place, under the first prime and under the second.
    pub fn residues(&self) -> impl Iterator<Item = Residues> + '_ {
        let (first, second) = (&self.buffer(1).words, &self.buffer(2).words);
        first.iter().copied().zip(second.iter().copied()).take(self.n as usize)
    }

    /// Changes those of a place, from 1.
    pub fn set_residues(&mut self, place: usize, (x, y): Residues) {
        self.buffer_mut(1).words[place - 1] = x;
        self.buffer_mut(2).words[place - 1] = y;
    }

    /// A case of reading a file.
    pub fn reading(result: Vec<u32>, file: &[u32]) -> Case {
        let buffers = vec![Buffer::new(5, Holds::Table(0), result), Buffer::new(6, Holds::ReadFile, file.to_vec())];
        let mut case = Case { p: 1, q: 1, n: 1, orders: vec![(1, 1)], place: (1, 1), k: 1, c: 1, buffers, faults: vec![] };
        case.read_head();
        case
    }

    /// Takes P, N and the orders from the head of the file that is read, unless it is cut.
    pub fn read_head(&mut self) {
        if let [p, n, r, s, _, ..] = self.file_words()[..] {
            (self.p, self.n, self.orders) = (row_file::prime_of(p), n, vec![(r, s)]);
        }
    }

    /// The words of the file that is read.
    pub fn file_words(&self) -> Vec<u32> {
        row_file::words(&self.buffer(6).words)
    }

    /// The record numbers of its rows, or the rows read so far.
    pub fn file_chain(&self) -> Result<Vec<u32>, u32> {
        row_file::chain(self.shape(0), &self.file_words())
    }

    /// Its rows in the order of the chain, which is right.
    pub fn file_rows(&self) -> Vec<u32> {
        let records = self.file_chain().expect("the chain is right");
        row_file::rows(self.shape(0), &self.file_words(), &records)
    }

    /// Changes a word of it, which may be one of the head.
    pub fn set_file_word(&mut self, place: usize, word: u32) {
        self.buffer_mut(6).words[4 * place..][..4].copy_from_slice(&row_file::bytes(&[word]));
        self.read_head();
    }

    /// The first table, for the dense program.
    pub fn table(&self) -> Table<'_> {
        Table { p: self.p, shape: self.shape(0), words: &self.buffer(1).words }
    }

    /// Both tables.
    pub fn pair(&self) -> Pair<'_> {
        let two = Table { p: self.p, shape: self.shape(1), words: &self.buffer(2).words };
        Pair { one: self.table(), two }
    }
}
