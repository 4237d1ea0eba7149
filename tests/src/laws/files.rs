//! Row files: written and read back, and read with every kind of damage.

use super::{Factor, Laws};
use crate::calls::{read_file, write_file, Answer};
use crate::case::{Buffer, Case, Fault, Holds};
use crate::cases;
use crate::faults;
use crate::layout::{Shape, KINDS};
use crate::refusals::{Reply, LARGEST_PRIME};
use crate::row_file::{self, next_place, FIRST, HEAD};
use crate::trial::ended;

/// Into how many trials the chains are cut.
pub const PARTS: u64 = 16;

impl Laws {
    /// A table written and read back, and files with their records in other orders.
    pub fn round_trips(&mut self) -> Result<(), String> {
        let (p, n) = (cases::draw_prime(&mut self.random), self.between(1, 30));
        let (r, s) = (self.random.between(0, 8), self.random.between(0, 8));
        let table = self.draw(p, n, r, s);
        self.round_trip(&table)
    }

    /// The same at N 1,024.
    pub fn round_trips_large(&mut self) -> Result<(), String> {
        const ORDERS: [(u32, u32); 6] = [(0, 0), (1, 1), (8, 8), (0, 8), (8, 0), (3, 2)];
        let (r, s) = ORDERS[self.number as usize % ORDERS.len()];
        let p = if self.number.is_multiple_of(2) { LARGEST_PRIME } else { cases::draw_prime(&mut self.random) };
        let table = self.draw(p, 1024, r, s);
        self.round_trip(&table)
    }

    /// Write then read gives the table with idle words 0, and P; read then write gives the file in the order of the rows.
    fn round_trip(&mut self, table: &Factor) -> Result<(), String> {
        let Factor { p, shape, words } = table;
        let plain = row_file::without_idle(*shape, words);
        let file = self.written(table)?;
        let mut files = vec![file.clone()];
        let heads = if *p == LARGEST_PRIME { vec![*p, 0] } else { vec![*p] };
        for head in heads {
            let records = self.draw_records(shape.n);
            files.push(row_file::bytes(&row_file::laid_out(head, *shape, words, &records)));
        }
        for other in files {
            let read = self.read(&other)?;
            if read.p != *p || read.shape != *shape || read.words != plain {
                return Err(format!("a table of P {p}, {shape:?}, is read as another"));
            }
            if self.written(&read)? != file {
                return Err(format!("a table of P {p}, {shape:?}, that was read is written as another file"));
            }
        }
        Ok(())
    }

    /// The file's bytes; surplus is kept.
    fn written(&mut self, table: &Factor) -> Result<Vec<u32>, String> {
        let count = row_file::length(table.shape);
        let bytes = (0..count + self.random.below(6)).map(|_| self.random.word() & 255).collect();
        let buffers = vec![Buffer::new(1, Holds::Table(0), table.words.clone()), Buffer::new(6, Holds::WrittenFile, bytes)];
        let n = table.shape.n as u32;
        let case = Case { p: table.p, q: 1, n, orders: vec![table.orders()], place: (1, 1), k: 1, c: 1, buffers, faults: vec![] };
        let (reply, lent) = ended(&write_file::CALL, &case)?;
        self.tally.record(&write_file::CALL, &case, reply);
        Ok(lent.words(6)[..count].to_vec())
    }

    /// The table of a file that must be accepted; P is the reply's value.
    fn read(&mut self, file: &[u32]) -> Result<Factor, String> {
        let case = self.reading(file);
        let (reply, lent) = ended(&read_file::CALL, &case)?;
        self.tally.record(&read_file::CALL, &case, reply);
        let shape = case.shape(0);
        Ok(Factor { p: reply.value, shape, words: lent.words(5)[..shape.table_words()].to_vec() })
    }

    /// A case of reading these bytes, with room for a table of their numbers where those are within limits.
    fn reading(&mut self, file: &[u32]) -> Case {
        let mut case = Case::reading(vec![], file);
        let within = case.n <= 1_024 && case.orders[0].0 <= 8 && case.orders[0].1 <= 8;
        let count = if within { case.shape(0).table_words() } else { 0 };
        case.buffer_mut(5).words = (0..count + self.random.below(4)).map(|_| self.random.word()).collect();
        case
    }

    /// Reads the bytes; what is owed, the tests' own reader says.
    fn judged(&mut self, file: &[u32]) -> Result<Reply, String> {
        let case = self.reading(file);
        let (reply, _) = ended(&read_file::CALL, &case)?;
        self.tally.record(&read_file::CALL, &case, reply);
        Ok(reply)
    }

    /// A small file with one to three kinds of damage.
    pub fn damaged_files(&mut self) -> Result<(), String> {
        let p = cases::draw_prime(&mut self.random);
        let shape = self.draw_small(6, 3);
        let mut file = cases::draw_file(p, shape, &mut self.random);
        for _ in 0..self.random.one_of(&[1, 1, 1, 2, 3]) {
            self.damage(p, shape, &mut file);
        }
        self.judged(&file).map(|_| ())
    }

    fn draw_small(&mut self, largest_size: u32, largest_order: u32) -> Shape {
        Shape { n: self.between(1, largest_size), r: self.between(0, largest_order), s: self.between(0, largest_order) }
    }

    fn damage(&mut self, p: u32, shape: Shape, file: &mut Vec<u32>) {
        if file.len() != row_file::length(shape) {
            return;
        }
        let mut words = row_file::words(file);
        let random = &mut self.random;
        let mut record = || random.between(1, shape.n as u32);
        let (one, other) = (record(), record());
        match random.below(13) {
            0 | 1 => {
                let bit = random.below(8 * file.len());
                return file[bit / 8] ^= 1 << (bit % 8);
            }
            2 => return file.truncate(random.below(file.len())),
            3 => return file.extend((0..random.between(1, 9)).map(|_| random.word() & 255)),
            4 => exchange(&mut words, shape, one, other),
            5 => {
                exchange(&mut words, shape, one, other);
                mend(&mut words, shape, one, other);
            }
            6 => {
                let mut case = Case::reading(vec![], file);
                if case.n as usize == shape.n && case.orders[0] == (shape.r as u32, shape.s as u32) && case.file_chain().is_ok() {
                    faults::file::plant_chain(&mut case, random);
                }
                words = case.file_words();
            }
            7 => words[FIRST] = random.one_of(&[0, shape.n as u32 + 1, u32::MAX, one]),
            8 => words[0] = random.one_of(&[0, 1, 2, 9, p, LARGEST_PRIME, 1 << 31, u32::MAX]),
            9 => words[1] = random.one_of(&[0, 1, shape.n as u32 + 1, 1_024, 1_025, 1 << 31, u32::MAX]),
            10 => words[2 + random.below(2)] = random.one_of(&[0, 1, 8, 9, 65_536, u32::MAX]),
            11 => words[HEAD..].iter_mut().for_each(|word| *word = random.between(0, 3)),
            _ => {
                let place = HEAD + random.below(words.len() - HEAD);
                words[place] = random.one_of(&[p, p, p - 1, p + 1, u32::MAX]);
            }
        }
        *file = row_file::bytes(&words);
    }

    /// Every two records of a small file exchanged: with the chain mended it is the same table, else the rows between are missed.
    pub fn exchanged_records(&mut self) -> Result<(), String> {
        let p = cases::draw_prime(&mut self.random);
        let shape = self.draw_small(6, 2);
        let (table, records) = (self.draw(p, shape.n, shape.r as u32, shape.s as u32), self.draw_records(shape.n));
        let plain = Answer { written: vec![(5, row_file::without_idle(shape, &table.words))], ..Answer::value(p) };
        for (one, other) in (0..shape.n).flat_map(|other| (0..other).map(move |one| (one, other))) {
            let mut words = row_file::laid_out(p, shape, &table.words, &records);
            exchange(&mut words, shape, records[one], records[other]);
            let case = self.reading(&row_file::bytes(&words));
            let row = (shape.n - (other - one)) as u32;
            self.answers(&read_file::CALL, &case, &Answer::refused(Reply { number: 10, buffer: 6, row, value: 0 }))?;
            mend(&mut words, shape, records[one], records[other]);
            let case = self.reading(&row_file::bytes(&words));
            self.answers(&read_file::CALL, &case, &plain)?;
        }
        Ok(())
    }

    fn draw_records(&mut self, n: usize) -> Vec<u32> {
        cases::draw_records(n, &mut self.random)
    }

    /// Every bit of a small file flipped.
    pub fn flipped_bits(&mut self) -> Result<(), String> {
        let p = cases::draw_prime(&mut self.random);
        let shape = self.draw_small(4, 2);
        let file = cases::draw_file(p, shape, &mut self.random);
        for bit in 0..8 * file.len() {
            let mut flipped = file.clone();
            flipped[bit / 8] ^= 1 << (bit % 8);
            self.judged(&flipped)?;
        }
        Ok(())
    }

    /// Every length from 0 to 40 bytes, and around its own, of the beginning of a small file, with zeros or any bytes behind it.
    pub fn file_lengths(&mut self) -> Result<(), String> {
        const SHAPES: [(usize, usize, usize); 6] = [(1, 0, 0), (2, 0, 0), (1, 1, 0), (1, 0, 1), (3, 0, 0), (2, 1, 1)];
        let (n, r, s) = SHAPES[self.number as usize % SHAPES.len()];
        let (p, shape) = (cases::draw_prime(&mut self.random), Shape { n, r, s });
        let file = cases::draw_file(p, shape, &mut self.random);
        let own = file.len();
        for length in (0..=40).chain(own - 5..=own + 5) {
            for most in [0, 255] {
                let more = (0..length.saturating_sub(own)).map(|_| self.random.word() & most);
                let bytes: Vec<u32> = file.iter().copied().take(length).chain(more.collect::<Vec<_>>()).collect();
                let owed = if length == own { 0 } else { 9 };
                if self.judged(&bytes)?.number != owed {
                    return Err(format!("a file of {length} bytes, not {own}, owes {owed}"));
                }
            }
        }
        Ok(())
    }

    /// Every chain of at most four records: each number from 0 to N, and one above it.
    pub fn every_chain(&mut self) -> Result<(), String> {
        for n in 1..=4usize {
            let beyond = [n as u32 + 1, u32::MAX, 65_536 + n as u32, 1 << 31 | 1][self.number as usize % 4];
            let choices = n as u64 + 2;
            for choice in (self.number..choices.pow(n as u32 + 1)).step_by(PARTS as usize) {
                let number = |place: usize| match (choice / choices.pow(place as u32) % choices) as u32 {
                    number if number as usize > n => beyond,
                    number => number,
                };
                let mut words = vec![5, n as u32, 0, 0, number(n)];
                (0..n).for_each(|record| words.extend([number(record), record as u32 % 5]));
                let owed = followed(n, &words);
                let found = self.judged(&row_file::bytes(&words))?;
                if (found.number, found.row) != owed {
                    return Err(format!("the file {words:?} owes {owed:?}"));
                }
            }
        }
        Ok(())
    }

    /// A word that is P, or above it, in each place of a small table: refused where it is used, with the row, else taken for 0.
    pub fn every_word(&mut self) -> Result<(), String> {
        let shape = Shape { n: 1 + self.number as usize % 5, r: self.between(0, 2), s: self.between(0, 2) };
        let p = if self.number.is_multiple_of(3) { LARGEST_PRIME } else { cases::draw_prime(&mut self.random) };
        let mut table = self.draw(p, shape.n, shape.r as u32, shape.s as u32);
        table.words = row_file::without_idle(shape, &table.words);
        let records = self.draw_records(shape.n);
        for (k, kind) in (1..=shape.n).flat_map(|k| KINDS.map(|kind| (k, kind))) {
            for place in shape.places(kind, k) {
                for word in [p, p + 1, u32::MAX] {
                    let mut changed = table.clone();
                    changed.words[place] = word;
                    self.word_at(&changed, &table, &records, shape.is_idle(kind, k), k as u32)?;
                }
            }
        }
        Ok(())
    }

    /// Writing the table, and reading its file: both refuse the row, or both take the table without its idle words.
    fn word_at(&mut self, table: &Factor, plain: &Factor, records: &[u32], idle: bool, row: u32) -> Result<(), String> {
        let Factor { p, shape, words } = table;
        let refused = |buffer| Answer::refused(Reply { number: 5, buffer, row, value: 0 });
        let file = row_file::bytes(&row_file::laid_out(*p, *shape, words, records));
        let mut reading = self.reading(&file);
        reading.faults = if idle { vec![] } else { vec![Fault::Word(6)] };
        let read = Answer { written: vec![(5, plain.words.clone())], ..Answer::value(*p) };
        self.answers(&read_file::CALL, &reading, &if idle { read } else { refused(6) })?;
        let mut writing = reading.clone();
        let in_order: Vec<u32> = (1..=shape.n as u32).collect();
        let file = row_file::bytes(&row_file::laid_out(*p, *shape, &plain.words, &in_order));
        let lent = vec![7; file.len() + self.random.below(3)];
        writing.buffers = vec![Buffer::new(1, Holds::Table(0), words.clone()), Buffer::new(6, Holds::WrittenFile, lent)];
        writing.faults.clear();
        let written = Answer { written: vec![(6, file)], ..Answer::value(0) };
        self.answers(&write_file::CALL, &writing, &if idle { written } else { refused(1) })
    }
}

/// Exchanges two records in whole: the numbers that led to one lead to the other.
fn exchange(words: &mut [u32], shape: Shape, one: u32, other: u32) {
    for place in 0..1 + shape.row_words() {
        words.swap(next_place(shape, one) + place, next_place(shape, other) + place);
    }
}

/// Makes the numbers that lead to two records lead to each other's.
fn mend(words: &mut [u32], shape: Shape, one: u32, other: u32) {
    let nexts = (1..=shape.n as u32).map(|record| next_place(shape, record));
    for place in nexts.chain([FIRST]) {
        words[place] = match words[place] {
            number if number == one => other,
            number if number == other => one,
            number => number,
        };
    }
}

/// What is owed for a file of orders 0 whose words are residues: the number, and the rows read so far. By recursion on the rows
/// that are left.
fn followed(n: usize, words: &[u32]) -> (u32, u32) {
    fn from(n: usize, words: &[u32], met: u32, left: usize) -> Option<usize> {
        match (met, left) {
            (0, 0) => None,
            (_, 0) | (0, _) => Some(left),
            _ if met as usize > n => Some(left),
            _ => from(n, words, words[5 + 2 * (met as usize - 1)], left - 1),
        }
    }
    from(n, words, words[4], n).map_or((0, 0), |left| (10, (n - left) as u32))
}
