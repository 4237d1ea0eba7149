//! Row files, read by the letter of the papers: the tests' own reader and writer.

use crate::dense::Table;
use crate::layout::Shape;
use crate::refusals::LARGEST_PRIME;

/// The words of the head: P, N, r, s, the first record number.
pub const HEAD: usize = 5;
pub const FIRST: usize = 4;

/// Every four bytes as a word, the least byte first; those at the end that make no word are left out. A byte is lent as a number.
pub fn words(bytes: &[u32]) -> Vec<u32> {
    let word = |four: &[u32]| four.iter().rev().fold(0, |word, byte| word * 256 + byte);
    bytes.chunks(4).filter(|four| four.len() == 4).map(word).collect()
}

pub fn bytes(words: &[u32]) -> Vec<u32> {
    words.iter().flat_map(|word| [1, 256, 65_536, 16_777_216].map(|unit| word / unit % 256)).collect()
}

/// 4(5 + N(1 + w))
pub fn length(shape: Shape) -> usize {
    4 * (HEAD + shape.n * (1 + shape.row_words()))
}

/// The prime that the head's first word stands for.
pub fn prime_of(word: u32) -> u32 {
    [word, LARGEST_PRIME][usize::from(word == 0)]
}

/// Where the word "next" of a record lies; its row follows.
pub fn next_place(shape: Shape, record: u32) -> usize {
    HEAD + (1 + shape.row_words()) * record as usize - (1 + shape.row_words())
}

/// The record numbers of rows 1 to N, or the rows read so far where the chain is wrong: a number above N, 0 before N rows, or not
/// 0 after N. The file has its length.
pub fn chain(shape: Shape, words: &[u32]) -> Result<Vec<u32>, u32> {
    let mut numbers = vec![words[FIRST]];
    while numbers.len() <= shape.n {
        match numbers[numbers.len() - 1] {
            0 => break,
            number if number as usize > shape.n => break,
            number => numbers.push(words[next_place(shape, number)]),
        }
    }
    let rows = numbers.len() - 1;
    match numbers.pop() {
        Some(0) if rows == shape.n => Ok(numbers),
        _ => Err(rows as u32),
    }
}

/// The rows of the records, in the order of their numbers.
pub fn rows(shape: Shape, words: &[u32], records: &[u32]) -> Vec<u32> {
    let row = |&record: &u32| &words[next_place(shape, record) + 1..][..shape.row_words()];
    records.iter().map(row).collect::<Vec<_>>().concat()
}

/// A table's words with 0 wherever they are idle.
pub fn without_idle(shape: Shape, table: &[u32]) -> Vec<u32> {
    let mut words = table[..shape.table_words()].to_vec();
    (1..=shape.n).flat_map(|k| shape.idle_places(k)).for_each(|place| words[place] = 0);
    words
}

/// The words of a file whose row k is the record numbered records[k − 1], with all words of the table.
pub fn laid_out(p: u32, shape: Shape, table: &[u32], records: &[u32]) -> Vec<u32> {
    let mut words = vec![0; length(shape) / 4];
    words[..HEAD].copy_from_slice(&[p, shape.n as u32, shape.r as u32, shape.s as u32, records[0]]);
    let nexts = records.iter().skip(1).chain([&0]);
    for ((&record, &next), row) in records.iter().zip(nexts).zip(table.chunks(shape.row_words())) {
        let place = next_place(shape, record);
        words[place] = next;
        words[place + 1..][..row.len()].copy_from_slice(row);
    }
    words
}

/// The words of the file that a table is written as.
pub fn written(table: &Table) -> Vec<u32> {
    let (shape, w) = (table.shape, table.shape.row_words());
    let mut words = vec![table.p, shape.n as u32, shape.r as u32, shape.s as u32, 1];
    for (k, row) in (1..).zip(without_idle(shape, table.words).chunks(w)) {
        words.push(if k == shape.n as u32 { 0 } else { k + 1 });
        words.extend(row);
    }
    words
}

/// The writer and the reader against each other: a table written is read as it was, whatever the order of its records.
pub fn check_itself(table: &Table, records: &[u32]) {
    let (shape, plain) = (table.shape, without_idle(table.shape, table.words));
    let file = written(table);
    let in_order: Vec<u32> = (1..=shape.n as u32).collect();
    assert_eq!(4 * file.len(), length(shape));
    assert_eq!(file, laid_out(table.p, shape, &plain, &in_order));
    assert_eq!(words(&bytes(&file)), file);
    for order in [records, &in_order] {
        let file = laid_out(table.p, shape, table.words, order);
        assert_eq!(chain(shape, &file).as_deref(), Ok(order));
        assert_eq!(rows(shape, &file, order), table.words[..shape.table_words()]);
    }
}
