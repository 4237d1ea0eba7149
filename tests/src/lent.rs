//! The memory of a case's buffers: each lies between words or bytes that are not lent.

use crate::case::{Buffer, Case};
use std::borrow::Cow;

/// Odd, so that lent bytes begin at no word's place.
const GUARD: usize = 5;
const GUARD_WORD: u32 = 0xdead_beef;
const GUARD_BYTE: u8 = 0xad;

pub struct Lent {
    words: Vec<Memory<u32>>,
    files: Vec<Memory<u8>>,
}

struct Memory<T> {
    number: u32,
    null: bool,
    shared: bool,
    guard: T,
    all: Vec<T>,
}

impl Lent {
    pub fn new(case: &Case) -> Lent {
        let (files, words): (Vec<&Buffer>, Vec<&Buffer>) = case.buffers.iter().partition(|buffer| buffer.holds.is_file());
        let byte = |&byte: &u32| u8::try_from(byte).expect("a file has bytes");
        let bytes = |buffer: &Buffer| buffer.words.iter().map(byte).collect::<Vec<u8>>();
        Lent {
            words: words.into_iter().map(|buffer| Memory::new(buffer, &buffer.words, GUARD_WORD)).collect(),
            files: files.into_iter().map(|buffer| Memory::new(buffer, &bytes(buffer), GUARD_BYTE)).collect(),
        }
    }

    /// A buffer as a pointer to words that are only read, and their count.
    pub fn read(&self, number: u32) -> (*const u32, usize) {
        let memory = of(&self.words, number);
        let place = if memory.shared { of(&self.words, 1) } else { memory };
        let pointer = if memory.null { std::ptr::null() } else { place.lent().as_ptr() };
        (pointer, memory.lent().len())
    }

    /// A buffer as a pointer to words that may be written, and their count.
    pub fn write(&mut self, number: u32) -> (*mut u32, usize) {
        of_mut(&mut self.words, number).write()
    }

    /// A file as a pointer to bytes that are only read, and their count.
    pub fn read_bytes(&self, number: u32) -> (*const u8, usize) {
        let memory = of(&self.files, number);
        let pointer = if memory.null { std::ptr::null() } else { memory.lent().as_ptr() };
        (pointer, memory.lent().len())
    }

    /// A file as a pointer to bytes that may be written, and their count.
    pub fn write_bytes(&mut self, number: u32) -> (*mut u8, usize) {
        of_mut(&mut self.files, number).write()
    }

    /// The lent words of a buffer, or its bytes as numbers.
    pub fn words(&self, number: u32) -> Cow<'_, [u32]> {
        match self.files.iter().find(|memory| memory.number == number) {
            Some(file) => file.lent().iter().map(|&byte| byte.into()).collect(),
            None => of(&self.words, number).lent().into(),
        }
    }

    /// The first buffer around which something has changed that was not lent.
    pub fn first_overrun(&self) -> Option<u32> {
        let words = self.words.iter().filter(|memory| memory.is_overrun()).map(|memory| memory.number);
        let files = self.files.iter().filter(|memory| memory.is_overrun()).map(|memory| memory.number);
        words.chain(files).min()
    }
}

fn of<T>(list: &[Memory<T>], number: u32) -> &Memory<T> {
    list.iter().find(|memory| memory.number == number).expect("the call has this buffer")
}

fn of_mut<T>(list: &mut [Memory<T>], number: u32) -> &mut Memory<T> {
    list.iter_mut().find(|memory| memory.number == number).expect("the call has this buffer")
}

impl<T: Copy + PartialEq> Memory<T> {
    fn new(buffer: &Buffer, lent: &[T], guard: T) -> Memory<T> {
        let all = [&[guard; GUARD], lent, &[guard; GUARD]].concat();
        Memory { number: buffer.number, null: buffer.null, shared: buffer.shared, guard, all }
    }

    fn lent(&self) -> &[T] {
        &self.all[GUARD..self.all.len() - GUARD]
    }

    fn write(&mut self) -> (*mut T, usize) {
        let pointer = if self.null { std::ptr::null_mut() } else { self.all[GUARD..].as_mut_ptr() };
        (pointer, self.lent().len())
    }

    fn is_overrun(&self) -> bool {
        let after = self.all.len() - GUARD;
        self.all[..GUARD].iter().chain(&self.all[after..]).any(|found| *found != self.guard)
    }
}
