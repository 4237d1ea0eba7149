//! Where the library crashes, a line says in which case, so that it can be run again alone.

use std::cell::Cell;

thread_local! {
    static NOW: Cell<Option<(&'static str, u64)>> = const { Cell::new(None) };
}

/// SIGILL, SIGABRT, SIGBUS, SIGFPE, SIGSEGV
const SIGNALS: [i32; 5] = [4, 6, 7, 8, 11];

extern "C" {
    fn signal(number: i32, handler: extern "C" fn(i32)) -> usize;
}

/// Notes the random case or the trial that this thread is about to run.
pub fn note(call: &'static str, number: u64) {
    NOW.set(Some((call, number)));
}

pub fn watch() {
    for number in SIGNALS {
        unsafe { signal(number, report) };
    }
}

extern "C" fn report(number: i32) {
    match NOW.get() {
        Some((call, case)) => println!("signal {number} in {call} {case}; again: residues_tests {call} {case}"),
        None => println!("signal {number} in an example or at a limit"),
    }
    std::process::exit(1);
}
