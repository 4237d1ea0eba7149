//! Compares every call of the library, accepted and refused, with a dense program.
//! `residues_tests` runs everything; `residues_tests CALL NUMBER` runs one random case again, `residues_tests LAW NUMBER` one
//! trial of a law; without the number, all random cases of the call, or all trials of the law; also `examples`, `limits` and
//! `together`. `residues_tests lister PROGRAM` tests the lister.

mod block;
mod calls;
mod case;
mod cases;
mod crash;
mod dense;
mod eliminated;
mod examples;
mod faults;
mod fractions;
mod joined;
mod laws;
mod layout;
mod lent;
mod limits;
mod lister;
mod random;
mod refusals;
mod row_file;
mod swept;
mod tally;
mod together;
mod trial;

use calls::{Call, CALLS};
use laws::{Law, LAWS};
use random::Random;
use std::process::ExitCode;
use std::sync::atomic::{AtomicBool, Ordering};
use tally::Tally;

const CASES_A_CALL: u64 = 6_000;
const THREADS: usize = 4;

/// Set at the first mismatch, where all threads end.
static FAILED: AtomicBool = AtomicBool::new(false);

fn main() -> ExitCode {
    let arguments: Vec<String> = std::env::args().skip(1).collect();
    let mut tally = Tally::default();
    crash::watch();
    let ended = match &arguments[..] {
        [name, program] if name == "lister" => lister::run(program, &mut tally),
        [name, number] => number.parse().map_err(|_| "no such case".into()).and_then(|number| again(name, number, &mut tally)),
        [name] => all(name, &mut tally),
        _ => everything(&mut tally),
    };
    match ended {
        Ok(()) => {
            println!("{} passed, 0 failed", tally.passed);
            ExitCode::SUCCESS
        }
        Err(account) => {
            println!("{account}");
            println!("{} passed, 1 failed", tally.passed);
            ExitCode::FAILURE
        }
    }
}

fn everything(tally: &mut Tally) -> Result<(), String> {
    check_dense_program();
    examples::run(tally)?;
    limits::run(tally)?;
    for (part, ended) in side_by_side() {
        tally.add(part);
        ended?;
    }
    together::run(tally)?;
    tally.print();
    let missing = tally.missing();
    if missing.is_empty() {
        Ok(())
    } else {
        Err(format!("never reached:\n  {}", missing.join("\n  ")))
    }
}

/// The random cases of every call and the trials of every law, dealt out to threads: calls share nothing, so they may run at the
/// same time.
fn side_by_side() -> [(Tally, Result<(), String>); THREADS] {
    std::thread::scope(|scope| {
        let threads: [_; THREADS] = std::array::from_fn(|first| scope.spawn(move || random_cases(first as u64)));
        threads.map(|thread| thread.join().expect("the dense program agrees with itself"))
    })
}

fn random_cases(first: u64) -> (Tally, Result<(), String>) {
    let mut tally = Tally::default();
    let numbers = || (first..CASES_A_CALL).step_by(THREADS);
    let cases = CALLS.into_iter().flat_map(|call| numbers().map(move |number| (call, number)));
    let mut going = cases.take_while(|_| !FAILED.load(Ordering::Relaxed));
    let ended = going.try_for_each(|(call, number)| random_case(call, number, &mut tally)).and_then(|()| laws(first, &mut tally));
    FAILED.fetch_or(ended.is_err(), Ordering::Relaxed);
    (tally, ended)
}

fn laws(first: u64, tally: &mut Tally) -> Result<(), String> {
    let trials = LAWS.iter().flat_map(|law| (first..law.times).step_by(THREADS).map(move |number| (law, number)));
    let mut going = trials.take_while(|_| !FAILED.load(Ordering::Relaxed));
    going.try_for_each(|(law, number)| law_trial(law, number, tally))
}

fn law_trial(law: &Law, number: u64, tally: &mut Tally) -> Result<(), String> {
    crash::note(law.name, number);
    law.trial(number, tally)
}

fn again(name: &str, number: u64, tally: &mut Tally) -> Result<(), String> {
    match named(name) {
        (Some(call), _) => random_case(call, number, tally),
        (_, Some(law)) => law_trial(law, number, tally),
        _ => Err("no such call or law".into()),
    }
}

fn all(name: &str, tally: &mut Tally) -> Result<(), String> {
    let times = named(name).1.map_or(CASES_A_CALL, |law| law.times);
    match name {
        "examples" => examples::run(tally),
        "limits" => limits::run(tally),
        "together" => together::run(tally),
        _ => (0..times).try_for_each(|number| again(name, number, tally)),
    }
}

fn named(name: &str) -> (Option<&'static Call>, Option<&'static Law>) {
    (CALLS.into_iter().find(|call| call.name == name), LAWS.iter().find(|law| law.name == name))
}

/// The case of a call that belongs to a number, always the same.
fn random_case(call: &Call, number: u64, tally: &mut Tally) -> Result<(), String> {
    let case = cases::draw(call, &mut Random::named(call.name, number));
    crash::note(call.name, number);
    let reply = trial::trial(call, &case).map_err(|account| format!("case {number} of {account}"))?;
    tally.record(call, &case, reply);
    Ok(())
}

/// The dense program must agree with itself before it judges.
fn check_dense_program() {
    let mut random = Random::seeded(1);
    for _ in 0..200 {
        let case = cases::sound(&calls::multiple::CALL, &mut random);
        if case.n <= 30 {
            dense::check_itself(case.table(), case.c);
        }
        row_file::check_itself(&case.table(), &cases::draw_records(case.n as usize, &mut random));
        let case = cases::sound(&calls::product::CALL, &mut random);
        if case.n <= 30 {
            joined::check_itself(case.pair());
        }
        for case in [cases::sound(&calls::solve::CALL, &mut random), cases::draw(&calls::inverse::CALL, &mut random)] {
            if case.n <= 20 && calls::inverse::CALL.checks.iter().all(|check| check(&case).is_none()) {
                swept::check_itself(case.table());
            }
        }
    }
    (0..200).for_each(|_| fractions::check_itself(&mut random));
}
