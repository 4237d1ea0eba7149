//! Times the library's calls beside those of the plain program, and some beside FLINT's, or beside those of an older archive, and
//! prints tables. An argument names the only call to be timed.

mod calls;
mod clock;
#[cfg_attr(not(flint), path = "no_flint.rs")]
mod flint;
mod goals;
mod lent;
mod library;
mod measure;
mod report;

use calls::{Call, CALLS};
use flint::Flint;
use measure::{Case, Effort};
use report::{Dense, Line};
use std::time::{Duration, Instant};

fn main() {
    let start = Instant::now();
    let calls = wanted(std::env::args().nth(1));
    let mut cases = cases(&calls);
    cases.iter_mut().for_each(Case::check);
    let mut flint = Flint::new(&calls);
    let lines: Vec<Line> = cases.iter_mut().map(line).collect();
    let dense = flint.as_mut().map_or(Vec::new(), Flint::measure);
    print(&lines, flint.map(|flint| flint.version()), &dense);
    println!("\nThe run took {} seconds.", start.elapsed().as_secs());
}

/// The call of the given name, or all.
fn wanted(name: Option<String>) -> Vec<&'static Call> {
    let calls: Vec<&Call> = CALLS.iter().filter(|call| name.as_ref().is_none_or(|name| name == call.name)).collect();
    assert!(!calls.is_empty(), "no call has this name");
    calls
}

fn cases(calls: &[&'static Call]) -> Vec<Case> {
    let all = calls.iter().flat_map(|&call| call.orders().iter().map(move |&order| (call, order)));
    all.map(|(call, order)| Case::new(call, order)).collect()
}

/// The calls that have goals are measured longer. Each call's name is shown as it begins.
fn line(case: &mut Case) -> Line {
    if case.order == case.call.orders()[0] {
        eprintln!("{} ..", case.call.name);
    }
    let effort = if goals::has_goal(case.call.name, case.order) {
        Effort { rounds: 101, time: Duration::from_secs(6) }
    } else {
        Effort { rounds: 11, time: Duration::from_secs(3) }
    };
    Line { call: case.call, order: case.order, times: case.measure(effort) }
}

fn print(lines: &[Line], flint: Option<String>, dense: &[Dense]) {
    let rounds = lines.iter().map(|line| line.times.rounds.len()).min().unwrap_or(0);
    let (p, q) = (lent::P, lent::Q);
    println!(
        "P {p}, of fractions {q} too, random residues, at least {rounds} rounds; times and ratios are medians of the rounds'."
    );
    if cfg!(old) {
        return report::print_against(lines);
    }
    report::print_ratios(lines);
    report::print_growth(lines);
    match flint {
        None => println!("\nFLINT (libflint-dev) is not installed: its calls are left out."),
        Some(_) if dense.is_empty() => (),
        Some(version) => report::print_dense(&version, dense),
    }
    report::print_goals(lines, dense);
}
