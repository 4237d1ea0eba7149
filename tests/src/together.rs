//! Each call from several threads at the same time, on different cases, over and over: calls share nothing.

use crate::calls::{Answer, Call, CALLS};
use crate::case::Case;
use crate::cases;
use crate::random::Random;
use crate::tally::Tally;
use crate::trial::{compare, owed};
use std::sync::Barrier;

const THREADS: usize = 4;
const TIMES: usize = 5_000;
/// Of a call without sweeps, which is short.
const SHORT_TIMES: usize = 40_000;

pub fn run(tally: &mut Tally) -> Result<(), String> {
    let mut random = Random::seeded(2);
    for call in CALLS {
        let drawn = std::iter::repeat_with(|| cases::sound(call, &mut random)).filter(is_mostly_sweeps);
        let cases: Vec<_> = drawn.take(THREADS).map(|case| (owed(call, &case), case)).collect();
        let start = Barrier::new(THREADS);
        std::thread::scope(|scope| {
            let threads: Vec<_> = cases.iter().map(|(owed, case)| scope.spawn(|| repeat(call, case, owed, &start))).collect();
            threads.into_iter().try_for_each(|thread| thread.join().expect("a thread ends"))
        })?;
        cases.iter().for_each(|(owed, case)| tally.record(call, case, owed.reply));
    }
    Ok(())
}

/// The test of a small prime takes no time beside the sweeps, or the places, in which threads might meet.
fn is_mostly_sweeps(case: &Case) -> bool {
    (20..=40).contains(&case.n) && case.p.max(case.q) < 1_000 && case.orders.iter().all(|&(r, s)| r > 0 && s > 0)
}

fn repeat(call: &Call, case: &Case, owed: &Answer, start: &Barrier) -> Result<(), String> {
    let times = if call.tables == 0 { SHORT_TIMES } else { TIMES };
    start.wait();
    let mut trials = (0..times).map(|_| compare(call, case, owed));
    trials.try_for_each(|ended| ended.map(|_| ())).map_err(|account| format!("beside other threads, {account}"))
}
