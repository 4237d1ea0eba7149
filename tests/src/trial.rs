//! One case of a call: what is owed, what came, and a readable account where they differ.

use crate::calls::{Answer, Call};
use crate::case::{Buffer, Case, Holds};
use crate::dense::Table;
use crate::lent::Lent;
use crate::refusals::{orders, size, Reply};
use crate::row_file;

/// The first refusal whose cause holds, with nothing written, else the dense answer.
pub fn owed(call: &Call, case: &Case) -> Answer {
    match call.checks.iter().find_map(|check| check(case)) {
        Some(reply) => Answer::refused(reply),
        None => (call.answer)(case),
    }
}

/// Runs a case and compares the reply, every word and byte of every buffer, and the meaning of the result.
pub fn trial(call: &Call, case: &Case) -> Result<Reply, String> {
    Ok(ended(call, case)?.0)
}

/// The same, with the buffers as the call left them.
pub fn ended(call: &Call, case: &Case) -> Result<(Reply, Lent), String> {
    let owed = owed(call, case);
    let lent = compare(call, case, &owed)?;
    meaning(call, case, &owed, &lent).map_err(|what| format!("{}{}\n  {what}", call.name, describe(case)))?;
    Ok((owed.reply, lent))
}

/// Runs a case that must be accepted, and gives the result, which is compared elsewhere.
pub fn only_accepted(call: &Call, case: &Case) -> Result<Vec<u32>, String> {
    let mut lent = Lent::new(case);
    match (call.run)(case, &mut lent) {
        0 => Ok(lent.words(5).into_owned()),
        reply => Err(format!("{} is not accepted: {}", call.name, Reply::unpacked(reply))),
    }
}

/// What is wrong with the table that an accepted call left as its result.
fn meaning(call: &Call, case: &Case, owed: &Answer, lent: &Lent) -> Result<(), String> {
    if owed.reply.number != 0 {
        return Ok(());
    }
    let result = case.buffers.iter().find(|buffer| buffer.number == 5);
    match result.and_then(|buffer| case.table_shape(buffer.holds)) {
        Some(shape) => (call.meaning)(case, Table { p: case.p, shape, words: &lent.words(5) }),
        None => Ok(()),
    }
}

/// Runs a case and compares the reply and every word of every buffer with what is owed.
pub fn compare(call: &Call, case: &Case, owed: &Answer) -> Result<Lent, String> {
    let mut lent = Lent::new(case);
    let reply = (call.run)(case, &mut lent);
    let differences: Vec<String> = case.buffers.iter().filter_map(|buffer| difference(case, buffer, owed, &lent)).collect();
    if reply == owed.reply.packed() && differences.is_empty() && lent.first_overrun().is_none() {
        return Ok(lent);
    }
    let mut account = format!("{}{}", call.name, describe(case));
    account += &format!("\n  reply owed {}, came {}", owed.reply, Reply::unpacked(reply));
    differences.iter().for_each(|line| account += line);
    if let Some(number) = lent.first_overrun() {
        account += &format!("\n  memory around buffer {number}, which is not lent, has changed");
    }
    Err(account)
}

/// The first word of a buffer that is not what it should be.
fn difference(case: &Case, buffer: &Buffer, owed: &Answer, lent: &Lent) -> Option<String> {
    let mut expected = buffer.words.clone();
    for (_, words) in owed.written.iter().filter(|(number, _)| *number == buffer.number) {
        expected[..words.len()].copy_from_slice(words);
    }
    let found = lent.words(buffer.number);
    let place = (0..expected.len()).find(|&place| expected[place] != found[place])?;
    let whose = owner(case, buffer, place);
    let unit = unit(buffer);
    let shown = |word: u32| if buffer.holds == Holds::Signed { i64::from(word as i32) } else { word.into() };
    let (owed, came) = (shown(expected[place]), shown(found[place]));
    Some(format!("\n  buffer {} {unit} {place}{whose}: owed {owed}, came {came}", buffer.number))
}

fn unit(buffer: &Buffer) -> &'static str {
    if buffer.holds.is_file() {
        "byte"
    } else {
        "word"
    }
}

/// Where a word lies, in terms of rows.
fn owner(case: &Case, buffer: &Buffer, place: usize) -> String {
    if size(case).is_some() || orders(case).is_some() {
        return String::new();
    }
    match buffer.holds {
        holds if place >= case.needed(holds) => " (surplus)".into(),
        Holds::Table(which) => format!(" (row {})", case.shape(which).owner(place).1),
        Holds::Joined => {
            let (kind, row) = case.joined().owner(place);
            format!(" ({kind:?} of row {row})")
        }
        Holds::Column | Holds::Residues(_) | Holds::Signed => format!(" (row {})", place + 1),
        Holds::Work => format!(" (v of row {})", place / case.shape(0).s + 1),
        Holds::WrittenFile | Holds::ReadFile => match (place / 4).checked_sub(row_file::HEAD) {
            None => " (head)".into(),
            Some(word) => format!(" (record {})", word / (1 + case.shape(0).row_words()) + 1),
        },
        Holds::Square => format!(" (entry {}, {})", place / case.n as usize + 1, place % case.n as usize + 1),
    }
}

fn describe(case: &Case) -> String {
    let Case { p, q, n, orders, place: (i, j), k, c, faults, .. } = case;
    let mut text = format!("\n  P {p} second prime {q} N {n} orders {orders:?} i {i} j {j} k {k} c {c} faults {faults:?}");
    for buffer in &case.buffers {
        let shown: Vec<String> = buffer.words.iter().take(200).map(u32::to_string).collect();
        let note = if buffer.null {
            " (NULL)"
        } else if buffer.shared {
            " (the first table's memory)"
        } else {
            ""
        };
        let more = if buffer.words.len() > 200 { " .." } else { "" };
        let (count, unit) = (buffer.words.len(), unit(buffer));
        text += &format!("\n  buffer {}, {count} {unit}s{note}: {}{more}", buffer.number, shown.join(" "));
    }
    text
}
