//! The lister's text, byte by byte: the paper's file M and what can be wrong with it, and random files against the dense program.

use crate::cases::{draw_prime, draw_records, draw_table};
use crate::dense::Table;
use crate::eliminated::Eliminated;
use crate::layout::Shape;
use crate::random::Random;
use crate::row_file::{bytes, laid_out, length};
use crate::tally::Tally;
use std::fs::{self, File};
use std::process::Command;

/// A longer file is refused.
const LIMIT: usize = 41_492;
const RANDOM_FILES: u64 = 300;

/// File M of the paper: the head, then records 1, 2 and 3, which are rows 3, 1 and 2.
const M: [u32; 29] = [7, 3, 1, 1, 2, 0, 5, 3, 9, 9, 9, 9, 4, 3, 1, 9, 9, 2, 1, 9, 9, 1, 3, 1, 2, 1, 2, 3, 1];
const FIRST: usize = 4;
const NEXT_OF_ROW_3: usize = 5;
const D_OF_ROW_1: usize = 14;
const D_OF_ROW_2: usize = 22;

pub fn run(program: &str, tally: &mut Tally) -> Result<(), String> {
    let random = (0..RANDOM_FILES).map(|number| random_file(&mut Random::named("lister", number)));
    for (file, owed) in fixed_files().into_iter().chain(random).chain([large_file()]) {
        compare(program, &file, &owed)?;
        tally.passed += 1;
    }
    println!("lister                    {} files", tally.passed);
    Ok(())
}

fn fixed_files() -> Vec<(Vec<u8>, String)> {
    let changed = |place: usize, word: u32| {
        let mut words = M;
        words[place] = word;
        file(&words)
    };
    let head = "prime 7 size 3 lower 1 upper 1\n";
    let listed = |rest: &str| format!("{head}{rest}");
    let refused = |numbers: &str| format!("refused {numbers}\n");
    vec![
        (file(&M), listed("1 1 5\n2 3 1\n5 3 5\nregular\n")),
        (changed(D_OF_ROW_1, 0), listed("0 1 5\n2 3 1\n5 3 5\nsingular 1\n")),
        (changed(0, 0), "prime 2147483647 size 3 lower 1 upper 1\n1 1 12\n2 3 8\n12 3 5\nregular\n".into()),
        (file(&[5, 1, 0, 0, 1, 0, 3]), "prime 5 size 1 lower 0 upper 0\n3\nregular\n".into()),
        (file(&[5, 1, 0, 0, 1, 0, 0]), "prime 5 size 1 lower 0 upper 0\n0\nsingular 1\n".into()),
        (file(&[5, 2, 0, 0, 2, 0, 0, 1, 1]), "prime 5 size 2 lower 0 upper 0\n1 0\n0 0\nsingular 2\n".into()),
        (vec![], refused("9 6 0")),
        (vec![0; 19], refused("9 6 0")),
        (vec![0; LIMIT], refused("2 0 0")),
        (vec![0; LIMIT + 1], refused("9 6 0")),
        (vec![0; 2 * LIMIT], refused("9 6 0")),
        (changed(0, 9), refused("1 0 0")),
        (changed(0, u32::MAX), refused("1 0 0")),
        (changed(1, 0), refused("2 0 0")),
        (changed(1, 1_025), refused("2 0 0")),
        (changed(2, 9), refused("3 6 0")),
        (changed(3, 9), refused("3 6 0")),
        ([file(&M), vec![0]].concat(), refused("9 6 0")),
        (file(&M[..28]), refused("9 6 0")),
        (changed(FIRST, 4), refused("10 6 0")),
        (changed(FIRST, 0), refused("10 6 0")),
        (changed(NEXT_OF_ROW_3, 1), refused("10 6 3")),
        (changed(D_OF_ROW_2, 7), refused("5 6 2")),
    ]
}

/// Small, with its records in any order and idle words of any value.
fn random_file(random: &mut Random) -> (Vec<u8>, String) {
    let shape = Shape { n: 1 + random.below(14), r: random.below(9), s: random.below(9) };
    let p = draw_prime(random);
    let (table, records) = (draw_table(p, shape, random), draw_records(shape.n, random));
    (file(&laid_out(p, shape, &table, &records)), listing(&Table { p, shape, words: &table }))
}

/// As many rows as a table can have.
fn large_file() -> (Vec<u8>, String) {
    let (p, shape, random) = (2_147_483_647, Shape { n: 1_024, r: 1, s: 1 }, &mut Random::seeded(7));
    assert!(length(shape) <= LIMIT);
    let (table, records) = (draw_table(p, shape, random), draw_records(shape.n, random));
    (file(&laid_out(p, shape, &table, &records)), listing(&Table { p, shape, words: &table }))
}

fn file(words: &[u32]) -> Vec<u8> {
    bytes(words).into_iter().map(|byte| byte as u8).collect()
}

/// What the paper says of a table's file.
fn listing(table: &Table) -> String {
    let (shape, matrix) = (table.shape, table.matrix());
    let mut text = format!("prime {} size {} lower {} upper {}\n", table.p, shape.n, shape.r, shape.s);
    for row in matrix.entries.chunks(shape.n) {
        let numbers: Vec<String> = row.iter().map(u32::to_string).collect();
        text += &numbers.join(" ");
        text += "\n";
    }
    match Eliminated::new(matrix) {
        Ok(_) => text + "regular\n",
        Err(k) => text + &format!("singular {k}\n"),
    }
}

/// Runs the program with the bytes as its input.
fn compare(program: &str, file: &[u8], owed: &str) -> Result<(), String> {
    let path = std::env::temp_dir().join(format!("residues-listed-{}", std::process::id()));
    let failed =
        |what: String| format!("the lister, on {} bytes that begin {:?}: {what}", file.len(), &file[..file.len().min(40)]);
    fs::write(&path, file).map_err(|error| failed(error.to_string()))?;
    let input = File::open(&path).map_err(|error| failed(error.to_string()))?;
    let ended = Command::new(program).stdin(input).output();
    fs::remove_file(&path).map_err(|error| failed(error.to_string()))?;
    let ended = ended.map_err(|error| failed(error.to_string()))?;
    if !ended.status.success() {
        return Err(failed(format!("ended with {}", ended.status)));
    }
    if ended.stdout != owed.as_bytes() {
        let shown = |text: &[u8]| String::from_utf8_lossy(&text[..text.len().min(300)]).into_owned();
        return Err(failed(format!("owed\n{}printed\n{}", shown(owed.as_bytes()), shown(&ended.stdout))));
    }
    Ok(())
}
