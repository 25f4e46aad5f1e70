//! Compares programs that answer `check --side N --products FOLDER TILE`, or the same of `audit`, on small random tiles with right products, as they
//! are or with a number changed. All must print one line, right products must be accepted, and each answer must have been given
//! somewhere; else the exit status is 1. The cases are the same in each run.
//!
//! Usage: compare_check COMMAND CASES FOLDER PROGRAM...    (each case is for a while a folder in this one)

mod check_products;
mod flood;
mod headers;

use check_products::{Products, TILE};
use flood::VOID;
use std::collections::BTreeMap;
use std::fs::remove_dir_all;
use std::io;
use std::path::Path;
use std::process::{Command, ExitCode};

/// A small generator of random numbers (xorshift).
struct Dice(u64);

impl Dice {
    fn below(&mut self, bound: usize) -> usize {
        self.0 ^= self.0 << 13;
        self.0 ^= self.0 >> 7;
        self.0 ^= self.0 << 17;
        ((self.0 >> 20) % bound as u64) as usize
    }

    fn pick<T: Copy>(&mut self, choices: &[T]) -> T {
        choices[self.below(choices.len())]
    }
}

/// Right products of random ground.
fn right_products(dice: &mut Dice) -> Products {
    let side = dice.pick(&[2, 3, 4, 5, 6, 7, 8, 9, 12, 17, 25, 40]);
    let ground: &[i16] = dice.pick(&[
        &[0, 1, 2, 3, 9],
        &[0, 0, 0, 0, 1],
        &[-2, -1, 0, 1],
        &[100, 107, 110, 117],
        &[-32767, -32766, 32766, 32767],
    ]);
    let voids = dice.pick(&[0, 0, 0, 2, 5, 20]);
    let z = (0..side * side).map(|_| match dice.below(100) < voids {
        true => VOID,
        false => dice.pick(ground),
    });
    Products::made_of(z.collect(), side)
}

/// Changes one number at a cell.
fn change(products: &mut Products, dice: &mut Dice) {
    let cell = dice.below(products.z.len());
    let other = dice.below(products.z.len());
    let codes = [0, 1, 2, 4, 8, 16, 32, 64, 128];
    let heights = [VOID, -32767, -1, 0, 1, 32767];
    let numbers = [0, 1, 2, 255, 256, 1 << 28, 1 << 31, u32::MAX];
    match dice.below(16) {
        0 => products.z[cell] = dice.pick(&heights),
        1 => products.z[cell] = products.z[cell].wrapping_add(dice.pick(&[-1, 1])),
        2 => products.con[cell] = dice.pick(&heights),
        3 => products.con[cell] = products.con[cell].wrapping_add(dice.pick(&[-1, 1])),
        4 => products.con[cell] = products.con[other],
        5 | 6 => products.dir[cell] = dice.pick(&codes),
        7 => products.dir[cell] = dice.below(256) as u8,
        8 => products.acc[cell] = dice.pick(&numbers),
        9 => products.acc[cell] = products.acc[cell].wrapping_add(1),
        10 => products.bas[cell] = dice.pick(&numbers),
        11 => products.bas[cell] = products.bas[other],
        12 => products.rnk[cell] = dice.pick(&numbers),
        13 => products.rnk.swap(cell, other),
        14 => share_a_label(products, dice),
        _ => raise_a_lake(products),
    }
}

/// Gives two outlets one label, with all that flows to the second.
fn share_a_label(products: &mut Products, dice: &mut Dice) {
    let labels = products.bas.iter().copied().max().unwrap_or(0).max(1);
    let one = 1 + dice.below(labels as usize) as u32;
    let other = 1 + dice.below(labels as usize) as u32;
    for label in products.bas.iter_mut().filter(|label| **label == other) {
        *label = one;
    }
}

/// Raises by a metre all raised cells of the height of the first of them.
fn raise_a_lake(products: &mut Products) {
    let is_raised =
        |cell: &usize| products.z[*cell] != VOID && products.con[*cell] > products.z[*cell];
    let Some(first) = (0..products.z.len()).find(is_raised) else {
        return;
    };
    let level = products.con[first];
    let mut lake: Vec<usize> = (first..products.z.len()).filter(is_raised).collect();
    lake.retain(|&cell| products.con[cell] == level);
    for cell in lake {
        products.con[cell] = level.saturating_add(1);
    }
}

/// The line and the exit status of a program.
fn run(program: &str, command: &str, side: usize, folder: &Path) -> io::Result<(String, i32)> {
    let output = Command::new(program)
        .args([command, "--side", &side.to_string(), "--products"])
        .arg(folder)
        .arg(folder.join(TILE))
        .output()?;
    let line = String::from_utf8_lossy(&output.stdout)
        .trim_end()
        .to_string();
    Ok((line, output.status.code().unwrap_or(-1)))
}

/// The words of a line without its numbers.
fn kind(line: &str) -> String {
    let words = line.split_whitespace().filter(|word| !word.contains('='));
    words.collect::<Vec<_>>().join(" ")
}

fn main() -> io::Result<ExitCode> {
    let words: Vec<String> = std::env::args().skip(1).collect();
    let cases = words.get(1).and_then(|word| word.parse::<usize>().ok());
    let (Some(cases), [command, _, folder, programs @ ..]) = (cases, &words[..]) else {
        eprintln!("usage: compare_check COMMAND CASES FOLDER PROGRAM...");
        return Ok(ExitCode::from(2));
    };
    let folder = Path::new(folder);
    let mut dice = Dice(0x9E37_79B9_7F4A_7C15);
    let mut kinds: BTreeMap<String, usize> = BTreeMap::new();
    let mut differences = 0;
    for number in 0..cases {
        let mut products = right_products(&mut dice);
        let changes = dice.pick(&[0, 1, 1, 1, 1, 1, 2]);
        (0..changes).for_each(|_| change(&mut products, &mut dice));
        let folder = folder.join(number.to_string());
        products.write(&folder)?;
        let answers = programs
            .iter()
            .map(|program| run(program, command, products.side, &folder));
        let answers = answers.collect::<io::Result<Vec<_>>>()?;
        remove_dir_all(&folder)?;
        let is_right = |answer: &(String, i32)| {
            *answer == answers[0] && (changes > 0 || answer.0.starts_with("accepted "))
        };
        if !answers.iter().all(is_right) {
            differences += 1;
            println!(
                "case {number}, side {}, {changes} changes: {answers:?}",
                products.side
            );
        }
        *kinds.entry(kind(&answers[0].0)).or_default() += 1;
    }
    println!("{cases} small cases, {differences} differences: {kinds:?}");
    // Twelve rules and an acceptance; of an audit a run without an end in place of BadCode, since no run leads on from a number that is no code.
    Ok(ExitCode::from(u8::from(
        differences > 0 || kinds.len() < 13,
    )))
}
