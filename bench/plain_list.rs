//! What reading a list of sinks costs: a plain program that reads the file, takes two numbers off each line, and puts the columns of each row side
//! by side, as a check needs them. It looks at no cell. It takes lines of two numbers with one space between, and no others.
//!
//! Usage: plain_list FILE ROWS    (prints how many lines there were, and the greatest column of any row)
use std::env;
use std::fs;

fn main() {
    let words: Vec<String> = env::args().collect();
    let text = fs::read(&words[1]).expect("the list is there");
    let rows: usize = words[2].parse().expect("a number of rows");
    let mut cells: Vec<(u32, u32)> = Vec::new();
    let mut number = 0;
    let mut row = 0;
    for byte in text {
        match byte {
            b' ' => {
                row = number;
                number = 0;
            }
            b'\n' => {
                cells.push((row, number));
                number = 0;
            }
            digit => number = number * 10 + u32::from(digit - b'0'),
        }
    }
    let mut ends = vec![0; rows + 1];
    for (row, _) in &cells {
        ends[*row as usize + 1] += 1;
    }
    for row in 0..rows {
        ends[row + 1] += ends[row];
    }
    let mut cols = vec![0; cells.len()];
    for (row, col) in &cells {
        let next = &mut ends[*row as usize];
        cols[*next] = *col;
        *next += 1;
    }
    println!("{} {}", cells.len(), cols.iter().max().unwrap_or(&0));
}
