//! Makes a tile and right products of it, as `drain check --side N` takes them: the terrain of `hills.rs` with plains, so
//! that there are flats that no depression made. The same side and seed make the same files.
//!
//! Usage: make_check_input SIDE SEED FOLDER

mod check_products;
mod flood;
mod headers;
mod hills;

use check_products::Products;
use flood::VOID;
use hills::{add_voids, hills};
use std::io;
use std::path::Path;

/// Levels the ground: each stretch of 200 m has a plain, of what lay in its lowest 8 m.
fn add_plains(heights: &mut [i16]) {
    for height in heights.iter_mut().filter(|height| **height != VOID) {
        let above = height.rem_euclid(200);
        if above < 8 {
            *height -= above;
        }
    }
}

fn main() -> io::Result<()> {
    let words: Vec<String> = std::env::args().skip(1).collect();
    let numbers: Vec<u64> = words.iter().take(2).flat_map(|word| word.parse()).collect();
    let ([side @ 2..=3601, seed], [_, _, folder]) = (&numbers[..], &words[..]) else {
        eprintln!("usage: make_check_input SIDE SEED FOLDER, SIDE from 2 to 3601");
        std::process::exit(2);
    };
    let side = *side as usize;
    let mut heights = hills(side, *seed);
    add_plains(&mut heights);
    add_voids(&mut heights, side, *seed);
    Products::made_of(heights, side).write(Path::new(folder))
}
