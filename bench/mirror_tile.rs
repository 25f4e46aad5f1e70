//! Enlarges a tile by mirrored copies of it, side by side, so that the terrain goes on without a step at every edge.
//!
//! Usage: mirror_tile SIDE TILE NEW_SIDE FILE

use std::fs::{read, write};
use std::io;

/// The row or column at this place, in a tile of this side between two mirrors.
fn mirrored(side: usize, place: usize) -> usize {
    let period = 2 * (side - 1);
    let within = place % period;
    within.min(period - within)
}

fn main() -> io::Result<()> {
    let words: Vec<String> = std::env::args().skip(1).collect();
    let side_of = |word: &str| word.parse().ok().filter(|side| (2..=3601).contains(side));
    let [side, tile, new_side, file] = &words[..] else {
        return Err(io::Error::other(
            "usage: mirror_tile SIDE TILE NEW_SIDE FILE",
        ));
    };
    let (Some(side), Some(new_side)) = (side_of(side), side_of(new_side)) else {
        return Err(io::Error::other("a side is from 2 to 3601"));
    };
    let bytes = read(tile)?;
    if bytes.len() != 2 * side * side {
        return Err(io::Error::other("the tile has another length"));
    }
    let samples = (0..new_side).flat_map(|row| {
        (0..new_side).map(move |col| 2 * (side * mirrored(side, row) + mirrored(side, col)))
    });
    let enlarged: Vec<u8> = samples
        .flat_map(|start| [bytes[start], bytes[start + 1]])
        .collect();
    write(file, enlarged)
}
