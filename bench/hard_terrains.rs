//! Writes a tile that is hard to drain, or whose labels are hard to keep.
//!
//! Usage: hard_terrains KIND SIDE TILE, KIND one of flat, noise, pits, spiral, stairs, bowl, needles, voids, thirds,
//! twentieths, ramp

const VOID: i16 = -32768;

/// A number that follows no pattern.
fn mixed(row: usize, col: usize) -> u32 {
    let mut number = (row as u32).wrapping_mul(0x9e37_79b1) ^ (col as u32).wrapping_mul(0x85eb_ca77);
    for shift in [15, 13, 16] {
        number = (number ^ number >> shift).wrapping_mul(0x2c1b_3c6d);
    }
    number
}

/// How many cells lie between this one and the nearest edge.
fn depth(side: usize, row: usize, col: usize) -> usize {
    row.min(col).min(side - 1 - row).min(side - 1 - col)
}

fn height(kind: &str, side: usize, row: usize, col: usize) -> Option<i16> {
    let depth = depth(side, row, col);
    Some(match kind {
        // One height.
        "flat" => 100,
        // All heights, without a pattern.
        "noise" => (mixed(row, col) % 65_535) as u16 as i16 ^ i16::MIN ^ 1,
        // Each second cell of each second row lies deep below its neighbours.
        "pits" => if row % 2 == 1 && col % 2 == 1 { -30_000 } else { 30_000 },
        // Rings of walls, each with a gap opposite to that of the next: one long way to the middle.
        "spiral" => if depth % 2 == 0 && !is_gap(side, depth, row, col) { 1_000 } else { 0 },
        // A step down every row, so that each way is as long as the tile.
        "stairs" => (side - row).min(30_000) as i16,
        // Down to the middle: one depression as large as the tile.
        "bowl" => -(depth.min(30_000) as i16),
        // Flat, with needles.
        "needles" => if mixed(row, col) % 16 == 0 { 5_000 } else { 0 },
        // Each second cell is a void, so that each other one is an outlet.
        "voids" => if (row + col) % 2 == 0 { return None } else { 7 },
        // One cell in 3 is a void, or one in 20, without a pattern.
        "thirds" => if mixed(row, col) % 3 == 0 { return None } else { 7 },
        "twentieths" => if mixed(row, col) % 20 == 0 { return None } else { 7 },
        // Down to the west, inside a wall along all edges.
        _ => if depth == 0 { 32_767 } else { col.min(30_000) as i16 },
    })
}

/// Whether a ring of walls is open here: in the middle of its northern side, or of its southern one, in turn.
fn is_gap(side: usize, depth: usize, row: usize, col: usize) -> bool {
    let at = if depth / 2 % 2 == 0 { depth } else { side - 1 - depth };
    row == at && col == side / 2
}

fn main() -> std::io::Result<()> {
    let words: Vec<String> = std::env::args().skip(1).collect();
    let [kind, side, tile] = &words[..] else {
        eprintln!("usage: hard_terrains KIND SIDE TILE");
        std::process::exit(2);
    };
    let side: usize = side.parse().map_err(std::io::Error::other)?;
    let cells = (0..side).flat_map(|row| (0..side).map(move |col| (row, col)));
    let samples = cells.map(|(row, col)| height(kind, side, row, col).unwrap_or(VOID));
    std::fs::write(tile, samples.flat_map(i16::to_be_bytes).collect::<Vec<u8>>())
}
