//! Synthetic terrain: hills of value noise with rough ground, depressions and a few voids. The same side and seed make the
//! same numbers.

use crate::flood::VOID;

/// A well-mixed number for a place in the terrain.
fn mixed(seed: u64, layer: u64, row: u64, col: u64) -> u64 {
    let mut number = seed
        .wrapping_mul(0x9E37_79B9_7F4A_7C15)
        .wrapping_add(layer.wrapping_mul(0xD1B5_4A32_D192_ED03))
        .wrapping_add(row.wrapping_mul(0x8CB9_2BA7_2F3D_8DD7))
        .wrapping_add(col.wrapping_mul(0xABC9_8388_FB8F_AC03));
    number = (number ^ (number >> 30)).wrapping_mul(0xBF58_476D_1CE4_E5B9);
    number = (number ^ (number >> 27)).wrapping_mul(0x94D0_49BB_1331_11EB);
    number ^ (number >> 31)
}

/// A height from -1 to 1 at a corner of the layer's lattice.
fn corner(seed: u64, layer: u64, row: usize, col: usize) -> f32 {
    (mixed(seed, layer, row as u64, col as u64) >> 40) as f32 / 8_388_608.0 - 1.0
}

/// The smooth weight of the next corner, this far between two corners.
fn weight(place: usize, spacing: usize) -> f32 {
    let part = place as f32 / spacing as f32;
    part * part * (3.0 - 2.0 * part)
}

/// The heights in metres of a square of hills, row after row.
pub fn hills(side: usize, seed: u64) -> Vec<i16> {
    let layers: Vec<(usize, f32)> = (1..=10)
        .map(|level| (1 << level, 1.2 * 1.75_f32.powi(level)))
        .collect();
    let weights: Vec<Vec<f32>> = layers
        .iter()
        .map(|&(spacing, height)| {
            (0..spacing)
                .map(|place| height * weight(place, spacing))
                .collect()
        })
        .collect();
    let mut heights = Vec::with_capacity(side * side);
    let mut line = vec![0.0_f32; side];
    for row in 0..side {
        for (col, height) in line.iter_mut().enumerate() {
            *height = 350.0 + (mixed(seed, 0, row as u64, col as u64) >> 62) as f32;
        }
        for (layer, &(spacing, height)) in layers.iter().enumerate() {
            let number = layer as u64 + 1;
            let down = weight(row % spacing, spacing);
            let upper = row / spacing;
            let mix = |col: usize| {
                let above = corner(seed, number, upper, col);
                above + down * (corner(seed, number, upper + 1, col) - above)
            };
            let mut left = mix(0);
            for (block, cells) in line.chunks_mut(spacing).enumerate() {
                let right = mix(block + 1);
                for (cell, scaled) in cells.iter_mut().zip(&weights[layer]) {
                    *cell += height * left + scaled * (right - left);
                }
                left = right;
            }
        }
        heights.extend(line.iter().map(|&height| height as i16));
    }
    heights
}

/// Makes voids in a few round patches.
pub fn add_voids(heights: &mut [i16], side: usize, seed: u64) {
    for patch in 0..1 + side as u64 / 300 {
        let row = mixed(seed, 100, patch, 0) as usize % side;
        let col = mixed(seed, 100, patch, 1) as usize % side;
        let reach = side / 200 + mixed(seed, 100, patch, 2) as usize % (side / 80 + 1);
        for r in row.saturating_sub(reach)..(row + reach + 1).min(side) {
            for c in col.saturating_sub(reach)..(col + reach + 1).min(side) {
                if r.abs_diff(row).pow(2) + c.abs_diff(col).pow(2) <= reach * reach {
                    heights[r * side + c] = VOID;
                }
            }
        }
    }
}
