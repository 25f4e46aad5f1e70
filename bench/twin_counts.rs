//! Accumulation and labels of `twin_make`. Both follow ways, of which each takes one byte.

use crate::twin_frame::Frame;
use crate::twin_ways::{GAP, OUTLET};

/// Where a count of inflows stands, above a way.
const INFLOW: u8 = 16;
const WAY: u8 = INFLOW - 1;
/// In place of the count, where a cell has passed its own on.
const DONE: u8 = 15 * INFLOW;

/// Puts above each way how many neighbours lead to the cell.
fn count_inflows(frame: Frame, ways: &mut [u8]) {
    let mut line = vec![0; frame.side];
    for row in 1..=frame.side {
        line.copy_from_slice(&ways[frame.cells(row)]);
        for (direction, step) in (0..8).zip(frame.steps()) {
            for (way, beside) in line.iter_mut().zip(frame.beside(row, step, ways)) {
                *way += INFLOW * u8::from(beside & WAY == (direction + 4) % 8);
            }
        }
        ways[frame.cells(row)].copy_from_slice(&line);
    }
}

/// How many cells drain through each cell. A cell passes its count on once all that flow into it have passed on theirs.
pub fn accumulation(frame: Frame, ways: &mut [u8], mut acc: Vec<u32>) -> Vec<u32> {
    for (count, way) in acc.iter_mut().zip(&*ways) {
        *count = u32::from(*way != GAP);
    }
    count_inflows(frame, ways);
    let steps = frame.steps();
    for mut cell in 0..ways.len() {
        while let direction @ 0..OUTLET = ways[cell] {
            ways[cell] |= DONE;
            let next = cell.wrapping_add(steps[usize::from(direction)]);
            acc[next] += acc[cell];
            ways[next] -= INFLOW;
            cell = next;
        }
    }
    acc
}

/// The number of each cell's outlet, of which the first in row order has 1.
pub fn labels(frame: Frame, ways: &[u8], mut bas: Vec<u32>) -> Vec<u32> {
    let mut last = 0;
    for (label, way) in bas.iter_mut().zip(ways) {
        let is_outlet = way & WAY == OUTLET;
        last += u32::from(is_outlet);
        *label = if is_outlet { last } else { 0 };
    }
    let steps = frame.steps();
    let mut path = Vec::new();
    for mut cell in 0..ways.len() {
        if ways[cell] & WAY == GAP {
            continue;
        }
        while bas[cell] == 0 {
            path.push(cell as u32);
            cell = cell.wrapping_add(steps[usize::from(ways[cell] & 7)]);
        }
        let label = bas[cell];
        for cell in path.drain(..) {
            bas[cell as usize] = label;
        }
    }
    bas
}
