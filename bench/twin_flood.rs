//! The flood of `twin_make`: whole slopes at once, and levels only for cells next to which a lower one was left (Zhou,
//! Sun and Fu 2016). Heights don't depend on the order, so the cell reached last goes first: what it needs is near.

use crate::twin_frame::{Frame, VOID};
use std::mem::take;

/// The marks of a cell that the flood has reached, of one that it has still to reach, and of a void.
const REACHED: u8 = 0;
const UNREACHED: u8 = 128;
const GAP: u8 = 1;

/// The heights, raised where the flood has reached them, the marks, and the cells that wait at each level.
struct Flood {
    frame: Frame,
    heights: Vec<u16>,
    marks: Vec<u8>,
    waiting: Vec<Vec<u32>>,
}

/// Fills what doesn't drain. Returns the heights and the memory of the marks.
pub fn flood(frame: Frame, heights: Vec<u16>) -> (Vec<u16>, Vec<u8>) {
    let marks = marks(frame, &heights);
    let reached = (0..).zip(&marks).filter(|(_, mark)| **mark == REACHED);
    let open = reached.map(|(cell, _)| cell).collect();
    let mut flood = Flood {
        frame,
        heights,
        marks,
        waiting: vec![Vec::new(); usize::from(VOID)],
    };
    flood.trace(open, None);
    for level in 0..VOID {
        // Each cell left next to these is raised to the level, so none comes to wait for it any more.
        let waiting = take(&mut flood.waiting[usize::from(level)]);
        flood.trace(waiting, Some(level));
    }
    (flood.heights, flood.marks)
}

/// The marks before the flood, which has reached the open cells alone: those beside a void.
fn marks(frame: Frame, heights: &[u16]) -> Vec<u8> {
    let mut marks = vec![GAP; heights.len()];
    for row in 1..=frame.side {
        let line = &mut marks[frame.cells(row)];
        for (mark, height) in line.iter_mut().zip(&heights[frame.cells(row)]) {
            *mark = if *height == VOID { GAP } else { UNREACHED };
        }
        for step in frame.steps() {
            for (mark, beside) in line.iter_mut().zip(frame.beside(row, step, heights)) {
                *mark &= GAP | UNREACHED * u8::from(*beside != VOID);
            }
        }
    }
    marks
}

/// A bit for each unreached neighbour. Each column has eight, of which three stand for the rows.
#[inline(always)]
fn unreached(marks: &[u8], width: usize, cell: usize) -> u32 {
    let row = |start: usize| u32::from_le_bytes(*marks[start..].first_chunk().unwrap());
    (row(cell - width - 1) & 0x808080) >> 7
        | (row(cell - 1) & 0x800080) >> 6
        | (row(cell + width - 1) & 0x808080) >> 5
}

/// How far the neighbour of each bit lies after a cell, by wrapping.
fn steps_of_bits(width: usize) -> [usize; 32] {
    std::array::from_fn(|bit| (bit % 8 * width + bit / 8).wrapping_sub(width + 1))
}

impl Flood {
    /// Spreads from these cells over all that isn't lower. Beside cells at the flood's level it raises what is lower.
    fn trace(&mut self, mut trail: Vec<u32>, level: Option<u16>) {
        let width = self.frame.width();
        let steps = steps_of_bits(width);
        let (marks, heights) = (&mut self.marks[..], &mut self.heights[..]);
        let mut left = Vec::new();
        while let Some(item) = trail.pop() {
            let cell = item as usize;
            let height = heights[cell];
            let mut bits = unreached(marks, width, cell);
            let mut leaves = false;
            while bits != 0 {
                let beside = cell.wrapping_add(steps[bits.trailing_zeros() as usize % 32]);
                bits &= bits - 1;
                if heights[beside] < height {
                    if level != Some(height) {
                        leaves = true;
                        continue;
                    }
                    heights[beside] = height;
                }
                marks[beside] = REACHED;
                trail.push(beside as u32);
            }
            if leaves {
                left.push(item);
            }
        }
        for cell in left {
            if unreached(marks, width, cell as usize) != 0 {
                self.waiting[usize::from(heights[cell as usize])].push(cell);
            }
        }
    }
}
