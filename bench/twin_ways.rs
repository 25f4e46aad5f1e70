//! The ways of `twin_make`: the first of the steepest down, and along flats from their low edges inwards (Garbrecht and
//! Martz 1997). Loops along a row have no branch, so the compiler takes many cells at once.

use crate::twin_frame::{Frame, VOID};
use std::mem::take;

/// A way is a direction, from 0 at E to 7 at NE, or one of these.
pub const OUTLET: u8 = 8;
pub const GAP: u8 = 9;
const FLAT: u8 = 10;

/// What a way has in addition at the low edge of a flat.
const EDGE: u8 = 16;

/// The direction code of a way.
pub fn code(way: u8) -> u8 {
    match way {
        0..8 => 1 << way,
        OUTLET => 0,
        _ => 255,
    }
}

/// The first of the steepest ways down; where there is none, that of an outlet or a flat.
pub fn ways_down(frame: Frame, con: &[u16], mut ways: Vec<u8>) -> Vec<u8> {
    ways.fill(GAP);
    for row in 1..=frame.side {
        let here = &con[frame.cells(row)];
        let around = frame.steps().map(|step| frame.beside(row, step, con));
        let [e, se, s, sw, w, nw, n, ne] = around;
        for (cell, way) in ways[frame.cells(row)].iter_mut().enumerate() {
            let straight = [e[cell], s[cell], w[cell], n[cell]];
            let across = [se[cell], sw[cell], nw[cell], ne[cell]];
            *way = way_down(here[cell], straight, across);
        }
    }
    ways
}

/// The way of a cell of this height between neighbours in the four straight directions and the four across.
#[inline(always)]
fn way_down(height: u16, straight: [u16; 4], across: [u16; 4]) -> u8 {
    let is_open = straight.contains(&VOID) | across.contains(&VOID);
    let level = u16::from(if is_open { OUTLET } else { FLAT });
    let (lowest_straight, straight) = lowest(straight, 0);
    let (lowest_across, across) = lowest(across, 1);
    let drop = |lowest| u32::from(height.saturating_sub(lowest));
    let (drop_straight, drop_across) = (drop(lowest_straight), drop(lowest_across));
    // Half the one square in place of twice the other, which can be too great for 32 bits.
    let is_straight = drop_straight * drop_straight > (drop_across * drop_across) >> 1;
    let down = if is_straight { straight } else { across };
    let is_level = lowest_straight.min(lowest_across) >= height;
    let way = if is_level { level } else { down };
    (if height == VOID { u16::from(GAP) } else { way }) as u8
}

/// The lowest of the heights in each second direction from this one, and the first direction where it is.
#[inline(always)]
fn lowest(heights: [u16; 4], direction: u16) -> (u16, u16) {
    let beside = (direction..).step_by(2).zip(heights);
    beside.fold((VOID, direction), |(lowest, first), (direction, height)| {
        let first = if height < lowest { direction } else { first };
        (lowest.min(height), first)
    })
}

/// Gives each cell of a flat the way to a cell of its height nearer to a low edge. Returns how many steps lead off the
/// flat: 0 where a cell is on none, `u32::MAX` at voids.
pub fn ways_along_flats(frame: Frame, con: &[u16], ways: &mut [u8]) -> Vec<u32> {
    low_edges(frame, con, ways);
    let mut rnk = vec![0; ways.len()];
    let mut ring = Vec::new();
    for (cell, (way, rank)) in ways.iter_mut().zip(&mut rnk).enumerate() {
        if *way == GAP {
            *rank = u32::MAX;
        } else if *way >= EDGE {
            *way -= EDGE;
            *rank = 1;
            ring.push(cell as u32);
        }
    }
    let steps = frame.steps();
    while !ring.is_empty() {
        for cell in take(&mut ring) {
            let cell = cell as usize;
            for (direction, step) in (0..8).zip(steps) {
                let beside = cell.wrapping_add(step);
                if ways[beside] == FLAT && con[beside] == con[cell] {
                    ways[beside] = (direction + 4) % 8;
                    rnk[beside] = rnk[cell] + 1;
                    ring.push(beside as u32);
                }
            }
        }
    }
    rnk
}

/// Finds the low edges of flats, where a cell of the same height off the flat is beside. They get the first way there.
fn low_edges(frame: Frame, con: &[u16], ways: &mut [u8]) {
    let mut line = vec![0; frame.side];
    for row in 1..=frame.side {
        line.fill(FLAT);
        for (direction, step) in (0..8).zip(frame.steps()).rev() {
            let heights = frame.beside(row, step, con);
            let beside = heights.iter().zip(frame.beside(row, step, ways));
            let here = line.iter_mut().zip(&con[frame.cells(row)]);
            for ((edge, height), (height_beside, way)) in here.zip(beside) {
                let is_edge = (height == height_beside) & (*way <= OUTLET);
                *edge = if is_edge { direction + EDGE } else { *edge };
            }
        }
        for (way, edge) in ways[frame.cells(row)].iter_mut().zip(&line) {
            *way = if *way == FLAT { *edge } else { *way };
        }
    }
}
