//! How the rasters of `twin_make` lie in memory: in a frame of voids, so that every cell has eight neighbours. The void
//! behind a row is the one before the next row.

use std::ops::Range;

/// The height of voids, above all others.
pub const VOID: u16 = u16::MAX;

/// The frame around a tile. Rows and columns of cells begin at 1.
#[derive(Clone, Copy)]
pub struct Frame {
    pub side: usize,
}

impl Frame {
    pub fn width(self) -> usize {
        self.side + 1
    }

    /// How many places a raster has: two behind its rows, so that four can be read at once beside the last cell.
    pub fn places(self) -> usize {
        self.width() * (self.side + 2) + 2
    }

    /// The places of the cells of a row.
    pub fn cells(self, row: usize) -> Range<usize> {
        let start = row * self.width() + 1;
        start..start + self.side
    }

    /// How far the neighbours E SE S SW W NW N NE lie after a cell, the later four before it by wrapping.
    pub fn steps(self) -> [usize; 8] {
        let width = self.width();
        let behind = [1, width + 1, width, width - 1];
        std::array::from_fn(|direction| match direction {
            0..4 => behind[direction],
            _ => behind[direction - 4].wrapping_neg(),
        })
    }

    /// The neighbours of the cells of a row, which lie this far after them.
    #[inline(always)]
    pub fn beside<T>(self, row: usize, step: usize, raster: &[T]) -> &[T] {
        let start = self.cells(row).start.wrapping_add(step);
        &raster[start..][..self.side]
    }
}
