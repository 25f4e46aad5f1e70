//! The five products of a tile as `drain check` takes them: made from its elevations, and written with their headers.

use crate::flood::{Flood, VOID, flood, neighbors};
use crate::headers::{ACC, BAS, CON, Corner, DIR, Pixels, RNK};
use std::fs::{create_dir_all, write};
use std::io;
use std::path::Path;

/// The elevations of one tile and its products, row after row; at voids products have their no-data numbers.
#[derive(Clone)]
pub struct Products {
    pub side: usize,
    pub z: Vec<i16>,
    pub con: Vec<i16>,
    pub dir: Vec<u8>,
    pub acc: Vec<u32>,
    pub bas: Vec<u32>,
    pub rnk: Vec<u32>,
}

/// The name of the tile, whose place plays no part.
pub const TILE: &str = "N00E000.hgt";

impl Products {
    /// The right products of these elevations.
    pub fn made_of(z: Vec<i16>, side: usize) -> Products {
        let Flood { con, spl, rnk } = flood(&z, side);
        let mut products = Products {
            side,
            dir: vec![255; z.len()],
            acc: vec![0; z.len()],
            bas: vec![0; z.len()],
            z,
            con,
            rnk,
        };
        for cell in 0..products.z.len() {
            if products.z[cell] == VOID {
                products.rnk[cell] = u32::MAX;
            } else {
                products.dir[cell] = products.direction(cell, spl[cell]);
            }
        }
        products.follow_directions();
        products
    }

    /// The first of the steepest ways down; on a flat the code of the spill parent, which is 0 at open cells.
    fn direction(&self, cell: usize, parent: u8) -> u8 {
        let mut steepest = 0;
        let mut code = parent;
        for (direction, beside) in neighbors(self.side, cell) {
            if self.z[beside] != VOID && self.con[beside] < self.con[cell] {
                let drop = u64::from(self.con[cell].abs_diff(self.con[beside]));
                let key = if direction % 2 == 0 { 2 } else { 1 } * drop * drop;
                if key > steepest {
                    steepest = key;
                    code = 1 << direction;
                }
            }
        }
        code
    }

    /// Sums and labels. Each direction leads to a cell of smaller rank, so ranks order the cells for both.
    fn follow_directions(&mut self) {
        let mut visits = vec![u32::MAX; self.z.len()];
        let mut data_cells = 0;
        let mut labels = 0;
        for cell in 0..self.z.len() {
            if self.z[cell] == VOID {
                continue;
            }
            visits[self.rnk[cell] as usize] = cell as u32;
            data_cells += 1;
            self.acc[cell] = 1;
            if self.dir[cell] == 0 {
                labels += 1;
                self.bas[cell] = labels;
            }
        }
        let visits = &visits[..data_cells];
        for cell in visits.iter().map(|&cell| cell as usize) {
            if let Some(next) = self.next(cell) {
                self.bas[cell] = self.bas[next];
            }
        }
        for cell in visits.iter().rev().map(|&cell| cell as usize) {
            if let Some(next) = self.next(cell) {
                self.acc[next] += self.acc[cell];
            }
        }
    }

    /// The cell that a cell's direction leads to.
    fn next(&self, cell: usize) -> Option<usize> {
        let code = self.dir[cell];
        neighbors(self.side, cell)
            .find(|&(direction, _)| code == 1 << direction)
            .map(|(_, beside)| beside)
    }

    /// Writes the tile, and of each product its header and its raster, into this folder.
    pub fn write(&self, folder: &Path) -> io::Result<()> {
        create_dir_all(folder)?;
        let tile: Vec<u8> = self.z.iter().flat_map(|z| z.to_be_bytes()).collect();
        write(folder.join(TILE), tile)?;
        self.write_one(folder, &CON, bytes_of_16(&self.con))?;
        self.write_one(folder, &DIR, self.dir.clone())?;
        self.write_one(folder, &ACC, bytes_of_32(&self.acc))?;
        self.write_one(folder, &BAS, bytes_of_32(&self.bas))?;
        self.write_one(folder, &RNK, bytes_of_32(&self.rnk))
    }

    fn write_one(&self, folder: &Path, pixels: &Pixels, bytes: Vec<u8>) -> io::Result<()> {
        let corner = Corner { west: 0, north: 1 };
        let header = pixels.header(self.side, corner);
        write(folder.join(pixels.name).with_extension("hdr"), header)?;
        write(folder.join(pixels.name).with_extension("bil"), bytes)
    }
}

fn bytes_of_16(numbers: &[i16]) -> Vec<u8> {
    numbers
        .iter()
        .flat_map(|number| number.to_le_bytes())
        .collect()
}

fn bytes_of_32(numbers: &[u32]) -> Vec<u8> {
    numbers
        .iter()
        .flat_map(|number| number.to_le_bytes())
        .collect()
}
