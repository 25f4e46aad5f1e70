//! The decoded rows that the plain loop rolls over a tile, and where they come from.

use crate::rules::Rule;
use crate::twin_check_io::{Files, NO_DATA, RANKED};
use std::fs::File;
use std::io::{self, Read};

/// The sample of a void, as a row has it.
pub const VOID: i32 = -32768;

/// The conditioned elevation of a void, as a row has it: no cell is lower than a neighbour that is a void.
pub const ABOVE_ALL: i32 = 1 << 20;

/// Sums of eight accumulations up to this are 32-bit numbers. No right product has more.
const LARGE: u32 = 1 << 28;

/// How many cells of a row are tested at once.
pub const BLOCK: usize = 128;

/// A row of the grid, with a void before it and one or more after it, so that whole blocks of cells can be looked at.
pub struct Row {
    side: usize,
    pub z: Vec<i32>,
    pub con: Vec<i32>,
    pub dir: Vec<u32>,
    pub acc: Vec<u32>,
    pub bas: Vec<u32>,
    pub rnk: Vec<u32>,
    /// Whether one of rules 1 to 3 fails in the row, or an accumulation is large.
    pub is_odd: bool,
    /// The first column where one of rules 1 to 3 fails, and the rule.
    pub oddity: Option<(usize, Rule)>,
}

impl Row {
    /// A row outside the grid.
    pub fn outside(side: usize) -> Row {
        let width = side.next_multiple_of(BLOCK) + 2;
        Row {
            side,
            z: vec![VOID; width],
            con: vec![ABOVE_ALL; width],
            dir: vec![0; width],
            acc: vec![0; width],
            bas: vec![0; width],
            rnk: vec![0; width],
            is_odd: false,
            oddity: None,
        }
    }

    /// Looks at rules 1 to 3 and large sums along the row, and then takes from each void what it says.
    fn settle(&mut self) {
        let side = self.side;
        self.is_odd = self.has_oddity();
        self.oddity = None;
        if self.is_odd {
            self.oddity = (0..side).find_map(|col| Some((col, self.presence_fault(col + 1)?)));
        }
        let z = &self.z[1..=side];
        let con = &mut self.con[1..=side];
        let dir = &mut self.dir[1..=side];
        for c in 0..side {
            con[c] = if z[c] == VOID { ABOVE_ALL } else { con[c] };
            dir[c] = if z[c] == VOID { 0 } else { dir[c] };
        }
    }

    fn has_oddity(&self) -> bool {
        let side = self.side;
        let (z, con, dir) = (&self.z[1..=side], &self.con[1..=side], &self.dir[1..=side]);
        let (acc, bas) = (&self.acc[1..=side], &self.bas[1..=side]);
        let rnk = &self.rnk[1..=side];
        let [no_con, no_dir, no_acc, no_bas, no_rnk] = NO_DATA;
        let mut odd = false;
        for c in 0..side {
            let blanks = u32::from(con[c] == no_con as i32)
                + u32::from(dir[c] == no_dir as u32)
                + u32::from(acc[c] == no_acc as u32)
                + u32::from(bas[c] == no_bas as u32)
                + u32::from(RANKED & (rnk[c] == no_rnk as u32));
            let is_void = z[c] == VOID;
            let two_bits = dir[c] & dir[c].wrapping_sub(1);
            odd |= blanks != if is_void { 4 + u32::from(RANKED) } else { 0 };
            odd |= !is_void & (two_bits != 0);
            odd |= acc[c] > LARGE;
        }
        odd
    }

    /// The first of rules 1 to 3 that fails at a place of the row.
    fn presence_fault(&self, place: usize) -> Option<Rule> {
        let dir = self.dir[place];
        let numbers = [dir, self.acc[place], self.bas[place], self.rnk[place]].map(i64::from);
        let is_blank = |(number, nodata): (&i64, &i64)| number == nodata;
        let con_is_blank = i64::from(self.con[place]) == NO_DATA[0];
        let count = if RANKED { 4 } else { 3 };
        let mut others = numbers[..count].iter().zip(&NO_DATA[1..]);
        if self.z[place] == VOID {
            return (!con_is_blank || !others.all(is_blank)).then_some(Rule::VoidCell);
        }
        if con_is_blank || others.any(is_blank) {
            return Some(Rule::Missing);
        }
        (dir != 0 && !dir.is_power_of_two()).then_some(Rule::BadCode)
    }
}

/// The files, of which each call reads a row.
pub struct Source {
    files: Vec<File>,
    bytes: Vec<u8>,
    side: usize,
}

impl Source {
    pub fn open(files: &Files) -> io::Result<Source> {
        let side = files.side as usize;
        let mut opened = vec![File::open(&files.tile)?];
        for product in ["con", "dir", "acc", "bas"]
            .into_iter()
            .chain(RANKED.then_some("rnk"))
        {
            opened.push(File::open(files.raster(product))?);
        }
        Ok(Source {
            files: opened,
            bytes: vec![0; 4 * side],
            side,
        })
    }

    pub fn read_row(&mut self, row: &mut Row) -> io::Result<()> {
        let byte = |bytes: [u8; 1]| u32::from(bytes[0]);
        self.decode(0, &mut row.z, |bytes| i32::from(i16::from_be_bytes(bytes)))?;
        self.decode(1, &mut row.con, |bytes| {
            i32::from(i16::from_le_bytes(bytes))
        })?;
        self.decode(2, &mut row.dir, byte)?;
        self.decode(3, &mut row.acc, u32::from_le_bytes)?;
        self.decode(4, &mut row.bas, u32::from_le_bytes)?;
        if RANKED {
            self.decode(5, &mut row.rnk, u32::from_le_bytes)?;
        }
        row.settle();
        Ok(())
    }

    fn decode<const WIDTH: usize, T>(
        &mut self,
        file: usize,
        row: &mut [T],
        number: impl Fn([u8; WIDTH]) -> T,
    ) -> io::Result<()> {
        let bytes = &mut self.bytes[..WIDTH * self.side];
        self.files[file].read_exact(bytes)?;
        let (groups, _) = bytes.as_chunks::<WIDTH>();
        for (place, group) in row[1..=self.side].iter_mut().zip(groups) {
            *place = number(*group);
        }
        Ok(())
    }
}

/// The numbers of a block of cells.
pub fn block<T>(numbers: &[T], start: usize) -> &[T; BLOCK] {
    numbers[start..start + BLOCK]
        .try_into()
        .expect("a whole block")
}
