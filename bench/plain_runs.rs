//! Which way each cell leads, a byte a cell, and the first run without an end.

use crate::check_rows::{Row, VOID};

/// The rows down and the columns right to the neighbours, in the order of their codes.
const STEPS: [(isize, isize); 8] = [
    (0, 1),
    (1, 1),
    (1, 0),
    (1, -1),
    (0, -1),
    (-1, -1),
    (-1, 0),
    (-1, 1),
];

/// In place of a code: no data.
const NONE: u8 = 3;

/// In place of a code: the run is known to end, at first where the code is 0.
const ENDS: u8 = 0;

/// The codes of the rows so far.
pub struct Flows {
    codes: Vec<u8>,
    side: usize,
}

impl Flows {
    pub fn new(side: usize) -> Flows {
        Flows {
            codes: Vec::new(),
            side,
        }
    }

    pub fn push(&mut self, row: &Row) {
        let cells = row.z[1..=self.side].iter().zip(&row.dir[1..=self.side]);
        self.codes
            .extend(cells.map(|(&z, &dir)| if z == VOID { NONE } else { dir as u8 }));
    }

    /// The first data cell whose run doesn't end. Each cell is passed at most twice.
    pub fn first_endless(&mut self) -> Option<usize> {
        for cell in 0..self.codes.len() {
            if self.codes[cell] == NONE {
                continue;
            }
            let Some(steps) = self.steps_to_end(cell) else {
                return Some(cell);
            };
            let mut here = cell;
            for _ in 0..steps {
                let next = self.next(here).unwrap_or(here);
                self.codes[here] = ENDS;
                here = next;
            }
        }
        None
    }

    /// How many steps lead to a cell whose run is known to end.
    fn steps_to_end(&self, cell: usize) -> Option<usize> {
        let mut here = cell;
        for steps in 0..=self.codes.len() {
            if self.codes[here] == ENDS {
                return Some(steps);
            }
            here = self.next(here)?;
        }
        None
    }

    /// The data cell that a cell's code names.
    fn next(&self, cell: usize) -> Option<usize> {
        let code = self.codes[cell];
        let direction = code.is_power_of_two().then(|| code.trailing_zeros())? as usize;
        let (down, right) = STEPS[direction];
        let row = (cell / self.side).checked_add_signed(down)?;
        let col = (cell % self.side).checked_add_signed(right)?;
        let next = row * self.side + col;
        let is_inside = col < self.side && next < self.codes.len();
        (is_inside && self.codes[next] != NONE).then_some(next)
    }
}
