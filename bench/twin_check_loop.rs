//! A twin of `drain check`, with `--cfg audit` of `drain audit`, as a fast plain loop: no patches, and no raster in memory. Three decoded rows of each file roll
//! over the tile, with voids around them for what is outside. All rules but the last are tested for a block of cells without a branch,
//! in numbers of 32 bits that the compiler takes four at a time. Only a row with a fault is looked at again, cell by cell.

mod check_rows;
mod plain_runs;
mod rules;
mod twin_check_io;

use check_rows::{BLOCK, Row, Source, VOID, block};
use plain_runs::Flows;
use rules::{Rule, STEPS};
use std::collections::HashSet;
use std::io;
use std::process::ExitCode;
use twin_check_io::{Counts, Files, RANKED, Verdict};

/// All bits where a fact holds, none elsewhere: a number is taken without a branch.
fn mask(holds: bool) -> u32 {
    u32::from(holds).wrapping_neg()
}

/// The square of the drop to a neighbour, 0 where it isn't lower. Drops are below 2^16, so it is a number of 32 bits.
#[inline(always)]
fn square_of_drop(con: i32, neighbor: i32) -> u32 {
    let drop = (con - neighbor).max(0) as u32;
    drop.wrapping_mul(drop)
}

/// Whether a code leads down the steepest way. Given are the squares of the greatest drops along and across, and whether the code
/// leads to a cell so low. Half a square is compared where twice another would not be a number of 32 bits.
#[inline(always)]
fn is_steepest(
    [straight, across]: [u32; 2],
    code: u32,
    [to_straight, to_across]: [bool; 2],
) -> bool {
    let straight_leads = to_straight & (straight >= (across >> 1) + (across & 1));
    let across_leads = to_across & (across >> 1 >= straight);
    let is_straight = code & 0b0101_0101 != 0;
    if is_straight {
        straight_leads
    } else {
        across_leads
    }
}

/// The rows above, at and below the one that is tested.
struct Window {
    rows: [Row; 3],
    side: usize,
}

impl Window {
    /// Whether all rules but SharedLabel hold along the row; false also where it must be looked at cell by cell.
    fn holds(&self) -> bool {
        let mut blocks = (0..self.side).step_by(BLOCK);
        !self.rows.iter().any(|row| row.is_odd)
            && blocks.all(|start| {
                self.surface_holds(start) && self.directions_hold(start) && self.flows_hold(start)
            })
    }

    /// Rules 4, 5 and 9, at the cells of a block.
    fn surface_holds(&self, start: usize) -> bool {
        let here = &self.rows[1];
        let (z, con) = (block(&here.z, start + 1), block(&here.con, start + 1));
        let (mut least_z, mut least_con) = ([i32::MAX; BLOCK], [i32::MAX; BLOCK]);
        for (down, right) in STEPS {
            let row = &self.rows[down];
            let (zs, cons) = (block(&row.z, start + right), block(&row.con, start + right));
            for c in 0..BLOCK {
                least_z[c] = least_z[c].min(zs[c]);
                least_con[c] = least_con[c].min(cons[c]);
            }
        }
        let mut bad = false;
        for c in 0..BLOCK {
            let open_holds = (least_z[c] != VOID) | (con[c] == z[c]);
            let is_least = (con[c] >= z[c]) & (con[c] <= z[c].max(least_con[c]));
            bad |= (z[c] != VOID) & !(open_holds & is_least);
        }
        !bad
    }

    /// Rules 10 to 12, at the cells of a block.
    fn directions_hold(&self, start: usize) -> bool {
        let here = &self.rows[1];
        let (z, con) = (block(&here.z, start + 1), block(&here.con, start + 1));
        let (dir, rnk) = (block(&here.dir, start + 1), block(&here.rnk, start + 1));
        let mut least_z = [i32::MAX; BLOCK];
        let mut least = [[i32::MAX; BLOCK]; 2];
        let (mut next_con, mut next_rank) = ([0; BLOCK], [0; BLOCK]);
        for (bit, (down, right)) in STEPS.into_iter().enumerate() {
            let row = &self.rows[down];
            let (zs, cons) = (block(&row.z, start + right), block(&row.con, start + right));
            let ranks = block(&row.rnk, start + right);
            let least = &mut least[bit % 2];
            for c in 0..BLOCK {
                let named = mask(dir[c] == 1 << bit);
                least_z[c] = least_z[c].min(zs[c]);
                least[c] = least[c].min(cons[c]);
                next_con[c] |= named as i32 & cons[c];
                next_rank[c] |= named & ranks[c];
            }
        }
        let mut bad = false;
        for c in 0..BLOCK {
            let squares = [least[0][c], least[1][c]].map(|least| square_of_drop(con[c], least));
            let reached = [least[0][c], least[1][c]].map(|least| next_con[c] == least);
            let leads = is_steepest(squares, dir[c], reached);
            let is_nearer = !RANKED | (next_rank[c] < rnk[c]);
            let steps = (dir[c] != 0) & (next_con[c] == con[c]) & is_nearer;
            let flat_holds = if least_z[c] == VOID {
                dir[c] == 0
            } else {
                steps
            };
            let is_flat = (squares[0] | squares[1]) == 0;
            let falls = (dir[c] != 0) & (next_con[c] < con[c]);
            let holds = if is_flat { flat_holds } else { leads & falls };
            bad |= (z[c] != VOID) & !holds;
        }
        !bad
    }

    /// Rules 13 and 14, at the cells of a block.
    fn flows_hold(&self, start: usize) -> bool {
        let here = &self.rows[1];
        let (z, dir) = (block(&here.z, start + 1), block(&here.dir, start + 1));
        let (acc, bas) = (block(&here.acc, start + 1), block(&here.bas, start + 1));
        let (mut sum, mut other_label) = ([1; BLOCK], [0; BLOCK]);
        for (bit, (down, right)) in STEPS.into_iter().enumerate() {
            let row = &self.rows[down];
            let (zs, dirs) = (block(&row.z, start + right), block(&row.dir, start + right));
            let (sums, labels) = (
                block(&row.acc, start + right),
                block(&row.bas, start + right),
            );
            for c in 0..BLOCK {
                sum[c] += mask(dirs[c] == 1 << ((bit + 4) % 8)) & sums[c];
                let named = mask(dir[c] == 1 << bit) & mask(zs[c] != VOID);
                other_label[c] |= named & (labels[c] ^ bas[c]);
            }
        }
        let mut bad = false;
        for c in 0..BLOCK {
            bad |= (z[c] != VOID) & ((acc[c] != sum[c]) | (other_label[c] != 0));
        }
        !bad
    }

    /// The neighbour in this direction that has data, as a row and a place in it.
    fn beside(&self, col: usize, direction: usize) -> Option<(&Row, usize)> {
        let (down, right) = STEPS[direction];
        let row = &self.rows[down];
        (row.z[col + right] != VOID).then_some((row, col + right))
    }

    /// The data neighbour that a code names.
    fn named(&self, col: usize, code: u32) -> Option<(&Row, usize)> {
        let is_code = code.is_power_of_two() && code < 256;
        self.beside(col, is_code.then(|| code.trailing_zeros() as usize)?)
    }

    /// The key of the way down in this direction, 0 where there is none.
    fn key(&self, col: usize, direction: usize) -> i64 {
        let con = self.rows[1].con[col + 1];
        match self.beside(col, direction) {
            Some((row, place)) if row.con[place] < con => {
                let drop = i64::from(con - row.con[place]);
                if direction % 2 == 0 {
                    2 * drop * drop
                } else {
                    drop * drop
                }
            }
            _ => 0,
        }
    }

    /// The first rule that fails at a cell of the row, SharedLabel left out.
    fn fault(&self, col: usize) -> Option<Rule> {
        let here = &self.rows[1];
        match here.oddity {
            Some((first, rule)) if first == col => return Some(rule),
            _ if here.z[col + 1] == VOID => return None,
            _ => {}
        }
        let is_open = (0..8).any(|direction| self.beside(col, direction).is_none());
        let surface = self.surface_fault(col, is_open);
        surface
            .or_else(|| self.direction_fault(col, is_open))
            .or_else(|| self.flow_fault(col))
    }

    fn surface_fault(&self, col: usize, is_open: bool) -> Option<Rule> {
        let here = &self.rows[1];
        let (z, con) = (here.z[col + 1], here.con[col + 1]);
        if con < z {
            return Some(Rule::BelowGround);
        }
        if is_open && con != z {
            return Some(Rule::OpenRaised);
        }
        let is_lower = |(row, place): (&Row, usize)| con > z.max(row.con[place]);
        let not_least = (0..8)
            .filter_map(|direction| self.beside(col, direction))
            .any(is_lower);
        not_least.then_some(Rule::NotLeast)
    }

    fn direction_fault(&self, col: usize, is_open: bool) -> Option<Rule> {
        let here = &self.rows[1];
        let dir = here.dir[col + 1];
        let keys: [i64; 8] = std::array::from_fn(|direction| self.key(col, direction));
        let steepest = keys.into_iter().fold(0, i64::max);
        if steepest > 0 {
            let leads = dir != 0 && keys[dir.trailing_zeros() as usize] == steepest;
            return (!leads).then_some(Rule::Slope);
        }
        if is_open {
            return (dir != 0).then_some(Rule::OutletCode);
        }
        let steps = self.named(col, dir).is_some_and(|(row, place)| {
            let is_nearer = !RANKED || row.rnk[place] < here.rnk[col + 1];
            row.con[place] == here.con[col + 1] && is_nearer
        });
        (!steps).then_some(Rule::FlatStep)
    }

    fn flow_fault(&self, col: usize) -> Option<Rule> {
        let here = &self.rows[1];
        let inflow = |direction: usize| match self.beside(col, direction) {
            Some((row, place)) if row.dir[place] == 1 << ((direction + 4) % 8) => {
                i64::from(row.acc[place])
            }
            _ => 0,
        };
        if i64::from(here.acc[col + 1]) != 1 + (0..8).map(inflow).sum::<i64>() {
            return Some(Rule::Accumulation);
        }
        let (row, place) = self.named(col, here.dir[col + 1])?;
        (row.bas[place] != here.bas[col + 1]).then_some(Rule::Label)
    }

    /// Tests all rules along the row; the first that fails, and its column.
    fn row_fault(&self, labels: &mut HashSet<u32>) -> Option<(Rule, usize)> {
        let holds = self.holds();
        let here = &self.rows[1];
        for col in 0..self.side {
            if !holds && let Some(rule) = self.fault(col) {
                return Some((rule, col));
            }
            let is_outlet = here.z[col + 1] != VOID && here.dir[col + 1] == 0;
            if is_outlet && !labels.insert(here.bas[col + 1]) {
                return Some((Rule::SharedLabel, col));
            }
        }
        None
    }

    /// Counts the cells of the row.
    fn count(&self, counts: &mut Counts) {
        let n = self.side;
        let here = &self.rows[1];
        let (z, con, dir) = (&here.z[1..][..n], &here.con[1..][..n], &here.dir[1..][..n]);
        for c in 0..n {
            let is_data = z[c] != VOID;
            counts.data_cells += u32::from(is_data);
            counts.raised += u32::from(is_data & (con[c] > z[c]));
            counts.outlets += u32::from(is_data & (dir[c] == 0));
        }
    }
}

/// Tests the rules row by row. An audit records which way each cell leads, and finds which runs end if a rule fails; where none fails every run
/// ends, since accumulations add up.
fn judge(files: &Files) -> io::Result<Verdict> {
    let side = files.side as usize;
    let mut source = Source::open(files)?;
    let mut window = Window {
        rows: std::array::from_fn(|_| Row::outside(side)),
        side,
    };
    let mut labels = HashSet::new();
    let mut counts = Counts::default();
    let mut flows = Flows::new(side);
    let mut fault = None;
    source.read_row(&mut window.rows[2])?;
    for row in 0..side {
        window.rows.rotate_left(1);
        if row + 1 < side {
            source.read_row(&mut window.rows[2])?;
        } else {
            window.rows[2] = Row::outside(side);
        }
        if !RANKED {
            flows.push(&window.rows[1]);
        }
        if fault.is_some() {
            continue;
        }
        if let Some((rule, col)) = window.row_fault(&mut labels) {
            let (row, col) = (row as u32, col as u32);
            fault = Some(Verdict::Rejected { rule, row, col });
            if RANKED {
                break;
            }
        }
        window.count(&mut counts);
    }
    let Some(rejected) = fault else {
        return Ok(Verdict::Accepted(counts));
    };
    Ok(flows
        .first_endless()
        .map_or(rejected, |cell| Verdict::NoEnd {
            row: (cell / side) as u32,
            col: (cell % side) as u32,
        }))
}

fn main() -> ExitCode {
    twin_check_io::run(judge)
}
