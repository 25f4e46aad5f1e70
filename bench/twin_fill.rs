//! The twin of `drain fill`, as one writes it in plain Rust: rows are read into numbers with a void on each side, every rule but that of
//! ranks is tested along a row in loops that a compiler widens, and ranks after that. Only a row with a fault is looked at cell by cell.
//!
//! Usage: fill --side N <STREAM

mod rules;

use rules::{Rule, STEPS};
use std::io::{self, Read};
use std::process::ExitCode;

const VOID: i16 = -32768;

/// The parts of an input.
struct Parts<'a> {
    side: usize,
    z: &'a [u8],
    con: &'a [u8],
    spl: &'a [u8],
    rnk: &'a [u8],
}

impl<'a> Parts<'a> {
    fn of(side: usize, bytes: &'a [u8]) -> Parts<'a> {
        let cells = side * side;
        let (z, rest) = bytes.split_at(2 * cells);
        let (con, rest) = rest.split_at(2 * cells);
        let (spl, rnk) = rest.split_at(cells);
        Parts {
            side,
            z,
            con,
            spl,
            rnk,
        }
    }

    fn rank(&self, cell: usize) -> u32 {
        u32::from_be_bytes(self.rnk[4 * cell..][..4].try_into().unwrap())
    }
}

/// Three rows of heights, each between two voids.
type Rows = [Vec<i16>; 3];

/// Goes on to the next row: voids past the last.
fn roll(rows: &mut Rows, bytes: &[u8], row: usize) {
    rows.rotate_left(1);
    let width = rows[2].len() - 2;
    let next = bytes.chunks_exact(2 * width).nth(row);
    rows[2].fill(VOID);
    for (height, pair) in rows[2][1..]
        .iter_mut()
        .zip(next.unwrap_or(&[]).chunks_exact(2))
    {
        *height = i16::from_be_bytes([pair[0], pair[1]]);
    }
}

/// The least of three columns of three rows.
fn least_around(rows: &Rows, least: &mut [i16], across: &mut [i16]) {
    let [above, here, below] = rows;
    for (((least, a), b), c) in across.iter_mut().zip(above).zip(here).zip(below) {
        *least = *a.min(b).min(c);
    }
    let width = least.len();
    for (((least, a), b), c) in least
        .iter_mut()
        .zip(&across[..width])
        .zip(&across[1..])
        .zip(&across[2..])
    {
        *least = *a.min(b).min(c);
    }
}

/// For the codes of a row the number of the neighbour in one direction where the code names it.
fn add_parents(parents: &mut [i16], codes: &[u8], beside: &[i16], bit: u32) {
    for ((parent, code), other) in parents.iter_mut().zip(codes).zip(beside) {
        *parent |= -i16::from(*code == 1 << bit) & other;
    }
}

/// Numbers along a row.
struct Along {
    least_z: Vec<i16>,
    least_con: Vec<i16>,
    parent: Vec<i16>,
    across: Vec<i16>,
}

/// Data cells and raised cells of a row where every rule but that of ranks holds; none where one fails. `spill` becomes the codes of closed cells.
fn levels(
    z: &Rows,
    con: &Rows,
    codes: &[u8],
    spill: &mut [u8],
    along: &mut Along,
) -> Option<(u32, u32)> {
    let width = codes.len();
    least_around(z, &mut along.least_z, &mut along.across);
    least_around(con, &mut along.least_con, &mut along.across);
    along.parent.fill(0);
    for (bit, (down, right)) in (0..).zip(STEPS) {
        add_parents(&mut along.parent, codes, &con[down][right..], bit);
    }
    let (z, con) = (&z[1][1..][..width], &con[1][1..][..width]);
    let (least_z, least_con, parent) = (
        &along.least_z[..width],
        &along.least_con[..width],
        &along.parent[..width],
    );
    let spill = &mut spill[..width];
    let (mut bad, mut data, mut raised) = (false, 0, 0);
    for col in 0..width {
        let (z, con, code) = (z[col], con[col], codes[col]);
        let open = least_z[col] == VOID;
        let closed_holds = (code & code.wrapping_sub(1) == 0)
            & (code != 0)
            & (con == z.max(parent[col]))
            & (con <= z.max(least_con[col]));
        let open_holds = (code == 0) & (con == z);
        bad |= (z != VOID) & !((open & open_holds) | (!open & closed_holds));
        data += u32::from(z != VOID);
        raised += u32::from((z != VOID) & (con > z));
        spill[col] = if open { 0 } else { code };
    }
    (!bad).then_some((data, raised))
}

/// How far away the parent of each code is, 0 for other numbers.
fn steps(side: usize) -> [usize; 256] {
    let mut steps = [0usize; 256];
    for (bit, (down, right)) in STEPS.into_iter().enumerate() {
        steps[1 << bit] = (down * side + right).wrapping_sub(side + 1);
    }
    steps
}

/// Whether ranks fall to the spill parents of a row's closed cells.
fn ranks_fall(parts: &Parts<'_>, row: usize, spill: &[u8], steps: &[usize; 256]) -> bool {
    let mut falls = true;
    for (col, &code) in spill.iter().enumerate() {
        let cell = row * parts.side + col;
        falls &=
            code == 0 || parts.rank(cell.wrapping_add(steps[usize::from(code)])) < parts.rank(cell);
    }
    falls
}

/// The first rule that fails at a cell of a row.
fn fault(z: &Rows, con: &Rows, parts: &Parts<'_>, row: usize, col: usize) -> Option<Rule> {
    let (ground, level) = (z[1][col + 1], con[1][col + 1]);
    let code = parts.spl[row * parts.side + col];
    let open = z.iter().any(|row| row[col..][..3].contains(&VOID));
    if ground == VOID {
        return None;
    } else if level < ground {
        return Some(Rule::BelowGround);
    } else if open {
        return (level != ground || code != 0).then_some(Rule::OpenRaised);
    } else if !code.is_power_of_two() {
        return Some(Rule::NoSpill);
    }
    let (down, right) = STEPS[code.trailing_zeros() as usize];
    let parent = (row + down - 1) * parts.side + col + right - 1;
    if level != ground.max(con[down][col + right]) {
        Some(Rule::SpillHeight)
    } else if parts.rank(parent) >= parts.rank(row * parts.side + col) {
        Some(Rule::SpillRank)
    } else {
        let lower = con
            .iter()
            .any(|row| row[col..][..3].iter().any(|other| *other < level));
        (level > ground && lower).then_some(Rule::NotLeast)
    }
}

/// The line of the verdict, and whether it accepts.
fn judge(side: usize, bytes: &[u8]) -> (String, bool) {
    let parts = Parts::of(side, bytes);
    let steps = steps(side);
    let mut rows: [Rows; 2] =
        std::array::from_fn(|_| std::array::from_fn(|_| vec![VOID; side + 2]));
    let mut spill = vec![0; side];
    let row = || vec![0; side];
    let mut along = Along {
        least_z: row(),
        least_con: row(),
        parent: row(),
        across: vec![0; side + 2],
    };
    let (mut data, mut raised) = (0, 0);
    for row in 0..=side {
        let [z, con] = &mut rows;
        roll(z, parts.z, row);
        roll(con, parts.con, row);
        let Some(row) = row.checked_sub(1) else {
            continue;
        };
        let codes = &parts.spl[row * side..][..side];
        match levels(z, con, codes, &mut spill, &mut along) {
            Some(found) if ranks_fall(&parts, row, &spill, &steps) => {
                data += found.0;
                raised += found.1;
            }
            _ => {
                let first = (0..side).find_map(|col| Some((fault(z, con, &parts, row, col)?, col)));
                let (rule, col) = first.expect("a fault in the row");
                return (
                    format!("rejected rule={} {rule:?} row={row} col={col}", rule as u8),
                    false,
                );
            }
        }
    }
    (
        format!("accepted rows={side} cols={side} data={data} raised={raised}"),
        true,
    )
}

fn main() -> io::Result<ExitCode> {
    let words: Vec<String> = std::env::args().skip(1).collect();
    let side = match &words[..] {
        [command, flag, side] if command == "fill" && flag == "--side" => side.parse().ok(),
        _ => None,
    };
    let Some(side @ 2..=3601) = side else {
        eprintln!("usage: fill --side N <STREAM, N from 2 to 3601");
        return Ok(ExitCode::from(2));
    };
    let mut bytes = Vec::with_capacity(9 * side * side + 1);
    io::stdin()
        .lock()
        .take(9 * (side * side) as u64 + 1)
        .read_to_end(&mut bytes)?;
    if bytes.len() != 9 * side * side {
        println!("refused BadLength");
        return Ok(ExitCode::from(2));
    }
    let (line, accepts) = judge(side, &bytes);
    println!("{line}");
    Ok(ExitCode::from(u8::from(!accepts)))
}
