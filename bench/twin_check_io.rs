//! What the twins of `drain check` and `drain audit` share: the arguments, the rules' names, and the one line and exit
//! status of the answer. They take one tile, and rasters in the form that this program writes; headers they don't read.
//! With `--cfg audit` the command is `audit`.

use crate::rules::Rule;
use std::io;
use std::path::{Path, PathBuf};
use std::process::ExitCode;

/// The no-data numbers, in the order con, dir, acc, bas, rnk.
pub const NO_DATA: [i64; 5] = [-32768, 255, 0, 0, 4294967295];

/// The command that the twin is of.
pub const COMMAND: &str = if cfg!(audit) { "audit" } else { "check" };

/// Whether ranks are checked.
#[allow(dead_code)]
pub const RANKED: bool = !cfg!(audit);

/// How many cells have data, are raised, and are outlets.
#[derive(Clone, Copy, Default)]
pub struct Counts {
    pub data_cells: u32,
    pub raised: u32,
    pub outlets: u32,
}

pub enum Verdict {
    Accepted(Counts),
    Rejected {
        rule: Rule,
        row: u32,
        col: u32,
    },
    /// The first run without an end; of an audit alone.
    #[allow(dead_code)]
    NoEnd {
        row: u32,
        col: u32,
    },
}

/// The files of a check.
pub struct Files {
    pub side: u32,
    pub tile: PathBuf,
    folder: PathBuf,
}

impl Files {
    /// The raster of this product.
    pub fn raster(&self, product: &str) -> PathBuf {
        self.folder.join(format!("{product}.bil"))
    }

    fn from_words() -> Option<Files> {
        let words: Vec<String> = std::env::args().skip(1).collect();
        let words: Vec<&str> = words.iter().map(String::as_str).collect();
        match words[..] {
            [command, "--side", side, "--products", folder, tile] if command == COMMAND => {
                Some(Files {
                    side: side.parse().ok()?,
                    tile: Path::new(tile).to_path_buf(),
                    folder: Path::new(folder).to_path_buf(),
                })
            }
            _ => None,
        }
    }
}

/// Runs a twin: checks the files, prints the line and gives the exit status.
pub fn run(judge: impl FnOnce(&Files) -> io::Result<Verdict>) -> ExitCode {
    let Some(files) = Files::from_words() else {
        eprintln!("usage: {COMMAND} --side N --products FOLDER TILE");
        return ExitCode::from(2);
    };
    let side = files.side;
    match judge(&files) {
        Ok(Verdict::Accepted(counts)) => {
            let Counts {
                data_cells,
                raised,
                outlets,
            } = counts;
            println!(
                "accepted rows={side} cols={side} data={data_cells} raised={raised} outlets={outlets}"
            );
            ExitCode::from(0)
        }
        Ok(Verdict::Rejected { rule, row, col }) => {
            println!("rejected rule={} {rule:?} row={row} col={col}", rule as u8);
            ExitCode::from(1)
        }
        Ok(Verdict::NoEnd { row, col }) => {
            println!("rejected NoEnd row={row} col={col}");
            ExitCode::from(1)
        }
        Err(error) => {
            eprintln!("cannot read the files: {error}");
            ExitCode::from(3)
        }
    }
}
