//! The twin of `drain make`, as quick as we can write it in plain Rust: reads one tile, makes its five products and
//! writes them with their headers. It tests nothing. It chooses ways as the program does, so both write the same bytes.
//!
//! Numbers are as wide as their pixels. Each raster is written as soon as it is made, and the next takes its memory.
//!
//! Usage: make --side N --out FOLDER TILE

mod headers;
mod twin_counts;
mod twin_flood;
mod twin_frame;
mod twin_ways;

use headers::{ACC, BAS, CON, Corner, DIR, Pixels, RNK};
use std::fs::{File, write};
use std::io::{self, BufReader, BufWriter, Read, Write};
use std::path::{Path, PathBuf};
use std::process::ExitCode;
use twin_frame::{Frame, VOID};

/// How many bytes are read or written at once.
const PART: usize = 1 << 18;

/// The elevation that has the height 0. The number of voids, one lower, becomes the greatest height.
const LOWEST: u16 = i16::MIN as u16 + 1;

/// Reads the heights of a tile.
fn heights_of(frame: Frame, tile: &str) -> io::Result<Vec<u16>> {
    let file = File::open(tile)?;
    if file.metadata()?.len() != 2 * (frame.side * frame.side) as u64 {
        return Err(io::Error::other("the tile has another length"));
    }
    let mut file = BufReader::with_capacity(PART, file);
    let mut line = vec![[0; 2]; frame.side];
    let mut heights = vec![VOID; frame.places()];
    for row in 1..=frame.side {
        file.read_exact(line.as_flattened_mut())?;
        for (height, sample) in heights[frame.cells(row)].iter_mut().zip(&line) {
            *height = u16::from_be_bytes(*sample).wrapping_sub(LOWEST);
        }
    }
    Ok(heights)
}

/// The folder of the products, and what their headers say of the tile.
struct Output {
    folder: PathBuf,
    frame: Frame,
    corner: Corner,
}

impl Output {
    /// Writes header and raster of one product.
    fn write<T: Copy, const SIZE: usize>(
        &self,
        pixels: &Pixels,
        numbers: &[T],
        bytes_of: impl Fn(T) -> [u8; SIZE],
    ) -> io::Result<()> {
        let side = self.frame.side;
        let path = self.folder.join(pixels.name);
        write(path.with_extension("hdr"), pixels.header(side, self.corner))?;
        let file = File::create(path.with_extension("bil"))?;
        let mut file = BufWriter::with_capacity(PART, file);
        let mut line = vec![[0; SIZE]; side];
        for row in 1..=side {
            for (pixel, &number) in line.iter_mut().zip(&numbers[self.frame.cells(row)]) {
                *pixel = bytes_of(number);
            }
            file.write_all(line.as_flattened())?;
        }
        file.flush()
    }
}

/// Makes the products of this terrain and writes them.
fn make(heights: Vec<u16>, output: &Output) -> io::Result<()> {
    let frame = output.frame;
    let (con, memory) = twin_flood::flood(frame, heights);
    let mut ways = twin_ways::ways_down(frame, &con, memory);
    let rnk = twin_ways::ways_along_flats(frame, &con, &mut ways);
    output.write(&CON, &con, |con| con.wrapping_add(LOWEST).to_le_bytes())?;
    drop(con);
    output.write(&DIR, &ways, |way| [twin_ways::code(way)])?;
    output.write(&RNK, &rnk, u32::to_le_bytes)?;
    let acc = twin_counts::accumulation(frame, &mut ways, rnk);
    output.write(&ACC, &acc, u32::to_le_bytes)?;
    let bas = twin_counts::labels(frame, &ways, acc);
    output.write(&BAS, &bas, u32::to_le_bytes)
}

/// The north-west corner of the tile of this name, which gives the south-west one.
fn corner_of(tile: &Path) -> Option<Corner> {
    let (latitude, others) = tile.file_name()?.to_str()?.split_at_checked(3)?;
    let south = degrees(latitude, "S")?;
    let west = degrees(others.get(..4)?, "W")?;
    Some(Corner {
        west,
        north: south + 1,
    })
}

fn degrees(text: &str, negative: &str) -> Option<i64> {
    let (letter, digits) = text.split_at_checked(1)?;
    let number: i64 = digits.parse().ok()?;
    Some(if letter.eq_ignore_ascii_case(negative) {
        -number
    } else {
        number
    })
}

fn main() -> ExitCode {
    let words: Vec<String> = std::env::args().skip(1).collect();
    let words: Vec<&str> = words.iter().map(String::as_str).collect();
    let ["make", "--side", side, "--out", folder, tile] = words[..] else {
        eprintln!("usage: make --side N --out FOLDER TILE");
        return ExitCode::from(2);
    };
    let (Ok(side @ 2..=3601), Some(corner)) = (side.parse(), corner_of(Path::new(tile))) else {
        eprintln!("a side from 2 to 3601 is needed, and a tile named as N37W105.hgt");
        return ExitCode::from(2);
    };
    let output = Output {
        folder: PathBuf::from(folder),
        frame: Frame { side },
        corner,
    };
    if let Err(error) = heights_of(output.frame, tile).and_then(|heights| make(heights, &output)) {
        eprintln!("{error}");
        return ExitCode::from(3);
    }
    println!("made rows={side} cols={side}");
    ExitCode::SUCCESS
}
