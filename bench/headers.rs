//! The headers of the rasters of a tile's products, as this program writes them.

/// A product's pixels: its name, their bits, whether they are signed, and the no-data number.
pub struct Pixels {
    pub name: &'static str,
    bits: usize,
    signed: bool,
    nodata: i64,
}

pub const CON: Pixels = pixels("con", 16, true, -32768);
pub const DIR: Pixels = pixels("dir", 8, false, 255);
pub const ACC: Pixels = pixels("acc", 32, false, 0);
pub const BAS: Pixels = pixels("bas", 32, false, 0);
pub const RNK: Pixels = pixels("rnk", 32, false, 4294967295);

const fn pixels(name: &'static str, bits: usize, signed: bool, nodata: i64) -> Pixels {
    Pixels {
        name,
        bits,
        signed,
        nodata,
    }
}

/// A degree in units of 10^-15.
const DEGREE: u64 = 1_000_000_000_000_000;

/// The north-west corner of a tile, in whole degrees.
#[derive(Clone, Copy)]
pub struct Corner {
    pub west: i64,
    pub north: i64,
}

impl Pixels {
    /// The text of the header of this product of a tile.
    pub fn header(&self, side: usize, Corner { west, north }: Corner) -> String {
        let bits = self.bits;
        let row = side * bits / 8;
        let kind = if self.signed {
            "SIGNEDINT"
        } else {
            "UNSIGNEDINT"
        };
        let spacing = DEGREE / (side as u64 - 1);
        let step = format!("{}.{:015}", spacing / DEGREE, spacing % DEGREE);
        format!(
            "BYTEORDER I\nLAYOUT BIL\nNROWS {side}\nNCOLS {side}\nNBANDS 1\nNBITS {bits}\nBANDROWBYTES {row}\n\
             TOTALROWBYTES {row}\nSKIPBYTES 0\nPIXELTYPE {kind}\nULXMAP {west}.{zero:015}\n\
             ULYMAP {north}.{zero:015}\nXDIM {step}\nYDIM {step}\nNODATA {nodata}\n",
            zero = 0,
            nodata = self.nodata
        )
    }
}
