"""Reads tiles, headers, rasters and lists of sinks in the forms of docs/FORMATS.md: slow and plain. Floats are fractions.

What can't be read is raised as Refused, with the words that stand behind `refused`. Elevations come from a ground: a
Mosaic of tiles, or a Dem, one raster. Each has rows and cols, the place that made rasters get, says whether elevations
are floats (has_floats) and which headers lie on it (holds), refuses bytes that are too few (judge_lengths), and has the
elevation of each cell (elevations).
"""

import math
import re
import struct
import sys
from fractions import Fraction
from functools import lru_cache

VOID = -32768
MOST_SIDE = 3601
MOST_BOX = 8
MOST_HEADER_BYTES = 65536
MOST_ROWS = 28801
# Of the width and the height of cells.
MOST_SIZE = 2**30
WHOLE_KEYS = ["NROWS", "NCOLS", "NBANDS", "NBITS", "SKIPBYTES", "BANDROWBYTES", "TOTALROWBYTES"]
PLACE_KEYS = ["ULXMAP", "ULYMAP", "XDIM", "YDIM"]
# Of the numbers of a place.
UNIT = 10**15
NEEDED_KEYS = ["NROWS", "NCOLS", *PLACE_KEYS]
WORD_KEYS = {"BYTEORDER": ["I", "M"], "LAYOUT": ["BIL", "BIP", "BSQ"]}

# Decimals of a header may have more digits than Python reads by default.
getattr(sys, "set_int_max_str_digits", int)(0)


class Refused(Exception):
    """The words of a refusal."""


# Tiles


def corner_of(name):
    """The latitude and longitude of the corner in a tile's name, None if it names no tile."""
    found = re.fullmatch(rb"([NS])([0-9]{2})([EW])([0-9]{3})\.HGT", name.upper())
    if not found:
        return None
    lat, lon = int(found[2]), int(found[4])
    if found[1] == b"S":
        lat = -lat
    if found[3] == b"W":
        lon = -lon
    signed_zero = (found[1] == b"S" and lat == 0) or (found[3] == b"W" and lon == 0)
    return None if signed_zero or not -90 <= lat <= 89 or not -180 <= lon <= 179 else (lat, lon)


def name_of(corner):
    """The name of the tile at this corner."""
    lat, lon = corner
    return f"{'NS'[lat < 0]}{abs(lat):02d}{'EW'[lon < 0]}{abs(lon):03d}.hgt"


class Mosaic:
    """The box of the tiles with these names, and its elevations once their bytes are put in."""

    has_floats = False

    def __init__(self, side, names):
        self.side, self.corners, self.z = side, [], {}
        if not 2 <= side <= MOST_SIDE:
            raise Refused("BadSide")
        for place, name in enumerate(names):
            corner = corner_of(name)
            if corner is None:
                raise Refused(f"BadName {place}")
            self.corners.append(corner)
        if not names:
            raise Refused("NoTiles")
        for place, corner in enumerate(self.corners):
            if corner in self.corners[:place]:
                raise Refused(f"RepeatedTile {name_of(corner)}")
        lats, lons = zip(*self.corners)
        self.west, self.north = min(lons), max(lats) + 1
        down, across = self.north - min(lats), max(lons) + 1 - self.west
        if max(down, across) > MOST_BOX:
            raise Refused("BoxTooLarge")
        self.rows, self.cols = down * (side - 1) + 1, across * (side - 1) + 1
        spacing = UNIT // (side - 1)
        self.place = [self.west * UNIT, self.north * UNIT, spacing, spacing]

    def holds(self, header):
        """Whether a raster with this header lies where the mosaic does."""
        step = Fraction(1, self.side - 1)
        corner = max(abs(header.ulx - self.west), abs(header.uly - self.north))
        return corner <= Fraction(1, 10**6) and max(abs(header.xdim - step), abs(header.ydim - step)) <= Fraction(1, 10**9)

    def judge_lengths(self, tiles):
        for corner, tile in zip(self.corners, tiles):
            if len(tile) != 2 * self.side**2:
                raise Refused(f"BadTileLength {name_of(corner)}")

    def values_at(self, tiles):
        """The data values that tiles give to each cell, as a set in each place."""
        found = [set() for _ in range(self.rows * self.cols)]
        for (lat, lon), tile in zip(self.corners, tiles):
            samples = struct.unpack(f">{self.side**2}h", tile)
            top, left = (self.north - lat - 1) * (self.side - 1), (lon - self.west) * (self.side - 1)
            for place, sample in enumerate(samples):
                if sample != VOID:
                    found[(top + place // self.side) * self.cols + left + place % self.side].add(sample)
        return found

    def elevations(self, tiles):
        """The elevation of each cell in row order, None at voids."""
        z = []
        for cell, values in enumerate(self.values_at(tiles)):
            if len(values) > 1:
                raise Refused(f"SeamMismatch row={cell // self.cols} col={cell % self.cols}")
            z.append(min(values) if values else None)
        return z


# Floats of 32 bits

# What they count as where they are no voids: above and below any height, as the floats behind the greatest would.
INFINITY, NAN = Fraction(2**128), Fraction(3 * 2**127)


def fraction_of(number):
    """The fraction that a float is: 0 for both zeros, one for every NaN."""
    if math.isnan(number):
        return NAN
    return Fraction(number) if math.isfinite(number) else INFINITY if number > 0 else -INFINITY


def float_at(pattern):
    """The fraction of the float with these 32 bits."""
    return fraction_of(struct.unpack("<f", struct.pack("<I", pattern))[0])


def pattern_of(number):
    """The 32 bits of the float that is this fraction, without a sign where it is 0 or NaN."""
    if abs(number) >= INFINITY:
        return 0x7FC00000 if number == NAN else 0x7F800000 if number > 0 else 0xFF800000
    return struct.unpack("<I", struct.pack("<f", float(number)))[0]


def nearest_float(number):
    """The float nearest to a fraction, of two the one with an even pattern."""
    size = abs(number)
    # Roundings on the way come to a float next to it at most, and the infinity is next to the greatest.
    near = pattern_of(min(size, float_at(0x7F7FFFFF)))
    _, _, found = min((abs(float_at(it) - size), it % 2, float_at(it)) for it in range(max(near - 1, 0), near + 2))
    return found if number >= 0 else -found


@lru_cache
def float_of(word):
    """The float nearest to a decimal; None if the word is no number."""
    found = re.fullmatch(r"([+-]?)(?:(inf|infinity|nan)|(([0-9]*)\.?([0-9]*))(?:e([+-]?[0-9]+))?)", word.lower())
    if not found or found[3] in ("", "."):
        return None
    sign = -1 if found[1] == "-" else 1
    if found[2]:
        return NAN if found[2] == "nan" else sign * INFINITY
    digits, power = int(found[4] + found[5]), int(found[6] or 0) - len(found[5])
    # Past these powers it is 0 or an infinity, whatever the digits are.
    power = max(min(power, 100), -100 - len(found[3])) if digits else 0
    return nearest_float(sign * digits * Fraction(10) ** power)


# Headers


def decimal_of(word):
    """The number of a decimal, None if it is none."""
    found = re.fullmatch(r"([+-]?)([0-9]*)\.?([0-9]*)(?:[eE]([+-]?[0-9]{1,3}))?", word)
    if not found or not found[2] + found[3]:
        return None
    number = Fraction(int(found[2] + found[3]), 10 ** len(found[3])) * Fraction(10) ** int(found[4] or 0)
    return None if number > 10**10 else -number if found[1] == "-" else number


def kept(number):
    """A decimal without its places past the fifteenth."""
    units = abs(number) * 10**15 // 1
    return Fraction(units if number > 0 else -units, 10**15)


def value_of(key, word, has_floats):
    """What a keyword's value means, None where the keyword has no such value."""
    if key == "PIXELTYPE":
        return word.upper()
    if key == "NODATA" and has_floats:
        return float_of(word)
    if key in WORD_KEYS:
        return word.upper() if word.upper() in WORD_KEYS[key] else None
    if key in WHOLE_KEYS:
        number = int(word) if re.fullmatch("[0-9]+", word) else None
        most, least = (MOST_ROWS, 1) if key in ("NROWS", "NCOLS") else (2**32 - 1, 0)
        return number if number is not None and least <= number <= most else None
    number = decimal_of(word)
    if number is None or key == "NODATA":
        return int(number) if number is not None and number.denominator == 1 else None
    return kept(number)


def header_words(text):
    """Of each line with a keyword its number, the keyword, and the word behind it, None if there is none."""
    for number, line in enumerate(text.decode("latin-1").split("\n"), 1):
        words = [word for word in re.split("[ \t]+", line[:-1] if line.endswith("\r") else line) if word]
        key = re.sub("[a-z]", lambda letter: letter[0].upper(), words[0]) if words else None
        if key in ["PIXELTYPE", "NODATA", *WORD_KEYS, *WHOLE_KEYS, *PLACE_KEYS]:
            yield number, key, words[1] if len(words) > 1 else None


def says_floats(text):
    """Whether the first line on the pixel type says floats."""
    types = (word for _, key, word in header_words(text) if key == "PIXELTYPE")
    return (next(types, None) or "").upper() == "FLOAT"


def header_fields(text, has_floats):
    """What each line of a header says, by its keyword."""
    if len(text) > MOST_HEADER_BYTES:
        raise Refused("TooLong")
    fields = {}
    for number, key, word in header_words(text):
        if key in fields:
            raise Refused(f"RepeatedKey {number}")
        fields[key] = value_of(key, word, has_floats) if word is not None else None
        if fields[key] is None:
            raise Refused(f"BadValue {number}")
    return fields


class Header:
    """What a header says, of floats or of whole numbers, with the values that hold where a keyword is absent."""

    def __init__(self, text, has_floats=False):
        fields = header_fields(text, has_floats)
        for key in NEEDED_KEYS:
            if key not in fields:
                raise Refused(f"MissingKey {key}")
        self.rows, self.cols, self.ulx, self.uly, self.xdim, self.ydim = (fields[key] for key in NEEDED_KEYS)
        if fields.get("NBANDS", 1) != 1:
            raise Refused("NotOneBand")
        self.bits, self.has_floats = fields.get("NBITS", 8), has_floats
        if self.bits not in ((32,) if has_floats else (8, 16, 32)):
            raise Refused("BadBits")
        signed = fields.get("PIXELTYPE", "SIGNEDINT" if self.bits == 16 else "UNSIGNEDINT")
        if signed not in (("FLOAT",) if has_floats else ("SIGNEDINT", "UNSIGNEDINT")):
            raise Refused("BadPixelType")
        least = self.cols * self.bits // 8
        self.skip = fields.get("SKIPBYTES", 0)
        self.stride = fields.get("TOTALROWBYTES", fields.get("BANDROWBYTES", least))
        if self.stride < least:
            raise Refused("RowTooShort")
        form = "f" if has_floats else {8: "b", 16: "h", 32: "i"}[self.bits]
        order = "<" if fields.get("BYTEORDER", "I") == "I" else ">"
        self.form = order + (form.upper() if signed == "UNSIGNEDINT" else form)
        self.nodata = fields.get("NODATA")

    def nodata_or(self, default):
        """The no-data number of a product, which has this default where its pixels are whole numbers."""
        return self.nodata if self.nodata is not None else NAN if self.has_floats else default

    def pixels(self, body):
        """The numbers of a raster in row order, None where a byte of some pixel is missing."""
        size = self.bits // 8
        if len(body) < self.skip + (self.rows - 1) * self.stride + self.cols * size:
            return None
        starts = (self.skip + row * self.stride for row in range(self.rows))
        rows = (body[start : start + self.cols * size] for start in starts)
        numbers = [number for row in rows for (number,) in struct.iter_unpack(self.form, row)]
        return [fraction_of(number) for number in numbers] if self.has_floats else numbers


# One raster of elevations


class Dem:
    """The raster of elevations with this header."""

    def __init__(self, text):
        self.has_floats = says_floats(text)
        try:
            self.header = Header(text, self.has_floats)
        except Refused as fault:
            raise Refused(f"BadHeader dem {fault}") from None
        if self.header.xdim <= 0 or self.header.ydim <= 0:
            raise Refused("BadPixelSize dem")
        self.rows, self.cols = self.header.rows, self.header.cols
        self.place = [int(UNIT * it) for it in (self.header.ulx, self.header.uly, self.header.xdim, self.header.ydim)]

    def holds(self, header):
        """Whether a raster with this header lies on it: the corner within a hundredth of a pixel, and no more than another
        hundredth that the sizes of pixels add up to over all columns, and over all rows."""
        across = [header.ulx - self.header.ulx, self.cols * (header.xdim - self.header.xdim)]
        down = [header.uly - self.header.uly, self.rows * (header.ydim - self.header.ydim)]
        return max(map(abs, across)) <= self.header.xdim / 100 and max(map(abs, down)) <= self.header.ydim / 100

    def judge_lengths(self, body):
        if self.header.pixels(body) is None:
            raise Refused("RasterShort dem")

    def elevations(self, body):
        """The elevation of each cell in row order, None where the pixel is the header's no-data number, if it has one, or
        a float that is no height."""
        numbers = self.header.pixels(body)
        return [None if it == self.header.nodata or (self.has_floats and abs(it) >= INFINITY) else it for it in numbers]


# Lists of sinks, and spacings


def pairs_of(text, least, most, name):
    """The two whole numbers of each line that isn't empty, after its line number; a line without two such numbers has this
    refusal."""
    pairs = []
    for number, line in enumerate(text.decode("latin-1").split("\n"), 1):
        words = [word for word in re.split("[ \t]+", line[:-1] if line.endswith("\r") else line) if word]
        if not words:
            continue
        if len(words) != 2 or not all(re.fullmatch("[0-9]+", word) and least <= int(word) <= most for word in words):
            raise Refused(f"{name} {number}")
        pairs.append((number, int(words[0]), int(words[1])))
    return pairs


def listed_sinks(text):
    """The cells that a list of sinks names, each a row and a column after its line number."""
    return pairs_of(text, 0, 2**32 - 1, "BadSinkLine")


def spacings_of(given, rows):
    """The width and the height of the cells of each row: 1 and 1 where nothing is given, the same pair in each row, or the
    lines of a text."""
    if not isinstance(given, bytes):
        return [given or (1, 1)] * rows
    listed = [(width, height) for _, width, height in pairs_of(given, 1, MOST_SIZE, "BadSpacingLine")]
    if len(listed) != rows:
        raise Refused(f"SpacingRows {len(listed)}")
    return listed


def spacing_of(word):
    """The two whole numbers of `W,H`: decimals, times the least power of ten that makes both whole. Another word is a
    ValueError."""
    found = re.fullmatch(r"([0-9]+\.?[0-9]*|\.[0-9]+),([0-9]+\.?[0-9]*|\.[0-9]+)", word)
    sizes = [Fraction(f"0{size}") for size in found.groups()] if found else []
    while any(size.denominator > 1 for size in sizes):
        sizes = [10 * size for size in sizes]
    if not sizes or not all(1 <= size <= MOST_SIZE for size in sizes):
        raise ValueError(f"{word}: no width and height")
    return tuple(map(int, sizes))
