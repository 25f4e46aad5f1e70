"""Rasters of a union, by BIL files and by GDAL, and boxes of cells of them."""

import sys
from collections.abc import Iterator, Sequence
from dataclasses import dataclass
from decimal import Decimal, InvalidOperation
from pathlib import Path
from typing import Literal, Protocol

from places import Box

NO_DATA = {"con": -32768, "dir": 255, "acc": 0, "bas": 0}
MOST_HEADER_BYTES, PIXEL_LIMIT = 65_536, 2**32
STRIP_BYTES, CACHE_BYTES = 4_000_000, 64_000_000
"""About how many bytes GDAL reads at once, and keeps."""


class CannotCut(Exception):
    """Why a raster can't be cut."""


@dataclass(frozen=True)
class Form:
    """What the bytes of a raster mean, and where it lies."""

    rows: int
    cols: int
    bits: int
    is_signed: bool
    order: str
    """I for the least significant byte first, M for the most."""

    nodata: int | None
    """None of a DEM that has no such number."""

    west: Decimal
    north: Decimal
    """The centre of the upper left pixel."""

    width: Decimal
    height: Decimal
    """Those of a pixel."""

    @property
    def size(self) -> int:
        return self.bits // 8

    def blank(self, cells: int) -> bytes:
        """This many cells without data."""
        if not cells:
            return b""
        if self.nodata is None:
            raise CannotCut("cells beyond a raster without a no-data number")
        order: Literal["little", "big"] = "little" if self.order == "I" else "big"
        try:
            return self.nodata.to_bytes(self.size, order, signed=self.is_signed) * cells
        except OverflowError as error:
            raise CannotCut(f"pixels of {self.bits} bits don't hold the no-data number {self.nodata}") from error

    def header(self) -> str:
        kind = "SIGNEDINT" if self.is_signed else "UNSIGNEDINT"
        lines = {"BYTEORDER": self.order, "LAYOUT": "BIL", "NROWS": self.rows, "NCOLS": self.cols, "NBANDS": 1}
        lines |= {"NBITS": self.bits, "PIXELTYPE": kind}
        lines |= {} if self.nodata is None else {"NODATA": self.nodata}
        place = {"ULXMAP": self.west, "ULYMAP": self.north, "XDIM": self.width, "YDIM": self.height}
        lines |= {key: f"{number:.15f}" for key, number in place.items()}
        return "".join(f"{key} {value}\n" for key, value in lines.items())


class Raster(Protocol):
    """A raster of the union."""

    form: Form
    files: Sequence[Path]
    """Those that are read for it; the first one names it."""

    def rows(self, box: Box) -> Iterator[bytes]:
        """The bytes of each row of a box that lies in it."""


def whole(number: Decimal | float, path: Path) -> int:
    """The no-data number of a raster."""
    exact = Decimal(number)
    if not exact.is_finite() or exact.copy_abs() >= PIXEL_LIMIT or exact != int(exact):
        raise CannotCut(f"{path}: a NODATA that isn't whole, or has more than 32 bits: {number}")
    return int(exact)


class BilRaster:
    """A BIL file. A row is held at a time."""

    def __init__(self, path: Path, name: str) -> None:
        self.path = path
        self.files: Sequence[Path] = [path, path.with_suffix(".hdr")]
        keys = header_keys(path.with_suffix(".hdr"))
        nodata = keys.get("NODATA", NO_DATA.get(name))
        try:
            bits = int(keys.get("NBITS", "8"))
            rows, cols = int(keys["NROWS"]), int(keys["NCOLS"])
            kind = keys.get("PIXELTYPE", "SIGNEDINT" if bits == 16 else "UNSIGNEDINT")
            order, number = keys.get("BYTEORDER", "I"), None if nodata is None else Decimal(nodata)
            west, north, width, height = (Decimal(keys[key]) for key in ("ULXMAP", "ULYMAP", "XDIM", "YDIM"))
            self.skipped = int(keys.get("SKIPBYTES", "0"))
            self.row_bytes = int(keys.get("TOTALROWBYTES", keys.get("BANDROWBYTES", str(cols * bits // 8))))
        except (KeyError, ValueError, InvalidOperation) as error:
            raise CannotCut(f"{path.with_suffix('.hdr')}: no header of a raster: {error}") from error
        if bits not in (8, 16, 32) or kind not in ("SIGNEDINT", "UNSIGNEDINT") or keys.get("NBANDS", "1") != "1":
            raise CannotCut(f"{path}: not one band of whole numbers of 8, 16 or 32 bits")
        self.form = Form(
            rows,
            cols,
            bits,
            kind == "SIGNEDINT",
            order,
            None if number is None else whole(number, path),
            west,
            north,
            width,
            height,
        )

    def rows(self, box: Box) -> Iterator[bytes]:
        size = self.form.size
        with open(self.path, "rb", buffering=0) as file:
            for row in range(box.row, box.row + box.rows):
                file.seek(self.skipped + row * self.row_bytes + box.col * size)
                pixels = file.read(box.cols * size)
                if len(pixels) < box.cols * size:
                    raise CannotCut(f"{self.path}: row {row} is cut short")
                yield pixels


class GdalRaster:
    """A raster that GDAL reads. Some rows are held at a time."""

    def __init__(self, path: Path, name: str) -> None:
        from osgeo import gdal

        gdal.UseExceptions()
        gdal.SetCacheMax(CACHE_BYTES)
        kinds = {gdal.GDT_Byte: (8, False), gdal.GDT_UInt16: (16, False), gdal.GDT_Int16: (16, True)}
        kinds |= {gdal.GDT_UInt32: (32, False), gdal.GDT_Int32: (32, True)}
        try:
            self.source = gdal.Open(str(path))
            self.files: Sequence[Path] = gdal_files(path)
        except RuntimeError as error:
            raise CannotCut(f"{path}: {error}") from error
        band = self.source.GetRasterBand(1)
        place = self.source.GetGeoTransform(can_return_null=True)
        if band.DataType not in kinds or self.source.RasterCount != 1:
            kind = gdal.GetDataTypeName(band.DataType)
            raise CannotCut(f"{path}: {self.source.RasterCount} bands of {kind}; one of whole numbers is needed")
        if not place or place[2] or place[4] or place[5] >= 0:
            raise CannotCut(f"{path}: it has no place on a map, with north above")
        if band.GetScale() not in (None, 1) or band.GetOffset() not in (None, 0):
            raise CannotCut(f"{path}: a scale or an offset; pixels are read as they are")
        if band.GetMaskFlags() & gdal.GMF_PER_DATASET:
            raise CannotCut(f"{path}: a mask; cells without data need a NODATA number")
        nodata = NO_DATA.get(name) if band.GetNoDataValue() is None else whole(band.GetNoDataValue(), path)
        west, north = Decimal(place[0] + place[1] / 2), Decimal(place[3] + place[5] / 2)
        rows, cols = self.source.RasterYSize, self.source.RasterXSize
        order = "I" if sys.byteorder == "little" else "M"
        self.form = Form(
            rows, cols, *kinds[band.DataType], order, nodata, west, north, Decimal(place[1]), Decimal(-place[5])
        )

    def rows(self, box: Box) -> Iterator[bytes]:
        width = box.cols * self.form.size
        strip = max(1, STRIP_BYTES // width)
        for row in range(box.row, box.row + box.rows, strip):
            rows = min(strip, box.row + box.rows - row)
            pixels = self.source.GetRasterBand(1).ReadRaster(box.col, row, box.cols, rows)
            yield from (bytes(pixels[i * width : (i + 1) * width]) for i in range(rows))


def gdal_files(path: Path) -> list[Path]:
    """The files that GDAL reads for a raster: of a VRT its parts too, and those of VRTs among them."""
    from osgeo import gdal

    listed = [Path(name) for name in gdal.Open(str(path)).GetFileList()]
    nested = [part for file in listed if file != path and file.suffix == ".vrt" for part in gdal_files(file)]
    return list(dict.fromkeys([path, *listed, *nested]))


def header_keys(path: Path) -> dict[str, str]:
    """The keywords of a header and their values, in capitals."""
    with open(path, encoding="latin-1") as file:
        lines = [line.split() for line in file.read(MOST_HEADER_BYTES).splitlines()]
    keys: dict[str, str] = {}
    for words in lines:
        if len(words) > 1 and keys.setdefault(words[0].upper(), words[1].upper()) != words[1].upper():
            raise CannotCut(f"{path}: {words[0]} stands twice")
    return keys


def opened(folder: Path, name: str) -> Raster:
    """The raster of this name in a folder."""
    for ending in ("bil", "vrt", "tif"):
        if (path := folder / f"{name}.{ending}").is_file():
            return raster_at(path, name)
    raise CannotCut(f"no {name}.bil, {name}.vrt or {name}.tif in {folder}")


def raster_at(path: Path, name: str = "dem") -> Raster:
    if path.suffix == ".bil":
        return BilRaster(path, name)
    return GdalRaster(path, name)


def cut(raster: Raster, mosaic: Box) -> Iterator[bytes]:
    """The rows of a mosaic: those of the raster, and no-data numbers where it has none."""
    form = raster.form
    top, left = max(mosaic.row, 0), max(mosaic.col, 0)
    end, right = min(mosaic.row + mosaic.rows, form.rows), min(mosaic.col + mosaic.cols, form.cols)
    if top >= end or left >= right:
        top, end, left, right = mosaic.row, mosaic.row, mosaic.col, mosaic.col
    west, east = form.blank(left - mosaic.col), form.blank(mosaic.col + mosaic.cols - right)
    yield from (form.blank(mosaic.cols) for _ in range(mosaic.row, top))
    if top < end:
        for pixels in raster.rows(Box(top, left, end - top, right - left)):
            yield west + pixels + east
    yield from (form.blank(mosaic.cols) for _ in range(end, mosaic.row + mosaic.rows))
