"""Small sets that are written out by hand, of tiles or of one raster of elevations, and runs of the program on them."""

import re
import struct
import subprocess
from collections.abc import Mapping, Sequence
from dataclasses import dataclass, field, replace
from pathlib import Path
from typing import Self

# The form of a product's pixels for struct, and the lines of its header on them.
Pixels = Mapping[str, tuple[str, str]]
PIXELS: Pixels = {
    "con": ("h", "NBITS 16\nPIXELTYPE SIGNEDINT\n"),
    "dir": ("B", "NBITS 8\n"),
    "acc": ("I", "NBITS 32\nPIXELTYPE UNSIGNEDINT\n"),
    "bas": ("I", "NBITS 32\nPIXELTYPE UNSIGNEDINT\n"),
    "rnk": ("I", "NBITS 32\nPIXELTYPE UNSIGNEDINT\n"),
}
VOID, NO_RANK = -32768, 4294967295
TILE = "N00E000.hgt"
STATUSES = {"accepted": 0, "made": 0, "rejected": 1, "refused": 2, "failed": 3}


def grid(rows: int, cols: int, ulx: object = 0, uly: object = 1, xdim: object = 0.5, ydim: object = None) -> str:
    """The lines of a header on the grid, with square cells unless a height is given."""
    height = xdim if ydim is None else ydim
    return f"NROWS {rows}\nNCOLS {cols}\nULXMAP {ulx}\nULYMAP {uly}\nXDIM {xdim}\nYDIM {height}\n"


def tile_grid(side: int, ulx: object = 0, uly: object = 1) -> str:
    """The lines on the grid of a tile with this corner."""
    return grid(side, side, ulx, uly, xdim=f"{10**15 // (side - 1) / 10**15:.15f}")


def put_line(header: str, line: str) -> str:
    """A header with this line in place of that with its keyword, or as the last one."""
    keyword = line.split(" ")[0]
    lines = header.splitlines()
    if all(it.split(" ")[0] != keyword for it in lines):
        lines.append(line)
    return "".join(f"{line if it.split(' ')[0] == keyword else it}\n" for it in lines)


@dataclass(frozen=True, kw_only=True)
class Products:
    """The numbers of the products, and what a run is given besides the elevations."""

    numbers: Mapping[str, Sequence[float]]
    grid: str
    sinks: str = ""
    headers: dict[str, str] = field(default_factory=dict)
    lengths: dict[str, int] = field(default_factory=dict)
    pixels: Pixels = field(default_factory=lambda: PIXELS)

    def changed(self, **changes: dict[int, float]) -> Self:
        """The same with other numbers at some places of products."""
        numbers = {
            product: [changes.get(product, {}).get(place, it) for place, it in enumerate(its)]
            for product, its in self.numbers.items()
        }
        return replace(self, numbers=numbers)

    def headed(self, **grids: str) -> Self:
        """The same with these lines on the grid in the headers of some products."""
        headers = {product: f"{lines}{self.pixels[product][1]}" for product, lines in grids.items()}
        return replace(self, headers={**self.headers, **headers})

    def header_of(self, product: str) -> str:
        return self.headers.get(product, self.grid + self.pixels[product][1])

    def with_line(self, file: str, line: str) -> Self:
        """The same with this line in the header of a product, in place of that with its keyword or as the last one."""
        return replace(self, headers={**self.headers, file: put_line(self.header_of(file), line)})

    def longer(self, **lengths: int) -> Self:
        """The same with some bytes more, or fewer, in rasters, in the tile of a place (`tile0`) or in `dem`."""
        return replace(self, lengths={**self.lengths, **lengths})

    def listing(self, sinks: str) -> Self:
        return replace(self, sinks=sinks)

    def with_length(self, name: str, body: bytes) -> bytes:
        more = self.lengths.get(name, 0)
        return body[: len(body) + more] if more < 0 else body + bytes(more)

    def write_products(self, folder: Path) -> list[str]:
        """Writes the products and the list of sinks, and returns the arguments that name them."""
        for product, (form, _) in self.pixels.items():
            numbers = self.numbers[product]
            (folder / f"{product}.hdr").write_text(self.header_of(product), newline="")
            body = struct.pack(f"<{len(numbers)}{form}", *numbers)
            (folder / f"{product}.bil").write_bytes(self.with_length(product, body))
        (folder / "sinks.txt").write_text(self.sinks, newline="")
        return ["--products", str(folder), "--sinks", str(folder / "sinks.txt")]


@dataclass(frozen=True, kw_only=True)
class Set(Products):
    """Products of tiles, which have names."""

    side: int
    tiles: list[tuple[str, list[int]]]

    def changed(self, **changes: dict[int, int]) -> Self:
        """The same with other numbers at some places of products, or of the first tile (`z`)."""
        name, samples = self.tiles[0] if self.tiles else (TILE, [])
        tile = [changes.get("z", {}).get(place, it) for place, it in enumerate(samples)]
        return replace(super().changed(**changes), tiles=[(name, tile), *self.tiles[1:]])

    def write(self, folder: Path) -> list[str]:
        """Writes the files, and returns the arguments of a run."""
        for place, (name, samples) in enumerate(self.tiles):
            tile = struct.pack(f">{len(samples)}h", *samples)
            (folder / name).write_bytes(self.with_length(f"tile{place}", tile))
        paths = [str(folder / name) for name, _ in self.tiles]
        return ["--side", str(self.side), *self.write_products(folder), *paths]


def one_tile(side: int, z: list[int], con: list[int], *others: list[int], name: str = TILE) -> Set:
    """A tile with its products: con, then dir, acc, bas and rnk."""
    numbers = dict(zip(PIXELS, [con, *others], strict=True))
    return Set(side=side, tiles=[(name, z)], numbers=numbers, grid=tile_grid(side))


@dataclass(frozen=True, kw_only=True)
class DemSet(Products):
    """Products of one raster of elevations with this header and these bytes."""

    dem_header: str
    dem: bytes
    endings: tuple[str, str] = (".hdr", ".bil")

    def header_of(self, product: str) -> str:
        return self.dem_header if product == "dem" else super().header_of(product)

    def with_line(self, file: str, line: str) -> Self:
        """The same with this line in the header of a product, or of the elevations (`dem`)."""
        return (
            replace(self, dem_header=put_line(self.dem_header, line))
            if file == "dem"
            else super().with_line(file, line)
        )

    def write(self, folder: Path) -> list[str]:
        """Writes the files, and returns the arguments of a run."""
        header, raster = (folder / f"dem{ending}" for ending in self.endings)
        header.write_text(self.dem_header, newline="")
        raster.write_bytes(self.with_length("dem", self.dem))
        return ["--dem", str(raster), *self.write_products(folder)]


REASON = re.compile(rb"error: .*: .+\n")


class Lines:
    """Counts the runs whose line, status and silence on standard error are as expected, and prints the others."""

    def __init__(self, drain: Path) -> None:
        self.drain, self.passed, self.failed = drain, 0, 0

    def run(self, arguments: list[str], text: bytes = b"") -> "subprocess.CompletedProcess[bytes]":
        return subprocess.run([self.drain, *arguments], input=text, capture_output=True, timeout=60)

    def expect(self, name: str, line: str, arguments: list[str], text: bytes = b"") -> None:
        """Expects this line. Of a file that can't be opened, and in an audit or a check of another shape and of a con of the
        other kind of heights, standard error has the reason in one line."""
        run = self.run(arguments, text)
        is_told = line.startswith("refused WrongShape ") or line == "refused BadHeader con BadPixelType" and "--dem" in arguments
        has_reason = line.startswith("failed Open ") or is_told and arguments[0] in ("audit", "check")
        silent = REASON.fullmatch(run.stderr) if has_reason else not run.stderr
        is_right = bool(silent) and (run.stdout, run.returncode) == (f"{line}\n".encode(), STATUSES[line.split()[0]])
        self.count(name, is_right, f"{run.stdout!r}{run.stderr!r} with status {run.returncode}, expected {line}")

    def expect_usage(self, arguments: list[str]) -> None:
        """Expects words on standard error alone."""
        run = self.run(arguments)
        is_right = (run.stdout, run.returncode) == (b"", 2) and run.stderr != b""
        self.count(f"usage {arguments}", is_right, f"{run.stdout!r}{run.stderr!r} with status {run.returncode}")

    def count(self, name: str, is_right: bool, came: str) -> None:
        if is_right:
            self.passed += 1
        else:
            self.failed += 1
            print(f"FAILED {name}: {came}")
