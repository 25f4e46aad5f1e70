#!/usr/bin/env python3
"""Writes a made-up terrain of SIDE x SIDE cells twice: as floats, FOLDER/floats.bil, and as whole heights that need 32 bits,
FOLDER/whole.bil. The terrain is one of

mountains   0 to 3000 m, with noise of 5 cm
plain       -20 to 20 m at the sea, with noise of 1 cm
flat        a smooth tidal flat, drops of a tenth of a millimetre

float_terrain.py mountains|plain|flat SIDE FOLDER
"""

import sys
from pathlib import Path

import numpy as np

# Metres: the height of the terrain, and its noise; and how many whole heights there are in a metre.
TERRAINS = {"mountains": (3000.0, 0.05, 2**18), "plain": (40.0, 0.01, 2**24), "flat": (0.5, 0.0, 2**30)}


def octave(rng: np.random.Generator, side: int, step: int) -> np.ndarray:
    """Smooth noise from 0 to 1 between random numbers of each step-th row and column."""
    numbers = rng.random((side // step + 3, side // step + 3))
    at = np.arange(side) / step
    first = at.astype(int)
    share = at - first
    smooth = share**3 * (share * (share * 6 - 15) + 10)
    down, right = smooth[:, None], smooth[None, :]
    above = numbers[np.ix_(first, first)] * (1 - right) + numbers[np.ix_(first, first + 1)] * right
    below = numbers[np.ix_(first + 1, first)] * (1 - right) + numbers[np.ix_(first + 1, first + 1)] * right
    return above * (1 - down) + below * down


def main() -> None:
    name, side, folder = sys.argv[1], int(sys.argv[2]), Path(sys.argv[3])
    height, noise, parts = TERRAINS[name]
    rng = np.random.default_rng(20261130)
    terrain, share = np.zeros((side, side)), 0.5
    for step in (1024, 512, 256, 128, 64, 32, 16, 8, 4, 2)[: 10 if noise else 5]:
        terrain += height * share * (octave(rng, side, step) - 0.5)
        share /= 2
    terrain += (0 if name == "plain" else height / 2) + noise * rng.standard_normal((side, side))
    for file, kind, numbers in (
        ("floats", "FLOAT", terrain.astype("<f4")),
        ("whole", "SIGNEDINT", np.round(terrain * parts).astype("<i4")),
    ):
        numbers.tofile(folder / f"{file}.bil")
        lines = f"NROWS {side}\nNCOLS {side}\nNBITS 32\nBYTEORDER I\nPIXELTYPE {kind}\nXDIM 30\nYDIM 30\n"
        (folder / f"{file}.hdr").write_text(f"{lines}ULXMAP 500000\nULYMAP 4000000\n")


if __name__ == "__main__":
    main()
