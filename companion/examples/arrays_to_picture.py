#!/usr/bin/python3
"""From arrays to a picture of faults: makes docs/saga-accumulation-faults.png, of samples/other-tools/saga-linear.

Usage: PYTHONPATH=companion companion/examples/arrays_to_picture.py OUT.png     (in the project's folder)
"""
import sys
from pathlib import Path

import numpy as np

import drain_gis
from drain_gis.picture import write_picture

SIDE, SAMPLES = 51, Path("samples/other-tools")
TYPES = {"con": "<i2", "dir": "u1", "acc": "<u4", "bas": "<u4"}

dem = np.fromfile(SAMPLES / "N36W085.hgt", ">i2").reshape(SIDE, SIDE).astype(np.int16)
products = {n: np.fromfile(SAMPLES / "saga-linear" / f"{n}.bil", t).reshape(SIDE, SIDE) for n, t in TYPES.items()}
verdict = drain_gis.audit(dem, **products, codes="esri", nodata={"dem": -32768})
print(verdict)
write_picture(Path(sys.argv[1]), verdict)
