"""What a tool's developer writes: pytest runs it. `my_tool` stands for the tool."""

import drain_gis
import numpy as np


def my_tool(dem: np.ndarray) -> dict[str, np.ndarray]:
    """A plane that falls to the east: each cell leads there, in Esri's codes."""
    rows, cols = dem.shape
    codes = np.ones((rows, cols), np.uint8)
    codes[:, -1] = 0
    counts = np.tile(np.arange(1, cols + 1, dtype=np.int32), (rows, 1))
    labels = np.repeat(np.arange(1, rows + 1, dtype=np.int32)[:, None], cols, axis=1)
    return {"con": dem, "dir": codes, "acc": counts, "bas": labels}


def test_a_plane() -> None:
    dem = np.tile(np.arange(9, 0, -1, dtype=np.int16), (6, 1))
    drain_gis.assert_correct(dem, **my_tool(dem), codes="esri")
