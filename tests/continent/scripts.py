"""Where the scripts of examples/continent are, and what several tests of them need."""

import sys
from pathlib import Path

ROOT = Path(__file__).resolve().parents[2]
EXAMPLE = ROOT / "examples/continent"
sys.dont_write_bytecode = True
sys.path[:0] = [str(EXAMPLE), str(ROOT / "tests/program")]


SHELL_LOOP = """
while read -r words; do "$HERE/job.sh" $words || echo "failed: $words"; done <"$OUT/windows.txt"
"$HERE/merge.sh"
"""


SLOPES = "slopes: square cells\n"
"""What a merge of a union says on standard error where no spacing is given."""


def beside_slopes(said: str, slopes: str = SLOPES) -> str:
    """What it says besides, which has to name these slopes once."""
    assert said.count("slopes: ") == said.count(slopes) == 1, said
    return said.replace(slopes, "")


def void_tile(side: int) -> bytes:
    return b"\x80\x00" * side**2
