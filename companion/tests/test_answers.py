"""Report, picture, colours and the style for QGIS: what they say, what is seen, and that text from outside is escaped."""

import base64
import re
import xml.etree.ElementTree as xml
from html.parser import HTMLParser
from itertools import combinations
from pathlib import Path
from typing import Any

import drain_gis
import matplotlib
import numpy as np
import pytest
import worlds
from conftest import COMPANION, left
from drain_gis.maps import write_map
from drain_gis.picture import Map, draw, legend_of, write_picture
from drain_gis.report import write_report
from drain_gis.rules import RULES
from matplotlib.backends.backend_agg import FigureCanvasAgg
from matplotlib.colors import to_rgb
from matplotlib.image import imread
from skimage.color import deltaE_ciede2000, xyz2lab

SIGHTS = {  # Machado, Oliveira and Fernandes (2009), of full severity; in linear red, green and blue
    "usual": np.eye(3),
    "protanopia": [[0.152286, 1.052583, -0.204868], [0.114503, 0.786281, 0.099216], [-0.003882, -0.048116, 1.051998]],
    "deuteranopia": [[0.367322, 0.860646, -0.227968], [0.280085, 0.672501, 0.047413], [-0.011820, 0.042940, 0.968881]],
    "tritanopia": [[1.255528, -0.076749, -0.178779], [-0.078411, 0.930809, 0.147602], [0.004733, 0.691367, 0.303900]],
}
TO_XYZ = np.array(
    [[0.4124564, 0.3575761, 0.1804375], [0.2126729, 0.7151522, 0.0721750], [0.0193339, 0.1191920, 0.9503041]]
)
CELLWISE = {n: rule for n, rule in RULES.items() if n < 16}
"""The rules of docs/RULES.md; the others say where paths stop, and where con isn't filled."""


def test_names_are_those_of_the_rules() -> None:
    page = (COMPANION.parent / "docs/RULES.md").read_text()
    assert len(CELLWISE) == 12 and all(f"| {n} | {rule.name} |" in page for n, rule in CELLWISE.items())


@pytest.mark.parametrize("sight", SIGHTS)
def test_colours_differ_for_each_eye(sight: str) -> None:
    part = np.array([to_rgb(rule.colour) for rule in CELLWISE.values()])
    linear = np.where(part <= 0.04045, part / 12.92, ((part + 0.055) / 1.055) ** 2.4)
    seen_as = xyz2lab(np.clip(linear @ np.array(SIGHTS[sight]).T, 0, 1) @ TO_XYZ.T)
    assert min(deltaE_ciede2000(one, other) for one, other in combinations(seen_as, 2)) > 11


def test_qgis_has_each_rule_with_its_colour_and_name_and_each_tool() -> None:
    plugin = COMPANION / "qgis/drain_gis_qgis"
    entries = xml.parse(plugin / "faults.qml").getroot().iter("paletteEntry")
    found = {int(entry.get("value", "")): (entry.get("color"), entry.get("label")) for entry in entries}
    assert found.pop(0) and found == {n: (rule.colour, rule.label) for n, rule in RULES.items()}
    named = re.search(r"TOOLS = \((.*?)\)", (plugin / "judge.py").read_text(), re.S)
    assert named and re.findall(r'"([^"]+)"', named[1]) == list(drain_gis.TOOLS)


@pytest.fixture
def rejected() -> drain_gis.Verdict:
    """Wrong counts and labels."""
    world = worlds.random_world(30, 40, seed=4)
    rasters = world.given()
    rasters["acc"][world.cells()[33]] += 7
    rasters["bas"][world.cells()[-40]] += 10**6
    return drain_gis.audit(**rasters, codes="esri", parts=True)


class Page(HTMLParser):
    """Checks that tags are closed in order, and collects text and addresses."""

    def __init__(self, folder: Path, verdict: drain_gis.Verdict, picture: Path | None = None) -> None:
        super().__init__()
        self.open, self.seen, self.texts, self.addresses = list[str](), list[str](), list[str](), list[str | None]()
        write_report(folder / "report.html", verdict, picture, ["drain-gis", "judge", "--dem", "a b.tif"])
        self.html = (folder / "report.html").read_text("utf-8")
        self.feed(self.html)
        self.text = " ".join(" ".join(self.texts).split())
        assert self.open == []

    def handle_starttag(self, tag: str, attrs: list[tuple[str, str | None]]) -> None:
        self.seen.append(tag)
        self.addresses += [value for name, value in attrs if name in ("src", "href")]
        self.open += [tag] if tag not in ("meta", "img") else []

    def handle_endtag(self, tag: str) -> None:
        assert self.open.pop() == tag

    def handle_data(self, data: str) -> None:
        self.texts.append(data)


def test_a_report_says_what_there_is_to_say_and_loads_nothing(tmp_path: Path, rejected: drain_gis.Verdict) -> None:
    picture = tmp_path / "p.png"
    write_picture(picture, rejected)
    page = Page(tmp_path, rejected, picture)
    texts = [
        rejected.line,
        rejected.where,
        *rejected.notes,
        *rejected.parts.values(),
        "drain-gis judge --dem 'a b.tif'",
    ]
    for n, (cells, (row, col)) in rejected.rules.items():
        texts += [RULES[n].name, f"{cells:,}", f"row {row}, column {col}"]
    texts += ["30 rows by 40 columns", "esri", "Tested, not proved", rejected.program.version.split("\n")[0]]
    assert [text for text in texts if " ".join(text.split()) not in page.text] == []
    assert page.addresses == ["data:image/png;base64," + base64.b64encode(picture.read_bytes()).decode()]
    assert not {"script", "link", "a", "iframe"} & set(page.seen) and "http" not in page.html.replace("http-equiv", "")
    assert "default-src 'none'" in page.html


def test_text_from_outside_is_escaped(tmp_path: Path, rejected: drain_gis.Verdict) -> None:
    bad = '<script>alert("a&b")</script>'
    rejected.parts[bad], rejected.where = bad, bad
    rejected.notes.append(bad)
    page = Page(tmp_path, rejected)
    assert "<script" not in page.html and page.text.count(bad) >= 3


def test_a_report_tells_no_rule_of_a_raster_that_was_not_given(tmp_path: Path) -> None:
    world = worlds.random_world(seed=4)
    verdict = drain_gis.audit(**world.given("con"))
    page = Page(tmp_path, verdict)
    assert verdict.line in page.text and "lowest surface" in page.text and "esri" not in page.text
    assert [rule.name for rule in RULES.values() if rule.name in page.text and rule.raster not in ("", "con")] == []
    assert "no depressions" in Page(tmp_path, drain_gis.audit(con=world.masked("con"))).text


def seen(image: np.ndarray, rule: int) -> np.ndarray:
    """Where a picture has the colour of a rule."""
    return (np.abs(image[..., :3] - np.array(to_rgb(RULES[rule].colour))) < 0.02).all(axis=2)


def drawn(folder: Path, shape: tuple[int, int], cells: dict[int, Any], path: str | None = None) -> np.ndarray:
    """The picture of a surface, with faults of these rules put on its map."""
    z = np.add.outer(np.arange(shape[0]) // 9, np.arange(shape[1]) // 7).astype(np.int16)
    verdict = drain_gis.audit(z, con=z + np.eye(*shape, dtype=np.int16))
    verdict.map, verdict.rules, verdict.made.dem.paths = np.zeros(shape, np.uint8), {}, [path] if path else []
    for n, where in cells.items():
        verdict.map[where] = n
        verdict.rules[n] = (int((verdict.map == n).sum()), (0, 0))
    write_picture(folder / "p.png", verdict)
    return imread(folder / "p.png")


def test_one_cell_of_many_is_seen(tmp_path: Path) -> None:
    image = drawn(tmp_path, (1500, 900), {12: (700, 300), 10: np.s_[::2, 500:]})
    dots, lowest = np.argwhere(seen(image, 12)), image.shape[0] - 120
    assert max(image.shape) < 1700 and len(dots[dots[:, 0] < lowest]) > 20 and seen(image, 10).sum() > 10_000


@pytest.mark.parametrize("failing", [(4, 13), tuple(CELLWISE)])
def test_the_legend_has_each_rule_that_fails_and_no_other(tmp_path: Path, failing: tuple[int, ...]) -> None:
    image = drawn(tmp_path, (300, 300), {n: (20 * k + 5, slice(5, 8)) for k, n in enumerate(failing)})
    assert [n for n in CELLWISE if seen(image[-30 * len(RULES) :], n).any()] == list(failing)


def test_the_legend_says_why_fewer_cells_are_drawn_and_that_no_rule_fails(rejected: drain_gis.Verdict) -> None:
    rejected.rules = {**rejected.rules, 15: (9, (0, 0))}
    labels = [str(line.get_label()) for line in legend_of(rejected, Map(rejected))]
    rest = "(0 drawn; the others fail a rule with a smaller number too)"
    assert f"15 SharedLabel: another outlet's, 9 cells {rest}" in labels
    right = drain_gis.audit(**worlds.random_world(seed=4).given("con"))
    assert [line.get_label() for line in legend_of(right, Map(right))] == ["no rule fails at any cell", "void"]


def test_no_text_of_a_picture_is_cut_off(rejected: drain_gis.Verdict) -> None:
    rejected.rules, rejected.made.dem.paths = {**rejected.rules, 14: (10**9, (0, 0))}, ["an elevation model.tif" * 9]
    figure = draw(rejected)
    renderer = FigureCanvasAgg(figure).get_renderer()
    axes, drawn_to = figure.axes[0], figure.get_tightbbox(renderer).x1 * figure.dpi
    texts = [*axes.texts, *axes.get_legend().get_texts()]
    ends = {one.get_text(): one.get_window_extent(renderer).x1 for one in texts}
    assert len(ends) > 4 and {text: end for text, end in ends.items() if end > drawn_to} == {}


@pytest.mark.parametrize("shape", [(1, 1), (1, 500), (3000, 3), (2, 9000), (37, 41)])
def test_any_shape_is_drawn(tmp_path: Path, shape: tuple[int, int]) -> None:
    image = drawn(tmp_path, shape, {1: (0, 0)})
    assert max(image.shape) < 1700 and seen(image, 1).any()


def test_the_user_s_style_and_odd_names_change_no_picture(tmp_path: Path, rejected: drain_gis.Verdict) -> None:
    for name, style in (("plain.png", "default"), ("dark.png", "dark_background"), ("again.png", "default")):
        with matplotlib.style.context(style):
            write_picture(tmp_path / name, rejected)
    assert len({path.read_bytes() for path in tmp_path.iterdir()}) == 1
    for path in ("$x_{.tif", "a\x1bb\n.tif", "Ω中" * 90):
        drawn(tmp_path, (20, 30), {9: (3, 3)}, path=path)


def test_a_full_disk_leaves_nothing(tmp_path: Path, rejected: drain_gis.Verdict, small_disk: Any) -> None:
    small_disk(400)
    for write in (write_picture, write_map, lambda path, verdict: write_report(path, verdict, None, [])):
        with pytest.raises(OSError):
            write(tmp_path / "one.png", rejected)
        assert max(left(tmp_path).values(), default=0) <= 400  # what is left has another name until it is whole
