"""The plugin of QGIS, over a stand-in for qgis.core: what it runs, and what it makes of the answer."""

import importlib.util
import os
import sys
from pathlib import Path
from types import ModuleType, SimpleNamespace
from typing import Any

import numpy as np
import pytest
import worlds
from conftest import COMPANION


class Parameter:
    """A parameter, or an output, of an algorithm: its name."""

    def __init__(self, name: str, *more: Any, **named: Any) -> None:
        self.name = name


class Algorithm:
    """QgsProcessingAlgorithm: it gives the values of parameters that were added."""

    def __init__(self) -> None:
        self.names = set[str]()

    def addParameter(self, parameter: Parameter) -> None:
        self.names.add(parameter.name)

    def addOutput(self, output: Parameter) -> None:
        pass

    def value(self, parameters: dict[str, Any], name: str, context: Any) -> Any:
        assert name in self.names, f"{name} is no parameter"
        return parameters.get(name)

    def text(self, parameters: dict[str, Any], name: str, context: Any) -> Any:
        return self.value(parameters, name, context) or ""

    parameterAsLayerList = parameterAsRasterLayer = parameterAsBoolean = value
    parameterAsString = parameterAsEnumString = parameterAsOutputLayer = parameterAsFileOutput = text


class Refusal(Exception):
    """QgsProcessingException."""


@pytest.fixture
def plugin(monkeypatch: Any) -> Any:
    """The module judge.py of the plugin."""
    core: Any = ModuleType("qgis.core")
    for name in ("MultipleLayers", "RasterLayer", "Enum", "Boolean", "String", "RasterDestination", "FileDestination"):
        setattr(core, f"QgsProcessingParameter{name}", Parameter)
    core.QgsProcessingOutputBoolean = core.QgsProcessingOutputString = Parameter
    core.QgsProcessingAlgorithm, core.QgsProcessingException = Algorithm, Refusal
    core.QgsProcessing, core.QgsProcessingLayerPostProcessorInterface = SimpleNamespace(TypeRaster=1), object
    monkeypatch.setitem(sys.modules, "qgis", SimpleNamespace(core=core))
    monkeypatch.setitem(sys.modules, "qgis.core", core)
    spec = importlib.util.spec_from_file_location("plugin", COMPANION / "qgis/drain_gis_qgis/judge.py")
    assert spec and spec.loader
    module = importlib.util.module_from_spec(spec)
    spec.loader.exec_module(module)
    return module


class Run:
    """A run of the algorithm: what was logged and which layer got which style."""

    def __init__(self, plugin: Any, is_cancelled: bool = False, **parameters: Any) -> None:
        self.log, self.styled = list[str](), dict[str, Any]()
        self.isCanceled, self.pushCommandInfo, self.pushInfo = lambda: is_cancelled, lambda text: None, self.log.append
        algorithm = plugin.Judge()
        algorithm.initAlgorithm()
        self.found = algorithm.processAlgorithm({"COUNTS": "auto", **parameters}, self, self)

    def willLoadLayerOnCompletion(self, path: str) -> bool:
        return True

    def layerToLoadOnCompletionDetails(self, path: str) -> Any:
        return SimpleNamespace(setPostProcessor=lambda styler: self.styled.update({path: styler}))


def layer(path: object) -> Any:
    """A raster layer."""
    return SimpleNamespace(source=lambda: str(path))


def program(folder: Path, printed: str, status: int) -> Path:
    """A program that keeps its arguments, and prints and ends so."""
    (folder / "printed").write_text(printed)
    path = folder / "program"
    path.write_text(f'#!/bin/sh\nprintf "%s\\n" "$@" >{folder}/words\ncat {folder}/printed\nexit {status}\n')
    path.chmod(0o755)
    return path


def test_what_is_run(plugin: Any, tmp_path: Path) -> None:
    """Each raster, each of several tiles, each option."""
    given = {
        "PROGRAM": str(program(tmp_path, "accepted rows=1\n", 0)), "DEM": [layer("a.hgt"), layer("b c.hgt"), layer("d.hgt")],
        "CON": layer("con.tif"), "DIR": layer("dir.tif"), "ACC": layer("acc.tif"), "BAS": layer("bas.tif"), "TOOL": "saga",
        "COUNTS": "above", "FLATTEN": "0.5", "INLAND_SINKS": True, "NODATA": "dem=-9999 dir=0", "FAULTS": "m.tif", "REPORT": "r.html",
    }  # fmt: skip
    words = "judge|--dem|a.hgt|--dem|b c.hgt|--dem|d.hgt|--con|con.tif|--dir|dir.tif|--acc|acc.tif|--bas|bas.tif|--from|saga"
    words += "|--acc-counts|above|--flatten|0.5|--inland-sinks|--nodata|dem=-9999|--nodata|dir=0|--map|m.tif|--out|r.html"
    run = Run(plugin, **given)
    assert (tmp_path / "words").read_text().splitlines() == words.split("|")
    assert run.found == {"ACCEPTED": True, "LINE": "accepted rows=1", "REPORT": "r.html", "FAULTS": "m.tif"}
    assert run.styled == {"m.tif": plugin.STYLER}
    Run(plugin, PROGRAM=given["PROGRAM"], CON=layer("con.tif"))
    assert (tmp_path / "words").read_text().split() == ["judge", "--con", "con.tif", "--acc-counts", "auto"]


@pytest.mark.parametrize(
    ("printed", "status", "expected"),
    [
        ("  a note\naccepted rows=2\n  judged: con\n", 0, (True, "accepted rows=2")),
        ("  accepted by nobody\nrejected rule=13 Accumulation row=0 col=2\n  con: right\n", 1, (False, "rejected rule=13 Accumulation row=0 col=2")),
        ("accepted rows=2\n  not judged: acc: odd\n", 2, None), ("can't judge: odd\n", 2, None), ("failed: no program\n", 3, None), ("accepted", -9, None),
    ],
)  # fmt: skip
def test_what_is_made_of_an_answer(plugin: Any, tmp_path: Path, printed: str, status: int, expected: Any) -> None:
    path = str(program(tmp_path, printed, status if status >= 0 else 137))
    if expected is None:
        with pytest.raises(Refusal, match="no verdict"):
            Run(plugin, PROGRAM=path, CON=layer("con.tif"))
        return
    run = Run(plugin, PROGRAM=path, CON=layer("con.tif"))
    assert (run.found["ACCEPTED"], run.found["LINE"]) == expected and run.log == printed.splitlines()


def test_no_program_and_a_run_that_is_cancelled(plugin: Any, tmp_path: Path) -> None:
    with pytest.raises(Refusal, match="no command"):
        Run(plugin, PROGRAM=str(tmp_path / "none"), CON=layer("con.tif"))
    with pytest.raises(Refusal, match="cancelled"):
        Run(plugin, True, PROGRAM=str(program(tmp_path, "accepted\n", 0)), CON=layer("con.tif"))


def test_with_drain_gis_itself(
    plugin: Any, tmp_path: Path, files: dict[str, str], world: worlds.World, monkeypatch: Any
) -> None:
    monkeypatch.setenv("PATH", f"{COMPANION}{os.pathsep}{os.environ['PATH']}")
    given = {"DEM": [layer(files["dem"])], **{name.upper(): layer(files[name]) for name in worlds.PRODUCTS}, "TOOL": "esri"}
    right = Run(plugin, PROGRAM="drain-gis", **given)
    assert right.found["ACCEPTED"] is True and right.found["LINE"].startswith("accepted rows=23 cols=31")
    acc, (row, col) = world.acc.astype(np.int32), world.cells()[33]
    acc[row, col] += 7
    given["ACC"] = layer(worlds.write_tif(tmp_path / "wrong.tif", np.where(world.void, -9999, acc), -9999))
    wrong = Run(plugin, PROGRAM="drain-gis", **given, FAULTS=str(tmp_path / "m.tif"))
    assert wrong.found["ACCEPTED"] is False and (tmp_path / "m.tif").exists()
    assert wrong.found["LINE"].startswith(f"rejected rule=13 Accumulation row={row} col={col};")
