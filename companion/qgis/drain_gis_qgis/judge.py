"""The algorithm drain:judge. It runs `drain-gis judge` and loads the map of faults; nothing is decided here."""

import shutil
import subprocess
from pathlib import Path
from typing import Any

from qgis import core

PRODUCTS = {
    "con": "Filled elevations",
    "dir": "Flow directions (D8)",
    "acc": "Flow accumulation, in cells or areas",
    "bas": "Basin labels",
}
TOOLS = (
    "esri", "saga", "grass", "grass-fill-dir", "grass-agnps", "terraflow", "terra", "taudem", "whitebox", "whitebox-esri",
    "pysheds", "richdem", "hydrosheds", "pcraster", "drain",
)  # fmt: skip
"""The names for --from, in the order of `drain-gis tools`; a test compares them."""

COUNTS = ("auto", "cells", "above", "area")
SWITCHES = {
    "complete-rim": "Give cells at the edge and beside voids that have no direction the steepest one",
    "inland-sinks": "List the cells that the directions call inland sinks",
}
ACCEPTED, REJECTED = 0, 1
STYLE = Path(__file__).with_name("faults.qml")
HELP = """Says whether drainage rasters are correct for their elevations, and where they are not.

Accepted: what was given is correct at each cell, by the definitions of drain. Rejected: the log has the line of drain
and the first fault; the map shows the first rule that fails at each cell, the report says more.

Water flows one way from each cell (D8), slopes are drop over distance as the tool measures it, and water leaves at the
edge and at voids. Tested, not proved: that what drain reads says what the layers say."""


class FaultStyle(core.QgsProcessingLayerPostProcessorInterface):
    """Gives the map of faults the colours and names of its rules."""

    def postProcessLayer(self, layer: Any, context: Any, feedback: Any) -> None:
        """Called when the layer was loaded."""
        layer.loadNamedStyle(str(STYLE))
        layer.triggerRepaint()


STYLER = FaultStyle()
"""QGIS doesn't keep it alive."""


class Judge(core.QgsProcessingAlgorithm):
    """Judges filled elevations, directions, accumulation and basins."""

    def name(self) -> str:
        return "judge"

    def displayName(self) -> str:
        return "Judge drainage rasters"

    def shortHelpString(self) -> str:
        return HELP

    def createInstance(self) -> "Judge":
        return Judge()

    def initAlgorithm(self, config: dict[str, Any] | None = None) -> None:
        add, raster = self.addParameter, core.QgsProcessing.TypeRaster
        add(core.QgsProcessingParameterMultipleLayers("DEM", "Elevations: one raster, or tiles", raster, None, True))
        for name, text in PRODUCTS.items():
            add(core.QgsProcessingParameterRasterLayer(name.upper(), text, optional=True))
        tool, counts = "Tool whose codes the directions have", "What the accumulation counts"
        add(core.QgsProcessingParameterEnum("TOOL", tool, TOOLS, False, None, True, True))
        add(core.QgsProcessingParameterEnum("COUNTS", counts, COUNTS, False, "auto", False, True))
        for name, text in SWITCHES.items():
            add(core.QgsProcessingParameterBoolean(name.upper().replace("-", "_"), text, False))
        slope = "The most that a slope on flats may raise filled elevations by, in the unit of the elevations"
        add(core.QgsProcessingParameterString("FLATTEN", slope, optional=True))
        nodata = "No-data numbers that the files don't name, such as dem=-9999 dir=0"
        add(core.QgsProcessingParameterString("NODATA", nodata, optional=True))
        program = "The command drain-gis: its name on the PATH, or its path"
        add(core.QgsProcessingParameterString("PROGRAM", program, "drain-gis"))
        add(core.QgsProcessingParameterRasterDestination("FAULTS", "Map of faults", optional=True))
        add(core.QgsProcessingParameterFileDestination("REPORT", "Report", "HTML (*.html)", optional=True))
        self.addOutput(core.QgsProcessingOutputBoolean("ACCEPTED", "Accepted"))
        self.addOutput(core.QgsProcessingOutputString("LINE", "The line of drain"))

    def processAlgorithm(self, parameters: dict[str, Any], context: Any, feedback: Any) -> dict[str, Any]:
        """Judges, and has the map loaded in its colours."""
        program = shutil.which(self.parameterAsString(parameters, "PROGRAM", context))
        if not program:
            text = "There is no command drain-gis: pip install --user drain-gis, or pipx install drain-gis"
            raise core.QgsProcessingException(text)
        faults = self.parameterAsOutputLayer(parameters, "FAULTS", context)
        report = self.parameterAsFileOutput(parameters, "REPORT", context)
        outputs = [*(["--map", faults] if faults else []), *(["--out", report] if report else [])]
        status, lines = run([program, "judge", *self.words(parameters, context), *outputs], feedback)
        if status not in (ACCEPTED, REJECTED):
            raise core.QgsProcessingException("drain-gis gave no verdict on all of it: the log says why")
        line = next((one for one in lines if one.startswith(("accepted", "rejected"))), "")
        found = {"ACCEPTED": status == ACCEPTED, "LINE": line, **({"REPORT": report} if report else {})}
        if faults:
            found["FAULTS"] = faults
            if context.willLoadLayerOnCompletion(faults):
                context.layerToLoadOnCompletionDetails(faults).setPostProcessor(STYLER)
        return found

    def words(self, parameters: dict[str, Any], context: Any) -> list[str]:
        """The arguments that name the rasters, and what their numbers mean."""
        found = []
        for layer in self.parameterAsLayerList(parameters, "DEM", context) or []:
            found += ["--dem", layer.source()]
        for name in PRODUCTS:
            layer = self.parameterAsRasterLayer(parameters, name.upper(), context)
            found += [f"--{name}", layer.source()] if layer is not None else []
        codes = self.parameterAsEnumString(parameters, "TOOL", context)
        found += ["--from", codes] if codes else []
        found += ["--acc-counts", self.parameterAsEnumString(parameters, "COUNTS", context)]
        slope = self.parameterAsString(parameters, "FLATTEN", context)
        found += ["--flatten", slope] if slope else []
        for name in SWITCHES:
            is_on = self.parameterAsBoolean(parameters, name.upper().replace("-", "_"), context)
            found += [f"--{name}"] if is_on else []
        for number in self.parameterAsString(parameters, "NODATA", context).split():
            found += ["--nodata", number]
        return found


def run(words: list[str], feedback: Any) -> tuple[int, list[str]]:
    """Runs a program, shows each line in the log, and stops it when the user cancels."""
    feedback.pushCommandInfo(" ".join(words))
    lines = []
    with subprocess.Popen(
        words, stdout=subprocess.PIPE, stderr=subprocess.STDOUT, stdin=subprocess.DEVNULL, text=True, errors="replace"
    ) as process:
        for line in process.stdout or ():
            lines.append(line.rstrip())
            feedback.pushInfo(lines[-1])
            if feedback.isCanceled():
                process.terminate()
    if feedback.isCanceled():
        raise core.QgsProcessingException("cancelled")
    return process.returncode, lines
