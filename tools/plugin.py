#!/usr/bin/env python3
"""Packs the plugin for QGIS: FOLDER/drain_gis_qgis-VERSION.zip. The same files give the same bytes.

Usage: tools/plugin.py FOLDER
"""
import re
import sys
import zipfile
from pathlib import Path

TOP = Path(__file__).resolve().parent.parent
PLUGIN = TOP / "companion/qgis/drain_gis_qgis"
FILES = ("__init__.py", "faults.qml", "judge.py", "metadata.txt", "provider.py")


def main() -> None:
    """Packs it."""
    version = re.search(r'VERSION = "(.*)"', (TOP / "companion/drain_gis/version.py").read_text())[1]
    folder = Path(sys.argv[1])
    folder.mkdir(parents=True, exist_ok=True)
    path = folder / f"drain_gis_qgis-{version}.zip"
    with zipfile.ZipFile(path, "w", zipfile.ZIP_DEFLATED) as packed:
        for name, source in [*((name, PLUGIN / name) for name in FILES), ("LICENSE", TOP / "LICENSE")]:
            content = source.read_text("utf-8").replace("version=VERSION", f"version={version}")
            entry = zipfile.ZipInfo(f"{PLUGIN.name}/{name}", (2026, 1, 1, 0, 0, 0))
            entry.external_attr, entry.compress_type = 0o644 << 16, zipfile.ZIP_DEFLATED
            packed.writestr(entry, content)
    print(f"Packed: {path}")


if __name__ == "__main__":
    main()
