"""A plugin of QGIS: a Processing provider with one algorithm, drain:judge."""

from typing import Any


def classFactory(iface: Any) -> Any:  # pylint: disable=invalid-name
    """Called by QGIS, and by qgis_process, when the plugin is loaded."""
    from .provider import Plugin

    return Plugin()
