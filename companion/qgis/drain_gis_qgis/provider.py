"""The provider, and the plugin that adds it."""

from qgis.core import QgsApplication, QgsProcessingProvider

from .judge import Judge


class Provider(QgsProcessingProvider):
    """Has the algorithm drain:judge."""

    def id(self) -> str:
        return "drain"

    def name(self) -> str:
        return "Drain"

    def loadAlgorithms(self) -> None:
        self.addAlgorithm(Judge())


class Plugin:
    """Adds the provider and takes it away. initProcessing is what qgis_process calls."""

    provider: Provider

    def initProcessing(self) -> None:
        self.provider = Provider()
        QgsApplication.processingRegistry().addProvider(self.provider)

    def initGui(self) -> None:
        self.initProcessing()

    def unload(self) -> None:
        QgsApplication.processingRegistry().removeProvider(self.provider)
