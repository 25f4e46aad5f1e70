<!DOCTYPE qgis PUBLIC 'http://mrcc.com/qgis.dtd' 'SYSTEM'>
<!-- Colours and names of faults.tif: Layer Properties, Style, Load Style. Cells without a fault are clear. -->
<qgis version="3.22" styleCategories="Symbology" hasScaleBasedVisibilityFlag="0">
  <pipe>
    <rasterrenderer type="paletted" band="1" opacity="1" alphaBand="-1" nodataColor="">
      <rasterTransparency/>
      <colorPalette>
        <paletteEntry value="0" color="#ffffff" alpha="0" label="no rule fails"/>
        <paletteEntry value="1" color="#1c1c1e" alpha="255" label="1 VoidCell: a number in a void"/>
        <paletteEntry value="2" color="#4e1469" alpha="255" label="2 Missing: no number"/>
        <paletteEntry value="3" color="#502c14" alpha="255" label="3 BadCode: no direction code"/>
        <paletteEntry value="4" color="#0005b9" alpha="255" label="4 BelowGround: con below the ground"/>
        <paletteEntry value="5" color="#2691e1" alpha="255" label="5 OpenRaised: con above an outlet"/>
        <paletteEntry value="9" color="#14f0ff" alpha="255" label="9 NotLeast: con too high, or a neighbour's too low"/>
        <paletteEntry value="10" color="#d31522" alpha="255" label="10 Slope: not a steepest way"/>
        <paletteEntry value="11" color="#f77f05" alpha="255" label="11 OutletCode: an outlet without 0"/>
        <paletteEntry value="12" color="#f3ec1c" alpha="255" label="12 FlatStep: leads nowhere on a flat"/>
        <paletteEntry value="13" color="#d71e90" alpha="255" label="13 Accumulation: wrong count"/>
        <paletteEntry value="14" color="#63c672" alpha="255" label="14 Label: label differs from the next cell downstream"/>
        <paletteEntry value="15" color="#c0faa6" alpha="255" label="15 SharedLabel: another outlet's"/>
        <paletteEntry value="16" color="#675857" alpha="255" label="NoEnd: a path stops or goes round"/>
        <paletteEntry value="17" color="#acaea8" alpha="255" label="NotFilled: con too low"/>
      </colorPalette>
    </rasterrenderer>
    <brightnesscontrast brightness="0" contrast="0" gamma="1"/>
    <huesaturation saturation="0" grayscaleMode="0"/>
    <rasterresampler maxOversampling="2"/>
  </pipe>
  <blendMode>0</blendMode>
</qgis>
