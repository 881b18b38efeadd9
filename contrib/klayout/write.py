"""Writes a small hierarchy as GDSII and as OASIS by KLayout; `make klayout` runs it.

    klayout -b -r contrib/klayout/write.py -rd gds=OUT.gds -rd oasis=OUT.oas -rd packed=PACKED.oas

The options are KLayout's defaults, but OUT.oas has no compressed blocks. There are labels, names of layers and
properties, which draw nothing.
"""

import pya


def gate(layout):
    """A cell of two boxes, one of which has properties, a path with square ends, a polygon, and labels."""
    cell = layout.create_cell("GATE")
    box = cell.shapes(layout.layer(pya.LayerInfo(1, 0, "active"))).insert(pya.Box(0, 0, 400, 200))
    box.set_property(1, "vdd")
    box.set_property(2, 77)
    poly = layout.layer(pya.LayerInfo(2, 0, "poly"))
    cell.shapes(poly).insert(pya.Box(100, -50, 140, 250))
    for at in range(4):
        cell.shapes(poly).insert(pya.Text("in", 100 * at, 20))
    corner = [pya.Point(200, 0), pya.Point(300, 0), pya.Point(300, 200)]
    cell.shapes(layout.layer(3, 0)).insert(pya.Path(corner, 40, 20, 20))
    step = [(0, 210), (0, 300), (90, 300), (90, 250), (50, 250), (50, 210)]
    cell.shapes(layout.layer(3, 5)).insert(pya.Polygon([pya.Point(x, y) for x, y in step]))
    return cell


def chip(layout):
    """A row of gates as an array, placed three times: as it is, reflected and turned, and turned."""
    row = layout.create_cell("ROW")
    array = pya.CellInstArray(gate(layout).cell_index(), pya.Trans(), pya.Vector(500, 0), pya.Vector(0, 600), 8, 2)
    row.insert(array)
    top = layout.create_cell("CHIP")
    for transform in (pya.Trans(), pya.Trans(1, True, 6000, 0), pya.Trans(2, False, 0, 9000)):
        top.insert(pya.CellInstArray(row.cell_index(), transform))


def save(layout, path, form, has_blocks=True):
    options = pya.SaveLayoutOptions()
    options.format = form
    options.oasis_write_cblocks = has_blocks
    layout.write(path, options)


layout = pya.Layout()
layout.dbu = 0.001
chip(layout)
save(layout, gds, "GDS2")
save(layout, oasis, "OASIS", has_blocks=False)
save(layout, packed, "OASIS")
