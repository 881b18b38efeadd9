"""Reads GDSII files by KLayout and writes them again, with records that draw nothing; `tools/resaved.py` runs it.

    klayout -b -r contrib/klayout/resave.py -rd folder=FOLDER -rd first=N -rd last=N

For each N from the first to the last, FOLDER/N.gds is written as N.oas and as N.again.gds. Labels, names of layers and
properties are added at random, and the options of the writers are random, but no compressed blocks are written.
"""

import os
import random

import pya

NAMES, VALUES = [1, 2, "net", "x y"], [1, -5, 0.25, "vdd", "a b", 10**9]


def add_names(rng, layout):
    for layer in layout.layer_indexes():
        info = layout.get_info(layer)
        if rng.random() < 0.5:
            name = "L%d.%d" % (info.layer, info.datatype)
            layout.set_info(layer, pya.LayerInfo(info.layer, info.datatype, name))


def add_properties(rng, layout, cell):
    drawn = [shape for layer in layout.layer_indexes() for shape in cell.shapes(layer).each()]
    for item in [*drawn, *cell.each_inst()]:
        for _ in range(rng.choice([0, 0, 1, 2])):
            item.set_property(rng.choice(NAMES), rng.choice(VALUES))


def add_labels(rng, layout, cell):
    """Labels, some of them in a row, so that KLayout may write them by a repetition."""
    for layer in layout.layer_indexes():
        for _ in range(rng.choice([0, 0, 1, 3])):
            x, y, step = rng.randint(-50, 50), rng.randint(-50, 50), rng.randint(0, 20)
            text = rng.choice(["in", "out", "a b", "vss!"])
            for at in range(rng.choice([1, 1, 3, 5])):
                cell.shapes(layer).insert(pya.Text(text, x + at * step, y))


def save(rng, layout, name):
    oasis = pya.SaveLayoutOptions()
    oasis.format = "OASIS"
    oasis.oasis_write_cblocks = False
    oasis.oasis_strict_mode = rng.random() < 0.7
    oasis.oasis_write_std_properties_ext = rng.randint(0, 2)
    oasis.oasis_compression_level = rng.choice([0, 1, 2, 10])
    oasis.oasis_recompress = rng.random() < 0.3
    layout.write(name + ".oas", oasis)
    gds = pya.SaveLayoutOptions()
    gds.format = "GDS2"
    gds.gds2_write_cell_properties = rng.random() < 0.5
    gds.gds2_write_file_properties = rng.random() < 0.5
    gds.gds2_resolve_skew_arrays = rng.random() < 0.5
    layout.write(name + ".again.gds", gds)


for number in range(int(first), int(last) + 1):
    rng = random.Random(number)
    name = os.path.join(folder, str(number))
    layout = pya.Layout()
    layout.read(name + ".gds")
    add_names(rng, layout)
    for cell in layout.each_cell():
        add_properties(rng, layout, cell)
        add_labels(rng, layout, cell)
    save(rng, layout, name)
