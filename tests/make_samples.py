#!/usr/bin/env python3
"""Writes the sample bases and their job into a folder, and prints what the program has to print.

    make_samples.py FOLDER
"""
import os
import sys

import model
from make_bases import CUBE_BASE, base, panel, panel_base, panel_dimensions, rim

ROWS, COLUMNS = 3, 2
FACES = panel(ROWS, COLUMNS)[1]
RIM = rim(FACES)

SAMPLES = {
    "cube.base": CUBE_BASE,
    "panel.base": panel_base(ROWS, COLUMNS),
    # the panel without the curve record of its rim edge from 2 to 5
    "damaged.base": base(panel_dimensions(ROWS, COLUMNS), FACES, [edge for edge in RIM if edge != (2, 5)]),
}

JOB = """\
# A closed cube: all vertices smooth, no curve edges.
base cube.base

# A panel of 3 by 2 quadrilaterals; its rim edges are curves.
base panel.base

# The same panel with one rim edge's curve record lost: refused, and the panel stays.
base damaged.base
"""


def main():
    if len(sys.argv) != 2:
        sys.exit("usage: make_samples.py FOLDER")
    folder = sys.argv[1]
    os.makedirs(folder, exist_ok=True)
    for name, data in SAMPLES.items():
        with open(os.path.join(folder, name), "wb") as file:
            file.write(data)
        print(model.report(data))
    with open(os.path.join(folder, "first.job"), "w", newline="\n") as file:
        file.write(JOB)


if __name__ == "__main__":
    main()
