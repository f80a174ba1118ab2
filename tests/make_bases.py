#!/usr/bin/env python3
"""Writes the test bases and the job that reads them all, and prints what the program has to print.

    make_bases.py FOLDER > EXPECTED

FOLDER gets one file for each case and the file `job`. Each case states its answer by hand; the expected output
comes from model.py, and the script stops where the two differ. A case `rNN-...` is refused by row NN.
"""
import os
import sys

import model

END = b"\x00"


# Records and meshes. A mesh is its number of vertices and its list of faces.

def two_bytes(number):
    return bytes([number % 256, number // 256])


def vertices(*dimensions):
    return b"".join(bytes([1, dimension]) for dimension in dimensions)


def face(*corners):
    return bytes([len(corners)]) + b"".join(map(two_bytes, corners))


def curve(a, b):
    return b"\x02" + two_bytes(a) + two_bytes(b)


def curves_round(corners):
    return b"".join(curve(a, b) for a, b in model.sides(list(corners)))


def uses(faces):
    """The edges in their order and first direction, with the number of faces on each."""
    count = {}
    for corners in faces:
        for tail, head in model.sides(list(corners)):
            key = (head, tail) if (head, tail) in count else (tail, head)
            count[key] = count.get(key, 0) + 1
    return count


def rim(faces):
    return [edge for edge, faces_on in uses(faces).items() if faces_on == 1]


def base(dimensions, faces, curves=()):
    return (vertices(*dimensions) + b"".join(face(*corners) for corners in faces)
            + b"".join(curve(a, b) for a, b in curves) + END)


def sheet(faces, dimensions):
    """A base whose curves are its rim."""
    return base(dimensions, faces, rim(faces))


def polygon(corners, dimension=0):
    return sheet([range(corners)], [dimension] * corners)


def panel(rows, columns):
    """Quadrilaterals in rows: vertices row by row from the top, faces left to right above and back below."""
    width = columns + 1
    faces = [(i * width + j, i * width + j + 1, (i + 1) * width + j + 1, (i + 1) * width + j)
             for i in range(rows) for j in range(columns)]
    return (rows + 1) * width, faces


def panel_dimensions(rows, columns):
    """Dimension 0 at the four corners, 1 on the rest of the rim, 2 inside."""
    return [2 - (i in (0, rows)) - (j in (0, columns)) for i in range(rows + 1) for j in range(columns + 1)]


def panel_base(rows, columns):
    return sheet(panel(rows, columns)[1], panel_dimensions(rows, columns))


def torus(rows, columns):
    """Quadrilaterals on a grid that closes in both directions."""
    def at(i, j):
        return i % rows * columns + j % columns
    faces = [(at(i, j), at(i, j + 1), at(i + 1, j + 1), at(i + 1, j)) for i in range(rows) for j in range(columns)]
    return rows * columns, faces


def halved(faces):
    """Each quadrilateral as two triangles."""
    return [half for a, b, c, d in faces for half in ((a, b, c), (a, c, d))]


def closed_fan(count, centre=0):
    """Triangles all round one vertex; the others are numbered in order round it."""
    others = [vertex for vertex in range(count + 1) if vertex != centre]
    return count + 1, [(centre, a, b) for a, b in model.sides(others)]


def open_fan(count):
    """Triangles in a row round vertex 0."""
    return count + 2, [(0, i, i + 1) for i in range(1, count + 1)]


def prism(corners):
    top = tuple(range(corners, 2 * corners))
    walls = [(i, (i + 1) % corners, (i + 1) % corners + corners, i + corners) for i in range(corners)]
    return 2 * corners, [tuple(reversed(range(corners))), top] + walls


TETRAHEDRON = [(0, 1, 2), (0, 3, 1), (1, 3, 2), (2, 3, 0)]
CUBE = prism(4)[1]
TRIANGLE_BASE = polygon(3)
QUAD = vertices(0, 0, 0, 0) + face(0, 1, 2, 3)      # records 0 to 4, without curves and end
QUAD_RIM = curves_round(range(4))
QUAD_BASE = QUAD + QUAD_RIM + END
CUBE_BASE = base([2] * 8, CUBE)
TORUS_256 = torus(16, 16)[1]                        # 256 vertices, 512 edges, 256 faces
CHECKERS = [corners for k, corners in enumerate(TORUS_256) if (k // 16 + k) % 2 == 0]   # each edge in one of these
TRIANGLES_256 = halved(torus(8, 16)[1])             # 128 vertices, 384 edges, 256 faces


def with_dimension(count, dimension, **others):
    """`count` times a dimension, but others at some vertices, as v5=1."""
    dimensions = [dimension] * count
    for name, other in others.items():
        dimensions[int(name[1:])] = other
    return dimensions


def fan_base(count, centre=0):
    """A closed fan: smooth in the centre, its rim a curve."""
    total, faces = closed_fan(count, centre)
    return sheet(faces, with_dimension(total, 1, **{"v%d" % centre: 2}))


# The cases: a title for each group, then name, bytes, answer.

def good():
    yield "triangle", TRIANGLE_BASE, "3 3 1"
    yield "quadrilateral", QUAD_BASE, "4 4 1"
    yield "pentagon", polygon(5), "5 5 1"
    yield "hexagon", polygon(6), "6 6 1"
    yield "heptagon", polygon(7), "7 7 1"
    yield "octagon-all-on-curve", polygon(8, 1), "8 8 1"
    yield "tetrahedron", base([2] * 4, TETRAHEDRON), "4 6 4"
    yield "cube", CUBE_BASE, "8 12 6"
    yield "panel-3-by-2", panel_base(3, 2), "12 17 6"
    yield "sheets-apart", sheet([(0, 1, 2), (3, 4, 5)], [0] * 6), "6 6 2"
    yield "sheets-touch-at-vertex", sheet([(0, 1, 2, 3), (2, 4, 5, 6)], with_dimension(7, 1, v2=0)), "7 8 2"
    yield "curves-any-order", QUAD + curve(3, 2) + curve(0, 1) + curve(0, 3) + curve(1, 2) + END, "4 4 1"
    folded = panel(1, 2)[1]
    yield "curve-inside", base(with_dimension(6, 1, v1=0, v4=0), folded, rim(folded) + [(4, 1)]), "6 7 2"
    yield "curve-ring-on-cube", base([2] * 4 + [1] * 4, CUBE, [(4, 5), (5, 6), (6, 7), (7, 4)]), "8 12 6"
    yield "corners-without-curve", base([0] * 8, CUBE), "8 12 6"
    yield "same-triangle-twice", base([2] * 3, [(0, 1, 2), (0, 1, 2)]), "3 3 2"
    yield "faces-along-same-direction", sheet([(0, 1, 2), (0, 1, 3)], [1] * 4), "4 5 2"
    yield "256-vertices", panel_base(15, 15), "256 480 225"
    yield "256-faces", base([2] * 128, TRIANGLES_256), "128 384 256"
    yield "512-edges", sheet(CHECKERS, [0] * 256), "256 512 128"
    yield "all-limits-at-once", base([2] * 256, TORUS_256), "256 512 256"
    yield "8-edges-at-vertex", fan_base(8), "9 16 8"
    yield "8-edges-at-rim-vertex", sheet(open_fan(7)[1], [1] * 9), "9 15 7"


def row_1():
    yield "empty", b"", "refused 1 0"
    yield "ends-in-vertex", vertices(0, 0, 0) + b"\x01", "refused 1 3"
    yield "ends-in-curve", QUAD + QUAD_RIM[:-1], "refused 1 8"
    yield "ends-in-3-corners", vertices(0, 0, 0) + face(0, 1, 2)[:1], "refused 1 3"
    yield "ends-in-4-corners", QUAD[:-1], "refused 1 4"
    yield "ends-in-5-corners", vertices(*[0] * 5) + face(0, 1, 2, 3, 4)[:2], "refused 1 5"
    yield "ends-in-6-corners", vertices(*[0] * 6) + face(0, 1, 2, 3, 4, 5)[:7], "refused 1 6"
    yield "ends-in-7-corners", vertices(*[0] * 7) + face(0, 1, 2, 3, 4, 5, 6)[:-2], "refused 1 7"
    yield "ends-in-8-corners", vertices(*[0] * 8) + face(0, 1, 2, 3, 4, 5, 6, 7)[:-1], "refused 1 8"
    yield "no-end-after-vertices", vertices(0, 0, 0), "refused 1 3"
    yield "no-end-after-curves", QUAD_BASE[:-1], "refused 1 9"
    # rows 1 and 3
    yield "out-of-order-too", QUAD + curve(0, 1) + face(0, 1, 2)[:-1], "refused 1 6"


def row_2():
    yield "kind-255-first", b"\xff" + QUAD_BASE, "refused 2 0"
    yield "kind-9", vertices(0, 0, 0) + bytes([9]) + face(0, 1, 2) + QUAD_BASE, "refused 2 3"
    yield "kind-9-as-last-byte", QUAD + QUAD_RIM + bytes([9]), "refused 2 9"
    yield "kind-128-after-curve", QUAD + curve(0, 1) + bytes([128]) + END, "refused 2 6"


def row_3():
    yield "vertex-after-face", QUAD + vertices(0) + QUAD_RIM + END, "refused 3 5"
    yield "face-after-curve", vertices(*[0] * 4) + face(0, 1, 2) + curve(0, 1) + face(0, 2, 3) + END, "refused 3 6"
    yield "vertex-after-curve", QUAD + QUAD_RIM + vertices(0) + END, "refused 3 9"
    # rows 3 and 4
    yield "bad-dimension-too", QUAD + vertices(3) + END, "refused 3 5"
    yield "unknown-vertex-too", QUAD + QUAD_RIM + face(2, 3, 4) + END, "refused 3 9"


def row_4():
    yield "dimension-3", vertices(0, 1, 2, 3) + face(0, 1, 2, 3) + END, "refused 4 3"
    yield "dimension-255", vertices(255) + END, "refused 4 0"
    yield "face-before-vertices", face(0, 1, 2) + vertices(0, 0, 0) + END, "refused 4 0"
    yield "face-unknown-vertex", vertices(0, 0, 0) + face(0, 1, 3) + END, "refused 4 3"
    # the low byte alone would name vertex 0
    yield "face-vertex-256", vertices(0, 0, 0, 0) + face(1, 2, 3, 256) + END, "refused 4 4"
    yield "face-vertex-256-of-256", vertices(*[0] * 256) + face(254, 255, 256) + END, "refused 4 256"
    yield "face-vertex-65535", vertices(0, 0, 0) + face(0, 65535, 2) + END, "refused 4 3"
    yield "face-high-byte-first", vertices(0, 0, 0) + bytes([3, 0, 0, 0, 1, 0, 2]) + END, "refused 4 3"
    yield "face-vertex-twice", vertices(0, 0, 0, 0) + face(0, 1, 1, 3) + END, "refused 4 4"
    yield "face-ends-where-it-began", vertices(0, 0, 0) + face(0, 1, 2, 0) + END, "refused 4 3"
    yield "curve-unknown-vertex", QUAD + curve(3, 4) + END, "refused 4 5"
    yield "curve-vertex-256", QUAD + curve(0, 1) + curve(256, 1) + END, "refused 4 6"
    yield "curve-vertex-twice", QUAD + curve(0, 1) + curve(2, 2) + END, "refused 4 6"
    # rows 4 and 6, then rows 4 and 7
    yield "third-face-too", vertices(0, 0, 0) + 2 * face(0, 1, 2) + face(0, 1, 3) + END, "refused 4 5"
    yield "257th-vertex-too", vertices(*[0] * 256, 3) + END, "refused 4 256"


def row_5():
    yield "no-such-edge", QUAD + curve(0, 1) + curve(0, 2) + END, "refused 5 6"
    yield "edge-named-twice", QUAD + curve(0, 1) + curve(1, 2) + curve(0, 1) + END, "refused 5 7"
    yield "edge-named-twice-reversed", QUAD + curve(3, 0) + curve(0, 3) + END, "refused 5 6"
    yield "curve-before-any-face", vertices(0, 0, 0) + curve(0, 1) + face(0, 1, 2) + END, "refused 5 3"
    # the next record is refused by row 2
    yield "first-of-two-records", QUAD + curve(1, 3) + bytes([9]), "refused 5 5"


def row_6():
    book = vertices(*[0] * 5) + face(0, 1, 2) + face(0, 1, 3)
    yield "third-face", book + face(4, 1, 0) + END, "refused 6 7"
    yield "third-face-on-last-side", book + face(1, 4, 0) + END, "refused 6 7"
    yield "same-face-three-times", vertices(0, 0, 0) + face(0, 1, 2) + face(2, 1, 0) + face(1, 2, 0), "refused 6 5"
    # rows 6 and 7
    yield "257th-face-too", base([2] * 128, TRIANGLES_256 + [TRIANGLES_256[-1]]), "refused 6 384"
    # the next record is refused by row 4
    yield "first-of-two-records", book + face(0, 1, 4) + face(0, 1, 5) + END, "refused 6 7"


def row_7():
    yield "end-alone", END, "refused 7 0"
    yield "end-after-vertices", vertices(0, 1, 2) + END, "refused 7 3"
    yield "257-vertices", vertices(*[2] * 257) + END, "refused 7 256"
    yield "257-faces", base([2] * 128, TRIANGLES_256 + [(0, 40, 80)]), "refused 7 384"
    # half of a square left out: two of its sides are edges already, and the third is edge 512
    yield "513-edges", sheet(CHECKERS + [(1, 2, 18)], [0] * 256), "refused 7 384"
    # rows 7 and 8
    yield "byte-after-too", END + END, "refused 7 0"


def row_8():
    yield "byte-after", QUAD_BASE + END, "refused 8 38"
    yield "base-after-base", CUBE_BASE + TRIANGLE_BASE, "refused 8 71"
    # rows 8 and 9
    yield "open-edge-too", QUAD + END + b"\xff", "refused 8 18"


def row_9():
    yield "no-curve-at-all", QUAD + END, "refused 9 0"
    yield "last-edge-open", QUAD + QUAD_RIM[:-5] + END, "refused 9 3"
    yield "open-in-second-face", base([1] * 4, [(0, 1, 2), (2, 1, 3)], [(3, 1), (2, 0), (1, 0)]), "refused 9 4"
    # vertex 3 has no face, vertex 0 has one curve edge for its dimension 1, and edge 2 is open
    yield "rows-10-and-11-too", base([1, 0, 0, 2], [(0, 1, 2)], [(0, 1), (1, 2)]), "refused 9 2"


def row_10():
    yield "last-vertex-in-no-face", sheet([(0, 1, 2)], [0] * 4), "refused 10 3"
    yield "first-vertex-in-no-face", sheet([(1, 2, 3)], [0] * 4), "refused 10 0"
    yield "9-edges-at-vertex", fan_base(9), "refused 10 0"
    yield "9-edges-at-last-vertex", fan_base(9, 9), "refused 10 9"
    # vertex 0 has 9 edges and vertex 10 no face
    yield "lower-vertex-of-two", sheet(closed_fan(9)[1], [0] * 11), "refused 10 0"
    # vertex 0 is smooth on a rim, and vertex 3 has no face
    yield "row-11-too", sheet([(0, 1, 2)], [2, 0, 0, 0]), "refused 10 3"


def row_11():
    yield "dimension-2-on-rim", sheet([(0, 1, 2, 3)], [0, 0, 2, 0]), "refused 11 2"
    yield "dimension-2-with-one-curve", base(with_dimension(8, 2, v5=0), CUBE, [(5, 6)]), "refused 11 6"
    yield "dimension-1-with-one-curve", base(with_dimension(8, 2, v5=1, v6=1), CUBE, [(6, 5)]), "refused 11 5"
    folded = panel(1, 2)[1]
    yield "dimension-1-with-three-curves", base(with_dimension(6, 0, v4=1), folded, rim(folded) + [(1, 4)]), "refused 11 4"
    yield "dimension-1-with-no-curve", base(with_dimension(8, 2, v7=1), CUBE), "refused 11 7"
    yield "dimension-1-where-sheets-touch", sheet([(0, 1, 2, 3), (2, 4, 5, 6)], [1] * 7), "refused 11 2"


GROUPS = [
    ("ok", "bases that keep the rules", good),
    ("r01", "1: bytes end inside a record or before the end record", row_1),
    ("r02", "2: a kind above 8", row_2),
    ("r03", "3: a kind out of order", row_3),
    ("r04", "4: a dimension above 2, an unknown vertex, or one vertex twice", row_4),
    ("r05", "5: a curve that names no edge, or one already named", row_5),
    ("r06", "6: a third face on an edge", row_6),
    ("r07", "7: one more than a maximum, or no face", row_7),
    ("r08", "8: a byte after the end record", row_8),
    ("r09", "9: an edge in one face that is no curve", row_9),
    ("r10", "10: a vertex in no face, or with more than 8 edges", row_10),
    ("r11", "11: a dimension that does not fit the curve edges", row_11),
]


def cases(prefix, group):
    for name, data, answer in group():
        yield "%s-%s.base" % (prefix, name), data, "base " + answer


def checked(name, data, answer):
    line = model.report(data)
    if line != answer:
        sys.exit("%s: stated %s, but the model gives %s" % (name, answer, line))
    return line


def main():
    if len(sys.argv) != 2:
        sys.exit("usage: make_bases.py FOLDER")
    folder = sys.argv[1]
    os.makedirs(folder, exist_ok=True)
    job = ["# Every base of this folder, in groups by the row that refuses it.",
           "# After each group of refused bases a good one is read again."]
    for prefix, title, group in GROUPS:
        job += ["", "# " + title]
        for name, data, answer in cases(prefix, group):
            with open(os.path.join(folder, name), "wb") as file:
                file.write(data)
            job.append("base " + name)
            print(checked(name, data, answer))
        if prefix != "ok":
            job.append("base ok-cube.base")
            print(checked("ok-cube.base", CUBE_BASE, "base 8 12 6"))
    with open(os.path.join(folder, "job"), "w", newline="\n") as file:
        file.write("\n".join(job) + "\n")


if __name__ == "__main__":
    main()
