#!/usr/bin/env python3
"""A model of reading a base, kept apart from the engine: docs/FORMATS.md and docs/REFUSALS.md in Python.

    model.py FILE...     prints, for each file, the line that the program prints for `base FILE`

For each record the model works out every row that refuses it and takes the lowest. It keeps running counts
(faces on each edge, edges at each vertex) and never searches the mesh.
"""
import sys

END, VERTEX, CURVE = 0, 1, 2
MOST_VERTICES = 256
MOST_FACES = 256
MOST_EDGES = 512
MOST_EDGES_AT_VERTEX = 8

# the length of each kind's body; kinds that are not here do not exist
BODY = {END: 0, VERTEX: 1, CURVE: 4, **{corners: 2 * corners for corners in range(3, 9)}}


class Refused(Exception):
    def __init__(self, row, value):
        super().__init__(row, value)
        self.row = row
        self.value = value


class Base:
    def __init__(self):
        self.dimensions = []    # of each vertex
        self.edges_at = []      # of each vertex, how many edges end there
        self.corners_at = []    # of each vertex, how many faces have it as a corner
        self.faces = []         # of each face, its corners in order
        self.edges = []         # of each edge, its two ends in its first direction
        self.faces_on = []      # of each edge, how many faces lie on it
        self.numbers = {}       # from a set of two ends to the edge's number
        self.curves = set()     # the numbers of the curve edges

    def counts(self):
        return len(self.dimensions), len(self.edges), len(self.faces)

    def curves_at(self):
        """Of each vertex, how many curve edges end there."""
        count = [0] * len(self.dimensions)
        for number in self.curves:
            for vertex in self.edges[number]:
                count[vertex] += 1
        return count


def vertex_numbers(body):
    return [body[i] + 256 * body[i + 1] for i in range(0, len(body), 2)]


def sides(corners):
    """The sides of a face as pairs: side i leads from corner i to the next, the last one back to corner 0."""
    return list(zip(corners, corners[1:] + corners[:1]))


def names_badly(base, vertices):
    """Row 4 for a face or a curve: a vertex that is not there, or one vertex twice."""
    return max(vertices) >= len(base.dimensions) or len(set(vertices)) < len(vertices)


def rows_against(base, kind, body):
    """All rows from 3 to 7 that refuse a record with this kind and body, after the records that made `base`."""
    rows = set()
    if kind == END:
        if not base.faces:
            rows.add(7)
    elif kind == VERTEX:
        if base.faces or base.curves:
            rows.add(3)
        if body[0] > 2:
            rows.add(4)
        if len(base.dimensions) == MOST_VERTICES:
            rows.add(7)
    elif kind == CURVE:
        ends = vertex_numbers(body)
        number = base.numbers.get(frozenset(ends))
        if names_badly(base, ends):
            rows.add(4)
        if number is None or number in base.curves:
            rows.add(5)
    else:
        corners = vertex_numbers(body)
        keys = {frozenset(side) for side in sides(corners)}
        known = [base.numbers[key] for key in keys if key in base.numbers]
        if base.curves:
            rows.add(3)
        if names_badly(base, corners):
            rows.add(4)
        if any(base.faces_on[number] == 2 for number in known):
            rows.add(6)
        if len(base.faces) == MOST_FACES or len(base.edges) + len(keys) - len(known) > MOST_EDGES:
            rows.add(7)
    return rows


def add(base, kind, body):
    """Takes in a record that no row refuses."""
    if kind == VERTEX:
        base.dimensions.append(body[0])
        base.edges_at.append(0)
        base.corners_at.append(0)
    elif kind == CURVE:
        base.curves.add(base.numbers[frozenset(vertex_numbers(body))])
    elif kind != END:
        corners = vertex_numbers(body)
        base.faces.append(corners)
        for vertex in corners:
            base.corners_at[vertex] += 1
        for tail, head in sides(corners):
            number = base.numbers.setdefault(frozenset((tail, head)), len(base.edges))
            if number == len(base.edges):
                base.edges.append((tail, head))
                base.faces_on.append(0)
                base.edges_at[tail] += 1
                base.edges_at[head] += 1
            base.faces_on[number] += 1


def read_records(data):
    """The base at its end record, and the index of the byte after that record (rows 1 to 7)."""
    base = Base()
    at = 0
    record = 0
    while True:
        if at == len(data):
            raise Refused(1, record)
        kind = data[at]
        if kind not in BODY:
            raise Refused(2, record)
        body = data[at + 1:at + 1 + BODY[kind]]
        if len(body) < BODY[kind]:
            raise Refused(1, record)
        rows = rows_against(base, kind, body)
        if rows:
            raise Refused(min(rows), record)
        add(base, kind, body)
        at += 1 + len(body)
        record += 1
        if kind == END:
            return base, at


def read(data):
    """The base that the bytes hold; raises Refused."""
    base, at = read_records(data)
    if at < len(data):
        raise Refused(8, at)
    for edge, faces in enumerate(base.faces_on):
        if faces == 1 and edge not in base.curves:
            raise Refused(9, edge)
    for vertex, edges in enumerate(base.edges_at):
        if base.corners_at[vertex] == 0 or edges > MOST_EDGES_AT_VERTEX:
            raise Refused(10, vertex)
    for vertex, curves in enumerate(base.curves_at()):
        dimension = base.dimensions[vertex]
        if (dimension == 2 and curves != 0) or (dimension == 1 and curves != 2):
            raise Refused(11, vertex)
    return base


def report(data):
    """The line that the program prints for a file with these bytes."""
    try:
        return "base %d %d %d" % read(data).counts()
    except Refused as refused:
        return "base refused %d %d" % (refused.row, refused.value)


if __name__ == "__main__":
    for name in sys.argv[1:]:
        with open(name, "rb") as file:
            print(report(file.read()))
