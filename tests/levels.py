"""A model of levels, plans and curves, kept apart from the engine: docs/LEVELS.md in Python.

It refines whole meshes, keeps every level as lists, and works incidence out from them.
"""
from functools import cached_property

from model import Refused, sides

MOST_LEVELS = 5
MOST_FINEST = 65536
MOST_EDGES_AT_VERTEX = 8


class Level:
    """One level: its edges as pairs, its faces as lists of corners, curve marks and dimensions."""

    def __init__(self, dimensions, edges, faces, curves):
        self.dimensions = dimensions
        self.edges = edges
        self.faces = faces
        self.curves = curves    # the numbers of the curve edges

    @cached_property
    def corners(self):
        return sum(len(face) for face in self.faces)

    @cached_property
    def face_sides(self):
        """Of each face, its edges in the order of its corners."""
        numbers = {frozenset(ends): number for number, ends in enumerate(self.edges)}
        return [[numbers[frozenset(side)] for side in sides(list(face))] for face in self.faces]

    @cached_property
    def vertex_edges(self):
        at = [[] for _ in self.dimensions]
        for number, ends in enumerate(self.edges):
            for vertex in ends:
                at[vertex].append(number)
        return at

    @cached_property
    def vertex_faces(self):
        at = [[] for _ in self.dimensions]
        for number, face in enumerate(self.faces):
            for vertex in face:
                at[vertex].append(number)
        return at

    @cached_property
    def edge_faces(self):
        on = [[] for _ in self.edges]
        for number, edges in enumerate(self.face_sides):
            for edge in edges:
                on[edge].append(number)
        return on

    def finer(self):
        total, count = len(self.dimensions), len(self.edges)
        edges = []
        for number, (tail, head) in enumerate(self.edges):
            edges += [(tail, total + number), (total + number, head)]
        faces = []
        for number, (face, around) in enumerate(zip(self.faces, self.face_sides)):
            centre = total + count + number
            for i, corner in enumerate(face):
                edges.append((total + around[i], centre))
                faces.append((corner, total + around[i], centre, total + around[i - 1]))
        dimensions = (self.dimensions + [1 if number in self.curves else 2 for number in range(count)]
                      + [2] * len(self.faces))
        curves = {half for number in self.curves for half in (2 * number, 2 * number + 1)}
        return Level(dimensions, edges, faces, curves)


class Hierarchy:
    """The coarsest level and those of subdivision over it."""

    def __init__(self, coarsest, count):
        self.levels = [coarsest]
        for _ in range(count):
            self.levels.append(self.levels[-1].finer())

    @property
    def count(self):
        return len(self.levels) - 1

    @property
    def finest(self):
        return len(self.levels[-1].dimensions)

    @cached_property
    def uniform(self):
        return all((not level.curves and all(d == 2 for d in level.dimensions))
                   or (not level.faces and all(d == 1 for d in level.dimensions))
                   for level in self.levels[:-1])


def level_of_base(base):
    return Level(list(base.dimensions), list(base.edges), [tuple(face) for face in base.faces], set(base.curves))


def needed(base, count):
    """How many numbers the table of a plan needs (rows 12 and 13)."""
    if not 1 <= count <= MOST_LEVELS:
        raise Refused(12, count)
    vertices, edges, faces = base.counts()
    corners = sum(len(face) for face in base.faces)
    need = 0
    for level in range(count + 1):
        if vertices > MOST_FINEST:
            raise Refused(13, level)
        if level < count:
            need += 16 * corners
        vertices, edges, faces, corners = vertices + edges + faces, 2 * edges + corners, corners, 4 * corners
    return need


def plan(base, count, table=None):
    """The hierarchy of a base; the table has so many numbers, or as many as are needed (rows 12 to 15)."""
    need = needed(base, count)
    if table is not None and table < need:
        raise Refused(14, need)
    hierarchy = Hierarchy(level_of_base(base), count)
    for level in hierarchy.levels[1:]:
        for vertex, edges in enumerate(level.vertex_edges):
            if len(edges) > MOST_EDGES_AT_VERTEX:
                raise Refused(15, vertex)
    return hierarchy


def curve(closed, points, count):
    """The hierarchy of a curve (rows 16 and 12)."""
    if not (3 if closed else 2) <= points <= 1024:
        raise Refused(16, points)
    if not 1 <= count <= MOST_LEVELS:
        raise Refused(12, count)
    edges = [(i, i + 1) for i in range(points - 1)]
    dimensions = [1] * points
    if closed:
        edges.append((points - 1, 0))
    else:
        dimensions[0] = dimensions[-1] = 0
    return Hierarchy(Level(dimensions, edges, [], set(range(len(edges)))), count)
