"""A model of value kinds, schemes, steps and the plain history, kept apart from the engine: docs/TRANSFORM.md and
docs/FORM.md in Python.

Amounts are worked out in exact fractions and rounded at the end. The history keeps the opened values and the surviving
moves, and rebuilds the present values from them whenever they are asked for.
"""
from fractions import Fraction
from math import floor

from model import Refused

VERTEX, EDGE, FACE = "vertex", "edge", "face"
MOST_SLOTS = 4096


def wrapped(number):
    """The one number of 32 bits, signed, that differs by a multiple of 2^32."""
    return (number + 2**31) % 2**32 - 2**31


def rounded(q):
    return floor(q + Fraction(1, 2))


def mean(values):
    return Fraction(sum(values), len(values)) if values else Fraction(0)


class Spline:
    """The linear and the cubic scheme: a factor for each step. Its values are three coordinates."""
    words = 3

    def __init__(self, factors, needs_uniform):
        self.factors = factors
        self.needs_uniform = needs_uniform

    def plus(self, x, y):
        return tuple(wrapped(a + b) for a, b in zip(x, y))

    def opposite(self, x):
        return tuple(wrapped(-a) for a in x)

    def amount(self, step, place_class, dimension, vertices, edges, faces):
        return tuple(wrapped(rounded(self.lift(self.factors[step - 1], step, place_class, dimension,
                                               *([value[i] for value in values] for values in (vertices, edges, faces)))))
                     for i in range(3))

    @staticmethod
    def lift(a, step, place_class, dimension, vertices, edges, faces):
        if step == 2:
            if place_class == FACE:
                return 4 * a * a * mean(vertices) + 4 * a * mean(edges)
            return 2 * a * mean(vertices)
        if place_class == VERTEX:
            if dimension == 2:
                return 4 * a * a * mean(faces) + 4 * a * mean(edges)
            return 2 * a * mean(edges) if dimension == 1 else Fraction(0)
        return 2 * a * mean(faces) if dimension == 2 else Fraction(0)


class MarksScheme:
    """32 flags, added by exclusive or."""
    words = 1
    needs_uniform = False

    def plus(self, x, y):
        return (x[0] ^ y[0],)

    def opposite(self, x):
        return x

    def amount(self, step, place_class, dimension, vertices, edges, faces):
        if step != 2 or not vertices:
            return (0,)
        common = 2**32 - 1
        for value in vertices:
            common &= value[0]
        return (common,)


class Both:
    """Two schemes side by side. A value of the pair has the words of the first, then those of the second."""

    def __init__(self, first, second):
        self.first = first
        self.second = second
        self.words = first.words + second.words
        self.needs_uniform = first.needs_uniform or second.needs_uniform

    def parts(self, value):
        return value[:self.first.words], value[self.first.words:]

    def plus(self, x, y):
        (a, b), (c, d) = self.parts(x), self.parts(y)
        return self.first.plus(a, c) + self.second.plus(b, d)

    def opposite(self, x):
        a, b = self.parts(x)
        return self.first.opposite(a) + self.second.opposite(b)

    def amount(self, step, place_class, dimension, *reads):
        split = [[self.parts(value) for value in values] for values in reads]
        return (self.first.amount(step, place_class, dimension, *([a for a, _ in values] for values in split))
                + self.second.amount(step, place_class, dimension, *([b for _, b in values] for values in split)))


LINEAR = Spline((Fraction(0), Fraction(-1, 2), Fraction(1, 4)), False)
CUBIC = Spline((Fraction(-1, 4), Fraction(-1), Fraction(3, 16)), True)
MARKS = MarksScheme()
SCHEMES = {
    "linear": LINEAR,
    "cubic": CUBIC,
    "marks": MARKS,
    "linear+marks": Both(LINEAR, MARKS),
    "cubic+marks": Both(CUBIC, MARKS),
}


def reads(level, step, place_class, number):
    """The dimension of what is changed, and the vertices, edges and faces that it reads."""
    if place_class == FACE:
        return 2, sorted(level.faces[number]), sorted(level.face_sides[number]), []
    if place_class == VERTEX:
        dimension = level.dimensions[number]
        edges = level.vertex_edges[number]
        if dimension == 2:
            return 2, [], edges, level.vertex_faces[number]
        if dimension == 1:
            return 1, [], [edge for edge in edges if edge in level.curves], []
        return 0, [], [], []
    dimension = 1 if number in level.curves else 2
    if step == 2:
        return dimension, sorted(level.edges[number]), [], []
    return dimension, [], [], level.edge_faces[number] if dimension == 2 else []


def half_step(scheme, level, values, step, place_class, up):
    """Changes every place of the class by its amount, or by the opposite on the way up."""
    total, count = len(level.dimensions), len(level.edges)
    first = {VERTEX: 0, EDGE: total, FACE: total + count}
    number_of = {VERTEX: total, EDGE: count, FACE: len(level.faces)}[place_class]
    before = list(values)
    for number in range(number_of):
        dimension, *numbers = reads(level, step, place_class, number)
        read = [[before[first[c] + i] for i in those] for c, those in zip((VERTEX, EDGE, FACE), numbers)]
        amount = scheme.amount(step, place_class, dimension, *read)
        if up:
            amount = scheme.opposite(amount)
        place = first[place_class] + number
        values[place] = scheme.plus(before[place], amount)


DOWN = [(1, VERTEX), (1, EDGE), (2, FACE), (2, EDGE), (3, VERTEX), (3, EDGE)]


def travel(scheme, hierarchy, values, start, end):
    """Analyses alone or syntheses alone, from one depth to another, in place."""
    for depth in range(start, end, -1):
        for step, place_class in DOWN:
            half_step(scheme, hierarchy.levels[depth - 1], values, step, place_class, False)
    for depth in range(start, end):
        for step, place_class in reversed(DOWN):
            half_step(scheme, hierarchy.levels[depth], values, step, place_class, True)


class History:
    """The plain history of a form: its opening, its depth and its surviving moves."""

    def __init__(self, hierarchy, scheme, values, depth, slots):
        if scheme.needs_uniform and not hierarchy.uniform:
            raise Refused(17, 0)
        if len(values) != hierarchy.finest:
            raise Refused(18, len(values))
        if slots > MOST_SLOTS:
            raise Refused(18, slots)
        if depth > hierarchy.count:
            raise Refused(19, depth)
        self.hierarchy = hierarchy
        self.scheme = scheme
        self.opened = list(values)
        self.opened_depth = depth
        self.slots = slots
        self.depth = depth
        self.moves = []         # place, depth and amount of each

    def lend(self, points, slots):
        """Row 18, where so many points and slots are lent, or all there are."""
        points = len(self.opened) if points is None else min(points, len(self.opened))
        slots = self.slots if slots is None else min(slots, self.slots)
        if points != len(self.opened):
            raise Refused(18, points)
        if slots != self.slots:
            raise Refused(18, slots)

    def analyse(self):
        if self.depth == 0:
            raise Refused(19, 0)
        self.depth -= 1
        return self.depth

    def synthesise(self):
        if self.depth == self.hierarchy.count:
            raise Refused(19, self.depth)
        self.depth += 1
        return self.depth

    def move(self, place, amount):
        if place >= len(self.opened):
            raise Refused(20, place)
        if len(self.moves) == self.slots:
            raise Refused(21, len(self.moves))
        self.moves.append((place, self.depth, amount))
        return len(self.moves)

    def take_back(self):
        if not self.moves:
            raise Refused(22, 0)
        self.moves.pop()
        return len(self.moves)

    def read(self, place):
        if place >= len(self.opened):
            raise Refused(20, place)
        return self.values()[place]

    def values(self):
        values = list(self.opened)
        depth = self.opened_depth
        for place, at, amount in self.moves:
            travel(self.scheme, self.hierarchy, values, depth, at)
            depth = at
            values[place] = self.scheme.plus(values[place], amount)
        travel(self.scheme, self.hierarchy, values, depth, self.depth)
        return values
