#!/usr/bin/env python3
"""Random bases, good and damaged, to compare the program with model.py.

    random_bases.py [--seed N] [--count N] [--program PATH]

Writes the bases and one job that reads them all into a temporary folder, runs `PATH job` there once, and compares
its output with the model's line by line. Prints how often each answer came up, and the first difference if there is
one; then the exit status is 1 and the folder stays. Without a program only the model's counts are printed.
"""
import argparse
import os
import random
import shutil
import subprocess
import sys
import tempfile

import model
from make_bases import (CHECKERS, CUBE, END, TETRAHEDRON, TORUS_256, TRIANGLES_256, closed_fan, curve, face, halved,
                        open_fan, panel, prism, torus, uses, vertices)


# Meshes that keep the rules on faces and edges: a number of vertices and a list of faces.

def glued(rng):
    """A polygon, then more polygons, each glued to an open edge and at times closing on vertices already there."""
    faces = [tuple(range(rng.randint(3, 8)))]
    total = len(faces[0])
    for _ in range(rng.randint(1, 25)):
        tail, head = rng.choice(sorted(uses(faces)))
        corners = [head, tail]
        fresh = total
        for _ in range(rng.choice((1, 1, 2, 2, 3, 6))):
            if rng.random() < 0.35:
                corners.append(rng.randrange(total))
            else:
                corners.append(fresh)
                fresh += 1
        if keeps_rules(fresh, faces + [tuple(corners)]):
            faces.append(tuple(corners))
            total = fresh
    return total, faces


def keeps_rules(total, faces):
    edges = uses(faces)
    at = [0] * total
    for ends in edges:
        for vertex in ends:
            at[vertex] += 1
    return (len(set(faces[-1])) == len(faces[-1]) and max(edges.values()) <= 2 and max(at) <= 8
            and total <= 256 and len(edges) <= 512)


def side_by_side(rng):
    """Two small meshes, apart or touching at one vertex."""
    (total, faces), (other_total, others) = closed_fan(rng.randint(3, 6)), panel(rng.randint(1, 2), rng.randint(1, 2))
    shift = total - rng.randint(0, 1)
    return shift + other_total, faces + [tuple(vertex + shift for vertex in corners) for corners in others]


def small_mesh(rng):
    return rng.choice((
        lambda: panel(rng.randint(1, 5), rng.randint(1, 5)),
        lambda: closed_fan(rng.randint(3, 8)),
        lambda: open_fan(rng.randint(1, 7)),
        lambda: torus(rng.randint(3, 6), rng.randint(3, 6)),
        lambda: (16, halved(torus(4, 4)[1])),
        lambda: prism(rng.randint(3, 8)),
        lambda: (4, TETRAHEDRON),
        lambda: (8, CUBE),
        lambda: (8, rng.sample(CUBE, 5)),
        lambda: side_by_side(rng),
        lambda: glued(rng),
        lambda: glued(rng),
        lambda: glued(rng),
    ))()


def large_mesh(rng):
    """At or near a maximum."""
    return rng.choice((
        lambda: panel(15, 15),
        lambda: (256, TORUS_256),
        lambda: (256, TORUS_256[:-1]),
        lambda: (256, CHECKERS),
        lambda: (128, TRIANGLES_256),
        lambda: (128, TRIANGLES_256[:-2]),
    ))()


# A mesh becomes a list of records.

def renumbered(rng, total, faces):
    numbers = list(range(total))
    rng.shuffle(numbers)
    faces = [[numbers[vertex] for vertex in corners] for corners in faces]
    rng.shuffle(faces)
    for corners in faces:
        turn = rng.randrange(len(corners))
        corners[:] = corners[turn:] + corners[:turn]
        if rng.random() < 0.3:
            corners.reverse()
    return faces


def good_records(rng, total, faces):
    faces = renumbered(rng, total, faces)
    inner = rng.choice((0, 0, 0.1, 0.5))
    curves = [edge for edge, faces_on in uses(faces).items() if faces_on == 1 or rng.random() < inner]
    at = [0] * total
    for ends in curves:
        for vertex in ends:
            at[vertex] += 1
    fitting = {0: (2, 2, 2, 0), 2: (1, 1, 1, 0)}
    dimensions = [rng.choice(fitting.get(count, (0,))) for count in at]
    if rng.random() < 0.7:
        rng.shuffle(curves)
        curves = [rng.choice(((a, b), (b, a))) for a, b in curves]
    return ([vertices(dimension) for dimension in dimensions] + [face(*corners) for corners in faces]
            + [curve(a, b) for a, b in curves] + [END])


# Damage. Each function changes the list of records; bytes that are no record may stand in it too.

def of_kind(records, kinds):
    return [i for i, record in enumerate(records) if record and record[0] in kinds]


def number_near(rng, total):
    """A vertex number, mostly one that is there."""
    if rng.random() < 0.85:
        return rng.randrange(max(total, 1))
    return rng.choice((total, total + 1, 255, 256, 257, 512, 65535))


def some_record(rng, records):
    total = len(of_kind(records, (1,)))
    choice = rng.randrange(5)
    if choice == 0:
        return vertices(rng.choice((0, 1, 2, 2, 3, 255)))
    if choice == 1:
        return curve(number_near(rng, total), number_near(rng, total))
    if choice == 2:
        return END
    return face(*(number_near(rng, total) for _ in range(rng.randint(3, 8))))


def swap_records(rng, records):
    i, j = rng.randrange(len(records)), rng.randrange(len(records))
    records[i], records[j] = records[j], records[i]


def drop_record(rng, records):
    del records[rng.randrange(len(records))]


def drop_curve(rng, records):
    curves = of_kind(records, (2,))
    if curves:
        del records[rng.choice(curves)]


def drop_face(rng, records):
    faces = of_kind(records, range(3, 9))
    if faces:
        del records[rng.choice(faces)]


def repeat_record(rng, records):
    i = rng.randrange(len(records))
    records.insert(i, records[i])


def repeat_curve(rng, records):
    curves = of_kind(records, (2,))
    if curves:
        a, b, c, d = records[rng.choice(curves)][1:5]
        records.insert(rng.choice(curves) + 1, rng.choice((bytes([2, a, b, c, d]), bytes([2, c, d, a, b]))))


def insert_record(rng, records):
    records.insert(rng.randrange(len(records) + 1), some_record(rng, records))


def add_vertex(rng, records):
    """After the vertices, where one more is in order."""
    records.insert(len(of_kind(records, (1,))), vertices(rng.choice((0, 0, 2, 3))))


def add_face(rng, records):
    """After the faces, where one more is in order: any corners, or a face already there."""
    faces = of_kind(records, range(3, 9))
    total = len(of_kind(records, (1,)))
    if faces and total >= 8:
        fresh = face(*rng.sample(range(total), rng.randint(3, 8)))
        records.insert(faces[-1] + 1, rng.choice((fresh, fresh, records[rng.choice(faces)])))


def add_curve(rng, records):
    """Along a side of some face, or between any two vertices, before the last record."""
    faces = of_kind(records, range(3, 9))
    if faces:
        body = records[rng.choice(faces)][1:]
        total = len(of_kind(records, (1,)))
        along = b"\x02" + body[:4]
        records.insert(len(records) - 1, rng.choice((along, curve(number_near(rng, total), number_near(rng, total)))))


def add_spokes(rng, records):
    """More triangles at one vertex, on vertices of their own, with their rims as curves."""
    faces = of_kind(records, range(3, 9))
    total = len(of_kind(records, (1,)))
    if faces and total + 10 < 256:
        count = rng.randint(2, 5)
        centre = rng.randrange(total)
        added = [(centre, total + 2 * i, total + 2 * i + 1) for i in range(count)]
        rims = [curve(a, b) for corners in added for a, b in model.sides(list(corners))]
        records[-1:-1] = rims
        records[faces[-1] + 1:faces[-1] + 1] = [face(*corners) for corners in added]
        records[total:total] = [vertices(rng.choice((0, 1))) for _ in range(2 * count)]


def change_dimension(rng, records):
    places = of_kind(records, (1,))
    if places:
        records[rng.choice(places)] = vertices(rng.choice((0, 1, 2, 2, 1, 3, 4, 255)))


def change_number(rng, records):
    places = of_kind(records, range(2, 9))
    if places:
        i = rng.choice(places)
        body = bytearray(records[i])
        at = 1 + 2 * rng.randrange((len(body) - 1) // 2)
        number = number_near(rng, len(of_kind(records, (1,))))
        body[at:at + 2] = bytes([number % 256, number // 256])
        records[i] = bytes(body)


def as_bytes(change):
    """Damage that knows nothing of records."""
    def changed(rng, records):
        data = bytearray(b"".join(records))
        change(rng, data)
        records[:] = [bytes(data)]
    return changed


def change_byte(rng, data):
    if data:
        data[rng.randrange(len(data))] = rng.choice((rng.randrange(256), rng.randrange(10)))


def flip_bit(rng, data):
    if data:
        data[rng.randrange(len(data))] ^= 1 << rng.randrange(8)


def insert_bytes(rng, data):
    at = rng.randint(0, len(data))
    data[at:at] = bytes(rng.choice((rng.randrange(256), rng.randrange(10))) for _ in range(rng.randint(1, 4)))


def drop_bytes(rng, data):
    at = rng.randint(0, len(data))
    del data[at:at + rng.randint(1, 4)]


def cut_short(rng, data):
    del data[rng.randint(0, len(data)):]


def append_bytes(rng, data):
    data.extend(rng.choice((rng.randrange(256), rng.randrange(10))) for _ in range(rng.randint(1, 6)))


BY_RECORD = [swap_records, drop_record, drop_curve, drop_face, repeat_record, repeat_curve, insert_record, add_vertex,
             add_face, add_curve, add_spokes, change_dimension, change_number]
BY_BYTE = [as_bytes(change) for change in (change_byte, flip_bit, insert_bytes, drop_bytes, cut_short, append_bytes)]


def random_base(rng):
    """The bytes of one base: about one in four is good, one in a hundred is noise."""
    if rng.random() < 0.01:
        return bytes(rng.choice((rng.randrange(10), rng.randrange(256))) for _ in range(rng.randint(0, 40)))
    large = rng.random() < 0.03
    records = good_records(rng, *(large_mesh(rng) if large else small_mesh(rng)))
    if rng.random() < 0.25:
        data = b"".join(records)
        if model.report(data).startswith("base refused"):
            sys.exit("a base that should be good: %s, %s" % (model.report(data), data.hex(" ")))
        return data
    if large and rng.random() < 0.7:
        rng.choice((add_vertex, add_face))(rng, records)
    else:
        for _ in range(rng.choice((1, 1, 1, 2, 3))):
            if records:
                rng.choice(BY_RECORD)(rng, records)
    if rng.random() < 0.3:
        rng.choice(BY_BYTE)(rng, records)
    return b"".join(records)


def answer_of(line):
    words = line.split()
    return int(words[2]) if words[1] == "refused" else 0


def run(program, folder):
    done = subprocess.run([program, "job"], cwd=folder, stdout=subprocess.PIPE, stderr=subprocess.PIPE)
    lines = done.stdout.decode("utf-8", "replace").splitlines()
    return lines, done.returncode, done.stderr.decode("utf-8", "replace")


def first_difference(expected, lines):
    for i, line in enumerate(expected):
        if i >= len(lines) or lines[i] != line:
            return i
    return None if len(lines) == len(expected) else len(expected)


def main():
    parser = argparse.ArgumentParser(description="Compares the program with model.py on random bases.")
    parser.add_argument("--seed", type=int, default=1)
    parser.add_argument("--count", type=int, default=1000)
    parser.add_argument("--program", metavar="PATH")
    options = parser.parse_args()

    rng = random.Random(options.seed)
    bases = [random_base(rng) for _ in range(options.count)]
    expected = [model.report(data) for data in bases]
    answers = [answer_of(line) for line in expected]
    print("good: %d" % answers.count(0))
    for row in range(1, 12):
        print("refused %d: %d" % (row, answers.count(row)))
    if options.program is None:
        return 0

    folder = tempfile.mkdtemp(prefix="random-bases-")
    names = ["%06d.base" % i for i in range(options.count)]
    for name, data in zip(names, bases):
        with open(os.path.join(folder, name), "wb") as file:
            file.write(data)
    with open(os.path.join(folder, "job"), "w", newline="\n") as file:
        file.writelines("base %s\n" % name for name in names)

    lines, status, complaint = run(os.path.abspath(options.program), folder)
    at = first_difference(expected, lines)
    if at is None and status == 0:
        print("%d lines, no difference" % len(lines))
        shutil.rmtree(folder)
        return 0
    if at is not None:
        print("first difference at %s in %s" % (names[at] if at < len(names) else "the end", folder))
        print("  model:   %s" % (expected[at] if at < len(expected) else "(no line)"))
        print("  program: %s" % (lines[at] if at < len(lines) else "(no line)"))
    if status != 0:
        print("the program ended with status %d in %s\n%s" % (status, folder, complaint.rstrip()))
    return 1


if __name__ == "__main__":
    sys.exit(main())
