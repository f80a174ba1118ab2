#!/usr/bin/env python3
"""Prints every answer of plans and curves as levels.py has them: what the program level_tests has to print.

    show_levels.py < LINES
"""
import sys

import levels
import model


def words(numbers):
    return "".join(f" {number}" for number in sorted(numbers))


def show(hierarchy):
    for number, level in enumerate(hierarchy.levels):
        print(f"level {number}: {len(level.dimensions)} {len(level.edges)} {len(level.faces)}")
        if number == hierarchy.count:
            break
        for edge, ends in enumerate(level.edges):
            kind = "curve" if edge in level.curves else "smooth"
            print(f"edge {edge}: ends{words(ends)}; faces{words(level.edge_faces[edge])}; {kind}")
        for face, corners in enumerate(level.faces):
            print(f"face {face}: vertices{words(corners)}; edges{words(level.face_sides[face])}")
        for vertex, dimension in enumerate(level.dimensions):
            print(f"vertex {vertex}: edges{words(level.vertex_edges[vertex])}; faces{words(level.vertex_faces[vertex])}; dimension {dimension}")
    print(f"level {hierarchy.count + 1}: 0 0 0")


def show_base(file, count):
    with open(file, "rb") as stream:
        base = model.read(stream.read())
    hierarchy = levels.plan(base, count)
    print("need", levels.needed(base, count))
    show(hierarchy)


def main():
    for line in sys.stdin.read().splitlines():
        print(line)
        kind, *arguments = line.split(" ")
        try:
            if kind == "base":
                show_base(arguments[0], int(arguments[1]))
            else:
                show(levels.curve(kind == "closed", int(arguments[0]), int(arguments[1])))
        except model.Refused as refused:
            print("refused", refused.row, refused.value)


if __name__ == "__main__":
    main()
