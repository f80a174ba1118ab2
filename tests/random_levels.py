#!/usr/bin/env python3
"""Compares every answer of planned bases and curves with show_levels.py, on random ones.

    random_levels.py --seed 1 --count 200 --program crates/level_tests/out/level_tests
"""
import argparse
import os
import random
import shutil
import subprocess
import sys
import tempfile

import make_bases
import random_bases

MODEL = os.path.join(os.path.dirname(os.path.abspath(__file__)), "show_levels.py")


def good_base(rng):
    total, faces = random_bases.small_mesh(rng) if rng.random() < 0.9 else random_bases.large_mesh(rng)
    return b"".join(random_bases.good_records(rng, total, faces))


def some_line(rng, name):
    kind = rng.choice(["base", "base", "open", "closed"])
    levels = rng.choice([0, 1, 1, 1, 2, 2, 3, 6])
    if kind == "base":
        return "base %s %d" % (name, levels)
    points = rng.choice([0, 1, 2, 3, 4, 5, 6, 7, rng.randrange(8, 60), 1024, 1025])
    return "%s %d %d" % (kind, points, min(levels, 1) if points > 500 else levels)


def main():
    parser = argparse.ArgumentParser(description="Compares plans and curves with show_levels.py.")
    parser.add_argument("--seed", type=int, default=1)
    parser.add_argument("--count", type=int, default=200)
    parser.add_argument("--program", metavar="PATH", required=True)
    options = parser.parse_args()
    rng = random.Random(options.seed)
    folder = tempfile.mkdtemp(prefix="random-levels-")
    lines = []
    for i in range(options.count):
        name = "%06d.base" % i
        with open(os.path.join(folder, name), "wb") as file:
            file.write(good_base(rng))
        lines.append(some_line(rng, name))
    with open(os.path.join(folder, "panel.base"), "wb") as file:
        file.write(make_bases.panel_base(15, 15))
    lines += ["base panel.base 3", "base panel.base 5", "base panel.base 4"]
    text = "".join(line + "\n" for line in lines).encode()
    given = [subprocess.run(command, cwd=folder, input=text, stdout=subprocess.PIPE).stdout.splitlines()
             for command in ([sys.executable, MODEL], [os.path.abspath(options.program)])]
    at = random_bases.first_difference(*given)
    if at is None:
        print("%d hierarchies, %d lines, no difference" % (len(lines), len(given[0])))
        shutil.rmtree(folder)
        return 0
    print("first difference at line %d in %s" % (at + 1, folder))
    for who, answers in zip(("model", "program"), given):
        print("  %s: %s" % (who, answers[at].decode() if at < len(answers) else "(no line)"))
    return 1


if __name__ == "__main__":
    sys.exit(main())
