#!/usr/bin/env python3
"""Counts, in the sources of a commit or of the working tree, the places where a newer form might stand.

usage: python3 tools/places.py [--list] [COMMIT]

Eight points, each by patterns over crates/*/src/*.rt (the last over crates/*/proofs). A line is a candidate: docs/DESIGN-PASS.md
says which candidates are places. With --list each is printed with its file and line.
"""
import re
import subprocess
import sys
from collections import Counter, defaultdict
from pathlib import Path

ROOT = Path(__file__).resolve().parent.parent


def read_tree(commit, suffix, part):
    """The files under crates/*/PART that end in SUFFIX, by path."""
    if commit is None:
        paths = sorted(p for p in ROOT.glob(f"crates/*/{part}/**/*{suffix}") if p.is_file())
        return {str(p.relative_to(ROOT)): p.read_text() for p in paths}
    names = subprocess.run(["git", "-C", str(ROOT), "ls-tree", "-r", "--name-only", commit, "crates"],
                           check=True, capture_output=True, text=True).stdout.split()
    names = [n for n in names if n.endswith(suffix) and n.split("/")[2] == part]
    texts = {}
    for name in names:
        shown = subprocess.run(["git", "-C", str(ROOT), "show", f"{commit}:{name}"], check=True, capture_output=True, text=True)
        texts[name] = shown.stdout
    return texts


def lines_with(texts, pattern):
    """Places of the lines that have the pattern, comments left out."""
    found = []
    for path, text in texts.items():
        for number, line in enumerate(text.split("\n"), 1):
            if not line.lstrip().startswith("//") and re.search(pattern, line):
                found.append(f"{path}:{number}: {line.strip()}")
    return found


FUNCTION = re.compile(r"^( *)(?:pub(?:\(crate\))? )?(?:extern \"C\" )?fn (\w+).*?^\1\}", re.M | re.S)


def functions(texts):
    """(path, line, name, text) of each function."""
    for path, text in texts.items():
        for m in FUNCTION.finditer(text):
            yield path, text.count("\n", 0, m.start()) + 1, m.group(2), m.group(0)


def body(function):
    """The tokens of what the function does, with its own name and every other name and number made equal."""
    lines = [line for line in function.split("\n") if not re.match(r"\s*(requires|ensures|ghost|//)", line)]
    return re.sub(r"[A-Za-z_]\w*|\d\w*", "x", " ".join(" ".join(lines).split()))


def twins(texts):
    """Functions of the same shape, or that call one another's names with the same shape: the second of each such group and on."""
    groups = defaultdict(list)
    for path, line, name, text in functions(texts):
        shape = body(text)
        if len(shape) >= 60:
            groups[shape].append(f"{path}:{line}: fn {name}")
    return [f"{places[0]} ~ {other}" for places in groups.values() for other in places[1:]]


def same_enums(texts):
    groups = defaultdict(list)
    for path, text in texts.items():
        for m in re.finditer(r"^(?:pub(?:\(crate\))? )?enum (\w+)[^{]*\{(.*?)^\}", text, re.M | re.S):
            variants = tuple(re.findall(r"^    (\w+)", m.group(2), re.M))
            groups[variants].append(f"{path}: enum {m.group(1)}")
    return [f"{places[0]} ~ {other}" for places in groups.values() for other in places[1:]]


def repeated_clauses(texts):
    """Clauses that stand in three or more contracts of a crate, whatever the moment at which they speak of a value."""
    counts = Counter()
    for path, text in texts.items():
        crate = path.split("/")[1]
        for m in re.finditer(r"^\s*(?:requires|ensures)(?: \w+)? \{(.*)\}\s*$", text, re.M):
            clause = re.sub(r"\.(old|new|now|entry)\b", "", m.group(1)).strip()
            if "result" not in clause:
                counts[crate, clause] += 1
    return [f"crates/{crate}: {n} times: {clause}" for (crate, clause), n in sorted(counts.items()) if n >= 3]


def companions(texts):
    """Pairs of parameters that four or more functions of a crate take side by side."""
    counts = Counter()
    for path, _, _, text in functions(texts):
        head = re.search(r"fn \w+(?:<[^(]*>)?\((.*?)\)\s*(?:->|where|requires|ensures|\{|\n)", text, re.S)
        if not head or "extern \"C\"" in text.split("fn ")[0]:
            continue
        taken = [" ".join(p.split()) for p in re.split(r",(?![^<\[]*[>\]])", head.group(1)) if p.strip()]
        taken = [p for p in taken if "self" not in p]
        for i, first in enumerate(taken):
            for second in taken[i + 1:]:
                counts[path.split("/")[1], first, second] += 1
    return [f"crates/{c}: {n} times: {a}, {b}" for (c, a, b), n in sorted(counts.items()) if n >= 4]


def points(texts, proofs):
    name = r"[A-Za-z_]\w*"
    return [
        ("1 enums, the shape of each to be looked at", lines_with(texts, r"^\s*(pub(\(crate\))? )?enum ")),
        ("1 arms that take an Option or a Result apart", lines_with(texts, r"^\s*(Ok\(.*\)|Err\(.*\)|None|Some\(.*\)) =>")),
        ("1 numbers for kinds and refusals", lines_with(texts, r"\b(code|status|scheme|row|dimension): (u8|usize)|-> \(usize, usize\)|-> u8\b")),
        ("2 functions of one shape", twins(texts)),
        ("2 enums with the same variants", same_enums(texts)),
        ("3 loops over a range of numbers", lines_with(texts, r"^\s*for .* in .*\.\.")),
        ("3 loops with a condition, and counters by hand", lines_with(texts, r"^\s*while |^\s*loop |\+= 1;|-= 1;")),
        ("3 loops over elements that count, search or fill by hand", lines_with(texts, r"^\s*for [^.]* in (?!.*\.\.)")),
        ("4 impls of conversions and comparisons", lines_with(texts, r"^impl.*\b(From|TryFrom|MadeFrom|PartialEq|Eq|PartialOrd|Ord|Clone|Default)\b.* for ")),
        ("4 conversions, comparisons and printing under other names", lines_with(texts, r"fn (\w+_of|same_\w+|settle|show\w*|refused|vertex_number|write_number|\w+_record|\w+_answer|\w+_line)\b|\bas (usize|u8|u32)\b")),
        ("5 clauses in three or more contracts of a crate", repeated_clauses(texts)),
        ("5 parameters side by side in four or more functions", companions(texts)),
        ("6 arrays of a fixed length", lines_with(texts, r"(: |-> |= )\[[^\]]+; \w+\]")),
        ("6 vectors of numbers, flags or sides in a struct", lines_with(texts, r"^\s+(pub(\(crate\))? )?\w+: Vec<")),
        ("6 parallel slices", lines_with(texts, r"&(mut )?\[\w+\], \w+: &(mut )?\[\w+\]")),
        ("7 parameters that say which step to run", lines_with(texts, rf"\b(kind|turn|way|curves_only|scheme): (Kind|Turn|Way|bool|Spline|PointScheme)\b")),
        ("8 answers", lines_with({p: t for p, t in proofs.items() if p.endswith("Answers.antt")}, r"^(pub|abbrev pub) ")),
        ("8 lines of proof", [f"{p}:{n}: {line}" for p, t in proofs.items() for n, line in enumerate(t.split("\n"), 1) if line.strip()]),
    ]


def main():
    arguments = [a for a in sys.argv[1:] if a != "--list"]
    commit = arguments[0] if arguments else None
    for title, found in points(read_tree(commit, ".rt", "src"), read_tree(commit, ".antt", "proofs")):
        print(f"{len(found):6}  {title}")
        if "--list" in sys.argv and not title.startswith("8"):
            for place in found:
                print(f"        {place}")


if __name__ == "__main__":
    main()
