#!/usr/bin/env python3
"""Respells the names of the repository's own definitions, fields and lemmas in snake case, as `has-levels` to `has_levels`,
and of its own types in camel case, as `Turned-down` to `TurnedDown`.

Run once, at the top of the repository, after the kit's own script. Names that the prover makes (goals, steps of the code)
and names that the library has too keep their dashes. Of source files only what lies outside of comments and strings is turned.
"""
import collections
import pathlib
import re
import sys

TOKEN = re.compile(r"[^\s(){}\[\],;.«»⟦⟧∥|]+")
DECLARED = re.compile(
    r"^\s*((?:abbrev |unfoldable |opaque )?(?:pub )?(?:abbrev |unfoldable )?(?:data |record |ruleset |module )?(?:pub )?)"
    r"([^\s(){}\[\]:;,.=]+)\s+([:({=].*)$"
)
IMPORT = re.compile(r"use (Rattle\.[^;{]*)\.\{([^}]*)\}")


def files(ending):
    return sorted(p for p in pathlib.Path("crates").glob("*/*/**/*" + ending) if "out" not in p.parts)


def crates():
    return {line.split(":")[0].split()[0] for line in pathlib.Path("crates.txt").read_text().splitlines() if ":" in line}


def imported(text, own_crates):
    """The names that a file takes from elsewhere than the repository."""
    names = set()
    for path, body in IMPORT.findall(text):
        parts = path.split(".")
        mine = parts[1] in own_crates
        made = "declared" in parts or parts[-1] in ("Goals", "Given", "TheVariants") or "contracts" in parts
        for item in body.split(","):
            words = item.split(" as ")
            if not mine or made:
                names.update(w.strip() for w in words)
    return names


def declared(text):
    """The names with dashes that a file of antt declares, but for answers to goals."""
    names = set()
    for line in text.splitlines():
        found = DECLARED.match(line)
        if not found or line.lstrip().startswith("--"):
            continue
        name, rest = found.group(2), found.group(3)
        if "-" in name and ": goal." not in rest and " goal." not in rest.split("→")[0] and not name.startswith("invariant-loop") and not name.startswith("decreases-loop"):
            names.add(name)
    return names


def respelled(name):
    """Types in camel case, all else in snake case."""
    if name[0].isupper():
        return "".join(part[0].upper() + part[1:] for part in name.split("-"))
    return name.replace("-", "_")


def turn(text, names, kept):
    return TOKEN.sub(lambda m: respelled(m.group(0)) if m.group(0) in names and m.group(0) not in kept else m.group(0), text)


def turn_source(text, names, kept):
    """Outside of comments and strings."""
    pieces = re.split(r'(//[^\n]*|"(?:\\.|[^"\\])*")', text)
    return "".join(p if i % 2 else turn(p, names, kept) for i, p in enumerate(pieces))


def turn_antt(text, names, kept):
    pieces = re.split(r"(^\s*--[^\n]*| --[ ][^\n]*)", text, flags=re.M)
    return "".join(p if i % 2 else turn(p, names, kept) for i, p in enumerate(pieces))


def turn_aliases(text):
    """Names of the file's own, given by an `as` or bound in it, that no import declares."""
    own = set()
    for _, body in IMPORT.findall(text):
        own.update(w[1].strip() for w in (item.split(" as ") for item in body.split(",")) if len(w) == 2 and "-" in w[1])
    return own


def main():
    own_crates = crates()
    antt, source = files(".antt"), files(".rt")
    texts = {p: p.read_text() for p in antt + source}
    names = set()
    for p in antt:
        names |= declared(texts[p])
    foreign = collections.Counter()
    for p in texts:
        foreign.update(n for n in imported(texts[p], own_crates) if n in names)
    spelled = collections.defaultdict(set)
    for n in names:
        spelled[respelled(n)].add(n)
    seen = set()
    for p in texts:
        seen.update(TOKEN.findall(texts[p]))
    for s, ns in sorted(spelled.items()):
        if len(ns) > 1:
            print("falls together:", s, sorted(ns))
        if s in seen:
            print("is there already:", s)
    for n, k in sorted(foreign.items()):
        print("also a name of the library, kept:", n, k)
    names -= set(foreign)
    if "--dry" in sys.argv:
        return
    for p in antt:
        own = declared(texts[p])
        kept = imported(texts[p], own_crates) - own
        p.write_text(turn_antt(texts[p], names | turn_aliases(texts[p]), kept))
    for p in source:
        p.write_text(turn_source(texts[p], names | turn_aliases(texts[p]), imported(texts[p], own_crates)))
    # names that the documents quote
    for p in [pathlib.Path("README.md")] + sorted(pathlib.Path("docs").glob("*.md")):
        pieces = re.split(r"(`[^`\n]*`)", p.read_text())
        p.write_text("".join(turn(q, names, set()) if i % 2 else q for i, q in enumerate(pieces)))


main()
