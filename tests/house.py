#!/usr/bin/env python3
"""The house, drawn by its imports: no arrow upward, no circle, and crates.txt lists just what is used.

    python3 tests/house.py            says what is wrong, or that nothing is
    python3 tests/house.py --draw     prints each crate and module with what it names
"""

import os
import re
import sys
from pathlib import Path

ROOT = Path(__file__).resolve().parent.parent
CRATES = ROOT / "crates"


def listed():
    """The crates in the order of crates.txt, and what the line of each names."""
    order = {}
    for line in (ROOT / "crates.txt").read_text().splitlines():
        if ":" in line and not line.startswith("#"):
            name, named = line.split(":", 1)
            order[name.strip()] = named.split()
    return order


def files(crate, *endings):
    return [p for p in sorted((CRATES / crate).rglob("*"))
            if p.suffix in endings and "out" not in p.relative_to(CRATES / crate).parts]


def crates_named(crate, known):
    """The crates of this house that the files of one name, in code, contracts, definitions and proofs."""
    named = set()
    for path in files(crate, ".rt", ".antt"):
        text = path.read_text()
        named.update(re.findall(r"Rattle\.([a-z]+)\.", text))
        if path.suffix == ".rt":
            named.update(re.findall(r"(?<![\w:])([a-z]+)::", text))
    return (named & known) - {crate}


def of_this_crate(text):
    """The modules behind each `crate::`, alone or in braces."""
    named = set(re.findall(r"crate::([a-z_]+)(?:::|;)", text))
    for group in re.findall(r"crate::\{([^{}]*(?:\{[^{}]*\}[^{}]*)*)\}", text):
        named.update(re.findall(r"(?<![\w:])([a-z_]+)(?=::|,|\s*$)", re.sub(r"\{[^{}]*\}", "", group)))
    return named


def modules_named(crate):
    """Of each module of a crate's code, the modules of that crate that it names."""
    source = CRATES / crate / "src"
    graph = {}
    for path in files(crate, ".rt"):
        module = "::".join(path.relative_to(source).with_suffix("").parts)
        if module not in ("lib", "main"):
            graph[module] = of_this_crate(path.read_text()) - {module}
    return graph


def circle(graph):
    """One circle of a graph, as the list of its places, or none."""
    done, path = set(), []

    def walk(place):
        if place in path:
            return path[path.index(place):] + [place]
        if place in done:
            return None
        path.append(place)
        for other in sorted(graph.get(place, ())):
            found = walk(other)
            if found:
                return found
        path.pop()
        done.add(place)
        return None

    return next((found for found in map(walk, sorted(graph)) if found), None)


def faults(order):
    places = list(order)
    for place, (crate, named) in enumerate(order.items()):
        used = crates_named(crate, set(order))
        own = [n for n in named if n in order]
        for other in own:
            if places.index(other) >= place:
                yield f"{crate} names {other}, which does not stand before it in crates.txt"
        for other in sorted(used - set(own)):
            yield f"{crate} uses {other}, which its line of crates.txt does not list"
        for other in sorted(set(own) - used):
            yield f"{crate} lists {other} in crates.txt and does not use it"
        found = circle(modules_named(crate))
        if found:
            yield f"{crate} has a circle of modules: {' -> '.join(found)}"


def draw(order):
    for crate in order:
        print(f"{crate}: {' '.join(sorted(crates_named(crate, set(order))))}".rstrip())
        for module, named in sorted(modules_named(crate).items()):
            print(f"    {module}: {' '.join(sorted(named))}".rstrip())


def main():
    order = listed()
    if sys.argv[1:] == ["--draw"]:
        draw(order)
        return 0
    if sys.argv[1:]:
        print(__doc__)
        return 2
    wrong = list(faults(order))
    for fault in wrong:
        print(f"house: {fault}")
    if not wrong:
        print(f"house: {len(order)} crates, no arrow upward and no circle")
    return 1 if wrong else 0


if __name__ == "__main__":
    try:
        code = main()
        sys.stdout.flush()
    except BrokenPipeError:
        # the reader of the drawing has seen enough
        os.dup2(os.open(os.devnull, os.O_WRONLY), sys.stdout.fileno())
        code = 0
    except OSError as error:
        print(f"house: {error.filename}: {error.strerror}")
        code = 2
    sys.exit(code)
