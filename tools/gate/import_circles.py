"""Modules that import one another in a circle.

    python3 tools/gate/import_circles.py crates

Of each crate, a module imports those that its `use crate::` items name. A circle of modules is printed, and the script
ends with 1, unless it is one of the recursive structures named in `RECURSIVE`. It ends with 2 where there is no crate.
"""

import re
import sys
from pathlib import Path

# What is defined by itself, so that its modules import one another: the crate and the modules, and why.
RECURSIVE: dict[tuple[str, frozenset[str]], str] = {
    ("der_core", frozenset({"kids", "leaves", "structure", "tagging", "testing"})): "elements in elements",
    ("cms_types", frozenset({"signed_data", "signed_data::parts"})): "a value, and the parts that it is read and copied by",
    ("cms_types", frozenset({"signer_info", "signer_info::parts"})): "a value, and the parts that it is read and copied by",
    ("x509_types", frozenset({f"certificate::tbs_{one}" for one in ("certificate", "fields", "parts")})): "a value, and the parts that it is read and copied by",
}

USE = re.compile(r"^(?:pub(?:\([a-z]+\))? )?use crate::([^;]+);", re.M)


def paths_of(tree: str) -> list[str]:
    """The paths of a use tree, `a::{b, c::d}` for one."""
    at = tree.find("{")
    if at < 0:
        return [tree.split(" as ")[0].strip()]
    head, inner, depth, start, found = tree[:at].strip(), tree[at + 1 : tree.rindex("}")], 0, 0, []
    for place, letter in enumerate(inner + ","):
        depth += (letter == "{") - (letter == "}")
        if letter == "," and depth == 0:
            if word := inner[start:place].strip():
                found += [head + path for path in paths_of(word)]
            start = place + 1
    return found


def modules_of(crate: Path) -> dict[str, str]:
    """The text of each module of a crate by its path, `a::b` for one; of the root by ``."""
    source = crate / "src"
    named = {}
    for file in sorted(source.rglob("*.rt")):
        parts = file.relative_to(source).with_suffix("").parts
        named["" if parts in (("lib",), ("main",)) else "::".join(parts)] = file.read_text("utf-8")
    return named


def imports_of(modules: dict[str, str]) -> dict[str, set[str]]:
    """The modules that each module imports, the root aside."""
    found = {}
    for name, text in modules.items():
        found[name] = set()
        for path in (path for tree in USE.findall(text) for path in paths_of(tree)):
            while path and path not in modules:
                path = path.rpartition("::")[0]
            if path and path != name:
                found[name].add(path)
    return found


def circles_of(imports: dict[str, set[str]]) -> list[frozenset[str]]:
    """The sets of modules of which each imports each other, itself or through others."""
    reached = {name: set(imports[name]) for name in imports}
    changed = True
    while changed:
        changed = False
        for name, below in reached.items():
            more = set().union(*(reached[one] for one in below)) - below if below else set()
            if more:
                below |= more
                changed = True
    circles = {frozenset(one for one in reached[name] if name in reached[one]) for name in reached if name in reached[name]}
    return sorted(circles, key=sorted)


def main(words: list[str]) -> int:
    if len(words) != 1:
        print("usage: import_circles.py CRATES", file=sys.stderr)
        return 2
    crates = sorted(path.parent for path in Path(words[0]).glob("*/src"))
    if not crates:
        print(f"{words[0]} has no crates", file=sys.stderr)
        return 2
    sources = {crate.name: modules_of(crate) for crate in crates}
    found = {(name, circle) for name, modules in sources.items() for circle in circles_of(imports_of(modules))}
    others = sorted((name, ", ".join(sorted(circle))) for name, circle in found - RECURSIVE.keys())
    for name, circle in others:
        print(f"{name}: {circle}")
    for name, circle in sorted((name, ", ".join(sorted(circle))) for name, circle in RECURSIVE.keys() - found if name in sources):
        print(f"{name}: {circle}: they are named here and import one another in no circle")
    count = sum(map(len, sources.values()))
    print(f"modules that import one another in a circle: {len(others)}, of {count} in {len(crates)} crates")
    return 1 if others or any(name in sources for name, _ in RECURSIVE.keys() - found) else 0


if __name__ == "__main__":
    sys.exit(main(sys.argv[1:]))
