#!/usr/bin/env python3
"""Build the static library of `picky_door` over the libraries that `rt ci` left.

Usage:

    python3 tools/gate/door_library.py CRATES

proves `CRATES/picky_door`, and compiles it to `CRATES/picky_door/out/libpicky_door.a`.
`rt lib` makes the same file, but builds each library below it first, from nothing: `rt ci`
leaves those that it proved without what `rt lib` looks for.  Exit status 1 says that it
isn't proved or built.
"""

import os
import subprocess
import sys
from pathlib import Path

sys.path.insert(0, str(Path(__file__).resolve().parents[1]))

from common import command

NAME = "picky_door"


def kit():
    """The folder of the kit, which has the page that `rt doc` prints the path of."""
    printed = subprocess.run(["rt", "doc"], capture_output=True, text=True, check=True).stdout
    for folder in Path(printed.split()[0]).resolve().parents:
        if (folder / "bin/rattle").exists():
            return folder
    raise command.Refusal(f"no folder above {printed.split()[0]} has bin/rattle")


def libraries(crates):
    """What each crate of crates.txt is built over, by its name."""
    found = {}
    for line in (crates.parent / "crates.txt").read_text(encoding="utf-8").splitlines():
        name, _, below = line.partition("#")[0].partition(":")
        if name.strip():
            found[name.split()[0]] = below.split()
    return found


def below(name, over, seen):
    """The repository's libraries below a crate, lowest first."""
    for it in over[name]:
        if it in over and it not in seen:
            below(it, over, seen)
            seen.append(it)
    return seen


def main(words):
    if len(words) != 1:
        raise command.Refusal("usage: door_library.py CRATES")
    crates, at = Path(words[0]).resolve(), kit()
    over = libraries(crates)
    if NAME not in over:
        raise command.Refusal(f"{crates.parent / 'crates.txt'} has no {NAME}")
    built = {name: crates / name / "out/rlib" for name in below(NAME, over, [])}
    missing = [name for name, folder in built.items() if not (folder / f"{name}.rlib").exists()]
    if missing:
        raise command.Refusal(f"rt ci hasn't left {', '.join(missing)}")
    archive = crates / NAME / f"out/lib{NAME}.a"
    archive.parent.mkdir(exist_ok=True)
    archive.unlink(missing_ok=True)
    used = [f"std={at}/rlibs/std.rlib", *(f"{name}={built[name]}/{name}.rlib" for name in over[NAME])]
    done = subprocess.run([
        at / "bin/rattle", "build", "--crate-name", NAME, "src/lib.rt", *(word for it in used for word in ("--extern", it)),
        *(word for it in (at / "rlibs", *built.values()) for word in ("-L", f"dependency={it}")),
        "--antt-project", at / "rattle/logic/antt-project.json", "--logic-built", at / "logic_built", "--links", f"{NAME}=",
        "--crate-type", "staticlib", "--toolchain", at / "toolchain", "--jobs", os.environ.get("RT_JOBS", "1"), "-o", archive,
    ], cwd=crates / NAME, stdout=subprocess.PIPE, stderr=subprocess.STDOUT, text=True)
    said = [line for line in done.stdout.splitlines() if line.startswith("logic=")]
    if done.returncode or not archive.exists() or not any(line.startswith("logic=proved") for line in said):
        print(done.stdout[-3000:], file=sys.stderr)
        print(f"{NAME} isn't proved or built")
        return 1
    print(f"{NAME}: {said[-1].split(' sum=')[0]}; over {len(built)} libraries; {archive.stat().st_size:,} octets")
    return 0


if __name__ == "__main__":
    command.run(main, __doc__)
