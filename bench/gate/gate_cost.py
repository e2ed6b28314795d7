#!/usr/bin/env python3
"""Print what a check of the repository costs, crate by crate.

Usage:

    python3 bench/gate/gate_cost.py COMMAND [WORD ..]

runs the command, as `rt ci` at the top of the repository, and then prints a
line for each crate: the minutes that processors worked in its processes, and
those of the longest process.  Processes are looked at twice a second, and all
that check a crate are counted, so nothing else should check one meanwhile.
What runs for less than that is not seen: programs that are linked or run.
"""

import os
import subprocess
import sys
from collections import defaultdict
from pathlib import Path
from time import sleep

sys.path.insert(0, str(Path(__file__).resolve().parents[2] / "tools"))

from common import command

TICKS = os.sysconf("SC_CLK_TCK")


def checked_crate(process):
    """The crate that a process checks or builds, or None."""
    words = (process / "cmdline").read_bytes().decode(errors="replace").split("\0")
    if "--crate-name" not in words[:-1]:
        return None
    return words[words.index("--crate-name") + 1]


def state(process):
    """When a process began, and the seconds that processors worked for it, without its children."""
    fields = (process / "stat").read_text().rpartition(")")[2].split()
    return int(fields[19]), (int(fields[11]) + int(fields[12])) / TICKS


def look(seconds):
    """Note the seconds of each process that checks a crate, by crate, number and beginning."""
    for process in Path("/proc").glob("[0-9]*"):
        try:
            crate = checked_crate(process)
            if crate is not None:
                begun, worked = state(process)
                seconds[crate, process.name, begun] = worked
        except (FileNotFoundError, ProcessLookupError):
            continue


def table(seconds):
    """A line for each crate, the dearest first, and one for all."""
    by_crate = defaultdict(list)
    for (crate, _, _), worked in seconds.items():
        by_crate[crate].append(worked / 60)
    rows = sorted(((sum(each), max(each), crate) for crate, each in by_crate.items()), reverse=True)
    yield "crate  minutes  longest process"
    for whole, longest, crate in rows:
        yield f"{crate}  {whole:.1f}  {longest:.1f}"
    yield f"all  {sum(whole for whole, _, _ in rows):.1f}"


def main(words):
    if not words:
        return command.usage(__doc__)
    seconds = {}
    running = subprocess.Popen(words)
    while running.poll() is None:
        look(seconds)
        sleep(0.5)
    print(*table(seconds), sep="\n")
    return running.returncode


if __name__ == "__main__":
    command.run(main, __doc__)
