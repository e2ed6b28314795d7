"""Run a command, then print how it went on a line of its own.

    python3 -I -S bench/program/measure.py PATH [WORD ..]

A newline and a last line follow what the command prints: the seconds from
start to end, the seconds that processors worked for it, the greatest resident
memory in octets, and the status.  What
the system reports of the memory of a command counts that of the process that
started it, so this script imports next to nothing, and is started by
`basic.py` for every run.
"""

import os
import sys
from time import perf_counter

if sys.argv[1:] in ([], ["--help"], ["-h"]):
    print(__doc__.strip())
    sys.exit(0 if sys.argv[1:] else 2)
begun = perf_counter()
try:
    pid = os.posix_spawnp(sys.argv[1], sys.argv[1:], os.environ)
except OSError as error:
    print(f"measure.py: {sys.argv[1]}: {error.strerror}", file=sys.stderr)
    sys.exit(2)
_, status, usage = os.wait4(pid, 0)
seconds = perf_counter() - begun
print()
processor = usage.ru_utime + usage.ru_stime
print(seconds, processor, usage.ru_maxrss * 1024, os.waitstatus_to_exitcode(status))
