#!/usr/bin/env python3
"""Make the files of the stored runs of the golden programs.

Usage:

    python3 tools/golden/crates.py FOLDER [CRATE ..]

writes for each of these programs, or for all, below FOLDER/CRATE the files of its stored run: data/KIND, the vectors
of each kind, stdout, the lines for them, with an empty line between two kinds, and args.  Each kind has a script of
its own beside this one, which has its vectors and what is printed for them; where a reference implementation finds
something else for a vector that has its answer, nothing is written.
"""

import sys
from pathlib import Path

sys.path.insert(0, str(Path(__file__).resolve().parents[1]))

from common import command
from golden import (
    anchor_vectors, basic_vectors, check_vectors, der_vectors, histories_vectors, image_vectors, issuing_vectors,
    kept_vectors, layout_vectors, path_vectors, pe_vectors, questions_vectors, register_vectors, run_vectors, stored_run, value_vectors,
)

# The kinds of each program, in the order of its output.
CRATES = {
    "xgolden_value": {
        "value": value_vectors.values_alone,
        "structure": value_vectors.structures_alone,
        "extension": value_vectors.extensions,
    },
    "xgolden_certificate": {"certificate": value_vectors.certificates, "cms": value_vectors.signed_structures},
    "xgolden_issuing": {
        "issuing": issuing_vectors.vectors,
        "request": value_vectors.requests,
        "histories": histories_vectors.vectors,
    },
    "xgolden_check": {"path": path_vectors.vectors, "basic": basic_vectors.vectors, "check": check_vectors.vectors},
    "xgolden_kept": {"kept": kept_vectors.vectors},
    "xgolden_run": {
        "pe": pe_vectors.vectors,
        "layout": layout_vectors.vectors,
        "image": image_vectors.vectors,
        "anchor": anchor_vectors.vectors,
        "questions": questions_vectors.vectors,
        "register": register_vectors.vectors,
        "run": run_vectors.vectors,
    },
}
DER = "xgolden_der"
# What the reference implementations find otherwise.
UNLIKE = {"xgolden_check": (path_vectors, basic_vectors, check_vectors), "xgolden_kept": (kept_vectors,)}


def stored_files(crate):
    """The octets of each file of a golden program, by its path in the folder of the crate."""
    if crate == DER:
        return der_vectors.stored_files()
    return stored_run.stored_files({kind: vectors() for kind, vectors in CRATES[crate].items()})


def main(arguments):
    folder, *crates = arguments or [""]
    unknown = [crate for crate in crates if crate not in (DER, *CRATES)]
    if not Path(folder).is_dir() or not folder or unknown:
        print("usage: crates.py FOLDER [CRATE ..]", file=sys.stderr)
        return 2
    crates = crates or [DER, *CRATES]
    complaints = [found for crate in crates for module in UNLIKE.get(crate, ()) for found in module.unlike()]
    for complaint in complaints:
        print(f"crates.py: {complaint}", file=sys.stderr)
    if complaints:
        return 1
    for crate in crates:
        args = {"args": stored_run.args_of(CRATES[crate])} if crate in CRATES else {}
        stored_run.write_files(stored_files(crate) | args, Path(folder, crate))
    return 0


if __name__ == "__main__":
    command.run(main, __doc__)
