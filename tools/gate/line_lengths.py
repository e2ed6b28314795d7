"""Lines of specs and proofs that are too long.

    python3 tools/gate/line_lengths.py crates

Prints each line of a file of specs/ or proofs/ that has more than 160 columns, a character a column, and ends with 1 if
there is one. Ends with 2 where there is no such file.
"""

import sys
from pathlib import Path

MOST = 160


def long_lines(text: str) -> list[tuple[int, int]]:
    """The lines past the limit: the number of each, and its columns."""
    return [(number, len(line)) for number, line in enumerate(text.split("\n"), 1) if len(line) > MOST]


def main(words: list[str]) -> int:
    if len(words) != 1:
        print("usage: line_lengths.py CRATES", file=sys.stderr)
        return 2
    files = sorted(path for part in ("specs", "proofs") for path in Path(words[0]).glob(f"*/{part}/**/*.antt"))
    if not files:
        print(f"{words[0]} has no specs and no proofs", file=sys.stderr)
        return 2
    found = [(path, *line) for path in files for line in long_lines(path.read_text("utf-8"))]
    for path, number, columns in found:
        print(f"{path}:{number}: {columns} columns")
    print(f"lines of specs and proofs past {MOST} columns: {len(found)}, in {len(files)} files")
    return 1 if found else 0


if __name__ == "__main__":
    sys.exit(main(sys.argv[1:]))
