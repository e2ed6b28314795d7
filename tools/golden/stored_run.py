"""The vectors of golden programs: how the scripts that make a stored run write its files, and how tools read them."""

import sys
from pathlib import Path
from typing import NamedTuple

from common import folders


class Vectors(NamedTuple):
    """The vectors of a kind, a line each, and the lines that are printed for them, at least one for each."""

    rows: tuple
    lines: tuple

    @classmethod
    def of(cls, pairs):
        """The vectors of pairs of a row and its line."""
        rows, lines = zip(*pairs)
        return cls(rows, lines)


def text_of(lines):
    return "".join(f"{line}\n" for line in lines)


def stored_files(kinds):
    """The octets of each file of a golden program, by its path in the folder of the crate, from the vectors by their kinds."""
    files = {f"data/{kind}": text_of(vectors.rows).encode() for kind, vectors in kinds.items()}
    # Nothing is printed as an empty line but the one between two kinds.
    printed = "\n".join(text_of(vectors.lines) for vectors in kinds.values())
    return {**files, "stdout": printed.encode()}


def args_of(kinds):
    """The file with the words that a golden program is called with: each kind and its file, which has the same name."""
    return text_of(word for kind in kinds for word in (kind, kind)).encode()


def stored(crate, kind):
    """The vectors of a kind, as they are stored."""
    folder = folders.CRATES / crate
    kinds = (folder / "args").read_text(encoding="ascii").split()[::2]
    printed = (folder / "stdout").read_text(encoding="utf-8").split("\n\n")[kinds.index(kind)]
    rows = (folder / "data" / kind).read_text(encoding="utf-8").splitlines()
    return Vectors(tuple(rows), tuple(printed.splitlines()))


def names_folder(script, arguments):
    """Whether the one argument names a folder that is there; it is said if it doesn't."""
    if len(arguments) == 1 and Path(arguments[0]).is_dir():
        return True
    print(f"usage: {script} FOLDER", file=sys.stderr)
    return False


def write_files(files, folder):
    """Write the files, by their paths, below a folder."""
    for path, octets in files.items():
        file = Path(folder, path)
        file.parent.mkdir(parents=True, exist_ok=True)
        file.write_bytes(octets)


def write_stored_run(script, files, arguments):
    """Write the files, by their paths, below the folder that is named, which is there; the status to end with."""
    if not names_folder(script, arguments):
        return 2
    write_files(files(), arguments[0])
    return 0
