"""The files of the stored run of `xgolden_der`: the octets of the rows of `hostile_inputs` as cases, and their lines."""

from cases.hostile_inputs import ROWS
from golden.compare_readers import case_file


def stored_files():
    """The octets of each file, by its path below the folder."""
    cases = case_file(bytes.fromhex(row.octets) for row in ROWS)
    lines = "".join(f"{row.first} {row.exact} {row.cursor}\n" for row in ROWS)
    return {"data/cases.bin": cases, "stdout": lines.encode("ascii")}
