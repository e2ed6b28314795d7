"""Which script makes the stored run of which crate: the one list of them.

`tools/tests/test_golden.py` compares what each makes with what is stored, octet for octet.  None draws anything anew:
what is random comes from a seed, and keys of openssl are stored.
"""

from collections.abc import Callable
from dataclasses import dataclass
from functools import partial

from cases import anchor_rows, anchor_run_rows, first_path
from common import folders
from golden import crates, picky_ask
from interop import signed_programs
from judges import demo_maker, register_lines

# The line of the sample under `picky_pe`, by osslsigncode's verdict and the order of its certificates.
SAMPLE_LINE = b"accepted signer=0 path=1,2 excuse=none\n"


@dataclass(frozen=True)
class StoredRun:
    """What gives the octets of each file of some crates: by its path below `crates/`, or below the crate where it is one."""

    made_by: str
    crates: tuple
    files: Callable
    # About how many seconds it takes.
    seconds: float = 1.0

    def made(self):
        """The octets of each file, by its path below `crates/`."""
        before = f"{self.crates[0]}/" if len(self.crates) == 1 else ""
        return {before + path: octets for path, octets in self.files().items()}


def of_picky():
    """The demonstration of one step, and the files that the documents check."""
    line = f"{demo_maker.line(1)}\n".encode("ascii")
    verdicts = first_path.verdict_line().encode("ascii")
    return {**signed_programs.sample_files(), "data/signature.bin": first_path.signature_file(), "data/verdict_table.txt": verdicts, "stdout": line}


def of_picky_pe():
    return {**signed_programs.program_files(), "stdout": SAMPLE_LINE}


def of_picky_anchor():
    """The path of a leaf over a CA to a root, past a certificate that crosses."""
    files, _, (_, line) = anchor_run_rows.run_of([anchor_rows.ROOT], anchor_rows.LEAF, [anchor_rows.CROSS, anchor_rows.INT])
    names = {"t": "table.txt", "c0": "root.der", "c1": "leaf.der", "c2": "cross.der", "c3": "int.der"}
    return {**{f"data/{names[name]}": octets for name, octets in files.items()}, "stdout": f"{line}\n".encode("ascii")}


def of_picky_ca():
    """The register that the manual has, and what is reported of it."""
    text = (folders.CRATES / "picky_ca/data/register.txt").read_text("ascii")
    _, line = register_lines.answer(text, "20240601000000")
    return {"data/register.txt": text.encode("ascii"), "stdout": f"{line}\n".encode("ascii")}


# About how many seconds the vectors of a golden program take.
SECONDS = {"xgolden_check": 9, "xgolden_certificate": 8, "xgolden_run": 28}


def of_crate(name):
    """A golden program, by its kinds of vectors."""
    return StoredRun("crates", (name,), partial(crates.stored_files, name), SECONDS.get(name, 2))


STORED_RUNS = (
    *map(of_crate, (crates.DER, *crates.CRATES)),
    StoredRun("picky_ask", ("picky_ask",), picky_ask.stored_files),
    StoredRun("signed_programs", ("picky",), of_picky),
    StoredRun("signed_programs", ("picky_pe",), of_picky_pe),
    StoredRun("anchor_rows", ("picky_anchor",), of_picky_anchor),
    StoredRun("register_lines", ("picky_ca",), of_picky_ca),
)
