"""What the scripts read of the sources in `crates/`."""

import re

from common.command import Refusal

# A comment, a string or a character.
COMMENT_OR_TEXT = re.compile(
    r"""//[^\n]*|b?"(?:\\.|[^"\\])*"|b?'(?:\\.[^']*|[^'\\\n])'""", re.DOTALL
)


def is_library(crate):
    """Whether the folder of a crate has a library, and no golden program's or test's."""
    return not crate.name.startswith(("xgolden", "xtest_")) and (crate / "src" / "lib.rt").is_file()


def libraries(crates):
    """The folders of the libraries in a folder, of which there is one at least, in order."""
    found = [crate for crate in sorted(crates.iterdir()) if is_library(crate)]
    if not found:
        raise Refusal(f"{crates} has no library")
    return found
