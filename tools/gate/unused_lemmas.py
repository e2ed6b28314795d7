"""Lemmas and definitions that nothing uses.

    python3 tools/gate/unused_lemmas.py crates

Of each name that a file of specs/ or of proofs/ defines, answers of goals and worked examples (..Examples.antt) aside,
prints those that no other definition of the file, no other file of .antt and no source names. Ends with 1 if there is
one, and with 2 where nothing is read.
"""

import re
import sys
from collections import Counter
from pathlib import Path

TOKEN = re.compile(r"[^\s(){}\[\],;.`|]+")
# A signature: `name :`, also of a record or data type with parameters; a field or constructor isn't one.
SIGNATURE = re.compile(r"( *)(?:abbrev |pub |unfoldable |opaque )*(data |record )?([^\s(){},;:=`]+)((?: [(\[{][^:]*:.*?)?) :(?: |$)")
GIVEN = {"Answers", "Invariants", "Proof", "Goals", "Given", "Lib"}
# Proofs that the kit looks for by their names.
OF_THE_KIT = "TheSendSync"
# What no signature begins with; a line that goes on from a signature may look like one.
KEYWORDS = {"use", "module", "let", "in", "where", "mutual", "--", "→", "×", "⊎", "↔"}


def without_comments(text: str) -> list[str]:
    return [re.sub(r"(^|\s)--(\s.*)?$", "", line) for line in text.splitlines()]


def blocks_of(lines: list[str]) -> dict[str, list[range]]:
    """The lines of each definition, by its name; those of a record or data type with its fields."""
    starts = []
    for at, line in enumerate(lines):
        found = SIGNATURE.match(line)
        if found and found[3] not in KEYWORDS and not (starts and starts[-1][2] and len(found[1]) > starts[-1][3]):
            starts.append((at, found[3], bool(found[2]), len(found[1])))
    blocks: dict[str, list[range]] = {}
    for (at, name, _, _), (end, *_) in zip(starts, [*starts[1:], (len(lines), "", False, 0)]):
        blocks.setdefault(name, []).append(range(at, end))
    return blocks


def tokens_of(lines: list[str]) -> Counter:
    return Counter(token for line in lines for token in TOKEN.findall(line))


def unused_in(lines: list[str], others: set[str]) -> list[tuple[int, str]]:
    """The definitions of a file, by line and name, that neither it nor the names of other files use."""
    every, found = tokens_of(lines), []
    for name, blocks in blocks_of(lines).items():
        own = sum(tokens_of([lines[at] for at in block])[name] for block in blocks)
        if name not in others and every[name] == own and "." not in name:
            found.append((blocks[0].start + 1, name))
    return found


def main(words: list[str]) -> int:
    folder = Path(words[0]) if len(words) == 1 else Path()
    files = sorted(path for path in folder.glob("*/*/**/*.antt") if path.parts[len(folder.parts) + 1] in ("specs", "proofs"))
    if len(words) != 1 or not files:
        print("usage: unused_lemmas.py CRATES, with files of .antt" if len(words) != 1 else f"{folder} has no .antt", file=sys.stderr)
        return 2
    texts = {path: without_comments(path.read_text("utf-8")) for path in files}
    sources = [path.read_text("utf-8") for path in sorted(folder.glob("*/src/**/*.rt"))]
    named = {path: set(tokens_of(lines)) for path, lines in texts.items()}
    counts = Counter(token for tokens in named.values() for token in tokens)
    # A source names a lemma by its path, `crate::proofs::Rows::kid_lists` for one.
    of_sources = {name for text in sources for token in TOKEN.findall(text) for name in token.split("::")}
    unused, looked = 0, 0
    for path, lines in texts.items():
        if path.stem in GIVEN or path.stem.endswith("Examples") or OF_THE_KIT in path.parts:
            continue
        looked += len(blocks_of(lines))
        others = {token for token in named[path] if counts[token] > 1} | of_sources
        for at, name in unused_in(lines, others):
            unused += 1
            print(f"{path}:{at}: {name}")
    print(f"lemmas and definitions that nothing uses: {unused}, of {looked}")
    return 1 if unused else 0


if __name__ == "__main__":
    sys.exit(main(sys.argv[1:]))
