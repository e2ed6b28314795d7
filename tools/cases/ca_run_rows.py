"""Rows of `xgolden_run`: whole runs of `picky_ca`, each with the reason why it is there.

The status and the line of each come from `register_lines`; of those whose answer is known by hand it has to be that.
`known` has them by name, `drawn` as many texts as asked for, drawn at random: trees of certificates up to 20 deep, with
each reason to refuse one, and now and then a line that isn't in the form.
"""

from random import Random

from cases.anchor_run_rows import ROOM, USAGE
from judges.register_lines import BAD, answer

DRAWN = 300

ROOT = "root 11 R - 2020-01-01 2030-01-01\n"
INT = "child 0 12 I y 0 2021-01-01 2029-01-01\n"
LEAF = "child 1 13 L n - 2020-01-01 2025-01-01\n"
CHAIN = ROOT + INT + LEAF
LINE_OF_CAS = "".join(f"child {issuer} {issuer:02X} C{issuer} y - 2021-01-01 2029-01-01\n" for issuer in range(199))
SUMMER = "2024-06-01"
COUNTED, NOT_CA, TOO_DEEP, NO_ISSUER = "ca issued={} accepted={}", (1, "refused NotCa"), (1, "refused TooDeep"), (1, "refused NoIssuer")
DAYS = "2019-12-31", "2020-01-01", "2022-03-01", "2024-02-29", "2024-06-01", "2024-06-02", "2030-01-01", "2049-12-31", "2050-01-01"

# The text, the date, the status and the line, and why.
KNOWN = (
    (CHAIN, SUMMER, (0, COUNTED.format(3, 3)), "all are accepted"),
    (CHAIN, "2026-01-01", (0, COUNTED.format(3, 2)), "the leaf has ended"),
    (CHAIN, "2020-06-01", (0, COUNTED.format(3, 1)), "the root alone has begun, and so the leaf isn't accepted"),
    (CHAIN, "2025-01-01", (0, COUNTED.format(3, 3)), "the last second"),
    (CHAIN, "2025-01-01T00:00:01", (0, COUNTED.format(3, 2)), "a second later"),
    (CHAIN + "child 2 14 X n - 2022-01-01 2023-01-01\n", SUMMER, NOT_CA, "the leaf is no CA"),
    (CHAIN + "child 1 14 M y - 2022-01-01 2023-01-01\nchild 3 15 X n - 2022-01-01 2023-01-01\n", SUMMER, TOO_DEEP, "path length 0"),
    (ROOT + "child 1 12 I y - 2021-01-01 2029-01-01\n", SUMMER, NO_ISSUER, "its own issuer"),
    (ROOT + "child 2 12 I y - 2021-01-01 2029-01-01\n" + ROOT, SUMMER, NO_ISSUER, "a later issuer"),
    ("", SUMMER, (0, COUNTED.format(0, 0)), "no line"),
    (ROOT * 200, SUMMER, (0, COUNTED.format(200, 200)), "200 lines"),
    (ROOT * 201, SUMMER, BAD, "201 lines"),
    (ROOT + LINE_OF_CAS, SUMMER, (0, COUNTED.format(200, 200)), "199 ancestors, and an issuer of three digits"),
    (ROOT.replace("R", "R" * 64) + INT.replace("I", "9" * 64), SUMMER, (0, COUNTED.format(2, 2)), "names of 64 characters"),
    (ROOT.replace("R", "R" * 65), SUMMER, BAD, "a name of 65"),
    ("root 11 R\n", SUMMER, BAD, "a line that ends early"),
    (CHAIN[:-1], SUMMER, BAD, "no newline at the end"),
    (CHAIN + "child 2 14 X n - 2022-01-01 2023-01-01\nroot\n", SUMMER, BAD, "a bad line is reported before a refusal"),
    ("root 00 R 255 0000-01-01 9999-12-31\n", "0000-02-29", (0, COUNTED.format(1, 1)), "the first years"),
)


def moment_of(word):
    """The 14 digits of a date."""
    return "".join(filter(str.isdigit, word)).ljust(14, "0")


def known():
    """The text, the date, the status and the line, and why."""
    for text, word, expected, why in KNOWN:
        if answer(text, moment_of(word)) != expected:
            raise AssertionError(why)
        yield text, word, expected, why


def drawn_line(chance, count):
    """A line after so many."""
    key, name = f"{chance.randrange(256):02X}", f"N{count}"
    path = "-" if chance.random() < 0.7 else str(chance.choice((0, 1, 2, 19, 255)))
    days = f"{path} {chance.choice(DAYS[:5])} {chance.choice(DAYS[3:])}"
    if count == 0 or chance.random() < 0.1:
        return f"root {key} {name} {days}\n"
    issuer = count - 1 if chance.random() < 0.8 else chance.randrange(count + (chance.random() < 0.1))
    return f"child {issuer} {key} {name} {'y' if chance.random() < 0.93 else 'n'} {days}\n"


def drawn_text(chance):
    """A text of up to 21 lines, seldom with an octet left out."""
    text = "".join(drawn_line(chance, count) for count in range(chance.randint(0, 21)))
    if text and chance.random() < 0.05:
        at = chance.randrange(len(text))
        text = text[:at] + text[at + 1:]
    return text


def drawn(number, seed=49):
    """So many texts with a date, and status and line of each."""
    chance = Random(seed)
    for _ in range(number):
        text, word = drawn_text(chance), chance.choice(DAYS)
        yield text, word, answer(text, moment_of(word))


def words():
    """Words that are no command, and why."""
    for asked in [], ["f"], ["f", SUMMER, SUMMER], ["f", "f", SUMMER], [SUMMER, "f"], ["--help"], ["demo", "2"]:
        yield asked, f"the words {asked}"
    for date in ("2025-02-29", "2024-6-1", "20240601", "2024-06-01T00:00", "2024-06-01T24:00:00", "2024-06-01T23:59:60", "2024-06-01Z", "now", "10000-01-01"):
        yield ["f", date], f"the date {date}"


def all_cases():
    """The room, the call that fails, the files, the words, status and line, and why."""
    for text, word, expected, why in known():
        yield ROOM, None, {"f": text.encode()}, ["f", word], expected, why
    for text, word, expected in drawn(DRAWN):
        yield ROOM, None, {"f": text.encode()}, ["f", word], expected, "drawn"
    for text in CHAIN.replace("R", "\xc5"), CHAIN.replace("\n", "\r\n"), CHAIN + "\n", "\n" + CHAIN, CHAIN + "\0":
        yield ROOM, None, {"f": text.encode()}, ["f", SUMMER], BAD, "other octets"
    for asked, why in words():
        yield ROOM, None, {"f": CHAIN.encode()}, asked, USAGE, why
    yield ROOM, 0, {"f": CHAIN.encode()}, ["f"], USAGE, "nothing is read if the words are no command"
    yield ROOM, None, {"f": CHAIN.encode(), "g": b"root"}, ["f", SUMMER], answer(CHAIN, moment_of(SUMMER)), "a file that isn't named"
