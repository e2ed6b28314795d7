"""What a file, its certificates or its name say, as text: it can't end a string, begin a line or pass for ours.

Printed as they are: printable ASCII but for the apostrophe and the backslash, and letters of the Basic Multilingual
Plane that have a shape of their own and are written from the left.  Everything else is escaped by its octets in
UTF-8 (RFC 4514 2.4), and so is a blank behind another one or behind a colon.
"""

from unicodedata import bidirectional, category

MOST_CHARACTERS = 400
MOST_IN_A_SENTENCE = 64
# Letters without a shape of their own: fillers of Hangul (Unicode, Default_Ignorable_Code_Point).
BLANK = set("\u115f\u1160\u3164\uffa0")
# Modifiers, of which many look like quotation marks or colons, but for those that words of Japanese and Thai need.
MODIFIER, WRITTEN = "Lm", set("\u3005\u30fc\u0e46")
# Other letters that look so: saltillo, clicks, a rune, and finals of Canadian syllabics.
MARKS = {*"\ua78b\ua78c\u01c0\u01c1\u01c2\u01c3\u16cc\u144a", *map(chr, range(0x141C, 0x142B))}
FROM_THE_RIGHT = {"R", "AL"}


def is_plain(character: str) -> bool:
    """Whether a character is printed as it is."""
    if " " <= character <= "~":
        return character not in "'\\"
    kind = category(character)
    if not kind.startswith("L") or kind == MODIFIER and character not in WRITTEN:
        return False
    return character <= "\uffff" and character not in BLANK | MARKS and bidirectional(character) not in FROM_THE_RIGHT


def octets_of(character: str) -> str:
    # An octet of a file's name that is no character.
    if "\udc80" <= character <= "\udcff":
        return f"\\{ord(character) - 0xDC00:02X}"
    return "".join(f"\\{octet:02X}" for octet in character.encode("utf-8", "surrogatepass"))


def escaped(text: str, special: object = None) -> str:
    """A text of any length; `special` says of a place whether its character has a stroke in front, as in names."""
    found, before = [], ""
    for at, one in enumerate(text):
        if special is not None and special(at, one):
            found.append("\\" + one)
        else:
            found.append(one if is_plain(one) and not (one == " " and before in (" ", ":")) else octets_of(one))
        before = one
    return "".join(found)


def cut(text: str, most: int) -> str:
    """An escaped text with so many characters at most; an escape isn't cut in two."""
    if len(text) <= most:
        return text
    end = most - len("..")
    begin = text.rfind("\\", end - 2, end)
    return text[:begin if begin >= 0 else end] + ".."


def clean(text: object, most: int = MOST_CHARACTERS) -> str:
    """A text from outside, such as the name of a file, on one line."""
    return cut(escaped(str(text)[:most + 1]), most)


def in_a_sentence(text: str) -> str:
    """An escaped text, as short as a sentence takes it."""
    return cut(text, MOST_IN_A_SENTENCE)


def visible(line: str) -> str:
    """A line of ours, whose parts are escaped already: what doesn't print or turns the text around is escaped in it."""
    return "".join(one if one == "'" or one == "\\" or is_plain(one) else octets_of(one) for one in line)
