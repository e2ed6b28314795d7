"""Signers with chains, members for time stamping and tokens drawn at random, and policies for them, for `compare_check`.

Most parts are drawn so that nothing is wrong with them, and most dates are behind the
signer's end, so that excuses are looked for, and paths are walked to their end.
"""

from cases.basic_making import CODE_SIGNING, TIME_STAMPING, usage
from cases.check_making import OWN, Made, countersigned, file, rsa, token
from cases.check_parts import CODE, FILE_HASH, LIFETIME, OTHER_ID, STAMP
from cases.first_path import identifier, sequence
from judges.check_judge import Policy
from judges.verdict_rows import FIRST_LINE

DATES = ("20250101000000", "20300101000001", "20300701000000", "20300701000000", "20310101000000", "20310101000000", "20350101000000")
VERDICTS = ("accept",) * 40 + ("reject", "malformed")
K_S, K_T, K_X = rsa(0x11), rsa(0x14), rsa(0x15)


def mostly(chance, usual, *others):
    """The usual value, one time in fifteen another one."""
    return chance.choice(others) if chance.random() < 1 / 15 else usual


def above(chance, letter, many):
    """So many certificates of CAs, each of which issued the one before it."""
    keys = [rsa(ord(letter) + number) for number in range(many + 1)]
    names = [f"{letter}{number}".encode("ascii") for number in range(many + 1)]
    last = chance.choice((many, many - 1))
    for number in range(many):
        issuer = last if number == many - 1 else number + 1
        yield Made(
            subject=names[number], issuer=names[issuer], key=keys[number], by=mostly(chance, keys[issuer], K_X),
            begins=mostly(chance, "20200101000000", "20300601000000", "20300901000000", "20310601000000"),
            ends=mostly(chance, "20400101000000", "20210101000000", "20300601000000", "20300901000000", "20310101000000"),
            ca=mostly(chance, True, False, None), length=mostly(chance, None, 0, 1, 2), key_id=mostly(chance, OWN, None, OTHER_ID),
            authority=mostly(chance, OWN, None, keys[issuer].identifier()), outer=mostly(chance, None, sequence(identifier("1.2.3"))),
            extensions=mostly(chance, (), (STAMP,), (CODE,)),
        )


def below(chance, parents, **parts):
    """A certificate that the first of these issued, by a key of its own where there is none."""
    known = {"issuer": parents[0].subject, "by": mostly(chance, parents[0].key, K_X), "authority": mostly(chance, OWN, None, parents[0].key.identifier())} if parents else {}
    return Made(**(known | parts))


def moved(chance, members):
    """The members, sometimes with two exchanged or one of them twice."""
    found = list(members)
    if chance.random() < 0.15:
        one, other = (chance.randrange(len(found)) for _ in range(2))
        found[one], found[other] = found[other], found[one]
    if chance.random() < 0.1:
        found.insert(chance.randrange(len(found) + 1), chance.choice(found))
    return found


def drawn_token(chance):
    parents = list(above(chance, "A", chance.choice((0, 1, 2))))
    stamp = below(chance, parents, subject=b"F", key=K_T, extensions=mostly(chance, (STAMP,), (), (CODE,), (CODE, STAMP)))
    return token(*moved(chance, [stamp, *parents]))


def drawn_file(chance):
    """A signer with its parents, and what may excuse it."""
    parents = list(above(chance, "P", chance.choice((0, 1, 1, 2, 2, 3, 4))))
    purposes = chance.choice(((CODE,),) * 10 + ((LIFETIME,), (CODE, STAMP), (usage(CODE_SIGNING, TIME_STAMPING),)))
    ends = chance.choice(("20300101000000",) * 8 + ("20300801000000", "20400101000000"))
    signer = below(chance, parents, subject=b"S", key=K_S, ends=ends, extensions=purposes)
    stamps = [Made(subject=b"T", key=K_T, extensions=(STAMP,))] if chance.random() < 0.35 else []
    alike = [Made(subject=b"S", issuer=b"P1", serial=b"\x02", key=K_X, by=rsa(0x51))] if chance.random() < 0.05 else []
    tokens = [drawn_token(chance) for _ in range(chance.choice((0, 1, 1, 1, 1, 1, 2)))]
    unsigned = (countersigned(),) if chance.random() < 0.03 else None
    return file(*moved(chance, [signer, *parents, *stamps, *alike]), signer=signer, tokens=tokens, unsigned=unsigned)


def drawn_table(chance, table):
    """Most of the rows of a table, in either version."""
    rows = [row for row in table.splitlines() if chance.random() < 0.99]
    if chance.random() < 0.5:
        return "".join(f"{row}\n" for row in rows)
    return "".join(f"{line}\n" for line in (FIRST_LINE, *(f"{chance.choice(VERDICTS)} {row}" for row in rows)))


def drawn_policy(chance):
    lower = chance.choice(DATES)
    upper = chance.choice(DATES) if chance.random() < 0.4 else None
    flags = [chance.random() < part for part in (0.6, 0.98, 0.9, 0.95, 0.85)]
    return Policy(*flags, FILE_HASH, lower, upper)


def case(chance):
    """A file, a policy and a table."""
    made = drawn_file(chance)
    return made.octets, drawn_policy(chance), drawn_table(chance, made.table)
