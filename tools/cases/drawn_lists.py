"""Trust lists drawn at random for signature files, and policies with them, for `compare_check`.

Most CAs that a file names are on its list, and most of what the list has of them is
good, so that whether another CA is asked for is seen as well.
"""

from cases.cms_rows import der, entry, property_of
from cases.first_path import context
from cases.list_rows import EMPTY, list_of, signed
from cases.listing_rows import CODE_SIGNING, NOW, SECOND, SERVER, TIME_STAMPING, digest_of, octets
from judges.basic_judge import Refused, SignedData, Signer, certificate_in, signed_data_in
from judges.check_judge import TRUST_LIST, token_of
from judges.der_reader import write

TIMES = [octets(NOW * SECOND + more) for more in (-SECOND, -1, 0, 1, SECOND)] + ["ff" * 8, "000000000000007f", "0000000000000080"]
OTHER_TIMES = ["", "ff" * 7, TIMES[0] + "00", TIMES[-1] + "7f"]
USAGES = [(), (CODE_SIGNING,), (TIME_STAMPING,), (SERVER, CODE_SIGNING), (SERVER, TIME_STAMPING)]
MOMENTS = (NOW,) * 6 + (NOW - 1, NOW + 1, 0, -1, 2**63 - 1, -2**63)


def names_in(file):
    """The octets of the names of issuers and subjects in a file and in its token."""
    try:
        data = signed_data_in(certificate_in(file))
    except Refused:
        return []
    token = token_of(Signer(data.signers[0])) if data.signers else None
    members = [*data.bag, *(SignedData(token).bag if token else ())]
    return [write(one) for member in members for one in (member.issuer, member.subject)]


def times(chance, number, usual):
    """An attribute of a time, most often of this one."""
    values = [chance.choice([usual] * 12 + TIMES + OTHER_TIMES) for _ in range(chance.choice((0,) + (1,) * 14 + (2,)))]
    return property_of(number, *(der("04", value) for value in values))


def usages(chance):
    return property_of(127, *(der("04", der("30", *chance.choice(USAGES))) for _ in range(chance.choice((0, 1, 1, 1, 2)))))


def drawn_entry(chance, name):
    attributes = [property_of(29, *(digest_of(name.hex()) for _ in range(chance.choice((1,) * 20 + (0, 2)))))]
    if chance.random() < 0.4:
        attributes += [times(chance, 104, octets((NOW + 9) * SECOND)) for _ in range(chance.choice((1, 1, 1, 2)))]
    if chance.random() < 0.4:
        attributes += [times(chance, 126, octets((NOW - 9) * SECOND)) for _ in range(chance.choice((1, 1, 1, 2)))]
    if chance.random() < 0.3:
        attributes += [usages(chance) for _ in range(chance.choice((1, 1, 1, 2)))]
    chance.shuffle(attributes)
    return entry(*attributes)


def drawn_list(chance, names):
    """A list of most of these names, seldom of another content or with an octet changed."""
    if chance.random() < 0.03:
        return chance.choice((signed(TRUST_LIST), signed("1.2.3"), signed("1.2.3", context(0, EMPTY))))
    listed = [name for name in dict.fromkeys(names) for _ in range(chance.choice((0,) + (1,) * 6 + (2,)))]
    chance.shuffle(listed)
    found = list_of(*(drawn_entry(chance, name) for name in listed))
    if chance.random() < 0.03:
        place = chance.randrange(len(found))
        return found[:place] + bytes([chance.randrange(256)]) + found[place + 1:]
    return found


def with_list(chance, file, policy):
    """The policy, with a list for a file, asked for the signer's CA most often, and with names excluded."""
    names = names_in(file)
    excluded = tuple(chance.sample(names, min(len(names), chance.choice((0, 1, 2)))))
    return policy._replace(
        against_list=chance.random() < 0.8, trust_list=drawn_list(chance, names) if chance.random() < 0.95 else None, now=chance.choice(MOMENTS),
        exclude=chance.random() < 0.4, excluded=excluded,
    )
