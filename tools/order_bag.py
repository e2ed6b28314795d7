#!/usr/bin/env python3
"""Put the certificates of a signature file in the order in which a check looks for a path.

    python3 tools/order_bag.py SIG OUT

SIG is a file with a WIN_CERTIFICATE.  OUT is the same but for the places of its
certificates: first that of the signer, then that of its issuer, and so on up to one
whose issuer isn't there, then all others in their order.  Where the first unsigned
attribute of the signer is the token of a time stamp, its certificates are put in
order likewise.

No signature is over the order of certificates (RFC 5652 5.4), nor over unsigned
attributes, so each is as good as before, and a table for SIG is one for OUT.
"""

from pathlib import Path

from common import command, der, signed_data
from common.der import NOT_READ
from common.shown import clean
from common.signed_data import Fields, NotASignatureFile, SignerFields
from program_check.certificate import certificate_in


class Left:
    """Members by their places, certificates also by their subject, and by that and their key's identifier."""

    def __init__(self, members):
        self.members = dict(enumerate(members))
        self.certificates = {place: read for place, member in enumerate(members) if (read := certificate_in(member))}
        self.named = {}
        for place, read in self.certificates.items():
            for word in self.words_of(read):
                self.named.setdefault(word, {})[place] = read

    @staticmethod
    def words_of(read):
        return read.subject_name, (read.subject_name, read.subject_key)

    def take(self, place):
        """The member at a place, which is left no longer."""
        for word in self.words_of(self.certificates[place]):
            del self.named[word][place]
        return self.members.pop(place)

    def issuer_of(self, child):
        """The place of the first with the name of the issuer and, where one has it, the key that the child names."""
        by_key = self.named.get((child.issuer_name, child.authority_key))
        return next(iter(by_key or self.named.get(child.issuer_name, ())), None)


def signers_place(left, signer):
    """The place of the first certificate that a signer names by issuer and serial number, None where there is none."""
    if signer.identifier.tag != der.SEQUENCE:
        return None
    named = signer.issuer_and_serial()
    return next((place for place, read in left.certificates.items() if read.is_named(*named)), None)


def ordered(members, signer):
    """The members, the certificate of the signer and its issuers in front."""
    left, walk = Left(members), []
    place = signers_place(left, signer)
    while place is not None:
        walk.append(left.take(place))
        place = left.issuer_of(left.certificates[place])
    return [*walk, *left.members.values()]


def token_of(signer):
    """The token that the first unsigned attribute of a signer holds, None where it holds none."""
    attribute = next(signer.unsigned.walk(), None) if signer.unsigned else None
    if attribute is None:
        return None
    kind, values = attribute.kids(2)
    return next(values.walk(), None) if der.oid(kind) == signed_data.TOKEN else None


def reordered(content_info):
    """Where the certificates of signed data are, and those of a token, each with their octets in order."""
    fields = Fields.of(content_info)
    if (first := fields.first_signer()) is None:
        return
    signer, held = SignerFields.of(first), fields.certificates
    if held is not None:
        yield held.begin, held.end, b"".join(one.encoding for one in ordered(held.kids(), signer))
    token = token_of(signer)
    if token is not None:
        yield from reordered_token(token)


def reordered_token(token):
    """The same of a token alone, whose own signer has no token that counts."""
    fields = Fields.of(token)
    first, held = fields.first_signer(), fields.certificates
    if first is not None and held is not None:
        yield held.begin, held.end, b"".join(one.encoding for one in ordered(held.kids(), SignerFields.of(first)))


def with_ordered_bag(octets):
    """The octets of a signature file, in order."""
    content_info = signed_data.content_info_in(octets)
    try:
        for begin, end, members in reordered(content_info):
            octets = octets[:begin] + members + octets[end:]
    except NOT_READ as refusal:
        raise NotASignatureFile("its certificate isn't signed data, or its signer is none of signed data") from refusal
    return octets


@command.script(__doc__)
def main(arguments):
    parser = command.Parser()
    parser.add_argument("sig", metavar="SIG")
    parser.add_argument("out", metavar="OUT")
    words = parser.parse_args(arguments)
    try:
        Path(words.out).write_bytes(with_ordered_bag(command.read_file(words.sig)))
    except (OSError, command.Refusal) as refusal:
        command.say(f"order_bag.py: {command.sentence(refusal)}")
        return 1
    except NotASignatureFile as refusal:
        command.say(f"order_bag.py: {clean(words.sig)}: {refusal}")
        return 1
    return 0


if __name__ == "__main__":
    command.run(main, __doc__)
