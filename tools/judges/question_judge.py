"""Which signatures a check may ask about, as `picky_ask` prints them, from the rules of docs/FORMATS.md.

It shares no code with the program.  A signature file has the signature of its first
signer, by RSA with the signer's digest; then, from the signer's certificate on, that of
each certificate by the key of the next one, which are those of the issuer walk with
another subject; then the same of the first certificate of the token and the others with
another subject, where some certificate of it names time stamping.  Of a chain it is each
certificate by the key of the next one.  A signature whose key isn't one of its algorithm
isn't asked about.  Of a pool it is each certificate by the key of each whose subject is its
issuer, itself among them, as `pool_questions.py` asks.
"""

from hashlib import sha256
from itertools import pairwise

from judges import chain_reader
from judges.asked_signatures import ED25519, RSA, SIGNATURES, Certificate
from judges.basic_judge import DIGESTS, Refused, SignedData, Signer, certificate_in, signed_data_in, signers_certificate
from judges.check_judge import TIME_STAMPING, path_of, token_of
from judges.value_reader import dotted
from verdict_table import NAMES


def line(name, *parts):
    """The line of a question: the algorithm, the digests of key, message and signature, and these."""
    return " ".join([name, *(sha256(part).hexdigest() for part in parts), *(part.hex() for part in parts)])


def of_signer(signer, one):
    """The question about a signer under its certificate, where there is one."""
    digest = DIGESTS.get(dotted(signer.digest_algorithm.kids[0].contents))
    if digest and one.key_kind() == RSA:
        yield line(f"rsa-{digest}", one.key_octets(), signer.message(), signer.signature)


def of_links(certificates):
    """The questions about certificates, each under the key of the next one."""
    for child, parent in pairwise(certificates):
        algorithm, digest = SIGNATURES.get(child.algorithm, (None, None))
        kind, curve = parent.key_names()
        name = {RSA: f"rsa-{digest}", ED25519: "ed25519"}.get(algorithm, f"{curve}-{digest}")
        fits = kind == algorithm and name in NAMES
        if fits and (algorithm != ED25519 or len(parent.key_octets()) == 32):
            yield line(name, parent.key_octets(), child.tbs, child.signature)


def parts_of(members):
    return [Certificate.of(member.element) for member in members]


def of_token(token):
    """The questions about the certificates of a token."""
    bag = SignedData(token).bag
    if any(member.names(TIME_STAMPING) for member in bag):
        first, *others = bag
        yield from of_links(parts_of([first, *(one for one in others if one.subject != first.subject)]))


def of_signed_data(signed):
    """The questions about signed data."""
    if not signed.signers:
        return
    signer = Signer(signed.signers[0])
    try:
        one = signers_certificate(signer, signed.bag)
    except Refused:
        one = None
    if one is not None:
        yield from of_signer(signer, one)
        yield from of_links(parts_of([one, *path_of(signed.bag, one)]))
    token = token_of(signer)
    if token is not None:
        yield from of_token(token)


def text(status, lines):
    return status, "".join(f"{one}\n" for one in lines)


def of_file(octets):
    """The status of `picky_ask SIG`, and what it prints."""
    try:
        return text(0, of_signed_data(signed_data_in(certificate_in(octets))))
    except Refused as refusal:
        return text(1, [f"refused {refusal.words[0]}"])


def of_chain(files):
    """The status of `picky_ask --chain CERT ..`, and what it prints."""
    try:
        return text(0, of_links([chain_reader.Read.of(octets).parts for octets in files]))
    except chain_reader.Refused as refusal:
        return text(1, [f"refused {refusal}"])


def of_pool(files):
    """Status and output of `pool_questions.py CERT ..`."""
    members = [chain_reader.Read.of(octets).parts for octets in dict.fromkeys(files)]
    pairs = ((child, parent) for child in members for parent in members if child.issuer == parent.subject)
    return text(0, dict.fromkeys(line for pair in pairs for line in of_links(pair)))
