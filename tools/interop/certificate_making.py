"""Keys, names and certificates, by openssl where it can make them.

Files of one run lie in the folder that is given.
"""

from cases.first_path import bit_string, context, identifier, integer, sequence, set_of, utc_time
from common.openssl import openssl

REQUEST_FORM = """\
oid_section = identifiers
[identifiers]
other = 1.2.3.4
[req]
string_mask = {mask}
distinguished_name = none
[none]
"""


def make_key(key, file):
    """A private key in a file."""
    options = (word for option in key.options for word in ("-pkeyopt", option))
    openssl("genpkey", "-algorithm", key.algorithm, *options, "-out", file)
    if key.compressed:
        openssl("ec", "-in", file, "-conv_form", "compressed", "-out", file)


def requested_certificate(request, key, folder):
    """A certificate of its own key."""
    form = folder / "request.cnf"
    form.write_text(REQUEST_FORM.format(mask=request.mask), encoding="utf-8")
    return openssl("req", "-x509", "-new", "-config", form, "-key", key, "-days", 3650,
                   "-utf8", "-subj", request.subject, "-outform", "DER")


def agreed_certificate(agreed, key, signing_key, folder):
    """A certificate of a key that another key signs."""
    public = folder / "public.pem"
    openssl("pkey", "-in", key, "-pubout", "-out", public)
    return openssl("x509", "-new", "-force_pubkey", public, "-key", signing_key, "-days", 3650,
                   "-subj", agreed.subject, "-outform", "DER")


def name_form(sets):
    """The sections of a name for ASN1_generate_nconf(3).

    A set is asked for as a sequence of another tag, which keeps its order.
    """
    lines = ["asn1 = SEQUENCE:name", "[name]"]
    lines += (f"{i} = IMPLICIT:17U,SEQUENCE:set{i}" for i in range(len(sets)))
    for i, members in enumerate(sets):
        lines.append(f"[set{i}]")
        lines += (f"{j} = SEQUENCE:member{i}_{j}" for j in range(len(members)))
        for j, (dotted, value) in enumerate(members):
            lines += f"[member{i}_{j}]", f"type = OID:{dotted}", f"value = {value}"
    return "\n".join(lines) + "\n"


def generated_name(sets, folder):
    """A Name of members whose values openssl generates."""
    form = folder / "name.cnf"
    form.write_text(name_form(sets), encoding="utf-8")
    file = folder / "name.der"
    openssl("asn1parse", "-genconf", form, "-noout", "-out", file)
    return file.read_bytes()


def written_name(sets):
    """A Name of members whose values are elements in hexadecimal."""
    return sequence(*(
        set_of(*(sequence(identifier(dotted), bytes.fromhex(value)) for dotted, value in members))
        for members in sets
    ))


ED25519 = sequence(identifier("1.3.101.112"))
ANY_KEY = sequence(ED25519, bit_string(bytes(32)))


def certificate_around(name, key=ANY_KEY):
    """A certificate of these parts.  Its signature is a stand-in, which isn't looked at."""
    to_be_signed = sequence(
        context(0, integer(b"\x02")),
        integer(b"\x01"),
        ED25519,
        sequence(),
        sequence(utc_time("200101000000Z"), utc_time("300101000000Z")),
        name,
        key,
    )
    return sequence(to_be_signed, ED25519, bit_string(bytes(64)))
