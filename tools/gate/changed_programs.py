"""Signed programs in which the first signer, or the certificates, are others, for tests.

No signature is made anew: what is changed under a signature makes it a false one.
"""

import signed_program
from cases.basic_world import signature_file
from judges import asked_signatures
from judges.der_reader import Constructed, Primitive, write
from program_check.signature import COUNTERSIGNATURE, NESTED, OPUS_INFO, SIGNING_TIME

OIDS = {
    COUNTERSIGNATURE: "2a864886f70d010906", NESTED: "2b060104018237020401",
    OPUS_INFO: "2b06010401823702010c", SIGNING_TIME: "2a864886f70d010905",
}
SIGNED, UNSIGNED = 0xA0, 0xA1
# The text of an SpcString in ASCII, the address of an SpcLink.
ASCII, ADDRESS = 0x81, 0x80


def with_entry(program, entry):
    """A program with another certificate table."""
    optional, place, at, _ = signed_program.parts(program)
    padded = entry + bytes(-len(entry) % 8)
    return program[:optional + place + 4] + len(padded).to_bytes(4, "little") + program[optional + place + 8:at] + padded


def with_signed_data(program, change):
    """A program whose signed data has other fields."""
    element = asked_signatures.content_info_in(signed_program.signature(program))[0]
    held = element.kids[1]
    signed = held.kids[0]._replace(kids=tuple(change(list(held.kids[0].kids))))
    der = write(element._replace(kids=(element.kids[0], held._replace(kids=(signed,)))))
    return with_entry(program, signature_file(der))


def with_signer(program, change):
    """A program whose first signer is another one."""
    def changed(fields):
        *others, signers = fields
        first, *further = signers.kids
        return [*others, signers._replace(kids=(change(first), *further))]

    return with_signed_data(program, changed)


def with_certificates(program, change):
    """A program whose signature has other certificates, in place of the list of those that it has."""
    return with_signed_data(program, lambda fields: [one._replace(kids=tuple(change(list(one.kids)))) if one.tag == 0xA0 else one for one in fields])


def attribute(oid, *values):
    return Constructed(0x30, (Primitive(6, bytes.fromhex(OIDS[oid])), Constructed(0x31, values)))


def with_attribute(program, tag, *added):
    """A program with attributes in front of those of its first signer, signed or unsigned by the tag."""
    def changed(signer):
        kids = [one for one in signer.kids if one.tag != tag]
        old = next((one.kids for one in signer.kids if one.tag == tag), ())
        place = 3 if tag == SIGNED else len(kids)
        return signer._replace(kids=(*kids[:place], Constructed(tag, (*added, *old)), *kids[place:]))

    return with_signer(program, changed)


def opus(*fields):
    """SpcSpOpusInfo with these fields."""
    return attribute(OPUS_INFO, Constructed(0x30, fields))


def opus_name(text):
    return Constructed(0xA0, (Primitive(ASCII, text),))


def opus_link(text):
    return Constructed(0xA1, (Primitive(ADDRESS, text),))


def described(program):
    """A program with a name and an address of the signer's."""
    return with_attribute(program, SIGNED, opus(opus_name(b"A tool"), opus_link(b"https://tool.example")))
