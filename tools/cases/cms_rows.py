"""Rows of `xgolden_certificate`: elements in hexadecimal, and why each row is there.

They are elements of RFC 2315 and of the Windows Authenticode Portable
Executable Signature Format put together by hand.  The digests in them are
those of `abc` (FIPS 180-4).
"""

SHA256 = "300d06096086480165030402010500"
ABC = "0420ba7816bf8f01cfea414140de5dae2223b00361a396177a9cb410ff61f20015ad"
DIGEST = f"3031{SHA256}{ABC}"

# PE image data (1.3.6.1.4.1.311.2.1.15), and what programs write as its value: flags of no bits, and a file without a name.
PE = "060a2b06010401823702010f"
NO_NAME = "3009030100a004a2028000"
IMAGE = f"3017{PE}{NO_NAME}"

# ---- signed data, put together of hexadecimal elements


def der(tag, *parts):
    """The element of a tag and contents below 2^16 octets."""
    octets = "".join(parts)
    size = len(octets) // 2
    length = f"{size:02x}" if size < 0x80 else f"81{size:02x}" if size < 0x100 else f"82{size:04x}"
    return f"{tag}{length}{octets}"


DATA = "06092a864886f70d010701"
SIGNED_DATA = "06092a864886f70d010702"
INDIRECT_DATA = "060a2b060104018237020104"
UNKNOWN = "06022a03"
COUNTER = "06092a864886f70d010906"
TOKEN = "060a2b060104018237030301"
STAMP = "060a2b060104018237030201"
EMPTY = f"300b{DATA}"
RSA = "300d06092a864886f70d0101010500"
ISSUER = "300c310a300806035504030c0141"
SERIAL = "020105"
NAMED = der("30", ISSUER, SERIAL)
CONTENT_TYPE = der("30", "06092a864886f70d010903", der("31", DATA))
MESSAGE_DIGEST = der("30", "06092a864886f70d010904", der("31", "0402aabb"))
SIGNATURE = "0403010203"


def signer(version="020101", sid=NAMED, digest=SHA256, signed="", algorithm=RSA, signature=SIGNATURE, unsigned=""):
    return der("30", version, sid, digest, signed, algorithm, signature, unsigned)


def unsigned(*attributes):
    return der("a1", *attributes)


def counter(*values):
    return der("30", COUNTER, der("31", *values))


def token(*values):
    return der("30", TOKEN, der("31", *values))


def signed_data(version="020101", algorithms="3100", content=EMPTY, certificates="", lists="", signers="3100"):
    return der("30", version, algorithms, content, certificates, lists, signers)


def pkcs7(inner=signed_data(), oid=SIGNED_DATA, tag="a0"):
    return der("30", oid, der(tag, inner))


# ---- trust lists

CTL = "06092b0601040182370a01"
PURPOSES = der("30", "06082b06010505070303", "06082b06010505070308")


def property_of(number, *values):
    """An attribute of an entry by the last arc of its identifier."""
    arc = f"{number:02x}" if number < 0x80 else f"81{number & 0x7f:02x}"
    return der("30", der("06", f"2b0601040182370a0b{arc}"), der("31", *values))


def entry(*attributes, subject="0402aabb"):
    return der("30", subject, der("31", *attributes))


TIME = "170d3236303130313030303030305a"
USAGE = der("30", "060a2b0601040182370a0309")
HASH = property_of(29, "0410" + 16 * "11")
DISALLOWED = property_of(104, "0408" + 8 * "22")
STARTS = property_of(126, "0408" + 8 * "33")
FOR_PURPOSES = property_of(127, der("04", PURPOSES))


def trust_list(*entries, version="", usage=USAGE, identifier="", number="", this=TIME, following="", algorithm=SHA256, behind=""):
    return der("30", version, usage, identifier, number, this, following, algorithm, der("30", *entries), behind)


SIGNER = signer()
SIGNED_ATTRIBUTES = der("a0", CONTENT_TYPE, MESSAGE_DIGEST)

# Signed data without certificates and signers, 41 octets.
BARE = "302706092a864886f70d010702a01a30180201013100300b06092a864886f70d010701a000a1003100"
assert BARE == pkcs7(signed_data(certificates="a000", lists="a100"))


BY_KEY = "8002aabb"
SHA384 = "300d06096086480165030402020500"


def inside_one_another(count, sid=NAMED):
    """A signer with so many counter-signatures inside one another, each named so."""
    one = signer(sid=sid)
    for _ in range(count):
        one = signer(sid=sid, unsigned=unsigned(counter(one)))
    return one


# Values of each kind.
READ = [
    ("entry_attribute", [
        (HASH, "the MD5 of a name"),
        (DISALLOWED, "from when on it isn't trusted"),
        (STARTS, "from which time on"),
        (FOR_PURPOSES, "for which purposes"),
        (property_of(29), "no digests"),
        (property_of(127), "no purposes"),
        (property_of(29, "0400", "0401aa"), "two strings, one of no octets"),
        (property_of(127, "04023000"), "an empty list of purposes"),
        (property_of(127, der("04", PURPOSES), "04023000"), "two lists of purposes"),
        (property_of(11, "0500", "3003010102"), "any other attribute, another octet of TRUE"),
        (property_of(98), "another one without values"),
        (der("30", UNKNOWN, "3100"), "an unknown identifier"),
    ]),
    ("entry", [
        (entry(), "no attributes"),
        (entry(HASH), "one attribute"),
        (entry(HASH, DISALLOWED, STARTS, FOR_PURPOSES, property_of(11, "0500")), "attributes of each kind"),
        (entry(HASH, HASH), "one kind twice"),
        (entry(subject="0400"), "a subject of no octets"),
    ]),
    ("trust_list", [
        (trust_list(), "no entries, every field left out that can be"),
        (trust_list(entry(HASH)), "an entry"),
        (trust_list(entry(HASH), entry(DISALLOWED, subject="0400")), "two entries"),
        (trust_list(version="020101"), "a version"),
        (trust_list(identifier="0400"), "an identifier of no octets"),
        (trust_list(number="02020080"), "a number"),
        (trust_list(version="020100", identifier="0401aa", number="020105"), "a version, an identifier and a number"),
        (trust_list(following=TIME), "a second time"),
        (trust_list(this="1800", following="1700"), "times of no octets"),
        (trust_list(usage="3000"), "no purposes"),
        (trust_list(behind="a000"), "extensions of no octets"),
        (trust_list(behind="a0030101ff"), "extensions of any form"),
        (trust_list(entry(FOR_PURPOSES), version="020101", identifier="0401aa", number="020105", following=TIME, behind="a0023000"), "every field"),
    ]),
    ("content_info", [
        (EMPTY, "a type without a content"),
        (der("30", DATA, "a0040402aabb"), "octets"),
        (der("30", DATA, "a0020400"), "no octets"),
        (der("30", INDIRECT_DATA, der("a0", der("30", IMAGE, DIGEST))), "what Authenticode signs"),
        (f"300c{INDIRECT_DATA}", "its type alone"),
        (der("30", CTL, der("a0", trust_list(entry(HASH)))), "a trust list"),
        (der("30", CTL), "the type of trust lists alone"),
        (der("30", UNKNOWN, "a0020500"), "a content of an unknown type"),
        (der("30", UNKNOWN, "a0053003010102"), "another octet of TRUE is kept"),
        (f"3004{UNKNOWN}", "an unknown type alone"),
    ]),
    ("timestamp_request", [
        (der("30", STAMP, der("30", DATA, "a0040402aabb")), "octets to be stamped"),
        (der("30", STAMP, EMPTY), "no content"),
        (der("30", UNKNOWN, der("30", UNKNOWN, "a0020500")), "another type, and a content of an unknown one"),
    ]),
    ("unsigned_attribute", [
        (counter(SIGNER), "a counter-signature"),
        (counter(), "no signers"),
        (counter(SIGNER, SIGNER), "two signers"),
        (token(BARE), "signed data"),
        (token(), "no signed data"),
        (der("30", UNKNOWN, "3100"), "no values of an unknown type"),
        (der("30", UNKNOWN, "31053003010102"), "a value of an unknown type"),
        (der("30", "06092a864886f70d010904", "31020500"), "a digest is no attribute of a known kind here"),
    ]),
    ("signer_info", [
        (SIGNER, "no attributes"),
        (signer(version="020100"), "version 0"),
        (signer(version="020105"), "version 5"),
        (signer(sid="8002aabb"), "the identifier of a key"),
        (signer(sid="8000"), "the identifier of a key, of no octets"),
        (signer(signed="a000"), "an empty list of signed attributes is not absent"),
        (signer(signed=SIGNED_ATTRIBUTES), "signed attributes"),
        (signer(signed=der("a0", der("30", UNKNOWN, "31053003010102"))), "another octet of TRUE in a signed attribute is kept"),
        (signer(unsigned="a100"), "an empty list of unsigned attributes is not absent"),
        (signer(unsigned=unsigned(counter(SIGNER))), "a counter-signature"),
        (signer(unsigned=unsigned(token(BARE), der("30", UNKNOWN, "3100"))), "signed data and another attribute"),
        (signer(signed=SIGNED_ATTRIBUTES, unsigned=unsigned(counter(signer(signed=SIGNED_ATTRIBUTES)))), "attributes of both kinds"),
        (signer(signature="0400"), "a signature of no octets"),
        (inside_one_another(2), "a counter-signature of a counter-signature"),
        (signer(digest=SHA384, signed=SIGNED_ATTRIBUTES, unsigned=unsigned(counter(signer(digest=SHA256)))), "a counter-signature with another digest algorithm"),
    ]),
    ("signed_data", [
        (signed_data(), "neither certificates nor signers"),
        (signed_data(version="020103"), "version 3"),
        (signed_data(certificates="a000"), "an empty list of certificates is not absent"),
        (signed_data(lists="a100"), "an empty list of revocation lists is not absent"),
        (signed_data(certificates=der("a0", "3000", "a1020500", "0500")), "what is no certificate is kept"),
        (signed_data(lists=der("a1", "3000", "0500")), "what is no revocation list is kept"),
        (signed_data(algorithms=der("31", SHA256)), "a digest algorithm"),
        (signed_data(algorithms=der("31", SHA256, SHA256)), "two digest algorithms"),
        (signed_data(algorithms=der("31", SHA384, SHA256), signers=der("31", signer(digest=SHA256), signer(digest=SHA384))), "unlike digest algorithms, in another order than those of the signers"),
        (signed_data(algorithms=der("31", SHA384), signers=der("31", SIGNER)), "a signer with a digest algorithm that isn't among them"),
        (signed_data(signers=der("31", SIGNER)), "a signer"),
        (signed_data(signers=der("31", SIGNER, signer(sid="8000"))), "two signers"),
        (signed_data(content=der("30", UNKNOWN, "a0020500")), "a content of an unknown type"),
    ]),
    ("pkcs7", [
        (BARE, "neither certificates nor signers"),
        (pkcs7(), "both lists absent"),
        (pkcs7(signed_data(algorithms=der("31", SHA256), content=der("30", INDIRECT_DATA, der("a0", der("30", IMAGE, DIGEST))),
                           certificates=der("a0", "3000"), signers=der("31", signer(signed=SIGNED_ATTRIBUTES)))), "the form of a signature file"),
        (pkcs7(signed_data(signers=der("31", signer(unsigned=unsigned(token(BARE)))))), "signed data within signed data"),
        (pkcs7(signed_data(signers=der("31", inside_one_another(13)))), "thirteen counter-signatures inside one another"),
        (pkcs7(signed_data(signers=der("31", inside_one_another(14, BY_KEY)))), "fourteen of signers that keys name, which take three levels less"),
    ]),
    ("digest_info", [
        (DIGEST, "SHA-256"),
        ("3021300906052b0e03021a05000414a9993e364706816aba3e25717850c26c9cd0d89d", "SHA-1"),
        ("301f300706052b0e03021a0414a9993e364706816aba3e25717850c26c9cd0d89d", "SHA-1 without parameters"),
        ("3020300c06082a864886f70d020505000410900150983cd24fb0d6963f7d28e17f72", "MD5"),
        ("3008300406022a030400", "an unknown algorithm, no octets"),
        ("300b300406022a030403010203", "an unknown algorithm, three octets"),
        ("300a300606022a0330000400", "an empty SEQUENCE as parameters"),
    ]),
    ("attribute", [
        (IMAGE, "PE image data"),
        (f"3033{PE}3025030100a020a21e801c003c003c003c004f00620073006f006c006500740065003e003e003e", "PE image data with the name that Microsoft's programs write, <<<Obsolete>>>"),
        (f"300c{PE}", "no value"),
        ("300606022a030500", "NULL is not absent"),
        ("300606022a033000", "an empty SEQUENCE"),
        ("300806022a03a0020500", "a value under the tag that the text of the format has"),
        ("300706022a03010101", "another octet of TRUE is kept"),
    ]),
    ("indirect_data", [
        (f"304c{IMAGE}{DIGEST}", "a PE image and its SHA-256 digest"),
        (f"303c{IMAGE}3021300906052b0e03021a05000414a9993e364706816aba3e25717850c26c9cd0d89d", "a PE image and its SHA-1 digest"),
        ("3010300406022a033008300406022a040400", "no value, no octets"),
    ]),
    ("string", [
        ("80080050006900630041", "four units"),
        ("8000", "no units"),
        ("8002d83d", "half of a pair, which is no character"),
        ("8004d83dde00", "both halves of a pair, which is no single unit"),
        ("80020000", "unit 0"),
        ("8002ffff", "unit FFFF"),
    ]),
    ("link", [
        ("801368747470733a2f2f612e6578616d706c652f78", "https://a.example/x"),
        ("8000", "no octets"),
        ("8001ff", "an octet past 7F"),
    ]),
    ("opus_info", [
        ("3000", "neither"),
        ("3006a10480024142", "a link alone"),
        ("3004a1028000", "an empty link alone, as it is written for a program without a name"),
        ("3006a00480020041", "a name alone"),
        ("3004a0028000", "an empty name alone"),
        ("300ca00480020041a10480024142", "a name and a link"),
        ("300aa00480020041a1028000", "a name and an empty link"),
        ("3008a0028000a1028000", "an empty name and an empty link"),
    ]),
]

# Elements that are no value of the kind, or are nested too deep.
REFUSED = [
    ("entry_attribute", [
        (property_of(29, "0500"), "a digest that is no string"),
        (property_of(29, "0400", "0500"), "the second one isn't"),
        (property_of(104, "170100"), "a time that is no string"),
        (property_of(126, "2400"), "a constructed string"),
        (property_of(127, PURPOSES), "purposes outside a string"),
        (property_of(127, "0400"), "no octets as purposes"),
        (property_of(127, "040100"), "purposes that aren't DER"),
        (property_of(127, "0403300000"), "an octet behind the purposes"),
        (property_of(127, "040430020500"), "a purpose that is no identifier"),
        (property_of(127, "04023100"), "a SET of purposes"),
        (property_of(127, der("04", PURPOSES), "0400"), "the second list isn't one"),
        (der("30", UNKNOWN, "3000"), "a SEQUENCE of values"),
        (der("30", UNKNOWN), "no values"),
        (der("30", UNKNOWN, "3100", "0500"), "an element behind the values"),
        (der("31", UNKNOWN, "3100"), "a SET"),
        (der("30", "06022a80", "3100"), "no identifier"),
        ("0400", "a leaf"),
    ]),
    ("entry", [
        (entry(property_of(29, "0500")), "an attribute that is none"),
        (entry(HASH, property_of(127, "0400")), "the second one isn't one"),
        (entry(subject="0500"), "a subject that is no string"),
        (der("30", "0400"), "no attributes"),
        (der("30", "3100"), "no subject"),
        (der("30", "3100", "0400"), "the subject last"),
        (der("30", "0400", "3100", "0500"), "an element behind"),
        (der("30", "0400", "3000"), "a SEQUENCE of attributes"),
        (der("31", "0400", "3100"), "a SET"),
        ("0400", "a leaf"),
    ]),
    ("trust_list", [
        ("3000", "no fields"),
        (der("31", USAGE, TIME, SHA256, "3000"), "a SET"),
        (trust_list(version="0200"), "a version of no octets"),
        (trust_list(version="020101020101"), "two versions"),
        (trust_list(usage=""), "no usage"),
        (trust_list(usage="3100"), "a SET of purposes"),
        (trust_list(usage="30020500"), "a purpose that is no identifier"),
        (trust_list(identifier="2400"), "a constructed identifier"),
        (trust_list(identifier="0400", number="0200"), "a number of no octets"),
        (trust_list(identifier="020101", number="0400"), "the number in front of the identifier"),
        (trust_list(this=""), "no time"),
        (trust_list(this="160d3236303130313030303030305a"), "a time of another tag"),
        (trust_list(following=TIME + TIME), "three times"),
        (trust_list(algorithm=""), "no algorithm"),
        (trust_list(algorithm="3000"), "an algorithm without an identifier"),
        (der("30", USAGE, TIME, SHA256), "no entries"),
        (trust_list("0500"), "an entry that is none"),
        (trust_list(entry(), "3000"), "the second one isn't one"),
        (trust_list(entry(property_of(127, "0400"))), "an entry with purposes that don't read"),
        (der("30", USAGE, TIME, SHA256, "3100"), "a SET of entries"),
        (trust_list(behind="8000"), "extensions in a leaf"),
        (trust_list(behind="a100"), "another tag behind"),
        (trust_list(behind="a000a000"), "extensions twice"),
        (trust_list(behind="a0000500"), "an element behind the extensions"),
        ("0400", "a leaf"),
    ]),
    ("timestamp_request", [
        (der("31", STAMP, EMPTY), "a SET"),
        (der("30", STAMP), "no content"),
        (der("30", EMPTY), "no type"),
        (der("30", EMPTY, STAMP), "the content in front"),
        (der("30", STAMP, EMPTY, "0500"), "an element behind"),
        (der("30", STAMP, der("30", DATA, "a0020500")), "octets that are none"),
        (der("30", STAMP, der("a0", EMPTY)), "attributes and no content"),
        (der("30", "06022a80", EMPTY), "a type that is no identifier"),
        ("0400", "a leaf"),
    ]),
    ("content_info", [
        (der("30", CTL, "a0023000"), "a trust list that is none"),
        (f"310b{DATA}", "a SET"),
        ("3000", "no type"),
        ("30020600", "an identifier of no octets"),
        (der("30", DATA, "a0020500"), "data that is no octets"),
        (der("30", DATA, "a000"), "no content under the tag"),
        (der("30", DATA, "a00404000400"), "two contents"),
        (der("30", DATA, "0400"), "a content without its tag"),
        (der("30", DATA, "a1020400"), "another tag"),
        (der("30", DATA, "8000"), "a leaf as the tag"),
        (der("30", DATA, "a0020400", "0500"), "an element after the content"),
        (der("30", INDIRECT_DATA, "a0020400"), "what Authenticode signs isn't octets"),
        (der("30", INDIRECT_DATA, der("a0", der("30", IMAGE))), "no digest"),
    ]),
    ("unsigned_attribute", [
        (der("31", COUNTER, "3100"), "a SET"),
        (f"300b{COUNTER}", "no values"),
        (der("30", COUNTER, "3000"), "values in a SEQUENCE"),
        (der("30", COUNTER, "3100", "0500"), "an element after the values"),
        (der("30", "0600", "3100"), "an identifier of no octets"),
        (counter("0500"), "a value that is no signer"),
        (counter(SIGNER, "0500"), "the second value is no signer"),
        (counter(BARE), "signed data is no signer"),
        (token(SIGNER), "a signer is no signed data"),
        (token(signed_data()), "signed data without its type"),
        (counter(signer(unsigned=unsigned(counter("0500")))), "a value of a value that is no signer"),
    ]),
    ("signer_info", [
        (der("31", "020101", NAMED, SHA256, RSA, SIGNATURE), "a SET"),
        (signer(version="020106"), "version 6"),
        (signer(version="02020001"), "a version of two octets"),
        (signer(version=""), "no version"),
        (signer(version="0a0101"), "an ENUMERATED as the version"),
        (signer(sid=""), "no identifier"),
        (signer(sid=der("31", ISSUER, SERIAL)), "a SET of issuer and serial number"),
        (signer(sid=der("30", der("31", ISSUER[4:]), SERIAL)), "a SET as the issuer"),
        (signer(sid=der("30", ISSUER, "0a0105")), "an ENUMERATED as the serial number"),
        (signer(sid="0402aabb"), "the identifier of a key under its own tag"),
        (signer(sid=der("30", SERIAL, ISSUER)), "the serial number in front"),
        (signer(sid=der("30", ISSUER)), "no serial number"),
        (signer(sid="a0020500"), "an identifier under a constructed tag"),
        (signer(sid="8100"), "an identifier under another tag"),
        (signer(digest=""), "one algorithm"),
        (signer(digest="3000"), "a digest algorithm of no identifier"),
        (signer(digest=der("31", SHA256[4:])), "a SET as the digest algorithm"),
        (signer(algorithm=der("31", RSA[4:])), "a SET as the algorithm of the signature"),
        (signer(signed=der("a2", CONTENT_TYPE)), "signed attributes under another tag"),
        (signer(signed=der("a0", "0500")), "a signed attribute that is none"),
        (signer(signed=der("a0", der("30", "06092a864886f70d010904", "31020500"))), "a digest that is no octets"),
        (signer(signed="8000"), "signed attributes as a leaf"),
        (signer(signed="3100"), "signed attributes without their tag"),
        (signer(signed="a000a000"), "signed attributes twice"),
        (signer(algorithm=""), "no algorithm of the signature"),
        (signer(algorithm="a0020500"), "another tag in place of the algorithm of the signature"),
        (signer(signature=""), "no signature"),
        (signer(signature="030100"), "a BIT STRING as the signature"),
        (signer(unsigned="8100"), "unsigned attributes as a leaf"),
        (signer(unsigned="a200"), "another tag after the signature"),
        (signer(unsigned="a100a100"), "unsigned attributes twice"),
        (signer(unsigned="a1000500"), "an element after the unsigned attributes"),
        (signer(unsigned=unsigned("0500")), "an unsigned attribute that is none"),
        (signer(unsigned=unsigned(counter("0500"))), "a counter-signature whose value is no signer"),
    ]),
    ("signed_data", [
        (der("31", "020101", "3100", EMPTY, "3100"), "a SET"),
        (signed_data(version="020106"), "version 6"),
        (signed_data(version="0200"), "a version of no octets"),
        (signed_data(version="0a0101"), "an ENUMERATED as the version"),
        (signed_data(algorithms="a000"), "digest algorithms under another tag"),
        (signed_data(content=der("31", DATA)), "a SET as the content"),
        (signed_data(certificates="a200"), "certificates under another tag"),
        (signed_data(certificates="3000"), "certificates without their tag"),
        (signed_data(signers="a000"), "signers under another tag"),
        (signed_data(algorithms="3000"), "digest algorithms in a SEQUENCE"),
        (signed_data(algorithms="31020500"), "a digest algorithm that is none"),
        (signed_data(content="3000"), "no type of the content"),
        (signed_data(content=der("30", DATA, "a0020500")), "data that is no octets"),
        (signed_data(certificates="8000"), "certificates as a leaf"),
        (signed_data(certificates="a100a000"), "certificates after revocation lists"),
        (signed_data(certificates="a000a000"), "certificates twice"),
        (signed_data(lists="8100"), "revocation lists as a leaf"),
        (signed_data(lists="a200"), "another tag"),
        (signed_data(signers=""), "no list of signers"),
        (signed_data(signers="3000"), "signers in a SEQUENCE"),
        (signed_data(signers="31020500"), "a signer that is none"),
        (signed_data(signers=der("31", SIGNER, signer(version="020106"))), "the second signer has version 6"),
        (signed_data(signers="31000500"), "an element after the signers"),
    ]),
    ("pkcs7", [
        (pkcs7(oid=DATA), "another type"),
        (pkcs7(tag="a1"), "another tag"),
        (der("30", "88" + SIGNED_DATA[2:], der("a0", signed_data())), "the type under another tag"),
        (pkcs7(der("31", signed_data()[4:])), "a SET as signed data"),
        (f"300b{SIGNED_DATA}", "no content"),
        (der("30", SIGNED_DATA, "a000"), "no content under the tag"),
        (der("30", SIGNED_DATA, der("a0", signed_data(), "0500")), "two contents"),
        (der("30", SIGNED_DATA, der("a0", signed_data()), "0500"), "an element after the content"),
        (der("31", SIGNED_DATA, der("a0", signed_data())), "a SET"),
        (signed_data(), "signed data without its type"),
        (pkcs7(signed_data(signers=der("31", signer(unsigned=unsigned(token(pkcs7(signed_data(signers="31020500")))))))), "signed data within signed data whose signer is none"),
        (pkcs7(signed_data(signers=der("31", inside_one_another(14)))), "fourteen counter-signatures inside one another"),
        (pkcs7(signed_data(signers=der("31", inside_one_another(15, BY_KEY)))), "fifteen of signers that keys name"),
    ]),
    ("digest_info", [
        (f"3131{SHA256}{ABC}", "a SET"),
        (f"300f{SHA256}", "no digest"),
        (f"3022{ABC}", "no algorithm"),
        (f"3033{SHA256}{ABC}0500", "an element after the digest"),
        (f"3031{ABC}{SHA256}", "the digest in front"),
        ("3008300406022a030300", "a BIT STRING as the digest"),
        ("300c300406022a032404040200aa", "a digest in parts"),
        ("300430000400", "an algorithm of no identifier"),
        ("3000", "no fields"),
        ("0400", "an OCTET STRING"),
    ]),
    ("attribute", [
        (f"3117{PE}{NO_NAME}", "a SET"),
        (f"300b{NO_NAME}", "no type"),
        (f"3019{PE}{NO_NAME}0500", "an element after the value"),
        (f"3017{NO_NAME}{PE}", "the value in front"),
        ("30020600", "an identifier of no octets"),
        ("3000", "no fields"),
        ("06022a03", "an identifier alone"),
    ]),
    ("indirect_data", [
        (f"314c{IMAGE}{DIGEST}", "a SET"),
        (f"3019{IMAGE}", "no digest"),
        (f"3033{DIGEST}", "no image"),
        (f"304c{DIGEST}{IMAGE}", "the digest in front"),
        (f"304e{IMAGE}{DIGEST}0500", "an element after the digest"),
        (f"30353000{DIGEST}", "an image of no type"),
        (f"301b{IMAGE}3000", "a digest of no fields"),
        (f"303f{PE}{DIGEST}", "an identifier as the image"),
        ("3000", "no fields"),
    ]),
    ("string", [
        ("800141", "one octet"),
        ("8003004100", "an octet after a unit"),
        ("810141", "the form of seven bits"),
        ("81020041", "another tag"),
        ("1e020041", "a BMPString under its own tag"),
        ("a0020500", "a constructed tag"),
        ("a00480020041", "a string under an explicit tag"),
    ]),
    ("link", [
        ("a1020500", "a moniker"),
        ("a204a0028000", "a file"),
        ("8100", "another tag"),
        ("1600", "an IA5String under its own tag"),
        ("a0028000", "a constructed tag"),
    ]),
    ("opus_info", [
        ("3100", "a SET"),
        ("300ca10480024142a00480020041", "the link in front"),
        ("300ca00480020041a00480020041", "two names"),
        ("300ca10480024142a10480024142", "two links"),
        ("3002a000", "no string under the tag of the name"),
        ("3002a100", "no link under the tag of the link"),
        ("3008a006800080020041", "two strings under the tag of the name"),
        ("3005a003800141", "a name of one octet"),
        ("3006a00481020041", "a name of the form of seven bits"),
        ("3006a0041e020041", "a BMPString under its own tag as the name"),
        ("300480020041", "a name without its tag"),
        ("3006a10481024142", "a link with another tag"),
        ("3006a104a2028000", "a file as the link"),
        ("3008a004800200410500", "an element after the name"),
        ("300ea00480020041a104800241420500", "an element after the link"),
        ("3004a2028000", "another tag"),
        ("300480008000", "leaves"),
        ("8000", "a leaf"),
    ]),
]

# Two values that are unlike one another, and in what.
UNLIKE = [
    ("unsigned_attribute", counter(), token(), "the kind"),
    ("unsigned_attribute", counter(), der("30", UNKNOWN, "3100"), "a known kind and an unknown one"),
    ("unsigned_attribute", token(), der("30", UNKNOWN, "3100"), "the other known kind and an unknown one"),
    ("unsigned_attribute", counter(), counter(SIGNER), "a signer"),
    ("unsigned_attribute", counter(SIGNER), counter(signer(sid="8000")), "the signer"),
    ("unsigned_attribute", token(), token(BARE), "a token"),
    ("unsigned_attribute", token(BARE), token(pkcs7()), "the token"),
    ("unsigned_attribute", der("30", UNKNOWN, "3100"), der("30", "06022a04", "3100"), "the identifier"),
    ("unsigned_attribute", der("30", UNKNOWN, "31020500"), der("30", UNKNOWN, "31020400"), "a value"),
    ("signer_info", SIGNER, signer(version="020103"), "the version"),
    ("signer_info", SIGNER, signer(sid="8000"), "who is named"),
    ("signer_info", SIGNER, signer(sid=der("30", ISSUER, "020106")), "the serial number"),
    ("signer_info", SIGNER, signer(sid=der("30", "300c310a300806035504030c0142", SERIAL)), "the issuer"),
    ("signer_info", signer(sid="8000"), signer(sid="800100"), "the identifier of the key"),
    ("signer_info", SIGNER, signer(digest=SHA384), "the digest algorithm"),
    ("signer_info", SIGNER, signer(signed="a000"), "no signed attributes and absent"),
    ("signer_info", signer(signed=SIGNED_ATTRIBUTES), signer(signed=der("a0", MESSAGE_DIGEST, CONTENT_TYPE)), "the order of the signed attributes"),
    ("signer_info", signer(signed=der("a0", der("30", UNKNOWN, "31053003010102"))), signer(signed=der("a0", der("30", UNKNOWN, "310530030101ff"))), "the octet of TRUE in a signed attribute"),
    ("signer_info", SIGNER, signer(algorithm=SHA256), "the algorithm of the signature"),
    ("signer_info", SIGNER, signer(signature="0403010204"), "the signature"),
    ("signer_info", SIGNER, signer(unsigned="a100"), "no unsigned attributes and absent"),
    ("signer_info", signer(unsigned=unsigned(counter())), signer(unsigned=unsigned(token())), "the unsigned attributes"),
    ("signed_data", signed_data(), signed_data(version="020103"), "the version"),
    ("signed_data", signed_data(), signed_data(algorithms=der("31", SHA256)), "a digest algorithm"),
    ("signed_data", signed_data(algorithms=der("31", SHA256, SHA384)), signed_data(algorithms=der("31", SHA384, SHA256)), "the order of the digest algorithms"),
    ("signed_data", signed_data(), signed_data(content=der("30", UNKNOWN)), "the type of the content"),
    ("signed_data", signed_data(), signed_data(certificates="a000"), "no certificates and absent"),
    ("signed_data", signed_data(certificates="a0023000"), signed_data(certificates="a0020500"), "a certificate"),
    ("signed_data", signed_data(), signed_data(lists="a100"), "no revocation lists and absent"),
    ("signed_data", signed_data(lists="a1023000"), signed_data(lists="a1020500"), "a revocation list"),
    ("signed_data", signed_data(certificates="a000"), signed_data(lists="a100"), "which of the two is left out"),
    ("signed_data", signed_data(), signed_data(signers=der("31", SIGNER)), "a signer"),
    ("pkcs7", BARE, pkcs7(), "the signed data"),
    ("trust_list", trust_list(), trust_list(entry()), "the entries"),
    ("trust_list", trust_list(), trust_list(behind="a000"), "the extensions"),
    ("trust_list", trust_list(this="1700"), trust_list(this="1800"), "the form of the time"),
    ("content_info", der("30", CTL, der("a0", trust_list())), der("30", CTL, der("a0", trust_list(entry()))), "a trust list"),
    ("content_info", EMPTY, f"3004{UNKNOWN}", "the type"),
    ("content_info", EMPTY, der("30", DATA, "a0020400"), "no octets and absent"),
    ("content_info", der("30", DATA, "a0020400"), der("30", DATA, "a003040100"), "the octets"),
    ("content_info", der("30", UNKNOWN, "a0020500"), der("30", UNKNOWN, "a0020400"), "the content of an unknown type"),
    ("timestamp_request", der("30", STAMP, EMPTY), der("30", UNKNOWN, EMPTY), "the type"),
    ("timestamp_request", der("30", STAMP, EMPTY), der("30", STAMP, f"3004{UNKNOWN}"), "the content"),
    ("digest_info", "3008300406022a030400", "3008300406022a040400", "the algorithm"),
    ("digest_info", "3008300406022a030400", "300a300606022a0305000400", "the parameters"),
    ("digest_info", "3008300406022a030400", "3009300406022a03040100", "the digest"),
    ("attribute", "300406022a03", "300406022a04", "the type"),
    ("attribute", "300406022a03", "300606022a030500", "NULL and absent"),
    ("attribute", "300606022a030500", "300606022a033000", "the value"),
    ("indirect_data", "3010300406022a033008300406022a040400", "3010300406022a053008300406022a040400", "the image"),
    ("indirect_data", "3010300406022a033008300406022a040400", "3011300406022a033009300406022a04040100", "the digest"),
    ("string", "80020041", "80024100", "the order of octets"),
    ("string", "8000", "80020000", "a unit more"),
    ("link", "8000", "800161", "an octet more"),
    ("link", "800161", "800141", "another case"),
    ("opus_info", "3000", "3004a0028000", "an empty name and absent"),
    ("opus_info", "3000", "3004a1028000", "an empty link and absent"),
    ("opus_info", "3004a0028000", "3004a1028000", "a name and a link"),
    ("opus_info", "3006a00480020041", "3006a00480020042", "the name"),
    ("opus_info", "300ca00480020041a10480024142", "300ca00480020041a10480024143", "the link"),
]

# Texts of which strings are made: all but the last ones have a unit for each character.
TEXTS = [
    ("", "no characters"),
    ("A", "one octet of UTF-8"),
    ("Ninebark bit", "several"),
    ("caf\u00e9", "two octets of UTF-8"),
    ("\u20ac\u2603", "three octets of UTF-8"),
    ("\x7f\x80\u00ff\u0100", "about the first units of two octets"),
    ("\u07ff\u0800", "the last character of two octets and the first of three"),
    ("\ud7ff\ue000", "on either side of the halves of pairs"),
    ("\uffff", "the last unit"),
    ("\x00", "unit 0"),
    ("\U0001f600", "past the last unit"),
    ("\U00010000", "the first character past it"),
    ("\U0010ffff", "the last character"),
    ("A\U0001f600", "past the last unit, behind another"),
    ("\U0001f600A", "past the last unit, in front of another"),
]

# Digest algorithms, and their identifiers (RFC 8017 appendix B.1).
DIGESTS = [
    ("MD5", "1.2.840.113549.2.5"),
    ("SHA1", "1.3.14.3.2.26"),
    ("SHA2_224", "2.16.840.1.101.3.4.2.4"),
    ("SHA2_256", "2.16.840.1.101.3.4.2.1"),
    ("SHA2_384", "2.16.840.1.101.3.4.2.2"),
    ("SHA2_512", "2.16.840.1.101.3.4.2.3"),
]

# Signers and tokens that are put together as members of counter-signatures.
MEMBERS = [
    ("signer_info", SIGNER, "a signer"),
    ("signer_info", signer(signed=SIGNED_ATTRIBUTES, unsigned=unsigned(counter(SIGNER))), "attributes of both kinds"),
    ("pkcs7", BARE, "signed data of 41 octets"),
    ("pkcs7", pkcs7(signed_data(signers=der("31", SIGNER))), "signed data with a signer"),
]

# A signer is put into itself as a counter-signature: 63 levels, and 67.
WITHIN = [
    (inside_one_another(13, BY_KEY), inside_one_another(14, BY_KEY), "of 55 levels"),
    (inside_one_another(14, BY_KEY), inside_one_another(15, BY_KEY), "of 59 levels"),
    (inside_one_another(15, BY_KEY), None, "of 63 levels"),
]
