"""Signature files that differ from that of `first_path` in one part or another, for `xgolden_check`.

Each row says what comes of it, by the steps that `basic_judge` lists.
"""

from hashlib import sha256

from cases.first_path import FILE_HASH as ABC, element, signature_file, verdict_line

FILE = signature_file()
FILE_HASH = ABC.hex()
ROW = verdict_line()

# The value in the file, line by line, as `openssl asn1parse` shows it: its
# depth, its tag, and the contents of a primitive element.
LINES = [
    (0, 0x30, ""),  # 0: ContentInfo
    (1, 0x06, "2a864886f70d010702"),  # 1: signedData
    (1, 0xa0, ""),  # 2
    (2, 0x30, ""),  # 3: SignedData
    (3, 0x02, "01"),  # 4: version
    (3, 0x31, ""),  # 5: digest algorithms
    (4, 0x30, ""),  # 6
    (5, 0x06, "608648016503040201"),  # 7: SHA-256
    (5, 0x05, ""),  # 8
    (3, 0x30, ""),  # 9: content
    (4, 0x06, "2b060104018237020104"),  # 10: indirect data
    (4, 0xa0, ""),  # 11
    (5, 0x30, ""),  # 12
    (6, 0x30, ""),  # 13
    (7, 0x06, "2b06010401823702010f"),  # 14: PE image data
    (7, 0x30, ""),  # 15
    (8, 0x03, "00"),  # 16: flags
    (8, 0xa0, ""),  # 17: link
    (9, 0xa2, ""),  # 18: file
    (10, 0x80, ""),  # 19: its name
    (6, 0x30, ""),  # 20: digest of the signed file
    (7, 0x30, ""),  # 21
    (8, 0x06, "608648016503040201"),  # 22
    (8, 0x05, ""),  # 23
    (7, 0x04, "ba7816bf8f01cfea414140de5dae2223b00361a396177a9cb410ff61f20015ad"),  # 24
    (3, 0xa0, ""),  # 25: certificates
    (4, 0x30, ""),  # 26
    (5, 0x30, ""),  # 27: TBSCertificate
    (6, 0xa0, ""),  # 28
    (7, 0x02, "02"),  # 29: version 3
    (6, 0x02, "01"),  # 30: serial number
    (6, 0x30, ""),  # 31: signature algorithm
    (7, 0x06, "2a864886f70d01010b"),  # 32: SHA-256 with RSA
    (7, 0x05, ""),  # 33
    (6, 0x30, ""),  # 34: issuer
    (7, 0x31, ""),  # 35
    (8, 0x30, ""),  # 36
    (9, 0x06, "550403"),  # 37
    (9, 0x0c, "41"),  # 38
    (6, 0x30, ""),  # 39: validity
    (7, 0x17, "3230303130313030303030305a"),  # 40
    (7, 0x17, "3330303130313030303030305a"),  # 41
    (6, 0x30, ""),  # 42: subject
    (7, 0x31, ""),  # 43
    (8, 0x30, ""),  # 44
    (9, 0x06, "550403"),  # 45
    (9, 0x0c, "41"),  # 46
    (6, 0x30, ""),  # 47: subject public key
    (7, 0x30, ""),  # 48
    (8, 0x06, "2a864886f70d010101"),  # 49: rsaEncryption
    (8, 0x05, ""),  # 50
    (7, 0x03, "003006020111020103"),  # 51: modulus 11, exponent 03
    (5, 0x30, ""),  # 52: signature algorithm
    (6, 0x06, "2a864886f70d01010b"),  # 53
    (6, 0x05, ""),  # 54
    (5, 0x03, "00bb"),  # 55: signature of the certificate
    (3, 0xa1, ""),  # 56: revocation lists
    (3, 0x31, ""),  # 57: signers
    (4, 0x30, ""),  # 58
    (5, 0x02, "01"),  # 59: version
    (5, 0x30, ""),  # 60: IssuerAndSerialNumber
    (6, 0x30, ""),  # 61
    (7, 0x31, ""),  # 62
    (8, 0x30, ""),  # 63
    (9, 0x06, "550403"),  # 64
    (9, 0x0c, "41"),  # 65
    (6, 0x02, "01"),  # 66
    (5, 0x30, ""),  # 67: digest algorithm
    (6, 0x06, "608648016503040201"),  # 68
    (6, 0x05, ""),  # 69
    (5, 0xa0, ""),  # 70: signed attributes
    (6, 0x30, ""),  # 71
    (7, 0x06, "2a864886f70d010903"),  # 72: contentType
    (7, 0x31, ""),  # 73
    (8, 0x06, "2b060104018237020104"),  # 74
    (6, 0x30, ""),  # 75
    (7, 0x06, "2b06010401823702010c"),  # 76: opus info
    (7, 0x31, ""),  # 77
    (8, 0x30, ""),  # 78
    (9, 0xa1, ""),  # 79
    (10, 0x80, ""),  # 80
    (6, 0x30, ""),  # 81
    (7, 0x06, "2a864886f70d010904"),  # 82: messageDigest
    (7, 0x31, ""),  # 83
    (8, 0x04, "6b00646e9ba32b38bcdfe80a0e22b4671c4d01316d815cc7bb60626b24aa2832"),  # 84
    (5, 0x30, ""),  # 85: signature algorithm
    (6, 0x06, "2a864886f70d010101"),  # 86
    (6, 0x05, ""),  # 87
    (5, 0x04, "aa"),  # 88: signature
]

# What is answered, as a line.
ACCEPTED = "accepted Some(0) [] None"
OTHER_DIGEST = "DigestAlgorithmMismatch"
SIGNATURE_ERROR = "SignatureError invalid signature"
EMPTY = (
    "CertificateDataIsEmpty the WIN_CERTIFICATE states the length 0, "
    "so it holds no certificate"
)
NOT_READ = "Asn1Deserialization (ASN1) couldn't deserialize pkcs7 certificate: "
NO_SIGNED_DATA = f"{NOT_READ}the element has another structure than the one that is read"
FAULTS = {
    "Truncated": "the octets end within the element",
    "ReservedTag": "the reserved tag 0",
    "Indefinite": "an indefinite length",
    "WideLength": "a length of more than four octets",
    "Overrun": "an element that runs past the end of the one around it",
    "Trailing": "octets after the element",
}


def wrong_revision(got):
    return (
        f"WrongRevisionValue unknown revision {got:#06x} of a WIN_CERTIFICATE "
        "(known are 0x0100 and 0x0200)"
    )


def wrong_type(got):
    return (
        f"WrongCertificateType unknown type {got} of a WIN_CERTIFICATE "
        "(known are 1, 2, 3 and 9)"
    )


def wrong_length(got):
    return (
        "WrongLength a WIN_CERTIFICATE has at least 8 octets, "
        f"and this one has {got}"
    )


def cut(stated, got):
    return (
        f"Io the WIN_CERTIFICATE states a length of {stated} octets, "
        f"and only {got} are there"
    )


def unread(at, fault):
    return f"{NOT_READ}malformed DER: {FAULTS[fault]} at octet {at}"


def mismatch(actual, expected):
    return f"FileHashMismatch {actual or '-'} {expected or '-'}"


def no_certificate(serial, issuer):
    return f"NoCertificatesAssociatedWithIssuerAndSerialNumber {serial} {issuer}"


NO_CERTIFICATE = no_certificate("01", "CN=A")

# One element in the place of another, of these contents, and what is answered.
REPLACED = [
    ("a SET in place of the whole", 0, 0x31, "", NO_SIGNED_DATA),
    ("type data", 1, 0x06, "2a864886f70d010701", NO_SIGNED_DATA),
    ("value under tag A1", 2, 0xa1, "", NO_SIGNED_DATA),
    ("a SET in place of the signed data", 3, 0x31, "", NO_SIGNED_DATA),
    ("version 3", 4, 0x02, "03", "IncorrectVersion 1 3"),
    ("version in two octets", 4, 0x02, "0001", NO_SIGNED_DATA),
    ("version of another tag", 4, 0x0a, "01", NO_SIGNED_DATA),
    ("digest algorithms in a SEQUENCE", 5, 0x30, "", NO_SIGNED_DATA),
    ("SHA-1 among the digest algorithms", 7, 0x06, "2b0e03021a", OTHER_DIGEST),
    ("a NULL with an octet", 8, 0x05, "00", OTHER_DIGEST),
    ("content of type data", 10, 0x06, "2a864886f70d010701", NO_SIGNED_DATA),
    ("content under tag A1", 11, 0xa1, "", NO_SIGNED_DATA),
    ("a SET in place of the indirect data", 12, 0x31, "", NO_SIGNED_DATA),
    ("digest of `abd` with the message digest of `abc`", 24, 0x04, "a52d159f262b2c6ddb724a61840befc36eb30c88877a4030b65cbe86298449c9", mismatch("a52d159f262b2c6ddb724a61840befc36eb30c88877a4030b65cbe86298449c9", FILE_HASH)),
    ("certificates under tag A2", 25, 0xa2, "", NO_SIGNED_DATA),
    ("a certificate of version 2", 29, 0x02, "01", ACCEPTED),
    ("serial number of the certificate alone", 30, 0x02, "02", NO_CERTIFICATE),
    ("serial number of another tag", 30, 0x0a, "01", NO_CERTIFICATE),
    ("SHA-1 with RSA within the certificate", 32, 0x06, "2a864886f70d010105", ACCEPTED),
    ("issuer of the certificate alone", 38, 0x0c, "42", NO_CERTIFICATE),
    ("issuer of the signer alone", 65, 0x0c, "42", no_certificate("01", "CN=B")),
    ("not before 2 January", 40, 0x17, "3230303130323030303030305a", ACCEPTED),
    ("not before a year of four digits", 40, 0x17, "323032303031303130303030305a", NO_CERTIFICATE),
    ("not before year 2:", 40, 0x17, "323a303130313030303030305a", NO_CERTIFICATE),
    ("not before year /0", 40, 0x17, "2f30303130313030303030305a", NO_CERTIFICATE),
    ("not before without Z", 40, 0x17, "323030313031303030303030", NO_CERTIFICATE),
    ("not before a generalized time", 40, 0x18, "3230303130313030303030305a", NO_CERTIFICATE),
    ("not after without octets", 41, 0x17, "", NO_CERTIFICATE),
    ("not after a second later", 41, 0x17, "3330303130313030303030315a", ACCEPTED),
    ("a key on a curve", 49, 0x06, "2a8648ce3d0201", NO_CERTIFICATE),
    ("a key with unused bits", 51, 0x03, "013006020111020103", NO_CERTIFICATE),
    ("a key of no octets", 51, 0x03, "", NO_CERTIFICATE),
    ("modulus of no octets", 51, 0x03, "0030050200020103", NO_CERTIFICATE),
    ("exponent of no octets", 51, 0x03, "0030050201110200", NO_CERTIFICATE),
    ("a key of three integers", 51, 0x03, "003009020111020103020105", NO_CERTIFICATE),
    ("an octet after the key", 51, 0x03, "00300602011102010300", NO_CERTIFICATE),
    ("a key of a long length", 51, 0x03, "00308106020111020103", NO_CERTIFICATE),
    ("SHA-1 with RSA beside the certificate", 53, 0x06, "2a864886f70d010105", ACCEPTED),
    ("a certificate's signature with unused bits", 55, 0x03, "01ba", ACCEPTED),
    ("a signer of version 3", 59, 0x02, "03", ACCEPTED),
    ("serial number of the signer alone", 66, 0x02, "02", no_certificate("02", "CN=A")),
    ("SHA-1 of the signer", 68, 0x06, "2b0e03021a", OTHER_DIGEST),
    ("signed attributes under tag A1", 70, 0xa1, "", NO_SIGNED_DATA),
    ("content type data", 74, 0x06, "2a864886f70d010701", SIGNATURE_ERROR),
    ("a publisher's address", 80, 0x80, "0041", SIGNATURE_ERROR),
    ("signing time in place of the message digest", 82, 0x06, "2a864886f70d010905", SIGNATURE_ERROR),
    ("message digest of no octets", 84, 0x04, "", SIGNATURE_ERROR),
    ("SHA-256 with RSA of the signer", 86, 0x06, "2a864886f70d01010b", ACCEPTED),
]

# The same in the indirect data, with the message digest that fits it, and a table
# that accepts the signature over that.
REBOUND = [
    ("data of a cabinet", 14, 0x06, "2b060104018237020119", "cb457eb39e1779cfdc47252488750fcd9efb46905779963b6f3b07dfee7def9a", ACCEPTED),
    ("flags with an octet", 16, 0x03, "00ff", "12f73a5a1690ab4c61983e7c6591027030b2cf1b8f96ced268f2ffe28cabe420", ACCEPTED),
    ("link under tag A1", 17, 0xa1, "", "ae04925b2aa1e59360cc8b67e38f3c17b31c1d384bdfbe46e028d76d33b2f3a6", ACCEPTED),
    ("link to an object", 18, 0xa1, "", "b3a4cd19ce50342e35d1a6f9df9c39ea16dcd30a5be9d244e17462da4ca2c912", ACCEPTED),
    ("link to a file with a name", 19, 0x80, "0041", "d7c76c1790783cddbf04260471625b29a724d2e44947838939c243b50735c7a4", ACCEPTED),
    ("SHA-384 of the file", 22, 0x06, "608648016503040202", "2fc3fa7be0730414e94a6c8ea00f93763e4321a59eb5dfbddac1f623af4294fd", OTHER_DIGEST),
]

# So many lines from a place on that are missing, and what is answered.
MISSING = [
    ("no value", 2, 87, NO_SIGNED_DATA),
    ("no digest algorithm", 6, 3, "IncorrectDigestAlgorithmsCount 0"),
    ("a digest algorithm without NULL", 8, 1, OTHER_DIGEST),
    ("no certificate", 26, 30, NO_CERTIFICATE),
    ("a certificate without version", 28, 2, ACCEPTED),
    ("signature algorithm within the certificate without NULL", 33, 1, ACCEPTED),
    ("an issuer of no set", 35, 4, NO_CERTIFICATE),
    ("a subject of no set", 43, 4, ACCEPTED),
    ("a kind of key without NULL", 50, 1, ACCEPTED),
    ("signature algorithm beside the certificate without NULL", 54, 1, ACCEPTED),
    ("no revocation lists", 56, 1, ACCEPTED),
    ("no signer", 58, 31, "MultipleSignerInfo 0"),
    ("digest algorithm of the signer without NULL", 69, 1, OTHER_DIGEST),
    ("no signed attributes", 70, 15, SIGNATURE_ERROR),
    ("signature algorithm of the signer without NULL", 87, 1, ACCEPTED),
]

# A line more, and what is answered.
ADDED = [
    ("an element after the value", 89, (1, 0x05, ""), NO_SIGNED_DATA),
    ("two values", 89, (2, 0x05, ""), NO_SIGNED_DATA),
    ("a second certificate", 56, (4, 0x30, ""), ACCEPTED),
    ("extensions", 52, (6, 0xa3, ""), NO_CERTIFICATE),
    ("a revocation list", 57, (4, 0x30, ""), ACCEPTED),
    ("a second signer", 89, (4, 0x30, ""), NO_SIGNED_DATA),
    ("two values of an attribute", 81, (8, 0x30, ""), SIGNATURE_ERROR),
    ("a fourth attribute", 85, (6, 0x30, ""), NO_SIGNED_DATA),
    ("unsigned attributes", 89, (5, 0xa1, ""), ACCEPTED),
]

# Changes of several lines: from a place on, so many, these in their place; the
# last comes first.
SEVERAL = [
    ("as it is", [], ACCEPTED),
    ("two digest algorithms", [(9, 0, [(4, 0x30, ""), (5, 0x06, "608648016503040201"), (5, 0x05, "")])], "IncorrectDigestAlgorithmsCount 2"),
    ("digest of the file without NULL", [(84, 1, [(8, 0x04, "f784886dd1369a311cb35cb196fa63438575c5b692ec23953beec22ced1f1b5f")]), (23, 1, [])], OTHER_DIGEST),
    ("no digest of the file", [(84, 1, [(8, 0x04, "6c4a6029990789944eb08ffa97cbd73c20adff6709592b1d979ba540d7394ba3")]), (24, 1, [(7, 0x04, "")])], mismatch("", FILE_HASH)),
    ("digest of `abd`", [(84, 1, [(8, 0x04, "89e5fe4384f4a3d979f1e61c529a0b6c974a251ad38d225964234db329439639")]), (24, 1, [(7, 0x04, "a52d159f262b2c6ddb724a61840befc36eb30c88877a4030b65cbe86298449c9")])], mismatch("a52d159f262b2c6ddb724a61840befc36eb30c88877a4030b65cbe86298449c9", FILE_HASH)),
    ("serial number of no octets", [(66, 1, [(6, 0x02, "")]), (30, 1, [(6, 0x02, "")])], NO_SIGNED_DATA),
    ("serial number of two octets", [(66, 1, [(6, 0x02, "0001")]), (30, 1, [(6, 0x02, "0001")])], ACCEPTED),
    ("an issuer of two sets", [(39, 0, [(7, 0x31, ""), (8, 0x30, ""), (9, 0x06, "550403"), (9, 0x0c, "41")])], NO_CERTIFICATE),
    ("an issuer of two members in a set", [(39, 0, [(8, 0x30, ""), (9, 0x06, "550403"), (9, 0x0c, "41")])], NO_CERTIFICATE),
    ("organization names", [(64, 1, [(9, 0x06, "55040a")]), (37, 1, [(9, 0x06, "55040a")])], ACCEPTED),
    ("printable names", [(65, 1, [(9, 0x13, "41")]), (38, 1, [(9, 0x13, "41")])], ACCEPTED),
    ("an issuer without text", [(65, 1, [(9, 0x0c, "")]), (38, 1, [(9, 0x0c, "")])], ACCEPTED),
    ("years 99 and 00", [(40, 2, [(7, 0x17, "3939303130313030303030305a"), (7, 0x17, "3030303130313030303030305a")])], ACCEPTED),
    ("another subject", [(46, 1, [(9, 0x0c, "4242")])], ACCEPTED),
    ("another modulus", [(51, 1, [(7, 0x03, "003006020113020103")])], SIGNATURE_ERROR),
    ("another signature of the certificate", [(55, 1, [(5, 0x03, "00")])], ACCEPTED),
    ("a signer named by a key identifier", [(60, 7, [(5, 0x80, "01")])], "IncorrectSignerIdentifier"),
    ("opus info before the content type", [(75, 6, [(6, 0x30, ""), (7, 0x06, "2a864886f70d010903"), (7, 0x31, ""), (8, 0x06, "2b060104018237020104")]), (71, 4, [(6, 0x30, ""), (7, 0x06, "2b06010401823702010c"), (7, 0x31, ""), (8, 0x30, ""), (9, 0xa1, ""), (10, 0x80, "")])], SIGNATURE_ERROR),
    ("a signature of no octets", [(88, 1, [(5, 0x04, "")])], SIGNATURE_ERROR),
]

# Changes of the file's octets: from a place on, so many, these in their place;
# the last comes first.
FILES = [
    ("revision 1.0", [(4, 2, "0001")], ACCEPTED),
    ("revision 3.0", [(4, 2, "0003")], wrong_revision(0x0300)),
    ("type 1", [(6, 1, "01")], ACCEPTED),
    ("type 3", [(6, 1, "03")], ACCEPTED),
    ("type 9", [(6, 1, "09")], ACCEPTED),
    ("type 4", [(6, 1, "04")], wrong_type(4)),
    ("type 4 before the value", [(8, 1, "00"), (6, 1, "04")], wrong_type(4)),
    ("seven octets", [(7, 439, "")], wrong_length(7)),
    ("stated length 0", [(0, 2, "0000")], EMPTY),
    ("stated length 7", [(0, 2, "0700")], wrong_length(7)),
    ("stated length 8", [(0, 2, "0800")], unread(0, "Truncated")),
    ("one octet less", [(445, 1, "")], cut(446, 445)),
    ("one octet less stated", [(0, 1, "bd")], unread(0, "Truncated")),
    ("an octet past the stated length", [(446, 0, "ff")], ACCEPTED),
    ("seven zeros", [(446, 0, "00000000000000"), (0, 1, "c5")], ACCEPTED),
    ("eight zeros", [(446, 0, "0000000000000000"), (0, 1, "c6")], unread(438, "Trailing")),
    ("another octet after the value", [(446, 0, "01"), (0, 1, "bf")], unread(438, "Trailing")),
    ("another octet after zeros", [(446, 0, "000001"), (0, 1, "c1")], unread(438, "Trailing")),
    ("eight zeros after version 3", [(446, 0, "0000000000000000"), (33, 1, "03"), (0, 1, "c6")], unread(438, "Trailing")),
    ("tag zero of the version", [(31, 1, "00")], unread(23, "ReservedTag")),
    ("tag zero after the wrong type", [(31, 1, "00"), (22, 1, "01")], unread(23, "ReservedTag")),
    ("a signature past its signer", [(444, 1, "02")], unread(435, "Overrun")),
    ("a length that is left open", [(9, 1, "80")], unread(0, "Indefinite")),
    ("a length of five octets", [(9, 1, "85")], unread(0, "WideLength")),
    ("version 3", [(33, 1, "03")], "IncorrectVersion 1 3"),
]

# Digests of a file, the algorithms of the rows of a table, and what the file
# is answered.
ASKED = [
    ("its row after another", FILE_HASH, ["rsa-sha1", "rsa-sha256"], ACCEPTED),
    ("no row", FILE_HASH, [], SIGNATURE_ERROR),
    ("a row of another algorithm", FILE_HASH, ["rsa-sha1"], SIGNATURE_ERROR),
    ("another last octet", "ba7816bf8f01cfea414140de5dae2223b00361a396177a9cb410ff61f20015ae", ["rsa-sha256"], mismatch(FILE_HASH, "ba7816bf8f01cfea414140de5dae2223b00361a396177a9cb410ff61f20015ae")),
    ("another first octet", "bb7816bf8f01cfea414140de5dae2223b00361a396177a9cb410ff61f20015ad", ["rsa-sha256"], mismatch(FILE_HASH, "bb7816bf8f01cfea414140de5dae2223b00361a396177a9cb410ff61f20015ad")),
    ("one octet less", "ba7816bf8f01cfea414140de5dae2223b00361a396177a9cb410ff61f20015", ["rsa-sha256"], mismatch(FILE_HASH, "ba7816bf8f01cfea414140de5dae2223b00361a396177a9cb410ff61f20015")),
    ("one octet more", "ba7816bf8f01cfea414140de5dae2223b00361a396177a9cb410ff61f20015ad00", ["rsa-sha256"], mismatch(FILE_HASH, "ba7816bf8f01cfea414140de5dae2223b00361a396177a9cb410ff61f20015ad00")),
    ("no octets", "", ["rsa-sha256"], mismatch(FILE_HASH, "")),
    ("the digest before the signature", "00", [], mismatch(FILE_HASH, "00")),
]


def encoded(lines):
    """The octets of elements that lie in one another by their depths."""
    octets = b""
    while lines:
        (depth, tag, contents), *rest = lines
        inner = next((n for n, line in enumerate(rest) if line[0] <= depth), len(rest))
        octets += element(tag, bytes.fromhex(contents), encoded(rest[:inner]))
        lines = rest[inner:]
    return octets


def wrapped(value):
    """A WIN_CERTIFICATE of revision 2.0 and type 2 around a value."""
    return (len(value) + 8).to_bytes(4, "little") + b"\x00\x02\x02\x00" + value


def changed(items, changes):
    """Items with others in place of so many from a place on."""
    for at, many, others in changes:
        items = items[:at] + others + items[at + many:]
    return items


def replaced(lines, at, tag, contents):
    return changed(lines, [(at, 1, [(lines[at][0], tag, contents)])])


def values():
    """What each value is, its lines, its table and what is answered."""
    for why, at, tag, contents, said in REPLACED:
        yield why, replaced(LINES, at, tag, contents), ROW, said
    for why, at, tag, contents, digest, said in REBOUND:
        lines = replaced(replaced(LINES, 84, 0x04, digest), at, tag, contents)
        yield why, lines, row_over(lines[71:85]), said
    for why, at, many, said in MISSING:
        yield why, changed(LINES, [(at, many, [])]), ROW, said
    for why, at, line, said in ADDED:
        yield why, changed(LINES, [(at, 0, [line])]), ROW, said
    for why, changes, said in SEVERAL:
        yield why, changed(LINES, changes), ROW, said


def row_over(attributes):
    """The row that accepts the signature of the file over other attributes."""
    name, key, _, signature = ROW.split()
    message = sha256(element(0x31, encoded(attributes))).hexdigest()
    return f"{name} {key} {message} {signature}\n"


def rows():
    """What each file is, its octets, the digest that is asked for, a table, and what is answered."""
    for why, lines, table, said in values():
        yield why, wrapped(encoded(lines)), FILE_HASH, table, said
    for why, changes, said in FILES:
        octets = [(at, many, bytes.fromhex(others)) for at, many, others in changes]
        yield why, changed(FILE, octets), FILE_HASH, ROW, said
    for why, digest, names, said in ASKED:
        yield why, FILE, digest, "".join(ROW.replace("rsa-sha256", name) for name in names), said
