#!/usr/bin/env python3
"""Object identifiers, their contents octets, and the tables that hold them.

Usage:

    python3 tools/interop/oid_table.py table
    python3 tools/interop/oid_table.py list
    python3 tools/interop/oid_table.py check

`table` prints the constants and the table of `crates/asn1_types/src/oids.rt`,
`list` the list of `crates/asn1_types/specs/NamedIdentifiers.antt`.  `check`
says whether both files have what is printed here.  `tools/golden/value_vectors.py`
takes the texts and octets below as rows.

The octets are made by the rule of X.690 8.19: the first two arcs a and b are
the one number 40a + b; each number is written in base 128, the most
significant digit first, with bit 8 set in all octets but the last.  Where
`openssl` is there and knows the arcs, each row is compared with what
`openssl asn1parse -genstr OID:TEXT` writes; it prints how many were.
"""

import shutil
import sys
import tempfile
from pathlib import Path

sys.path.insert(0, str(Path(__file__).resolve().parents[1]))

from common import command, folders
from common.calls import called

CRATE = folders.CRATES / "asn1_types"

# Constant, name and dotted text, and where the name is defined.
KNOWN = [
    ("RSA_ENCRYPTION", "rsaEncryption", "1.2.840.113549.1.1.1", "RFC 8017 appendix A.1, RFC 3279 section 2.3.1"),
    ("MD5_WITH_RSA_ENCRYPTION", "md5WithRSAEncryption", "1.2.840.113549.1.1.4",
     "RFC 8017 appendix A.2.4, RFC 3279 section 2.2.1"),
    ("SHA1_WITH_RSA_ENCRYPTION", "sha1WithRSAEncryption", "1.2.840.113549.1.1.5",
     "RFC 8017 appendix A.2.4, RFC 3279 section 2.2.1"),
    ("SHA256_WITH_RSA_ENCRYPTION", "sha256WithRSAEncryption", "1.2.840.113549.1.1.11",
     "RFC 8017 appendix A.2.4, RFC 4055 section 5"),
    ("SHA384_WITH_RSA_ENCRYPTION", "sha384WithRSAEncryption", "1.2.840.113549.1.1.12",
     "RFC 8017 appendix A.2.4, RFC 4055 section 5"),
    ("SHA512_WITH_RSA_ENCRYPTION", "sha512WithRSAEncryption", "1.2.840.113549.1.1.13",
     "RFC 8017 appendix A.2.4, RFC 4055 section 5"),
    ("SHA224_WITH_RSA_ENCRYPTION", "sha224WithRSAEncryption", "1.2.840.113549.1.1.14",
     "RFC 8017 appendix A.2.4, RFC 4055 section 5"),
    ("EC_PUBLIC_KEY", "id-ecPublicKey", "1.2.840.10045.2.1", "RFC 5480 section 2.1.1"),
    ("ECDSA_WITH_SHA256", "ecdsa-with-SHA256", "1.2.840.10045.4.3.2", "RFC 5758 section 3.2"),
    ("ECDSA_WITH_SHA384", "ecdsa-with-SHA384", "1.2.840.10045.4.3.3", "RFC 5758 section 3.2"),
    ("ECDSA_WITH_SHA512", "ecdsa-with-SHA512", "1.2.840.10045.4.3.4", "RFC 5758 section 3.2"),
    ("SECP256R1", "secp256r1", "1.2.840.10045.3.1.7", "RFC 5480 section 2.1.1.1"),
    ("SECP384R1", "secp384r1", "1.3.132.0.34", "RFC 5480 section 2.1.1.1"),
    ("SECP521R1", "secp521r1", "1.3.132.0.35", "RFC 5480 section 2.1.1.1"),
    ("X25519", "id-X25519", "1.3.101.110", "RFC 8410 section 3"),
    ("X448", "id-X448", "1.3.101.111", "RFC 8410 section 3"),
    ("ED25519", "id-Ed25519", "1.3.101.112", "RFC 8410 section 3"),
    ("ED448", "id-Ed448", "1.3.101.113", "RFC 8410 section 3"),
    ("ML_DSA_44", "id-ml-dsa-44", "2.16.840.1.101.3.4.3.17", "RFC 9881 section 2"),
    ("ML_DSA_65", "id-ml-dsa-65", "2.16.840.1.101.3.4.3.18", "RFC 9881 section 2"),
    ("ML_DSA_87", "id-ml-dsa-87", "2.16.840.1.101.3.4.3.19", "RFC 9881 section 2"),
    ("MD5", "id-md5", "1.2.840.113549.2.5", "RFC 8017 appendix B.1"),
    ("SHA1", "id-sha1", "1.3.14.3.2.26", "RFC 8017 appendix B.1"),
    ("SHA256", "id-sha256", "2.16.840.1.101.3.4.2.1", "RFC 8017 appendix B.1"),
    ("SHA384", "id-sha384", "2.16.840.1.101.3.4.2.2", "RFC 8017 appendix B.1"),
    ("SHA512", "id-sha512", "2.16.840.1.101.3.4.2.3", "RFC 8017 appendix B.1"),
    ("SHA224", "id-sha224", "2.16.840.1.101.3.4.2.4", "RFC 8017 appendix B.1"),
    ("KP_CODE_SIGNING", "id-kp-codeSigning", "1.3.6.1.5.5.7.3.3", "RFC 5280 section 4.2.1.12"),
    ("KP_TIME_STAMPING", "id-kp-timeStamping", "1.3.6.1.5.5.7.3.8", "RFC 5280 section 4.2.1.12"),
    ("KP_LIFETIME_SIGNING", "szOID_KP_LIFETIME_SIGNING", "1.3.6.1.4.1.311.10.3.13", "Microsoft, wincrypt.h"),
    ("DATA", "id-data", "1.2.840.113549.1.7.1", "RFC 5652 section 4"),
    ("SIGNED_DATA", "id-signedData", "1.2.840.113549.1.7.2", "RFC 5652 section 5.1"),
    ("EMAIL_ADDRESS", "emailAddress", "1.2.840.113549.1.9.1", "RFC 2985 section 5.2.1"),
    ("CONTENT_TYPE", "contentType", "1.2.840.113549.1.9.3", "RFC 2985 section 5.3.1"),
    ("MESSAGE_DIGEST", "messageDigest", "1.2.840.113549.1.9.4", "RFC 2985 section 5.3.2"),
    ("COUNTERSIGNATURE", "counterSignature", "1.2.840.113549.1.9.6", "RFC 2985 section 5.3.6"),
    ("EXTENSION_REQUEST", "extensionRequest", "1.2.840.113549.1.9.14", "RFC 2985 section 5.4.2"),
    ("SPC_INDIRECT_DATA", "SPC_INDIRECT_DATA_OBJID", "1.3.6.1.4.1.311.2.1.4", "Microsoft, wintrust.h"),
    ("SPC_SP_OPUS_INFO", "SPC_SP_OPUS_INFO_OBJID", "1.3.6.1.4.1.311.2.1.12", "Microsoft, wintrust.h"),
    ("SPC_PE_IMAGE_DATA", "SPC_PE_IMAGE_DATA_OBJID", "1.3.6.1.4.1.311.2.1.15", "Microsoft, wintrust.h"),
    ("SPC_TIME_STAMP_REQUEST", "SPC_TIME_STAMP_REQUEST_OBJID", "1.3.6.1.4.1.311.3.2.1", "Microsoft, wintrust.h"),
    ("RFC3161_COUNTER_SIGN", "szOID_RFC3161_counterSign", "1.3.6.1.4.1.311.3.3.1", "Microsoft, wincrypt.h"),
    ("CTL", "szOID_CTL", "1.3.6.1.4.1.311.10.1", "Microsoft, wincrypt.h"),
    ("CERT_SUBJECT_NAME_MD5_HASH", "CERT_SUBJECT_NAME_MD5_HASH_PROP_ID", "1.3.6.1.4.1.311.10.11.29",
     "Microsoft, wincrypt.h, under szOID_CERT_PROP_ID_PREFIX"),
    ("CERT_DISALLOWED_FILETIME", "CERT_DISALLOWED_FILETIME_PROP_ID", "1.3.6.1.4.1.311.10.11.104",
     "Microsoft, wincrypt.h, under szOID_CERT_PROP_ID_PREFIX"),
    ("CERT_NOT_BEFORE_FILETIME", "CERT_NOT_BEFORE_FILETIME_PROP_ID", "1.3.6.1.4.1.311.10.11.126",
     "Microsoft, wincrypt.h, under szOID_CERT_PROP_ID_PREFIX"),
    ("CERT_NOT_BEFORE_ENHKEY_USAGE", "CERT_NOT_BEFORE_ENHKEY_USAGE_PROP_ID", "1.3.6.1.4.1.311.10.11.127",
     "Microsoft, wincrypt.h, under szOID_CERT_PROP_ID_PREFIX"),
    ("AT_COMMON_NAME", "id-at-commonName", "2.5.4.3", "X.520, RFC 5280 appendix A.1"),
    ("AT_SURNAME", "id-at-surname", "2.5.4.4", "X.520, RFC 5280 appendix A.1"),
    ("AT_SERIAL_NUMBER", "id-at-serialNumber", "2.5.4.5", "X.520, RFC 5280 appendix A.1"),
    ("AT_COUNTRY_NAME", "id-at-countryName", "2.5.4.6", "X.520, RFC 5280 appendix A.1"),
    ("AT_LOCALITY_NAME", "id-at-localityName", "2.5.4.7", "X.520, RFC 5280 appendix A.1"),
    ("AT_STATE_OR_PROVINCE_NAME", "id-at-stateOrProvinceName", "2.5.4.8", "X.520, RFC 5280 appendix A.1"),
    ("AT_STREET_ADDRESS", "id-at-streetAddress", "2.5.4.9", "X.520, RFC 4519 section 2.34"),
    ("AT_ORGANIZATION_NAME", "id-at-organizationName", "2.5.4.10", "X.520, RFC 5280 appendix A.1"),
    ("AT_ORGANIZATIONAL_UNIT_NAME", "id-at-organizationalUnitName", "2.5.4.11", "X.520, RFC 5280 appendix A.1"),
    ("AT_GIVEN_NAME", "id-at-givenName", "2.5.4.42", "X.520, RFC 5280 appendix A.1"),
    ("CE_SUBJECT_KEY_IDENTIFIER", "id-ce-subjectKeyIdentifier", "2.5.29.14", "RFC 5280 section 4.2.1.2"),
    ("CE_KEY_USAGE", "id-ce-keyUsage", "2.5.29.15", "RFC 5280 section 4.2.1.3"),
    ("CE_SUBJECT_ALT_NAME", "id-ce-subjectAltName", "2.5.29.17", "RFC 5280 section 4.2.1.6"),
    ("CE_ISSUER_ALT_NAME", "id-ce-issuerAltName", "2.5.29.18", "RFC 5280 section 4.2.1.7"),
    ("CE_BASIC_CONSTRAINTS", "id-ce-basicConstraints", "2.5.29.19", "RFC 5280 section 4.2.1.9"),
    ("CE_AUTHORITY_KEY_IDENTIFIER", "id-ce-authorityKeyIdentifier", "2.5.29.35", "RFC 5280 section 4.2.1.1"),
    ("CE_EXT_KEY_USAGE", "id-ce-extKeyUsage", "2.5.29.37", "RFC 5280 section 4.2.1.12"),
]

LIMIT = 1 << 128

# Texts of identifiers, and why each row is there.
READ = [
    ("0.0", "the least arcs"),
    ("0.39", "the last second arc under 0"),
    ("1.0", "the first arc under 1"),
    ("1.39", "the last second arc under 1"),
    ("2.0", "the first arc under 2"),
    ("2.39", "39 under 2"),
    ("2.40", "40 under 2, which 1 can't have"),
    ("2.47", "the last root of one octet"),
    ("2.48", "the first root of two octets"),
    ("2.100.3", "a root of two octets, and an arc"),
    ("2.999", "the example of X.690 8.19.5"),
    ("2.999.0", "an arc of 0"),
    ("2.999.127", "the last arc of one octet"),
    ("2.999.128", "the first arc of two octets"),
    ("2.999.16383", "the last arc of two octets"),
    ("2.999.16384", "the first arc of three octets"),
    ("1.2.840.113549", "RSADSI"),
    ("1.2.840.113549.1.1.11", "sha256WithRSAEncryption"),
    ("1.3.6.1.4.1.311.10.3.13", "lifetime signing"),
    ("2.16.840.1.101.3.4.2.1", "SHA-256"),
    ("0.9.2342.19200300.100.1.25", "domainComponent"),
    ("2.5.29.37.0", "anyExtendedKeyUsage"),
    ("1.3.132.0.34", "secp384r1, an arc of 0 within"),
    ("2.25.329800735698586629295641978511506172918", "a UUID as an arc"),
    (f"1.3.{2 ** 31 - 1}", "31 bits"),
    (f"1.3.{2 ** 31}", "past 31 bits"),
    (f"1.3.{2 ** 32 - 1}", "32 bits"),
    (f"1.3.{2 ** 32}", "past 32 bits"),
    (f"1.3.{2 ** 63}", "past 63 bits"),
    (f"1.3.{2 ** 64 - 1}", "64 bits"),
    (f"1.3.{2 ** 64}", "past 64 bits"),
    (f"1.3.{2 ** 121 - 1}", "the last number with room for another octet"),
    (f"1.3.{2 ** 121}", "the first without"),
    (f"1.3.{2 ** 126 - 1}", "the last of eighteen octets"),
    (f"1.3.{2 ** 126}", "the first of nineteen"),
    (f"1.3.{2 ** 128 - 1}", "the last that is read"),
    (f"1.3.{2 ** 128 - 1}.0.{2 ** 128 - 1}", "twice, with 0 between"),
    (f"2.{2 ** 64}", "a second arc past 64 bits"),
    (f"2.{2 ** 128 - 81}", "the last second arc: 40a + b is 2^128 - 1"),
    ("1.1.1.1.1.1.1.1.1.1.1.1.1.1.1.1.1.1.1.1.1.1.1.1.1.1.1.1.1.1.1.1", "32 arcs"),
]

BAD_TEXTS = [
    ("", "no arc"),
    ("1", "one arc"),
    ("1.", "an empty second arc"),
    (".1", "an empty first arc"),
    (".", "two empty arcs"),
    ("1.2.", "a dot behind"),
    (".1.2", "a dot in front"),
    ("1..2", "an empty arc within"),
    ("1.40", "40 under 1"),
    ("0.40", "40 under 0"),
    ("3.1", "a first arc of 3"),
    ("10.1", "a first arc of 10"),
    ("01.2", "a zero in front of the first arc"),
    ("1.02", "a zero in front of the second"),
    ("1.2.03", "a zero in front of another"),
    ("1.2.00", "two zeros"),
    ("+1.2", "a sign in front of the first arc"),
    ("1.+2", "a sign in front of the second"),
    ("1.2.-3", "a minus sign"),
    ("1.2.+", "a sign alone"),
    (" 1.2", "a space in front"),
    ("1.2 ", "a space behind"),
    ("1. 2", "a space within"),
    ("1.2.a", "a letter"),
    ("1.2.0x3", "another base"),
    ("1,2", "a comma"),
    ("1.2.\u0663", "a digit of another script"),
    (f"1.3.{2 ** 128}", "an arc of 2^128"),
    (f"1.3.1{'0' * 60}", "an arc of 61 digits"),
    (f"2.{2 ** 128 - 80}", "40a + b is 2^128"),
    (f"2.{2 ** 128 - 1}", "40a + b is past 2^128"),
    (f"2.{2 ** 128}", "a second arc of 2^128"),
]

BAD_CONTENTS = [
    ("", "no octet"),
    ("80 01", "80 in front"),
    ("80", "80 alone"),
    ("2A 80 01", "80 in front of the second"),
    ("2A 86", "the last octet is cut off"),
    ("86", "the only subidentifier is cut off"),
    ("2A 86 48 86 F7", "cut off within"),
    ("2A " + " ".join(["FF"] * 19), "nineteen octets without an end"),
    (" ".join(["FF"] * 30), "octets without an end"),
    ("2B 84 " + " ".join(["80"] * 17) + " 00", "a subidentifier of 2^128"),
    ("84 " + " ".join(["80"] * 17) + " 00", "a first subidentifier of 2^128"),
    ("2B 84 " + " ".join(["80"] * 18), "2^128 without its last octet"),
]


def subidentifier(number):
    """The octets of one number."""
    octets = [number % 128]
    number //= 128
    while number > 0:
        octets.insert(0, 128 + number % 128)
        number //= 128
    return bytes(octets)


def contents(text):
    """The contents octets of a dotted text."""
    first, second, *more = (int(arc) for arc in text.split("."))
    numbers = [40 * first + second, *more]
    assert all(number < LIMIT for number in numbers), text
    return b"".join(subidentifier(number) for number in numbers)


def openssl(text):
    """What openssl writes for the text, or None where there is no openssl."""
    if shutil.which("openssl") is None:
        return None
    with tempfile.NamedTemporaryFile() as out:
        called(["openssl", "asn1parse", "-genstr", f"OID:{text}", "-noout", "-out", out.name]).check_returncode()
        return out.read()


def checked(texts):
    """Compares the octets of the texts with openssl's, and says how many were."""
    count = 0
    for text in texts:
        written = openssl(text)
        if written is None:
            continue
        octets = contents(text)
        assert len(octets) < 128, text
        assert written == bytes([6, len(octets)]) + octets, (text, written.hex(), octets.hex())
        count += 1
    return count


def constants():
    """The lines of the constants and the table."""
    for constant, name, text, source in KNOWN:
        octets = "".join(f"\\x{octet:02X}" for octet in contents(text))
        yield f"/// `{name}` ({source})."
        yield f'pub const {constant}: &[u8] = b"{octets}";'
        yield ""
    yield "/// The rows of the table."
    yield "#[rattlefmt::skip]"
    yield f"pub static TABLE: [TableRow; {len(KNOWN)}] = ["
    for constant, name, text, _ in KNOWN:
        yield f'    ("{name}", "{text}", {constant}),'
    yield "];"


def listed():
    """The lines of the list in the specification."""
    for place, (constant, name, text, _) in enumerate(KNOWN):
        end = "[]" if place + 1 == len(KNOWN) else ""
        yield f'    known_row (codes "{name}") (codes "{text}") octets.{constant}.now ∷ {end}'.rstrip()


def stands_in(lines, file):
    """Whether the words of the lines are in the file, wherever it breaks them."""
    text = (CRATE / file).read_text(encoding="utf-8")
    return " ".join(" ".join(lines).split()) in " ".join(text.split())


# Who prints the lines of a file, and the file.
SOURCES = [(constants, "src/oids.rt"), (listed, "specs/NamedIdentifiers.antt")]


def main(words):
    texts = [row[2] for row in KNOWN] + [text for text, _ in READ]
    match words:
        case ["table"]:
            print("\n".join(constants()))
        case ["list"]:
            print("\n".join(listed()))
        case ["check"]:
            for lines, file in SOURCES:
                if not stands_in(lines(), file):
                    sys.exit(f"{file} has other rows")
        case _:
            return command.usage(__doc__)
    print(f"{checked(texts)} of {len(texts)} rows are as openssl writes them", file=sys.stderr)
    return 0


if __name__ == "__main__":
    command.run(main, __doc__)
