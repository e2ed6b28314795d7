"""Subject names and keys for certificates that openssl makes.

A name is in one of four tables, by what can make it: `openssl req`,
`openssl x509` for a key that can't sign, `openssl asn1parse -genconf`, or
none of these.
"""

from typing import NamedTuple

COMMON_NAME = "2.5.4.3"
ORGANIZATION = "2.5.4.10"
EMAIL = "1.2.840.113549.1.9.1"


class Key(NamedTuple):
    """A key by the options of `openssl genpkey`.

    The point of a compressed key is written as one coordinate and a sign.
    """

    label: str
    algorithm: str
    options: tuple[str, ...] = ()
    compressed: bool = False


def rsa(bits, exponent):
    options = f"rsa_keygen_bits:{bits}", f"rsa_keygen_pubexp:{exponent}"
    return Key(f"RSA of {bits} bits, exponent {exponent}", "RSA", options)


def ec(label, curve, compressed=False):
    options = f"ec_paramgen_curve:{curve}", "ec_param_enc:named_curve"
    return Key(label, "EC", options, compressed)


SIGNING_KEYS = [
    rsa(1024, 65537),
    rsa(1024, 3),
    # The first bit of an octet is clear, so that no zero stands before it.
    rsa(1023, 65537),
    rsa(1025, 3),
    rsa(1024, 4294967297),
    rsa(2048, 65537),
    rsa(2048, 3),
    rsa(3072, 65537),
    rsa(1024, 17),
    rsa(1026, 65537),
    ec("P-256", "P-256"),
    ec("P-256 again", "P-256"),
    ec("P-256, compressed point", "P-256", compressed=True),
    ec("P-256, a third", "P-256"),
    ec("P-256, a fourth", "P-256"),
    ec("P-384", "P-384"),
    ec("P-384 again", "P-384"),
    ec("P-384, compressed point", "P-384", compressed=True),
    ec("P-521", "P-521"),
    ec("P-521 again", "P-521"),
    ec("P-521, compressed point", "P-521", compressed=True),
    ec("secp256k1", "secp256k1"),
    ec("secp256k1, compressed point", "secp256k1", compressed=True),
    Key("Ed25519", "ED25519"),
    Key("Ed25519 again", "ED25519"),
    Key("Ed25519, a third", "ED25519"),
    Key("Ed25519, a fourth", "ED25519"),
    Key("Ed448", "ED448"),
    Key("Ed448 again", "ED448"),
]

AGREEMENT_KEYS = [
    Key("X25519", "X25519"),
    Key("X448", "X448"),
]


class Requested(NamedTuple):
    """A subject as `openssl req -subj` takes it, and the mask of its strings.

    Of the kinds that a mask allows openssl takes the first of
    PrintableString, TeletexString, BmpString and Utf8String that has all
    characters; `utf8only` allows the last, `nombstr` the first two, `pkix`
    all but TeletexString, `default` all.
    """

    label: str
    subject: str
    mask: str = "utf8only"


TELETEX_ONLY = "MASK:0x4"
BMP_ONLY = "MASK:0x800"

REQUESTED = [
    Requested("one common name", "/CN=A"),
    Requested("a company", "/C=DE/ST=Bayern/L=München/O=Muster GmbH/CN=Muster Root CA"),
    Requested("a company in PrintableStrings",
              "/C=DE/ST=Bayern/L=Muenchen/O=Muster GmbH/CN=Muster CA", "nombstr"),
    Requested("every attribute with a word",
              "/C=US/ST=Oregon/L=Portland/street=1 Main St/O=Example/OU=Signing/CN=Code Signer"
              "/SN=Doe/GN=Jo/serialNumber=42-A/emailAddress=jo@example.org"),
    Requested("attributes without a word", "/DC=org/DC=example/UID=jo/title=Dr/dnQualifier=7"
              "/unstructuredName=host/1.2.3.4=other"),
    Requested("the leaf first", "/CN=leaf/OU=unit/O=top/C=FR"),
    Requested("two common names", "/CN=first/CN=second"),
    Requested("one attribute four times", "/DC=d/DC=c/DC=b/DC=a"),
    Requested("a set of two", "/CN=a+OU=b"),
    Requested("a set of two, asked for in the other order", "/OU=b+CN=a"),
    Requested("a set of five", "/CN=aaa+SN=bb+GN=c+serialNumber=7+emailAddress=d@e"),
    Requested("one attribute twice in a set", "/CN=b+CN=a"),
    Requested("sets among single members", "/O=x/CN=a+serialNumber=1/OU=z+1.2.3.4=q/L=m"),
    Requested("no attributes", "/"),
    Requested("300 octets", "/GN=" + 30 * "abcdefghij"),
    Requested("300 octets of 150 characters", "/SN=" + 150 * "é"),
    Requested("the longest common name", "/CN=" + 64 * "x"),
    Requested("127 and 128 octets", "/L=" + 127 * "l" + "/ST=" + 128 * "s"),
    Requested("Latin letters with marks", "/CN=Žluťoučký kůň/O=Ångström"),
    Requested("Greek and Cyrillic", "/O=Ελληνικά/CN=Подпись кода"),
    Requested("Chinese and Japanese", "/C=JP/O=株式会社例/CN=署名"),
    Requested("right to left", "/O=مرحبا/CN=שלום"),
    Requested("past the basic plane", "/CN=🔑 key 𝔄"),
    Requested("marks and spaces that aren't seen", "/CN=e\u0301\u200b\ufeffx\u00a0"),
    Requested("characters at the ends of each width",
              "/CN=\x01\x7f\x80\u07ff\u0800\ud7ff\ue000\uffff\U00010000\U0010ffff"),
    Requested("commas and plus signs", "/O=Doe, Jo \\+ Sons/CN=,\\+a\\+b,c,\\+"),
    Requested("quotes and backslashes", '/CN="quoted" \\\\ back\\\\'),
    Requested("brackets, semicolons and equals signs", "/CN=<a;b>=c=d"),
    Requested("a number sign first", "/CN=#0c0141/O=a#b"),
    Requested("spaces at both ends", "/CN=  two  /O= one /OU= "),
    Requested("slashes and colons", "/CN=a\\/b\\/c:d\\/"),
    Requested("control characters", "/CN=a\tb\nc\rd\x1be\x7f"),
    Requested("a text that looks like a name", "/CN=A,O=B\\+OU=C\\\\,"),
    Requested("every printable character", "/CN=AZaz09 '()\\+,-.\\/:=?", "nombstr"),
    Requested("teletex for an at sign", "/CN=code@sign", "nombstr"),
    Requested("teletex past 7F", "/O=Müller & Söhne/CN=Zoë", "nombstr"),
    Requested("teletex of one octet past 7F", "/CN=é", "default"),
    Requested("teletex by the mask", "/CN=ASCII/O=Example", TELETEX_ONLY),
    Requested("bmp for an asterisk", "/CN=*.example.org", "pkix"),
    Requested("bmp for a Latin letter", "/C=FR/O=Café", "pkix"),
    Requested("bmp for Cyrillic", "/CN=Подпись", "default"),
    Requested("bmp for Chinese", "/O=例/CN=署名", "default"),
    Requested("bmp by the mask", "/CN=ASCII/O=Example", BMP_ONLY),
    Requested("bmp of 150 characters", "/GN=" + 75 * "aé", BMP_ONLY),
    Requested("bmp with what openssl escapes", '/CN=#a,"b\\+<c>;\\\\ ', BMP_ONLY),
    Requested("bmp around the surrogates", "/CN=\ud7ff\ue000\ufffd\uffff", "default"),
    Requested("a name of five kinds of string",
              "/C=DE/O=Example/OU=Größe/CN=Ελλάς/L=🔑/emailAddress=a@b", "default"),
    Requested("a set of five kinds of string",
              "/O=Example+OU=Größe+CN=Ελλάς+L=🔑+emailAddress=a@b", "default"),
    Requested("ia5 with what openssl escapes", '/emailAddress="jo, doe"@example.org/DC= a\\+b;'),
]


class Agreed(NamedTuple):
    """A subject that `openssl x509 -new` gives to a key that can't sign."""

    label: str
    subject: str
    key: Key


AGREED = [
    Agreed("a key of X25519", "/O=Example/CN=key agreement X25519", AGREEMENT_KEYS[0]),
    Agreed("a key of X448", "/O=Example/CN=key agreement X448", AGREEMENT_KEYS[1]),
]


class Generated(NamedTuple):
    """A name as sets of members, each an identifier and a value.

    The value is in the language of ASN1_generate_nconf(3).
    """

    label: str
    sets: tuple[tuple[tuple[str, str], ...], ...]


def tagged(number, contents):
    """An element of a universal tag and of any contents octets."""
    return f"IMPLICIT:{number}U,FORMAT:HEX,OCT:{contents}"


def common_name(value):
    return ((COMMON_NAME, value),),


GENERATED = [
    Generated("a set out of order", (((ORGANIZATION, "UTF8:b"), (COMMON_NAME, "UTF8:a")),)),
    Generated("a member twice", (((COMMON_NAME, "UTF8:a"), (COMMON_NAME, "UTF8:a")),)),
    Generated("texts of no octets", (((COMMON_NAME, "UTF8:"),), ((COMMON_NAME, "PRINTABLE:"),),
                                     ((COMMON_NAME, "T61:"), (COMMON_NAME, "IA5:")))),
    Generated("a bmp of no octets", common_name("BMP:")),
    Generated("zeros in texts", (((COMMON_NAME, tagged(12, "410042")),),
                                 ((ORGANIZATION, tagged(30, "004100000042")),),
                                 ((ORGANIZATION, tagged(20, "00")),))),
    Generated("every octet past 7F in a teletex",
              common_name(tagged(20, bytes(range(0x7E, 0x100)).hex()))),
    Generated("octets past 7F in a PrintableString", common_name(tagged(19, "41E942FF80"))),
    Generated("characters that a PrintableString hasn't", common_name(tagged(19, "402A265F7F"))),
    Generated("an ia5 in a common name", common_name("IA5:a@b")),
    Generated("an ia5 with an octet past 7F", (((EMAIL, tagged(22, "61E940")),),
                                               ((COMMON_NAME, "UTF8:a"),))),
    Generated("an email address in three other kinds", (
        ((EMAIL, "UTF8:a@b"),), ((EMAIL, "PRINTABLE:ab"),), ((EMAIL, "BMP:a@b"),))),
    Generated("a country that isn't printable", ((("2.5.4.6", "FORMAT:UTF8,UTF8:Côte"),),)),
    Generated("a NumericString", common_name("NUMERIC:12 3")),
    Generated("a UniversalString", common_name("UNIV:ab")),
    Generated("a BIT STRING", common_name("FORMAT:HEX,BITSTR:6162")),
    Generated("a SEQUENCE", common_name("SEQWRAP,UTF8:a")),
    Generated("raw values among texts", (
        ((COMMON_NAME, "UTF8:a"), (ORGANIZATION, "NUMERIC:1")),
        (("1.2.3.4", "SEQWRAP,NUMERIC:2"),), ((EMAIL, "IA5:a@b"),))),
    Generated("identifiers of one and two octets", (
        (("0.0", "UTF8:a"),), (("1.39", "UTF8:b"),), (("2.39", "UTF8:c"),),
        (("2.999", "UTF8:d"),))),
    Generated("identifiers beside those with a word", (
        (("2.5.4.30", "UTF8:a"),), (("2.5.4", "UTF8:b"),), (("2.5.4.3.1", "UTF8:c"),),
        (("2.5.4.387", "UTF8:d"),), (("1.2.840.113549.1.9.2", "UTF8:e"),))),
    Generated("arcs of 32 bits", (
        (("1.3.6.1.4.1.4294967295", "UTF8:a"),), (("2.4294967215", "UTF8:b"),))),
    Generated("an arc of 65 bits", ((("2.5.4.18446744073709551616", "UTF8:a"),),)),
]


class Written(NamedTuple):
    """A name that openssl doesn't read as one.

    A value is the hexadecimal of its element.  The text was worked out by
    hand from the rules of `certificate_parts`.
    """

    label: str
    sets: tuple[tuple[tuple[str, str], ...], ...]
    text: str


WRITTEN = [
    Written("utf-8 with an octet FF", common_name("0C0341FF42"), "CN=A?B"),
    Written("utf-8 that breaks off", common_name("0C0341E282"), "CN=A??"),
    Written("utf-8 of a NUL in two octets", common_name("0C0441C08042"), "CN=A??B"),
    Written("utf-8 of a surrogate", common_name("0C05EDA08041FF"), "CN=???A?"),
    Written("utf-8 past the last character", common_name("0C04F4908080"), "CN=????"),
    Written("utf-8 with a good character before the bad octet", common_name("0C05C3A9418042"),
            "CN=??A?B"),
    Written("a bmp with a pair of surrogates", common_name("1E080041D83DDE000042"), "CN=A??B"),
    Written("a bmp with the first and the last surrogate", common_name("1E08D800D7FFE000DFFF"),
            "CN=?\ud7ff\ue000?"),
    Written("a bmp of one octet", common_name("1E0141"), "CN=?"),
    Written("a bmp of five octets", common_name("1E050041D80042"), "CN=A??"),
    Written("a bmp of seven octets", common_name("1E0700410042002000"), "CN=AB ?"),
    Written("a VisibleString", common_name("1A0141"), "CN=#1a0141"),
    Written("an OCTET STRING", common_name("04024142"), "CN=#04024142"),
    Written("an INTEGER", common_name("020105"), "CN=#020105"),
    Written("a NULL", common_name("0500"), "CN=#0500"),
    Written("a SET", common_name("31030C0141"), "CN=#31030c0141"),
    Written("a utf-8 string in parts", common_name("2C030C0141"), "CN=#2c030c0141"),
    Written("a value of context class", common_name("8C0141"), "CN=#8c0141"),
    Written("an empty set", ((), ((COMMON_NAME, "0C0141"),), ()), ",CN=A,"),
]

LABELS = [case.label for case in (*REQUESTED, *AGREED, *GENERATED, *WRITTEN)]
KEY_LABELS = [key.label for key in (*SIGNING_KEYS, *AGREEMENT_KEYS)]
