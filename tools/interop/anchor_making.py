"""Certificates that openssl makes for `anchored_paths.py`, each of an RSA key.

A key is made once for each owner, so that a certificate may be of any name and key, and by any other.
"""

import ssl
from functools import cache

from common.openssl import openssl
from interop import system_roots

KEY = "-algorithm", "RSA", "-pkeyopt", "rsa_keygen_bits:2048"
LONG = ("20200101", "20300101")
CLOSED = "subjectKeyIdentifier={}\nauthorityKeyIdentifier={}\n"
CA = "basicConstraints=critical,CA:true\n"
FORM = """\
[ca]
default_ca = here
[here]
database = {folder}/index.txt
new_certs_dir = {folder}
default_md = sha256
policy = any
unique_subject = no
rand_serial = yes
[any]
commonName = optional
organizationName = optional
"""
# So many roots of the system have a cross certificate and a namesake of another key.
DOUBLED = 12


class Maker:
    """Makes certificates in a folder."""

    def __init__(self, folder):
        self.folder = folder
        (folder / "form.cnf").write_text(FORM.format(folder=folder), encoding="ascii")
        self.key, self.request, self.stand_in = cache(self.make_key), cache(self.make_request), cache(self.make_stand_in)
        self.made = 0

    def file(self, end):
        self.made += 1
        return self.folder / f"made {self.made}.{end}"

    def make_key(self, owner):
        file = self.file("key")
        openssl("genpkey", *KEY, "-out", file)
        return file

    def make_request(self, subject, owner):
        file = self.file("csr")
        openssl("req", "-new", "-key", self.key(owner), "-subj", f"/CN={subject}", "-out", file)
        return file

    def make_stand_in(self, name, owner):
        """A certificate with the name and the key of an issuer."""
        file = self.file("pem")
        openssl("req", "-x509", "-new", "-key", self.key(owner), "-subj", f"/CN={name}", "-out", file)
        return file

    def extensions(self, text):
        file = self.file("ext")
        file.write_text(text, encoding="ascii")
        return file

    def signed(self, form, request, issuer, key, dates, text):
        """The certificate for a request, or for the name and key of a root, by an issuer's certificate and a key."""
        begins, ends = (f"{day}000000Z" for day in dates)
        (self.folder / "index.txt").write_text("")
        written = openssl("ca", "-batch", "-notext", "-config", self.folder / "form.cnf", "-cert", issuer, "-keyfile", key, *form, request,
                          "-extfile", self.extensions(text), "-startdate", begins, "-enddate", ends)
        return ssl.PEM_cert_to_DER_cert(written.decode())

    def certificate(self, subject, issuer, dates=LONG, *, ca=None, length=None, own=None, authority=None, by=None, owner=None):
        """As that of `issuing_chains`: for the key of its subject, by the key of its issuer, or of others."""
        limit = "" if length is None else f",pathlen:{length}"
        flag = "" if ca is None else f"basicConstraints=critical,CA:{str(ca).lower()}{limit if ca else ''}\n"
        named = "none" if authority is None else f"DER:30:{len(authority) + 2:02x}:80:{len(authority):02x}:{authority.hex(':')}"
        text = flag + CLOSED.format("none" if own is None else own.hex(), named)
        key = self.key(by or issuer)
        return self.signed(["-in"], self.request(subject, owner or subject), self.stand_in(issuer, by or issuer), key, dates, text)

    def pem(self, octets):
        file = self.file("pem")
        file.write_text(ssl.DER_cert_to_PEM_cert(octets), encoding="ascii")
        return file

    def cross(self, root, issuer):
        """For the name and key of a root, by another CA."""
        text = CA + CLOSED.format("hash", "none")
        return self.signed(["-preserveDN", "-ss_cert"], self.pem(root), self.stand_in(issuer, issuer), self.key(issuer), LONG, text)

    def namesake(self, root, owner):
        """With the name and the validity of a root, for another key and by it."""
        form = self.extensions(CA + CLOSED.format("hash", "none"))
        written = openssl("x509", "-in", self.pem(root), "-signkey", self.key(owner), "-clrext", "-extfile", form, "-preserve_dates")
        return ssl.PEM_cert_to_DER_cert(written.decode())

    def below(self, issuer, owner, named):
        """A certificate by an issuer with its key, which names that key or not."""
        text = "basicConstraints=CA:false\n" + CLOSED.format("hash", named)
        return self.signed(["-in"], self.request("Leaf", "Leaf"), self.pem(issuer), self.key(owner), LONG, text)


def roots_world(random, maker):
    """What is checked, pools and anchors over the system's roots."""
    roots = list(system_roots.certificates())
    doubled, ours = random.sample(roots, DOUBLED), ("Our root", "Our other root")
    crosses = [maker.cross(root, random.choice(ours)) for root in doubled]
    namesakes = [maker.namesake(root, f"namesake {number % 4}") for number, root in enumerate(doubled)]
    below = [maker.below(root, f"namesake {number % 4}", random.choice(("none", "keyid:always"))) for number, root in enumerate(namesakes)]
    trusted = [maker.certificate(name, name, ca=True) for name in ours]
    some = random.sample(roots, 3 * DOUBLED)
    return doubled + crosses + below * 2, some + doubled + crosses * 2 + namesakes, some + doubled + namesakes + trusted * 8
