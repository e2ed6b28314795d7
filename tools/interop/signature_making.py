"""Keys, programs and stamps for `world_signatures.py`, by openssl and osslsigncode where they can make them.

Files of one run lie in the folder that is given.
"""

import struct
from base64 import b64decode, encodebytes
from contextlib import contextmanager
from http.server import BaseHTTPRequestHandler, HTTPServer
from threading import Thread

from cases.first_path import element, identifier, integer, octet_string, sequence, set_of, utc_time
from common.calls import called
from common.openssl import openssl

KEYS = {
    "rsa": ("RSA", "rsa_keygen_bits:1024"),
    "p256": ("EC", "ec_paramgen_curve:P-256"),
    "p384": ("EC", "ec_paramgen_curve:P-384"),
    "p521": ("EC", "ec_paramgen_curve:P-521"),
}

STAMP_FORM = """\
[stamps]
default_tsa = here
[here]
serial = {folder}/serial
signer_digest = sha256
default_policy = 1.2.3.4
digests = sha1, sha256, sha384, sha512
ess_cert_id_alg = {ess}
"""

AUTHORITY_FORM = """\
[ca]
default_ca = here
[here]
database = {folder}/database
default_md = sha256
default_crl_days = 30
"""


class Signers:
    """Keys and certificates in a folder: authorities above one another, signers of programs, and of stamps."""

    def __init__(self, folder):
        self.folder = folder
        for name, words in KEYS.items():
            self.key(name, words)
            self.signer(name, name, "codeSigning")
        self.key("stamp", KEYS["p256"])
        self.signer("stamp", "stamp", "critical,timeStamping")
        self.key("rsa_stamp", KEYS["rsa"])
        self.signer("rsa_stamp", "rsa_stamp", "critical,timeStamping")
        self.chain()
        (folder / "database").write_text("")
        (folder / "serial").write_text("01\n")
        (folder / "abc").write_bytes(b"abc")
        (folder / "ca.cnf").write_text(AUTHORITY_FORM.format(folder=folder))
        openssl("ca", "-config", folder / "ca.cnf", "-gencrl", "-keyfile", self.at("p256.key"), "-cert", self.at("p256.pem"),
                "-out", self.at("list.pem"))
        openssl("crl", "-in", self.at("list.pem"), "-outform", "DER", "-out", self.at("list.der"))

    def at(self, name):
        return self.folder / name

    def key(self, name, words):
        algorithm, option = words
        openssl("genpkey", "-algorithm", algorithm, "-pkeyopt", option, "-out", self.at(f"{name}.key"))

    def signer(self, name, key, purposes):
        openssl("req", "-x509", "-new", "-key", self.at(f"{key}.key"), "-days", 3650, "-subj", f"/CN={name}", "-set_serial", 128 + len(name),
                "-addext", f"extendedKeyUsage={purposes}", "-out", self.at(f"{name}.pem"))

    def chain(self):
        """Four authorities above a signer of programs; `above.pem` has them, `tower.pem` the signer in front of them."""
        self.signer("root", "p384", "anyExtendedKeyUsage")
        issuer, made = ("root", "p384"), []
        for name, key, form in ("third", "p256", "CA:TRUE"), ("second", "rsa", "CA:TRUE"), ("first", "p256", "CA:TRUE"), ("leaf", "rsa", "CA:FALSE"):
            extensions = self.at("extensions.cnf")
            extensions.write_text(f"basicConstraints={form}\nextendedKeyUsage=codeSigning\n")
            request = self.at("request.pem")
            openssl("req", "-new", "-key", self.at(f"{key}.key"), "-subj", f"/O=Tower/CN={name}", "-out", request)
            openssl("x509", "-req", "-in", request, "-CA", self.at(f"{issuer[0]}.pem"), "-CAkey", self.at(f"{issuer[1]}.key"),
                    "-set_serial", 1000 + len(made), "-days", 3650, "-extfile", extensions, "-out", self.at(f"{name}.pem"))
            issuer = (name, key)
            made.append(name)
        above = [self.at(f"{name}.pem").read_bytes() for name in ("first", "second", "third", "root")]
        self.at("above.pem").write_bytes(b"".join(above))
        self.at("tower.pem").write_bytes(self.at("leaf.pem").read_bytes() + b"".join(above))

    def cms(self, signer, *words, given="abc", command="cms", key=None):
        """What `openssl cms -sign` writes; `given` names the file that is signed."""
        return openssl(command, "-sign", "-binary", "-in", self.at(given), "-signer", self.at(f"{signer}.pem"),
                       "-inkey", self.at(f"{key or signer}.key"), "-outform", "DER", *words)

    def again(self, octets, signer, *words):
        """Signed data with one more signer."""
        self.at("signed.der").write_bytes(octets)
        return openssl("cms", "-resign", "-inform", "DER", "-in", self.at("signed.der"), "-signer", self.at(f"{signer}.pem"),
                       "-inkey", self.at(f"{signer}.key"), "-outform", "DER", *words)

    def alone(self, certificates=None, listed=None):
        """Signed data that no one has signed, of certificates and a revocation list."""
        words = ["-certfile", self.at(certificates)] if certificates else []
        words += ["-in", self.at(listed)] if listed else ["-nocrl"]
        return openssl("crl2pkcs7", *words, "-outform", "DER")

    def stamp(self, data, *words, signer="stamp", ess="sha256"):
        """The token of a stamp (RFC 3161) on octets."""
        form = self.at("stamps.cnf")
        form.write_text(STAMP_FORM.format(folder=self.folder, ess=ess))
        self.at("stamped").write_bytes(data)
        openssl("ts", "-query", "-data", self.at("stamped"), "-cert", *words, "-out", self.at("query"))
        return openssl("ts", "-reply", "-config", form, "-section", "here", "-queryfile", self.at("query"), "-signer", self.at(f"{signer}.pem"),
                       "-inkey", self.at(f"{signer}.key"), "-token_out")

    def program(self, *words, given="program.exe", signer=("rsa", "rsa")):
        """The signature that osslsigncode puts into a program, or makes of a catalogue."""
        signed, taken = self.at(f"signed_{given}"), self.at("taken")
        for file in signed, taken:
            file.unlink(missing_ok=True)
        certificate, key = signer
        self.osslsigncode("sign", "-certs", self.at(f"{certificate}.pem"), "-key", self.at(f"{key}.key"), *words,
                          "-in", self.at(given), "-out", signed)
        if given.endswith(".cat"):
            return signed.read_bytes()
        self.osslsigncode("extract-signature", "-in", signed, "-out", taken)
        return taken.read_bytes()

    def osslsigncode(self, *words):
        run = called(["osslsigncode", *words])
        if run.returncode != 0:
            raise RuntimeError(f"osslsigncode {words}: {run.stdout.decode()}{run.stderr.decode()}")

    @contextmanager
    def stamping(self):
        """The address of a server that counter-signs as Authenticode has it; it keeps the requests."""
        signers, requests = self, []

        class Stamper(BaseHTTPRequestHandler):
            def do_POST(self):
                request = b64decode(self.rfile.read(int(self.headers["Content-Length"])).strip(b"\0"))
                requests.append(request)
                signers.at("stamped").write_bytes(request[-128:])
                answer = encodebytes(signers.cms("rsa_stamp", "-nodetach", "-md", "sha1", given="stamped", command="smime"))
                self.send_response(200)
                self.send_header("Content-Type", "application/octet-stream")
                self.send_header("Content-Length", str(len(answer)))
                self.end_headers()
                self.wfile.write(answer)

            def log_message(self, *words):
                pass

        server = HTTPServer(("127.0.0.1", 0), Stamper)
        Thread(target=server.serve_forever, daemon=True).start()
        try:
            yield f"http://127.0.0.1:{server.server_port}/", requests
        finally:
            server.shutdown()


# Programs that can be signed.

def portable_executable():
    """A program of Windows with one section, of no use (Microsoft Portable Executable and COFF Specification)."""
    dos = b"MZ" + bytes(58) + struct.pack("<I", 64)
    coff = struct.pack("<HHIIIHH", 0x14C, 1, 0, 0, 0, 224, 0x102)
    optional = struct.pack("<HBBIIIIII", 0x10B, 14, 0, 512, 0, 0, 0x1000, 0x1000, 0x2000)
    optional += struct.pack("<IIIHHHHHHIIIIHHIIIIII", 0x400000, 0x1000, 512, 6, 0, 0, 0, 6, 0, 0, 0x2000, 512, 0, 3, 0, 0x100000, 0x1000, 0x100000, 0x1000, 0, 16)
    optional += bytes(16 * 8)
    section = b".text\0\0\0" + struct.pack("<IIIIIIHHI", 1, 0x1000, 512, 512, 0, 0, 0, 0, 0x60000020)
    head = dos + b"PE\0\0" + coff + optional + section
    return head + bytes(512 - len(head)) + b"\xc3" + bytes(511)


def cabinet():
    """A cabinet of one file, stored as it is (Microsoft Cabinet Format)."""
    data = b"abc"
    block = struct.pack("<IHH", 0, len(data), len(data)) + data
    file = struct.pack("<IIHHHH", len(data), 0, 0, 0x5A21, 0, 0x20) + b"abc\0"
    files_at = 36 + 8
    blocks_at = files_at + len(file)
    size = blocks_at + len(block)
    head = b"MSCF" + struct.pack("<IIIIIBBHHHHH", 0, size, 0, files_at, 0, 3, 1, 1, 1, 0, 0, 0)
    return head + struct.pack("<IHH", blocks_at, 1, 0) + file + block


# Catalogues.

TRUST_LIST = "1.3.6.1.4.1.311.10.1"


def trust_list(*entries, usage="1.3.6.1.4.1.311.12.1.1", version=b"", identifier_octets=octet_string(bytes(range(16))), number=b"", after=b"", algorithm=None, extensions=b""):
    """The content of a trust list (Windows Authenticode, MS-CAESO)."""
    algorithm = algorithm or sequence(identifier("1.3.6.1.4.1.311.12.1.2"), element(0x05))
    return sequence(version, sequence(identifier(usage)), identifier_octets, number, utc_time("260101000000Z"), after, algorithm,
                    sequence(*entries), extensions)


def list_entry(subject, *attributes):
    return sequence(octet_string(subject), set_of(*attributes))


def entry_attribute(dotted, *values):
    return sequence(identifier(dotted), set_of(*values))


def unsigned_catalogue(content):
    """Signed data around a trust list, which no one has signed."""
    inner = sequence(integer(b"\1"), set_of(), sequence(identifier(TRUST_LIST), element(0xA0, content)), set_of())
    return sequence(identifier("1.2.840.113549.1.7.2"), element(0xA0, inner))
