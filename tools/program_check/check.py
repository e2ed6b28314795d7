"""The check of one program, step by step.

`picky_pe` says whether the signature is one over this file by this signer, whose
certificate is valid at the date; `picky_anchor` whether a path leads from that certificate
to a root.  A program is accepted where both accept, and nowhere else; and where the table
that they read has each signature that this rests on.
"""

from dataclasses import dataclass
from datetime import datetime, timezone
from hashlib import sha256
from itertools import islice
from pathlib import Path
from tempfile import TemporaryDirectory
from typing import NamedTuple

import signed_program
from common import command
from common.der import NotRead
from common.signed_data import DIGESTS, NotASignatureFile
from ordered_program import with_entry
from program_check import anchors, asking, explain, expiry, kinds, notes, opinion, reasons, stamps, text
from program_check.certificate import LIFETIME_SIGNING, Certificate, row_of
from program_check.describe import describe
from program_check.image import Image, digest_by_sections
from program_check.programs import Disagreement, NotChecked
from program_check.report import Report
from program_check.signature import MOST_STAMPS, Signature
from verdict_table import NoTable

MOST_OCTETS = 16_777_216
NO_CHAIN = "--no-chain"
TOO_LONG = (
    f"it has more than {MOST_OCTETS:,} octets, which is the most that the proved programs read: `tools/signed_program.py PROGRAM SIG` "
    "prints its digest, and `check_program.py SIG --digest DIGEST` checks the signature for that")


class Question(NamedTuple):
    """What is asked: a file, the roots for it and for its stamps, a DATE or None, a digest where the file is a signature alone."""

    file: str
    roots: object
    stamp_roots: object
    programs: object
    at: object = None
    digest: object = None
    now: object = None
    progress: object = lambda words: None

    def moment(self):
        """Now, or what is taken for it."""
        return self.now or datetime.now(timezone.utc).strftime("%Y-%m-%dT%H:%M:%S")


class Subject(NamedTuple):
    """The file that is asked about: its octets, its certificate table's first entry, what is read of that, and the digest of the program."""

    octets: bytes
    entry: bytes
    signature: Signature
    digest: bytes | None

    def certificate(self):
        """That of the signer, None where it isn't there."""
        index = self.signature.signers_index
        return None if index is None else self.signature.certificates[index]


@dataclass
class Asked:
    """What the programs are asked about: the signer's certificate, those that a path may go through and end at, the table, and DATE."""

    certificate: Certificate | None
    pool: list
    roots: list
    date: str
    table: asking.Table | None = None
    file: Path | None = None

    def leave_out(self, unread):
        """Takes out certificates that the programs don't read, which would have them refuse a whole call."""
        self.pool = [one for one in self.pool if one not in unread]
        self.roots = [root for root in self.roots if root.certificate not in unread]
        self.certificate = None if self.certificate in unread else self.certificate


def check(question):
    """The report on a program."""
    report = Report(text.clean(question.file), proved=question.programs.proved)
    try:
        with TemporaryDirectory() as folder:
            Check(question, report, anchors.Files(Path(folder))).run()
    except NotChecked as refusal:
        report.not_checked(refusal.status, str(refusal))
    except (NotRead, LookupError, ValueError) as refusal:
        # Nothing that is shown of a file decides: one that can't be shown isn't accepted.
        why = str(refusal) if isinstance(refusal, NotRead) else "it has another form than any that is known here"
        report.root, report.path, report.signer_verified = None, [], False
        report.refuse(f"the signature has a part that isn't read here: {why}", reasons.OTHER_TOOLS)
    except Disagreement as refusal:
        report.root, report.path, report.signer_verified = None, [], False
        report.refuse(f"the programs disagree: {refusal}", "one of them was replaced or is damaged: build them anew")
    return report


class Check:
    """The steps over one file; each fills in its part of the report."""

    def __init__(self, question, report, files):
        self.question, self.report, self.files = question, report, files
        self.programs = question.programs
        self.file, self.alone = None, question.digest is not None

    def run(self):
        octets = command.read_file(self.question.file, MOST_OCTETS)
        if len(octets) > MOST_OCTETS:
            raise NotChecked(6, TOO_LONG)
        self.report.size, self.report.file_sha256 = len(octets), sha256(octets).hexdigest()
        # The programs read the octets that are shown here, whatever happens to the file meanwhile.
        self.file = self.files.of("program", octets)
        subject = self.read(octets)
        if subject is None:
            return
        describe(self.report, subject, self.alone)
        asked = self.asked_about(subject, self.date_of(subject))
        self.make_table(subject, asked)
        self.expect_answers(asked)
        path = self.ask_path(asked)
        signed = self.ask_signature(subject, asked, path)
        self.decide(subject, signed, path, asked)

    # What is in the file.

    def read(self, octets):
        """The parts of a signed program; None where the file is none, which is reported."""
        what, instead = kinds.of(octets)
        if what and not self.alone:
            return self.not_a_program(f"the file is {what}, and no signed program of Windows", instead)
        try:
            entry = octets if self.alone else signed_program.signature(octets)
            signature = Signature(entry)
        except (signed_program.NotSigned, NotASignatureFile) as refusal:
            return self.not_a_program(f"the file has no signature that is read here: {refusal}", None)
        return Subject(octets, entry, signature, self.digest_of(octets, signature))

    def digest_of(self, octets, signature):
        """The digest of the program by the algorithm that the signature names, None where it isn't known."""
        if self.alone:
            return bytes.fromhex(self.question.digest)
        stated = signature.stated_digest()
        if stated is None or stated[0] not in DIGESTS.values():
            return None
        return bytes.fromhex(signed_program.image_digest(octets, stated[0]))

    def not_a_program(self, sentence, then):
        """Reports a file that has no signature, with what the program answers of it."""
        answer = self.ask(self.file, self.files.of("table.txt", b"picky-verdicts 2\n"), self.question.moment())
        name = answer.refusal()
        if name is None:
            raise Disagreement(f"{answer.program} accepts a file in which no signature is read here")
        said, hint = reasons.of(name, {})
        if then is None and name in reasons.PROGRAM:
            sentence, then = said, hint
        elif then is None:
            # What a program says of a signature that isn't read here, by a table without a row, says nothing of whether it is good.
            sentence, then = (f"{sentence} ({said})", hint) if name in reasons.OF_FORM else (sentence, reasons.OTHER_TOOLS)
        self.report.refuse(sentence, then, name)

    def decider(self):
        """The program that decides on the signature."""
        return "picky check" if self.alone else "picky_pe"

    def call(self, file, table, date):
        """That program, and its words for a file."""
        if self.alone:
            return "picky", ["check", file, table, self.question.digest, date, NO_CHAIN]
        return "picky_pe", [file, table, date, NO_CHAIN]

    def ask(self, file, table, date):
        """What that program answers of a file."""
        answer = self.programs.run(*self.call(file, table, date), f"{self.decider()} {NO_CHAIN}")
        self.report.answered(answer, "is the file signed by the signer?", first=True)
        return answer

    # The date.

    def date_of(self, subject):
        """DATE: the one that is given, else the time of a good stamp, else now."""
        question, now = self.question, self.question.moment()
        question.progress("openssl verifies time stamps")
        held = subject.signature.stamps()
        found = [stamps.verified(one, subject.signature.signer.octets, question.stamp_roots.ders()) for one in islice(held, MOST_STAMPS)]
        self.report.notes += [notes.STAMPS.format(MOST_STAMPS)] if next(held, None) is not None else []
        self.report.notes += [notes.LIFETIME] if found and self.is_for_a_lifetime(subject) else []
        used = None if question.at or self.is_for_a_lifetime(subject) else stamps.used(found, stamps.epoch(now))
        self.report.stamps = [one.shown(one is used) for one in found]
        date, source = (question.at, "as given by --at") if question.at else (used.stamp.time, "the time of the stamp") if used else (now, "now")
        self.report.date = {"value": date, "source": source}
        return date

    @staticmethod
    def is_for_a_lifetime(subject):
        """Whether the signer's certificate says that no stamp outlives it (1.3.6.1.4.1.311.10.3.13)."""
        certificate = subject.certificate()
        return certificate is not None and certificate.is_for(LIFETIME_SIGNING, unread=True)

    # The questions to the programs.

    def asked_about(self, subject, date):
        """The certificates that a path may go through, and the roots that it may end at."""
        certificate = subject.certificate()
        if certificate is None:
            return Asked(None, [], [], date)
        pool, cut = anchors.pool_of(subject.signature.certificates, certificate)
        if cut:
            self.report.notes.append(notes.POOL.format(anchors.MOST_POOL))
        roots = self.question.roots.named({one.issuer_name for one in (certificate, *pool)})
        return Asked(certificate, pool, roots or self.question.roots.some(anchors.MOST_ANCHORS), date)

    def make_table(self, subject, asked):
        """The table with a verdict on each signature that the programs may ask about."""
        children = [asked.certificate, *asked.pool] if asked.certificate else []
        trusted = [root.certificate for root in asked.roots]
        try:
            asked.table = asking.made(self.programs, self.files, subject.entry, children, [*trusted, *asked.pool], trusted, self.question.progress)
        except NoTable as refusal:
            raise NotChecked(command.CANT, f"no table is made for the file: {refusal}") from refusal
        self.report.signatures = asked.table.counts()
        self.report.notes += [f"in the table: {one}" for one in asked.table.lacking]
        asked.file = self.files.of("table.txt", asked.table.text.encode("ascii"))
        asked.leave_out(asked.table.unread)

    def expect_answers(self, asked):
        """Says which answers are needed: on the path, and on the signature unless the path has another order of certificates."""
        if asked.certificate is None or not asked.roots:
            return
        self.question.progress(self.programs.progress)
        paths = anchors.calls(self.files, asked.file, asked.date, asked.certificate, asked.pool, asked.roots)
        self.programs.expect([*(("picky_anchor", words) for _, words in paths), self.call(self.file, asked.file, asked.date)])

    def ask_path(self, asked):
        """The path to a root; None where there is no certificate or no root to ask about."""
        if asked.certificate is None or not asked.roots:
            return None
        self.question.progress("picky_anchor looks for a path to a root")
        found = anchors.find(self.programs, self.files, asked.file, asked.date, asked.certificate, asked.pool, asked.roots)
        for answer in found.answers:
            self.report.answered(answer, "does a path lead from the signer's certificate to a root?")
        return found.path

    def ask_signature(self, subject, asked, path):
        """The answer on the signature; where it accepts, it is about the signer and the digest that are shown here."""
        self.question.progress(f"{self.decider()} checks the signature")
        file, expected = self.file, subject.signature.signers_index
        if path is not None:
            file, expected = self.in_order(subject, [asked.certificate, *path.parents[:-1]]), 0
        answer = self.ask(file, asked.file, asked.date)
        if answer.accepted() is not None:
            self.expect_same(subject, expected, answer.accepted())
        return answer

    def in_order(self, subject, first):
        """A copy of the file in which these certificates come first; the file itself where they do."""
        entry = subject.signature.in_order(first)
        if entry == subject.entry:
            return self.file
        self.report.notes.append(notes.ORDER.format(self.decider()))
        return self.files.of("in_order", entry if self.alone else with_entry(subject.octets, entry))

    @staticmethod
    def expect_same(subject, expected, parts):
        """The line is about the signer and the digest that are shown here."""
        if parts["signer"] is None:
            raise Disagreement("the program answers as of a chain, and was asked about a signature")
        if expected is None or int(parts["signer"]) != expected:
            raise Disagreement(f"the program names certificate {parts['signer']} as the signer's, and here it is {'none' if expected is None else expected}")
        stated = subject.signature.stated_digest()
        if stated is None or stated[1] != subject.digest:
            raise Disagreement("the program accepts the digest of the file, and here it is another one than the signed digest")

    @staticmethod
    def expect_verified(subject, line, table):
        """The table has the signature of the signer, and that on each certificate of the path, as good ones."""
        if not table.accepts(subject.signature.signer.row(line[0])):
            raise Disagreement("the program accepts the signature, which isn't a good one in the table that it was given")
        for child, parent in zip(line, line[1:]):
            if not table.accepts(row_of(child, parent)):
                raise Disagreement(f"picky_anchor takes '{child.called()}' for signed by '{parent.called()}', and the table that it was given doesn't say so")

    # The answer.

    def decide(self, subject, signed, path, asked):
        """Accepted exactly where both answers are: the one on the signature without an excuse, the other with a path."""
        self.report.roots = self.question.roots.words
        parts = signed.accepted()
        line = [asked.certificate, *path.parents] if path is not None else []
        if parts is not None and path is not None:
            self.expect_verified(subject, line, asked.table)
        if path is not None:
            self.describe_path(subject, line, path.root)
        self.report.signer_verified = parts is not None
        if parts is None:
            return self.refuse_signature(subject, signed.refusal(), asked)
        if self.is_partly_unsigned(subject):
            return self.report.refuse(*reasons.partly_unsigned(Image.of(subject.octets)))
        if path is None:
            return self.refuse_path(subject, asked)
        if parts["excuse"] != "none":
            raise Disagreement("the one program finds the signer's certificate expired, and the other one doesn't")
        what = "a program with this digest" if self.alone else "this program"
        self.report.accept(
            f"'{asked.certificate.called()}' signed {what}, and its certificate leads to the root '{path.root.certificate.called()}'; "
            f"all certificates on the way are valid at {text.shown_moment(self.report.date['value'])} ({self.report.date['source']})")

    def is_partly_unsigned(self, subject):
        """Whether what a loader takes out of the program lies in part where nobody signed."""
        if self.alone:
            return False
        image = Image.of(subject.octets)
        return image is None or image.unsigned_part() is not None

    def describe_path(self, subject, line, root):
        date = text.whole_moment(self.report.date["value"])
        self.report.notes += [notes.LAST_SECOND.format(each.called()) for each in line if each.ends == date]
        self.report.notes += [notes.NAMESAKES.format(each.called()) for each in line[1:] if self.has_namesake(subject, each)]
        self.report.notes += notes.of_links(line)
        second = opinion.note(line, date)
        self.report.notes += [second] if second else []
        self.report.path = [{"subject": each.subject, "sha256": each.fingerprint(), "valid_from": each.begins, "valid_to": each.ends,
                             "root": at == len(line) - 1} for at, each in enumerate(line)]
        self.report.root = {"subject": root.certificate.subject, "sha256": root.certificate.fingerprint(), "file": text.clean(root.file)}

    @staticmethod
    def has_namesake(subject, certificate):
        """Whether another certificate of the signature has the same name."""
        return any(one.subject_name == certificate.subject_name and one != certificate for one in subject.signature.certificates)

    def refuse_signature(self, subject, name, asked):
        """The signature is refused: why."""
        certificate = subject.certificate()
        words = {"date": text.shown_moment(asked.date)}
        if certificate is not None:
            words = explain.words_of([certificate], 0, asked.date)
        sentence, then = reasons.of_signature(name, subject, asked.table, words)
        if name == reasons.DIGEST and not self.alone:
            sentence, then = self.of_the_digest(subject) or (sentence, then)
        self.report.refuse(sentence, self.hint(subject, name, then), name)

    @staticmethod
    def of_the_digest(subject):
        """The sentence and the hint on a program whose signed digest is the one by its sections, between which it has a gap."""
        image, stated = Image.of(subject.octets), subject.signature.stated_digest()
        if image is None or stated is None or stated[0] not in DIGESTS.values() or not image.has_gap():
            return None
        by_sections = digest_by_sections(subject.octets, image, stated[0])
        return reasons.with_a_gap(image) if by_sections == stated[1].hex() else None

    def hint(self, subject, name, then):
        """What to do next; about a certificate that has expired it depends on the stamps."""
        return expiry.hint(self.report, self.is_for_a_lifetime(subject)) if name == reasons.EXPIRED else then

    def refuse_path(self, subject, asked):
        """The signature is good, and no path leads to a root: why."""
        if not self.question.roots.all:
            self.report.refuse("no root is trusted here, so nobody vouches for the signer", "name the file of a root that you trust by --root", "NoAnchoredPath")
            return
        self.question.progress("picky chain looks for the reason")
        why = explain.Explaining(self.programs, self.files, asked, self.question.roots).why(subject.certificate())
        self.report.path_by_names = [one.subject for one in why.line]
        self.report.refuse(f"the signature is good, but {why.sentence}", self.hint(subject, why.name, why.next), why.name or "NoAnchoredPath")
