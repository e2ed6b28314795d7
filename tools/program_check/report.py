"""What is found of a program, as it is printed for people and as one JSON object."""

from dataclasses import asdict, dataclass, field

from program_check import text

WIDTH = 12
UNCHECKED = (
    "revocation, key usages, the extended key usages of issuers, unknown critical extensions, name constraints, policies; "
    "whether the program is harmless")
FORMAT = 1


@dataclass
class Report:
    """What is found; docs/SCRIPTING.md has the fields."""

    file: str
    format: int = FORMAT
    verdict: str = "not checked"
    status: int = 2
    sentence: str = ""
    reason: object = None
    next: object = None
    size: object = None
    file_sha256: object = None
    digest: object = None
    signer: object = None
    signer_verified: bool = False
    certificates: list = field(default_factory=list)
    description: object = None
    stated_time: object = None
    date: object = None
    path: list = field(default_factory=list)
    path_by_names: list = field(default_factory=list)
    root: object = None
    roots: object = None
    stamps: list = field(default_factory=list)
    other_signatures: list = field(default_factory=list)
    signatures: object = None
    notes: list = field(default_factory=list)
    answers: list = field(default_factory=list)
    proved: bool = True

    def accept(self, sentence):
        self.verdict, self.status, self.sentence = "accepted", 0, sentence

    def refuse(self, sentence, then=None, reason=None):
        self.verdict, self.status, self.sentence, self.next, self.reason = "refused", 1, sentence, then, reason
        return self

    def not_checked(self, status, sentence):
        self.verdict, self.status, self.sentence = "not checked", status, sentence
        return self

    def answered(self, answer, what, first=False):
        """Adds an answer of a program, in front or behind the others."""
        self.answers.insert(0 if first else len(self.answers), {"program": answer.shown, "question": what, "status": answer.status, "line": answer.line()})

    def json(self):
        return asdict(self)

    def lines(self):
        """What is printed for people; the verdict comes last.  Nothing out of a file ends a line or changes the terminal."""
        return map(text.visible, self.parts())

    def parts(self):
        yield from self.of_the_file()
        yield from self.of_the_signer()
        yield from self.of_the_path()
        yield from self.of_the_stamps()
        yield from self.of_the_programs()
        yield ""
        yield f"{self.verdict}: {self.sentence}"
        if self.next:
            yield f"next: {self.next}"

    def of_the_file(self):
        yield row("file", self.file + (f", {text.counted(self.size, 'octet')}" if self.size is not None else ""))
        if self.file_sha256:
            yield row("file sha256", self.file_sha256)
        if self.digest:
            yield row("digest", f"{self.digest['algorithm']} {self.digest['value']}")
        if self.description and any(self.description.values()):
            yield row("description", ", ".join(filter(None, self.description.values())) + " (said by the signer)")

    def of_the_signer(self):
        if not self.signer:
            return
        yield row("signed by" if self.signer_verified else "signer", self.signer["subject"] + ("" if self.signer_verified else " (as the file says)"))
        yield row("issued by", self.signer["issuer"])
        yield row("serial", self.signer["serial"])
        yield row("sha256", self.signer["sha256"])
        yield row("sha1", self.signer["sha1"])
        yield row("key", self.signer["key"])
        yield row("valid", f"{text.shown_moment(self.signer['valid_from'])} to {text.shown_moment(self.signer['valid_to'])}")
        yield row("usages", ", ".join(self.signer["usages"]) or "none named")
        if self.stated_time:
            yield row("signed at", f"{text.shown_moment(self.stated_time)} (said by the signer; nobody vouches for it)")

    def of_the_path(self):
        if self.date:
            yield row("date", f"{text.shown_moment(self.date['value'])}, {self.date['source']}")
        for number, one in enumerate(self.path):
            yield row("path" if number == 0 else "", f"{number + 1}. {one['subject']}" + (", the root" if one["root"] else ""))
        for number, subject in enumerate(self.path_by_names):
            yield row("by names" if number == 0 else "", f"{number + 1}. {subject}")
        if self.root:
            yield row("root", self.root["subject"])
            yield row("", f"sha256 {self.root['sha256']}")
            yield row("", f"in {self.root['file']}")
        elif self.roots:
            yield row("root", f"none; trusted are {self.roots}")

    def of_the_stamps(self):
        for one in self.stamps:
            state = "openssl verifies it" if one["verified"] else f"not verified: {one['why']}"
            when = text.shown_moment(one["time"]) if one["time"] else "no time"
            yield row("stamp", f"{when}, {one['kind']}; {state}" + ("; used as the date" if one["used"] else ""))
            if one["by"]:
                yield row("", f"by {one['by']}")
        if self.signer and not self.stamps:
            yield row("stamp", "none")

    def of_the_programs(self):
        for one in self.other_signatures:
            yield row("also signed", one)
        for one in self.notes:
            yield row("note", one)
        for number, one in enumerate(self.answers):
            yield row(("proved" if self.proved else "not proved") if number == 0 else "", f"{one['program']}: {one['line'] or 'status ' + str(one['status'])}")
        if self.signatures:
            yield row("table", f"{text.counted(self.signatures['asked'], 'signature')} asked about, {self.signatures['good']} good")
        if self.verdict == "accepted":
            yield row("unchecked", UNCHECKED)


def row(label, value):
    return f"{label:{WIDTH}} {value}".rstrip()
