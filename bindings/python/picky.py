"""Checks of Authenticode signatures over octets in memory, by the library `libpicky_door.so`.

    >>> picky = Picky("libpicky_door.so")
    >>> picky.check(["check", "SIG", "TABLE", digest, "2023-06-15"], signature, table)
    Answer(status=0, line='accepted signer=0 path=1,2 excuse=none')

Status 0 isn't enough to install a program. An accepted signature with an empty `path=` is vouched for by
nobody: anyone can make its certificate. A path is worth what its last certificate is, since no root is
checked. So compare the whole line with the one that you expect, and pin the signer's key (a table without
rows of other keys) or find a path to a root that you trust (as the last certificate of `chain`):
docs/MANUAL.md, "Who signed". An answer has no truth value.
"""

import ctypes
import threading
from contextlib import ExitStack
from typing import NamedTuple

ACCEPTED, REFUSED, USAGE, BAD_TABLE, NO_FILE, NO_ROOM, TOO_LONG, OUT_OF_MEMORY = range(8)


class Answer(NamedTuple):
    """A status, and the line without its newline, empty where there is none."""

    status: int
    line: str

    def __bool__(self):
        raise TypeError("an answer has no truth value: compare its line with the one that you expect")


class _Handle(ctypes.Structure):
    """`picky_table`."""

    _fields_ = (("inside", ctypes.c_void_p),)


class TableError(ValueError):
    """No table was parsed: the status is BAD_TABLE or OUT_OF_MEMORY."""

    def __init__(self, status):
        super().__init__(status)
        self.status = status


class Table:
    """A verdict table that was parsed once, for many calls; of those at once, each waits for the one before. A context manager, which frees it.

    >>> with Table(picky, table) as known:
    ...     picky.check(["check", "SIG", "TABLE", digest, "2023-06-15"], signature, known)
    """

    library = None

    def __init__(self, picky, text=None):
        self.library, self.handle, self.lock = picky.library, _Handle(), threading.RLock()
        if text is not None:
            self.parse(text)

    def parse(self, text):
        """Takes this table; after a `TableError` it is as it was."""
        with self.lock:
            status = self.library.picky_table_parse(text, len(text), ctypes.byref(self.handle))
        if status != ACCEPTED:
            raise TableError(status)

    def close(self):
        """Frees the table; then the file TABLE isn't there."""
        with self.lock:
            self.library.picky_table_free(ctypes.byref(self.handle))

    def __enter__(self):
        return self

    def __exit__(self, *_):
        self.close()

    def __del__(self):
        if self.library:
            self.close()


class Picky:
    """The calls of a shared library, which is made of the static one. A table is octets or a `Table`. A word with a newline has the status USAGE."""

    def __init__(self, path):
        self.library = ctypes.CDLL(path)
        octets, lengths = (ctypes.c_char_p, ctypes.c_size_t), (ctypes.POINTER(ctypes.c_size_t), ctypes.c_size_t)
        out, handle = (ctypes.c_char_p, ctypes.c_size_t, ctypes.POINTER(ctypes.c_size_t)), ctypes.POINTER(_Handle)
        for name, types in (
            ("check_bytes", (*octets * 4, *out)), ("check_with_table", (*octets * 2, handle, *octets, *out)),
            ("pe_bytes", (*octets * 4, *out)), ("pe_with_table", (*octets * 2, handle, *octets, *out)),
            ("chain_bytes", (*octets * 3, *lengths, *out)), ("chain_with_table", (*octets, handle, *octets, *lengths, *out)),
            ("ask_bytes", (*octets * 2, *lengths, *out)), ("table_parse", (*octets, handle)), ("table_free", (handle,)),
        ):
            call = getattr(self.library, f"picky_{name}")
            call.argtypes, call.restype = types, None if name == "table_free" else ctypes.c_uint8

    def check(self, words, signature, table, trust_list=b""):
        """The command that the words request, which name the files SIG, TABLE and LIST."""
        return self._run("check", words, signature, table, trust_list)

    def check_program(self, words, program, table, trust_list=b""):
        """The check of a signed program, with words that name the files PROGRAM, TABLE and LIST."""
        return self._run("pe", words, program, table, trust_list)

    def chain(self, words, table, certificates):
        """The validation of a certificate with its parents; words name the file TABLE and the certificates 0, 1 and so on."""
        return self._run("chain", words, table, b"".join(certificates), lengths=[len(it) for it in certificates])

    def questions(self, words, files):
        """The questions about a signature file or a chain, a line each; words name the files 0, 1 and so on."""
        return self._run("ask", words, b"".join(files), lengths=[len(it) for it in files])

    def _run(self, name, words, *files, lengths=None):
        if any("\n" in word for word in words):
            return Answer(USAGE, "")
        tables = [it for it in files if isinstance(it, Table)]
        call = getattr(self.library, f"picky_{name}_with_table" if tables else f"picky_{name}_bytes")
        parts = []
        for it in ("\n".join(words).encode(), *files):
            parts += [ctypes.byref(it.handle)] if isinstance(it, Table) else [it, len(it)]
        if lengths is not None:
            parts += [(ctypes.c_size_t * max(1, len(lengths)))(*lengths), len(lengths)]
        room = 512
        while True:
            line, written = ctypes.create_string_buffer(room), ctypes.c_size_t()
            with ExitStack() as held:
                for table in tables:
                    held.enter_context(table.lock)
                status = call(*parts, line, room, ctypes.byref(written))
            if status != NO_ROOM:
                return Answer(status, line.raw[:written.value].decode().rstrip("\n"))
            room *= 2
