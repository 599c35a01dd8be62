"""mmdepend as a library: on which axioms each theorem of a Metamath database rests.

The work is done by the shared library `libmmdepend.so`, which is proved to write what the text and
the request define; this module lends it memory and reads what it wrote. It needs nothing but Python
and that file, which is sought where the variable MMDEPEND_LIBRARY says, beside this module, in
`../lib` beside it, and then where the system keeps libraries.

    >>> import mmdepend
    >>> mmdepend.report(b"$c wff $.", "counts")
    b'mmdepend 1\\naxioms 0\\ntheorems 0\\ncounts\\nend\\n'

Other threads of Python run while a report is made.
"""

import ctypes
import ctypes.util
import mmap
import os
from contextlib import suppress
from dataclasses import dataclass, field
from functools import cache, cached_property
from pathlib import Path
from typing import Literal

__all__ = ["FAULTS", "PARTS", "Refused", "Report", "against", "report", "version"]


def __dir__() -> list[str]:
    """The names that are promised, without those of the modules on which this one stands."""
    return sorted(__all__)


# The parts of a report by their names, each with its bit. `all` are the first three of the others.
# begin sections: made by `python3 -m tables`; change crates/mm_library instead
PARTS = {
    "all": 7,
    "matrix": 1,
    "counts": 2,
    "usage": 4,
    "citations": 8,
    "proofs": 32,
    "statements": 16,
}
# end sections
USAGE = PARTS["usage"]
NAMES = ("libmmdepend.so.0", "libmmdepend.so")
# Memory is lent in units of so many bytes, and from a multiple of them on, as `mmdepend.h` says.
UNIT = 16
# A longer text is refused, with this code and at this place, whatever stands in it.
MOST_BYTES = 2_147_483_647
TOO_LONG = (1, 1, "E00")
# How memory is taken of which only this process has use. Windows gives no other.
PRIVATE = {"flags": mmap.MAP_PRIVATE | mmap.MAP_ANONYMOUS} if os.name == "posix" else {}
# What is lent at first for a byte of the text, room, and output with the usage and without; and the
# least of each. More is lent where that is too small.
ROOM_FOR_A_BYTE = 6
OUTPUT_WITH_USAGE, OUTPUT_WITHOUT = 5, 2
LEAST = 1 << 20

# The statuses of the library that can come.
ACCEPTED, REFUSED, TOO_SHORT, NO_MEMORY = 0, 1, 3, 4

# What is wrong, by the code of the fault; docs/FAULTS.md says more of each.
# begin faults: made by `python3 -m tables`; change query/program/refusals.py instead
FAULTS = {
    "E00": "the text is longer than 2,147,483,647 bytes",
    "E01": "a byte that is neither white space nor printable ASCII",
    "E02": "in a comment, a word that contains `$(` or `$)`",
    "E03": "a comment that is not closed",
    "E04": "a word with `$` that is no keyword, or `$)` outside a comment",
    "E05": "`$[` or `$]` outside comments: files aren't included",
    "E06": "where a statement begins, a word that is no label",
    "E07": "a token that isn't expected here",
    "E08": "the file ends within a statement",
    "E09": "`$}` without an open block",
    "E10": "the file ends while a block is open",
    "E11": "a `$c` in a block",
    "E12": "a `$c` or `$v` that declares nothing",
    "E13": "a symbol that is declared already",
    "E14": "a label and a symbol that are the same word",
    "E15": "a label that was used before",
    "E17": "a formula that doesn't begin with a constant declared before",
    "E18": "a symbol that is neither a constant nor an active variable",
    "E19": "a `$f` that isn't a constant and an active variable",
    "E20": "a variable that has an active `$f` already",
    "E21": "a variable whose earlier `$f` has another typecode",
    "E22": "a variable without an active `$f`",
    "E23": "a `$d` of fewer than two variables",
    "E24": "in a `$d`, a symbol that is no active variable",
    "E25": "in a `$d`, a variable that is named twice",
    "E31": "a proof without a step",
    "E32": "a `?` in a proof",
    "E33": "a word in the proof that is no active hypothesis and no earlier assertion",
    "E34": "the stack has fewer entries than the assertion has hypotheses",
    "E35": "no substitution turns the hypotheses of the assertion into the last entries",
    "E36": "a disjoint variable restriction is violated",
    "E37": "the stack doesn't have exactly one entry at the end of the proof",
    "E38": "what the proof proves isn't the theorem's formula",
    "E39": "a formula of more than 1,048,576 symbols",
    "E41": "the `(` of a compressed proof has no `)`",
    "E42": "in a compressed proof, a byte that is neither a capital letter nor `?`",
    "E43": "in a compressed proof, a number without its last letter",
    "E44": "in a compressed proof, a `Z` before the first number",
    "E45": "in a compressed proof, a number for which there is nothing",
}
# end faults

BYTES = (ctypes.c_char_p, ctypes.c_size_t)
OUT = (ctypes.c_void_p, ctypes.c_size_t, ctypes.c_void_p)
FLAGS = (ctypes.c_bool, ctypes.c_bool)
SECTIONS_AND_FORM = (ctypes.c_uint32, ctypes.c_uint32)
# The arguments of `mmdepend_report` and of `mmdepend_against`.
ARGUMENTS = (ctypes.c_void_p, *BYTES, *BYTES, ctypes.c_bool, *SECTIONS_AND_FORM, *FLAGS, *OUT)
ARGUMENTS_OF_TWO = (ctypes.c_void_p, *BYTES, *BYTES, *BYTES, ctypes.c_bool, *FLAGS, *OUT)


class Refused(Exception):
    """The database has a fault: the first one stands at this line and column, both from 1, and has
    this code, such as E37. Columns count bytes. `text` says in English what is wrong. Where two
    databases are compared, `side` says which one it is, `old` or `new`."""

    def __init__(self, line: int, column: int, code: str, side: str = "") -> None:
        super().__init__(f"{side} {line}:{column} {code}".lstrip())
        self.line = line
        self.column = column
        self.code = code
        self.side = side

    @property
    def text(self) -> str:
        """What is wrong. It is empty for a code of a later version of the library."""
        return FAULTS.get(self.code, "")

    def __reduce__(self) -> tuple[type["Refused"], tuple[int, int, str, str]]:
        """By what it is made again where it is copied or comes from another process."""
        return Refused, (self.line, self.column, self.code, self.side)


class Room(ctypes.Structure):
    """Memory that is lent to the library: where it begins, at a multiple of 16, and how many units
    of 16 bytes it has."""

    _fields_ = (("at", ctypes.c_void_p), ("units", ctypes.c_size_t))


class Memory:
    """A region of memory of its own, given back to the system at the end of a `with`."""

    def __init__(self, size: int) -> None:
        self.size = max(size, mmap.PAGESIZE)
        try:
            self.pages = mmap.mmap(-1, self.size, **PRIVATE)
        except (OSError, OverflowError, ValueError):
            raise MemoryError(f"the system gives no {self.size} bytes of memory") from None

    def __enter__(self) -> "Memory":
        return self

    def __exit__(self, *error: object) -> None:
        # Where an interrupt came into `address`, the view is still there. The region is given back
        # when nobody has it any more, and what came goes on.
        with suppress(BufferError):
            self.pages.close()

    def address(self) -> int:
        """Where it begins. The view is given up at once, so that the region can be given back."""
        first = ctypes.c_char.from_buffer(self.pages)
        return ctypes.addressof(first)


@cache
def library() -> ctypes.CDLL:
    """The shared library. OSError if there is none."""
    named = os.environ.get("MMDEPEND_LIBRARY")
    here = Path(__file__).resolve().parent
    beside = [folder / name for folder in (here, here.parent / "lib") for name in NAMES]
    places = [named] if named else [str(path) for path in beside if path.exists()]
    found = ctypes.util.find_library("mmdepend") if not places else None
    for path in [*places, *([found] if found else [])]:
        loaded = ctypes.CDLL(path)
        loaded.mmdepend_report.restype = ctypes.c_uint32
        loaded.mmdepend_report.argtypes = ARGUMENTS
        loaded.mmdepend_against.restype = ctypes.c_uint32
        loaded.mmdepend_against.argtypes = ARGUMENTS_OF_TWO
        loaded.mmdepend_version.restype = ctypes.c_size_t
        loaded.mmdepend_version.argtypes = (ctypes.c_void_p, ctypes.c_size_t)
        return loaded
    raise OSError("libmmdepend.so isn't found; the variable MMDEPEND_LIBRARY can name it")


@dataclass(frozen=True)
class Request:
    """What is requested of a report, as the library takes it. Of two databases that are compared,
    sections and form are of no meaning."""

    only: bytes | None
    essential: bool
    open_theorems: bool
    sections: int = 0
    form: int = 1


def up_to(size: int) -> int:
    """The size of so many whole pages."""
    return -(-size // mmap.PAGESIZE) * mmap.PAGESIZE


def once(texts: list[bytes], request: Request, room: Memory, out: Memory) -> tuple[int, int]:
    """One call of the library, on one text or two: its status, and the length of the output."""
    lent = Room(room.address(), room.size // UNIT)
    written = ctypes.c_size_t()
    of_two = len(texts) == 2
    call = library().mmdepend_against if of_two else library().mmdepend_report
    status = call(
        ctypes.byref(lent),
        *(argument for text in texts for argument in (text, len(text))),
        request.only or b"",
        len(request.only or b""),
        request.only is not None,
        *(() if of_two else (request.sections, request.form)),
        request.essential,
        request.open_theorems,
        out.address(),
        out.size,
        ctypes.byref(written),
    )
    return status, written.value


def output(texts: list[bytes], request: Request) -> tuple[int, bytes]:
    """The status and the output, with as much memory as it takes. What isn't used of memory that is
    lent is never really taken from the system, so the first try is generous. MemoryError, which
    says what room was too small, if the system gives no more."""
    size = sum(map(len, texts))
    room_size = up_to(ROOM_FOR_A_BYTE * size + LEAST)
    output_for_a_byte = OUTPUT_WITH_USAGE if request.sections & USAGE else OUTPUT_WITHOUT
    out_size = up_to(output_for_a_byte * size + LEAST)
    too_small = 0
    while True:
        try:
            with Memory(room_size) as room, Memory(out_size) as out:
                status, written = once(texts, request, room, out)
                if status not in (TOO_SHORT, NO_MEMORY):
                    return status, out.pages[:written]
        except MemoryError as error:
            if not too_small:
                raise
            raise MemoryError(f"a room of {too_small} bytes is too small, and {error}") from None
        if status == TOO_SHORT:
            out_size = up_to(written)
        else:
            too_small = room_size
            room_size *= 2


def of_type(value: object, types: tuple[type, ...], name: str) -> None:
    """TypeError where a value has none of these types."""
    if not isinstance(value, types):
        wanted = " or ".join(each.__name__ for each in types)
        raise TypeError(f"{name} is to be {wanted}, and not {type(value).__name__}")


def plain(text: bytes | bytearray | memoryview | mmap.mmap) -> bytes:
    """The bytes of a text as an object of `bytes` itself: one of a class of its own may say another
    length than it has. Refused where there are too many."""
    of_type(text, (bytes, bytearray, memoryview, mmap.mmap), "text")
    if type(text) is not bytes:
        with memoryview(text) as view:
            if view.nbytes > MOST_BYTES:
                raise Refused(*TOO_LONG)
            return view.tobytes()
    if len(text) > MOST_BYTES:
        raise Refused(*TOO_LONG)
    return text


def cut(text: bytes | bytearray | memoryview | mmap.mmap) -> bytes:
    """The same, but of a text that is too long one byte more than a text may have."""
    of_type(text, (bytes, bytearray, memoryview, mmap.mmap), "text")
    if type(text) is bytes:
        return text if len(text) <= MOST_BYTES else text[: MOST_BYTES + 1]
    with memoryview(text) as view, view.cast("B") as flat:
        return flat[: MOST_BYTES + 1].tobytes()


def sections_of(part: str) -> int:
    """The bits of the parts that are named, with commas between them."""
    of_type(part, (str,), "part")
    sections = 0
    for name in str.split(part, ","):
        if name not in PARTS:
            raise ValueError(f"no part of a report is called {name!r}")
        sections |= PARTS[name]
    return sections


def refused(line: bytes) -> Refused:
    """What a refusal says: `refused LINE:COLUMN CODE`, after `old` or `new` for two databases."""
    *side, _, place, code = line.decode("ascii").split()
    at, column = place.split(":")
    return Refused(int(at), int(column), code, "".join(side))


def answer(texts: list[bytes], request: Request) -> bytes:
    """What the library writes, if it refuses none of the texts."""
    status, written = output(texts, request)
    if status == REFUSED:
        raise refused(written)
    if status != ACCEPTED:
        raise AssertionError(f"the library ended with status {status}")
    return written


def typecode_of(only: str | None) -> bytes | None:
    """A typecode as the library takes it."""
    of_type(only, (str, type(None)), "only")
    return None if only is None else str.encode(only, "utf-8")


def report(
    text: bytes | bytearray | memoryview | mmap.mmap,
    part: str = "all",
    *,
    only: str | None = None,
    form: Literal[1, 2] = 1,
    essential: bool = False,
    open_theorems: bool = False,
) -> bytes:
    """Verifies a database and returns the bytes of its report, as the program writes them.

    `text` is the database. `part` is what is reported: `matrix`, `counts`, `usage`,
    `citations`, `proofs` and `statements`, one or more of them with commas between them, or `all`:
    the first three. `only` is the typecode of the axioms that are columns, such as `|-`; if it is
    None, all axioms are. `form` is how the matrix is written: 1 a digit for each column, 2 a
    hexadecimal digit for every four. With `essential` a theorem cites only what the logical part of
    its proof applies, and with `open_theorems` a theorem whose proof is `?` counts as an axiom.

    Raises Refused if the database has a fault, ValueError if there is no such part or form, or
    `only` can't be written as UTF-8, TypeError if an argument has another type, MemoryError if
    memory runs out, and OSError if the shared library isn't found.
    """
    typecode = typecode_of(only)
    of_type(form, (int,), "form")
    sections = sections_of(part)
    if form not in (1, 2):
        raise ValueError(f"no form of the matrix has the number {form!r}")
    request = Request(typecode, bool(essential), bool(open_theorems), sections, int(form))
    return answer([plain(text)], request)


def against(
    old: bytes | bytearray | memoryview | mmap.mmap,
    new: bytes | bytearray | memoryview | mmap.mmap,
    *,
    only: str | None = None,
    essential: bool = False,
    open_theorems: bool = False,
) -> bytes:
    """Verifies two databases and returns the bytes that say what the one has and the other hasn't,
    as `mmdepend --against OLD NEW` writes them.

    `old` and `new` are the databases. The other arguments, and what is raised, are those of
    `report`. Where one of the databases has a fault, Refused is raised for the first that has, and
    its `side` is `old` or `new`.
    """
    request = Request(typecode_of(only), bool(essential), bool(open_theorems))
    try:
        old_text = plain(old)
    except Refused as error:
        raise Refused(error.line, error.column, error.code, "old") from None
    # A text that is too long is handed over cut: it is refused, and OLD is told before it.
    return answer([old_text, cut(new)], request)


@dataclass(frozen=True)
class Report:
    """On which axioms each theorem of a database rests.

    `axioms` are the labels of the axioms, `theorems` those of the theorems, both in file order. A
    report is made by `Report.of`.
    """

    axioms: tuple[str, ...]
    theorems: tuple[str, ...]
    cells: tuple[str, ...] = field(repr=False)
    """For each theorem a hexadecimal digit for each four axioms."""
    used_by: tuple[str, ...] = field(repr=False)
    """For each axiom the labels of the theorems that rest on it, with spaces between them."""

    @classmethod
    def of(
        cls,
        text: bytes | bytearray | memoryview | mmap.mmap,
        *,
        only: str | None = None,
        essential: bool = False,
        open_theorems: bool = False,
    ) -> "Report":
        """Verifies a database. The arguments, and what is raised, are those of `report`."""
        written = report(
            text,
            "matrix,usage",
            only=only,
            form=2,
            essential=essential,
            open_theorems=open_theorems,
        )
        lines = written.decode("ascii").split("\n")
        matrix, usage = lines.index("matrix"), lines.index("usage")
        rows = [line.split(":") for line in lines[matrix + 1 : usage]]
        columns = [line.split(":") for line in lines[usage + 1 : lines.index("end", usage)]]
        return cls(
            tuple(row[0] for row in columns),
            tuple(row[0] for row in rows),
            tuple(row[1] for row in rows),
            tuple(row[2] for row in columns),
        )

    @cached_property
    def rows(self) -> dict[str, int]:
        """The index of each theorem."""
        return {label: row for row, label in enumerate(self.theorems)}

    @cached_property
    def columns(self) -> dict[str, int]:
        """The index of each axiom."""
        return {label: column for column, label in enumerate(self.axioms)}

    def rests(self, label: str) -> list[str]:
        """The axioms on which a theorem rests, in file order. KeyError if there is no such
        theorem."""
        cells = self.cells[self.rows[label]]
        digits = f"{int(cells, 16):0{4 * len(cells)}b}" if cells else ""
        return [axiom for axiom, digit in zip(self.axioms, digits) if digit == "1"]

    def users(self, label: str) -> list[str]:
        """The theorems that rest on an axiom, in file order. KeyError if there is no such axiom."""
        return self.used_by[self.columns[label]].split()


def version() -> str:
    """The version of the shared library, and the logic in which it was proved."""
    text = ctypes.create_string_buffer(256)
    length = library().mmdepend_version(text, len(text))
    return text.raw[:length].decode("utf-8")
