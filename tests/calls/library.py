"""The calls as they are built: the archives of the crates roskudla and roskudla_gate_c, each linked into a shared object (bindings/build) and called by ctypes.

Texts, cards, comma lines, tables files, lent lists and what a call writes its answer to end where a page ends that may not be touched, so that a read or a
write past them ends the program. What stands before them is a pattern of at least a page: a call that changes any of it is an error, and so is one that
changes a text, a card, comma lines or a tables file, or that refuses and writes an answer.
"""
import array
import ctypes
import mmap
import pathlib
import subprocess
import sys

ROOT = pathlib.Path(__file__).resolve().parents[2]
sys.path[:0] = [str(ROOT / "tests" / "model"), str(ROOT / "bindings" / "python")]

import model  # noqa: E402
import roskudla  # noqa: E402


class OutsideWritten(Exception):
    """A call changed what it was not lent."""


def load(name):
    """A library of the calls: roskudla has all of them, roskudla_gate the gate's."""
    subprocess.run([str(ROOT / "bindings" / "build")], check=True)
    return ctypes.CDLL(str(ROOT / "target" / "shared" / f"lib{name}.so"))


class EndOfPage:
    """Room for some bytes up to the end of a readable page; the page behind it may not be touched, and all that is readable before the bytes is a pattern."""

    def __init__(self, most):
        page = mmap.PAGESIZE
        self.most = most
        self.size = (most + page - 1) // page * page + page
        self.memory = mmap.mmap(-1, self.size + page)
        self.start = ctypes.addressof(ctypes.c_char.from_buffer(self.memory))
        no_access = 0
        if ctypes.CDLL(None, use_errno=True).mprotect(ctypes.c_void_p(self.start + self.size), page, no_access) != 0:
            raise OSError(ctypes.get_errno(), "mprotect")
        self.pattern = bytes(17 * place % 251 for place in range(self.size))
        self.memory[:self.size] = self.pattern
        self.some, self.place = b"", self.size

    def put(self, some):
        """The bytes, as a pointer to the first and a length; where earlier bytes stood before these, the pattern stands again."""
        if len(some) > self.most:
            raise ValueError(f"{len(some)} bytes, and room for {self.most}")
        place = self.size - len(some)
        if place > self.place:
            self.memory[self.place:place] = self.pattern[self.place:place]
        self.memory[place:self.size] = some
        self.some, self.place = some, place
        return ctypes.c_void_p(self.start + place), len(some)

    def after(self):
        """The bytes as they are now; an error if any of the pattern before them was changed."""
        if self.memory[:self.place] != self.pattern[:self.place]:
            raise OutsideWritten("a call wrote before the start of a slice")
        return self.memory[self.place:self.size]

    def unchanged(self):
        """An error if any of the bytes was changed, or any of the pattern before them."""
        if self.after() != self.some:
            raise OutsideWritten("a call changed a text, a card, comma lines or a tables file")


MOST_SOURCE_BYTES = 1 << 13
MOST_FILE_BYTES = 1 << 16
MOST_LIST_BYTES = 1 << 13
MOST_LINES_BYTES = 1 << 17
SLICE = [ctypes.c_void_p, ctypes.c_size_t]
UNSIGNED, BYTE, SIZE = "I", "B", "Q"


class LentList:
    """Room for a list of numbers at the end of a page: UNSIGNED ones of four bytes, bytes, or sizes."""

    def __init__(self, sort, most=MOST_LIST_BYTES):
        self.sort = sort
        self.room = EndOfPage(most)

    def put(self, elements):
        """The list, as a pointer to its first element and a length in elements."""
        start, _ = self.room.put(array.array(self.sort, elements).tobytes())
        return start, len(elements)

    def after(self):
        """The elements as they are now; an error if anything before them was changed."""
        return tuple(array.array(self.sort, self.room.after()))


Part = roskudla.PartLayout
GAP = 0xA5


def part_bytes(part):
    """A part's bytes as C lays them out, with a pattern in the bytes that belong to no field."""
    record = Part.from_buffer_copy(bytes([GAP]) * ctypes.sizeof(Part))
    record.kind, record.comparison, record.table, record.end = part.kind, part.comparison, part.table, part.end
    for value, wanted in ((record.left, part.left), (record.right, part.right)):
        value.tag, value.number = wanted.tag, wanted.number
    return bytes(record)


def part_from(some):
    """The part of some bytes."""
    record = Part.from_buffer_copy(some)
    left, right = (model.TaggedValue(value.tag, value.number) for value in (record.left, record.right))
    return model.Part(record.kind, record.comparison, record.table, record.end, left, right)


class LentParts:
    """Room for a list of parts at the end of a page."""

    def __init__(self):
        self.room = EndOfPage(MOST_LIST_BYTES)

    def put(self, parts):
        """The list, as a pointer to its first part and a length in parts."""
        start, _ = self.room.put(b"".join(part_bytes(part) for part in parts))
        return start, len(parts)

    def after(self):
        """The parts as they are now; an error if anything before them was changed."""
        some, size = self.room.after(), ctypes.sizeof(Part)
        return tuple(part_from(some[place:place + size]) for place in range(0, len(some), size))

    def untouched_from(self, count):
        """An error if any byte past so many parts was changed, those that belong to no field too."""
        place = count * ctypes.sizeof(Part)
        if self.room.after()[place:] != self.room.some[place:]:
            raise OutsideWritten("a call changed the list past its answer")


class Answer:
    """What a call writes its answer to, a byte or a size, at the end of a page."""

    def __init__(self, sort, untouched):
        self.untouched = untouched
        self.room = LentList(sort, 8)

    def put(self):
        """A pointer to it, with content that no answer has."""
        start, _ = self.room.put((self.untouched,))
        return start

    def after(self, call, status):
        """What it is after a call with this status; an error if that is a refusal and something was written."""
        number, = self.room.after()
        if status != 0 and number != self.untouched:
            raise OutsideWritten(f"{call} refused with {status} and wrote its answer")
        return number


class Calls:
    """What the calls of both libraries have in common. A library is anything that has the calls by their C names.

    All but CHECK, IMPORT and EXPORT take a text or a card, and a tables file; then a lent list, and where to write a count; or a row, and where to write an
    answer. IMPORT and EXPORT take comma lines and a number of columns, or a tables file, and then a lent list and where to write a count.
    """

    def __init__(self, library, most_source_bytes=MOST_SOURCE_BYTES):
        self.library = library
        self.sources, self.files = EndOfPage(most_source_bytes), EndOfPage(MOST_FILE_BYTES)
        self.counts, self.answers = Answer(SIZE, 0x5A5A5A5A5A5A5A5A), Answer(BYTE, 0x5A)

    def call_of(self, name, *types):
        """A call of the library with the types of its arguments; each returns a refusal's number, or 0."""
        call = getattr(self.library, name)
        call.argtypes = types
        call.restype = ctypes.c_uint32
        return call

    def lending_call(self, name):
        return self.call_of(name, *SLICE, *SLICE, *SLICE, ctypes.c_void_p)

    def answering_call(self, name):
        return self.call_of(name, *SLICE, *SLICE, ctypes.c_size_t, ctypes.c_void_p)

    def unchanged(self):
        """An error if a call changed its text, card or lines, or its tables file."""
        self.sources.unchanged()
        self.files.unchanged()

    def given(self, source, file):
        """A text or a card, and a tables file, as a call takes them."""
        return *self.sources.put(source), *self.files.put(file)

    def lend(self, call, given, room, elements):
        """The answer of a call that is lent a list behind what it is given: a count or a refusal, and the list afterwards."""
        status = call(*given, *room.put(elements), self.counts.put())
        self.unchanged()
        count = self.counts.after(call.__name__, status)
        return (count if status == 0 else model.Refused(status)), room.after()

    def ask(self, call, source, file, row, meanings):
        """The answer of a call on a row: what the number that it wrote means, or a refusal."""
        status = call(*self.given(source, file), row, self.answers.put())
        self.unchanged()
        number = self.answers.after(call.__name__, status)
        if status != 0:
            return model.Refused(status)
        if number not in meanings:
            raise OutsideWritten(f"{call.__name__} answered {number}")
        return meanings[number]


TRUTHS = {0: model.FALSE, 1: model.UNKNOWN, 2: model.TRUE}  # by the number that JUDGE gives


class Rules(Calls):
    """READ, JUDGE and CARD of the library, answering as the model does."""

    def __init__(self, library):
        super().__init__(library)
        self.parts, self.cards = LentParts(), LentList(BYTE)
        self.read_call, self.card_call = self.lending_call("roskudla_read"), self.lending_call("roskudla_card")
        self.judge_call = self.answering_call("roskudla_judge")

    def read(self, text, file, parts):
        """READ's answer, a count of parts or a refusal, and the lent list afterwards."""
        result, after = self.lend(self.read_call, self.given(text, file), self.parts, parts)
        self.parts.untouched_from(0 if isinstance(result, model.Refused) else result)
        return result, after

    def judge(self, text, file, row):
        return self.ask(self.judge_call, text, file, row, TRUTHS)

    def card(self, text, file, buffer):
        """CARD's answer, a length or a refusal, and the lent buffer afterwards."""
        return self.lend(self.card_call, self.given(text, file), self.cards, buffer)


class Gate(Calls):
    """CHECK, RUN and LIST of the library, answering as the model does."""

    def __init__(self, library):
        super().__init__(library)
        self.rows = LentList(UNSIGNED)
        self.check_call = self.call_of("roskudla_check", *SLICE)
        self.run_call, self.list_call = self.answering_call("roskudla_run"), self.lending_call("roskudla_list")

    def check(self, card):
        status = self.check_call(*self.sources.put(card))
        self.sources.unchanged()
        return model.SOUND if status == 0 else model.Refused(status)

    def run(self, card, file, row):
        return self.ask(self.run_call, card, file, row, {0: False, 1: True})

    def list_rows(self, card, file, buffer):
        """LIST's answer, a count or a refusal, and the lent list afterwards."""
        return self.lend(self.list_call, self.given(card, file), self.rows, buffer)


class Lines(Calls):
    """IMPORT and EXPORT of the library, answering as the model does."""

    def __init__(self, library):
        super().__init__(library, MOST_LINES_BYTES)
        self.lines, self.tables = LentList(BYTE, MOST_LINES_BYTES), LentList(BYTE, MOST_FILE_BYTES)
        self.import_call = self.call_of("roskudla_import", *SLICE, ctypes.c_size_t, *SLICE, ctypes.c_void_p)
        self.export_call = self.call_of("roskudla_export", *SLICE, *SLICE, ctypes.c_void_p)

    def import_lines(self, lines, columns, buffer):
        """IMPORT's answer, a length or a refusal, and the lent buffer afterwards."""
        return self.lend(self.import_call, (*self.sources.put(lines), columns), self.tables, buffer)

    def export_lines(self, file, buffer):
        """EXPORT's answer, a length or a refusal, and the lent buffer afterwards."""
        return self.lend(self.export_call, self.files.put(file), self.lines, buffer)
