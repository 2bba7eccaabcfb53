"""The eight calls of Roskudla: entry rules with blanks and declined answers, turned into cards that answer yes or no.

    import roskudla
    calls = roskudla.Calls("target/shared/libroskudla.so")
    card = calls.card(b"m.2 > 0 OR m.2 IS DECLINED", tables)
    calls.list_rows(card, tables)

A table comes from the till as comma lines, and goes back so; an empty field is a blank cell, and a lone ! a declined one:

    tables = calls.import_lines(b"1,5\\r\\n2,\\r\\n3,!\\r\\n", 2)
    calls.export_lines(tables)

A rule's text, a tables file, a card and comma lines are bytes. The mark byte of a cell in a tables file is MARK_PRESENT, MARK_BLANK or MARK_DECLINED. A refused
call raises Refused, with the refusal's number. `bindings/build` links the shared object from the proved archive. What a call takes of a thread's stack, and
how its time grows, is in include/roskudla.h.
"""
import ctypes
import enum
import operator
import typing

MARK_PRESENT = 0
MARK_BLANK = 1
MARK_DECLINED = 2

MOST_PARTS = 64
MOST_CARD_BYTES = 2891
MOST_ROWS = 1000
MOST_TABLE_BYTES = 40964
MOST_LINES_BYTES = 98304

REASONS = {
    1: "tables: sizes or length wrong",
    2: "tables: a mark above 2",
    3: "text over 4,096 bytes",
    4: "no such token, or a number beyond the range",
    5: "over 32 more ( than ) up to some token",
    6: "the text does not follow the grammar",
    7: "over 64 parts, or over three FROMs around one another",
    8: "a letter that is not bound, a table or a column that is absent",
    9: "the card is not sound",
    10: "the card was made for another number of tables or columns",
    11: "the row is not in table 1",
    12: "what was lent is shorter than the whole answer",
    13: "the card would have over 192 entries",
    14: "comma lines: a bad field, a wrong field count, or columns not 1 to 16",
    15: "comma lines: over 1,000 rows or 8,192 cells",
}


class Refused(Exception):
    """A call was refused; `number` is the first refusal that applies, in the order that the call states."""

    def __init__(self, number):
        super().__init__(number)
        self.number = number

    def __str__(self):
        return f"refused {self.number}: {REASONS.get(self.number, 'no published reason')}"


class Truth(enum.IntEnum):
    """The value of a rule on a row."""
    FALSE = 0
    UNKNOWN = 1
    TRUE = 2


class Value(typing.NamedTuple):
    """A value of a part: the tag is 255 for a constant, else the level of a column; the number is the constant, or the column's."""
    tag: int
    number: int


class Part(typing.NamedTuple):
    """A part of a rule. Its kind is 1 to 17, as include/roskudla.h names them."""
    kind: int
    comparison: int
    table: int
    end: int
    left: Value
    right: Value


class ValueLayout(ctypes.Structure):
    """A value as C lays it out."""
    _fields_ = [("tag", ctypes.c_uint8), ("number", ctypes.c_int32)]


class PartLayout(ctypes.Structure):
    """A part as C lays it out."""
    _fields_ = [("kind", ctypes.c_uint8), ("comparison", ctypes.c_uint8), ("table", ctypes.c_uint8), ("end", ctypes.c_uint8),
                ("left", ValueLayout), ("right", ValueLayout)]


BYTES = (ctypes.c_char_p, ctypes.c_size_t)
LENT = (ctypes.c_void_p, ctypes.c_size_t, ctypes.POINTER(ctypes.c_size_t))
ANSWERED = (ctypes.c_size_t, ctypes.POINTER(ctypes.c_uint8))
LARGEST_SIZE = 2 ** (8 * ctypes.sizeof(ctypes.c_size_t)) - 1
ARGUMENTS = {
    "read": BYTES + BYTES + LENT,
    "judge": BYTES + BYTES + ANSWERED,
    "card": BYTES + BYTES + LENT,
    "check": BYTES,
    "run": BYTES + BYTES + ANSWERED,
    "list": BYTES + BYTES + LENT,
    "import": BYTES + (ctypes.c_size_t,) + LENT,
    "export": BYTES + LENT,
}

GATE_CALLS = ("check", "run", "list")


def declared(library, call):
    """A call of a library by its C name, with the types of its arguments."""
    function = getattr(library, f"roskudla_{call}")
    function.argtypes = ARGUMENTS[call]
    function.restype = ctypes.c_uint32
    return function


def sliced(some):
    """Bytes, or anything that holds bytes, as a pointer and a length."""
    view = memoryview(some)
    if view.itemsize != 1:
        raise TypeError(f"bytes are asked for, not elements of {view.itemsize} bytes")
    some = view.tobytes()
    return some, len(some)


def size_for_c(number, what):
    """A row's number, or a number of columns, for C. One that C's sizes cannot hold is refused by every call, and so is the largest that they hold."""
    if isinstance(number, bool):
        raise TypeError(f"{what} is a whole number, not a bool")
    number = operator.index(number)
    return number if 0 <= number <= LARGEST_SIZE else LARGEST_SIZE


class Calls:
    """The calls of a shared object. One linked from the gate's archive has check, run and list_rows alone; one without these is an error."""

    def __init__(self, path):
        library = ctypes.CDLL(str(path))
        self.functions = {call: declared(library, call) for call in ARGUMENTS if call in GATE_CALLS or hasattr(library, f"roskudla_{call}")}

    def called(self, call, *arguments):
        """Calls a function; raises what it refuses."""
        if call not in self.functions:
            raise NotImplementedError(f"this library has no roskudla_{call}")
        status = self.functions[call](*arguments)
        if status != 0:
            raise Refused(status)

    def lent(self, call, given, element, room):
        """What a call writes to a list with room for so many elements of a type, from the arguments that it is given before it."""
        elements = (element * room)()
        count = ctypes.c_size_t()
        self.called(call, *given, elements, room, ctypes.byref(count))
        return elements[:count.value]

    def answered(self, call, source, tables, row):
        """The number that a call answers on a row."""
        answer = ctypes.c_uint8()
        self.called(call, *sliced(source), *sliced(tables), size_for_c(row, "a row"), ctypes.byref(answer))
        return answer.value

    def read(self, text, tables):
        """READ: the parts of a rule. Refusals, in this order: 1 to 8, 13."""
        parts = self.lent("read", sliced(text) + sliced(tables), PartLayout, MOST_PARTS)
        return [Part(part.kind, part.comparison, part.table, part.end, Value(part.left.tag, part.left.number), Value(part.right.tag, part.right.number))
                for part in parts]

    def judge(self, text, tables, row):
        """JUDGE: the value of a rule on a row of table 1. Refusals, in this order: 1 to 8, 13, 11."""
        return Truth(self.answered("judge", text, tables, row))

    def card(self, text, tables):
        """CARD: the card of a rule. Refusals, in this order: 1 to 8, 13."""
        return bytes(self.lent("card", sliced(text) + sliced(tables), ctypes.c_uint8, MOST_CARD_BYTES))

    def check(self, card):
        """CHECK: nothing where a card is sound. Refusal 9."""
        self.called("check", *sliced(card))

    def run(self, card, tables, row):
        """RUN: whether a card says yes to a row of table 1. Refusals, in this order: 1, 2, 9 to 11."""
        return self.answered("run", card, tables, row) == 1

    def list_rows(self, card, tables):
        """LIST: the rows of table 1 that a card says yes to, rising. Refusals, in this order: 1, 2, 9, 10."""
        return self.lent("list", sliced(card) + sliced(tables), ctypes.c_uint32, MOST_ROWS)

    def import_lines(self, lines: bytes, columns: int) -> bytes:
        """IMPORT: comma lines as a tables file with one table, of so many columns; an empty field is blank, and a lone ! is declined.

        Refusals, in this order: 14, 15.
        """
        given = sliced(lines) + (size_for_c(columns, "a number of columns"),)
        return bytes(self.lent("import", given, ctypes.c_uint8, MOST_TABLE_BYTES))

    def export_lines(self, tables: bytes) -> bytes:
        """EXPORT: table 1 of a tables file as comma lines; a blank cell is an empty field, and a declined one is a lone !. Refusals, in this order: 1, 2."""
        return bytes(self.lent("export", sliced(tables), ctypes.c_uint8, MOST_LINES_BYTES))
