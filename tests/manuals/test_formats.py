"""docs/FORMATS.md against the library as built, and against the model of document 01 with Points 1, 2 and 4 of document 02.

The manual is read as it stands: its tables by their headers, its formulas and bytes in backticks, the clauses of a sound card by their numbers, the worked
examples by their names in bold (Files F, G and H, Cards A, B, D, J and K, Rules C, E and N, Lines L and M), and its code, which is run. The bytes of a worked
example are those of its table, row by row, and each row's meaning has to be what the bytes mean there. Every answer is asked of the model and of the library,
and has to be the same. The order of each call's refusals is compared with the definitions, the header and the wrappers too.

Exit status 0 when all of it agrees, and nothing that the manual should have is missing. Every table of the manual has to have been compared.
"""
import collections
import functools
import itertools
import operator
import pathlib
import random
import re
import sys
import traceback
import typing

ROOT = pathlib.Path(__file__).resolve().parents[2]
sys.path.insert(0, str(ROOT / "tests" / "calls"))

import library  # noqa: E402

import cases  # noqa: E402  (library adds the folders of the model and of the wrapper to the path)
import generate  # noqa: E402
import model  # noqa: E402
import roskudla  # noqa: E402

MANUAL = ROOT / "docs" / "FORMATS.md"
HEADER = ROOT / "include" / "roskudla.h"
RUST_WRAPPER = ROOT / "bindings" / "rust" / "src" / "lib.rs"
PYTHON_WRAPPER = ROOT / "bindings" / "python" / "roskudla.py"
SEED = 20261116
DRAWN_FILES = 60
DRAWN_CARDS = 400
DRAWN_RULES = 400
DRAWN_LINES = 1000
BYTE_VALUES = range(256)
AMPLE_ROOM = 3000
AMPLE_FILE_ROOM = 65000
AMPLE_COMMA_ROOM = 100000
SMALL_ROOM = 100  # ample for the file of a few fields
TABLE_COUNT = 28

SIGNS = {"=": operator.eq, "<>": operator.ne, "<": operator.lt, "<=": operator.le, ">": operator.gt, ">=": operator.ge}
LOWEST, HIGHEST = -2**31, 2**31 - 1
MARK_WORDS = {model.MARK_PRESENT: "present", model.MARK_BLANK: "blank", model.MARK_DECLINED: "declined"}


class Wrong(Exception):
    """The manual says one thing, and the library or the model another; or something is missing in the manual."""


COUNTS = collections.Counter()


def same(what, got, wanted):
    """Two things that ought to be the same."""
    COUNTS["comparisons"] += 1
    if got != wanted:
        raise Wrong(f"{what}\n    got    {got}\n    wanted {wanted}")


def demand(what, holds):
    """Something that ought to hold."""
    same(what, bool(holds), True)


# ---- the manual as it stands

class Table(typing.NamedTuple):
    """A table: its header, its rows, and the paragraph before it."""
    header: tuple
    rows: tuple
    before: str


def row_cells(line):
    return tuple(cell.strip() for cell in line.strip().strip("|").split("|"))


NUMBER = r"\d+(?:,\d{3})*"


def whole_number(text):
    """A number as the manual writes it."""
    return int(text.replace(",", "").replace("−", "-"))


def numbers_in(text):
    """The numbers of a list such as 1, 2, 9."""
    return tuple(int(number) for number in text.split(", ")) if text else ()


def limits_in(text):
    """The lowest and the highest number of a text that has one range, such as 1 to 1,000."""
    ranges = re.findall(r"(\d[\d,]*) to (\d[\d,]*)", text)
    same(f"the ranges in: {text}", len(ranges), 1)
    return tuple(whole_number(number) for number in ranges[0])


def in_backticks(text):
    """What stands in backticks, of which there has to be one."""
    found = re.findall(r"`([^`]*)`", text)
    same(f"what is in backticks in: {text}", len(found), 1)
    return found[0]


def from_hex(text):
    demand(f"bytes: {text}", re.fullmatch(r"[0-9A-F]{2}( [0-9A-F]{2})*", text))
    return bytes.fromhex(text)


def worked_out(formula, **names):
    """The number that a formula gives."""
    written = formula.replace("×", "*").replace("−", "-")
    demand(f"the formula {formula}", re.fullmatch(r"[\w+*() -]+", written))
    return eval(written, {"__builtins__": {}}, names)


class Manual:
    """A manual's sections by number, 0 for what stands before the first. It notes which tables were asked for."""

    def __init__(self, text):
        pieces = re.split(r"^## (\d+)\. .*$", text, flags=re.MULTILINE)
        self.sections = {0: pieces[0]} | {int(number): piece for number, piece in zip(pieces[1::2], pieces[2::2])}
        self.blocks = {number: self.blocks_of(piece) for number, piece in self.sections.items()}
        self.seen = set()

    @staticmethod
    def blocks_of(section):
        """The paragraphs, lists and tables of a section, without its code; a paragraph on one line."""
        blocks = []
        for block in re.split(r"\n\s*\n", re.sub(r"^```.*?^```$", "", section, flags=re.DOTALL | re.MULTILINE)):
            lines = block.strip("\n").split("\n")
            if lines[0].startswith("|"):
                before = blocks[-1] if blocks and isinstance(blocks[-1], str) else ""
                blocks.append(Table(row_cells(lines[0]), tuple(row_cells(line) for line in lines[2:]), before))
            elif block.strip():
                blocks.append(" ".join(line.strip() for line in lines) if not re.match(r"\d+\. ", lines[0]) else block.strip())
        return blocks

    def all_tables(self):
        return [(number, place) for number, blocks in self.blocks.items() for place, block in enumerate(blocks) if isinstance(block, Table)]

    def tables(self, section, *header):
        """The tables of a section with this header."""
        found = []
        for number, place in self.all_tables():
            table = self.blocks[number][place]
            if number == section and table.header == header:
                for row in table.rows:
                    same(f"cells of {row} under {header}", len(row), len(header))
                self.seen.add((number, place))
                found.append(table)
        return found

    def table(self, section, *header):
        """The one table of a section with this header."""
        found = self.tables(section, *header)
        same(f"tables of section {section} with the header {header}", len(found), 1)
        return found[0]

    def said(self, section, pattern):
        """What a pattern finds in the text of a section, where it has to stand once."""
        text = " ".join(block for block in self.blocks[section] if isinstance(block, str))
        found = re.findall(pattern, text)
        same(f"section {section} says once: {pattern}", len(found), 1)
        return found[0]

    def numbers_said(self, section, pattern):
        found = self.said(section, pattern)
        return [whole_number(number) for number in (found if isinstance(found, tuple) else (found,))]

    def code(self, section):
        """The code of a section, of which there has to be one block."""
        found = re.findall(r"^```python\n(.*?)^```$", self.sections[section], flags=re.DOTALL | re.MULTILINE)
        same(f"blocks of code in section {section}", len(found), 1)
        return found[0]

    def clauses(self, section):
        """The numbered list of a section, a text by number."""
        lists = [block for block in self.blocks[section] if isinstance(block, str) and re.match(r"1\. ", block)]
        same(f"numbered lists in section {section}", len(lists), 1)
        items = re.findall(r"^(\d+)\. (.*(?:\n[ ]{2,}.*)*)", lists[0], flags=re.MULTILINE)
        same("the numbers of the clauses", [int(number) for number, _ in items], list(range(1, len(items) + 1)))
        return {int(number): " ".join(text.split()) for number, text in items}


# ---- the calls, of the model and of the library

class Model:
    """The model's calls: bytes, tuples or refusals."""
    read = staticmethod(lambda text, file, room: answered(tuple, model.read(text, file, room)))
    judge = staticmethod(model.judge)
    card = staticmethod(model.card)
    check = staticmethod(model.check)
    run = staticmethod(model.run)
    rows = staticmethod(lambda sheet, file, room: answered(tuple, model.list_rows(sheet, file, room)))
    import_lines = staticmethod(model.import_lines)
    export_lines = staticmethod(model.export_lines)


def answered(make, answer):
    """An answer in another form; a refusal stays."""
    return answer if isinstance(answer, model.Refused) else make(answer)


class Built:
    """The library's calls; CHECK, RUN and LIST of the whole archive and of the gate's, which have to agree."""

    def __init__(self):
        whole = library.load("roskudla")
        self.rules = library.Rules(whole)
        self.gates = (library.Gate(whole), library.Gate(library.load("roskudla_gate")))
        self.judge = self.rules.judge
        self.lines = library.Lines(whole)

    @staticmethod
    def lent(call, room, ask):
        """What a call writes to a lent list; what it leaves has to be as it was."""
        before = cases.lent(call, room)
        result, after = ask(before)
        count = 0 if isinstance(result, model.Refused) else result
        same(f"what {call} leaves of its list", after[count:], before[count:])
        return result if isinstance(result, model.Refused) else after[:count]

    def read(self, text, file, room):
        return self.lent("READ", room, functools.partial(self.rules.read, text, file))

    def record_bytes(self, text, file, room):
        """READ's records as they lie in memory."""
        count, _ = self.rules.read(text, file, cases.lent("READ", room))
        whole = self.rules.parts.room.after()
        return whole[:count * (len(whole) // room)]

    def card(self, text, file, room):
        return answered(bytes, self.lent("CARD", room, functools.partial(self.rules.card, text, file)))

    def import_lines(self, lines, columns, room):
        return answered(bytes, self.lent("IMPORT", room, functools.partial(self.lines.import_lines, lines, columns)))

    def export_lines(self, file, room):
        return answered(bytes, self.lent("EXPORT", room, functools.partial(self.lines.export_lines, file)))

    def both(self, ask):
        first, second = (ask(gate) for gate in self.gates)
        same("the two archives", first, second)
        return first

    def check(self, sheet):
        return self.both(lambda gate: gate.check(sheet))

    def run(self, sheet, file, row):
        return self.both(lambda gate: gate.run(sheet, file, row))

    def rows(self, sheet, file, room):
        return self.both(lambda gate: self.lent("LIST", room, functools.partial(gate.list_rows, sheet, file)))


class Asked:
    """A call's answer, which model and library have to agree on."""

    def __init__(self, built):
        self.built = built

    def __getattr__(self, call):
        def ask(*arguments):
            wanted, got = getattr(Model, call)(*arguments), getattr(self.built, call)(*arguments)
            COUNTS["answers"] += 1
            if got != wanted:
                raise Wrong(f"{call} {arguments}\n    library {got}\n    model   {wanted}")
            return got
        return ask


def tables_refusal(ask, file):
    """The refusal of a tables file, as READ and RUN see it; None where it is accepted."""
    reading, running = ask.read(b"1 = 1", file, 1), ask.run(b"", file, 0)
    refused = reading.number if isinstance(reading, model.Refused) else None
    same(f"RUN of no card with the tables {file[:40].hex(' ')}", running.number, refused or 9)
    return refused


# ---- worked examples

class Worked(typing.NamedTuple):
    """A worked example: its name, the paragraph about it, its bytes, and the rows of its table."""
    name: str
    about: str
    whole: bytes
    rows: tuple


def worked_examples(manual, section):
    """The worked examples of a section whose bytes are written out."""
    found = []
    for table in manual.tables(section, "Offset", "Bytes", "Meaning"):
        name = re.match(r"\*\*((?:File|Card|Lines) [A-Z])\.\*\* ", table.before)
        demand(f"the name of the example before the table that starts with {table.rows[0]}", name)
        whole, rows = b"", []
        for offset, written, meaning in table.rows:
            same(f"{name[1]}, the offset of: {meaning}", int(offset), len(whole))
            some = from_hex(written) if written else b""
            whole += some
            rows.append((some, meaning))
        found.append(Worked(name[1], table.before, whole, tuple(rows)))
    return found


def with_minus(number):
    """A number with the minus that the manual writes."""
    return str(number).replace("-", "−")


def cell_of(written):
    """A cell as the manual writes it."""
    words = {"blank": model.BLANK_CELL, "declined": model.DECLINED_CELL}
    return words[written] if written in words else whole_number(written)


def word_of(cell):
    """What the manual says of a cell: present, blank or declined."""
    return MARK_WORDS[model.mark_of(cell)]


def file_meanings(file, under_blank="anything"):
    """The fields of a tables file with their meanings, as the manual writes them, and with what it says of the value of a blank or declined cell."""
    tables = model.tables_of(file)
    yield 1, f"T: {len(tables.columns)}"
    for number, columns in enumerate(tables.columns, 1):
        yield 1, f"columns of table {number}: {columns}"
        yield 2, f"rows of table {number}: {len(tables.rows_of(number))}"
    rows = [(table, number, row) for table in range(1, len(tables.columns) + 1) for number, row in enumerate(tables.rows_of(table))]
    cell = itertools.count()
    for table, number, row in rows:
        for column, value in enumerate(row, 1):
            said = under_blank.format(word_of(value)) if model.counts_as_blank(value) else with_minus(value)
            yield 4, f"value of cell {next(cell)}, table {table}, row {number}, column {column}: {said}"
    for table, number, row in rows:
        yield len(row), f"marks of table {table}, row {number}: {', '.join(map(word_of, row))}"


def value_meaning(value):
    return f"constant {value.number}" if value.tag == model.CONSTANT_TAG else f"level {value.tag}, column {value.number}"


def card_meanings(sheet, kinds, comparisons, record):
    """The fields of a card with their meanings, as the manual writes them; fields without use that stand side by side are one."""
    columns, entries = model.sound_card(sheet)
    yield 2, f"n: {len(entries)}"
    yield 1, f"T: {len(columns)}"
    for number, count in enumerate(columns, 1):
        yield 1, f"columns of table {number}: {count}"
    for number, entry in enumerate(entries):
        yield 1, f"kind of entry {number}: {entry.kind}, {kinds[entry.kind].name}"
    for number, entry in enumerate(entries):
        sign = comparisons[entry.comparison].sign if entry.comparison else ""
        meanings = {"end": entry.end, "table": entry.table, "comparison": f"{entry.comparison}, `{sign}`",
                    "left value": value_meaning(entry.left), "right value": value_meaning(entry.right)}
        for used, fields in itertools.groupby(record, key=lambda field: entry.kind in field.kinds):
            fields = list(fields)
            if used:
                yield from ((field.length, f"{field.name} of entry {number}: {meanings[field.name]}") for field in fields)
            else:
                yield sum(field.length for field in fields), f"{', '.join(field.name for field in fields)} of entry {number}: unused"


def check_meanings(example, wanted):
    """Each row of an example has the length and the meaning of its field."""
    same(f"{example.name}, rows", [(len(some), meaning) for some, meaning in example.rows], list(wanted))
    COUNTS["worked rows"] += len(example.rows)
    COUNTS["worked bytes"] += len(example.whole)


# ---- section 1

def file_places(manual):
    """The table of the layout of a tables file: the offset of each field, its length, and what else is said."""
    table = manual.table(1, "Offset", "Length", "Field")
    names = ("T", "the columns of table t", "the rows of table t", "the value of cell k", "the mark of cell k")
    same("fields of a tables file", len(table.rows), len(names))
    places = {}
    for name, (offset, length, field) in zip(names, table.rows):
        demand(f"{field} is {name}", field.startswith(name))
        places[name] = (in_backticks(offset), int(length), field)
    return places


def field_at(whole, place, signed=False, **names):
    """The number at a place of a layout."""
    formula, length, _ = place
    offset = worked_out(formula, **names)
    demand(f"{formula} at {names} is inside", 0 <= offset and offset + length <= len(whole))
    COUNTS["fields found by formulas"] += 1
    return int.from_bytes(whole[offset:offset + length], "little", signed=signed)


def tables_by(places, cell_number, length, file):
    """The tables of a file by the manual's formulas."""
    count = field_at(file, places["T"])
    sizes = [(field_at(file, places["the columns of table t"], t=t), field_at(file, places["the rows of table t"], t=t)) for t in range(1, count + 1)]
    cells = sum(columns * rows for columns, rows in sizes)
    same("the length of a tables file", len(file), worked_out(length, T=count, C=cells))
    tables, before = [], 0
    for columns, rows in sizes:
        table = []
        for row, column in itertools.product(range(rows), range(1, columns + 1)):
            k = worked_out(cell_number, B=before, r=row, columns=columns, c=column)
            mark = field_at(file, places["the mark of cell k"], T=count, C=cells, k=k)
            table.append(model.cell_with(mark, field_at(file, places["the value of cell k"], signed=True, T=count, k=k)))
        tables.append([table[start:start + columns] for start in range(0, len(table), columns)])
        before += columns * rows
    return model.Tables([columns for columns, _ in sizes], tables)


def sized_file(sizes):
    """A file of tables with these columns and rows, whose cells are all present, within the limits or not."""
    cells = sum(columns * rows for columns, rows in sizes)
    return bytes([len(sizes)]) + b"".join(bytes([columns]) + rows.to_bytes(2, "little") for columns, rows in sizes) + bytes(5 * cells)


def with_cells(cells):
    """Sizes with so many cells in all: two tables of few columns, and one column more for what is missing."""
    rows = cells // 8 if cells < 8 * 1000 else 1000
    rest = cells - 8 * rows
    return [(8, rows), (8, rest // 8), (1, rest % 8)]


def check_file_limits(manual, ask, places):
    """Both sides of every limit; the longest file is as long as the manual says."""
    tables, columns, rows = (limits_in(places[name][2]) for name in ("T", "the columns of table t", "the rows of table t"))
    cells = tuple(manual.numbers_said(1, r"the sum of rows × columns over the tables: (\d+) to (\d[\d,]*)\."))
    tried = [(tables, lambda count: [(1, 1)] * count), (columns, lambda count: [(2, 0), (count, 1)]), (columns, lambda count: [(count, 0)]),
             (rows, lambda count: [(1, count)]), (rows, lambda count: [(1, 1), (2, count)]), (cells, with_cells)]
    for (low, high), sizes in tried:
        for number in {low - 1, low, high, high + 1} - {-1}:
            refused = None if low <= number <= high else 1
            same(f"a tables file with the sizes {sizes(number)}", tables_refusal(ask, sized_file(sizes(number))), refused)
            COUNTS["limits of files tried"] += 1
    longest = worked_out(manual.said(1, r"The file has exactly `([^`]*)` bytes"), T=tables[1], C=cells[1])
    same("the longest tables file", manual.numbers_said(1, r"which is at most ([\d,]+)\."), [longest])
    full = sized_file(with_cells(cells[1]) + [(1, 0)] * (tables[1] - 3))
    same("the length of a full file", (len(full), tables_refusal(ask, full)), (longest, None))


def check_marks(manual, ask, places):
    """The three marks, and the refusal of any other: a cell is blank by the words for it, where declined is blank too, and declined by its own."""
    tests = [model.card(f"m.1 IS {word}".encode(), sized_file([(1, 0)]), AMPLE_ROOM) for word in ("NULL", "DECLINED")]
    marks = dict(re.findall(r"(\d+) (present|blank|declined)", places["the mark of cell k"][2]))
    same("the marks", sorted(marks.values()), ["blank", "declined", "present"])
    words = {"present": (False, False), "blank": (True, False), "declined": (True, True)}
    above, = manual.numbers_said(1, r"Refusal 2: a mark is above (\d+)\.")
    for mark in range(256):
        file = sized_file([(1, 1)])[:-1] + bytes([mark])
        refused = 2 if mark > above else None
        same(f"a mark of {mark}", tables_refusal(ask, file), refused)
        if refused is None:
            answers = tuple(ask.run(sheet, file, 0) for sheet in tests)
            same(f"whether a cell with the mark {mark} is blank, and declined", answers, words[marks[str(mark)]])


def check_tables_file(manual, ask, draws, known):
    places = file_places(manual)
    cell_number = manual.said(1, r"is number `([^`]*)`, where B")
    length = manual.said(1, r"The file has exactly `([^`]*)` bytes")
    check_file_limits(manual, ask, places)
    check_marks(manual, ask, places)
    drawn = [generate.random_tables(draws) for _ in range(DRAWN_FILES)]
    for file in drawn:
        same(f"the tables of {file.hex(' ')}", tables_by(places, cell_number, length, file), model.tables_of(file))

    examples = worked_examples(manual, 1)
    same("the worked tables files", [example.name for example in examples], ["File F", "File H"])
    for example in examples:
        file = known[example.name[-1]] = example.whole
        check_meanings(example, file_meanings(file))
        tables = model.tables_of(file)
        same(f"{example.name} by the formulas", tables_by(places, cell_number, length, file), tables)
        check_rows_said(example)
        terms, total, whole = re.search(r"C is (.*) = (\d+), and the length .*? = (\d+)\.", example.about).groups()
        cells = sum(len(row) for rows in tables.rows for row in rows)
        same(f"the cells and the length of {example.name}", (int(total), int(whole)), (cells, len(file)))
        same("the terms of C", terms, " + ".join(f"{len(rows)} × {columns}" for columns, rows in zip(tables.columns, tables.rows)))
    check_free_bytes(ask, known["F"], CASES, [model.BLANK_CELL])
    check_free_bytes(ask, known["H"], DECLINED_CASES, [model.BLANK_CELL, model.DECLINED_CELL])
    check_declined_file(manual, known["H"])

    examples = manual.table(1, "File", "Refusal", "Why").rows
    refused_by = functools.partial(tables_refusal, ask)
    for written, refusal, why in examples:
        file = from_hex(in_backticks(written))
        same(f"{written}, {why}", refused_by(file), None if refusal == "none" else int(refusal))
        demand(f"{written}: {why}", WHY[why](file, refused_by))
    demand("document 02's example of 2", ("`01 01 01 00 00 00 00 00 03`", "2", "the mark is 3") in examples)
    short, = manual.numbers_said(1, r"an empty file, or one that ends within its sizes, gets refusal (\d+)\.")
    for name, length in itertools.product("FH", range(10)):
        whole = known[name]
        same(f"the first bytes of {name}", refused_by(whole[:min(length, 3 * whole[0])]), short)
    same("what the examples of tables files show", sorted(why for _, _, why in examples), sorted(WHY))
    same("the refusals of the examples", {refusal for _, refusal, _ in examples}, {"1", "2", "none"})
    COUNTS["example files"] = len(examples)

    low, high, number = manual.numbers_said(0, r"in two's complement, (−[\d,]+) to ([\d,]+); (−\d+) is `")
    same("signed numbers", (low, high), (LOWEST, HIGHEST))
    raw = from_hex(manual.said(0, r"; −\d+ is `([^`]*)`"))
    equals = model.card(f"m.1 = {number}".encode(), sized_file([(1, 0)]), AMPLE_ROOM)
    same(f"{number} in a file", ask.run(equals, sized_file([(1, 1)])[:4] + raw + b"\0", 0), True)


# what an example of a tables file shows: a test of its bytes, and of the refusal that other bytes get
WHY = {
    "T is 0": lambda file, refused_by: file == b"\0",
    "a byte is missing: the length has to be 4": lambda file, refused_by: len(file) == 3 and refused_by(file + b"\0") is None,
    "a byte is left over": lambda file, refused_by: refused_by(file[:-1]) is None,
    "table 1 has 0 columns": lambda file, refused_by: file[1] == 0 and refused_by(changed_at(file, 1, 1)) is None,
    "the mark is 3": lambda file, refused_by: file[-1] == 3 and refused_by(file[:-1] + b"\2") is None,
    "1 and 2 apply, and 1 comes first": lambda file, refused_by: refused_by(file[:-1]) == 2,
    "one declined cell": lambda file, refused_by: model.tables_of(file) == model.Tables([1], [[[model.DECLINED_CELL]]]),
    "one blank cell": lambda file, refused_by: model.tables_of(file) == model.Tables([1], [[[None]]]),
    "one column and no rows": lambda file, refused_by: model.tables_of(file) == model.Tables([1], [[]]),
}


def check_rows_said(example):
    """The rows that the paragraph says are those of the bytes."""
    sentence = re.search(r"\*\* (.*?)\. C is", example.about)[1]
    said = []
    for place, one in enumerate(sentence.split("; "), 1):
        demand(f"table {place} in: {one}", re.match(rf"[Tt]able {place} ", one))
        rows = [[cell_of(cell) for cell in row.split(", ")] for row in re.findall(r"\(([^)]*)\)", one)]
        demand(f"rows of table {place}", rows or "no rows" in one)
        said.append(rows)
    same(f"the rows of {example.name}", said, model.tables_of(example.whole).rows)


def check_declined_file(manual, file):
    """What is said of file H: which of its cells are not present, of which the marks alone tell those that are declined; and where the two are told apart."""
    cells = [cell for row in model.tables_of(file).rows[0] for cell in row]
    said = manual.numbers_said(1, r"The cells (\d+), (\d+) and (\d+) are not present, and only the marks tell which of them are declined\.")
    same("the cells of H that are not present", said, [number for number, cell in enumerate(cells) if model.counts_as_blank(cell)])
    values = {word: {file[4 + 4 * number:8 + 4 * number] for number, cell in enumerate(cells) if word_of(cell) == word} for word in MARK_WORDS.values()}
    demand("a blank and a declined cell of H with the same value bytes", values["blank"] & values["declined"])
    kinds = manual.numbers_said(
        1, r"Only the kinds (\d+) and (\d+) of a card \(section 4\), the kinds (\d+) and (\d+) of parts \(section 6\) and comma lines \(section 8\) "
           r"tell the two apart\.")
    same("the kinds that tell a declined cell from a plain blank", kinds, [model.DECLINED, model.NOT_DECLINED, model.KIND_DECLINED, model.KIND_NOT_DECLINED])


def check_free_bytes(ask, file, texts, wanted):
    """The value bytes of blank and declined cells affect no answer: those of each text on every row stay when they change."""
    tables = model.tables_of(file)
    cells = [cell for rows in tables.rows for row in rows for cell in row]
    demand(f"the file has cells of {wanted}", all(cell in cells for cell in wanted))
    start = 1 + 3 * len(tables.columns)
    for fill in (b"\0\0\0\0", b"\1\0\0\0", b"\xff\xff\xff\xff", b"\0\0\0\x80"):
        changed = bytearray(file)
        for number, cell in enumerate(cells):
            if model.counts_as_blank(cell):
                changed[start + 4 * number:start + 4 * number + 4] = fill
        same("EXPORT with other bytes under blanks", ask.export_lines(bytes(changed), AMPLE_COMMA_ROOM), ask.export_lines(file, AMPLE_COMMA_ROOM))
        for text in texts:
            sheet = ask.card(text, file, AMPLE_ROOM)
            same(f"{text} with other bytes under blanks", ask.rows(sheet, bytes(changed), 3), ask.rows(sheet, file, 3))
            for row in range(3):
                same(f"{text} with other bytes under blanks", ask.judge(text, bytes(changed), row), ask.judge(text, file, row))


# the rules of document 01's proved cases
CASES = tuple(text.replace("ALL2", "(SELECT v.1 FROM 2 v WHERE 1 = 1)").replace("ALL3", "(SELECT v.1 FROM 3 v WHERE 1 = 1)").encode() for text in (
    "m.2 > 0", "NOT m.2 > 0", "m.2 > 0 OR NOT m.2 > 0", "m.2 IS NULL", "m.1 IN ALL2", "m.1 NOT IN ALL2",
    "m.1 <> ALL (SELECT v.1 FROM 2 v WHERE v.1 = 1)", "m.2 = ALL ALL3", "m.2 = SOME ALL3", "EXISTS (FROM 2 v WHERE v.1 > 1)",
    "NOT EXISTS (FROM 2 v WHERE v.1 > 1)", "m.1 = SOME (SELECT m.1 FROM 2 m WHERE m.1 = 1)"))

# rules for file H
DECLINED_CASES = (
    b"m.2 > 0", b"NOT m.3 = 0", b"m.2 IS NULL", b"m.3 IS NOT NULL", b"m.2 IS DECLINED", b"NOT m.3 IS DECLINED", b"m.2 IS NOT DECLINED AND m.3 IS NOT DECLINED",
    b"m.2 = 0 OR m.2 IS DECLINED", b"(m.3 = 7) IS UNKNOWN", b"m.1 IN (SELECT v.2 FROM 1 v WHERE v.3 IS NOT DECLINED)",
    b"m.2 <> ALL (SELECT v.3 FROM 1 v WHERE v.2 IS DECLINED)", b"EXISTS (FROM 1 v WHERE v.3 IS DECLINED AND v.2 = m.2)")


# ---- section 2

class Kind(typing.NamedTuple):
    """A kind of entry: what it is called, how many inner entries it has, and what negating makes of it."""
    name: str
    inner: int
    negated: int


class Comparison(typing.NamedTuple):
    sign: str
    negated: int


class Field(typing.NamedTuple):
    """A field of a card's record: where it stands, and which kinds use it."""
    name: str
    offset: int
    length: int
    kinds: tuple


def kinds_of(manual):
    table = manual.table(2, "Kind", "Name", "Inner entries", "Negated")
    same("the numbers of the kinds", [int(row[0]) for row in table.rows], list(range(1, 11)))
    return {int(number): Kind(name, int(inner), int(negated)) for number, name, inner, negated in table.rows}


def comparisons_of(manual):
    found = [table for table in (manual.tables(2, "Comparison", *map(str, range(1, count))) for count in range(2, 12)) if table]
    same("tables of comparisons", len(found), 1)
    table, = found[0]
    rows = dict((row[0], row[1:]) for row in table.rows)
    same("what is said of comparisons", sorted(rows), ["Negated", "Sign"])
    signs, negated = [in_backticks(sign) for sign in rows["Sign"]], [int(number) for number in rows["Negated"]]
    same("the signs", sorted(signs), sorted(SIGNS))
    return {number: Comparison(sign, other) for number, (sign, other) in enumerate(zip(signs, negated), 1)}


def record_of(manual):
    table = manual.table(2, "Offset in the record", "Length", "Field", "Kinds that use it")
    record = [Field(name, worked_out(in_backticks(offset)), int(length), numbers_in(kinds)) for offset, length, name, kinds in table.rows]
    same("the fields of a record", [field.name for field in record], ["end", "table", "comparison", "left value", "right value"])
    same("the fields stand side by side", [field.offset for field in record], [sum(field.length for field in record[:place]) for place in range(len(record))])
    return record


def card_places(manual):
    """The table of the layout of a card: the offset of each field, its length, and what else is said."""
    table = manual.table(2, "Offset", "Length", "Field")
    names = ("n", "T", "the columns of table t", "the kind of entry i", "the record of entry i")
    same("fields of a card", len(table.rows), len(names))
    for name, row in zip(names, table.rows):
        demand(f"{row[2]} is {name}", row[2].startswith(name))
    return {name: (in_backticks(offset), int(length), field) for name, (offset, length, field) in zip(names, table.rows)}


def entries_by(places, record, sheet):
    """The columns and the entries of a sound card by the manual's formulas."""
    n, count = field_at(sheet, places["n"]), field_at(sheet, places["T"])
    columns = [field_at(sheet, places["the columns of table t"], t=t) for t in range(1, count + 1)]
    entries = []
    for i in range(n):
        kind = field_at(sheet, places["the kind of entry i"], T=count, i=i)
        start = worked_out(places["the record of entry i"][0], T=count, n=n, i=i)
        raw = {field.name: sheet[start + field.offset:start + field.offset + field.length] for field in record}
        values = [model.TaggedValue(raw[side][0], int.from_bytes(raw[side][1:], "little", signed=True)) for side in ("left value", "right value")]
        entries.append(model.Part(kind, raw["comparison"][0], raw["table"][0], int.from_bytes(raw["end"], "little"), *values))
    return columns, entries


YES = model.comparison_entry(5, 1, model.TaggedValue(255, 1), model.TaggedValue(255, 1))
NO = model.comparison_entry(5, 1, model.TaggedValue(255, 1), model.TaggedValue(255, 2))


def some_entry(kind, kinds, record, inner=None):
    """An entry of a kind, with the fields that the manual gives it, and as many inner entries as it says."""
    used = {field.name for field in record if kind in field.kinds}
    value = {"left value": model.TaggedValue(0, 1), "right value": model.TaggedValue(255, -7)}
    left, right = (value[side] if side in used else model.UNUSED for side in ("left value", "right value"))
    inner = (YES,) * kinds[kind].inner if inner is None else inner
    return model.Entry(kind, 2 if "table" in used else 0, 1 if "comparison" in used else 0, left, right, inner)


def changed_at(whole, place, byte):
    return whole[:place] + bytes([byte]) + whole[place + 1:]


def check_uses(ask, kinds, record):
    """Each kind uses the fields that the manual says, and no others; and has as many inner entries as it says."""
    columns = [2, 1, 1]
    refused = model.Refused(9)
    for kind in kinds:
        entry = some_entry(kind, kinds, record)
        sheet = model.card_bytes(entry, columns)
        same(f"an entry of kind {kind}", ask.check(sheet), model.SOUND)
        start = 3 + len(columns) + sheet[0]
        for field in record:
            for place, byte in itertools.product(range(start + field.offset, start + field.offset + field.length), (1, 2, 255)):
                if kind not in field.kinds:
                    same(f"byte {place} of an entry of kind {kind}, which has no use for its {field.name}", ask.check(changed_at(sheet, place, byte)), refused)
                    COUNTS["unused bytes tried"] += 1
        for inner in (kinds[kind].inner - 1, kinds[kind].inner + 1):
            if inner >= 0:
                other = model.card_bytes(some_entry(kind, kinds, record, (YES,) * inner), columns)
                same(f"an entry of kind {kind} with {inner} inner entries", ask.check(other), refused)
    for field in record:
        demand(f"{field.name} is used by some kind", field.kinds)
    same("the kinds that use the end", record[0].kinds, tuple(kinds))


def check_card_layout(manual, ask, draws, known):
    places, record = card_places(manual), record_of(manual)
    kinds, comparisons = kinds_of(manual), comparisons_of(manual)
    known.update(kinds=kinds, comparisons=comparisons, record=record)
    same("the length of a record", places["the record of entry i"][1], sum(field.length for field in record))
    kinds_at, records_at = manual.said(2, r"all kinds start at offset (.*?), and all records at (.*?)\.")
    length = manual.said(2, r"The card has exactly `([^`]*)` bytes")
    drawn = [generate.random_card(draws, model.tables_of(generate.random_tables(draws)).columns) for _ in range(DRAWN_CARDS)]
    for sheet in drawn:
        same("a drawn card", ask.check(sheet), model.SOUND)
        columns, entries = model.sound_card(sheet)
        same(f"the entries of {sheet.hex(' ')}", entries_by(places, record, sheet), (columns, entries))
        names = {"T": len(columns), "n": len(entries)}
        same("the length of a card", len(sheet), worked_out(length, **names))
        same("where kinds start", worked_out(kinds_at, **names), worked_out(places["the kind of entry i"][0], i=0, **names))
        same("where records start", worked_out(records_at, **names), worked_out(places["the record of entry i"][0], i=0, **names))
        for number, entry in enumerate(entries):
            check_end(number, entries, kinds)
    known["drawn cards"] = drawn
    most = worked_out(length, T=limits_in(places["T"][2])[1], n=limits_in(places["n"][2])[1])
    same("the longest card", manual.numbers_said(2, r"which is at most ([\d,]+)\."), [most])
    known["card limits"] = {name: limits_in(places[name][2]) for name in ("n", "T", "the columns of table t", "the kind of entry i")}
    check_uses(ask, kinds, record)


def check_end(number, entries, kinds):
    """The end of an entry by the last paragraph of section 2."""
    entry, first = entries[number], number + 1
    inner = kinds[entry.kind].inner
    wanted = first if inner == 0 else entries[first].end if inner == 1 else entries[entries[first].end].end
    same(f"the end of entry {number}", entry.end, wanted)
    if number == 0:
        same("the end of entry 0", entry.end, len(entries))


# ---- section 3

CLAUSE_PATTERNS = {
    1: r"n is (\d+) to (\d+)\.",
    2: r"T is (\d+) to (\d+)\.",
    3: r"The columns of every table are (\d+) to (\d+)\.",
    4: r"The length is exactly `([^`]*)` bytes: none is missing and none is left over\.",
    5: r"Every kind is (\d+) to (\d+)\.",
    6: r"The inner entries are there: every entry of kind 1 or 2 has (\d+) inner entries, every entry of kind 3 or 4 has (\d+), "
       r"and every other has none, all of them among the n entries\.",
    7: r"Entry 0 covers all: every other entry is inside entry 0\.",
    8: r"The ends fit: the end of every entry is the number of the first entry after it and all entries inside it\.",
    9: r"The tables exist: the table of every entry of kind 3 or 4 is (\d+) to T\.",
    10: r"At most (\d+) row entries stand around one another: a row entry has at most (\d+) around it\.",
    11: r"The comparison of every entry of kind 5 or 6 is (\d+) to (\d+)\.",
    12: r"The levels exist: the tag of every used value is (\d+), or is at most the number of row entries around its entry\.",
    13: r"The columns exist: where the tag of a used value is a level, its number is (\d+) to the columns of the table of that level\. "
        r"Level 0 has table (\d+), and the level that a row entry brings has the row entry's table\.",
    14: r"All bytes of unused fields are 0\.",
}


class Clauses:
    """The clauses of a sound card, with the numbers that the manual says: which of them some bytes break.

    Where a clause is broken on which the places of what follows depend, what follows is not looked at.
    """

    def __init__(self, clauses, record):
        same("how many clauses there are", sorted(clauses), sorted(CLAUSE_PATTERNS))
        found = {number: re.fullmatch(pattern, clauses[number]) for number, pattern in CLAUSE_PATTERNS.items()}
        for number, match in found.items():
            demand(f"clause {number} as it is tested: {clauses[number]}", match)
        self.said = {number: match.groups() for number, match in found.items()}
        self.record = {field.name: field for field in record}

    def numbers(self, clause):
        return tuple(int(number) for number in self.said[clause])

    def within(self, clause, number):
        low, high = self.numbers(clause)
        return low <= number <= high

    def broken(self, sheet):
        padded = sheet + bytes(3 + 255)
        n, tables = int.from_bytes(padded[0:2], "little"), padded[2]
        columns = list(padded[3:3 + tables])
        broken = {clause for clause, number in ((1, n), (2, tables)) if not self.within(clause, number)}
        broken |= {3} if not all(self.within(3, count) for count in columns) else set()
        broken |= {4} if len(sheet) != worked_out(self.said[4][0], T=tables, n=n) else set()
        if broken & {1, 2, 4}:
            return broken
        kinds = list(sheet[3 + tables:3 + tables + n])
        if not all(self.within(5, kind) for kind in kinds):
            return broken | {5}
        records = [sheet[3 + tables + n + 14 * i:][:14] for i in range(n)]
        after = self.walk(kinds, records, columns, 0, [int(self.said[13][1])], broken)
        if after is None:
            return broken | {6}
        return broken | ({7} if after != n else set())

    def inner(self, kind):
        """How many inner entries a kind has."""
        pair, row = self.numbers(6)
        return pair if kind in (1, 2) else row if kind in (3, 4) else 0

    def walk(self, kinds, records, columns, i, levels, broken):
        """Notes what entry i and those inside it break, and gives the number of the entry after them; None where an inner entry is missing."""
        if i >= len(kinds):
            return None
        kind, raw = kinds[i], {name: records[i][field.offset:field.offset + field.length] for name, field in self.record.items()}
        used = {name for name, field in self.record.items() if kind in field.kinds}
        table = raw["table"][0]
        inside = levels
        if kind in (3, 4):
            broken |= {9} if not int(self.said[9][0]) <= table <= len(columns) else set()
            most, around = self.numbers(10)
            same("row entries around one another", most, around + 1)
            broken |= {10} if len(levels) - 1 > around else set()
            inside = levels + [table]
        if kind in (5, 6):
            broken |= {11} if not self.within(11, raw["comparison"][0]) else set()
        for side in used & {"left value", "right value"}:
            broken |= self.value_breaks(raw[side][0], int.from_bytes(raw[side][1:], "little"), columns, levels)
        broken |= {14} if any(any(raw[name]) for name in raw if name not in used) else set()
        after = i + 1
        for _ in range(self.inner(kind)):
            after = self.walk(kinds, records, columns, after, inside, broken)
            if after is None:
                return None
        broken |= {8} if int.from_bytes(raw["end"], "little") != after else set()
        return after

    def value_breaks(self, tag, number, columns, levels):
        if tag == int(self.said[12][0]):
            return set()
        if tag > len(levels) - 1:
            return {12}
        table = levels[tag]
        if not 1 <= table <= len(columns):
            return set()
        return set() if int(self.said[13][0]) <= number <= columns[table - 1] else {13}


def chain(entries):
    """A card of so many entries, an odd number: tests joined by or."""
    entry = YES
    for _ in range(entries // 2):
        entry = model.pair_entry(2, YES, entry)
    return entry


def chain_of(entries):
    """A card of so many entries, with a row entry around them if the number is even."""
    return chain(entries) if entries % 2 else model.row_entry(3, 1, chain(entries - 1))


def nested(count, entry, tables=(1,)):
    """Row entries around one another and around an entry."""
    for number in range(count):
        entry = model.row_entry(3 + number % 2, tables[number % len(tables)], entry)
    return entry


def blank_test(level, column):
    return model.blank_entry(7, model.TaggedValue(level, column))


def declined_test(level, column):
    return model.declined_entry(9 + level % 2, model.TaggedValue(level, column))


def leftover(a):
    """Card A with its entry twice, of which entry 0 covers the first."""
    return b"\2\0" + a[2:5] + a[4:5] + a[5:19] + b"\2\0" + a[7:19]


def with_compound(sheet, number, kind, table=0):
    """A card with an entry that becomes one of kinds 1 to 4, or of no kind, without what such an entry has no use for; its end stays."""
    record = 3 + sheet[2] + sheet[0] + 14 * number
    return changed_at(sheet[:record + 2] + bytes([table]) + bytes(11) + sheet[record + 14:], 3 + sheet[2] + number, kind)


def broken_cards(clauses, a, b, j):
    """For each clause, cards that break it and no other, just past its limits; from the worked cards A, B and J."""
    low_n, high_n = clauses.numbers(1)
    low_t, high_t = clauses.numbers(2)
    low_c, high_c = clauses.numbers(3)
    low_k, high_k = clauses.numbers(5)
    most_rows, _ = clauses.numbers(10)
    low_op, high_op = clauses.numbers(11)
    return {
        1: [(low_n - 1).to_bytes(2, "little") + a[2:4], model.card_bytes(chain_of(high_n + 1), [3]), model.card_bytes(chain_of(256), [3])],
        2: [a[:2] + bytes([count]) + bytes([3]) * count + a[4:] for count in (low_t - 1, high_t + 1, 255)],
        3: [changed_at(b, 5, low_c - 1), changed_at(b, 5, high_c + 1), changed_at(b, 5, 255), changed_at(a, 3, high_c + 1)],
        4: [a + b"\0", a[:-1], b + b"\0", b[:-1], a + a, b + bytes(15), a[:4], a[:5], changed_at(a, 2, 2), changed_at(a, 0, 2)],
        5: [changed_at(a, 4, kind) for kind in (low_k - 1, high_k + 1, 255)] + [changed_at(b, 9, kind) for kind in (low_k - 1, high_k + 1)]
           + [sheet for kind in (low_k - 1, *range(high_k + 1, 256)) for sheet in (changed_at(j, 4, kind), with_compound(j, 0, kind))],
        6: [with_compound(a, 0, kind, kind // 3) for kind in (1, 2, 3, 4)] + [with_compound(b, 3, kind, kind // 3) for kind in (1, 2, 3, 4)]
           + [with_compound(b, 2, kind) for kind in (1, 2)],
        7: [leftover(a)],
        8: [changed_at(a, 5, 0), changed_at(a, 5, 2), changed_at(a, 6, 1), changed_at(j, 5, 0), changed_at(j, 5, 2), changed_at(j, 6, 1)]
           + [changed_at(b, place, byte) for place in (10, 24, 38, 52) for byte in range(6) if byte != b[place]] + [changed_at(b, 11, 1)],
        9: [changed_at(b, 12, table) for table in (int(clauses.said[9][0]) - 1, 4, 8, 255)],
        10: [model.card_bytes(nested(most_rows + more, blank_test(0, 1)), [3]) for more in (1, 2, 9)]
            + [model.card_bytes(model.pair_entry(1, YES, nested(most_rows + 1, YES, (1, 2))), [1, 1])],
        11: [changed_at(a, 8, comparison) for comparison in (low_op - 1, high_op + 1, 255)] + [changed_at(b, 55, high_op + 1)],
        12: [changed_at(a, 9, tag) for tag in (1, 2, 3, 4, 254)] + [changed_at(a, 14, tag) for tag in (1, 254)] + [changed_at(b, 42, 2), changed_at(b, 61, 254)]
            + [changed_at(j, 9, tag) for tag in (1, 2, 3, 4, 254)]
            + [model.card_bytes(model.pair_entry(2, model.row_entry(4, 1, YES), test(1, 1)), [3]) for test in (blank_test, declined_test)],
        13: [changed_at(a, 10, column) for column in (int(clauses.said[13][0]) - 1, 4, 255)] + [changed_at(a, place, 1) for place in (11, 12, 13)]
            + [changed_at(a, 13, 128), changed_at(b, 43, 2), changed_at(b, 62, 2), changed_at(b, 57, 3), changed_at(b, 56, 1)[:57] + b"\2" + b[58:]]
            + [changed_at(j, 10, column) for column in (0, 4, 255)] + [changed_at(j, place, 1) for place in (11, 12, 13)],
        14: [changed_at(a, 7, byte) for byte in (1, 255)] + [changed_at(j, place, byte) for byte in (1, 255) for place in (7, 8, *range(14, 19))]
            + [changed_at(b, place, byte) for byte in (1, 255) for place in (*range(13, 24), *range(26, 38), 40, 54)],
    }


def kept_cards(clauses, a, b, j):
    """For each clause, cards that keep all of them, on the good side of its limits; from the same two cards."""
    low_n, high_n = clauses.numbers(1)
    low_t, high_t = clauses.numbers(2)
    low_c, high_c = clauses.numbers(3)
    most_rows, _ = clauses.numbers(10)
    low_op, high_op = clauses.numbers(11)
    wide = [model.card_bytes(blank_test(0, column), [count]) for column, count in ((1, low_c), (high_c, high_c), (low_c, high_c))]
    return {
        1: [model.card_bytes(chain_of(count), [3]) for count in (low_n, low_n + 1, high_n - 1, high_n)],
        2: [a[:2] + bytes([count]) + bytes([3]) * count + a[4:] for count in range(low_t, high_t + 1)],
        3: wide + [changed_at(a, 3, count) for count in range(2, high_c + 1)] + [changed_at(b, 5, count) for count in range(low_c, high_c + 1)],
        4: [a, b, j],
        5: [changed_at(j, 4, kind) for kind in (7, 8, 9, 10)] + [model.card_bytes(entry, [2, 1, 1]) for entry in every_kind()],
        6: [a, b, model.card_bytes(model.pair_entry(1, model.row_entry(3, 1, YES), YES), [3])],
        7: [a, b],
        8: [a, b, model.card_bytes(chain(191), [3])],
        9: [changed_at(b, 12, table) for table in range(int(clauses.said[9][0]), b[2] + 1)],
        10: [model.card_bytes(nested(count, test(count, 1), (1, 2)), [3, 1]) for count in range(most_rows + 1) for test in (blank_test, declined_test)]
            + [model.card_bytes(model.pair_entry(2, nested(most_rows, YES), nested(most_rows, NO)), [1])],
        11: [changed_at(a, 8, comparison) for comparison in range(low_op, high_op + 1)],
        12: [model.card_bytes(nested(count, test(level, 1)), [3]) for count in range(most_rows + 1) for level in range(count + 1)
             for test in (blank_test, declined_test)]
            + [a[:9] + b"\xff" + a[10:], changed_at(a, 14, 0)[:15] + b"\1" + a[16:]],
        13: [changed_at(a, 10, column) for column in (1, 2, 3)] + [changed_at(b, 57, column) for column in (1, 2)]
            + [changed_at(a, place, 255) for place in (15, 16, 17, 18)]
            + [model.card_bytes(model.blank_entry(kind, model.TaggedValue(255, -1)), [1]) for kind in (7, 8)]
            + [model.card_bytes(model.declined_entry(kind, model.TaggedValue(255, -1)), [1]) for kind in (9, 10)]
            + [changed_at(j, 10, column) for column in (1, 2, 3)],
        14: [a, b, j],
    }


def every_kind():
    """An entry of each kind, over tables of 2, 1 and 1 columns."""
    value, constant = model.TaggedValue(0, 2), model.TaggedValue(255, 4)
    return [model.pair_entry(1, YES, NO), model.pair_entry(2, YES, NO), model.row_entry(3, 2, blank_test(1, 1)), model.row_entry(4, 3, blank_test(1, 1)),
            model.comparison_entry(5, 3, value, constant), model.comparison_entry(6, 3, constant, value),
            model.blank_entry(7, value), model.blank_entry(8, value), model.declined_entry(9, value), model.declined_entry(10, value)]


def check_soundness(manual, ask, draws, known):
    clauses = Clauses(manual.clauses(3), known["record"])
    worked = known["A"], known["B"], known["J"]
    bad, good = broken_cards(clauses, *worked), kept_cards(clauses, *worked)
    for number in CLAUSE_PATTERNS:
        demand(f"cards for clause {number}", bad[number] and good[number])
        for sheet in bad[number]:
            same(f"the clauses that {sheet.hex(' ')} breaks", clauses.broken(sheet), {number})
            same(f"a card that breaks clause {number}: {sheet.hex(' ')}", ask.check(sheet), model.Refused(9))
        for sheet in good[number]:
            same(f"the clauses that {sheet.hex(' ')} breaks", clauses.broken(sheet), set())
            same(f"a card for clause {number}: {sheet.hex(' ')}", ask.check(sheet), model.SOUND)
        COUNTS["refused cards"] += len(bad[number])
        COUNTS["accepted cards"] += len(good[number])
    COUNTS["clauses"] = len(CLAUSE_PATTERNS)

    check_changed_cards(ask, draws, known, clauses)
    check_limits_said_twice(manual, known, clauses)
    check_card_of_no_rule(manual, ask, known)
    check_depth(manual, ask, clauses)


def check_changed_cards(ask, draws, known, clauses):
    """Cards A, B and J with each byte changed and cut at each length, and drawn cards: CHECK refuses exactly those that break a clause."""
    worked = known["A"], known["B"], known["J"]
    changed = [changed_at(sheet, place, byte) for sheet in worked for place in range(len(sheet)) for byte in BYTE_VALUES]
    changed += [sheet[:length] for sheet in worked for length in range(len(sheet))]
    changed += [generate.damaged_card(draws, sheet) for sheet in known["drawn cards"] for _ in range(3)]
    changed += [generate.random_card(draws, model.tables_of(generate.random_tables(draws)).columns, bad=.2) for _ in range(DRAWN_CARDS)]
    for sheet in changed:
        wanted = model.Refused(9) if clauses.broken(sheet) else model.SOUND
        same(f"{sheet.hex(' ')} breaks {clauses.broken(sheet)}", ask.check(sheet), wanted)
    COUNTS["changed cards"] = len(changed)


def check_limits_said_twice(manual, known, clauses):
    """What sections 2 and 3 both say is the same."""
    limits = {"n": 1, "T": 2, "the columns of table t": 3, "the kind of entry i": 5}
    same("the limits of section 2 and of section 3", known["card limits"], {name: clauses.numbers(clause) for name, clause in limits.items()})
    same("the inner entries of section 2 and of section 3", {kind: clauses.inner(kind) for kind in known["kinds"]},
         {kind: known["kinds"][kind].inner for kind in known["kinds"]})
    low, high = manual.numbers_said(2, r"Any other tag is a level, (\d+) to (\d+),")
    same("the levels", (low, high), (0, clauses.numbers(10)[0]))
    same("the tag of a constant", manual.numbers_said(2, r"With tag (\d+) the value is a constant, the signed number itself\."), [int(clauses.said[12][0])])


def check_card_of_no_rule(manual, ask, known):
    """The sound cards that are said to come from no rule, or to ask for something else.

    Each comparison of the first one has a number of its own, so each comes from a part of its own, and none of the entries between them from IS UNKNOWN or IS
    NOT UNKNOWN, which have the same comparisons on both sides: no rule of fewer parts has it.
    """
    tests, joins, kind, entries, parts = manual.numbers_said(
        3, r"(\d+) comparisons of a column with different numbers, joined by (\d+) entries of kind (\d), are a sound card of (\d+) entries, "
           r"and no rule has it: the rule would have (\d+) parts\.")
    leaves = [model.comparison_entry(5, 1, model.TaggedValue(0, 1), model.TaggedValue(255, number)) for number in range(tests)]
    sheet = model.card_bytes(functools.reduce(functools.partial(model.pair_entry, kind), leaves), [1])
    same("the card that no rule has", (joins, entries, sheet[0], ask.check(sheet)), (tests - 1, tests + joins, entries, model.SOUND))
    word = {1: b" AND ", 2: b" OR "}[kind]
    text = word.join(b"m.1 = %d" % number for number in range(tests))
    same("the parts of its rule", len(model.parts_of(model.condition_of(model.tokens_of(text)))), parts)
    same("its rule", ask.card(text, sized_file([(1, 0)]), AMPLE_ROOM), model.Refused(7))
    fewer = word.join(b"m.1 = %d" % number for number in range(tests - 1))
    same("a rule with one comparison less", ask.check(ask.card(fewer, sized_file([(1, 0)]), AMPLE_ROOM)), model.SOUND)

    name, new, place = manual.said(3, r"card ([A-Z]) below with `(..)` at offset (\d+) is sound too, and asks for another number\.")
    other = changed_at(known[name], int(place), from_hex(new)[0])
    same("the card that asks for another number", ask.check(other), model.SOUND)
    numbers = [model.sound_card(sheet)[1][0].right.number for sheet in (known[name], other)]
    demand(f"other numbers: {numbers}", numbers[0] != numbers[1])


def check_depth(manual, ask, clauses):
    """How many entries stand around one another: as many as the manual says, and no card has more."""
    pattern = r"at most (\d+) entries stand around one another, the innermost counted: (\d+) row entries, (\d+) of kinds 1 and 2, and (\d+) of kinds 5 to 10\."
    deepest, rows, pairs, tests = manual.numbers_said(4, pattern)
    same("the entries around one another", (deepest, tests), (rows + pairs + tests, 1))
    most, most_rows = clauses.numbers(1)[1], clauses.numbers(10)[0]
    depths = [row + pair + 1 for row in range(most_rows + 1) for pair in range(most) if row + 2 * pair + 1 <= most]
    same("the deepest card", max(depths), deepest)
    sheet = model.card_bytes(nested(rows, chain(2 * pairs + 1)), [1])
    same("the deepest card", (ask.check(sheet), ask.run(sheet, sized_file([(1, 1)]), 0)), (model.SOUND, True))


# ---- section 4

CELLS = (model.BLANK_CELL, model.DECLINED_CELL, LOWEST, -1, 0, 1, HIGHEST)


def yes_or_no(cell):
    demand(f"{cell} is yes or no", cell in ("yes", "no"))
    return cell == "yes"


def check_answers(manual, ask, known):
    """What each kind answers, by its name and by the table of section 4."""
    rows = manual.table(4, "Kind", "Answers yes exactly when", "Over no rows", "With a plain blank", "With a declined value").rows
    same("the kinds that are said to answer", [int(row[0]) for row in rows], sorted(known["kinds"]))
    words = {1: "both inner entries answer yes", 2: "one of the inner entries answers yes, or both do",
             3: "the inner entry answers yes with the new level at some row of the table",
             4: "the inner entry answers yes with the new level at every row of the table",
             5: "both values are present, and the comparison holds of left and right as signed numbers",
             6: "both values are present, and the comparison holds; or one of them is blank, or both are",
             7: "the left value is blank", 8: "the left value is not blank", 9: "the left value is declined", 10: "the left value is not declined"}
    over_none, with_blank, with_declined = {}, {}, {}
    for number, when, none, blank, declined in rows:
        kind = int(number)
        same(f"when kind {kind} answers yes", when.split(": its mark is ")[0], words[kind])
        for answers, cell in ((over_none, none), (with_blank, blank), (with_declined, declined)):
            answers |= {kind: yes_or_no(cell)} if cell else {}
    names = {kind.name: number for number, kind in known["kinds"].items()}
    same("the kinds over no rows", sorted(over_none), sorted(names[name] for name in ("some row", "every row")))
    same("the kinds with a plain blank, and with a declined value", (sorted(with_blank), sorted(with_declined)), ([5, 6, 7, 8, 9, 10],) * 2)

    check_compound_answers(ask, names, over_none)
    check_test_answers(ask, known, names, {"blank": with_blank, "declined": with_declined})
    check_marks_of_kinds(manual, ask, {int(row[0]): row[1] for row in rows})


def check_compound_answers(ask, names, over_none):
    """And, or, some row and every row over all answers of their inner entries."""
    for name, joined in (("and", all), ("or", any)):
        for inner in itertools.product((YES, NO), repeat=2):
            sheet = model.card_bytes(model.pair_entry(names[name], *inner), [1])
            same(f"{name} over {inner}", ask.run(sheet, sized_file([(1, 1)]), 0), joined(one is YES for one in inner))
    is_one = model.comparison_entry(5, 1, model.TaggedValue(1, 1), model.TaggedValue(255, 1))
    for name, joined in (("some row", any), ("every row", all)):
        sheet = model.card_bytes(model.row_entry(names[name], 2, is_one), [1, 1])
        for count in range(4):
            for inner in itertools.product((0, 1, None, model.DECLINED_CELL)[:4 if count < 3 else 3], repeat=count):
                wanted = joined(cell == 1 for cell in inner) if inner else over_none[names[name]]
                file = generate.tables_file([(1, [[7]]), (1, [[cell] for cell in inner])])
                same(f"{name} over {inner}", ask.run(sheet, file, 0), wanted)
                COUNTS["answers of kinds tried"] += 1


def word_for(cells):
    """Whether some cells are present, one is blank, or those that are blank are declined."""
    words = {word_of(cell) for cell in cells}
    return "blank" if "blank" in words else "declined" if "declined" in words else "present"


def check_test_answers(ask, known, names, without):
    """Every comparison of every pair of cells, and the four tests of a value; `without` has what a kind says with a plain blank and with a declined value."""
    pairs = list(itertools.product(CELLS, repeat=2))
    file = generate.tables_file([(2, [list(pair) for pair in pairs])])
    left, right = model.TaggedValue(0, 1), model.TaggedValue(0, 2)
    for unknown, (number, comparison) in itertools.product(("no", "yes"), known["comparisons"].items()):
        kind = names[f"comparison, unknown counts as {unknown}"]
        sheet = model.card_bytes(model.comparison_entry(kind, number, left, right), [2])
        for row, (x, y) in enumerate(pairs):
            word = word_for((x, y))
            wanted = SIGNS[comparison.sign](x, y) if word == "present" else without[word][kind]
            same(f"kind {kind}, {x} {comparison.sign} {y}", ask.run(sheet, file, row), wanted)
            COUNTS["answers of kinds tried"] += 1
        for word in without:
            same(f"whether kind {kind} says with what is {word} what its name says", without[word][kind], unknown == "yes")
    for name in ("blank", "not blank", "declined", "not declined"):
        kind = names[name]
        of_number = name.startswith("not")
        same(f"{name} with a declined value", without["declined"][kind], not of_number)
        for value in (left, right, model.TaggedValue(255, 0), model.TaggedValue(255, 2)):
            sheet = model.card_bytes(model.Entry(kind, left=value), [2])
            for row, pair in enumerate(pairs):
                word = word_for(pair[value.number - 1:value.number]) if value.tag == 0 else "present"
                wanted = of_number if word == "present" else without[word][kind]
                same(f"{name} of {value} in {pair}", ask.run(sheet, file, row), wanted)
                COUNTS["answers of kinds tried"] += 1


def check_marks_of_kinds(manual, ask, when):
    """Kinds 7 to 10 by the marks that the table and the sentence behind it name, and what they answer of a constant."""
    seen = 0
    for kind in (7, 8, 9, 10):
        said = re.search(r": its mark is (\d)(?: or (\d))?$", when[kind]).groups()
        sheet = model.card_bytes(model.Entry(kind, left=model.TaggedValue(0, 1)), [1])
        for mark in model.MARKS:
            file = sized_file([(1, 1)])[:-1] + bytes([mark])
            same(f"kind {kind} with the mark {mark}", ask.run(sheet, file, 0), str(mark) in said)
            seen += 1
    same("marks of kinds 7 to 10", seen, 12)
    of_constants = manual.numbers_said(4, r"Of a constant, kinds (\d+) and (\d+) answer yes, (\d+) and (\d+) no\.")
    same("the kinds that answer of a constant", sorted(of_constants), [7, 8, 9, 10])
    for place, kind in enumerate(of_constants):
        sheet = model.card_bytes(model.Entry(kind, left=model.TaggedValue(255, 2)), [1])
        same(f"kind {kind} of a constant", ask.run(sheet, sized_file([(1, 1)]), 0), place < 2)
    blank, other, plain, declined = manual.numbers_said(
        4, r"A column whose cell has the mark (\d) or (\d) is a blank value: with (\d) a plain blank, with (\d) a declined value\.")
    same("the marks of blank values", ((blank, other), plain, declined), ((model.MARK_BLANK, model.MARK_DECLINED), model.MARK_BLANK, model.MARK_DECLINED))


def check_runner(manual, ask, draws, known):
    """The manual's runner answers what RUN answers, and LIST gives the rows on which it says yes."""
    space = {}
    exec(compile(manual.code(4), str(MANUAL), "exec"), space)
    seen = collections.Counter()
    sheets = [known["A"], known["B"], known["J"], known["K"]] + known["drawn cards"] + [model.card_bytes(entry, [2, 1, 1]) for entry in every_kind()]
    for sheet in sheets:
        columns, entries = model.sound_card(sheet)
        for file in (generate.later_tables(draws, columns) for _ in range(2)):
            tables = model.tables_of(file)
            by_number = {number: [[space["DECLINED"] if model.is_declined(cell) else cell for cell in row] for row in tables.rows_of(number)]
                         for number in range(1, len(columns) + 1)}
            answers = [space["run"](sheet, by_number, row) for row in range(len(tables.rows_of(1)))]
            same(f"the runner on {sheet.hex(' ')} with {file.hex(' ')}", answers, [ask.run(sheet, file, row) for row in range(len(answers))])
            same("LIST and the runner", ask.rows(sheet, file, len(answers)), tuple(row for row, yes in enumerate(answers) if yes))
            seen.update(answers)
            seen.update(f"kind {entry.kind}" for entry in entries)
            seen.update(word_of(cell) for rows in tables.rows for row in rows for cell in row)
    for sort in (True, False, *MARK_WORDS.values(), *(f"kind {kind}" for kind in known["kinds"])):
        demand(f"the runner answered {sort}", seen[sort] > 10)
    COUNTS["answers of the runner"] = seen[True] + seen[False]


def check_call_examples(manual, ask, known):
    """The table of calls with their answers."""
    rows = manual.table(4, "Call", "Card", "File", "Row or room", "Answer").rows
    seen = collections.Counter()

    def thing(cell):
        return known[cell] if cell in known else from_hex(in_backticks(cell))

    for call, card, file, room, answer in rows:
        what = f"{call} of {card} with {file or 'nothing'}, {room}"
        if call == "CHECK":
            same(f"what else {call} takes", (file, room), ("", ""))
            got = ask.check(thing(card))
        else:
            sort, number = room.split()
            same(f"what {call} takes", sort, {"RUN": "row", "LIST": "room"}[call])
            got = (ask.run if call == "RUN" else ask.rows)(thing(card), thing(file), int(number))
        refusal = re.fullmatch(r"refusal (\d+)", answer)
        rows_said = re.fullmatch(r"rows (\d+(?:, \d+)*)", answer)
        meanings = {"sound": model.SOUND, "yes": True, "no": False, "no rows": ()}
        wanted = model.Refused(int(refusal[1])) if refusal else numbers_in(rows_said[1]) if rows_said else meanings[answer]
        same(what, got, wanted)
        seen[call, answer] += 1
    wanted = {("CHECK", "sound"), ("CHECK", "refusal 9"), ("RUN", "yes"), ("RUN", "no"), ("LIST", "no rows"), ("LIST", "refusal 12")}
    wanted |= {("RUN", f"refusal {number}") for number in (1, 2, 9, 10, 11)}
    demand(f"calls with these answers: {wanted - set(seen)}", wanted <= set(seen))
    demand("at least 20 examples of calls", len(rows) >= 20)
    same("the calls of card D", sorted(row[4] for row in rows if row[1] == "D"), ["no", "rows 1", "sound", "yes", "yes"])
    runs = {card: [row[4] for row in rows if row[:3] == ("RUN", card, "H")] for card in "JK"}
    same("the calls of cards J and K with file H", runs, {"J": ["no", "no", "yes"], "K": ["yes", "yes", "no"]})
    same("examples of calls that are there twice", [row for row, count in collections.Counter(row[:4] for row in rows).items() if count > 1], [])
    demand("document 01's examples of 9, 10 and 11", {("CHECK", "`00 00`", "", "", "refusal 9"), ("RUN", "A", "`01 02 00 00`", "row 0", "refusal 10"),
                                                     ("RUN", "B", "F", "row 3", "refusal 11")} <= set(rows))
    COUNTS["example calls"] = len(rows)


# ---- section 5

class PartKind(typing.NamedTuple):
    """A kind of part: its names, how many inner parts it has, and its translation in the two interpretations."""
    names: tuple
    inner: int
    translations: dict


FALSE, TRUE = "false-interpreted", "true-interpreted"
OTHER = {FALSE: TRUE, TRUE: FALSE}


def part_kinds_of(manual):
    table = manual.table(5, "Kind of part", "Part", "Inner parts", "False-interpreted", "True-interpreted")
    same("the kinds of parts", [int(row[0]) for row in table.rows], list(range(1, 18)))
    inner_parts = {row[2]: 0 if row[2] == "none" else len(row[2].split(", ")) for row in table.rows}
    return {int(number): PartKind(tuple(names.split(", ")), inner_parts[inner], {FALSE: in_backticks(no), TRUE: in_backticks(yes)})
            for number, names, inner, no, yes in table.rows}


class Translation:
    """Cards from parts by the tables of section 5, with what section 2 says of kinds and comparisons."""

    def __init__(self, part_kinds, known):
        self.part_kinds, self.kinds, self.comparisons, self.record = part_kinds, known["kinds"], known["comparisons"], known["record"]

    def negated(self, entry):
        kind = self.kinds[entry.kind].negated
        comparison = self.comparisons[entry.comparison].negated if entry.comparison else 0
        return model.Entry(kind, entry.table, comparison, entry.left, entry.right, tuple(self.negated(inner) for inner in entry.inner))

    def entry_of(self, parts, number, interpretation):
        """The entry of a part in an interpretation."""
        tokens = re.findall(r"\d+|[\w¬(),]", self.part_kinds[parts[number].kind].translations[interpretation])
        entry, rest = self.expression(tokens, parts, number, interpretation)
        same("what is left of a translation", rest, [])
        return entry

    def expression(self, tokens, parts, number, interpretation):
        """The entry of an expression, and the tokens behind it."""
        first, rest = tokens[0], tokens[1:]
        if first == "¬":
            entry, rest = self.expression(rest, parts, number, interpretation)
            return self.negated(entry), rest
        inner = number + 1
        interpretations = {"A": interpretation, "B": interpretation, "P": OTHER[interpretation], "W": FALSE, "N": FALSE, "Y": TRUE}
        if first in interpretations:
            return self.entry_of(parts, parts[inner].end if first == "B" else inner, interpretations[first]), rest
        inside = []
        if rest and rest[0] == "(":
            while rest[0] in "(,":
                entry, rest = self.expression(rest[1:], parts, number, interpretation)
                inside.append(entry)
            rest = rest[1:]
        return self.entry_from(parts[number], int(first), tuple(inside)), rest

    def entry_from(self, part, kind, inner):
        """An entry of a kind, with what this kind uses of its part's record."""
        used = {field.name for field in self.record if kind in field.kinds}
        values = [value if side in used else model.UNUSED for side, value in (("left value", part.left), ("right value", part.right))]
        return model.Entry(kind, part.table if "table" in used else 0, part.comparison if "comparison" in used else 0, *values, inner)


class Sum:
    """How many entries a card has, by the sum of section 5."""

    def __init__(self, manual):
        self.formula = manual.said(5, r"has `n = ([^`]*)` entries")
        alone, first, last = manual.numbers_said(5, r"In this sum, dropped are the parts of kinds (\d+) and (\d+) to (\d+), which have no entry of their own,")
        self.dropped = {alone, *range(first, last + 1)}
        self.lists = set(manual.numbers_said(5, r"and lists those of kinds (\d+) and (\d+)\."))
        self.repeated = set(manual.numbers_said(5, r"A card has the condition of a part of kinds (\d+) and (\d+) twice: "
                                                   r"repeated is the sum of the entries of these conditions, each worked out by the same sum\."))

    def terms(self, parts):
        """The numbers in the sum for all of some parts."""
        @functools.cache
        def terms_of(start, end):
            kinds = [part.kind for part in parts[start:end]]
            repeated = [number for number in range(start, end) if parts[number].kind in self.repeated]
            return {"parts": len(kinds), "dropped": sum(kind in self.dropped for kind in kinds), "lists": sum(kind in self.lists for kind in kinds),
                    "repeated": sum(worked_out(self.formula, **terms_of(number + 1, parts[number].end)) for number in repeated)}
        return terms_of(0, len(parts))

    def entries(self, parts):
        return worked_out(self.formula, **self.terms(parts))


TRUTH_TESTS = {f"IS{' NOT' * has_not} {word}": kinds[has_not] for word, kinds in model.TRUTH_KINDS.items() for has_not in (False, True)}


def drawn_rules(draws):
    """Tables files with rules for them: drawn ones, and every kind of test under NOTs, in truth tests, in lists and in EXISTS."""
    tests = ["m.1 < 2", "m.1 IS NULL", "m.1 IS NOT NULL", "m.1 IS DECLINED", "m.1 IS NOT DECLINED", "EXISTS (FROM 1 v WHERE v.1 = m.1)",
             "m.1 >= SOME (SELECT v.1 FROM 2 v WHERE v.2 > 1)",
             "m.1 NOT IN (SELECT v.2 FROM 2 v WHERE v.1 <= m.1)", "(m.1 = 1 AND m.1 <> 2)", "(m.1 = 1 OR NOT m.1 > 2)"]
    tests += [f"(m.1 > 2) {ending}" for ending in TRUTH_TESTS]
    around = ["{}", "NOT {}", "NOT NOT {}", "EXISTS (FROM 2 w WHERE {})", "NOT EXISTS (FROM 2 w WHERE NOT {})", "m.1 = ALL (SELECT w.2 FROM 2 w WHERE {})",
              "NOT m.1 > ALL (SELECT w.2 FROM 2 w WHERE NOT {})", "m.1 <> SOME (SELECT w.2 FROM 2 w WHERE {})",
              "NOT m.1 <= SOME (SELECT w.2 FROM 2 w WHERE {})",
              "NOT ({} AND NOT 1 = m.1)", "NOT (m.1 IS NULL OR {})", "NOT (m.1 = 1 AND {}) IS UNKNOWN"]
    around += [f"({{}}) {ending}" for ending in TRUTH_TESTS]
    file = generate.tables_file([(1, []), (2, [])])
    rules = [(outer.format(test).encode(), file) for outer, test in itertools.product(around, tests)]
    for _ in range(DRAWN_RULES):
        tables = generate.random_tables(draws)
        rules.append((generate.short_rule(draws, model.tables_of(tables).columns, [1, 2, 3, 4, 6, 8], 400, truths=draws.choice([0, .2, .4])), tables))
    return [(text, tables) for text, tables in rules if not isinstance(model.read(text, tables, 64), model.Refused)]


def check_sums(manual, example, parts, table_count, length):
    """The sums that are written out for an example."""
    total = Sum(manual)
    terms, n = total.terms(parts), total.entries(parts)
    same(f"the entries in: {example}", n, model.entry_sum(parts))
    sums = re.findall(r"n = (\d+) − (\d+) \+ 2 × (\d+) \+ (\d+) = (\d+)", example), re.findall(r"3 \+ (\d+) \+ 15 × (\d+) = (\d+) bytes", example)
    same(f"the sums in: {example}", sums, ([tuple(map(str, (*terms.values(), n)))], [tuple(map(str, (table_count, n, length)))]))
    COUNTS["sums"] += 2


def check_worked_cards(manual, ask, known):
    """Cards A, B, D, J and K: their bytes, their meanings, and what is said of them."""
    examples = worked_examples(manual, 5)
    same("the worked cards", [example.name for example in examples], ["Card A", "Card B", "Card D", "Card J", "Card K"])
    for example in examples:
        text = re.search(r"The rule `([^`]*)`", example.about)[1].encode()
        source = re.search(r"with the tables file `([^`]*)`|with file ([A-Z]):", example.about)
        file = from_hex(source[1]) if source[1] else known[source[2]]
        same(f"{example.name} by CARD", ask.card(text, file, AMPLE_ROOM), example.whole)
        check_meanings(example, card_meanings(example.whole, known["kinds"], known["comparisons"], known["record"]))
        check_sums(manual, example.about, ask.read(text, file, 64), file[0], len(example.whole))
        known[example.name[-1]] = example.whole
        known[f"{example.name[-1]} was made with"] = (file, AMPLE_ROOM)
        same_card = re.search(r"`([^`]*)` has the same parts and the same card\.", example.about)
        if same_card:
            other = same_card[1].encode()
            same(f"the parts of {other}", ask.read(other, file, 64), ask.read(text, file, 64))
            same(f"the card of {other}", ask.card(other, file, AMPLE_ROOM), example.whole)
            COUNTS["other texts with the same card"] += 1
        if source[1]:
            demand(f"{example.name}, the columns that are said", f"one table of {file[1]} columns" in example.about)
        other_parts = re.search(r"`([^`]*)` has other parts and the same card\.", example.about)
        if other_parts:
            other = other_parts[1].encode()
            demand(f"{other} has other parts", ask.read(other, file, 64) != ask.read(text, file, 64))
            same(f"the card of {other}", ask.card(other, file, AMPLE_ROOM), example.whole)
            COUNTS["other texts with the same card"] += 1
    same("other texts with the same card", COUNTS["other texts with the same card"], 2)
    new, old = manual.numbers_said(5, r"NOT has made (\d+) of (\d+), and that is all that differs from card J\.")
    differing = [pair for pair in zip(known["K"], known["J"], strict=True) if pair[0] != pair[1]]
    same("what differs between cards K and J", differing, [(new, old)])
    room, = manual.numbers_said(5, r"than the card, as with (\d+) bytes for card A\.")
    text = re.search(r"The rule `([^`]*)`", examples[0].about)[1].encode()
    answers = [ask.card(text, known["A was made with"][0], lent) for lent in (0, room, room + 1)]
    same("CARD of A with little room", answers, [model.Refused(12), model.Refused(12), known["A"]])


def check_truth_tests(manual, ask, translation, known):
    """What is said of truth tests: their entries in both interpretations, one as the negation of another, how many they are, and what card D's answer."""
    total, file = Sum(manual), known["F"]
    first, last = manual.numbers_said(5, r"A truth test, kinds (\d+) to (\d+), is never unknown: its entries are the same in both interpretations\.")
    same("the kinds of truth tests", list(range(first, last + 1)), sorted(TRUTH_TESTS.values()))
    other, kind = manual.numbers_said(5, r"Those of kind (\d+) are the negation of those of kind (\d+)\.")
    twice = manual.said(5, r"So a part of kind (\d+) or (\d+) has `([^`]*)` entries, where c are those of its condition\.")
    same("the parts with a condition twice", {int(number) for number in twice[:2]}, total.repeated)
    for condition in (b"m.2 > 0", b"m.1 NOT IN (SELECT v.1 FROM 2 v WHERE v.1 > m.2)", b"NOT (m.1 = 1 AND (m.2 < 3) IS NOT UNKNOWN)"):
        inner = total.entries(ask.read(condition, file, 64))
        entries = {}
        for ending, number in TRUTH_TESTS.items():
            text = b"(" + condition + b") " + ending.encode()
            parts = ask.read(text, file, 64)
            same(f"the kind of {text}", parts[0].kind, number)
            entries[number] = translation.entry_of(parts, 0, FALSE)
            same(f"{text} in both interpretations", entries[number], translation.entry_of(parts, 0, TRUE))
            if str(number) in twice[:2]:
                same(f"the entries of {text}", total.entries(parts), worked_out(twice[2], c=inner))
        same("the negation of a truth test", entries[other], translation.negated(entries[kind]))

    text, column = manual.said(5, r"Entry 1 is `([^`]*)` false-interpreted and negated, entry 2 the same true-interpreted\. "
                                  r"Where column (\d+) is blank both answer yes; where it holds a number exactly one of them does\.")
    file = known["D was made with"][0]
    parts = ask.read(text.encode(), file, 64)
    wanted = (translation.negated(translation.entry_of(parts, 0, FALSE)), translation.entry_of(parts, 0, TRUE))
    columns = model.tables_of(file).columns
    same("entries 1 and 2 of card D", model.card_bytes(model.pair_entry(1, *wanted), columns), known["D"])
    for cell in CELLS:
        row = generate.tables_file([(columns[0], [[cell if number == int(column) else 7 for number in range(1, columns[0] + 1)]])])
        answers = [ask.run(model.card_bytes(entry, columns), row, 0) for entry in wanted]
        same(f"what entries 1 and 2 of card D answer on {cell}", sorted(answers), [True, True] if model.counts_as_blank(cell) else [False, True])


def check_value_tests(manual, ask, translation, known):
    """Parts that are never unknown: one entry, which is the same in both interpretations."""
    kinds = manual.numbers_said(
        5, r"Parts of kinds (\d+), (\d+), (\d+) and (\d+) are never unknown either: they have one entry, which is the same in both interpretations\.")
    found = {}
    for ending in ("NULL", "NOT NULL", "DECLINED", "NOT DECLINED"):
        parts = ask.read(f"m.2 IS {ending}".encode(), known["F"], 64)
        found[parts[0].kind] = translation.entry_of(parts, 0, FALSE)
        same(f"IS {ending} in both interpretations", (found[parts[0].kind], len(parts)), (translation.entry_of(parts, 0, TRUE), 1))
        same(f"what is inside the entry of IS {ending}", found[parts[0].kind].inner, ())
    same("the kinds of tests of a value", sorted(found), kinds)


def check_before_declined(manual, ask, draws, known):
    """Cards, parts and controllers from before declined cells: what rules without the two tests have, what their cards answer with declined cells, and what a
    controller that knows kinds 1 to 8 and marks 0 and 1 refuses."""
    parts_first, parts_last, kinds_first, kinds_last, mark = manual.numbers_said(
        5, r"\*\*Cards and controllers from before declined cells\.\*\* Parts of kinds (\d+) and (\d+), entries of kinds (\d+) and (\d+), "
           r"the mark (\d+) and the `!` of comma lines came later than all else in these pages\.")
    same("what came later", (parts_first, parts_last, kinds_first, kinds_last, mark),
         (model.KIND_DECLINED, model.KIND_NOT_DECLINED, model.DECLINED, model.NOT_DECLINED, model.MARK_DECLINED))
    low, high, low_part, high_part = manual.numbers_said(
        5, r"The card of a rule without IS DECLINED and IS NOT DECLINED has the kinds (\d+) to (\d+) alone, and its parts the kinds (\d+) to (\d+): "
           r"both are byte for byte what they were\.")
    same("kinds from before", (low, high, low_part, high_part), (1, kinds_first - 1, 1, parts_first - 1))
    manual.said(5, r"So cards already made are sound and run on unchanged, and answer with a declined cell what they answer with a plain blank in its place\.")
    seen = collections.Counter()
    for text, file in known["rules"]:
        sheet, kinds = ask.card(text, file, AMPLE_ROOM), {part.kind for part in ask.read(text, file, 64)}
        entries = {entry.kind for entry in model.sound_card(sheet)[1]}
        without = b"DECLINED" not in text
        same(f"{text} has kinds from before alone", (max(kinds) <= high_part, max(entries) <= high), (without, without))
        seen["without" if without else "with"] += 1
    for sheet in known["drawn cards"][:DRAWN_CARDS // 4]:
        columns, entries = model.sound_card(sheet)
        file = generate.later_tables(draws, columns)
        plain = generate.with_marks(file, {mark: model.MARK_BLANK})
        answers = [ask.rows(sheet, one, 1000) for one in (file, plain)]
        if all(entry.kind <= high for entry in entries):
            same(f"{sheet.hex(' ')} with declined cells, and with plain blanks in their place", *answers)
            seen["with other marks"] += file != plain
        seen["told apart"] += answers[0] != answers[1]
    for sort, least in (("without", 100), ("with", 40), ("with other marks", 20), ("told apart", 1)):
        demand(f"{sort}: {seen[sort]}", seen[sort] >= least)
    first, last, unsound, refused_mark, bad_mark, bad_field = manual.numbers_said(
        5, r"it refuses a card with an entry of kind (\d+) or (\d+) with (\d+), as unsound, and a tables file with a mark of (\d+) with (\d+), "
           r"and keeps the gate shut on every row\. An IMPORT from before refuses `!` with (\d+)\. So change the controller of every gate first\.")
    same("what a controller from before refuses", (first, last, refused_mark), (kinds_first, kinds_last, mark))
    same("how it refuses cards, as one refuses the next kind", ask.check(changed_at(known["J"], 4, kinds_last + 1)), model.Refused(unsound))
    same("how it refuses files, as one refuses the next mark", tables_refusal(ask, sized_file([(1, 1)])[:-1] + bytes([mark + 1])), bad_mark)
    same("how it refuses `!`, as one refuses another sign", model.import_lines(b"?", 1, AMPLE_ROOM), model.Refused(bad_field))


def check_too_many(manual, ask, known):
    """Texts with their sums: refused with 13 by all three calls where the sum is over the limit, and else not."""
    refusal, most = manual.numbers_said(5, r"Refusal (\d+): n is over (\d+)\. It belongs to reading: READ, JUDGE and CARD refuse such a rule,")
    same("the most entries", most, known["card limits"]["n"][1])
    total, seen = Sum(manual), set()
    for written, n, said in manual.table(5, "Text", "n", "Refusal").rows:
        text = in_backticks(written).encode()
        parts = model.parts_of(model.condition_of(model.tokens_of(text)))
        same(f"the sum of {text}", (total.entries(tuple(parts)), model.entry_sum(parts)), (int(n), int(n)))
        refused = None if said == "none" else int(said)
        same(f"the refusal of {text}", refused, refusal if int(n) > most else None)
        got = ask.read(text, known["F"], 0), ask.judge(text, known["F"], 1000), ask.card(text, known["F"], 0)
        same(f"{text} without room, on a row that is not there", got, tuple(model.Refused(refused or number) for number in (12, 11, 12)))
        if refused is None:
            same(f"the card of {text}", int.from_bytes(ask.card(text, known["F"], AMPLE_ROOM)[:2], "little"), int(n))
        seen.add((int(n), refused))
    demand(f"six and seven IS UNKNOWN, and one without an entry more: {seen}", {(127, None), (255, 13), (1, None)} <= seen)


def check_translation(manual, ask, draws, known):
    part_kinds = known["part kinds"] = part_kinds_of(manual)
    translation = Translation(part_kinds, known)
    total = Sum(manual)
    length = manual.said(5, r"and so `([^`]*)` bytes")
    same("the length with truth tests", manual.said(5, r"and the length of `([^`]*)` bytes\."), length)
    same("the length in section 2", manual.said(2, r"The card has exactly `([^`]*)` bytes"), length)
    check_truth_tests(manual, ask, translation, known)
    check_too_many(manual, ask, known)
    rules = known["rules"] = drawn_rules(draws) + [(text, known["F"]) for text in CASES]
    seen = collections.Counter()
    for text, file in rules:
        parts = ask.read(text, file, 64)
        columns = model.tables_of(file).columns
        kinds = [part.kind for part in parts]
        n = total.entries(parts)
        size = worked_out(length, T=len(columns), n=n)
        wanted = model.card_bytes(translation.entry_of(parts, 0, FALSE), columns)
        same(f"the length of the card of {text}", len(wanted), size)
        sheet = ask.card(text, file, size)
        same(f"the card of {text}", sheet, wanted)
        same(f"the card of {text}, with a byte too little", ask.card(text, file, size - 1), model.Refused(12))
        same(f"the card of {text} is sound", ask.check(sheet), model.SOUND)
        later = generate.later_tables(draws, columns)
        for row in range(len(model.tables_of(later).rows_of(1))):
            truth = ask.judge(text, later, row)
            same(f"{text} on row {row} of {later.hex(' ')}", ask.run(sheet, later, row), truth == model.TRUE)
            seen[truth] += 1
        seen.update(kinds)
    for sort in (model.TRUE, model.FALSE, model.UNKNOWN, *part_kinds):
        demand(f"{sort} was translated", seen[sort] > 20)
    COUNTS["translated rules"] = len(rules)
    check_value_tests(manual, ask, translation, known)
    check_before_declined(manual, ask, draws, known)


# ---- section 6

FIELD_NAMES = ("kind", "comparison", "table", "end", "left.tag", "left.number", "right.tag", "right.number")


def fields_of(part):
    return dict(zip(FIELD_NAMES, cases.numbers_of([part])))


def check_record_layout(manual, ask, known):
    """Where a part's fields stand in C, which kinds use them, and what they hold."""
    table = manual.table(6, "Offset", "Length", "Field", "Content", "Kinds that use it")
    same("the fields of a part", tuple(row[2] for row in table.rows), FIELD_NAMES)
    size, = manual.numbers_said(6, r"In C a record is a `struct roskudla_part` of (\d+) bytes")
    places = {name: (int(offset), int(length)) for offset, length, name, _, _ in table.rows}
    contents = {name: content for _, _, name, content, _ in table.rows}
    uses = {name: set(numbers_in(kinds)) for _, _, name, _, kinds in table.rows}
    seen, held = {name: set() for name in FIELD_NAMES}, {name: set() for name in FIELD_NAMES}
    ranges = {name: limits_in(contents[name]) for name in ("kind", "comparison", "end")}
    constant, low, high = map(int, re.fullmatch(r"(\d+) for a constant, else the level of a column, (\d+) to (\d+)", contents["left.tag"]).groups())
    same("what a right value holds", (contents["right.tag"], contents["right.number"]), ("as left.tag", "as left.number"))
    levels = b"EXISTS (FROM 1 a WHERE EXISTS (FROM 1 b WHERE b.1 = SOME (SELECT c.2 FROM 1 c WHERE c.1 < c.2)))"
    rules = known["rules"] + [(b"-2147483648 < 2147483647 AND 16909060 = -16909061", known["F"]), (b"NOT " * 63 + b"1 = 1", known["F"]), (levels, known["F"])]
    for text, file in rules:
        parts = ask.read(text, file, 64)
        raw = ask.built.record_bytes(text, file, 64)
        same(f"the bytes of the records of {text}", len(raw), size * len(parts))
        for number, part in enumerate(parts):
            wanted, record = fields_of(part), raw[size * number:size * (number + 1)]
            for name, (offset, length) in places.items():
                got = int.from_bytes(record[offset:offset + length], "little", signed=length == 4)
                same(f"{name} of part {number} of {text}", got, wanted[name])
                if wanted[name] != 0:
                    seen[name].add(part.kind)
                if part.kind in uses[name]:
                    held[name].add(wanted[name])
            check_part_end(number, parts, known["part kinds"])
    same("the kinds that use each field", uses, seen)
    first, last = manual.numbers_said(6, r"Kinds (\d+) to (\d+) use kind and end alone\.")
    same("the kinds that use kind and end alone", sorted(set(TRUTH_TESTS.values())), list(range(first, last + 1)))
    for kind in range(first, last + 1):
        same(f"what kind {kind} uses", {name for name in uses if kind in uses[name]}, {"kind", "end"})
    new, other_new, old, other_old = manual.numbers_said(6, r"Kinds (\d+) and (\d+) use the same fields as (\d+) and (\d+)\.")
    same("kinds that use the same fields", (new, other_new), (model.KIND_DECLINED, model.KIND_NOT_DECLINED))
    same("kinds that they use the same fields as", (old, other_old), (model.KIND_NULL, model.KIND_NOT_NULL))
    same("the fields that they use", *({name for name in uses if kind in uses[name]} for kind in (new, old)))
    same("the fields that they use", *({name for name in uses if kind in uses[name]} for kind in (other_new, other_old)))
    same("what kind, comparison and end hold", {name: (min(held[name]), max(held[name])) for name in ranges}, ranges)
    for side in ("left.tag", "right.tag"):
        same(f"what {side} holds", held[side], {constant, *range(low, high + 1)})
    in_c = {name: getattr(roskudla.PartLayout, name) for name in FIELD_NAMES[:4]}
    for side, name in itertools.product(("left", "right"), ("tag", "number")):
        around, inside = getattr(roskudla.PartLayout, side), getattr(roskudla.ValueLayout, name)
        same(f"{side}.{name} in C", places[f"{side}.{name}"], (around.offset + inside.offset, inside.size))
    same("the other fields in C", {name: places[name] for name in in_c}, {name: (field.offset, field.size) for name, field in in_c.items()})
    most, = manual.numbers_said(6, r"answers how many they are: at most (\d+)\.")
    same("a part more than there may be", ask.read(b"NOT " * most + b"1 = 1", known["F"], 100), model.Refused(7))
    same("as many parts as there may be", len(ask.read(b"NOT " * (most - 1) + b"1 = 1", known["F"], 100)), most)


def check_part_end(number, parts, part_kinds):
    """The end of a part by its inner parts."""
    after = number + 1
    for _ in range(part_kinds[parts[number].kind].inner):
        after = parts[after].end
    same(f"the end of part {number}", parts[number].end, after)


PART_TEXTS = {
    "AND": "1 = 1 AND 1 = 1", "OR": "1 = 1 OR 1 = 1", "NOT": "NOT 1 = 1", "comparison": "1 = 1", "IS NULL": "m.1 IS NULL", "IS NOT NULL": "m.1 IS NOT NULL",
    "EXISTS": "EXISTS (FROM 1 v WHERE 1 = 1)", "SOME": "1 < SOME (SELECT 1 FROM 1 v WHERE 1 = 1)", "IN": "1 IN (SELECT 1 FROM 1 v WHERE 1 = 1)",
    "ALL": "1 < ALL (SELECT 1 FROM 1 v WHERE 1 = 1)", "NOT IN": "1 NOT IN (SELECT 1 FROM 1 v WHERE 1 = 1)",
    "IS DECLINED": "m.1 IS DECLINED", "IS NOT DECLINED": "m.1 IS NOT DECLINED"}
PART_TEXTS |= {ending: f"(1 = 1) {ending}" for ending in TRUTH_TESTS}


def check_parts(manual, ask, known):
    part_kinds = known["part kinds"]
    same("the names of parts", sorted(name for kind in part_kinds.values() for name in kind.names), sorted(PART_TEXTS))
    file = sized_file([(1, 0)])
    first = {name: ask.read(text.encode(), file, 64)[0] for name, text in PART_TEXTS.items()}
    for number, kind in part_kinds.items():
        same(f"the kinds of {kind.names}", [first[name].kind for name in kind.names], [number] * len(kind.names))
    lists = manual.said(6, r"IN is kind (\d) with comparison (\d), and NOT IN is kind (\d) with comparison (\d)\.")
    same("IN and NOT IN", lists, tuple(str(number) for name in ("IN", "NOT IN") for number in (first[name].kind, first[name].comparison)))
    check_record_layout(manual, ask, known)

    tables = manual.tables(6, "Part", "Text", "Kind", "Comparison", "Table", "End", "Left", "Right")
    same("the worked rules", [check_worked_rule(manual, ask, known, table) for table in tables], ["Rule C", "Rule E", "Rule N"])
    same("the kinds of parts in the header", kinds_in_header(), {number: kind.names[0].lower() for number, kind in part_kinds.items()})


def check_worked_rule(manual, ask, known, table):
    """A rule whose parts are written out, with what is said of its card; its name."""
    name, text, letter, count = re.match(r"\*\*(Rule [A-Z])\.\*\* `([^`]*)` with file ([A-Z]) has (\d+) parts[;.]", table.before).groups()
    parts, part_kinds = ask.read(text.encode(), known[letter], 64), known["part kinds"]
    same(f"how many parts {name} has", (int(count), len(table.rows)), (len(parts), len(parts)))
    for number, (part, row) in enumerate(zip(parts, table.rows)):
        values = [model.TaggedValue(*numbers_in(value)) for value in row[6:]]
        same(f"part {number} of {name}", (int(row[0]), model.Part(int(row[2]), int(row[3]), int(row[4]), int(row[5]), *values)), (number, part))
        written = row[1].strip("`")
        demand(f"{row[1]} stands in {name}", written in text)
        demand(f"{row[1]} is a part of kind {part.kind}", any(one in written for one in part_kinds[part.kind].names) or (part.kind == 4 and "`" in row[1]))
        COUNTS["worked parts"] += 1
    after = manual.blocks[6][manual.blocks[6].index(table) + 1]
    demand(f"what is said of the card of {name}", after.startswith("Its card has"))
    sheet = ask.card(text.encode(), known[letter], AMPLE_ROOM)
    check_sums(manual, re.sub(r"(\d+) entries and", r"\1, and", after), parts, known[letter][0], len(sheet))
    kinds = from_hex(re.search(r"its kinds are `([^`]*)`", after)[1])
    same(f"the kinds of the card of {name}", kinds, sheet[3 + sheet[2]:3 + sheet[2] + sheet[0]])
    return name


def kinds_in_header():
    """The kinds of parts with their names, in small letters, as the header has them."""
    comment = re.search(r"uint8_t kind; +/\* (.*?) \*/", HEADER.read_text(), flags=re.DOTALL)[1]
    return {int(number): name.lower() for number, name in re.findall(r"(\d+) ([A-Za-z ]+)", comment)}


# ---- section 7

def without_breaks(path):
    """The text of the header or of a wrapper, a comment on one line."""
    return re.sub(r"\n *(?:\*|//[/!]?) ", " ", path.read_text())


def stated_refusals(text):
    """The refusals of each call, in the order that the header or a wrapper states at the call."""
    found = {}
    for call, refusals in re.findall(r"\b([A-Z]{3,}): .*?(?:Refusal|Refusals, in this order:) ([^.]*)\.", text, flags=re.DOTALL):
        ranges = re.findall(r"(\d+)(?: to (\d+))?", refusals)
        found[call] = tuple(number for first, last in ranges for number in range(int(first), int(last or first) + 1))
    return found


def header_functions():
    """The C function of each call in the header."""
    return dict(re.findall(r"/\* ([A-Z]+): [^/]*?\*/\s*uint32_t (\w+)\(", HEADER.read_text()))


def published_orders():
    """The order of each call's refusals in the definitions, where it may begin with an order that several calls share; that the calls follow it is proved."""
    found = {}
    for path in (ROOT / "crates").glob("*/specs/Calls.antt"):
        for name, shared, numbers in re.findall(r"^(\w+)_order = (?:(\w+)_order \+\+ )?\(?((?:\d+ ∷ )+)\[\]\)?$", path.read_text(), flags=re.MULTILINE):
            found[name] = shared, tuple(int(number) for number in re.findall(r"\d+", numbers))
    shared_orders = {shared for shared, _ in found.values()}

    def whole(name):
        return (whole(found[name][0]) if found[name][0] else ()) + found[name][1]
    return {name.upper(): whole(name) for name in found if name not in shared_orders}


def said_to_rise(text, calls):
    """The calls in whose orders a text says that the numbers rise, or that the lowest is given: those that the sentence names, or all if it names none."""
    said = set()
    for sentence in re.split(r"(?<=[.;]) ", " ".join(text.split())):
        if "numbers rise" in sentence or "it is the lowest" in sentence:
            said |= {call for call in calls if re.search(rf"\b{call}\b", sentence)} or set(calls)
    return said


def check_falling(manual, orders, falling):
    """What the manual says of the orders in which the numbers do not rise: of IMPORT's, and of the others."""
    names, *numbers = manual.said(0, r"In those of ([^.]*), (\d+) comes right after (\d+), before (\d+) and (\d+)\.")
    late, before, *behind = (int(number) for number in numbers)
    call, *numbers = manual.said(0, r"In that of ([A-Z]+), (\d+) comes last, after (\d+) and (\d+)\.")
    same("the orders in which the numbers do not rise", sorted([*re.findall("[A-Z]+", names), call]), sorted(falling))
    last, *others = (int(number) for number in numbers)
    same(f"the order of {call}", orders[call], (*others, last))
    found = set()
    for order in (orders[other] for other in falling - {call}):
        place = order.index(late)
        same(f"what {late} comes right after in {order}", order[place - 1], before)
        found |= set(order[place + 1:])
    same(f"what {late} comes before", found, set(behind))


def check_orders(manual, orders):
    """The order of each call's refusals, as the manual's table has it: the same in the definitions, the model, the header and the wrappers, of which Python's
    lends room for every answer, and Rust's for those of IMPORT and EXPORT. The manual says of exactly those orders that they rise which do, and the header and
    the wrappers of no other."""
    room_aside = {call: tuple(number for number in order if number != 12) for call, order in orders.items()}
    same("the orders in the definitions", published_orders(), orders)
    same("the orders in the model", cases.REFUSALS_OF, orders)
    rising = {call for call, order in orders.items() if order == tuple(sorted(order))}
    same("the orders that the manual says to rise", said_to_rise(manual.sections[0], orders), rising)
    check_falling(manual, orders, set(orders) - rising)
    in_rust = orders | {call: room_aside[call] for call in cases.COMMA_CALLS}
    for path, wanted in ((HEADER, orders), (RUST_WRAPPER, in_rust), (PYTHON_WRAPPER, room_aside)):
        text = without_breaks(path)
        same(f"the orders in {path.name}", stated_refusals(text), wanted)
        same(f"the orders that {path.name} says to rise and that do not", said_to_rise(text, orders) - rising, set())
        COUNTS["orders stated"] += len(wanted)


def answer_where(ask, call, applying):
    """The answer of a call to which exactly these refusals apply."""
    if call == "CHECK":
        return ask.check(cases.card_refused_with(applying))
    case = cases.refusal_set_case(call, applying)
    if call == "IMPORT":
        return ask.import_lines(case.source, case.columns, len(case.buffer))
    if call == "EXPORT":
        return ask.export_lines(case.file, len(case.buffer))
    last = case.row if call in ("JUDGE", "RUN") else len(case.buffer)
    return getattr(ask, {"LIST": "rows"}.get(call, call.lower()))(case.source, case.file, last)


ROOM_SENTENCE = (r"With room for (\d+) parts in READ, ([\d,]+) bytes in CARD, ([\d,]+) rows in LIST, ([\d,]+) bytes in IMPORT "
                 r"and ([\d,]+) bytes in EXPORT no call refuses with 12\.")
ROOMS = ("PARTS", "CARD_BYTES", "ROWS", "TABLE_BYTES", "LINES_BYTES")


def check_calls(manual, ask, known):
    rows = manual.table(7, "Call", "C function", "Takes", "Answers", "Refusals, in the order in which they are tried").rows
    same("the calls and their functions in the header", {call: in_backticks(function) for call, function, _, _, _ in rows}, header_functions())
    orders = {call: numbers_in(refusals) for call, _, _, _, refusals in rows}
    check_orders(manual, orders)
    for call, refusals in orders.items():
        for applying in itertools.chain(itertools.combinations(refusals, 1), itertools.combinations(refusals, 2)):
            got = answer_where(ask, call, applying)
            same(f"{call} where {applying} apply", got, model.Refused(min(applying, key=refusals.index)))
            COUNTS["refusals tried"] += 1
    answers = {call: dict((word, int(number)) for number, word in re.findall(r"(\d) (\w+)", answer)) for call, _, _, answer, _ in rows}
    plain = roskudla.Calls(ROOT / "target" / "shared" / "libroskudla.so")
    truths = {word: plain.answered("judge", text, sized_file([(1, 1)])[:-1] + b"\1", 0)
              for word, text in (("false", b"1 = 2"), ("unknown", b"m.1 = 1"), ("true", b"1 = 1"))}
    same("JUDGE's answers", answers["JUDGE"], truths)
    yes_and_no = {word: plain.answered("run", model.card_bytes(entry, [1]), sized_file([(1, 1)]), 0) for word, entry in (("no", NO), ("yes", YES))}
    same("RUN's answers", answers["RUN"], yes_and_no)
    defines = [int(re.search(rf"#define ROSKUDLA_MOST_{name} (\d+)", HEADER.read_text())[1]) for name in ROOMS]
    same("room that is always enough", manual.numbers_said(7, ROOM_SENTENCE), defines)
    takes = {row[0]: row[2] for row in rows}
    same("the bits of LIST's numbers", re.findall(r"lent list of (\d+)-bit row numbers", takes["LIST"]), re.findall(r"uint(\d+)_t \*rows", HEADER.read_text()))


# ---- section 8

class CommaReader:
    """Comma lines by section 8: the bytes of its table, and the limits of its sentences."""

    def __init__(self, manual):
        rows = {what: (some, written) for what, some, written in manual.table(8, "What", "Bytes", "Written").rows}
        same("what comma lines are made of", list(rows), ["field", "minus", "digits", "`!`", "comma", "LF", "CR LF"])
        same("what a field is", rows["field"], ("", "a number, or nothing for a blank, or a `!` alone for a declined cell"))
        same("what a ! is", rows["`!`"][1], "of a declined cell, alone in its field")
        self.declined = from_hex(in_backticks(rows["`!`"][0]))
        self.minus, self.comma, self.lf, self.crlf = (from_hex(in_backticks(rows[what][0])) for what in ("minus", "comma", "LF", "CR LF"))
        first, last = re.fullmatch(r"`(..)` to `(..)`", rows["digits"][0]).groups()
        self.digits = bytes(range(from_hex(first)[0], from_hex(last)[0] + 1))
        self.digit_counts = limits_in(rows["digits"][1])
        self.numbers = manual.numbers_said(8, r"a number as in the text of a rule: (−[\d,]+) to ([\d,]+),")
        self.columns = manual.numbers_said(8, r"the number of columns is not (\d+) to (\d+),")
        self.most_rows, self.most_cells = manual.numbers_said(8, rf"there are over ({NUMBER}) lines, or lines × columns is over ({NUMBER})\.")
        self.length = manual.said(8, r"The file has `([^`]*)` bytes,")

    def lines(self, text):
        """The lines of a text, without their line ends."""
        found = []
        while text:
            line, end, text = text.partition(self.lf)
            found.append((line + end).removesuffix(self.crlf).removesuffix(self.lf))
        return found

    def is_number(self, field):
        digits = field.removeprefix(self.minus)
        low, high = self.digit_counts
        return low <= len(digits) <= high and not set(digits) - set(self.digits) and self.numbers[0] <= int(field) <= self.numbers[1]

    def cell(self, field):
        """The cell of a field that is not bad."""
        return {b"": model.BLANK_CELL, self.declined: model.DECLINED_CELL}[field] if field in (b"", self.declined) else int(field)

    def rows(self, text, columns):
        """The rows of some lines; None where refusal 14 applies."""
        rows = [line.split(self.comma) for line in self.lines(text)]
        good = all(len(row) == columns and all(field in (b"", self.declined) or self.is_number(field) for field in row) for row in rows)
        if not good or not self.columns[0] <= columns <= self.columns[1]:
            return None
        return [[self.cell(field) for field in row] for row in rows]

    def imported(self, text, columns):
        """IMPORT's answer with room enough."""
        rows = self.rows(text, columns)
        if rows is None:
            return model.Refused(14)
        if len(rows) > self.most_rows or len(rows) * columns > self.most_cells:
            return model.Refused(15)
        cells = [cell for row in rows for cell in row]
        file = bytes([1, columns]) + len(rows).to_bytes(2, "little")
        file += b"".join((cell if isinstance(cell, int) else 0).to_bytes(4, "little", signed=True) for cell in cells) + bytes(map(model.mark_of, cells))
        same(f"the length of the file of {text[:40]}", len(file), worked_out(self.length, rows=len(rows), columns=columns))
        return file

    def exported(self, rows):
        """The lines that EXPORT writes of some rows."""
        words = {"blank": b"", "declined": self.declined}
        return b"".join(self.comma.join(words.get(word_of(cell), str(cell).encode()) for cell in row) + self.lf for row in rows)


# what the manual names as bytes that no field may have
OTHER_BYTES = {"a space": b" ", "a quotation mark": b'"', "a plus": b"+", "a point": b".", "a semicolon": b";", "a tab": b"\t",
               "a byte order mark": b"\xef\xbb\xbf", "a CR that is not right before an LF": b"\r"}


def check_other_bytes(manual, ask, reader):
    """Each byte in front of a number, in it and behind it: what is no digit, comma, minus or line end makes the field bad, and so does all that is named."""
    named, alone = manual.said(8, r"Any other byte makes the field that it stands in a bad one: (.*?)\. So does a `(.)` with any other byte of the field "
                                  r"beside it, a second `!` included\. Nothing is cut off and nothing is skipped\.")
    same("the bytes that are named", re.split(r", (?:or )?", named), list(OTHER_BYTES))
    same("the byte that has to be alone", alone.encode(), reader.declined)
    for byte, form in itertools.product(set(BYTE_VALUES) - set(b",\n"), (b"!%b", b"%b!", b"!%b\n", b"%b!\r\n", b"!%b!", b"!\r%b")):
        text = form % bytes([byte])
        wanted = model.Refused(14) if not text.endswith(b"!\r\n") or len(text) > 3 else reader.imported(b"!", 1)
        same(f"a field of {text}", ask.import_lines(text, 1, SMALL_ROOM), wanted)
        COUNTS["bytes beside ! tried"] += 1
    for some in OTHER_BYTES.values():
        for field in (some, some + b"12", b"1" + some + b"2", b"12" + some):
            same(f"a field of {field}", ask.import_lines(field, 1, SMALL_ROOM), model.Refused(14))
    for byte, form in itertools.product(BYTE_VALUES, (b"%b", b"%b12\n", b"1%b2\n", b"12%b\n", b"12%b")):
        for columns in (1, 2):
            text = form % bytes([byte])
            same(f"{text} with {columns} columns", ask.import_lines(text, columns, SMALL_ROOM), reader.imported(text, columns))
            COUNTS["bytes of fields tried"] += 1


def check_drawn_lines(ask, draws, reader):
    """Lines that are easily taken wrongly, and drawn ones, right and damaged: IMPORT's answer is what section 8 says, with just its length as room."""
    seen = collections.Counter()
    for text, columns in [*cases.TRAP_LINES, *(cases.drawn_lines(draws) for _ in range(DRAWN_LINES))]:
        wanted = reader.imported(text, columns)
        same(f"{text[:200]} with {columns} columns", ask.import_lines(text, columns, AMPLE_FILE_ROOM), wanted)
        if not isinstance(wanted, model.Refused):
            same("IMPORT with just room enough", ask.import_lines(text, columns, len(wanted)), wanted)
            same("IMPORT with a byte too little", ask.import_lines(text, columns, len(wanted) - 1), model.Refused(12))
            same("a file that IMPORT made", tables_refusal(ask, wanted), None)
        seen[getattr(wanted, "number", None)] += 1
    for sort, least in ((None, 300), (14, 300), (15, 1)):
        demand(f"{sort} was drawn {seen[sort]} times", seen[sort] >= least)
    COUNTS["drawn lines"] = seen.total()


def check_there_and_back(ask, draws, reader):
    """EXPORT of drawn tables, and IMPORT of what it writes: table 1 alone, with 0 under each blank. What IMPORT made comes back."""
    for file in (generate.random_tables(draws) for _ in range(DRAWN_FILES * 3)):
        tables = model.tables_of(file)
        rows, columns = tables.rows_of(1), tables.columns[0]
        lines = ask.export_lines(file, AMPLE_COMMA_ROOM)
        same(f"the lines of {file.hex(' ')}", lines, reader.exported(rows))
        same("the length of the lines", len(lines), sum(len(reader.exported([[cell]])) for row in rows for cell in row))
        if lines:
            same("EXPORT with a byte too little", ask.export_lines(file, len(lines) - 1), model.Refused(12))
        same("EXPORT with just room enough", ask.export_lines(file, len(lines)), lines)
        back = ask.import_lines(lines, columns, AMPLE_FILE_ROOM)
        same("what is imported again", (model.tables_of(back), back), (model.Tables([columns], [rows]), reader.imported(lines, columns)))
        same("the lines of what is imported again", ask.export_lines(back, AMPLE_COMMA_ROOM), lines)
        COUNTS["tables there and back"] += 1


def check_comma_limits(manual, ask, reader):
    """The longest answers, and both sides of the limits."""
    longest, size, cells, factors, total = manual.said(
        8, rf"The longest field, `([^`]*)`, has (\d+) bytes, and there are at most ({NUMBER}) cells, so the lines have at most (.*?) = ({NUMBER}) bytes\.")
    same("the longest field", (longest, int(size)), (str(reader.numbers[0]), max(len(str(number)) for number in reader.numbers)))
    same("the most cells", whole_number(cells), reader.most_cells)
    same("the factors of the longest lines", [whole_number(factor) for factor in factors.split(" × ")], [reader.most_cells, int(size) + 1])
    rows = reader.most_cells // reader.columns[1]
    line = ",".join([longest] * reader.columns[1]).encode()
    file = ask.import_lines((line + reader.lf) * rows, reader.columns[1], AMPLE_FILE_ROOM)
    same("the longest tables file", [len(file)], manual.numbers_said(8, rf"which is at most ({NUMBER})\. It is never refused"))
    same("the longest lines", len(ask.export_lines(file, AMPLE_COMMA_ROOM)), whole_number(total))
    lines, refusal = manual.numbers_said(8, rf"each on all lines before the next: a bad field in the last of ({NUMBER}) lines gets (\d+)\.")
    text = reader.lf * (lines - 1)
    answers = [ask.import_lines(some, 1, AMPLE_FILE_ROOM) for some in (text, text + b"1", text + b"x")]
    same("rows up to the limit", (len(answers[0]), lines), (worked_out(reader.length, rows=lines - 1, columns=1), reader.most_rows + 1))
    same("a row more, and with a bad field", answers[1:], [model.Refused(15), model.Refused(refusal)])
    for columns in range(1, reader.columns[1] + 1):
        rows = min(reader.most_rows, reader.most_cells // columns)
        line = reader.comma * (columns - 1) + reader.lf
        answers = [ask.import_lines(line * count, columns, AMPLE_FILE_ROOM) for count in (rows, rows + 1)]
        same(f"rows of {columns} columns up to the limit", answers, [reader.imported(line * rows, columns), model.Refused(15)])


# sentences of section 8 without numbers, which the reader above follows
COMMA_SENTENCES = (
    "They are RFC 4180 without quotes, and without a header line.",
    "A field is empty, which is a blank, or a `!` alone, which is declined, or a number as in the text of a rule:",
    "A line is one field or more, with a comma between two. So a line has one field more than it has commas, "
    "and an empty line has one field, which is empty. A line ends in LF or in CR LF; a file may have both. The last line may have no line end. "
    "No line begins after the last line end: what stands behind it is a line only if it is not empty. A file without bytes has no lines.",
    "The number of a present cell has no zeros in front and no plus,",
    "Each cell takes the bytes of its field and one more, for the comma or the LF behind it.",
    "So a file that IMPORT made comes back byte for byte.",
    "with the same cells, in the form that EXPORT writes: LF at the end of each line, and no spare zeros.",
    "lines are written as the text of their fields in backticks, with LF and CR for these bytes; what is repeated stands in brackets.")


def check_comma_lines(manual, ask, draws):
    reader = CommaReader(manual)
    for sentence in COMMA_SENTENCES:
        manual.said(8, re.escape(sentence))
    check_other_bytes(manual, ask, reader)
    check_drawn_lines(ask, draws, reader)
    check_there_and_back(ask, draws, reader)
    check_comma_limits(manual, ask, reader)


def lines_meanings(text, reader):
    """The fields, commas and line ends of comma lines with their meanings, as the manual writes them."""
    for row, line in enumerate(reader.lines(text)):
        for column, field in enumerate(line.split(reader.comma), 1):
            if column > 1:
                yield len(reader.comma), "comma"
            cell = reader.cell(field)
            yield len(field), f"row {row}, column {column}: {word_of(cell) if model.counts_as_blank(cell) else with_minus(cell)}"
        text = text[len(line):]
        end = next((end for end in (reader.crlf, reader.lf) if text.startswith(end)), b"")
        if end:
            yield len(end), f"line end: {'CR LF' if end == reader.crlf else 'LF'}"
        text = text[len(end):]


def check_worked_lines(manual, ask, known):
    """Lines L, file G and lines M: their bytes, their meanings, and that each is made of the one before."""
    reader = CommaReader(manual)
    examples = worked_examples(manual, 8)
    same("the worked lines", [example.name for example in examples], ["Lines L", "File G", "Lines M"])
    lines, file, again = examples
    for example in (lines, again):
        check_meanings(example, lines_meanings(example.whole, reader))
    check_meanings(file, file_meanings(file.whole, "0, as the cell is {}"))
    known.update((example.name[-1], example.whole) for example in examples)

    columns, rows = re.search(r"Four lines for (\d+) columns, with both line ends and none: (.*)\.", lines.about).groups()
    said = [[cell_of(cell) for cell in row.split(", ")] for row in re.findall(r"\(([^)]*)\)", rows)]
    same("the sorts of cells in lines L", {word_of(cell) for row in said for cell in row}, set(MARK_WORDS.values()))
    same("the rows of lines L", reader.rows(lines.whole, int(columns)), said)
    ends = [meaning for _, meaning in lines.rows if "line end" in meaning]
    same("the line ends of lines L", (len(said), ends, lines.whole[-1:] == reader.lf), (4, ["line end: CR LF", "line end: LF", "line end: LF"], False))
    same("what is said of file G", re.search(r"What IMPORT makes of lines ([A-Z]) with (\d+) columns: .* = (\d+) bytes", file.about).groups(),
         ("L", columns, str(len(file.whole))))
    same("IMPORT of L", ask.import_lines(lines.whole, int(columns), len(file.whole)), file.whole)
    same("EXPORT of G", ask.export_lines(file.whole, len(again.whole)), again.whole)
    terms, length = re.search(r"What EXPORT writes of file G: (.*) = (\d+) bytes\.", again.about).groups()
    cells = [len(reader.exported([[cell]])) for row in said for cell in row]
    same("the bytes of each cell of M", (terms, int(length)), (" + ".join(map(str, cells)), len(again.whole)))
    same("what is said of M", re.search(r"IMPORT of lines (.) with (\d+) columns makes file (.) again\.", again.about).groups(), ("M", columns, "G"))
    same("IMPORT of M", ask.import_lines(again.whole, int(columns), len(file.whole)), file.whole)


def lines_from(cell, known):
    """The lines that a cell of the examples describes: nothing, the name of worked ones, or fields in backticks, LF and CR, and these in brackets so many
    times."""
    if cell == "nothing" or cell in ("L", "M"):
        return b"" if cell == "nothing" else known[cell]
    pieces = list(re.finditer(rf"\(([^()]+)\) ({NUMBER}) times|`([^`]+)`|(LF|CR)", cell))
    same(f"lines: {cell}", " ".join(piece[0] for piece in pieces), cell)
    text = b""
    for piece in pieces:
        repeated, times, field, end = piece.groups()
        text += lines_from(repeated, known) * whole_number(times) if repeated else field.encode() if field else {"LF": b"\n", "CR": b"\r"}[end]
    return text


# why lines are refused with 14: what has to be replaced in them, and by what, or which number of columns to name, for IMPORT to take them
MENDED_LINES = {
    "14 comes before 12": {"columns": 2}, "an empty line has one field": {"columns": 1}, "no columns": {"columns": 1}, "over 16 columns": {"columns": 16},
    "behind the comma there is a second field, which is empty": {"columns": 2}, "the second line has one field": {"\n9": "\n9,"},
    "a number behind the `!`": {"7": ""}, "a `!` behind a number": {"!": ""}, "a minus in front of the `!`": {"-": ""}, "two of them in a field": {"!!": "!"},
    "a space behind the `!`": {" ": ""},
    "one above the largest number": {"3648": "3647"}, "eleven digits": {"07": "7"}, "a minus without digits": {"-": "-1"}, "a plus": {"+": ""},
    "a point": {".0": ""}, "a space": {" ": ""}, "a semicolon": {";": ","}, "quotation marks": {'"': ""}, "a CR without an LF right behind it": {"\r": "\r\n"},
    "14 comes before 15": {"x": ""}}


def mended(why, text, columns):
    """Lines and columns without the fault that they are refused for."""
    for old, new in MENDED_LINES[why].items():
        if old == "columns":
            same(f"another number of columns: {why}", columns != new, True)
            columns = new
        else:
            demand(f"{old} stands in lines that are refused for {why}", old.encode() in text)
            text = text.replace(old.encode(), new.encode())
    return text, columns


# what is said of lines that are not refused with 14: a test of the lines, the columns, the room and the answer
WHY_LINES = {
    "just room enough": lambda lines, columns, room, answer: room == len(answer),
    "a byte too little": lambda lines, columns, room, answer: room == len(model.import_lines(lines, columns, AMPLE_FILE_ROOM)) - 1,
    "the form of the lines makes no difference": lambda lines, columns, room, answer: b"\r" not in lines,
    "no lines, no rows": lambda lines, columns, room, answer: lines == b"" and model.tables_of(answer).rows == [[]],
    "the last line may have no line end": lambda lines, columns, room, answer: not lines.endswith(b"\n"),
    "no line begins after the last line end": lambda lines, columns, room, answer: lines.endswith(b"\n") and lines.count(b"\n") == cases.row_count(answer),
    "the other line end": lambda lines, columns, room, answer: lines.endswith(b"\r\n"),
    "the second line is empty: one blank": lambda lines, columns, room, answer: model.tables_of(answer).rows[0][1:] == [[None]],
    "one line, which is empty": lambda lines, columns, room, answer: lines == b"\n" and model.tables_of(answer).rows == [[[None]]],
    "one declined cell": lambda lines, columns, room, answer: model.tables_of(answer).rows == [[[model.DECLINED_CELL]]],
    "declined, blank, declined": lambda lines, columns, room, answer: model.tables_of(answer).rows == [[[model.DECLINED_CELL, None, model.DECLINED_CELL]]],
    "two blanks": lambda lines, columns, room, answer: model.tables_of(answer).rows == [[[None, None]]],
    "the number 0": lambda lines, columns, room, answer: model.tables_of(answer).rows == [[[0]]],
    "the smallest number": lambda lines, columns, room, answer: model.tables_of(answer).rows == [[[LOWEST]]],
    "ten digits": lambda lines, columns, room, answer: len(lines) == 10 and lines.isdigit(),
    "as many rows as there may be": lambda lines, columns, room, answer: model.import_lines(lines + b"1", columns, AMPLE_FILE_ROOM) == model.Refused(15),
    "one more; and 15 comes before 12": lambda lines, columns, room, answer: room == 0 and lines.count(b"\n") == model.MOST_ROWS + 1,
    "as many cells as there may be": lambda lines, columns, room, answer: lines.count(b"\n") * columns == model.MOST_CELLS,
}


def comma_answer(cell, known):
    """The answer that a cell says: a refusal, worked or written bytes, lines, or a length."""
    refusal, length = re.fullmatch(r"refusal (\d+)", cell), re.fullmatch(rf"({NUMBER}) bytes", cell)
    if refusal or length:
        return model.Refused(int(refusal[1])) if refusal else whole_number(length[1])
    if cell in ("G", "F", "H"):
        return known[cell]
    return from_hex(in_backticks(cell)) if re.fullmatch(r"`[0-9A-F]{2}( [0-9A-F]{2})+`", cell) else lines_from(cell, known)


def room_from(cell, ample):
    return whole_number(cell) if cell else ample


def check_import_example(ask, known, row):
    """An example of IMPORT, and whether the reason that is given for it is one."""
    written, named, room, said, why = row
    text, columns, wanted = lines_from(written, known), int(named), comma_answer(said, known)
    lent = room_from(room, AMPLE_FILE_ROOM)
    answer = ask.import_lines(text, columns, lent)
    same(f"IMPORT of {written} with {named} columns, {why}", len(answer) if isinstance(wanted, int) else answer, wanted)
    cells = re.fullmatch(rf"({NUMBER}) cells", why)
    if cells:
        same(f"the cells of {written}", text.count(b"\n") * columns, whole_number(cells[1]))
    elif wanted == model.Refused(14):
        right = ask.import_lines(*mended(why, text, columns), AMPLE_FILE_ROOM)
        demand(f"{written} without what it is refused for is accepted: {why}", isinstance(right, bytes))
        demand(f"12 would apply too, where it is said: {why}", why != "14 comes before 12" or lent < len(right))
        demand(f"15 would apply too, where it is said: {why}", why != "14 comes before 15" or text.count(b"\n") == model.MOST_ROWS)
        demand(f"how many digits these are: {why}", why != "eleven digits" or len(text) == 11)
    else:
        demand(f"{written} with {named} columns: {why}", WHY_LINES[why](text, columns, lent, answer))
    COUNTS["examples of IMPORT"] += 1


def check_comma_examples(manual, ask, known):
    imports = manual.table(8, "Lines", "Columns", "Room", "Answer of IMPORT", "Why").rows
    for row in imports:
        check_import_example(ask, known, row)
    reasons = [why for *_, why in imports if not why.endswith(" cells")]
    same("what the examples of IMPORT show", sorted(reasons), sorted([*MENDED_LINES, *WHY_LINES]))
    same("the refusals of the examples of IMPORT", {said for *_, said, _ in imports if "refusal" in said}, {"refusal 12", "refusal 14", "refusal 15"})

    exports = manual.table(8, "File", "Room", "Answer of EXPORT", "Why").rows
    for written, room, said, why in exports:
        file, wanted = known[written] if written in known else from_hex(in_backticks(written)), comma_answer(said, known)
        same(f"EXPORT of {written}, {why}", ask.export_lines(file, room_from(room, AMPLE_COMMA_ROOM)), wanted)
        demand(f"EXPORT of {written}: {why}", WHY_FILES[why](file, room_from(room, AMPLE_COMMA_ROOM), wanted))
        COUNTS["examples of EXPORT"] += 1
    same("what the examples of EXPORT show", sorted(why for *_, why in exports), sorted(WHY_FILES))
    same("the refusals of the examples of EXPORT", {said for _, _, said, _ in exports if "refusal" in said}, {"refusal 1", "refusal 2", "refusal 12"})


# what is said of files that are exported: a test of the file, the room and the answer
WHY_FILES = {
    "just room enough": lambda file, room, answer: room == len(answer),
    "a byte too little": lambda file, room, answer: room == len(model.export_lines(file, AMPLE_COMMA_ROOM)) - 1,
    "table 1 alone; nothing of the bytes under its blank": lambda file, room, answer: file[0] > 1 and file[22:26] == b"\7\0\0\0" and b"7" not in answer,
    "no rows": lambda file, room, answer: answer == b"" and model.tables_of(file).rows == [[]],
    "one blank": lambda file, room, answer: model.tables_of(file).rows == [[[None]]],
    "the longest field": lambda file, room, answer: len(answer) == 12,
    "nothing of the bytes under declined cells either": lambda file, room, answer: b"\7" in file and b"7" not in answer and answer.count(b"!") == 2,
    "one declined cell": lambda file, room, answer: model.tables_of(file).rows == [[[model.DECLINED_CELL]]],
    "the mark is 3; and 2 comes before 12": lambda file, room, answer: file[-1] == 3 and room == 0,
    "no tables": lambda file, room, answer: file == b"\0",
}


# ---- numbers in sentences

# sentences of the sections, with # for a number, and the numbers: what the groups above have tried
SENTENCES = (
    (0, "Offsets count bytes from #.", (0,)),
    (0, "A signed field has # bytes in two's complement,", (4,)),
    (0, "Tables and columns are numbered from #; rows, cells, entries, parts and levels from #.", (1, 0)),
    (0, "A refusal is a number from # to #.", (min(roskudla.REASONS), max(roskudla.REASONS))),
    (0, "Where several refusals of a call apply, the first in the call's order in section # is given.", (7,)),
    (1, "A table without rows has no cells; its columns are still # to #.", (1, model.MOST_COLUMNS)),
    (1, "The value bytes of a blank or declined cell may be anything and affect no answer.", ()),
    (1, "A declined cell is blank in every respect. Wherever these pages speak of a blank cell, one with the mark # is covered too; "
        "a plain blank is one with the mark #.", (model.MARK_DECLINED, model.MARK_BLANK)),
    (1, "A form writes # where somebody was asked and refused to answer, and # where the answer is not known:", (model.MARK_DECLINED, model.MARK_BLANK)),
    (1, "Refusal #: T, the columns or the rows of a table, or C is not within these limits, or the length is not exactly this.", (1,)),
    (1, "Every call that takes a tables file looks for #, then for #, before anything else.", (1, 2)),
    (2, "The bytes of fields that a kind does not use are #.", (0,)),
    (2, "the number is a column, counted from #, of the row at which this level stands. Level # stands at the judged row, a row of table #.", (1, 0, 1)),
    (2, "Entries of kinds # and # are row entries: inside a row entry there is one level more than around it,", (model.SOME_ROW, model.EVERY_ROW)),
    (2, "Negated is for section #: a card itself has no negation.", (5,)),
    (2, "the outermost row entry brings level #, a row entry inside it level #, and one inside that level #.", (1, 2, model.MOST_FROMS)),
    (2, "the first inner entry of entry i is entry i + #, and the second is the entry whose number is the end of the first.", (1,)),
    (2, "The end of an entry of kinds # to # is i + #, that of kinds # and # the end of its inner entry, "
        "that of kinds # and # the end of its second inner entry, and that of entry # is n.", (5, 10, 1, 3, 4, 1, 2, 0)),
    (3, "CHECK accepts a card exactly when all of these hold, and refuses any other bytes with #.", (9,)),
    (3, "All four bytes of a constant are free, and a constant may stand wherever a value is used, in kinds # to # too.", (model.BLANK, model.NOT_DECLINED)),
    (4, "The answer of a card on a row of table # is that of entry #, with level # at that row.", (1, 0, 0)),
    (4, "A constant is neither blank nor declined.", ()),
    (4, "a row is a list of cells, a plain blank is None, and a declined cell is DECLINED. "
        "No entry of a sound card can fail, so it makes no difference where a runner stops once the answer is decided.", ()),
    (4, "A controller looks at the mark # in kinds # and # alone; in kinds # to # it takes a declined value for a blank one.",
     (model.MARK_DECLINED, model.DECLINED, model.NOT_DECLINED, model.UNKNOWN_IS_NO, model.NOT_BLANK)),
    (4, "It refuses with the first of these that applies: # or #, by the tables file; #, the card is not sound; #, the card's T differs from the file's, "
        "or the columns of some table do (row counts, values and marks are free); #, the row is not in table #: "
        "its number is not below the rows of table #.", (1, 2, 9, 10, 11, 1, 1)),
    (4, "writes the numbers of the rows of table # on which the card says yes: rising, one element each, from the start of the list.", (1,)),
    (4, "It refuses with #, #, # and # as RUN does, and with # where the list has fewer elements than there are such rows.", (1, 2, 9, 10, 12)),
    (4, "Where table # has no rows, RUN refuses every row with #, and LIST answers #.", (1, 11, 0)),
    (5, "CARD translates the parts of a rule (section #).", (6,)),
    (5, "`#` alone is an entry of kind #, and `#(x)` and `#(x, y)` are entries with their inner entries.", (5, 5, 3, 1)),
    (5, "Negating an entry replaces its kind, and in kinds # and # its comparison, by the number under Negated in section #,", (5, 6, 2)),
    (5, "What sections # to # say of cards is the same with truth tests as without: the kinds # to #, which cards are sound, what they answer, and the length",
     (2, 4, model.PAIR_AND, model.NOT_DECLINED)),
    (5, "A controller from before knows neither:", ()),
    (5, "After that forms may write declined cells, and rules may ask for them.", ()),
    (5, "Refusal #: n is over #.", (13, model.MOST_ENTRIES)),
    (5, "Rules without parts of kinds # and # never get it.", model.INNER_TWICE),
    (5, "With any later tables file that is not refused with # or # and has the same T and the same columns,", (1, 2)),
    (5, "CARD refuses with # where the lent buffer has fewer bytes than the card,", (12,)),
    (5, "Entry # is the negated WHERE, entry # the comparison with the selected value.", (2, 3)),
    (6, "so compare parts field by field; see # in [DECISIONS.md]", (29,)),
    (6, "Fields that a kind does not use are #. In kinds # and # the right value is the selected one,", (0, model.KIND_SOME, model.KIND_ALL)),
    (6, "brackets are none, and the NOT of IS NOT NULL, of IS NOT DECLINED, of NOT IN and of a truth test belongs to its test.", ()),
    (6, "The first NOT is a part; the second one belongs to IS NOT DECLINED.", ()),
    (6, "A truth test is one part, of kinds # to #; the condition in its brackets is its inner part.", (model.KIND_IS_TRUE, model.KIND_IS_NOT_UNKNOWN)),
    (6, "The names and the inner parts of the kinds are in the table of section #.", (5,)),
    (6, "The list's letter is `m` again, so `m.#` is level # left of the list, and level # in SELECT and WHERE.", (1, 0, 1)),
    (7, "A C function returns #, or the number of the refusal,", (0,)),
    (7, "Refusals # to # and # are about the text of a rule:", (3, 8, 13)),
    (7, "Refusals # and # are about comma lines: section # has them.", (14, 15, 8)),
    (8, "IMPORT makes a tables file with this single table, and EXPORT writes table # of a tables file.", (1,)),
    (8, "and `-#` is #.", (0, 0)),
    (8, "Line r, counted from #, becomes row r of table #, and field c of it, counted from #, column c.", (0, 1, 1)),
    (8, "A cell has the mark # and its number, or the mark # and # as its value where it is blank, "
        "or the mark # and # as its value where it is declined. There are no other tables, so T is #.", (0, 1, 0, 2, 0, 1)),
    (8, "It is never refused with # or #.", (1, 2)),
    (8, "Refusal #: the number of columns is not # to #, a field is neither empty nor a `!` alone nor a number, "
        "or a line has fewer or more fields than there are columns. Refusal #: there are over", (14, 1, model.MOST_COLUMNS, 15)),
    (8, "Refusal #: the lent buffer has fewer bytes than the file. They are tried in this order,", (12,)),
    (8, "writes a line with LF behind it for each row of table #: its fields by column,", (1,)),
    (8, "has no zeros in front and no plus, and # is written `#`; a blank is an empty field, and a declined cell is `!`.", (0, 0)),
    (8, "Other tables are left out, and must be right: # and # are looked for in the whole file.", (1, 2)),
    (8, "Refusal #: the lent buffer has fewer bytes than the lines.", (12,)),
    (8, "with the number of columns of table #, gives a tables file with table # alone: the same cells and the same marks, "
        "with # as the value under each blank and each declined cell.", (1, 1, 0)),
)


def check_sentences(manual):
    for section, sentence, numbers in SENTENCES:
        pattern = re.escape(sentence).replace(r"\#", r"(\d+)")
        said = manual.numbers_said(section, pattern) if numbers else [manual.said(section, pattern)][1:]
        same(f"section {section}: {sentence}", said, list(numbers))
    COUNTS["sentences with numbers"] = len(SENTENCES)


# ---- the whole

class Known(dict):
    """What the groups have found in the manual for those after them."""

    def __missing__(self, name):
        raise Wrong(f"{name} was not found before")


def check_everywhere(manual):
    """What holds of the whole manual: every sum comes out, every table was compared, and no section is missing."""
    text = " ".join(block for blocks in manual.blocks.values() for block in blocks if isinstance(block, str))
    sums = re.findall(rf"(?<![\w`] [+−×] )({NUMBER}(?: [+−×] {NUMBER})+) = ({NUMBER})", text)
    for written, total in sums:
        same(f"{written} = {total}", worked_out(written.replace(",", "")), whole_number(total))
    demand("at least eleven sums are written out", len(sums) >= 11)
    same("the sections", sorted(manual.sections), list(range(9)))
    tables = manual.all_tables()
    same("tables that were not compared", [manual.blocks[number][place].header for number, place in tables if (number, place) not in manual.seen], [])
    same("how many tables there are", len(tables), TABLE_COUNT)
    for link in re.findall(r"\]\(([^)]*)\)", MANUAL.read_text()):
        demand(f"{link} is there", (MANUAL.parent / link).exists())


def main():
    manual = Manual(MANUAL.read_text())
    draws = random.Random(SEED)
    ask = Asked(Built())
    known = Known()
    groups = (
        ("the tables file", lambda: check_tables_file(manual, ask, draws, known)),
        ("the card", lambda: check_card_layout(manual, ask, draws, known)),
        ("worked cards", lambda: check_worked_cards(manual, ask, known)),
        ("sound cards", lambda: check_soundness(manual, ask, draws, known)),
        ("what kinds answer", lambda: check_answers(manual, ask, known)),
        ("the runner", lambda: check_runner(manual, ask, draws, known)),
        ("calls", lambda: check_call_examples(manual, ask, known)),
        ("the translation", lambda: check_translation(manual, ask, draws, known)),
        ("parts", lambda: check_parts(manual, ask, known)),
        ("the table of calls", lambda: check_calls(manual, ask, known)),
        ("comma lines", lambda: check_comma_lines(manual, ask, draws)),
        ("worked lines", lambda: check_worked_lines(manual, ask, known)),
        ("examples of IMPORT and EXPORT", lambda: check_comma_examples(manual, ask, known)),
        ("sentences", lambda: check_sentences(manual)),
        ("the whole manual", lambda: check_everywhere(manual)),
    )
    failed = []
    for name, check in groups:
        try:
            check()
        except Wrong as wrong:
            failed.append(name)
            print(f"formats: {name}: {wrong}", file=sys.stderr)
        except Exception:  # something that a check needs is missing or cannot be read: a failure too
            failed.append(name)
            print(f"formats: {name}:\n{traceback.format_exc()}", file=sys.stderr)
    counts = ", ".join(f"{count} {what}" for what, count in COUNTS.items())
    print(f"formats: {len(groups) - len(failed)} of {len(groups)} groups agree; {counts}")
    return 1 if failed else 0


if __name__ == "__main__":
    sys.exit(main())
