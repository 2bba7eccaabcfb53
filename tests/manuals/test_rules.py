"""docs/RULES.md against the reference model and the library as built: each example is read from the manual and tried on both.

The manual is plain Markdown. What this program finds in it:

- a fenced block `tables`: the tables that the examples of its section are tried with; a section without one has those of the first section
- a fenced block `rule`: a rule, with the values that the next line of text gives it: "Rows 0 to 4: T F U F T"
- a fenced block `grammar`: the forms of the grammar, a line each
- a fenced block `lines`: comma lines, of which the tables file is made that the examples behind it are tried with; and `exported`: the comma lines of that file
- a table whose first column is "Row": the rows of that file, or for each of its lines what a rule says of it and what the gate does
- a table whose first column is "Lines": comma lines, and how many rows they have or what they are refused with; `lines_of` says how they are written
- a table whose first column is "Cell": what the tests of a value and comparisons say of such a cell, and one whose first column is "At the sign-up form": which
  cell, mark and field a form writes
- indented code that begins with an import of the wrapper: it is run, on files that are put there for it
- a table with a column "Rule": an example in each line, and what is tried of it in the other columns (RULE_COLUMNS); `text_of` says how an example is written.
  What an explanation there says to write is a rule, and is accepted
- tables of other sorts, by the heading of their first column (`sorts` of Manual)

A fenced block, a table, a column or an example of any other sort is a fault, and so is a section with fewer examples than AT_LEAST says.
Exit status 0 when everything that the manual says of its examples is so on the model and on the library. The last line has the counts.
"""
import collections
import datetime
import functools
import io
import itertools
import pathlib
import random
import re
import string
import sys
import typing

ROOT = pathlib.Path(__file__).resolve().parents[2]
sys.path[:0] = [str(ROOT / "tests" / "calls")]

import compare  # noqa: E402
import end_to_end  # noqa: E402
import examples  # noqa: E402
import library  # noqa: E402
import paper  # noqa: E402

import cases  # noqa: E402  (library adds the model's folder to the path)
import generate  # noqa: E402
import model  # noqa: E402

NAME = "docs/RULES.md"
SEED = 20261116
DERIVED_TEXTS = 1500
LATER_FILES = 25
DRAWN_CONDITIONS = 150
DRAWN_LINES = 400
AMPLE_FILE_ROOM = 65000
AMPLE_COMMA_ROOM = 100000
ONE_ROW_ROOM = 4 + 5 * model.MOST_COLUMNS
DRAWN_DECLINED = 120
TRUTHS = {"T": model.TRUE, "U": model.UNKNOWN, "F": model.FALSE}
TESTS = {"T": "1 = 1", "U": "m.1 = 1", "F": "1 = 2"}  # with these values where m.1 is blank
NUMBERS = {letter: number for number, truth in library.TRUTHS.items() for letter in TRUTHS if TRUTHS[letter] == truth}  # of the letters, as JUDGE gives them
TRUTH_TESTS = tuple(f"IS{' NOT' * has_not} {word}" for word in model.TRUTH_WORDS for has_not in (False, True))
READING_REFUSALS = (*range(1, 9), 13)
VALUE_TESTS = tuple(f"IS{' NOT' * has_not} {word}" for word in ("NULL", "DECLINED") for has_not in (False, True))
LOWEST, HIGHEST = -2**31, 2**31 - 1

# how many examples of each sort a section has to have; every section stands here
AT_LEAST = {
    "Start": {"values": 4},
    "How a rule is written": {"tokens": 27, "answers": 31, "grammar": 1, "readings": 13, "limits": 8, "parts": 12, "entries": 12, "hints": 13},
    "Blanks": {"values": 28, "cases": 12, "connectives": 21, "connectives as numbers": 21, "lists": 42, "truth tests": 18},
    "Declined answers": {"cells": 28, "constants": 14, "values": 23, "forms": 5},
    "NOT IN with a blank in the list": {"values": 8},
    "Blanks that IS UNKNOWN does not find": {"values": 8, "worked rows": 5},
    "Refusals": {"refusals": 15, "answers": 54, "written instead": 11, "hints": 1, "same values": 5},
    "Rules ready to use": {"ready rules": 7, "values": 17},
    "From a spreadsheet to a tables file": {"lines": 1, "rows of lines": 4, "lengths": 1, "comma lines": 38, "faults": 30},
    "A page of the till's file worked through": {
        "lines": 1, "rows of lines": 6, "lengths": 1, "ready rules": 1, "rows at the gate": 6, "listed": 1, "values": 3, "exported": 1},
}
WHOLE = "the manual as a whole"


class Fault(Exception):
    """The manual says what is not so, or says it in a way that cannot be tried."""


def number_from(written):
    """A number as the manual writes it: in figures, with commas and a long minus, or as a word."""
    words = "zero one two three four five six seven eight nine ten eleven twelve".split()
    if written in words:
        return words.index(written)
    try:
        return int(written.replace(",", "").replace("−", "-"))
    except ValueError:
        raise Fault(f"no number: {written}") from None


# ---- who answers

def refusal_in(answer):
    """The number of a refusal, or None."""
    return answer.number if isinstance(answer, model.Refused) else None


class Model:
    """The reference model."""
    name = "the model"

    def refusal(self, text, file):
        """The number that reading refuses with, or None."""
        return refusal_in(self.parts(text, file))

    def parts(self, text, file):
        """READ's parts."""
        return model.read(text, file, model.MOST_PARTS)

    def entries(self, text, file):
        """How many entries CARD's card has."""
        return int.from_bytes(model.card(text, file, end_to_end.LONGEST_CARD)[:2], "little")

    def values(self, text, file):
        """JUDGE on each row of table 1."""
        return [model.judge(text, file, row) for row in range(cases.row_count(file))]

    def admitted(self, text, file, later=None):
        """LIST with the card of a rule, and with these tables or later ones."""
        return list(model.list_rows(model.card(text, file, end_to_end.LONGEST_CARD), later or file, model.MOST_ROWS))

    import_lines = staticmethod(model.import_lines)
    export_lines = staticmethod(model.export_lines)

    def beyond_reading(self):
        """The refusals of document 01's examples for 9 to 12: a card of two bytes, 3 columns against 2, row 3 of three, 18 bytes for the worked card; and of
        comma lines with a bad field, and with a row too many."""
        answers = {
            9: model.check(b"\0\0"),
            10: model.list_rows(paper.WORKED_CARD, TWO_COLUMNS, 3),
            11: model.judge(paper.WORKED_TEXT, THREE_ROWS, 3),
            12: model.card(paper.WORKED_TEXT, THREE_ROWS, 18),
            14: model.import_lines(b"x", 1, AMPLE_FILE_ROOM),
            15: model.import_lines(MANY_LINES, 1, AMPLE_FILE_ROOM)}
        return {number: refusal_in(answer) for number, answer in answers.items()}


TWO_COLUMNS = generate.tables_file([(2, [[0, 0]] * 3)])
THREE_ROWS = generate.tables_file([(3, [[0, 0, 0]] * 3)])
MANY_LINES = b"\n" * (model.MOST_ROWS + 1)


class Library:
    """The library as built."""
    name = "the library"

    def __init__(self):
        whole = library.load("roskudla")
        self.rules, self.gate, self.lines = library.Rules(whole), library.Gate(library.load("roskudla_gate")), library.Lines(whole)

    def refusal(self, text, file):
        """The number that READ and CARD refuse with, or None; without room they refuse an accepted rule with 12."""
        read, card = (refusal_in(call(text, file, ())[0]) for call in (self.rules.read, self.rules.card))
        compare.same((text, "READ and CARD"), read, card)
        return None if read == 12 else read

    def parts(self, text, file):
        count, after = self.rules.read(text, file, cases.lent("READ", model.MOST_PARTS))
        return count if isinstance(count, model.Refused) else list(after[:count])

    def entries(self, text, file):
        _, after = self.rules.card(text, file, cases.lent("CARD", end_to_end.LONGEST_CARD))
        return int.from_bytes(bytes(after[:2]), "little")

    def values(self, text, file):
        """JUDGE on each row of table 1; the card that CARD makes has to be sound, and RUN and LIST have to admit the rows where JUDGE says true."""
        values = [self.rules.judge(text, file, row) for row in range(cases.row_count(file))]
        if self.refusal(text, file) is None:
            rule = end_to_end.Rule(self.rules, self.gate, text, file)
            rule.run(file, values)
            rule.list_rows(file, values)
        return values

    def admitted(self, text, file, later=None):
        length, card = self.rules.card(text, file, cases.lent("CARD", end_to_end.LONGEST_CARD))
        count, rows = self.gate.list_rows(bytes(card[:length]), later or file, cases.lent("LIST", model.MOST_ROWS))
        return list(rows[:count])

    def import_lines(self, lines, columns, room):
        length, after = self.lines.import_lines(lines, columns, cases.lent("IMPORT", room))
        return length if isinstance(length, model.Refused) else bytes(after[:length])

    def export_lines(self, file, room):
        length, after = self.lines.export_lines(file, cases.lent("EXPORT", room))
        return length if isinstance(length, model.Refused) else bytes(after[:length])

    def beyond_reading(self):
        answers = {
            9: self.gate.check(b"\0\0"),
            10: self.gate.list_rows(paper.WORKED_CARD, TWO_COLUMNS, (0,) * 3)[0],
            11: self.rules.judge(paper.WORKED_TEXT, THREE_ROWS, 3),
            12: self.rules.card(paper.WORKED_TEXT, THREE_ROWS, (0,) * 18)[0],
            14: self.import_lines(b"x", 1, AMPLE_FILE_ROOM),
            15: self.import_lines(MANY_LINES, 1, AMPLE_FILE_ROOM)}
        return {number: refusal_in(answer) for number, answer in answers.items()}


# ---- the manual as blocks

class Heading(typing.NamedTuple):
    line: int
    depth: int
    title: str


class Fence(typing.NamedTuple):
    """A fenced block: what stands behind its first fence, and its lines."""
    line: int
    info: str
    lines: list


class Table(typing.NamedTuple):
    """A table: its headings, and for each row its line number and its cells by heading."""
    line: int
    headings: list
    rows: list


class Text(typing.NamedTuple):
    line: int
    text: str


def cells_of(line):
    """The cells of a table's line."""
    return [cell.strip() for cell in line.strip().strip("|").split("|")]


def table_of(start, lines):
    """The table of some lines, the first of which has this number."""
    headings = cells_of(lines[0])
    if len(lines) < 3 or set(lines[1]) - set("|-") or len(set(headings)) < len(headings):
        raise Fault(f"line {start}: no table")
    rows = []
    for number, line in enumerate(lines[2:], start + 2):
        cells = cells_of(line)
        if len(cells) != len(headings):
            raise Fault(f"line {number}: {len(cells)} cells under {len(headings)} headings")
        rows.append((number, dict(zip(headings, cells))))
    return Table(start, headings, rows)


def blocks_of(lines):
    """Headings, fenced blocks, tables and lines of text, in their order."""
    place = 0
    while place < len(lines):
        start, line = place, lines[place]
        place += 1
        if line.startswith("```"):
            if "```" not in lines[place:]:
                raise Fault(f"line {start + 1}: a fenced block without an end")
            place = lines.index("```", place)
            yield Fence(start + 1, line[3:], lines[start + 1:place])
            place += 1
        elif line.startswith("|"):
            while place < len(lines) and lines[place].startswith("|"):
                place += 1
            yield table_of(start + 1, lines[start:place])
        elif line.startswith("#"):
            depth = len(line) - len(line.lstrip("#"))
            yield Heading(start + 1, depth, line[depth:].strip())
        elif line:
            yield Text(start + 1, line)


# ---- examples as they are written

CODE = "`([^`]+)`"
BLANK_BYTES = {"space": b" ", "line feed": b"\n", "tab": b"\t", "carriage return": b"\r"}
LINE_BYTES = BLANK_BYTES | {"byte order mark": b"\xef\xbb\xbf"}


def text_of(cell):
    """The text that a cell describes: pieces with "then" between them, each in backticks, perhaps so many times, or so many spaces and the like.

    There is a space between two pieces in backticks, and between two times the same.
    """
    if cell == "the empty text":
        return b""
    text, after_code = b"", False
    for piece in cell.split(", then "):
        blanks = re.fullmatch(r"([\d,]+) (space|line feed|tab|carriage return)s?", piece)
        code = re.fullmatch(f"{CODE}(?: ([\\d,]+) times(?: with {CODE} between)?)?", piece)
        if blanks:
            text += BLANK_BYTES[blanks[2]] * number_from(blanks[1])
        elif code:
            between = f" {code[3]} " if code[3] else " "
            text += (b" " if after_code else b"") + between.join([code[1]] * number_from(code[2] or "1")).encode()
        else:
            raise Fault(f"no example of a text: {cell}")
        after_code = bool(code)
    return text


def lines_of(cell):
    """The comma lines that a cell describes: pieces with "then" between them, each in backticks, or so many line feeds and the like; or so many times the same
    piece with a line feed behind it. Nothing stands between two pieces."""
    if cell == "the empty text":
        return b""
    repeated = re.fullmatch(f"{CODE}, with 1 line feed, ([\\d,]+) times", cell)
    if repeated:
        return (repeated[1].encode() + b"\n") * number_from(repeated[2])
    text = b""
    for piece in cell.split(", then "):
        bytes_named = re.fullmatch(f"([\\d,]+) ({'|'.join(LINE_BYTES)})s?", piece)
        code = re.fullmatch(CODE, piece)
        if not bytes_named and not code:
            raise Fault(f"no example of lines: {cell}")
        text += LINE_BYTES[bytes_named[2]] * number_from(bytes_named[1]) if bytes_named else code[1].encode()
    return text


def answer_from(cell):
    """The refusal's number, or None for an accepted rule."""
    if cell == "accepted":
        return None
    refused = re.fullmatch(r"refused (\d+)", cell)
    if not refused:
        raise Fault(f"neither accepted nor refused: {cell}")
    return int(refused[1])


def truth_from(cell):
    """The truth value that a letter stands for."""
    if cell not in TRUTHS:
        raise Fault(f"not T, U or F: {cell}")
    return TRUTHS[cell]


def cell_from(written):
    """A cell of a table, as the model has it: a number, blank or declined."""
    words = {"blank": model.BLANK_CELL, "declined": model.DECLINED_CELL}
    return words[written] if written in words else number_from(written)


def table_from(line, number):
    """The columns and rows of a line like "Table 2, passes, 2 columns (member, day): (1, 5), (2, blank)"."""
    form = re.fullmatch(r"Table (\d+)(?:, [a-z ]+)?, (\d+) columns?(?: \(([^()]+)\))?: (no rows|\([^()]+\)(?:, \([^()]+\))*)", line)
    if not form or int(form[1]) != number:
        raise Fault(f"not the tables in their order: {line}")
    columns = int(form[2])
    rows = [[cell_from(cell) for cell in row.split(", ")] for row in re.findall(r"\(([^()]+)\)", form[4])]
    if any(len(row) != columns for row in rows) or form[3] and len(form[3].split(", ")) != columns:
        raise Fault(f"not {columns} columns: {line}")
    return columns, rows


def tables_from(fence):
    """The tables file that a block describes: a line for each table, which goes on where the next line is indented."""
    lines = re.sub(r"\n +", " ", "\n".join(fence.lines)).split("\n")
    return generate.tables_file([table_from(line, number) for number, line in enumerate(lines, 1)])


def one_cell(cell):
    """A tables file with one cell."""
    return generate.tables_file([(1, [[cell]])])


def code_in(cell):
    """What stands in backticks in a cell."""
    return re.findall(CODE, cell)


# ---- what is measured against the limits

def condition_in(text):
    """The condition that a text reads as, whatever its size."""
    return model.condition_of(model.tokens_of(text))


def part_count(condition):
    """How many parts a condition has."""
    return 1 + sum(part_count(inner) for inner in model.inner_conditions(condition))


def from_depth(condition):
    """How many FROMs stand around one another."""
    inner = max((from_depth(one) for one in model.inner_conditions(condition)), default=0)
    return inner + isinstance(condition, (model.Exists, model.Listed))


def most_open(text):
    """The most ( less ) up to a token."""
    steps = [{model.OPENING: 1, model.CLOSING: -1}.get(token, 0) for token in model.tokens_of(text)]
    return max(itertools.accumulate(steps))


def entry_count(text):
    """How many entries the card of a text would have, if it is over 192 too."""
    return model.entry_sum(model.parts_of(condition_in(text)))


@functools.cache
def most_entries(parts, froms):
    """The most entries of a condition of so many parts, with up to so many FROMs around one another, that has neither IS UNKNOWN nor IS NOT UNKNOWN: of a test
    alone, and of NOT, AND or OR, or a list around others. No other part adds more than these."""
    if parts == 1:
        return entry_count(b"1 = 1")
    around = [entry_count(b"NOT 1 = 1") - 1 + most_entries(parts - 1, froms)]
    around += [entry_count(b"1 = 1 OR 1 = 1") - 2 + most_entries(left, froms) + most_entries(parts - 1 - left, froms) for left in range(1, parts - 1)]
    if froms > 0:
        around.append(entry_count(b"1 IN (SELECT 1 FROM 1 v WHERE 1 = 1)") - 1 + most_entries(parts - 1, froms - 1))
    return max(around)


def written_numbers(text):
    """The numbers of a text, as they are written."""
    return [number.decode() for number in re.findall(rb"-?[0-9]+", text)]


# what each limit of the manual's table is about, and the step from the last accepted text to the first refused one
MEASURES = {
    "bytes": (len, 1),
    "digits": (lambda text: max(len(number.lstrip("-")) for number in written_numbers(text)), 1),
    "largest number": (lambda text: max(int(number) for number in written_numbers(text)), 1),
    "smallest number": (lambda text: min(int(number) for number in written_numbers(text)), -1),
    "more `(` than `)`": (most_open, 1),
    "parts": (lambda text: part_count(condition_in(text)), 1),
    "FROMs": (lambda text: from_depth(condition_in(text)), 1),
    "entries": (entry_count, 1),
}
# those that sentences of the manual state too, where a text has at most so many, or is refused with over so many
IN_SENTENCES = ("bytes", "digits", "more `(` than `)`", "parts", "FROMs", "entries")
RANGE_SENTENCE = r"(−[\d,]+) to ([\d,]+)"
ORDER_SENTENCE = "Where several apply, the first in the order of this table is given"
EXCEPTION_SENTENCE = r"The numbers rise in it, but for (\d+), which comes right after (\d+), and (\d+), which comes last\."
NOT_THE_TEXT_SENTENCE = r"Refusals (\d+) to (\d+) concern the card, the row and the room, not the text"
LINES_SENTENCE = r"Refusals (\d+) and (\d+) concern the comma lines that a tables file is made of"
FEW_ENTRIES_SENTENCE = "A rule with neither of them never has too many."
ARITHMETIC_SENTENCE = (
    r"with false as (\d), unknown as (\d) and true as (\d), `NOT` is (\d) minus the value, `AND` the (smaller|greater) of two values and `OR` the "
    r"(smaller|greater)\.")
PROVED_SENTENCE = r"it is proved for each value and each pair that this gives what is said of them above: `(\w+)` in (crates/\S+\.antt)\."
DECIDES_SENTENCE = (
    r"Where (\d) stands in front of `AND`, or (\d) in front of `OR`, JUDGE does not look at the test behind it, and the same claim says that the value is "
    r"the same whatever that test is\.")
NEVER_UNKNOWN_SENTENCES = (
    "`(EXISTS (FROM ..)) IS UNKNOWN` is always false",
    "So is `IS UNKNOWN` behind every condition that has only `EXISTS`, `IS NULL`, `IS NOT NULL`, `IS DECLINED`, `IS NOT DECLINED` and truth tests, "
    "with `AND`, `OR` and `NOT`.")
# what is said of declined cells: in `try_blank_in_every_respect`, and in `try_declined_sentences`
SAME_AS_BLANK_SENTENCES = (
    "A cell is declined where somebody was asked and refused to answer. It is blank in every respect, and two tests tell it from other blanks:",
    "A declined cell is blank too, so all that is said of blanks here is said of declined cells as well.",
    "**A declined cell is blank in every respect**: `IS NULL` is true of it, a comparison with it is unknown, whatever stands on the other side, "
    "and `NOT` keeps that unknown. So wherever this manual speaks of a blank, a declined cell is meant too. A plain blank is one that is not declined.",
    "A rule without the word `DECLINED` has the same value with a declined cell as with a plain blank in its place. "
    "So a rule or a card from before there were declined cells means what it meant, and takes each of them for a blank.")
DECLINED_SENTENCES = (
    "A cell holds a whole number, or is blank, or is declined.",
    "rows, numbers, blanks and declined cells may change later, and the card stays right.",
    "They are true or false, and never unknown. A plain blank is not declined, and a number is never declined, whether a cell holds it or the rule has it.",
    "But **`IS NULL` admits both blanks**. Where the plain blank is to pass and the declined one is not, add `IS NOT DECLINED` by `AND`. "
    "Truth tests, what `OR` joins, and the `WHERE` of a `NOT EXISTS`, of an `ALL` and of a `NOT IN` can open the gate for a declined cell as for any blank.",
    "Whoever asks for an answer writes `m.3 IS NOT NULL`, or compares.",
    "Write blank where nobody knows the answer, and declined only where somebody was asked and refused.",
    "A form may write a declined cell over a blank or a number, and the other way round: cards stay right. "
    "Before the first form writes one, every gate's controller has to take declined cells.")
CONSTANT_SENTENCE = r"`([^`]*)` is always (true|false), and `([^`]*)` always (true|false)\."
SHUT_SENTENCE = r"A rule which must not admit those who declined needs nothing special where a comparison, joined by `AND`, asks for the answer: `([^`]*)` is (\w+) for them, and the gate stays shut\."
NOT_SENTENCE = (
    r"\*\*`([^`]*)` does not ask for an answer\.\*\* It has the same values as `([^`]*)`, and is true for plain blanks as well\.")
MARKS_CELL = r"a mark in the tables file is above (\d+); (\d+) says that a cell is present, (\d+) that it is blank, (\d+) that it is declined"
FIELDS_CELL = (
    r"comma lines: a field is neither a number nor empty nor a `(.)` alone \(`(.)` is a declined cell, and `(.+?)` is refused\), "
    r"a line has fewer or more fields than there are columns, or the columns are not 1 to 16")
OLD_CONTROLLER_SENTENCE = r"A controller from before refuses the whole tables file with (\d+), and keeps its gate shut for everybody;"
# what happened at the sign-up form, and the cell that it writes
FORM_CELLS = {
    "answered with 1": 1, "not asked yet": model.BLANK_CELL, "asked, and not answered": model.BLANK_CELL,
    "the answer is unknown, or was lost": model.BLANK_CELL, "asked, and refused to answer": model.DECLINED_CELL}
SPLIT_SENTENCES = (
    "with `IS NOT FALSE`, which adds no entries: the condition is unknown exactly where the first card says no and the second says yes.",
    "with `IS UNKNOWN` behind them it is true where the rule is unknown, and with `IS FALSE` where the rule is false. "
    "On each row exactly one of the three is true: the rule itself, or one of these two.")
LENGTH_SENTENCE = r"With (\d+) columns the tables file has ([\d,]+) bytes\."
LISTED_SENTENCE = r"The card of this rule, run on the tables file, lists rows (\d+(?:, \d+)*) and (\d+)\."
DAY_SENTENCE = r"`(\d+)` for (\d+ \w+ \d+)"
OWN_LINE_SENTENCES = (
    "a line by itself is refused exactly where it has a fault of its own",
    "Where it prints none of a file that is not empty, and the whole file is refused, the refusal is 15.")
# what the examples of comma lines show, in sentences
SHEET_SENTENCES = (
    "IMPORT makes a tables file of such lines, in which this table is table 1 and the only one.",
    "the age of the second and the visits of the third are blank, and the fourth has declined to give an age:",
    "A rule may go over the rows of table 1 with `FROM 1`; with this file a rule that names table 2 is refused with 8.",
    "The first line is row 0.",
    "**Yes and no as `1` and `0`.**",
    "makes this number of the date in cell A1.",
    "A line ends in a line feed, or in a carriage return and a line feed; the last line may be without. "
    "Zeros in front of a number are allowed, and change nothing.",
    "That is one more than the commas in a line. Columns that are blank throughout count too, and blank cells at the end of a line need their commas:",
    "In the rules the columns are then `m.1`, `m.2` and so on, from the left.",
    "From Python, with a sheet of 3 columns that was saved as `members.csv`:",
    "This makes the tables file, and then writes the lines of its table 1 to a file,",
    "`export_lines` writes the same cells, each number without zeros in front, a declined cell as `!`, and a line feed behind each line.",
    "Write it where somebody was asked and refused to answer, and leave the cell empty where the answer is not known:",
    "then for anything but digits, minus, commas and a `!` alone.",
    "Refusal 14 says that a cell is neither a plain number nor empty nor a `!` alone, that a line does not have as many cells as there are columns, "
    "or that the number of columns is not 1 to 16. Refusal 15 says that there are over",
    "All lines are looked at for 14 before 15, and neither says in which line the fault is.",
    "The zeros in front of the member numbers are gone, and all else is as it was:")
WORKED_SENTENCE = r"For member (\d+), in row (\d+), it is worked out like this:"
TABLES_SENTENCE = r"There are (\d+) to (\d+) tables, with (\d+) to (\d+) columns and (\d+) to ([\d,]+) rows each, and at most ([\d,]+) cells in all\."


def sizes_with_cells(count):
    """Two tables with so many cells."""
    return [(16, count // 16), (1, count % 16)]


# tables that have so many of each
SIZES = {
    "tables": lambda count: [(1, 0)] * count,
    "columns": lambda count: [(count, 0)],
    "rows": lambda count: [(1, count)],
    "cells": sizes_with_cells,
}

# ---- comma lines

COLUMNS_FAULT = f"the number of columns is 1 to {model.MOST_COLUMNS}"
# why lines are refused, as the manual says it up to a colon: what has to be replaced in them, and by what, or which number of columns to name, for IMPORT to
# take them; so this is their only fault
FAULTS = {
    "a header line": (b"member,age,visits\n", b""),
    "a line of sums": (b"total,,8", b""),
    "a comma at the end of a line makes a fourth cell, which is blank": (b"8,", b"8"),
    "two commas are missing, which blank cells need too": (b"\n102", b"\n102,,"),
    "semicolons between the cells": (b";", b","),
    "tabs between the cells": (b"\t", b","),
    "a quoted number": (b'"', b""),
    "a decimal point": (b".0", b""),
    "a thousands separator, which makes a cell more": (b"1,500", b"1500"),
    "spaces in front of numbers": (b" ", b""),
    "a cell with a space looks blank, and is not": (b" ", b""),
    "three bytes in front of the first number, which editors do not show": (b"\xef\xbb\xbf", b""),
    "an empty line in a sheet of several columns is a line of one cell": (b"\n\n", b"\n"),
    "three cells, and two columns were named": 3,
    COLUMNS_FAULT: 3,
    "a date as it is shown": (b"15.06.2026", b"20260615"),
    "the same": (b"2026-06-15", b"20260615"),
    "a word for a blank": (b"NULL", b"\n"),
    "a dash for a blank": (b"-", b"\n"),
    "a `!` beside a number": (b"!34", b"!"),
    "a quoted `!`": (b'"', b""),
    "a space beside the `!`": (b" ", b""),
    "a word for a declined answer": (b"declined", b"!"),
    "a plus": (b"+", b""),
    "one above the largest number": (b"3648", b"3647"),
    "eleven digits": (b"00000000005", b"0000000005"),
    "a line that ends in a carriage return alone": (b"\r", b"\r\n"),
    "one row more": (b"\n" * 1001, b"\n" * 1000),
    "8,199 cells, and there may be 8,192": (b",,,,,,,,\n,,,,,,,,\n", b",,,,,,,,\n"),
    "both 14 and 15, of which 14 comes first": (b"x", b""),
}
# what the files that the manual's code reads are, and what it prints and writes
MEMBERS = b"101,34,8\r\n102,,3\r\n0104,!,5\r\n00103,16,"
BAD_MEMBERS = b"member,age,visits\n101,34,8\n102,,3\n103,16\n104, ,8\n105,!,5\n106,!5,1"


def mended(why, lines, columns):
    """Lines and a number of columns without the fault that they are refused for."""
    change = FAULTS[why]
    if isinstance(change, int):
        return lines, change
    if change[0] not in lines:
        raise Fault(f"{change[0]} does not stand in lines that are refused for it")
    return lines.replace(*change), columns


# ---- tokens

# words of SQL that a rule might be thought to have
SQL_WORDS = (
    "ANY BETWEEN LIKE DECLINE REFUSED BLANK DISTINCT UNIQUE OVERLAPS MATCH UNION EXCEPT INTERSECT GROUP BY HAVING ORDER ASC DESC COUNT SUM MIN MAX "
    "AVG CASE WHEN THEN ELSE END CAST COALESCE NULLIF VALUES TABLE JOIN ON USING AS CROSS INNER OUTER LEFT RIGHT FULL NATURAL LIMIT DATE CURRENT XOR").split()


def changed_words(word):
    """A word with a letter left out, doubled or changed."""
    for place, letter in enumerate(word):
        yield word[:place] + word[place + 1:]
        yield word[:place] + letter + word[place:]
        yield from (word[:place] + other + word[place + 1:] for other in string.ascii_uppercase)


def runs_to_try(words):
    """Every run of up to three capitals; the words, changed and in pairs; words of SQL."""
    runs = {"".join(run) for length in (1, 2, 3) for run in itertools.product(string.ascii_uppercase, repeat=length)}
    for word in itertools.chain(words, model.WORDS):
        runs.update(changed_words(word))
    return runs | {a + b for a in words for b in words} | set(words) | set(model.WORDS) | set(SQL_WORDS)


# ---- the grammar

class Grammar:
    """The forms of a block `grammar`. A symbol of a form is a name with forms of its own, a sort of token, or a token."""

    def __init__(self, lines, comparisons):
        self.forms = collections.defaultdict(list)
        self.sorts = {"number": ("1", "2", "-1", "0"), "letter": ("m", "v"), "comparison": comparisons}
        name = None
        for line in lines:
            form = re.fullmatch(r"(?:([a-z]+):)? +(\S.*)", line)
            if not form or not (form[1] or name):
                raise Fault(f"no form of the grammar: {line}")
            name = form[1] or name
            self.forms[name].append(form[2].split())
        self.heights = {}
        while len(self.heights) < len(self.forms):
            before = len(self.heights)
            self.heights |= {name: 1 + min(self.known(forms)) for name, forms in self.forms.items() if name not in self.heights and self.known(forms)}
            if len(self.heights) == before:
                raise Fault("the grammar has a name that never ends")

    def known(self, forms):
        """The heights of those forms whose names all have a height."""
        return [self.height(form) for form in forms if all(symbol not in self.forms or symbol in self.heights for symbol in form)]

    def height(self, form):
        """How deep the names in a form go, at least."""
        return max(self.heights.get(symbol, 0) for symbol in form)

    def derived(self, draw, symbol, deepest):
        """Tokens that a symbol stands for, drawn."""
        if symbol in self.sorts:
            return [draw.choice(self.sorts[symbol])]
        if symbol not in self.forms:
            return [symbol]
        fitting = [form for form in self.forms[symbol] if self.height(form) < deepest] or [min(self.forms[symbol], key=self.height)]
        return [token for inner in draw.choice(fitting) for token in self.derived(draw, inner, deepest - 1)]

    def fits(self, symbol, token):
        """Whether a symbol that is no name stands for a token."""
        if symbol == "number":
            return token.lstrip("-").isdigit()
        if symbol == "letter":
            return len(token) == 1 and token.islower()
        return token in self.sorts.get(symbol, (symbol,))

    def holds(self, tokens):
        """Whether the whole of some tokens is a condition: Earley's recognizer, which takes forms that begin with their own name as they are."""
        states = [set() for _ in range(len(tokens) + 1)]

        def add(place, state):
            if state not in states[place]:
                states[place].add(state)
                waiting.append(state)

        for place in range(len(tokens) + 1):
            waiting = list(states[place])
            if place == 0:
                for form in self.forms["condition"]:
                    add(0, ("condition", tuple(form), 0, 0))
            while waiting:
                name, form, done, start = waiting.pop()
                if done == len(form):
                    for other in [state for state in states[start] if state[2] < len(state[1]) and state[1][state[2]] == name]:
                        add(place, (other[0], other[1], other[2] + 1, other[3]))
                elif form[done] in self.forms:
                    for inner in self.forms[form[done]]:
                        add(place, (form[done], tuple(inner), 0, place))
                elif place < len(tokens) and self.fits(form[done], tokens[place]):
                    states[place + 1].add((name, form, done + 1, start))
        return any(name == "condition" and done == len(form) and start == 0 for name, form, done, start in states[-1])


def damaged(draw, tokens):
    """Tokens with one left out, put in, changed or exchanged for its neighbour."""
    changed, place = list(tokens), draw.randrange(len(tokens))
    loose = generate.LOOSE_TOKENS
    sort = draw.randrange(4)
    if sort == 0:
        del changed[place]
    elif sort == 1:
        changed.insert(place, draw.choice(loose))
    elif sort == 2:
        changed[place] = draw.choice(loose)
    else:
        changed[place - 1:place + 1] = reversed(changed[place - 1:place + 1])
    return changed


# ---- trying what the manual says

ROW_HEADING = re.compile(r"row (\d+)")
FILE_HEADING = "Tables file, in hexadecimal"
# the columns of a table with a column "Rule": what is tried, and what is explanation
FEWER_HEADING = "Same values, fewer entries"
RULE_COLUMNS = ("Rule", "Case", "Answer", "Parts", "Entries", "Is read as", "Not as", "Write instead", FEWER_HEADING, FILE_HEADING)  # and "row 0", "row 1", ..
EXPLANATIONS = ("In words", "Why", "Why, and what to do")


def never_unknown(draw, maker, size):
    """Tokens of a condition of EXISTS, tests of a value and truth tests, whatever is inside them, joined by AND, OR and NOT."""
    scope = [("m", 1)]
    sort = draw.choice(("exists", "exists", "value", "truth", "not", "pair", "pair") if size > 1 else ("exists", "exists", "value", "truth"))
    if sort == "exists":
        source, inner_scope = maker.row_source(scope)
        return ["EXISTS", "("] + source + maker.condition(inner_scope, draw.choice([1, 2]), 1) + [")"]
    if sort == "value":
        return maker.value(scope) + draw.choice(VALUE_TESTS).split()
    if sort == "truth":
        return ["("] + maker.condition(scope, draw.choice([1, 2]), 1) + [")"] + generate.truth_ending(draw)
    if sort == "not":
        return ["NOT", "("] + never_unknown(draw, maker, size - 1) + [")"]
    left, right = (never_unknown(draw, maker, size - 1) for _ in range(2))
    return ["("] + left + [draw.choice(["AND", "OR"])] + right + [")"]


class Manual:
    """The manual, tried block by block; `faults` has what is not so, `counts` how many examples of each sort were tried in each section."""

    def __init__(self, text, judges):
        self.text, self.judges = text, judges
        self.faults, self.counts = [], collections.defaultdict(collections.Counter)
        self.section, self.sections = WHOLE, []
        self.file, self.first_file, self.rule = b"", b"", None
        self.letters, self.comparisons = set(), ()
        self.most, self.refused, self.fronts, self.numbers, self.bracketed, self.order = {}, set(), set(), set(), set(), []
        self.worked_row, self.worked_rows = None, []
        self.lines, self.last_rule, self.mended = b"", b"", set()
        self.cell_marks, self.forms = set(), []
        self.sorts = {
            "Token": self.try_tokens, "Limit": self.try_limits, "In front": self.try_connectives, "In front, as a number": self.try_numbers,
            "In the brackets": self.try_truth_tests, "Values in the list": self.try_lists, "Row of table 2": self.try_worked_rows, "Refusal": self.try_refusals,
            "Lines": self.try_comma_lines, "Cell": self.try_cells, "At the sign-up form": self.try_forms}

    def fault(self, line, what):
        self.faults.append(f"{NAME}:{line}: {what}")

    def tried(self, line, sort, example, *arguments):
        """Tries an example, and counts it."""
        self.counts[self.section][sort] += 1
        try:
            example(*arguments)
        except (Fault, compare.Disagreement, library.OutsideWritten) as error:
            self.fault(line, str(error))
        except (LookupError, TypeError, ValueError, AttributeError, model.Refusal) as error:
            self.fault(line, f"cannot be tried: {error!r}")

    def each(self, what, answer, wanted):
        """Both judges have to give the wanted answer; `answer` gets a judge."""
        for judge in self.judges:
            got = answer(judge)
            if got != wanted:
                raise Fault(f"{compare.shown(what)}: {judge.name} says {compare.shown(got)}, the manual {compare.shown(wanted)}")

    def answers(self, text, file, refusal):
        """A text is refused with this number, or accepted where it is None."""
        self.each(text, lambda judge: judge.refusal(text, file), refusal)

    def values(self, text, file, letters):
        """A rule has the values of these letters on the rows of table 1."""
        self.each(text, lambda judge: judge.values(text, file), [truth_from(letter) for letter in letters])

    # ---- blocks

    def try_all(self):
        """Tries all blocks, and then what is about the manual as a whole."""
        for block in blocks_of(self.text.split("\n")):
            self.try_block(block)
        self.section = WHOLE
        self.tried(1, "sentences", self.try_sentences)
        self.tried(1, "sentences", self.try_order)
        self.tried(1, "sentences", self.try_tables_sentence)
        self.tried(1, "sentences", self.try_few_entries)
        self.tried(1, "sentences", self.try_never_unknown)
        self.tried(1, "sentences", self.try_splits)
        self.tried(1, "sentences", self.try_arithmetic_sentences)
        self.tried(1, "sentences", self.try_size_sentences)
        self.tried(1, "sentences", self.try_day_numbers)
        self.tried(1, "sentences", self.try_own_lines)
        self.tried(1, "sentences", self.try_sheet_sentences)
        self.tried(1, "sentences", self.try_blank_in_every_respect)
        self.tried(1, "sentences", self.try_declined_sentences)
        self.tried(1, "code", self.try_code)
        for target in re.findall(r"\]\(([^)]+)\)", self.text):
            self.tried(1, "links", self.try_link, target)
        self.demand()

    def try_block(self, block):
        if self.rule is not None:
            text, self.rule = self.rule, None
            self.tried(block.line, "ready rules", self.try_ready_rule, text, block)
        elif isinstance(block, Heading) and block.depth == 2:
            self.section, self.file = block.title, self.first_file
            self.sections.append(block.title)
        elif isinstance(block, Fence):
            self.try_fence(block)
        elif isinstance(block, Table):
            self.try_table(block)
        elif isinstance(block, Text):
            self.try_text(block)

    def try_text(self, block):
        """Sentences with which a line begins, and that are about the example before them."""
        for sort, sentence, attempt in (("worked", WORKED_SENTENCE, self.take_worked_row), ("lengths", LENGTH_SENTENCE, self.try_length),
                                        ("listed", LISTED_SENTENCE, self.try_listed)):
            found = re.match(sentence, block.text)
            if found:
                self.tried(block.line, sort, attempt, *found.groups())

    def try_fence(self, fence):
        if fence.info == "tables":
            self.tried(fence.line, "tables", self.take_tables, fence)
        elif fence.info == "rule":
            self.rule = self.last_rule = "\n".join(fence.lines).encode()
        elif fence.info == "lines":
            self.tried(fence.line, "lines", self.take_lines, fence)
        elif fence.info == "exported":
            self.tried(fence.line, "exported", self.try_exported, fence)
        elif fence.info == "grammar":
            self.tried(fence.line, "grammar", self.try_grammar, fence.lines)
        else:
            self.fault(fence.line, f"a fenced block of no known sort: {fence.info}")

    def take_tables(self, fence):
        """The tables of what follows; they have to be accepted."""
        self.file = tables_from(fence)
        self.first_file = self.first_file or self.file
        self.answers(b"1 = 1", self.file, None)

    def try_table(self, table):
        if "Rule" in table.headings:
            self.try_rules(table)
        elif table.headings[0] == "Row":
            self.try_rows_of_lines(table)
        elif table.headings[0] in self.sorts:
            for line, cells in table.rows:
                self.sorts[table.headings[0]](line, cells)
        else:
            self.fault(table.line, f"a table of no known sort: {table.headings}")

    # ---- rules

    def try_ready_rule(self, text, block):
        """The values of a rule, as the line behind it gives them."""
        form = re.fullmatch(r"Rows 0 to (\d+): ([TUF](?: [TUF])*)", block.text) if isinstance(block, Text) else None
        if not form:
            raise Fault("these are no values for the rule before them")
        letters = form[2].split()
        compare.same("the last row", int(form[1]), len(letters) - 1)
        self.values(text, self.file, letters)

    def try_rules(self, table):
        """A table with a column "Rule": values on rows, or an answer, or a number of parts, or a reading; more than one of these where there are several."""
        rows = [heading for heading in table.headings if ROW_HEADING.fullmatch(heading)]
        unknown = [heading for heading in table.headings if heading not in RULE_COLUMNS + EXPLANATIONS and heading not in rows]
        if unknown or rows != [f"row {number}" for number in range(len(rows))]:
            self.fault(table.line, f"columns of no known sort: {unknown or rows}")
        if not (rows or {"Answer", "Parts", "Entries", "Is read as", FEWER_HEADING} & set(table.headings)):
            self.fault(table.line, "nothing is said of these rules")
        for line, cells in table.rows:
            if rows:
                self.tried(line, "values", self.try_values, cells, [cells[row] for row in rows])
            if "Case" in cells:
                self.tried(line, "cases", self.try_case, cells)
            if "Answer" in cells:
                self.tried(line, "answers", self.try_answer, cells)
            if "Parts" in cells:
                self.tried(line, "parts", self.try_parts, cells)
            if "Entries" in cells:
                self.tried(line, "entries", self.try_entries, cells)
            if FEWER_HEADING in cells:
                self.tried(line, "same values", self.try_same_values, cells)
            for hint in re.findall(f"\\bwrite ({CODE})", cells.get("Why", "") + cells.get("Why, and what to do", "")):
                self.tried(line, "hints", self.try_hint, hint[0])
            if "Is read as" in cells:
                self.tried(line, "readings", self.try_reading, cells)
            if "Write instead" in cells:
                self.tried(line, "written instead", self.try_instead, cells)

    def try_values(self, cells, letters):
        self.values(text_of(cells["Rule"]), self.file, letters)

    def try_case(self, cells):
        """The proved case with this number: the manual has to have its rule; its values are tried besides."""
        case = paper.CASES[int(cells["Case"]) - 1]
        compare.same(f"the rule of case {cells['Case']}", text_of(cells["Rule"]), case.text)
        compare.same("the number of the case", int(cells["Case"]), self.counts[self.section]["cases"])
        compare.same("the tables of the cases", model.tables_of(self.file), model.tables_of(paper.CASE_TABLES))

    def try_answer(self, cells):
        refusal, written = answer_from(cells["Answer"]), cells.get(FILE_HEADING, "the tables above")
        file = self.file if written == "the tables above" else bytes.fromhex(*code_in(written))
        text = text_of(cells["Rule"])
        self.answers(text, file, refusal)
        self.refused.add(refusal)
        for number, name in re.findall(r"(\d+) (more|parts|entry|entries)", cells.get("Why, and what to do", "")):
            measure = {"more": "more `(` than `)`", "entry": "entries"}.get(name, name)
            compare.same(f"what is said of {text}: {name}", int(number), MEASURES[measure][0](text))

    def try_instead(self, cells):
        self.answers(text_of(cells["Write instead"]), self.file, None)

    def try_parts(self, cells):
        text = text_of(cells["Rule"])
        self.answers(text, self.file, None)
        self.each(text, lambda judge: len(judge.parts(text, self.file)), int(cells["Parts"]))

    def try_entries(self, cells):
        text = text_of(cells["Rule"])
        self.answers(text, self.file, None)
        self.each(text, lambda judge: judge.entries(text, self.file), int(cells["Entries"]))

    def try_hint(self, written):
        """A rule that is to be written instead of another; it is accepted."""
        self.answers(text_of(written), self.file, None)

    def try_same_values(self, cells):
        """Two rules with the same values on the section's tables and on others with the same columns, of which the second has fewer entries."""
        draw, text, other = random.Random(SEED), text_of(cells["Rule"]), text_of(cells[FEWER_HEADING])
        columns = model.tables_of(self.file).columns
        for file in [self.file] + [generate.later_tables(draw, columns) for _ in range(LATER_FILES)]:
            for judge in self.judges:
                values = judge.values(text, file)
                if values != judge.values(other, file):
                    raise Fault(f"{judge.name} gives {text} the values {values}, and {other} others, with {model.tables_of(file)}")
        for judge in self.judges:
            if judge.entries(other, self.file) >= judge.entries(text, self.file):
                raise Fault(f"{judge.name}: {other} does not have fewer entries than {text}")

    def try_reading(self, cells):
        """Two rules with the same parts, and one with others."""
        text, same, other = (text_of(cells[heading]) for heading in ("Rule", "Is read as", "Not as"))
        for one in (text, same, other):
            self.answers(one, self.file, None)
        for judge in self.judges:
            parts = judge.parts(text, self.file)
            if parts != judge.parts(same, self.file):
                raise Fault(f"{judge.name} reads {text} in another way than {same}")
            if parts == judge.parts(other, self.file):
                raise Fault(f"{judge.name} reads {text} in the same way as {other}")

    # ---- tables of other sorts

    def try_tokens(self, line, cells):
        """A line of the tokens; what is in it is tried one by one, and everything else that might be of its sort."""
        sort, tokens = cells["Token"], code_in(cells["Written"])
        examples = {"word": self.try_words, "letter": self.try_letters, "comparison": self.try_comparisons, "bracket or point": self.try_signs}
        if sort in examples:
            self.tried(line, "tokens", examples[sort], tokens)
            self.counts[self.section]["tokens"] += len(tokens) - 1
        elif sort != "number":
            self.fault(line, f"no sort of token: {sort}")

    def is_token(self, text):
        """Whether a text without a condition is made of tokens: it is refused with 6, and else with 4."""
        answers = {judge.refusal(text, self.file) for judge in self.judges}
        if not answers <= {4, 6} or len(answers) > 1:
            raise Fault(f"{text} is refused with {answers}")
        return answers == {6}

    def try_words(self, words):
        found = {run for run in runs_to_try(words) if self.is_token(run.encode())}
        compare.same("the words", sorted(words), sorted(found))

    def try_letters(self, ends):
        """From one letter to another; they are tried with the signs."""
        first, last = (ord(end) for end in ends)
        self.letters = set(range(first, last + 1))

    def try_comparisons(self, comparisons):
        """Of all single signs and pairs of them, those between two numbers that make a test."""
        signs = [chr(byte) for byte in range(33, 127) if not chr(byte).isalnum() and chr(byte) != "-"]
        runs = signs + [first + second for first in signs for second in signs]
        for judge in self.judges:
            found = {run for run in runs if judge.refusal(f"1{run}1".encode(), self.file) is None}
            compare.same(f"the comparisons by {judge.name}", sorted(comparisons), sorted(found))
        self.comparisons = tuple(comparisons)

    def try_signs(self, signs):
        """Each byte by itself: a letter, a digit, a sign of one byte, a space or a line feed, and nothing else."""
        one_byte = signs + [sign for sign in self.comparisons if len(sign) == 1]
        wanted = self.letters | set(b"0123456789 \n") | {ord(sign) for sign in one_byte}
        compare.same("the bytes of tokens", sorted(wanted), [byte for byte in range(256) if self.is_token(bytes([byte]))])

    def try_limits(self, line, cells):
        self.tried(line, "limits", self.try_limit, cells)

    def try_limit(self, cells):
        """A limit from both sides, with texts that are as large as the manual says."""
        name, most = cells["Limit"], number_from(cells["Most"])
        if name not in MEASURES:
            raise Fault(f"no limit: {name}")
        measure, step = MEASURES[name]
        self.most[name] = most
        within, beyond = text_of(cells["Accepted"]), text_of(cells["One more"])
        compare.same(f"{name} of what is accepted", measure(within), most)
        compare.same(f"{name} of what is refused", measure(beyond), most + step)
        self.answers(within, self.file, None)
        self.answers(beyond, self.file, answer_from(cells["Answer to that"]))

    def try_connectives(self, line, cells):
        """What a heading makes of the value in front, with tests that have their values on a row whose column is blank."""
        file = generate.tables_file([(1, [[None]])])
        front = TESTS.get(cells["In front"], "")
        forms = {"`NOT`": f"NOT {front}"}
        for word, behind in itertools.product(("AND", "OR"), TESTS):
            forms[f"`{word}` {behind}"] = f"{front} {word} {TESTS[behind]}"
        for heading, text in forms.items():
            self.tried(line, "connectives", self.values, text.encode(), file, [cells.get(heading)])
        self.fronts.add(cells["In front"])

    def try_numbers(self, line, cells):
        """What a heading makes of a number in front: what arithmetic gives, and the number of what the connective makes of tests with these values."""
        file = generate.tables_file([(1, [[None]])])
        letters = {str(number): letter for letter, number in NUMBERS.items()}
        letter = letters.get(cells["In front, as a number"], "")
        forms = {"`NOT`": (2 - NUMBERS.get(letter, 0), f"NOT {TESTS.get(letter)}")}
        for (word, taken), (behind, number) in itertools.product((("AND", min), ("OR", max)), NUMBERS.items()):
            forms[f"`{word}` {number}"] = taken(NUMBERS.get(letter, 0), number), f"{TESTS.get(letter)} {word} {TESTS[behind]}"
        for heading, (number, text) in forms.items():
            self.tried(line, "connectives as numbers", self.try_number, text.encode(), file, cells.get(heading), number)
        self.numbers.add(letter)

    def try_number(self, text, file, written, number):
        """A number that arithmetic gives is the one in the manual, and that of a rule's value."""
        compare.same(text, written, str(number))
        self.values(text, file, [letter for letter in NUMBERS if NUMBERS[letter] == number])

    def try_truth_tests(self, line, cells):
        """What a truth test says of the value in its brackets, on a row whose column is blank."""
        file = generate.tables_file([(1, [[None]])])
        inside = cells["In the brackets"]
        if {f"`{ending}`" for ending in TRUTH_TESTS} != set(cells) - {"In the brackets"}:
            self.fault(line, f"not the six truth tests: {sorted(cells)}")
        for ending in TRUTH_TESTS:
            text = f"({TESTS.get(inside, '')}) {ending}"
            self.tried(line, "truth tests", self.values, text.encode(), file, [cells.get(f"`{ending}`")])
        self.bracketed.add(inside)

    def take_worked_row(self, member, row):
        """The judged row that the next table works out."""
        self.worked_row, self.worked_rows = model.tables_of(self.file).rows_of(1)[int(row)], []
        compare.same("the member in the worked row", self.worked_row[0], int(member))

    def try_worked_rows(self, line, cells):
        self.tried(line, "worked rows", self.try_worked, cells)

    def try_worked(self, cells):
        """A row of table 2 with the judged row: the value of each condition, which joined by AND are the WHERE of a rule of the manual, and whether the row is
        retained. The rows are those of table 2, in their order."""
        tables = model.tables_of(self.file)
        row = [cell_from(cell) for cell in cells["Row of table 2"].strip("()").split(", ")]
        self.worked_rows.append(row)
        compare.same("the rows of table 2 so far", self.worked_rows, tables.rows_of(2)[:len(self.worked_rows)])
        conditions = {heading: code_in(heading)[0] for heading in cells if code_in(heading)}
        conditions["`WHERE`"] = where = " AND ".join(condition for condition in conditions.values() if condition != "WHERE")
        if f"`EXISTS (FROM 2 w WHERE {where})`" not in self.text:
            raise Fault(f"the manual has no EXISTS with the WHERE {where}")
        file = generate.tables_file([(tables.columns[0], [self.worked_row]), (tables.columns[1], [row])])
        for heading, condition in conditions.items():
            for letter, truth in TRUTHS.items():
                self.values(f"EXISTS (FROM 2 w WHERE ({condition}) IS {truth.upper()})".encode(), file, ["T" if letter == cells[heading] else "F"])
            truth_from(cells[heading])
        self.values(f"EXISTS (FROM 2 w WHERE {where})".encode(), file, {"yes": "T", "no": "F"}[cells["Retained"]])

    def try_lists(self, line, cells):
        """The test that a heading begins, with a list of these values, on a row whose column is blank."""
        written = cells["Values in the list"]
        values = [] if written == "none" else [cell_from(value) for value in written.split(", ")]
        file = generate.tables_file([(1, [[None]]), (1, [[value] for value in values])])
        for heading, letter in itertools.islice(cells.items(), 1, None):
            begun = "".join(code_in(heading))
            text = "EXISTS (FROM 2 v WHERE 1 = 1)" if begun == "EXISTS" else f"{begun} (SELECT v.1 FROM 2 v WHERE 1 = 1)"
            self.tried(line, "lists", self.values, text.encode(), file, [letter])

    def try_refusals(self, line, cells):
        self.tried(line, "refusals", self.try_refusal, cells)

    def try_refusal(self, cells):
        """A line of the refusals, each with what to do; those beyond reading are tried on document 01's examples."""
        number = int(cells["Refusal"])
        self.order.append(number)
        if not cells["When"] or not cells["What to do"]:
            raise Fault("it is not said when, or what to do")
        if number == 2:
            self.try_marks(cells["When"])
        if number == 14:
            self.try_fields(cells["When"])
        if number not in READING_REFUSALS:
            self.each(f"example of {number}", lambda judge: judge.beyond_reading()[number], number)

    # ---- declined cells

    def try_cells(self, line, cells):
        """What a heading says of a cell: a test of a value, or a comparison, or this with NOT before it; a number is tried in a cell and in the rule."""
        cell = cell_from(cells["Cell"])
        endings = {f"`{ending}`": f"{{}} {ending}" for ending in (*VALUE_TESTS, "= 5", "<> 5")} | {"`NOT` with `= 5`": "NOT {} = 5"}
        if set(cells) - {"Cell"} != set(endings):
            self.fault(line, f"not the four tests of a value and the comparisons: {sorted(cells)}")
        for heading, form in endings.items():
            for value in ["m.1"] + [str(cell)] * isinstance(cell, int):
                self.tried(line, "cells" if value == "m.1" else "constants", self.values, form.format(value).encode(), one_cell(cell), [cells.get(heading)])
        self.cell_marks.add(model.mark_of(cell))

    def try_forms(self, line, cells):
        self.tried(line, "forms", self.try_form, cells)

    def try_form(self, cells):
        """What a form writes: the cell, its mark in a tables file, and its field in comma lines, of which IMPORT makes this cell and this mark."""
        cell, field = cell_from(cells["The cell is"]), cells["Field in comma lines"]
        compare.same(f"the cell where somebody {cells['At the sign-up form']}", cell, FORM_CELLS[cells["At the sign-up form"]])
        lines = (b"" if field == "empty" else code_in(field)[0].encode()) + b"\n"
        for judge in self.judges:
            file = judge.import_lines(lines, 1, AMPLE_FILE_ROOM)
            compare.same(f"{lines} by {judge.name}", (model.tables_of(file).rows, file[-1]), ([[[cell]]], int(cells["Mark in a tables file"])))
            compare.same(f"the lines of {file}", judge.export_lines(file, AMPLE_COMMA_ROOM), lines)
        self.forms.append(cells["At the sign-up form"])

    def try_marks(self, written):
        """Every mark: it says what it is said to, or is refused."""
        above, *marks = map(int, re.fullmatch(MARKS_CELL, written).groups())
        letters = dict(zip(marks, (("F", "F"), ("T", "F"), ("T", "T"))))
        for mark in range(256):
            file = one_cell(0)[:-1] + bytes([mark])
            self.answers(b"1 = 1", file, 2 if mark > above else None)
            if mark <= above:
                for ending, letter in zip(("NULL", "DECLINED"), letters[mark]):
                    self.values(f"m.1 IS {ending}".encode(), file, [letter])

    def try_fields(self, written):
        """The field of a declined cell, and one that is refused."""
        alone, declined, refused = re.fullmatch(FIELDS_CELL, written).groups()
        compare.same("the field of a declined cell", declined, alone)
        self.each(declined, lambda judge: model.tables_of(judge.import_lines(declined.encode(), 1, AMPLE_FILE_ROOM)).rows, [[[model.DECLINED_CELL]]])
        self.each(refused, lambda judge: refusal_in(judge.import_lines(refused.encode(), 1, AMPLE_FILE_ROOM)), 14)
        compare.same(f"{refused} has a declined cell in it, and more", (alone in refused, refused != alone), (True, True))

    def try_blank_in_every_respect(self):
        """Comparisons with a declined cell, on either side, and drawn rules without DECLINED on drawn tables: their values are those with plain blanks."""
        self.said_once(SAME_AS_BLANK_SENTENCES)
        others = [model.DECLINED_CELL, model.BLANK_CELL, LOWEST, 0, 5, HIGHEST]
        file = generate.tables_file([(2, [[model.DECLINED_CELL, other] for other in others])])
        for sign, before in itertools.product(self.comparisons, ("", "NOT ")):
            for text in (f"{before}m.1 {sign} m.2", f"{before}m.2 {sign} m.1", f"{before}m.1 {sign} 5", f"{before}0 {sign} m.1"):
                self.values(text.encode(), file, "U" * len(others))
        self.values(b"m.1 IS NULL", file, "T" * len(others))
        draw, seen = random.Random(SEED), collections.Counter()
        maker = generate.RuleMaker(draw, [2, 1, 1], truths=.15, even=True, declined=0)
        for _ in range(DRAWN_DECLINED):
            text = generate.spaced(draw, maker.rule(draw.choice([1, 2, 3])))
            file = generate.filled_tables(draw, [(2, 3), (1, 2), (1, 1)], .5, .5)
            plain = generate.with_marks(file, {model.MARK_DECLINED: model.MARK_BLANK})
            for judge in self.judges:
                values = judge.values(text, plain)
                compare.same(f"{text} with declined cells, by {judge.name}", judge.values(text, file), values)
                compare.same(f"the rows of the card of {text}, by {judge.name}", judge.admitted(text, plain, file), judge.admitted(text, plain))
                seen.update(values if file != plain else ())
        compare.same("the values of drawn rules", set(seen), set(TRUTHS.values()))

    def try_declined_sentences(self):
        """What is said of the two tests: of constants, with NOT before them, beside comparisons, and of a controller from before."""
        self.said_once(DECLINED_SENTENCES)
        whole, draw = " ".join(self.text.split()), random.Random(SEED)
        file = generate.tables_file([(3, [[cell] * 3 for cell in (model.DECLINED_CELL, model.BLANK_CELL, 0, 1)])])
        one, letter, other, other_letter = re.search(CONSTANT_SENTENCE, whole).groups()
        for text, said in ((one, letter), (other, other_letter)):
            self.values(text.encode(), file, said[0].upper() * 4)
        comparison, said = re.search(SHUT_SENTENCE, whole).groups()
        self.each(comparison, lambda judge: judge.values(comparison.encode(), file)[0], getattr(model, said.upper()))
        self.each(comparison, lambda judge: judge.admitted(comparison.encode(), file), [3])
        negated, same = re.search(NOT_SENTENCE, whole).groups()
        for text in (negated, same):
            self.values(text.encode(), file, "FTTT")
        drawn = [generate.filled_tables(draw, [(3, 9)], .6, .5) for _ in range(LATER_FILES)]
        for judge, later in itertools.product(self.judges, drawn):
            compare.same(f"{negated} and {same}", judge.values(negated.encode(), later), judge.values(same.encode(), later))
            for text in (negated, same, comparison, "m.1 IS DECLINED OR m.2 > 0"):
                wanted = [row for row, value in enumerate(judge.values(text.encode(), later)) if value == model.TRUE]
                compare.same(f"the card of {text} on other cells", judge.admitted(text.encode(), file, later), wanted)
        refusal = int(re.search(OLD_CONTROLLER_SENTENCE, whole)[1])
        self.each("a mark above the highest", lambda judge: judge.refusal(b"1 = 1", one_cell(0)[:-1] + b"\3"), refusal)

    # ---- comma lines

    def take_lines(self, fence):
        """The tables file of some comma lines, each with a line feed behind it, for what follows. Their columns are one more than the commas of a line."""
        self.lines = "".join(line + "\n" for line in fence.lines).encode()
        self.file = self.judges[0].import_lines(self.lines, fence.lines[0].count(",") + 1, AMPLE_FILE_ROOM)
        self.each(self.lines, lambda judge: judge.import_lines(self.lines, fence.lines[0].count(",") + 1, AMPLE_FILE_ROOM), self.file)
        self.answers(b"1 = 1", self.file, None)
        self.answers(b"EXISTS (FROM 1 v WHERE 1 = 1)", self.file, None)
        self.answers(b"EXISTS (FROM 2 v WHERE 1 = 1)", self.file, 8)

    def try_exported(self, fence):
        """The comma lines of the tables file."""
        self.each(self.file, lambda judge: judge.export_lines(self.file, AMPLE_COMMA_ROOM), "".join(line + "\n" for line in fence.lines).encode())

    def try_length(self, columns, length):
        """The columns and the length of the tables file."""
        compare.same("the columns", int(columns), model.tables_of(self.file).columns[0])
        compare.same("the length of the tables file", number_from(length), len(self.file))

    def try_listed(self, first, last):
        """The rows that the card of the rule before lists."""
        self.each(self.last_rule, lambda judge: judge.admitted(self.last_rule, self.file), [*map(int, first.split(", ")), int(last)])

    def try_rows_of_lines(self, table):
        """A table with a line for each row of the tables file: its cells, or what a rule says of it and what the gate does."""
        rows = model.tables_of(self.file).rows_of(1)
        if [cells["Row"] for _, cells in table.rows] != [str(number) for number in range(len(rows))]:
            self.fault(table.line, f"not the {len(rows)} rows of the lines before")
        numbered = [heading for heading in table.headings if heading.startswith("Column ")]
        if numbered != [f"Column {number}" for number in range(1, len(numbered) + 1)]:
            self.fault(table.line, f"not the columns in their order: {numbered}")
        for line, cells in table.rows:
            if "Line" in cells:
                self.tried(line, "rows at the gate", self.try_at_the_gate, cells)
            else:
                self.tried(line, "rows of lines", compare.same, "a row", [cell_from(cells[heading]) for heading in table.headings[1:]], rows[int(cells["Row"])])

    def try_at_the_gate(self, cells):
        """A row of the till's file: its line, the value of each test of the rule before, that of the whole rule, and what the gate does."""
        row = int(cells["Row"])
        compare.same("the line", code_in(cells["Line"]), [self.lines.decode().split("\n")[row]])
        tests = {heading: code_in(heading)[0] for heading in cells if code_in(heading)}
        compare.same("the tests joined by AND", " AND ".join(tests.values()).encode(), self.last_rule)
        for heading, text in [*tests.items(), ("Both", self.last_rule.decode())]:
            self.each(text, lambda judge: judge.values(text.encode(), self.file)[row], truth_from(cells[heading]))
        wanted = {"opens": True, "stays shut": False}[cells["At the gate"]]
        self.each(self.last_rule, lambda judge: row in judge.admitted(self.last_rule, self.file), wanted)

    def try_comma_lines(self, line, cells):
        self.tried(line, "comma lines", self.try_comma_example, cells)
        if "refused" in cells["Answer"]:
            self.tried(line, "faults", self.try_line_fault, cells)

    def try_comma_example(self, cells):
        """Comma lines have so many rows, or are refused; so many cells, where that is said; and what is to be written or named instead is accepted."""
        lines, columns, why = lines_of(cells["Lines"]), int(cells["Columns"]), cells["Why, and what to do"]
        rows = re.fullmatch(r"([\d,]+) rows?", cells["Answer"])
        for judge in self.judges:
            answer = judge.import_lines(lines, columns, AMPLE_FILE_ROOM)
            got = refusal_in(answer) if isinstance(answer, model.Refused) else f"{cases.row_count(answer):,}"
            compare.same(f"{cells['Lines']} by {judge.name}", got, rows[1] if rows else answer_from(cells["Answer"]))
            for written in re.findall(f"\\bwrite {CODE}", why):
                compare.same(f"{written} instead", refusal_in(judge.import_lines(written.encode(), columns, AMPLE_FILE_ROOM)), None)
            for other in re.findall(r"\bname (\d+)", why):
                compare.same(f"{other} columns", refusal_in(judge.import_lines(lines, int(other), AMPLE_FILE_ROOM)), None)
            if why == "the age is declined":
                compare.same(cells["Lines"], model.tables_of(answer).rows, [[[101, model.DECLINED_CELL, 8]]])
        for count in re.findall(r"^([\d,]+) cells", why):
            compare.same("how many cells there are", number_from(count), lines.count(b"\n") * columns)

    def try_line_fault(self, cells):
        """Without the fault that is named the lines are accepted; where two are named, the other is left."""
        why, _, advice = cells["Why, and what to do"].partition(":")
        left = [int(number) for number in re.findall(r"(\d+) follows", advice)] + [None]
        columns = int(cells["Columns"])
        if why == COLUMNS_FAULT and 1 <= columns <= model.MOST_COLUMNS:
            raise Fault(f"{columns} columns are no fault")
        changed = mended(why, lines_of(cells["Lines"]), columns)
        self.mended.add(why)
        self.each(f"without {why}", lambda judge: refusal_in(judge.import_lines(*changed, AMPLE_FILE_ROOM)), left[0])

    def try_size_sentences(self):
        """Rows, cells and columns of comma lines, wherever they are said, and both sides of them."""
        whole = " ".join(self.text.split())
        for name, most in (("rows", model.MOST_ROWS), ("cells", model.MOST_CELLS)):
            compare.same(f"over so many {name}", set(map(number_from, re.findall(rf"\bover ([\d,]+) {name}", whole))), {most})
        columns = re.findall(r"columns (?:is|are) not (\d+) to (\d+)|how many cells every line has, (\d+) to (\d+)", whole)
        ends = {tuple(int(number) for number in found if number) for found in columns}
        compare.same("the number of columns", (ends, len(columns)), ({(1, model.MOST_COLUMNS)}, 3))
        for count in (0, 1, model.MOST_COLUMNS, model.MOST_COLUMNS + 1):
            wanted = None if 1 <= count <= model.MOST_COLUMNS else 14
            self.each(f"{count} columns", lambda judge: refusal_in(judge.import_lines(b"," * (count - 1), count, AMPLE_FILE_ROOM)), wanted)

    def try_day_numbers(self):
        """The numbers that are given for a day: year, month and day, and the days since the one that is named."""
        whole = " ".join(self.text.split())
        start = datetime.datetime.strptime(re.search(r"mostly counted from (\d+ \w+ \d+):", whole)[1], "%d %B %Y")
        found = [(int(number), datetime.datetime.strptime(day, "%d %B %Y")) for number, day in re.findall(DAY_SENTENCE, whole)]
        compare.same("the numbers of days", [number for number, _ in found], [int(f"{found[0][1]:%Y%m%d}"), (found[-1][1] - start).days])
        formula = re.search(r"`=(YEAR\(A1\)[^`]*)`", whole)[1]
        parts = {"YEAR": lambda day: day.year, "MONTH": lambda day: day.month, "DAY": lambda day: day.day}
        compare.same("the formula for a day", eval(formula, {"__builtins__": {}}, parts | {"A1": found[0][1]}), found[0][0])

    def try_own_lines(self):
        """Lines are refused with 14 exactly where one of them is by itself."""
        for sentence in OWN_LINE_SENTENCES:
            self.said_once([sentence])
        draw, seen = random.Random(SEED), collections.Counter()
        for lines, columns in (cases.drawn_lines(draw) for _ in range(DRAWN_LINES)):
            if not 1 <= columns <= model.MOST_COLUMNS:
                continue
            for judge in self.judges:
                alone = {refusal_in(judge.import_lines(line, columns, ONE_ROW_ROOM)) for line in io.BytesIO(lines)}
                whole = refusal_in(judge.import_lines(lines, columns, AMPLE_FILE_ROOM))
                compare.same(f"{lines} with {columns} columns", (whole == 14, 15 in alone), (14 in alone, False))
                seen[whole] += 1
        compare.same("drawn lines were accepted, and refused with 14", min(seen[None], seen[14]) > 50, True)

    def try_sheet_sentences(self):
        """What is said of a sheet with cells or numbers in it: whether IMPORT takes these cells, and what of."""
        self.said_once(SHEET_SENTENCES)
        whole = " ".join(self.text.split())

        def taken(field, columns=1):
            self.each(field, lambda judge: refusal_in(judge.import_lines(field.encode(), columns, AMPLE_FILE_ROOM)), None)
            return model.tables_of(model.import_lines(field.encode(), columns, AMPLE_FILE_ROOM)).rows_of(1)

        numbers = re.search(r"with a minus in front where it is needed: `(.*?)`, `(.*?)`, `(.*?)`\.", whole).groups()
        compare.same("plain numbers", [taken(number) for number in numbers], [[[int(number)]] for number in numbers])
        columns, line = re.search(r"with (\d+) columns, a member of whom only the number is known is `([^`]*)`\.", whole).groups()
        compare.same("a member of whom only the number is known", taken(line, int(columns)), [[int(line.strip(","))] + [None] * (int(columns) - 1)])
        zero, *texts = re.search(r"no `(.)`, which is a number, and no `(.)`, `(\w+)` or (space)\.", whole).groups()
        compare.same("a number that is not blank", taken(zero), [[0]])
        compare.same("a declined answer", taken("!"), [[model.DECLINED_CELL]])
        texts[-1:] = re.search(
            r"\*\*A `!` alone for a declined answer\.\*\* Nothing else stands in the cell: no `(!\d)`, `(!!)`, `(\w+)` or space\.", whole).groups()
        for text in [*texts, " ", "! ", re.search(r"a pass called `(\w+)`, needs a number", whole)[1]]:
            self.each(text, lambda judge: refusal_in(judge.import_lines(text.encode(), 1, AMPLE_FILE_ROOM)), 14)
        table, refusal = re.search(r"with this file a rule that names table (\d+) is refused with (\d+)\.", whole).groups()
        self.answers(b"EXISTS (FROM %b v WHERE 1 = 1)" % table.encode(), self.file, int(refusal))
        empty = re.search(r"in a sheet of one column an empty line is a row with a blank: look at the end of the file", whole)
        compare.same("empty lines of one column", (empty is not None, taken("1\n\n\n")), (True, [[1], [None], [None]]))
        compare.same("the most digits", number_from(re.search(r"zeros in front are allowed, up to (\w+) digits", whole)[1]), model.MOST_DIGITS)
        self.try_till_sentences(whole)

    def try_till_sentences(self, whole):
        """What is said of the till's file: its columns, the day of the rule, and how member numbers are written."""
        columns, names = re.search(r"a file that the till wrote, with (\d+) columns: (.*?)\.", whole).groups()
        compare.same("the columns of the till's file", ({int(columns)}, len(names.split(", "))), (set(model.tables_of(self.file).columns), int(columns)))
        day = datetime.datetime.strptime(re.search(r"The rule of the gate on (\d+ \w+ \d+):", whole)[1], "%d %B %Y")
        compare.same("the day in the rule", re.findall(rb"\d{8}", self.last_rule), [f"{day:%Y%m%d}".encode()])
        digits = re.search(r"The till writes member numbers with (\w+) digits\.", whole)[1]
        members = {len(line.split(b",")[0]) for line in self.lines.split(b"\n")}
        compare.same("the digits of the till's member numbers", members, {0, number_from(digits)})

    def try_code(self):
        """The code of the manual, run: a rule is tried, a sheet imported and exported, and the lines with faults printed."""
        blocks = examples.code_blocks(self.text)
        compare.same("blocks of code", len(blocks), 3)
        trial, sheet, faults = blocks
        rule = b"m.2 > 0 OR m.2 IS NULL"
        printed, files = examples.run_code(trial, {"rule.txt": rule, "tables.bin": self.first_file})
        compare.same("what is printed of a rule", printed, "TRUE\n[0, 1]\n")
        compare.same("the card", files["card.bin"], model.card(rule, self.first_file, end_to_end.LONGEST_CARD))
        printed, files = examples.run_code(sheet, {"members.csv": MEMBERS})
        compare.same("the tables file of a sheet", files["tables.bin"], model.import_lines(MEMBERS, 3, AMPLE_FILE_ROOM))
        compare.same("the lines of the tables file", files["again.csv"], b"101,34,8\n102,,3\n104,!,5\n103,16,\n")
        printed, _ = examples.run_code(faults, {"members.csv": BAD_MEMBERS})
        bad = [(row, line) for row, line in enumerate(io.BytesIO(BAD_MEMBERS)) if row in (0, 3, 4, 6)]
        compare.same("the lines with faults", printed, "".join(f"{row} {line}\n" for row, line in bad))
        compare.same("the lines of a right sheet", examples.run_code(faults, {"members.csv": MEMBERS})[0], "")

    # ---- the grammar

    def try_grammar(self, lines):
        """Drawn conditions of the manual's grammar are conditions, those of the tests' own generator are in the manual's grammar, and of damaged ones
        exactly those that are not in it are refused with 6; those with a truth test or DECLINED in a wrong place are not in it."""
        grammar, draw = Grammar(lines, self.comparisons), random.Random(SEED)
        makers = [generate.RuleMaker(draw, [2, 1, 1], truths=truths) for truths in (0, .25)]
        faults = itertools.cycle((generate.misplaced_truth, generate.misplaced_truth, generate.misplaced_declined))
        seen = collections.Counter()
        for _ in range(DERIVED_TEXTS):
            own, made = grammar.derived(draw, "condition", draw.randint(4, 12)), draw.choice(makers).rule(draw.choice([1, 2, 3, 4]))
            misplaced = next(faults)(draw, [2, 1, 1])
            for sort, tokens in (("own", own), ("made", made), ("damaged", damaged(draw, own)), ("damaged", damaged(draw, made)), ("misplaced", misplaced)):
                if len(tokens) > 60:
                    continue
                text = " ".join(tokens).encode()
                in_grammar = grammar.holds(tokens)
                for judge in self.judges:
                    refusal = judge.refusal(text, self.file)
                    if refusal in (4, 5) or (refusal == 6) == in_grammar:
                        raise Fault(f"{text}: {judge.name} says {refusal}, and by the manual it is {'a' if in_grammar else 'no'} condition")
                seen[sort, in_grammar] += 1
                seen.update((sort, "truth test") for word in model.TRUTH_WORDS if in_grammar and word in tokens)
                seen[sort, "DECLINED"] += in_grammar and "DECLINED" in tokens
        compare.same("conditions that the manual's own grammar does not hold", seen["own", False], 0)
        compare.same("conditions that the manual's grammar does not hold", seen["made", False], 0)
        compare.same("faults about truth tests and DECLINED that the manual's grammar holds", seen["misplaced", True], 0)
        compare.demand("the grammar", seen, {
            "own": (True, "truth test", "DECLINED"), "made": (True, "truth test", "DECLINED"), "damaged": (True, False, "truth test", "DECLINED"),
            "misplaced": (False,)})

    # ---- the manual as a whole

    def try_sentences(self):
        """Where a sentence or a table says at most or over so many, it is the number of the table of limits."""
        compare.same("the limits", sorted(self.most), sorted(MEASURES))
        whole = self.text.replace("\n", " ")
        for name, word in itertools.product(IN_SENTENCES, ("at most", "over")):
            found = re.findall(f"{word} (\\S+) {re.escape(name)}", whole)
            if not found or {number_from(number) for number in found} != {self.most[name]}:
                raise Fault(f"{word} {found} {name}, and by the table of limits {self.most[name]}")
        ends = [tuple(number_from(end) for end in pair) for pair in re.findall(RANGE_SENTENCE, whole)]
        compare.same("the range of numbers", set(ends), {(self.most["smallest number"], self.most["largest number"])})

    def try_order(self):
        """The table of refusals has those of every call, in the order of every call. Only where they rise it is said that the lowest is given, and else which
        two do not rise, what the one comes after, and that the other comes last."""
        compare.same("the refusals of the table", sorted(self.order), sorted(set(itertools.chain(*cases.REFUSALS_OF.values()))))
        for call, refusals in cases.REFUSALS_OF.items():
            compare.same(f"the order of {call}", tuple(number for number in self.order if number in refusals), refusals)
        self.said_once([ORDER_SENTENCE])
        rising, whole = self.order == sorted(self.order), " ".join(self.text.split())
        compare.same("it is said that the lowest is given", "lowest" in self.text, rising)
        exceptions = re.findall(EXCEPTION_SENTENCE, whole)
        compare.same("sentences on the numbers that do not rise", len(exceptions), 0 if rising else 1)
        for late, before, end in exceptions:
            others = [number for number in self.order if number not in (int(late), int(end))]
            compare.same(f"the numbers but for {late} and {end}", others, sorted(others))
            compare.same(f"what {late} comes after", self.order[self.order.index(int(late)) - 1], int(before))
            compare.same("what comes last", self.order[-1], int(end))
        first, last = re.search(NOT_THE_TEXT_SENTENCE, whole).groups()
        of_lines = {int(number) for number in re.search(LINES_SENTENCE, whole).groups()}
        compare.same("the refusals of comma lines", of_lines, set(cases.REFUSALS_OF["IMPORT"]) - set(cases.REFUSALS_OF["EXPORT"]))
        compare.same("the refusals that do not concern the text", set(range(int(first), int(last) + 1)) | of_lines, set(self.order) - set(READING_REFUSALS))

    def try_tables_sentence(self):
        """The limits of tables, from both sides."""
        found = re.findall(TABLES_SENTENCE, self.text)
        compare.same("sentences on the limits of tables", len(found), 1)
        numbers = [number_from(number) for number in found[0]]
        for name, least, most in (("tables", *numbers[:2]), ("columns", *numbers[2:4]), ("rows", *numbers[4:6]), ("cells", 0, numbers[6])):
            for count in {least - 1, least, most, most + 1} - {-1}:
                self.answers(b"1 = 1", cases.zero_tables(SIZES[name](count)), None if least <= count <= most else 1)

    def try_few_entries(self):
        """Without IS UNKNOWN and IS NOT UNKNOWN a rule has at most 192 entries; one that has as many as there can be is accepted."""
        self.said_once([FEW_ENTRIES_SENTENCE])
        parts, froms = self.most["parts"], self.most["FROMs"]
        most = max(most_entries(count, froms) for count in range(1, parts + 1))
        if most > self.most["entries"]:
            raise Fault(f"a rule with neither may have {most} entries")
        lists = b"1 IN (SELECT 1 FROM 1 v WHERE " * froms + b"1 = 1" + b")" * froms
        text = b" OR ".join([lists] * ((parts + 1) // (froms + 2)))
        compare.same("the parts and entries of the largest rule", (part_count(condition_in(text)), entry_count(text)), (parts, most))
        self.each(text, lambda judge: judge.entries(text, self.file), most)

    def said_once(self, sentences):
        """Each of some sentences stands in the manual once."""
        for sentence in sentences:
            compare.same(f"it is said once: {sentence}", " ".join(self.text.split()).count(sentence), 1)

    def try_splits(self):
        """A condition, and with IS NOT FALSE, IS UNKNOWN and IS FALSE behind it, on drawn tables: what is said of the rules that take the place of one."""
        self.said_once(SPLIT_SENTENCES)
        draw, seen = random.Random(SEED), collections.Counter()
        maker = generate.RuleMaker(draw, [2, 1, 1], truths=.15, even=True)
        for _ in range(DRAWN_CONDITIONS):
            condition = generate.spaced(draw, maker.rule(draw.choice([1, 2, 3])))
            file = generate.filled_tables(draw, [(2, 3), (1, 2), (1, 1)], .5)
            tests = [b"(" + condition + b") IS " + word for word in (b"NOT FALSE", b"UNKNOWN", b"FALSE")]
            for judge in self.judges:
                compare.same(f"the entries of {tests[0]}", judge.entries(tests[0], file), judge.entries(condition, file))
                for value, not_false, unknown, false in zip(*(judge.values(text, file) for text in (condition, *tests))):
                    compare.same(f"{condition} is {value}, and {tests[0]} {not_false}", value != model.TRUE and not_false == model.TRUE, value == model.UNKNOWN)
                    compare.same(f"{condition} is {value}, with IS UNKNOWN {unknown}, with IS FALSE {false}", [value, unknown, false].count(model.TRUE), 1)
                    seen[value] += 1
        compare.same("the values of drawn conditions", set(seen), set(TRUTHS.values()))

    def try_arithmetic_sentences(self):
        """The numbers of the truth values are those that JUDGE gives, and the words for NOT, AND and OR those of document 02; the claim stands where it is said
        to; and with what decides in front, the value is the same with each test behind it."""
        whole = " ".join(self.text.split())
        false, unknown, true, most, smaller, greater = re.search(ARITHMETIC_SENTENCE, whole).groups()
        compare.same("the numbers of the values", {"F": int(false), "U": int(unknown), "T": int(true)}, NUMBERS)
        compare.same("what NOT, AND and OR are", (most, smaller, greater), ("2", "smaller", "greater"))
        claim, path = re.search(PROVED_SENTENCE, whole).groups()
        compare.same(f"{claim} in {path}", len(re.findall(rf"^pub record {claim} ", (ROOT / path).read_text(), re.MULTILINE)), 1)
        for word, number in zip(("AND", "OR"), re.search(DECIDES_SENTENCE, whole).groups()):
            letter = next(letter for letter in NUMBERS if NUMBERS[letter] == int(number))
            for behind in TESTS.values():
                self.values(f"{TESTS[letter]} {word} {behind}".encode(), generate.tables_file([(1, [[None]])]), [letter])

    def try_never_unknown(self):
        """Conditions that are said to be never unknown, alone and with IS UNKNOWN behind them, on drawn tables."""
        self.said_once(NEVER_UNKNOWN_SENTENCES)
        draw, seen = random.Random(SEED), collections.Counter()
        maker = generate.RuleMaker(draw, [2, 1, 1], truths=.15)
        for number in range(DRAWN_CONDITIONS):
            condition = generate.spaced(draw, never_unknown(draw, maker, 1 if number % 3 == 0 else 3))
            file = generate.filled_tables(draw, [(2, 3), (1, 2), (1, 1)], .5)
            for judge in self.judges:
                values = judge.values(condition, file)
                seen.update(values)
                compare.same(f"{condition} is never unknown by {judge.name}", [value for value in values if value not in (model.TRUE, model.FALSE)], [])
                compare.same(f"{condition} with IS UNKNOWN behind it", judge.values(b"(" + condition + b") IS UNKNOWN", file), [model.FALSE] * len(values))
        compare.same("the values of what is never unknown", set(seen), {model.TRUE, model.FALSE})

    def try_link(self, target):
        """A link to a file that is there, or to a heading of the manual."""
        headings = re.findall(r"^#+ (.*)$", self.text, re.MULTILINE)
        anchors = {"#" + re.sub(r"[^a-z0-9 -]", "", heading.lower()).replace(" ", "-") for heading in headings}
        if target not in anchors and not (ROOT / NAME).parent.joinpath(target).is_file():
            raise Fault(f"a link to {target}, which is not there")

    def demand(self):
        """The sections are those of AT_LEAST with their examples; every refusal of reading has an example, and every truth value, every mark and all that a
        form may meet a line."""
        if self.sections != list(AT_LEAST):
            self.fault(1, f"the sections are {self.sections}, and should be {list(AT_LEAST)}")
        for section, wanted in AT_LEAST.items():
            for sort, least in wanted.items():
                if self.counts[section][sort] < least:
                    self.fault(1, f"section {section}: {self.counts[section][sort]} {sort}, and there should be {least}")
        if self.mended != set(FAULTS):
            self.fault(1, f"no lines that are refused for {sorted(set(FAULTS) - self.mended)}")
        if self.cell_marks != set(model.MARKS):
            self.fault(1, f"of the marks, the tests of a value are said for {sorted(self.cell_marks)} alone")
        if self.forms != list(FORM_CELLS):
            self.fault(1, f"what forms write is said for {self.forms}")
        if not self.refused >= set(READING_REFUSALS):
            self.fault(1, f"no example of refusals {sorted(set(READING_REFUSALS) - self.refused)}")
        for place, letters in (("in front of AND, OR and NOT", self.fronts), ("in front of them as numbers", self.numbers),
                               ("in the brackets of a truth test", self.bracketed)):
            if letters != set(TESTS):
                self.fault(1, f"of the truth values, {sorted(letters)} alone stand {place}")


def faults_of(text, judges):
    """What is not so in the text of a manual, and how many examples of each sort were tried."""
    manual = Manual(text, judges)
    try:
        manual.try_all()
    except Fault as fault:
        manual.fault(1, str(fault))
    return manual.faults, sum(manual.counts.values(), collections.Counter())


def main():
    judges = (Model(), Library())
    faults, counts = faults_of((ROOT / NAME).read_text(), judges)
    for fault in faults:
        print(fault)
    tried = ", ".join(f"{sort} {count}" for sort, count in counts.items())
    print(f"{NAME}: {counts.total()} examples on {' and '.join(judge.name for judge in judges)}, {len(faults)} faults ({tried})")
    sys.exit(1 if faults else 0)


if __name__ == "__main__":
    main()
