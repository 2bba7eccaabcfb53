"""IMPORT and EXPORT as built, against answers worked out by hand from document 02, stored answers, the reference model, and Python's csv module: every byte
value at every place of small files, sizes around every limit, every set of refusals together, buffers of every length, random draws and damage; there and back;
blanks in place of declined cells; and that every tables file that IMPORT gives is one that READ and LIST accept.

Exit status 0 when all answers and all lent buffers agree, and every sort of answer was seen, in each group those that belong to it. The csv module judges right
lines alone: it takes quotes, and a CR by itself for a line end. An empty line is no field to it, and one blank field here; a ! is a field like any other to it.
"""
import collections
import csv
import functools
import io
import itertools
import random
import re
import struct

import compare
import library
import paper
import stored
import variants

import cases  # noqa: E402  (library adds the model's folder to the path)
import generate
import model

SEED = 20261117
DRAWS_OF_EACH_CALL = 12000
DRAWS_OF_DAMAGE = 12000
DRAWS_OF_DAMAGED_TABLES = 120
DRAWS_FOR_CSV = 3000
DRAWS_THERE_AND_BACK = 3000
UNTOUCHED = cases.UNTOUCHED_NUMBER

import_sorts, export_sorts = compare.sorts_of("IMPORT"), compare.sorts_of("EXPORT")
WANTED = import_sorts(*cases.REFUSALS_OF["IMPORT"]) | export_sorts(*cases.REFUSALS_OF["EXPORT"])


# ---- the tables files that are given

CELLS_BY_MARK = {1: None, 2: model.DECLINED_CELL}  # of the cells that have no number


def laid_out(file):
    """The columns, values and marks of a tables file with one table, which is laid out as document 01 says and has 0 under each blank and declined cell."""
    tables, columns, count = struct.unpack_from("<BBH", file)
    cells = columns * count
    compare.same("tables of an imported file, whether it may have its columns, and length", (tables, 1 <= columns <= 16, len(file)), (1, True, 4 + 5 * cells))
    values, marks = struct.unpack_from(f"<{cells}i", file, 4), file[4 + 4 * cells:]
    if any(mark > 2 or mark != 0 and value != 0 for value, mark in zip(values, marks)):
        raise compare.Disagreement(f"an imported file has a mark above 2, or no 0 under a blank or declined cell: {compare.shown(file.hex())}")
    return columns, values, marks


def rows_of(file):
    """The rows of such a file."""
    columns, values, marks = laid_out(file)
    cells = [CELLS_BY_MARK[mark] if mark else value for value, mark in zip(values, marks)]
    return [cells[place:place + columns] for place in range(0, len(cells), columns)]


NULL, DECLINED = "NULL", "DECLINED"
KINDS = {NULL: 5, DECLINED: 16}  # of the parts


def last_is(columns, word):
    """A rule that is true where the last of so many columns is blank, or declined."""
    return f"m.{columns} IS {word}".encode()


@functools.cache
def card_for(columns, word):
    """The card of that rule."""
    return model.card(last_is(columns, word), generate.tables_file([(columns, [])]), cases.AMPLE_ROOM)


class AllCalls:
    """The calls of a library; IMPORT's answers are given to READ and LIST as well."""

    def __init__(self, whole):
        self.lines, self.rules, self.gate = library.Lines(whole), library.Rules(whole), library.Gate(whole)

    def accepted(self, file, columns):
        """READ accepts a file, and LIST names the rows in which the last of so many columns is blank, as a declined cell is too, and those in which it is
        declined."""
        last = laid_out(file)[2][columns - 1::columns]
        declined = tuple(number for number, mark in enumerate(last) if mark == 2)
        blank = tuple(number for number, mark in enumerate(last) if mark != 0)
        word = DECLINED if declined else NULL
        part = model.Part(KINDS[word], 0, 0, 1, model.TaggedValue(0, columns), model.TaggedValue(0, 0))
        compare.same(("READ", file.hex()), self.rules.read(last_is(columns, word), file, cases.lent("READ", 1)), (1, (part,)))
        for word, wanted in ((NULL, blank), (DECLINED, declined)):
            compare.same(("LIST", word, file.hex()), self.gate.list_rows(card_for(columns, word), file, (UNTOUCHED,) * len(wanted)), (len(wanted), wanted))

    def imported(self, lines, columns, buffer):
        """IMPORT's answer, and the buffer afterwards."""
        result, after = self.lines.import_lines(lines, columns, buffer)
        if not isinstance(result, model.Refused):
            self.accepted(bytes(after[:result]), columns)
        return result, after

    def answer_of(self, case):
        """The answer to a case."""
        if case.call == "IMPORT":
            return cases.Expected(*self.imported(case.source, case.columns, case.buffer))
        return cases.Expected(*self.lines.export_lines(case.file, case.buffer))

    def file_of(self, lines, columns):
        """The file of lines that have to be accepted, with room for one row more than there are LFs."""
        result, after = self.imported(lines, columns, cases.lent("IMPORT", 4 + 5 * columns * (lines.count(b"\n") + 1)))
        if isinstance(result, model.Refused):
            raise compare.Disagreement(f"right lines are refused with {result.number}: {compare.shown(lines)}")
        return bytes(after[:result])

    def lines_of(self, file):
        """The lines of a file that has to be accepted, with room for 12 bytes for each cell of table 1."""
        _, columns, rows = struct.unpack_from("<BBH", file)
        result, after = self.lines.export_lines(file, cases.lent("EXPORT", 12 * columns * rows))
        if isinstance(result, model.Refused):
            raise compare.Disagreement(f"a right file is refused with {result.number}: {compare.shown(file.hex())}")
        return bytes(after[:result])


# ---- answers that are written down

def different_bytes(room):
    """A buffer of so many bytes, of which no two next to one another are alike."""
    return tuple(200 + place % 50 for place in range(room))


def check_written(answer_in, model_answer, wanted):
    """The sorts of answer to a call that is written down, with too little room, just enough and more: a refusal, or bytes. The library has to give it, and the
    model too. `answer_in` gives the library's answer with a buffer, `model_answer` the model's with ample room."""
    compare.same("by the model", model_answer, wanted)
    refused = isinstance(wanted, model.Refused)
    for room in (7,) if refused else (len(wanted) - 1, len(wanted), len(wanted) + 9):
        if room < 0:
            continue
        lent = different_bytes(room)
        if refused or room < len(wanted):
            number = wanted.number if refused else 12
            stated = (model.Refused(number), lent)
            yield f"refused {number}"
        else:
            stated = (len(wanted), tuple(wanted) + lent[len(wanted):])
            yield "given"
        compare.same((compare.shown(wanted), "with room for", room), answer_in(lent), stated)


def imports_written(calls, lines, columns, wanted):
    """The sorts of IMPORT's answers to lines whose answer is written down."""
    by_model = model.import_lines(lines, columns, cases.AMPLE_COMMA_ROOM)
    return (("IMPORT", sort) for sort in check_written(functools.partial(calls.imported, lines, columns), by_model, wanted))


def exports_written(calls, file, wanted):
    """The sorts of EXPORT's answers to a tables file whose answer is written down."""
    by_model = model.export_lines(file, cases.AMPLE_COMMA_ROOM)
    return (("EXPORT", sort) for sort in check_written(functools.partial(calls.lines.export_lines, file), by_model, wanted))


def check_paper(calls):
    """The answers that are worked out by hand."""
    seen = collections.Counter()
    for lines, columns, answer in paper.IMPORTS:
        seen.update(imports_written(calls, lines, columns, model.Refused(answer) if isinstance(answer, int) else paper.table(columns, answer)))
    for file, answer in paper.EXPORTS:
        seen.update(exports_written(calls, file, model.Refused(answer) if isinstance(answer, int) else answer))
    for file, wanted in paper.THERE_AND_BACK:
        compare.same("there and back", calls.file_of(calls.lines_of(file), file[1]), wanted)
    compare.agreed("answers worked out by hand", seen, WANTED)


def check_stored(calls):
    """The stored answers: neither the library nor the model has moved from them."""
    seen = collections.Counter()
    for lines, columns, wanted in stored.IMPORT.answers():
        seen.update(imports_written(calls, lines, columns, wanted))
    for file, _, wanted in stored.EXPORT.answers():
        seen.update(exports_written(calls, file, wanted))
    for store in (stored.IMPORT, stored.EXPORT):
        compare.same(f"how many answers are in {store.name}", sum(1 for _ in store.answers()), store.size)
    compare.agreed("stored answers", seen, import_sorts(12, 14) | export_sorts(1, 2, 12))


# ---- bytes of every value at every place

SMALL_LINES = (
    (b"", 1), (b"7", 1), (b"\n", 1), (b"-1\r\n\n30", 1), (b"1,-20\r\n,3\n", 2), (b"0,\n,-0", 2), (b",,\r\n1,,2", 3), (b"2147483647\n-2147483648\r\n", 1),
    (b"0000000001\r\n", 1), (b"," * 15, 16), (b"!", 1), (b"!,\r\n,!", 2))
SMALL_FILES = tuple(generate.tables_file(tables) for tables in (
    [(1, [])], [(1, [[7]])], [(2, [[-20, None], [model.DECLINED_CELL, 0]]), (1, [[3]])], [(1, [[2**31 - 1], [-2**31]])]))


def changed_lines():
    """Small files of lines, each byte changed to each value, one of each value put in at each place, each left out or doubled, and each shorter length."""
    for lines, columns in SMALL_LINES:
        damaged = itertools.chain([lines], variants.damaged_texts(lines), variants.each_byte_put_in(lines))
        yield from (cases.importing(changed, columns) for changed in damaged)


def changed_pairs():
    """Every pair of bytes that matter in lines, of which some together are one line end, in place of a field, at the start and at the end."""
    for first, second in itertools.product(b"\r\n,-!+ 019\x00.\"", repeat=2):
        pair = bytes([first, second])
        for lines, columns in ((pair, 1), (pair, 2), (b"1" + pair, 1), (pair + b"1", 1), (b"1," + pair, 2), (pair + b",1\n", 2), (b"1\n" + pair + b"\n2", 1)):
            yield cases.importing(lines, columns)


def changed_files():
    """Small tables files with the same changes."""
    for file in SMALL_FILES:
        damaged = itertools.chain([file], variants.damaged_texts(file), variants.each_byte_put_in(file))
        yield from (cases.exporting(changed) for changed in damaged)


# ---- sizes

def most_rows(columns):
    """The most rows that a table of so many columns has."""
    return min(1000, 8192 // columns)


def row_count_of(draw, number, columns):
    """How many rows the table has that is drawn as this one: mostly few, now and then any number, or as many as there may be."""
    if number % 100 == 0:
        return most_rows(columns)
    return draw.randint(0, most_rows(columns) if number % 25 == 0 else 9)


def size_cases():
    """As many rows as there may be, one fewer and one more, for each number of columns, with each line end and with none behind the last line."""
    for columns in range(1, 17):
        line = b",".join(([b"-7"] + [b"", b"!"] * 8)[:columns])
        for rows, end in itertools.product(range(most_rows(columns) - 1, most_rows(columns) + 2), (b"\n", b"\r\n")):
            sort = "refused 15" if rows > most_rows(columns) else "given"
            for lines in ((line + end) * rows, (line + end) * (rows - 1) + line):
                yield compare.Stated(cases.importing(lines, columns), sort)
                yield compare.Stated(cases.importing(lines + b"x", columns), "refused 14")


def file_size_cases():
    """Tables at the limits; the refusals are those that document 01 states."""
    for _, file, refusal in cases.limit_files():
        sort = "given" if refusal is None else f"refused {refusal}"
        yield compare.Stated(cases.exporting(file), sort)
        if refusal is None and cases.row_count(file) > 0:
            yield compare.Stated(cases.exporting(file, -1), "refused 12")


def room_cases():
    """Buffers of each length around the needed one, each byte of which is another."""
    for lines, columns in ((b"", 1), (b"1", 1), (b"1,\n,-2", 2), (b"!\n\n!", 1), (b"+1", 1), (b"\n" * 1001, 1)):
        for room in range(cases.answer_length("IMPORT", lines, b"", columns) + 4):
            yield cases.Case("IMPORT", lines, buffer=different_bytes(room), columns=columns)
    for file in SMALL_FILES + (paper.CASE_TABLES, paper.DECLINED_TABLES, b"\0", SMALL_FILES[1][:-1] + b"\2", SMALL_FILES[1][:-1] + b"\3"):
        for room in range(cases.answer_length("EXPORT", b"", file) + 4):
            yield cases.Case("EXPORT", b"", file, buffer=different_bytes(room))


# ---- refusals together, and draws

def refusal_cases():
    """Every set of refusals of IMPORT and of EXPORT together."""
    yield from compare.refusal_sets("IMPORT", "given")
    yield from compare.refusal_sets("EXPORT", "given")


def targeted_cases():
    """The model's own targeted ones."""
    return itertools.chain(cases.comma_cases(), compare.declined_cases("IMPORT", "EXPORT"))


def drawn_cases():
    """Random cases of each call."""
    draw = random.Random(SEED)
    for call in WANTED:
        for _ in range(DRAWS_OF_EACH_CALL):
            yield cases.drawn(draw, call)


def damaged_draws():
    """Drawn lines, each with one change or several."""
    draw = random.Random(SEED)
    for _ in range(DRAWS_OF_DAMAGE):
        columns = generate.column_count(draw)
        lines = generate.comma_lines(draw, generate.drawn_rows(draw, columns))
        for _ in range(draw.choice([1, 1, 2, 3])):
            lines = generate.damaged_lines(draw, lines)
        yield cases.importing(lines, columns)


def damaged_tables():
    """Lines of drawn tables of any size, every twentieth with rows too many, and the same with one change."""
    draw = random.Random(SEED)
    for number in range(DRAWS_OF_DAMAGED_TABLES):
        columns = draw.randint(1, 16)
        rows = most_rows(columns) + draw.randint(1, 9) if number % 20 == 0 else draw.randint(0, most_rows(columns))
        lines = generate.comma_lines(draw, generate.random_rows(draw, columns, rows))
        yield cases.importing(lines, columns)
        yield cases.importing(generate.damaged_lines(draw, lines), columns)


GROUPS = (
    (changed_lines, import_sorts(14)),
    (changed_pairs, import_sorts(14)),
    (changed_files, export_sorts(1, 2)),
    (size_cases, import_sorts(14, 15)),
    (file_size_cases, export_sorts(1, 2, 12)),
    (room_cases, WANTED),
    (refusal_cases, WANTED),
    (targeted_cases, WANTED),
    (drawn_cases, WANTED),
    (damaged_draws, import_sorts(14)),
    (damaged_tables, import_sorts(14, 15)),
)


# ---- the csv module

# LF after each line, and numbers without spare zeros
WRITTEN = re.compile(rb"(?:{0}(?:,{0})*\n)*".replace(b"{0}", rb"(?:0|-?[1-9][0-9]*|!)?"))
# what has to occur among the lines that the csv module reads
CSV_SORTS = {
    "LF": lambda lines, columns, rows: b"\n" in lines,
    "CRLF": lambda lines, columns, rows: b"\r\n" in lines,
    "no last line end": lambda lines, columns, rows: rows and not lines.endswith(b"\n"),
    "no rows": lambda lines, columns, rows: not rows,
    "an empty line": lambda lines, columns, rows: columns == 1 and [None] in rows,
    "a line of one !": lambda lines, columns, rows: columns == 1 and [model.DECLINED_CELL] in rows,
    "a blank beside a declined cell": lambda lines, columns, rows: any(None in row and model.DECLINED_CELL in row for row in rows),
    "a full table": lambda lines, columns, rows: len(rows) == most_rows(columns),
}


def rows_by_csv(lines):
    """The rows of right lines, as the csv module reads them; an empty line, to which it gives no field, has one blank."""
    rows = csv.reader(io.StringIO(lines.decode("ascii"), newline=""), quoting=csv.QUOTE_NONE, strict=True)
    no_numbers = {"": None, "!": model.DECLINED_CELL}
    return [[no_numbers[field] if field in no_numbers else int(field) for field in row] or [None] for row in rows]


def check_csv(calls):
    """Right lines are imported as the csv module reads them, and what is exported of them it reads as the same rows."""
    draw = random.Random(SEED)
    seen = collections.Counter()
    for number in range(DRAWS_FOR_CSV):
        columns = draw.randint(1, 16)
        rows = generate.random_rows(draw, columns, row_count_of(draw, number, columns))
        lines = generate.comma_lines(draw, rows)
        compare.same((lines, "by the csv module"), rows_by_csv(lines), rows)
        file = calls.file_of(lines, columns)
        compare.same((lines, "imported"), rows_of(file), rows)
        written = calls.lines_of(file)
        compare.same((lines, "exported, by the csv module"), rows_by_csv(written), rows)
        if not WRITTEN.fullmatch(written):
            raise compare.Disagreement(f"spare zeros, or a line without LF alone behind it: {compare.shown(written)}")
        seen.update((sort, True) for sort, applies in CSV_SORTS.items() if applies(lines, columns, rows))
    compare.agreed("lines as the csv module reads them", seen, {sort: (True,) for sort in CSV_SORTS})


# ---- there and back

def drawn_file(draw, number):
    """A right tables file, of one table or several."""
    if number % 4 == 1:
        return generate.random_tables(draw)
    columns = draw.randint(1, 16)
    tables = [(columns, generate.random_rows(draw, columns, row_count_of(draw, number, columns)))]
    return generate.tables_file(tables + [(1, [[5]])] * (number % 4 == 3))


def first_table(file):
    """Table 1 of a file alone, with 0 under each blank and declined cell: its columns and rows are the first in the file, and so are its values and marks."""
    tables, columns, rows = struct.unpack_from("<BBH", file)
    values, cells = 1 + 3 * tables, columns * rows
    marks = (len(file) - values) // 5 * 4 + values
    kept = b"".join(bytes(4) if file[marks + cell] else file[values + 4 * cell:values + 4 * cell + 4] for cell in range(cells))
    return b"\1" + file[1:4] + kept + file[marks:marks + cells]


def check_there_and_back(calls):
    """What is exported is imported as table 1 with 0 under each blank and declined cell, and exported again as the same lines; no bytes under such cells show.
    In every third file, where blanks stand in place of declined cells, empty fields stand in place of each !, and the other way round."""
    draw = random.Random(SEED)
    seen = collections.Counter()
    for number in range(DRAWS_THERE_AND_BACK):
        plain = drawn_file(draw, number)
        file = generate.with_other_values(draw, plain)
        lines = calls.lines_of(file)
        back = calls.file_of(lines, file[1])
        compare.same((file.hex(), "there and back"), back, first_table(file))
        compare.same((file.hex(), "there and back and there"), calls.lines_of(back), lines)
        seen["several tables", file[0] > 1] += 1
        seen["bytes under blanks", file != plain] += 1
        seen["rows", len(back) > 4] += 1
        if number % 3 == 0:
            without_declined = lines.replace(b"!", b"")
            compare.same((file.hex(), "blanks in place of declined cells"), calls.lines_of(variants.with_blanks_for_declined(file)), without_declined)
            compare.same((lines, "without !"), calls.file_of(without_declined, file[1]), variants.with_blanks_for_declined(back))
            seen["declined cells", without_declined != lines] += 1
    compare.agreed("there and back", seen, {sort: (True, False) for sort in ("several tables", "bytes under blanks", "declined cells", "rows")})


def check_all(calls):
    check_paper(calls)
    check_stored(calls)
    check_csv(calls)
    check_there_and_back(calls)
    comparison = compare.Comparison(calls.answer_of)
    comparison.groups(GROUPS)
    comparison.demand(WANTED)


def main():
    check_all(AllCalls(library.load("roskudla")))


if __name__ == "__main__":
    compare.end_with(main)
