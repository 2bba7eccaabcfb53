"""What is measured: rules with tables and a judged row, texts, tables of growing size, comma lines, and the rules that take longest. A fixed seed fills the
tables."""
import pathlib
import random
import sys
import typing

sys.path.append(str(pathlib.Path(__file__).resolve().parents[1] / "tests" / "model"))

import model  # noqa: E402

SEED = 7
MOST_TEXT_BYTES = 4096
MOST_ROWS = 1000
MOST_BRACKETS = 32
MOST_UNKNOWNS = 6  # around one another: 127 entries for one comparison, where seven would take 255
BLANKS = .1  # the share of blank cells


class Case(typing.NamedTuple):
    """A rule, its tables as (columns, rows) with cells as the model has them, and the row of table 1 that RUN and JUDGE are asked for."""
    title: str
    rule: str
    tables: list
    row: int

    def is_flat(self):
        """Whether the rule looks at the judged row alone."""
        return "FROM" not in self.rule


def filled(draw, columns, rows, highest, blanks=BLANKS):
    """A table of numbers from 1 to `highest`, with a share of blanks."""
    return columns, [[None if draw.random() < blanks else draw.randint(1, highest) for _ in range(columns)] for _ in range(rows)]


def numbers_in(table):
    """The numbers in the first column of a table."""
    return {row[0] for row in table[1]} - {None}


def row_where(table, fits):
    """The number of the first row from the middle of a table on that fits."""
    rows = table[1]
    return next(number for number in range(len(rows) // 2, len(rows)) if fits(rows[number]))


def in_unknown(condition, count):
    """A condition in so many IS UNKNOWN around one another."""
    return "(" * count + condition + ") IS UNKNOWN" * count


# ---- LIST, RUN and JUDGE

def flat(rows):
    """One comparison. The judged row is not blank."""
    table = filled(random.Random(SEED), 2, rows, 4 * rows)
    return Case(f"`m.1 > {2 * rows}`, {rows:,} rows", f"m.1 > {2 * rows}", [table], row_where(table, lambda row: row[0]))


def eight_conditions():
    """Comparisons of eight columns, of tables with as many cells as there may be. The judged row is admitted: all eight are looked at."""
    conditions = list(zip((">", "<", ">=", "<=", "<>", ">", "<", "<>"), (5, 99, 3, 97, 50, 2, 98, 7)))
    holds = {">": int.__gt__, "<": int.__lt__, ">=": int.__ge__, "<=": int.__le__, "<>": int.__ne__}

    def admitted(row):
        return all(cell is not None and holds[sign](cell, number) for cell, (sign, number) in zip(row, conditions))

    rule = " AND ".join(f"m.{column} {sign} {number}" for column, (sign, number) in enumerate(conditions, 1))
    table = filled(random.Random(SEED), 16, 512, 100)
    return Case("eight comparisons of eight columns, 512 rows", rule, [table], row_where(table, admitted))


def exists(rows):
    """An equality with the judged row. There is no row equal to the judged one: all are looked at."""
    draw = random.Random(SEED)
    tables = [filled(draw, 2, rows, 4 * rows) for _ in range(2)]
    others = numbers_in(tables[1])
    judged = row_where(tables[0], lambda row: row[0] and row[0] not in others)
    return Case(f"EXISTS with an equality, {rows:,} × {rows:,} rows", "EXISTS (FROM 2 v WHERE v.1 = m.1)", tables, judged)


def between():
    """Two inequalities, for which no index of equal values helps. The judged row has nothing between its two numbers: all rows are looked at."""
    draw = random.Random(SEED)
    tables = [filled(draw, 2, MOST_ROWS, 4 * MOST_ROWS) for _ in range(2)]
    judged = row_where(tables[0], lambda row: None not in row and row[0] > row[1])
    return Case("EXISTS with two inequalities, 1,000 × 1,000 rows", "EXISTS (FROM 2 v WHERE v.1 > m.1 AND v.1 < m.2)", tables, judged)


def not_in(blank_in_list):
    """A list of about half the rows of a table with blanks. The judged row is not in the list.

    Without a blank in the list some rows are admitted, and all of its rows are looked at for the judged one. With one, which stands in the middle, none is.
    """
    draw = random.Random(SEED)
    tables = [filled(draw, 2, MOST_ROWS, 4 * MOST_ROWS) for _ in range(2)]
    retained = [row for row in tables[1][1] if row[1] is not None and row[1] > 2 * MOST_ROWS]
    for row in retained:
        row[0] = row[0] or draw.randint(1, 4 * MOST_ROWS)
    others = numbers_in(tables[1])
    judged = row_where(tables[0], lambda row: row[0] and row[0] not in others)
    if blank_in_list:
        retained[len(retained) // 2][0] = None
    title = f"NOT IN, 1,000 × 1,000 rows, {'one blank in the list: none admitted' if blank_in_list else 'blanks, but none in the list'}"
    return Case(title, f"m.1 NOT IN (SELECT v.1 FROM 2 v WHERE v.2 > {2 * MOST_ROWS})", tables, judged)


def three_levels(rows):
    """Three FROMs around one another. The judged row is not admitted, and has the largest number of such rows: it goes through most rows of all levels."""
    draw = random.Random(SEED)
    tables = [filled(draw, 2, rows, rows * 5 // 3) for _ in range(4)]
    others = numbers_in(tables[3])
    judged = max((row[0], number) for number, row in enumerate(tables[0][1]) if row[0] and row[0] not in others)[1]
    inner = "EXISTS (FROM 3 w WHERE w.1 = v.1 AND EXISTS (FROM 4 x WHERE x.1 > w.1 AND x.1 = m.1))"
    return Case(f"three levels, {rows} rows each", f"EXISTS (FROM 2 v WHERE v.1 < m.1 AND {inner})", tables, judged)


def truth_tests(count, title):
    """One comparison in IS UNKNOWN, of which each uses what it tests twice. The judged row is blank; one of them admits it, and more admit no row."""
    case = flat(MOST_ROWS)
    blank = row_where(case.tables[0], lambda row: row[0] is None)
    return Case(f"{title}, {MOST_ROWS:,} rows", in_unknown(case.rule, count), case.tables, blank)


def declined():
    """A test for declined values, of a column in which every second blank is a declined one. The judged row is declined."""
    case = flat(MOST_ROWS)
    blank_rows = [row for row in case.tables[0][1] if row[0] is None]
    for row in blank_rows[::2]:
        row[0] = model.DECLINED_CELL
    judged = row_where(case.tables[0], lambda row: model.is_declined(row[0]))
    return Case(f"`m.1 IS DECLINED`, {MOST_ROWS:,} rows", "m.1 IS DECLINED", case.tables, judged)


def compared():
    """The cases of LIST, RUN and JUDGE."""
    return (
        flat(MOST_ROWS), eight_conditions(), exists(MOST_ROWS), between(), not_in(False), not_in(True), three_levels(60), three_levels(250),
        truth_tests(1, "`(m.1 > 2000) IS UNKNOWN`"), truth_tests(MOST_UNKNOWNS, "six IS UNKNOWN around `m.1 > 2000`"), declined())


class Growth(typing.NamedTuple):
    """One rule at several row counts: what its time is divided by is the power of the row count, and has a name."""
    title: str
    case: typing.Callable
    row_counts: tuple
    power: int
    unit: str


GROWING = (
    Growth("one comparison", flat, (125, 250, 500, 1000), 1, "row"),
    Growth("EXISTS with an equality", exists, (125, 250, 500, 1000), 2, "pair of rows"),
    Growth("three levels", three_levels, (30, 60, 120, 240), 3, "triple of rows"),
)


# ---- READ and CARD

class Text(typing.NamedTuple):
    """A text for READ and CARD, and the number that it is refused with, or None."""
    title: str
    text: str
    refusal: typing.Optional[int]


TEXT_TABLES = [(2, [])]


def stretched(tokens, length):
    """A text of tokens with gaps between them, as even as they can be, so that it has a length."""
    places, spaces = len(tokens) - 1, length - sum(map(len, tokens))
    before = [number * spaces // places for number in range(places + 1)]
    return tokens[0] + "".join(" " * (before[number] - before[number - 1]) + tokens[number] for number in range(1, places + 1))


def in_brackets(test, depth):
    return ["("] * depth + test + [")"] * depth


def joined(tests):
    """The tokens of tests joined by OR."""
    tokens = tests[0]
    for test in tests[1:]:
        tokens = tokens + ["OR"] + test
    return tokens


def short_texts():
    yield Text("`m.2 < 5`", "m.2 < 5", None)
    yield Text("a NOT IN", "m.1 NOT IN (SELECT v.1 FROM 1 v WHERE v.2 > 3990)", None)
    yield Text("three FROMs", "EXISTS (FROM 1 v WHERE m.1 IN (SELECT w.1 FROM 1 w WHERE w.2 = ALL (SELECT x.2 FROM 1 x WHERE x.1 > v.1)))", None)
    yield Text("64 parts, joined by OR", "NOT " + " OR ".join(["m.1 <> -1"] * 32), None)
    yield Text("64 parts, each in another", "NOT " * 63 + "m.1=1", None)
    yield Text("`(m.2 > 0) IS UNKNOWN`", in_unknown("m.2 > 0", 1), None)
    yield Text("six IS UNKNOWN around `m.2 > 0`", in_unknown("m.2 > 0", MOST_UNKNOWNS), None)
    yield Text("32 IS UNKNOWN around `m.2 > 0`", in_unknown("m.2 > 0", MOST_BRACKETS), 13)


def long_texts():
    test = ["m", ".", "1", "<>", "-1"]
    long_numbers = ["m", ".", "0000000001", "<>", "-2147483648"]
    nested = "".join(in_brackets(["m.1=1"], MOST_BRACKETS))
    yield Text("64 parts, long gaps", stretched(["NOT"] + joined([test] * 32), MOST_TEXT_BYTES), None)
    yield Text("64 parts, long numbers, long gaps", stretched(["NOT"] + joined([long_numbers] * 32), MOST_TEXT_BYTES), None)
    in_all_brackets = ["NOT"] + joined([in_brackets(long_numbers, MOST_BRACKETS)] * 32)
    yield Text("64 parts, long numbers, each test in 32 brackets", stretched(in_all_brackets, MOST_TEXT_BYTES), None)
    yield Text("500 tests joined by OR", " OR ".join(["10=1"] * 500), 7)
    yield Text("56 tests joined by OR, each in 32 brackets", " OR ".join([nested] * 56), 7)
    yield Text("1,023 NOTs", "NOT " * 1023 + "1=1", 7)
    yield Text("4,096 gaps", " " * MOST_TEXT_BYTES, 6)


def texts():
    yield from short_texts()
    yield from long_texts()


# ---- IMPORT and EXPORT

class Lines(typing.NamedTuple):
    """A table as (columns, rows), whose comma lines are imported with what stands behind them, and the number that IMPORT refuses them with, or None."""
    title: str
    table: tuple
    behind: str
    refusal: typing.Optional[int]

    def text(self):
        rows = self.table[1]
        return "".join(",".join("" if cell is None else str(cell) for cell in row) + "\n" for row in rows) + self.behind


def of_digits(draw, columns, rows, fewest, most, blanks=BLANKS):
    """A table of numbers with so many digits, each count of digits as often, half of them below 0, with a share of blanks."""
    def cell():
        digits = draw.randint(fewest, most)
        size = draw.randint(10 ** (digits - 1), min(10 ** digits, 2 ** 31) - 1)
        return None if draw.random() < blanks else draw.choice((size, -size))
    return columns, [[cell() for _ in range(columns)] for _ in range(rows)]


def comma_lines():
    """The cases of IMPORT; those that it does not refuse are exported as well."""
    draw = random.Random(SEED)
    yield Lines("one row of 2 columns, 1 to 4 digits, no blanks", of_digits(draw, 2, 1, 1, 4, 0), "", None)
    yield Lines("10 rows of 4 columns, 1 to 4 digits", of_digits(draw, 4, 10, 1, 4), "", None)
    long_table = of_digits(draw, 8, MOST_ROWS, 1, 4)
    yield Lines("1,000 rows of 8 columns, 1 to 4 digits", long_table, "", None)
    yield Lines("512 rows of 16 columns, ten digits, no blanks", of_digits(draw, 16, 512, 10, 10, 0), "", None)
    yield Lines("1,000 rows of 8 blanks", (8, [[None] * 8] * MOST_ROWS), "", None)
    yield Lines("1,001 rows of 8 columns, the last field bad", long_table, "1,2,3,4,5,6,7,x", 14)


# ---- The longest RUN: three FROMs around one another over one table, of as many cells as fit with 1,000 rows

LISTS_IN_WORST = 21  # with the two EXISTS around them and the ORs between them they are 64 parts


def around(inner):
    """A condition in two EXISTS."""
    return f"EXISTS (FROM 1 v WHERE EXISTS (FROM 1 w WHERE {inner}))"


def deep(title, inner, rows):
    """A case without blanks, where column 1 is above all others and so the rule nowhere true: each place is looked at for each three rows."""
    draw = random.Random(SEED)
    table = 8, [[draw.randint(4001, 8000)] + [draw.randint(1, 4000) for _ in range(7)] for _ in range(rows)]
    return Case(f"{title}, {rows:,} rows", around(inner), [table], rows // 2)


def one_comparison(rows):
    """The simplest rule that looks at each three rows; an engine may notice that `w` does not matter."""
    return deep("three EXISTS around `x.2 > v.1`", "EXISTS (FROM 1 x WHERE x.2 > v.1)", rows)


def all_levels(rows):
    """A rule in which all levels matter."""
    return deep("three EXISTS around `x.2 > v.1 OR x.2 > w.1`", "EXISTS (FROM 1 x WHERE x.2 > v.1 OR x.2 > w.1)", rows)


def most_work(rows):
    """As much for each three rows as 64 parts allow: a list takes three parts with its WHERE and the OR before it, and gives two comparisons, an and, and a way
    through the rows of its own. Two comparisons and the ORs before them would take four parts.
    """
    lists = " OR ".join(["v.1 IN (SELECT x.2 FROM 1 x WHERE x.3 < w.1)"] * LISTS_IN_WORST)
    return deep(f"two EXISTS around {LISTS_IN_WORST} lists, 64 parts", lists, rows)
