"""Cases of the eight calls, with the model's answers: random draws, and targeted cases at the limits of documents 01 and 02.

The truth tests of document 02's Point 1, the comma lines of its Point 2 and the declined cells of its Point 4 are among
them. Those about declined cells have answers that are worked out by hand, beside the model's.
"""
import functools
import itertools
from dataclasses import dataclass

import generate
import model

CALLS = ("READ", "JUDGE", "CARD", "CHECK", "RUN", "LIST", "IMPORT", "EXPORT")
READING_CALLS = ("READ", "JUDGE", "CARD")
COMMA_CALLS = ("IMPORT", "EXPORT")
LENDING_CALLS = ("READ", "CARD", "LIST") + COMMA_CALLS
AMPLE_ROOM = 10000
# More than the longest answer of IMPORT and EXPORT: 8,192 cells take up to 12 bytes each
AMPLE_COMMA_ROOM = 100000
UNTOUCHED_PART = model.Part(77, 66, 55, 44, model.TaggedValue(33, -5), model.TaggedValue(22, 11))
UNTOUCHED_NUMBER = 99


@dataclass(frozen=True)
class Case:
    """One call. `source` is the text of READ, JUDGE and CARD, the card of CHECK, RUN and LIST, and the comma lines of IMPORT.

    JUDGE and RUN have a row; READ, CARD, LIST, IMPORT and EXPORT have a lent buffer, as it is before the call. IMPORT has
    columns, and no file; EXPORT has a file, and an empty source.
    """
    call: str
    source: bytes
    file: bytes = b""
    row: int = 0
    buffer: tuple = ()
    columns: int = 0


@dataclass(frozen=True)
class Expected:
    """What a call answers, and what its buffer holds afterwards. An answer in a buffer is its number of elements."""
    result: object
    buffer: tuple = ()


def answer_of(case):
    """The model's answer."""
    room = len(case.buffer)
    if case.call == "READ":
        return model.read(case.source, case.file, room)
    if case.call == "JUDGE":
        return model.judge(case.source, case.file, case.row)
    if case.call == "CARD":
        return model.card(case.source, case.file, room)
    if case.call == "CHECK":
        return model.check(case.source)
    if case.call == "RUN":
        return model.run(case.source, case.file, case.row)
    if case.call == "IMPORT":
        return model.import_lines(case.source, case.columns, room)
    if case.call == "EXPORT":
        return model.export_lines(case.file, room)
    return model.list_rows(case.source, case.file, room)


def expected(case):
    """The model's answer, with the whole buffer: a refusal leaves it, and so does an answer past its end."""
    answer = answer_of(case)
    if case.call not in LENDING_CALLS:
        return Expected(answer)
    if isinstance(answer, model.Refused):
        return Expected(answer, case.buffer)
    return Expected(len(answer), tuple(answer) + case.buffer[len(answer):])


def outcome_of(case, stated):
    """A short name for the sort of answer that is stated for a case."""
    if isinstance(stated.result, model.Refused):
        return f"refused {stated.result.number}"
    return "given" if case.call in LENDING_CALLS else f"given {stated.result}"


def outcome(case):
    """The same for the model's answer."""
    return outcome_of(case, expected(case))


# ---- parts as numbers

PART_NUMBERS = 8


def numbers_of(parts):
    """The fields of the parts in document 01's order, a value as its tag and its number: eight numbers for each part."""
    return tuple(
        number
        for part in parts
        for number in (part.kind, part.comparison, part.table, part.end, part.left.tag, part.left.number, part.right.tag, part.right.number))


def parts_from(numbers):
    """The parts whose fields these numbers are, eight for each."""
    fields = [numbers[place:place + PART_NUMBERS] for place in range(0, len(numbers), PART_NUMBERS)]
    return tuple(model.Part(*part[:4], model.TaggedValue(*part[4:6]), model.TaggedValue(*part[6:])) for part in fields)


# ---- building cases

@functools.lru_cache(maxsize=64)
def lent(call, room):
    """A buffer of a call, with content that no answer has. The ample ones are asked for again and again, and take long to make."""
    return (UNTOUCHED_PART if call == "READ" else UNTOUCHED_NUMBER,) * room


def answer_length(call, source, file, columns=0):
    """The elements that a lending call's answer has; 0 for a refusal."""
    ample = AMPLE_COMMA_ROOM if call in COMMA_CALLS else AMPLE_ROOM
    answer = answer_of(Case(call, source, file, buffer=lent(call, ample), columns=columns))
    return 0 if isinstance(answer, model.Refused) else len(answer)


def fitting(call, source, file, more=0, columns=0):
    """A case of a lending call whose buffer has as many elements as the answer, and `more` (or fewer, below 0).

    A refusal and an empty answer get a buffer too, which has to stay as it is.
    """
    length = answer_length(call, source, file, columns)
    room = max(0, length + more) if length > 0 else 2
    return Case(call, source, file, buffer=lent(call, room), columns=columns)


def importing(lines, columns, more=0):
    """The fitting case of IMPORT."""
    return fitting("IMPORT", lines, b"", more, columns)


def exporting(file, more=0):
    """The fitting case of EXPORT."""
    return fitting("EXPORT", b"", file, more)


def row_count(file):
    """The rows of table 1 of a right tables file."""
    return len(model.tables_of(file).rows_of(1))


# ---- random draws

def drawn_text(random, call, columns):
    """A text for READ, JUDGE or CARD: more often a right one for the calls that answer more."""
    if random.random() < .01:
        return bytes([random.choice(b" \n(@")]) * random.choice([4096, 4097, 5000])
    if random.random() < .02:
        return generate.rule_near_sum(random, columns)
    if random.random() < {"READ": .45, "JUDGE": .8, "CARD": .75}[call]:
        wild, truths = random.choice([0, 0, 0, .05, .15]), random.choice([0, .1, .3])
        return generate.short_rule(random, columns, [1, 1, 2, 2, 3, 4, 5], 140, wild, truths)
    return generate.damaged_text(random, columns)


def drawn_room(random, call, source, file, columns=0):
    """The change to the fitting number of elements."""
    if random.random() < .88:
        return random.choice([0, 0, 1, 3])
    return -random.randint(1, max(1, answer_length(call, source, file, columns)))


def drawn_row(random, file, inside, beyond):
    """A row number: mostly, with the share `inside`, one of table 1, else one past its end."""
    if random.random() < inside and row_count(file) > 0:
        return random.randrange(row_count(file))
    return row_count(file) + random.choice(beyond)


def drawn_reading(random, call):
    """A case of READ, JUDGE or CARD."""
    file = generate.random_tables(random)
    text = drawn_text(random, call, model.tables_of(file).columns)
    row = drawn_row(random, file, .93, [0, 1, 1000, 70000])
    if random.random() < .05:
        file = generate.damaged_tables(random, file)
    if call == "JUDGE":
        return Case(call, text, file, row=row)
    return fitting(call, text, file, drawn_room(random, call, text, file))


def drawn_card(random, columns, bad):
    """A card of a rule, or one that is drawn by itself."""
    if random.random() < .5:
        return generate.random_card(random, columns, bad)
    file = generate.tables_file([(count, []) for count in columns])
    while True:
        text = generate.short_rule(random, columns, [1, 1, 2, 3, 4], 140, truths=random.choice([0, .2]))
        sheet = model.card(text, file, 250)
        if not isinstance(sheet, model.Refused):
            return sheet


def drawn_check(random):
    """A case of CHECK."""
    if random.random() < .05:
        return Case("CHECK", bytes(random.randrange(6) for _ in range(random.randint(0, 40))))
    columns = model.tables_of(generate.random_tables(random)).columns
    sheet = drawn_card(random, columns, random.choice([0, .05, .1]))
    if random.random() < .65:
        sheet = generate.damaged_card(random, sheet)
    return Case("CHECK", sheet)


def drawn_running(random, call):
    """A case of RUN or LIST, mostly with a later file."""
    columns = model.tables_of(generate.random_tables(random)).columns
    sheet = drawn_card(random, columns, random.choice([0, 0, .05]))
    if random.random() < .08:
        sheet = generate.damaged_card(random, sheet)
    file = generate.later_tables(random, columns)
    if random.random() < .06:
        file = generate.random_tables(random)
    row = drawn_row(random, file, .9, [0, 0, 5, 999])
    if random.random() < .05:
        file = generate.damaged_tables(random, file)
    if call == "RUN":
        return Case(call, sheet, file, row=row)
    return fitting(call, sheet, file, drawn_room(random, call, sheet, file))


def drawn_lines(random):
    """Comma lines and a number of columns: right ones, damaged ones, any bytes, and now and then many lines."""
    columns = generate.column_count(random)
    draw = random.random()
    if draw < .01:
        return drawn_many_lines(random, columns)
    if draw < .12:
        return generate.random_line_bytes(random), random.choice([1, 1, 2, 2, 3])
    lines = generate.comma_lines(random, generate.drawn_rows(random, columns))
    if draw < .5:
        lines = generate.damaged_lines(random, lines)
    return lines, generate.other_columns(random, columns) if random.random() < .08 else columns


def drawn_many_lines(random, columns):
    """Comma lines around 1,000 rows or 8,192 cells, mostly blank, sometimes damaged, and a number of columns."""
    most = min(model.MOST_ROWS, model.MOST_CELLS // columns)
    lines = [b"," * (columns - 1) + random.choice([b"\n", b"\r\n"]) for _ in range(most + random.choice([-1, 0, 1, 1, 24]))]
    place = random.randrange(len(lines))
    cell = random.choice([generate.field_number(random), model.DECLINED_CELL])
    lines[place] = generate.written_field(random, cell) + lines[place]
    text = b"".join(lines)
    return generate.damaged_lines(random, text) if random.random() < .2 else text, columns


def drawn_import(random):
    """A case of IMPORT."""
    lines, columns = drawn_lines(random)
    return importing(lines, columns, drawn_room(random, "IMPORT", lines, b"", columns))


def drawn_export(random):
    """A case of EXPORT: any tables, or a single one whose cells are those of drawn comma lines."""
    file = generate.random_tables(random)
    if random.random() < .4:
        columns = generate.column_count(random)
        file = generate.tables_file([(columns, generate.drawn_rows(random, columns))])
    if random.random() < .15:
        file = generate.damaged_tables(random, file)
    return exporting(file, drawn_room(random, "EXPORT", b"", file))


def drawn(random, call):
    """A random case of a call."""
    if call == "IMPORT":
        return drawn_import(random)
    if call == "EXPORT":
        return drawn_export(random)
    if call == "CHECK":
        return drawn_check(random)
    return drawn_reading(random, call) if call in READING_CALLS else drawn_running(random, call)


def drawn_truths(random, count):
    """Cases of JUDGE on tables with many blank and declined cells, `count` for each truth value."""
    cases = []
    missing = {model.TRUE: count, model.FALSE: count, model.UNKNOWN: count}
    while any(missing.values()):
        cells = [0, 1, -1, None, model.DECLINED_CELL]
        tables = []
        for _ in range(3):
            columns = random.choice([1, 2, 3])
            rows = [[random.choice(cells) for _ in range(columns)] for _ in range(random.choice([1, 2, 3]))]
            tables.append((columns, rows))
        text = generate.short_rule(random, [columns for columns, _ in tables], [1, 2, 3, 5], 250, truths=random.choice([0, .2]))
        case = Case("JUDGE", text, generate.tables_file(tables), row=random.randrange(len(tables[0][1])))
        truth = expected(case).result
        if missing.get(truth, 0) > 0:
            missing[truth] -= 1
            cases.append(case)
    return cases


# ---- targeted cases: texts

SOME_TABLES = generate.tables_file([(2, [[1, None], [-2, 2], [None, 0]]), (1, [[1], [None]]), (3, [])])

TRAP_TEXTS = (
    # tokens
    b"", b" \n ", b"ab", b"ANDOR", b"1-2", b"1 = 1-2", b"1=1 AND1=1", b"1=1AND 1=1OR NOT2=2", b"1 = 00000000001",
    b"1 = 0000000001", b"1 = -2147483648", b"1 = -2147483649", b"1=2147483648", b"1=2147483647", b"1=--1", b"- 1=1", b"-",
    b"99999999999", b"0=-0", b"1=1 @", b"1=1\r\nAND 1=1", b"1=1\tAND 1=1", b"1=1;", b"M.1=1", b"m.1 = 1 and 1=1", b"m,1=1",
    b"\x80", b"\xc3\xa4=1", b"m.1 ISNULL", b"m.1IN(SELECTm.1FROM1mWHERE1=1)", b"m.1IN(SELECT m.1FROM1mWHERE1=1)",
    b"m.1IN(SELECT 1FROM-1mWHERE-1=-1)",
    # comparisons
    b"m.1<>1", b"m.1< >1", b"m.1<=1", b"m.1< =1", b"m.1=<1", b"m.1==1", b"m.1>=1", b"m.1> =1", b"m.1><1", b"1=m.1",
    b"1 <> ALL (SELECT 1 FROM 1 m WHERE 1=1)", b"1 < > ALL (SELECT 1 FROM 1 m WHERE 1=1)",
    # brackets
    b")" + b"(" * 33, b"(" * 33, b"(" * 32, b"(" * 33 + b"@", b"1 = 1 OR (", b"1 = 1)", b"(1=1", b"((1=1)", b"()", b"(1)=1",
    # values and names
    b"k.1=1", b"k.1=", b"m.-1 = 1", b"m.0=1", b"m.1 =", b"m . 1 = 1", b"m.1.1=1", b"m.2=1", b"m.3=1", b"m.16=1", b"m.17=1",
    b"m.2147483647=1", b"m.-2147483648=1", b"m.m=1", b"m.=1", b".1=1", b"m1=1", b"m.1=m",
    # tests
    b"m.1 IS NULL", b"m.1 IS NOT NULL", b"1 IS NULL", b"NOT 1 IS NOT NULL", b"1 IS NOT NOT NULL", b"m.1 = 1 IS NULL",
    b"m.1 NOT IN(SELECT 1 FROM 1 v WHERE 1=1)", b"NOT m.1 IN (SELECT m.1 FROM 1 m WHERE m.1=1)",
    b"1 NOT NOT IN (SELECT 1 FROM 1 m WHERE 1=1)", b"1 = SOME (SELECT 1 FROM 1 m WHERE 1=1)",
    b"1 = ANY (SELECT 1 FROM 1 m WHERE 1=1)", b"m.1 = (SELECT 1 FROM 1 m WHERE 1=1)",
    b"EXISTS (SELECT 1 FROM 1 m WHERE 1=1)", b"EXISTS (FROM 1 m)", b"EXISTS (FROM m WHERE 1=1)",
    b"EXISTS (FROM 1 mm WHERE 1=1)", b"EXISTS (FROM -1 m WHERE 1=1)", b"EXISTS (FROM 9 v WHERE v.1=1)",
    # scopes
    b"EXISTS (FROM 1 v WHERE 1=1) AND v.1=1", b"v.1 IN (SELECT v.1 FROM 1 v WHERE 1=1)",
    b"1 IN (SELECT v.1 FROM 1 w WHERE 1=1)", b"EXISTS(FROM 1 m WHERE k.1=1) @",
    # grouping
    b"1=1 OR", b"OR 1=1", b"1=1 1=1", b"1 OR 1", b"NOT", b"NOT NOT 1=1", b"1=1 OR 1=1 OR 1=1", b"1=1 OR (1=1 OR 1=1)",
    b"1=1 AND 2=2 AND 3=3", b"1=1 AND 2=2 OR 3=3 AND 4=4 OR 5=5", b"1 = 1 AND (2 = 2 OR NOT (3 = 3))", b"1=1 WHERE",
    b"1=1 OR x",
    # truth tests
    b"(1=1) IS TRUE", b"(1=1)IS TRUE", b"(1=1) ISTRUE", b"(1=1) IS NOTTRUE", b"(1=1) IS\nNOT\nTRUE", b"(1=1) IS NOT NOT TRUE",
    b"(1=1) NOT IS TRUE", b"(1=1) IS", b"(1=1) IS NOT", b"(1=1) TRUE", b"(1=1) = TRUE", b"(1=1) IS NULL", b"(1=1) IS NOT NULL",
    b"(1=1) IS TRUE IS TRUE", b"((1=1) IS TRUE) IS TRUE", b"(1=1) IS TRUE = 1", b"((1=1) IS TRUE) = 1", b"(1=1) IS TRUE NULL",
    b"1=1 IS TRUE", b"(1=1 IS TRUE)", b"1 IS TRUE", b"m.1 IS UNKNOWN", b"m.1 IS NOT FALSE", b"(m.1) IS TRUE", b"() IS TRUE",
    b"m.1 IS NULL IS TRUE", b"(m.1 IS NULL) IS NOT FALSE", b"IS TRUE", b"TRUE", b"NOT TRUE", b"(TRUE)", b"(TRUE) IS TRUE",
    b"1 = TRUE", b"m.UNKNOWN = 1", b"(1=1) IS UNKNOW", b"(1=1) IS UNKNOWNS", b"(1=1) IS true", b"(1=1) IS T",
    b"EXISTS (FROM 1 v WHERE 1=1) IS TRUE", b"(EXISTS (FROM 1 v WHERE 1=1)) IS TRUE", b"EXISTS (FROM 1 v WHERE (v.2=1) IS UNKNOWN)",
    b"EXISTS (FROM 1 v WHERE v.2=1 IS UNKNOWN)", b"m.1 IN (SELECT 1 FROM 1 v WHERE 1=1) IS TRUE",
    b"(m.1 IN (SELECT 1 FROM 1 v WHERE 1=1)) IS UNKNOWN", b"m.1 IN (SELECT 1 FROM 1 v WHERE 1=1) IS NULL",
    b"m.1 IN (SELECT (1=1) IS TRUE FROM 1 v WHERE 1=1)", b"NOT (1=1) IS FALSE", b"(NOT 1=1) IS FALSE", b"NOT (NOT 1=1) IS FALSE",
    b"NOT NOT (m.2=1) IS NOT UNKNOWN", b"1=1 AND (1=1) IS TRUE OR 1=1", b"(1=1 OR m.2=1) IS UNKNOWN AND 1=1", b"((m.2=1)) IS FALSE",
    b"((m.2=1) IS UNKNOWN)", b"(m.2=1) IS UNKNOWN OR", b"(k.1=1) IS TRUE", b"(m.3=1) IS TRUE", b"(1=1) IS TRUE)", b"((1=1) IS TRUE",
)


def trap_cases():
    """Texts that a reader easily takes wrongly: READ, and where they are rules, JUDGE and CARD too."""
    cases = []
    for text in TRAP_TEXTS:
        read = fitting("READ", text, SOME_TABLES, 1)
        cases.append(read)
        if outcome(read) == "given":
            cases.append(fitting("READ", text, SOME_TABLES, -1))
            cases.append(Case("JUDGE", text, SOME_TABLES, row=1))
            cases.append(fitting("CARD", text, SOME_TABLES, 2))
    return cases


TRUTH_ENDINGS = (b" IS TRUE", b" IS NOT TRUE", b" IS FALSE", b" IS NOT FALSE", b" IS UNKNOWN", b" IS NOT UNKNOWN")
TESTED_CONDITIONS = (
    b"m.2 > 0", b"m.2 > 0 OR NOT m.1 < 0", b"m.1 NOT IN (SELECT v.1 FROM 2 v WHERE 1=1)", b"(m.2 > 0) IS UNKNOWN AND m.1 = 1",
    b"m.1 = SOME (SELECT v.1 FROM 2 v WHERE v.1 = 1)", b"EXISTS (FROM 2 v WHERE v.1 = m.1)")
AROUND_TRUTH_TESTS = (
    b"%s", b"NOT %s", b"(%s) IS NOT FALSE", b"EXISTS (FROM 1 m WHERE NOT %s)",
    b"m.1 <> ALL (SELECT k.1 FROM 1 k WHERE %s)", b"NOT -2 = SOME (SELECT m.1 FROM 1 m WHERE %s)")


def truth_test_cases():
    """The six truth tests over several conditions and within several others: their parts, values and cards."""
    cases = []
    for ending, condition in itertools.product(TRUTH_ENDINGS, TESTED_CONDITIONS):
        test = b"(" + condition + b")" + ending
        cases.append(fitting("READ", test, SOME_TABLES))
        for around in AROUND_TRUTH_TESTS:
            cases.append(Case("JUDGE", around % test, SOME_TABLES, row=len(cases) % 3))
            if condition == TESTED_CONDITIONS[0]:
                cases.append(fitting("CARD", around % test, SOME_TABLES))
    return cases


def nested_truths(count, text=b"1=1", ending=b" IS UNKNOWN"):
    """A condition within as many truth tests of one sort, around one another."""
    return b"(" * count + text + (b")" + ending) * count


def sub_exists(text):
    """EXISTS over table 2, which adds 1 to the sum of its WHERE."""
    return b"EXISTS(FROM 2 v WHERE " + text + b")"


# A condition of sum 189: 127 + 31 + 15 + 7 + 3 + 1 under five ORs
SUM_189 = b" OR ".join(nested_truths(count) for count in (6, 4, 3, 2, 1, 0))

# Texts with the sum of entries, worked out by hand
STATED_SUMS = (
    (b"1=1", 1),
    (b"(1=1) IS TRUE", 1),
    (b"(1=1) IS UNKNOWN", 3),
    (b"(1=1) IS NOT UNKNOWN", 3),
    (b"NOT (NOT 1=1) IS NOT UNKNOWN", 3),
    (b"(1=1 OR 2=2) IS UNKNOWN AND 3=3", 9),
    (b"(1 NOT IN (SELECT 1 FROM 2 v WHERE (1=1) IS UNKNOWN)) IS UNKNOWN", 13),
    (nested_truths(5), 63),
    (nested_truths(6), 127),
    (nested_truths(6, ending=b" IS NOT UNKNOWN"), 127),
    (nested_truths(7), 255),
    (nested_truths(7, ending=b" IS NOT UNKNOWN"), 255),
    (nested_truths(8), 511),
    # kinds 10 to 13 add nothing, however many
    (nested_truths(32, ending=b" IS TRUE"), 1),
    (nested_truths(32, ending=b" IS NOT TRUE"), 1),
    (nested_truths(32, ending=b" IS FALSE"), 1),
    (nested_truths(32, ending=b" IS NOT FALSE"), 1),
    (nested_truths(6, nested_truths(20, ending=b" IS FALSE")), 127),
    (nested_truths(20, nested_truths(6), b" IS NOT FALSE"), 127),
    (nested_truths(20, nested_truths(7), b" IS NOT TRUE"), 255),
    # up to 192 and over it
    (nested_truths(6, sub_exists(b"1=1")), 191),
    (nested_truths(5, b"1=1 AND 2=2 AND 3=3"), 191),
    (SUM_189, 189),
    (SUM_189 + b" OR 1=1", 191),
    (SUM_189 + b" OR " + sub_exists(b"1=1"), 192),
    (SUM_189 + b" OR (1=1) IS UNKNOWN", 193),
    (SUM_189 + b" OR NOT (1=1) IS NOT FALSE", 191),
    (sub_exists(nested_truths(6, sub_exists(b"1=1"))), 192),
    (b"NOT " + sub_exists(nested_truths(6, sub_exists(b"1=1"))), 192),
    (nested_truths(4, sub_exists(nested_truths(6, sub_exists(b"1=1"))), b" IS FALSE"), 192),
    (sub_exists(sub_exists(nested_truths(6, sub_exists(b"1=1")))), 193),
    (nested_truths(6, sub_exists(b"1=1")) + b" AND 1=1", 193),
    (nested_truths(6, sub_exists(sub_exists(b"1=1"))), 255),
    (b"1 IN (SELECT 1 FROM 2 v WHERE " + SUM_189 + b")", 192),
    (b"1 NOT IN (SELECT 1 FROM 2 v WHERE " + SUM_189 + b")", 192),
    (b"1 < ALL (SELECT 1 FROM 2 v WHERE " + SUM_189 + b" OR 1=1)", 194),
    (sub_exists(b"1 > SOME (SELECT 1 FROM 2 v WHERE " + SUM_189 + b")"), 193),
    (nested_truths(5) + b" OR " + nested_truths(6), 191),
    (nested_truths(6) + b" OR " + nested_truths(6), 255),
    # IS DECLINED and IS NOT DECLINED add 1
    (b"m.1 IS DECLINED", 1),
    (b"1 IS NOT DECLINED", 1),
    (b"NOT m.1 IS DECLINED", 1),
    (b"(m.1 IS NOT DECLINED) IS NOT TRUE", 1),
    (b"m.1 IS DECLINED OR m.1 IS NOT DECLINED", 3),
    (b"(m.1 IS DECLINED) IS UNKNOWN", 3),
    (b"1 IN (SELECT 1 FROM 2 v WHERE v.1 IS NOT DECLINED)", 4),
    (nested_truths(6, sub_exists(b"v.1 IS DECLINED")), 191),
    (nested_truths(7, b"m.1 IS NOT DECLINED"), 255),
    (SUM_189 + b" OR m.1 IS DECLINED", 191),
    (SUM_189 + b" OR " + sub_exists(b"m.1 IS NOT DECLINED"), 192),
    (SUM_189 + b" OR (m.1 IS DECLINED) IS NOT UNKNOWN", 193),
    # what is left of the sum in 8, 16 and 32 bits is at most 192
    (nested_truths(7) + b" OR 1=1", 2**8 + 1),
    (nested_truths(15) + b" OR 1=1", 2**16 + 1),
    (b"1=1 AND " + nested_truths(31), 2**32 + 1),
    (nested_truths(32), 2**33 - 1),
    (nested_truths(32) + b" OR 1=1", 2**33 + 1),
)


def truth_sum_cases():
    """Sums around 192 and far over it, with a row that is absent, with no room, and with just as much as the card takes."""
    cases = []
    for text, total in STATED_SUMS:
        cases += [fitting("READ", text, SOME_TABLES), Case("JUDGE", text, SOME_TABLES, row=3), Case("CARD", text, SOME_TABLES)]
        if 189 <= total <= 192:
            cases.append(Case("JUDGE", text, SOME_TABLES, row=0))
        if total == 192:
            cases += [fitting("CARD", text, SOME_TABLES, more) for more in (-1, 0)]
    for text in (nested_truths(7, b"k.1=1"), nested_truths(7, b"1=1 OR k.1=1"), nested_truths(7) + b" OR", nested_truths(7) + b" @",
                 nested_truths(33), nested_truths(32, b"(1=1)"), nested_truths(7) + b" OR 1=1" * 28, nested_truths(7) + b" OR 1=1" * 29):
        cases += [fitting("READ", text, SOME_TABLES), Case("JUDGE", text, SOME_TABLES, row=3), Case("CARD", text, SOME_TABLES)]
    return cases


def bracket_cases():
    """Opening less closing brackets around 32, also where the difference was below 0 before."""
    texts = []
    for before, opened in itertools.product((0, 1, 5), (32, 33)):
        nested = b"(" * opened + b"1=1" + b")" * opened
        texts += [
            b")" * before + b"(" * (opened + before),
            b")" * before + nested,
            nested + b"@" * before,
            b"1=1 OR" + b"(" * opened + b"1=1" + b")" * before + b"(" * before + b")" * opened,
            b"EXISTS(FROM 1 v WHERE " + b"(" * (opened - 1) + b"1=1" + b")" * opened + b")" * before,
            b"1 IN(SELECT 1 FROM 1 v WHERE " + b"(" * (opened - 1) + b"1=1" + b")" * opened + b")" * before,
            b"(" * opened + b"1=1" + b")IS FALSE" * opened + b")" * before,
        ]
    return [fitting("READ", text, SOME_TABLES) for text in texts]


def part_limit_cases():
    """Rules around 64 parts, with an error of another number beside."""
    texts = []
    for count, word in itertools.product((32, 33), (b" OR ", b" AND ")):
        chain = word.join([b"1=1"] * count)
        texts += [chain + tail for tail in (b"", b" OR", b" @", b")", b" OR k.1=1", b" OR NOT 1=1")]
    for count in (62, 63, 64, 200):
        texts += [b"NOT " * count + tail for tail in (b"1=1", b"", b"k.1=1", b"m.1 IS NOT NULL", b"(1=1) IS TRUE")]
    for count in (30, 31, 32):
        texts += [b" OR ".join([b"1=1"] * count) + tail for tail in (b" OR (1=1) IS TRUE", b" OR (1=1) IS UNKNOWN")]
    for count in (21, 22):
        texts.append(b" AND ".join([b"(1=1) IS NOT FALSE"] * count))
    cases = [fitting("READ", text, SOME_TABLES) for text in texts]
    cases += [fitting("CARD", b"NOT " * count + b"m.2 < 5", SOME_TABLES) for count in (62, 63, 64)]
    cases += [fitting("CARD", b" OR ".join([b"1=1"] * count), SOME_TABLES) for count in (32, 33)]
    return cases


def text_length_cases():
    """Texts around 4,096 bytes, and long numbers."""
    texts = (
        b"1=1" + b" " * 4093, b"1=1" + b" " * 4094, b" " * 4093 + b"1=1", b"\n" * 4094 + b"1=1", b" " * 4096, b" " * 4097,
        b"@" * 4096, b"@" * 4097, b"(" * 4096, b"1=1" + b" " * 4092 + b"@", b"0" * 10 + b"=" + b"0" * 10, b"0" * 11 + b"=1",
        b"1=" + b"9" * 4094, b"A" * 4096, b"a" * 4096)
    return [fitting("READ", text, SOME_TABLES) for text in texts]


# ---- targeted cases: tables

# The lowest mark that is too high
HIGH_MARK = 3


def sized_tables(sizes, values, marks, more):
    """A file with these sizes, value bytes and mark bytes, and `more` bytes behind them (or fewer, below 0)."""
    head = bytes([len(sizes)]) + b"".join(bytes([columns]) + rows.to_bytes(2, "little") for columns, rows in sizes)
    whole = head + values + marks
    return whole[:len(whole) + more] if more < 0 else whole + bytes(more)


def cell_count(sizes):
    """The cells of tables of these sizes."""
    return sum(columns * rows for columns, rows in sizes)


def zero_tables(sizes, first_mark=0, more=0):
    """A file whose cells are all 0, with the first mark given, and `more` bytes than fit (or fewer, below 0)."""
    cells = cell_count(sizes)
    marks = bytearray(cells)
    if cells:
        marks[0] = first_mark
    return sized_tables(sizes, bytes(4 * cells), bytes(marks), more)


def numbered_tables(sizes, bad_mark=None, more=0):
    """A file in which each cell has a number of its own, and `more` bytes than fit (or fewer, below 0).

    One mark may be too high, at a place that is named.
    """
    cells = cell_count(sizes)
    marks = bytearray(cells)
    if bad_mark is not None:
        marks[bad_mark] = HIGH_MARK
    return sized_tables(sizes, b"".join(cell.to_bytes(4, "little") for cell in range(cells)), bytes(marks), more)


def table_limit_cases():
    """Cells around 8,192, rows around 1,000, tables around 8 and columns around 16, with sizes that fit or not."""
    cases = []
    for sizes in ([(16, 512), (1, 1)], [(16, 512), (1, 0)], [(1, 1000)], [(1, 1001)], [(16, 513)], [(1, 1000)] * 8, [(1, 256)]):
        for more in (-1, 0, 1):
            case = Case("JUDGE", b"m.1=0", zero_tables(sizes, HIGH_MARK, more))
            if cell_count(sizes) <= 1000 or outcome(case) == "refused 1":
                cases.append(case)
    file = zero_tables([(1, 257)])
    cases += [Case("JUDGE", b"m.1=0", file, row=row) for row in (256, 257)]
    for count in (0, 1, 7, 8, 9, 255):
        file = bytes([count]) + bytes([1, 0, 0]) * count
        cases += [fitting("READ", b"1=1", changed) for changed in (file, file + b"\0", file[:-1], file[:1])]
        cases += [fitting("CARD", b"EXISTS(FROM %d v WHERE v.1=1)" % table, file) for table in (8, 9)]
    for columns in (0, 1, 16, 17, 255):
        for column in (columns - 1, columns, columns + 1):
            cases.append(fitting("READ", b"m.%d=1" % column, bytes([1, columns, 0, 0])))
            cases.append(fitting("READ", b"EXISTS(FROM 2 v WHERE v.%d IS NULL)" % column, bytes([2, 3, 0, 0, columns, 0, 0])))
    return cases


ALLOWED_SIZES = (
    [(1, 0)], [(1, 1000)], [(16, 0)], [(16, 512)], [(8, 1000), (16, 12)], [(8, 1000), (16, 12), (1, 0)],
    [(1, 0)] * 8, [(1, 1)] * 8, [(1, 1000)] * 8, [(2, 1)] + [(1, 0)] * 6 + [(16, 1)])
REFUSED_SIZES = (
    [], [(1, 0)] * 9, [(1, 1)] * 9, [(0, 0)], [(0, 1)], [(17, 0)], [(17, 1)], [(1, 1001)], [(16, 513)], [(8, 1000), (16, 12), (1, 1)],
    [(1, 0)] * 7 + [(0, 0)], [(1, 0)] * 7 + [(17, 0)], [(1, 0)] * 7 + [(1, 1001)])


def limit_files():
    """Files at the limits of tables, columns, rows and cells, as triples: sizes, file, and the refusal that document 01 states for it, or None.

    Each of the sizes comes with the length that fits, with a byte less and a byte more, and with a mark too high in the first cell and in the last.
    """
    for sizes in ALLOWED_SIZES + REFUSED_SIZES:
        allowed = sizes in ALLOWED_SIZES
        yield sizes, numbered_tables(sizes), None if allowed else 1
        for more in (-1, 1):
            yield sizes, numbered_tables(sizes, more=more), 1
        if cell_count(sizes) > 0:
            for place in (0, -1):
                yield sizes, numbered_tables(sizes, place), 2 if allowed else 1


# ---- targeted cases: cards

def card_byte_cases():
    """Every byte of two small cards changed to several values; every shorter card, and some longer ones."""
    file = generate.tables_file([(3, []), (2, [])])
    changed = []
    for text in (b"EXISTS (FROM 2 v WHERE v.1 = m.3)", b"EXISTS (FROM 2 v WHERE v.2 IS DECLINED)"):
        sheet = model.card(text, file, AMPLE_ROOM)
        changed.append(sheet)
        for place, byte in enumerate(sheet):
            for value in sorted({0, 1, 2, 255, (byte + 1) % 256, (byte - 1) % 256} - {byte}):
                changed.append(sheet[:place] + bytes([value]) + sheet[place + 1:])
        changed += [sheet[:length] for length in range(len(sheet))]
        changed += [sheet + more for more in (b"\0", b"\1", bytes(14), bytes(15), bytes(16), sheet)]
    return [Case("CHECK", one) for one in changed]


LEAF = model.comparison_entry(5, 1, model.TaggedValue(0, 1), model.TaggedValue(255, -7))


def chained_entry(leaves, to_the_left):
    """Leaves under pairs, each of which has a leaf on one side."""
    entry = LEAF
    for number in range(leaves - 1):
        sides = (entry, LEAF) if to_the_left else (LEAF, entry)
        entry = model.pair_entry(1 + number % 2, *sides)
    return entry


def nested_rows(count, entry):
    """Row entries around one another, over tables 1 and 2 by turns."""
    for number in range(count):
        entry = model.row_entry(3 + number % 2, 1 + number % 2, entry)
    return entry


def card_limit_cases():
    """Entries around 192, row entries around three, levels, columns, tables and comparisons around theirs."""
    sheets = []
    for leaves, to_the_left in itertools.product((96, 97), (False, True)):
        chain = chained_entry(leaves, to_the_left)
        sheets += [model.card_bytes(chain, [1]), model.card_bytes(model.row_entry(3, 1, chain), [16] * 8)]
    for rows, level, column in itertools.product(range(5), range(6), (0, 1, 2, 3)):
        if abs(level - rows) <= 1:
            value = model.TaggedValue(level, column)
            for entry in (model.blank_entry(7, value), model.declined_entry(9 + column % 2, value)):
                sheets.append(model.card_bytes(nested_rows(rows, entry), [2, 1]))
    for rows in (3, 4):
        nested = nested_rows(rows, LEAF)
        sheets += [model.card_bytes(model.pair_entry(1, nested, LEAF), [1, 1])]
        sheets += [model.card_bytes(model.pair_entry(2, LEAF, nested), [1, 1])]
    for columns in ([], [1] * 8, [1] * 9, [0], [16], [17], [1, 0], [1, 17]):
        sheets.append(model.card_bytes(model.blank_entry(8, model.TaggedValue(255, 0)), columns))
    for comparison in (0, 1, 6, 7):
        sheets.append(model.card_bytes(model.comparison_entry(6, comparison, LEAF.left, LEAF.right), [1]))
    for number in (0, 1, 2, 257, 65537, 2**24 + 1, -1, -2**31):
        sheets.append(model.card_bytes(model.blank_entry(8, model.TaggedValue(0, number)), [1]))
    return [Case("CHECK", sheet) for sheet in sheets]


def row_number_cases():
    """Rows above 255, for RUN and for LIST with just room enough."""
    file = generate.tables_file([(1, [[0]] * 256 + [[1], [0]])])
    sheet = model.card(b"m.1 = 1", file, AMPLE_ROOM)
    return [Case("RUN", sheet, file, row=row) for row in (256, 257, 258, 65536)] + [fitting("LIST", sheet, file)]


def columns_cases():
    """Cards against tables with other numbers of tables or columns."""
    shapes = ([1], [2], [1, 1], [1, 2], [2, 1])
    cases = []
    for of_card, of_tables in itertools.product(shapes, shapes):
        sheet = model.card_bytes(LEAF, of_card)
        file = generate.tables_file([(count, [[-7] * count] * 2) for count in of_tables])
        cases += [Case("RUN", sheet, file, row=1), fitting("LIST", sheet, file, 1)]
    return cases


# ---- targeted cases: comma lines

LONGEST_FIELD = b"-2147483648"
# Comma lines with the number of columns
TRAP_LINES = (
    # lines and line ends
    (b"", 1), (b"", 2), (b"", 16), (b"\n", 1), (b"\r\n", 1), (b"\n", 2), (b"\r\n", 2), (b"\n\n", 1), (b"\n\r\n", 1),
    (b"\r\n\n", 1), (b"1", 1), (b"1\n", 1), (b"1\r\n", 1), (b"1\n\n", 1), (b"\n1", 1), (b"\n1\n", 1), (b"1\r\n\r\n", 1),
    (b"1\n2", 1), (b"1\r\n2\n3", 1), (b"1,2\n3,4", 2), (b"1,2\r\n3,4\r\n", 2), (b"1,2\n3,4\r\n5,6", 2), (b"1,2\n\n", 2),
    (b"\n1,2\n", 2), (b"1,2\n\n3,4\n", 2),
    # CR elsewhere
    (b"\r", 1), (b"1\r", 1), (b"\r1", 1), (b"1\r2", 1), (b"1\r2\n", 1), (b"1\r\r\n", 1), (b"\r\r\n", 1), (b"1\n\r", 1),
    (b"1\n\r\n", 1), (b"1\r\n\r", 1), (b"1,\r", 2), (b"1,\r\n", 2), (b"1,2\r", 2), (b"\r,1\n", 2), (b"1\r,2\n", 2),
    (b"1,\r2\n", 2), (b",\r\r\n", 2), (b"1\n\r2\n", 1), (b"\n\r", 1),
    # blanks and field counts
    (b",", 2), (b",\n", 2), (b",,\n", 3), (b",", 1), (b",", 3), (b"1,", 2), (b",1", 2), (b"1,", 1), (b",1", 1), (b"1,\n", 1),
    (b"1,2", 1), (b"1,2", 3), (b"1,2,3", 2), (b"1,2\n3\n", 2), (b"1,2\n3,4,5\n", 2), (b"1\n2,3\n", 2), (b"1\n2\n", 2),
    (b"1,2,3,4", 2), (b",\n,", 2), (b",\n,\n\n", 2), (b"," * 15, 16), (b"," * 14, 16), (b"," * 16, 16), (b"," * 16, 17),
    (b"," * 255, 256), (b"1" + b",1" * 15 + b"\n", 16),
    # numbers
    (b"0", 1), (b"-0", 1), (b"00", 1), (b"-00", 1), (b"0000000000", 1), (b"-0000000000", 1), (b"00000000000", 1),
    (b"-00000000000", 1), (b"0000000001", 1), (b"00000000001", 1), (b"-0000000001", 1), (b"-00000000001", 1), (b"007", 1),
    (b"-007,7", 2), (b"2147483647", 1), (b"2147483648", 1), (b"-2147483648", 1), (b"-2147483649", 1), (b"02147483647", 1),
    (b"-02147483648", 1), (b"4294967295", 1), (b"4294967296", 1), (b"4294967297", 1), (b"-4294967295", 1), (b"9999999999", 1),
    (b"-9999999999", 1), (b"12345678901", 1), (b"18446744073709551616", 1), (b"18446744073709551617", 1), (b"9" * 400, 1),
    (b"0" * 400, 1), (b"-" + b"0" * 400, 1), (b"-", 1), (b"--1", 1), (b"1-", 1), (b"-,1", 2), (b"1,-\n", 2), (b"-\n1", 1),
    (b"-\r\n", 1), (b"1-2", 1), (b"- 1", 1), (b"255,256,65536,-256", 4),
    # the ends of the digits, and what other readers of numbers and of comma lines take
    (b"/", 1), (b":", 1), (b"1/", 1), (b"1:", 1), (b"+1", 1), (b"+", 1), (b" ", 1), (b" 1", 1), (b"1 ", 1), (b"1, 2", 2),
    (b"1 ,2", 2), (b"1\n \n", 1), (b"1\t", 1), (b"1;2", 2), (b"1\t2", 2), (b"1.0", 1), (b"1e1", 1), (b"1_0", 1), (b"0x1", 1),
    (b"a", 1), (b"NULL", 1), (b"1\x00", 1), (b"\x00", 1), (b"\xff", 1), (b"1\x0b2", 1), (b"1\x0c", 1), (b"1\x1c2", 1),
    (b"1\x852", 1), (b"\xef\xbb\xbf1", 1), (b"\xc2\xb2", 1), (b"\xd9\xa1", 1), (b"\xb1", 1), (b"\xb0", 1), (b"\x8a", 1),
    (b"\x8d\n", 1), (b"1\xac2", 2), (b'"1"', 1), (b'""', 1), (b'"1,2"', 1), (b'"1\n2"', 1), (b'"1",2\n', 2), (b"#1\n", 1),
    (b"1\n\x1a", 1), (b"a,b\n1,2\n", 2),
)
WRONG_COLUMNS = (0, 17, 18, 255, 256, 257, 272, 65535, 65536, 65537, 2**32 - 1, 2**32, 2**32 + 1, 2**63, 2**64 - 1)


def trap_line_cases():
    """Comma lines that a reader easily takes wrongly, and where they are right, with a byte less and a byte more of room."""
    cases = []
    for lines, columns in TRAP_LINES:
        case = importing(lines, columns)
        cases.append(case)
        if outcome(case) == "given":
            cases += [importing(lines, columns, more) for more in (-1, 1)]
    return cases


def column_limit_cases():
    """Columns around 1 and 16 and far over, with no lines, with an empty line, and with as many fields as the columns, and with 1, 16 and 17."""
    cases = []
    for columns in (1, 2, 15, 16) + WRONG_COLUMNS:
        texts = [b"", b"\n", b"1", b"," * 15 + b"\n", b"," * 16]
        if columns <= 300:
            texts.append(b"," * (columns - 1) + b"7\n")
        cases += [importing(text, columns) for text in texts]
        cases += [Case("IMPORT", text, buffer=lent("IMPORT", room), columns=columns) for text in (b"", b"\n") for room in (0, 3, 4)]
    return cases


def row_limit_cases():
    """Comma lines around 1,000 rows and 8,192 cells. Where they are right, the room is just enough or a byte short."""
    cases = []
    for columns, rows in ((1, 1000), (2, 1000), (8, 1000), (9, 910), (11, 744), (16, 512)):
        line = b"," * (columns - 1)
        cases += [importing((line + b"\n") * rows, columns, more) for more in (-1, 0)]
        cases += [importing((line + b"\r\n") * (rows + 1), columns), importing((line + b"\n") * rows + line + b"1", columns)]
    full = b",".join([LONGEST_FIELD] * 16) + b"\r\n"
    cases += [importing(full * 512, 16), importing(full * 513, 16), importing(b"-0\n" * 1000 + b"1", 1), importing(b"1\n" * 999 + b"2", 1)]
    # counts of rows and cells of which 8 and 16 bits leave little or nothing
    cases += [importing(b"\n" * rows, 1) for rows in (255, 256, 257, 1024, 65535, 65536, 65537)]
    cases += [importing((b"," * 15 + b"\n") * rows, 16) for rows in (4096, 4097)]
    cases += [importing(b"!\n" * rows, 1) for rows in (1000, 1001)]
    cases += [importing((b"!," * 15 + b"!\r\n") * rows, 16) for rows in (512, 513)]
    return cases


def comma_order_cases():
    """One or more of 14, 15 and 12 at once: 14 by each of its reasons and at either end of the lines, and no room, a byte too few, or enough."""
    cases = []
    for columns, rows in ((1, 3), (1, 1001), (16, 513)):
        line = b"," * (columns - 1) + b"\n"
        texts = [(line * rows, columns)]
        for bad in (b"x" + line, b"2147483648" + line, b"," + line, b"\r" + line[:-1] + b"1\n"):
            texts += [(bad + line * rows, columns), (line * rows + bad, columns), (line * rows + bad[:-1], columns)]
        texts += [(line * rows, other) for other in (0, 3, 17, 2**32 + columns)]
        enough = 4 + 5 * columns * rows
        for (text, named), room in itertools.product(texts, (0, enough - 1, enough) if columns == 1 else (0, enough)):
            cases.append(Case("IMPORT", text, buffer=lent("IMPORT", room), columns=named))
    return cases


EXPORTED_TABLES = (
    [(1, [])],
    [(16, [])],
    [(1, [[None]])],
    [(1, [[0]])],
    [(1, [[None], [None], [7]])],
    [(2, [[None, None]])],
    [(3, [[None, 1, None], [1, None, 1]])],
    [(1, [[model.DECLINED_CELL], [None], [2], [model.DECLINED_CELL]])],
    [(3, [[model.DECLINED_CELL, 1, None], [None, model.DECLINED_CELL, model.DECLINED_CELL]])],
    [(16, [[model.DECLINED_CELL] * 16])],
    # table 1 among others
    [(2, [[1, 5], [2, None], [3, 0]]), (1, [[1], [None]]), (1, [])],
    [(1, []), (2, [[1, 2]])],
    [(2, [[1, 2]])] + [(1, [[9]])] * 7,
    # numbers of each length, and the ends of the range
    [(1, [[number] for number in (9, 10, 99, 100, -1, -9, -10, 10**9 - 1, 10**9, -10**9 + 1, -10**9)])],
    [(4, [[255, 256, 65535, 65536], [2**24, -256, -65536, -2**24]])],
    [(1, [[-2**31 + 1], [2**31 - 2]])],
    [(16, [[-2**31] * 16, [2**31 - 1] * 16, [None] * 16])],
)


def export_cases():
    """Small tables, one cell with each sort of mark and several values under it, and large tables."""
    cases = []
    for tables in EXPORTED_TABLES:
        cases += [exporting(generate.tables_file(tables), more) for more in (-1, 0, 1)]
    for value in (0, 1, -1, -2**31, 2**31 - 1, 0x0A0D2C31):
        file = bytes([1, 1, 1, 0]) + value.to_bytes(4, "little", signed=True)
        for mark, room in itertools.product((0, 1, 2, 3, 255), (0, 1, 2, 12)):
            cases.append(Case("EXPORT", b"", file + bytes([mark]), buffer=lent("EXPORT", room)))
    full = generate.tables_file([(16, [[-2**31] * 16] * 512)])
    cases += [exporting(full, more) for more in (-1, 0)]
    cases.append(exporting(zero_tables([(1, 1000)])))
    cases += [exporting(numbered_tables(sizes)) for sizes in ([(8, 1000), (16, 12)], [(1, 1), (1, 1000), (16, 449)])]
    return cases


def export_refusal_cases():
    """Sizes, lengths and marks that are wrong, in table 1 and in the last table."""
    heads = (b"", b"\0", b"\1", b"\1\1\0", b"\1\1\0\0", b"\1\0\0\0", b"\1\x11\0\0", b"\1\1\1\0", b"\x09" + b"\1\0\0" * 9)
    cases = [exporting(file) for file in heads]
    for sizes in ([(1, 1)], [(2, 1), (1, 0), (1, 2)], [(1, 0), (3, 1)], [(1, 1)] * 8):
        for more in (-1, 0, 1):
            cases += [exporting(numbered_tables(sizes, place, more)) for place in (None, 0, -1)]
    cases += [exporting(zero_tables(sizes)) for sizes in ([(1, 1001)], [(16, 513)], [(1, 1), (16, 512)], [(1, 0), (17, 1)], [(1, 0)] * 9)]
    return cases


# ---- targeted cases: declined cells, with their answers worked out by hand

# Table 1 is (1, 5), (2, blank), (3, declined), (declined, blank); table 2 is 1, declined; table 3 is blank, declined
DECLINED_SIZES = [(2, 4), (1, 2), (1, 2)]
DECLINED_MARKS = bytes([0, 0, 0, 1, 0, 2, 2, 1] + [0, 2] + [1, 2])
# The numbers of the cells that are present, by their places among all cells
DECLINED_NUMBERS = {0: 1, 1: 5, 2: 2, 4: 3, 8: 1}
# Values of the other cells, which affect no answer: some of them would compare true
IDLE_VALUES = (0, 5, 1, -1, 2**31 - 1)


def declined_file(idle):
    """The file of these tables, with the same value in each cell that is blank or declined."""
    numbers = [DECLINED_NUMBERS.get(place, idle) for place in range(len(DECLINED_MARKS))]
    values = b"".join(number.to_bytes(4, "little", signed=True) for number in numbers)
    return sized_tables(DECLINED_SIZES, values, DECLINED_MARKS, 0)


# Rules with their values on rows 0 to 3. ALL_OF_2 lists 1 and a declined cell, ALL_OF_3 a blank and a declined one.
ALL_OF_2 = b"(SELECT v.1 FROM 2 v WHERE 1 = 1)"
ALL_OF_3 = b"(SELECT v.1 FROM 3 v WHERE 1 = 1)"
DECLINED_VALUES = (
    # blank in every respect, IS NULL included
    (b"m.2 IS NULL", "FTTT"),
    (b"m.1 IS NULL", "FFFT"),
    (b"m.2 IS NOT NULL", "TFFF"),
    (b"NOT m.1 IS NULL", "TTTF"),
    # true or false by the mark
    (b"m.1 IS DECLINED", "FFFT"),
    (b"m.2 IS DECLINED", "FFTF"),
    (b"m.1 IS NOT DECLINED", "TTTF"),
    (b"m.2 IS NOT DECLINED", "TTFT"),
    # a number is never declined
    (b"1 IS DECLINED", "FFFF"),
    (b"2 IS DECLINED", "FFFF"),
    (b"0 IS NOT DECLINED", "TTTT"),
    (b"-2147483648 IS NOT DECLINED", "TTTT"),
    # under NOT
    (b"NOT m.2 IS DECLINED", "TTFT"),
    (b"NOT m.2 IS NOT DECLINED", "FFTF"),
    (b"NOT NOT m.2 IS DECLINED", "FFTF"),
    (b"NOT 1 IS DECLINED", "TTTT"),
    (b"NOT 1 IS NOT DECLINED", "FFFF"),
    (b"NOT (m.1 IS DECLINED OR m.2 IS DECLINED)", "TTFF"),
    # a comparison with a declined cell, on either side or both, is unknown
    (b"m.1 = 1", "TFFU"),
    (b"m.1 <> 1", "FTTU"),
    (b"m.2 < 6", "TUUU"),
    (b"m.2 <= 5", "TUUU"),
    (b"5 > m.2", "FUUU"),
    (b"5 >= m.2", "TUUU"),
    (b"m.1 = m.1", "TTTU"),
    (b"m.1 < m.2", "TUUU"),
    (b"m.2 <> m.1", "TUUU"),
    (b"NOT m.1 = m.1", "FFFU"),
    # with AND and OR
    (b"m.2 IS NULL AND m.2 IS NOT DECLINED", "FTFT"),
    (b"m.2 IS NOT NULL OR m.2 IS DECLINED", "TFTF"),
    (b"m.2 IS DECLINED AND m.2 IS NOT NULL", "FFFF"),
    (b"m.2 IS DECLINED OR m.2 > 0", "TUTU"),
    (b"m.2 IS NOT DECLINED AND m.2 > 0", "TUFU"),
    # in truth tests: never unknown
    (b"(m.2 IS DECLINED) IS TRUE", "FFTF"),
    (b"(m.2 IS DECLINED) IS NOT TRUE", "TTFT"),
    (b"(m.2 IS DECLINED) IS FALSE", "TTFT"),
    (b"(m.2 IS NOT DECLINED) IS NOT FALSE", "TTFT"),
    (b"(m.2 IS DECLINED) IS UNKNOWN", "FFFF"),
    (b"(m.2 IS NOT DECLINED) IS UNKNOWN", "FFFF"),
    (b"(m.1 IS DECLINED) IS NOT UNKNOWN", "TTTT"),
    (b"(m.2 > 0) IS UNKNOWN", "FTTT"),
    (b"(m.2 > 0 OR m.2 IS DECLINED) IS UNKNOWN", "FTFT"),
    (b"(m.1 = 1) IS UNKNOWN AND m.1 IS DECLINED", "FFFT"),
    # in a WHERE
    (b"EXISTS (FROM 2 v WHERE v.1 IS DECLINED)", "TTTT"),
    (b"EXISTS (FROM 2 v WHERE v.1 IS NULL AND v.1 IS NOT DECLINED)", "FFFF"),
    (b"EXISTS (FROM 3 v WHERE v.1 IS NULL AND v.1 IS NOT DECLINED)", "TTTT"),
    (b"EXISTS (FROM 3 v WHERE v.1 IS NOT NULL)", "FFFF"),
    (b"EXISTS (FROM 2 v WHERE v.1 = m.1)", "TFFF"),
    (b"EXISTS (FROM 2 v WHERE m.2 IS DECLINED)", "FFTF"),
    (b"NOT EXISTS (FROM 2 v WHERE m.2 IS DECLINED AND v.1 IS DECLINED)", "TTFT"),
    (b"EXISTS (FROM 2 m WHERE m.1 IS DECLINED)", "TTTT"),
    # in and over lists
    (b"m.1 IN " + ALL_OF_2, "TUUU"),
    (b"m.1 NOT IN " + ALL_OF_2, "FUUU"),
    (b"m.1 = ALL " + ALL_OF_2, "UFFU"),
    (b"m.1 >= SOME " + ALL_OF_3, "UUUU"),
    (b"m.1 IN (SELECT v.1 FROM 2 v WHERE v.1 IS NOT DECLINED)", "TFFU"),
    (b"m.1 NOT IN (SELECT v.1 FROM 2 v WHERE v.1 IS NOT DECLINED)", "FTTU"),
    (b"m.1 <> ALL (SELECT v.1 FROM 2 v WHERE v.1 IS DECLINED)", "UUUU"),
    (b"m.1 > SOME (SELECT v.1 FROM 3 v WHERE v.1 IS DECLINED AND v.1 IS NOT NULL)", "FFFF"),
    (b"m.1 > ALL (SELECT v.1 FROM 3 v WHERE v.1 IS DECLINED AND v.1 IS NOT NULL)", "TTTT"),
    (b"m.1 = SOME (SELECT k.1 FROM 1 k WHERE k.2 IS DECLINED)", "FFTU"),
    (b"NOT m.1 = ALL (SELECT k.1 FROM 1 k WHERE k.2 IS DECLINED)", "TTFU"),
    (b"(m.1 = SOME (SELECT k.1 FROM 1 k WHERE k.2 IS DECLINED)) IS UNKNOWN", "FFFT"),
)

# Rules with the fields of their parts, eight numbers for each
DECLINED_PARTS = (
    (b"m.2 IS DECLINED", (16, 0, 0, 1, 0, 2, 0, 0)),
    (b"m.2 IS NOT DECLINED", (17, 0, 0, 1, 0, 2, 0, 0)),
    (b"-7 IS DECLINED", (16, 0, 0, 1, 255, -7, 0, 0)),
    (b"0 IS NOT DECLINED", (17, 0, 0, 1, 255, 0, 0, 0)),
    (b"NOT m.1 IS DECLINED", (3, 0, 0, 2, 0, 0, 0, 0) + (16, 0, 0, 2, 0, 1, 0, 0)),
    (b"(m.2 IS DECLINED) IS UNKNOWN", (14, 0, 0, 2, 0, 0, 0, 0) + (16, 0, 0, 2, 0, 2, 0, 0)),
    (b"EXISTS (FROM 2 v WHERE v.1 IS DECLINED)", (7, 0, 2, 2, 0, 0, 0, 0) + (16, 0, 0, 2, 1, 1, 0, 0)),
    (b"1 <> ALL (SELECT v.1 FROM 3 v WHERE m.2 IS NOT DECLINED)",
     (9, 2, 3, 2, 255, 1, 1, 1) + (17, 0, 0, 2, 0, 2, 0, 0)),
    (b"m.1 IS NULL OR m.2 IS DECLINED AND 1 IS NOT DECLINED",
     (2, 0, 0, 5, 0, 0, 0, 0) + (5, 0, 0, 2, 0, 1, 0, 0) + (1, 0, 0, 5, 0, 0, 0, 0)
     + (16, 0, 0, 4, 0, 2, 0, 0) + (17, 0, 0, 5, 255, 1, 0, 0)),
)

# The start of a card for these tables, behind its number of entries; the values of records
DECLINED_HEAD = " 00 03 02 01 01 "
NO_VALUE = " 00 00 00 00 00"
NO_VALUES = NO_VALUE * 2
COLUMN_2 = " 00 02 00 00 00"
# Rules with all the bytes of their cards
DECLINED_CARDS = (
    (b"m.2 IS DECLINED", "01" + DECLINED_HEAD + "09 01 00 00 00" + COLUMN_2 + NO_VALUE),
    (b"m.2 IS NOT DECLINED", "01" + DECLINED_HEAD + "0A 01 00 00 00" + COLUMN_2 + NO_VALUE),
    (b"NOT m.2 IS DECLINED", "01" + DECLINED_HEAD + "0A 01 00 00 00" + COLUMN_2 + NO_VALUE),
    (b"NOT m.2 IS NOT DECLINED", "01" + DECLINED_HEAD + "09 01 00 00 00" + COLUMN_2 + NO_VALUE),
    (b"NOT NOT m.2 IS DECLINED", "01" + DECLINED_HEAD + "09 01 00 00 00" + COLUMN_2 + NO_VALUE),
    (b"-7 IS DECLINED", "01" + DECLINED_HEAD + "09 01 00 00 00 FF F9 FF FF FF" + NO_VALUE),
    (b"NOT 3 IS DECLINED", "01" + DECLINED_HEAD + "0A 01 00 00 00 FF 03 00 00 00" + NO_VALUE),
    (b"(m.2 IS DECLINED) IS TRUE", "01" + DECLINED_HEAD + "09 01 00 00 00" + COLUMN_2 + NO_VALUE),
    (b"(m.2 IS DECLINED) IS NOT TRUE", "01" + DECLINED_HEAD + "0A 01 00 00 00" + COLUMN_2 + NO_VALUE),
    (b"(m.2 IS DECLINED) IS FALSE", "01" + DECLINED_HEAD + "0A 01 00 00 00" + COLUMN_2 + NO_VALUE),
    (b"(m.2 IS NOT DECLINED) IS NOT FALSE", "01" + DECLINED_HEAD + "0A 01 00 00 00" + COLUMN_2 + NO_VALUE),
    (b"(m.2 IS DECLINED) IS UNKNOWN",
     "03" + DECLINED_HEAD + "01 0A 09 03 00 00 00" + NO_VALUES
     + " 02 00 00 00" + COLUMN_2 + NO_VALUE + " 03 00 00 00" + COLUMN_2 + NO_VALUE),
    (b"(m.2 IS DECLINED) IS NOT UNKNOWN",
     "03" + DECLINED_HEAD + "02 09 0A 03 00 00 00" + NO_VALUES
     + " 02 00 00 00" + COLUMN_2 + NO_VALUE + " 03 00 00 00" + COLUMN_2 + NO_VALUE),
    (b"NOT (m.1 IS DECLINED AND m.2 IS NULL)",
     "03" + DECLINED_HEAD + "02 0A 08 03 00 00 00" + NO_VALUES
     + " 02 00 00 00 00 01 00 00 00" + NO_VALUE + " 03 00 00 00" + COLUMN_2 + NO_VALUE),
    (b"EXISTS (FROM 2 v WHERE v.1 IS DECLINED)",
     "02" + DECLINED_HEAD + "03 09 02 00 02 00" + NO_VALUES + " 02 00 00 00 01 01 00 00 00" + NO_VALUE),
    (b"NOT EXISTS (FROM 2 v WHERE v.1 IS DECLINED)",
     "02" + DECLINED_HEAD + "04 0A 02 00 02 00" + NO_VALUES + " 02 00 00 00 01 01 00 00 00" + NO_VALUE),
    (b"1 IN (SELECT v.1 FROM 3 v WHERE m.2 IS NOT DECLINED)",
     "04" + DECLINED_HEAD + "03 01 0A 05 04 00 03 00" + NO_VALUES + " 04 00 00 00" + NO_VALUES
     + " 03 00 00 00" + COLUMN_2 + NO_VALUE + " 04 00 00 01 FF 01 00 00 00 01 01 00 00 00"),
    (b"1 <> ALL (SELECT v.1 FROM 3 v WHERE m.2 IS NOT DECLINED)",
     "04" + DECLINED_HEAD + "04 02 09 05 04 00 03 00" + NO_VALUES + " 04 00 00 00" + NO_VALUES
     + " 03 00 00 00" + COLUMN_2 + NO_VALUE + " 04 00 00 02 FF 01 00 00 00 01 01 00 00 00"),
)

# Texts with the refusal of reading, or None
DECLINED_TEXTS = (
    # rules
    (b"m.1 IS DECLINED", None), (b"m.1IS DECLINED", None), (b"m . 1 IS\nNOT\nDECLINED", None), (b"1IS DECLINED", None),
    (b"-1 IS NOT DECLINED", None), (b"((m.1 IS DECLINED))", None), (b"(m.1 IS DECLINED)IS TRUE", None),
    (b"NOT m.1 IS DECLINED", None), (b"NOT m.1 IS NOT DECLINED", None), (b"1=1AND m.1 IS DECLINED OR 2 IS NULL", None),
    (b"EXISTS(FROM 2 v WHERE v.1 IS DECLINED)", None), (b"1 IN(SELECT 1 FROM 2 v WHERE v.1 IS NOT DECLINED)", None),
    # no such token
    (b"m.1 IS DECLINE", 4), (b"m.1 IS DECLINEDS", 4), (b"m.1 ISDECLINED", 4), (b"m.1 IS NOTDECLINED", 4),
    (b"m.1 IS DECLINEDAND 1=1", 4), (b"m.1 IS DECLINEDNULL", 4), (b"m.1 IS Declined", 4), (b"!", 4), (b"m.1 = !", 4),
    (b"m.1 IS !", 4), (b"m.1 != 1", 4),
    # behind what is no value
    (b"(1 = 1) IS DECLINED", 6), (b"(1 = 1) IS NOT DECLINED", 6), (b"(m.1) IS DECLINED", 6), (b"(1) IS DECLINED", 6),
    (b"m.1 = 1 IS DECLINED", 6), (b"(m.1 IS DECLINED) IS DECLINED", 6), (b"m.1 IS DECLINED IS DECLINED", 6),
    (b"EXISTS (FROM 2 v WHERE 1 = 1) IS DECLINED", 6), (b"m.1 IN (SELECT 1 FROM 2 v WHERE 1 = 1) IS DECLINED", 6),
    (b"IS DECLINED", 6), (b"NOT IS DECLINED", 6), (b"m IS DECLINED", 6), (b"m. IS DECLINED", 6),
    (b"NULL IS DECLINED", 6),
    # another order, and words too many or too few
    (b"m.1 IS NOT NOT DECLINED", 6), (b"m.1 NOT IS DECLINED", 6), (b"m.1 IS DECLINED NOT", 6), (b"m.1 DECLINED", 6),
    (b"m.1 NOT DECLINED", 6), (b"m.1 IS NULL DECLINED", 6), (b"m.1 IS DECLINED NULL", 6),
    (b"m.1 IS DECLINED DECLINED", 6), (b"m.1 IS IS DECLINED", 6), (b"m.1 IS", 6), (b"m.1 IS NOT", 6),
    (b"m.1 IS DECLINED AND", 6), (b"m.1 IS DECLINED 1", 6), (b"m.1 IS DECLINED)", 6),
    (b"(m.1 IS DECLINED", 6), (b"m.1 IS (DECLINED)", 6), (b"m.1 IS declined", 6),
    (b"m.1 IS DECLINED = 1", 6), (b"m.1 IS DECLINED IS TRUE", 6), (b"m.1 IS DECLINED IS NULL", 6), (b"m.1 IS SOME", 6),
    (b"m.1 IS IN", 6), (b"m.1 IS TRUE", 6), (b"m.1 IS NOT UNKNOWN", 6),
    # the word as a value, as a test or as a column
    (b"DECLINED", 6), (b"NOT DECLINED", 6), (b"(DECLINED)", 6), (b"(DECLINED) IS TRUE", 6), (b"m.1 = DECLINED", 6),
    (b"DECLINED = m.1", 6), (b"m.DECLINED = 1", 6), (b"DECLINED IS DECLINED", 6), (b"DECLINED IS NULL", 6),
    (b"m.1 IN DECLINED", 6), (b"m.1 = SOME DECLINED", 6), (b"m.1 IN (SELECT DECLINED FROM 2 v WHERE 1 = 1)", 6),
    (b"EXISTS (FROM 2 v WHERE DECLINED)", 6), (b"EXISTS (FROM DECLINED v WHERE 1 = 1)", 6),
    # names
    (b"k.1 IS DECLINED", 8), (b"m.3 IS DECLINED", 8), (b"m.0 IS NOT DECLINED", 8), (b"m.-1 IS DECLINED", 8),
    (b"EXISTS (FROM 2 v WHERE v.2 IS DECLINED)", 8), (b"EXISTS (FROM 2 v WHERE 1 = 1) AND v.1 IS DECLINED", 8),
    (b"EXISTS (FROM 4 v WHERE v.1 IS DECLINED)", 8), (b"v.1 IS NOT DECLINED OR EXISTS (FROM 2 v WHERE 1 = 1)", 8),
    # limits
    (b"NOT " * 63 + b"m.1 IS DECLINED", None), (b"NOT " * 64 + b"m.1 IS DECLINED", 7),
    (b" OR ".join([b"m.1 IS NOT DECLINED"] * 32), None), (b" OR ".join([b"m.1 IS DECLINED"] * 33), 7),
    (b"(" * 32 + b"m.1 IS DECLINED" + b")" * 32, None), (b"(" * 33 + b"m.1 IS DECLINED" + b")" * 33, 5),
    (nested_truths(7, b"m.1 IS DECLINED"), 13), (nested_truths(7, b"k.1 IS DECLINED"), 8),
    (b"m.1 IS DECLINED" + b" " * 4081, None), (b"m.1 IS DECLINED" + b" " * 4082, 3),
)

# Cards of one entry: the kind, the record, and the refusal of CHECK or None
DECLINED_ENTRIES = (
    ("09", "01 00 00 00 00 01 00 00 00" + NO_VALUE, None),
    ("0A", "01 00 00 00" + COLUMN_2 + NO_VALUE, None),
    ("09", "01 00 00 00 FF 00 00 00 80" + NO_VALUE, None),
    ("0A", "01 00 00 00 FF 00 00 00 00" + NO_VALUE, None),
    # columns and levels that do not exist
    ("09", "01 00 00 00 00 00 00 00 00" + NO_VALUE, 9),
    ("0A", "01 00 00 00 00 03 00 00 00" + NO_VALUE, 9),
    ("09", "01 00 00 00 00 01 01 00 00" + NO_VALUE, 9),
    ("0A", "01 00 00 00 00 02 00 00 80" + NO_VALUE, 9),
    ("09", "01 00 00 00 01 01 00 00 00" + NO_VALUE, 9),
    ("0A", "01 00 00 00 03 01 00 00 00" + NO_VALUE, 9),
    ("09", "01 00 00 00 FE 01 00 00 00" + NO_VALUE, 9),
    # unused bytes that are not 0
    ("09", "01 00 01 00" + COLUMN_2 + NO_VALUE, 9),
    ("0A", "01 00 03 00" + COLUMN_2 + NO_VALUE, 9),
    ("09", "01 00 00 01" + COLUMN_2 + NO_VALUE, 9),
    ("0A", "01 00 00 06" + COLUMN_2 + NO_VALUE, 9),
    ("09", "01 00 00 00" + COLUMN_2 + COLUMN_2, 9),
    ("0A", "01 00 00 00" + COLUMN_2 + " FF 00 00 00 00", 9),
    ("09", "01 00 00 00" + COLUMN_2 + " 01 00 00 00 00", 9),
    ("0A", "01 00 00 00" + COLUMN_2 + " 00 01 00 00 00", 9),
    ("09", "01 00 00 00" + COLUMN_2 + " 00 00 01 00 00", 9),
    ("0A", "01 00 00 00" + COLUMN_2 + " 00 00 00 01 00", 9),
    ("09", "01 00 00 00" + COLUMN_2 + " 00 00 00 00 80", 9),
    # ends that do not fit, and bytes too many or too few
    ("09", "00 00 00 00" + COLUMN_2 + NO_VALUE, 9),
    ("0A", "02 00 00 00" + COLUMN_2 + NO_VALUE, 9),
    ("09", "01 01 00 00" + COLUMN_2 + NO_VALUE, 9),
    ("0A", "01 00 00 00" + COLUMN_2 + NO_VALUE + " 00", 9),
    ("09", "01 00 00 00" + COLUMN_2 + " 00 00 00 00", 9),
    # no such kinds, also with the fields of the other kinds
    ("0B", "01 00 00 00" + COLUMN_2 + NO_VALUE, 9),
    ("0C", "01 00 00 00" + COLUMN_2 + NO_VALUE, 9),
    ("00", "01 00 00 00" + COLUMN_2 + NO_VALUE, 9),
    ("10", "01 00 00 00" + COLUMN_2 + NO_VALUE, 9),
    ("11", "01 00 00 00" + COLUMN_2 + NO_VALUE, 9),
    ("89", "01 00 00 00" + COLUMN_2 + NO_VALUE, 9),
    ("FF", "01 00 00 00" + COLUMN_2 + NO_VALUE, 9),
    ("0B", "01 00 00 00" + NO_VALUES, 9),
    ("0B", "01 00 00 01" + COLUMN_2 + COLUMN_2, 9),
)
# Cards of more entries: the number of entries, the kinds, the records, and the refusal of CHECK or None
DECLINED_SHEETS = (
    ("02", "03 09", "02 00 02 00" + NO_VALUES + " 02 00 00 00 01 01 00 00 00" + NO_VALUE, None),
    ("02", "04 0A", "02 00 03 00" + NO_VALUES + " 02 00 00 00" + COLUMN_2 + NO_VALUE, None),
    ("02", "03 09", "02 00 02 00" + NO_VALUES + " 02 00 00 00 01 02 00 00 00" + NO_VALUE, 9),
    ("02", "04 0A", "02 00 02 00" + NO_VALUES + " 02 00 00 00 02 01 00 00 00" + NO_VALUE, 9),
    ("03", "01 09 0A", "03 00 00 00" + NO_VALUES + " 02 00 00 00" + COLUMN_2 + NO_VALUE
     + " 03 00 00 00" + COLUMN_2 + NO_VALUE, None),
    ("03", "01 09 0B", "03 00 00 00" + NO_VALUES + " 02 00 00 00" + COLUMN_2 + NO_VALUE
     + " 03 00 00 00" + COLUMN_2 + NO_VALUE, 9),
    # no inner entries
    ("02", "09 09", "02 00 00 00" + COLUMN_2 + NO_VALUE + " 02 00 00 00" + COLUMN_2 + NO_VALUE, 9),
    ("02", "0A 09", "01 00 00 00" + COLUMN_2 + NO_VALUE + " 02 00 00 00" + COLUMN_2 + NO_VALUE, 9),
    ("02", "0A 05", "02 00 00 00" + COLUMN_2 + NO_VALUE + " 02 00 00 01" + COLUMN_2 + COLUMN_2, 9),
)

# Sound cards of one entry, kind and record, with the rows that they admit
DECLINED_ANSWERS = (
    ("09", "01 00 00 00" + COLUMN_2 + NO_VALUE, [2]),
    ("0A", "01 00 00 00" + COLUMN_2 + NO_VALUE, [0, 1, 3]),
    ("09", "01 00 00 00 00 01 00 00 00" + NO_VALUE, [3]),
    ("0A", "01 00 00 00 00 01 00 00 00" + NO_VALUE, [0, 1, 2]),
    # a number is never declined
    ("09", "01 00 00 00 FF 02 00 00 00" + NO_VALUE, []),
    ("0A", "01 00 00 00 FF 02 00 00 00" + NO_VALUE, [0, 1, 2, 3]),
    # a declined cell is blank
    ("07", "01 00 00 00" + COLUMN_2 + NO_VALUE, [1, 2, 3]),
    ("08", "01 00 00 00" + COLUMN_2 + NO_VALUE, [0]),
    # m.2 = 5, m.2 <> 5, m.1 = m.1 and m.1 <> m.1, where unknown counts as no and as yes
    ("05", "01 00 00 01" + COLUMN_2 + " FF 05 00 00 00", [0]),
    ("06", "01 00 00 01" + COLUMN_2 + " FF 05 00 00 00", [0, 1, 2, 3]),
    ("05", "01 00 00 02" + COLUMN_2 + " FF 05 00 00 00", []),
    ("06", "01 00 00 02" + COLUMN_2 + " FF 05 00 00 00", [1, 2, 3]),
    ("05", "01 00 00 01 00 01 00 00 00 00 01 00 00 00", [0, 1, 2]),
    ("06", "01 00 00 02 00 01 00 00 00 00 01 00 00 00", [3]),
)

# Marks with the refusal of reading the tables, or None
STATED_MARKS = ((0, None), (1, None), (2, None), (3, 2), (4, 2), (127, 2), (128, 2), (130, 2), (254, 2), (255, 2))

# Comma lines with the columns, and all the bytes of the tables file or 14
DECLINED_LINES = (
    (b"!", 1, "01 01 01 00 00 00 00 00 02"),
    (b"!\n", 1, "01 01 01 00 00 00 00 00 02"),
    (b"!\r\n", 1, "01 01 01 00 00 00 00 00 02"),
    (b"!\n\n7", 1, "01 01 03 00 00 00 00 00 00 00 00 00 07 00 00 00 02 01 00"),
    (b"!,!", 2, "01 02 01 00 00 00 00 00 00 00 00 00 02 02"),
    (b"!,\r\n,!\n", 2, "01 02 02 00 00 00 00 00 00 00 00 00 00 00 00 00 00 00 00 00 02 01 01 02"),
    (b"1,!,-2\n", 3, "01 03 01 00 01 00 00 00 00 00 00 00 FE FF FF FF 00 02 00"),
    # not alone in its field
    (b"!1", 1, 14), (b"1!", 1, 14), (b"! ", 1, 14), (b" !", 1, 14), (b"!!", 1, 14), (b"-!", 1, 14), (b"!-", 1, 14),
    (b"+!", 1, 14), (b"!0", 1, 14), (b"0!", 1, 14), (b"!-1", 1, 14), (b"-1!", 1, 14), (b'"!"', 1, 14), (b"!\t", 1, 14),
    (b"!\x00", 1, 14), (b"!.", 1, 14), (b"!=", 1, 14), (b"1,! \n", 2, 14), (b"!! ,1\n", 2, 14), (b"1,!2\r\n", 2, 14),
    (b"!\r", 1, 14), (b"!\r\r\n", 1, 14), (b"\r!\n", 1, 14), (b"!\n\r", 1, 14), (b"!\r!\n", 1, 14), (b"!\r,!\n", 2, 14),
    # what else might stand for it
    (b"\x02", 1, 14), (b"DECLINED", 1, 14), (b"?", 1, 14), (b"\xa1", 1, 14), (b"\xc2\xa1", 1, 14), (b" ", 1, 14),
    (b'"', 1, 14), (b"#", 1, 14), (b"\xef\xbc\x81", 1, 14),
    # a field like others
    (b"!", 2, 14), (b"!,", 1, 14), (b"!,!,!", 2, 14), (b"!\n!", 2, 14), (b"!;!", 2, 14), (b"!", 0, 14), (b"!", 17, 14),
    (b"!,\n\n", 2, 14),
)

# Tables files, and the comma lines of their table 1 or the refusal
DECLINED_FILES = (
    ("01 01 01 00 00 00 00 00 02", b"!\n"),
    ("01 01 01 00 07 00 00 00 02", b"!\n"),
    ("01 01 01 00 FF FF FF FF 02", b"!\n"),
    ("01 03 01 00 05 00 00 00 06 00 00 00 07 00 00 00 00 01 02", b"5,,!\n"),
    ("01 02 02 00 01 00 00 00 02 00 00 00 03 00 00 00 04 00 00 00 02 02 01 00", b"!,!\n,4\n"),
    ("02 01 01 00 01 01 00 03 00 00 00 04 00 00 00 00 02", b"3\n"),
    ("02 01 00 00 01 01 00 04 00 00 00 02", b""),
    ("01 01 01 00 00 00 00 00 03", 2),
    ("01 02 01 00 00 00 00 00 00 00 00 00 02 03", 2),
    ("02 01 01 00 01 01 00 03 00 00 00 04 00 00 00 02 03", 2),
    ("01 01 01 00 00 00 00 00 02 02", 1),
    ("01 01 01 00 00 00 00 02", 1),
)


def stated_given(call, source, file, answer, columns=0):
    """Cases of a lending call with the answer that is stated, in a buffer with an element more, and with one less."""
    more = Case(call, source, file, buffer=lent(call, len(answer) + 1), columns=columns)
    pairs = [(more, Expected(len(answer), tuple(answer) + lent(call, 1)))]
    if len(answer) > 0:
        fewer = Case(call, source, file, buffer=lent(call, len(answer) - 1), columns=columns)
        pairs.append(stated_refused(fewer, 12))
    return pairs


def stated_refused(case, number):
    """A case with the refusal that is stated; its buffer stays as it is."""
    return case, Expected(model.Refused(number), case.buffer)


def stated_values():
    """JUDGE on each row, RUN on one and LIST, with several values of the blank and declined cells."""
    pairs = []
    names = {"T": model.TRUE, "U": model.UNKNOWN, "F": model.FALSE}
    for place, (text, letters) in enumerate(DECLINED_VALUES):
        file, later = (declined_file(IDLE_VALUES[(place + more) % len(IDLE_VALUES)]) for more in (0, 1))
        sheet = model.card(text, file, AMPLE_ROOM)
        for row, letter in enumerate(letters):
            pairs.append((Case("JUDGE", text, file, row=row), Expected(names[letter])))
        pairs.append((Case("RUN", sheet, later, row=place % 4), Expected(letters[place % 4] == "T")))
        pairs += stated_given("LIST", sheet, later, [row for row, letter in enumerate(letters) if letter == "T"])
    return pairs


def stated_texts():
    """READ, JUDGE and CARD: parts and cards, and refusals of texts."""
    pairs = []
    file = declined_file(0)
    for text, numbers in DECLINED_PARTS:
        pairs += stated_given("READ", text, file, parts_from(numbers))
    for text, written in DECLINED_CARDS:
        pairs += stated_given("CARD", text, file, bytes.fromhex(written))
    for text, number in DECLINED_TEXTS:
        calls = [Case("READ", text, file), Case("JUDGE", text, file, row=4), Case("CARD", text, file)]
        for case, accepted in zip(calls, (12, 11, 12)):
            pairs.append(stated_refused(case, accepted if number is None else number))
    return pairs


def stated_sheets():
    """CHECK of cards with kinds 9 and 10, and RUN and LIST of some of them."""
    pairs = []
    sheets = [("01",) + entry for entry in DECLINED_ENTRIES]
    for count, kinds, records, number in sheets + list(DECLINED_SHEETS):
        sheet = bytes.fromhex(count + DECLINED_HEAD + kinds + records)
        pairs.append((Case("CHECK", sheet), Expected(model.SOUND if number is None else model.Refused(number))))
        if number is not None:
            pairs.append(stated_refused(Case("RUN", sheet, declined_file(0), row=4), 9))
    for place, (kind, record, rows) in enumerate(DECLINED_ANSWERS):
        sheet = bytes.fromhex("01" + DECLINED_HEAD + kind + record)
        file = declined_file(IDLE_VALUES[place % len(IDLE_VALUES)])
        pairs += [(Case("RUN", sheet, file, row=row), Expected(row in rows)) for row in range(4)]
        pairs += stated_given("LIST", sheet, file, rows)
    return pairs


def stated_marks():
    """A file of one cell with each sort of mark, in every call that takes tables; rule and card are 1 IS NULL."""
    pairs = []
    text = b"1 IS NULL"
    sheet = bytes.fromhex("01 00 01 01 07 01 00 00 00 FF 01 00 00 00" + NO_VALUE)
    fields = {0: b"9\n", 1: b"\n", 2: b"!\n"}
    for mark, number in STATED_MARKS:
        file = bytes.fromhex("01 01 01 00 09 00 00 00") + bytes([mark])
        judging = [Case("JUDGE", text, file), Case("RUN", sheet, file)]
        if number is not None:
            lending = (("READ", text), ("CARD", text), ("LIST", sheet), ("EXPORT", b""))
            judging += [Case(call, source, file, buffer=lent(call, 2)) for call, source in lending]
            pairs += [stated_refused(case, number) for case in judging]
            continue
        pairs += list(zip(judging, (Expected(model.FALSE), Expected(False))))
        pairs += stated_given("READ", text, file, parts_from((5, 0, 0, 1, 255, 1, 0, 0)))
        pairs += stated_given("CARD", text, file, sheet) + stated_given("LIST", sheet, file, [])
        pairs += stated_given("EXPORT", b"", file, fields[mark])
    return pairs


def stated_lines():
    """IMPORT and EXPORT of a lone ! and of what is none."""
    pairs = []
    for lines, columns, wanted in DECLINED_LINES:
        if wanted == 14:
            case = Case("IMPORT", lines, buffer=lent("IMPORT", 50), columns=columns)
            pairs.append(stated_refused(case, wanted))
        else:
            pairs += stated_given("IMPORT", lines, b"", bytes.fromhex(wanted), columns)
    for written, wanted in DECLINED_FILES:
        file = bytes.fromhex(written)
        if isinstance(wanted, int):
            pairs.append(stated_refused(Case("EXPORT", b"", file, buffer=lent("EXPORT", 2)), wanted))
        else:
            pairs += stated_given("EXPORT", b"", file, wanted)
    return pairs


def stated_declined():
    """All cases about declined cells, each with the answer that is worked out by hand."""
    return stated_values() + stated_texts() + stated_sheets() + stated_marks() + stated_lines()


def declined_cases():
    """The same without their answers."""
    return [case for case, _ in stated_declined()]


# ---- targeted cases: several refusals at once

def text_refused_with(refusals):
    """A text to which these of the refusals 3 to 8 and 13 apply."""
    text = b"k.1=1" if 8 in refusals else b"1=1"
    if 13 in refusals:
        text = nested_truths(7, text)
    if 7 in refusals:
        text += b" OR 1=1" * 32
    if 6 in refusals:
        text += b" OR"
    if 5 in refusals:
        text = b"(" * 33 + text + b")" * 33
    if 4 in refusals:
        text += b" @"
    if 3 in refusals:
        text += b" " * (4097 - len(text))
    return text


def file_refused_with(refusals):
    """A tables file with two rows in table 1, to which these of the refusals 1 and 2 apply."""
    file = bytearray(generate.tables_file([(1, [[1], [1]]), (2, [])]))
    if 2 in refusals:
        file[-1] = HIGH_MARK
    if 1 in refusals:
        file.append(0)
    return bytes(file)


def card_refused_with(refusals):
    """A card that admits every row, to which these of the refusals 9 and 10 apply."""
    always = model.comparison_entry(5, 1, model.TaggedValue(255, 1), model.TaggedValue(255, 1))
    sheet = model.card_bytes(always, [2 if 10 in refusals else 1, 2])
    return sheet + b"\0" if 9 in refusals else sheet


def import_refused_with(refusals):
    """A case of IMPORT to which these of the refusals 14, 15 and 12 apply, the first by the last field."""
    rows = 1001 if 15 in refusals else 2
    lines = b"1\n" * (rows - 1) + (b"+1\n" if 14 in refusals else b"1\n")
    return Case("IMPORT", lines, buffer=lent("IMPORT", 4 + 5 * rows - (12 in refusals)), columns=1)


def refusal_set_case(call, refusals):
    """A case of a call to which exactly these refusals apply, as far as they can apply together."""
    if call == "IMPORT":
        return import_refused_with(refusals)
    file = file_refused_with(refusals)
    if call == "EXPORT":
        return Case(call, b"", file, buffer=lent(call, 4 - (12 in refusals)))
    source = text_refused_with(refusals) if call in READING_CALLS else card_refused_with(refusals)
    if call in ("JUDGE", "RUN"):
        return Case(call, source, file, row=2 if 11 in refusals else 1)
    room = {"READ": 1, "CARD": 20, "LIST": 2}[call] - (12 in refusals)
    return Case(call, source, file, buffer=lent(call, room))


# The refusals of each call, in the order in which they go before one another
REFUSALS_OF = {
    "READ": (1, 2, 3, 4, 5, 6, 7, 8, 13, 12),
    "JUDGE": (1, 2, 3, 4, 5, 6, 7, 8, 13, 11),
    "CARD": (1, 2, 3, 4, 5, 6, 7, 8, 13, 12),
    "CHECK": (9,),
    "RUN": (1, 2, 9, 10, 11),
    "LIST": (1, 2, 9, 10, 12),
    "IMPORT": (14, 15, 12),
    "EXPORT": (1, 2, 12),
}


def refusal_set_cases(random):
    """For each call: no refusal, each alone, each with all that come after it, and a draw of other sets."""
    cases = []
    for call in ("READ", "JUDGE", "CARD", "RUN", "LIST", "IMPORT", "EXPORT"):
        refusals = REFUSALS_OF[call]
        chosen = [()]
        chosen += [(refusal,) for refusal in refusals]
        chosen += [refusals[place:] for place in range(len(refusals) - 1)]
        chosen += [random.sample(refusals, random.randint(2, 3)) for _ in range(8)]
        cases += [refusal_set_case(call, applying) for applying in chosen]
    return cases


def comma_cases():
    """The targeted cases of IMPORT and EXPORT, but for the sets of refusals."""
    return trap_line_cases() + column_limit_cases() + row_limit_cases() + comma_order_cases() + export_cases() + export_refusal_cases()


def targeted(random):
    """All targeted cases."""
    return (declined_cases() + trap_cases() + truth_test_cases() + truth_sum_cases() + bracket_cases()
            + part_limit_cases() + text_length_cases() + table_limit_cases() + card_byte_cases() + card_limit_cases()
            + row_number_cases() + columns_cases() + refusal_set_cases(random) + comma_cases())
