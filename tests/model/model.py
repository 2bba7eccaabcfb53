"""Reference model of document 01, "Entry rules with blanks: text, tables, card", with Points 1, 2, 4 of document 02.

Point 3 changes no answer. The model is written from these documents and shares nothing with the definitions and
programs of crates/, so that each can be compared with the other. The eight calls READ, JUDGE, CARD, CHECK, RUN, LIST,
IMPORT and EXPORT are the functions read, judge, card, check, run, list_rows, import_lines and export_lines. Texts,
tables files, cards and comma lines are bytes; rows, columns and rooms are numbers. A call returns Refused, with a
number of the table "Gate says why not" or of Points 1 and 2, or its answer. A cell is blank, declined, or present with
a number.
"""
import functools
from dataclasses import dataclass

MOST_TABLES = 8
MOST_COLUMNS = 16
MOST_ROWS = 1000
MOST_CELLS = 8192
MOST_TEXT_BYTES = 4096
MOST_DIGITS = 10
MOST_OPEN_BRACKETS = 32
MOST_PARTS = 64
MOST_FROMS = 3
MOST_ENTRIES = 192
RECORD_BYTES = 14
CONSTANT_TAG = 255

TRUE = "true"
FALSE = "false"
UNKNOWN = "unknown"
SOUND = "sound"


# ---- Gate says why not

@dataclass(frozen=True)
class Refused:
    """What a call answers when it refuses."""
    number: int


class Refusal(Exception):
    """A refusal on its way out of a call."""

    def __init__(self, number):
        super().__init__(number)
        self.number = number


def require(fits, number):
    """Refuses with a number unless something fits."""
    if not fits:
        raise Refusal(number)


def refusing(call):
    """A public call: the refusal that is raised inside it is its answer."""
    @functools.wraps(call)
    def answered(*arguments):
        try:
            return call(*arguments)
        except Refusal as refusal:
            return Refused(refusal.number)
    return answered


# ---- Cells

MARK_PRESENT = 0
MARK_BLANK = 1
MARK_DECLINED = 2
MARKS = (MARK_PRESENT, MARK_BLANK, MARK_DECLINED)


@dataclass(frozen=True)
class Declined:
    """The cell of a declined answer."""


# A cell is one of these two, or it is present: then it is its number
BLANK_CELL = None
DECLINED_CELL = Declined()


def cell_with(mark, value):
    """The cell of a mark and a value. The value of a blank or declined cell may be anything, and nothing keeps it."""
    return {MARK_PRESENT: value, MARK_BLANK: BLANK_CELL, MARK_DECLINED: DECLINED_CELL}[mark]


def mark_of(cell):
    """The mark of a cell."""
    if cell is BLANK_CELL:
        return MARK_BLANK
    return MARK_DECLINED if is_declined(cell) else MARK_PRESENT


def is_declined(cell):
    """Whether a cell or a number is declined, by the mark; a number never is."""
    return isinstance(cell, Declined)


def counts_as_blank(cell):
    """Whether a cell or a number is blank for IS NULL and for comparisons: a declined cell is so in every respect."""
    return cell is BLANK_CELL or is_declined(cell)


# ---- Tables

@dataclass(frozen=True)
class Tables:
    """The tables of a file: a column count each, and rows of cells."""
    columns: list
    rows: list

    def rows_of(self, table):
        """The rows of a table, which is numbered from 1."""
        return self.rows[table - 1]

    def judged_row(self, row):
        """Row `row` of table 1, or refusal 11."""
        require(0 <= row < len(self.rows[0]), 11)
        return self.rows[0][row]


def table_sizes(file):
    """Columns and rows of each table, from the start of a file."""
    require(len(file) >= 1, 1)
    count = file[0]
    require(1 <= count <= MOST_TABLES, 1)
    require(len(file) >= 1 + 3 * count, 1)
    sizes = []
    for start in range(1, 1 + 3 * count, 3):
        columns = file[start]
        rows = int.from_bytes(file[start + 1:start + 3], "little")
        require(1 <= columns <= MOST_COLUMNS, 1)
        require(rows <= MOST_ROWS, 1)
        sizes.append((columns, rows))
    return sizes


def tables_of(file):
    """The tables that a file holds; refusals 1 and 2."""
    sizes = table_sizes(file)
    cell_count = sum(columns * rows for columns, rows in sizes)
    values_at = 1 + 3 * len(sizes)
    marks_at = values_at + 4 * cell_count
    require(cell_count <= MOST_CELLS, 1)
    require(len(file) == marks_at + cell_count, 1)
    marks = file[marks_at:]
    require(all(mark in MARKS for mark in marks), 2)
    cells = []
    for number, mark in enumerate(marks):
        start = values_at + 4 * number
        value = int.from_bytes(file[start:start + 4], "little", signed=True)
        cells.append(cell_with(mark, value))
    return Tables([columns for columns, _ in sizes], rows_from(sizes, cells))


def rows_from(sizes, cells):
    """The cells, which stand by table, row and column, as a list of rows for each table."""
    all_rows = []
    start = 0
    for columns, row_count in sizes:
        rows = []
        for _ in range(row_count):
            rows.append(cells[start:start + columns])
            start += columns
        all_rows.append(rows)
    return all_rows


# ---- Rule text: tokens

TRUTH_WORDS = ("TRUE", "FALSE", "UNKNOWN")
BASE_WORDS = ("AND", "OR", "NOT", "EXISTS", "IN", "SOME", "ALL", "IS", "NULL", "SELECT", "FROM", "WHERE")
WORDS = BASE_WORDS + TRUTH_WORDS + ("DECLINED",)
COMPARISONS = {"=": 1, "<>": 2, "<": 3, "<=": 4, ">": 5, ">=": 6}
LONG_SIGNS = (b"<>", b"<=", b">=")
SHORT_SIGNS = (b"(", b")", b".", b"=", b"<", b">")
GAPS = b" \n"
CAPITALS = bytes(range(ord("A"), ord("Z") + 1))
SMALL_LETTERS = bytes(range(ord("a"), ord("z") + 1))
DIGITS = b"0123456789"


@dataclass(frozen=True)
class Token:
    """A token: its sort (word, letter, number or sign) and what it says."""
    sort: str
    value: object


NO_TOKEN = Token("end", None)
OPENING = Token("sign", "(")
CLOSING = Token("sign", ")")


def run_end(text, start, members):
    """Where the run of bytes that are among the members ends."""
    end = start
    while end < len(text) and text[end] in members:
        end += 1
    return end


def word_at(text, start):
    """The word at a place: a whole run of capitals."""
    end = run_end(text, start, CAPITALS)
    word = text[start:end].decode()
    require(word in WORDS, 4)
    return Token("word", word), end


def is_number(written):
    """Whether bytes are a number: a minus or none, then one to ten digits, within the range."""
    digits = written[1:] if written[:1] == b"-" else written
    if not 1 <= len(digits) <= MOST_DIGITS or run_end(digits, 0, DIGITS) < len(digits):
        return False
    return -2**31 <= int(written) <= 2**31 - 1


def number_at(text, start):
    """The number at a place: a minus or none, then the whole run of digits."""
    digits_at = start + 1 if text[start] == ord("-") else start
    end = run_end(text, digits_at, DIGITS)
    require(is_number(text[start:end]), 4)
    return Token("number", int(text[start:end])), end


def token_at(text, start):
    """The longest token at a place, and where it ends; refusal 4."""
    byte = text[start]
    if byte in CAPITALS:
        return word_at(text, start)
    if byte in SMALL_LETTERS:
        return Token("letter", chr(byte)), start + 1
    if byte in b"-" or byte in DIGITS:
        return number_at(text, start)
    if text[start:start + 2] in LONG_SIGNS:
        return Token("sign", text[start:start + 2].decode()), start + 2
    require(text[start:start + 1] in SHORT_SIGNS, 4)
    return Token("sign", chr(byte)), start + 1


def tokens_of(text):
    """The tokens of a text; refusal 4."""
    tokens = []
    place = run_end(text, 0, GAPS)
    while place < len(text):
        token, end = token_at(text, place)
        tokens.append(token)
        place = run_end(text, end, GAPS)
    return tokens


def check_brackets(tokens):
    """Refusal 5, by the opening brackets less the closing ones up to each token; this may be below 0."""
    opened = 0
    for token in tokens:
        if token == OPENING:
            opened += 1
        if token == CLOSING:
            opened -= 1
        require(opened <= MOST_OPEN_BRACKETS, 5)


# ---- Rule text: what the grammar reads

KIND_AND = 1
KIND_OR = 2
KIND_NOT = 3
KIND_COMPARISON = 4
KIND_NULL = 5
KIND_NOT_NULL = 6
KIND_EXISTS = 7
KIND_SOME = 8
KIND_ALL = 9
KIND_IS_TRUE = 10
KIND_IS_NOT_TRUE = 11
KIND_IS_FALSE = 12
KIND_IS_NOT_FALSE = 13
KIND_IS_UNKNOWN = 14
KIND_IS_NOT_UNKNOWN = 15
KIND_DECLINED = 16
KIND_NOT_DECLINED = 17

# The kinds of the truth tests, without and with NOT behind IS
TRUTH_KINDS = {
    "TRUE": (KIND_IS_TRUE, KIND_IS_NOT_TRUE),
    "FALSE": (KIND_IS_FALSE, KIND_IS_NOT_FALSE),
    "UNKNOWN": (KIND_IS_UNKNOWN, KIND_IS_NOT_UNKNOWN),
}
# The same for the tests of a value
VALUE_KINDS = {
    "NULL": (KIND_NULL, KIND_NOT_NULL),
    "DECLINED": (KIND_DECLINED, KIND_NOT_DECLINED),
}


@dataclass(frozen=True)
class Constant:
    """A number as a value."""
    number: int


@dataclass(frozen=True)
class Column:
    """A column as a value: a letter and the column's number."""
    letter: str
    number: int


@dataclass(frozen=True)
class Join:
    """Two conditions joined by AND or by OR."""
    kind: int
    left: object
    right: object


@dataclass(frozen=True)
class Not:
    """NOT and what stands under it."""
    inner: object


@dataclass(frozen=True)
class TruthTest:
    """A bracketed condition, then IS or IS NOT, then TRUE, FALSE or UNKNOWN."""
    kind: int
    inner: object


@dataclass(frozen=True)
class Compare:
    """Two values with a comparison between them."""
    comparison: int
    left: object
    right: object


@dataclass(frozen=True)
class NullTest:
    """IS NULL or IS NOT NULL."""
    kind: int
    value: object


@dataclass(frozen=True)
class DeclinedTest:
    """IS DECLINED or IS NOT DECLINED."""
    kind: int
    value: object


@dataclass(frozen=True)
class Exists:
    """EXISTS over the rows of a table."""
    table: int
    letter: str
    where: object


@dataclass(frozen=True)
class Listed:
    """SOME or ALL over a list; IN is SOME with =, and NOT IN is ALL with <>."""
    kind: int
    comparison: int
    left: object
    selected: object
    table: int
    letter: str
    where: object


class Reader:
    """Reads a condition from tokens, one method to a line of the grammar; refusal 6."""

    def __init__(self, tokens):
        self.tokens = tokens
        self.place = 0

    def next(self):
        return self.tokens[self.place] if self.place < len(self.tokens) else NO_TOKEN

    def take(self, sort, value):
        """Takes the next token if it is this one."""
        if self.next() != Token(sort, value):
            return False
        self.place += 1
        return True

    def expect(self, sort, *values):
        """Takes the next tokens, which have to be these, all of one sort."""
        for value in values:
            require(self.take(sort, value), 6)

    def any_of(self, sort):
        """Takes the next token, which has to be of this sort."""
        token = self.next()
        require(token.sort == sort, 6)
        self.place += 1
        return token.value

    def condition(self):
        left = self.conjunction()
        while self.take("word", "OR"):
            left = Join(KIND_OR, left, self.conjunction())
        return left

    def conjunction(self):
        left = self.factor()
        while self.take("word", "AND"):
            left = Join(KIND_AND, left, self.factor())
        return left

    def factor(self):
        nots = 0
        while self.take("word", "NOT"):
            nots += 1
        factor = self.test()
        for _ in range(nots):
            factor = Not(factor)
        return factor

    def test(self):
        if self.take("sign", "("):
            inner = self.condition()
            self.expect("sign", ")")
            return self.truth_test(inner) if self.take("word", "IS") else inner
        if self.take("word", "EXISTS"):
            self.expect("sign", "(")
            table, letter, where = self.row_source()
            self.expect("sign", ")")
            return Exists(table, letter, where)
        return self.test_of(self.value())

    def truth_test(self, inner):
        """What follows a bracketed condition and IS. Nothing else takes it, and no second one follows it."""
        has_not = self.take("word", "NOT")
        word = self.any_of("word")
        require(word in TRUTH_KINDS, 6)
        return TruthTest(TRUTH_KINDS[word][has_not], inner)

    def test_of(self, left):
        """The tests that start with a value."""
        if self.take("word", "IS"):
            return self.value_test(left)
        if self.take("word", "IN"):
            return self.listed(KIND_SOME, COMPARISONS["="], left)
        if self.take("word", "NOT"):
            self.expect("word", "IN")
            return self.listed(KIND_ALL, COMPARISONS["<>"], left)
        sign = self.any_of("sign")
        require(sign in COMPARISONS, 6)
        comparison = COMPARISONS[sign]
        if self.take("word", "SOME"):
            return self.listed(KIND_SOME, comparison, left)
        if self.take("word", "ALL"):
            return self.listed(KIND_ALL, comparison, left)
        return Compare(comparison, left, self.value())

    def value_test(self, value):
        """What follows a value and IS."""
        has_not = self.take("word", "NOT")
        word = self.any_of("word")
        require(word in VALUE_KINDS, 6)
        kind = VALUE_KINDS[word][has_not]
        return NullTest(kind, value) if word == "NULL" else DeclinedTest(kind, value)

    def listed(self, kind, comparison, left):
        self.expect("sign", "(")
        self.expect("word", "SELECT")
        selected = self.value()
        table, letter, where = self.row_source()
        self.expect("sign", ")")
        return Listed(kind, comparison, left, selected, table, letter, where)

    def row_source(self):
        """FROM number letter WHERE condition."""
        self.expect("word", "FROM")
        table = self.any_of("number")
        letter = self.any_of("letter")
        self.expect("word", "WHERE")
        return table, letter, self.condition()

    def value(self):
        if self.next().sort == "number":
            return Constant(self.any_of("number"))
        letter = self.any_of("letter")
        self.expect("sign", ".")
        return Column(letter, self.any_of("number"))


def condition_of(tokens):
    """The condition that all the tokens together read as; refusal 6."""
    reader = Reader(tokens)
    condition = reader.condition()
    require(reader.place == len(tokens), 6)
    return condition


# ---- Rule text: limits and names

def no_such(what):
    """The error where something is of none of the sorts that there are."""
    return TypeError(f"no such sort: {what}")


def inner_conditions(condition):
    """The conditions right under a condition, left first."""
    if isinstance(condition, Join):
        return [condition.left, condition.right]
    if isinstance(condition, (Not, TruthTest)):
        return [condition.inner]
    if isinstance(condition, (Exists, Listed)):
        return [condition.where]
    if isinstance(condition, (Compare, NullTest, DeclinedTest)):
        return []
    raise no_such(condition)


def check_limits(condition):
    """Refusal 7, by the number of parts and the FROMs around one another."""
    parts = 0
    deepest = 0
    waiting = [(condition, 0)]
    while waiting:
        current, around = waiting.pop()
        froms = around + isinstance(current, (Exists, Listed))
        parts += 1
        deepest = max(deepest, froms)
        waiting.extend((inner, froms) for inner in inner_conditions(current))
    require(parts <= MOST_PARTS and deepest <= MOST_FROMS, 7)


def level_of(letter, letters):
    """The level of a letter's nearest binding, or None. The letters stand by level."""
    for level in reversed(range(len(letters))):
        if letters[level] == letter:
            return level
    return None


def check_value(value, columns, letters, tables):
    """Refusal 8 for a value, where the letters and the tables that they range over stand by level."""
    if isinstance(value, Constant):
        return
    level = level_of(value.letter, letters)
    require(level is not None, 8)
    require(1 <= value.number <= columns[tables[level] - 1], 8)


def check_names(condition, columns, letters, tables):
    """Refusal 8: letters unbound, tables and columns absent."""
    inner_letters, inner_tables = letters, tables
    if isinstance(condition, (Exists, Listed)):
        require(1 <= condition.table <= len(columns), 8)
        inner_letters = letters + [condition.letter]
        inner_tables = tables + [condition.table]
    if isinstance(condition, Listed):
        check_value(condition.left, columns, letters, tables)
        check_value(condition.selected, columns, inner_letters, inner_tables)
    if isinstance(condition, Compare):
        check_value(condition.left, columns, letters, tables)
        check_value(condition.right, columns, letters, tables)
    if isinstance(condition, (NullTest, DeclinedTest)):
        check_value(condition.value, columns, letters, tables)
    for inner in inner_conditions(condition):
        check_names(inner, columns, inner_letters, inner_tables)


def accepted(text, file):
    """The rule and the tables, when no refusal of reading applies; refusals 1 to 8 and then 13, in that order."""
    tables = tables_of(file)
    require(len(text) <= MOST_TEXT_BYTES, 3)
    tokens = tokens_of(text)
    check_brackets(tokens)
    rule = condition_of(tokens)
    check_limits(rule)
    check_names(rule, tables.columns, ["m"], [1])
    require(entry_sum(parts_of(rule)) <= MOST_ENTRIES, 13)
    return rule, tables


# ---- Rule text: parts

@dataclass(frozen=True)
class TaggedValue:
    """A value as parts and cards have it: 255 and a constant, or a level and a column."""
    tag: int
    number: int


UNUSED = TaggedValue(0, 0)


@dataclass(frozen=True)
class Part:
    """The record of a part."""
    kind: int
    comparison: int
    table: int
    end: int
    left: TaggedValue
    right: TaggedValue


def tagged(value, letters):
    """A value of an accepted rule, with the letters by level."""
    if isinstance(value, Constant):
        return TaggedValue(CONSTANT_TAG, value.number)
    return TaggedValue(level_of(value.letter, letters), value.number)


def part_of(condition, end, letters):
    """The record of a condition, once its end is known."""
    if isinstance(condition, (Join, TruthTest)):
        return Part(condition.kind, 0, 0, end, UNUSED, UNUSED)
    if isinstance(condition, Not):
        return Part(KIND_NOT, 0, 0, end, UNUSED, UNUSED)
    if isinstance(condition, Compare):
        left = tagged(condition.left, letters)
        right = tagged(condition.right, letters)
        return Part(KIND_COMPARISON, condition.comparison, 0, end, left, right)
    if isinstance(condition, (NullTest, DeclinedTest)):
        return Part(condition.kind, 0, 0, end, tagged(condition.value, letters), UNUSED)
    if isinstance(condition, Exists):
        return Part(KIND_EXISTS, 0, condition.table, end, UNUSED, UNUSED)
    if isinstance(condition, Listed):
        left = tagged(condition.left, letters)
        selected = tagged(condition.selected, letters + [condition.letter])
        return Part(condition.kind, condition.comparison, condition.table, end, left, selected)
    raise no_such(condition)


def parts_of(rule):
    """The parts of an accepted rule: a part before its inner parts, left first."""
    parts = []

    def add(condition, letters):
        place = len(parts)
        parts.append(None)
        bound = [condition.letter] if isinstance(condition, (Exists, Listed)) else []
        for inner in inner_conditions(condition):
            add(inner, letters + bound)
        parts[place] = part_of(condition, len(parts), letters)

    add(rule, ["m"])
    return parts


# The kinds of parts by what they add to the sum of their inner parts
NOTHING_ADDED = (KIND_NOT, KIND_IS_TRUE, KIND_IS_NOT_TRUE, KIND_IS_FALSE, KIND_IS_NOT_FALSE)
ONE_ADDED = (
    KIND_AND, KIND_OR, KIND_COMPARISON, KIND_NULL, KIND_NOT_NULL, KIND_EXISTS, KIND_DECLINED, KIND_NOT_DECLINED)
THREE_ADDED = (KIND_SOME, KIND_ALL)
INNER_TWICE = (KIND_IS_UNKNOWN, KIND_IS_NOT_UNKNOWN)


def sum_with(kind, inner):
    """The sum of a part of a kind and its inner parts, from the sum of the inner parts."""
    if kind in NOTHING_ADDED:
        return inner
    if kind in ONE_ADDED:
        return inner + 1
    if kind in THREE_ADDED:
        return inner + 3
    if kind in INNER_TWICE:
        return 1 + 2 * inner
    raise no_such(kind)


def entry_sum(parts):
    """The sum n under Card, by the parts alone.

    No card is made for it: a card could double at each IS UNKNOWN around others.
    """
    def summed(start, end):
        """The sum of the parts from one place up to another."""
        total = 0
        while start < end:
            after = parts[start].end
            total += sum_with(parts[start].kind, summed(start + 1, after))
            start = after
        return total

    return summed(0, len(parts))


@refusing
def read(text, file, room):
    """READ: the parts of a rule, for a lent list of `room` elements."""
    rule, _ = accepted(text, file)
    parts = parts_of(rule)
    require(room >= len(parts), 12)
    return parts


# ---- Meaning

def compared(comparison, left, right):
    """A comparison of two cells or numbers; with a blank or declined one it is unknown."""
    if counts_as_blank(left) or counts_as_blank(right):
        return UNKNOWN
    holds = {
        1: left == right,
        2: left != right,
        3: left < right,
        4: left <= right,
        5: left > right,
        6: left >= right,
    }[comparison]
    return TRUE if holds else FALSE


def both(truths):
    """AND over any number of truth values, and ALL: true over none."""
    if FALSE in truths:
        return FALSE
    return UNKNOWN if UNKNOWN in truths else TRUE


def either(truths):
    """OR over any number of truth values, and SOME: false over none."""
    if TRUE in truths:
        return TRUE
    return UNKNOWN if UNKNOWN in truths else FALSE


def opposite(truth):
    """NOT, which keeps unknown."""
    return {TRUE: FALSE, FALSE: TRUE, UNKNOWN: UNKNOWN}[truth]


def truth_tested(kind, truth):
    """A truth test of a truth value, which is never unknown."""
    holds = {
        KIND_IS_TRUE: truth == TRUE,
        KIND_IS_NOT_TRUE: truth != TRUE,
        KIND_IS_FALSE: truth == FALSE,
        KIND_IS_NOT_FALSE: truth != FALSE,
        KIND_IS_UNKNOWN: truth == UNKNOWN,
        KIND_IS_NOT_UNKNOWN: truth != UNKNOWN,
    }[kind]
    return TRUE if holds else FALSE


def value_tested(kind, cell):
    """IS NULL, IS DECLINED and their opposites of a cell or a number, which are never unknown."""
    holds = {
        KIND_NULL: counts_as_blank(cell),
        KIND_NOT_NULL: not counts_as_blank(cell),
        KIND_DECLINED: is_declined(cell),
        KIND_NOT_DECLINED: not is_declined(cell),
    }[kind]
    return TRUE if holds else FALSE


def cell_of(value, letters, rows):
    """What a value is, with the letters and their rows by level: a number, or a cell of one of these rows."""
    if isinstance(value, Constant):
        return value.number
    return rows[level_of(value.letter, letters)][value.number - 1]


def meaning(condition, tables, letters, rows):
    """The truth value of a condition, with the letters and their rows by level."""
    if isinstance(condition, Join):
        sides = [meaning(side, tables, letters, rows) for side in inner_conditions(condition)]
        return both(sides) if condition.kind == KIND_AND else either(sides)
    if isinstance(condition, Not):
        return opposite(meaning(condition.inner, tables, letters, rows))
    if isinstance(condition, TruthTest):
        return truth_tested(condition.kind, meaning(condition.inner, tables, letters, rows))
    if isinstance(condition, Compare):
        left = cell_of(condition.left, letters, rows)
        right = cell_of(condition.right, letters, rows)
        return compared(condition.comparison, left, right)
    if isinstance(condition, (NullTest, DeclinedTest)):
        return value_tested(condition.kind, cell_of(condition.value, letters, rows))
    if isinstance(condition, Exists):
        return TRUE if retained_rows(condition, tables, letters, rows) else FALSE
    if isinstance(condition, Listed):
        retained = retained_rows(condition, tables, letters, rows)
        truths = list_truths(condition, retained, letters, rows)
        return either(truths) if condition.kind == KIND_SOME else both(truths)
    raise no_such(condition)


def retained_rows(condition, tables, letters, rows):
    """The rows of a subquery whose WHERE is true."""
    inner_letters = letters + [condition.letter]
    retained = []
    for row in tables.rows_of(condition.table):
        if meaning(condition.where, tables, inner_letters, rows + [row]) == TRUE:
            retained.append(row)
    return retained


def list_truths(condition, retained, letters, rows):
    """The comparisons of the left value, which belongs outside the list, with each selected value."""
    left = cell_of(condition.left, letters, rows)
    inner_letters = letters + [condition.letter]
    truths = []
    for row in retained:
        selected = cell_of(condition.selected, inner_letters, rows + [row])
        truths.append(compared(condition.comparison, left, selected))
    return truths


@refusing
def judge(text, file, row):
    """JUDGE: the truth value of a rule on a row of table 1."""
    rule, tables = accepted(text, file)
    return meaning(rule, tables, ["m"], [tables.judged_row(row)])


# ---- Card: the translation of a rule

PAIR_AND = 1
PAIR_OR = 2
SOME_ROW = 3
EVERY_ROW = 4
UNKNOWN_IS_NO = 5
UNKNOWN_IS_YES = 6
BLANK = 7
NOT_BLANK = 8
DECLINED = 9
NOT_DECLINED = 10

PAIRS = (PAIR_AND, PAIR_OR)
ROW_ENTRIES = (SOME_ROW, EVERY_ROW)
COMPARISON_ENTRIES = (UNKNOWN_IS_NO, UNKNOWN_IS_YES)
VALUE_ENTRIES = (BLANK, NOT_BLANK, DECLINED, NOT_DECLINED)
ENTRY_KINDS = PAIRS + ROW_ENTRIES + COMPARISON_ENTRIES + VALUE_ENTRIES

OTHER_KIND = {1: 2, 2: 1, 3: 4, 4: 3, 5: 6, 6: 5, 7: 8, 8: 7, 9: 10, 10: 9}
OTHER_COMPARISON = {1: 2, 2: 1, 3: 6, 6: 3, 4: 5, 5: 4}


@dataclass(frozen=True)
class Entry:
    """An entry of a card, with the entries inside it. Fields that its kind does not use are 0."""
    kind: int
    table: int = 0
    comparison: int = 0
    left: TaggedValue = UNUSED
    right: TaggedValue = UNUSED
    inner: tuple = ()


def pair_entry(kind, first, second):
    """Kinds 1 and 2."""
    return Entry(kind, inner=(first, second))


def row_entry(kind, table, inner):
    """Kinds 3 and 4."""
    return Entry(kind, table=table, inner=(inner,))


def comparison_entry(kind, comparison, left, right):
    """Kinds 5 and 6."""
    return Entry(kind, comparison=comparison, left=left, right=right)


def blank_entry(kind, value):
    """Kinds 7 and 8."""
    return Entry(kind, left=value)


def declined_entry(kind, value):
    """Kinds 9 and 10."""
    return Entry(kind, left=value)


def negated(entry):
    """The negation of an entry, swapped all the way in."""
    kind = OTHER_KIND[entry.kind]
    comparison = OTHER_COMPARISON[entry.comparison] if entry.kind in COMPARISON_ENTRIES else 0
    inner = tuple(negated(one) for one in entry.inner)
    return Entry(kind, entry.table, comparison, entry.left, entry.right, inner)


def interpreted(condition, letters, comparison_kind):
    """A condition false-interpreted, when comparisons are of kind 5, or true-interpreted, when they are of kind 6."""
    if isinstance(condition, Join):
        sides = [interpreted(side, letters, comparison_kind) for side in inner_conditions(condition)]
        return pair_entry(PAIR_AND if condition.kind == KIND_AND else PAIR_OR, *sides)
    if isinstance(condition, Not):
        return negated(interpreted(condition.inner, letters, OTHER_KIND[comparison_kind]))
    if isinstance(condition, TruthTest):
        return truth_test_entry(condition, letters)
    if isinstance(condition, Compare):
        left = tagged(condition.left, letters)
        right = tagged(condition.right, letters)
        return comparison_entry(comparison_kind, condition.comparison, left, right)
    if isinstance(condition, NullTest):
        kind = BLANK if condition.kind == KIND_NULL else NOT_BLANK
        return blank_entry(kind, tagged(condition.value, letters))
    if isinstance(condition, DeclinedTest):
        kind = DECLINED if condition.kind == KIND_DECLINED else NOT_DECLINED
        return declined_entry(kind, tagged(condition.value, letters))
    if isinstance(condition, Exists):
        return row_entry(SOME_ROW, condition.table, where_entry(condition, letters))
    if isinstance(condition, Listed):
        return list_entry(condition, letters, comparison_kind)
    raise no_such(condition)


def where_entry(condition, letters):
    """The WHERE of EXISTS or of a list, which starts false-interpreted."""
    return interpreted(condition.where, letters + [condition.letter], UNKNOWN_IS_NO)


def list_entry(condition, letters, comparison_kind):
    """SOME or ALL over a list, by the kind of its comparison."""
    left = tagged(condition.left, letters)
    selected = tagged(condition.selected, letters + [condition.letter])
    comparison = comparison_entry(comparison_kind, condition.comparison, left, selected)
    where = where_entry(condition, letters)
    if condition.kind == KIND_SOME:
        return row_entry(SOME_ROW, condition.table, pair_entry(PAIR_AND, where, comparison))
    return row_entry(EVERY_ROW, condition.table, pair_entry(PAIR_OR, negated(where), comparison))


def truth_test_entry(test, letters):
    """A truth test, in either interpretation around it."""
    def inner(comparison_kind):
        return interpreted(test.inner, letters, comparison_kind)

    if test.kind == KIND_IS_TRUE:
        return inner(UNKNOWN_IS_NO)
    if test.kind == KIND_IS_NOT_TRUE:
        return negated(inner(UNKNOWN_IS_NO))
    if test.kind == KIND_IS_FALSE:
        return negated(inner(UNKNOWN_IS_YES))
    if test.kind == KIND_IS_NOT_FALSE:
        return inner(UNKNOWN_IS_YES)
    unknown = pair_entry(PAIR_AND, negated(inner(UNKNOWN_IS_NO)), inner(UNKNOWN_IS_YES))
    return unknown if test.kind == KIND_IS_UNKNOWN else negated(unknown)


# ---- Card: its bytes

def value_bytes(value):
    """The five bytes of a value."""
    return bytes([value.tag]) + (value.number % 2**32).to_bytes(4, "little")


def card_bytes(root, columns):
    """The bytes of a card: numbers of entries and tables, columns, kinds, records."""
    kinds = []
    records = []

    def add(entry):
        place = len(kinds)
        kinds.append(entry.kind)
        records.append(None)
        for inner in entry.inner:
            add(inner)
        end = len(kinds).to_bytes(2, "little")
        numbers = bytes([entry.table, entry.comparison])
        records[place] = end + numbers + value_bytes(entry.left) + value_bytes(entry.right)

    add(root)
    head = len(kinds).to_bytes(2, "little") + bytes([len(columns)])
    return head + bytes(columns) + bytes(kinds) + b"".join(records)


def published_length(parts, table_count):
    """The bytes that a card takes, by the sum under Card."""
    return 3 + table_count + 15 * entry_sum(parts)


@refusing
def card(text, file, room):
    """CARD: the card bytes of a rule, for a lent buffer of `room` bytes."""
    rule, tables = accepted(text, file)
    answer = card_bytes(interpreted(rule, ["m"], UNKNOWN_IS_NO), tables.columns)
    assert len(answer) == published_length(parts_of(rule), len(tables.columns))
    require(room >= len(answer), 12)
    return answer


# ---- Card: a sound card

def head_of(sheet):
    """The number of entries and the columns of each table, from the start of a card."""
    require(len(sheet) >= 3, 9)
    entry_count = int.from_bytes(sheet[0:2], "little")
    table_count = sheet[2]
    require(1 <= entry_count <= MOST_ENTRIES, 9)
    require(1 <= table_count <= MOST_TABLES, 9)
    require(len(sheet) == 3 + table_count + (1 + RECORD_BYTES) * entry_count, 9)
    columns = list(sheet[3:3 + table_count])
    require(all(1 <= count <= MOST_COLUMNS for count in columns), 9)
    return entry_count, columns


def value_from(field):
    """A value from its five bytes."""
    return TaggedValue(field[0], int.from_bytes(field[1:5], "little", signed=True))


def records_of(sheet, entry_count, table_count):
    """The kind, end, table, comparison and values of each entry, as they stand, in the form of parts."""
    kinds_at = 3 + table_count
    records_at = kinds_at + entry_count
    records = []
    for number in range(entry_count):
        start = records_at + RECORD_BYTES * number
        record = sheet[start:start + RECORD_BYTES]
        end = int.from_bytes(record[0:2], "little")
        left = value_from(record[4:9])
        right = value_from(record[9:14])
        records.append(Part(sheet[kinds_at + number], record[3], record[2], end, left, right))
    return records


def check_card_value(value, columns, tables):
    """A value of a card: a constant, or a level and a column that exist. The tables of the rows stand by level."""
    if value.tag == CONSTANT_TAG:
        return
    require(value.tag < len(tables), 9)
    require(1 <= value.number <= columns[tables[value.tag] - 1], 9)


def check_fields(record, columns, tables):
    """The fields of one entry: those that its kind uses exist, and the others are 0."""
    uses_table = record.kind in ROW_ENTRIES
    uses_comparison = record.kind in COMPARISON_ENTRIES
    uses_left = uses_comparison or record.kind in VALUE_ENTRIES
    if uses_table:
        require(1 <= record.table <= len(columns), 9)
        require(len(tables) <= MOST_FROMS, 9)
    else:
        require(record.table == 0, 9)
    if uses_comparison:
        require(1 <= record.comparison <= 6, 9)
        check_card_value(record.right, columns, tables)
    else:
        require(record.comparison == 0 and record.right == UNUSED, 9)
    if uses_left:
        check_card_value(record.left, columns, tables)
    else:
        require(record.left == UNUSED, 9)


def check_entry(records, number, columns, tables):
    """Checks an entry and the entries inside it, and gives the number of the first entry after them."""
    require(number < len(records), 9)
    record = records[number]
    require(record.kind in ENTRY_KINDS, 9)
    check_fields(record, columns, tables)
    after = number + 1
    if record.kind in PAIRS:
        after = check_entry(records, after, columns, tables)
        after = check_entry(records, after, columns, tables)
    if record.kind in ROW_ENTRIES:
        after = check_entry(records, after, columns, tables + [record.table])
    require(record.end == after, 9)
    return after


def sound_card(sheet):
    """The columns and the records of a sound card; refusal 9."""
    entry_count, columns = head_of(sheet)
    records = records_of(sheet, entry_count, len(columns))
    require(check_entry(records, 0, columns, [1]) == entry_count, 9)
    return columns, records


@refusing
def check(sheet):
    """CHECK: whether a card is sound."""
    sound_card(sheet)
    return SOUND


# ---- Card: running it

def card_cell(value, rows):
    """What a value of a card is, with the rows by level."""
    if value.tag == CONSTANT_TAG:
        return value.number
    return rows[value.tag][value.number - 1]


def says_yes(records, number, tables, rows):
    """The answer of an entry, by its kind, with the rows by level."""
    record = records[number]
    first = number + 1
    if record.kind in PAIRS:
        second = records[first].end
        one = says_yes(records, first, tables, rows)
        other = says_yes(records, second, tables, rows)
        return (one and other) if record.kind == PAIR_AND else (one or other)
    if record.kind in ROW_ENTRIES:
        answers = [says_yes(records, first, tables, rows + [row]) for row in tables.rows_of(record.table)]
        return any(answers) if record.kind == SOME_ROW else all(answers)
    left = card_cell(record.left, rows)
    if record.kind in VALUE_ENTRIES:
        return value_entry_says_yes(record.kind, left)
    if record.kind in COMPARISON_ENTRIES:
        truth = compared(record.comparison, left, card_cell(record.right, rows))
        return truth == TRUE or (truth == UNKNOWN and record.kind == UNKNOWN_IS_YES)
    raise no_such(record)


def value_entry_says_yes(kind, cell):
    """The answer of an entry of kind 7, 8, 9 or 10 about a cell or a number."""
    return {
        BLANK: counts_as_blank(cell),
        NOT_BLANK: not counts_as_blank(cell),
        DECLINED: is_declined(cell),
        NOT_DECLINED: not is_declined(cell),
    }[kind]


def gate(sheet, file):
    """The tables and the records, when tables and card fit; refusals 1, 2, 9 and 10, in that order."""
    tables = tables_of(file)
    columns, records = sound_card(sheet)
    require(columns == tables.columns, 10)
    return tables, records


@refusing
def run(sheet, file, row):
    """RUN: yes (True) or no (False) for a row of table 1."""
    tables, records = gate(sheet, file)
    return says_yes(records, 0, tables, [tables.judged_row(row)])


@refusing
def list_rows(sheet, file, room):
    """LIST: the numbers of the admitted rows, rising, for a lent list of `room` elements."""
    tables, records = gate(sheet, file)
    admitted = []
    for number, row in enumerate(tables.rows_of(1)):
        if says_yes(records, 0, tables, [row]):
            admitted.append(number)
    require(room >= len(admitted), 12)
    return admitted


# ---- Comma lines

BLANK_FIELD = b""
DECLINED_FIELD = b"!"


def lines_of(text):
    """The lines of a text, without their line ends. A CR belongs to a line end only right before its LF.

    What stands behind the last LF is a line without a line end, or nothing.
    """
    *ended, rest = text.split(b"\n")
    lines = [line.removesuffix(b"\r") for line in ended]
    return lines + [rest] if rest else lines


def cell_from(field):
    """The cell of a field: empty for blank, a lone ! for declined, or a number; refusal 14."""
    if field == BLANK_FIELD:
        return BLANK_CELL
    if field == DECLINED_FIELD:
        return DECLINED_CELL
    require(is_number(field), 14)
    return int(field)


def comma_rows(text, columns):
    """The rows of comma lines, a cell to each field; refusal 14."""
    require(1 <= columns <= MOST_COLUMNS, 14)
    rows = []
    for line in lines_of(text):
        fields = line.split(b",")
        require(len(fields) == columns, 14)
        rows.append([cell_from(field) for field in fields])
    return rows


def table_bytes(columns, rows):
    """The tables file of a single table, with 0 as the value of each blank or declined cell."""
    cells = [cell for row in rows for cell in row]
    sizes = bytes([1, columns]) + len(rows).to_bytes(2, "little")
    numbers = [0 if counts_as_blank(cell) else cell for cell in cells]
    values = b"".join(number.to_bytes(4, "little", signed=True) for number in numbers)
    return sizes + values + bytes(mark_of(cell) for cell in cells)


@refusing
def import_lines(lines, columns, room):
    """IMPORT: the tables file of comma lines with so many columns, for a lent buffer of `room` bytes."""
    rows = comma_rows(lines, columns)
    require(len(rows) <= MOST_ROWS and columns * len(rows) <= MOST_CELLS, 15)
    answer = table_bytes(columns, rows)
    require(room >= len(answer), 12)
    return answer


def field_of(cell):
    """The field of a cell: nothing for a blank, a lone ! for a declined one, or the number without spare zeros."""
    if cell is BLANK_CELL:
        return BLANK_FIELD
    return DECLINED_FIELD if is_declined(cell) else b"%d" % cell


@refusing
def export_lines(file, room):
    """EXPORT: the comma lines of table 1, with LF after each line, for a lent buffer of `room` bytes."""
    rows = tables_of(file).rows_of(1)
    answer = b"".join(b",".join(field_of(cell) for cell in row) + b"\n" for row in rows)
    require(room >= len(answer), 12)
    return answer
