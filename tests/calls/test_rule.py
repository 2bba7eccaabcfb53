"""JUDGE and CARD as built, against answers worked out by hand from documents 01 and 02, stored answers, and the reference model: both sides of every limit,
sums of entries around theirs, buffers of every length, numbers at their ends, levels and letters, every set of refusals together, damaged texts and tables,
random draws. AND, OR and NOT of drawn conditions, against arithmetic on the numbers that JUDGE gives these. That no answer shows the values of blank and
declined cells, and none to a rule without tests of declined cells shows which of the two a cell is. And what demand 3 compares, from end to end: the cards
that CARD makes, checked, run and listed as built with later tables, against the model's values of the rule.

Exit status 0 when all answers and all lent buffers agree, and every sort of answer was seen, in each group those that belong to it.
"""
import collections
import itertools
import random

import compare
import end_to_end
import library
import paper
import small
import stored
import sums
import variants

import cases  # noqa: E402  (library adds the model's folder to the path)
import generate
import model

SEED = 20261118
DRAWS_OF_EACH_CALL = 5000
DRAWS_OF_EACH_TRUTH = 300
SUMMED_RULES = 400
ARITHMETIC_PAIRS = 1200
MARKED_RULES = 300
LATER_RULES = 1200
LATER_SUMMED_RULES = 100
LATER_FILES = 3
TABLES = cases.SOME_TABLES


def judge_sorts(*refusals):
    """The sorts of answer that JUDGE has to have given: every value, and these refusals."""
    return tuple(f"given {value}" for value in stored.TRUTHS.values()) + compare.refusal_sorts(*refusals)


def both_sorts(*refusals):
    """Answers of every sort and the same refusals, from both calls."""
    return {"JUDGE": judge_sorts(*refusals), "CARD": compare.given_sorts(*refusals)}


WANTED = {call: sorts(*cases.REFUSALS_OF[call]) for call, sorts in (("JUDGE", judge_sorts), ("CARD", compare.given_sorts))}


def answer_of(rules, case):
    """The library's answer to a case."""
    if case.call == "JUDGE":
        return cases.Expected(rules.judge(case.source, case.file, case.row))
    return cases.Expected(*rules.card(case.source, case.file, case.buffer))


def both_calls(text, file, row=0, more=0):
    """JUDGE on a row, and CARD with so many bytes more than it needs."""
    yield cases.Case("JUDGE", text, file, row=row)
    yield cases.fitting("CARD", text, file, more)


# ---- answers that are written down

class Written:
    """Compares the library with answers that are written down, and counts their sorts."""

    def __init__(self, rules):
        self.rules = rules
        self.seen = collections.Counter()

    def judge(self, text, file, row, wanted):
        compare.same((text, row, "JUDGE"), self.rules.judge(text, file, row), wanted)
        self.seen["JUDGE", f"refused {wanted.number}" if isinstance(wanted, model.Refused) else f"given {wanted}"] += 1

    def card(self, text, file, room, wanted):
        """The bytes of a card, or a refusal, for a lent buffer of so many bytes, no two of which beside one another are the same."""
        lent = tuple(200 + place % 50 for place in range(room))
        is_refused = isinstance(wanted, model.Refused)
        stated = (wanted, lent) if is_refused else (len(wanted), tuple(wanted) + lent[len(wanted):])
        compare.same((text, room, "CARD"), self.rules.card(text, file, lent), stated)
        self.seen["CARD", f"refused {wanted.number}" if is_refused else "given"] += 1

    def refused(self, text, file, number):
        """Both calls refuse, on any row and with any buffer."""
        for row in (0, variants.LAST_ROW):
            self.judge(text, file, row, model.Refused(number))
        for room in (0, 1, 100):
            self.card(text, file, room, model.Refused(number))


def check_paper(rules):
    """The proved cases, the truth tests, the tests of declined cells, the worked cards, other cards, and the examples of the refusal table, as they are worked
    out by hand."""
    written = Written(rules)
    for case, file in paper.WORKED:
        for row, letter in enumerate(case.values):
            written.judge(case.text, file, row, stored.TRUTHS[letter])
        written.judge(case.text, file, len(case.values), model.Refused(11))
    for text, entries in paper.CARDS:
        for file in (paper.CASE_TABLES, paper.CASE_COLUMNS, paper.DECLINED_TABLES):
            written.card(text, file, 100 + len(text), paper.card([2, 1, 1], entries))
    worked = ((paper.WORKED_TEXT, paper.WORKED_CARD, 19), (paper.DECLINED_TEXT, paper.DECLINED_CARD, 19), (paper.UNKNOWN_TEXT, paper.UNKNOWN_CARD, 49))
    for text, sheet, length in worked:
        for room, wanted in ((0, model.Refused(12)), (length - 1, model.Refused(12)), (length, sheet), (length + 2, sheet)):
            written.card(text, paper.THREE_COLUMNS, room, wanted)
    for text, file, answer in paper.REFUSALS:
        if isinstance(answer, int):
            written.refused(text, file, answer)
        else:
            written.judge(text, file, variants.LAST_ROW, model.Refused(11))
            written.card(text, file, 0, model.Refused(12))
    compare.agreed("answers worked out by hand", written.seen, WANTED)


def check_stored(rules):
    """The stored answers."""
    written = Written(rules)
    lines = 0
    for text, file, answer in stored.RULE.answers():
        lines += 1
        if isinstance(answer, model.Refused):
            written.refused(text, file, answer.number)
            continue
        values, sheet = answer
        for row, value in enumerate(values):
            written.judge(text, file, row, value)
        written.judge(text, file, len(values), model.Refused(11))
        for room, wanted in ((len(sheet) - 1, model.Refused(12)), (len(sheet), sheet), (len(sheet) + 2, sheet)):
            written.card(text, file, room, wanted)
    compare.same("how many answers are stored", lines, stored.RULE.size)
    compare.agreed("stored answers", written.seen, WANTED)


# ---- limits, from both sides

def limit_cases():
    """Texts at the limits, and those of the model's own targeted cases, with each call."""
    for text in variants.limit_texts():
        yield from both_calls(text.encode(), TABLES, row=1, more=2)
    few = (cases.trap_cases, cases.truth_test_cases, cases.truth_sum_cases, cases.bracket_cases, cases.part_limit_cases, cases.text_length_cases,
           cases.table_limit_cases)
    for case in itertools.chain.from_iterable(group() for group in few):
        yield from both_calls(case.source, case.file, case.row)
    yield from compare.declined_cases("JUDGE", "CARD")


def sum_cases():
    """Texts whose sum of entries is known. Over 192 they are refused with 13, whatever the row or the room; else the sum says how long the card is."""
    for summed in itertools.chain(sums.by_hand(), sums.drawn(random.Random(SEED), SUMMED_RULES)):
        accepted = summed.sort("given") == "given"
        for row in range(3):
            judge = cases.Case("JUDGE", summed.text, summed.file, row=row)
            yield judge if accepted and row < cases.row_count(summed.file) else compare.Stated(judge, summed.sort("refused 11"))
        yield compare.Stated(cases.Case("JUDGE", summed.text, summed.file, row=99), summed.sort("refused 11"))
        length = summed.card_length() if accepted else 100
        for room, otherwise in ((0, "refused 12"), (length - 1, "refused 12"), (length, "given"), (length + 1, "given")):
            yield compare.Stated(cases.Case("CARD", summed.text, summed.file, buffer=cases.lent("CARD", room)), summed.sort(otherwise))


def size_cases():
    """Rules on the last column of table 1 and of the last table, with tables at the limits; the refusals are those that document 01 states."""
    for sizes, file, refusal in cases.limit_files():
        columns = [count for count, _ in sizes] or [1]
        rows = sizes[0][1] if sizes else 0
        texts = (f"m.{columns[0]}<{rows * columns[0] // 2}".encode(), f"EXISTS(FROM {len(columns)} v WHERE m.{columns[0]}<v.{columns[-1]})".encode())
        for text in texts:
            card = cases.fitting("CARD", text, file, 1)
            yield card if refusal is None else compare.Stated(card, f"refused {refusal}")
            for row in variants.row_numbers(rows):
                judge = cases.Case("JUDGE", text, file, row=row)
                sort = f"refused {refusal or 11}"
                yield judge if refusal is None and row < rows else compare.Stated(judge, sort)


def row_cases():
    """Row numbers in tables of several lengths, around and beyond them; the last row is blank, declined, 0 or 1, so that no other row can stand in for it."""
    for rows, last in itertools.product((0, 1, 2, 3, 255, 256, 257, 1000), (None, model.DECLINED_CELL, 0, 1)):
        file = generate.tables_file([(1, [[number % 7] for number in range(1, rows)] + [[last]] * (rows > 0))])
        for row in itertools.chain(range(min(rows, 10)), variants.row_numbers(rows)):
            yield cases.Case("JUDGE", b"m.1 IS DECLINED" if last == model.DECLINED_CELL else b"m.1>0", file, row=row)


def cell_cases():
    """Each cell of eight tables is looked for, by a number that no other cell has, in each column: it is found in its own and in no other."""
    rows = 2
    file = cases.numbered_tables([(columns, rows) for columns in variants.COLUMNS])
    places = [(table, column) for table, columns in enumerate(variants.COLUMNS, 1) for column in range(1, columns + 1)]
    first = 0
    for table, columns in enumerate(variants.COLUMNS, 1):
        for cell, (other, column) in itertools.product(range(columns * rows), places):
            sort = f"given {model.TRUE if (other, column) == (table, cell % columns + 1) else model.FALSE}"
            yield compare.Stated(cases.Case("JUDGE", f"EXISTS(FROM {other} v WHERE v.{column}={first + cell})".encode(), file), sort)
        first += columns * rows
    for row, column, cell in itertools.product(range(rows), range(1, variants.COLUMNS[0] + 1), range(rows * variants.COLUMNS[0])):
        sort = f"given {model.TRUE if cell == row * variants.COLUMNS[0] + column - 1 else model.FALSE}"
        yield compare.Stated(cases.Case("JUDGE", f"m.{column}={cell}".encode(), file, row=row), sort)


def mark_cases():
    """Each cell of eight tables is declined in turn: it is found in its own column, and in none beside it."""
    rows, first = 2, 0
    sizes = [(columns, rows) for columns in variants.COLUMNS]
    plain = cases.numbered_tables(sizes)
    for table, columns in enumerate(variants.COLUMNS, 1):
        for cell in range(columns * rows):
            place = generate.marks_at(plain) + first + cell
            file = plain[:place] + bytes([model.MARK_DECLINED]) + plain[place + 1:]
            for column in range(max(1, cell % columns), min(columns, cell % columns + 2) + 1):
                sort = f"given {model.TRUE if column == cell % columns + 1 else model.FALSE}"
                yield compare.Stated(cases.Case("JUDGE", f"EXISTS(FROM {table} v WHERE v.{column} IS DECLINED)".encode(), file), sort)
        first += columns * rows


def end_cases():
    """Each comparison of two numbers from the ends of their range, blank or declined, as cells and as constants."""
    cells = variants.ENDS + (None, model.DECLINED_CELL)
    file = generate.tables_file([(2, [[left, right] for left in cells for right in cells])])
    for sign in generate.SIGNS:
        for row in range(len(cells) ** 2):
            yield cases.Case("JUDGE", f"m.1{sign}m.2".encode(), file, row=row)
        for number in variants.ENDS:
            for row in range(0, len(cells) ** 2, 3):
                yield cases.Case("JUDGE", f"m.1{sign}{number}".encode(), file, row=row)
                yield cases.Case("JUDGE", f"{number}{sign}m.2".encode(), file, row=row)
        for left, right in itertools.product(variants.ENDS, repeat=2):
            yield from both_calls(f"{left}{sign}{right}".encode(), file)


# ---- cards of every length

def three_lists(form):
    """Three lists around one another: four parts, and ten entries."""
    text = "c.1=1"
    for outer, letter in ("bc", "ab", "ma"):
        text = f"{outer}.1{form}(SELECT {letter}.1 FROM 1 {letter} WHERE {text})"
    return text


FORMS = (" IN", " NOT IN", "<SOME", ">=ALL", "<>SOME")


def largest_text(count):
    """So many of these joined, so five parts for each, less one; with 13 of them a rule has 64 parts, and none without truth tests has a longer card."""
    texts = [three_lists(FORMS[number % len(FORMS)]) for number in range(count)]
    return "".join(text + (" OR ", " AND ")[number % 2] for number, text in enumerate(texts[:-1])) + texts[-1]


EIGHT_TABLES = generate.tables_file([(16, [])] * 8)
LARGEST = largest_text(13).encode()
# 192 entries: an EXISTS has 2, which six IS UNKNOWN make 191, and the EXISTS around them has one more
MOST_ENTRIES = paper.within_exists(paper.within_unknowns(6, b"EXISTS(FROM 2 w WHERE w.1=m.1)"))
ROOM_TEXTS = (
    paper.WORKED_TEXT, b"m.1 IS NULL OR NOT m.2<>-1", paper.CASES[11].text, b"NOT EXISTS(FROM 2 v WHERE v.1<=ALL(SELECT w.1 FROM 3 w WHERE w.3 IS NULL))",
    b"NOT " * 63 + b"1=1", largest_text(12).encode(), LARGEST,
    b"(m.2>0)IS UNKNOWN", b"NOT(NOT m.1=1 OR(m.2=1)IS NOT UNKNOWN)IS FALSE", b"m.1 NOT IN(SELECT v.1 FROM 2 v WHERE(v.1<m.2)IS NOT TRUE)",
    b"NOT m.2 IS DECLINED OR 1 IS DECLINED", MOST_ENTRIES)


def check_rooms(rules):
    """Buffers of every length, up to two bytes more than the card takes, for three tables and for eight; the longest card of all is among them."""
    written = Written(rules)
    for file, text in itertools.product((TABLES, EIGHT_TABLES), ROOM_TEXTS):
        sheet = model.card(text, file, cases.AMPLE_ROOM)
        for room in range(len(sheet) + 3):
            written.card(text, file, room, model.Refused(12) if room < len(sheet) else sheet)
    # by the published sum: for 64 parts of which 39 are lists, and for 192 entries
    for text, longest in ((LARGEST, 3 + 8 + 15 * (64 + 2 * 39)), (MOST_ENTRIES, 3 + 8 + 15 * 192)):
        written.card(text, EIGHT_TABLES, longest - 1, model.Refused(12))
        written.card(text, EIGHT_TABLES, longest, model.card(text, EIGHT_TABLES, longest))
    compare.agreed("buffers of every length", written.seen, {"CARD": compare.given_sorts(12)})


def large_rules():
    """Rules around the most parts: lists, NOTs, truth tests, and tests joined by turns; with one part too many they are refused."""
    file = generate.tables_file([(1, [[0], [1], [None]])])
    tests = ("m.1=1", "m.1 IS NULL", "NOT m.1<1", "m.1>=SOME(SELECT v.1 FROM 1 v WHERE v.1=m.1)", "(m.1>0)IS UNKNOWN", "NOT(m.1<1)IS TRUE")
    for count in (1, 2, 12, 13, 14):
        yield from both_calls(largest_text(count).encode(), file, row=1)
        yield from both_calls(b"NOT " + largest_text(count).encode(), file, row=1)
    for count, test, word in itertools.product(range(15, 34), tests, ("AND", "OR")):
        for row in range(3):
            yield from both_calls(f" {word} ".join([test] * count).encode(), file, row)
    for count in range(60, 66):
        yield from both_calls(b"NOT " * count + b"m.1=0", file, count % 2)
    for ending, count, row in itertools.product(cases.TRUTH_ENDINGS[:4], range(29, 34), range(3)):
        yield from both_calls(cases.nested_truths(count, b"NOT " * (63 - count) + b"m.1=0", ending), file, row)


# ---- levels and letters

def level_texts():
    """Each pair of levels compared under three FROMs; and each choice of two letters for two FROMs and for what is named inside."""
    values = ("m.1", "m.2", "a.1", "b.1", "c.1", "c.2", "-2")
    for left, right, sign in itertools.product(values, values, generate.SIGNS):
        yield f"EXISTS(FROM 2 a WHERE a.1>=SOME(SELECT b.1 FROM 3 b WHERE NOT EXISTS(FROM 1 c WHERE {left}{sign}{right})))"
    for first, second, left, selected, inside in itertools.product("mv", repeat=5):
        yield f"EXISTS(FROM 2 {first} WHERE {left}.1<=ALL(SELECT {selected}.1 FROM 3 {second} WHERE {inside}.1<>1))"
        yield f"NOT {left}.1 IN(SELECT {selected}.1 FROM 2 {first} WHERE EXISTS(FROM 1 {second} WHERE {inside}.1=1))"
        yield f"({left}.1>=ALL(SELECT {selected}.1 FROM 2 {first} WHERE ({inside}.1=1)IS NOT TRUE))IS UNKNOWN OR ({left}.1=1)IS FALSE"
        yield f"EXISTS(FROM 3 {first} WHERE {left}.1 IS DECLINED AND {selected}.1 NOT IN(SELECT 1 FROM 2 {second} WHERE NOT {inside}.1 IS NOT DECLINED))"


def level_cases():
    """These texts, on each row of tables with a blank or declined cell in every column."""
    file = generate.tables_file([(2, [[1, None], [-2, 2], [model.DECLINED_CELL, 0]]), (1, [[1], [None], [-2]]), (1, [[2], [-2], [model.DECLINED_CELL]])])
    for text in level_texts():
        for row in range(3):
            yield cases.Case("JUDGE", text.encode(), file, row=row)
        yield cases.fitting("CARD", text.encode(), file)


# ---- damage, and several refusals at once

SMALL_FILE = generate.tables_file([(2, [[1, None]])])


def damaged_cases():
    """A small rule and a small tables file, with every byte at every value and at every length; the rule also with bytes left out or doubled."""
    for text in itertools.chain(variants.damaged_texts(b"NOT m.2<1"), variants.damaged_texts(b"(m.2<1)IS NOT FALSE")):
        yield from both_calls(text, SMALL_FILE)
    for text in variants.damaged_texts(b"1<>ALL(SELECT 1FROM 1v WHERE v.1=1)"):
        yield cases.fitting("CARD", text, SMALL_FILE)
    for text in variants.damaged_texts(b"1IS DECLINED"):
        yield cases.fitting("CARD", text, SMALL_FILE)
    for file in itertools.chain(variants.each_byte(SMALL_FILE), variants.each_length(SMALL_FILE)):
        yield from both_calls(b"m.2>m.1", file)
        yield cases.Case("JUDGE", b"m.1=1 OR m.2 IS DECLINED", file)


def refusal_cases():
    """Every set of refusals of JUDGE and of CARD together."""
    yield from compare.refusal_sets("JUDGE", "given true")
    yield from compare.refusal_sets("CARD", "given")


def drawn_cases():
    """Random cases, and random rules for each value."""
    draw = random.Random(SEED)
    for call in WANTED:
        for _ in range(DRAWS_OF_EACH_CALL):
            yield cases.drawn(draw, call)
    yield from cases.drawn_truths(draw, DRAWS_OF_EACH_TRUTH)


GROUPS = (
    (limit_cases, both_sorts(1, 3, 4, 5, 6, 7, 8, 13)),
    (sum_cases, {"JUDGE": judge_sorts(11, 13), "CARD": compare.given_sorts(12, 13)}),
    (size_cases, {"JUDGE": ("given true", "given false") + compare.refusal_sorts(1, 2, 11), "CARD": compare.given_sorts(1, 2)}),
    (row_cases, {"JUDGE": judge_sorts(11)}),
    (cell_cases, {"JUDGE": ("given true", "given false")}),
    (mark_cases, {"JUDGE": ("given true", "given false")}),
    (end_cases, both_sorts()),
    (large_rules, both_sorts(5, 7)),
    (level_cases, both_sorts(8)),
    (damaged_cases, both_sorts(1, 2, 4, 6, 8)),
    (refusal_cases, {"JUDGE": ("given true",) + compare.refusal_sorts(*cases.REFUSALS_OF["JUDGE"]), "CARD": WANTED["CARD"]}),
    (drawn_cases, WANTED),
)


def check_groups(rules):
    comparison = compare.Comparison(lambda case: answer_of(rules, case))
    comparison.groups(GROUPS)
    comparison.demand(WANTED)


# ---- from end to end

GATE_WANTED = {"CARD": ("given",), "CHECK": ("given sound",), "LIST": ("given", "refused 12"), "JUDGE": judge_sorts(11)}
RUN_WANTED = {"RUN": ("given True", "given False", "refused 11")}


def check_small(rules, gate):
    """Every kind of test in every kind of place, truth tests among the tests and among the places, on every small file; and tests of declined cells, on every
    small file with such cells."""
    seen = collections.Counter()
    plain = itertools.product(((small.rules(), 1), (small.truth_rules(), 1), (small.list_rules(), 2)), (small.CELLS,))
    for (texts, columns), cells in itertools.chain(plain, [((small.declined_rules(), 1), small.DECLINED_CELLS)]):
        files = [(file, model.tables_of(file)) for file in small.files(columns, cells)]
        for text in texts:
            rule = end_to_end.Rule(rules, gate, text.encode(), files[0][0])
            for file, tables in files:
                values = rule.values_on(tables)
                rule.judge(file, values)
                rule.list_rows(file, values)
            seen += rule.counts
    compare.agreed("small rules and files", seen, GATE_WANTED)


def drawn_rule(draw, file, sizes, declined=.4):
    """A drawn rule for a tables file; so many of its tests of a value are with DECLINED and not with NULL."""
    maker = generate.RuleMaker(draw, model.tables_of(file).columns, truths=draw.choice([0, .1, .3]), declined=declined)
    return generate.spaced(draw, maker.rule(draw.choice(sizes)))


def is_accepted(text, file):
    return not isinstance(model.read(text, file, cases.AMPLE_ROOM), model.Refused)


def accepted_rule(draw, file, sizes, declined=.4):
    """The same that is accepted."""
    while True:
        text = drawn_rule(draw, file, sizes, declined)
        if is_accepted(text, file):
            return text


def follow(rules, gate, text, file, later_files):
    """A rule on each of these files, by all calls; the answers counted."""
    rule = end_to_end.Rule(rules, gate, text, file)
    for later in later_files:
        values = rule.values_on(model.tables_of(later))
        for check in (rule.judge, rule.run, rule.list_rows):
            check(later, values)
    return rule.counts


def check_later(rules, gate):
    """Drawn rules, each on the file that it is accepted with and on later ones."""
    draw = random.Random(SEED)
    seen = collections.Counter()
    files = [generate.random_tables(draw) for _ in range(LATER_RULES)]
    drawn = [(accepted_rule(draw, file, [1, 2, 3, 5, 8, 12]), file) for file in files]
    drawn += [(summed.text, summed.file) for summed in sums.drawn(draw, LATER_SUMMED_RULES) if summed.total <= sums.MOST]
    for text, file in drawn:
        later = [generate.later_tables(draw, model.tables_of(file).columns) for _ in range(LATER_FILES)]
        seen += follow(rules, gate, text, file, [file] + later)
    compare.agreed("later tables", seen, GATE_WANTED | RUN_WANTED)


# ---- connectives by arithmetic

def arithmetic(rules, left, right, file, row):
    """The numbers that JUDGE gives two conditions, and for each connective the number that arithmetic gives and the one that JUDGE gives."""
    numbers = {truth: number for number, truth in library.TRUTHS.items()}

    def judged(form):
        return numbers[rules.judge(form % {b"left": left, b"right": right}, file, row)]

    a, b = judged(b"%(left)b"), judged(b"%(right)b")
    yield "NOT", (a,), 2 - a, judged(b"NOT(%(left)b)")
    yield "AND", (a, b), min(a, b), judged(b"(%(left)b)AND(%(right)b)")
    yield "OR", (a, b), max(a, b), judged(b"(%(left)b)OR(%(right)b)")


def accepted_pair(draw, file):
    """Two drawn conditions that are accepted with a tables file, also joined."""
    while True:
        left, right = (drawn_rule(draw, file, [1, 2, 3, 5]) for _ in range(2))
        if is_accepted(b"(%b)AND(%b)" % (left, right), file):
            return left, right


def check_arithmetic(rules):
    """AND, OR and NOT of drawn conditions, by JUDGE's numbers of these conditions; no value here comes from the model. Each value and each pair occurs."""
    draw, seen = random.Random(SEED), collections.Counter()
    for _ in range(ARITHMETIC_PAIRS):
        file = generate.random_tables(draw)
        left, right = accepted_pair(draw, file)
        for row in range(cases.row_count(file)):
            for connective, given, wanted, got in arithmetic(rules, left, right, file, row):
                compare.same((left, right, file, row, connective), got, wanted)
                seen[connective, given] += 1
    pairs = tuple(itertools.product(library.TRUTHS, repeat=2))
    compare.agreed("connectives by arithmetic", seen, {"NOT": tuple((number,) for number in library.TRUTHS), "AND": pairs, "OR": pairs})


# ---- marks, and values that no answer shows

def all_answers(rules, gate, text, sheet, file):
    """What the calls but CHECK answer to a rule, to its card, and to a file with rows in table 1."""
    rows = range(cases.row_count(file) + 1)
    return {
        "READ": rules.read(text, file, cases.lent("READ", 30)),
        "CARD": rules.card(text, file, cases.lent("CARD", end_to_end.LONGEST_CARD)),
        "JUDGE": tuple(rules.judge(text, file, row) for row in rows),
        "RUN": tuple(gate.run(sheet, file, row) for row in rows),
        "LIST": gate.list_rows(sheet, file, cases.lent("LIST", len(rows))),
    }


def check_marks(rules, gate):
    """Other values of blank and declined cells change no answer. Blanks in place of one declined cell or of all change no answer to a rule without tests of
    declined cells, and to others they change answers of JUDGE, RUN and LIST alone. No answer here comes from the model."""
    draw, seen = random.Random(SEED), collections.Counter()
    for number in range(MARKED_RULES):
        file = variants.marked_tables(draw)
        text = accepted_rule(draw, file, [1, 2, 3, 5], declined=(0, .7)[number % 2])
        length, sheet = rules.card(text, file, cases.lent("CARD", end_to_end.LONGEST_CARD))
        sheet = bytes(sheet[:length])
        answers = all_answers(rules, gate, text, sheet, file)
        compare.same((text, file, "other values"), all_answers(rules, gate, text, sheet, generate.with_other_values(draw, file)), answers)
        with_blanks = all_answers(rules, gate, text, sheet, variants.with_blanks_for_declined(file))
        if b"DECLINED" in text:
            seen.update(("changed", call) for call in answers if with_blanks[call] != answers[call])
        else:
            compare.same((text, file, "blanks in place of declined cells"), with_blanks, answers)
            with_a_blank = variants.with_a_blank_for_declined(draw, file)
            compare.same((text, file, "a blank in place of a declined cell"), all_answers(rules, gate, text, sheet, with_a_blank), answers)
            seen.update(("unchanged", value) for value in answers["JUDGE"])
    compare.agreed("marks and values", seen, {"changed": ("JUDGE", "RUN", "LIST"), "unchanged": tuple(stored.TRUTHS.values())})
    compare.same("calls whose answers show marks", {call for sort, call in seen if sort == "changed"}, {"JUDGE", "RUN", "LIST"})


LONG_RULES = (
    b"m.1<m.2 OR NOT m.1 IS NULL AND m.2>=0", b"m.1 IN(SELECT v.1 FROM 2 v WHERE v.1<>m.2)", b"NOT EXISTS(FROM 2 v WHERE v.1>m.1)", b"m.2 IS NULL", b"1=1",
    b"(m.1<m.2)IS UNKNOWN", b"NOT(m.1 NOT IN(SELECT v.1 FROM 2 v WHERE(v.1<>m.2)IS NOT FALSE))IS FALSE", b"m.2 IS DECLINED OR m.1<m.2")


def check_long(rules, gate):
    """Rules that are accepted with empty tables, on later ones with up to 1,000 rows to be judged."""
    draw = random.Random(SEED)
    seen = collections.Counter()
    for text in LONG_RULES:
        later = [generate.filled_tables(draw, [(2, rows), (1, 3)]) for rows in (0, 255, 256, 1000)]
        seen += follow(rules, gate, text, generate.tables_file([(2, []), (1, [])]), later)
    compare.agreed("long tables", seen, GATE_WANTED | RUN_WANTED)


CHECKS = (check_paper, check_stored, check_rooms, check_groups, check_arithmetic)
CHECKS_WITH_GATE = (check_marks, check_small, check_later, check_long)


def check_all(rules, gate):
    for check in CHECKS:
        check(rules)
    for check in CHECKS_WITH_GATE:
        check(rules, gate)


def main():
    check_all(library.Rules(library.load("roskudla")), library.Gate(library.load("roskudla_gate")))


if __name__ == "__main__":
    compare.end_with(main)
