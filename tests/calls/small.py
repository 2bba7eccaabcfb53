"""Every kind of test in every kind of place, over tables in which each cell is blank, 0 or 1: small rules, and every small file for them. Truth tests are
tests there, and places too. And tests of declined cells, over tables in which each cell is blank, declined or 0."""
import itertools

import library  # noqa: F401  (it adds the model's folder to the path)

import generate
import model

CELLS = (None, 0, 1)
DECLINED_CELLS = (None, model.DECLINED_CELL, 0)
SIGNS = generate.SIGNS
NOTS = ("", "NOT ", "NOT NOT ")


def rows_of(columns, count, cells):
    """Every content of so many rows, of these cells."""
    for content in itertools.product(cells, repeat=columns * count):
        yield [list(content[place:place + columns]) for place in range(0, len(content), columns)]


def files(columns, cells=CELLS):
    """Files with every row that there is in table 1, and every table 2 of at most two rows of so many columns, all of these cells."""
    judged = [list(pair) for pair in itertools.product(cells, repeat=2)]
    for count in range(3):
        for rows in rows_of(columns, count, cells):
            yield generate.tables_file([(2, judged), (columns, rows)])


# ---- rules for a table 2 of one column

def tests():
    """Each kind of test, each with each sign where it has one."""
    yield from ("0<1", "1=0", "m.1 IS NULL", "m.1 IS NOT NULL", "1 IS NULL", "1 IS NOT NULL")
    for sign in SIGNS:
        yield from (f"m.1{sign}m.2", f"m.1{sign}0", f"1{sign}m.1", f"EXISTS(FROM 2 v WHERE v.1{sign}m.1)")
    for sign, word in itertools.product(SIGNS, ("SOME", "ALL")):
        yield f"m.1{sign}{word}(SELECT v.1 FROM 2 v WHERE v.1>=m.2)"
    for form in ("IN", "NOT IN"):
        yield f"m.1 {form}(SELECT v.1 FROM 2 v WHERE 1=1)"
    yield "EXISTS(FROM 2 v WHERE v.1 IS NULL)"


JOINS = ("{} AND m.2=1", "m.2=1 AND {}", "{} OR m.2=1", "m.2=1 OR {}", "NOT({} AND m.2=1)", "NOT(m.2=1 OR {})", "NOT(NOT m.2=1 OR NOT {})")
SOURCES = ("EXISTS(FROM 2 w WHERE {})", "m.2>=SOME(SELECT w.1 FROM 2 w WHERE {})", "m.2<>ALL(SELECT w.1 FROM 2 w WHERE {})")


def rules():
    """Each test under NOTs, beside another test, and as a WHERE, where it is about the row of the FROM."""
    for test in tests():
        yield from (nots + test for nots in NOTS)
        yield from (join.format(test) for join in JOINS)
        within = test.replace("m.1", "w.1")
        for outer, source, inner in itertools.product(NOTS[:2], SOURCES, NOTS):
            yield outer + source.format(inner + within)


ENDINGS = ("IS TRUE", "IS NOT TRUE", "IS FALSE", "IS NOT FALSE", "IS UNKNOWN", "IS NOT UNKNOWN")
TESTED = (
    "m.1=0", "m.1 IS NULL", "m.1 NOT IN(SELECT v.1 FROM 2 v WHERE v.1>=m.2)", "m.2 IS NULL", "m.2=1", "m.1<m.2", "1=0", "m.1 IS NOT NULL",
    "EXISTS(FROM 2 v WHERE v.1=m.1)", "m.1>=SOME(SELECT v.1 FROM 2 v WHERE v.1<>m.2)")
FEW_TESTED = TESTED[:3]


def truth_test(condition, ending):
    return f"({condition}){ending}"


def in_where(condition):
    """A condition about the row of the FROM in place of the first column of the judged row."""
    return condition.replace("m.1", "w.1")


def truth_rules():
    """Each truth test of each test, alone and under NOT; of some tests, as a WHERE; of few, beside another test, in each other truth test, and as a WHERE in
    a truth test."""
    for test, ending, nots in itertools.product(tests(), ENDINGS, NOTS[:2]):
        yield nots + truth_test(test, ending)
    for test, ending, outer, source, inner in itertools.product(TESTED, ENDINGS, NOTS[:2], SOURCES, NOTS[:2]):
        yield outer + source.format(inner + truth_test(in_where(test), ending))
    for test, ending in itertools.product(FEW_TESTED, ENDINGS):
        yield from (join.format(truth_test(test, ending)) for join in JOINS)
        for nots, around in itertools.product(NOTS[:2], ENDINGS):
            yield truth_test(nots + truth_test(test, ending), around)
        for source, around in itertools.product(SOURCES, ENDINGS):
            yield truth_test(source.format(truth_test(in_where(test), ending)), around)


DECLINED_TESTS = ("m.1 IS DECLINED", "m.1 IS NOT DECLINED")
# tests of a number, tests in which a declined cell is a blank one, and lists with tests of declined cells in their WHERE
BESIDE_DECLINED = (
    "0 IS DECLINED", "0 IS NOT DECLINED", "m.1 IS NULL", "m.1 IS NOT NULL", "m.1=m.2", "m.1<>m.2", "0<=m.1", "m.1 IN(SELECT v.1 FROM 2 v WHERE 0=0)",
    "m.1>=ALL(SELECT v.1 FROM 2 v WHERE v.1 IS NOT DECLINED)", "m.1=SOME(SELECT v.1 FROM 2 v WHERE v.1 IS DECLINED OR v.1=0)",
    "EXISTS(FROM 2 v WHERE v.1 IS DECLINED AND m.1 IS NOT DECLINED)")


def declined_rules():
    """Each test of declined cells under NOTs, beside another test, in each truth test, and as a WHERE, also of others; and other tests over declined cells."""
    for test in DECLINED_TESTS:
        yield from (nots + test for nots in NOTS)
        yield from (join.format(test) for join in JOINS)
        for ending in ENDINGS:
            yield from (truth_test(test, ending), "NOT " + truth_test(test, ending), truth_test("NOT " + test, ending))
        for outer, source, inner in itertools.product(NOTS[:2], SOURCES, NOTS[:2]):
            yield outer + source.format(inner + in_where(test))
    for test, nots in itertools.product(BESIDE_DECLINED, NOTS[:2]):
        yield from (nots + test, f"m.2 IS DECLINED OR {nots}{test}", nots + truth_test(test, "IS UNKNOWN"))


# ---- rules for a table 2 of two columns

WHERES = ("v.2=m.2", "NOT v.2=m.2", "v.2 IS NULL OR v.2<m.2", "(v.2=m.2)IS UNKNOWN", "(v.2=m.2)IS NOT TRUE")


def list_rules():
    """Lists whose WHERE is about another column than the one that they select."""
    for nots, sign, word, where in itertools.product(NOTS[:2], SIGNS, ("SOME", "ALL"), WHERES):
        yield f"{nots}m.1{sign}{word}(SELECT v.1 FROM 2 v WHERE {where})"
