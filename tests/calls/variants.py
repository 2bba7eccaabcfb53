"""Texts, numbers and row numbers at the limits of documents 01 and 02, bytes that are changed in every place, and marks and values that no answer shows."""
import itertools

import library  # noqa: F401  (it adds the model's folder to the path)

import generate
import model


# ---- texts, from both sides of the limits

def nested(count, text, letter="v"):
    """Text under so many FROMs."""
    for _ in range(count):
        text = f"EXISTS(FROM 1 {letter} WHERE {text})"
    return text


def truth_tested(count, text, ending):
    """Text in so many brackets, each before a truth test."""
    return "(" * count + text + f"){ending}" * count


def limit_texts():
    """Texts on both sides of the limits of digits, numbers, columns, tables, FROMs, parts and entries."""
    for digits in (1, 9, 10, 11, 12):
        yield from ("1=" + "0" * (digits - 1) + "7", "1=-" + "0" * (digits - 1) + "7", "7" * digits + "=1")
    for number in (-2**31 - 1, -2**31, -2**31 + 1, -1, 0, 1, 2**31 - 1, 2**31, 9999999999):
        yield from (f"1={number}", f"m.{number}=1", f"EXISTS(FROM {number} v WHERE 1=1)", f"{number} IS NULL", f"{number} IS DECLINED")
    for number in range(-1, 18):
        yield from (f"m.{number}=1", f"EXISTS(FROM {number} v WHERE v.1=1)", f"EXISTS(FROM 3 v WHERE v.{number}=1)", f"m.{number} IS NOT DECLINED")
    for froms, core in itertools.product(range(6), ("1=1", "v.1=1", "w.1=1", "v.1 IS DECLINED", "1=", "m.1=@")):
        yield nested(froms, core)
        yield f"1=1 OR {nested(froms, core)} AND {nested(3, '1=1')}"
        yield nested(froms, "m.1 NOT IN(SELECT v.1 FROM 2 v WHERE " + core + ")")
    for froms, core in itertools.product((31, 32, 33), ("1=1", "w.1=1", "1=")):
        yield nested(froms, core)
    for parts in (61, 62, 63, 64, 65, 66, 200, 1000):
        yield from ("NOT " * (parts - 1) + test for test in ("1=1", "k.1=1", "1=", "m.2 IS DECLINED"))
    for tests in (31, 32, 33, 34, 500):
        for word in ("AND", "OR"):
            yield f" {word} ".join(["1=1"] * tests)
            yield f" {word} ".join(["(1=1)"] * tests)
        yield "1=1" + " AND 2=2 OR 3=3" * (tests // 2)
    for tests, core in itertools.product((5, 6, 7, 8, 15, 16, 31, 32, 33), ("1=1", "NOT m.2>0", nested(1, "v.2=m.2"), "k.1=1", "1=")):
        for ending in ("IS UNKNOWN", "IS NOT UNKNOWN", "IS TRUE", "IS NOT FALSE"):
            yield truth_tested(tests, core, ending)
            yield f"m.2 IS NOT NULL AND({truth_tested(tests - 1, core, ending)})IS NOT TRUE"
    for tests in (20, 21, 22, 31, 32):
        yield from (" AND ".join([test] * tests) for test in ("(m.1>0)IS NOT UNKNOWN", "((m.2>0)IS UNKNOWN)IS FALSE", "(m.2 IS DECLINED)IS NOT UNKNOWN"))


# ---- columns, numbers, and row numbers

COLUMNS = (5, 2, 16, 7, 1, 9, 3, 12)  # of eight tables, no two of which have as many
ENDS = (-2**31, -2**31 + 1, -1, 0, 1, 2**31 - 2, 2**31 - 1)
LAST_ROW = 2**64 - 1


def row_numbers(rows):
    """Row numbers around both ends of a table with so many rows and in its middle, and far ones, of which some would be rows if their high bits were lost."""
    near = (0, 1, rows // 2, rows - 2, rows - 1, rows, rows + 1)
    far = (2**16, 2**16 + 1, 2**32, 2**32 + 1, 2**63, LAST_ROW)
    return [row for row in near + far if row >= 0]


# ---- marks, and values that no answer shows

ALL_MARKS = (model.MARK_PRESENT, model.MARK_BLANK, model.MARK_DECLINED)


def marked_tables(draw):
    """A small tables file in which cells have all three marks, with any bytes as the values of blank and declined ones."""
    while True:
        sizes = [(draw.choice([1, 2, 2, 3]), draw.choice([1, 2, 3, 4])) for _ in range(draw.choice([1, 2, 2, 3]))]
        file = generate.filled_tables(draw, sizes, blanks=.6, declined=.5)
        if set(file[generate.marks_at(file):]) == set(ALL_MARKS):
            return file


def with_blanks_for_declined(file):
    """A right tables file in which each declined cell is a blank one, with the same value bytes."""
    return generate.with_marks(file, {model.MARK_DECLINED: model.MARK_BLANK})


def with_a_blank_for_declined(draw, file):
    """A right tables file with declined cells, of which one is a blank one in its place."""
    start = generate.marks_at(file)
    place = draw.choice([place for place in range(start, len(file)) if file[place] == model.MARK_DECLINED])
    return file[:place] + bytes([model.MARK_BLANK]) + file[place + 1:]


# ---- bytes changed

def each_byte(whole):
    """Each byte changed to each value."""
    for place, value in itertools.product(range(len(whole)), range(256)):
        yield whole[:place] + bytes([value]) + whole[place + 1:]


def each_byte_put_in(whole):
    """A byte of each value put in at each place, the end too."""
    for place, value in itertools.product(range(len(whole) + 1), range(256)):
        yield whole[:place] + bytes([value]) + whole[place:]


def each_length(whole):
    """Every shorter one."""
    return (whole[:length] for length in range(len(whole)))


def each_left_out_or_doubled(whole):
    """Each byte left out, and each one twice."""
    for place in range(len(whole)):
        yield from (whole[:place] + whole[place + 1:], whole[:place + 1] + whole[place:])


def damaged_texts(text):
    """A text with every byte at every value, cut at every length, and with every byte left out or doubled."""
    return itertools.chain(each_byte(text), each_length(text), each_left_out_or_doubled(text))
