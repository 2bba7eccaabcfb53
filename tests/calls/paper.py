"""Texts with what document 01 answers to them, Point 1 of document 02 to those with truth tests, and its Point 4 to those about declined cells, worked out by
hand from the papers: their own examples, and the nearest neighbours on the other side.

An example is a text, a tables file and an answer: the number of the refusal, or the numbers of the parts as they stand in the list, with a stroke between
two parts. The numbers of a part are kind, comparison, table, end, tag and number of the left value, tag and number of the right value. Cards are written in
the same way, entry by entry: kind, end, table, comparison, tag and number of the left value, tag and number of the right value.

Comma lines, of Points 2 and 4 of document 02, stand with a number of columns and the number of the refusal or the rows of the table; a blank cell is None,
and a declined one is DECLINED.
"""
import struct
import typing

ONE_COLUMN = bytes.fromhex("01 01 00 00")
THREE_COLUMNS = bytes.fromhex("01 03 00 00")
CASE_COLUMNS = bytes.fromhex("03 02 00 00 01 00 00 01 00 00")  # tables of 2, 1 and 1 columns, as those of the proved cases
# the tables of the proved cases, (1, 5), (2, blank), (3, 0); 1, blank; no rows. The value bytes under the blanks are 7 and 1, which no answer may show
CASE_TABLES = bytes.fromhex(
    "03 02 03 00 01 02 00 01 00 00"
    " 01 00 00 00 05 00 00 00  02 00 00 00 07 00 00 00  03 00 00 00 00 00 00 00  01 00 00 00  01 00 00 00"
    " 00 00  00 01  00 00  00  01")
# tables of as many columns: (1, 5), (2, blank), (3, declined), (declined, 0); 1, declined; no rows. Under the blank and declined cells stand 5, 5, 1 and 2,
# which no answer may show
DECLINED_TABLES = bytes.fromhex(
    "03 02 04 00 01 02 00 01 00 00"
    " 01 00 00 00 05 00 00 00  02 00 00 00 05 00 00 00  03 00 00 00 05 00 00 00  01 00 00 00 00 00 00 00  01 00 00 00  02 00 00 00"
    " 00 00  00 01  00 02  02 00  00  02")
ONE_CELL = "01 01 01 00 00 00 00 00"

TEST = b"1 = 1"
PARTS_OF_TEST = "4 1 0 1 255 1 255 1"


def in_brackets(count):
    """A test in so many brackets."""
    return b"(" * count + TEST + b")" * count


def joined_by_or(count):
    """So many tests joined by OR."""
    return b" OR ".join([TEST] * count)


def parts_of_32_joined(nots):
    """The parts of 32 tests joined by OR with so many NOTs before them: 31 ORs, each ending one part before the OR around it, NOTs, tests."""
    parts = 31 + nots + 32
    ors = [f"2 0 0 {parts - number} 0 0 0 0" for number in range(31)]
    tests = [f"4 1 0 {number + 1} 255 1 255 1" for number in range(parts - 32, parts)]
    return " / ".join(ors + [f"3 0 0 {32 + nots} 0 0 0 0"] * nots + tests)


def under_froms(letters):
    """A comparison of the judged row with the innermost one, under a FROM over table 1 for each letter."""
    text = f"m.1 = {letters[-1]}.1"
    for letter in reversed(letters):
        text = f"EXISTS (FROM 1 {letter} WHERE {text})"
    return text.encode()


def within_unknowns(count, text=TEST):
    """A condition within so many IS UNKNOWN around one another. Each makes 1 plus twice the sum in it: 3, 7, 15, 31, 63, 127, 255 around one test."""
    return b"(" * count + text + b") IS UNKNOWN" * count


def within_exists(text):
    """EXISTS, which adds 1 to the sum of its WHERE."""
    return b"EXISTS (FROM 1 v WHERE " + text + b")"


# a sum of 191: EXISTS around a test has 2, and then 5, 11, 23, 47, 95, 191
SUM_191 = within_unknowns(6, within_exists(TEST))
SUM_192 = within_exists(SUM_191)
PARTS_OF_192 = "7 0 1 9 0 0 0 0 / " + "14 0 0 9 0 0 0 0 / " * 6 + "7 0 1 9 0 0 0 0 / 4 1 0 9 255 1 255 1"

REFUSALS = (
    # 1
    (TEST, bytes.fromhex("00"), 1),
    (TEST, bytes.fromhex("01 01 00"), 1),
    (TEST, bytes.fromhex("01 01 00 00"), PARTS_OF_TEST),
    (TEST, bytes.fromhex("01 01 00 00 00"), 1),
    # 2
    (TEST, bytes.fromhex(ONE_CELL + "03"), 2),
    (TEST, bytes.fromhex(ONE_CELL + "ff"), 2),
    (TEST, bytes.fromhex(ONE_CELL + "02"), PARTS_OF_TEST),
    (TEST, bytes.fromhex(ONE_CELL + "01"), PARTS_OF_TEST),
    (TEST, bytes.fromhex(ONE_CELL + "00"), PARTS_OF_TEST),
    # 3
    (b" " * 4097, ONE_COLUMN, 3),
    (b" " * 4096, ONE_COLUMN, 6),
    (TEST + b" " * 4092, ONE_COLUMN, 3),
    (TEST + b" " * 4091, ONE_COLUMN, PARTS_OF_TEST),
    # 4
    (b"m.1 = 2147483648", ONE_COLUMN, 4),
    (b"m.1 = 2147483647", ONE_COLUMN, "4 1 0 1 0 1 255 2147483647"),
    (b"m.1 = -2147483648", ONE_COLUMN, "4 1 0 1 0 1 255 -2147483648"),
    (b"m.1 = -2147483649", ONE_COLUMN, 4),
    (b"m.1 = 0000000001", ONE_COLUMN, "4 1 0 1 0 1 255 1"),
    (b"m.1 = 00000000001", ONE_COLUMN, 4),
    (b"m.1 IS DECLINE", ONE_COLUMN, 4),
    (b"m.1 IS DECLINEDS", ONE_COLUMN, 4),
    (b"m.1 ISDECLINED", ONE_COLUMN, 4),
    (b"m.1 IS NOTDECLINED", ONE_COLUMN, 4),
    (b"m.1IS DECLINED", ONE_COLUMN, "16 0 0 1 0 1 0 0"),
    (b"m.1 = !", ONE_COLUMN, 4),
    # 5
    (b"(" * 33, ONE_COLUMN, 5),
    (b"(" * 32, ONE_COLUMN, 6),
    (in_brackets(33), ONE_COLUMN, 5),
    (in_brackets(32), ONE_COLUMN, PARTS_OF_TEST),
    # 6
    (b"", ONE_COLUMN, 6),
    (b"m.1 =", ONE_COLUMN, 6),
    (b"m.1 = 1", ONE_COLUMN, "4 1 0 1 0 1 255 1"),
    (b"m.1 = 1)", ONE_COLUMN, 6),
    (b"(1 = 1) IS TRUE IS TRUE", ONE_COLUMN, 6),
    (b"((1 = 1) IS TRUE) IS TRUE", ONE_COLUMN, "10 0 0 3 0 0 0 0 / 10 0 0 3 0 0 0 0 / 4 1 0 3 255 1 255 1"),
    (b"1 = 1 IS TRUE", ONE_COLUMN, 6),
    (b"(1 = 1) IS TRUE", ONE_COLUMN, "10 0 0 2 0 0 0 0 / 4 1 0 2 255 1 255 1"),
    (b"TRUE", ONE_COLUMN, 6),
    (b"(TRUE) IS TRUE", ONE_COLUMN, 6),
    (within_exists(TEST) + b" IS TRUE", ONE_COLUMN, 6),
    (b"(" + within_exists(TEST) + b") IS TRUE", ONE_COLUMN, "10 0 0 3 0 0 0 0 / 7 0 1 3 0 0 0 0 / 4 1 0 3 255 1 255 1"),
    (b"m.1 IS NULL IS FALSE", ONE_COLUMN, 6),
    (b"(m.1 IS NULL) IS FALSE", ONE_COLUMN, "12 0 0 2 0 0 0 0 / 5 0 0 2 0 1 0 0"),
    (b"m.1 IS UNKNOWN", ONE_COLUMN, 6),
    (b"(m.1) IS UNKNOWN", ONE_COLUMN, 6),
    (b"(1 = 1) IS NULL", ONE_COLUMN, 6),
    (b"(1 = 1) IS NOT NOT TRUE", ONE_COLUMN, 6),
    (b"(1 = 1) NOT IS TRUE", ONE_COLUMN, 6),
    (b"(1 = 1) IS", ONE_COLUMN, 6),
    (b"DECLINED", ONE_COLUMN, 6),
    (b"m.1 DECLINED", ONE_COLUMN, 6),
    (b"m.1 IS DECLINED", ONE_COLUMN, "16 0 0 1 0 1 0 0"),
    (b"m.1 NOT DECLINED", ONE_COLUMN, 6),
    (b"m.1 IS NOT DECLINED", ONE_COLUMN, "17 0 0 1 0 1 0 0"),
    (b"m.1 IS NOT NOT DECLINED", ONE_COLUMN, 6),
    (b"m.1 IS DECLINED NULL", ONE_COLUMN, 6),
    (b"m.1 IS DECLINED IS DECLINED", ONE_COLUMN, 6),
    (b"m.1 IS DECLINED IS TRUE", ONE_COLUMN, 6),
    (b"(m.1 IS DECLINED) IS TRUE", ONE_COLUMN, "10 0 0 2 0 0 0 0 / 16 0 0 2 0 1 0 0"),
    (b"(m.1 IS DECLINED) IS DECLINED", ONE_COLUMN, 6),
    (b"(1 = 1) IS NOT DECLINED", ONE_COLUMN, 6),
    (b"(m.1) IS DECLINED", ONE_COLUMN, 6),
    (b"m.1 = DECLINED", ONE_COLUMN, 6),
    (b"m.1 = 1 IS DECLINED", ONE_COLUMN, 6),
    (within_exists(TEST) + b" IS DECLINED", ONE_COLUMN, 6),
    (within_exists(b"v.1 IS DECLINED"), ONE_COLUMN, "7 0 1 2 0 0 0 0 / 16 0 0 2 1 1 0 0"),
    # 7
    (joined_by_or(33), ONE_COLUMN, 7),
    (joined_by_or(32), ONE_COLUMN, parts_of_32_joined(0)),
    (b"NOT " + joined_by_or(32), ONE_COLUMN, parts_of_32_joined(1)),
    (b"NOT NOT " + joined_by_or(32), ONE_COLUMN, 7),
    (b"NOT " * 63 + TEST, ONE_COLUMN, "3 0 0 64 0 0 0 0 / " * 63 + "4 1 0 64 255 1 255 1"),
    (b"NOT " * 64 + TEST, ONE_COLUMN, 7),
    (b"NOT " * 62 + b"(1 = 1) IS TRUE", ONE_COLUMN, "3 0 0 64 0 0 0 0 / " * 62 + "10 0 0 64 0 0 0 0 / 4 1 0 64 255 1 255 1"),
    (b"NOT " * 63 + b"(1 = 1) IS TRUE", ONE_COLUMN, 7),
    (b"NOT " * 63 + b"m.1 IS DECLINED", ONE_COLUMN, "3 0 0 64 0 0 0 0 / " * 63 + "16 0 0 64 0 1 0 0"),
    (b"NOT " * 64 + b"m.1 IS DECLINED", ONE_COLUMN, 7),
    (under_froms("abc"), ONE_COLUMN, "7 0 1 4 0 0 0 0 / " * 3 + "4 1 0 4 0 1 3 1"),
    (under_froms("abcd"), ONE_COLUMN, 7),
    # 8
    (b"k.1 = 1", ONE_COLUMN, 8),
    (b"EXISTS (FROM 1 k WHERE k.1 = 1)", ONE_COLUMN, "7 0 1 2 0 0 0 0 / 4 1 0 2 1 1 255 1"),
    (b"EXISTS (FROM 1 k WHERE k.1 = 1) AND k.1 = 1", ONE_COLUMN, 8),
    (b"m.0 = 1", ONE_COLUMN, 8),
    (b"m.2 = 1", ONE_COLUMN, 8),
    (b"EXISTS (FROM 2 v WHERE 1 = 1)", ONE_COLUMN, 8),
    (b"EXISTS (FROM 0 v WHERE 1 = 1)", ONE_COLUMN, 8),
    (within_unknowns(7, b"k.1 = 1"), ONE_COLUMN, 8),
    (b"k.1 IS DECLINED", ONE_COLUMN, 8),
    (b"m.2 IS NOT DECLINED", ONE_COLUMN, 8),
    # 13
    (within_unknowns(7), ONE_COLUMN, 13),
    (within_unknowns(6), ONE_COLUMN, "14 0 0 7 0 0 0 0 / " * 6 + "4 1 0 7 255 1 255 1"),
    (within_unknowns(7, b"m.1 IS DECLINED"), ONE_COLUMN, 13),
    (within_unknowns(6, b"m.1 IS NOT DECLINED"), ONE_COLUMN, "14 0 0 7 0 0 0 0 / " * 6 + "17 0 0 7 0 1 0 0"),
    (SUM_191 + b" AND m.1 IS DECLINED", ONE_COLUMN, 13),
    (SUM_192, ONE_COLUMN, PARTS_OF_192),
    (within_exists(SUM_192), ONE_COLUMN, 13),
    (SUM_191 + b" AND 1 = 1", ONE_COLUMN, 13),
    (b"1 NOT IN (SELECT 1 FROM 1 v WHERE " + SUM_191 + b")", ONE_COLUMN, 13),
    (within_unknowns(32), ONE_COLUMN, 13),
    (b"(" * 32 + TEST + b") IS NOT FALSE" * 32, ONE_COLUMN, "13 0 0 33 0 0 0 0 / " * 32 + "4 1 0 33 255 1 255 1"),
)


class WorkedCase(typing.NamedTuple):
    """A rule over the tables of the proved cases, or over those with declined cells: its values on the rows, its parts, and the entries of its card."""
    text: bytes
    values: str
    parts: str
    entries: str


ALL2 = b"(SELECT v.1 FROM 2 v WHERE 1 = 1)"
ALL3 = b"(SELECT v.1 FROM 3 v WHERE 1 = 1)"
CASES = (
    WorkedCase(b"m.2 > 0", "TUF", "4 5 0 1 0 2 255 0", "5 1 0 5 0 2 255 0"),
    WorkedCase(b"NOT m.2 > 0", "FUT", "3 0 0 2 0 0 0 0 / 4 5 0 2 0 2 255 0", "5 1 0 4 0 2 255 0"),
    WorkedCase(b"m.2 > 0 OR NOT m.2 > 0", "TUT", "2 0 0 4 0 0 0 0 / 4 5 0 2 0 2 255 0 / 3 0 0 4 0 0 0 0 / 4 5 0 4 0 2 255 0",
               "2 3 0 0 0 0 0 0 / 5 2 0 5 0 2 255 0 / 5 3 0 4 0 2 255 0"),
    WorkedCase(b"m.2 IS NULL", "FTF", "5 0 0 1 0 2 0 0", "7 1 0 0 0 2 0 0"),
    WorkedCase(b"m.1 IN " + ALL2, "TUU", "8 1 2 2 0 1 1 1 / 4 1 0 2 255 1 255 1",
               "3 4 2 0 0 0 0 0 / 1 4 0 0 0 0 0 0 / 5 3 0 1 255 1 255 1 / 5 4 0 1 0 1 1 1"),
    WorkedCase(b"m.1 NOT IN " + ALL2, "FUU", "9 2 2 2 0 1 1 1 / 4 1 0 2 255 1 255 1",
               "4 4 2 0 0 0 0 0 / 2 4 0 0 0 0 0 0 / 6 3 0 2 255 1 255 1 / 5 4 0 2 0 1 1 1"),
    WorkedCase(b"m.1 <> ALL (SELECT v.1 FROM 2 v WHERE v.1 = 1)", "FTT", "9 2 2 2 0 1 1 1 / 4 1 0 2 1 1 255 1",
               "4 4 2 0 0 0 0 0 / 2 4 0 0 0 0 0 0 / 6 3 0 2 1 1 255 1 / 5 4 0 2 0 1 1 1"),
    WorkedCase(b"m.2 = ALL " + ALL3, "TTT", "9 1 3 2 0 2 1 1 / 4 1 0 2 255 1 255 1",
               "4 4 3 0 0 0 0 0 / 2 4 0 0 0 0 0 0 / 6 3 0 2 255 1 255 1 / 5 4 0 1 0 2 1 1"),
    WorkedCase(b"m.2 = SOME " + ALL3, "FFF", "8 1 3 2 0 2 1 1 / 4 1 0 2 255 1 255 1",
               "3 4 3 0 0 0 0 0 / 1 4 0 0 0 0 0 0 / 5 3 0 1 255 1 255 1 / 5 4 0 1 0 2 1 1"),
    WorkedCase(b"EXISTS (FROM 2 v WHERE v.1 > 1)", "FFF", "7 0 2 2 0 0 0 0 / 4 5 0 2 1 1 255 1", "3 2 2 0 0 0 0 0 / 5 2 0 5 1 1 255 1"),
    WorkedCase(b"NOT EXISTS (FROM 2 v WHERE v.1 > 1)", "TTT", "3 0 0 3 0 0 0 0 / 7 0 2 3 0 0 0 0 / 4 5 0 3 1 1 255 1",
               "4 2 2 0 0 0 0 0 / 6 2 0 4 1 1 255 1"),
    WorkedCase(b"m.1 = SOME (SELECT m.1 FROM 2 m WHERE m.1 = 1)", "TFF", "8 1 2 2 0 1 1 1 / 4 1 0 2 1 1 255 1",
               "3 4 2 0 0 0 0 0 / 1 4 0 0 0 0 0 0 / 5 3 0 1 1 1 255 1 / 5 4 0 1 0 1 1 1"),
)

# truth tests: each of them on true, unknown and false; with NOT before it and in it; around one another, around a list and in one
UNDER_ALL = b"m.2 <= ALL (SELECT k.2 FROM 1 k WHERE (m.2 IS NULL) IS NOT UNKNOWN)"
TRUTH_CASES = (
    WorkedCase(b"(m.2 > 0) IS TRUE", "TFF", "10 0 0 2 0 0 0 0 / 4 5 0 2 0 2 255 0", "5 1 0 5 0 2 255 0"),
    WorkedCase(b"(m.2 > 0) IS NOT TRUE", "FTT", "11 0 0 2 0 0 0 0 / 4 5 0 2 0 2 255 0", "6 1 0 4 0 2 255 0"),
    WorkedCase(b"(m.2 > 0) IS FALSE", "FFT", "12 0 0 2 0 0 0 0 / 4 5 0 2 0 2 255 0", "5 1 0 4 0 2 255 0"),
    WorkedCase(b"(m.2 > 0) IS NOT FALSE", "TTF", "13 0 0 2 0 0 0 0 / 4 5 0 2 0 2 255 0", "6 1 0 5 0 2 255 0"),
    WorkedCase(b"(m.2 > 0) IS UNKNOWN", "FTF", "14 0 0 2 0 0 0 0 / 4 5 0 2 0 2 255 0",
               "1 3 0 0 0 0 0 0 / 6 2 0 4 0 2 255 0 / 6 3 0 5 0 2 255 0"),
    WorkedCase(b"(m.2 > 0) IS NOT UNKNOWN", "TFT", "15 0 0 2 0 0 0 0 / 4 5 0 2 0 2 255 0",
               "2 3 0 0 0 0 0 0 / 5 2 0 5 0 2 255 0 / 5 3 0 4 0 2 255 0"),
    WorkedCase(b"NOT (m.2 > 0) IS FALSE", "TTF", "3 0 0 3 0 0 0 0 / 12 0 0 3 0 0 0 0 / 4 5 0 3 0 2 255 0", "6 1 0 5 0 2 255 0"),
    WorkedCase(b"(NOT m.2 > 0) IS FALSE", "TFF", "12 0 0 3 0 0 0 0 / 3 0 0 3 0 0 0 0 / 4 5 0 3 0 2 255 0", "5 1 0 5 0 2 255 0"),
    WorkedCase(b"NOT (m.2 > 0) IS UNKNOWN", "TFT", "3 0 0 3 0 0 0 0 / 14 0 0 3 0 0 0 0 / 4 5 0 3 0 2 255 0",
               "2 3 0 0 0 0 0 0 / 5 2 0 5 0 2 255 0 / 5 3 0 4 0 2 255 0"),
    WorkedCase(b"((m.2 > 0) IS UNKNOWN) IS UNKNOWN", "FFF", "14 0 0 3 0 0 0 0 / 14 0 0 3 0 0 0 0 / 4 5 0 3 0 2 255 0",
               "1 7 0 0 0 0 0 0 / 2 4 0 0 0 0 0 0 / 5 3 0 5 0 2 255 0 / 5 4 0 4 0 2 255 0 /"
               " 1 7 0 0 0 0 0 0 / 6 6 0 4 0 2 255 0 / 6 7 0 5 0 2 255 0"),
    WorkedCase(b"(m.1 NOT IN " + ALL2 + b") IS UNKNOWN", "FTT", "14 0 0 3 0 0 0 0 / 9 2 2 3 0 1 1 1 / 4 1 0 3 255 1 255 1",
               "1 9 0 0 0 0 0 0 / 3 5 2 0 0 0 0 0 / 1 5 0 0 0 0 0 0 / 5 4 0 1 255 1 255 1 / 6 5 0 1 0 1 1 1 /"
               " 4 9 2 0 0 0 0 0 / 2 9 0 0 0 0 0 0 / 6 8 0 2 255 1 255 1 / 6 9 0 2 0 1 1 1"),
    WorkedCase(UNDER_ALL, "FUU", "9 4 1 3 0 2 1 2 / 15 0 0 3 0 0 0 0 / 5 0 0 3 0 2 0 0",
               "4 6 1 0 0 0 0 0 / 2 6 0 0 0 0 0 0 / 1 5 0 0 0 0 0 0 / 8 4 0 0 0 2 0 0 / 7 5 0 0 0 2 0 0 / 5 6 0 4 0 2 1 2"),
    WorkedCase(b"NOT " + UNDER_ALL, "TUU", "3 0 0 4 0 0 0 0 / 9 4 1 4 0 2 1 2 / 15 0 0 4 0 0 0 0 / 5 0 0 4 0 2 0 0",
               "3 6 1 0 0 0 0 0 / 1 6 0 0 0 0 0 0 / 2 5 0 0 0 0 0 0 / 7 4 0 0 0 2 0 0 / 8 5 0 0 0 2 0 0 / 5 6 0 5 0 2 1 2"),
    WorkedCase(b"(" + UNDER_ALL + b") IS NOT FALSE", "FTT", "13 0 0 4 0 0 0 0 / 9 4 1 4 0 2 1 2 / 15 0 0 4 0 0 0 0 / 5 0 0 4 0 2 0 0",
               "4 6 1 0 0 0 0 0 / 2 6 0 0 0 0 0 0 / 1 5 0 0 0 0 0 0 / 8 4 0 0 0 2 0 0 / 7 5 0 0 0 2 0 0 / 6 6 0 4 0 2 1 2"),
)

# declined cells, over the tables with these: tests of them, of a plain blank and of numbers, under NOT and in truth tests; and that they are blank in every
# other respect
DECLINED_CASES = (
    WorkedCase(b"m.2 IS DECLINED", "FFTF", "16 0 0 1 0 2 0 0", "9 1 0 0 0 2 0 0"),
    WorkedCase(b"m.2 IS NOT DECLINED", "TTFT", "17 0 0 1 0 2 0 0", "10 1 0 0 0 2 0 0"),
    WorkedCase(b"NOT m.2 IS DECLINED", "TTFT", "3 0 0 2 0 0 0 0 / 16 0 0 2 0 2 0 0", "10 1 0 0 0 2 0 0"),
    WorkedCase(b"NOT m.2 IS NOT DECLINED", "FFTF", "3 0 0 2 0 0 0 0 / 17 0 0 2 0 2 0 0", "9 1 0 0 0 2 0 0"),
    WorkedCase(b"m.1 IS DECLINED", "FFFT", "16 0 0 1 0 1 0 0", "9 1 0 0 0 1 0 0"),
    WorkedCase(b"5 IS DECLINED", "FFFF", "16 0 0 1 255 5 0 0", "9 1 0 0 255 5 0 0"),
    WorkedCase(b"2 IS NOT DECLINED", "TTTT", "17 0 0 1 255 2 0 0", "10 1 0 0 255 2 0 0"),
    WorkedCase(b"NOT 2 IS DECLINED", "TTTT", "3 0 0 2 0 0 0 0 / 16 0 0 2 255 2 0 0", "10 1 0 0 255 2 0 0"),
    WorkedCase(b"m.2 IS NULL", "FTTF", "5 0 0 1 0 2 0 0", "7 1 0 0 0 2 0 0"),
    WorkedCase(b"m.2 IS NOT NULL", "TFFT", "6 0 0 1 0 2 0 0", "8 1 0 0 0 2 0 0"),
    WorkedCase(b"m.2 = m.2", "TUUT", "4 1 0 1 0 2 0 2", "5 1 0 1 0 2 0 2"),
    WorkedCase(b"m.2 = 5", "TUUF", "4 1 0 1 0 2 255 5", "5 1 0 1 0 2 255 5"),
    WorkedCase(b"NOT m.2 = 5", "FUUT", "3 0 0 2 0 0 0 0 / 4 1 0 2 0 2 255 5", "5 1 0 2 0 2 255 5"),
    WorkedCase(b"m.1 < m.2", "TUUU", "4 3 0 1 0 1 0 2", "5 1 0 3 0 1 0 2"),
    WorkedCase(b"m.2 IS NULL AND m.2 IS NOT DECLINED", "FTFF", "1 0 0 3 0 0 0 0 / 5 0 0 2 0 2 0 0 / 17 0 0 3 0 2 0 0",
               "1 3 0 0 0 0 0 0 / 7 2 0 0 0 2 0 0 / 10 3 0 0 0 2 0 0"),
    WorkedCase(b"NOT (m.2 IS NULL AND m.2 IS NOT DECLINED)", "TFTT", "3 0 0 4 0 0 0 0 / 1 0 0 4 0 0 0 0 / 5 0 0 3 0 2 0 0 / 17 0 0 4 0 2 0 0",
               "2 3 0 0 0 0 0 0 / 8 2 0 0 0 2 0 0 / 9 3 0 0 0 2 0 0"),
    WorkedCase(b"m.2 IS DECLINED OR m.2 > 0", "TUTF", "2 0 0 3 0 0 0 0 / 16 0 0 2 0 2 0 0 / 4 5 0 3 0 2 255 0",
               "2 3 0 0 0 0 0 0 / 9 2 0 0 0 2 0 0 / 5 3 0 5 0 2 255 0"),
    WorkedCase(b"(m.2 > 0) IS UNKNOWN", "FTTF", "14 0 0 2 0 0 0 0 / 4 5 0 2 0 2 255 0", "1 3 0 0 0 0 0 0 / 6 2 0 4 0 2 255 0 / 6 3 0 5 0 2 255 0"),
    WorkedCase(b"(m.2 IS DECLINED) IS TRUE", "FFTF", "10 0 0 2 0 0 0 0 / 16 0 0 2 0 2 0 0", "9 1 0 0 0 2 0 0"),
    WorkedCase(b"(m.2 IS DECLINED) IS NOT TRUE", "TTFT", "11 0 0 2 0 0 0 0 / 16 0 0 2 0 2 0 0", "10 1 0 0 0 2 0 0"),
    WorkedCase(b"(m.2 IS DECLINED) IS FALSE", "TTFT", "12 0 0 2 0 0 0 0 / 16 0 0 2 0 2 0 0", "10 1 0 0 0 2 0 0"),
    WorkedCase(b"(m.2 IS DECLINED) IS NOT FALSE", "FFTF", "13 0 0 2 0 0 0 0 / 16 0 0 2 0 2 0 0", "9 1 0 0 0 2 0 0"),
    WorkedCase(b"(NOT m.2 IS DECLINED) IS TRUE", "TTFT", "10 0 0 3 0 0 0 0 / 3 0 0 3 0 0 0 0 / 16 0 0 3 0 2 0 0", "10 1 0 0 0 2 0 0"),
    WorkedCase(b"(NOT m.2 IS DECLINED) IS NOT FALSE", "TTFT", "13 0 0 3 0 0 0 0 / 3 0 0 3 0 0 0 0 / 16 0 0 3 0 2 0 0", "10 1 0 0 0 2 0 0"),
    WorkedCase(b"(NOT m.2 IS NOT DECLINED) IS NOT FALSE", "FFTF", "13 0 0 3 0 0 0 0 / 3 0 0 3 0 0 0 0 / 17 0 0 3 0 2 0 0", "9 1 0 0 0 2 0 0"),
    WorkedCase(b"(m.2 IS DECLINED) IS UNKNOWN", "FFFF", "14 0 0 2 0 0 0 0 / 16 0 0 2 0 2 0 0",
               "1 3 0 0 0 0 0 0 / 10 2 0 0 0 2 0 0 / 9 3 0 0 0 2 0 0"),
    WorkedCase(b"(m.2 IS NOT DECLINED) IS NOT UNKNOWN", "TTTT", "15 0 0 2 0 0 0 0 / 17 0 0 2 0 2 0 0",
               "2 3 0 0 0 0 0 0 / 10 2 0 0 0 2 0 0 / 9 3 0 0 0 2 0 0"),
    WorkedCase(b"m.1 IN " + ALL2, "TUUU", "8 1 2 2 0 1 1 1 / 4 1 0 2 255 1 255 1",
               "3 4 2 0 0 0 0 0 / 1 4 0 0 0 0 0 0 / 5 3 0 1 255 1 255 1 / 5 4 0 1 0 1 1 1"),
    WorkedCase(b"m.1 NOT IN (SELECT v.1 FROM 2 v WHERE v.1 IS NOT DECLINED)", "FTTU", "9 2 2 2 0 1 1 1 / 17 0 0 2 1 1 0 0",
               "4 4 2 0 0 0 0 0 / 2 4 0 0 0 0 0 0 / 9 3 0 0 1 1 0 0 / 5 4 0 2 0 1 1 1"),
    WorkedCase(b"m.1 >= ALL (SELECT v.1 FROM 2 v WHERE NOT v.1 IS DECLINED)", "TTTU", "9 6 2 3 0 1 1 1 / 3 0 0 3 0 0 0 0 / 16 0 0 3 1 1 0 0",
               "4 4 2 0 0 0 0 0 / 2 4 0 0 0 0 0 0 / 9 3 0 0 1 1 0 0 / 5 4 0 6 0 1 1 1"),
    WorkedCase(b"m.2 = SOME (SELECT m.1 FROM 2 m WHERE m.1 IS DECLINED)", "UUUU", "8 1 2 2 0 2 1 1 / 16 0 0 2 1 1 0 0",
               "3 4 2 0 0 0 0 0 / 1 4 0 0 0 0 0 0 / 9 3 0 0 1 1 0 0 / 5 4 0 1 0 2 1 1"),
    WorkedCase(b"EXISTS (FROM 2 v WHERE v.1 IS DECLINED AND m.2 IS DECLINED)", "FFTF",
               "7 0 2 4 0 0 0 0 / 1 0 0 4 0 0 0 0 / 16 0 0 3 1 1 0 0 / 16 0 0 4 0 2 0 0",
               "3 4 2 0 0 0 0 0 / 1 4 0 0 0 0 0 0 / 9 3 0 0 1 1 0 0 / 9 4 0 0 0 2 0 0"),
    WorkedCase(b"NOT EXISTS (FROM 2 v WHERE v.1 IS DECLINED AND m.2 IS DECLINED)", "TTFT",
               "3 0 0 5 0 0 0 0 / 7 0 2 5 0 0 0 0 / 1 0 0 5 0 0 0 0 / 16 0 0 4 1 1 0 0 / 16 0 0 5 0 2 0 0",
               "4 4 2 0 0 0 0 0 / 2 4 0 0 0 0 0 0 / 10 3 0 0 1 1 0 0 / 10 4 0 0 0 2 0 0"),
)

# the worked cases with their tables
WORKED = tuple((case, CASE_TABLES) for case in CASES + TRUTH_CASES) + tuple((case, DECLINED_TABLES) for case in DECLINED_CASES)

# the proved cases 1 to 12, the truth tests, the tests of declined cells, the rule of the card that the paper works out, and forms that are not among them
THREE_LEVELS = b"EXISTS (FROM 1 a WHERE a.1 < SOME (SELECT b.1 FROM 2 b WHERE EXISTS (FROM 3 c WHERE c.1 = m.2 AND a.2 > b.1)))"
RULES = tuple((case.text, CASE_COLUMNS, case.parts) for case, _ in WORKED) + (
    (b"NOT m.2 < 5", THREE_COLUMNS, "3 0 0 2 0 0 0 0 / 4 3 0 2 0 2 255 5"),
    (b"1 = 1 OR 2 = 2 OR 3 = 3", ONE_COLUMN,
     "2 0 0 5 0 0 0 0 / 2 0 0 4 0 0 0 0 / 4 1 0 3 255 1 255 1 / 4 1 0 4 255 2 255 2 / 4 1 0 5 255 3 255 3"),
    (b"1 = 1 AND (2 = 2 AND 3 = 3)", ONE_COLUMN,
     "1 0 0 5 0 0 0 0 / 4 1 0 2 255 1 255 1 / 1 0 0 5 0 0 0 0 / 4 1 0 4 255 2 255 2 / 4 1 0 5 255 3 255 3"),
    (b"m.1 IS NOT NULL AND m.2 <= 1 OR 3 >= m.1 AND (m.1 < 1 OR m.2 <> m.1)", CASE_COLUMNS,
     "2 0 0 9 0 0 0 0 / 1 0 0 4 0 0 0 0 / 6 0 0 3 0 1 0 0 / 4 4 0 4 0 2 255 1 /"
     " 1 0 0 9 0 0 0 0 / 4 6 0 6 255 3 0 1 / 2 0 0 9 0 0 0 0 / 4 3 0 8 0 1 255 1 / 4 2 0 9 0 2 0 1"),
    (THREE_LEVELS, CASE_COLUMNS,
     "7 0 1 6 0 0 0 0 / 8 3 2 6 1 1 2 1 / 7 0 3 6 0 0 0 0 / 1 0 0 6 0 0 0 0 / 4 1 0 5 3 1 0 2 / 4 5 0 6 1 2 2 1"),
    (b"NOT (1 = 1) IS FALSE", ONE_COLUMN, "3 0 0 3 0 0 0 0 / 12 0 0 3 0 0 0 0 / 4 1 0 3 255 1 255 1"),
    (b"(1 = 1 OR 2 = 2) IS UNKNOWN AND 3 = 3", ONE_COLUMN,
     "1 0 0 6 0 0 0 0 / 14 0 0 5 0 0 0 0 / 2 0 0 5 0 0 0 0 / 4 1 0 4 255 1 255 1 / 4 1 0 5 255 2 255 2 / 4 1 0 6 255 3 255 3"),
    (b"1 = 1 AND (2 = 2) IS TRUE OR 3 = 3", ONE_COLUMN,
     "2 0 0 6 0 0 0 0 / 1 0 0 5 0 0 0 0 / 4 1 0 3 255 1 255 1 / 10 0 0 5 0 0 0 0 / 4 1 0 5 255 2 255 2 / 4 1 0 6 255 3 255 3"),
)
EXAMPLES = REFUSALS + RULES


def numbers(parts):
    """Parts as they are written above, as the list has them."""
    return tuple(int(number) for number in parts.replace("/", " ").split())


# ---- cards

WORKED_TEXT = b"NOT m.2 < 5"
WORKED_CARD = bytes.fromhex("01 00 01 03 05 01 00 00 06 00 02 00 00 00 FF 05 00 00 00")
DECLINED_TEXT = b"NOT m.2 IS DECLINED"
DECLINED_CARD = bytes.fromhex("01 00 01 03 0A 01 00 00 00 00 02 00 00 00 00 00 00 00 00")
UNKNOWN_TEXT = b"(m.3 > 0) IS UNKNOWN"
UNKNOWN_CARD = bytes.fromhex(
    "03 00 01 03 01 06 06"
    " 03 00 00 00 00 00 00 00 00 00 00 00 00 00"
    " 02 00 00 04 00 03 00 00 00 FF 00 00 00 00"
    " 03 00 00 05 00 03 00 00 00 FF 00 00 00 00")

# rules over the columns of the proved cases, and the entries of their cards: NOT over each connective, over lists and inside them, and numbers at their ends
CARDS = tuple((case.text, case.entries) for case, _ in WORKED) + (
    (b"NOT NOT m.1 = 1", "5 1 0 1 0 1 255 1"),
    (b"NOT (m.1 IS NULL AND NOT m.2 >= 3)", "2 3 0 0 0 0 0 0 / 8 2 0 0 0 1 0 0 / 5 3 0 6 0 2 255 3"),
    (b"NOT (m.1 IS NOT NULL OR m.2 <= m.1)", "1 3 0 0 0 0 0 0 / 7 2 0 0 0 1 0 0 / 5 3 0 5 0 2 0 1"),
    (b"NOT m.1 IN (SELECT v.1 FROM 2 v WHERE v.1 > 1)", "4 4 2 0 0 0 0 0 / 2 4 0 0 0 0 0 0 / 6 3 0 4 1 1 255 1 / 5 4 0 2 0 1 1 1"),
    (b"NOT m.1 NOT IN (SELECT v.1 FROM 2 v WHERE NOT v.1 > 1)", "3 4 2 0 0 0 0 0 / 1 4 0 0 0 0 0 0 / 5 3 0 4 1 1 255 1 / 5 4 0 1 0 1 1 1"),
    (b"m.1 < ALL (SELECT v.1 FROM 2 v WHERE NOT v.1 <> m.1)", "4 4 2 0 0 0 0 0 / 2 4 0 0 0 0 0 0 / 6 3 0 2 1 1 0 1 / 5 4 0 3 0 1 1 1"),
    (b"NOT EXISTS (FROM 3 v WHERE NOT EXISTS (FROM 2 w WHERE w.1 = v.1))", "4 3 3 0 0 0 0 0 / 3 3 2 0 0 0 0 0 / 5 3 0 1 2 1 1 1"),
    (b"-2147483648 < m.1 AND 2147483647 <> -1", "1 3 0 0 0 0 0 0 / 5 2 0 3 255 -2147483648 0 1 / 5 3 0 2 255 2147483647 255 -1"),
    (THREE_LEVELS, "3 8 1 0 0 0 0 0 / 3 8 2 0 0 0 0 0 / 1 8 0 0 0 0 0 0 / 3 7 3 0 0 0 0 0 / 1 7 0 0 0 0 0 0 /"
     " 5 6 0 1 3 1 0 2 / 5 7 0 5 1 2 2 1 / 5 8 0 3 1 1 2 1"),
)


# entries, and the rows that a card of them admits with the tables that have declined cells, or 9: kinds 9 and 10 use the left value alone, as 7 and 8 do
GATE_CARDS = (
    ("9 1 0 0 0 2 0 0", [2]),
    ("10 1 0 0 0 2 0 0", [0, 1, 3]),
    ("9 1 0 0 0 1 0 0", [3]),
    ("9 1 0 0 255 2 0 0", []),
    ("10 1 0 0 255 2 0 0", [0, 1, 2, 3]),
    ("7 1 0 0 0 2 0 0", [1, 2]),
    ("8 1 0 0 0 2 0 0", [0, 3]),
    ("5 1 0 1 0 2 0 2", [0, 3]),
    ("6 1 0 1 0 2 0 2", [0, 1, 2, 3]),
    ("6 1 0 2 0 2 255 5", [1, 2, 3]),
    ("1 3 0 0 0 0 0 0 / 7 2 0 0 0 2 0 0 / 10 3 0 0 0 2 0 0", [1]),
    ("3 2 2 0 0 0 0 0 / 9 2 0 0 1 1 0 0", [0, 1, 2, 3]),
    ("4 2 2 0 0 0 0 0 / 10 2 0 0 1 1 0 0", []),
    # a right value, a comparison, a table
    ("9 1 0 0 0 2 255 5", 9),
    ("9 1 0 0 0 2 255 0", 9),
    ("9 1 0 0 0 2 0 1", 9),
    ("9 1 0 1 0 2 0 0", 9),
    ("9 1 1 0 0 2 0 0", 9),
    ("10 1 0 0 0 2 255 5", 9),
    ("10 1 0 0 0 2 255 0", 9),
    ("10 1 0 0 0 2 0 1", 9),
    ("10 1 0 0 0 2 1 0", 9),
    ("10 1 0 6 0 2 0 0", 9),
    ("10 1 3 0 0 2 0 0", 9),
    # a column or a level that is absent
    ("9 1 0 0 0 0 0 0", 9),
    ("9 1 0 0 0 3 0 0", 9),
    ("10 1 0 0 1 1 0 0", 9),
    ("10 1 0 0 254 1 0 0", 9),
    ("3 2 2 0 0 0 0 0 / 9 2 0 0 1 2 0 0", 9),
    # an inner entry, and ends that do not fit
    ("9 2 0 0 0 2 0 0 / 9 2 0 0 0 2 0 0", 9),
    ("10 1 0 0 0 2 0 0 / 10 2 0 0 0 2 0 0", 9),
    ("10 2 0 0 0 2 0 0", 9),
    ("9 0 0 0 0 2 0 0", 9),
    # no such kind, the kinds of parts among them
    ("11 1 0 0 0 2 0 0", 9),
    ("11 1 0 0 255 2 0 0", 9),
    ("11 1 0 0 0 0 0 0", 9),
    ("12 1 0 0 0 2 0 0", 9),
    ("16 1 0 0 0 2 0 0", 9),
    ("17 1 0 0 0 2 0 0", 9),
    ("0 1 0 0 0 2 0 0", 9),
)


def card(columns, entries):
    """The bytes of a card for tables of these columns, with entries as they are written above."""
    fields = [[int(number) for number in entry.split()] for entry in entries.split("/")]
    head = struct.pack("<HB", len(fields), len(columns)) + bytes(columns)
    kinds = bytes(entry[0] for entry in fields)
    return head + kinds + b"".join(struct.pack("<HBBBiBi", *entry[1:]) for entry in fields)


# ---- comma lines

DECLINED = "declined"
MARKS = {None: 1, DECLINED: 2}  # of the cells that have no number


def table(columns, rows):
    """The bytes of a tables file with one table, with 0 as the value of each blank or declined cell."""
    cells = [cell for row in rows for cell in row]
    values = b"".join(struct.pack("<i", 0 if cell in MARKS else cell) for cell in cells)
    return struct.pack("<BBH", 1, columns, len(rows)) + values + bytes(MARKS.get(cell, 0) for cell in cells)


LOWEST, HIGHEST = -2147483648, 2147483647

IMPORTS = (
    # an empty file has no rows; no line begins after the last line end; the last line perhaps ends in neither
    (b"", 1, []),
    (b"", 16, []),
    (b"\n", 1, [[None]]),
    (b"\r\n", 1, [[None]]),
    (b"\n\n", 1, [[None], [None]]),
    (b"1", 1, [[1]]),
    (b"1\n", 1, [[1]]),
    (b"1\r\n", 1, [[1]]),
    (b"1\n\n", 1, [[1], [None]]),
    (b"1\n\r\n", 1, [[1], [None]]),
    (b"1\n\n2", 1, [[1], [None], [2]]),
    (b"1,2\n3,4\r\n5,6", 2, [[1, 2], [3, 4], [5, 6]]),
    # an empty field is blank
    (b",", 2, [[None, None]]),
    (b",\n", 2, [[None, None]]),
    (b",5\n2,\n", 2, [[None, 5], [2, None]]),
    (b"," * 15 + b"\n", 16, [[None] * 16]),
    # a lone ! is declined
    (b"!", 1, [[DECLINED]]),
    (b"!\n", 1, [[DECLINED]]),
    (b"!\r\n", 1, [[DECLINED]]),
    (b"!\n\n!\r\n5", 1, [[DECLINED], [None], [DECLINED], [5]]),
    (b"!,!", 2, [[DECLINED, DECLINED]]),
    (b",!\n!,\r\n", 2, [[None, DECLINED], [DECLINED, None]]),
    (b"3,!,-4\n", 3, [[3, DECLINED, -4]]),
    (b"!," * 15 + b"!", 16, [[DECLINED] * 16]),
    # numbers as in document 01
    (b"-0,007\r\n,", 2, [[0, 7], [None, None]]),
    (b"0000000001,-0000000001", 2, [[1, -1]]),
    (b"2147483647,-2147483648", 2, [[HIGHEST, LOWEST]]),
    (b"256,65536,16777216,-256", 4, [[256, 65536, 16777216, -256]]),
    # 14: columns not 1 to 16
    (b"", 0, 14),
    (b"", 17, 14),
    (b"1\n", 0, 14),
    (b"," * 16, 17, 14),
    (b"1", 257, 14),
    (b"1", 2 ** 32 + 1, 14),
    (b"1", 2 ** 64 - 1, 14),
    # 14: a wrong field count
    (b"\n", 2, 14),
    (b"1,2\n1", 2, 14),
    (b"1,2\n1,2,3", 2, 14),
    (b"1,2\n\n", 2, 14),
    (b"1,", 1, 14),
    # 14: a bad field; a CR is part of a line end only before its LF
    (b"1\r", 1, 14),
    (b"\r", 1, 14),
    (b"1\r\r\n", 1, 14),
    (b"1\r2\n", 1, 14),
    (b"+1", 1, 14),
    (b"1 ", 1, 14),
    (b" 1", 1, 14),
    (b" ", 1, 14),
    (b"1.0", 1, 14),
    (b'"1"', 1, 14),
    (b"-", 1, 14),
    (b"1-2", 1, 14),
    (b"1;2", 2, 14),
    (b"00000000001", 1, 14),
    (b"12345678901", 1, 14),
    (b"2147483648", 1, 14),
    (b"-2147483649", 1, 14),
    (b"\xef\xbb\xbf1", 1, 14),
    (b"1\0", 1, 14),
    # 14: a ! that is not alone in its field, or in a field too many or too few
    (b"!1", 1, 14),
    (b"1!", 1, 14),
    (b"! ", 1, 14),
    (b" !", 1, 14),
    (b"!!", 1, 14),
    (b"-!", 1, 14),
    (b"!-", 1, 14),
    (b"!-1", 1, 14),
    (b"!0", 1, 14),
    (b"0!", 1, 14),
    (b'"!"', 1, 14),
    (b"!\r", 1, 14),
    (b"\r!", 1, 14),
    (b"!\r\r\n", 1, 14),
    (b"!\0", 1, 14),
    (b"1,!2", 2, 14),
    (b"!!,1\n", 2, 14),
    (b"1,! \r\n", 2, 14),
    (b"!,", 1, 14),
    (b"!", 2, 14),
    (b"!;!", 2, 14),
    (b"!", 0, 14),
    (b"!", 17, 14),
    (b'"', 1, 14),
    (b"#", 1, 14),
    (b"DECLINED", 1, 14),
    (b"\2", 1, 14),
    # 15: over 1,000 rows or 8,192 cells; 14 comes before it, wherever it stands
    (b"1\n" * 1000, 1, [[1]] * 1000),
    (b"\n" * 999 + b"1", 1, [[None]] * 999 + [[1]]),
    (b"1\n" * 1001, 1, 15),
    (b"!\n" * 1000, 1, [[DECLINED]] * 1000),
    (b"!\n" * 1001, 1, 15),
    (b"!\n" * 1001 + b"!!", 1, 14),
    (b"\n" * 1001, 1, 15),
    (b"1\n" * 1000 + b"1", 1, 15),
    (b"1\n" * 1001 + b"x", 1, 14),
    (b"1\n" * 1001 + b"1,2", 1, 14),
    (b"1\n" * 1001, 0, 14),
    (b"\n" * 65537, 1, 15),
    ((b"," * 8 + b"\n") * 910, 9, [[None] * 9] * 910),
    ((b"," * 8 + b"\n") * 911, 9, 15),
    ((b"," * 8 + b"\n") * 911 + b"x", 9, 14),
    ((b"," * 15 + b"\n") * 512, 16, [[None] * 16] * 512),
    ((b"," * 15 + b"\n") * 513, 16, 15),
    ((b"!," * 15 + b"!\r\n") * 512, 16, [[DECLINED] * 16] * 512),
    ((b"!," * 15 + b"!\r\n") * 513, 16, 15),
)

# tables files, and the lines of their table 1 or the number of the refusal
EXPORTS = (
    (table(1, [[LOWEST]]), b"-2147483648\n"),
    (table(1, [[HIGHEST]]), b"2147483647\n"),
    (table(1, [[0]]), b"0\n"),
    (table(1, [[None]]), b"\n"),
    (table(1, []), b""),
    (table(16, []), b""),
    (table(3, [[LOWEST, 0, None], [None, -1, 10]]), b"-2147483648,0,\n,-1,10\n"),
    (CASE_TABLES, b"1,5\n2,\n3,0\n"),
    (CASE_COLUMNS, b""),
    (bytes.fromhex(ONE_CELL + "01"), b"\n"),
    (bytes.fromhex("01 01 01 00 ff ff ff ff 01"), b"\n"),
    (table(1, [[DECLINED]]), b"!\n"),
    (table(3, [[LOWEST, DECLINED, None], [None, -1, DECLINED]]), b"-2147483648,!,\n,-1,!\n"),
    (DECLINED_TABLES, b"1,5\n2,\n3,!\n!,0\n"),
    (bytes.fromhex(ONE_CELL + "02"), b"!\n"),
    (bytes.fromhex("01 01 01 00 ff ff ff ff 02"), b"!\n"),
    (CASE_TABLES[:-1] + b"\2", b"1,5\n2,\n3,0\n"),
    (b"", 1),
    (bytes.fromhex("00"), 1),
    (bytes.fromhex(ONE_CELL), 1),
    (bytes.fromhex(ONE_CELL + "00 00"), 1),
    (bytes.fromhex("01 00 00 00"), 1),
    (bytes.fromhex("01 11 00 00"), 1),
    (bytes.fromhex(ONE_CELL + "03"), 2),
    (bytes.fromhex(ONE_CELL + "ff"), 2),
    (CASE_TABLES[:-1] + b"\3", 2),
    (DECLINED_TABLES[:-1] + b"\3", 2),
)

# a file, and what becomes of it there and back: table 1 alone, with 0 under each blank and declined cell
THERE_AND_BACK = (
    (CASE_TABLES, table(2, [[1, 5], [2, None], [3, 0]])),
    (CASE_COLUMNS, table(2, [])),
    (bytes.fromhex("01 01 01 00 ff ff ff ff 01"), table(1, [[None]])),
    (table(1, [[None], [7], [None]]), table(1, [[None], [7], [None]])),
    (table(16, [[LOWEST] * 16] * 512), table(16, [[LOWEST] * 16] * 512)),
    (table(1, [[None]] * 1000), table(1, [[None]] * 1000)),
    (DECLINED_TABLES, table(2, [[1, 5], [2, None], [3, DECLINED], [DECLINED, 0]])),
    (bytes.fromhex("01 01 01 00 ff ff ff ff 02"), table(1, [[DECLINED]])),
    (table(1, [[DECLINED], [None], [7]]), table(1, [[DECLINED], [None], [7]])),
    (table(16, [[DECLINED] * 16] * 512), table(16, [[DECLINED] * 16] * 512)),
)
