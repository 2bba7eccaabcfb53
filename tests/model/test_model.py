"""Tests of the reference model: document 01's own cases, hand-worked truth tests, comma lines and declined cells,
random rules against SQLite, and random comma lines against the csv module and a regular expression.

Exit status 0 when all agree. The rules without SOME and ALL are given to SQLite token by token, so that its own
grammar, scopes and grouping are compared; those with all forms are given through the model's reading of them. SQLite
has no IS UNKNOWN: IS NULL stands for it there. It has no declined cells either: beside each column there stands one
for the marks, so that IS DECLINED compares a mark with 2, and SQLite itself makes NULL of a value whose mark is not 0.
The csv module judges right comma lines only; the regular expression judges any bytes.
"""
import collections
import csv
import io
import itertools
import random
import re
import sqlite3
import struct
import sys

import cases
import generate
import model

SEED = 20250101
RULES_OF_EACH_SORT = 1500
SUMMED_RULES_OF_EACH_SORT = 250
MISPLACED_TRUTHS = 400
MISPLACED_DECLINEDS = 400
MARKED_RULES = 120
MARKED_CARDS = 200
DRAWN_CHECKS = 2000
COMMA_FILES = 3000
COMMA_CASES_OF_EACH_CALL = 2000
AMPLE_ROOM = 10000
AMPLE_COMMA_ROOM = 100000
SQL_TRUTHS = {None: model.UNKNOWN, 0: model.FALSE, 1: model.TRUE}
SIGN_OF = {number: sign for sign, number in model.COMPARISONS.items()}
SQL_TRUTH_TESTS = {10: "IS TRUE", 11: "IS NOT TRUE", 12: "IS FALSE", 13: "IS NOT FALSE", 14: "IS NULL", 15: "IS NOT NULL"}

# The refusals that occur among the hand-worked answers about declined cells
STATED_REFUSALS = {
    "READ": (2, 3, 4, 5, 6, 7, 8, 13, 12), "JUDGE": (2, 3, 4, 5, 6, 7, 8, 13, 11),
    "CARD": (2, 3, 4, 5, 6, 7, 8, 13, 12), "CHECK": (9,), "RUN": (2, 9), "LIST": (2, 12), "IMPORT": (14, 12),
    "EXPORT": (1, 2, 12)}
# The fields of cells that are not present, by their marks
FIELDS_BY_MARK = {1: b"", 2: b"!"}

CASE_TABLES = generate.tables_file([(2, [[1, 5], [2, None], [3, 0]]), (1, [[1], [None]]), (1, [])])
ALL_OF_2 = "(SELECT v.1 FROM 2 v WHERE 1 = 1)"
ALL_OF_3 = "(SELECT v.1 FROM 3 v WHERE 1 = 1)"

# Proved cases: the values on rows 0, 1 and 2
CASES = [
    ("m.2 > 0", "TUF"),
    ("NOT m.2 > 0", "FUT"),
    ("m.2 > 0 OR NOT m.2 > 0", "TUT"),
    ("m.2 IS NULL", "FTF"),
    ("m.1 IN " + ALL_OF_2, "TUU"),
    ("m.1 NOT IN " + ALL_OF_2, "FUU"),
    ("m.1 <> ALL (SELECT v.1 FROM 2 v WHERE v.1 = 1)", "FTT"),
    ("m.2 = ALL " + ALL_OF_3, "TTT"),
    ("m.2 = SOME " + ALL_OF_3, "FFF"),
    ("EXISTS (FROM 2 v WHERE v.1 > 1)", "FFF"),
    ("NOT EXISTS (FROM 2 v WHERE v.1 > 1)", "TTT"),
    ("m.1 = SOME (SELECT m.1 FROM 2 m WHERE m.1 = 1)", "TFF"),
]

# Truth tests: the values on rows 0, 1 and 2, worked out by hand. `m.2 > 0` is T U F there.
TRUTH_CASES = [
    ("(m.2 > 0) IS TRUE", "TFF"),
    ("(m.2 > 0) IS NOT TRUE", "FTT"),
    ("(m.2 > 0) IS FALSE", "FFT"),
    ("(m.2 > 0) IS NOT FALSE", "TTF"),
    ("(m.2 > 0) IS UNKNOWN", "FTF"),
    ("(m.2 > 0) IS NOT UNKNOWN", "TFT"),
    # under NOT, and with NOT inside
    ("NOT (m.2 > 0) IS TRUE", "FTT"),
    ("NOT (m.2 > 0) IS FALSE", "TTF"),
    ("NOT (m.2 > 0) IS UNKNOWN", "TFT"),
    ("(NOT m.2 > 0) IS TRUE", "FFT"),
    ("(NOT m.2 > 0) IS NOT FALSE", "FTT"),
    ("(NOT m.2 > 0) IS UNKNOWN", "FTF"),
    # with AND and OR
    ("(m.2 > 0) IS UNKNOWN AND m.2 > 0", "FUF"),
    ("(m.2 > 0) IS UNKNOWN OR m.2 > 0", "TTF"),
    ("(m.2 > 0 OR NOT m.2 > 0) IS UNKNOWN", "FTF"),
    ("(m.2 > 0 AND m.1 = 1) IS NOT UNKNOWN", "TTT"),
    # around one another
    ("((m.2 > 0) IS UNKNOWN) IS TRUE", "FTF"),
    ("((m.2 > 0) IS UNKNOWN) IS UNKNOWN", "FFF"),
    ("((m.2 > 0) IS NOT TRUE) IS NOT FALSE", "FTT"),
    ("(((m.2 > 0) IS NOT FALSE) IS FALSE) IS NOT UNKNOWN", "TTT"),
    ("((m.2 > 0) IS UNKNOWN OR m.2 > 0) IS FALSE", "FFT"),
    # around subqueries
    ("(m.1 IN " + ALL_OF_2 + ") IS UNKNOWN", "FTT"),
    ("(m.1 NOT IN " + ALL_OF_2 + ") IS FALSE", "TFF"),
    ("(m.1 NOT IN " + ALL_OF_2 + ") IS NOT FALSE", "FTT"),
    ("(m.2 = ALL " + ALL_OF_3 + ") IS TRUE", "TTT"),
    ("(m.2 = SOME " + ALL_OF_3 + ") IS UNKNOWN", "FFF"),
    ("(EXISTS (FROM 2 v WHERE v.1 = m.1)) IS NOT UNKNOWN", "TTT"),
    ("(EXISTS (FROM 2 v WHERE v.1 = m.1)) IS FALSE", "FTT"),
    # inside a WHERE: the blank row of table 2 is retained or not
    ("EXISTS (FROM 2 v WHERE (v.1 = 1) IS UNKNOWN)", "TTT"),
    ("EXISTS (FROM 2 v WHERE (v.1 = m.1) IS FALSE)", "FTT"),
    ("EXISTS (FROM 2 v WHERE (v.1 = m.1) IS NOT TRUE)", "TTT"),
    ("EXISTS (FROM 2 v WHERE NOT (v.1 = m.1) IS UNKNOWN AND v.1 = m.1)", "TFF"),
    ("m.1 = ALL (SELECT v.1 FROM 2 v WHERE (v.1 = 1) IS NOT UNKNOWN)", "TFF"),
    ("m.1 = ALL (SELECT v.1 FROM 2 v WHERE (v.1 = 1) IS UNKNOWN)", "UUU"),
    ("(m.1 = ALL (SELECT v.1 FROM 2 v WHERE (v.1 = 1) IS UNKNOWN)) IS UNKNOWN", "TTT"),
    ("m.1 <> ALL (SELECT v.1 FROM 2 v WHERE (v.1 = 1) IS NOT FALSE)", "FUU"),
    # a condition that is never unknown, in the WHERE of ALL: all three rows of table 1 are retained, or none
    ("m.1 <> ALL (SELECT k.1 FROM 1 k WHERE (m.2 IS NULL) IS NOT UNKNOWN)", "FFF"),
    ("m.1 <> ALL (SELECT k.1 FROM 1 k WHERE (m.2 IS NULL) IS UNKNOWN)", "TTT"),
    ("NOT m.1 <> ALL (SELECT k.1 FROM 1 k WHERE (m.2 IS NULL) IS NOT UNKNOWN)", "TTT"),
    ("(m.1 <> ALL (SELECT m.2 FROM 1 m WHERE (m.2 IS NULL) IS NOT UNKNOWN)) IS NOT FALSE", "TTT"),
    ("(m.1 <= ALL (SELECT m.2 FROM 1 m WHERE (m.2 IS NULL) IS NOT TRUE)) IS FALSE", "TTT"),
]

# Truth tests: the kinds and the ends of the parts
TRUTH_PARTS = [
    ("(1 = 1) IS TRUE", [10, 4], [2, 2]),
    ("((1 = 1)) IS NOT TRUE", [11, 4], [2, 2]),
    ("((1 = 1) IS FALSE)", [12, 4], [2, 2]),
    ("(1 = 1) IS NOT FALSE", [13, 4], [2, 2]),
    ("(1 = 1) IS UNKNOWN", [14, 4], [2, 2]),
    ("(1 = 1) IS NOT UNKNOWN", [15, 4], [2, 2]),
    ("NOT (1 = 1) IS FALSE", [3, 12, 4], [3, 3, 3]),
    ("(NOT 1 = 1) IS FALSE", [12, 3, 4], [3, 3, 3]),
    ("(1 = 1 OR 2 = 2) IS UNKNOWN AND 3 = 3", [1, 14, 2, 4, 4, 4], [6, 5, 5, 4, 5, 6]),
    ("1 = 1 AND (2 = 2) IS TRUE OR 3 = 3", [2, 1, 4, 10, 4, 4], [6, 5, 3, 5, 5, 6]),
    ("((m.1 IS NULL) IS NOT TRUE) IS NOT UNKNOWN", [15, 11, 5], [3, 3, 3]),
    ("(EXISTS (FROM 2 v WHERE (v.1 = 1) IS UNKNOWN)) IS FALSE", [12, 7, 14, 4], [4, 4, 4, 4]),
]

# Truth tests: the kinds and the comparisons of the card's entries, in hexadecimal
TRUTH_CARDS = [
    ("(m.3 > 0) IS TRUE", "05", "05"),
    ("(m.3 > 0) IS NOT TRUE", "06", "04"),
    ("(m.3 > 0) IS FALSE", "05", "04"),
    ("(m.3 > 0) IS NOT FALSE", "06", "05"),
    ("(m.3 > 0) IS UNKNOWN", "01 06 06", "00 04 05"),
    ("(m.3 > 0) IS NOT UNKNOWN", "02 05 05", "00 05 04"),
    # under NOT
    ("NOT (m.3 > 0) IS TRUE", "06", "04"),
    ("NOT (m.3 > 0) IS FALSE", "06", "05"),
    ("NOT (m.3 > 0) IS UNKNOWN", "02 05 05", "00 05 04"),
    ("(NOT m.3 > 0) IS FALSE", "05", "05"),
    ("(NOT m.3 > 0) IS UNKNOWN", "01 06 06", "00 05 04"),
    # alike in either interpretation around it
    ("((m.3 > 0) IS TRUE) IS NOT FALSE", "05", "05"),
    ("((m.3 > 0) IS NOT FALSE) IS TRUE", "06", "05"),
    ("((m.3 > 0) IS FALSE) IS FALSE", "06", "05"),
    ("((m.3 > 0) IS UNKNOWN) IS NOT FALSE", "01 06 06", "00 04 05"),
    ("((m.3 > 0) IS UNKNOWN) IS UNKNOWN", "01 02 05 05 01 06 06", "00 00 05 04 00 04 05"),
    # in a WHERE, negated under ALL
    ("EXISTS (FROM 1 v WHERE (v.3 > 0) IS UNKNOWN)", "03 01 06 06", "00 00 04 05"),
    ("1 = ALL (SELECT 1 FROM 1 v WHERE (v.3 > 0) IS UNKNOWN)", "04 02 02 05 05 05", "00 00 00 05 04 01"),
    ("1 = ALL (SELECT 1 FROM 1 v WHERE (m.2 IS NULL) IS NOT UNKNOWN)", "04 02 01 08 07 05", "00 00 00 00 00 01"),
    ("(1 = ALL (SELECT 1 FROM 1 v WHERE (v.3 > 0) IS TRUE)) IS NOT FALSE", "04 02 06 06", "00 00 04 01"),
]
# The whole card of `(m.3 > 0) IS UNKNOWN` for one table of 3 columns
UNKNOWN_CARD = bytes.fromhex(
    "03 00 01 03 01 06 06"
    " 03 00 00 00 00 00 00 00 00 00 00 00 00 00"
    " 02 00 00 04 00 03 00 00 00 FF 00 00 00 00"
    " 03 00 00 05 00 03 00 00 00 FF 00 00 00 00")

# Card: the worked card
WORKED_TEXT = b"NOT m.2 < 5"
WORKED_TABLES = generate.tables_file([(3, [[1, 2, 3]])])
WORKED_CARD = bytes.fromhex("01 00 01 03 05 01 00 00 06 00 02 00 00 00 FF 05 00 00 00")


# Comma lines: the columns, and the rows or the refusal
COMMA_TEXTS = [
    # RFC 4180 without quotes: commas between the fields of a line; spaces belong to the fields; no header
    (b"1,2\n3,4\n", 2, [[1, 2], [3, 4]]),
    (b"5\n6\n7\n", 1, [[5], [6], [7]]),
    (b'"1","2"\n', 2, 14),
    (b'1,""\n', 2, 14),
    (b"1, 2\n", 2, 14),
    (b"1 ,2\n", 2, 14),
    (b" \n", 1, 14),
    (b"first,second\n1,2\n", 2, 14),
    # a field is a number as in document 01
    (b"0,-0,00,-000\n", 4, [[0, 0, 0, 0]]),
    (b"007,-0000000007\n", 2, [[7, -7]]),
    (b"-2147483648,2147483647\n", 2, [[-2**31, 2**31 - 1]]),
    (b"2147483648\n", 1, 14),
    (b"-2147483649\n", 1, 14),
    (b"00000000001\n", 1, 14),
    (b"+1\n", 1, 14),
    (b"-\n", 1, 14),
    (b"--1\n", 1, 14),
    (b"1.5\n", 1, 14),
    # or empty for blank
    (b",\n", 2, [[None, None]]),
    (b"1,\n,2\n", 2, [[1, None], [None, 2]]),
    (b",,3", 3, [[None, None, 3]]),
    (b"\n", 1, [[None]]),
    (b"\n\n1\n\n", 1, [[None], [None], [1], [None]]),
    # lines end in LF or CRLF
    (b"1\r\n2\r\n", 1, [[1], [2]]),
    (b"1\n2\r\n3\n", 1, [[1], [2], [3]]),
    (b"1,\r\n,\n", 2, [[1, None], [None, None]]),
    (b"\r\n\n\r\n", 1, [[None], [None], [None]]),
    (b"1\r2\n", 1, 14),
    (b"1\r\r\n", 1, 14),
    (b"\r\r\n", 1, 14),
    (b"1\n\r2\n", 1, 14),
    # the last perhaps in neither
    (b"1", 1, [[1]]),
    (b"1\n2", 1, [[1], [2]]),
    (b"1,2\r\n3,", 2, [[1, 2], [3, None]]),
    (b",", 2, [[None, None]]),
    (b"1\r", 1, 14),
    (b"1\n\r", 1, 14),
    (b"\r", 1, 14),
    # no line begins after the last line end
    (b"1,2\n", 2, [[1, 2]]),
    (b"1\n", 1, [[1]]),
    (b"1\n\n", 1, [[1], [None]]),
    (b"1,2\n\n", 2, 14),
    # an empty file has no rows
    (b"", 1, []),
    (b"", 2, []),
    (b"", 16, []),
    # the column count is named by the caller
    (b"1,2,3\n", 3, [[1, 2, 3]]),
    (b"1,2,3\n", 2, 14),
    (b"1,2,3\n", 4, 14),
    (b"1,2\n3\n", 2, 14),
    (b"1,2\n3,4,5\n", 2, 14),
    (b"1,2\n3,4\n5,6,", 2, 14),
    (b"1,2,3,4\n", 2, 14),
    (b"1\n2\n", 2, 14),
    (b"," * 15, 16, [[None] * 16]),
    (b"", 0, 14),
    (b"", 17, 14),
    (b"\n", 0, 14),
    (b"," * 16, 17, 14),
    (b"1", 257, 14),
    (b"1", 2**64 + 1, 14),
    (b"1", -1, 14),
    # a declined cell is a lone !
    (b"!\n", 1, [[model.DECLINED_CELL]]),
    (b"1,!\r\n!,\n,!", 2, [[1, model.DECLINED_CELL], [model.DECLINED_CELL, None], [None, model.DECLINED_CELL]]),
    (b"!!\n", 1, 14),
    (b"!1\n", 1, 14),
    (b"-!\n", 1, 14),
    (b"! \n", 1, 14),
]

# Comma lines with the columns and all the bytes of the tables file
IMPORTED_BYTES = [
    (b"", 3, "01 03 00 00"),
    (b"\n", 1, "01 01 01 00 00 00 00 00 01"),
    (b"-0", 1, "01 01 01 00 00 00 00 00 00"),
    (b"1,\r\n5,-2\n", 2, "01 02 02 00 01 00 00 00 00 00 00 00 05 00 00 00 FE FF FF FF 00 01 00 00"),
    (b"-2147483648,,0000065538", 3, "01 03 01 00 00 00 00 80 00 00 00 00 02 00 01 00 00 01 00"),
    (b"!,7\n", 2, "01 02 01 00 00 00 00 00 07 00 00 00 02 00"),
]

# Tables files, and the comma lines of their table 1
EXPORTED_TEXTS = [
    ("01 03 00 00", b""),
    ("01 01 01 00 07 00 00 00 00", b"7\n"),
    ("01 01 01 00 07 00 00 00 01", b"\n"),
    ("01 02 01 00 00 00 00 00 FF FF FF FF 00 00", b"0,-1\n"),
    ("01 01 02 00 00 00 00 80 FF FF FF 7F 00 00", b"-2147483648\n2147483647\n"),
    ("01 02 02 00 0A 00 00 00 64 00 00 00 05 00 00 00 06 00 00 00 00 00 01 00", b"10,100\n,6\n"),
    ("02 01 01 00 01 01 00 03 00 00 00 04 00 00 00 00 00", b"3\n"),
    ("02 01 00 00 01 01 00 04 00 00 00 00", b""),
    ("01 03 01 00 01 00 00 00 01 00 00 00 01 00 00 00 01 01 01", b",,\n"),
    ("01 03 01 00 01 00 00 00 01 00 00 00 01 00 00 00 02 00 01", b"!,1,\n"),
]


class Disagreement(Exception):
    """Two answers that ought to be the same."""


def same(what, got, wanted):
    """Refuses two answers that differ."""
    if got != wanted:
        raise Disagreement(f"{what}\n  got    {got}\n  wanted {wanted}")


# ---- document 01's own cases

def test_proved_cases():
    """The twelve cases."""
    compare_tabulated(CASES)


def compare_tabulated(tabulated):
    """Cases with their values, judged on each row and listed by their cards."""
    names = {"T": model.TRUE, "U": model.UNKNOWN, "F": model.FALSE}
    for written, letters in tabulated:
        text = written.encode()
        wanted = [names[letter] for letter in letters]
        same(written, truths_by_model(text, CASE_TABLES), wanted)
        sheet = model.card(text, CASE_TABLES, AMPLE_ROOM)
        true_rows = [row for row, truth in enumerate(wanted) if truth == model.TRUE]
        same(f"CHECK of {written}", model.check(sheet), model.SOUND)
        same(f"LIST of {written}", model.list_rows(sheet, CASE_TABLES, 3), true_rows)


def test_worked_card():
    """The worked card, and its buffer one byte too short."""
    same("the worked card", model.card(WORKED_TEXT, WORKED_TABLES, 19), WORKED_CARD)
    same("18 bytes", model.card(WORKED_TEXT, WORKED_TABLES, 18), model.Refused(12))
    part = model.Part(4, 3, 0, 2, model.TaggedValue(0, 2), model.TaggedValue(255, 5))
    negation = model.Part(3, 0, 0, 2, model.UNUSED, model.UNUSED)
    same("the worked parts", model.read(WORKED_TEXT, WORKED_TABLES, 2), [negation, part])


def refusal_of(answer):
    """The number that a call refuses with, or None."""
    return answer.number if isinstance(answer, model.Refused) else None


def read_refusal(text, file=CASE_TABLES):
    """The number that READ refuses with, or None."""
    return refusal_of(model.read(text, file, AMPLE_ROOM))


def test_refusal_table():
    """The small examples of the refusal table, and the other side of some of them."""
    three_rows = generate.tables_file([(2, [[0, 0]] * 3)])
    examples = [
        (1, read_refusal(b"1 = 1", b"\x00")),
        (2, read_refusal(b"1 = 1", bytes.fromhex("01 01 01 00 00 00 00 00 03"))),
        (None, read_refusal(b"1 = 1", bytes.fromhex("01 01 01 00 00 00 00 00 02"))),
        (3, read_refusal(b" " * 4097)),
        (6, read_refusal(b" " * 4096)),
        (4, read_refusal(b"m.1 = 2147483648")),
        (None, read_refusal(b"m.1 = 2147483647")),
        (5, read_refusal(b"(" * 33)),
        (6, read_refusal(b"(" * 32)),
        (6, read_refusal(b")" + b"(" * 33)),
        (6, read_refusal(b"")),
        (6, read_refusal(b"m.1 =")),
        (7, read_refusal(b" OR ".join([b"1 = 1"] * 33))),
        (None, read_refusal(b" OR ".join([b"1 = 1"] * 32))),
        (8, read_refusal(b"k.1 = 1")),
        (8, read_refusal(b"m.-1 = 1")),
        (9, refusal_of(model.check(b"\x00\x00"))),
        (10, refusal_of(model.run(WORKED_CARD, three_rows, 0))),
        (11, refusal_of(model.judge(b"1 = 1", three_rows, 3))),
        (12, refusal_of(model.card(WORKED_TEXT, WORKED_TABLES, 18))),
    ]
    for place, (wanted, got) in enumerate(examples):
        same(f"example {place} of the refusal table", got, wanted)


# ---- truth tests

def test_truth_values():
    """The hand-worked values of truth tests."""
    compare_tabulated(TRUTH_CASES)


def test_truth_parts():
    """The parts of truth tests: kind and end, and 0 in all other fields of kinds 10 to 15."""
    for written, kinds, ends in TRUTH_PARTS:
        parts = model.read(written.encode(), CASE_TABLES, len(kinds))
        same(f"kinds of {written}", [part.kind for part in parts], kinds)
        same(f"ends of {written}", [part.end for part in parts], ends)
        for part in parts:
            if part.kind in range(10, 16):
                same(f"fields of {written}", part, model.Part(part.kind, 0, 0, part.end, model.UNUSED, model.UNUSED))
        same(f"READ of {written}, no room", model.read(written.encode(), CASE_TABLES, len(kinds) - 1), model.Refused(12))


def test_truth_cards():
    """The cards of truth tests, by kinds and comparisons, and one of them byte by byte."""
    for written, kinds, comparisons in TRUTH_CARDS:
        sheet = model.card(written.encode(), WORKED_TABLES, AMPLE_ROOM)
        _, records = model.sound_card(sheet)
        same(f"kinds of the card of {written}", bytes(record.kind for record in records), bytes.fromhex(kinds))
        same(f"comparisons of the card of {written}", bytes(record.comparison for record in records), bytes.fromhex(comparisons))
    same("the card of IS UNKNOWN", model.card(b"(m.3 > 0) IS UNKNOWN", WORKED_TABLES, AMPLE_ROOM), UNKNOWN_CARD)


def reading_refusals(text):
    """What READ refuses with, JUDGE on row 99, and CARD with no room."""
    answers = (model.read(text, CASE_TABLES, AMPLE_ROOM), model.judge(text, CASE_TABLES, 99), model.card(text, CASE_TABLES, 0))
    return tuple(refusal_of(answer) for answer in answers)


def test_stated_sums():
    """Sums of entries that are worked out by hand: 13 over 192, and up to there a card of so many entries."""
    for text, total in cases.STATED_SUMS:
        same(f"READ of {text!r}", read_refusal(text), None if total <= 192 else 13)
        same(f"refusals of {text!r}", reading_refusals(text), (None, 11, 12) if total <= 192 else (13, 13, 13))
        if total <= 192:
            length = 3 + 3 + 15 * total
            same(f"length of the card of {text!r}", len(model.card(text, CASE_TABLES, length)), length)
            same(f"{text!r}, a byte less", model.card(text, CASE_TABLES, length - 1), model.Refused(12))


def test_truth_refusals():
    """The order of 13 and the others, the limits of parts and brackets, and what no truth test may follow."""
    seven = cases.nested_truths(7)
    examples = [
        (13, seven),
        (8, cases.nested_truths(7, b"k.1 = 1")),
        (8, cases.nested_truths(32, b"m.3 = 1")),
        (13, seven + b" OR 1=1" * 28),
        (7, seven + b" OR 1=1" * 29),
        (7, b"EXISTS (FROM 1 a WHERE " * 4 + seven + b")" * 4),
        (6, seven + b" OR"),
        (5, cases.nested_truths(33)),
        (4, seven + b" @"),
        (3, seven + b" " * 4096),
        (None, b"NOT " * 62 + b"(1=1) IS TRUE"),
        (7, b"NOT " * 63 + b"(1=1) IS TRUE"),
        (6, b"(1 = 1) IS TRUE IS TRUE"),
        (None, b"((1 = 1) IS TRUE) IS TRUE"),
        (6, b"1 = 1 IS TRUE"),
        (6, b"TRUE"),
        (6, b"EXISTS (FROM 2 v WHERE 1 = 1) IS TRUE"),
        (None, b"(EXISTS (FROM 2 v WHERE 1 = 1)) IS TRUE"),
        (6, b"m.1 IN (SELECT 1 FROM 2 v WHERE 1 = 1) IS TRUE"),
        (6, b"m.1 IS UNKNOWN"),
        (6, b"(m.1) IS UNKNOWN"),
        (6, b"(1 = 1) IS NULL"),
        (6, b"(1 = 1) IS NOT NOT TRUE"),
        (6, b"(1 = 1) IS"),
        (4, b"(1 = 1) ISTRUE"),
        (None, b"(1=1)IS TRUE"),
    ]
    for wanted, text in examples:
        same(f"READ of {text!r}", read_refusal(text), wanted)
    same("seven truth tests, wrong sizes", read_refusal(seven, b"\x00"), 1)
    same("seven truth tests, a wrong mark", read_refusal(seven, bytes.fromhex("01 01 01 00 00 00 00 00 03")), 2)


def test_misplaced_truths():
    """Random texts with one fault about a truth test, and nothing else wrong before 7."""
    refuse_misplaced("misplaced", MISPLACED_TRUTHS, generate.misplaced_truth, "a truth test")


def refuse_misplaced(seed, count, misplaced, name):
    """Draws texts with one fault each, which are refused with 6."""
    draw = random.Random(f"{SEED} {seed}")
    for _ in range(count):
        file = generate.random_tables(draw)
        tokens = misplaced(draw, model.tables_of(file).columns)
        text = generate.spaced(draw, tokens)
        same(f"READ of {text!r}", read_refusal(text, file), 6)
    print(f"model: {count} texts with a fault about {name}: refused with 6")


def test_refusal_sets():
    """Several refusals at once: the first in the order of each call is given."""
    draw = random.Random(f"{SEED} sets")
    for call, refusals in cases.REFUSALS_OF.items():
        if call == "CHECK":
            continue
        for _ in range(40):
            applying = [refusal for refusal in refusals if draw.random() < .4]
            wanted = applying[0] if applying else None
            got = refusal_of(cases.answer_of(cases.refusal_set_case(call, applying)))
            same(f"{call} where {applying} apply", got, wanted)


# ---- declined cells

def test_stated_declined():
    """The hand-worked answers about declined cells, with the whole buffers."""
    seen = Seen()
    for case, wanted in cases.stated_declined():
        same(f"{case}", cases.expected(case), wanted)
        seen.add("case", [f"{case.call} {cases.outcome_of(case, wanted)}"])
    for call, refusals in STATED_REFUSALS.items():
        seen.demand("case", [f"{call} refused {number}" for number in refusals])
    seen.demand("case", [f"JUDGE given {truth}" for truth in (model.TRUE, model.FALSE, model.UNKNOWN)])
    seen.demand("case", ["RUN given True", "RUN given False", "CHECK given sound"])
    seen.demand("case", [f"{call} given" for call in cases.LENDING_CALLS])
    print(f"model: {len(cases.stated_declined())} answers about declined cells: as worked out by hand")


def test_misplaced_declineds():
    """Random texts with one fault about the word DECLINED, and nothing else wrong before 7."""
    refuse_misplaced("misplaced declined", MISPLACED_DECLINEDS, generate.misplaced_declined, "DECLINED")


def answers_of_rule(text, file):
    """All that READ, CARD and JUDGE say about a rule with a file."""
    answers = [model.read(text, file, AMPLE_ROOM), model.card(text, file, AMPLE_ROOM)]
    return answers + truths_by_model(text, file)


def answers_of_card(sheet, file):
    """All that LIST and RUN say about a card with a file."""
    row_count = struct.unpack_from("<H", file, 2)[0]
    return [model.list_rows(sheet, file, AMPLE_ROOM)] + [model.run(sheet, file, row) for row in range(row_count)]


def drawn_marked_rule(draw, declined):
    """A tables file with blank and declined cells and with rows in table 1, and an accepted rule."""
    while True:
        file = generate.random_tables(draw, counts=(1, 2, 3))
        columns = model.tables_of(file).columns
        maker = generate.RuleMaker(draw, columns, even=True, truths=draw.choice([0, .1, .3]), declined=declined)
        text = generate.spaced(draw, maker.rule(draw.choice([1, 1, 2, 3, 4])))
        has_rows = struct.unpack_from("<H", file, 2)[0] > 0
        if has_rows and 2 in file[generate.marks_at(file):] and read_refusal(text, file) is None:
            return file, text


def drawn_marked_card(draw, value_kinds):
    """A tables file with declined cells and with rows in table 1, and a sound card of its columns."""
    while True:
        file = generate.random_tables(draw, counts=(1, 2, 3))
        if struct.unpack_from("<H", file, 2)[0] > 0 and 2 in file[generate.marks_at(file):]:
            return file, generate.random_card(draw, model.tables_of(file).columns, 0, value_kinds)


def test_declined_as_blank():
    """With every mark 2 turned into 1, no answer changes of a rule without the two tests or a card without 9 and 10.

    Of those with them, some answers change and some do not.
    """
    draw = random.Random(f"{SEED} as blank")
    seen = Seen()
    for declined in (0, .7):
        for _ in range(MARKED_RULES):
            file, text = drawn_marked_rule(draw, declined)
            compare_as_blank(seen, answers_of_rule, text, file, "rule", b"DECLINED" in text)
    for value_kinds in ((7, 8), (7, 8, 9, 10)):
        for _ in range(MARKED_CARDS):
            file, sheet = drawn_marked_card(draw, value_kinds)
            kinds = sheet[3 + sheet[2]:3 + sheet[2] + sheet[0]]
            compare_as_blank(seen, answers_of_card, sheet, file, "card", 9 in kinds or 10 in kinds)
    for sort in ("rule", "card"):
        seen.demand("as blank", [f"{sort} without: same", f"{sort} with: same", f"{sort} with: other"])
    print(f"model: declined cells made blank\n  {seen.report('as blank')}")


def compare_as_blank(seen, answers, source, file, sort, with_declined):
    """One rule or card on a file, and on the same with every mark 2 turned into 1."""
    blanked = generate.with_marks(file, {2: 1})
    before, after = answers(source, file), answers(source, blanked)
    if not with_declined:
        same(f"{sort} {source!r} with {file.hex(' ')}, declined cells made blank", after, before)
    changed = "same" if after == before else "other"
    seen.add("as blank", [f"{sort} {'with' if with_declined else 'without'}: {changed}"])


def test_idle_values():
    """The value bytes of blank and declined cells affect no answer of any call."""
    draw = random.Random(f"{SEED} idle values")
    for _ in range(MARKED_RULES):
        file, text = drawn_marked_rule(draw, .4)
        sheet = generate.random_card(draw, model.tables_of(file).columns)
        other = generate.with_other_values(draw, file)
        same(f"{text!r} with {other.hex(' ')}", answers_of_rule(text, other), answers_of_rule(text, file))
        lines = model.export_lines(file, AMPLE_COMMA_ROOM)
        same(f"EXPORT of {other.hex(' ')}", model.export_lines(other, AMPLE_COMMA_ROOM), lines)
        for card in (sheet, model.card(text, file, AMPLE_ROOM)):
            what = f"card {card.hex(' ')} with {other.hex(' ')}"
            same(what, answers_of_card(card, other), answers_of_card(card, file))
    print(f"model: {MARKED_RULES} rules and cards with other values in blank and declined cells: the same answers")


def test_never_unknown():
    """IS DECLINED and IS NOT DECLINED of each cell of table 1 and of numbers: by the mark, and never unknown."""
    draw = random.Random(f"{SEED} never unknown")
    seen = Seen()
    for _ in range(MARKED_RULES):
        file, _ = drawn_marked_rule(draw, 0)
        columns, row_count = struct.unpack_from("<BH", file, 1)
        column, row = draw.randint(1, columns), draw.randrange(row_count)
        mark = file[generate.marks_at(file) + columns * row + column - 1]
        number = generate.number_token(draw)
        for value, declined in ((f"m.{column}", mark == 2), (number, False)):
            compare_value_tests(file, row, value, declined)
        seen.add("mark", [mark])
    seen.demand("mark", [0, 1, 2])
    print(f"model: {MARKED_RULES} cells and numbers tested with IS DECLINED: never unknown")
    print(f"  mark: {seen.report('mark')}")


def compare_value_tests(file, row, value, declined):
    """The two tests of a value that is declined or not, alone, under NOT and in truth tests."""
    for test, holds in ((f"{value} IS DECLINED", declined), (f"{value} IS NOT DECLINED", not declined)):
        around = {test: holds, f"NOT {test}": not holds, f"({test}) IS UNKNOWN": False, f"({test}) IS NOT FALSE": holds}
        for text, wanted in around.items():
            what = f"{text} on row {row} of {file.hex(' ')}"
            same(what, model.judge(text.encode(), file, row), model.TRUE if wanted else model.FALSE)
            sheet = model.card(text.encode(), file, AMPLE_ROOM)
            same(f"RUN of {what}", model.run(sheet, file, row), wanted)


def judged_entry(sheet, number, columns, around):
    """The number of the entry after this one of a card and its inner ones, by struct; None where the card is not sound.

    `around`: the tables of the rows, by level.
    """
    count, table_count = struct.unpack_from("<HB", sheet)
    if number >= count:
        return None
    kind = sheet[3 + table_count + number]
    place = 3 + table_count + count + 14 * number
    end, table, comparison, left_tag, left, right_tag, right = struct.unpack_from("<HBBBiBi", sheet, place)
    used = {1: "", 2: "", 3: "t", 4: "t", 5: "clr", 6: "clr", 7: "l", 8: "l", 9: "l", 10: "l"}.get(kind)

    def fits(tag, column):
        return tag == 255 or tag < len(around) and 1 <= column <= columns[around[tag] - 1]

    if used is None or ("t" not in used and table != 0) or ("c" not in used and comparison != 0):
        return None
    if not (fits(left_tag, left) if "l" in used else left_tag == left == 0):
        return None
    if not (fits(right_tag, right) if "r" in used else right_tag == right == 0):
        return None
    if "c" in used and comparison not in range(1, 7):
        return None
    if "t" in used and (table not in range(1, table_count + 1) or len(around) > 3):
        return None
    after = number + 1
    for _ in range({1: 2, 2: 2, 3: 1, 4: 1}.get(kind, 0)):
        after = after and judged_entry(sheet, after, columns, around + [table] if kind in (3, 4) else around)
    return after if after == end else None


def judged_check(sheet):
    """Whether a card is sound, by its layout alone."""
    if len(sheet) < 3:
        return False
    count, table_count = struct.unpack_from("<HB", sheet)
    columns = list(sheet[3:3 + table_count])
    if not 1 <= count <= 192 or not 1 <= table_count <= 8 or len(sheet) != 3 + table_count + 15 * count:
        return False
    return all(1 <= number <= 16 for number in columns) and judged_entry(sheet, 0, columns, [1]) == count


def test_drawn_cards():
    """Cards drawn right and damaged, and the targeted ones: CHECK as judged, each kind in sound and refused cards."""
    draw = random.Random(f"{SEED} cards")
    seen = Seen()
    chosen = [cases.drawn(draw, "CHECK").source for _ in range(DRAWN_CHECKS)]
    chosen += [case.source for case in cases.card_byte_cases() + cases.card_limit_cases()]
    for _ in range(DRAWN_CHECKS // 10):
        sheet = generate.random_card(draw, [2, 1, 3])
        chosen += [sheet, generate.damaged_value_entry(draw, sheet)]
    for sheet in chosen:
        sound = judged_check(sheet)
        same(f"CHECK of {sheet.hex(' ')}", model.check(sheet), model.SOUND if sound else model.Refused(9))
        kinds = set(sheet[3 + sheet[2]:3 + sheet[2] + sheet[0]]) if len(sheet) > 2 else set()
        seen.add("kind", [f"{kind} {'sound' if sound else 'refused'}" for kind in kinds & set(range(12))])
    seen.demand("kind", [f"{kind} {result}" for kind in range(1, 11) for result in ("sound", "refused")])
    seen.demand("kind", ["0 refused", "11 refused"])
    print(f"model: {len(chosen)} cards checked: as judged\n  {seen.report('kind')}")


# ---- comma lines: worked by hand

def single_table(columns, rows):
    """The tables file of one table, with 0 under each blank or declined cell."""
    cells = [cell for row in rows for cell in row]
    marks = [1 if cell is None else 2 if cell == model.DECLINED_CELL else 0 for cell in cells]
    values = struct.pack(f"<{len(cells)}i", *(0 if mark else cell for cell, mark in zip(cells, marks)))
    return struct.pack("<BBH", 1, columns, len(rows)) + values + bytes(marks)


def test_comma_texts():
    """Comma lines with their rows or their refusal, and the room exactly enough, a byte short, and none."""
    for lines, columns, wanted in COMMA_TEXTS:
        what = f"IMPORT of {lines!r} with {columns} columns"
        if wanted == 14:
            same(what, [model.import_lines(lines, columns, room) for room in (0, AMPLE_COMMA_ROOM)], [model.Refused(14)] * 2)
            continue
        answer = single_table(columns, wanted)
        same(what, model.import_lines(lines, columns, len(answer)), answer)
        same(f"{what}, a byte short", model.import_lines(lines, columns, len(answer) - 1), model.Refused(12))
        same(f"{what}, no room", model.import_lines(lines, columns, 0), model.Refused(12))


def test_comma_bytes():
    """Tables files and comma lines byte by byte, both ways."""
    for lines, columns, written in IMPORTED_BYTES:
        same(f"IMPORT of {lines!r}", model.import_lines(lines, columns, AMPLE_COMMA_ROOM), bytes.fromhex(written))
    for written, lines in EXPORTED_TEXTS:
        file = bytes.fromhex(written)
        same(f"EXPORT of {written}", model.export_lines(file, len(lines)), lines)
        if lines:
            same(f"EXPORT of {written}, a byte short", model.export_lines(file, len(lines) - 1), model.Refused(12))


def test_comma_numbers():
    """A field of each length: up to ten digits within the range, with and without a minus."""
    for number in (0, 1, 9, 10, 2**31 - 1, 2**31, 2**31 + 1, 2**32, 2**32 + 1, 10**9, 10**10 - 1, 10**10, 2**64 + 1):
        for sign, length in itertools.product((1, -1), range(1, 14)):
            digits = str(number).zfill(length)
            field = ("-" * (sign < 0) + digits).encode()
            fits = len(digits) <= 10 and -2**31 <= sign * number <= 2**31 - 1
            for lines, columns, rows in ((field, 1, [[sign * number]]), (b"1,%s,\r\n" % field, 3, [[1, sign * number, None]])):
                wanted = single_table(columns, rows) if fits else model.Refused(14)
                same(f"IMPORT of {lines!r}", model.import_lines(lines, columns, AMPLE_COMMA_ROOM), wanted)


def test_comma_refusals():
    """14, then 15, then 12, and for EXPORT 1, then 2, then 12: each over the whole input."""
    many, much = b"\n" * 1001, (b"," * 15 + b"\n") * 513
    over = bytes.fromhex("01 01 01 00 00 00 00 00 03")
    examples = [
        (None, model.import_lines(b"\n" * 1000, 1, 5004)),
        (12, model.import_lines(b"\n" * 1000, 1, 5003)),
        (15, model.import_lines(many, 1, 5009)),
        (15, model.import_lines(many, 1, 0)),
        (14, model.import_lines(many + b"x", 1, 0)),
        (14, model.import_lines(b"x" + many, 1, 0)),
        (14, model.import_lines(many + b",", 1, 5014)),
        (14, model.import_lines(many, 2, 0)),
        (14, model.import_lines(many, 0, 0)),
        (14, model.import_lines(many, 17, 0)),
        (15, model.import_lines(much, 16, 0)),
        (14, model.import_lines(much + b"\n", 16, 0)),
        (14, model.import_lines(much, 15, 0)),
        (14, model.import_lines(b"x", 1, 0)),
        (12, model.import_lines(b"", 16, 3)),
        (None, model.import_lines(b"", 16, 4)),
        (1, model.export_lines(b"", 0)),
        (1, model.export_lines(over + b"\0", 0)),
        (2, model.export_lines(over, 0)),
        (2, model.export_lines(bytes.fromhex("02 01 00 00 01 01 00 00 00 00 00 03"), 0)),
        (12, model.export_lines(over[:-1] + b"\0", 1)),
        (12, model.export_lines(over[:-1] + b"\1", 0)),
        (None, model.export_lines(over[:-1] + b"\1", 1)),
        (12, model.export_lines(over[:-1] + b"\2", 1)),
        (None, model.export_lines(over[:-1] + b"\2", 2)),
        (None, model.import_lines(b"!\n" * 1000, 1, 5004)),
        (12, model.import_lines(b"!\n" * 1000, 1, 5003)),
        (15, model.import_lines(b"!\n" * 1001, 1, 0)),
        (14, model.import_lines(b"!\n" * 1001 + b"!1", 1, 0)),
        (None, model.export_lines(b"\1\1\0\0", 0)),
    ]
    for place, (wanted, got) in enumerate(examples):
        same(f"example {place} of comma refusals", refusal_of(got), wanted)


# ---- comma lines: judged by a regular expression and by struct

def matched_rows(lines, columns):
    """The rows of comma lines, by one regular expression for the whole of them; None where it does not match or a number is beyond the range."""
    if columns not in range(1, 17):
        return None
    line = b",".join([rb"(?:-?[0-9]{1,10}|!)?"] * columns)
    if not re.fullmatch(rb"(?:%s\r?\n)*(?:(?!\Z)%s)?" % (line, line), lines):
        return None
    rows = [[cell_in(field) for field in one.split(b",")] for one in lines.splitlines()]
    numbers = [cell for row in rows for cell in row if isinstance(cell, int)]
    return rows if all(-2**31 <= number < 2**31 for number in numbers) else None


def cell_in(field):
    """The cell of a right field, which is text or bytes."""
    if not field:
        return None
    return model.DECLINED_CELL if field in ("!", b"!") else int(field)


def judged_import(lines, columns, room):
    """What IMPORT has to answer."""
    rows = matched_rows(lines, columns)
    if rows is None:
        return model.Refused(14)
    if len(rows) > 1000 or columns * len(rows) > 8192:
        return model.Refused(15)
    answer = single_table(columns, rows)
    return answer if len(answer) <= room else model.Refused(12)


def judged_export(file, room):
    """What EXPORT has to answer."""
    count = file[0] if file else 0
    head = 1 + 3 * count
    if not 1 <= count <= 8 or len(file) < head:
        return model.Refused(1)
    sizes = list(struct.iter_unpack("<BH", file[1:head]))
    cells = sum(columns * rows for columns, rows in sizes)
    fit = all(1 <= columns <= 16 and rows <= 1000 for columns, rows in sizes)
    if not fit or cells > 8192 or len(file) != head + 5 * cells:
        return model.Refused(1)
    marks = file[head + 4 * cells:]
    if set(marks) - {0, 1, 2}:
        return model.Refused(2)
    columns, rows = sizes[0]
    values = struct.unpack_from(f"<{columns * rows}i", file, head)
    answer = b""
    for place, value in enumerate(values):
        answer += FIELDS_BY_MARK.get(marks[place], str(value).encode()) + (b"," if (place + 1) % columns else b"\n")
    return answer if len(answer) <= room else model.Refused(12)


def with_every_byte(file):
    """A file with each byte put in at each place, and with each byte in the place of each of its own."""
    for place, byte in itertools.product(range(len(file) + 1), range(256)):
        yield file[:place] + bytes([byte]) + file[place:]
        if place < len(file):
            yield file[:place] + bytes([byte]) + file[place + 1:]


def test_every_byte():
    """Each byte at each place of small comma lines and small tables files."""
    count = 0
    for lines in (b"", b"1", b"\n", b"\r\n", b"1,2", b"-7,\r\n,0\n", b"10\r\n\n-0", b",\n2147483647,",
                  b"1\n\r\n3\r\n", b"000000001,-2147483648", b"!", b"!,\r\n1,!"):
        for changed, columns in itertools.product(with_every_byte(lines), (1, 2, 3)):
            same(f"IMPORT of {changed!r} with {columns} columns", model.import_lines(changed, columns, 64), judged_import(changed, columns, 64))
            count += 1
    for written, _ in EXPORTED_TEXTS:
        for changed in with_every_byte(bytes.fromhex(written)):
            same(f"EXPORT of {changed.hex(' ')}", model.export_lines(changed, 64), judged_export(changed, 64))
            count += 1
    print(f"model: {count} small comma lines and tables files with one byte put in or changed: as judged")


def test_comma_sizes():
    """Rows and cells around their limits with each number of columns, and the files at the limits for EXPORT."""
    for columns in range(1, 17):
        most = min(1000, 8192 // columns)
        for cell, rows in itertools.product((b"", b"-1", b"!"), (most - 1, most, most + 1)):
            lines = (b",".join([cell] * columns) + b"\n") * rows
            length = 4 + 5 * columns * rows
            given = single_table(columns, [[cell_in(cell)] * columns] * rows)
            same(f"length of {columns} columns and {rows} rows", len(given), length)
            wanted = [given, model.Refused(12)] if rows <= most else [model.Refused(15)] * 2
            what = f"IMPORT of {columns} columns and {rows} rows of {cell!r}"
            same(what, [model.import_lines(lines, columns, room) for room in (length, length - 1)], wanted)
            same(f"{what}, and a bad one", model.import_lines(lines + b"-", columns, length), model.Refused(14))
    for sizes, file, refusal in cases.limit_files():
        answer = model.export_lines(file, AMPLE_COMMA_ROOM)
        same(f"EXPORT of {sizes}", refusal_of(answer), refusal)
        if refusal is None:
            columns, rows = sizes[0]
            cells = iter(range(columns * rows))
            same(f"EXPORT of {sizes}", answer, b"".join(b",".join(b"%d" % next(cells) for _ in range(columns)) + b"\n" for _ in range(rows)))


# ---- comma lines: drawn

def csv_rows(lines):
    """The rows of right comma lines, by the csv module; it gives an empty line as a row without fields."""
    fields = csv.reader(io.StringIO(lines.decode("ascii"), newline=""), strict=True)
    return [[cell_in(field) for field in row] for row in fields]


def csv_written(rows):
    """The comma lines of rows, by the csv module; it writes a blank alone in its line as quotes."""
    written = io.StringIO(newline="")
    fields = [[{None: "", model.DECLINED_CELL: "!"}.get(cell, cell) for cell in row] for row in rows]
    csv.writer(written, lineterminator="\n").writerows(fields)
    return written.getvalue().encode()


def same_as_csv(lines, columns, rows):
    """Compares rows with what the csv module reads from comma lines, but for the empty lines of one column."""
    left_out = {"csv": [], "rows": [None]} if columns == 1 else {}
    by_csv = [row for row in csv_rows(lines) if row != left_out.get("csv")]
    same(f"csv of {lines!r}", [row for row in rows if row != left_out.get("rows")], by_csv)


def note_lines(seen, lines, rows):
    """Notes what occurs in right comma lines."""
    fields = lines.replace(b"\r\n", b",").replace(b"\n", b",").split(b",")
    occurring = {
        "LF": re.search(rb"(?<!\r)\n", lines), "CRLF": b"\r\n" in lines, "both line ends": b"\r\n" in lines and re.search(rb"(?<!\r)\n", lines),
        "no last line end": lines and not lines.endswith(b"\n"), "no rows": not rows, "blank": any(None in row for row in rows),
        "declined": any(model.DECLINED_CELL in row for row in rows), "declined line": [model.DECLINED_CELL] in rows,
        "declined at the end": lines.endswith(b"!"),
        "one column": rows and len(rows[0]) == 1, "sixteen columns": rows and len(rows[0]) == 16, "empty line": [None] in rows,
        "lowest": any(-2**31 in row for row in rows), "highest": any(2**31 - 1 in row for row in rows),
        "-0": b"-0" in fields, "spare zeros": any(re.fullmatch(rb"-?0[0-9]+", field) for field in fields),
        "ten digits": any(re.fullmatch(rb"-?0[0-9]{9}", field) for field in fields)}
    for name, occurs in occurring.items():
        seen.add("lines", [name] * bool(occurs))
    return list(occurring)


def test_right_lines():
    """Drawn right comma lines: IMPORT gives their rows, so does the csv module, and EXPORT writes them plainly, which imports again."""
    draw = random.Random(f"{SEED} right lines")
    seen = Seen()
    for _ in range(COMMA_FILES):
        columns = generate.column_count(draw)
        rows = generate.drawn_rows(draw, columns)
        lines = generate.comma_lines(draw, rows)
        names = note_lines(seen, lines, rows)
        file = model.import_lines(lines, columns, AMPLE_COMMA_ROOM)
        same(f"IMPORT of {lines!r}", file, single_table(columns, rows))
        same_as_csv(lines, columns, model.tables_of(file).rows_of(1))
        plain = model.export_lines(file, AMPLE_COMMA_ROOM)
        same(f"EXPORT of the rows {rows}", plain, judged_export(file, AMPLE_COMMA_ROOM))
        same_as_csv(plain, columns, rows)
        same(f"{lines!r}, imported, exported and imported", model.import_lines(plain, columns, AMPLE_COMMA_ROOM), file)
    seen.demand("lines", names)
    print(f"model: {COMMA_FILES} right comma lines: the csv module agrees\n  {seen.report('lines')}")


def test_round_trips():
    """Drawn tables files of one table and more: EXPORT and IMPORT give the cells and marks of table 1.

    The value is 0 in each blank or declined cell.
    """
    draw = random.Random(f"{SEED} round trips")
    seen = Seen()
    for _ in range(COMMA_FILES):
        file = generate.random_tables(draw)
        columns, row_count = struct.unpack_from("<BH", file, 1)
        lines = model.export_lines(file, AMPLE_COMMA_ROOM)
        cells = columns * row_count
        rows = model.tables_of(file).rows_of(1)
        again = model.import_lines(lines, columns, AMPLE_COMMA_ROOM)
        same(f"EXPORT and IMPORT of {file.hex(' ')}", again, single_table(columns, rows))
        marks_at = len(file) - sum(size * count for size, count in struct.iter_unpack("<BH", file[1:1 + 3 * file[0]]))
        marks = file[marks_at:marks_at + cells]
        same(f"marks of {file.hex(' ')}", again[len(again) - cells:], marks)
        values = struct.unpack_from(f"<{cells}i", file, 1 + 3 * file[0])
        kept = tuple(0 if mark else value for value, mark in zip(values, marks))
        same(f"values of {file.hex(' ')}", struct.unpack_from(f"<{cells}i", again, 4), kept)
        seen.add("mark", marks)
        same(f"EXPORT again of {lines!r}", model.export_lines(again, AMPLE_COMMA_ROOM), lines)
        same_as_csv(lines, columns, rows)
        if columns > 1:
            same(f"EXPORT of {rows}", lines, csv_written(rows))
    seen.demand("mark", [0, 1, 2])
    print(f"model: {COMMA_FILES} tables files exported and imported: the same cells and marks, and the csv module agrees")
    print(f"  mark: {seen.report('mark')}")


def test_damaged_lines():
    """Drawn damaged comma lines and bytes that matter, with their own number of columns and with others, against the regular expression."""
    draw = random.Random(f"{SEED} damaged lines")
    seen = Seen()
    damages = (generate.byte_damaged_lines, generate.damaged_field, generate.damaged_separator, generate.damaged_lines)
    for _ in range(COMMA_FILES):
        columns = generate.column_count(draw)
        lines = generate.comma_lines(draw, generate.drawn_rows(draw, columns))
        texts = [(damage.__name__, damage(draw, lines), columns) for damage in damages]
        texts += [("other_columns", lines, generate.other_columns(draw, columns))]
        texts += [("random_line_bytes", generate.random_line_bytes(draw), draw.choice([1, 2, 3]))]
        for name, damaged, named in texts:
            room = draw.choice([0, 4, 9, 14, AMPLE_COMMA_ROOM])
            wanted = judged_import(damaged, named, room)
            same(f"IMPORT of {damaged!r} with {named} columns, room {room}", model.import_lines(damaged, named, room), wanted)
            seen.add("damage", [f"{name} {refusal_of(wanted) or 'given'}"])
    seen.demand("damage", [f"{name} {result}" for name, _, _ in texts for result in ("given", 12, 14)])
    print(f"model: {len(texts) * COMMA_FILES} damaged comma lines: as judged\n  {seen.report('damage')}")


def test_bad_fields():
    """What no field is, between right fields; before a LF a CR at its end belongs to the line end."""
    for field in generate.BAD_FIELDS:
        for lines, columns in ((field, 1), (b"%s,1\n" % field, 2), (b"1,%s,2" % field, 3), (b"1\n%s" % field, 1), (b"%s\r\n1" % field, 1)):
            same(f"IMPORT of {lines!r}", model.import_lines(lines, columns, AMPLE_COMMA_ROOM), model.Refused(14))


def test_comma_cases():
    """The targeted and the drawn cases of IMPORT and EXPORT: the answer and the whole buffer."""
    draw = random.Random(f"{SEED} comma cases")
    seen = Seen()
    drawn = [cases.drawn(draw, call) for call in cases.COMMA_CALLS for _ in range(COMMA_CASES_OF_EACH_CALL)]
    in_sets = [case for case in cases.refusal_set_cases(draw) if case.call in cases.COMMA_CALLS]
    for sort, chosen in (("targeted", cases.comma_cases()), ("drawn", drawn), ("set", in_sets)):
        for case in chosen:
            room = len(case.buffer)
            judged = judged_import(case.source, case.columns, room) if case.call == "IMPORT" else judged_export(case.file, room)
            refused = isinstance(judged, model.Refused)
            buffer = case.buffer if refused else tuple(judged) + (cases.UNTOUCHED_NUMBER,) * (room - len(judged))
            same(f"{case}", cases.expected(case), cases.Expected(judged if refused else len(judged), buffer))
            seen.add("case", [f"{sort} {case.call} {cases.outcome(case)}"])
    for sort, call in itertools.product(("targeted", "drawn", "set"), cases.COMMA_CALLS):
        seen.demand("case", [f"{sort} {call} {result}" for result in ["given"] + [f"refused {number}" for number in cases.REFUSALS_OF[call]]])
    print(f"model: cases of IMPORT and EXPORT: as judged\n  {seen.report('case')}")


# ---- SQLite

def database_of(file):
    """A tables file in SQLite, with a column for the row's number, and a value and a mark for each cell.

    The values are given as they stand in the file. SQLite makes NULL of each whose mark is not 0.
    """
    database = sqlite3.connect(":memory:")
    sizes = list(struct.iter_unpack("<BH", file[1:1 + 3 * file[0]]))
    cells = sum(columns * row_count for columns, row_count in sizes)
    values = iter(struct.unpack_from(f"<{cells}i", file, 1 + 3 * file[0]))
    marks = iter(file[len(file) - cells:])
    for number, (columns, row_count) in enumerate(sizes, 1):
        names = ", ".join(f"c{column} INTEGER, mark{column} INTEGER" for column in range(1, columns + 1))
        database.execute(f"CREATE TABLE t{number} (rowno INTEGER, {names})")
        pairs = [(place, place + 1) for place in range(2, 2 * columns + 2, 2)]
        places = "".join(f", CASE ?{mark} WHEN 0 THEN ?{value} END, ?{mark}" for value, mark in pairs)
        rows = []
        for row in range(row_count):
            rows.append([row] + [field for _ in range(columns) for field in (next(values), next(marks))])
        database.executemany(f"INSERT INTO t{number} VALUES (?1{places})", rows)
    return database


def tests_declined(tokens, place):
    """Whether IS DECLINED or IS NOT DECLINED stands at a place among tokens."""
    return tokens[place:place + 2] == ["IS", "DECLINED"] or tokens[place:place + 3] == ["IS", "NOT", "DECLINED"]


def sql_of_tokens(tokens):
    """The SQL of a rule from its written tokens alone; SOME and ALL stay as they are, and SQLite knows neither.

    IS DECLINED becomes IS 2, and the value before it becomes its mark, which is 0 for a number.
    """
    words = []
    place = 0
    while place < len(tokens):
        token = tokens[place]
        if token == "EXISTS":
            words.append("EXISTS (SELECT 1")
            place += 2
        elif token == "FROM":
            words.append(f"FROM t{tokens[place + 1]} AS {tokens[place + 2]}")
            place += 3
        elif token.islower():
            name = "mark" if tests_declined(tokens, place + 3) else "c"
            words.append(f"{token}.{name}{tokens[place + 2]}")
            place += 3
        elif token == "UNKNOWN":
            words.append("NULL")
            place += 1
        elif token == "DECLINED":
            words.append("2")
            place += 1
        elif tests_declined(tokens, place + 1):
            words.append("0")
            place += 1
        else:
            words.append(f"({token})" if token[-1].isdigit() else token)
            place += 1
    return " ".join(words)


def sql_of_value(value, scope):
    """The SQL of a value; a scope has letters and their aliases, the innermost last."""
    if isinstance(value, model.Constant):
        return f"({value.number})"
    return f"{dict(scope)[value.letter]}.c{value.number}"


def sql_of_mark(value, scope):
    """The SQL of a value's mark, which is 0 for a number."""
    if isinstance(value, model.Constant):
        return "0"
    return f"{dict(scope)[value.letter]}.mark{value.number}"


def sql_of_rule(condition, scope):
    """The SQL of a rule with all forms. Each level has an alias of its own, so that nothing is captured."""
    if isinstance(condition, model.Join):
        word = "AND" if condition.kind == model.KIND_AND else "OR"
        return f"({sql_of_rule(condition.left, scope)} {word} {sql_of_rule(condition.right, scope)})"
    if isinstance(condition, model.Not):
        return f"(NOT {sql_of_rule(condition.inner, scope)})"
    if isinstance(condition, model.TruthTest):
        return f"({sql_of_rule(condition.inner, scope)} {SQL_TRUTH_TESTS[condition.kind]})"
    if isinstance(condition, model.Compare):
        left = sql_of_value(condition.left, scope)
        right = sql_of_value(condition.right, scope)
        return f"({left} {SIGN_OF[condition.comparison]} {right})"
    if isinstance(condition, model.NullTest):
        ending = "IS NULL" if condition.kind == model.KIND_NULL else "IS NOT NULL"
        return f"({sql_of_value(condition.value, scope)} {ending})"
    if isinstance(condition, model.DeclinedTest):
        sign = "=" if condition.kind == model.KIND_DECLINED else "<>"
        return f"({sql_of_mark(condition.value, scope)} {sign} 2)"
    alias = f"level{len(scope)}"
    inner_scope = scope + [(condition.letter, alias)]
    where = sql_of_rule(condition.where, inner_scope)
    retained = f"SELECT 1 FROM t{condition.table} AS {alias} WHERE {where}"
    if isinstance(condition, model.Exists):
        return f"EXISTS ({retained})"
    left = sql_of_value(condition.left, scope)
    selected = sql_of_value(condition.selected, inner_scope)
    return sql_of_list(condition.kind, retained, f"({left} {SIGN_OF[condition.comparison]} {selected})")


def sql_of_list(kind, retained, comparison):
    """SOME and ALL, which SQLite has not, by what decides them."""
    deciding, decided, otherwise = (comparison, 1, 0) if kind == model.KIND_SOME else (f"NOT {comparison}", 0, 1)
    return (f"(CASE WHEN EXISTS ({retained} AND {deciding}) THEN {decided}"
            f" WHEN EXISTS ({retained} AND {comparison} IS NULL) THEN NULL ELSE {otherwise} END)")


def truths_by_sqlite(sql, file):
    """The value of a rule on each row of table 1, by SQLite."""
    database = database_of(file)
    try:
        answers = database.execute(f"SELECT {sql} FROM t1 AS m ORDER BY m.rowno").fetchall()
    except sqlite3.Error as error:
        return [f"SQLite: {error}"]
    finally:
        database.close()
    return [SQL_TRUTHS[answer] for answer, in answers]


def truths_by_model(text, file):
    """The value of a rule on each row of table 1, by the model."""
    row_count = len(model.tables_of(file).rows_of(1))
    return [model.judge(text, file, row) for row in range(row_count)]


class Seen:
    """What has occurred, so that no comparison passes over nothing."""

    def __init__(self):
        self.counts = collections.Counter()

    def add(self, sort, values):
        for value in values:
            self.counts[sort, value] += 1

    def demand(self, sort, values):
        for value in values:
            if self.counts[sort, value] == 0:
                raise Disagreement(f"{sort} {value} never occurred")

    def report(self, sort):
        counted = {value: count for (other, value), count in self.counts.items() if other == sort}
        return ", ".join(f"{value}: {counted[value]}" for value in sorted(counted))


def drawn_rule(draw, quantified):
    """A tables file with rows in table 1, an accepted rule as tokens and as text, and its parts."""
    while True:
        file = generate.random_tables(draw, counts=(1, 2, 3, 4))
        maker = generate.RuleMaker(draw, model.tables_of(file).columns, quantified, truths=draw.choice([0, .1, .3]))
        tokens = maker.rule(draw.choice([1, 1, 2, 3, 4, 5, 7]))
        text = generate.spaced(draw, tokens)
        parts = model.read(text, file, AMPLE_ROOM)
        if not isinstance(parts, model.Refused) and model.tables_of(file).rows_of(1):
            return file, tokens, text, parts


def drawn_summed_rule(draw, quantified):
    """A sum of entries, a tables file with rows in table 1, and a rule of that sum as tokens and as text.

    It is accepted, but for 13 where the sum is over 192.
    """
    while True:
        total = draw.choice(generate.NEAR_SUMS)
        file = generate.random_tables(draw, counts=(1, 2, 3, 4))
        maker = generate.SumMaker(draw, model.tables_of(file).columns, quantified)
        tokens = maker.rule_of_sum(total)
        text = generate.spaced(draw, tokens)
        if read_refusal(text, file) not in (5, 7) and model.tables_of(file).rows_of(1):
            return total, file, tokens, text


def compare_on(file, text, sql, seen):
    """One rule on one file: SQLite against JUDGE, on each row. Gives the rows where SQLite says true."""
    tables = model.tables_of(file)
    wanted = truths_by_sqlite(sql, file)
    got = truths_by_model(text, file)
    same(f"rule   {text!r}\ntables {tables}\nSQL    {sql}\nmodel (got) and SQLite (wanted):", got, wanted)
    seen.add("truth value", wanted)
    names = {0: "present", 1: "blank", 2: "declined"}
    seen.add("cell", [names[mark] for mark in file[generate.marks_at(file):]])
    return [row for row, truth in enumerate(wanted) if truth == model.TRUE]


def compare_one(draw, quantified, seen):
    """One drawn rule against SQLite."""
    file, tokens, text, _ = drawn_rule(draw, quantified)
    compare_rule(draw, quantified, seen, file, tokens, text)


def compare_rule(draw, quantified, seen, file, tokens, text):
    """One rule: SQLite against JUDGE with two files, and against LIST of its card with the later one."""
    seen.add("part kind", [part.kind for part in model.read(text, file, AMPLE_ROOM)])
    if quantified:
        sql = sql_of_rule(model.accepted(text, file)[0], [("m", "m")])
    else:
        sql = sql_of_tokens(tokens)
    compare_on(file, text, sql, seen)
    later = generate.later_tables(draw, model.tables_of(file).columns)
    true_rows = compare_on(later, text, sql, seen)
    sheet = model.card(text, file, AMPLE_ROOM)
    same(f"CHECK of the card of {text!r}", model.check(sheet), model.SOUND)
    listed = model.list_rows(sheet, later, AMPLE_ROOM)
    same(f"rule   {text!r}\ntables {model.tables_of(later)}\nLIST (got) and SQLite (wanted):", listed, true_rows)


def compare_summed(draw, quantified, seen):
    """One drawn rule of a known sum: 13 over 192, and else the length of its card, and SQLite."""
    total, file, tokens, text = drawn_summed_rule(draw, quantified)
    seen.add("sum", [total])
    if total > 192:
        answers = (model.read(text, file, 0), model.judge(text, file, 1000), model.card(text, file, 0))
        same(f"sum {total}: {text!r}", [refusal_of(answer) for answer in answers], [13, 13, 13])
        return
    sheet = model.card(text, file, AMPLE_ROOM)
    same(f"sum {total}: refusal of {text!r}", refusal_of(sheet), None)
    same(f"sum {total}: length of the card of {text!r}", len(sheet), 3 + len(model.tables_of(file).columns) + 15 * total)
    compare_rule(draw, quantified, seen, file, tokens, text)


def sort_name(quantified):
    """A short name for the sort of the rules."""
    return "all forms" if quantified else "no SOME or ALL, token by token"


def test_many(seed, rules, title, compare, quantified, sort, values):
    """Many drawn rules of one sort; all truth values and part kinds have to occur, and these values of a further sort."""
    draw = random.Random(f"{SEED} {seed}{quantified}")
    seen = Seen()
    for _ in range(rules):
        compare(draw, quantified, seen)
    demanded = {"truth value": [model.TRUE, model.FALSE, model.UNKNOWN], "part kind": range(1, 18), sort: values}
    for what, wanted in demanded.items():
        seen.demand(what, wanted)
    print(f"model: {rules} {title}, {sort_name(quantified)}: SQLite agrees")
    for what in demanded:
        print(f"  {what}: {seen.report(what)}")


def test_against_sqlite(quantified):
    """Rules over blank, declined and present cells."""
    test_many("", RULES_OF_EACH_SORT, "rules", compare_one, quantified, "cell", ["blank", "declined", "present"])


def test_sums_against_sqlite(quantified):
    """Rules with sums around 192."""
    test_many("sums ", SUMMED_RULES_OF_EACH_SORT, "rules with sums around 192", compare_summed, quantified, "sum", [191, 192, 193, 194])


def main():
    print(f"model: seed {SEED}, SQLite {sqlite3.sqlite_version}")
    try:
        test_proved_cases()
        test_worked_card()
        test_refusal_table()
        test_truth_values()
        test_truth_parts()
        test_truth_cards()
        test_stated_sums()
        test_truth_refusals()
        test_misplaced_truths()
        test_stated_declined()
        test_misplaced_declineds()
        test_declined_as_blank()
        test_idle_values()
        test_never_unknown()
        test_drawn_cards()
        test_refusal_sets()
        test_comma_texts()
        test_comma_bytes()
        test_comma_numbers()
        test_comma_refusals()
        test_bad_fields()
        test_every_byte()
        test_comma_sizes()
        test_right_lines()
        test_round_trips()
        test_damaged_lines()
        test_comma_cases()
        test_against_sqlite(False)
        test_against_sqlite(True)
        test_sums_against_sqlite(False)
        test_sums_against_sqlite(True)
    except Disagreement as disagreement:
        print(f"model: DISAGREEMENT\n{disagreement}")
        return 1
    return 0


if __name__ == "__main__":
    sys.exit(main())
