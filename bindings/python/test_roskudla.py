"""The wrapper on document 01's own examples: its cases, its worked card and parts, and each refusal that can reach it; on document 02's truth tests, comma
lines and declined cells; the gate's library alone; and arguments that are no bytes, no row or no number of columns. Then that the header, the wrapper for Rust
and this one give the same numbers, reasons, sizes and marks."""
import array
import ctypes.util
import pathlib
import pickle
import re
import sys
import unittest

import roskudla
from roskudla import Part, Truth, Value

ROOT = pathlib.Path(__file__).resolve().parents[2]
sys.path[:0] = [str(ROOT / "tests" / "calls"), str(ROOT / "tests" / "model")]

import paper  # noqa: E402
from paper import CASE_TABLES, DECLINED_TABLES, SUM_191, SUM_192, UNKNOWN_CARD, UNKNOWN_TEXT, within_exists, within_unknowns  # noqa: E402
from test_model import CASES, WORKED_CARD  # noqa: E402

SHARED = ROOT / "target" / "shared"
WORKED_TABLES = bytes.fromhex("01 03 00 00")
TRUTHS = {"F": Truth.FALSE, "U": Truth.UNKNOWN, "T": Truth.TRUE}
# the truth tests, in the order of their kinds from 10 on, with their values on true, unknown and false: m.2 > 0 is these on rows 0, 1, 2
TRUTH_TESTS = (
    (b"IS TRUE", "TFF"),
    (b"IS NOT TRUE", "FTT"),
    (b"IS FALSE", "FFT"),
    (b"IS NOT FALSE", "TTF"),
    (b"IS UNKNOWN", "FTF"),
    (b"IS NOT UNKNOWN", "TFT"),
)
OPPOSITES = str.maketrans("TF", "FT")


class WholeLibrary(unittest.TestCase):
    def setUp(self):
        self.calls = roskudla.Calls(SHARED / "libroskudla.so")

    def refused(self, number, call, *arguments):
        with self.assertRaises(roskudla.Refused) as caught:
            call(*arguments)
        self.assertEqual(caught.exception.number, number)

    def has_values(self, text, values, tables=CASE_TABLES):
        """The values of a rule on the rows of table 1, and what its card says of them."""
        card = self.calls.card(text, tables)
        self.calls.check(card)
        rows = range(len(values))
        self.assertEqual([self.calls.judge(text, tables, row) for row in rows], [TRUTHS[value] for value in values], text)
        self.assertEqual([self.calls.run(card, tables, row) for row in rows], [value == "T" for value in values], text)
        self.assertEqual(self.calls.list_rows(card, tables), [row for row, value in enumerate(values) if value == "T"], text)

    def test_cases(self):
        for text, values in CASES:
            self.has_values(text.encode(), values)

    def test_truth_tests(self):
        """Each truth test on each value, alone, under NOT, around itself and in the WHERE of ALL; and its kind."""
        for kind, (ending, values) in enumerate(TRUTH_TESTS, 10):
            test = b"(m.2 > 0) " + ending
            self.has_values(test, values)
            self.has_values(b"NOT " + test, values.translate(OPPOSITES))
            self.has_values(b"(" + test + b") IS FALSE", values.translate(OPPOSITES))
            self.has_values(b"m.1 <> ALL (SELECT k.1 FROM 1 k WHERE " + test + b")", values.translate(OPPOSITES))
            self.assertEqual([part.kind for part in self.calls.read(b"NOT " + test, CASE_TABLES)], [3, kind, 4])

    def test_declined(self):
        """Declined and blank cells, numbers and constants under each test, and what is blank in every respect: worked out by hand."""
        for case in paper.DECLINED_CASES:
            self.has_values(case.text, case.values, DECLINED_TABLES)
            self.assertEqual(self.calls.card(case.text, DECLINED_TABLES), paper.card([2, 1, 1], case.entries))

    def test_declined_parts(self):
        parts = self.calls.read(b"NOT m.2 IS DECLINED AND -7 IS NOT DECLINED", DECLINED_TABLES)
        nothing = Value(0, 0)
        self.assertEqual(parts, [
            Part(1, 0, 0, 4, nothing, nothing),
            Part(3, 0, 0, 3, nothing, nothing),
            Part(16, 0, 0, 3, Value(0, 2), nothing),
            Part(17, 0, 0, 4, Value(255, -7), nothing)])

    def test_declined_cards(self):
        """Cards of kinds 9 and 10, with the rows that they admit; and such that are not sound."""
        for entries, admitted in paper.GATE_CARDS:
            card = paper.card([2, 1, 1], entries)
            if isinstance(admitted, int):
                self.refused(admitted, self.calls.check, card)
                self.refused(admitted, self.calls.run, card, DECLINED_TABLES, 0)
                self.refused(admitted, self.calls.list_rows, card, DECLINED_TABLES)
            else:
                self.assertEqual(self.calls.list_rows(card, DECLINED_TABLES), admitted, entries)
                self.assertEqual([row for row in range(4) if self.calls.run(card, DECLINED_TABLES, row)], admitted, entries)

    def test_marks(self):
        """The three marks by their names, with any value under those that are not present; a mark of 3 is refused."""
        named = {roskudla.MARK_PRESENT: "FFT", roskudla.MARK_BLANK: "TFU", roskudla.MARK_DECLINED: "TTU"}
        texts = (b"m.1 IS NULL", b"m.1 IS DECLINED", b"m.1 = m.1")
        for mark, values in named.items():
            tables = bytes.fromhex("01 01 01 00 07 00 00 00") + bytes([mark])
            for text, value in zip(texts, values):
                self.has_values(text, value, tables)
        self.refused(2, self.calls.judge, b"1 = 1", bytes.fromhex("01 01 01 00 07 00 00 00 03"), 0)

    def test_worked_card(self):
        self.assertEqual(self.calls.card(b"NOT m.2 < 5", WORKED_TABLES), WORKED_CARD)
        self.assertEqual(self.calls.card(paper.DECLINED_TEXT, WORKED_TABLES), paper.DECLINED_CARD)
        self.assertEqual(self.calls.card(UNKNOWN_TEXT, WORKED_TABLES), UNKNOWN_CARD)

    def test_parts(self):
        parts = self.calls.read(b"EXISTS (FROM 2 a WHERE a.1 >= SOME (SELECT -7 FROM 3 b WHERE m.2 < 9))", CASE_TABLES)
        nothing = Value(0, 0)
        self.assertEqual(parts, [
            Part(7, 0, 2, 3, nothing, nothing),
            Part(8, 6, 3, 3, Value(1, 1), Value(255, -7)),
            Part(4, 3, 0, 3, Value(0, 2), Value(255, 9))])
        self.assertEqual(self.calls.read(b"NOT (m.2 = 9) IS NOT FALSE", CASE_TABLES), [
            Part(3, 0, 0, 3, nothing, nothing),
            Part(13, 0, 0, 3, nothing, nothing),
            Part(4, 1, 0, 3, Value(0, 2), Value(255, 9))])

    def test_largest_answers(self):
        """The most parts (13 triples of lists within one another), the longest card, that of 192 entries over eight tables, and the most rows."""
        text = b"1=1"
        for _ in range(3):
            text = b"1=SOME(SELECT 1 FROM 1 a WHERE " + text + b")"
        text = b" OR ".join([text] * 13)
        eight = bytes([8]) + bytes([1, 0, 0]) * 8
        self.assertEqual(len(self.calls.read(text, eight)), roskudla.MOST_PARTS)
        self.assertEqual(len(self.calls.card(text, eight)), 3 + 8 + 15 * 142)
        self.assertEqual(len(self.calls.card(SUM_192, eight)), roskudla.MOST_CARD_BYTES)
        rows = roskudla.MOST_ROWS
        tables = bytes([1, 1]) + rows.to_bytes(2, "little") + bytes(5 * rows)
        self.assertEqual(self.calls.list_rows(self.calls.card(b"1=1", tables), tables), list(range(rows)))

    def test_refusals(self):
        for number, text in ((3, b" " * 4097), (4, b"m.1 = 2147483648"), (5, b"(" * 33), (6, b""), (6, b"m.1 ="),
                             (4, b"m.1 IS DECLINE"), (4, b"m.1 = !"), (6, b"DECLINED"), (6, b"(m.1) IS DECLINED"), (8, b"m.3 IS DECLINED"),
                             (7, b" OR ".join([b"1 = 1"] * 33)), (8, b"k.1 = 1"), (6, b"(1 = 1) IS TRUE IS TRUE"), (6, b"1 = 1 IS TRUE"), (6, b"TRUE"),
                             (8, within_unknowns(7, b"k.1 = 1")), (13, within_unknowns(7)), (13, within_exists(SUM_192)), (13, SUM_191 + b" OR 1 = 1")):
            self.refused(number, self.calls.read, text, CASE_TABLES)
            self.refused(number, self.calls.judge, text, CASE_TABLES, 0)
            self.refused(number, self.calls.card, text, CASE_TABLES)
        self.refused(1, self.calls.read, b"1 = 1", b"")
        self.refused(2, self.calls.read, b"1 = 1", bytes.fromhex("01 01 01 00 00 00 00 00 03"))
        self.refused(2, self.calls.run, WORKED_CARD, bytes.fromhex("01 03 01 00 00 00 00 00 00 00 00 00 00 00 00 00 00 02 03"), 0)
        self.refused(9, self.calls.check, b"\0\0")
        self.refused(10, self.calls.list_rows, WORKED_CARD, CASE_TABLES)

    def test_entries_before_the_row(self):
        """A sum over 192 is refused before a row that is absent; six IS UNKNOWN within one another make 127, and seven 255."""
        self.refused(13, self.calls.judge, within_unknowns(7), CASE_TABLES, 99)
        self.refused(11, self.calls.judge, within_unknowns(6), CASE_TABLES, 99)

    def test_imports(self):
        for lines, columns, answer in paper.IMPORTS:
            if isinstance(answer, int):
                self.refused(answer, self.calls.import_lines, lines, columns)
            else:
                self.assertEqual(self.calls.import_lines(lines, columns), paper.table(columns, answer), lines[:80])

    def test_exports(self):
        for file, answer in paper.EXPORTS:
            if isinstance(answer, int):
                self.refused(answer, self.calls.export_lines, file)
            else:
                self.assertEqual(self.calls.export_lines(file), answer)

    def test_there_and_back(self):
        """Table 1 alone comes back, with 0 under each blank and declined cell, and cards admit the same rows of it."""
        for file, wanted in paper.THERE_AND_BACK:
            back = self.calls.import_lines(self.calls.export_lines(file), file[1])
            self.assertEqual(back, wanted)
            self.assertEqual(self.calls.import_lines(self.calls.export_lines(back), file[1]), wanted)
            for text in (b"m.1 IS NULL", b"m.1 IS DECLINED", b"m.1 > 0", b"NOT m.1 > 0"):
                admitted = self.calls.list_rows(self.calls.card(text, file), file)
                self.assertEqual(self.calls.list_rows(self.calls.card(text, back), back), admitted)

    def test_longest_comma_answers(self):
        """The rooms are exactly enough: 8,192 cells take five bytes each besides the sizes, and lines of the lowest number twelve for each."""
        lines = (b",".join([b"-2147483648"] * 16) + b"\n") * 512
        tables = self.calls.import_lines(lines, 16)
        self.assertEqual(len(tables), roskudla.MOST_TABLE_BYTES)
        self.assertEqual(len(lines), roskudla.MOST_LINES_BYTES)
        self.assertEqual(self.calls.export_lines(tables), lines)

    def test_columns_that_are_none(self):
        """A number that C's sizes would cut to one that is allowed is refused as any other that is not."""
        for columns in (0, -1, 17, 2 ** 32 + 1, 2 ** 64, 2 ** 64 + 1, 2 ** 200, 1 - 2 ** 64):
            self.refused(14, self.calls.import_lines, b"1", columns)
            self.refused(14, self.calls.import_lines, b"", columns)

    def test_rows_that_are_none(self):
        """A number that C's sizes would cut to a row of the table is refused as any other that is no row."""
        card = self.calls.card(b"1 = 1", CASE_TABLES)
        for row in (3, -1, 2 ** 64, 2 ** 64 + 1, 2 ** 200, -2 ** 64):
            self.refused(11, self.calls.judge, b"1 = 1", CASE_TABLES, row)
            self.refused(11, self.calls.run, card, CASE_TABLES, row)

    def test_no_bytes(self):
        for wrong in ("m.1 = 1", 5, None, array.array("I", [1])):
            self.assertRaises(TypeError, self.calls.read, wrong, CASE_TABLES)
            self.assertRaises(TypeError, self.calls.read, b"1 = 1", wrong)
            self.assertRaises(TypeError, self.calls.check, wrong)
            self.assertRaises(TypeError, self.calls.import_lines, wrong, 1)
            self.assertRaises(TypeError, self.calls.export_lines, wrong)
        self.assertEqual(self.calls.card(bytearray(b"NOT m.2 < 5"), memoryview(WORKED_TABLES)), WORKED_CARD)
        self.assertEqual(self.calls.export_lines(bytearray(self.calls.import_lines(memoryview(b"1,"), 2))), b"1,\n")

    def test_no_row(self):
        for wrong in (0.0, "0", None, True):
            self.assertRaises(TypeError, self.calls.judge, b"1 = 1", CASE_TABLES, wrong)

    def test_no_columns(self):
        for wrong in (1.0, "1", None, True):
            self.assertRaises(TypeError, self.calls.import_lines, b"1", wrong)

    def test_refused_is_told(self):
        refused = roskudla.Refused(6)
        self.assertEqual(str(refused), "refused 6: the text does not follow the grammar")
        self.assertEqual(str(pickle.loads(pickle.dumps(refused))), str(refused))
        self.assertEqual(str(roskudla.Refused(15)), "refused 15: comma lines: over 1,000 rows or 8,192 cells")

    def test_other_library(self):
        self.assertRaises(AttributeError, roskudla.Calls, ctypes.util.find_library("c"))


class GateAlone(unittest.TestCase):
    def test_gate(self):
        calls = roskudla.Calls(SHARED / "libroskudla_gate.so")
        calls.check(WORKED_CARD)
        column = (7, 4, 5)  # the second of three, in three rows; the worked card asks for 5 or more
        tables = WORKED_TABLES[:2] + bytes([3, 0]) + b"".join(bytes(4) + bytes([number, 0, 0, 0]) + bytes(4) for number in column) + bytes(9)
        self.assertEqual([calls.run(WORKED_CARD, tables, row) for row in range(3)], [True, False, True])
        self.assertEqual(calls.list_rows(WORKED_CARD, tables), [0, 2])
        declined = tables[:-4] + bytes([roskudla.MARK_DECLINED]) + tables[-3:]  # the second column of the second row
        self.assertEqual(calls.list_rows(WORKED_CARD, declined), [0, 2])
        self.assertEqual(calls.list_rows(paper.DECLINED_CARD, declined), [0, 1, 2])
        declined = tables[:-5] + bytes([roskudla.MARK_DECLINED]) + tables[-4:]
        self.assertEqual(calls.list_rows(paper.DECLINED_CARD, declined), [0, 2])
        self.assertRaises(NotImplementedError, calls.judge, b"1 = 1", CASE_TABLES, 0)
        self.assertRaises(NotImplementedError, calls.import_lines, b"1", 1)
        self.assertRaises(NotImplementedError, calls.export_lines, tables)


class InterfacesAgree(unittest.TestCase):
    def setUp(self):
        self.header = (ROOT / "include" / "roskudla.h").read_text()
        self.rust = (ROOT / "bindings" / "rust" / "src" / "lib.rs").read_text()

    def test_reasons(self):
        in_header = re.findall(r"ROSKUDLA_[A-Z_]+ = ([1-9][0-9]*),? *\/\* (.*?) \*\/", self.header)
        in_rust = re.findall(r'([0-9]+) => "(.*?)",', self.rust)
        for found in (in_header, in_rust):
            self.assertEqual({int(number): reason for number, reason in found}, roskudla.REASONS)

    def test_sizes(self):
        sizes = {name: getattr(roskudla, name) for name in dir(roskudla) if name.startswith("MOST_")}
        self.assertEqual(len(sizes), 5)
        in_header = re.findall(r"#define ROSKUDLA_(MOST_[A-Z_]+) ([0-9]+)", self.header)
        in_rust = re.findall(r"pub const (MOST_[A-Z_]+): usize = ([0-9]+);", self.rust)
        for found in (in_header, in_rust):
            self.assertEqual({name: int(number) for name, number in found}, sizes)

    def test_mark_names(self):
        marks = {name: getattr(roskudla, name) for name in dir(roskudla) if name.startswith("MARK_")}
        self.assertEqual(marks, {"MARK_PRESENT": 0, "MARK_BLANK": 1, "MARK_DECLINED": 2})
        in_header = re.findall(r"#define ROSKUDLA_(MARK_[A-Z_]+) ([0-9]+)", self.header)
        in_rust = re.findall(r"pub const (MARK_[A-Z_]+): u8 = ([0-9]+);", self.rust)
        for found in (in_header, in_rust):
            self.assertEqual({name: int(number) for name, number in found}, marks)


if __name__ == "__main__":
    unittest.main()
