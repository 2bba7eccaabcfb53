"""The program as built: what it prints for the two files in the folder that it is run in. Outputs that are written by hand (program_outputs.txt), files that
are missing or cannot be read, files as long as they may be and longer, and random rules and tables against the reference model.

Exit status 0 when all outputs agree, nothing was printed to standard error but where the output cannot be written, each run ended with status 0, and each
refusal was seen.
"""
import collections
import contextlib
import fcntl
import os
import pathlib
import random
import re
import subprocess
import sys
import tempfile
import termios
import threading
import time

import compare
import library
import paper
import variants

import cases  # noqa: E402  (library adds the model's folder to the path)
import generate
import model

SEED = 20261119
DRAWS = 1500
PATIENCE = 60
MEGABYTE = 1 << 20
OUTPUTS = pathlib.Path(__file__).with_name("program_outputs.txt")
TABLES_BY_NAME = {
    "cases": paper.CASE_TABLES,
    "declined": paper.DECLINED_TABLES,
    "single byte 00": bytes.fromhex("00"),
    "mark 02": bytes.fromhex("01 01 01 00 00 00 00 00 02"),
    "mark 03": bytes.fromhex("01 01 01 00 00 00 00 00 03"),
    "no rows": paper.ONE_COLUMN,
}
RULE = b"m.2 > 0"
RULE_OUTPUT = "rows 1 of 3\n0\n"  # on the tables of the proved cases
REFUSED = {number: f"refused {number}\n" for number in (1, 2, 3, 4, 5, 6, 7, 8, 13)}


class Program:
    """The program as built."""

    def __init__(self):
        crate = library.ROOT / "crates" / "roskudla_rows"
        subprocess.run(["rt", "run"], cwd=crate, check=True, stdin=subprocess.DEVNULL, stdout=subprocess.DEVNULL)
        self.path = crate / "out" / "roskudla_rows"

    def run(self, folder):
        """The exit status, the output and the errors of a run in a folder."""
        ran = subprocess.run([self.path], cwd=folder, stdin=subprocess.DEVNULL, capture_output=True, timeout=PATIENCE)
        return ran.returncode, ran.stdout, ran.stderr

    def errors_into(self, folder, output):
        """The errors of a run in a folder, whose output goes to a file."""
        return subprocess.run([self.path], cwd=folder, stdin=subprocess.DEVNULL, stdout=output, stderr=subprocess.PIPE, timeout=PATIENCE).stderr


class Runs:
    """Runs the program, each time in a new folder, and counts the first lines of its outputs by their sort."""

    def __init__(self, program):
        self.program = program
        self.seen = collections.Counter()

    def prints(self, what, output, **files):
        """The program prints this and nothing else, and leaves its files as they are.

        Files are `rule` and `tables`: what is in them, or a function that puts something else at the place. One that is not given is missing.
        """
        with tempfile.TemporaryDirectory() as folder:
            for name, content in files.items():
                put(pathlib.Path(folder) / {"rule": "rule.txt", "tables": "tables.bin"}[name], content)
            before = contents(folder)
            compare.same(what, self.program.run(folder), (0, output.encode(), b""))
            compare.same((what, "the folder afterwards"), contents(folder), before)
        self.seen["program", output.split("\n")[0] if output.startswith("refused") else output.split(" ")[0]] += 1

    def end(self, what, *refusals):
        compare.agreed(what, self.seen, {"program": ("rows",) + compare.refusal_sorts(*refusals)})


def put(place, content):
    if isinstance(content, bytes):
        place.write_bytes(content)
    else:
        content(place)


def contents(folder):
    """The names in a folder, with what is in those that are files."""
    return {place.name: place.read_bytes() if place.is_file() and not place.is_symlink() else None for place in pathlib.Path(folder).iterdir()}


# ---- outputs written by hand

ENTRY = re.compile(r"text \|(?P<text>[^|]*)\|( (?P<times>\d+) times(, joined by \|(?P<between>[^|]*)\|)?)?\ntables (?P<tables>.*)\n(?P<output>(?s:.*))")


def written_outputs():
    """The entries of the file: text, tables and output."""
    lines = [line for line in OUTPUTS.read_text().split("\n") if not line.startswith("#")]
    for block in filter(None, re.split(r"\n\n+", "\n".join(lines).strip("\n"))):
        entry = ENTRY.fullmatch(block)
        if entry is None:
            raise compare.Disagreement(f"no entry: {block}")
        text = (entry["between"] or "").join([entry["text"]] * int(entry["times"] or 1))
        yield text.encode(), TABLES_BY_NAME[entry["tables"]], entry["output"] + "\n"


def check_written(program):
    """The outputs that are written by hand; the proved cases, the truth tests and the tests of declined cells are the first of them, and the model agrees."""
    runs = Runs(program)
    outputs = list(written_outputs())
    worked = [(case.text, file) for case, file in paper.WORKED]
    compare.same("the first outputs", [(text, file) for text, file, _ in outputs[:len(worked)]], worked)
    for text, file, output in outputs:
        compare.same((text, "by the model"), printed(text, file), output)
        runs.prints(text, output, rule=text, tables=file)
    runs.end("outputs written by hand", *REFUSED)


# ---- files that are missing or cannot be read

def linked_to(target):
    """Puts a link in the file's place."""
    return lambda place: place.symlink_to(target)


def unread(pipe):
    """How many bytes stand in a pipe."""
    return int.from_bytes(fcntl.ioctl(pipe, termios.FIONREAD, bytes(4)), sys.byteorder)


def byte_by_byte(content):
    """Puts a pipe in the file's place, into which each byte is written when the one before it has been read, so that no read gives more than one."""
    def write(place):
        deadline = time.monotonic() + PATIENCE
        with contextlib.suppress(BrokenPipeError), open(place, "wb", buffering=0) as pipe:
            for byte in content:
                pipe.write(bytes([byte]))
                while unread(pipe) and time.monotonic() < deadline:
                    time.sleep(.0002)

    def make(place):
        os.mkfifo(place)
        threading.Thread(target=write, args=(place,), daemon=True).start()
    return make


# a folder, a link to nothing, and one to itself cannot be read, whoever reads; permissions would not keep everybody out
COUNTED_AS_EMPTY = {
    "a folder": pathlib.Path.mkdir,
    "a link to nothing": linked_to("absent"),
    "a link to itself": lambda place: place.symlink_to(place.name),
    "empty": b"",
}


def check_missing(program):
    """A file that is missing, or cannot be read, counts as empty: no tables are refused with 1, and an empty text with 6."""
    runs = Runs(program)
    runs.prints("no files", REFUSED[1])
    runs.prints("no tables", REFUSED[1], rule=RULE)
    runs.prints("no rule", REFUSED[6], tables=paper.CASE_TABLES)
    runs.prints("no rule, and a mark too high", REFUSED[2], tables=TABLES_BY_NAME["mark 03"])
    runs.prints("no rule, and a declined cell", REFUSED[6], tables=TABLES_BY_NAME["mark 02"])
    for what, content in COUNTED_AS_EMPTY.items():
        runs.prints(f"rule.txt is {what}", REFUSED[6], rule=content, tables=paper.CASE_TABLES)
        runs.prints(f"tables.bin is {what}", REFUSED[1], rule=RULE, tables=content)
    runs.prints("both are folders", REFUSED[1], rule=pathlib.Path.mkdir, tables=pathlib.Path.mkdir)
    runs.prints("a pipe for rule.txt", RULE_OUTPUT, rule=byte_by_byte(RULE), tables=paper.CASE_TABLES)
    runs.prints("a pipe for tables.bin", RULE_OUTPUT, rule=RULE, tables=byte_by_byte(paper.CASE_TABLES))
    runs.end("files missing or unreadable", 1, 2, 6)


# ---- lengths

def check_text_lengths(program):
    """Texts of 4,096 bytes are read; of longer ones nothing is cut off, even where what would be left is a rule."""
    runs = Runs(program)
    for gap in (b" ", b"\n"):
        gaps = gap * (model.MOST_TEXT_BYTES - len(RULE))
        for text in (RULE + gaps, gaps + RULE, gaps[:100] + RULE + gaps[100:]):
            runs.prints("4,096 bytes", RULE_OUTPUT, rule=text, tables=paper.CASE_TABLES)
            runs.prints("a byte more in front", REFUSED[3], rule=b" " + text, tables=paper.CASE_TABLES)
            for more in (b" ", b"\n", b"@", b" " * MEGABYTE, b"@" * MEGABYTE, b" " + b"@" * MEGABYTE, b"\n" + b" OR 1 = 1" * (MEGABYTE // 9)):
                runs.prints("more than 4,096 bytes", REFUSED[3], rule=text + more, tables=paper.CASE_TABLES)
    runs.prints("no rule at 4,096 bytes", REFUSED[4], rule=RULE + b" " * (model.MOST_TEXT_BYTES - len(RULE) - 1) + b"@", tables=paper.CASE_TABLES)
    runs.prints("a long text, and a mark too high", REFUSED[2], rule=b" " * MEGABYTE, tables=TABLES_BY_NAME["mark 03"])
    runs.prints("a long text, and no tables", REFUSED[1], rule=b" " * MEGABYTE)
    runs.prints("an endless text", REFUSED[3], rule=linked_to("/dev/zero"), tables=paper.CASE_TABLES)
    runs.end("lengths of texts", 1, 2, 3, 4)


LARGEST_SIZES = [(8, 1000)] + [(1, 0)] * 6 + [(16, 12)]  # 8 tables and 8,192 cells, which have the numbers 0 to 8,191


def all_rows(first, end):
    """The lines of these rows."""
    return "".join(f"{row}\n" for row in range(first, end))


def check_tables_lengths(program):
    """The largest tables files are read whole; a byte more than is right is refused, and of longer ones nothing is cut off."""
    runs = Runs(program)
    largest = cases.numbered_tables(LARGEST_SIZES)
    compare.same("the largest tables file", len(largest), 40985)
    runs.prints("half the rows", "rows 500 of 1000\n" + all_rows(500, 1000), rule=b"m.8 >= 4000", tables=largest)
    runs.prints("all rows", "rows 1000 of 1000\n" + all_rows(0, 1000), rule=b"EXISTS (FROM 8 v WHERE v.16 = 8191)", tables=largest)
    runs.prints("no row", "rows 0 of 1000\n", rule=b"m.8 IS NULL", tables=largest)
    runs.prints("the last row", "rows 1 of 1000\n999\n", rule=b"m.8 = 7999", tables=largest)
    runs.prints("the last mark", REFUSED[2], rule=RULE, tables=largest[:-1] + b"\x03")
    declined = b"EXISTS (FROM 8 v WHERE v.16 IS DECLINED)"
    runs.prints("a declined cell, the last", "rows 1000 of 1000\n" + all_rows(0, 1000), rule=declined, tables=largest[:-1] + b"\x02")
    runs.prints("no declined cell", "rows 0 of 1000\n", rule=declined, tables=largest)
    for file in (largest, paper.CASE_TABLES, paper.ONE_COLUMN):
        for more in (b"\0", b"\1", b"\2", bytes(MEGABYTE), b"\1" * MEGABYTE, file):
            runs.prints("tables with more behind", REFUSED[1], rule=RULE, tables=file + more)
        for cut in (1, 2, len(file) // 2, len(file) - 1):
            runs.prints("tables cut", REFUSED[1], rule=RULE, tables=file[:-cut])
    runs.prints("tables with more behind, and a long text", REFUSED[1], rule=b" " * MEGABYTE, tables=largest + b"\0")
    runs.prints("endless tables", REFUSED[1], rule=RULE, tables=linked_to("/dev/zero"))
    runs.end("lengths of tables", 1, 2)


# ---- the reference model

def printed(text, file):
    """What the program has to print, by the model's values of the rule on each row."""
    answer = model.read(text, file, cases.AMPLE_ROOM)
    if isinstance(answer, model.Refused):
        return REFUSED[answer.number]
    condition, tables = model.accepted(text, file)
    rows = [row for row, cells in enumerate(tables.rows_of(1)) if model.meaning(condition, tables, ["m"], [cells]) == model.TRUE]
    return f"rows {len(rows)} of {len(tables.rows_of(1))}\n" + "".join(f"{row}\n" for row in rows)


def check_model(program):
    """Texts at the limits, and random texts and tables, right and damaged."""
    runs = Runs(program)
    draw = random.Random(SEED)
    for text in variants.limit_texts():
        runs.prints(text, printed(text.encode(), cases.SOME_TABLES), rule=text.encode(), tables=cases.SOME_TABLES)
    for sizes, file, _ in cases.limit_files():
        runs.prints((sizes, "m.1 < 9"), printed(b"m.1 < 9", file), rule=b"m.1 < 9", tables=file)
    for _ in range(DRAWS):
        file = generate.random_tables(draw)
        text = cases.drawn_text(draw, "JUDGE", model.tables_of(file).columns)
        if draw.random() < .1:
            file = generate.damaged_tables(draw, file)
        runs.prints((text, file), printed(text, file), rule=text, tables=file)
    runs.end("random rules and tables", *REFUSED)


def check_full(program):
    """An output that cannot be written is told on standard error."""
    with tempfile.TemporaryDirectory() as folder, open("/dev/full", "wb") as full:
        errors = program.errors_into(folder, full)
    compare.same("an output that cannot be written is told", errors.startswith(b"standard output"), True)


CHECKS = (check_written, check_missing, check_full, check_text_lengths, check_tables_lengths, check_model)


def check_all(program):
    for check in CHECKS:
        check(program)


def main():
    check_all(Program())


if __name__ == "__main__":
    compare.end_with(main)
