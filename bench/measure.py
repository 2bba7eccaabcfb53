"""Prints how long the calls take as built, beside an independent Rust implementation (reference/), SQLite and PostgreSQL, as tables in Markdown.

Every time is the best of many. All lines but the longest RUNs are measured in several rounds, so that what else the machine does for a while spoils none of
them. Every answer is compared with the library's; a difference ends the run with an error.
"""
import argparse
import contextlib
import os
import pathlib
import re
import signal
import subprocess
import sys
import tempfile
from functools import partial

import cases
import engines
import goals
import programs
import shown

ROOT = pathlib.Path(__file__).resolve().parents[1]
sys.path += [str(ROOT / "bindings" / "python"), str(ROOT / "tests" / "model")]

import generate  # noqa: E402
import roskudla  # noqa: E402

ROUNDS = 4
ENGINES = ("SQLite", "PostgreSQL")
LATE = float("inf")  # the time of a query that takes longer than it may
COMPUTED_FROM, COMPUTED_FOR = 200, 1000  # rows of the longest RUN: measured, and computed from that


class Line:
    """A line of a table: its best times by side, from sources that each give some of them."""

    def __init__(self, title, *sources):
        self.title, self.sources, self.times = title, sources, {}

    def take(self):
        """Measures once more."""
        for source in self.sources:
            for side, time in source().items():
                self.times[side] = min(time, self.times.get(side, time))


def demand_refusal(told, call, *given):
    """An error unless the library refuses a text or lines with the number that is told of them, or not at all."""
    try:
        call(*given)
        refusal = None
    except roskudla.Refused as refused:
        refusal = refused.number
    if refusal != told.refusal:
        raise programs.Different(f"the library refuses with {refusal} and not {told.refusal}: {told.title}")


class Bench:
    """The sides: the library and the Rust implementation, by their programs, and the engines."""

    def __init__(self, timed, sql_engines):
        self.programs, self.engines = timed, sql_engines
        self.library = roskudla.Calls(ROOT / "target" / "shared" / "libroskudla.so")

    def card(self, case):
        return self.library.card(case.rule.encode(), generate.tables_file(case.tables))

    def call(self, call, case, most=None):
        """The times of LIST, RUN or JUDGE by the library and the Rust implementation."""
        source = case.rule.encode() if call == "judge" else self.card(case)
        return self.programs.times(call, source, generate.tables_file(case.tables), case.row, most)

    def text(self, call, text):
        """The times of READ or CARD by the same two. Another refusal than the one that is told of the text is an error."""
        source, file = text.text.encode(), generate.tables_file(cases.TEXT_TABLES)
        demand_refusal(text, self.library.read, source, file)
        return self.programs.times(call, source, file)

    def imported(self, lines):
        """The times of IMPORT by the same two. Another refusal than the one that is told of the lines is an error."""
        source, columns = lines.text().encode(), lines.table[0]
        demand_refusal(lines, self.library.import_lines, source, columns)
        return self.programs.times("import", source, b"", columns)

    def exported(self, lines, room):
        """The times of EXPORT by the same two, with so much room. Other lines than those of the case are an error."""
        file = generate.tables_file([lines.table])
        if self.library.export_lines(file) != lines.text().encode():
            raise programs.Different(f"the library exports other lines: {lines.title}")
        return self.programs.times("export", b"", file, room)

    def wanted(self, call, case):
        """What an engine's query has to give, by the library's answer."""
        card, file = self.card(case), generate.tables_file(case.tables)
        return list(self.library.list_rows(card, file)) if call == "list" else [1] * self.library.run(card, file, case.row)

    def query(self, call, case, indexes=()):
        """The times of LIST or RUN by the engines. An answer that is not the library's is an error."""
        wanted = self.wanted(call, case)
        query = engines.list_query(case) if call == "list" else engines.run_query(case)
        times = {}
        for engine in self.engines:
            try:
                times[engine.name], got = engine.ask(case.tables, query, indexes)
            except engines.Timeout:
                times[engine.name] = LATE
                continue
            if got != wanted:
                raise programs.Different(f"{engine.name} and the library differ on {sorted(set(got) ^ set(wanted))[:9]}: {query}")
        return times


# ---- What is measured

class Sheet:
    """The lines of all tables. The longest RUNs are added when the rounds are over."""

    def __init__(self, bench):
        self.cases, self.texts, self.lines = cases.compared(), list(cases.texts()), list(cases.comma_lines())
        self.list, self.run = (
            [Line(case.title, partial(bench.call, call, case), partial(bench.query, call, case)) for case in self.cases] for call in ("list", "run"))
        self.judge = [Line(case.title, partial(bench.call, "judge", case)) for case in self.cases]
        self.read, self.card = ([Line(text.title, partial(bench.text, call, text)) for text in self.texts] for call in ("read", "card"))
        self.growth = {
            growth: [Line(f"{growth.title}, {rows:,} rows", partial(bench.call, "list", growth.case(rows))) for rows in growth.row_counts]
            for growth in cases.GROWING}
        self.indexed = [Line(call.upper(), partial(bench.query, call, cases.exists(cases.MOST_ROWS), [(2, 1)])) for call in ("list", "run")]
        self.imported = [Line(lines.title, partial(bench.imported, lines)) for lines in self.lines]
        self.exported = [
            Line(f"{lines.title}{what}", partial(bench.exported, lines, room or len(lines.text())))
            for lines in self.written() for what, room in (("", roskudla.MOST_LINES_BYTES), ("; just enough room", None))]
        self.longest = []

    def written(self):
        """The cases of EXPORT. The text of one is what EXPORT writes: LF behind each line, and no spare zeros."""
        return [lines for lines in self.lines if lines.refusal is None]

    def of_lines(self):
        """The lines of IMPORT and EXPORT."""
        return {"IMPORT": self.imported, "EXPORT": self.exported}

    def named(self):
        """The lines that are compared with the Rust implementation, by the call that they are of."""
        grown = [line for lines in self.growth.values() for line in lines]
        return {
            "LIST": self.list, "RUN": self.run, "READ": self.read, "CARD": self.card, "JUDGE": self.judge, "LIST, growth": grown,
            **self.of_lines(), "RUN, longest": self.longest}

    def take(self, comma):
        """Measures once more those of IMPORT and EXPORT alone, or all but the longest RUNs."""
        named = self.of_lines() if comma else self.named()
        for line in [line for lines in named.values() for line in lines] + ([] if comma else self.indexed):
            line.take()


# ---- Tables

def time_cell(time):
    return f"over {engines.TIMEOUT_SECONDS} s" if time == LATE else shown.time(time)


def with_ratios(times, sides):
    """The library's time, and that of each of the sides with the ratio."""
    library = times["library"]
    return [shown.time(library)] + [cell for side in sides for cell in (time_cell(times.get(side)), shown.ratio(library, times.get(side)))]


def compared_table(lines, sides):
    headings = ["rule", "library"] + [heading for side in sides for heading in (side, f"library / {side}")]
    return shown.table(headings, [[line.title, *with_ratios(line.times, sides)] for line in lines])


def titled(told):
    """The title of a text or of lines, with their refusal."""
    return told.title if told.refusal is None else f"{told.title} (refusal {told.refusal})"


def texts_table(sheet):
    rows = []
    for text, read, card in zip(sheet.texts, sheet.read, sheet.card):
        rows.append([titled(text), f"{len(text.text):,}", *with_ratios(read.times, ["Rust"]), *with_ratios(card.times, ["Rust"])])
    return shown.table(["text", "bytes", "READ", "Rust", "READ / Rust", "CARD", "Rust", "CARD / Rust"], rows)


def lines_table(heading, lines, titles, texts):
    """Lines of IMPORT or EXPORT, with the bytes of their comma lines."""
    rows = [[title, f"{len(text):,}", *with_ratios(line.times, ["Rust"])] for line, title, text in zip(lines, titles, texts)]
    return shown.table([heading, "bytes", "library", "Rust", "library / Rust"], rows)


def imported_table(sheet):
    return lines_table("comma lines", sheet.imported, map(titled, sheet.lines), (lines.text() for lines in sheet.lines))


def exported_table(sheet):
    """Each table has two lines: with room for any lines, and with just enough."""
    texts = (lines.text() for lines in sheet.written() for _ in range(2))
    return lines_table("table", sheet.exported, (line.title for line in sheet.exported), texts)


def growth_table(sheet):
    rows = []
    for growth, lines in sheet.growth.items():
        for count, line in zip(growth.row_counts, lines):
            each = shown.time(line.times["library"] / count ** growth.power)
            rows.append([growth.title, f"{count:,}", *with_ratios(line.times, ["Rust"]), f"{each} a {growth.unit}"])
    return shown.table(["rule", "rows of each table", "library", "Rust", "library / Rust", "library, divided"], rows)


def indexed_table(sheet):
    place = [case.title for case in sheet.cases].index(cases.exists(cases.MOST_ROWS).title)
    rows = [[line.title, *with_ratios(line.times | {"library": lines[place].times["library"]}, ENGINES)]
            for line, lines in zip(sheet.indexed, (sheet.list, sheet.run))]
    return shown.table(["call", "library"] + [heading for side in ENGINES for heading in (side, f"library / {side}")], rows)


# ---- The longest RUN

LONGEST = (  # what makes the case, the rows of its table, whether the engines are asked too
    (cases.one_comparison, 1000, True), (cases.all_levels, 200, True), (cases.most_work, 100, False), (cases.most_work, COMPUTED_FROM, False))


def longest_line(bench, case, asks, most=None):
    """The line of a long RUN, measured by each program twice, or by so many of them once, and by the engines if they are asked."""
    call = partial(bench.call, "run", case, most)
    line = Line(case.title, call, *([] if most else [call]), *([partial(bench.query, "run", case)] if asks else []))
    line.take()
    return line


def computed_line(line):
    """The line of the very longest RUN, from one with fewer rows: it grows with their cube."""
    more = (COMPUTED_FOR / COMPUTED_FROM) ** 3
    other = Line(f"{cases.most_work(COMPUTED_FOR).title}: computed from {COMPUTED_FROM} rows, not measured")
    other.times = {side: more * line.times[side] for side in programs.SIDES}
    return other


def longest_table(bench, sheet, whole):
    """The longest RUNs, of which the sheet keeps the measured lines. The very longest is measured with `whole` and computed otherwise."""
    sheet.longest = [longest_line(bench, make(rows), asks) for make, rows, asks in LONGEST]
    if whole:
        sheet.longest.append(longest_line(bench, cases.most_work(COMPUTED_FOR), False, most=1))
    lines = sheet.longest + ([] if whole else [computed_line(sheet.longest[-1])])
    rows = []
    for line, count in zip(lines, [count for _, count, _ in LONGEST] + [COMPUTED_FOR]):
        each = shown.time(line.times["library"] / count ** 3)
        rows.append([line.title, *with_ratios(line.times, ["Rust"]), each, *(time_cell(line.times.get(name)) for name in ENGINES)])
    return shown.table(["rule", "library", "Rust", "library / Rust", "library, for each three rows", *ENGINES], rows)


# ---- The run

def machine(sql_engines):
    """The kind of machine, and the versions of what is compared."""
    fields = dict(re.findall(r"^([a-z _]+?)\s*: (.*)$", pathlib.Path("/proc/cpuinfo").read_text(), re.MULTILINE))
    processor = f"{fields['model name']} (family {fields['cpu family']}, model {fields['model']})"
    rust = subprocess.run(["rustc", "--version"], check=True, capture_output=True, text=True).stdout.split()[1]
    versions = [f"Rust {rust}"] + [f"{engine.name} {engine.version()}" for engine in sql_engines]
    return f"{os.cpu_count()} cores, {processor}, Linux; {', '.join(versions)}"


def show_lines(sheet):
    print("### IMPORT\n\n" + imported_table(sheet))
    print("### EXPORT\n\n" + exported_table(sheet))


def show(sheet):
    print("### LIST\n\n" + compared_table(sheet.list, programs.SIDES[1:] + ENGINES))
    print("### RUN of one row\n\n" + compared_table(sheet.run, programs.SIDES[1:] + ENGINES))
    print("### The engines with an index on `v.1`\n\n" + indexed_table(sheet))
    print("### READ and CARD\n\n" + texts_table(sheet))
    print("### JUDGE of one row\n\n" + compared_table(sheet.judge, programs.SIDES[1:]))
    print("### Growth of LIST\n\n" + growth_table(sheet))
    show_lines(sheet)


def say(what):
    print(f"bench: {what}", file=sys.stderr, flush=True)


def measure(quick, whole, comma):
    with contextlib.ExitStack() as afterwards:
        folder = pathlib.Path(afterwards.enter_context(tempfile.TemporaryDirectory()))
        sql_engines = [] if comma else [engines.Sqlite(folder)] + ([] if quick else [afterwards.enter_context(engines.postgres())])
        bench = Bench(programs.Programs(folder, programs.PADDINGS[:1 if quick else None]), sql_engines)
        print(f"Machine: {machine(sql_engines)}. Load at the start: {os.getloadavg()[0]:.1f}.\n", flush=True)
        sheet = Sheet(bench)
        rounds = 1 if quick else ROUNDS
        for number in range(rounds):
            say(f"round {number + 1} of {rounds}, load {os.getloadavg()[0]:.1f}")
            sheet.take(comma)
        if comma:
            show_lines(sheet)
            return
        show(sheet)
        if not quick:
            say("the longest RUNs")
            print("### The longest RUN\n\n" + longest_table(bench, sheet, whole))
        print("### Goals\n\n" + goals.summary(sheet))


def main():
    parser = argparse.ArgumentParser(prog="bench/run", description="Measures the calls and prints tables in Markdown.")
    parser.add_argument("--quick", action="store_true", help="one round, no PostgreSQL, not the longest RUNs")
    parser.add_argument("--worst", action="store_true", help="measure the longest RUN whole, which takes a quarter of an hour and more")
    parser.add_argument("--lines", action="store_true", help="IMPORT and EXPORT alone, without the engines")
    words = parser.parse_args()
    for ending in (signal.SIGTERM, signal.SIGHUP):
        signal.signal(ending, lambda number, _: sys.exit(128 + number))  # so that PostgreSQL's server is stopped too
    try:
        measure(words.quick, words.worst, words.lines)
    except (programs.Different, engines.EngineError, engines.ServerError) as error:
        say(error)
        return 1
    return 0


if __name__ == "__main__":
    sys.exit(main())
