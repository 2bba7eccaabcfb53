"""Rules as SQL, asked of SQLite and of PostgreSQL: the best time of a query that is prepared and warm, and the numbers that it gives.

A rule is translated token by token, so that the engines' own grammar, scopes and three-valued logic decide. A row's number is the primary key of its table, so
that a row is found by an index; what the engines know of the tables is up to date (ANALYZE). Times are of running the query alone: no parsing, no planning,
no loading, and no sending of the answer to another process.
"""
import contextlib
import os
import pathlib
import re
import subprocess
import sys

ROOT = pathlib.Path(__file__).resolve().parents[1]
sys.path += [str(ROOT / "tests" / folder) for folder in ("model", "postgres")]

import model  # noqa: E402
import server  # noqa: E402
import test_model  # noqa: E402

SQLITE_HEADER = pathlib.Path("/usr/include/sqlite3.h")
TIMEOUT_SECONDS = 60
SEPARATOR = "="
EXPLAIN = "EXPLAIN (ANALYZE, TIMING OFF, COSTS OFF, FORMAT JSON) EXECUTE asked;"
FIRST_TURNS = 3
LEAST_TURNS, MOST_TURNS, LONG_TURNS = 20, 300, 3
ALL_TURNS, LONG = 1e9, 5e8  # nanoseconds: of all turns of a query, and what a query takes that has few of them


ServerError = server.ServerError


class EngineError(Exception):
    """An engine is missing, or does not answer."""


class Timeout(Exception):
    """A query takes longer than it may."""


# ---- Rules and tables as SQL

def condition_of(rule):
    """A rule as a condition in SQL. A mark is compared with 2 for a declined value; SQLite alone takes IS for that, and a mark is never NULL."""
    condition = test_model.sql_of_tokens([str(token.value) for token in model.tokens_of(rule.encode())])
    return condition.replace(" IS 2", " = 2").replace(" IS NOT 2", " <> 2")


def list_query(case):
    return f"SELECT m.rowno FROM t1 m WHERE {condition_of(case.rule)} ORDER BY m.rowno"


def run_query(case):
    return f"SELECT 1 FROM t1 m WHERE m.rowno = {case.row} AND ({condition_of(case.rule)})"


def row_sql(number, row, marked):
    """A row with its number, the marks of its cells behind them if they are wanted."""
    marks = [model.mark_of(cell) for cell in row] if marked else []
    return f"({', '.join('NULL' if model.counts_as_blank(cell) else str(cell) for cell in [number] + row + marks)})"


def tables_sql(tables, sort, indexes):
    """Statements that make and fill tables of a sort, with indexes on columns that are given as (table, column).

    A table with declined cells has a column for the marks of each column.
    """
    for table, (columns, rows) in enumerate(tables, 1):
        marked = any(model.is_declined(cell) for row in rows for cell in row)
        names = "".join(f", {name}{column} integer" for name in ["c"] + ["mark"] * marked for column in range(1, columns + 1))
        yield f"CREATE {sort} t{table} (rowno integer PRIMARY KEY{names});"
        if rows:
            yield f"INSERT INTO t{table} VALUES {', '.join(row_sql(number, row, marked) for number, row in enumerate(rows))};"
    for table, column in indexes:
        yield f"CREATE INDEX i{table}_{column} ON t{table} (c{column});"
    for table in range(1, len(tables) + 1):
        yield f"ANALYZE t{table};"


# ---- SQLite

def demand_header():
    """SQLite's header for C; where it is missing, Debian's package is installed."""
    if SQLITE_HEADER.exists():
        return
    print("bench: no SQLite for C; installing Debian's package", file=sys.stderr, flush=True)
    quietly = os.environ | {"DEBIAN_FRONTEND": "noninteractive"}
    for command in (["update"], ["install", "-y", "libsqlite3-dev"]):
        done = subprocess.run(["apt-get", "-qq"] + command, env=quietly, stdout=subprocess.DEVNULL)
        if done.returncode != 0:
            raise EngineError(f"apt-get {' '.join(command)} ended with {done.returncode}")


class Sqlite:
    """SQLite in memory, by a program in C that keeps the prepared query. `folder`: where that program and its scripts are written."""
    name = "SQLite"

    def __init__(self, folder):
        demand_header()
        self.program, self.script = folder / "sqlite", folder / "script.sql"
        command = ["gcc", "-O2", "-std=gnu11", "-Wall", "-Wextra", "-o", str(self.program), str(ROOT / "bench" / "sqlite.c"), "-lsqlite3"]
        subprocess.run(command, check=True)

    def ask(self, tables, query, indexes=()):
        """The best time of a query, and the numbers that it gives."""
        statements = ["PRAGMA temp_store = MEMORY;", *tables_sql(tables, "TABLE", indexes), "BEGIN;"]
        self.script.write_text("\n".join(statements))
        done = subprocess.run([str(self.program), str(self.script), query, str(TIMEOUT_SECONDS)], capture_output=True, text=True)
        if done.returncode != 0:
            raise EngineError(f"SQLite: {done.stderr}\n{query}")
        if done.stdout.strip() == "timeout":
            raise Timeout()
        time, *numbers = done.stdout.split()
        return float(time), [int(number) for number in numbers]

    def version(self):
        return re.search(r'SQLITE_VERSION +"(.*)"', SQLITE_HEADER.read_text())[1]


# ---- PostgreSQL

def turns_for(time):
    """How often a query is timed that takes so many nanoseconds."""
    return LONG_TURNS if time > LONG else max(LEAST_TURNS, min(MOST_TURNS, int(ALL_TURNS / time)))


class Postgres:
    """A PostgreSQL server of one's own. `settings`: what each session sets, such as jit = on."""
    name = "PostgreSQL"

    def __init__(self, running, settings=()):
        self.running = running
        self.settings = (f"statement_timeout = '{TIMEOUT_SECONDS}s'", *settings)

    def asked(self, tables, query, indexes, turns):
        """What the server says of a query in one session: the numbers that it gives, and the time of each turn in nanoseconds."""
        before = [f"SET {setting};" for setting in self.settings] + ["BEGIN;", *tables_sql(tables, "TEMP TABLE", indexes)]
        lines = before + [f"PREPARE asked AS {query};", "EXECUTE asked;", f"\\echo {SEPARATOR}"] + [EXPLAIN] * turns + ["ROLLBACK;"]
        try:
            numbers, plans = self.running.ask("\n".join(lines) + "\n").split(SEPARATOR + "\n", 1)
        except server.ServerError as error:
            raise (Timeout() if "statement timeout" in str(error) else EngineError(f"{error}\n{query}")) from None
        times = [1e6 * float(time) for time in re.findall(r'"Execution Time": ([0-9.]+)', plans)]
        if len(times) != turns:
            raise EngineError(f"PostgreSQL gave {len(times)} times for {turns} turns\n{query}")
        return [int(number) for number in numbers.split()], times

    def ask(self, tables, query, indexes=()):
        """The best time of a query, and the numbers that it gives."""
        _, first = self.asked(tables, query, indexes, FIRST_TURNS)
        numbers, times = self.asked(tables, query, indexes, turns_for(min(first)))
        return min(first + times), numbers

    def version(self):
        return self.running.ask("SHOW server_version;").split()[0]


@contextlib.contextmanager
def postgres():
    """PostgreSQL while the block runs."""
    with server.private_server() as running:
        yield Postgres(running)
