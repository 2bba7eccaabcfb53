"""Rules and tables as SQL. A rule is translated token by token, so that PostgreSQL's own grammar, grouping, scopes and three-valued logic decide.

PostgreSQL has no declined cells: beside each column there stands one for the marks, which is never NULL. A blank or declined cell is NULL, and a test for
a declined value is a condition on its mark.
"""
from built import Disagreement  # (built adds the folders of the calls and of the model to the path)

import model
from test_model import sql_of_tokens

SEPARATOR = "="
TRUTHS = {"t": model.TRUE, "f": model.FALSE, "U": model.UNKNOWN}


def condition_of(tokens):
    """The condition in SQL of a rule's tokens. SOME, ALL and the words of truth tests stay as they are, UNKNOWN too, which the model has another word for."""
    place = next((place for place, token in enumerate(tokens) if token in ("UNKNOWN", "DECLINED")), None)
    if place is None:
        return sql_of_tokens(tokens)
    start, translated = (place, "UNKNOWN") if tokens[place] == "UNKNOWN" else mark_test(tokens, place)
    return f"{sql_of_tokens(tokens[:start])} {translated} {condition_of(tokens[place + 1:])}"


def mark_test(tokens, place):
    """Where the test begins whose DECLINED stands at a place, and its condition on the mark of its value; a number is never declined, so its mark is 0."""
    words = 2 if tokens[place - 1] == "NOT" else 1
    end = place - words
    is_column = end > 2 and tokens[end - 2] == "."
    mark = f"{tokens[end - 3]}.mark{tokens[end - 1]}" if is_column else "0"
    return end - (3 if is_column else 1), f"({mark} {'<>' if words == 2 else '='} {model.MARK_DECLINED})"


def cell_sql(cell):
    """A cell's value and mark."""
    return f"{'NULL' if model.counts_as_blank(cell) else cell}, {model.mark_of(cell)}"


def table_sql(number, columns, rows):
    """A table with a column for the row's number, and then for each of its own the values and the marks."""
    names = "".join(f", c{column} integer, mark{column} smallint NOT NULL" for column in range(1, columns + 1))
    yield f"CREATE TEMP TABLE t{number} (rowno integer{names});"
    if rows:
        listed = ", ".join(f"({', '.join([str(place), *map(cell_sql, row)])})" for place, row in enumerate(rows))
        yield f"INSERT INTO t{number} VALUES {listed};"


def script_of(tables, conditions):
    """The tables, and for each condition two queries, its values and the rows that it admits, each behind a separator.

    The tables go with the transaction.
    """
    yield "BEGIN;"
    for number, columns in enumerate(tables.columns, 1):
        yield from table_sql(number, columns, tables.rows_of(number))
    for condition in conditions:
        yield from (f"\\echo {SEPARATOR}", f"SELECT m.rowno, ({condition}) FROM t1 m ORDER BY m.rowno;")
        yield from (f"\\echo {SEPARATOR}", f"SELECT m.rowno FROM t1 m WHERE {condition} ORDER BY m.rowno;")
    yield "ROLLBACK;"


def printed(output):
    """The lines that were printed for each query, by the separators."""
    queries = []
    for line in output.splitlines():
        if line == SEPARATOR:
            queries.append([])
        else:
            queries[-1].append(line)
    return queries


def values_from(condition, row_count, value_lines, row_lines):
    """A condition's values on the rows, from what was printed for its two queries.

    An error if a row is missing, or if the WHERE admits other rows than those where the value is true: so whoever agrees with the values agrees with both.
    """
    pairs = [line.split("|") for line in value_lines]
    if [int(row) for row, _ in pairs] != list(range(row_count)):
        raise Disagreement(f"PostgreSQL's rows {pairs} are not those of {row_count}: {condition}")
    values = tuple(TRUTHS[said] for _, said in pairs)
    rows = tuple(int(line) for line in row_lines)
    if rows != tuple(row for row, value in enumerate(values) if value == model.TRUE):
        raise Disagreement(f"PostgreSQL's values {values} and its rows {rows} differ: {condition}")
    return values


def answers(server, batch):
    """The server's answers to a batch of (tables, conditions): for each of these pairs a list, for each condition its values."""
    output = server.ask("\n".join(line for tables, conditions in batch for line in script_of(tables, conditions)) + "\n")
    queries = printed(output)
    if len(queries) != 2 * sum(len(conditions) for _, conditions in batch):
        raise Disagreement(f"{len(queries)} queries were answered")
    lines = iter(queries)
    return [[values_from(condition, len(tables.rows_of(1)), next(lines), next(lines)) for condition in conditions] for tables, conditions in batch]
