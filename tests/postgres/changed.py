"""That the comparison can fail: PostgreSQL is asked about rules and tables that were changed on the way to it, and the calls must be seen to differ."""
import collections
import typing

import built
import shape
import sql

import model

LEAST_NOTICED = 10


def replaced(old, new):
    """The change that puts `new` where the tokens `old` stand."""
    def change(tokens):
        changed, place = [], 0
        while place < len(tokens):
            stands = tokens[place:place + len(old)] == old
            changed += new if stands else tokens[place:place + 1]
            place += len(old) if stands else 1
        return changed
    return change


def unknown_passes_neither(tokens):
    """The two tests for TRUE and FALSE that an unknown value passes, as the two that it does not."""
    return replaced(["IS", "NOT", "FALSE"], ["IS", "TRUE"])(replaced(["IS", "NOT", "TRUE"], ["IS", "FALSE"])(tokens))


def without_nots(tokens):
    """Every NOT left out that is a part of its own."""
    followed = zip(tokens, tokens[1:] + [""])
    return [token for token, after in followed if token != "NOT" or after in shape.BEHIND_NOT]


def without_truth_tests(tokens):
    """The words of every truth test left out."""
    words = {test.end + 1 + place for test in shape.truth_tests(tokens) for place in range(len(test.words.split()))}
    return [token for place, token in enumerate(tokens) if place not in words]


def bracket_end(tokens, place):
    """Where the bracket closes that a place is in."""
    opened = 1
    while opened > 0:
        place += 1
        opened += (tokens[place] == "(") - (tokens[place] == ")")
    return place


def without_list_wheres(tokens):
    """The WHERE left out of every list, with all that is in it."""
    if "SELECT" not in tokens:
        return tokens
    select = tokens.index("SELECT")
    where = tokens.index("WHERE", select)
    return tokens[:where] + without_list_wheres(tokens[bracket_end(tokens, select):])


def cells_replaced(old, new):
    """The change that puts the cell `new` in place of each cell `old`."""
    def change(tables):
        return model.Tables(tables.columns, [[[new if cell == old else cell for cell in row] for row in rows] for rows in tables.rows])
    return change


def last_rows_dropped(tables):
    """Tables in which all but table 1 lack their last row."""
    return model.Tables(tables.columns, [rows if number == 0 else rows[:-1] for number, rows in enumerate(tables.rows)])


class Change(typing.NamedTuple):
    """What is done to a rule's tokens, and to tables, before PostgreSQL sees them."""
    name: str
    of_tokens: typing.Callable = list
    of_tables: typing.Callable = lambda tables: tables


CHANGES = (
    Change("IN for NOT IN", replaced(["NOT", "IN"], ["IN"])),
    Change("<= for <", replaced(["<"], ["<="])),
    Change(">= for >", replaced([">"], [">="])),
    Change("<> for =", replaced(["="], ["<>"])),
    Change("ALL for SOME", replaced(["SOME"], ["ALL"])),
    Change("SOME for ALL", replaced(["ALL"], ["SOME"])),
    Change("NOT EXISTS for EXISTS", replaced(["EXISTS"], ["NOT", "EXISTS"])),
    Change("IS NOT NULL for IS NULL", replaced(["IS", "NULL"], ["IS", "NOT", "NULL"])),
    Change("OR for AND", replaced(["AND"], ["OR"])),
    Change("no NOT", without_nots),
    Change("lists without WHERE", without_list_wheres),
    Change("no truth tests", without_truth_tests),
    Change("IS TRUE for IS NOT FALSE and IS FALSE for IS NOT TRUE", unknown_passes_neither),
    Change("IS FALSE for IS UNKNOWN", replaced(["IS", "UNKNOWN"], ["IS", "FALSE"])),
    Change("IS TRUE for IS NOT UNKNOWN", replaced(["IS", "NOT", "UNKNOWN"], ["IS", "TRUE"])),
    Change("IS NOT DECLINED for IS DECLINED", replaced(["IS", "DECLINED"], ["IS", "NOT", "DECLINED"])),
    Change("IS NULL for IS DECLINED", replaced(["IS", "DECLINED"], ["IS", "NULL"])),
    Change("IS NOT NULL for IS NOT DECLINED", replaced(["IS", "NOT", "DECLINED"], ["IS", "NOT", "NULL"])),
    Change("blanks as 0", of_tables=cells_replaced(model.BLANK_CELL, 0)),
    Change("declined as 0", of_tables=cells_replaced(model.DECLINED_CELL, 0)),
    Change("declined as blank", of_tables=cells_replaced(model.DECLINED_CELL, model.BLANK_CELL)),
    Change("blank as declined", of_tables=cells_replaced(model.BLANK_CELL, model.DECLINED_CELL)),
    Change("last rows dropped", of_tables=last_rows_dropped),
)


def concerned(change, file, ready):
    """The rules that PostgreSQL is asked about otherwise than they are, by a change."""
    tables = model.tables_of(file)
    tables_differ = change.of_tables(tables) != tables
    return [(tokens, rule) for tokens, rule in ready if tables_differ or change.of_tokens(tokens) != tokens]


def check_change(server, groups, change):
    """PostgreSQL's answers after a change are often noticed, by each call. A group is a file, and its rules by their tokens and as the calls have them."""
    asked = [(file, concerned(change, file, ready)) for file, ready in groups]
    answers = sql.answers(server, [
        (change.of_tables(model.tables_of(file)), [sql.condition_of(change.of_tokens(tokens)) for tokens, _ in rules]) for file, rules in asked])
    noticed = collections.Counter()
    for (file, rules), answered in zip(asked, answers):
        for (_, rule), values in zip(rules, answered):
            noticed.update(built.calls_that_differ(rule, file, values))
    said = ", ".join(f"{name} {noticed[name]}" for name in built.CALLS)
    print(f"  {change.name}: {sum(len(rules) for _, rules in asked)} rules, noticed by {said}", flush=True)
    if min(noticed[name] for name in built.CALLS) < LEAST_NOTICED:
        raise built.Disagreement(f"the change '{change.name}' is noticed too seldom: {said}")


def check_changes(server, calls, groups):
    """Every change is noticed in drawn groups."""
    print("PostgreSQL asked about something else:")
    ready = [(group.files[0], [(rule.tokens, calls.rule(rule.text, group.files[0])) for rule in group.rules]) for group in groups]
    for change in CHANGES:
        check_change(server, ready, change)
