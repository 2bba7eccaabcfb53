"""What occurred in a comparison: rules by their forms, depths, names and values, values, and tables. A comparison with too little of one fails."""
import collections
import textwrap
import typing

from built import Disagreement  # (built adds the folders of the calls and of the model to the path)
import shape

import model

TRUTHS = (model.TRUE, model.UNKNOWN, model.FALSE)
MARKS = {model.MARK_PRESENT: "present", model.MARK_BLANK: "blank", model.MARK_DECLINED: "declined"}
LINE = 150

class Least(typing.NamedTuple):
    """Of the rules, at least these shares have each of these; of the values, each truth; of the files and their cells, these."""
    rules: dict
    values: dict
    files: dict
    cells: dict


LEAST_OF_RULES = {
    "EXISTS": .5, "SOME": .2, "ALL": .2, "IN": .2, "NOT IN": .2, "IS NULL": .5, "IS NOT NULL": .3,
    **{f"comparison {sign}": .15 for sign in shape.SIGNS},
    **{f"{sign} {word}": .03 for sign in shape.SIGNS for word in ("SOME", "ALL")},
    **{words: .08 for words in shape.TRUTH_TESTS},
    "a truth test in another": .12, "a truth test around a FROM": .15, "a truth test in a WHERE": .15, "a truth test under NOT": .08,
    f"truth tests and over {shape.MANY_ENTRIES} entries": .015,
    "FROMs 0": .05, "FROMs 1": .15, "FROMs 2": .15, "FROMs 3": .2,
    "a letter bound again": .4, "m bound again": .25, "a column of an outer row": .5, "left of a list, the letter that the list binds": .1,
    "a number at an end of the range": .03,
    "true on a row": .4, "unknown on a row": .2, "false on a row": .4, "values that differ between rows": .25,
    "a row source that is empty": .2, "other values with the later file": .25,
}
LEAST_OF_VALUES = {truth: .1 for truth in TRUTHS}
LEAST_OF_FILES = {"table 1 empty": .02, "another table empty": .2}

# Of rules and files that are drawn without anything declined; of those with it, what tells about it; and of these, everything.
LEAST_WITHOUT_DECLINED = Least(LEAST_OF_RULES, LEAST_OF_VALUES, LEAST_OF_FILES, {"blank": .4, "present": .4})
LEAST_OF_DECLINED = Least(
    {
        "IS DECLINED": .2, "IS NOT DECLINED": .25, "a column tested for declined": .35, "a number tested for declined": .08,
        "a column of an outer row tested for declined": .08, "a test for declined in a WHERE": .3, "a test for declined under NOT": .1,
        "a test for declined in a truth test": .1, "true on a row": .4, "unknown on a row": .2, "false on a row": .4},
    LEAST_OF_VALUES, {"declined cells and blank ones": .3}, {"blank": .18, "declined": .18, "present": .4})
LEAST_WITH_DECLINED = Least(
    LEAST_OF_RULES | {"IS NULL": .4} | LEAST_OF_DECLINED.rules, LEAST_OF_VALUES, LEAST_OF_FILES | LEAST_OF_DECLINED.files, LEAST_OF_DECLINED.cells)


class Mix:
    """Counts, each kind beside the number of all that are of its sort."""

    def __init__(self, least):
        self.least = least
        self.rules, self.values = collections.Counter(), collections.Counter()
        self.files, self.cells = collections.Counter(), collections.Counter()
        self.rule_count, self.file_count = 0, 0

    def add_file(self, tables):
        """A tables file."""
        self.file_count += 1
        empty = [not rows for rows in tables.rows]
        marks = collections.Counter(model.mark_of(cell) for rows in tables.rows for row in rows for cell in row)
        mixed = marks[model.MARK_BLANK] > 0 and marks[model.MARK_DECLINED] > 0
        self.files.update({"table 1 empty": empty[0], "another table empty": any(empty[1:]), "declined cells and blank ones": mixed})
        self.cells.update({name: marks[mark] for mark, name in MARKS.items()})

    def add_rule(self, tokens, tables_pair, values_pair):
        """A rule, by its tokens, with the tables of its two files and its values on their rows."""
        self.rule_count += 1
        found = shape.forms(tokens) | shape.traits(tokens) | shape.truth_traits(tokens) | shape.mark_traits(tokens) | {f"FROMs {shape.depth(tokens)}"}
        found |= {f"{value} on a row" for values in values_pair for value in values}
        if any(len(set(values)) > 1 for values in values_pair):
            found.add("values that differ between rows")
        if any(not tables.rows_of(source.table) for source in shape.froms(tokens) for tables in tables_pair):
            found.add("a row source that is empty")
        if set(values_pair[0]) != set(values_pair[1]) and all(values_pair):
            found.add("other values with the later file")
        self.rules.update(found)
        for values in values_pair:
            self.values.update(values)

    def sorts(self):
        """What is counted, with its counts, the number of all, and the least shares."""
        yield "rules", self.rules, self.rule_count, self.least.rules
        yield "values", self.values, self.values.total(), self.least.values
        yield "files", self.files, self.file_count, self.least.files
        yield "cells", self.cells, self.cells.total(), self.least.cells

    def report(self):
        """Prints the counts."""
        for sort, counts, whole, least in self.sorts():
            said = f"{sort}, of {whole:,}: " + ", ".join(f"{name}: {counts[name]:,}" for name in least)
            print(textwrap.fill(said, LINE, subsequent_indent="  "), flush=True)

    def demand(self):
        """An error if anything is rarer than it is to be."""
        rare = [f"{name} ({sort}): {counts[name]} of {whole}, at least {share:.0%} wanted"
                for sort, counts, whole, least in self.sorts() for name, share in least.items() if counts[name] < share * whole or whole == 0]
        if rare:
            raise Disagreement("too little occurred:\n  " + "\n  ".join(rare))
