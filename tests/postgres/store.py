"""Stored answers of PostgreSQL, for a comparison without a server, in batches. `run --store` writes the last batch, and leaves those before it as they are:
the first was drawn and answered before there were declined cells. A change of the file is to be read line by line.

The first line of a batch begins with # and says what answered. A line `tables` has two tables files in hexadecimal: the one that the rules behind it are
accepted with, and a later one. The line of a rule has its text, with each line feed as \\n, and its values on the rows of table 1 of either file: T, U or
F for each row, - for no row.
"""
import pathlib

import built

import model

PATH = pathlib.Path(__file__).with_name("stored.txt")
HEADING = "# "
KEPT_BATCHES = 1
TABLES = "tables"
NO_ROWS = "-"


def rule_line(rule):
    values = (built.written(values) or NO_ROWS for values in rule.values_pair)
    return "\t".join([rule.text.decode().replace("\n", "\\n"), *values])


def rule_from(written, *values):
    """The rule of a line's fields; its tokens are only for counting what is in it."""
    text = written.replace("\\n", "\n").encode()
    values_pair = tuple(tuple(built.TRUTHS[letter] for letter in letters if letters != NO_ROWS) for letters in values)
    return built.Rule([str(token.value) for token in model.tokens_of(text)], text, values_pair)


def batch_lines():
    """The lines of each batch, its heading first."""
    batches = []
    for line in PATH.read_text().splitlines():
        if line.startswith(HEADING):
            batches.append([])
        batches[-1].append(line)
    return batches


def write(heading, groups):
    """Writes the groups as the batch behind those that are kept; gives how many bytes the file has."""
    lines = [line for batch in batch_lines()[:KEPT_BATCHES] for line in batch] + [HEADING + heading]
    for group in groups:
        lines.append("\t".join([TABLES] + [file.hex() for file in group.files]))
        lines += [rule_line(rule) for rule in group.rules]
    return PATH.write_text("\n".join(lines) + "\n", newline="\n")


def read():
    """For each batch what answered, and the stored groups."""
    batches = []
    for heading, *lines in batch_lines():
        groups = []
        for line in lines:
            fields = line.split("\t")
            if fields[0] == TABLES:
                groups.append(built.Group(tuple(bytes.fromhex(file) for file in fields[1:]), []))
            else:
                groups[-1].rules.append(rule_from(*fields))
        batches.append((heading.removeprefix(HEADING), groups))
    return batches
