"""Random rules and tables: about half of the cells blank or declined, empty tables often, FROMs in one another, letters bound again, truth tests and tests
for declined values in many rules."""
import typing

import built  # noqa: F401  (it adds the folders of the calls and of the model to the path)
import shape

import generate

RULES_OF_A_FILE = 25
SIZES = (1, 2, 2, 3, 3, 4, 4, 5, 6, 8, 12, 20)
FROMS = (1, 2, 3, 3)
BLANKS = (.4, .5, .5, .6)  # how often a cell is blank or declined
TRUTHS = (0, 0, .1, .2)  # how often a factor is a truth test
SORTS = {"of a size": .82, "tested": .12, "of a sum": .06}
TESTED_SIZES = (1, 1, 2, 3)
SUMS = (31, 63, 95, 127, 150, 170, 188, 189, 190, 191, 191, 192, 192, 192, 193, 193, 193, 194, 195, 255, 257)
TABLE_COUNTS = (1, 2, 2, 3, 3, 4)
COLUMN_COUNTS = (1, 2, 2, 3, 4)
JUDGED_ROWS = (1, 2, 3, 4, 5, 6) * 3 + (0,)  # seldom none: with no row to judge, a rule has no value
OTHER_ROWS = (0, 0, 1, 2, 3, 4, 5, 6)


class DrawnRule(typing.NamedTuple):
    """A rule's tokens and text. `refusal`: what it is to be refused with, or None."""
    tokens: list
    text: bytes
    refusal: int | None


class DrawnGroup(typing.NamedTuple):
    """A tables file with a later one of the same columns, and rules for them; those that are too large are apart."""
    files: tuple
    rules: list
    too_large: list


def tables_with(draw, columns):
    """A file of tables with these columns."""
    rows = [draw.choice(OTHER_ROWS if number > 0 else JUDGED_ROWS) for number in range(len(columns))]
    return generate.filled_tables(draw, list(zip(columns, rows)), draw.choice(BLANKS))


def drawn_tokens(draw, columns):
    """The tokens of a rule: of a size; of a sum of entries; or one that is a truth test of a small rule, which is unknown more often than a large one."""
    sort, = draw.choices(list(SORTS), SORTS.values())
    truths = 0 if sort == "tested" else draw.choice(TRUTHS)
    maker = generate.SumMaker(draw, columns, deepest=draw.choice(FROMS), constants=.2, outer=.7, even=True, truths=truths)
    if sort == "of a sum":
        return maker.rule_of_sum(draw.choice(SUMS))
    if sort == "tested":
        return ["("] + maker.rule(draw.choice(TESTED_SIZES)) + [")"] + generate.truth_ending(draw)
    return maker.rule(draw.choice(SIZES))


def rule(draw, columns):
    """A rule that is right for tables with these columns, but for its size."""
    tokens = drawn_tokens(draw, columns)
    text = generate.spaced(draw, tokens)
    return DrawnRule(tokens, text, shape.refusal(tokens, text))


def group(draw, count):
    """A group with so many rules that are to be accepted."""
    columns = [draw.choice(COLUMN_COUNTS) for _ in range(draw.choice(TABLE_COUNTS))]
    some = DrawnGroup((tables_with(draw, columns), tables_with(draw, columns)), [], [])
    while len(some.rules) < count:
        one = rule(draw, columns)
        (some.rules if one.refusal is None else some.too_large).append(one)
    return some


def groups(draw, count):
    """Groups with so many rules in all."""
    for start in range(0, count, RULES_OF_A_FILE):
        yield group(draw, min(RULES_OF_A_FILE, count - start))
