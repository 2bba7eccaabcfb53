"""The calls as they are built, compared with values of rules that come from elsewhere.

It adds the folders of the calls and of the model to the path.
"""
import pathlib
import sys
import typing

sys.path.insert(0, str(pathlib.Path(__file__).resolve().parents[1] / "calls"))

import compare  # noqa: E402
import end_to_end  # noqa: E402
import library  # noqa: E402
import stored  # noqa: E402

import cases  # noqa: E402  (library adds the model's folder to the path)
import model  # noqa: E402

Disagreement = compare.Disagreement
LETTERS, TRUTHS = stored.LETTERS, stored.TRUTHS
CALLS = ("JUDGE", "RUN", "LIST")


class Rule(typing.NamedTuple):
    """A rule: its tokens, its text, and its values on the rows of table 1 of its group's two files."""
    tokens: list
    text: bytes
    values_pair: tuple


class Group(typing.NamedTuple):
    """Rules, and two tables files for them: the one that they are accepted with, and a later one with the same columns."""
    files: tuple
    rules: list


def written(values):
    """Values as they are stored and shown: T, U or F for each row."""
    return "".join(LETTERS.get(value, "?") for value in values)


class Calls:
    """The calls of the whole archive that read rules and run cards."""

    def __init__(self):
        built = library.load("roskudla")
        self.rules, self.gate = library.Rules(built), library.Gate(built)

    def read(self, text, file, part_count):
        """READ answers so many parts, with just room enough."""
        answer, _ = self.rules.read(text, file, cases.lent("READ", part_count))
        compare.same(("READ", text, model.tables_of(file)), answer, part_count)

    def refuse(self, text, file, refusal):
        """READ and CARD without room and JUDGE of an absent row give this refusal, which goes before what else is wrong there."""
        answers = {
            "READ": self.rules.read(text, file, cases.lent("READ", 0))[0], "CARD": self.rules.card(text, file, cases.lent("CARD", 0))[0],
            "JUDGE": self.rules.judge(text, file, model.MOST_ROWS)}
        compare.same((text, model.tables_of(file)), answers, dict.fromkeys(answers, model.Refused(refusal)))

    def rule(self, text, file):
        """A rule that is accepted with a file, and the card that CARD makes of it and CHECK passes."""
        return end_to_end.Rule(self.rules, self.gate, text, file)


def checks(rule):
    """What is compared with a rule's values: JUDGE and RUN on every row, and LIST with room enough and with too little."""
    return dict(zip(CALLS, (rule.judge, rule.run, rule.list_rows)))


def agree(rule, file, values):
    """All calls agree with the values of a rule on the rows of a file."""
    try:
        for check in checks(rule).values():
            check(file, values)
    except Disagreement as error:
        tables = model.tables_of(file)
        judged = written(rule.rules.judge(rule.text, file, row) for row in range(len(tables.rows_of(1))))
        raise Disagreement(f"{error}\nrule   {rule.text.decode()!r}\ntables {tables}\nvalues by JUDGE {judged}, wanted {written(values)}") from None


def calls_that_differ(rule, file, values):
    """The calls that do not agree with these values of a rule."""
    names = set()
    for name, check in checks(rule).items():
        try:
            check(file, values)
        except Disagreement:
            names.add(name)
    return names
