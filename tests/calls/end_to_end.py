"""A rule from its text to the gate, by the calls as built: JUDGE, CARD, and CHECK, RUN and LIST of the card that CARD made, against the model's values.

What demand 3 compares: true, false or unknown is the model's reading of the text at a row of the later file; nothing of it comes from a card.
"""
import collections

import compare

import cases  # noqa: E402  (compare adds the model's folder to the path)
import model

LONGEST_CARD = 3 + model.MOST_TABLES + (1 + model.RECORD_BYTES) * model.MOST_ENTRIES


class Rule:
    """A rule that is accepted with a tables file, and its card as CARD makes it, which CHECK has to pass."""

    def __init__(self, rules, gate, text, file):
        self.rules, self.gate, self.text = rules, gate, text
        self.condition, _ = model.accepted(text, file)
        lent = cases.lent("CARD", LONGEST_CARD)
        length, after = rules.card(text, file, lent)
        wanted = model.card(text, file, LONGEST_CARD)
        compare.same((text, "CARD"), (length, after), (len(wanted), tuple(wanted) + lent[len(wanted):]))
        self.card = bytes(after[:length])
        compare.same((text, "CHECK"), gate.check(self.card), model.SOUND)
        self.counts = collections.Counter({("CARD", "given"): 1, ("CHECK", "given sound"): 1})

    def values_on(self, tables):
        """The model's value on each row of table 1."""
        return [model.meaning(self.condition, tables, ["m"], [row]) for row in tables.rows_of(1)]

    def judge(self, file, values):
        """JUDGE gives these values on the rows, and refuses the row behind them."""
        for row, value in enumerate(values):
            compare.same((self.text, file, row, "JUDGE"), self.rules.judge(self.text, file, row), value)
            self.counts["JUDGE", f"given {value}"] += 1
        compare.same((self.text, file, "JUDGE behind the last row"), self.rules.judge(self.text, file, len(values)), model.Refused(11))
        self.counts["JUDGE", "refused 11"] += 1

    def run(self, file, values):
        """RUN says yes exactly where the value is true, and refuses the row behind the last."""
        for row, value in enumerate(values):
            compare.same((self.text, file, row, "RUN"), self.gate.run(self.card, file, row), value == model.TRUE)
            self.counts["RUN", f"given {value == model.TRUE}"] += 1
        compare.same((self.text, file, "RUN behind the last row"), self.gate.run(self.card, file, len(values)), model.Refused(11))
        self.counts["RUN", "refused 11"] += 1

    def list_rows(self, file, values):
        """LIST gives exactly the rows where the value is true, with just room enough and one more, and refuses one fewer."""
        wanted = tuple(row for row, value in enumerate(values) if value == model.TRUE)
        for room in (len(wanted), len(wanted) + 1):
            lent = cases.lent("LIST", room)
            compare.same((self.text, file, room, "LIST"), self.gate.list_rows(self.card, file, lent), (len(wanted), wanted + lent[len(wanted):]))
            self.counts["LIST", "given"] += 1
        if wanted:
            lent = cases.lent("LIST", len(wanted) - 1)
            compare.same((self.text, file, "LIST one short"), self.gate.list_rows(self.card, file, lent), (model.Refused(12), lent))
            self.counts["LIST", "refused 12"] += 1
