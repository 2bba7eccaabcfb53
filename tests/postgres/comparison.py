"""The calls against groups of rules with PostgreSQL's values."""
import built
import mix
import shape

import model

GROUPS_WITH_WRONG_VALUES = 4


def with_one_wrong(values):
    """Values with one of them changed, in each way; and the calls that have to notice, where true alone opens the gate."""
    for row, value in enumerate(values):
        for other in set(built.LETTERS) - {value}:
            opens = (value == model.TRUE) != (other == model.TRUE)
            yield values[:row] + (other,) + values[row + 1:], set(built.CALLS) if opens else {"JUDGE"}


class Comparison:
    """Compares group after group, and counts what was seen. `least`: how much there has to be of what."""

    def __init__(self, calls, least):
        self.calls = calls
        self.seen = mix.Mix(least)
        self.wrong_values = 0

    def group(self, group):
        """READ, CARD and CHECK accept every rule of a group, its card has as many entries as its tokens tell, and the other calls agree with its values."""
        tables_pair = [model.tables_of(file) for file in group.files]
        for tables in tables_pair:
            self.seen.add_file(tables)
        for rule in group.rules:
            self.calls.read(rule.text, group.files[0], shape.part_count(rule.tokens))
            ready = self.calls.rule(rule.text, group.files[0])
            built.compare.same((rule.text, "entries"), int.from_bytes(ready.card[:2], "little"), shape.entry_sum(rule.tokens))
            for file, values in zip(group.files, rule.values_pair):
                built.agree(ready, file, values)
            self.seen.add_rule(rule.tokens, tables_pair, rule.values_pair)

    def wrong(self, group):
        """Each wrong value is noticed, by just the calls that depend on it."""
        for rule in group.rules:
            ready = self.calls.rule(rule.text, group.files[0])
            for file, values in zip(group.files, rule.values_pair):
                for wrong, wanted in with_one_wrong(values):
                    differ = built.calls_that_differ(ready, file, wrong)
                    built.compare.same((rule.text, file, built.written(wrong), "calls that notice a wrong value"), differ, wanted)
                    self.wrong_values += 1

    def all(self, groups, least_rules):
        """Compares groups, of which the first are tried with wrong values too. There have to be enough rules, of every sort."""
        for number, group in enumerate(groups):
            self.group(group)
            if number < GROUPS_WITH_WRONG_VALUES:
                self.wrong(group)
        self.seen.report()
        print(f"{self.wrong_values:,} wrong values are noticed")
        self.seen.demand()
        if self.seen.rule_count < least_rules:
            raise built.Disagreement(f"{self.seen.rule_count} rules, of at least {least_rules}")

    def agreed(self):
        """How much agreed, in words."""
        rules, values = self.seen.rule_count, self.seen.values.total()
        return f"{rules:,} rules, {values:,} values and {2 * rules:,} lists agree"
