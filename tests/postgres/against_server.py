"""Random rules against PostgreSQL: JUDGE and RUN on every row and LIST as built, with the tables file that a rule is accepted with and with a later one.

Exit status 0 when all agree, when every sort of rule and value was seen often, and when changed rules, tables and answers are noticed.
`--store` writes the answers to the file that replay.py compares with, as its last batch.
"""
import argparse
import collections
import itertools
import random
import signal
import sys

import built
import changed
import comparison
import drawn
import mix
import server
import sql
import store

import cases
import model
import test_model

RULES, SEED = 10000, 20261201
STORED_RULES, STORED_SEED = 200, 20261204
CHANGED_RULES, CHANGED_SEED = 1000, 20261203
GROUPS_OF_A_BATCH = 20


def answered(asked, groups):
    """Drawn groups with the server's values."""
    conditions = [[sql.condition_of(rule.tokens) for rule in group.rules] for group in groups]
    answers = iter(sql.answers(asked, [(model.tables_of(file), some) for group, some in zip(groups, conditions) for file in group.files]))
    for group in groups:
        values_pairs = zip(next(answers), next(answers))
        yield built.Group(group.files, [built.Rule(rule.tokens, rule.text, values) for rule, values in zip(group.rules, values_pairs)])


def all_answered(asked, groups):
    """The same, with some groups at a time going to the server."""
    remaining = iter(groups)
    while some := list(itertools.islice(remaining, GROUPS_OF_A_BATCH)):
        yield from answered(asked, some)


def check_cases(asked):
    """The proved cases of document 01, and cases of truth tests and of declined cells with their values, have the same values with the server."""
    plain = [(text.encode(), letters) for text, letters in test_model.CASES + test_model.TRUTH_CASES]
    check_values(asked, test_model.CASE_TABLES, plain)
    check_values(asked, cases.declined_file(0), cases.DECLINED_VALUES)
    counts = len(test_model.CASES), len(test_model.TRUTH_CASES), len(cases.DECLINED_VALUES)
    print("{} proved cases, {} of truth tests and {} of declined cells have the same values".format(*counts))


def check_values(asked, file, rules):
    """Rules by their texts have these values on the rows of a file, in letters, with the server."""
    tokens = [[str(token.value) for token in model.tokens_of(text)] for text, _ in rules]
    answers, = sql.answers(asked, [(model.tables_of(file), [sql.condition_of(some) for some in tokens])])
    for (text, letters), values in zip(rules, answers):
        built.compare.same(text, built.written(values), letters)


def check_too_large(calls, groups):
    """READ, JUDGE and CARD refuse the drawn rules that are too large, each with the number that its tokens tell."""
    refused = [(rule, group.files[0]) for group in groups for rule in group.too_large]
    for rule, file in refused:
        calls.refuse(rule.text, file, rule.refusal)
    counts = collections.Counter(rule.refusal for rule, _ in refused)
    said = ", ".join(f"{count} with {number}" for number, count in sorted(counts.items()))
    print(f"{len(refused)} rules drawn besides are too large, and refused for that: {said}")


def arguments():
    parser = argparse.ArgumentParser(description="compares the calls as built with PostgreSQL on random rules")
    parser.add_argument("--rules", type=int, help="how many rules")
    parser.add_argument("--seed", type=int, help="what the drawing begins with")
    parser.add_argument("--store", action="store_true", help="write the server's answers to the stored file, as its last batch")
    given = parser.parse_args()
    rules, seed = (STORED_RULES, STORED_SEED) if given.store else (RULES, SEED)
    return rules if given.rules is None else given.rules, seed if given.seed is None else given.seed, given.store


def compare_with(asked, calls, rules, seed, to_store):
    """The whole comparison."""
    version = asked.ask("SHOW server_version;").strip()
    heading = f"PostgreSQL {version}, {rules} rules from seed {seed}"
    print(heading, flush=True)
    check_cases(asked)
    changed.check_changes(asked, calls, list(drawn.groups(random.Random(CHANGED_SEED), CHANGED_RULES)))
    groups = list(drawn.groups(random.Random(seed), rules))
    check_too_large(calls, groups)
    with_values = list(all_answered(asked, groups))
    compared = comparison.Comparison(calls, mix.LEAST_OF_DECLINED if to_store else mix.LEAST_WITH_DECLINED)
    compared.all(with_values, rules)
    if to_store:
        print(f"stored: {store.write(heading, with_values):,} bytes")
    print(f"postgres: {compared.agreed()}")


def main():
    rules, seed, to_store = arguments()
    for ending in (signal.SIGTERM, signal.SIGHUP):
        signal.signal(ending, lambda number, _: sys.exit(128 + number))
    calls = built.Calls()
    try:
        with server.private_server() as asked:
            compare_with(asked, calls, rules, seed, to_store)
    except server.ServerError as error:
        sys.exit(f"postgres: {error}")


if __name__ == "__main__":
    built.compare.end_with(main)
