"""The calls as built against stored answers of PostgreSQL: JUDGE and RUN on every row, and LIST, with the file that a rule is accepted with and a later one.

Exit status 0 when all agree, when there are as many rules as are to be, of every sort, and when wrong answers are noticed.
"""
import built
import comparison
import mix
import store

# For each batch, how many rules there are, and how much of what
BATCHES = ((2000, mix.LEAST_WITHOUT_DECLINED), (200, mix.LEAST_OF_DECLINED))


def main():
    calls = built.Calls()
    for (heading, groups), (rules, least) in zip(store.read(), BATCHES, strict=True):
        compared = comparison.Comparison(calls, least)
        compared.all(groups, rules)
        print(f"postgres, stored ({heading}): {compared.agreed()}")


if __name__ == "__main__":
    built.compare.end_with(main)
