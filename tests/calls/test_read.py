"""READ as built, against answers worked out by hand from documents 01 and 02, stored answers, and the reference model: both sides of every limit, sums of
entries around theirs, every token next to every token, truth tests and tests of declined cells out of place, every set of refusals together, every byte value
in small rules, lists of every length, and random draws.

Exit status 0 when all answers and all lent lists agree, and every sort of answer was seen, in each group those that belong to it.
"""
import collections
import itertools
import random

import compare
import library
import paper
import stored
import sums
import variants

import cases  # noqa: E402  (library adds the model's folder to the path)
import generate
import model

SEED = 20261115
DRAWS = 12000
SPACED_RULES = 150
LONG_TEXTS = 150
SUMMED_RULES = 600
MISPLACED_TRUTHS = 1500
MISPLACED_DECLINED = 700
ROOM = 70
TABLES = cases.SOME_TABLES

read_sorts = compare.sorts_of("READ")
WANTED = read_sorts(*cases.REFUSALS_OF["READ"])


def answer_of(reader, case):
    return cases.Expected(*reader.read(case.source, case.file, case.buffer))


def read_case(text, more=1):
    return cases.fitting("READ", text, TABLES, more)


# ---- answers that are written down

def different_parts(room):
    """So many parts, no two of them alike, and none that a rule has."""
    return tuple(model.Part(200, place, 255 - place, 99, model.TaggedValue(place, -1 - place), model.TaggedValue(7, place)) for place in range(room))


def check_written(reader, text, file, wanted):
    """The sort of an answer that is written down: a refusal, or the numbers of the parts. The library has to give it, and the model too."""
    lent = different_parts(ROOM)
    refused = isinstance(wanted, model.Refused)
    written = () if refused else cases.parts_from(wanted)
    stated = (wanted, lent) if refused else (len(written), written + lent[len(written):])
    compare.same(text, reader.read(text, file, lent), stated)
    parts = model.read(text, file, cases.AMPLE_ROOM)
    compare.same(f"{text} by the model", parts if isinstance(parts, model.Refused) else cases.numbers_of(parts), wanted)
    return "READ", f"refused {wanted.number}" if refused else "given"


def check_paper(reader):
    """The answers that are worked out by hand."""
    seen = collections.Counter()
    for text, file, answer in paper.EXAMPLES:
        wanted = model.Refused(answer) if isinstance(answer, int) else paper.numbers(answer)
        seen[check_written(reader, text, file, wanted)] += 1
    compare.agreed("answers worked out by hand", seen, read_sorts(1, 2, 3, 4, 5, 6, 7, 8, 13))


def check_stored(reader):
    """The stored answers."""
    seen = collections.Counter(check_written(reader, *answer) for answer in stored.READ.answers())
    compare.same("how many answers are stored", seen.total(), stored.READ.size)
    compare.agreed("stored answers", seen, read_sorts(1, 2, 3, 4, 5, 6, 7, 8, 13))


# ---- limits, from both sides

def limit_cases():
    """These texts, and the cases of READ among the model's own targeted ones."""
    for text in variants.limit_texts():
        yield read_case(text.encode())
    few = (cases.trap_cases, cases.truth_test_cases, cases.truth_sum_cases, cases.bracket_cases, cases.part_limit_cases, cases.text_length_cases,
           cases.table_limit_cases)
    for case in itertools.chain.from_iterable(group() for group in few):
        if case.call == "READ":
            yield case
    yield from compare.declined_cases("READ")


def sum_cases():
    """Texts whose sum of entries is known, with room for all their parts, and for none: over 192 they are refused with 13 in either case."""
    for summed in itertools.chain(sums.by_hand(), sums.drawn(random.Random(SEED), SUMMED_RULES)):
        yield compare.Stated(cases.fitting("READ", summed.text, summed.file), summed.sort("given"))
        yield compare.Stated(cases.Case("READ", summed.text, summed.file), summed.sort("refused 12"))


def size_cases():
    """A rule that names the last column of table 1 and of the last table, with tables at the limits; the refusals are those that document 01 states."""
    for sizes, file, refusal in cases.limit_files():
        columns = [count for count, _ in sizes] or [1]
        text = f"EXISTS(FROM {len(columns)} v WHERE m.{columns[0]}=v.{columns[-1]})".encode()
        yield compare.Stated(cases.Case("READ", text, file, buffer=cases.lent("READ", 3)), "given" if refusal is None else f"refused {refusal}")


def named_columns(first, second):
    """Texts with one or two FROMs over these tables, in which the number of a column is left open, each with the table that the column is looked for in."""
    yield f"EXISTS(FROM {first} v WHERE m.{{}} IS NULL)", 1
    yield f"EXISTS(FROM {first} v WHERE v.{{}} IS NULL)", first
    yield f"EXISTS(FROM {first} v WHERE EXISTS(FROM {second} w WHERE v.{{}}=1))", first
    yield f"EXISTS(FROM {first} v WHERE EXISTS(FROM {second} w WHERE 1=w.{{}}))", second
    yield f"EXISTS(FROM {first} v WHERE EXISTS(FROM {second} v WHERE v.{{}} IS NOT NULL))", second
    yield f"EXISTS(FROM {first} v WHERE v.{{}} IN(SELECT 1 FROM {second} v WHERE 1=1))", first
    yield f"EXISTS(FROM {first} v WHERE 1 NOT IN(SELECT v.{{}} FROM {second} v WHERE 1=1))", second


def column_cases():
    """The last column of each table and the one behind it, and absent tables, with one to eight tables of which no two have as many columns."""
    for count in range(1, 9):
        file = generate.tables_file([(columns, []) for columns in variants.COLUMNS[:count]])
        for first, second in itertools.product(range(1, count + 1), repeat=2):
            for text, table in named_columns(first, second):
                last = variants.COLUMNS[table - 1]
                yield compare.Stated(cases.fitting("READ", text.format(last).encode(), file), "given")
                yield compare.Stated(cases.fitting("READ", text.format(last + 1).encode(), file), "refused 8")
        for table in (-1, 0, count + 1, count + 2, 256, 257):
            yield compare.Stated(cases.fitting("READ", f"EXISTS(FROM {table} v WHERE 1=1)".encode(), file), "refused 8")


ONE_ROW = generate.tables_file([(1, [[1]])])


def damaged_files():
    """A rule with a small tables file, each byte at each value and each shorter length."""
    for file in itertools.chain(variants.each_byte(ONE_ROW), variants.each_length(ONE_ROW)):
        yield cases.fitting("READ", b"m.1=1", file)


# ---- tokens next to one another

EVERY_TOKEN = tuple(model.WORDS) + tuple(model.COMPARISONS) + ("(", ")", ".", "a", "m", "z", "0", "1", "-1", "2147483647", "-2147483648", "0000000001")
AROUND = (
    "{}", "1=1 AND {}", "{} OR 1=1", "NOT {}=1", "m.1 {} 1", "m{}1 = 1", "1 IN(SELECT {} FROM 1 v WHERE 1=1)",
    "(1=1){}", "(1=1) IS {}", "(1=1) IS TRUE {}", "m.1 {}", "m.1 IS {}", "EXISTS(FROM 1 v WHERE 1=1) {}")


def token_pairs():
    """Every token behind every token, with a gap and without, in a text of their own and inside others."""
    for first, second in itertools.product(EVERY_TOKEN, repeat=2):
        for gap, around in itertools.product(("", " ", "\n"), AROUND):
            yield read_case(around.format(first + gap + second).encode())


def spaced_rules():
    """Rules with each gap between two tokens opened and closed in turn."""
    draw = random.Random(SEED)
    for _ in range(SPACED_RULES):
        tokens = generate.RuleMaker(draw, model.tables_of(TABLES).columns, truths=draw.choice([0, .2])).rule(draw.choice([1, 2, 3]))
        for place in range(1, len(tokens)):
            text = " ".join(tokens[:place]), " ".join(tokens[place:])
            yield read_case("".join(text).encode())
            yield read_case(" \n ".join(text).encode())
            yield read_case("".join(tokens[:place]).encode())


def misplaced(drawn, count):
    """Texts with a fault in the grammar, which `drawn` gives as tokens."""
    draw = random.Random(SEED)
    for _ in range(count):
        file = generate.random_tables(draw)
        text = generate.spaced(draw, drawn(draw, model.tables_of(file).columns))
        yield compare.Stated(cases.fitting("READ", text, file), "refused 6")


def misplaced_truths():
    """Truth tests behind something else than a bracketed condition, or not written as they are."""
    return misplaced(generate.misplaced_truth, MISPLACED_TRUTHS)


def misplaced_declined():
    """Tests of declined cells behind something else than a value, or not written as they are."""
    return misplaced(generate.misplaced_declined, MISPLACED_DECLINED)


# ---- damage

SMALL_RULES = (
    b"m.2 < -5", b"NOT m.1 IS NOT NULL", b"1<>m.1 OR 2>=2", b"m.1 NOT IN(SELECT v.1 FROM 2 v WHERE m.1=v.1)", b"EXISTS(FROM 3 m WHERE m.3<=1)AND 1=1",
    b"(m.1=1) IS NOT UNKNOWN", b"NOT((1=1)IS FALSE)IS TRUE", b"m.1IS DECLINED")


def damaged_rules():
    """Small rules with every byte at every value, cut at every length, and with every byte left out or doubled."""
    for rule in SMALL_RULES:
        yield from (read_case(text) for text in variants.damaged_texts(rule))


def long_texts():
    """Texts of up to 4,097 bytes with far more parts and FROMs than a rule may have, each also with something wrong at its end."""
    draw = random.Random(SEED)
    columns = model.tables_of(TABLES).columns
    for number in range(LONG_TEXTS):
        maker = generate.RuleMaker(draw, columns, deepest=3 + number % 6, truths=draw.choice([0, .2]))
        text = generate.spaced(draw, maker.rule(draw.choice([5, 20, 60])))
        while len(text) < draw.choice([200, 2000, 4097]):
            text += draw.choice([b" OR ", b" AND "]) + generate.spaced(draw, maker.rule(draw.choice([5, 20, 60])))
        for tail in (b"", b" @", b"(", b" OR k.1=1"):
            yield read_case(text[:draw.choice([4096, 4097]) - len(tail)] + tail)


def refusal_cases():
    """Every set of refusals of READ together."""
    return compare.refusal_sets("READ", "given")


def drawn_cases():
    """Random cases."""
    draw = random.Random(SEED)
    for _ in range(DRAWS):
        yield cases.drawn(draw, "READ")


GROUPS = (
    (limit_cases, read_sorts(1, 3, 4, 5, 6, 7, 8, 12, 13)),
    (sum_cases, read_sorts(12, 13)),
    (size_cases, read_sorts(1, 2)),
    (column_cases, read_sorts(8)),
    (damaged_files, read_sorts(1, 2)),
    (token_pairs, read_sorts(4, 6, 8)),
    (spaced_rules, read_sorts(4, 6)),
    (misplaced_truths, {"READ": compare.refusal_sorts(6)}),
    (misplaced_declined, {"READ": compare.refusal_sorts(6)}),
    (damaged_rules, read_sorts(4, 6, 8)),
    (long_texts, read_sorts(3, 4, 6, 7, 8)),
    (refusal_cases, WANTED),
    (drawn_cases, WANTED),
)


# ---- lists of every length

def check_rooms(reader):
    """Lists with room for every number of parts around what is needed."""
    texts = (b"1=1", b"NOT m.1=m.2", b" OR ".join([b"m.1<>-1"] * 32), b"m.1 = SOME (SELECT m.1 FROM 2 m WHERE m.1 = 1)", b"k.1=1", b"1=",
             b"NOT (m.1=1 OR (m.2 IS NULL) IS NOT TRUE) IS FALSE", b"NOT " * 62 + b"(1=1)IS UNKNOWN", paper.SUM_192, paper.within_unknowns(7),
             b"NOT m.2 IS NOT DECLINED AND 1 IS DECLINED")
    seen = collections.Counter()
    for text in texts:
        parts = model.read(text, TABLES, cases.AMPLE_ROOM)
        wanted = () if isinstance(parts, model.Refused) else tuple(parts)
        for room in range(len(wanted) + 3):
            lent = different_parts(room)
            if isinstance(parts, model.Refused):
                sort, stated = f"refused {parts.number}", (parts, lent)
            elif room < len(wanted):
                sort, stated = "refused 12", (model.Refused(12), lent)
            else:
                sort, stated = "given", (len(wanted), wanted + lent[len(wanted):])
            if reader.read(text, TABLES, lent) != stated:
                raise compare.Disagreement(f"{text} into a list of {room}")
            seen["READ", sort] += 1
    compare.agreed("lists of every length", seen, read_sorts(6, 8, 12, 13))


def check_all(reader):
    check_paper(reader)
    check_stored(reader)
    check_rooms(reader)
    comparison = compare.Comparison(lambda case: answer_of(reader, case))
    comparison.groups(GROUPS)
    comparison.demand(WANTED)


def main():
    check_all(library.Rules(library.load("roskudla")))


if __name__ == "__main__":
    compare.end_with(main)
