"""CHECK, RUN and LIST as built, against answers worked out by hand from documents 01 and 02, and the reference model: damaged cards and tables, sizes and
numbers at their ends, random draws; and that no answer shows the values of blank and declined cells, and none of a card without kinds 9 and 10 shows which of
the two a cell is.

Exit status 0 when all answers and all lent lists agree, and every sort of answer was seen, in each group those that belong to it.
"""
import collections
import itertools
import random

import compare
import library
import paper
import variants

import cases  # noqa: E402  (library adds the model's folder to the path)
import generate
import model

SEED = 20260301
DRAWS_OF_EACH_CALL = 4000
MARKED_CARDS = 1500
UNTOUCHED = cases.UNTOUCHED_NUMBER


def run_sorts(*refusals):
    """The sorts of answer that RUN has to have given: yes, no, and these refusals."""
    return ("given True", "given False") + compare.refusal_sorts(*refusals)


CHECK_SORTS = ("given sound",) + compare.refusal_sorts(9)
WANTED = {"CHECK": CHECK_SORTS, "RUN": run_sorts(1, 2, 9, 10, 11), "LIST": compare.given_sorts(1, 2, 9, 10, 12)}


def answer_of(gate, case):
    """The gate's answer to a case."""
    if case.call == "CHECK":
        return cases.Expected(gate.check(case.source))
    if case.call == "RUN":
        return cases.Expected(gate.run(case.source, case.file, case.row))
    return cases.Expected(*gate.list_rows(case.source, case.file, case.buffer))


# ---- answers that are written down

def check_card(gate, sheet, file, admitted):
    """A card that is written down with the rows that it admits, a list of them, or with its refusal."""
    rows = cases.row_count(file)
    refused = model.Refused(admitted) if isinstance(admitted, int) else None
    lent = tuple(range(900, 902 + rows))
    compare.same((sheet, "by the model"), model.list_rows(sheet, file, rows), refused or admitted)
    compare.same((sheet, "CHECK"), gate.check(sheet), refused or model.SOUND)
    for row in range(rows):
        compare.same((sheet, row, "RUN"), gate.run(sheet, file, row), refused or row in admitted)
    compare.same((sheet, "LIST"), gate.list_rows(sheet, file, lent), (refused, lent) if refused else (len(admitted), (*admitted, *lent[len(admitted):])))
    return ("cards", f"refused {admitted}") if refused else ("cards", "given")


def check_paper(gate):
    """The cards of the worked cases, cards with kinds 9 and 10, and such cards with a field that is wrong."""
    written = [(case.entries, file, [row for row, letter in enumerate(case.values) if letter == "T"]) for case, file in paper.WORKED]
    written += [(entries, paper.DECLINED_TABLES, admitted) for entries, admitted in paper.GATE_CARDS]
    seen = collections.Counter(check_card(gate, paper.card([2, 1, 1], entries), file, admitted) for entries, file, admitted in written)
    for mark, refusal in ((model.MARK_DECLINED, 11), (3, 2), (255, 2)):
        file = bytes.fromhex(paper.ONE_CELL) + bytes([mark])
        compare.same((mark, "RUN"), gate.run(paper.card([1], "9 1 0 0 0 1 0 0"), file, 1), model.Refused(refusal))
    compare.agreed("answers worked out by hand", seen, {"cards": ("given", "refused 9")})


# ---- marks, and values that no answer shows

def all_answers(gate, sheet, file):
    """What RUN and LIST answer to a card and a file."""
    rows = range(cases.row_count(file) + 1)
    return tuple(gate.run(sheet, file, row) for row in rows), gate.list_rows(sheet, file, cases.lent("LIST", len(rows)))


def check_marks(gate):
    """Other values of blank and declined cells change no answer, and blanks in place of one declined cell or of all none of a card without kinds 9 and 10; of
    others they do. No answer here comes from the model."""
    draw, seen = random.Random(SEED), collections.Counter()
    for number in range(MARKED_CARDS):
        file = variants.marked_tables(draw)
        kinds = (model.BLANK, model.NOT_BLANK) if number % 2 else model.VALUE_ENTRIES
        sheet = generate.random_card(draw, model.tables_of(file).columns, value_kinds=kinds)
        answers = all_answers(gate, sheet, file)
        compare.same((sheet, file, "other values"), all_answers(gate, sheet, generate.with_other_values(draw, file)), answers)
        with_blanks = all_answers(gate, sheet, variants.with_blanks_for_declined(file))
        if number % 2:
            compare.same((sheet, file, "blanks in place of declined cells"), with_blanks, answers)
            with_a_blank = variants.with_a_blank_for_declined(draw, file)
            compare.same((sheet, file, "a blank in place of a declined cell"), all_answers(gate, sheet, with_a_blank), answers)
            seen.update(("kinds 1 to 8", answer) for answer in answers[0])
        else:
            seen["kinds 1 to 10", with_blanks == answers] += 1
    compare.agreed("marks and values", seen, {"kinds 1 to 8": (True, False), "kinds 1 to 10": (True, False)})


# ---- bytes of every value, and lengths

SHAPE = [(2, [[1, None], [-7, model.DECLINED_CELL]]), (1, [[-7]])]


def small_cards():
    """A card of each kind of entry."""
    column = model.TaggedValue(0, 2)
    constant = model.TaggedValue(model.CONSTANT_TAG, -7)
    inner = model.TaggedValue(1, 1)
    leaf = model.comparison_entry(5, 2, column, constant)
    entries = (
        leaf,
        model.comparison_entry(6, 4, constant, column),
        model.blank_entry(7, column),
        model.blank_entry(8, constant),
        model.pair_entry(1, leaf, model.blank_entry(7, column)),
        model.pair_entry(2, model.blank_entry(8, column), leaf),
        model.row_entry(3, 2, model.comparison_entry(5, 1, inner, model.TaggedValue(0, 1))),
        model.row_entry(4, 1, model.blank_entry(8, inner)),
        model.declined_entry(9, constant),
        model.declined_entry(10, column),
    )
    return [model.card_bytes(entry, [2, 1]) for entry in entries]


def changed_bytes(whole):
    """Each byte changed to each value, every shorter length, and some longer ones."""
    longer = (whole + more for more in (b"\0", b"\1", b"\xff", bytes(4), bytes(5), bytes(14), bytes(15), bytes(16), whole))
    return itertools.chain(variants.each_byte(whole), variants.each_length(whole), longer)


def damaged_cards():
    """CHECK of small cards, each byte at each value and each length; for two of them RUN and LIST too."""
    sheets = small_cards()
    for sheet in sheets:
        for changed in changed_bytes(sheet):
            yield cases.Case("CHECK", changed)
    file = generate.tables_file(SHAPE)
    for changed in itertools.chain(changed_bytes(sheets[4]), changed_bytes(sheets[9])):
        yield cases.Case("RUN", changed, file, row=1)
        yield cases.Case("LIST", changed, file, buffer=(UNTOUCHED,) * 2)


def damaged_files():
    """RUN and LIST with a small tables file, each byte at each value and each length; where it is a mark that is changed, by a card of kind 10 too."""
    sheet, of_marks = small_cards()[6], small_cards()[9]
    file = generate.tables_file(SHAPE)
    for changed in changed_bytes(file):
        yield cases.Case("RUN", sheet, changed, row=0)
        yield cases.Case("RUN", sheet, changed, row=1)
        yield cases.Case("LIST", sheet, changed, buffer=(UNTOUCHED,) * 2)
    marks = generate.marks_at(file)
    for changed in variants.each_byte(file[marks:]):
        yield cases.Case("LIST", of_marks, file[:marks] + changed, buffer=(UNTOUCHED,) * 2)


# ---- sizes, rows and numbers at their ends

def limit_cards(sizes):
    """Two cards for tables of these sizes.

    One says yes where the last column of table 1 is below a number from its middle, the other where it is below the last column of some row of the last table.
    """
    columns = [count for count, _ in sizes]
    last = model.TaggedValue(0, columns[0])
    middle = model.TaggedValue(model.CONSTANT_TAG, sizes[0][1] * columns[0] // 2)
    of_last_table = model.row_entry(3, len(sizes), model.comparison_entry(5, 3, last, model.TaggedValue(1, columns[-1])))
    return [model.card_bytes(entry, columns) for entry in (model.comparison_entry(5, 3, last, middle), of_last_table)]


def around_room(sheet, file):
    """LIST with room for one row less than it names, for just these, and for one more. The model takes long on large tables, and counts them once."""
    needed = cases.answer_length("LIST", sheet, file)
    return (cases.Case("LIST", sheet, file, buffer=cases.lent("LIST", needed + more)) for more in (-1, 0, 1) if needed + more >= 0)


def limit_cases():
    """The most rows, cells, columns and tables, none, and one too many; the refusals of these tables are those that document 01 states."""
    for sizes, file, refusal in cases.limit_files():
        sheets = limit_cards(sizes or [(1, 0)])
        if refusal is not None:
            for row in (0, variants.LAST_ROW):
                yield compare.Stated(cases.Case("RUN", sheets[0], file, row=row), f"refused {refusal}")
            yield compare.Stated(cases.Case("LIST", sheets[1], file, buffer=(UNTOUCHED,) * 3), f"refused {refusal}")
            continue
        for sheet in sheets:
            for row in variants.row_numbers(sizes[0][1]):
                yield cases.Case("RUN", sheet, file, row=row)
            yield from around_room(sheet, file)


def end_cases():
    """Each comparison, unknown as no and as yes, of two numbers from the ends of their range, blank or declined, as cells and as constants."""
    cells = variants.ENDS + (None, model.DECLINED_CELL)
    file = generate.tables_file([(2, [[left, right] for left in cells for right in cells])])
    first, second = model.TaggedValue(0, 1), model.TaggedValue(0, 2)
    for kind, comparison in itertools.product((5, 6), range(1, 7)):
        constants = [model.TaggedValue(model.CONSTANT_TAG, number) for number in variants.ENDS]
        pairs = [(first, second)] + list(itertools.product(constants, constants))
        pairs += [(first, constant) for constant in constants] + [(constant, second) for constant in constants]
        for left, right in pairs:
            sheet = model.card_bytes(model.comparison_entry(kind, comparison, left, right), [2])
            yield cases.fitting("LIST", sheet, file, 1)
            yield cases.Case("RUN", sheet, file, row=len(cells) * (len(cells) - 1))


def room_cases():
    """Lists of each length around the needed one."""
    file = generate.tables_file([(1, [[number % 3] for number in range(12)])])
    for number in range(4):
        entry = model.comparison_entry(5, 1, model.TaggedValue(0, 1), model.TaggedValue(model.CONSTANT_TAG, number))
        for room in range(8):
            yield cases.Case("LIST", model.card_bytes(entry, [1]), file, buffer=tuple(range(900, 900 + room)))


def largest_cards():
    """Cards of 191 to 194 entries, and of one to four row entries around one another, over tables of some rows."""
    file = generate.tables_file([(1, [[0], [None], [1]]), (1, [[2], [model.DECLINED_CELL]])])
    for leaves, to_the_left in itertools.product((96, 97), (False, True)):
        chain = cases.chained_entry(leaves, to_the_left)
        for entry in (chain, model.row_entry(3, 2, chain), model.row_entry(4, 2, chain)):
            yield cases.fitting("LIST", model.card_bytes(entry, [1, 1]), file, 1)
    for rows in (1, 2, 3, 4):
        for level in range(rows + 1):
            entry = cases.nested_rows(rows, model.comparison_entry(6, 3, model.TaggedValue(level, 1), model.TaggedValue(0, 1)))
            yield cases.fitting("LIST", model.card_bytes(entry, [1, 1]), file, 0)


def refusal_cases():
    """Every set of refusals of RUN and of LIST together."""
    yield from compare.refusal_sets("RUN", "given True")
    yield from compare.refusal_sets("LIST", "given")


def declined_cases():
    """The model's own cases about declined cells."""
    return compare.declined_cases("CHECK", "RUN", "LIST")


# ---- random draws

def drawn_cases():
    """Random cases of each call, and the model's own targeted ones."""
    draw = random.Random(SEED)
    for call in WANTED:
        for _ in range(DRAWS_OF_EACH_CALL):
            yield cases.drawn(draw, call)
    yield from itertools.chain(cases.card_byte_cases(), cases.card_limit_cases(), cases.row_number_cases(), cases.columns_cases())


GROUPS = (
    (damaged_cards, {"CHECK": CHECK_SORTS, "RUN": run_sorts(9, 10), "LIST": compare.given_sorts(9, 10)}),
    (damaged_files, {"RUN": run_sorts(1, 2), "LIST": compare.given_sorts(1, 2)}),
    (limit_cases, {"RUN": run_sorts(1, 2, 11), "LIST": compare.given_sorts(1, 2, 12)}),
    (end_cases, {"RUN": run_sorts(), "LIST": compare.given_sorts()}),
    (room_cases, {"LIST": compare.given_sorts(12)}),
    (largest_cards, {"LIST": compare.given_sorts(9)}),
    (refusal_cases, {"RUN": ("given True",) + compare.refusal_sorts(1, 2, 9, 10, 11), "LIST": compare.given_sorts(1, 2, 9, 10, 12)}),
    (declined_cases, {"CHECK": CHECK_SORTS, "RUN": run_sorts(2, 9), "LIST": compare.given_sorts(2, 12)}),
    (drawn_cases, WANTED),
)


def check_all(gate):
    check_paper(gate)
    check_marks(gate)
    comparison = compare.Comparison(lambda case: answer_of(gate, case))
    comparison.groups(GROUPS)
    comparison.demand(WANTED)


def main():
    check_all(library.Gate(library.load("roskudla_gate")))


if __name__ == "__main__":
    compare.end_with(main)
