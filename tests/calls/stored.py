"""Stored answers: texts of random tokens and of random bytes, rules right and damaged, texts around 4,096 bytes, behind them texts with truth tests, right
and damaged, and behind these texts with DECLINED, right and damaged; comma lines and tables files, right and damaged, and behind them such with declined cells;
with the answers that the reference model gave.

The files are not made anew by a test; `python3 -B tests/calls/stored.py` writes them, and a change of one is to be read line by line. It keeps the stored
texts, whatever the functions that drew them would draw now, and gives each the model's answer; where a file has fewer than are wanted, it draws the others.
A line: the number of a tables file (below), the text in hexadecimal, and the answer: the refusal; or for READ the numbers of the parts, and for JUDGE and
CARD the values on the rows of table 1, a letter each, and the bytes of the card in hexadecimal. For IMPORT the number is that of the columns, and for EXPORT,
where it is 0, the tables file stands in place of the text; their answers are bytes in hexadecimal.
"""
import pathlib
import random
import typing

import library  # noqa: F401  (it adds the model's folder to the path)

import cases
import generate
import model

DECLINED = model.DECLINED_CELL
FILES = (
    cases.SOME_TABLES,
    generate.tables_file([(1, [])]),
    generate.tables_file([(16, [[None] * 16])] + [(count, []) for count in range(1, 8)]),
    generate.tables_file([(2, [[1, 2]])])[:-1],
    generate.tables_file([(2, [[1, 2]])])[:-1] + b"\x02",
    generate.tables_file([(2, [[0, None], [1, 2], [None, 1], [-2, 0], [2, -2**31]]), (2, [[1, None], [None, 0], [2, 2]]), (1, [[2**31 - 1], [None]])]),
    generate.tables_file([(2, [[1, 2]])])[:-1] + b"\x03",
    generate.tables_file([(2, [[0, DECLINED], [1, 2], [DECLINED, None], [None, 0], [DECLINED, DECLINED]]), (2, [[1, DECLINED], [None, 0]]), (1, [[DECLINED]])]),
)
REFUSED_FILES = (3, 6)
TRUTHS = {"T": model.TRUE, "U": model.UNKNOWN, "F": model.FALSE}
LETTERS = {truth: letter for letter, truth in TRUTHS.items()}


class Store(typing.NamedTuple):
    """A file of so many stored answers.

    `drawn` gives a text and a number, `answer` the model's answer to a text and what the number stands for, `written` an answer that is no refusal as it is
    stored, `had_back` the same from what is stored, and `given` what a number stands for: one of the tables files above, unless it says otherwise.
    """
    name: str
    seed: int
    size: int
    drawn: typing.Callable
    answer: typing.Callable
    written: typing.Callable
    had_back: typing.Callable
    given: typing.Callable = FILES.__getitem__

    def path(self):
        return pathlib.Path(__file__).with_name(self.name)

    def lines(self):
        """The stored texts, their numbers, and the answers as they are stored."""
        for line in self.path().read_text().splitlines():
            number, text, answer = line.split("\t")
            yield bytes.fromhex(text), int(number), answer

    def answers(self):
        """The stored texts, what their numbers stand for, and the answers."""
        for text, number, answer in self.lines():
            refused = answer.startswith("refused ")
            yield text, self.given(number), model.Refused(int(answer.split()[1])) if refused else self.had_back(answer)

    def line(self, text, number):
        answer = self.answer(text, self.given(number))
        said = f"refused {answer.number}" if isinstance(answer, model.Refused) else self.written(answer)
        return f"{number}\t{text.hex()}\t{said}\n"

    def write(self):
        draw = random.Random(self.seed)
        texts = [(text, number) for text, number, _ in self.lines()]
        texts += [self.drawn(draw) for _ in range(self.size - len(texts))]
        self.path().write_text("".join(self.line(text, number) for text, number in texts))


def columns_of(number):
    """The columns of a tables file, or some for one that is refused."""
    return [2] if number in REFUSED_FILES else model.tables_of(FILES[number]).columns


def with_declined(draw, drawn):
    """The first of the texts drawn in which DECLINED stands."""
    while True:
        text, number = drawn(draw)
        if b"DECLINED" in text:
            return text, number


# ---- READ

def drawn_for_reading(draw):
    number = draw.choice([7] * 6 + [0, 1, 2, 4, 6])
    columns = columns_of(number)
    sort = draw.random()
    if sort < .2:
        return generate.spaced(draw, generate.misplaced_declined(draw, columns)), number
    if sort < .4:
        return generate.damaged_text(draw, columns), number
    if sort < .45:
        return generate.rule_near_sum(draw, columns), number
    return generate.short_rule(draw, columns, [1, 1, 2, 2, 3, 4, 5], 140, draw.choice([0, 0, .05, .15]), truths=draw.choice([.1, .3, .5])), number


READ = Store(
    name="stored_answers.txt",
    seed=20261201,
    size=3504,
    drawn=lambda draw: with_declined(draw, drawn_for_reading),
    answer=lambda text, file: model.read(text, file, cases.AMPLE_ROOM),
    written=lambda parts: " ".join(str(number) for number in cases.numbers_of(parts)),
    had_back=lambda answer: tuple(int(field) for field in answer.split()),
)


# ---- JUDGE and CARD

def judged_and_made(text, file):
    """The values on the rows of table 1, and the card; or the refusal, which is the same for both."""
    sheet = model.card(text, file, cases.AMPLE_ROOM)
    if isinstance(sheet, model.Refused):
        return sheet
    return tuple(model.judge(text, file, row) for row in range(cases.row_count(file))), sheet


def drawn_for_judging(draw):
    """Short texts, and few with sums near 192, since their cards are long; a rule is drawn again, a few times, while it has the same value on all rows."""
    number = draw.choice([7] * 12 + [0, 4, 5, 6])
    sort = draw.random()
    if sort < .1:
        return generate.damaged_text(draw, columns_of(number)), number
    if sort < .13:
        return generate.rule_near_sum(draw, columns_of(number)), number
    for _ in range(4):
        text = generate.short_rule(draw, columns_of(number), [1, 2, 2, 3], 120, draw.choice([0] * 9 + [.1]), truths=draw.choice([.2, .5]))
        answer = judged_and_made(text, FILES[number])
        if isinstance(answer, model.Refused) or len(set(answer[0])) > 1:
            break
    return text, number


def values_and_card(answer):
    """The same from what is stored."""
    letters, sheet = answer.split(" ")
    return tuple(TRUTHS[letter] for letter in letters), bytes.fromhex(sheet)


RULE = Store(
    name="stored_rule_answers.txt",
    seed=20261202,
    size=1401,
    drawn=lambda draw: with_declined(draw, drawn_for_judging),
    answer=judged_and_made,
    written=lambda answer: "".join(LETTERS[truth] for truth in answer[0]) + " " + answer[1].hex(),
    had_back=values_and_card,
)


# ---- IMPORT and EXPORT

LONGEST_LINES = 160
LONGEST_TABLES = 200


def drawn_for_importing(draw):
    """Short comma lines with a !, and how many columns."""
    while True:
        lines, columns = cases.drawn_lines(draw)
        if len(lines) <= LONGEST_LINES and b"!" in lines:
            return lines, columns


def drawn_for_exporting(draw):
    """A short tables file, in place of a text: one with a declined cell in table 1, or with a mark that is too high."""
    while True:
        file = cases.drawn_export(draw).file
        answer = model.export_lines(file, cases.AMPLE_COMMA_ROOM)
        if len(file) <= LONGEST_TABLES and (answer == model.Refused(2) or not isinstance(answer, model.Refused) and b"!" in answer):
            return file, 0


IMPORT = Store(
    name="stored_import_answers.txt",
    seed=20261203,
    size=950,
    drawn=drawn_for_importing,
    answer=lambda lines, columns: model.import_lines(lines, columns, cases.AMPLE_COMMA_ROOM),
    written=bytes.hex,
    had_back=bytes.fromhex,
    given=int,
)

EXPORT = Store(
    name="stored_export_answers.txt",
    seed=20261204,
    size=600,
    drawn=drawn_for_exporting,
    answer=lambda file, _: model.export_lines(file, cases.AMPLE_COMMA_ROOM),
    written=bytes.hex,
    had_back=bytes.fromhex,
    given=lambda _: None,
)


def main():
    for store in (READ, RULE, IMPORT, EXPORT):
        store.write()


if __name__ == "__main__":
    main()
