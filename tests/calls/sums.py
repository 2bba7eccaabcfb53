"""Texts whose sum of entries is known, whatever the model says: worked out by hand, or drawn so that they have it. Most of the sums are near 192."""
import typing

import library  # noqa: F401  (it adds the model's folder to the path)

import cases
import generate
import model

MOST = 192


class Summed(typing.NamedTuple):
    """A text that is refused with nothing but 13, a tables file, and the sum."""
    text: bytes
    file: bytes
    total: int

    def sort(self, otherwise):
        """The sort of an answer: `otherwise`, where the sum is none too high."""
        return "refused 13" if self.total > MOST else otherwise

    def card_length(self):
        """The bytes of the card."""
        return 3 + self.file[0] + 15 * self.total


def by_hand():
    """The model's own texts with sums that are worked out by hand."""
    return (Summed(text, cases.SOME_TABLES, total) for text, total in cases.STATED_SUMS)


def drawn(draw, count):
    """Drawn rules, for tables with rows in table 1; with too many brackets or parts one is drawn again."""
    while count > 0:
        file = generate.random_tables(draw)
        total = draw.choice(generate.NEAR_SUMS)
        text = generate.spaced(draw, generate.SumMaker(draw, model.tables_of(file).columns).rule_of_sum(total))
        if model.read(text, file, cases.AMPLE_ROOM) not in (model.Refused(5), model.Refused(7)) and cases.row_count(file) > 0:
            count -= 1
            yield Summed(text, file, total)
