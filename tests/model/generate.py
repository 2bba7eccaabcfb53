"""Random rules, tables, cards and comma lines, right and damaged, over the grammar and the layouts of documents 01 and 02.

Every function takes a random.Random first, so that a seed fixes what is drawn. Rules are drawn as lists of written tokens,
and `spaced` makes a text of them. Comma lines are drawn as rows of cells, and `comma_lines` writes them.
"""
import model

SMALL_NUMBERS = (-3, 3)
SIGNS = tuple(model.COMPARISONS)
EDGE_NUMBERS = ("-2147483648", "2147483647", "0000000001", "-0", "-0000000002", "007", "-2147483647")
EDGE_CELLS = (-2**31, 2**31 - 1, 2**31 - 2, 255, 256, 65536, -256)
LOOSE_TOKENS = tuple(sorted(model.WORDS)) + SIGNS + (
    "(", ")", ".", "m", "v", "1", "2", "-1", "m", "1", "(", ")")
NO_TOKENS = (
    "AN", "NOTNOT", "ANDOR", "ISNULL", "ISTRUE", "NOTFALSE", "UNKNOW", "TRUES", "DECLINE", "DECLINEDS", "ISDECLINED",
    "NOTDECLINED", "A", "@", "\t", "\r", "\x00", "\xff", "-", "--1", "2147483648", "-2147483649", "00000000001",
    "12345678901", "==", "!=", "!", ",", "+1", "[", "Z", "`", "{", "/", ":", "'")
TEXT_BYTES = b"ANDORTISEXULFMWKC mv.12-0()<>=\n 19"
# Sums of entries around the limit of 192, and some that eight bits would not hold
NEAR_SUMS = (63, 127, 188, 189, 190, 191, 191, 192, 192, 192, 193, 193, 193, 194, 195, 196, 255, 257, 300, 511)
# What no field of comma lines is
BAD_FIELDS = (
    # bytes that no number has
    b" ", b"1 ", b" 1", b"\t1", b"1\t", b'"1"', b'""', b'"', b"'1'", b"1_0", b"1.0", b"1.", b"1e3", b"0x1", b"1;2", b"a", b"NULL", b"m.1",
    b"\x00", b"1\x00", b"/", b":", b"0\x0b", b"1\x0c", b"\x1c1", b"\x85", b"\xa01", b"\xff", b"\xb9", b"\xef\xbb\xbf1", b"\xd9\xa1",
    b"\xe2\x88\x921", b"(1)",
    # signs
    b"+1", b"+0", b"+", b"-", b"--1", b"-+1", b"+-1", b"1-", b"1-1", b"- 1", b"-\x00",
    # eleven digits and more, and numbers beyond the range
    b"00000000000", b"00000000001", b"-00000000001", b"12345678901", b"-12345678901", b"0" * 300, b"2147483648", b"-2147483649",
    b"9999999999", b"-9999999999", b"4294967296", b"4294967297", b"-4294967295", b"02147483648", b"-02147483648", b"18446744073709551617",
    # a ! that is not alone
    b"!1", b"1!", b"! ", b" !", b"!!", b"-!", b"!-", b"+!", b"!0", b"0!", b"!-1", b"-1!", b'"!"', b"!\x00", b"!.",
    b"!!!", b"!\r", b"\r!", b"\xa1", b"\xc2\xa1", b"\xef\xbc\x81", b"DECLINED", b"=!", b"!=",
    # a CR, which belongs to a field wherever no LF follows it
    b"\r", b"1\r", b"\r1", b"\r\r", b"-\r1", b"1\r2")
# What no line end is, though some of them have one at their end
BAD_LINE_ENDS = (b"\r", b"\r\r\n", b"\n\r", b"\r\n\r", b" \n", b" \r\n", b",\n", b"\x0b", b"\x0c", b"\x1e", b"\x85", b"\x00", b"\\n", b";")
LINE_BYTES = b"0123456789-!!,\r\n"
# Bytes that matter in comma lines, those of right ones more often
LOOSE_LINE_BYTES = b"001129--!!,,,,\n\n\n\n\r\r" + b" \"+\t\x00.\xff"


def chance(random, probability):
    """True with a probability."""
    return random.random() < probability


def number_token(random):
    """A number as it is written."""
    draw = random.random()
    if draw < .8:
        return str(random.randint(*SMALL_NUMBERS))
    if draw < .88:
        return random.choice(EDGE_NUMBERS)
    return str(random.randint(-2**31, 2**31 - 1))


def declined_ending(random):
    """What makes a test of a value with the word DECLINED."""
    return ["IS"] + random.choice([[], ["NOT"]]) + ["DECLINED"]


def truth_ending(random, words=model.TRUTH_WORDS):
    """What makes a truth test of a bracketed condition, with one of the words."""
    return ["IS"] + random.choice([[], ["NOT"]]) + [random.choice(words)]


# ---- rules

class RuleMaker:
    """Draws rules as tokens, for tables with given columns.

    `quantified`: whether SOME and ALL are drawn beside IN and NOT IN. `wild`: how often a name is drawn that may be
    absent. `constants`: how often a value is a number. `outer`: how often a column's letter is any that is bound, and
    not surely the innermost. `even`: whether the tests without a FROM are drawn alike in all places; otherwise, where
    no FROM may follow, most of them are IS NULL or IS DECLINED. `truths`: how often a factor is a truth test, below 1.
    `declined`: how often a test of a value that would have NULL has DECLINED. A scope is a list of letters and the
    tables that they range over, the innermost last.
    """

    def __init__(self, random, columns, quantified=True, wild=0.0, deepest=3, constants=.3, outer=.5, even=False,
                 truths=0.0, declined=.4):
        self.random = random
        self.columns = columns
        self.quantified = quantified
        self.wild = wild
        self.deepest = deepest
        self.constants = constants
        self.outer = outer
        self.even = even
        self.truths = truths
        self.declined = declined

    def rule(self, size):
        return self.condition([("m", 1)], size, self.deepest)

    def shares(self, size):
        """A size cut into one to three sizes."""
        count = min(self.random.choice([1, 1, 2, 2, 3]), size)
        sizes = [1] * count
        for _ in range(size - count):
            sizes[self.random.randrange(count)] += 1
        return sizes

    def joined(self, word, make, scope, size, froms):
        tokens = []
        for number, share in enumerate(self.shares(size)):
            if number > 0:
                tokens.append(word)
            tokens += make(scope, share, froms)
        return tokens

    def condition(self, scope, size, froms):
        return self.joined("OR", self.conjunction, scope, size, froms)

    def conjunction(self, scope, size, froms):
        return self.joined("AND", self.factor, scope, size, froms)

    def factor(self, scope, size, froms):
        if self.truths > 0 and chance(self.random, self.truths):
            return ["("] + self.condition(scope, size, froms) + [")"] + truth_ending(self.random)
        if chance(self.random, .25):
            return ["NOT"] + self.factor(scope, size, froms)
        if size <= 1 and chance(self.random, .1):
            return ["("] + self.test(scope, size, froms) + [")"]
        return self.test(scope, size, froms)

    def test(self, scope, size, froms):
        draw = self.random.random()
        if size > 1 and draw < .25:
            return ["("] + self.condition(scope, size, froms) + [")"]
        if froms > 0 and draw < .45:
            source, inner_scope = self.row_source(scope)
            return ["EXISTS", "("] + source + self.condition(inner_scope, max(1, size - 1), froms - 1) + [")"]
        if froms > 0 and draw < .72:
            return self.value(scope) + self.before_list() + self.listed(scope, max(1, size - 1), froms)
        if self.even:
            draw = self.random.uniform(.72, 1)
        return self.plain_test(scope, draw)

    def plain_test(self, scope, draw):
        """A test without a FROM: a number from .72 to 1 chooses among all, and one below is IS NULL or IS DECLINED."""
        if draw < .87:
            word = "DECLINED" if self.declined > 0 and chance(self.random, self.declined) else "NULL"
            has_not = draw >= .82 or word == "DECLINED" and chance(self.random, .3)
            return self.value(scope) + ["IS"] + ["NOT"] * has_not + [word]
        return self.value(scope) + [self.random.choice(SIGNS)] + self.value(scope)

    def before_list(self):
        """What stands between the left value and a list."""
        forms = [["IN"], ["NOT", "IN"]]
        if self.quantified:
            sign = self.random.choice(SIGNS)
            forms += [[sign, "SOME"], [sign, "ALL"]]
        return self.random.choice(forms)

    def listed(self, scope, size, froms):
        source, inner_scope = self.row_source(scope)
        where = self.condition(inner_scope, size, froms - 1)
        return ["(", "SELECT"] + self.value(inner_scope) + source + where + [")"]

    def row_source(self, scope):
        """FROM number letter WHERE, and the scope inside."""
        table = self.random.randint(1, len(self.columns))
        written = table
        if chance(self.random, self.wild):
            written = self.random.choice([0, -1, 9, len(self.columns) + 1, 1])
            table = written if 1 <= written <= len(self.columns) else 1
        letter = self.random.choice("mmvvwxaz")
        return ["FROM", str(written), letter, "WHERE"], scope + [(letter, table)]

    def value(self, scope):
        if chance(self.random, self.constants):
            return [number_token(self.random)]
        if chance(self.random, self.wild):
            return [self.random.choice("abcmvwxyz"), ".", self.random.choice(["0", "1", "-1", "17", "2", "99"])]
        nearest = dict(scope)
        letter = self.random.choice(list(nearest)) if chance(self.random, self.outer) else scope[-1][0]
        column = self.random.randint(1, self.columns[nearest[letter] - 1])
        return [letter, ".", str(column)]


class SumMaker(RuleMaker):
    """Draws rules whose sum of entries is a given one, mostly by IS UNKNOWN and IS NOT UNKNOWN around one another.

    Without a FROM every sum is odd, so that an even one is drawn only where a FROM may still follow.
    """

    def rule_of_sum(self, total):
        return self.factor_of_sum([("m", 1)], total, self.deepest)

    def factor_of_sum(self, scope, total, froms):
        draw = self.random.random()
        if draw < .1:
            return ["NOT"] + self.factor_of_sum(scope, total, froms)
        if draw < .2:
            return ["("] + self.factor_of_sum(scope, total, froms) + [")"] + truth_ending(self.random, ("TRUE", "FALSE"))
        if total == 1:
            return self.plain_test(scope, self.random.uniform(.72, 1))
        odd = total % 2 == 1
        half = total // 2
        if odd and (froms > 0 or half % 2 == 1) and draw < (.85 if total > 20 else .6):
            return ["("] + self.factor_of_sum(scope, half, froms) + [")"] + truth_ending(self.random, ("UNKNOWN",))
        if total == 2 or froms > odd and draw > (.9 if odd else .6):
            return self.row_source_of_sum(scope, total, froms)
        return self.join_of_sum(scope, total, froms)

    def row_source_of_sum(self, scope, total, froms):
        """A list, which adds 3 to the sum of its WHERE, or EXISTS, which adds 1."""
        source, inner_scope = self.row_source(scope)
        if total > 3 and chance(self.random, .5):
            where = self.factor_of_sum(inner_scope, total - 3, froms - 1)
            return self.value(scope) + self.before_list() + ["(", "SELECT"] + self.value(inner_scope) + source + where + [")"]
        return ["EXISTS", "("] + source + self.factor_of_sum(inner_scope, total - 1, froms - 1) + [")"]

    def join_of_sum(self, scope, total, froms):
        """Two factors in brackets, at least one of an odd sum; AND and OR add 1."""
        first = self.random.randrange(1, total - 1, 2)
        sides = [self.factor_of_sum(scope, share, froms) for share in (first, total - 1 - first)]
        self.random.shuffle(sides)
        return ["("] + sides[0] + [self.random.choice(["AND", "OR"])] + sides[1] + [")"]


def needs_gap(before, after):
    """Whether two tokens would read as something else without a gap between them."""
    if before[0].isupper() and after[0].isupper():
        return True
    if before[-1].isdigit() and after[0].isdigit():
        return True
    return before in ("<", ">") and after[0] in "=>"


def spaced(random, tokens, gaps=None):
    """The text of tokens, with a gap where one is needed, and with other gaps at random."""
    if gaps is None:
        gaps = random.choice([0, 0, .3, 1])
    text = ""
    before = None
    for token in tokens:
        needed = before is not None and needs_gap(before, token)
        if needed or chance(random, gaps):
            text += random.choice([" ", " ", " ", "\n", "  ", " \n"])
        text += token
        before = token
    if chance(random, gaps * .3):
        text += random.choice([" ", "\n"])
    return text.encode("latin1")


def short_rule(random, columns, sizes, longest, wild=0.0, truths=0.0):
    """The text of a rule that is not longer than `longest` bytes."""
    maker = RuleMaker(random, columns, wild=wild, truths=truths)
    while True:
        text = spaced(random, maker.rule(random.choice(sizes)))
        if len(text) <= longest:
            return text


# ---- damaged texts

def random_tokens(random):
    """Any tokens, in any order."""
    return [random.choice(LOOSE_TOKENS) for _ in range(random.randint(0, 12))]


def random_bytes(random):
    """Any bytes, or any of those that rules are made of."""
    length = random.randint(0, 14)
    if chance(random, .5):
        return bytes(random.randrange(256) for _ in range(length))
    return bytes(random.choice(TEXT_BYTES) for _ in range(length))


def loosely_spaced(random, tokens):
    """The text of tokens, with gaps between most of them, needed or not."""
    text = ""
    for number, token in enumerate(tokens):
        if number > 0 and chance(random, .85):
            text += " "
        text += token
    return text.encode("latin1")


def damage_once(random, tokens):
    """Changes one place of a token list that is not empty."""
    draw = random.random()
    place = random.randrange(len(tokens))
    if draw < .25:
        del tokens[place]
    elif draw < .4:
        tokens.insert(place, tokens[place])
    elif draw < .6:
        tokens[place] = random.choice(LOOSE_TOKENS)
    elif draw < .75:
        tokens.insert(random.randint(0, len(tokens)), random.choice(LOOSE_TOKENS))
    elif draw < .85:
        other = random.randrange(len(tokens))
        tokens[place], tokens[other] = tokens[other], tokens[place]
    elif draw < .95:
        tokens.insert(random.choice([0, len(tokens), place]), random.choice(NO_TOKENS))
    else:
        del tokens[place:]


def damaged_tokens(random, tokens):
    """A token list with one to three changes."""
    changed = list(tokens)
    for _ in range(random.choice([1, 1, 1, 2, 3])):
        if changed:
            damage_once(random, changed)
    return changed


def damaged_bytes(random, text):
    """A text with one change."""
    changed = bytearray(text)
    if not changed:
        return bytes(changed)
    draw = random.random()
    place = random.randrange(len(changed))
    if draw < .3:
        del changed[place]
    elif draw < .45:
        changed[place] = random.randrange(256)
    elif draw < .6:
        changed[place] = random.choice(TEXT_BYTES)
    elif draw < .8:
        changed.insert(place, random.choice(TEXT_BYTES))
    else:
        del changed[place:]
    return bytes(changed)


def around_a_fault(random, columns):
    """What texts with a misplaced test are made from: a maker of rules, the scope, a value, a source with its scope, and a condition in brackets."""
    maker = RuleMaker(random, columns, truths=.15)
    scope = [("m", 1)]
    value = maker.value(scope)
    source, inner_scope = maker.row_source(scope)
    return maker, scope, value, source, inner_scope, ["("] + maker.rule(2) + [")"]


def misplaced_truths(random, columns):
    """Texts, as tokens, with one fault each, in what stands before or behind a truth test or in the truth test itself."""
    maker, scope, value, source, inner_scope, bracketed = around_a_fault(random, columns)
    word = random.choice(model.TRUTH_WORDS)
    ending = truth_ending(random)
    return [
        # behind a test without brackets, or behind a value
        value + [random.choice(SIGNS)] + maker.value(scope) + ending,
        ["EXISTS", "("] + source + maker.condition(inner_scope, 1, 2) + [")"] + ending,
        value + maker.before_list() + maker.listed(scope, 1, 3) + ending,
        value + ["IS", "NULL"] + ending,
        value + ending,
        ["("] + value + [")"] + ending,
        ["(", ")"] + ending,
        # behind another truth test
        bracketed + ending + truth_ending(random),
        # another order, and words too many or too few
        bracketed + ["IS", "NOT", "NOT", word],
        bracketed + ["NOT", "IS", word],
        bracketed + ["NOT", word],
        bracketed + ["IS", word, word],
        bracketed + ["IS", word, "NOT"],
        bracketed + ["IS"],
        bracketed + ["IS", "NOT"],
        bracketed + [word],
        bracketed + ["IS", "NULL"],
        bracketed + ["IS", "NOT", "NULL"],
        # a truth word as a value or as a test
        [word],
        ["(", word, ")"] + ending,
        value + [random.choice(SIGNS), word],
        bracketed + ["=", word],
        bracketed + ending + ["=", "1"],
    ]


def misplaced_declineds(random, columns):
    """Texts, as tokens, with one fault each, in a test with the word DECLINED or around it."""
    maker, scope, value, source, inner_scope, bracketed = around_a_fault(random, columns)
    ending = declined_ending(random)
    return [
        # behind what is no value
        bracketed + ending,
        ["("] + value + [")"] + ending,
        value + [random.choice(SIGNS)] + maker.value(scope) + ending,
        value + maker.before_list() + maker.listed(scope, 1, 3) + ending,
        ["EXISTS", "("] + source + maker.condition(inner_scope, 1, 2) + [")"] + ending,
        ending,
        # behind another test, and another test behind it
        value + ["IS", "NULL"] + ending,
        value + ending + ["IS", "NULL"],
        value + ending + declined_ending(random),
        value + ending + truth_ending(random),
        value + ending + [random.choice(SIGNS), "1"],
        bracketed + truth_ending(random) + ending,
        # another order, and words too many or too few
        value + ["IS", "NOT", "NOT", "DECLINED"],
        value + ["NOT", "IS", "DECLINED"],
        value + ["IS", "DECLINED", "NOT"],
        value + ["NOT", "DECLINED"],
        value + ["DECLINED"],
        value + ["IS", "NULL", "DECLINED"],
        value + ["IS", "DECLINED", "NULL"],
        value + ["IS", "IS", "DECLINED"],
        value + ["IN", "DECLINED"],
        # the word as a value, as a test or as a column
        ["DECLINED"],
        ["(", "DECLINED", ")"],
        value + [random.choice(SIGNS), "DECLINED"],
        ["DECLINED", random.choice(SIGNS)] + value,
        ["DECLINED"] + ending,
        ["m", ".", "DECLINED"] + ending,
        value + ["IN", "(", "SELECT", "DECLINED", "FROM", "1", "v", "WHERE", "1", "=", "1", ")"],
    ]


def misplaced_truth(random, columns):
    """One of the faults about truth tests, alone or within something that is right; refusal 6 in every place."""
    return within_right(random, columns, random.choice(misplaced_truths(random, columns)))


def misplaced_declined(random, columns):
    """The same for one of the faults about DECLINED."""
    return within_right(random, columns, random.choice(misplaced_declineds(random, columns)))


def within_right(random, columns, fault):
    """Faulty tokens, alone or within something that is right."""
    right = RuleMaker(random, columns, truths=.15).factor([("m", 1)], 1, 1)
    return random.choice([
        fault,
        ["NOT"] + fault,
        ["("] + fault + [")"],
        fault + [random.choice(["AND", "OR"])] + right,
        right + [random.choice(["AND", "OR"])] + fault,
        ["("] + fault + [")"] + truth_ending(random),
        ["EXISTS", "(", "FROM", "1", "v", "WHERE"] + fault + [")"],
        ["1", "NOT", "IN", "(", "SELECT", "1", "FROM", "1", "v", "WHERE"] + fault + [")"],
    ])


# ---- texts near a limit

def many_truths(random):
    """Truth tests around one another, with a sum near 192 or far above it, and near 32 brackets."""
    only_ending = random.choice([" IS UNKNOWN", " IS NOT UNKNOWN", " IS TRUE", None, None])
    text = random.choice([
        "1=1", "m.1=1", "m.1 IS NULL", "m.1 IS DECLINED", "NOT m.1 IS NOT DECLINED", "1=1 OR m.1<0",
        "EXISTS(FROM 1 v WHERE v.1=m.1)", "k.1=1", "k.1 IS DECLINED", "1="])
    for _ in range(random.choice([3, 5, 6, 6, 7, 7, 8, 15, 16, 30, 31, 32, 33])):
        if chance(random, .05):
            text = "NOT " + text
        text = "(" + text + ")" + (only_ending or " " + " ".join(truth_ending(random)))
    if chance(random, .4):
        text += random.choice([" OR 1=1", " AND 1=1", " AND m.1=1", " OR k.1=1", " OR", " @", ")", " IS TRUE", " OR 1=1" * 20])
    return text.encode()


def rule_near_sum(random, columns):
    """The text of a rule whose sum of entries is near 192."""
    return spaced(random, SumMaker(random, columns).rule_of_sum(random.choice(NEAR_SUMS)))


def long_chain(random):
    """Tests joined by AND or OR, near 64 parts."""
    only_word = random.choice(["OR", "AND", None])
    text = ""
    for number in range(random.choice([30, 31, 32, 32, 33, 33, 34])):
        if number > 0:
            text += " " + (only_word or random.choice(["OR", "AND"])) + " "
        if chance(random, .02):
            text += "NOT "
        text += random.choice(["1=1", "m.1=1", "2>1", "m.1<0", "m.1 IS DECLINED", "1 IS NOT DECLINED"])
    if chance(random, .2):
        text += random.choice([" OR", " AND 1", ")", " OR 1=1 1", " @", " OR k.1=1"])
    if chance(random, .2):
        text = random.choice(["NOT ", "NOT NOT ", "EXISTS(FROM 1 m WHERE ", "k.1=1 OR ", "("]) + text
    return text.encode()


def many_nots(random):
    """A test under NOTs, near 64 parts."""
    count = random.choice([61, 62, 63, 63, 64, 65])
    return b"NOT " * count + random.choice([
        b"1=1", b"k.1=1", b"m.1 IS NULL", b"m.1 IS DECLINED", b"m.1 IS NOT DECLINED", b"1", b"m.1 IS NOT"])


def many_brackets(random):
    """Brackets around something, near 32 of them, and some before."""
    count = random.choice([30, 31, 32, 32, 33, 33, 34])
    core = random.choice([
        b"1=1", b"m.1=1", b"k.1=1", b"1=", b"", b"1=1 @", b"1=1)", b"NOT 1=1", b"m.1 IS DECLINED", b"m.1 IS DECLINED 1",
        b"EXISTS(FROM 1 v WHERE 1=1)", b"1 IN(SELECT 1 FROM 1 m WHERE 1=1)"])
    before = random.choice([b"", b"", b")", b") ", b"()", b"(1=1)OR", b"))", b")("])
    closing = random.choice([count, count, count, count - 1, count + 1, 0])
    return before + b"(" * count + core + b")" * closing


def deep_froms(random):
    """FROMs around one another, near three of them."""
    text = "1=1"
    if chance(random, .4):
        text = random.choice([
            "m.1=v.1", "a.1 IS NULL", "a.1 IS DECLINED", "b.1 IS NOT DECLINED", "b.1=m.1", "1=", "q.1=1"])
    for _ in range(random.choice([2, 3, 3, 4, 4, 5])):
        letter = random.choice("mvab")
        table = random.choice([1, 1, 1, 2, 9, 0])
        if chance(random, .5):
            text = f"EXISTS(FROM {table} {letter} WHERE {text})"
        else:
            form = random.choice(["=SOME", "<ALL", " IN", " NOT IN"])
            selected = random.choice([letter + ".1", "1", "m.1"])
            text = f"m.1{form}(SELECT {selected} FROM {table} {letter} WHERE {text})"
        if chance(random, .2):
            text = "NOT " + text
        if chance(random, .2):
            text = "1=1 AND " + text
    return text.encode()


def damaged_text(random, columns):
    """A text that is probably no accepted rule."""
    maker = RuleMaker(random, columns, truths=random.choice([0, .2]))
    draw = random.random()
    if draw < .1:
        return loosely_spaced(random, random_tokens(random))
    if draw < .2:
        return random_bytes(random)
    if draw < .42:
        return loosely_spaced(random, damaged_tokens(random, maker.rule(random.choice([1, 2, 3]))))[:150]
    if draw < .56:
        return damaged_bytes(random, spaced(random, maker.rule(random.choice([1, 2, 3]))))[:150]
    if draw < .61:
        return long_chain(random)
    if draw < .65:
        return many_nots(random)
    if draw < .73:
        return many_brackets(random)
    if draw < .83:
        return deep_froms(random)
    if draw < .9:
        misplaced = random.choice([misplaced_truth, misplaced_truth, misplaced_declined])
        return spaced(random, misplaced(random, columns))
    return many_truths(random) if draw < .97 else rule_near_sum(random, columns)


# ---- tables

def tables_file(tables):
    """The file of tables that are given as (columns, rows), where a row is a list of cells as the model has them.

    So a cell is a number, None where it is blank, or model.DECLINED_CELL. The value is 77 in a blank cell and 78 in a
    declined one.
    """
    sizes = bytes([len(tables)])
    values = b""
    marks = b""
    for columns, rows in tables:
        sizes += bytes([columns]) + len(rows).to_bytes(2, "little")
        for cell in (cell for row in rows for cell in row):
            mark = model.mark_of(cell)
            value = {model.MARK_PRESENT: cell, model.MARK_BLANK: 77, model.MARK_DECLINED: 78}[mark]
            values += (value % 2**32).to_bytes(4, "little")
            marks += bytes([mark])
    return sizes + values + marks


def marks_at(file):
    """Where the marks of a right tables file start. The last fifth of what follows the sizes are marks."""
    cells_at = 1 + 3 * file[0]
    return cells_at + (len(file) - cells_at) // 5 * 4


def with_marks(file, changes):
    """A right tables file in which the marks are changed as a dictionary says; the values stay."""
    start = marks_at(file)
    return file[:start] + bytes(changes.get(mark, mark) for mark in file[start:])


def with_other_values(random, file):
    """A right tables file with other value bytes in its blank and declined cells; the numbers stay."""
    start = marks_at(file)
    values_at = 1 + 3 * file[0]
    changed = bytearray(file)
    for number, mark in enumerate(file[start:]):
        if mark != model.MARK_PRESENT:
            place = values_at + 4 * number
            changed[place:place + 4] = random.getrandbits(32).to_bytes(4, "little")
    return bytes(changed)


def cell_value(random):
    """The value of a cell that is present."""
    if chance(random, .85):
        return random.randint(-2, 2)
    return random.choice(EDGE_CELLS + (random.randint(-2**31, 2**31 - 1),))


def drawn_mark(random, blanks, declined):
    """A mark: `blanks` says how often a cell is not present, and `declined` how often such a cell is declined."""
    if not chance(random, blanks):
        return model.MARK_PRESENT
    return model.MARK_DECLINED if chance(random, declined) else model.MARK_BLANK


def declined_share(random):
    """How often a cell that is not present is declined."""
    return random.choice([0, .3, .5, .5, .7, 1])


def filled_tables(random, sizes, blanks=None, declined=None):
    """A file with the given (columns, row count) of each table. The values of blank and declined cells are random.

    `blanks`: how often a cell is blank or declined. `declined`: how often such a cell is declined. Both are drawn where
    they are not given.
    """
    head = bytes([len(sizes)])
    values = b""
    marks = b""
    if blanks is None:
        blanks = random.choice([0, .2, .4, .4, .6, 1])
    if declined is None:
        declined = declined_share(random)
    for columns, row_count in sizes:
        head += bytes([columns]) + row_count.to_bytes(2, "little")
        for _ in range(columns * row_count):
            mark = drawn_mark(random, blanks, declined)
            value = cell_value(random) if mark == model.MARK_PRESENT else random.getrandbits(32)
            values += (value % 2**32).to_bytes(4, "little")
            marks += bytes([mark])
    return head + values + marks


def random_tables(random, counts=(1, 2, 2, 3, 3, 4, 8)):
    """A file of small tables, as many as one of the counts says."""
    sizes = []
    for number in range(random.choice(counts)):
        columns = random.choice([1, 1, 2, 2, 3]) if chance(random, .95) else random.choice([15, 16])
        row_count = random.choice([0, 1, 2, 2, 3, 3, 4]) if columns < 15 else random.choice([0, 1])
        if number == 0 and row_count == 0 and chance(random, .7):
            row_count = 2
        sizes.append((columns, row_count))
    return filled_tables(random, sizes)


def later_tables(random, columns):
    """A file with the same columns, and rows, values and marks of its own."""
    return filled_tables(random, [(count, random.choice([0, 1, 2, 3, 4])) for count in columns])


def damaged_tables(random, file):
    """A tables file with one change."""
    changed = bytearray(file)
    draw = random.random()
    sizes_end = 1 + 3 * changed[0]
    if draw < .2:
        del changed[random.randrange(len(changed)):]
    elif draw < .3:
        changed.append(random.choice([0, 1, 2, 3]))
    elif draw < .55:
        place = -random.randint(1, min(3, len(changed) - 1))
        changed[place] = random.choice([3, 3, 4, 255, random.randrange(256), 2, 1])
    elif draw < .85:
        changed[random.randrange(sizes_end)] = random.choice([0, 1, 2, 3, 8, 9, 16, 17, 255])
    elif draw < .9:
        return b""
    elif draw < .95:
        return bytes([random.choice([0, 9, 255, 8, 1])])
    else:
        changed[random.randrange(len(changed))] ^= 1 << random.randrange(8)
    return bytes(changed)


# ---- cards that are not made from a rule

class CardMaker:
    """Draws cards, for tables with given columns.

    `bad`: how often a field is drawn that may be out of place. `value_kinds`: the kinds that use the left value alone.
    """

    def __init__(self, random, columns, bad=0.0, value_kinds=model.VALUE_ENTRIES):
        self.random = random
        self.columns = columns
        self.bad = bad
        self.value_kinds = value_kinds

    def card(self, size):
        return model.card_bytes(self.entry(size, [1]), self.columns)

    def value(self, tables):
        """A value, where the tables of the rows stand by level."""
        if chance(self.random, .3):
            return model.TaggedValue(model.CONSTANT_TAG, int(number_token(self.random)))
        if chance(self.random, self.bad):
            tag = self.random.choice([0, 1, 2, 3, 4, 5, 254])
            return model.TaggedValue(tag, self.random.choice([0, 1, 2, 17, -1, 256, 65536]))
        level = self.random.randrange(len(tables))
        return model.TaggedValue(level, self.random.randint(1, self.columns[tables[level] - 1]))

    def entry(self, size, tables):
        draw = self.random.random()
        if size > 1 and draw < .55:
            first = self.random.randint(1, size - 1)
            inner = (self.entry(first, tables), self.entry(size - first, tables))
            return model.pair_entry(self.random.choice([1, 2]), *inner)
        deepest = 1 + model.MOST_FROMS + chance(self.random, .2 if self.bad else 0)
        if draw < .8 and len(tables) < deepest:
            return self.row_entry(size, tables)
        if draw < .91:
            bad = chance(self.random, self.bad)
            comparison = self.random.choice([0, 7, 255]) if bad else self.random.randint(1, 6)
            kind = self.random.choice([5, 6])
            return model.comparison_entry(kind, comparison, self.value(tables), self.value(tables))
        return self.value_entry(tables)

    def value_entry(self, tables):
        kind = self.random.choice(self.value_kinds)
        if kind in (model.BLANK, model.NOT_BLANK):
            return model.blank_entry(kind, self.value(tables))
        return model.declined_entry(kind, self.value(tables))

    def row_entry(self, size, tables):
        table = self.random.randint(1, len(self.columns))
        written = table
        if chance(self.random, self.bad):
            written = self.random.choice([0, len(self.columns) + 1, 9, 255])
        inner = self.entry(size, tables + [table])
        return model.row_entry(self.random.choice([3, 4]), written, inner)


def random_card(random, columns, bad=0.0, value_kinds=model.VALUE_ENTRIES):
    """A card of a few entries."""
    return CardMaker(random, columns, bad, value_kinds).card(random.choice([1, 1, 2, 3, 4]))


def with_entry_more(random, sheet, entry_count, table_count):
    """A card with one entry more at its end, and its count with it."""
    kinds_end = 3 + table_count + entry_count
    changed = bytearray(sheet)
    changed[0] = (entry_count + 1) % 256
    record = bytes([(entry_count + 2) % 256]) + bytes(model.RECORD_BYTES - 1)
    return bytes(changed[:kinds_end]) + bytes([random.randint(1, 10)]) + bytes(changed[kinds_end:]) + record


def damaged_value_entry(random, sheet):
    """A sound card with one byte more that is not 0 in an entry of kinds 7 to 10, where it has one.

    This is a byte of the table, of the comparison or of the right value, which these kinds do not use.
    """
    entry_count, table_count = sheet[0], sheet[2]
    kinds_at = 3 + table_count
    places = [place for place in range(entry_count) if sheet[kinds_at + place] in model.VALUE_ENTRIES]
    if not places:
        return sheet
    record_at = kinds_at + entry_count + model.RECORD_BYTES * random.choice(places)
    changed = bytearray(sheet)
    changed[record_at + random.choice([2, 3, 9, 9, 10, 11, 12, 13])] = random.choice([1, 2, 255])
    return bytes(changed)


def damaged_card(random, sheet):
    """A card with one change."""
    if chance(random, .05):
        return damaged_value_entry(random, sheet)
    changed = bytearray(sheet)
    entry_count, table_count = changed[0], changed[2]
    kinds_at = 3 + table_count
    record_at = kinds_at + entry_count + model.RECORD_BYTES * random.randrange(entry_count)
    draw = random.random()
    if draw < .45:
        place = random.randrange(len(changed))
        near = [(changed[place] + 1) % 256, (changed[place] - 1) % 256]
        changed[place] = random.choice(list(range(13)) + [16, 17, 255, random.randrange(256)] + near)
    elif draw < .6:
        changed[record_at + random.choice([0, 0, 1, 2, 3, 4, 9])] = random.choice([0, 1, 2, 3, 4, 5, 6, 7, 255])
    elif draw < .68:
        changed[kinds_at + random.randrange(entry_count)] = random.randrange(13)
    elif draw < .76:
        del changed[random.randrange(len(changed)):]
    elif draw < .80:
        changed += bytes([random.choice([0, 1])] * random.choice([1, 14, 15]))
    elif draw < .84:
        changed[0] = random.choice([0, entry_count + 1, entry_count - 1, 193, 192]) % 256
    elif draw < .87:
        changed[1] = 1
    elif draw < .91:
        changed[2] = random.choice([0, 9, table_count + 1, table_count - 1, 8])
    elif draw < .95:
        changed[3 + random.randrange(table_count)] = random.choice([0, 1, 16, 17, 255])
    else:
        return with_entry_more(random, sheet, entry_count, table_count)
    return bytes(changed)


# ---- comma lines

def spelled(random, number):
    """A number as a field: as it is, or with spare zeros up to ten digits, and 0 also with a minus."""
    sign = "-" if number < 0 or number == 0 and chance(random, .3) else ""
    digits = str(abs(number))
    if chance(random, .3):
        digits = digits.zfill(random.choice([2, 3, 9, 10, 10]))
    return (sign + digits).encode()


def field_number(random):
    """The number of a field that is present."""
    draw = random.random()
    if draw < .4:
        return random.randint(-3, 12)
    if draw < .7:
        return random.choice([-2**31, 2**31 - 1, -2**31 + 1, 2**31 - 2, 0, 0, -1, 10, 100, -1000, 10**9, -10**9, 999999999])
    return random.randint(-2**31, 2**31 - 1)


def random_rows(random, columns, row_count):
    """Rows of cells, as the model has them."""
    blanks = random.choice([0, .2, .4, .6, 1])
    declined = declined_share(random)

    def cell():
        mark = drawn_mark(random, blanks, declined)
        return model.cell_with(mark, field_number(random) if mark == model.MARK_PRESENT else None)

    return [[cell() for _ in range(columns)] for _ in range(row_count)]


def written_field(random, cell):
    """A cell as a field, a number in one of its spellings."""
    mark = model.mark_of(cell)
    return {model.MARK_BLANK: b"", model.MARK_DECLINED: b"!"}[mark] if mark else spelled(random, cell)


def comma_lines(random, rows):
    """The comma lines of rows. A line end is LF or CRLF, and the last line may have none, where the line is not empty."""
    only_end = random.choice([b"\n", b"\r\n", None])
    lines = [b",".join(written_field(random, cell) for cell in row) for row in rows]
    text = b"".join(line + (only_end or random.choice([b"\n", b"\r\n"])) for line in lines)
    if lines and lines[-1] and chance(random, .4):
        return text.removesuffix(b"\n").removesuffix(b"\r")
    return text


def column_count(random):
    """A number of columns: one and many."""
    return random.choice([1, 1, 1, 2, 2, 3, 4, 8, 15, 16])


def drawn_rows(random, columns):
    """A few rows of cells; more of them where there are few columns."""
    return random_rows(random, columns, random.choice([0, 1, 1, 2, 2, 3, 4] + [7] * (columns < 4)))


def byte_damaged_lines(random, lines):
    """Comma lines with one byte changed, put in, left out, or swapped with the next one."""
    changed = bytearray(lines)
    draw = random.random()
    put_in = random.choice(LOOSE_LINE_BYTES + LINE_BYTES) if chance(random, .8) else random.randrange(256)
    if not changed or draw < .35:
        changed.insert(random.randint(0, len(changed)), put_in)
        return bytes(changed)
    place = random.randrange(len(changed))
    if draw < .65:
        changed[place] = put_in
    elif draw < .85:
        del changed[place]
    else:
        changed[place:place + 2] = changed[place:place + 2][::-1]
    return bytes(changed)


def cut_lines(lines):
    """Comma lines cut into fields, commas and line ends, each of them a piece."""
    pieces = [b""]
    place = 0
    while place < len(lines):
        width = 2 if lines[place:place + 2] == b"\r\n" else 1
        if lines[place:place + width] in (b",", b"\n", b"\r\n"):
            pieces += [lines[place:place + width], b""]
        else:
            pieces[-1] += lines[place:place + width]
        place += width
    return pieces


def damaged_field(random, lines):
    """Comma lines with a bad field in the place of one of theirs."""
    pieces = cut_lines(lines)
    pieces[random.randrange(0, len(pieces), 2)] = random.choice(BAD_FIELDS)
    return b"".join(pieces)


def damaged_separator(random, lines):
    """Comma lines with a comma or a line end doubled, left out, or replaced by another or by what is no line end."""
    pieces = cut_lines(lines)
    if len(pieces) == 1:
        return lines + random.choice(BAD_LINE_ENDS)
    place = random.randrange(1, len(pieces), 2)
    pieces[place] = random.choice([pieces[place] * 2, b"", b",", b"\n", b"\r\n", random.choice(BAD_LINE_ENDS), random.choice(BAD_LINE_ENDS)])
    return b"".join(pieces)


def damaged_lines(random, lines):
    """Comma lines with one change, or two."""
    damage = random.choice([byte_damaged_lines, byte_damaged_lines, damaged_field, damaged_separator])
    changed = damage(random, lines)
    return byte_damaged_lines(random, changed) if chance(random, .1) else changed


def random_line_bytes(random):
    """Any of the bytes that matter in comma lines."""
    alphabet = random.choice([
        LOOSE_LINE_BYTES, LOOSE_LINE_BYTES, LINE_BYTES, b"1,\n", b"1\r\n", b"1-\r\n,", b"\r\n", b"!,\n", b"!1\r\n,"])
    return bytes(random.choice(alphabet) for _ in range(random.randint(0, 12)))


def other_columns(random, columns):
    """A number of columns that the lines may not have, or none may have."""
    return random.choice([columns - 1, columns + 1, 0, 17, 255, 256 + columns, 2**16 + columns, 2**32 + columns, 2**64 - 1])
