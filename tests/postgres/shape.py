"""What a rule is made of, told by its written tokens alone: parts, entries, brackets, FROMs, letters. No grammar is needed, since the rules are drawn valid."""
import typing

import built  # noqa: F401  (it adds the folders of the calls and of the model to the path)

import model

SIGNS = tuple(model.COMPARISONS)
TRUTH_TESTS = tuple(f"{words} {word}" for word in model.TRUTH_WORDS for words in ("IS", "IS NOT"))
MARK_TESTS = ("IS DECLINED", "IS NOT DECLINED")
BEHIND_NOT = ("IN", "NULL", "DECLINED") + model.TRUTH_WORDS  # what stands behind a NOT that is no part of its own
EDGE = 2**31 - 2
MANY_ENTRIES = 100


class From(typing.NamedTuple):
    """A FROM: its table and letter, and the letters that are bound around it, the innermost last."""
    table: int
    letter: str
    outer: tuple


class TruthTest(typing.NamedTuple):
    """A truth test by its words, and the places of the brackets before them."""
    words: str
    start: int
    end: int

    def holds(self, place):
        """Whether a place is in the brackets."""
        return self.start < place < self.end


def part_count(tokens):
    """Every OR, AND, NOT and test. A NOT within the words of a test is none of its own, nor is SOME or ALL beside its sign."""
    followed = zip(tokens, tokens[1:] + [""])
    return sum(token in ("AND", "OR", "EXISTS", "IS", "IN") or token in SIGNS or token == "NOT" and after not in BEHIND_NOT for token, after in followed)


def words_from(tokens, place):
    """The words of the test whose IS stands at a place."""
    return " ".join(tokens[place:place + (3 if tokens[place + 1] == "NOT" else 2)])


def truth_tests(tokens):
    """The truth tests of a rule: an IS behind a bracket."""
    found, opened = [], []
    for place, token in enumerate(tokens):
        if token == "(":
            opened.append(place)
        elif token == ")":
            start = opened.pop()
            if tokens[place + 1:place + 2] == ["IS"]:
                found.append(TruthTest(words_from(tokens, place + 1), start, place))
    return found


def own_entries(tokens, place):
    """The entries of the part whose sign or first word stands at a place."""
    token = tokens[place]
    if token == "IN" or token in SIGNS and tokens[place + 1] in ("SOME", "ALL"):
        return 3
    if token == "IS":
        return int(words_from(tokens, place).endswith(("NULL", "UNKNOWN", "DECLINED")))
    return int(token in ("AND", "OR", "EXISTS") or token in SIGNS)


def entry_sum(tokens):
    """How many entries the card of a rule has. What IS UNKNOWN and IS NOT UNKNOWN test counts twice, and again within one another."""
    twice = [test for test in truth_tests(tokens) if test.words.endswith("UNKNOWN")]
    return sum(own_entries(tokens, place) * 2 ** sum(test.holds(place) for test in twice) for place in range(len(tokens)))


def most_open(tokens):
    """The most brackets that are open together."""
    opened, most = 0, 0
    for token in tokens:
        opened += (token == "(") - (token == ")")
        most = max(most, opened)
    return most


def scopes(tokens):
    """Each token's place, with the letters that are bound there, the innermost last; a FROM's letter is bound behind its FROM, up to its bracket's end."""
    bound, opened = [(0, "m")], 0
    for place, token in enumerate(tokens):
        opened += token == "("
        yield place, tuple(letter for _, letter in bound)
        if token == "FROM":
            bound.append((opened, tokens[place + 2]))
        if token == ")":
            if bound[-1][0] == opened:
                bound.pop()
            opened -= 1


def froms(tokens):
    """The FROMs of a rule."""
    return [From(int(tokens[place + 1]), tokens[place + 2], outer) for place, outer in scopes(tokens) if tokens[place] == "FROM"]


def depth(tokens):
    """How many FROMs stand around one another at most."""
    return max((len(source.outer) for source in froms(tokens)), default=0)


def refusal(tokens, text):
    """The number that READ refuses a drawn rule with, which may only be too large; None if it is to be accepted."""
    if len(text) > model.MOST_TEXT_BYTES:
        return 3
    if most_open(tokens) > model.MOST_OPEN_BRACKETS:
        return 5
    if part_count(tokens) > model.MOST_PARTS or depth(tokens) > model.MOST_FROMS:
        return 7
    return 13 if entry_sum(tokens) > model.MOST_ENTRIES else None


# ---- what is counted

def forms(tokens):
    """The forms of test in a rule, each comparison and each SOME and ALL with its sign too."""
    found = set()
    for place, token in enumerate(tokens):
        before, after = tokens[place - 1] if place > 0 else "", tokens[place + 1] if place + 1 < len(tokens) else ""
        if token == "EXISTS":
            found.add("EXISTS")
        elif token == "IN":
            found.add("NOT IN" if before == "NOT" else "IN")
        elif token == "IS":
            found.add(words_from(tokens, place))
        elif token in SIGNS:
            found.update([after, f"{token} {after}"] if after in ("SOME", "ALL") else [f"comparison {token}"])
    return found


def left_letter(tokens, place):
    """The letter of the value left of a list whose SELECT is at a place, or None if that value is a number."""
    words = 3 if tokens[place - 2] == "IN" and tokens[place - 3] != "NOT" else 4
    end = place - words + 1
    return tokens[end - 3] if end >= 3 and tokens[end - 2] == "." else None


def list_letter(tokens, place):
    """The letter that the list binds whose SELECT is at a place."""
    return tokens[tokens.index("FROM", place) + 2]


def traits(tokens):
    """What is worth counting of the letters and numbers in a rule."""
    found = set()
    for source in froms(tokens):
        if source.letter in source.outer:
            found.update(["a letter bound again"] + ["m bound again"] * (source.letter == "m"))
    for place, bound in scopes(tokens):
        token = tokens[place]
        if token == "SELECT" and left_letter(tokens, place) == list_letter(tokens, place):
            found.add("left of a list, the letter that the list binds")
        if tokens[place + 1:place + 2] == ["."] and token != bound[-1] and tokens[place - 1] != "SELECT":
            found.add("a column of an outer row")
        if token[-1].isdigit() and abs(int(token)) >= EDGE:
            found.add("a number at an end of the range")
    return found


def mark_traits(tokens):
    """What is worth counting of the places of tests for declined values in a rule."""
    found, tests = set(), truth_tests(tokens)
    for place, bound in scopes(tokens):
        if tokens[place] != "IS" or words_from(tokens, place) not in MARK_TESTS:
            continue
        is_column = place > 2 and tokens[place - 2] == "."
        start = place - (3 if is_column else 1)
        found.add("a column tested for declined" if is_column else "a number tested for declined")
        if is_column and tokens[start] != bound[-1]:
            found.add("a column of an outer row tested for declined")
        if len(bound) > 1:
            found.add("a test for declined in a WHERE")
        if start > 0 and tokens[start - 1] == "NOT":
            found.add("a test for declined under NOT")
        if any(test.holds(place) for test in tests):
            found.add("a test for declined in a truth test")
    return found


def truth_traits(tokens):
    """What is worth counting of the places of truth tests in a rule."""
    found, tests = set(), truth_tests(tokens)
    levels = [len(bound) for _, bound in scopes(tokens)]
    for test in tests:
        if any(other.holds(test.start) for other in tests):
            found.add("a truth test in another")
        if "FROM" in tokens[test.start:test.end]:
            found.add("a truth test around a FROM")
        if levels[test.start] > 1:
            found.add("a truth test in a WHERE")
        if test.start > 0 and tokens[test.start - 1] == "NOT":
            found.add("a truth test under NOT")
    if tests and entry_sum(tokens) > MANY_ENTRIES:
        found.add(f"truth tests and over {MANY_ENTRIES} entries")
    return found
