"""Runs cases on the library and on the reference model, compares the answers and counts their sorts."""
import collections
import faulthandler
import itertools
import sys
import typing

import library

import cases  # noqa: E402  (library adds the model's folder to the path)

LONGEST_SHOWN = 2000


class Disagreement(Exception):
    """Two answers that ought to be the same are not, or an answer that ought to have been seen was not."""


class Stated(typing.NamedTuple):
    """A case, and the sort of answer that the papers give it, whatever the model says."""
    case: cases.Case
    sort: str


def shown(something):
    """How an error names it: the start of it, if it is long."""
    whole = str(something)
    return whole if len(whole) <= LONGEST_SHOWN else f"{whole[:LONGEST_SHOWN]} .. ({len(whole)} characters)"


def same(what, got, wanted):
    """Two answers that ought to be the same."""
    if got != wanted:
        raise Disagreement(f"{shown(what)}\n  got    {shown(got)}\n  wanted {shown(wanted)}")


def demand(what, seen, wanted):
    """Every wanted sort of answer has to have been seen; both are by call."""
    missing = [(call, sort) for call, sorts in wanted.items() for sort in sorts if seen[call, sort] == 0]
    if missing:
        raise Disagreement(f"{what}: never seen: {missing}")


def agreed(what, seen, wanted):
    """Says how many answers agreed, once every wanted sort was seen among them."""
    demand(what, seen, wanted)
    print(f"{what}: {seen.total()} answers agree", flush=True)


def refusal_sorts(*numbers):
    """These refusals, as sorts of answer."""
    return tuple(f"refused {number}" for number in numbers)


def given_sorts(*refusals):
    """The sorts of answer that a call which writes has to have given: an answer, and these refusals."""
    return ("given",) + refusal_sorts(*refusals)


def sorts_of(call):
    """For refusals, the sorts of answer that this call, which writes, has to have given."""
    return lambda *refusals: {call: given_sorts(*refusals)}


def declined_cases(*calls):
    """The model's own cases about declined cells that are of these calls; what they answer is worked out by hand beside them."""
    return (case for case in cases.declined_cases() if case.call in calls)


def refusal_sets(call, given):
    """Every set of a call's refusals together, of which the first in the call's order is given; without any, the answer is of the sort `given`."""
    refusals = cases.REFUSALS_OF[call]
    for count in range(len(refusals) + 1):
        for chosen in itertools.combinations(refusals, count):
            yield Stated(cases.refusal_set_case(call, chosen), f"refused {chosen[0]}" if chosen else given)


class Comparison:
    """`answer` gives the library's answer to a case."""

    def __init__(self, answer):
        self.answer = answer
        self.counts = collections.Counter()

    def one(self, case):
        """The call and the sort of the answer to a case, or to a stated one."""
        case, stated = case if isinstance(case, Stated) else (case, None)
        wanted = cases.expected(case)
        same(case, self.answer(case), wanted)
        sort = cases.outcome_of(case, wanted)
        if stated is not None:
            same((case, "by the papers"), sort, stated)
        return case.call, sort

    def groups(self, groups):
        """Runs groups, given as pairs: a function that yields cases, and the sorts of answer, by call, that must be among theirs."""
        for group, wanted in groups:
            seen = collections.Counter(self.one(case) for case in group())
            agreed(group.__name__, seen, wanted)
            self.counts += seen

    def demand(self, wanted):
        """Every sort of answer has to have been seen in some group."""
        for call in wanted:
            print(f"{call}: " + ", ".join(f"{sort} {count}" for (of, sort), count in sorted(self.counts.items()) if of == call))
        demand("all groups", self.counts, wanted)


def end_with(main):
    """Runs a test program: exit status 1 where answers differ or something outside was written; a touch of a forbidden page ends it with a trace."""
    faulthandler.enable()
    try:
        main()
    except (Disagreement, library.OutsideWritten) as error:
        print(error)
        sys.exit(1)
