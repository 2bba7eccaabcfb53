"""Compares the definitions of crates/ with the reference model.

Each case becomes one fact, `call arguments ≡ answer of the model`, closed by computing it (refl). The facts are a crate
`vectors` beside a temporary copy of the crates that it is about, and `rt check` has to prove it. A second crate `wrong` has facts with answers
that are changed in one place, beside the right ones; exactly the changed ones have to be refused there.

Exit status 0 when all agree. What `rt ci` or `rt check` left in crates/NAME/out is used, so that no other crate is proved again.
"""
import collections
import dataclasses
import itertools
import pathlib
import random
import re
import shutil
import subprocess
import sys
import tempfile

import cases
import generate
import model

SEED = 20250101
REPOSITORY = pathlib.Path(__file__).resolve().parents[2]
DRAWS = {"READ": 110, "JUDGE": 60, "CARD": 60, "CHECK": 80, "RUN": 60, "LIST": 50, "IMPORT": 80, "EXPORT": 50}
DRAWS_OF_EACH_TRUTH = 25
DRAWS_OF_SUMS = 15
DRAWS_OF_MISPLACED_TRUTHS = 40
FACTS_OF_A_MODULE = 50
WRONG_BUFFERS = 4
LONGEST_PLAIN_LIST = 600
LONGEST_SOURCE_STATED_WRONGLY = 100
LONGEST_SHOWN = 600
# what facts of IMPORT and EXPORT may have, so that they are stated and computed in little time: runs of equal bytes, and bytes. The lengths beyond are those of
# whole tables, which the crate's own cases have
MOST_COMMA_RUNS = 500
MOST_COMMA_BYTES = 8000
DEPENDENCIES = "tables card rule translation lines"

# every outcome that has to occur: the refusals of each call, and its answers
GIVEN = {
    "READ": ["given"],
    "JUDGE": ["given true", "given false", "given unknown"],
    "CARD": ["given"],
    "CHECK": ["given sound"],
    "RUN": ["given True", "given False"],
    "LIST": ["given"],
    "IMPORT": ["given"],
    "EXPORT": ["given"],
}

HEAD = """\
use Rattle.std.specs.Prelude.{◌≡◌, true, false, List, [], ◌∷◌, ◌++◌, ℕ, ℤ, pos, negsuc, replicate}
use mathlib.Core.Path.{refl}
use Rattle.tables.specs.Refusals.{Answer, Refused, Given, Lent}
use Rattle.card.specs.Calls.{check_call, run_call, list_call}
use Rattle.card.proofs.Opened.{opened as card-opened}
use Rattle.rule.specs.declared.TaggedValue.{TaggedValue}
use Rattle.rule.specs.declared.Part.{Part}
use Rattle.rule.specs.declared.Truth.{Truth}
use Rattle.rule.specs.declared.Truth.TheVariants.{True, False, Unknown}
use Rattle.rule.specs.Calls.{read_call, judge_call}
use Rattle.rule.proofs.Opened.{opened as rule-opened}
use Rattle.translation.specs.Translation.{negated, card_of}
use Rattle.translation.specs.Calls.{rule_bytes, card_call}
use Rattle.lines.specs.Calls.{import_call, export_call}
use Rattle.lines.proofs.Opened.{opened as lines-opened}

abbrev part : ℕ → ℕ → ℕ → ℕ → ℕ → ℤ → ℕ → ℤ → Part
part k c t e lt ln rt rn = record { kind = k; comparison = c; table = t; end = e; left = record { tag = lt; number = ln }; right = record { tag = rt; number = rn } }

abbrev lent : {A : Type 0} → Answer ℕ → List A → Lent A
lent r b = record { result = r; buffer = b }

"""
OPENED = "card-opened rule-opened negated card_of rule_bytes card_call"
OPENED_FOR_LINES = "lines-opened"


class Failure(Exception):
    """The test has failed."""


# ---- facts

@dataclasses.dataclass(frozen=True)
class Fact:
    """A case and the answer that is stated for it."""
    case: cases.Case
    stated: cases.Expected


def integer_source(number):
    """An integer as antt writes it."""
    return f"(pos {number})" if number >= 0 else f"(negsuc {-number - 1})"


def part_source(part):
    """A part's record."""
    left = f"{part.left.tag} {integer_source(part.left.number)}"
    right = f"{part.right.tag} {integer_source(part.right.number)}"
    return f"part {part.kind} {part.comparison} {part.table} {part.end} {left} {right}"


def run_source(item, count):
    """The same item several times."""
    if count > 8:
        return f"replicate {count} ({item})"
    return "(" + f"{item} ∷ " * count + "[])"


def runs_of(items):
    """The runs of equal items: pairs of an item and how often it stands there."""
    return [(item, sum(1 for _ in run)) for item, run in itertools.groupby(items)]


def list_source(elements):
    """A list of numbers or parts. A long list is written by its runs."""
    items = [part_source(element) if isinstance(element, model.Part) else str(element) for element in elements]
    if len(items) <= LONGEST_PLAIN_LIST:
        return "(" + "".join(f"{item} ∷ " for item in items) + "[])"
    sources = [run_source(item, count) for item, count in runs_of(items)]
    return "(" + " ++ (".join(sources) + ")" * len(sources)


def call_source(case):
    """The left side of a fact."""
    source = list_source(case.source)
    file = list_source(case.file)
    if case.call == "IMPORT":
        return f"import_call {source} {case.columns} {list_source(case.buffer)}"
    if case.call == "EXPORT":
        return f"export_call {file} {list_source(case.buffer)}"
    if case.call == "CHECK":
        return f"check_call {source}"
    if case.call in ("JUDGE", "RUN"):
        return f"{case.call.lower()}_call {source} {file} {case.row}"
    return f"{case.call.lower()}_call {source} {file} {list_source(case.buffer)}"


def answer_source(call, stated):
    """The right side of a fact."""
    if isinstance(stated.result, model.Refused):
        result = f"Refused {stated.result.number}"
    elif call == "JUDGE":
        result = f"Given {stated.result.capitalize()}"
    elif call == "CHECK":
        result = "Given tt"
    elif call == "RUN":
        result = "Given true" if stated.result else "Given false"
    else:
        result = f"Given {stated.result}"
    if call in cases.LENDING_CALLS:
        return f"lent ({result}) {list_source(stated.buffer)}"
    return result


def fact_source(name, fact):
    """A whole fact, closed by computing it."""
    statement = f"{call_source(fact.case)} ≡ {answer_source(fact.case.call, fact.stated)}"
    opened = OPENED_FOR_LINES if fact.case.call in cases.COMMA_CALLS else OPENED
    return f"pub {name} : {statement}\nunfolding {opened}\n{name} = refl\n\n"


# ---- which facts

def drawn_sums(draw):
    """Rules whose sums of entries are around 192, by each call that reads."""
    chosen = []
    for _ in range(DRAWS_OF_SUMS):
        file = generate.random_tables(draw)
        text = generate.rule_near_sum(draw, model.tables_of(file).columns)
        chosen += [cases.fitting("READ", text, file), cases.Case("JUDGE", text, file, row=draw.randrange(3)), cases.fitting("CARD", text, file)]
    return chosen


def drawn_misplaced_truths(draw):
    """Texts with truth tests that are out of place."""
    chosen = []
    for _ in range(DRAWS_OF_MISPLACED_TRUTHS):
        file = generate.random_tables(draw)
        text = generate.spaced(draw, generate.misplaced_truth(draw, model.tables_of(file).columns))
        chosen.append(cases.fitting("READ", text, file))
    return chosen


def is_stated(case):
    """Whether a fact is made of a case: of every one, but for the largest of IMPORT and EXPORT."""
    if case.call not in cases.COMMA_CALLS:
        return True
    lists = (case.source, case.file, cases.expected(case).buffer)
    return sum(len(runs_of(some)) for some in lists) <= MOST_COMMA_RUNS and sum(len(some) for some in lists) <= MOST_COMMA_BYTES


def all_cases():
    """The targeted and the drawn cases of the seed."""
    draw = random.Random(SEED)
    chosen = cases.targeted(draw)
    for call in cases.CALLS:
        chosen += [cases.drawn(draw, call) for _ in range(DRAWS[call])]
    chosen = [case for case in chosen if is_stated(case)]
    return chosen + cases.drawn_truths(draw, DRAWS_OF_EACH_TRUTH) + drawn_sums(draw) + drawn_misplaced_truths(draw)


def right_facts():
    """Every case with the model's answer."""
    return [Fact(case, cases.expected(case)) for case in all_cases()]


def other_results(call, result):
    """Results of a call that differ from one."""
    refused = isinstance(result, model.Refused)
    others = [model.Refused(result.number % 15 + 1 if refused else 12)]
    if call == "JUDGE":
        others += [truth for truth in (model.TRUE, model.FALSE, model.UNKNOWN) if truth != result]
    elif call == "CHECK":
        others += [model.SOUND] if refused else []
    elif call == "RUN":
        others += [truth for truth in (True, False) if truth is not result]
    else:
        others += [0] if refused else [result + 1]
    return others


def changed_element(draw, element):
    """A number or a part with one change."""
    if not isinstance(element, model.Part):
        return element + 1
    field = draw.choice(dataclasses.fields(element)).name
    value = getattr(element, field)
    if isinstance(value, model.TaggedValue):
        inner = draw.choice(["tag", "number"])
        return dataclasses.replace(element, **{field: dataclasses.replace(value, **{inner: getattr(value, inner) + 1})})
    return dataclasses.replace(element, **{field: value + 1})


def changed_buffers(draw, buffer):
    """Buffers that differ from one in their last element, in some others, or in their length."""
    buffers = [buffer + buffer[-1:], buffer[:-1]]
    last = len(buffer) - 1
    for place in {last} | {draw.randrange(len(buffer)) for _ in range(WRONG_BUFFERS - 1)}:
        buffers.append(buffer[:place] + (changed_element(draw, buffer[place]),) + buffer[place + 1:])
    return buffers


def wrong_facts_of(draw, fact):
    """Facts that state something else of a case."""
    stated = fact.stated
    answers = [dataclasses.replace(stated, result=other) for other in other_results(fact.case.call, stated.result)]
    if stated.buffer:
        answers += [dataclasses.replace(stated, buffer=buffer) for buffer in changed_buffers(draw, stated.buffer)]
    return [Fact(fact.case, answer) for answer in answers]


def is_refused(fact):
    """Whether the call refuses."""
    return isinstance(fact.stated.result, model.Refused)


def is_truth_tested(fact):
    """Whether a rule with a truth test is accepted: in no other accepted rule one of the three words stands."""
    reading = fact.case.call in cases.READING_CALLS
    return reading and not is_refused(fact) and any(word.encode() in fact.case.source for word in model.TRUTH_WORDS)


def asks_declined(fact):
    """Whether a rule with IS DECLINED or IS NOT DECLINED is accepted: in no other accepted rule the word stands."""
    return fact.case.call in cases.READING_CALLS and not is_refused(fact) and b"DECLINED" in fact.case.source


def is_short(fact):
    """Whether a fact is stated wrongly too: its source is short, or its lines are of few runs, as those of 1,001 empty lines."""
    source = fact.case.source
    return len(source) <= LONGEST_SOURCE_STATED_WRONGLY or fact.case.call == "IMPORT" and len(runs_of(source)) <= LONGEST_SOURCE_STATED_WRONGLY


def mixed_facts(draw, right):
    """Right facts, of each outcome of each call, where rules are accepted with truth tests and with tests for declined cells and without, and wrong ones of the
    same cases: pairs of a fact and whether it is wrong."""
    by_outcome = collections.defaultdict(list)
    for fact in right:
        lends = fact.case.call in cases.LENDING_CALLS
        if is_short(fact) and (fact.stated.buffer or not lends):
            by_outcome[fact.case.call, cases.outcome(fact.case), is_truth_tested(fact), asks_declined(fact)].append(fact)
    mixed = []
    for (call, *_), facts in by_outcome.items():
        # CHECK has two outcomes only, and IMPORT and EXPORT have four
        kept = facts[-4:] if call == "CHECK" or call in cases.COMMA_CALLS else facts[-1:]
        for fact in kept:
            mixed.append((fact, False))
            mixed += [(wrong, True) for wrong in wrong_facts_of(draw, fact)]
    return mixed


# ---- checking that nothing passes over too little

def outcomes_of(facts):
    """How often each outcome of each call occurs."""
    return collections.Counter((fact.case.call, cases.outcome(fact.case)) for fact in facts)


def demand_outcomes(counts, aside=()):
    """Every refusal and every answer of every call has to occur, but for those that are put aside."""
    for call in cases.CALLS:
        refusals = [f"refused {number}" for number in cases.REFUSALS_OF[call]]
        for wanted in GIVEN[call] + refusals:
            if counts[call, wanted] == 0 and wanted not in aside:
                raise Failure(f"{call}: '{wanted}' never occurred")


def demand_kinds(facts):
    """Every kind of part has to occur in what READ gives, and every kind of entry in what CARD gives."""
    given = {call: [fact.stated for fact in facts if fact.case.call == call and not is_refused(fact)] for call in ("READ", "CARD")}
    parts = {part.kind for stated in given["READ"] for part in stated.buffer[:stated.result]}
    entries = {kind for stated in given["CARD"] for kind in kinds_of(stated.buffer)}
    for call, kinds, found in (("READ", range(1, 18), parts), ("CARD", range(1, 11), entries)):
        missing = set(kinds) - found
        if missing:
            raise Failure(f"{call}: the kinds {sorted(missing)} never occurred")


def kinds_of(card):
    """The bytes of a card that are the kinds of its entries."""
    start = 3 + card[2]
    return card[start:start + card[0] + 256 * card[1]]


def report_outcomes(counts):
    """A line for each call."""
    for call in cases.CALLS:
        found = {outcome: count for (other, outcome), count in counts.items() if other == call}
        order = sorted(found, key=lambda outcome: [int(word) if word.isdigit() else word for word in outcome.split()])
        print(f"  {call} {sum(found.values())}: " + ", ".join(f"{outcome} {found[outcome]}" for outcome in order))


# ---- running rt

def used_crates():
    """The crates that the facts are about, with all that they are made of: their lines in crates.txt, by name."""
    lines = [line for line in (REPOSITORY / "crates.txt").read_text().splitlines() if line.strip() and not line.startswith("#")]
    listed = {line.partition(":")[0].split()[0]: line for line in lines}
    used = {}
    wanted = DEPENDENCIES.split()
    while wanted:
        name = wanted.pop()
        if name not in used:
            used[name] = listed[name]
            wanted += listed[name].partition(":")[2].split()
    return used


def copy_repository(folder):
    """These crates, their list and what is proved of them already; no must-fail edits."""
    used = used_crates()
    for name in used:
        shutil.copytree(REPOSITORY / "crates" / name, folder / "crates" / name, ignore=shutil.ignore_patterns("must-fail"))
    (folder / "crates.txt").write_text("".join(f"{line}\n" for line in used.values()))


def write_crate(folder, crate, facts):
    """A crate of facts, which are named by their numbers."""
    specs = folder / "crates" / crate / "specs"
    sources = folder / "crates" / crate / "src"
    specs.mkdir(parents=True)
    sources.mkdir()
    (sources / "lib.rt").write_text("// No functions: the facts are in specs/.\n#![tactic(auto)]\n")
    modules = []
    for start in range(0, len(facts), FACTS_OF_A_MODULE):
        modules.append(f"V{len(modules) + 1}")
        source = HEAD
        for number in range(start, min(start + FACTS_OF_A_MODULE, len(facts))):
            source += fact_source(f"fact{number}", facts[number])
        (specs / f"{modules[-1]}.antt").write_text(source)
    (specs / "Lib.antt").write_text("".join(f"pub mod {module}\n" for module in modules))
    with open(folder / "crates.txt", "a") as listing:
        listing.write(f"{crate}: {DEPENDENCIES}\n")


def reason_in(message):
    """The line of a message that says where two computed sides differ, or else its first line."""
    lines = message.splitlines()
    computed = [line for line in lines if "computed as far as they go" in line]
    return (computed or lines)[0].strip(" :")


def check_crate(folder, crate):
    """Runs rt check: its exit status, what it printed, and the reason for each fact that it refused."""
    done = subprocess.run(["rt", "check"], cwd=folder / "crates" / crate, stdout=subprocess.PIPE, stderr=subprocess.STDOUT, text=True)
    place = r"/V\d+\.antt:\d+:\d+: error: "
    refused = {}
    for message in re.split(place, done.stdout)[1:]:
        found = re.match(r"`fact(\d+)`", message)
        if found:
            refused[int(found[1])] = reason_in(message[found.end():])
    return done.returncode, done.stdout, refused


def verdict_of(output, crate):
    """What rt says of a crate, behind the line that it was checked; verdicts of the crates below stand before that."""
    _, checked, behind = output.rpartition(f"\ncrate {crate}: ")
    return next((line for line in behind.splitlines() if line.startswith("logic=")), "") if checked else ""


def shown(fact):
    """A fact in words."""
    case = fact.case
    words = f"{case.call} {case.source!r}\n  tables {case.file!r}\n  row {case.row}, columns {case.columns}, buffer of {len(case.buffer)}"
    return f"{words}\n  stated {fact.stated}"


def check_right(folder, facts):
    """All the right facts are proved."""
    write_crate(folder, "vectors", facts)
    status, output, refused = check_crate(folder, "vectors")
    for number in sorted(refused)[:5]:
        print(f"definitions: DISAGREEMENT (fact{number})\n{shown(facts[number])[:4 * LONGEST_SHOWN]}")
        print(f"  rt: {refused[number][:LONGEST_SHOWN]}")
    if refused:
        raise Failure(f"{len(refused)} of {len(facts)} facts are refused")
    if status != 0 or not verdict_of(output, "vectors").startswith("logic=proved"):
        raise Failure(f"rt check of vectors: exit {status}\n{output[-4 * LONGEST_SHOWN:]}")


def check_wrong(folder, mixed):
    """Of right and wrong facts together, just the wrong ones are refused."""
    facts = [fact for fact, _ in mixed]
    write_crate(folder, "wrong", facts)
    status, output, refused = check_crate(folder, "wrong")
    for number, (fact, is_wrong) in enumerate(mixed):
        if is_wrong and number not in refused:
            raise Failure(f"a wrong fact is not refused\n{shown(fact)}\n{output[-LONGEST_SHOWN:]}")
        if not is_wrong and number in refused:
            raise Failure(f"a right fact is refused\n{shown(fact)}\n  rt: {refused[number][:LONGEST_SHOWN]}")
    if status != 1 or verdict_of(output, "wrong") != "logic=not-proved":
        raise Failure(f"rt check of wrong: exit {status}\n{output[-4 * LONGEST_SHOWN:]}")


def run():
    """The whole test."""
    right = right_facts()
    counts = outcomes_of(right)
    print(f"definitions: seed {SEED}, {len(right)} facts")
    report_outcomes(counts)
    demand_outcomes(counts)
    demand_kinds(right)
    mixed = mixed_facts(random.Random(SEED), right)
    wrong = [fact for fact, is_wrong in mixed if is_wrong]
    # a text that is too long or has too many parts is over LONGEST_SOURCE_STATED_WRONGLY
    demand_outcomes(outcomes_of(wrong), aside=["refused 3", "refused 7"])
    with tempfile.TemporaryDirectory() as folder:
        copy_repository(pathlib.Path(folder))
        check_right(pathlib.Path(folder), right)
        print(f"definitions: all {len(right)} facts are proved")
        check_wrong(pathlib.Path(folder), mixed)
        print(f"definitions: all {len(wrong)} wrong facts are refused")
    for call, count in sorted(collections.Counter(fact.case.call for fact in wrong).items()):
        print(f"  {call}: {count}")


def main():
    try:
        run()
    except Failure as failure:
        print(f"definitions: FAILED: {failure}")
        return 1
    return 0


if __name__ == "__main__":
    sys.exit(main())
