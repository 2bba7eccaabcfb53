"""README.md's code, run with the library as built: it prints what stands behind it; the number of calls that it says, against the header; and the points in
force, against CHANGELOG.md.

Exit status 0 when all agree.
"""
import pathlib
import re
import sys
import textwrap

ROOT = pathlib.Path(__file__).resolve().parents[2]
sys.path.insert(0, str(ROOT / "tests" / "calls"))

import compare  # noqa: E402
import examples  # noqa: E402
import library  # noqa: E402

README = ROOT / "README.md"
HEADER = ROOT / "include" / "roskudla.h"
CHANGES = ROOT / "CHANGELOG.md"
COUNTS = "zero one two three four five six seven eight nine ten".split()


def check_code(text):
    """The one block of code prints the block behind it."""
    code, = examples.code_blocks(text)
    behind = text.split(textwrap.indent(code, "    "))[1]
    wanted = re.search(r"\A\nprints\n\n((?:    .*\n)+)", behind)
    if not wanted:
        raise compare.Disagreement("behind the code it is not said what it prints")
    compare.same("what the code prints", examples.run_code(code, {})[0], textwrap.dedent(wanted[1]))


def check_count(text):
    """How many calls there are, wherever it is said, and each of them by its name."""
    calls = re.findall(r"/\* ([A-Z]+): [^/]*?\*/\s*uint32_t \w+\(", HEADER.read_text())
    said = re.findall(rf"\b({'|'.join(COUNTS)}) calls\b", text)
    compare.same("how many calls there are", (set(said), len(said)), ({COUNTS[len(calls)]}, 3))
    named = re.search(r"calls run, proved for every input: ([^.]*)\.", text)[1]
    compare.same("the calls that run", re.findall(r"\b[A-Z]{3,}\b", named), calls)
    gate = re.search(r"`libroskudla_gate.a` ([A-Z, and]+) alone", text)[1]
    compare.same("the gate's calls", re.findall("[A-Z]+", gate), ["CHECK", "RUN", "LIST"])


def check_points(text):
    """The points of document 02 that are in force are those whose changes are noted."""
    first, last = map(int, re.search(r"document 02, of which Points (\d+) to (\d+) are in force", " ".join(text.split())).groups())
    noted = [int(number) for number in re.findall(r"(?m)^## Point (\d+): ", CHANGES.read_text())]
    compare.same("the points in force", list(range(first, last + 1)), noted)


def main():
    text, failed = README.read_text(), 0
    library.load("roskudla")  # which builds it
    for check in (check_code, check_count, check_points):
        try:
            check(text)
        except Exception as error:  # what a check needs is missing in the text: a failure too
            failed = 1
            print(f"README.md: {check.__name__}: {error!r}", file=sys.stderr)
    print(f"README.md: {'its code, its number of calls and its points agree' if not failed else 'not so'}")
    return failed


if __name__ == "__main__":
    sys.exit(main())
