#!/usr/bin/env python3
"""Counts the places that docs/DESIGN-PASS.md speaks of in crates/*/src/*.rt, point by point; with --list, each place too.

    python3 tools/count_places.py [--list] [COMMIT]      the working tree, or a commit
"""
import re
import subprocess
import sys

listed = "--list" in sys.argv
words = [word for word in sys.argv[1:] if word != "--list"]


def git(*arguments):
    return subprocess.run(["git", *arguments], capture_output=True, text=True, check=True).stdout


def sources():
    names = git("ls-tree", "-r", "--name-only", words[0]) if words else git("ls-files", "-co", "--exclude-standard")
    for name in sorted(set(names.split("\n"))):
        if re.fullmatch(r"crates/\w+/src/.*\.rt", name):
            yield name, git("show", words[0] + ":" + name) if words else open(name).read()


def in_code(text):
    """The text with each comment blanked out, so that places keep their lines."""
    return re.sub(r"//[^\n]*", lambda found: " " * len(found.group()), text)


def clauses(text):
    """Each clause of a contract, with the line that it begins on."""
    for found in re.finditer(r"\b(?:requires|ensures)(?: \w+)? \{ (.*?) \}\n", text):
        yield found.start(), found.group(1)


FAILURES = r"No\w+|Not\w+|Bad|Un\w+|Nothing|Failed|Invalid|Refused"
KINDS = (r"\w+_PART|\w+_ENTRY|SOME_ROW|EVERY_ROW|COMPARISON_OR_\w+|BLANK|NOT_BLANK|DECLINED|NOT_DECLINED|\w+_MARK|FALSE|UNKNOWN|TRUE|EQUAL|NOT_EQUAL|AND|OR|NOT|EXISTS|IN|SOME|ALL|IS|NULL"
         r"|SELECT|FROM|WHERE|OPEN|CLOSE|POINT|COMPARES|NUMBER")
points = {
    "1a own enums of the shape of Option or Result": [],
    "1b constants that are numbers of kinds, tokens, marks, comparisons, truth values": [],
    "1c a number that stands for none, or a function from an enum to its number": [],
    "3 loops other than for": [],
    "3 of these, loops that count": [],
    "4 derives of comparison": [],
    "5 facts that stand in three or more contracts": [],
    "6 flat arrays: an index that is computed from a field's place": [],
    "6 parameters that are arrays of numbers": [],
}
facts = {}
for name, text in sources():
    code = in_code(text)

    def put(point, at, what):
        points[point].append(f"{name}:{code.count(chr(10), 0, at) + 1}: {what}")

    for found in re.finditer(r"\benum (\w+) \{(.*?)\n\}", code, re.S):
        variants = re.findall(r"^    (\w+)", found.group(2), re.M)
        fails = [v for v in variants if re.fullmatch(FAILURES, v)]
        carries = "(Reason)" in found.group(2)
        if len(variants) <= 4 and (carries or (len(fails) == 1 and found.group(1) not in ("Truth", "MarkTest", "Comparison"))):
            put("1a own enums of the shape of Option or Result", found.start(), found.group(1))
    for found in re.finditer(rf"^(?:pub )?const ({KINDS}): (?:usize|u8)\b", code, re.M):
        put("1b constants that are numbers of kinds, tokens, marks, comparisons, truth values", found.start(), found.group(1))
    for found in re.finditer(r"\bfn (refusal_number|judged_by|truth_of|known_kind|find_numbered|stored|refusal|word_code|short_word|long_word|comparison_of|comparison_as|numbers_hold|is_leaf|is_pair|is_comparison)\b", code):
        put("1c a number that stands for none, or a function from an enum to its number", found.start(), found.group(1))
    for found in re.finditer(r"^( *)(while|loop)\b.*$", code, re.M):
        put("3 loops other than for", found.start(), found.group().strip())
        end = code.find("\n" + found.group(1) + "}", found.end())
        if re.search(r"\b\w+ [+-]= 1;|\b(\w+) = \1 \+ 1;", code[found.end():end]):
            put("3 of these, loops that count", found.start(), found.group().strip())
    for found in re.finditer(r"#\[derive\([^)]*PartialEq[^)]*\)\]", code):
        put("4 derives of comparison", found.start(), found.group())
    for at, clause in clauses(code):
        facts.setdefault(re.sub(r"\.(now|old|new)\b", "", clause), []).append(f"{name}:{code.count(chr(10), 0, at) + 1}")
    for found in re.finditer(r"\[[^\]\n]*\b(?:FIELDS|PART_\w+|NOTE_\w+|2 \* \w+|3 \* \w+)\b[^\]\n]*\]", code):
        if not re.match(r"\[\w*;|\[\w+; ", found.group()):
            put("6 flat arrays: an index that is computed from a field's place", found.start(), found.group())
    for found in re.finditer(r"\b(\w+): &(?:mut )?\[usize(?:; \w+)?\]", code):
        put("6 parameters that are arrays of numbers", found.start(), found.group())
points["5 facts that stand in three or more contracts"] = [
    f"{len(places)} times: {clause}" for clause, places in sorted(facts.items(), key=lambda x: -len(x[1])) if len(places) >= 3]
for point, places in points.items():
    print(f"{len(places):4} {point}")
    if listed:
        for place in places:
            print("       " + place)
