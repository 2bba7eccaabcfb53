#!/usr/bin/env python3
"""Brings the names that this repository's specs/ and proofs/ declare to snake case, as today's Rattle spells them.

usage: tools/spell_names.py            in the repository: rewrites crates/*/{specs,proofs,src} in place, and lists what it renamed
       tools/spell_names.py --list     only lists

A name with a capital inside, or with a dash, that a file of specs/ or proofs/ declares (a definition, a lemma, a field, a constructor) gets
underscores. What begins with a capital (a type, a fact, a module) stays; so does what Rattle itself names: goals, invariants, measures, the
proof of a function, and the steps behind `c.` and the like. In a file that imports a name from a library, that name stays as the library has it.
A lemma that would have the name of a definition, or of another name of a file where it stands, gets `_lem` after it, as today's Rattle writes
it. A definition may have the name of a Rust function. What still falls together is listed as 'meets:', and stays as it is everywhere.
"""
import glob
import os
import re
import sys

MODIFIERS = r"(?:(?:pub|abbrev|unfoldable|data|record|mutual) )*"
DECLARED = re.compile(rf"^( *){MODIFIERS}([^\s(){{}}.;,@\"«»:λ→]+)((?: \([^()]*(?:\([^()]*\)[^()]*)*\)| \{{[^{{}}\n]*\}})*) :(?:\s|$)(.*)")
SEVERAL = re.compile(r"^ +([a-z][\w'-]*(?: [a-z][\w'-]*)+) :(?:\s|$)")
TOKEN = re.compile(r"[^\s(){}.;,@\"«»]+")
HEADS = {"c", "goal", "tie", "w", "l", "g", "args", "branch"}
USE = re.compile(r"^(?:pub )?(?:ghost )?use ([^\s;{]+?)(?:\.\{([^}]*)\})?(?: as ([^\s;]+))?;?$")
MADE = re.compile(r"^(?:returns|loop|invariant|decreases|overflow|bounds|slice|offset|nonzero|ghost|prove|unreachable|μ|\+|enum-known)(?:[-_].*)?$|[-_]spec$|-requires(?:-\d+)?$|.*-μ-.*")


def spelled(name):
    words = re.sub(r"(?<=[a-z0-9])[A-Z]", lambda m: "_" + m[0].lower(), name)
    return words.replace("-", "_")


def parts(line):
    """The code of an antt line, and its comment."""
    if line.lstrip().startswith("--"):
        return "", line
    at = line.find(" -- ")
    return (line, "") if at < 0 else (line[:at], line[at:])


def crate_files(pattern):
    return sorted(p for p in glob.glob(pattern, recursive=True) if "/out/" not in p)


def in_function(path):
    return re.search(r"/proofs/.+/[^/]+\.antt$", path) is not None


def declared_names(paths):
    names = {}
    for path in paths:
        for line in open(path, encoding="utf-8"):
            several = None if in_function(path) else SEVERAL.match(parts(line.rstrip("\n"))[0])
            for name in several[1].split() if several else []:
                if name.isascii() and spelled(name) != name and name not in MODIFIERS:
                    names.setdefault(name, set()).add(path)
            m = DECLARED.match(parts(line.rstrip("\n"))[0])
            if not m:
                continue
            name, kind = m[2], m[4]
            if not name[0].islower() or not name.isascii() or spelled(name) == name or name in ("where", "let"):
                continue
            if in_function(path) and (MADE.match(name) or re.match(r"(goal|tie)\.", kind.strip()) or re.match(r"(goal|tie)\.", m[3].strip())):
                continue
            names.setdefault(name, set()).add(path)
    return names


def of_library(path_name, crates):
    steps = path_name.split(".")
    return not (steps[0] == "Rattle" and len(steps) > 1 and steps[1] in crates)


def imported(text, crates):
    """The names that a file imports from a library."""
    found = set()
    for line in text.splitlines():
        m = USE.match(line.strip())
        if not m or not of_library(m[1], crates):
            continue
        for item in (m[2] or m[3] or m[1].split(".")[-1]).split(","):
            found.add(item.split(" as ")[-1].strip())
            found.add(item.split(" as ")[0].strip())
    return found


def words_of(text):
    """The names of a file, without the steps of paths and what stands behind a dot."""
    found = set()
    for line in text.split("\n"):
        code = re.sub(r"(?<=use )[^\s{]+(?=\.\{)|^((pub )?use) \S+$", "", parts(line)[0])
        for m in TOKEN.finditer(code):
            if code[max(0, m.start() - 1) : m.start()] != ".":
                found.add(m[0])
    return found


def labels_here(path, text):
    """The names in a function's proof files that Rattle made: goals and their proofs."""
    made = set()
    if not in_function(path):
        return made
    for line in text.splitlines():
        m = DECLARED.match(line)
        if m and (MADE.match(m[2]) or re.match(r"(goal|tie)\.", m[4].strip())):
            made.add(m[2])
    return made


def turn(text, names, keep, has_labels):
    lines = []
    for line in text.split("\n"):
        code, comment = parts(line)

        def one(m):
            word = m[0]
            base = word
            if base not in names or base in keep:
                return word
            before = code[: m.start()]
            head = re.search(r"([^\s(){};,@\"«»]*)\.$", before)
            if has_labels and head and head[1].split(".")[0] in HEADS and "-" in word:
                return word
            return names[base]

        code = TOKEN.sub(one, code)
        comment = TOKEN.sub(lambda m: names[m[0]] if m[0] in names and "-" not in m[0] and m[0] not in keep else m[0], comment)
        lines.append(code + comment)
    return "\n".join(lines)


def main(argv):
    crates = {os.path.basename(c) for c in glob.glob("crates/*")}
    antt = crate_files("crates/*/specs/**/*.antt") + crate_files("crates/*/proofs/**/*.antt")
    rt = crate_files("crates/*/src/**/*.rt")
    texts = {p: open(p, encoding="utf-8").read() for p in antt + rt}
    names = {n: spelled(n) for n in declared_names(antt)}
    words = {p: words_of(t) for p, t in texts.items()}
    there = {p: imported(t, crates) for p, t in texts.items()}
    alike = {}
    for n, new in names.items():
        alike.setdefault(new, set()).update((n, new))
    together = {n for n in names if any(n in words[p] and (alike[names[n]] - {n}) & words[p] for p in antt)}
    plain = {m[2] for p in antt for line in texts[p].split("\n") for m in [DECLARED.match(parts(line)[0])] if m}
    for n in together:
        if "-" in n:
            names[n] += "_lem"
        elif names[n] in plain:
            names[names[n]] = names[n] + "_lem"
    meets = {}
    for n, new in names.items():
        for p in antt:
            others = {o for o in words[p] if o != n and names.get(o, o) == new and o not in there[p]}
            if n in words[p] and n not in there[p] and others:
                meets[n] = f"{' '.join(sorted(others))} in {p}"
    for n, why in sorted(meets.items()):
        print(f"meets: {n}: {why}")
        del names[n]
    for n in sorted(names):
        print(f"{n} {names[n]}")
    if "--list" in argv:
        return 0
    for p, text in texts.items():
        keep = imported(text, crates) | labels_here(p, text)
        mine = {n: new for n, new in names.items() if p.endswith(".antt") or spelled(n) != n}
        new = turn(text, mine, keep, in_function(p))
        if new != text:
            open(p, "w", encoding="utf-8").write(new)
    return 0


if __name__ == "__main__":
    raise SystemExit(main(sys.argv[1:]))
