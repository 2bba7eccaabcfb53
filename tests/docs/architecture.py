"""docs/ARCHITECTURE.md against the tree: the table of crates against crates.txt, the table of contracts against the must-fail edits, the index of document 01's
sentences against the definitions, and the table of test scripts against tests/.
"""
import pathlib
import re
import sys

ROOT = pathlib.Path(__file__).resolve().parents[2]
TEXT = (ROOT / "docs" / "ARCHITECTURE.md").read_text()
INDEX = "## Where the sentences of document 01 stand"
EDITS = "### Wrong programs that the contracts rule out"
faults = []


def section(heading):
    """The lines of a section, up to the next heading of its level."""
    level = heading.split(" ")[0]
    start = TEXT.index(heading)
    end = re.search(rf"^{level} ", TEXT[start + len(heading):], re.M)
    return TEXT[start:start + len(heading) + end.start() if end else len(TEXT)]


def rows(text, width):
    """The rows of a section's tables that have so many cells, without headings."""
    for line in text.splitlines():
        cells = [cell.strip() for cell in line.strip().strip("|").split(" | ")]
        if line.startswith("|") and len(cells) == width and not set(line) <= set("|-"):
            yield cells


def quoted(cell):
    return re.findall(r"`([^`]+)`", cell)


def listed_crates():
    """The crates of crates.txt, a static library by its name alone, each with the crates that it uses."""
    uses = {}
    for line in (ROOT / "crates.txt").read_text().splitlines():
        if line.strip() and not line.startswith("#"):
            name, _, names = line.partition(":")
            uses[name.removesuffix(" staticlib").strip()] = set(names.split())
    return uses


def check_crates():
    """The table of crates: what each uses, and which others an edit of it rechecks, those that use it, directly or not."""
    uses = listed_crates()
    said = {quoted(cells[0])[0]: cells for cells in rows(section("### What a check takes"), 5) if quoted(cells[0])}
    if set(said) != set(uses):
        faults.append(f"the table of crates lacks or invents {set(said) ^ set(uses)}")
    for name, cells in said.items():
        above = {name}
        while True:
            more = {other for other in uses if uses[other] & above} - above
            if not more:
                break
            above |= more
        if not all(int(cell.replace(",", "")) for cell in cells[2:4]):
            faults.append(f"{name} has no measured time or memory")
        if set(quoted(cells[1])) != uses.get(name, set()):
            faults.append(f"{name} uses {sorted(uses.get(name, ()))}, not {quoted(cells[1])}")
        if set(quoted(cells[4])) != above - {name}:
            faults.append(f"an edit of {name} rechecks {sorted(above - {name})}, not {quoted(cells[4])}")


def check_contracts():
    """The table of contracts: each crate that a contract names has must-fail edits, and together they have at least two."""
    found = 0
    for contract, *cells in (cells for cells in rows(section(EDITS), 3) if quoted(cells[1])):
        found += 1
        edits = {name: len(list((ROOT / "crates" / name / "must-fail").glob("*.edit"))) for cell in cells for name in quoted(cell)}
        faults.extend(f"{contract} names {name}, which has no edits" for name in edits if not edits[name])
        if sum(edits.values()) < 2:
            faults.append(f"{contract} has fewer than two edits")
    if not found:
        faults.append("the table of contracts is empty")


def is_defined(name, text):
    """Whether a definition, function, type, constant, constructor or field has this name."""
    word = re.escape(name)
    return (re.search(rf"\b(?:pub (?:record|data)|pub|fn|struct|enum|const) {word}(?![\w'-])", text)
            or re.search(rf"^ +(?:pub )?(?:[\w'-]+ )*{word}(?: [\w'-]+)* :", text, re.M))


def check_index():
    """Every name of the index is defined, in the file that its row or its heading names, or anywhere where it names code."""
    everything = "\n".join(path.read_text() for path in sorted((ROOT / "crates").rglob("*")) if path.suffix in (".antt", ".rt"))
    found = 0
    for heading in re.findall(r"^### .*$", section(INDEX), re.M):
        for _, cell in (cells for cells in rows(section(heading), 2) if quoted(cells[1])):
            for name in quoted(cell):
                word = name.split("::")[-1]
                if not re.fullmatch(r"[A-Za-z_][\w-]*", word):
                    continue
                found += 1
                if not is_defined(word, everything) and not (ROOT / "crates" / word).is_dir():
                    faults.append(f"the index names {name}, which is defined nowhere")
            for path in re.findall(r"\b([a-z_]+/(?:specs|src)/\w+\.(?:antt|rt))", cell):
                if not (ROOT / "crates" / path).is_file():
                    faults.append(f"the index names the file {path}, which is not there")
    if found < 100:
        faults.append(f"the index names {found} definitions only")


def check_scripts():
    """Every test script has its row."""
    said = {name for cells in rows(section("## What is tested"), 2) for name in quoted(cells[0]) if name.endswith(".sh")}
    there = {path.name for path in (ROOT / "tests").glob("*.sh")}
    if said != there:
        faults.append(f"the table of test scripts lacks or invents {said ^ there}")


check_crates()
check_contracts()
check_index()
check_scripts()
for fault in faults:
    print(f"docs: {fault}")
sys.exit(bool(faults))
