#!/usr/bin/env bash
# docs/ARCHITECTURE.md names what is there: every claim and every must-fail edit that it names exists, and every claim is named; its table of crates says what
# crates.txt says; each contract in its table has edits; every definition in its index of document 01's sentences stands in the file that is named, and every
# test script has its row. Every edit opens with a line that says what is wrong, where it names a claim one that exists, and no two of a crate make the same
# change. Every name in docs/DEMANDS.md is that of a claim, a definition, a function, an edit or a test script that exists.
set -u
cd "$(dirname "$0")/.." || exit 1
doc=docs/ARCHITECTURE.md
bad=0
complain() { echo "docs: $1"; bad=1; }

claims=$(sed -nE 's/^(pub record|abbrev pub) ([A-Za-z0-9]*Claim) .*/\2/p' crates/*/specs/Claims.antt | sort -u)
named_claims=$(grep -oE '`[A-Za-z0-9]+Claim`' "$doc" | tr -d '`' | sort -u)
for claim in $named_claims; do
  grep -qx "$claim" <<< "$claims" || grep -rqE "^(pub record|abbrev pub) $claim " crates/*/specs || complain "$claim is named and stated nowhere"
done
for claim in $claims; do
  grep -qx "$claim" <<< "$named_claims" || complain "$claim is not named"
done

# an edit is named by its crate and its file; bench/ and tests/ are folders of the repository
named_edits=$(grep -oE '`[a-z0-9_]+/[a-z0-9_]+`' "$doc" | tr -d '`' | grep -vE '^(bench|tests)/' | sort -u)
[ -n "$named_edits" ] || complain "no edit is named"
for edit in $named_edits; do
  [ -e "crates/${edit%/*}/must-fail/${edit#*/}.edit" ] || complain "the edit $edit is named and is not there"
done
for edit in crates/*/must-fail/*.edit; do
  IFS= read -r first < "$edit"
  grep -qE '^# [^ ].{19}' <<< "$first" || complain "$edit does not open with a line, '# ..', that says what is wrong with it"
done
for claim in $(sed -sn 1p crates/*/must-fail/*.edit | grep -oE '[A-Za-z0-9]+Claim' | sort -u); do
  grep -qx "$claim" <<< "$claims" || complain "an edit names $claim, which is stated nowhere"
done
for folder in crates/*/must-fail; do
  twice=$(awk '/^file: / { file = $0 } /^old: / { old = $0 } /^new:/ { print file ", " old ", " $0 }' "$folder"/*.edit | sort | uniq -d)
  [ -z "$twice" ] || complain "two edits of $folder make the same change: $twice"
done

python3 -B tests/docs/architecture.py || bad=1

# a name with a slash is an edit of a crate or a script, one with colons a function of a crate, any other a word of the statements and contracts
demands=docs/DEMANDS.md
names=$(grep -oE '`[^`]+`' "$demands" | tr -d '`' | sort -u)
[ -n "$names" ] || complain "$demands names nothing"
while IFS= read -r name; do
  case $name in
    tests/*.sh) [ -e "$name" ] || complain "$demands names $name, which is not there" ;;
    *::*) grep -qE "^pub fn ${name#*::}\(" "crates/${name%::*}"/src/*.rt || complain "$demands names $name, which is no public function" ;;
    crates/* | must-fail/ | *.antt | requires) ;;
    */*) [ -e "crates/${name%%/*}/must-fail/${name#*/}.edit" ] || complain "$demands names the edit $name, which is not there" ;;
    *) grep -qrwF -- "$name" crates/*/specs crates/*/src || complain "$demands names $name, which is nowhere" ;;
  esac
done <<< "$names"
exit "$bad"
