#!/usr/bin/env bash
# The manuals say what the library does: every example, table, limit and formula of docs/RULES.md and docs/FORMATS.md, against the model and the library as
# built; and the code of README.md, which is run, its number of calls and the points that it says are in force.
set -u
cd "$(dirname "$0")/.." || exit 1
bad=0
for manual in rules formats readme; do
  python3 -B "tests/manuals/test_$manual.py" || bad=1
done
exit "$bad"
