#!/usr/bin/env bash
# No must-fail edit was refused only because it lost its place: the definitions or the code that it makes are well formed, and the proofs still name goals, fields
# and arguments that are there. Reads what was said of each edit when `rt ci` tried it, which .ci/run keeps; by itself it tries them: edits.sh [LOG]
# It cannot tell an edit whose proof meets other facts because the code has other steps: for that the first error has to be read.
set -u
cd "$(dirname "$0")/.." || exit 1
log=${1:-${ROSKUDLA_PROOFS:-}}
bad=0
complain() { echo "edits: $1"; bad=1; }
if [ -z "$log" ]; then
  log=$(mktemp)
  trap 'rm -f "$log"' EXIT
  rt must-fail > "$log" 2>&1
fi

tried=0
for edit in crates/*/must-fail/*.edit; do
  name=$(basename "$(dirname "$(dirname "$edit")")")/$(basename "$edit")
  said=$(grep -F "must-fail $name: " "$log" | tail -n 1)
  case $said in
    *"must-fail $name: refused, as it must be (only because a proof file names"*) complain "$name no longer fits its proof: ${said#*: }" ;;
    *"must-fail $name: refused, as it must be (only by a limit"*) complain "$name is refused by a limit alone: ${said#*: }" ;;
    *"must-fail $name: refused, as it must be"*) tried=$((tried + 1)) ;;
    '') complain "$name was not tried" ;;
    *) complain "${said#*must-fail }" ;;
  esac
done
[ "$tried" -gt 0 ] || complain "no edit was tried"
exit "$bad"
