#!/usr/bin/env bash
# .ci/run refuses what it is to refuse: each defect below is put into a copy of a small repository, with this repository's own
# .ci/run over it, and the run must fail; without a defect it must pass.
set -u
here=$(cd "$(dirname "$0")/.." && pwd)
work=$(mktemp -d)
trap 'rm -rf "$work"' EXIT

fresh() {
  rm -rf "$work/repo"
  mkdir -p "$work/repo/crates/small/src" "$work/repo/.ci" "$work/repo/tests"
  cp "$here/.ci/run" "$work/repo/.ci/run"
  echo 'small:' > "$work/repo/crates.txt"
  printf '#![tactic(auto)]\n\npub fn one() -> u8 {\n    1\n}\n' > "$work/repo/crates/small/src/lib.rt"
  printf 'exit 0\n' > "$work/repo/tests/passes.sh"
}

bad=0
expect() { # expect WHAT STATUS LASTLINE
  local last status
  last=$(cd "$work/repo" && bash .ci/run 2>&1 | tail -n 1; exit "${PIPESTATUS[0]}")
  status=$?
  [ "$status" -ne 0 ] && status=1
  if [ "$status" -ne "$2" ] || ! [[ "$last" =~ $3 ]]; then
    echo "ci: $1: exit $status, last line '$last'"
    bad=1
  fi
}

some_failed='^[0-9]+ passed, [1-9][0-9]* failed$'

fresh
expect 'nothing wrong' 0 '^2 passed, 0 failed$'

fresh
mkdir -p "$work/repo/crates/other/src"
printf '#![tactic(auto)]\n\npub fn two() -> u8 {\n    2\n}\n' > "$work/repo/crates/other/src/lib.rt"
expect 'a crate folder that is not listed' 1 "$some_failed"

fresh
printf 'pub fn three() -> u8 {\n    3\n}\n' > "$work/repo/stray.rt"
expect 'a file of Rattle outside a crate' 1 "$some_failed"

fresh
mkdir -p "$work/repo/notes"
echo '-- nothing' > "$work/repo/notes/Stray.antt"
expect 'a file of antt outside a crate' 1 "$some_failed"

fresh
printf '#![tactic(auto)]\n\npub fn next(x: u8) -> u8 {\n    x + 1\n}\n' > "$work/repo/crates/small/src/lib.rt"
expect 'a function that is not proved' 1 "$some_failed"

fresh
mkdir -p "$work/repo/crates/small/must-fail"
printf 'file: src/lib.rt\nold:     1\nnew:     2\n' > "$work/repo/crates/small/must-fail/harmless.edit"
expect 'a must-fail edit that is not refused' 1 "$some_failed"

fresh
mkdir -p "$work/repo/crates/small/must-fail"
printf 'file: src/lib.rt\nold:     3\nnew:     2\n' > "$work/repo/crates/small/must-fail/lost.edit"
expect 'a must-fail edit that does not fit the text' 1 "$some_failed"

fresh
printf 'exit 1\n' > "$work/repo/tests/fails.sh"
expect 'a test script that fails' 1 '^2 passed, 1 failed$'

fresh
printf '# alone\nexit 1\n' > "$work/repo/tests/fails.sh"
expect 'a test script that runs alone and fails' 1 '^2 passed, 1 failed$'

fresh
printf 'sleep 2\nexit 1\n' > "$work/repo/tests/fails.sh"
printf 'sleep 1\n' > "$work/repo/tests/first.sh"
printf 'kill -9 $$\n' > "$work/repo/tests/killed.sh"
expect 'test scripts side by side, of which two fail' 1 '^3 passed, 2 failed$'

# tests/edits.sh as one of the scripts, over a function that has a proof, and an edit of it: edited FILE OLD NEW
edited() {
  fresh
  local crate=$work/repo/crates/small
  mkdir -p "$crate/specs" "$crate/proofs/part" "$crate/must-fail"
  cp "$here/tests/edits.sh" "$work/repo/tests/edits.sh"
  echo 'pub mod Code' > "$crate/specs/Lib.antt"
  cat > "$crate/specs/Code.antt" << 'ANTT'
use Rattle.std.specs.Prelude.{ℕ}

abbrev pub most : ℕ
most = 5
ANTT
  cat > "$crate/src/lib.rt" << 'RATTLE'
#![tactic(auto)]

ghost use Rattle.std.specs.Prelude.{◌≤◌};
ghost use Rattle.small.specs.Code.{most};

pub fn part(x: u8) -> u8
    ensures { result ≤ most }
{
    if 5 < x {
        return 5;
    }
    x
}
RATTLE
  cat > "$crate/proofs/part/Answers.antt" << 'ANTT'
use Rattle.std.proofs.Common.{arith}
use Rattle.small.proofs.part.Goals as goal

pub returns-then-x-gt5 : goal.returns-then-x-gt5
returns-then-x-gt5 c = omega arith

pub returns : goal.returns
returns c = omega (arith, c.if-x-gt5.false)
ANTT
  printf 'file: %s\nold: %s\nnew: %s\n' "$1" "$2" "$3" > "$crate/must-fail/small.edit"
}

edited specs/Code.antt 'most = 5' 'most = 4'
expect 'an edit after which a fact no longer holds' 0 '^4 passed, 0 failed$'

edited specs/Code.antt 'most = 5' 'most = few'
expect 'an edit that is not well formed' 1 '^2 passed, 2 failed$'

edited src/lib.rt 'if 5 < x {' 'if x >= 6 {'
expect 'an edit after which a goal is not there, though the function means the same' 1 '^3 passed, 1 failed$'

edited src/lib.rt 'if 5 < x {' 'if x >= 7 {'
expect 'an edit after which a fact and a name that it is shown by are not there' 1 '^3 passed, 1 failed$'

edited src/lib.rt 'if 5 < x {' 'if 9 < x { return 5; } if 5 < x {'
expect 'an edit after which everything still holds' 1 "$some_failed"

edited specs/Code.antt 'most = 5' 'most = 4'
rm -r "$work/repo/crates/small/must-fail"
expect 'no edit to look at' 1 '^2 passed, 1 failed$'

exit "$bad"
