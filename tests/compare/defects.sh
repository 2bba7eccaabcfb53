#!/usr/bin/env bash
# Shows that the drawn inputs reach what matters: each defect of defects/ is put into a copy of the reference, and the comparing
# program built with that copy must find a difference within 250,000 inputs. A defect is a file of three lines: `file:` names a file
# of the reference, `old:` a text that stands in it exactly once, `new:` what stands there instead. That all of them fit is looked at first.
#
#   defects.sh [NAME ...]     tries the named defects, or all
set -u
here=$(cd "$(dirname "$0")" && pwd)
root=$(cd "$here/../.." && pwd)
inputs=250000

# a fixed folder, so that cargo need not build everything again for each defect, nor each time
export CARGO_TARGET_DIR="$root/target/cargo-defects/target"
export ROSKUDLA_LIB_DIR="$root/target/staticlib"
export CARGO_PROFILE_RELEASE_INCREMENTAL=true CARGO_PROFILE_RELEASE_OPT_LEVEL=1
work="$root/target/cargo-defects/work"
rm -rf "$work"
mkdir -p "$work/tests/compare" "$work/bindings" "$work/reference"
# the copies must be younger than what was built of a defect before, else cargo would take that for theirs
printf '[workspace]\nresolver = "2"\nmembers = ["bindings/rust", "reference", "tests/compare"]\n' > "$work/Cargo.toml" # what is copied, and no other package
cp -r "$here/Cargo.toml" "$here/src" "$work/tests/compare/"
cp -r "$root/bindings/rust" "$work/bindings/rust"
cp -r "$root/reference/Cargo.toml" "$root/reference/src" "$work/reference/"

field() { # field NAME FILE: what stands behind `NAME: ` in a defect
  sed -n "s/^$1: //p" "$2"
}

apply() { # apply DEFECT: writes the changed file into the copy; fails unless the old text stands in it once
  local file old new content without
  file=$(field file "$1"); old=$(field old "$1"); new=$(field new "$1")
  [ -n "$old" ] && [ -f "$root/reference/$file" ] || return 1
  content=$(cat "$root/reference/$file")
  without=${content//"$old"/}
  [ $((${#content} - ${#without})) -eq ${#old} ] || return 1
  printf '%s\n' "${content/"$old"/"$new"}" > "$work/reference/$file"
}

restore() { # restore DEFECT: the file as it is in the reference
  local file
  file=$(field file "$1")
  cat "$root/reference/$file" > "$work/reference/$file"
}

run() { # run: builds the program with the copy as it is and compares
  (cd "$work" && cargo build --release --offline --quiet --package compare) > "$work/build.log" 2>&1 || return 3
  timeout 300 "$CARGO_TARGET_DIR/release/compare" --seed 1 --inputs "$inputs" > "$work/compare.log" 2> "$work/panic.log"
}

if [ $# -gt 0 ]; then defects=("${@/%/.edit}"); defects=("${defects[@]/#/$here/defects/}"); else defects=("$here"/defects/*.edit); fi

bad=0
for defect in "$here"/defects/*.edit; do
  if apply "$defect"; then restore "$defect"; else
    echo "defects: $(basename "$defect" .edit) does not fit: its old text does not stand exactly once in its file"
    bad=1
  fi
done
[ "$bad" -eq 0 ] || exit 1

run
status=$?
if [ "$status" -ne 0 ]; then
  echo "defects: without a defect the program ends with $status"
  tail -n 5 "$work/build.log" "$work/compare.log"
  exit 1
fi
for defect in "${defects[@]}"; do
  name=$(basename "$defect" .edit)
  apply "$defect" || { echo "defects: there is no $name"; bad=1; continue; }
  run
  status=$?
  seen=$(sed -n 's/^compare: a difference after \([0-9]*\) inputs.*/\1/p' "$work/compare.log")
  if [ "$status" -eq 3 ]; then
    echo "defects: $name does not build"; tail -n 12 "$work/build.log"; bad=1
  elif [ "$status" -eq 1 ] && [ -n "$seen" ]; then
    echo "defects: $name seen after $seen inputs: $(sed -n 's/^difference: //p' "$work/compare.log")"
  else
    echo "defects: $name UNSEEN in $inputs inputs (exit $status)"; bad=1
  fi
  restore "$defect"
done
[ "$bad" -eq 0 ] && echo "defects: all ${#defects[@]} seen"
exit "$bad"
