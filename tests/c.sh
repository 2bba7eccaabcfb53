#!/usr/bin/env bash
# The C interface: include/roskudla.h with both archives, as C and as C++; that headers with another struct are told apart; how much stack the calls take;
# that the archives have no state and call memcpy and memset alone; and that the gate's archive exports its three calls and has symbols of the gate's crates
# alone, while the whole archive, looked at in the same way, has some of crates that read rules and comma lines.
set -u
cd "$(dirname "$0")/.." || exit 1
work=$(mktemp -d)
trap 'rm -rf "$work"' EXIT
bad=0
complain() { echo "c: $1"; bad=1; }

bindings/build || exit 1

strict=(-D_GNU_SOURCE -pthread -Wall -Wextra -Wpedantic -Werror)
# built LANGUAGE INCLUDE PROGRAM ARCHIVE: a program of tests/c with a header's folder and one archive
built() {
  case $1 in
    C) gcc -std=c99 "${strict[@]}" "-I$2" "tests/c/$3.c" "target/staticlib/lib$4.a" -o "$work/$3" ;;
    C++) g++ -std=c++11 "${strict[@]}" "-I$2" -x c++ "tests/c/$3.c" -x none "target/staticlib/lib$4.a" -o "$work/$3" ;;
  esac
}
passes() { # passes LANGUAGE PROGRAM ARCHIVE
  if ! built "$1" include "$2" "$3"; then
    complain "$2 in $1 does not build with lib$3.a"
  elif ! "$work/$2"; then
    complain "$2 in $1 fails with lib$3.a"
  fi
}
for language in C C++; do
  passes "$language" calls roskudla
  passes "$language" layout roskudla
  passes "$language" gate roskudla
  passes "$language" gate roskudla_gate
done
passes C stack roskudla

# each edit of the struct in a copy of the header must make layout.c fail
mkdir "$work/include"
told_apart() { # told_apart WHAT SED-SCRIPT
  sed -E "$2" include/roskudla.h > "$work/include/roskudla.h"
  cmp -s include/roskudla.h "$work/include/roskudla.h" && complain "the edit '$1' changes nothing"
  if ! built C "$work/include" layout roskudla; then
    complain "layout.c does not build with $1"
  elif "$work/layout" > /dev/null; then
    complain "layout.c passes with $1"
  fi
}
told_apart 'kind and comparison swapped' 's/uint8_t kind;/uint8_t other;/; s/uint8_t comparison;/uint8_t kind;/; s/uint8_t other;/uint8_t comparison;/'
told_apart 'table and end swapped' 's/uint8_t table;/uint8_t other;/; s/uint8_t end;/uint8_t table;/; s/uint8_t other;/uint8_t end;/'
told_apart 'left and right swapped' 's/value left;/value other;/; s/value right;/value left;/; s/value other;/value right;/'
told_apart 'tag and number swapped' 's/uint8_t tag;/int32_t other;/; s/int32_t number;/uint8_t tag;/; s/int32_t other;/int32_t number;/'
told_apart 'a wider end' 's/uint8_t end;/uint32_t end;/'
told_apart 'an end with a sign' 's/uint8_t end;/int8_t end;/'
told_apart 'a wider tag' 's/uint8_t tag;/uint32_t tag;/'
told_apart 'a number without a sign' 's/int32_t number;/uint32_t number;/'

# the crates that an archive has symbols of, the names that it gives to others, and those that it asks for
crates_in() { nm "target/staticlib/lib$1.a" | sed -nE 's/.* [a-zA-Z] ([a-z_]+)::.*/\1/p' | sort -u; }
exported_by() { nm -g --defined-only "target/staticlib/lib$1.a" | awk 'NF == 3 { print $3 }' | sort | tr '\n' ' '; }
asked_by() { nm -u "target/staticlib/lib$1.a" | awk '$1 == "U" { print $2 }' | sort | tr '\n' ' '; }
of_the_gate="^($(sed -n 's/^gate: //p' crates.txt | tr ' ' '|')|gate|roskudla_gate|roskudla_gate_c)\$" # the gate's crates and all that they are made of

[ "$(exported_by roskudla_gate)" = 'roskudla_check roskudla_list roskudla_run ' ] || complain "libroskudla_gate.a gives: $(exported_by roskudla_gate)"
all_calls='roskudla_card roskudla_check roskudla_export roskudla_import roskudla_judge roskudla_list roskudla_read roskudla_run '
[ "$(exported_by roskudla)" = "$all_calls" ] || complain "libroskudla.a gives: $(exported_by roskudla)"
crates_in roskudla_gate | grep -qx runner || complain 'libroskudla_gate.a: no symbol of the runner was found'
crates_in roskudla_gate | grep -vE "$of_the_gate" && complain 'libroskudla_gate.a has symbols of these crates, which are not the gate'"'"'s'
for crate in parser grammar importer; do
  crates_in roskudla | grep -vE "$of_the_gate" | grep -qx "$crate" || complain "libroskudla.a: no symbol of $crate was found"
done
for crate in roskudla roskudla_gate; do
  [ "$(asked_by "$crate")" = 'memcpy memset ' ] || complain "lib$crate.a asks for: $(asked_by "$crate")"
  [ "$(size "target/staticlib/lib$crate.a" | awk 'NR > 1 { n += $2 + $3 } END { print (NR > 1), n }')" = '1 0' ] || complain "lib$crate.a has data that can change"
done
exit "$bad"
