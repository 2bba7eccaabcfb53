#!/usr/bin/env bash
# A slice of the long comparison (tests/compare/run): the reference's own tests, half a minute of drawn inputs, and five defects that have to be seen.
# alone: the comparing program has two threads.
set -eu
cd "$(dirname "$0")/.."
bindings/build
cargo test --quiet --package reference --test paper
cargo build --quiet --release --package compare
target/cargo/release/compare --threads 2 --seed 20261116 --inputs 100000000 --seconds 30 --least 100000
tests/compare/defects.sh unknown-as-false left-value-captured import-cr-at-end export-last-table declined-under-not-in-true-interpretation
