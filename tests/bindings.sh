#!/usr/bin/env bash
# The wrappers for Rust and Python, each on document 01's own examples and document 02's truth tests, comma lines and declined cells, over the library as built.
set -u
cd "$(dirname "$0")/.." || exit 1
bindings/build || exit 1
bad=0
cargo test --quiet -p roskudla --test calls || bad=1
python3 -B bindings/python/test_roskudla.py || bad=1
exit "$bad"
