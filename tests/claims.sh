#!/usr/bin/env bash
# Every claim that a crate's specs/Claims.antt states is the type of a public proof in that crate's proofs/: a claim cannot stand unproved.
set -u
cd "$(dirname "$0")/.." || exit 1
bad=0
found=0
for file in crates/*/specs/Claims.antt; do
  crate=${file%/specs/Claims.antt}
  for claim in $(sed -nE 's/^(pub record|abbrev pub) ([A-Za-z0-9]*Claim) .*/\2/p' "$file"); do
    found=$((found + 1))
    if ! grep -rqE "^pub [a-z0-9_'-]+ : $claim\$" "$crate/proofs"; then
      echo "claims: $crate states $claim and proves it nowhere"
      bad=1
    fi
  done
done
[ "$found" -gt 0 ] || { echo "claims: none found"; bad=1; }
exit "$bad"
