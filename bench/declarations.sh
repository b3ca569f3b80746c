#!/usr/bin/env bash
# Measures `dolmen check` on accepted scripts of 50,000, 200,000 and 500,000 declarations: MB/s and peak memory. The time
# grows linearly with their number, since a declared name is found by its hash.
set -euo pipefail
cd "$(dirname "$0")/.."
. bench/measure.sh
program=${1:-crates/dolmen/out/dolmen}
start "$program" '(cd crates/dolmen && rt run -- check < ../../examples/first.smt2)'

for declarations in 50000 200000 500000; do
  awk -v declarations="$declarations" 'BEGIN {
    print "(set-logic QF_UF)\n(declare-sort Item 0)"
    for (i = 0; i < declarations; i++) print "(declare-const item_" i " Item)"
  }' >"$script"
  measure "check of $declarations declarations" "$script" "$program" check
done
