#!/usr/bin/env bash
# Measures `dolmen check` on terms: 1,000,000 applications of 10,000 declared functions over QF_UF, and sums over Ints with as
# many numerals and applications. Where cvc5, z3 or psmt2-frontend is installed, the line says how many times as long it takes on
# the same script.
set -euo pipefail
cd "$(dirname "$0")/.."
. bench/measure.sh
program=${1:-crates/dolmen/out/dolmen}
start "$program" '(cd crates/dolmen && rt run -- check < ../../examples/first.smt2)'

measure_all() {
  measure_part "check of $1" "$script" "$program" check
  compare
  echo
}

find_others
awk 'BEGIN {
  print "(set-logic QF_UF)\n(declare-sort Item 0)\n(declare-const start Item)"
  for (i = 0; i < 10000; i++) print "(declare-fun function_" i " (Item) Item)"
  for (i = 0; i < 100000; i++) {
    printf "(assert (= start "
    for (j = 0; j < 10; j++) printf "(function_%d ", (i * 7 + j * 13) % 10000
    print "start))))))))))))"
  }
}' >"$script"
measure_all "1,000,000 applications of declared functions"

awk 'BEGIN {
  print "(set-logic ALL)\n(declare-const x Int)"
  for (i = 0; i < 100000; i++) {
    printf "(assert (< (+"
    for (j = 0; j < 8; j++) printf " (* %d x)", i + j
    print ") " i "))"
  }
}' >"$script"
measure_all "100,000 sums of eight products"
