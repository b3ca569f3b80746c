#!/usr/bin/env bash
# Measures `dolmen check` on accepted scripts of 1 to 64 MB in QF_UF and in QF_LIA: wide ones, which have many small commands, and
# deep ones, whose terms nest nearly 3,000 lists deep. A line has MB/s, the peak memory and the growth, which is how many times
# as long as half the size took: 2 where the time is linear. Where cvc5, z3 and psmt2-frontend are installed, they read the same
# script in the same run, and the line says how many times as long as dolmen each takes; bench/measure.sh says in which mode.
# Words after the program choose logics, shapes and sizes in MB: bench/logics.sh PROGRAM "QF_UF QF_LIA" "wide deep" 1 2 4
set -euo pipefail
cd "$(dirname "$0")/.."
. bench/measure.sh
program=${1:-crates/dolmen/out/dolmen}
logics=${2:-QF_UF QF_LIA}
shapes=${3:-wide deep}
sizes=${*:4}
sizes=${sizes:-1 2 4 8 16 32 64}
start "$program" '(cd crates/dolmen && rt run -- check < ../../examples/first.smt2)'

# declarations LOGIC: what the terms of both shapes use. A limit is a constant that stands for a numeral.
declarations() {
  awk -v logic="$1" 'BEGIN {
    print "(set-logic " logic ")"
    for (i = 0; i < 100; i++) print "(declare-const condition_" i " Bool)"
    if (logic == "QF_UF") {
      print "(declare-sort Item 0)"
      for (i = 0; i < 100; i++) print "(declare-const item_" i " Item)"
      for (i = 0; i < 10; i++) print "(declare-fun next_" i " (Item) Item)"
    } else {
      for (i = 0; i < 100; i++) print "(declare-const item_" i " Int)"
      for (i = 0; i < 10; i++) print "(define-fun limit_" i " () Int " i + 1 ")"
    }
  }'
}

# wide LOGIC BYTES: about so many bytes of small commands. One of ten declares a constant.
wide() {
  awk -v logic="$1" -v bytes="$2" '
    function put(text) { written += length(text) + 1; print text }
    function item(n) { return "item_" n % 100 }
    function condition(n) { return "condition_" n % 100 }
    BEGIN {
      sort = logic == "QF_UF" ? "Item" : "Int"
      while (written < bytes) {
        i++
        hundreds = int(i / 100)
        rest = int(i / 10000)
        if (i % 10 == 0) put("(declare-const extra_" i " " sort ")")
        else if (i % 10 == 5) put("(assert (=> " condition(i) " (distinct " item(hundreds) " " item(rest) "))) ; step " i)
        else if (logic == "QF_UF") {
          if (i % 2) put("(assert (= (next_" i % 10 " " item(i) ") (next_" rest % 10 " " item(hundreds) ")))")
          else put("(assert (or " condition(i) " (not " condition(hundreds) ") (= " item(rest) " " item(i) ")))")
        }
        else if (i % 2) put("(assert (<= (+ (* " i % 50 " " item(i) ") " item(hundreds) ") " i "))")
        else put("(assert (< (- " item(i) " (* limit_" i % 10 " " item(hundreds) ")) (mod " item(rest) " 7)))")
      }
    }'
}

# deep LOGIC BYTES: about so many bytes of assertions that nest nearly 3,000 lists deep. Their innermost terms differ.
deep() {
  awk -v logic="$1" -v bytes="$2" '
    function put(text) { written += length(text); printf "%s", text }
    function item(n) { return "item_" n % 100 }
    function condition(n) { return "condition_" n % 100 }
    function over_condition(i, k) {
      if (k % 6 == 0) return "(not "
      if (k % 6 == 1) return "(and " condition(i + k) " "
      if (k % 6 == 2) return "(or " condition(i * 3 + k) " "
      if (k % 6 == 3) return "(let ((local_" k " (xor " condition(k) " " condition(i) "))) "
      if (k % 6 == 4) return "(= local_" k - 1 " "
      return "(=> " condition(i * 7 + k) " "
    }
    function over_item(i, k) {
      if (k % 6 == 0) return "(+ " item(i + k) " "
      if (k % 6 == 1) return "(- "
      if (k % 6 == 2) return "(* 3 "
      if (k % 6 == 3) return "(let ((local_" k " (+ " item(k) " " item(i) "))) "
      if (k % 6 == 4) return "(- local_" k - 1 " "
      return "(ite " condition(i * 7 + k) " " item(k) " "
    }
    BEGIN {
      levels = 2995
      for (k = 0; k < levels; k++) closing = closing ")"
      while (written < bytes) {
        i++
        put(logic == "QF_UF" ? "(assert " : "(assert (<= 0 ")
        for (k = 0; k < levels; k++) put(logic == "QF_UF" ? over_condition(i, k) : over_item(i, k))
        if (logic == "QF_UF") put("(= " item(i) " (next_" int(i / 10000) % 10 " " item(int(i / 100)) "))" closing ")\n")
        else put("(+ " item(i) " " i ")" closing "))\n")
      }
    }'
}

find_others
for logic in $logics; do
  for shape in $shapes; do
    half=0 half_seconds=0
    for size in $sizes; do
      { declarations "$logic"; "$shape" "$logic" $((size * 1000000)); } >"$script"
      measure_part "check, $logic $shape" "$script" "$program" check
      if [ "$size" = $((2 * half)) ]; then printf ', growth %s' "$(times "$seconds" "$half_seconds")"; fi
      half=$size half_seconds=$seconds
      compare
      echo
    done
  done
done
