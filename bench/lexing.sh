#!/usr/bin/env bash
# Measures the lexer on 64 MB of a script with names of 6 to 12 bytes, numerals, comments and strings, and prints how many
# times as long it takes as reading the same bytes and summing them.
set -euo pipefail
cd "$(dirname "$0")/.."
. bench/measure.sh
program=${1:-crates/lexing_speed/out/lexing_speed}
start "$program" '(cd crates/lexing_speed && rt run -- lex < stdin)'

awk 'BEGIN {
  for (i = 0; written < 64000000; i++) {
    name = substr("relationship", 1, 3 + i % 7) (100 + i % 900)
    line = "(assert (=> (< " name " " i % 4096 ") (= (|the value of| " name ") \"text " i % 100 "\"))) ; step " i "\n"
    written += length(line)
    printf "%s", line
  }
}' >"$script"

measure "reading and summing" "$script" "$program" sum
summing=$seconds
measure "lexing" "$script" "$program" lex
awk -v lexing="$seconds" -v summing="$summing" 'BEGIN { printf "lexing takes %.1f times as long\n", lexing / summing }'
