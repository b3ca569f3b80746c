# shellcheck shell=bash
# Runs a program on a file, and prints its speed and its peak memory. For the scripts beside it. Seconds are those of a processor,
# which other work on the machine changes less than those of the clock.
export LC_ALL=C

# start PROGRAM COMMAND: stops where the program is not built, naming the command that builds it, and else makes an empty
# file, $script, that goes with the shell. Its name ends in .smt2, since psmt2-frontend reads no other.
start() {
  [ -x "$1" ] || { echo "build the program first: $2" >&2; exit 1; }
  script=$(mktemp --suffix=.smt2)
  trap 'rm -f "$script"' EXIT
}

# run FILE PROGRAM [WORDS]: runs the program on the file, and leaves the seconds in $seconds and the peak memory in MB in $peak.
# It fails where the program does.
run() {
  local file=$1 used spent status=0 TIMEFORMAT='%3U %3S'
  shift
  used=$(mktemp)
  spent=$(mktemp)
  { time /usr/bin/time -f '%M' -o "$used" "$@" <"$file" >/dev/null 2>&3 || status=$?; } 3>&2 2>"$spent"
  seconds=$(awk '{ printf "%.3f", $1 + $2 }' "$spent")
  peak=$(awk 'END { printf "%.1f", $1 / 1024 }' "$used")
  rm -f "$used" "$spent"
  return "$status"
}

# measure_part LABEL FILE PROGRAM [WORDS]: as measure, without the end of the line.
measure_part() {
  local label=$1 file=$2
  shift 2
  if ! run "$file" "$@"; then
    echo "$label: the program failed" >&2
    return 1
  fi
  awk -v label="$label" -v size="$(wc -c <"$file")" -v seconds="$seconds" -v peak="$peak" 'BEGIN {
    printf "%-28s %6.1f MB in %6.2f s: %7.1f MB/s, peak memory %7.1f MB",
      label, size / 1e6, seconds, (seconds == 0 ? 0 : size / 1e6 / seconds), peak
  }'
}

# measure LABEL FILE PROGRAM [WORDS]: prints a line, and leaves the seconds in $seconds.
measure() {
  measure_part "$@" || return 1
  echo
}

# times SECONDS BASE: the first divided by the second.
times() {
  awk -v seconds="$1" -v base="$2" 'BEGIN { if (base == 0) printf "-"; else printf "%.2f", seconds / base }'
}

# run_other NAME: runs another program on $script, as run does. Each reads the commands and sorts their terms. cvc5 does no more
# with --parse-only, and psmt2-frontend never does. z3 has no mode that only parses: it also keeps the assertions for a solver,
# and solves where the script has a check, which no script that is compared has. Each may take half of the machine's memory.
run_other() {
  case $1 in
    cvc5) set -- cvc5 --lang smt2 --parse-only ;;
    z3) set -- z3 -smt2 ;;
    psmt2-frontend) set -- "$psmt2" -quiet ;;
  esac
  run "$script" bash -c "ulimit -v $memory_limit && exec \"\$@\"" limited "$@" "$script"
}

# find_others: puts the names of the other programs that are installed in $others, and prints those of the missing ones. Some
# packages install psmt2-frontend as psmt2-frontend_bin.
find_others() {
  local name
  others=()
  psmt2=$(command -v psmt2-frontend || command -v psmt2-frontend_bin || true)
  memory_limit=$(awk '$1 == "MemTotal:" { printf "%d", $2 / 2 }' /proc/meminfo)
  for name in cvc5 z3 psmt2-frontend; do
    if [ -n "$(command -v "$name")" ] || [ "$name" = psmt2-frontend ] && [ -n "$psmt2" ]; then
      others+=("$name")
    else
      echo "$name is not installed: skipped"
    fi
  done
}

# compare: runs the other programs on $script, on which a program ran before, and prints how many times as long each takes.
compare() {
  local base=$seconds name mark=', times as long: '
  for name in "${others[@]}"; do
    if run_other "$name" 2>/dev/null; then
      printf '%s%s %s' "$mark" "$name" "$(times "$seconds" "$base")"
    else
      printf '%s%s fails' "$mark" "$name"
    fi
    mark=', '
  done
}
