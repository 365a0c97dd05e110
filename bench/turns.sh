#!/bin/sh
# Times turns on shared cells, with a step in each, beside the same steps under std's Mutex: one thread, four threads
# with a value each, and four threads with one value.
# turns.sh [PROGRAM [TIMES]]: the program resh_turn_bench is proved and built where it isn't given and isn't there yet;
# TIMES is how many steps each thread makes. It is no part of the gate, and wants GNU time.
set -eu
top=$(CDPATH= cd -- "$(dirname -- "$0")/.." && pwd)
[ -x /usr/bin/time ] || { echo "turns.sh wants GNU time at /usr/bin/time" >&2; exit 1; }
program=${1:-$("$top/bench/program.sh" resh_turn_bench)}
times=${2:-5000000}
once() { /usr/bin/time -f '%e' "$program" "$1" "$2" "$times" 2>&1 >/dev/null; }
compared() {
  for run in 1 2 3 4 5; do
    echo "$(once turns "$1") $(once locks "$1")"
  done | awk -v shape="$2" -v steps="$(($3 * times))" '
    NR == 1 || $1 < turns { turns = $1 }
    NR == 1 || $2 < locks { locks = $2 }
    END {
      printf "%s: %.1f million turns a second, %.1f million locks: %.2f times the time of locks\n",
        shape, steps / turns / 1000000, steps / locks / 1000000, turns / locks
    }'
}
compared one "one thread" 1
compared apart "four threads, a value each" 4
compared together "four threads, one value" 4
