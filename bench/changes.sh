#!/bin/sh
# Times the change that an update makes of a document of about 16 KiB, as a ratio to a copy of the document.
# changes.sh [PROGRAM [TIMES]]: the program resh_bench is proved and built where it isn't given and isn't there yet.
# It is no part of the gate, and wants GNU time.
set -eu
top=$(CDPATH= cd -- "$(dirname -- "$0")/.." && pwd)
[ -x /usr/bin/time ] || { echo "changes.sh wants GNU time at /usr/bin/time" >&2; exit 1; }
program=${1:-$("$top/bench/program.sh" resh_bench)}
times=${2:-20000}
seconds() { for run in 1 2 3; do /usr/bin/time -f '%e' "$program" "$1" "$times" 2>&1 >/dev/null; done | sort -n | head -n 1; }
echo "$(seconds copy) $(seconds change)" | awk '{ printf "%.2f s for copies, %.2f s for changes: %.2f times a copy\n", $1, $2, $2 / $1 }'
