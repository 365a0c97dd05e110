#!/bin/sh
# Times `reshard plain` on 12,500 to 100,000 documents: the best of three runs, and the growth per doubling.
# placement.sh [PROGRAM]: the program is proved and built where it isn't given and isn't there yet.
# It is no part of the gate, and wants python3 and GNU time.
set -eu
top=$(CDPATH= cd -- "$(dirname -- "$0")/.." && pwd)
[ -x /usr/bin/time ] || { echo "placement.sh wants GNU time at /usr/bin/time" >&2; exit 1; }
command -v python3 >/dev/null || { echo "placement.sh wants python3" >&2; exit 1; }
program=${1:-$("$top/bench/program.sh" resh_cli)}
files=$(mktemp -d)
trap 'rm -rf "$files"' EXIT
before=
for count in 12500 25000 50000 100000; do
  python3 "$top/bench/documents.py" "$count" >"$files/in.json"
  best=$(for run in 1 2 3; do /usr/bin/time -f '%e %M' "$program" plain <"$files/in.json" 2>&1 >/dev/null; done | sort -n | head -n 1)
  echo "$count documents, $(wc -c <"$files/in.json") bytes: ${best% *} s, ${best#* } KB"
  [ -z "$before" ] || echo "$before ${best% *}" | awk '{ if ($1 > 0) printf "  %.2f times the time of half as many\n", $2 / $1 }'
  before=${best% *}
done
