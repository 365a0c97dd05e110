#!/bin/sh
# Times `reshard generate N`, and `reshard plain` on the file that `generate N --print` writes: the best of three runs.
# generate.sh [PROGRAM [N]]: the program is proved and built where it isn't given and isn't there yet; N is 7.
# It is no part of the gate, and wants GNU time.
set -eu
top=$(CDPATH= cd -- "$(dirname -- "$0")/.." && pwd)
[ -x /usr/bin/time ] || { echo "generate.sh wants GNU time at /usr/bin/time" >&2; exit 1; }
program=${1:-$("$top/bench/program.sh" resh_cli)}
number=${2:-7}
files=$(mktemp -d)
trap 'rm -rf "$files"' EXIT
best() {
  input=$1; shift
  for run in 1 2 3; do /usr/bin/time -f '%e %M' "$program" "$@" <"$input" 2>&1 >"$files/out"; done | sort -n | head -n 1
}
text=$(best /dev/null generate "$number" --print)
mv "$files/out" "$files/in.json"
echo "the file of $number, $(wc -c <"$files/in.json") bytes: ${text% *} s, ${text#* } KB"
sweep=$(best /dev/null generate "$number")
echo "its run and summary: ${sweep% *} s, ${sweep#* } KB"
cat "$files/out"
plain=$(best "$files/in.json" plain)
echo "the same from the file, $(wc -c <"$files/out") bytes of page: ${plain% *} s, ${plain#* } KB"
