#!/bin/sh
# program.sh CRATE: the path of a crate's proved program, which is proved and built first where it isn't there yet.
set -eu
top=$(CDPATH= cd -- "$(dirname -- "$0")/.." && pwd)
program=$top/crates/$1/out/$1
if [ ! -x "$program" ]; then
  echo "$1 is proved and built first, which takes many minutes the first time" >&2
  (cd "$top/crates/$1" && rt run </dev/null >/dev/null) >&2 || true
  [ -x "$program" ] || { echo "$1 wasn't built; 'rt check' in crates/$1 says why" >&2; exit 1; }
fi
echo "$program"
