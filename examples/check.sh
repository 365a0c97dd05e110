#!/bin/sh
# Compares what the program answers to each example with the page beside it, and its status with the page's last line.
# By default it runs ./reshard; another program can be given as words.
set -eu
top=$(CDPATH= cd -- "$(dirname -- "$0")/.." && pwd)
[ $# -gt 0 ] || set -- "$top/reshard"
answer=$(mktemp)
trap 'rm -f "$answer"' EXIT

# The status of a page: 0 committed, 1 aborted, 3 refused.
status_of() {
  case $(tail -n 1 "$1") in
    'end committed') echo 0 ;;
    'end aborted: '*) echo 1 ;;
    'refused: '*) echo 3 ;;
    *) echo "$1 has no end" ;;
  esac
}

failed=0
for file in "$top"/examples/*.json; do
  page=${file%.json}.page
  status=0
  "$@" plain <"$file" >"$answer" || status=$?
  if [ "$status" = "$(status_of "$page")" ] && cmp -s "$answer" "$page"; then
    echo "ok ${file##*/}"
  else
    echo "WRONG ${file##*/}: status $status"
    failed=1
  fi
done
exit "$failed"
