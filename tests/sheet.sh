#!/usr/bin/env bash
# The program sheet over a folder of cases: each has a line, an expected output, its origin, and a nodes.bin unless that is to be missing.
# It runs with 4 MiB of stack, must end with status 0 and must write nothing to standard error.
set -u
cd "$(dirname "$0")/.."
program=$PWD/crates/sheet/out/sheet
work=$(mktemp -d)
trap 'rm -rf "$work"' EXIT
ulimit -s 4096
count=0
bad=0
for case in tests/sheet/*/; do
  name=$(basename "$case")
  rm -f "$work/nodes.bin"
  [ -e "$case/nodes.bin" ] && cp "$case/nodes.bin" "$work/nodes.bin"
  (cd "$work" && "$program") < "$case/line" > "$work/out" 2> "$work/errors"
  status=$?
  count=$((count + 1))
  if [ "$status" -ne 0 ] || [ -s "$work/errors" ] || ! cmp -s "$work/out" "$case/expected"; then
    bad=$((bad + 1))
    echo "$name: status $status, printed:"
    head -c 400 "$work/out"
    cat "$work/errors"
  fi
done
echo "$count cases of the sheet, $bad bad"
[ "$bad" -eq 0 ] && [ "$count" -gt 0 ]
