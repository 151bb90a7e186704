#!/usr/bin/env bash
# Instructions of one run of each operation, by callgrind: what prepares the run is not counted. Build the bench first; needs valgrind.
set -eu
cd "$(dirname "$0")"
bench=target/release/bunlayog-bench
out=$(mktemp)
trap 'rm -f "$out"' EXIT

counted() {
  valgrind --tool=callgrind --callgrind-out-file="$out" --toggle-collect='*measured*' "$bench" once "$@" 2>&1 | sed -n 's/.*Collected : //p'
}

printf '%-12s %5s %12s %12s %7s\n' operation size engine Rust ratio
while read -r operation size; do
  ours=$(counted engine "$operation" "$size")
  case $operation in
    write | read | strip | run_strip) printf '%-12s %5s %12s\n' "$operation" "$size" "$ours" ;;
    *)
      theirs=$(counted rust "$operation" "$size")
      printf '%-12s %5s %12s %12s %7s\n' "$operation" "$size" "$ours" "$theirs" "$(awk -v a="$ours" -v b="$theirs" 'BEGIN { printf "%.2f", a / b }')"
      ;;
  esac
done < <("$bench" cases)
