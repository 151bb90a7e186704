#!/usr/bin/env bash
# The samples: samples/make.c makes the same bytes and texts again, and each command in README.md and samples/README.md prints what stands there.
set -eu
cd "$(dirname "$0")/.."
. tests/parts/archive.sh
out=$(mktemp -d)
trap 'rm -rf "$out" samples/*.strip' EXIT
cc -Wall -Wextra -Wpedantic -Werror -std=c99 -Iinclude samples/make.c "$archive" -o "$out/make"
mkdir "$out/made"
"$out/make" "$out/made"
for made in "$out"/made/*; do cmp "$made" "samples/$(basename "$made")"; done
[ "$(ls "$out/made")" = "$(cd samples && ls ./*.bin ./*.txt | sed 's|^\./||')" ] || { echo "samples/ has other files"; exit 1; }

# A command stands after '$ ', and what it prints in the lines that are indented below it.
count=0
for page in README.md samples/README.md; do
  while IFS= read -r command; do
    awk -v command="    \$ $command" '$0 == command { on = 1; next } on && !/^    / { exit } on { sub(/^    /, ""); print }' "$page" > "$out/wanted"
    read -r -a words <<<"$command"
    "${words[@]}" > "$out/printed" 2> "$out/said" || [ "$?" -eq 1 ] || { cat "$out/said"; exit 1; }
    cmp "$out/printed" "$out/wanted" || { echo "$page: $command prints:"; cat "$out/printed"; exit 1; }
    count=$((count + 1))
  done < <(sed -nE 's#^    \$ (\./(sheet|strip)\.sh .*)$#\1#p' "$page")
done
[ "$count" -ge 7 ] || { echo "only $count commands were found"; exit 1; }
echo "the samples are made again with the same bytes, and $count commands print what the pages say"
