#!/usr/bin/env bash
# The list of crates/replay and the list of wrong answers, made again by the Rust, have the same bytes. Needs the Rust's sources.
set -eu
cd "$(dirname "$0")/.."
. tests/parts/rust.sh
folder=$(mktemp -d)
trap 'rm -rf "$folder"' EXIT
"$program" list "$folder" "$folder" 2> /dev/null
cmp "$folder/stdin" crates/replay/stdin
cmp "$folder/stdout" crates/replay/stdout
cmp "$folder/wrong" tests/replay/wrong
cmp "$folder/report" tests/replay/report
echo "the list of crates/replay and the list of wrong answers, made again by the Rust, have the same bytes"
