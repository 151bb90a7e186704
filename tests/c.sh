#!/usr/bin/env bash
# The C interface: builds the archive and the C programs over the header, and runs them; under valgrind too where it is installed.
set -eu
cd "$(dirname "$0")/.."
. tests/parts/archive.sh
out=$(mktemp -d)
trap 'rm -rf "$out"' EXIT
watched=()
if command -v valgrind > /dev/null; then watched=(valgrind --quiet --error-exitcode=99); fi
for source in tests/c/*.c; do
  cc -Wall -Wextra -Wpedantic -Werror -std=c99 -Iinclude "$source" "$archive" -o "$out/case"
  "${watched[@]}" "$out/case" || { echo "$source failed"; exit 1; }
done
[ "${#watched[@]}" -gt 0 ] || echo "skipped: valgrind is not here, so the programs were run without it"
echo "the C functions answer as docs/SPECIFICATION.md has it"
