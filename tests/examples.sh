#!/usr/bin/env bash
# The first programs: examples/first.c as C and as C++, and examples/first.rs with its bindings by rustc alone, where there is one. Each prints
# examples/first.expected, which was worked out by hand (its origin is in examples/README.md), and writes the bytes of samples/polynomial.bin. Under valgrind
# where it is installed. Every call of the bindings is tried too (tests/rust).
set -eu
cd "$(dirname "$0")/.."
. tests/parts/archive.sh
out=$(mktemp -d)
trap 'rm -rf "$out"' EXIT
strict=(-Wall -Wextra -Wpedantic -Werror -Iinclude)

# Runs a program and compares what it prints and writes.
runs() { # NAME
  local name=$1 watched=()
  if command -v valgrind > /dev/null; then watched=(valgrind --quiet --error-exitcode=99 --leak-check=full); fi
  "${watched[@]}" "$out/$name" "$out/$name.bin" > "$out/$name.out"
  cmp "$out/$name.out" examples/first.expected
  cmp "$out/$name.bin" samples/polynomial.bin
  said="$said $name"
}

said=''
cc -std=c99 "${strict[@]}" examples/first.c "$archive" -o "$out/c99"
runs c99
c++ -std=c++11 "${strict[@]}" -x c++ examples/first.c -x none "$archive" -o "$out/c++11"
runs c++11
if command -v rustc > /dev/null; then
  rustc --edition 2021 -D warnings -L "$(dirname "$archive")" examples/first.rs -o "$out/rust"
  runs rust
  rustc --edition 2021 -D warnings -L "$(dirname "$archive")" tests/rust/bindings.rs -o "$out/bindings"
  "$out/bindings"
else
  echo "skipped: rustc is not here, so examples/first.rs and the bindings were not run"
fi
command -v valgrind > /dev/null || echo "skipped: valgrind is not here, so the programs were run without it"
echo "the first program prints and writes what was worked out:$said"
