#!/usr/bin/env bash
# Comparison with the Rust: both sides through the same calls, the examples by name, a call for every outcome, on the worst pools, on all small shapes and at
# random, with a fixed seed and a bounded time; and the program sheet beside document 01's words. Needs the Rust's sources.
set -eu
cd "$(dirname "$0")/.."
. tests/parts/rust.sh
"$program" 20261115 30
