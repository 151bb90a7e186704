#!/usr/bin/env bash
# The program replay over a list of wrong answers (tests/replay/wrong, made by the Rust): it must report every wrong line and no other. Without this a
# replay that compared an answer with itself would pass.
set -eu
cd "$(dirname "$0")/.."
crates/replay/out/replay < tests/replay/wrong | cmp - tests/replay/report
echo "replay reports each wrong line of tests/replay/wrong and no other: $(tail -n 1 tests/replay/report)"
