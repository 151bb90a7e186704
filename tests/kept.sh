#!/usr/bin/env bash
# That the walks keep their results, and that no call's work grows faster than the nodes that it reaches: no contract says so of evaluation. Counts the
# instructions of every entry point on chains and on 14, 40, 127 and 4,095 doublings, and of runs of strips, by callgrind. Of 40 doublings a walk that kept nothing would visit 2^41 - 1 nodes.
set -eu
cd "$(dirname "$0")/.."
if ! command -v valgrind > /dev/null; then
  echo "skipped: valgrind is not here, so $0 has counted nothing"
  exit 77
fi
. tests/parts/archive.sh
out=$(mktemp -d)
trap 'rm -rf "$out"' EXIT
cc -O1 -Wall -Wextra -Werror -std=c99 -Iinclude tests/kept/kept.c "$archive" -o "$out/kept"
timeout 300 valgrind --tool=callgrind --callgrind-out-file="$out/counts" --combine-dumps=yes --toggle-collect=counted --dump-after=counted \
  "$out/kept" > "$out/calls" 2> "$out/errors" || { echo "the calls did not end well within 300 seconds"; tail -n 3 "$out/errors"; exit 1; }

# The bounds in instructions, with what was counted:
# - every call looks at both tables of 4,096 entries, and one that appends copies them: 200,000 (165,000 counted);
# - a walk visits each node that it reaches once: 1,000 for each (40 to 790 counted, where it is not refused at once), which work for each two of 4,096 nodes would exceed;
# - what works on expansions appends as many nodes as there is room for: 500 for each of 4,096 (260 counted);
# - a text is made up to 65,536 bytes: 150 for each (94 counted);
# - whether a strip can be made is known from the nodes, each looked at once, so that 127 doublings are refused as soon as a chain. What is made costs 50 for each byte
#   (24 counted), of 14 doublings 65,535;
# - a strip is run byte by byte: 100 for each (3 to 70 counted).
sed -n 's/^totals: //p' "$out/counts" | head -n "$(wc -l < "$out/calls")" | paste -d ' ' - "$out/calls" | awk '
  function bound(nodes, call) {
    if (call ~ /^taylor_/) return 200000 + 1000 * nodes + 500 * 4096
    if (call == "print") return 200000 + 1000 * nodes + 150 * 65536
    if (call == "strip" && nodes == 15) return 200000 + 1000 * nodes + 50 * 65535
    if (call == "run_strip") return 1000 + 100 * nodes
    if (call ~ /^(substitute_var|derive|evaluate|write|read|strip)/) return 200000 + 1000 * nodes
    return 200000
  }
  { calls++; if ($1 > most) { most = $1; which = $3 " on " $2 " of " $4 } }
  $1 == 0 || $1 > bound($2, $3) { print $3 " on " $2 " of " $4 ": " $1 " instructions, at most " bound($2, $3); bad++ }
  END {
    print calls " calls on chains, doublings and strips, " bad + 0 " over their bound; the most instructions: " most " (" which ")"
    exit bad > 0 || calls != 32 * 39 + 36
  }'
