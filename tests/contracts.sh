#!/usr/bin/env bash
# Every function has a contract, but for tests and those of the programs and of the crates that read lists or only print (docs/CRATES.md).
set -eu
cd "$(dirname "$0")/.."
free=' replay_calls replay_series outputs '
for main in crates/*/src/main.rt; do
  crate=${main#crates/}
  free="$free${crate%%/*} "
done
# A signature goes from its fn to the line that ends with the body's brace. The functions of an impl of From, Display or a trait of this repository have the contract of the trait, From's by `from_gives` and Display's by `output`, which each impl of it has to have, and are counted apart. A test has none. Prints each function without ensures, and last how many there are.
find crates/*/src -name '*.rt' | sort | xargs awk -v free="$free" '
  /^impl.* (From<.*>|fmt::Display|Values|Rewriting) for .*\{$/ { of_trait = 1; from = / From</; shows = / fmt::Display /; gives = !from && !shows; place = FILENAME ": " $0 }
  of_trait && from && /^ *ghost from_gives = / { gives = 1 }
  of_trait && shows && /^ *ghost output = .*Some/ { gives = 1 }
  /^\}/ { if (of_trait && !gives) { print "no contract: " place; bad = 1 } of_trait = 0 }
  of_trait && /^ *fn / { traits++; next }
  FNR == 1 { of_test = 0 }
  /^ *#\[test\]$/ { of_test = 1; next }
  of_test && /^ *fn / { of_test = 0; next }
  of_test && !/^ *(#\[|\/\/)/ { of_test = 0 }
  !on && /^ *(pub )?(extern "C" )?fn / { on = 1; promised = 0; place = FILENAME ": " $0 }
  on && /^ *ensures / { promised = 1 }
  on && /;$/ { on = 0; if (promised) { traits++ } else { none++; print "no contract: " place; bad = 1 } }
  on && !/^ *(ensures|requires) / && /\{$/ {
    on = 0
    all++
    if (!promised) {
      none++
      split(FILENAME, part, "/")
      if (!index(free, " " part[2] " ")) { print "no contract: " place; bad = 1 }
    }
  }
  END { print all " functions, " all - none " with a contract; the others are in programs and in crates that read lists or only print; besides " traits + 0 " of traits and their impls"; exit bad }'
