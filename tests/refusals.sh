#!/usr/bin/env bash
# The table of refusals in docs/SPECIFICATION.md is the one that is proved of the calls (crates/situation_calls/specs/Table.antt), and so are the lists behind the
# functions of include/bunlayog.h.
set -u
cd "$(dirname "$0")/.." || exit 1
export LC_ALL=C

# NAME: CHECKED; MET of each call of the proved table, under the names of the C functions
proved() {
  awk '
    function name(c) {
      gsub("-", "_", c)
      if (c ~ /^of_/) { sub("^of_", "taylor_", c) } else if (c ~ /^coeffs/) { c = "taylor_" c }
      return c
    }
    /^(checked|met) [a-z_-]+ = / {
      line = $0; sub(/^[a-z]+ [a-z_-]+ = /, "", line)
      list = ""
      while (match(line, /[0-9]+/)) { list = list (list == "" ? "" : ", ") substr(line, RSTART, RLENGTH); line = substr(line, RSTART + RLENGTH) }
      if ($1 == "checked") checks[name($2)] = list; else meets[name($2)] = list
    }
    END { for (c in checks) print c ": " checks[c] "; " meets[c] }' crates/situation_calls/specs/Table.antt | sort
}

# the same of the specification; `check` is a test of the pool and no call of the table
written() {
  sed -n 's/^| `bunlayog_\([a-z_]*\)` | \([0-9, ]*\) | \([0-9, ]*\)|$/\1: \2; \3/p' docs/SPECIFICATION.md | sed 's/ *$//; s/;$/; /' | grep -v '^check:' | sort
}

# the same of the header
declared() {
  sed -n 's|^BUNLAYOG_CHECKED uint32_t bunlayog_\([a-z_]*\)(.*); /\* \(.*\) \*/$|\1: \2|p' include/bunlayog.h | sed 's/^\([a-z_]*: [0-9, ]*\)$/\1;/' | grep -v '^check:' | sort
}

calls=$(proved | wc -l)
[ "$calls" -eq 36 ] || { echo "refusals: the proved table has $calls calls, not 36"; exit 1; }
diff <(proved | sed 's/ *$//') <(written | sed 's/ *$//') || { echo "refusals: docs/SPECIFICATION.md has another table than the one that is proved"; exit 1; }
diff <(proved | sed 's/ *$//') <(declared | sed 's/ *$//') || { echo "refusals: include/bunlayog.h has other lists than the table that is proved"; exit 1; }
echo "refusals: the table of $calls calls in docs/SPECIFICATION.md and in the header is the one that is proved"
