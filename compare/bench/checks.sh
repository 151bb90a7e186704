#!/usr/bin/env bash
# The check beside the C loop, ten runs of each of three links: the same code at three places, since a loop's time goes by where it lies. Prints of each run by
# how many bytes the code was moved, its number, the ratios for the four pools and the check's nanoseconds for them; and last of each of these eight columns
# the median, the least and the greatest. Build the archive first.
set -eu
cd "$(dirname "$0")"
runs=$(mktemp)
trap 'rm -f "$runs"' EXIT
for moved in 0 48 2080; do
  BUNLAYOG_MOVED=$moved cargo build --quiet --offline --release
  for run in 1 2 3 4 5 6 7 8 9 10; do
    target/release/bunlayog-bench check | awk -v moved="$moved" -v run="$run" '
      NR > 2 { check[++pools] = $(NF - 8); ratio[pools] = $(NF - 6) }
      END { print moved, run, ratio[1], ratio[2], ratio[3], ratio[4], check[1], check[2], check[3], check[4] }' | tee -a "$runs"
  done
done
for pool in 3 4 5 6 7 8 9 10; do
  cut -d ' ' -f "$pool" "$runs" | sort -n | awk -v pool="$pool" '{ v[NR] = $1 } END { print "column " pool ": median " (v[int((NR + 1) / 2)] + v[int(NR / 2) + 1]) / 2 ", least " v[1] ", greatest " v[NR] }'
done
# the program as it was
BUNLAYOG_MOVED=0 cargo build --quiet --offline --release
