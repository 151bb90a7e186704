#!/usr/bin/env bash
# The programs strip, listing and keys over the cases that tests/strip/make.py makes, which says where each expected output is from.
# They run with 4 MiB of stack, must end with status 0, and standard output and standard error are compared whole.
set -u
cd "$(dirname "$0")/.." || exit 1
work=$(mktemp -d)
trap 'rm -rf "$work"' EXIT
crates=$PWD/crates
mkdir "$work/cases"
made=$(python3 tests/strip/make.py "$work/cases") || exit 1
ulimit -s 4096
count=0
bad=0

# run CASE PROGRAM [ARGUMENT]
run() {
  local case=$1 program=$2
  shift 2
  (cd "$case" && exec timeout 20 "$crates/$program/out/$program" "$@") < "$work/line" > "$work/out" 2> "$work/errors"
  local status=$?
  count=$((count + 1))
  if [ "$status" -ne 0 ] || ! cmp -s "$work/out" "$case/expected" || ! cmp -s "$work/errors" "$case/errors"; then
    bad=$((bad + 1))
    echo "$program, $(cat "$case/name") ($(cat "$case/origin")): status $status, printed:"
    head -c 400 "$work/out"
    head -c 400 "$work/errors"
  fi
}

for case in "$work"/cases/*/; do
  : > "$work/line"
  if [ -e "$case/line" ]; then cp "$case/line" "$work/line"; fi
  program=$(cat "$case/program")
  if [ "$program" = strip ]; then
    run "$case" strip
  elif [ ! -e "$case/argument" ]; then
    run "$case" "$program" strip.bin
  elif [ -s "$case/argument" ]; then
    run "$case" "$program" "$(cat "$case/argument")"
  else
    run "$case" "$program"
  fi
done

# inputs that cannot be read, and outputs that are full
here=$work/here
mkdir -p "$here/nodes.bin"
printf 'nodes.bin: Is a directory\n' > "$here/errors"
: > "$here/expected"
echo 'nodes.bin is a folder' > "$here/name"
echo 'named as sheet and show do' > "$here/origin"
: > "$work/line"
run "$here" strip
rm -r "$here/nodes.bin"
cp crates/strip/data/nodes.bin "$here"
cp crates/strip/stdout "$here/strip.bin"
printf '1\n' > "$work/line"
for program in strip 'listing strip.bin' 'keys strip.bin'; do
  read -r -a words <<<"$program"
  (cd "$here" && exec timeout 20 "$crates/${words[0]}/out/${words[0]}" "${words[@]:1}") < "$work/line" > /dev/full 2> "$work/errors"
  count=$((count + 1))
  if [ "$(cat "$work/errors")" != 'standard output: No space left on device' ]; then
    bad=$((bad + 1))
    echo "$program, a full output: says"
    cat "$work/errors"
  fi
done
(cd "$here" && exec timeout 20 "$crates/keys/out/keys" strip.bin) <&- > "$work/out" 2> "$work/errors"
count=$((count + 1))
if [ -s "$work/out" ] || [ "$(cat "$work/errors")" != 'standard input: Bad file descriptor' ]; then
  bad=$((bad + 1))
  echo "keys, a closed input: says"
  cat "$work/errors"
fi

echo "$count cases of strip, listing and keys, $bad bad"
[ "$bad" -eq 0 ] && [ "$count" -gt "$made" ]
