#!/usr/bin/env bash
# The programs sheet and show over inputs that wait, fail or are too long, and over outputs that are full.
# Status, standard output and standard error are compared.
set -u
cd "$(dirname "$0")/.."
work=$(mktemp -d)
trap 'rm -rf "$work"' EXIT
mkdir "$work/bin" "$work/here"
cp crates/sheet/out/sheet crates/show/out/show "$work/bin/" || exit 1
cp tests/sheet/example/expected "$work/example"
printf 'a*a\n' > "$work/square"
printf 'usage\n' > "$work/usage"
printf 'refused 7\n' > "$work/refused_7"
printf 'refused 18\n' > "$work/refused_18"
chmod -R a+rX "$work"
here=$work/here
nodes=$here/nodes.bin
parts=$PWD/tests/sheet_input
ulimit -s 4096
count=0
bad=0
as=()

# run PROGRAM: beside nodes.bin.
run() {
  (cd "$here" && exec timeout 20 ${as[@]+"${as[@]}"} "$work/bin/$1") > "$work/out" 2> "$work/errors"
  status=$?
}

# piped PROGRAM HOW: with a pipe, as pipes.py makes it.
piped() {
  (cd "$here" && timeout 20 python3 "$parts/pipes.py" "$work/bin/$1" "$2") > "$work/out" 2> "$work/errors"
  status=$?
}

# same NAME OUTPUT ERRORS: what the last run did.
same() {
  count=$((count + 1))
  printf '%s' "$3" > "$work/expected_errors"
  if [ "$status" -ne 0 ] || ! cmp -s "$work/out" "$2" || ! cmp -s "$work/errors" "$work/expected_errors"; then
    bad=$((bad + 1))
    echo "$1: status $status, printed:"
    head -c 400 "$work/out"
    head -c 400 "$work/errors"
  fi
}

silent=/dev/null
not_ready='standard input: Resource temporarily unavailable
'
question() { printf '0 2\n'; }

# standard input
cp tests/sheet/example/nodes.bin "$nodes"
run sheet < <(printf '0 '; sleep 0.3; question | tail -c 2)
same 'a line in two parts' "$work/example" ''
run sheet < <(question; sleep 0.3)
same 'an input that ends late' "$work/example" ''
run sheet < <(question; sleep 0.3; question)
same 'a second line that comes late' "$work/usage" ''
piped sheet ready
same 'an input that does not wait, at its end' "$work/example" ''
piped sheet not-ready
same 'an input that is not ready' $silent "$not_ready"
piped sheet empty
same 'an input that is not ready and has nothing' $silent "$not_ready"
piped sheet long
same 'a line that fills the room, of an input that is not ready' "$work/usage" ''
run sheet <&-
same 'a closed input' $silent 'standard input: Bad file descriptor
'
run sheet < "$here"
same 'a directory as the input' $silent 'standard input: Is a directory
'

# standard output
for program in sheet show; do
  text=$work/example
  [ $program = show ] && text=$work/square
  (cd "$here" && question | timeout 20 "$work/bin/$program") > /dev/full 2> "$work/errors"
  status=$?
  : > "$work/out"
  same "$program to a full device" $silent 'standard output: No space left on device
'
  (cd "$here" && question | timeout 20 "$work/bin/$program" >&-) 2> "$work/errors"
  status=$?
  same "$program to a closed output" $silent 'standard output: Bad file descriptor
'
  piped $program full
  same "$program to a full pipe that does not wait" $silent 'standard output: Resource temporarily unavailable
'
  piped $program drained
  same "$program to a full pipe that is read later" "$text" ''
done

# nodes.bin
question > "$work/line"
printf '0 02\n' > "$work/no_line"
run show
same 'show' "$work/square" ''
rm "$nodes"
run sheet < "$work/line"
same 'no file' "$work/refused_7" ''
run show
same 'no file to show' $silent 'nodes.bin: No such file or directory
'
mkfifo "$nodes"
(head -c 9 tests/sheet/example/nodes.bin; sleep 0.3; tail -c 13 tests/sheet/example/nodes.bin) > "$nodes" &
run sheet < "$work/line"
same 'a file in two parts' "$work/example" ''
run sheet < "$work/no_line"
same 'usage before a file that nobody writes' "$work/usage" ''
rm "$nodes"
mkdir "$nodes"
run sheet < "$work/line"
same 'a directory as the file' $silent 'nodes.bin: Is a directory
'
run sheet < "$work/no_line"
same 'usage before a directory' "$work/usage" ''
run show
same 'a directory to show' $silent 'nodes.bin: Is a directory
'
rmdir "$nodes"
cp tests/sheet/example/nodes.bin "$nodes"
chmod 000 "$nodes"
[ "$(id -u)" -eq 0 ] && as=(setpriv --reuid=65534 --regid=65534 --clear-groups)
if ${as[@]+"${as[@]}"} true; then
  run sheet < "$work/line"
  same 'a file that may not be read' $silent 'nodes.bin: Permission denied
'
  run sheet < "$work/no_line"
  same 'usage before a file that may not be read' "$work/usage" ''
  run show
  same 'a file that may not be shown' $silent 'nodes.bin: Permission denied
'
else
  echo "skipped: a file that may not be read, since root may read every file and setpriv does not run"
fi
as=()
rm "$nodes"
python3 "$parts/nodes.py" chain > "$nodes"
python3 "$parts/nodes.py" chain-text > "$work/chain"
run sheet < "$work/line"
same 'a file of 36,868 bytes' "$work/refused_18" ''
run show
same 'a file of 36,868 bytes to show' "$work/chain" ''
printf '\0' >> "$nodes"
for size in 36,869 40,000,000; do
  run sheet < "$work/line"
  same "a file of $size bytes" "$work/refused_7" ''
  run show
  same "a file of $size bytes to show" "$work/refused_7" ''
  truncate -s 40000000 "$nodes"
done

# more than a pipe holds
rm "$nodes"
python3 "$parts/nodes.py" long > "$nodes"
python3 "$parts/nodes.py" long-text > "$work/long"
printf '0 1\n' > "$work/line"
(cd "$here" && timeout 20 "$work/bin/sheet" < "$work/line" 2> "$work/errors" | (sleep 0.3; cat > "$work/out"); exit "${PIPESTATUS[0]}")
status=$?
same 'a sheet that is longer than the pipe' "$work/long" ''

echo "$count runs of sheet and show over inputs and outputs, $bad bad"
[ "$bad" -eq 0 ]
