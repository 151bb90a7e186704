#!/usr/bin/env bash
# ./strip.sh FILE [VALUE ..]: shows the expression in a node file, lists the keys of its strip, and writes the strip to FILE.strip.
# FILE is any node file (samples/ has three). With values, one for each variable from 0 on, the strip is run over them and the answer is printed last:
# a VALUE is a decimal of at most 15 digits, as 3 or -0.5, or 16 hexadecimal digits (also where all are 0 to 9), the bits of a double; those past the last variable are not looked at. On a fresh clone it first proves and builds what it needs.
# Ends with 0; with 1 where something is refused, and then no file is written; 2 where the arguments are no question; 3 where the programs cannot be built or run, or the file not written.
set -eu
script=strip
programs=(strip listing keys show)
. "$(dirname "$(realpath "$0")")/parts/programs.sh"

# Whether a word is a value, in one form or the other.
is_value() {
  local digits=${1//[-.]/}
  [[ "$1" =~ ^[0-9A-Fa-f]{16}$ ]] || { [[ "$1" =~ ^-?[0-9]+(\.[0-9]+)?$ ]] && [ "${#digits}" -le 15 ]; }
}

if [ "$#" -lt 1 ]; then usage "a file is needed, and perhaps values"; fi
name=$1
case $name in
/*) beside=$name.strip ;;
*) beside=$PWD/$name.strip ;;
esac
work=$(mktemp -d)
trap 'rm -rf "$work"' EXIT
take_file "$name" "$work/nodes.bin"
shift
for value in "$@"; do
  is_value "$value" || usage "$value: this is not a value"
done

cd "$(dirname "$own")"
need_programs "$name" "$work/nodes.bin"
crates=$PWD/crates
cd "$work"
"$crates/show/out/show" > shown 2> /dev/null || : > shown
"$crates/strip/out/strip" > made 2> said || exit 3
print_shown shown
if [ ! -s made ]; then
  # a refusal, or that the file could not be read
  grep '^refused ' said || { cat said >&2; exit 3; }
  end_if_refused said
fi
"$crates/listing/out/listing" made > listed || exit 3
[ -s listed ] || exit 3
cat listed
end_if_refused listed
if [ "$#" -gt 0 ]; then
  printf '%s\n' "$*" | "$crates/keys/out/keys" made > answer || exit 3
  [ -s answer ] || exit 3
  cat answer
  end_if_refused answer
fi
cat made > "$beside" || { echo "strip.sh: $name.strip could not be written" >&2; exit 3; }
