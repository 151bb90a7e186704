#!/usr/bin/env bash
# ./sheet.sh FILE VARIABLE ORDER [POINT]: shows the expression in a node file and prints its coefficient sheet.
# FILE is any node file (samples/ has three), VARIABLE a number from 0 to 65535, ORDER one from 0 to 24, POINT a whole number;
# without a point the expansion is made at the variable itself. On a fresh clone it first proves and builds what it needs.
# Ends with 0; with 1 where the sheet is refused, 2 where the arguments are no question, 3 where the programs cannot be built or run.
set -eu
script=sheet
programs=(sheet show)
. "$(dirname "$(realpath "$0")")/parts/programs.sh"

if [ "$#" -lt 3 ] || [ "$#" -gt 4 ]; then usage "a file, a variable, an order and perhaps a point are needed"; fi
name=$1
work=$(mktemp -d)
trap 'rm -rf "$work"' EXIT
take_file "$name" "$work/nodes.bin"
shift
line=$*
number='(0|[1-9][0-9]*)'
[[ "$line" =~ ^$number\ $number(\ (0|-?[1-9][0-9]*))?$ ]] || usage "$line: this is not a variable, an order and perhaps a point"
# with its line end 64 bytes at most
[ "${#line}" -lt 64 ] || usage "$line: these numbers are too long"

cd "$(dirname "$own")"
need_programs "$name" "$work/nodes.bin"
crates=$PWD/crates
cd "$work"
"$crates/show/out/show" > shown 2> /dev/null || : > shown
printf '%s\n' "$line" | "$crates/sheet/out/sheet" > answer || exit 3
[ -s answer ] || exit 3
# where show refuses there is no expression to show; the sheet says what it refuses itself
print_shown shown
cat answer
if [ "$(head -n 1 answer)" = usage ]; then usage "$line: the sheet does not take this line"; fi
end_if_refused answer
