#!/usr/bin/env bash
# strip.sh: what it prints, what it writes and how it ends, for files that have a strip, that are refused and that are none; and, in a small tree with an rt that only notes its call,
# when it builds. What building says and when a crate counts as newer is the same as for sheet.sh, and tested there.
set -u
cd "$(dirname "$0")/.." || exit 1
. tests/parts/script.sh

# What a file has, in hexadecimal digits, or that it is not there.
has() { # FILE DIGITS
  local found=none
  if [ -e "$1" ]; then found=$(od -An -v -tx1 "$1" | tr -d ' \n'); fi
  [ "$found" = "$2" ] || wrong "$(basename "$1") has $found, not $2"
}

# ---- files, with the programs as they are built
script=$PWD/strip.sh
cp samples/*.bin "$out"
./strip.sh "$out/polynomial.bin" > /dev/null 2>&1 # builds where a crate is newer
rm "$out/polynomial.bin.strip"
# a^3 + -2*a + 5, from its text: push a, power 3, push -2, push a, times, plus, push 5, plus
keys=$'push a\npower 3\npush -2\npush a\ntimes\nplus\npush 5\nplus'
strip=010000080300000002feffffffffffffff010000040302050000000000000003
ends "$out" 0 $'a^3 + -2*a + 5\n'"$keys" '' polynomial.bin
has "$out/polynomial.bin.strip" $strip
# 8 - 4 + 5 = 9; -1/8 + 1 + 5 = 5.875; in bits 2 and minus zero
ends "$out" 0 $'a^3 + -2*a + 5\n'"$keys"$'\n4022000000000000 number' '' polynomial.bin 2
ends "$out" 0 $'a^3 + -2*a + 5\n'"$keys"$'\n4017800000000000 number' '' polynomial.bin -0.5
ends "$out" 0 $'a^3 + -2*a + 5\n'"$keys"$'\n4022000000000000 number' '' polynomial.bin 4000000000000000 8000000000000000
ends "$out" 0 $'a^3 + -2*a + 5\n'"$keys"$'\n7FF8000000000000 NaN' '' polynomial.bin 7FF0000000000000
# (a + 1)/(a^2 + 3) at 1: 2/4
ends "$out" 0 $'(a + 1)/(a^2 + 3)\npush a\npush 1\nplus\npush a\npower 2\npush 3\nplus\nover\n3FE0000000000000 number' '' quotient.bin 1
# a Max has no text, and a strip all the same: max(a, a)
printf '\2\0\0\0\1\11\0\0\0\0\0\0\0\0\0\0\0\0\0\0\0\0' > "$out/max.bin"
ends "$out" 0 $'push a\npush a\nmax\nC000000000000000 number' '' max.bin -2
has "$out/max.bin.strip" 01000001000009
mkdir "$out/a folder"
cp samples/quotient.bin "$out/a folder/a name"
ends . 0 $'(a + 1)/(a^2 + 3)\npush a\npush 1\nplus\npush a\npower 2\npush 3\nplus\nover' '' "$out/a folder/a name"
has "$out/a folder/a name.strip" 0100000201000000000000000301000008020000000203000000000000000305

# ---- refusals: no file is left, and none is changed
ends "$out" 1 $'exp(a)*log(a + 1)\nrefused 16' '^16: evaluation comes to Exp or Log' exp_log.bin
has "$out/exp_log.bin.strip" none
head -c 30 samples/quotient.bin > "$out/short.bin"
printf 'old' > "$out/short.bin.strip"
ends "$out" 1 'refused 7' '^7: a node file is shorter than 4 bytes' short.bin
has "$out/short.bin.strip" 6f6c64
printf '\1\0\0\0\12\0\0\0\0\0\0\0\0' > "$out/kind_10.bin"
ends "$out" 1 'refused 8' '^8: an entry of the file is no node' kind_10.bin 1
rm "$out/max.bin.strip"
printf '\1\0\0\0\1\5\0\0\0\0\0\0\0' > "$out/f.bin"
ends "$out" 1 $'f\npush f\nrefused 15' '^15: a variable that is reached has no entry' f.bin 1
has "$out/f.bin.strip" none
python3 - "$out" <<'MAKE'
import struct, sys
def tower(name, levels):
    words = [0] + [i + (i << 32) for i in range(levels)]
    open(sys.argv[1] + '/' + name, 'wb').write(struct.pack('<I', levels + 1) + bytes([1] + [3] * levels) + b''.join(struct.pack('<Q', w) for w in words))
tower('tower_127.bin', 127)
tower('tower_128.bin', 128)
MAKE
ends "$out" 1 'refused 19' '^19: ' tower_127.bin
ends "$out" 1 'refused 27' '^27: more than 128 places would be in use$' tower_128.bin
has "$out/tower_128.bin.strip" none

# ---- arguments that are no question
ends . 2 '' 'FILE \[VALUE ..\]'
ends . 2 '' 'there is no such file' samples/nothing.bin
ends . 2 '' 'this is a folder' samples
for value in '' ' ' '1 2' .5 5. +1 1e5 -- 1,5 0x10 1234567890.123456 12345678901234567 -1234567890123456 3FF000000000000G; do
  ends "$out" 2 '' 'this is not a value' polynomial.bin 1 "$value"
done
has "$out/polynomial.bin.strip" $strip

# ---- a file that cannot be written
rm "$out/quotient.bin.strip"
ln -s "$out/nowhere/quotient.strip" "$out/quotient.bin.strip"
ends "$out" 3 $'(a + 1)/(a^2 + 3)\npush a\npush 1\nplus\npush a\npower 2\npush 3\nplus\nover' 'could not be written' quotient.bin
# a folder of that name
cp samples/quotient.bin "$out/folder.bin"
mkdir "$out/folder.bin.strip"
ends "$out" 3 $'(a + 1)/(a^2 + 3)\npush a\npush 1\nplus\npush a\npower 2\npush 3\nplus\nover' 'could not be written' folder.bin
[ -z "$(ls "$out/folder.bin.strip")" ] || wrong "a file was put into a folder"

# ---- when it builds
tree=$out/tree
mkdir -p "$tree/include" "$tree/parts" "$tree/crates/low/src" "$tree/crates/strip/src" "$tree/crates/listing/src" "$tree/crates/keys/src" "$tree/crates/show/src" "$out/bin"
cp strip.sh "$tree"
cp parts/*.sh "$tree/parts"
cp include/bunlayog_text.h "$tree/include"
cp samples/polynomial.bin "$out/short.bin" "$tree"
printf '# crates\nlow:\nstrip: low io\nlisting: low\nkeys: low\nshow: low os\n' > "$tree/crates.txt"
cat > "$out/bin/rt" <<RT
#!/usr/bin/env bash
program=\$(basename "\$PWD")
echo "\$* in \$program" >> "$out/calls"
[ \$program != strip ] || echo 'logic=proved functions=1' >&2
echo 'logic=proved functions=1' >&2
mkdir -p out
cp "$PWD/crates/\$program/out/\$program" out
echo "rt: running out/\$program; to give it other input, run that file yourself" >&2
RT
chmod +x "$out/bin/rt"
script=./strip.sh
old_path=$PATH
PATH=$out/bin:$PATH
ends "$tree" 1 '' 'refused by 7' short.bin
ends "$tree" 2 '' 'this is not a value' polynomial.bin x
[ ! -e "$out/calls" ] || wrong "rt was called for a question that is none"
ends "$tree" 0 $'a^3 + -2*a + 5\n'"$keys" '^5 of 5 proved$' polynomial.bin
grep -q '^proving and building the programs strip, listing, keys and show;' "$out/said" || wrong "the programs are not named"
has "$tree/polynomial.bin.strip" $strip
ends "$tree" 0 $'a^3 + -2*a + 5\n'"$keys"$'\n4022000000000000 number' '' polynomial.bin 2
[ "$(cat "$out/calls")" = $'run in strip\nrun in listing\nrun in keys\nrun in show' ] || wrong "rt is called otherwise"
PATH=$old_path

echo "$count runs of strip.sh, $bad bad"
[ "$bad" -eq 0 ]
