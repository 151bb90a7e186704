#!/usr/bin/env bash
# sheet.sh: what it prints and how it ends, for questions that are answered, refused and wrong; and, in a small tree with an rt that only notes its call, when it builds,
# what it says on the way and what it says where it cannot.
set -u
cd "$(dirname "$0")/.." || exit 1
. tests/parts/script.sh
script=./sheet.sh

# ---- questions, with the programs as they are built
./sheet.sh samples/polynomial.bin 0 0 > /dev/null 2>&1 # builds where a crate is newer
ends . 0 $'a^3 + -2*a + 5\n0 3 2\n0: 9\n1: 10\n2: 6\n3: 1' '' samples/polynomial.bin 0 3 2
ends . 0 $'a^3 + -2*a + 5\n1 2 -7\n0: a*a*a + -2*a + 5' '' samples/polynomial.bin 1 2 -7
ends . 1 $'a^3 + -2*a + 5\nrefused 5' '^5: an order is above 24' samples/polynomial.bin 0 25
ends . 1 $'exp(a)*log(a + 1)\nrefused 11' '^11: exp or log of a literal is needed that has none$' samples/exp_log.bin 0 3 1
head -c 30 samples/quotient.bin > "$out/short.bin"
ends . 1 'refused 7' '^7: a node file is shorter than 4 bytes' "$out/short.bin" 0 2
ends . 1 'refused 3' '^3: a variable number is above 65,535$' "$out/short.bin" 65536 2
printf '\1\0\0\0\12\0\0\0\0\0\0\0\0' > "$out/kind_10.bin"
ends . 1 'refused 8' '^8: an entry of the file is no node' "$out/kind_10.bin" 0 2
cp samples/polynomial.bin "$out/a name with spaces.bin"
ends . 0 $'a^3 + -2*a + 5\n0 0 2\n0: 9' '' "$out/a name with spaces.bin" 0 0 2

# ---- arguments that are no question
ends . 2 '' 'FILE VARIABLE ORDER \[POINT\]'
ends . 2 '' 'a file, a variable, an order' samples/polynomial.bin 0
ends . 2 '' 'a file, a variable, an order' samples/polynomial.bin 0 3 2 1
ends . 2 '' 'there is no such file' samples/nothing.bin 0 3
ends . 2 '' 'this is a folder' samples 0 3
for line in '-1 3' '00 3' '0 x' '0 3 -0' '0 3 +1' '0 3 1.5' '0 03' '0  3' '0 3 2 1'; do
  ends . 2 '' 'this is not a variable, an order and perhaps a point' samples/polynomial.bin "${line%% *}" "${line#* }"
done
ends . 2 '' 'these numbers are too long' samples/polynomial.bin 0 3 123456789012345678901234567890123456789012345678901234567890
ends . 1 $'a^3 + -2*a + 5\nrefused 4' '^4: a literal or point' samples/polynomial.bin 0 3 12345678901234567890123456789012345678901234567890123456789

# ---- when it builds: a small tree of four crates, and an rt that notes its call, puts the program there and runs it, which prints something and fails. With the first
# program the library is built too.
tree=$out/tree
mkdir -p "$tree/include" "$tree/parts" "$tree/crates/low/src" "$tree/crates/sheet/src" "$tree/crates/show/src" "$tree/crates/other/src" "$out/bin"
cp sheet.sh "$tree"
cp parts/*.sh "$tree/parts"
cp include/bunlayog_text.h "$tree/include"
cp samples/polynomial.bin "$out/short.bin" "$tree"
printf '# crates\nlow:\nother: low\nsheet: low io\nshow: low os\n' > "$tree/crates.txt"
cat > "$out/bin/rt" <<RT
#!/usr/bin/env bash
program=\$(basename "\$PWD")
echo "\$* in \$program" >> "$out/calls"
[ ! -e "$out/broken" ] || { printf 'fn low::f: not proved\nlogic=not-proved\nrt: the library low did not build, so nothing above it was checked\n' >&2; exit 1; }
[ \$program != sheet ] || printf 'rt: chose --jobs 2 for low\nfn low::f: proved\nlogic=proved functions=1\n' >&2
printf 'fn %s::main: proved\nlogic=proved functions=1\n' \$program >&2
mkdir -p out
[ -e out/\$program ] || cp "$PWD/crates/\$program/out/\$program" out
echo "rt: running out/\$program; to give it other input, run that file yourself" >&2
echo "what a program prints"
exit 3
RT
chmod +x "$out/bin/rt"
calls() { if [ -e "$out/calls" ]; then wc -l < "$out/calls"; else echo 0; fi; }
called() { [ "$(calls)" -eq "$1" ] || wrong "$2: rt was called $(calls) times, not $1"; }
answer=$'a^3 + -2*a + 5\n0 1 2\n0: 9\n1: 10'
old_path=$PATH

# the path without rt: the folders that have one are left out, and what the script needs is linked
mkdir "$out/tools"
for tool in bash awk sed grep realpath dirname mktemp rm head cat wc find mkdir tee mv tail env; do ln -s "$(command -v "$tool")" "$out/tools/$tool"; done
PATH=$out/tools
ends "$tree" 3 '' 'rt, the Rattle kit' polynomial.bin 0 1 2
ends "$tree" 2 '' 'there is no such file' nothing.bin 0 1 2
ends "$tree" 2 '' 'this is not a variable' polynomial.bin 0 x
PATH=$out/bin:$old_path
called 0 "before anything is asked"
ends "$tree" 2 '' 'there is no such file' nothing.bin 0 1 2
ends "$tree" 2 '' 'this is not a variable' polynomial.bin 0 x
ends "$tree" 1 '' 'refused by 7' short.bin 0 1 2
called 0 "with wrong arguments"
touch "$out/broken"
ends "$tree" 3 '' 'the library low did not build' polynomial.bin 0 1 2
rm "$out/broken"
called 1 "where a crate is not proved"
ends "$tree" 0 "$answer" '^3 of 3 proved$' polynomial.bin 0 1 2
grep -q '^1 of 3 proved$' "$out/said" || wrong "no progress is shown"
called 3 "at first"
ends "$tree" 0 "$answer" '' polynomial.bin 0 1 2
ends "$tree" 1 'refused 7' '^7: ' short.bin 0 1 2
called 3 "where all is built"
sleep 0.01
touch "$tree/crates/other/src"
ends "$tree" 0 "$answer" '' polynomial.bin 0 1 2
called 3 "where a crate is newer that the programs are not made of"
mkdir "$tree/crates/low/out"
ends "$tree" 0 "$answer" '' polynomial.bin 0 1 2
called 3 "where rt has left something in a crate"
touch "$tree/crates/low/src/lib.rt"
ends "$tree" 0 "$answer" '^proving and building' polynomial.bin 0 1 2
called 5 "where a crate is newer"
ends "$tree" 0 "$answer" '' polynomial.bin 0 1 2
called 5 "after that"
[ "$(sort -u "$out/calls")" = $'run in sheet\nrun in show' ] || wrong "rt is called otherwise"
PATH=$old_path

echo "$count runs of sheet.sh, $bad bad"
[ "$bad" -eq 0 ]
