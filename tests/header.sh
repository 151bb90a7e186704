#!/usr/bin/env bash
# What stands in more than one place stands there alike: refusals, texts, kinds, limits and functions in the headers, in the crates, in docs/SPECIFICATION.md, in the
# Rust bindings and in the archive. The headers compile as C and as C++, and the archive needs what the header says.
set -u
cd "$(dirname "$0")/.." || exit 1
. tests/parts/archive.sh
out=$(mktemp -d)
trap 'rm -rf "$out"' EXIT
export LC_ALL=C.UTF-8
header=include/bunlayog.h
text=include/bunlayog_text.h
paper=docs/SPECIFICATION.md
bad=0

wrong() {
  echo "$1"
  bad=$((bad + 1))
}

# Two lists that must be equal, and have so many lines.
same() { # WHAT LINES FILE FILE
  diff "$3" "$4" > "$out/difference" || { wrong "$1: $(basename "$3") and $(basename "$4") differ"; head -n 6 "$out/difference"; }
  [ "$(wc -l < "$3")" -eq "$2" ] || wrong "$1: $(wc -l < "$3") lines in place of $2"
}

# A number as it is written in C, Rattle, antt or a table, as plain decimal digits.
plain() {
  local value
  value=$(sed -E 's/u64::MAX/0xffffffffffffffff/; s/U?INT(32|64)_C\((.*)\)/\2/; s/[_,]//g; s/\^/**/g' <<<"$1")
  printf '%u\n' "$((value))"
}

# ---- refusals: number, name and text
awk '/^enum bunlayog_refusal/ { on = 1 } on && /^ *\/\*/ { said = $0; gsub(/^ *\/\* | \*\/$/, "", said) }
  on && /BUNLAYOG_[A-Z_]+ = [1-9]/ { name = $1; sub("BUNLAYOG_", "", name); number = $3; sub(",", "", number); print number, name, said } /^};/ { on = 0 }' "$header" > "$out/header"
sed -n 's|^ */\* \([0-9]*\) \*/ "\(.*\)",$|\1 \2|p' "$text" | sed 1d > "$out/texts"
# the code and the paper have the names of an enum's cases: BrokenPool for BROKEN_POOL
in_capitals() { awk '{ name = $2; gsub(/[A-Z]/, "_&", name); sub(/^_/, "", name); $2 = toupper(name); print }'; }
sed -n 's/^ *\([A-Z][A-Za-z]*\) = \([0-9]*\),$/\2 \1/p' crates/refusals/src/lib.rt | in_capitals > "$out/names_in_code"
# a comment may go over two lines; of a request's refusal it quotes the request, with its number first
awk '/^-- / { line = $0; sub(/^-- /, "", line); said = said == "" ? line : said " " line; next }
  /^[a-z_]+ = [0-9]+$/ {
    sub(/^C-[0-9]+\. "[0-9]+ (\.\. )?when /, "", kept); sub(/"$/, "", kept); sub(/\.$/, "", kept); gsub("`", "", kept); gsub("×", "*", kept); sub(/ above,/, ",", kept)
    sub("document 01\047s", "the", kept)
    print $3, toupper($1), (kept ~ /^[A-Z]/ ? tolower(substr(kept, 1, 1)) substr(kept, 2) : kept)
  }
  { if (said != "") kept = said; said = "" }' crates/refusals/specs/Refusals.antt > "$out/specs"
sed -n 's/^| \([0-9]*\) | `\([A-Za-z]*\)` | \(.*\) |$/\1 \2 \3/p' "$paper" | in_capitals > "$out/paper"
same refusals 21 "$out/header" "$out/specs"
same refusals 21 "$out/header" "$out/paper"
cut -d ' ' -f 1,3- "$out/header" > "$out/texts_in_header"
cut -d ' ' -f 1,2 "$out/header" > "$out/names_in_header"
same refusals 21 "$out/texts" "$out/texts_in_header"
same refusals 21 "$out/names_in_code" "$out/names_in_header"

# ---- kinds
sed -n 's/^ *BUNLAYOG_KIND_\([A-Z]*\) = \([0-9]*\).*/\2 \1/p' "$header" > "$out/kinds_in_header"
sed -n 's/^kind_of (\([A-Z][a-z]*\) .*) = \([0-9]*\)$/\2 \U\1/p' crates/pool/specs/Nodes.antt > "$out/kinds_in_specs"
sed -n '/^| kind |/,/^$/s/^| \([0-9]\) | \([A-Z][a-z]*\) |.*/\1 \U\2/p' "$paper" > "$out/kinds_in_paper"
same kinds 9 "$out/kinds_in_header" "$out/kinds_in_specs"
same kinds 9 "$out/kinds_in_header" "$out/kinds_in_paper"

# ---- limits: the macro, the crate with the constant in code, the crate with its definition; - where there is none
macro() { sed -n "s/^#define BUNLAYOG_$1 \([^ ]*\).*/\1/p" "$header"; }
limits=0
while read -r name code constant specs definition; do
  value=$(plain "$(macro "$name")")
  row=$(sed -n "s/^| \`BUNLAYOG_$name\` | \([0-9,]*\) | .*/\1/p" "$paper")
  [ "$(plain "$row")" = "$value" ] || wrong "$name is $value in the header and $row in $paper"
  if [ "$code" != - ]; then
    found=$(plain "$(sed -n "s/^pub const $constant: [a-z0-9]* = \(.*\);\$/\1/p" "crates/$code"/src/*.rt)")
    [ "$found" = "$value" ] || wrong "$name is $value in the header and $found in crates/$code"
  fi
  if [ "$specs" != - ]; then
    found=$(plain "$(sed -n "s/^$definition = \(.*\)\$/\1/p" "crates/$specs"/specs/*.antt)")
    [ "$found" = "$value" ] || wrong "$name is $value in the header and $found in the definitions of $specs"
  fi
  limits=$((limits + 1))
done <<'LIMITS'
LIMIT pool LIMIT pool limit
VARIABLE_MAX pool VARIABLE_MAX pool greatest_variable
LITERAL_MAX literal LITERAL_MAX literal greatest
EXPONENT_MIN pool EXPONENT_MIN pool least_exponent
EXPONENT_MAX - - pool greatest_exponent
DEPTH_MAX constructors DEPTH constructors depth
ORDER_MAX - - taylor greatest_order
TERMS taylor TERMS - -
VALUES_MAX engine_values VALUES_MAX engine_values most_values
MODULUS residue MODULUS_MAX residue fixed_modulus
TEXT_MAX low_bytes TEXT_MAX low_bytes longest_text
FILE_MAX - - - -
STRIP_MAX low_bytes TEXT_MAX low_bytes longest_text
PLACES_MAX key_strip PLACES key_strip most_places
CONSTANT lent_series ENDLESS taylor endless
LIMITS
[ "$(grep -c '^| `BUNLAYOG_' "$paper")" -eq "$limits" ] || wrong "$paper has limits that are not compared"
[ "$(plain "$(macro FILE_MAX)")" -eq $((4 + 9 * $(macro LIMIT))) ] || wrong "FILE_MAX is not 4 + 9 * LIMIT"
[ "$(macro TERMS)" -eq $(($(macro ORDER_MAX) + 1)) ] || wrong "TERMS is not ORDER_MAX + 1"
longest=$(sed -n 's/^longest_line = //p' crates/sheet_text/specs/Line.antt)
grep -q "^A line of the sheet has at most $longest bytes" "$paper" || wrong "$paper has another longest line than the definition's $longest"
while read -r name value; do
  [ "$(plain "$(macro "$name")")" = "$value" ] || wrong "$name is $value in examples/bunlayog.rs"
done < <(sed -n 's/^pub const \([A-Z_]*\): usize = \([0-9]*\);$/\1 \2/p' examples/bunlayog.rs)
[ "$(macro VERSION)" = "\"$(macro VERSION_MAJOR).$(macro VERSION_MINOR).$(macro VERSION_PATCH)\"" ] || wrong "the version macros disagree"

# ---- functions: names and types of arguments, as C has them
cc -E -P -Iinclude "$header" | tr '\n' ' ' | tr ';' '\n' | sed -n 's/.*uint32_t \(bunlayog_[a-z_]*\)(\(.*\))$/\1 \2/p' |
  sed -E 's/ ?[a-z_]+\[25\](,|$)/ *\1/g; s/ \*[a-z_]+/ */g; s/([a-z0-9]+) [a-z_]+(,|$)/\1\2/g' | sed -E 's/^(bunlayog_[a-z_]*) /\1: /; s/ +/ /g' | sort > "$out/c"
types='s/&mut \[([a-z0-9]+); TERMS\]/*mut \1/g; s/&\[([a-z0-9]+); TERMS\]/*const \1/g; s/&mut \[([a-z0-9]+)\]/*mut \1, usize/g; s/&\[([a-z0-9]+)\]/*const \1, usize/g
  s/&mut ([a-z0-9]+)/*mut \1/g; s/\*mut ([a-z0-9]+)/\1 */g; s/\*const ([a-z0-9]+)/const \1 */g; s/\bu(8|32|64)\b/uint\1_t/g; s/\bi64\b/int64_t/g
  s/\bf64\b/double/g; s/\busize\b/size_t/g; s/ +/ /g'
cat crates/bunlayog/src/*.rt | awk '/^pub extern "C" fn/ { on = 1 } on { printf "%s ", $0 } on && /\) -> u32/ { on = 0; print "" }' |
  sed -E 's/^pub extern "C" fn ([a-z_]*)\( */\1: /; s/,? *\) -> u32.*//; s/, +/, /g; s/([:,]) [a-z_]+: /\1 /g' | sed -E "$types" | sort > "$out/rattle"
sed -n 's/^ *pub fn \(bunlayog_[a-z_]*\)(\(.*\)) -> u32;$/\1: \2/p' examples/bunlayog.rs | sed -E 's/([:,]) [a-z_]+: /\1 /g' | sed -E "$types" | sort > "$out/rust"
same functions 37 "$out/c" "$out/rattle"
same functions 37 "$out/c" "$out/rust"
cut -d : -f 1 "$out/c" > "$out/names"
sed -n 's/^| `\(bunlayog_[a-z_]*\)` |.*/\1/p' "$paper" | sort > "$out/names_in_paper"
nm --extern-only --defined-only "$archive" 2> /dev/null | awk 'NF == 3 && $3 ~ /^bunlayog_/ { print $3 }' | sort > "$out/names_in_archive"
same functions 37 "$out/names" "$out/names_in_paper"
same functions 37 "$out/names" "$out/names_in_archive"

# ---- what the archive needs, and that it has no data that can be written
nm "$archive" 2> /dev/null | awk 'NF == 2 && $1 == "U" { print $2 }' | sort -u > "$out/needed"
nm --defined-only "$archive" 2> /dev/null | awk 'NF == 3 { print $3 }' | sort -u > "$out/defined"
needs=$(comm -23 "$out/needed" "$out/defined" | tr '\n' ' ')
[ "$needs" = 'memcpy memset ' ] || wrong "the archive needs: $needs"
written=$(nm "$archive" 2> /dev/null | awk 'NF == 3 && $2 ~ /^[BbDdCcGgSs]$/' | head -n 3)
[ -z "$written" ] || wrong "the archive has data: $written"

# ---- stack: the header's figures are those of docs/MEASUREMENTS.md, the greatest included
for figure in $(sed -n '/^ \* Stack/,/^ \* The archive/p' "$header" | grep -oE '[0-9]{1,3}(,[0-9]{3})+'); do
  grep -q "^| \`.* | $figure | " docs/MEASUREMENTS.md || wrong "the header's stack figure $figure is not in docs/MEASUREMENTS.md"
done

# ---- the headers compile alone, twice and in two files, and an answer that is not looked at is warned of
printf '#include "bunlayog_text.h"\n#include "bunlayog_text.h"\n#include "bunlayog.h"\n' > "$out/twice.c"
printf '%s\n' '#include "bunlayog_text.h"' '#include <stdio.h>' \
  'int main(void) { for (uint32_t i = 0; i < 30; i++) printf("%u %s\n", (unsigned)i, bunlayog_refusal_text(i)); return 0; }' > "$out/main.c"
printf '#include "bunlayog.h"\nvoid f(struct bunlayog_pool *p) { uint64_t n; bunlayog_lit(BUNLAYOG_LEND(p), 1, &n); }\n' > "$out/ignored.c"
strict='-Wall -Wextra -Wpedantic -Werror -Wno-unused-function -Iinclude'
for compiler in cc gcc clang; do
  command -v "$compiler" > /dev/null || continue
  for standard in c99 c11 c17; do
    # shellcheck disable=SC2086
    "$compiler" -std=$standard $strict "$out/twice.c" "$out/main.c" -o "$out/program" || wrong "$compiler -std=$standard"
  done
  for standard in c++11 c++17; do
    # shellcheck disable=SC2086
    "$compiler" -std=$standard $strict -x c++ -c "$out/main.c" -o "$out/program.o" || wrong "$compiler -std=$standard"
  done
  # shellcheck disable=SC2086
  if "$compiler" -std=c99 $strict -c "$out/ignored.c" -o "$out/ignored.o" 2> /dev/null; then wrong "$compiler does not warn of an answer that is not looked at"; fi
done
"$out/program" > "$out/printed"
{ echo "0 accepted"; cat "$out/texts"; printf '%s no answer has this number\n' 20 21 22 23 24 25 26 29; } | sort -n > "$out/wanted"
same texts 30 "$out/printed" "$out/wanted"

[ "$bad" -eq 0 ] && echo "headers, crates, specification, bindings and archive agree: 21 refusals, 9 kinds, $limits limits, 37 functions"
