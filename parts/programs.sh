# Sourced by sheet.sh and strip.sh: a node file is looked at, and the programs that the script runs are proved and built where they are not.
# Before it is sourced, the script sets `script` (its own name without .sh) and `programs` (the programs that it runs).
export LC_ALL=C
own=$(realpath "$0")
. "$(dirname "$own")/parts/crates.sh"
marker=target/${script}_sh.made
log=target/${script}_sh.log

# Says what is wrong with the arguments, and what the first lines of the script say of them.
usage() {
  echo "$script.sh: $1" >&2
  sed -n '2,5s/^# //p' "$own" >&2
  exit 2
}

# What a refusal means, from the table of texts.
meaning() {
  sed -n "s|^ */\* $1 \*/ \"\(.*\)\",\$|\1|p" "$(dirname "$own")/include/bunlayog_text.h"
}

# Whether a file can be read, and a copy of it, of which one byte more than the longest node file has is enough.
take_file() { # FILE COPY
  [ -e "$1" ] || usage "$1: there is no such file"
  [ ! -d "$1" ] || usage "$1: this is a folder"
  [ -r "$1" ] || usage "$1: this file cannot be read"
  head -c 36869 -- "$1" > "$2"
}

# Whether the programs are there and nothing that they are made of is newer.
built() {
  local program made=
  for program in "${programs[@]}"; do
    program=crates/$program/out/$program
    [ -x "$program" ] || return 1
    if [ -z "$made" ] || [ "$program" -ot "$made" ]; then made=$program; fi
  done
  if [ "$marker" -nt "$made" ]; then made=$marker; fi
  [ -z "$(newer_source "$made" "${needed[@]}")" ]
}

# Reads what rt says of one program, and of the crates below it that are not built yet: after each crate, how many are proved.
progress() { # PROVED
  local total=${#needed[@]} done=$1 line
  while IFS= read -r line; do
    case $line in
    'logic=proved '*)
      done=$((done + 1))
      echo "$done of $total proved" >&2
      ;;
    esac
  done
}

# The programs' names as a sentence has them.
names() {
  local last=$((${#programs[@]} - 1)) text
  text=$(printf ', %s' "${programs[@]:0:last}")
  echo "${text#, } and ${programs[last]}"
}

build() {
  if ! command -v rt > /dev/null; then
    echo "$script.sh: the programs are not built yet, and rt, the Rattle kit's command that proves and builds them, is not on the path" >&2
    exit 3
  fi
  echo "proving and building the programs $(names); needed once, and again where a crate is newer" >&2
  mkdir -p target
  : > "$marker.new"
  : > "$log"
  local program proved
  for program in "${programs[@]}"; do
    proved=$(grep -c '^logic=proved ' "$log" || true)
    # rt ends as the program does, which it runs when it has built it: that it came so far is seen by its line. Beside the script's question the program has no input.
    { (cd "crates/$program" && rt run < /dev/null 2>&1 > /dev/null) || true; } | tee -a "$log" | progress "$proved"
    if ! grep -q "^rt: running out/$program;" "$log"; then
      grep -E '^fn .*: (not proved|no proof)|^rt: .* did not build' "$log" >&2 || tail -n 5 "$log" >&2
      echo "$script.sh: the programs could not be built; $PWD/$log has what rt said" >&2
      exit 3
    fi
  done
  mv "$marker.new" "$marker"
}

# Builds the programs where that is needed, unless the file's length would be refused anyway.
need_programs() { # FILE COPY
  local size
  mapfile -t needed < <(crates_needed "${programs[@]}")
  if built; then return; fi
  size=$(wc -c < "$2")
  if [ "$size" -lt 13 ] || [ "$size" -gt 36868 ] || [ $(((size - 4) % 9)) -ne 0 ]; then
    echo "$script.sh: $1 has a length that would be refused by 7: $(meaning 7). Nothing was proved" >&2
    exit 1
  fi
  build
}

# The expression, where it has a text.
print_shown() { # SHOWN
  case $(head -n 1 "$1") in
  'refused '*) ;;
  *) cat "$1" ;;
  esac
}

# Says what the refusal means that the first line of an answer has, and ends, if it has one.
end_if_refused() { # ANSWER
  local refusal
  refusal=$(sed -n '1s/^refused //p' "$1")
  if [ -n "$refusal" ]; then
    echo "$refusal: $(meaning "$refusal")" >&2
    exit 1
  fi
}
