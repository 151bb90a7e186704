# To be sourced at the root: what crates.txt says, and whether a file is older than the crates that it is made of.

# The crates that some crates are made of, themselves included; a name behind which no line of crates.txt stands is the kit's.
crates_needed() { # CRATE..
  awk -v wanted="$*" '
    /^[a-z]/ { line = $0; sub(/[ :].*/, "", line); rest = $0; sub(/^[^:]*:/, "", rest); parts[line] = rest }
    function need(name,   list, n, i) {
      if (!(name in parts) || name in seen) return
      seen[name] = 1
      print name
      n = split(parts[name], list, " ")
      for (i = 1; i <= n; i++) need(list[i])
    }
    END { count = split(wanted, names, " "); for (k = 1; k <= count; k++) need(names[k]) }' crates.txt
}

# A file or folder that is newer than a file, of crates.txt and of what a proof of the crates reads; nothing where there is none.
newer_source() { # FILE CRATE..
  local file=$1 crate part places=(crates.txt)
  shift
  for crate in "$@"; do
    for part in src specs proofs; do
      if [ -d "crates/$crate/$part" ]; then places+=("crates/$crate/$part"); fi
    done
  done
  find "${places[@]}" -newer "$file" -print -quit
}
