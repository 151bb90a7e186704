# To be sourced at the root: names the archive of the C functions, and builds it where a crate that it is made of is newer. Proving its crate takes longer than a test.
. parts/crates.sh
archive=crates/bunlayog/out/libbunlayog.a
mapfile -t archive_crates < <(crates_needed bunlayog)

# Over the libraries as `rt ci` leaves them, if they are as their sources are: `rt lib` takes none of these, and would prove each crate below a second time. They are those
# that have no stamp of rt's other commands.
archive_over_ci() {
  local crate rlib kit words direct
  kit=$(dirname "$(rt doc)") || return 1
  direct=" $(sed -n 's/^bunlayog[^:]*://p' crates.txt) "
  words=(--crate-name bunlayog src/lib.rt --crate-type staticlib --links bunlayog= --extern "std=$kit/rlibs/std.rlib" -L "dependency=$kit/rlibs")
  for crate in "${archive_crates[@]}"; do
    [ "$crate" != bunlayog ] || continue
    rlib=$PWD/crates/$crate/out/rlib/$crate.rlib
    [ -e "$rlib/format" ] && [ ! -e "$PWD/crates/$crate/out/rlib/stamp" ] && [ -z "$(newer_source "$rlib" "$crate")" ] || return 1
    words+=(-L "dependency=$PWD/crates/$crate/out/rlib")
    case $direct in *" $crate "*) words+=(--extern "$crate=$rlib") ;; esac
  done
  words+=(--antt-project "$kit/rattle/logic/antt-project.json" --logic-built "$kit/logic_built" --jobs 4 --toolchain "$kit/toolchain" --backend llvm)
  mkdir -p crates/bunlayog/out
  (cd crates/bunlayog && "$kit/bin/rattle" build "${words[@]}" -o out/libbunlayog.a)
}

build_archive() {
  local log
  log=$(mktemp)
  if archive_over_ci > "$log" 2>&1 || (cd crates/bunlayog && rt lib) > "$log" 2>&1; then
    rm "$log"
  else
    tail -n 20 "$log"
    rm "$log"
    return 1
  fi
}

if [ ! -e "$archive" ] || [ -n "$(newer_source "$archive" "${archive_crates[@]}")" ]; then
  build_archive
fi
