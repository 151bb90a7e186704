# To be sourced at the root by the tests of the scripts: a folder for what they make, and runs of a script that are looked at. `script` is how it is called.
out=$(mktemp -d)
trap 'rm -rf "$out"' EXIT
bad=0
count=0

wrong() {
  echo "$1"
  sed 's/^/  standard output: /' "$out/printed"
  sed 's/^/  standard error: /' "$out/said"
  bad=$((bad + 1))
}

# Runs the script in a folder: its status, what it prints, and a pattern of what it says on standard error ('' for nothing).
ends() { # FOLDER STATUS PRINTED SAID ARGUMENT..
  local folder=$1 status=$2 printed=$3 said=$4 found
  shift 4
  (cd "$folder" && exec "$script" "$@") > "$out/printed" 2> "$out/said"
  found=$?
  count=$((count + 1))
  [ "$found" -eq "$status" ] || wrong "$(basename "$script") $*: status $found, not $status"
  [ "$(cat "$out/printed")" = "$printed" ] || wrong "$(basename "$script") $*: prints something else"
  if [ -z "$said" ]; then [ ! -s "$out/said" ] || wrong "$(basename "$script") $*: says something"; else grep -q -- "$said" "$out/said" || wrong "$(basename "$script") $*: does not say '$said'"; fi
}
