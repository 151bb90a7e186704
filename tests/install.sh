#!/usr/bin/env bash
# install.sh: what it installs into a folder, that a program builds with it alone, and what it refuses.
set -eu
cd "$(dirname "$0")/.."
out=$(mktemp -d)
trap 'rm -rf "$out"' EXIT

for arguments in '' '--help' 'a b'; do
  # shellcheck disable=SC2086
  if ./install.sh $arguments > /dev/null 2> "$out/said"; then echo "install.sh '$arguments' was accepted"; exit 1; elif [ "$?" -ne 2 ]; then echo "install.sh '$arguments' ended with another status"; exit 1; fi
  grep -q 'PREFIX' "$out/said"
done

./install.sh "$out/a prefix" > "$out/said"
version=$(sed -n 's/^#define BUNLAYOG_VERSION "\(.*\)"$/\1/p' include/bunlayog.h)
[ "$(cat "$out/said")" = "bunlayog $version is installed under $out/a prefix" ]
(cd "$out/a prefix" && find . -type f | sort) > "$out/files"
cat > "$out/wanted" <<'FILES'
./include/bunlayog.h
./include/bunlayog_text.h
./lib/libbunlayog.a
./lib/pkgconfig/bunlayog.pc
./share/doc/bunlayog/LICENSE
./share/doc/bunlayog/NOTICE
./share/doc/bunlayog/SPECIFICATION.md
FILES
cmp "$out/files" "$out/wanted"

./install.sh "$out/prefix" > /dev/null
cp examples/first.c "$out/mine.c"
cd "$out"
if command -v pkg-config > /dev/null; then
  export PKG_CONFIG_PATH=$out/prefix/lib/pkgconfig
  [ "$(pkg-config --modversion bunlayog)" = "$version" ]
  read -r -a flags <<<"$(pkg-config --cflags --libs bunlayog)"
else
  echo "skipped: pkg-config is not here, so the flags were written by hand"
  flags=("-I$out/prefix/include" "-L$out/prefix/lib" -lbunlayog)
fi
cc mine.c "${flags[@]}" -o mine
./mine > printed
cmp printed "$OLDPWD/examples/first.expected"
echo "install.sh installs the headers, the archive and a pkg-config file, and a program builds with them"
