#!/usr/bin/env bash
# ./install.sh PREFIX: installs the headers, the archive, a pkg-config file and the licences under PREFIX. Proves and builds the archive where it is
# not there or a crate is newer. Ends with 2 where the arguments are wrong, 3 where the archive cannot be built.
set -eu
if [ "$#" -ne 1 ] || [ -z "$1" ] || [ "${1#-}" != "$1" ]; then
  sed -n '2,3s/^# //p' "$0" >&2
  exit 2
fi
mkdir -p -- "$1"
prefix=$(cd -- "$1" && pwd)
cd "$(dirname "$0")"
if ! command -v rt > /dev/null && [ ! -e crates/bunlayog/out/libbunlayog.a ]; then
  echo "install.sh: the archive is not built yet, and rt, the Rattle kit's command that proves and builds it, is not on the path" >&2
  exit 3
fi
. tests/parts/archive.sh || exit 3
version=$(sed -n 's/^#define BUNLAYOG_VERSION "\(.*\)"$/\1/p' include/bunlayog.h)

install -d "$prefix/include" "$prefix/lib/pkgconfig" "$prefix/share/doc/bunlayog"
install -m 644 include/bunlayog.h include/bunlayog_text.h "$prefix/include"
install -m 644 "$archive" "$prefix/lib"
install -m 644 LICENSE NOTICE docs/SPECIFICATION.md "$prefix/share/doc/bunlayog"
cat > "$prefix/lib/pkgconfig/bunlayog.pc" <<PC
prefix=$prefix
includedir=\${prefix}/include
libdir=\${prefix}/lib

Name: bunlayog
Description: A proved expression engine: builds, derives, expands, prints and evaluates expressions
Version: $version
Cflags: -I\${includedir}
Libs: -L\${libdir} -lbunlayog
PC
echo "bunlayog $version is installed under $prefix"
