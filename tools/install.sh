#!/bin/sh
# Usage: [DESTDIR=DIR] install.sh PREFIX. Puts in place what `make install` has built: library, header, pkg-config file, program.
set -eu
cd "$(dirname "$0")/.."
case $1 in /*) prefix=$1 ;; *) prefix=$PWD/$1 ;; esac
to=${DESTDIR:-}$prefix
made=$(mktemp)
trap 'rm -f "$made"' EXIT
cat >"$made" <<END
prefix=$prefix
libdir=\${prefix}/lib
includedir=\${prefix}/include

Name: polashvek
Description: Decides whether a copied sequencer run may be released
Version: 0.1.0
Cflags: -I\${includedir}
Libs: -L\${libdir} -lpolashvek
END
install -D -m 644 target/staticlib/libhost.a "$to/lib/libpolashvek.a"
install -D -m 644 include/polashvek.h "$to/include/polashvek.h"
install -D -m 644 "$made" "$to/lib/pkgconfig/polashvek.pc"
install -D -m 755 target/bin/polashvek "$to/bin/polashvek"
printf 'installed, for x86-64: %s\n' "$to/lib/libpolashvek.a" "$to/include/polashvek.h" "$to/lib/pkgconfig/polashvek.pc" "$to/bin/polashvek"
