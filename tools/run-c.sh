#!/bin/sh
# Usage: run-c.sh SOURCE CRATE. Builds a C program with a crate's static library, for x86-64, and runs it.
set -eu
cd "$(dirname "$0")/.."
library=target/staticlib/lib$2.a
make -s "$library" </dev/null >/dev/null
mkdir -p target/c
sh tools/build-c.sh "$1" "$library" "target/c/$2"
exec sh tools/run-program.sh "target/c/$2"
