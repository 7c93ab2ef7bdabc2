#!/bin/sh
# Usage: library.sh NAME. Proves and builds the library for C of a crate, target/staticlib/libNAME.a: the crate NAME_c's, where there is
# one, which exports what NAME holds, and else its own.
set -eu
cd "$(dirname "$0")/.."
crate=$1
if grep -q "^$1_c staticlib\b" crates.txt; then
    crate=$1_c
fi
sh tools/quiet.sh "crates/$crate" rt lib
install -D -m 644 "crates/$crate/out/lib$crate.a" "target/staticlib/lib$1.a"
