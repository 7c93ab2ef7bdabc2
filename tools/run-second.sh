#!/bin/sh
# Usage: run-second.sh PROGRAM FEATURE CRATE. Builds a program of second/ with a crate's static library, and runs it.
set -eu
cd "$(dirname "$0")/.."
make -s "target/staticlib/lib$3.a" </dev/null >/dev/null
mkdir -p target/c
touch "second/src/bin/$1.rs" # cargo does not see a new library
cargo rustc --quiet --release --offline --manifest-path second/Cargo.toml --features "$2" --bin "$1" -- \
    -L "native=$PWD/target/staticlib" -L "native=$PWD/target/c"
exec "second/target/release/$1"
