#!/bin/sh
# Times the inclusion call beside its peers in C and in Rust, linked into one.
# The peers in C by the kit's clang, or by another compiler, as X86_64_CC=gcc.
set -eu
cd "$(dirname "$0")/.."
kit=${RATTLE_HOME:-$(dirname "$(dirname "$(readlink -f "$(command -v rt)")")")}
mkdir -p target/c
"${X86_64_CC:-$kit/toolchain/bin/clang}" -O3 -fPIC -ffreestanding -Wno-incompatible-library-redeclaration -DWITH_SECOND -c bench/inclusion.c -o target/c/inclusion_peers.o
ar rcs target/c/libinclusion_peers.a target/c/inclusion_peers.o
exec sh tools/run-second.sh bench-include peers inclusion_bench
