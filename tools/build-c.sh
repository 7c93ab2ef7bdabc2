#!/bin/sh
# Usage: build-c.sh SOURCE LIBRARY PROGRAM [FLAG...]. Builds a C program with a static library, for x86-64, by the kit's own tools; or its
# source by another compiler for x86-64, as X86_64_CC=gcc.
set -eu
kit=${RATTLE_HOME:-$(dirname "$(dirname "$(readlink -f "$(command -v rt)")")")}
tools=$kit/toolchain
source=$1 library=$2 program=$3
shift 3
compile() {
    if [ "${X86_64_CC:-}" ]; then
        "$X86_64_CC" "$@"
    else
        "$tools/bin/clang" --target=x86_64-linux-gnu "$@"
    fi
}
compile -O3 -fPIC -ffreestanding -Wall -Wextra -Wno-incompatible-library-redeclaration "$@" -c "$source" -o "$program.o"
"$tools/bin/ld.lld" -pie --dynamic-linker "$tools/lib/ld-linux-x86-64.so.2" -o "$program" "$tools/lib/Scrt1.o" "$tools/lib/crti.o" \
    "$program.o" "$library" "$tools/lib/libc.so.6" "$tools/lib/libc_nonshared.a" "$tools/lib/libgcc.a" "$tools/lib/crtn.o"
