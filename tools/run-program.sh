#!/bin/sh
# Usage: run-program.sh PROGRAM [WORD...]. Runs a program with the kit's C library.
set -eu
kit=${RATTLE_HOME:-$(dirname "$(dirname "$(readlink -f "$(command -v rt)")")")}
tools=$kit/toolchain
exec "$tools/lib/ld-linux-x86-64.so.2" --library-path "$tools/lib" "$@"
