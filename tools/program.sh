#!/bin/sh
# Usage: program.sh NAME. Proves and builds a program, target/bin/NAME. rt builds it as it runs it, here on no input.
set -eu
cd "$(dirname "$0")/.."
sh tools/quiet.sh "crates/$1" rt run </dev/null
install -D -m 755 "crates/$1/out/$1" "target/bin/$1"
