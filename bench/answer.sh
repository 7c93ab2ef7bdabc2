#!/bin/sh
# Times the whole way, bytes in and line out: the C entry beside the second program, linked into one.
set -eu
cd "$(dirname "$0")/.."
exec sh tools/run-second.sh bench-answer entry host
