#!/usr/bin/env bash
# The inclusion call takes at most 48 KiB of stack, and the whole C entry at most 80 KiB.
set -eu
cd "$(dirname "$0")/.."
sh tools/run-c.sh tests/room.c inclusion_bench
sh tools/run-c.sh tests/entry_room.c host
