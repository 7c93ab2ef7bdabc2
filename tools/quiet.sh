#!/bin/sh
# Usage: quiet.sh FOLDER COMMAND [WORD...]. Runs a command in a folder, and shows what it said only where it failed.
set -eu
folder=$1
shift
said=$(mktemp)
trap 'rm -f "$said"' EXIT
status=0
(cd "$folder" && exec "$@") >"$said" 2>&1 || status=$?
[ "$status" -eq 0 ] || cat "$said" >&2
exit "$status"
