#!/usr/bin/env bash
# The archiver's host in C, built from the installed files alone, releases, keeps and reports as document 01's lines say;
# and the installed program runs by itself.
set -eu
cd "$(dirname "$0")/.."
made=$(mktemp -d)
trap 'rm -rf "$made"' EXIT
make -s install PREFIX="$made" >/dev/null
sh tools/need.sh pkg-config pkg-config
export PKG_CONFIG_PATH=$made/lib/pkgconfig
strict='-std=c99 -pedantic -Wall -Wextra -Werror'
gcc $strict examples/host.c $(pkg-config --cflags --libs polashvek) -o "$made/host"

# The inputs: 01's whole case, E10 (recipe 10(20), listing 20), the whole case cut, and followed by more than any buffer holds.
whole=crates/polashvek/stdin
{ head -c 32 $whole && printf '\1\0\0\0\24\0\0\0\1\0\0\0\0\0\2\0\0\0\25\0\0\0\53\0\0\0'; } >"$made/absent"
head -c 69 $whole >"$made/cut"
{ cat $whole && head -c 100000 /dev/zero; } >"$made/long"

passed=0 failed=0
# The status that is due, the text that is due, and the command.
expect() {
    local due=$1 text=$2 status=0 said
    shift 2
    said=$("$@" 2>/dev/null) || status=$?
    if [ "$status" = "$due" ] && [ "$said" = "$text" ]; then passed=$((passed + 1)); return; fi
    failed=$((failed + 1))
    printf '%s: status %s, not %s; it said:\n%s\n' "$*" "$status" "$due" "$said"
}
program() { "$made/bin/polashvek" <"$1"; }

expect 0 'included 1 0 1 3
release: all of the recipe was found, outermost rows: 1
  recipe row 1 is listing row 1
  recipe row 2 is listing row 3' "$made/host" $whole
expect 1 'absent 1 1
keep: found beneath recipe row 1, counted from the left: 1' "$made/host" "$made/absent"
expect 2 'refused 11 69
report: refusal 11 at place 69' "$made/host" "$made/cut"
expect 2 'refused 15 70
report: refusal 15 at place 70' "$made/host" "$made/long"
expect 3 '' "$made/host" "$made/none"
expect 3 '' "$made/host" "$made"
expect 0 'included 1 0 1 3' program $whole
expect 0 'absent 1 1' program "$made/absent"
expect 0 'refused 15 70' program "$made/long"
printf '%s passed, %s failed\n' "$passed" "$failed"
[ "$failed" -eq 0 ]
