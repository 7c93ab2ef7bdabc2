#!/usr/bin/env bash
# Document 01's whole case and its limits: the lines worked out by hand are those of the C entry (with a buffer of 1,295 bytes; one of
# 1,294 gets 0 and is not touched), of the program and of the second program.
set -eu
cd "$(dirname "$0")/.."
cargo build --quiet --release --offline --manifest-path second/Cargo.toml
make -s target/bin/polashvek
made=$(mktemp -d)
trap 'rm -rf "$made"' EXIT
python3 tests/limits.py "$made"
cmp "$made/1" crates/polashvek/stdin
second/target/release/answer-cases "$made/cases" >"$made/second"
sh tools/run-c.sh tests/answers.c host <"$made/cases" >"$made/entry"
count=$(wc -l <"$made/lines")
for case in $(seq "$count"); do sh tools/run-program.sh target/bin/polashvek <"$made/$case"; done >"$made/program"
for who in second entry program; do cmp "$made/lines" "$made/$who"; done
printf '%s lines by hand agree with the C entry, the program and the second program\n' "$count"
