#!/usr/bin/env bash
# The lines of the C entry beside those of the second program, on all of its cases; and the second program's own tests.
set -eu
cd "$(dirname "$0")/.."
second() { cargo "$1" --quiet --release --offline --manifest-path second/Cargo.toml; }
second build
second test
made=target/answers
mkdir -p "$made"
second/target/release/make-cases "$made/cases"
second/target/release/answer-cases "$made/cases" >"$made/expected"
sh tools/run-c.sh tests/answers.c host <"$made/cases" >"$made/lines"
cmp "$made/expected" "$made/lines"
printf '%s lines agree\n' "$(wc -l <"$made/lines")"
