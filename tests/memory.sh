#!/usr/bin/env bash
# The C entry touches no byte but those lent to it: under valgrind, and with the C compiler's sanitizers around it, on the second
# program's damaged inputs and those at the limits.
set -eu
cd "$(dirname "$0")/.."
sh tools/need.sh valgrind valgrind
cargo build --quiet --release --offline --manifest-path second/Cargo.toml
make -s target/staticlib/libhost.a >/dev/null
made=target/memory
mkdir -p "$made/limits"
python3 tests/limits.py "$made/limits"
cp "$made/limits/cases" "$made/cases"
for group in cuts byte-changes chance-damage extra-bytes bad-fields several-refusals limits; do
    second/target/release/make-cases "$made/group" "$group" >/dev/null
    cat "$made/group" >>"$made/cases"
done
second/target/release/answer-cases "$made/cases" >"$made/expected"
build() { gcc -std=c99 -g -O1 -Wall -Wextra -Werror "$@" -Iinclude tests/memory.c target/staticlib/libhost.a; }
build -o "$made/plain"
build -fsanitize=address,undefined -fno-sanitize-recover=all -o "$made/sanitized"

# Runs the command on all inputs. A report ends it with another status than 0.
clean() {
    local name=$1
    shift
    if ! "$@" <"$made/cases" >"$made/lines" 2>"$made/said"; then
        head -n 40 "$made/said"
        echo "$name: not clean"
        return 1
    fi
    cmp "$made/expected" "$made/lines"
    printf '%s: %s, no report\n' "$name" "$(cat "$made/said")"
}
clean sanitizers "$made/sanitized"
clean valgrind valgrind -q --error-exitcode=9 "$made/plain"
