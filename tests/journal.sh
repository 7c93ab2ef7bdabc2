#!/usr/bin/env bash
# What the program of sessions is run on and must write is what a second implementation in Python writes, step by step; and it writes
# what the second program in Rust wrote with its own sessions.
set -eu
cd "$(dirname "$0")/.."
cargo build --quiet --release --offline --manifest-path second/Cargo.toml
make -s target/bin/journal_sessions
python3 tests/journal_sessions.py --check crates/journal_sessions
made=$(mktemp)
trap 'rm -f "$made"' EXIT
second/target/release/journal-cases "$made"
python3 -B tests/second_cases.py journal "$made"
