#!/usr/bin/env bash
# The parcel reader and writer beside a second one in Python, on more than 20,000 inputs, and beside the second program in Rust, on its own.
set -eu
cd "$(dirname "$0")/.."
cargo build --quiet --release --offline --manifest-path second/Cargo.toml
make -s target/bin/parcel_cases
python3 tests/parcels.py
made=$(mktemp)
trap 'rm -f "$made"' EXIT
second/target/release/parcel-cases "$made"
python3 -B tests/second_cases.py parcels "$made"
