#!/usr/bin/env bash
# Tests the reference emulator, then writes tapes to crates/outcomes/stdin and the lines that it expects for them to
# crates/outcomes/stdout. Whoever runs the program outcomes on the first and compares with the second compares the two
# emulators; rt does so. The tapes are the same in every run: the directed ones, and random ones of fixed seeds, over the silent bus and
# over a teletype and drives.
set -euo pipefail
cd "$(dirname "$0")"
random=10000
cargo=$(command -v cargo || echo "$HOME/.cargo/bin/cargo")
"$cargo" test --release --offline --quiet
"$cargo" run --release --offline --quiet --bin differential -- "$random" ../crates/outcomes/stdin ../crates/outcomes/stdout
