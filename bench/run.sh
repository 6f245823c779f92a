#!/usr/bin/env bash
# Time the proved functions against plain Rust in one program, and print the ratios of their times: that of records, that which reads them, that of
# waveforms, and an instant of a dispatcher that is kept, a commit and an enquiry; and such an instant with a view after it against one without.
set -eu
cd "$(dirname "$0")/.."
link/library.sh
mkdir -p target/bench
rustc --edition 2024 -C opt-level=3 -D warnings -L target/staticlib -o target/bench/bench bench/main.rs
target/bench/bench
