#!/usr/bin/env bash
# Build the library, and the C programs and the Rust package with its examples over it, into target/link.
set -eu
cd "$(dirname "$0")/.."
link/library.sh
mkdir -p target/link
for name in example driver session any_bytes spacings tickets hardware; do
    cc -std=c11 -O2 -Wall -Wextra -Wpedantic -Wconversion -Werror -o "target/link/${name}_c" "link/$name.c" target/staticlib/libgateway.a
done
cargo build --quiet --offline --release --examples --manifest-path link/rust/Cargo.toml --target-dir target/cargo
cp target/cargo/release/examples/record target/link/example_rust
cp target/cargo/release/examples/driver target/link/driver_rust
