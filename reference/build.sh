#!/bin/sh
# Builds the reference and prints the path of the program. REFERENCE_TARGET may name another folder
# for it than one below target/.
set -eu

here=$(cd "$(dirname "$0")" && pwd)
target=${REFERENCE_TARGET:-$(dirname "$here")/target/reference}
program=$target/release/reference

if command -v cargo >/dev/null 2>&1; then
    cargo build --release --offline --quiet \
        --manifest-path "$here/Cargo.toml" --target-dir "$target" >&2
else
    # Cargo.toml asks for overflow checks, and rustc alone does not read it: without them a number
    # that overflows would go on as a wrong one, and the witness with it.
    mkdir -p "$target/release"
    rustc --edition 2021 -O -C overflow-checks=on --crate-name reference \
        -o "$program" "$here/src/main.rs" >&2
fi
echo "$program"
