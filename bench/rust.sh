#!/usr/bin/env bash
# Times calls of the crate for Rust beside plain Rust, in one process: rust.sh ARCHIVE [WORD ..]. ARCHIVE is what `rt lib` built in
# `crates/datasketches_c`. Words choose the rows whose names contain each of them.
set -euo pipefail
cd "$(dirname "$0")"
archive="$(realpath "${1:?the archive}")"
shift
out=out/rust
mkdir -p "$out"
bash ../bindings/c/build.sh "$out" "$archive" >"$out/log"

compile() {
    rustc -O -C codegen-units=1 -C target-cpu=x86-64-v2 -L "$out" "$@"
}

compile --edition 2021 --crate-type rlib --crate-name datasketches_rattle -l static=datasketches \
    -o "$out/libdatasketches_rattle.rlib" ../bindings/rust/src/lib.rs
compile --edition 2024 --extern datasketches_rattle="$out/libdatasketches_rattle.rlib" -C llvm-args=-align-all-functions=6 \
    -o "$out/rust" rust.rs
"$out/rust" "$@"
