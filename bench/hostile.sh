#!/usr/bin/env bash
# Times calls on items that collide beside random ones, and prints tables: bench/hostile.sh [PLAIN_ARCHIVE PLAIN_PROGRAM].
#
# The library and the program are those that `rt lib` and `rt run` have built in the crates' folders, or $ARCHIVE and $PROGRAM.
# PLAIN_ARCHIVE and PLAIN_PROGRAM are those of a version without keys, which then run by turns with the others. The exit status is
# 1 if an operation of a sketch with a key takes more than twice as long on items that collide.
set -euo pipefail
top="$(cd "$(dirname "$0")/.." && pwd)"
out="$top/bench/out/hostile"
mkdir -p "$out"

heap="$(dirname "$(rt doc)")/c/liblibc_c.a"
build() { # builds the shared object of an archive, which has only the archive's own calls
    "${CC:-cc}" -shared -o "$2" -Wl,-z,defs,-z,relro,-z,now -Wl,--version-script="$top/bindings/c/datasketches.map" \
        -Wl,--whole-archive "$1" -Wl,--no-whole-archive "$heap"
}

sides=()
if [ $# -gt 0 ]; then
    build "$1" "$out/plain.so"
    sides=("$out/plain.so" "$(realpath "$2")")
fi
build "${ARCHIVE:-$top/crates/datasketches_c/out/libdatasketches_c.a}" "$out/present.so"
sides+=("$out/present.so" "$(realpath "${PROGRAM:-$top/crates/datasketches_cli/out/datasketches_cli}")")
"${CC:-cc}" -std=gnu11 -O3 -march=native -Wall -Wextra -I"$top/bindings/c/include" "$top/bench/hostile.c" -o "$out/hostile" \
    -lm -ldl -lpthread
cd "$out"
./hostile "${sides[@]}"
