#!/usr/bin/env bash
# Prints a table of the times of operations of the proved crates and of plain Rust. Words choose the rows whose names contain
# each of them. With ORDER=1, or another number, the functions are linked in an order that depends on it. This needs lld, with
# which rustc links here.
set -euo pipefail
export DATASKETCHES_TABLE_KEY=plain # the other side hashes so too
cd "$(dirname "$0")"
crates=out/crates
libraries='sketch_base counter_table sketch_frequencies sketch_bloom sketch_countmin'
program='heavy_windows datasketches datasketches_cli'

prove() { # proves and builds a crate with a command of rt
    (cd "$crates/$1" && rt "$2" </dev/null) >out/log 2>&1 || { tail -n 20 out/log; exit 1; }
}

compile() {
    rustc --edition 2024 -O -C codegen-units=1 -C target-cpu=x86-64-v2 "$@"
}

# Each function of the loops and each function that they call begins at a multiple of 64. Otherwise an edit elsewhere could move a
# loop by 16 bytes, and change its time by a tenth. On the plain side an option of the compiler does this.
align() { # copies the static library of a crate into out/aligned, with aligned functions
    mkdir -p out/aligned
    (cd out/aligned && rm -f ./* && ar x "../crates/$1/out/lib$1.a" && objcopy --set-section-alignment '.text*=64' "$1.o" \
        && ar rcs "lib$1.a" "$1.o")
}

# Copies the crates, with the loops as another crate. Files that were deleted must not stay there.
mkdir -p "$crates"
for crate in $libraries $program; do
    mkdir -p "$crates/$crate"
    rm -rf "$crates/$crate/src" "$crates/$crate/specs" "$crates/$crate/proofs"
    (cd "../crates/$crate" && tar -c --exclude=./out --exclude=./must-fail .) | tar -x -C "$crates/$crate"
    grep "^$crate:" ../crates.txt
done >out/crates.txt
echo "bench_loops staticlib: $libraries" >>out/crates.txt
rm -rf "$crates/bench_loops/src"
mkdir -p "$crates"/bench_loops/{src,specs,proofs}
for loops in loops/*.rt.txt; do
    cp "$loops" "$crates/bench_loops/src/$(basename "$loops" .txt)"
done

prove bench_loops lib
align bench_loops
# Both sides use the C library's heap.
compile -C llvm-args=-align-all-functions=6 driver.rs -o out/driver -L out/aligned -l static=bench_loops \
    -C link-arg="$(dirname "$(rt doc)")/c/liblibc_c.a" ${ORDER:+-C link-arg="-Wl,--shuffle-sections=*=$ORDER"}
case $(out/driver --names "$@") in
*'program, '*)
    prove datasketches_cli run
    compile plain_program.rs -o out/plain_program
    ;;
esac
if [ $# -gt 0 ]; then
    out/driver "$@"
    exit
fi
table="results/$(date +%F).txt"
out/driver | tee out/table
{
    printf '%s\n\nBy `bench/run.sh`, on %s processors (%s). `plain` does as the published crate does.\n\n' \
        "$(date +%F)" "$(nproc)" "$(sed -n 's/^model name[^:]*: //p;T;q' /proc/cpuinfo)"
    cat out/table
} >"$table"
echo "written to bench/$table"
