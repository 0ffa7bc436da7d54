#!/usr/bin/env bash
# Times the program `sketches` on files beside what people use today: bench/files.sh [PROGRAM].
#
# PROGRAM is the one that `rt run` has built in crates/sketches, unless an argument names another. Beyond Debian's base it needs
# python3, mawk, datamash and rustc, an idle machine, and 900 MB of bench/out for SIZE=100. SIZE is the size of each file in MB,
# and RUNS the number of runs of each tool. The table goes to standard output. With the default sizes the plot goes to
# bench/files.svg, and else to bench/out/files/files.svg. The exit status is 1 if a tool's result is wrong.
set -euo pipefail
top="$(cd "$(dirname "$0")/.." && pwd)"
program="$(realpath -m "${1:-$top/crates/sketches/out/sketches}")"
missing=()
for tool in /usr/bin/python3 mawk datamash rustc; do
    command -v "$tool" >/dev/null || missing+=("$(basename "$tool")")
done
[ -x "$program" ] || missing+=("$program (by rt run in crates/sketches)")
if [ ${#missing[@]} -gt 0 ]; then
    echo "not installed, and needed by this script: ${missing[*]}" >&2
    exit 1
fi
out="$top/bench/out/files"
mkdir -p "$out"
for source in exact measure; do
    rustc --edition 2024 -O -o "$out/$source" "$top/bench/$source.rs"
done
# JOBS are parts of names of jobs; without them all run.
read -ra jobs <<<"${JOBS:-}"
exec env LC_ALL=C /usr/bin/python3 "$top/bench/files.py" "$program" "${SIZE:-100}" "${RUNS:-5}" "${jobs[@]}"
