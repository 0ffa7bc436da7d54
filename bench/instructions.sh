#!/usr/bin/env bash
# Prints the number of instructions of each row on the proved side, as valgrind counts them. It uses the programs that `run.sh`
# built. The numbers are the same in each run. Words choose rows as in `run.sh`.
set -euo pipefail
export DATASKETCHES_TABLE_KEY=plain # counts of random keys would differ from run to run
cd "$(dirname "$0")"

count() { # prints the number of instructions of a command
    valgrind --tool=callgrind --callgrind-out-file=/dev/null "$@" 2>&1 >/dev/null | sed -n 's/.*Collected : //p'
}

# the loops and the functions that they call
loops=()
for part in murmur3 xxh64 filter count frequent keyed; do
    loops+=(--toggle-collect="rattle_${part}_*")
done

out/driver --names "$@" | while read -r row; do
    case $row in
    'program, '*)
        out/driver --once "$row"
        number="$(count out/crates/datasketches_cli/out/datasketches_cli <out/script)"
        ;;
    *) number="$(count "${loops[@]}" out/driver --once "$row")" ;;
    esac
    echo "| $row | $number |"
done
