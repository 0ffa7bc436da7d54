#!/usr/bin/env bash
# Times the module for Redis beside the server's own SET and PFADD, counts the server's instructions for an item, and measures memory
# beside exact keys: bench/redis.sh [REQUESTS]. It needs Debian's packages redis-tools, valgrind and, for a plot, python3-matplotlib,
# and an idle machine.
#
# The library is the one that `rt lib` has built, or $ARCHIVE. A server of its own runs on a unix socket in a temporary folder,
# and takes up to 1 GB. The tables are printed, with the load of the machine. Without arguments there are 400,000 requests, and the
# plot is written into bindings/redis/plots. Otherwise it is written into bench/out/redis.
set -euo pipefail
top="$(cd "$(dirname "$0")/.." && pwd)"
exec /usr/bin/python3 "$top/bench/redis.py" "${ARCHIVE:-$top/crates/datasketches_c/out/libdatasketches_c.a}" "$@"
