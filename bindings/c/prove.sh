#!/usr/bin/env bash
# Proves and builds the crate of the C library, and with `all` those of the programs too: prove.sh LOG [all]. Prints how far this is, and
# writes all output to LOG.
set -euo pipefail
log="${1:?the file for all output}"
crates="$(cd "$(dirname "$0")/../../crates" && pwd)"
library() { cd "$crates/datasketches_c" && rt lib; }
all() { library && cd ../datasketches_cli && rt run <stdin && cd ../sketches && rt run -- top <stdin; }
case "${2:-library}" in
library) what='crates/datasketches_c: about 12 minutes' ;;
all) what='the crates: about half an hour' ;;
esac
echo "proving and building $what on four cores if nothing is built yet (all output: $log)"
("${2:-library}") 2>&1 | tee "$log" | awk '/^(so far|crate )/ { print "  " $0; fflush() }' || {
    tail -n 20 "$log" >&2
    exit 1
}
