#!/usr/bin/env bash
# Times sketches in PostgreSQL beside exact queries: bench/postgresql.sh [ROWS GROUPS]. It needs Debian's packages postgresql-15,
# postgresql-server-dev-15, python3-psycopg2 and python3-matplotlib, and an idle machine.
#
# The library is the one that `rt lib` has built, or $ARCHIVE. A server of its own runs on a unix socket in a temporary folder,
# which takes 3 GB for 10 million rows. Without arguments the rows are 10 million, the groups 100,000, the table is written to
# bench/results/DATE-postgresql.txt, and the plots to bindings/postgresql/plots. With other sizes all go to bench/out/postgresql.
set -euo pipefail
top="$(cd "$(dirname "$0")/.." && pwd)"
exec /usr/bin/python3 "$top/bench/postgresql.py" "${ARCHIVE:-$top/crates/datasketches_c/out/libdatasketches_c.a}" "$@"
