#!/usr/bin/env bash
# Builds the package into a folder: build.sh OUT [ARCHIVE]. PYTHONPATH=OUT then finds `datasketches_rattle`.
# ARCHIVE is the library for C, else that of `crates/datasketches_c`, which is proved and built where it has changed.
# `CC` names the compiler, `PYTHON` the interpreter, and `CFLAGS` more flags.
set -euo pipefail
here="$(cd "$(dirname "$0")" && pwd)"
out="${1:?the folder to build into}"
archive="${2:-$here/../../crates/datasketches_c/out/libdatasketches_c.a}"
python="${PYTHON:-/usr/bin/python3}"
mkdir -p "$out/datasketches_rattle"
[ $# -ge 2 ] || bash "$here/../c/prove.sh" "$(cd "$out" && pwd)/build.log"
cp "$here"/datasketches_rattle/{*.py,*.pyi,py.typed} "$out/datasketches_rattle/"
suffix="$("$python" -c 'import sysconfig; print(sysconfig.get_config_var("EXT_SUFFIX"))')"
include="$("$python" -c 'import sysconfig; print(sysconfig.get_path("include"))')"
# shellcheck disable=SC2086
"${CC:-cc}" -std=c11 -O2 -U_FORTIFY_SOURCE -D_FORTIFY_SOURCE=2 -fstack-protector-strong -DNDEBUG -Wall -Wextra -Werror -fPIC \
    -fvisibility=hidden -shared \
    -I"$here/../c/include" -isystem "$include" ${CFLAGS:-} "$here"/src/*.c "$here"/../c/src/*.c "$archive" \
    -Wl,--version-script="$here/sketches.map" -Wl,-z,relro,-z,now -o "$out/datasketches_rattle/_sketches$suffix"
echo "built $out/datasketches_rattle: PYTHONPATH=$out finds it"
