#!/usr/bin/env bash
# Builds the module for Redis into a folder: build.sh OUT [ARCHIVE] makes OUT/rattle_sketches.so.
# ARCHIVE is the static C library, `libdatasketches.a`, which `bindings/c/build.sh` makes. Without it, that is called first.
# REDISMODULE_H names the header of the server's module interface. Without it, Debian's source package of Redis is downloaded for
# it into a temporary folder: the package that holds the installed server has no header. `CC` and `CFLAGS` are taken as usual.
set -euo pipefail
here="$(cd "$(dirname "$0")" && pwd)"
out="${1:?the folder to build into}"
archive="${2:-}"
mkdir -p "$out"
out="$(cd "$out" && pwd)"
work="$(mktemp -d)"
trap 'rm -rf "$work"' EXIT
if [ -z "$archive" ]; then
    bash "$here/../c/build.sh" "$work/c"
    archive="$work/c/libdatasketches.a"
fi
header="${REDISMODULE_H:-}"
if [ -z "$header" ]; then
    header="$work/redismodule.h"
    bash "$here/header.sh" "$header"
fi
install -D -m 644 "$header" "$work/include/redismodule.h"
# The server's header is a system header here, so that warnings are of this code alone. Symbols of the library stay inside.
read -ra flags <<<"${CFLAGS:--O2}"
"${CC:-cc}" -std=c11 "${flags[@]}" -U_FORTIFY_SOURCE -D_FORTIFY_SOURCE=2 -fstack-protector-strong -Wall -Wextra -Wpedantic -Werror \
    -fPIC -fvisibility=hidden -ffile-prefix-map="$here"=. -ffile-prefix-map="$work"=. \
    -I"$here/../c/include" -isystem "$work/include" \
    -shared -Wl,-soname,rattle_sketches.so -Wl,-z,defs,-z,relro,-z,now -Wl,--exclude-libs,ALL \
    -Wl,--version-script="$here/module.map" -o "$out/rattle_sketches.so" "$here"/src/*.c "$archive" -lm
echo "built $out/rattle_sketches.so"
