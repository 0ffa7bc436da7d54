#!/usr/bin/env bash
# Builds the C library into a folder: libdatasketches.so.0 with its link, and libdatasketches.a: build.sh OUT [ARCHIVE].
# ARCHIVE is what `rt lib` builds from `crates/datasketches_c`. Without it that crate is proved and built first, if it is not
# built yet. The calls in C are compiled from `src/`. `CC`, `LD`, `AR` and `OBJCOPY` name the tools.
set -euo pipefail
here="$(cd "$(dirname "$0")" && pwd)"
out="${1:?the folder to build into}"
archive="${2:-}"
mkdir -p "$out"
out="$(cd "$out" && pwd)"
if [ -z "$archive" ]; then
    archive="$here/../../crates/datasketches_c/out/libdatasketches_c.a"
    bash "$here/prove.sh" "$out/build.log"
fi
work="$(mktemp -d)"
trap 'rm -rf "$work"' EXIT
for source in "$here"/src/*.c; do
    "${CC:-cc}" -std=c11 -O2 -U_FORTIFY_SOURCE -D_FORTIFY_SOURCE=2 -fstack-protector-strong -Wall -Wextra -Wpedantic -Werror \
        -fPIC -I"$here/include" -c "$source" -o "$work/$(basename "$source" .c).o"
done

# One object, whose global symbols are the calls. So two static libraries that contain the same runtime can be in one program.
# The calls of `src/proved.h` are only for the calls in C.
"${LD:-ld}" -r --force-group-allocation -o "$work/all" "$work"/*.o --whole-archive "$archive"
"${OBJCOPY:-objcopy}" --wildcard --keep-global-symbol='ds_*' --localize-symbol=ds_free_handle --localize-symbol=ds_new \
    --localize-symbol=ds_read_image --localize-symbol=ds_set_frozen "$work/all" "$work/datasketches.o"
rm -f "$out/libdatasketches.a"
"${AR:-ar}" rcsD "$out/libdatasketches.a" "$work/datasketches.o"
"${CC:-cc}" -shared -o "$out/libdatasketches.so.0" -Wl,-soname,libdatasketches.so.0 -Wl,-z,defs,-z,relro,-z,now \
    -Wl,--version-script="$here/datasketches.map" "$work/datasketches.o"
ln -sf libdatasketches.so.0 "$out/libdatasketches.so"
echo "built $out/libdatasketches.so.0 and $out/libdatasketches.a"
