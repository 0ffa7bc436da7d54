#!/usr/bin/env bash
# Installs what `build.sh` built, with the headers and the files for pkg-config and CMake, or removes it again:
#
#     install.sh [--prefix PREFIX] [--libdir DIR] [--relocatable] BUILT
#     install.sh [--prefix PREFIX] [--libdir DIR] --uninstall
#     install.sh BUILT PREFIX
#
# PREFIX is /usr/local by default. DIR is absolute or below PREFIX, by default `lib`. With --relocatable, the file for pkg-config
# finds PREFIX from its own place, as that for CMake always does. The environment variable DESTDIR goes before all paths.
set -euo pipefail
here="$(cd "$(dirname "$0")" && pwd)"

usage() {
    sed -n 's/^#     /usage: /p' "$0" >&2
    exit 2
}

prefix="" libdir=lib relocatable="" uninstall="" words=()
while [ $# -gt 0 ]; do
    case "$1" in
    --prefix=* | --libdir=*) option="${1%%=*}" value="${1#*=}" ;;
    --prefix | --libdir)
        [ $# -ge 2 ] || usage
        option="$1" value="$2"
        shift
        ;;
    --relocatable) option="" relocatable=yes ;;
    --uninstall) option="" uninstall=yes ;;
    -*) usage ;;
    *) option="" words+=("$1") ;;
    esac
    case "$option" in
    --prefix) prefix="$value" ;;
    --libdir) libdir="$value" ;;
    esac
    shift
done
wanted=1
[ -n "$uninstall" ] && wanted=0
if [ -z "$uninstall" ] && [ ${#words[@]} -eq 2 ] && [ -z "$prefix" ]; then
    prefix="${words[1]}"
elif [ ${#words[@]} -ne $wanted ]; then
    usage
fi
prefix="$(realpath -ms -- "${prefix:-/usr/local}")"
case "$libdir" in
/*) ;;
*) libdir="$prefix/$libdir" ;;
esac
libdir="$(realpath -ms -- "$libdir")"
to="${DESTDIR:-}"
version="$(cat "$here/../../VERSION")"
mapfile -t headers < <(cd "$here/include" && printf '%s\n' *.h *.hpp datasketches/*.hpp)

if [ -n "$uninstall" ]; then
    for header in "${headers[@]}"; do rm -f -- "$to$prefix/include/$header"; done
    rm -f -- "$to$libdir"/libdatasketches.{a,so,so.0,"so.$version"} "$to$libdir/pkgconfig/datasketches.pc"
    rm -f -- "$to$libdir"/cmake/datasketches/datasketches-config{,-version}.cmake
    for folder in "$to$prefix/include/datasketches" "$to$libdir/cmake/datasketches"; do
        if [ -d "$folder" ]; then rmdir --ignore-fail-on-non-empty -- "$folder"; fi
    done
    exit 0
fi

# Writes a file of `package/`, with the values of this place for the names between @.
fill() {
    local text name
    text="$(cat "$here/package/$1.in")"
    for name in PREFIX INCLUDEDIR LIBDIR VERSION PREFIX_FROM_LIBDIR; do
        text="$(printf '%s\n' "$text" | VALUE="${values[$name]}" awk -v name="@$name@" '{
            line = ""
            while ((at = index($0, name)) > 0) {
                line = line substr($0, 1, at - 1) ENVIRON["VALUE"]
                $0 = substr($0, at + length(name))
            }
            print line $0
        }')"
    done
    printf '%s\n' "$text" >"$2"
    chmod 644 -- "$2"
}

built="${words[0]}"
declare -A values=([VERSION]="$version" [PREFIX]="$prefix" [INCLUDEDIR]="\${prefix}/include"
    [PREFIX_FROM_LIBDIR]="$(realpath -ms --relative-to="$libdir" -- "$prefix")")
[ -n "$relocatable" ] && values[PREFIX]="\${pcfiledir}/../${values[PREFIX_FROM_LIBDIR]}"
case "$libdir" in
"$prefix"/*) values[LIBDIR]="\${prefix}/${libdir#"$prefix"/}" ;;
*) values[LIBDIR]="$libdir" ;;
esac
for name in PREFIX LIBDIR; do values[$name]="$(printf '%s' "${values[$name]}" | sed "s/[\\\\\"' ]/\\\\&/g")"; done
install -d -- "$to$prefix/include/datasketches" "$to$libdir/pkgconfig" "$to$libdir/cmake/datasketches"
for header in "${headers[@]}"; do install -m 644 -- "$here/include/$header" "$to$prefix/include/$header"; done
install -m 644 -- "$built/libdatasketches.a" "$to$libdir/"
install -m 755 -- "$built/libdatasketches.so.0" "$to$libdir/libdatasketches.so.$version"
ln -sf -- "libdatasketches.so.$version" "$to$libdir/libdatasketches.so.0"
ln -sf -- libdatasketches.so.0 "$to$libdir/libdatasketches.so"
fill datasketches.pc "$to$libdir/pkgconfig/datasketches.pc"
fill datasketches-config.cmake "$to$libdir/cmake/datasketches/datasketches-config.cmake"
fill datasketches-config-version.cmake "$to$libdir/cmake/datasketches/datasketches-config-version.cmake"
