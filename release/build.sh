#!/usr/bin/env bash
# Builds the packages of the last commit into a folder: release/build.sh OUT [ARCHIVE PROGRAM SKETCHES]. OUT gets
#
#     datasketches-VERSION-linux-x86_64.tar.gz    C library, crate for Rust and programs, for any folder
#     libdatasketches0, libdatasketches-dev, python3-datasketches-rattle, datasketches-tools, datasketches-doc    Debian packages
#     postgresql-15-sketches-rattle    Debian package, which needs postgresql-server-dev-15 to be built
#     redis-sketches-rattle    Debian package, which needs REDISMODULE_H or apt's sources to be built
#     datasketches_rattle-VERSION-..whl           wheel for the Python of `PYTHON`, by default /usr/bin/python3
#     SHA256SUMS
#
# ARCHIVE is what `rt lib` builds from `crates/datasketches_c`, PROGRAM what `rt run` builds from `crates/datasketches_cli`, and
# SKETCHES what it builds from `crates/sketches`. Without them the crates are proved and built first, if they are not built yet.
# SOURCE_DATE_EPOCH is the time of all files, by default that of the commit. The same commit, time and tools give the same bytes, in
# any folder.
set -euo pipefail
umask 022
top="$(cd "$(dirname "$0")/.." && pwd)"
out="${1:?the folder to build into}"
[ $# -eq 1 ] || [ $# -eq 4 ] || {
    echo "usage: release/build.sh OUT [ARCHIVE PROGRAM SKETCHES]" >&2
    exit 2
}
export LC_ALL=C.UTF-8 TZ=UTC PYTHON="${PYTHON:-/usr/bin/python3}" PYTHONDONTWRITEBYTECODE=1
SOURCE_DATE_EPOCH="${SOURCE_DATE_EPOCH:-$(git -C "$top" log -1 --format=%ct)}"
export SOURCE_DATE_EPOCH
pg_config="${PG_CONFIG:-/usr/lib/postgresql/15/bin/pg_config}"
[ -x "$pg_config" ] && [ -f "$("$pg_config" --pgxs)" ] || {
    echo "the extension for PostgreSQL needs Debian's postgresql-server-dev-15: there is no $pg_config with its files" >&2
    exit 1
}
mkdir -p "$out"
out="$(cd "$out" && pwd)"
work="$(mktemp -d)"
trap 'rm -rf "$work"' EXIT

git clone -q "$top" "$work/source"
source="$work/source"
version="$(cat "$source/VERSION")"
archive="${2:-}" program="${3:-}" sketches="${4:-}"
if [ -z "$archive" ]; then
    [ -z "$(git -C "$top" status --porcelain -- crates crates.txt)" ] || {
        echo "crates/ or crates.txt differ from the last commit: commit them first" >&2
        exit 1
    }
    bash "$top/bindings/c/prove.sh" "$out/build.log" all
    rm "$out/build.log"
    archive="$top/crates/datasketches_c/out/libdatasketches_c.a"
    program="$top/crates/datasketches_cli/out/datasketches_cli"
    sketches="$top/crates/sketches/out/sketches"
fi

# What is built, without symbols that only debuggers read.
bash "$source/bindings/c/build.sh" "$work/c" "$archive"
bash "$source/bindings/python/build.sh" "$work/python" "$archive"
make -s -C "$source/bindings/postgresql" PG_CONFIG="$pg_config" ARCHIVE="$work/c/libdatasketches.a" \
    DESTDIR="$work/postgresql" COPT=-g0 install
bash "$source/bindings/redis/build.sh" "$work/redis" "$work/c/libdatasketches.a"
install -m 755 "$program" "$work/datasketches_cli"
install -m 755 "$sketches" "$work/sketches"
unneeded=(--remove-section=.comment --remove-section=.note)
strip --strip-debug --enable-deterministic-archives "${unneeded[@]}" "$work/c/libdatasketches.a"
strip --strip-unneeded "${unneeded[@]}" "$work/c/libdatasketches.so.0" "$work/datasketches_cli" "$work/sketches" \
    "$work"/python/datasketches_rattle/_sketches*.so "$work/postgresql$("$pg_config" --pkglibdir)/sketches_rattle.so" \
    "$work/redis/rattle_sketches.so"

# The man page and the completions of `sketches`.
mkdir "$work/manual"
"$PYTHON" "$source/release/manual.py" "$work/sketches" "$source/crates/sketches/README.md" "$work/manual"

# The licences of the toolchain's libraries in the programs.
for library in hex clap; do
    install -m 644 "$(dirname "$(rt doc)")/rattle/$library/LICENSE-MIT" "$work/LICENSE.$library"
done

# The tarball.
name="datasketches-$version-linux-x86_64"
tree="$work/tree/$name"
DESTDIR="$work/tree" bash "$source/bindings/c/install.sh" --prefix "/$name" --relocatable "$work/c"
install -D -m 755 "$work/datasketches_cli" "$work/sketches" -t "$tree/bin"
install -D -m 644 "$source/release/datasketches_cli.1" "$work/manual/sketches.1" -t "$tree/share/man/man1"
install -D -m 644 "$work/manual/sketches.bash" "$tree/share/bash-completion/completions/sketches"
install -D -m 644 "$work/manual/_sketches" "$tree/share/zsh/site-functions/_sketches"
install -D -m 644 "$work/manual/sketches.fish" "$tree/share/fish/vendor_completions.d/sketches.fish"
install -m 644 "$source"/{LICENSE,NOTICE,bindings/c/example.c} "$work"/LICENSE.{hex,clap} "$tree/"
install -d "$tree/rust"
install -m 644 "$source"/bindings/rust/{Cargo.toml,build.rs} "$tree/rust/"
cp -r "$source/bindings/rust/src" "$tree/rust/"
"$PYTHON" "$source/release/pages.py" page "$source" bindings/rust/README.md "$tree/rust/README.md" ../doc
"$PYTHON" "$source/release/pages.py" tree "$source" "$tree/doc"
"$PYTHON" "$source/release/pages.py" page "$source" release/README.md "$tree/README.md" doc
"$PYTHON" "$source/release/pages.py" page "$source" CHANGELOG.md "$tree/CHANGELOG.md" doc
tar --sort=name --owner=0 --group=0 --numeric-owner --mtime="@$SOURCE_DATE_EPOCH" --format=ustar -C "$work/tree" -c "$name" |
    gzip -9n >"$out/$name.tar.gz"

bash "$source/release/debian/build.sh" "$out" "$source" "$work"
"$PYTHON" "$source/release/wheel.py" "$out" "$source" "$work"
cd "$out"
sha256sum -- *"_${version}_"*.deb *"-$version-"* >SHA256SUMS
echo "built $out:"
sed 's/^[^ ]* */  /' SHA256SUMS
