#!/usr/bin/env bash
# Packs what `release/build.sh` built as Debian packages: build.sh OUT SOURCE WORK.
set -euo pipefail
out="$1" source="$2" work="$3"
version="$(cat "$source/VERSION")"
multiarch="$(dpkg-architecture -q DEB_HOST_MULTIARCH)"
here="$source/release/debian"
mkdir -p "$work/deb/debian"
cd "$work/deb"

minor="$("$PYTHON" -c 'import sys; print(sys.version_info[1])')"
sed '/^#/d' "$here/control" >debian/control
cat >debian/changelog <<CHANGES
datasketches-rattle ($version) unstable; urgency=medium

  * Release $version: see CHANGELOG.md.gz.

 -- $(sed -n 's/^Maintainer: //p' debian/control)  $(date -u -R -d "@$SOURCE_DATE_EPOCH")
CHANGES

# Writes a page of the repository to a file. Its links lead to the package of the pages.
page() {
    mkdir -p "$(dirname "$2")"
    "$PYTHON" "$source/release/pages.py" page "$source" "$1" "$2" ../datasketches-doc
}

# Files of each package.
DESTDIR="$work/deb/dev" bash "$source/bindings/c/install.sh" --prefix /usr --libdir "lib/$multiarch" "$work/c"
mkdir -p lib/DEBIAN dev/DEBIAN "lib/usr/lib/$multiarch"
mv dev/usr/lib/"$multiarch"/libdatasketches.so.* "lib/usr/lib/$multiarch/"
chmod 644 "lib/usr/lib/$multiarch/libdatasketches.so.$version"
echo "libdatasketches 0 libdatasketches0 (>= $version)" >lib/DEBIAN/shlibs
echo "activate-noawait ldconfig" >lib/DEBIAN/triggers
dpkg-gensymbols -c4 -q -plibdatasketches0 -Plib -v"$version" -I"$here/symbols" \
    -e"lib/usr/lib/$multiarch/libdatasketches.so.$version" -Olib/DEBIAN/symbols
page bindings/c/README.md dev/usr/share/doc/libdatasketches-dev/README.md
install -D -m 644 "$source/bindings/c/example.c" dev/usr/share/doc/libdatasketches-dev/examples/example.c

install -D -m 755 "$work/datasketches_cli" tools/usr/bin/datasketches_cli
install -D -m 755 "$work/sketches" tools/usr/bin/sketches
install -D -m 644 "$source/release/datasketches_cli.1" tools/usr/share/man/man1/datasketches_cli.1
install -D -m 644 "$work/manual/sketches.1" tools/usr/share/man/man1/sketches.1
gzip -9n tools/usr/share/man/man1/*.1
install -D -m 644 "$work/manual/sketches.bash" tools/usr/share/bash-completion/completions/sketches
install -D -m 644 "$work/manual/_sketches" tools/usr/share/zsh/vendor-completions/_sketches
install -D -m 644 "$work/manual/sketches.fish" tools/usr/share/fish/vendor_completions.d/sketches.fish
mkdir tools/DEBIAN

package=python/usr/lib/python3/dist-packages
mkdir -p "$package" python/DEBIAN
cp -r "$work/python/datasketches_rattle" "$package/"
chmod 644 "$package"/datasketches_rattle/_sketches*.so
"$PYTHON" "$source/release/wheel.py" --metadata "$package" "$source"
cp "$here"/python.postinst python/DEBIAN/postinst
cp "$here"/python.prerm python/DEBIAN/prerm
chmod 755 python/DEBIAN/{postinst,prerm}

mkdir -p postgresql/DEBIAN
cp -r "$work/postgresql/usr" postgresql/
find postgresql/usr -type f -exec chmod 644 {} +
page bindings/postgresql/README.md postgresql/usr/share/doc/postgresql-15-sketches-rattle/README.md

mkdir -p redis/DEBIAN
# The server loads a module only if its file may be executed, which lintian has to be told.
install -D -m 755 "$work/redis/rattle_sketches.so" redis/usr/lib/redis/modules/rattle_sketches.so
install -D -m 644 "$source/bindings/redis/redis.conf" redis/usr/share/doc/redis-sketches-rattle/examples/redis.conf
mkdir -p redis/usr/share/lintian/overrides
echo 'redis-sketches-rattle: shared-library-is-executable 0755 [usr/lib/redis/modules/rattle_sketches.so]' \
    >redis/usr/share/lintian/overrides/redis-sketches-rattle
page bindings/redis/README.md redis/usr/share/doc/redis-sketches-rattle/README.md

# The pages with all files that they link to. The licence is in the file `copyright`, as in each package.
pages=doc/usr/share/doc/datasketches-doc
mkdir -p doc/DEBIAN "$pages"
"$PYTHON" "$source/release/pages.py" tree "$source" "$pages"
ln -sf copyright "$pages/LICENSE"

# Prints the part of a file `copyright` for the toolchain's libraries in a program, which have one licence.
licence_of() {
    local program="$1" files
    shift
    files=("${@/#/$work/LICENSE.}")
    printf '\nFiles: usr/bin/%s\nComment: Of the toolchain: %s.\n' "$program" "$*"
    sed -sn 's/^Copyright (c) /Copyright: /p' "${files[@]}" | sed '2,$s/^Copyright: / /'
    printf 'License: Expat\n'
    sed -n '/^Permission/,$ { s/^$/./; s/^/ /; p }' "${files[0]}"
}

pack() {
    local folder="$1" name="$2"
    local doc="$folder/usr/share/doc/$name"
    mkdir -p "$doc"
    cp "$here/copyright" "$doc/copyright"
    cp "$source/NOTICE" "$doc/NOTICE"
    if [ "$folder" = tools ]; then
        {
            licence_of datasketches_cli hex
            licence_of sketches clap hex
        } >>"$doc/copyright"
    fi
    gzip -9n <debian/changelog >"$doc/changelog.gz"
    if [ "$folder" != doc ]; then
        page CHANGELOG.md "$doc/CHANGELOG.md"
        gzip -9n "$doc/CHANGELOG.md"
    fi
    local objects=()
    mapfile -t objects < <(find "$folder/usr" -type f \( -name '*.so*' -o -path '*/bin/*' \) | sort)
    : >"$name.substvars"
    if [ "$folder" = python ]; then
        echo "python:Depends=python3 (>= 3.$minor~), python3 (<< 3.$((minor + 1)))" >"$name.substvars"
    fi
    if [ ${#objects[@]} -gt 0 ]; then dpkg-shlibdeps -T"$name.substvars" "${objects[@]/#/-e}"; fi
    dpkg-gencontrol -p"$name" -P"$folder" -T"$name.substvars" -v"$version" -ffiles
    local arch
    arch="$(sed -n 's/^Architecture: //p' "$folder/DEBIAN/control")"
    (cd "$folder" && find usr -type f -print0 | sort -z | xargs -0 md5sum >DEBIAN/md5sums)
    dpkg-deb --root-owner-group --threads-max=1 -Zxz --build "$folder" "$out/${name}_${version}_$arch.deb" >/dev/null
}

pack lib libdatasketches0
pack dev libdatasketches-dev
pack python python3-datasketches-rattle
pack tools datasketches-tools
pack postgresql postgresql-15-sketches-rattle
pack redis redis-sketches-rattle
pack doc datasketches-doc
