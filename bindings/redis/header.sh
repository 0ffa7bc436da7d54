#!/usr/bin/env bash
# Copies the header of the module interface from Debian's source package of Redis: header.sh FILE.
# The package is downloaded with apt from a list of sources of its own, in a temporary folder. The system's lists stay as they are.
set -euo pipefail
file="${1:?the file to write}"
work="$(mktemp -d)"
trap 'rm -rf "$work"' EXIT
# shellcheck source=/dev/null
suite="$(. /etc/os-release && echo "$VERSION_CODENAME")"
mirror="${DEBIAN_MIRROR:-http://deb.debian.org/debian}"
cat >"$work/redis.sources" <<END
Types: deb-src
URIs: $mirror
Suites: $suite
Components: main
Signed-By: /usr/share/keyrings/debian-archive-keyring.gpg
END
mkdir -p "$work/lists/partial" "$work/cache/archives/partial"
chmod 755 "$work"
options=(-q -o "Dir::Etc::SourceList=$work/redis.sources" -o Dir::Etc::SourceParts=/dev/null -o "Dir::State::Lists=$work/lists"
    -o "Dir::Cache=$work/cache" -o APT::Sandbox::User=root)
if ! { apt-get "${options[@]}" update && (cd "$work" && apt-get "${options[@]}" source --download-only redis); } >"$work/log" 2>&1; then
    cat "$work/log" >&2
    echo "the header of Redis's module interface is not there: name it with REDISMODULE_H" >&2
    exit 1
fi
tar -xOf "$work"/redis_*.orig.tar.gz --wildcards '*/src/redismodule.h' >"$file"
