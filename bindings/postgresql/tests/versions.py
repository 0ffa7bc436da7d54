"""The extension's source compiles against the headers of PostgreSQL 17, from Debian's packages for trixie. Nothing of them runs."""
import glob
import lzma
import os
import re
import subprocess
import urllib.request

EXTENSION = os.path.dirname(os.path.dirname(os.path.abspath(__file__)))
MIRROR = os.environ.get("DEBIAN_MIRROR", "http://deb.debian.org/debian")
SUITE, VERSION = "trixie", 17


def fetched(path):
    with urllib.request.urlopen(f"{MIRROR}/{path}", timeout=120) as answer:
        return answer.read()


def headers(folder):
    """Unpacks Debian's headers of the server into a folder. Returns the folder to include."""
    packages = lzma.decompress(fetched(f"dists/{SUITE}/main/binary-amd64/Packages.xz")).decode()
    entry = packages[packages.index(f"\nPackage: postgresql-server-dev-{VERSION}\n"):]
    with open(f"{folder}.deb", "wb") as file:
        file.write(fetched(re.search(r"\nFilename: (.*)\n", entry)[1]))
    subprocess.run(["dpkg-deb", "-x", f"{folder}.deb", folder], check=True)
    return f"{folder}/usr/include/postgresql/{VERSION}/server"


def compiles(tests):
    include = headers(f"{tests.work}/headers")
    sources = sorted(glob.glob(f"{EXTENSION}/src/*.c"))
    tests.check("there is a source", len(sources) > 5 and os.path.isfile(f"{include}/postgres.h"))
    for source in sources:
        compiled = subprocess.run(["cc", "-fsyntax-only", "-std=gnu99", "-Wall", "-Wextra", "-Wpedantic", "-Werror",
                                   f"-I{EXTENSION}/../c/include", "-isystem", include, "-D_GNU_SOURCE", source],
                                  capture_output=True, text=True)
        tests.check(f"{os.path.basename(source)} compiles against PostgreSQL {VERSION}", compiled.returncode == 0, compiled.stderr)
