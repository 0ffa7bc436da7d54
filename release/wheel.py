"""Packs the built Python package as a wheel. It needs Python's standard library alone, and writes the same bytes each time.

    wheel.py OUT SOURCE WORK               writes the wheel of WORK/python into OUT
    wheel.py --metadata FOLDER SOURCE      writes the folder .dist-info of an installed package into FOLDER

SOURCE is the repository. The wheel is for the Python that runs this. It is not `abi3` for 3.10: the extension has static types
and uses buffers, which the stable ABI has from 3.11 on. Its tag names the lowest version of the C library that has its symbols.
"""
import base64
import hashlib
import os
import re
import subprocess
import sys
import time
import tomllib
import zipfile

# The libraries that a manylinux wheel may need here.
PERMITTED = {"libc.so.6", "libm.so.6", "libpthread.so.0"}


def read(path):
    with open(path, "rb") as file:
        return file.read()


def metadata(source):
    """Returns name and version in file names, and the text of METADATA."""
    folder = f"{source}/bindings/python"
    project = tomllib.loads(read(f"{folder}/pyproject.toml").decode())["project"]
    version = read(f"{source}/VERSION").decode().strip()
    lines = ["Metadata-Version: 2.1", f"Name: {project['name']}", f"Version: {version}", f"Summary: {project['description']}",
             f"License: {project['license']['text']}", f"Requires-Python: {project['requires-python']}",
             "Description-Content-Type: text/markdown", ""]
    stem = f"{project['name'].replace('-', '_')}-{version}"
    page = read(f"{folder}/{project['readme']}").decode()
    page = re.sub(r"\[([^\]]*)\]\((?![a-z]+:)[^)]*\)", r"\1", page)  # a wheel has no files for these links to lead to
    return stem, ("\n".join(lines) + "\n" + page).encode()


def platform(extension):
    """Returns the tag of the platform: the highest version of the C library among the symbols."""
    symbols = subprocess.run(["objdump", "-T", extension], capture_output=True, check=True, text=True).stdout
    headers = subprocess.run(["objdump", "-p", extension], capture_output=True, check=True, text=True).stdout
    needed = set(re.findall(r"NEEDED +(\S+)", headers))
    if not needed <= PERMITTED:
        sys.exit(f"{extension} needs {needed - PERMITTED}, which no manylinux wheel may need")
    versions = [(int(major), int(minor)) for major, minor in re.findall(r"GLIBC_(\d+)\.(\d+)", symbols)]
    return "manylinux_{}_{}_x86_64".format(*max(versions))


def write_wheel(out, source, work):
    stem, text = metadata(source)
    package = f"{work}/python/datasketches_rattle"
    extension = next(name for name in os.listdir(package) if name.endswith(".so"))
    python = f"cp{sys.version_info[0]}{sys.version_info[1]}"
    tag = f"{python}-{python}-{platform(f'{package}/{extension}')}"
    info = f"{stem}.dist-info"
    files = [(f"datasketches_rattle/{name}", read(f"{package}/{name}")) for name in sorted(os.listdir(package))]
    files += [(f"{info}/licenses/{name}", read(f"{source}/{name}")) for name in ["LICENSE", "NOTICE"]]
    files.append((f"{info}/METADATA", text))
    files.append((f"{info}/WHEEL", f"Wheel-Version: 1.0\nGenerator: wheel.py\nRoot-Is-Purelib: false\nTag: {tag}\n".encode()))
    record = ""
    for name, data in files:
        digest = base64.urlsafe_b64encode(hashlib.sha256(data).digest()).rstrip(b"=").decode()
        record += f"{name},sha256={digest},{len(data)}\n"
    files.append((f"{info}/RECORD", f"{record}{info}/RECORD,,\n".encode()))
    when = time.gmtime(max(int(os.environ["SOURCE_DATE_EPOCH"]), 315532800))[:6]
    with zipfile.ZipFile(f"{out}/{stem}-{tag}.whl", "w", zipfile.ZIP_DEFLATED, compresslevel=9) as wheel:
        for name, data in files:
            entry = zipfile.ZipInfo(name, when)
            entry.compress_type = zipfile.ZIP_DEFLATED
            entry.external_attr = (0o100755 if name.endswith(".so") else 0o100644) << 16
            wheel.writestr(entry, data)


def main():
    if sys.argv[1] == "--metadata":
        folder, source = sys.argv[2:]
        stem, text = metadata(source)
        os.mkdir(f"{folder}/{stem}.dist-info")
        with open(f"{folder}/{stem}.dist-info/METADATA", "wb") as file:
            file.write(text)
    else:
        write_wheel(*sys.argv[1:])


main()
