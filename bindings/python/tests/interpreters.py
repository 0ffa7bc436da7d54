"""Finds the interpreters of a machine that the package can be built for."""
import glob
import os
import re
import subprocess

TESTED = ("3.10", "3.11", "3.12", "3.13")  # those that the page names

DESCRIBE = """
import os, platform, sys, sysconfig
headers = os.path.exists(os.path.join(sysconfig.get_path("include"), "Python.h"))
if platform.python_implementation() == "CPython" and headers and sys.version_info >= (3, 10):
    print("%d.%d" % sys.version_info[:2], platform.python_version())
"""


def places():
    """Returns the paths of programs that may be interpreters: those on the path, and those of pyenv."""
    folders = [*os.environ.get("PATH", "").split(os.pathsep), "/usr/bin", "/usr/local/bin"]
    found = [path for folder in dict.fromkeys(folders) for path in sorted(glob.glob(os.path.join(folder, "python3.*")))]
    found = [path for path in found if re.fullmatch(r"python3\.\d+", os.path.basename(path))]
    return found + sorted(glob.glob(os.path.expanduser("~/.pyenv/versions/*/bin/python3")))


def found_here(besides):
    """Returns a dict of versions such as '3.12' to the path and the whole version of one interpreter each, if it is CPython 3.10 or
    later and its headers are there. `besides` is a version that is left out."""
    found = {}
    for path in places():
        try:
            ran = subprocess.run([path, "-I", "-c", DESCRIBE], capture_output=True, text=True, timeout=60, check=False)
        except (OSError, subprocess.TimeoutExpired):
            continue
        version, whole = (ran.stdout.split() + ["", ""])[:2]
        if ran.returncode == 0 and version and version != besides:
            found.setdefault(version, (path, whole))
    return dict(sorted(found.items(), key=lambda each: int(each[0].split(".")[1])))
