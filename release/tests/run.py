"""Builds the packages in two folders and compares them byte by byte. Then installs each in a fresh Debian without the toolchain,
runs the first examples of the pages, and removes it again. It needs root, for `debootstrap` and `chroot`. Servers of PostgreSQL and
Redis run in that Debian on unix sockets alone, and are stopped.

    python3 release/tests/run.py PROGRAM ARCHIVE SKETCHES

PROGRAM, ARCHIVE and SKETCHES are those of `release/build.sh`. It prints the failed tests and then 'N passed, M failed'.
`DEBIAN_MIRROR` names the mirror, by default http://deb.debian.org/debian.
"""
import filecmp
import glob
import os
import platform
import re
import shutil
import subprocess
import sys
import tempfile
import zipfile

TOP = os.path.dirname(os.path.dirname(os.path.dirname(os.path.abspath(__file__))))
sys.path[:0] = [f"{TOP}/bindings/postgresql/tests", f"{TOP}/bindings/redis/tests", f"{TOP}/tests/docs", f"{TOP}/tests"]

import blocks  # noqa: E402
import checks  # noqa: E402
import links  # noqa: E402
import redis_page  # noqa: E402
import page  # noqa: E402
import sketches  # noqa: E402

MIRROR = os.environ.get("DEBIAN_MIRROR", "http://deb.debian.org/debian")
TOOLS = "gcc libc6-dev pkgconf cmake make"
ROWS = "ok\nok\nrows 1 a 5 5 5\n"
CLUSTER = "/usr/lib/postgresql/15/bin/pg_ctl -D /etc/postgresql/15/main -w"
RUST_PROGRAM = """mount -t proc proc /proc  # rustc finds its libraries by it
trap "umount /proc" EXIT
mkdir -p renamed/src
mv main.rs renamed/src
cat >renamed/Cargo.toml <<end
[package]
name = "renamed"
version = "0.1.0"
edition = "2021"
[dependencies]
datasketches = {{ package = "datasketches-rattle", path = "{path}" }}
end
cargo run --quiet --offline --manifest-path renamed/Cargo.toml
"""
STATIC = "target_link_libraries(example_static datasketches::datasketches_static)"


def read(path):
    with open(path, encoding="utf-8") as file:
        return file.read()


def install_blocks(page):
    """Returns the indented blocks of a page's section 'Install'."""
    section = re.search(r"^## Install\n(.*?)(?=^## |\Z)", read(f"{TOP}/{page}"), re.MULTILINE | re.DOTALL)[1]
    found = re.findall(r"(?:^    .*\n)+", section, re.MULTILINE)
    return [re.sub("^    ", "", block, flags=re.MULTILINE) for block in found]


class Tests(checks.Checks):
    def __init__(self, work):
        super().__init__(work)
        self.root = f"{work}/root"

    def start_root(self):
        """Starts to make the root of a fresh Debian, of the release that runs here."""
        suite = platform.freedesktop_os_release()["VERSION_CODENAME"]
        env = {"PATH": "/usr/sbin:/usr/bin:/sbin:/bin", "LANG": "C.UTF-8"}
        with open(f"{self.work}/debootstrap.log", "w", encoding="utf-8") as log:
            return subprocess.Popen(["debootstrap", "--variant=minbase", suite, self.root, MIRROR], stdout=log,
                                    stderr=subprocess.STDOUT, env=env)

    def run(self, script, folder="/release", **settings):
        """Runs lines of a shell in the root, which ends at the first that fails. Returns its output, or None."""
        env = {"PATH": "/usr/sbin:/usr/bin:/sbin:/bin", "LANG": "C.UTF-8", "HOME": "/root", "DEBIAN_FRONTEND": "noninteractive"}
        ran = subprocess.run(["chroot", self.root, "/bin/bash", "-euo", "pipefail", "-c", f"cd '{folder}'\n{script}"],
                             env={**env, **settings}, stdin=subprocess.DEVNULL, capture_output=True, text=True, timeout=600)
        if ran.returncode:
            print(f"status {ran.returncode} of: {script}\n{ran.stdout[-2000:]}\n{ran.stderr[-4000:]}")
        return None if ran.returncode else ran.stdout

    def prints(self, name, script, wanted, **settings):
        """Checks that the output of lines of a shell ends with the wanted lines."""
        got = self.run(script, **settings)
        self.check(name, got is not None and got.endswith(wanted) and wanted != "", got)

    def build_twice(self, *programs):
        """Builds from two clones in two folders, with what `build.sh` takes. Returns the folder of the first packages."""
        outs = []
        for name in ["one", "the other/clone"]:
            clone, out = f"{self.work}/{name}", f"{self.work}/{name} built"
            subprocess.run(["git", "clone", "-q", TOP, clone], check=True)
            subprocess.run(["bash", f"{clone}/release/build.sh", out, *programs], check=True,
                           stdout=subprocess.DEVNULL if outs else None)
            outs.append(out)
        names = sorted(os.listdir(outs[0]))
        self.check("the packages", len(names) == 10 and names == sorted(os.listdir(outs[1])), names)
        for name in names:
            self.check(f"two builds of {name}", filecmp.cmp(f"{outs[0]}/{name}", f"{outs[1]}/{name}", shallow=False))
        sums = subprocess.run(["sha256sum", "--strict", "-c", "SHA256SUMS"], cwd=outs[0], capture_output=True, text=True)
        self.check("the checksums", sums.returncode == 0 and sums.stdout.count(": OK\n") == 9, sums)
        packages = glob.glob(f"{outs[0]}/*.deb")
        lint = subprocess.run(["lintian", "--allow-root", "--fail-on", "error,warning", *packages], capture_output=True,
                              text=True)
        self.check("lintian", lint.returncode == 0, lint.stdout + lint.stderr)
        return outs[0]

    def compiled(self, built):
        """The compiled C has the stack protector, and the package of the library lists the symbols that it exports."""
        files = f"{self.work}/files"
        for package in glob.glob(f"{built}/*.deb"):
            subprocess.run(["dpkg-deb", "-x", package, files], check=True)
        objects = [it for it in glob.glob(f"{files}/usr/lib/**/*.so*", recursive=True) if not os.path.islink(it)]
        self.check("the library, the modules and the extension", len(objects) == 4, objects)
        for it in objects:
            needs = subprocess.run(["nm", "-D", "-u", it], check=True, capture_output=True, text=True).stdout
            self.check(f"{os.path.basename(it)} has the stack protector", "__stack_chk_fail" in needs, needs)
        library = next(it for it in objects if "libdatasketches.so" in it)
        exported = subprocess.run(["nm", "-D", "--defined-only", library], check=True, capture_output=True, text=True).stdout
        listed = subprocess.run(["dpkg-deb", "-I", *glob.glob(f"{built}/libdatasketches0_*.deb"), "symbols"],
                                capture_output=True, text=True)
        self.check("the symbols of the library", set(re.findall(r" (ds_\w+)@DATASKETCHES_0 0\.3\.0\n", listed.stdout))
                   == set(re.findall(r" (ds_\w+)@", exported)) != set(), listed)

    def pages(self, built):
        """Each link of the shipped pages leads to a shipped file, in the packages and in the tarball."""
        files = f"{self.work}/files"
        tarball = glob.glob(f"{built}/*.tar.gz")[0]
        subprocess.run(["tar", "xf", tarball, "-C", files, "--transform", "s,^[^/]*,tarball,"], check=True)
        for top, one in [("usr/share/doc", "libdatasketches-dev/README.md"), ("tarball", "README.md")]:
            folder = f"{files}/{top}"
            listed = [os.path.relpath(it, folder) for it in glob.glob(f"{folder}/**/*.md", recursive=True)]
            self.check(f"pages below {top}", one in listed)
            links.check(self, folder, listed)
        with zipfile.ZipFile(*glob.glob(f"{built}/*.whl")) as wheel:
            text = wheel.read(next(it for it in wheel.namelist() if it.endswith("/METADATA"))).decode()
        self.check("the page in the wheel has no links to files", "## Install" in text and not re.search(r"\]\((?![a-z]+:)", text), text)

    def removed(self, *names):
        """Removes Debian packages, and checks that nothing of them is left."""
        self.run(f"apt-get purge {' '.join(names)}")
        self.nothing_left(f"after {names[0]}")

    def nothing_left(self, name):
        names = ["*datasketches*", "*sketches[_-]rattle*", "*rattle_sketches*", "sketches", "sketches.*", "_sketches"]
        found = " -o ".join(f"-name '{it}'" for it in names)
        left = self.run(f"find / -xdev \\( {found} \\) -not -path '/release*' -not -path '/proc/*'; ldconfig -p | "
                        "grep datasketches || true")
        self.check(f"nothing is left {name}", left == "", left)

    def tools(self):
        command, wanted = blocks.transcripts(read(f"{TOP}/README.md"))[0]
        self.prints("README.md: the program", install_blocks("README.md")[0] + command, wanted)
        page = self.run("zcat /usr/share/man/man1/datasketches_cli.1.gz")
        self.check("the example of the manual", page is not None and ROWS in page)
        sketches.check(self)
        self.removed("datasketches-tools")

    def libraries(self):
        example = read(f"{TOP}/bindings/c/example.c")
        wanted = "".join(f"{line}\n" for line in re.findall(r"^ \*     (?!\$)(.*)$", example, re.MULTILINE))
        self.run(f"apt-get install {TOOLS}")
        shell, cmake = install_blocks("bindings/c/README.md")[:2]
        self.prints("bindings/c/README.md: pkg-config", shell, wanted)
        lists = ("cmake_minimum_required(VERSION 3.18)\nproject(example C)\nadd_executable(example example.c)\n"
                 f"add_executable(example_static example.c)\n{cmake}{STATIC}\n")
        project = "/release/a project"
        os.mkdir(self.root + project)
        for name, text in [("example.c", example), ("CMakeLists.txt", lists)]:
            with open(f"{self.root}{project}/{name}", "w", encoding="utf-8") as file:
                file.write(text)
        of_cmake = "cmake -B {0} . >/dev/null\ncmake --build {0} >/dev/null\nprintf 'to be or not to be' | {0}/{1}"
        for target in ["example", "example_static"]:
            self.prints(f"bindings/c/README.md: CMake, {target}", of_cmake.format("built", target), wanted, folder=project)
        links = "ldd built/example | grep -c libdatasketches.so.0; ldd built/example_static | grep -c datasketches || true"
        self.prints("what CMake links", links, "1\n0\n", folder=project)
        self.removed("libdatasketches-dev", "libdatasketches0")
        shell = install_blocks("release/README.md")
        files = "/release/any folder"
        os.mkdir(self.root + files)
        shutil.copy(glob.glob(f"{self.root}/release/*.tar.gz")[0], self.root + files)
        self.prints("release/README.md: the programs", shell[0], "# error 0 of 3\n2\t2\ta\n1\t1\tb\n" + ROWS, folder=files)
        self.prints("release/README.md: pkg-config", shell[1], wanted, folder=files)
        folder = self.run("ls -d datasketches-*/", folder=files).strip()
        for target in ["example", "example_static"]:
            self.prints(f"release/README.md: CMake, {target}", of_cmake.format("moved", target), wanted, folder=project,
                        CMAKE_PREFIX_PATH=f"{files}/{folder}")
        self.run("apt-get install cargo")
        shutil.copy(f"{TOP}/bindings/rust/tests/published/program.rs", f"{self.root}/release/main.rs")
        self.prints("the crate of the tarball", RUST_PROGRAM.format(path=f"{files}/{folder}rust"), "the program ran\n")
        self.check("licences of the files", {"LICENSE", "NOTICE"} < set(os.listdir(f"{self.root}{files}/{folder}")))
        self.nothing_left("beside the folder")

    def postgresql(self):
        """Debian's server with the extension runs the queries of the page. It listens on a unix socket alone."""
        shell = install_blocks("bindings/postgresql/README.md")
        start = f"su postgres -c \"{CLUSTER} -l /tmp/log -o '-c listen_addresses=' start\""
        self.run("apt-get install postgresql-15")
        self.check("the extension is installed", self.run(shell[0]) is not None)
        self.check("the server starts", self.run(start) is not None)
        try:
            self.prints("bindings/postgresql/README.md: the extension", shell[1], "CREATE EXTENSION\n")
            for number, (query, wanted) in enumerate(page.examples(), 1):
                self.write("query.sql", query)
                got = self.run("su postgres -c 'psql -X -q -v ON_ERROR_STOP=1 -f /release/query.sql'")
                self.check(f"bindings/postgresql/README.md, query {number}", got is not None and page.output_of(got) == wanted, got)
        finally:
            self.run(f"su postgres -c '{CLUSTER} -m immediate stop'")
        self.removed("postgresql-15-sketches-rattle")

    def redis(self):
        """Debian's server with the module runs the commands of the page. It listens on a unix socket alone."""
        self.run("apt-get install redis-server")
        install = install_blocks("bindings/redis/README.md")[0].splitlines()
        for line in install[:2]:  # the third starts the server of the system, which nothing here has
            self.check(f"bindings/redis/README.md: {line}", self.run(line) is not None)
        line = self.run("grep -h ^loadmodule /etc/redis/redis.conf /usr/share/doc/redis-sketches-rattle/examples/redis.conf")
        self.check("the line for redis.conf", line is not None and len(line.splitlines()) == 2 and len(set(line.splitlines())) == 1, line)
        start = ("su redis -s /bin/sh -c '/usr/bin/redis-server /etc/redis/redis.conf --port 0 --unixsocket /tmp/redis.socket "
                 "--save \"\" --dir /tmp --pidfile /tmp/redis.pid --logfile /tmp/redis.log --daemonize yes'; "
                 "for i in $(seq 100); do redis-cli -s /tmp/redis.socket ping 2>/dev/null && break; sleep 0.1; done")
        self.prints("the server starts with the module", start, "PONG\n")

        def commands(command):
            self.write("command", command + "\n")
            return self.run("redis-cli --no-raw -s /tmp/redis.socket </release/command") or ""
        wrong = redis_page.run_examples(commands)
        self.check("bindings/redis/README.md: the commands", not wrong, wrong)
        self.run("redis-cli -s /tmp/redis.socket shutdown nosave || true")
        self.run("sed -i '/^loadmodule/d' /etc/redis/redis.conf")
        self.removed("redis-sketches-rattle")

    def write(self, name, text):
        with open(f"{self.root}/release/{name}", "w", encoding="utf-8") as file:
            file.write(text)

    def python(self):
        version = read(f"{TOP}/VERSION")
        debian, wheel = install_blocks("bindings/python/README.md")[:2]
        shutil.copy(f"{TOP}/bindings/python/README.md", f"{self.root}/release/page.md")
        page = "import doctest; print(doctest.testfile('/release/page.md', module_relative=False))"
        tried = re.compile(r"TestResults\(failed=0, attempted=[1-9]\d+\)\n")
        said = ("import datasketches_rattle as ds, importlib.metadata as of; "
                "print(of.version('datasketches-rattle')); print(ds.__version__)")
        for name, lines, python in [("Debian", debian, "python3"), ("wheel", wheel, "venv/bin/python")]:
            if name == "wheel":
                self.run("apt-get install python3-venv")
            self.prints(f"bindings/python/README.md: {name}", lines, "True False\n", PIP_NO_INDEX="1")
            got = self.run(f"{python} -c \"{page}\"")
            self.check(f"examples of bindings/python/README.md: {name}", got is not None and tried.fullmatch(got), got)
            self.prints(f"the version: {name}", f"{python} -c \"{said}\"", version * 2)
            if name == "Debian":
                self.removed("python3-datasketches-rattle")
            else:
                self.run("venv/bin/pip uninstall -y datasketches-rattle")
                left = self.run("find venv -name '*datasketches*'")
                self.check("nothing is left of the wheel", left == "", left)


def main():
    words = sys.argv[1:]
    program, archive, packed = [os.path.abspath(word) for word in words]
    if os.geteuid() != 0:
        print("failed: the packages are tested as root alone\n0 passed, 1 failed")
        sys.exit(1)
    with tempfile.TemporaryDirectory() as work:
        tests = Tests(work)
        making = tests.start_root()
        built = tests.build_twice(archive, program, packed)
        tests.compiled(built)
        tests.pages(built)
        made = making.wait(timeout=600)
        tests.check("debootstrap", made == 0, read(f"{work}/debootstrap.log")[-2000:])
        if made == 0:
            shutil.copytree(built, f"{tests.root}/release")
            for path, text in [("apt/apt.conf.d/assume", 'APT::Get::Assume-Yes "true";\nAPT::Install-Recommends "false";\n'),
                               ("dpkg/dpkg.cfg.d/quick", "force-unsafe-io\n"),
                               ("../usr/sbin/policy-rc.d", "#!/bin/sh\nexit 101\n")]:  # no package starts a server
                with open(f"{tests.root}/etc/{path}", "w", encoding="utf-8") as file:
                    file.write(text)
            os.chmod(f"{tests.root}/usr/sbin/policy-rc.d", 0o755)
            tests.check("there is no toolchain", tests.run("! command -v rt && ! command -v cc && ! command -v python3") == "")
            tests.tools()
            tests.postgresql()
            tests.redis()
            tests.python()
            tests.libraries()
        tests.end()


main()
