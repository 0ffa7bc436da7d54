"""Tests the crate for Rust with Debian's `cargo` and `rustc`, or those of `CARGO` and `RUSTC`.

    python3 bindings/rust/tests/run.py crates/datasketches_cli/out/datasketches_cli [ARCHIVE]

builds the C library of ARCHIVE, compares the declarations with its header, runs the crate's tests and the examples of its docs,
and most tests again under valgrind. It compiles lines that must not compile, and a program for the published crate. It prints a
line for each test that failed and then 'N passed, M failed'.
"""
import glob
import os
import re
import shutil
import subprocess
import sys
import tempfile

HERE = os.path.dirname(os.path.abspath(__file__))
RUST = os.path.dirname(HERE)
C = os.path.join(os.path.dirname(RUST), "c")
sys.path[:0] = [RUST, f"{os.path.dirname(os.path.dirname(RUST))}/tests"]

import checks  # noqa: E402
import constants  # noqa: E402
import tables  # noqa: E402

CARGO = os.environ.get("CARGO", "/usr/bin/cargo")
RUSTC = os.environ.get("RUSTC", "/usr/bin/rustc")

# The C type of each type of a declaration.
TYPES = {"u8": "uint8_t", "u16": "uint16_t", "u32": "uint32_t", "u64": "uint64_t", "i32": "int32_t", "i64": "int64_t"}
TYPES |= {"usize": "size_t", "c_void": "void", "c_char": "char"}

# Numbers of sketches that no method returns.
LEFT_OUT = {"kind": "the type of the sketch"}

# The start of a function in which each line of `NOT_RUST` does not compile: the line and the numbers of errors that
# the compiler may find.
BEFORE = """#![allow(unused)]
use datasketches_rattle::bloom::*;
use datasketches_rattle::countmin::*;
use datasketches_rattle::frequencies::*;
use datasketches_rattle::items::*;
use datasketches_rattle::*;
fn is_sync<T: Sync>(_: T) {}
fn is_send<T: Send>(_: T) {}
fn function(
    mut filter: BloomFilter, mut counts: CountMinSketch<u64>, mut signed: CountMinSketch<i64>,
    mut heavy: FrequentItemsSketch<String>, mut numbers: FrequentItemsSketch<u64>, shared: Shared<BloomFilter>,
) {
"""
COMPILES = [
    "is_send(filter);", "is_send(counts);", "is_send(heavy);", "is_send(shared.reader().unwrap());", "is_send(shared);",
    "is_sync(shared);", "let image = filter.serialize(); is_sync(BloomFilterView::new(&image).unwrap());",
    "numbers.update_all(&[1u64]).unwrap();", 'heavy.update_all(&words("a b")).unwrap();', "is_sync(Key::new(1, 2));",
    "let copy = signed.clone(); is_send(copy);", "counts.halve();",
]
NOT_RUST = [
    ("is_sync(filter);", "E0277"),
    ("is_sync(counts);", "E0277"),
    ("is_sync(heavy);", "E0277"),
    ("is_sync(shared.reader().unwrap());", "E0277"),
    ("let other = &filter; filter.union(other).unwrap();", "E0502"),
    ("filter.union(&filter).unwrap();", "E0502"),
    ("filter.merge_all(std::slice::from_ref(&filter)).unwrap();", "E0502"),
    ("counts.merge(&counts).unwrap();", "E0502"),
    ("heavy.merge(&heavy);", "E0502"),
    ("let copy: BloomFilter = filter; drop(filter);", "E0382"),
    ("shared.reader().unwrap().insert(1);", "E0596"),
    ("let sketch: BloomFilter = *shared.reader().unwrap();", "E0507"),
    ("counts.merge(&signed).unwrap();", "E0308"),
    ("signed.halve();", "E0599"),
    ("signed.decay(0.5);", "E0599"),
    ("CountMinSketch::<f64>::new(1, 3).unwrap();", "E0277 E0599"),
    ("CountMinSketch::<u128>::new(1, 3).unwrap();", "E0277 E0599"),
    ("FrequentItemsSketch::<u32>::new(8).unwrap();", "E0277 E0599"),
    ("FrequentItemsSketch::<&str>::new(8).unwrap();", "E0277 E0599"),
    ("filter.insert(1.5);", "E0277"),
    ("filter.insert_all(&[1.5]).unwrap();", "E0277"),
    ("filter.insert_all(&7).unwrap();", "E0277"),
    ("numbers.update_all(&[1i64]).unwrap();", "E0271"),
    ('numbers.update_all(&["a"]).unwrap();', "E0271"),
    ("heavy.update_all(&[1u64]).unwrap();", "E0271"),
    ("with_validity(&[1u32], &[1], 0);", "E0277"),
    ('with_validity(&words("a"), &[1], 0);', "E0277"),
    ('heavy.estimate(&1);', "E0277"),
    ("let view = BloomFilterView::new(&filter.serialize()).unwrap(); view.contains(&1);", "E0716"),
    ("let image = vec![0; 9]; let view = BloomFilterView::new(&image).unwrap(); drop(image); view.contains(&1);", "E0505"),
    ("let mut image = [0; 9]; let view = CountMinView::<u64>::new(&image).unwrap(); image[0] = 1; view.estimate(1u64);", "E0506"),
    ("let image = [0; 9]; CountMinView::<u8>::new(&image).unwrap();", "E0277 E0599"),
    ("let image = [0; 9]; CountMinView::<u64>::new(&image).unwrap().estimate(1.5);", "E0277"),
    ("let text = words(&String::new()); filter.insert_all(&text).unwrap();", "E0716"),
    ("struct Mine; impl Sketch for Mine {}", "E0277"),
    ("struct Mine; impl Batch for Mine { type Item = u64; }", "E0277"),
    ("struct Mine; impl CountMinValue for Mine {}", "E0277"),
    ("let handle = filter.0;", "E0616"),
]


def read(path):
    with open(path, encoding="utf-8") as it:
        return it.read()


def write(path, text):
    os.makedirs(os.path.dirname(path), exist_ok=True)
    with open(path, "w", encoding="utf-8") as it:
        it.write(text)


def in_c(kind):
    """Returns the C type of a declaration's type."""
    pointer = re.fullmatch(r"\*(const|mut) (\w+)", kind)
    if not pointer:
        return TYPES.get(kind, kind)
    return ("const " if pointer[1] == "const" else "") + TYPES.get(pointer[2], pointer[2]) + " *"


def declared():
    """Returns the functions and the structures of `sys.rs`."""
    text = read(f"{RUST}/src/sys.rs")
    text += read(f"{RUST}/src/frequencies/row.rs").replace("ItemBounds", "ds_item_bounds")
    calls = {}
    for name, inside, result in re.findall(r"pub fn (\w+)\(([^)]*)\)(?:\s+-> ([^;]+))?;", text):
        kinds = [in_c(it.split(":")[1].strip()) for it in inside.split(",") if it.strip()]
        calls[name] = (in_c(result) if result else "void", kinds)
    structures = {name: [(in_c(kind), member) for member, kind in re.findall(r"pub (\w+): (.*),", inside)]
                  for name, inside in re.findall(r"repr\(C\)\]\npub struct (\w+) \{\n(.*?)\n\}", text, re.DOTALL)}
    return calls, structures


def in_header():
    """Returns the same of the header."""
    text = re.sub(r"/\*.*?\*/", "", read(f"{C}/include/datasketches.h"), flags=re.DOTALL)
    calls = {}
    for result, name, inside in re.findall(r"^(void|\w+_t|const char \*) ?(ds_\w+)\(([^)]*)\);", text, re.MULTILINE):
        kinds = [re.fullmatch(r"\s*(.*?)\w+", it)[1].strip() for it in inside.split(",")]
        calls[name] = (result, [kind for kind in kinds if kind or inside != "void"])
    structures = {name: [(kind.strip(), member) for kind, member in re.findall(r"^    (.*?)(\w+);", inside, re.MULTILINE)]
                  for name, inside in re.findall(r"typedef struct (\w+) \{\n(.*?)\n\}", text, re.DOTALL)}
    return calls, structures


class Tests(checks.Checks):
    def __init__(self, program, archive, work):
        super().__init__(work)
        self.program = program
        self.built, self.target = os.path.join(work, "built"), os.path.join(work, "target")
        subprocess.run(["bash", f"{C}/build.sh", self.built, *archive], check=True)

    def run(self, command, timeout=900, **settings):
        """Runs a command, without the folder of the library unless it is set."""
        env = {"PATH": "/usr/bin:/bin", "HOME": os.environ.get("HOME", self.work), "LANG": "C.UTF-8", "CARGO_TERM_COLOR": "never",
               "RUSTC": RUSTC, "CARGO_TARGET_DIR": self.target, **settings}
        return subprocess.run(command, cwd=RUST, env=env, capture_output=True, text=True, timeout=timeout)

    def cargo(self, *words, **settings):
        return self.run([CARGO, *words, "--offline", "--manifest-path", f"{settings.pop('crate', RUST)}/Cargo.toml"],
                        **{"DATASKETCHES_DIR": self.built, **settings})

    def declarations(self):
        """Compares the declarations and the constants with the header, and looks for numbers of sketches that no method returns."""
        for name, ours, theirs in zip(["call", "structure"], declared(), in_header()):
            self.check(f"there are {name}s", len(ours) >= 7, ours)
            for each, form in ours.items():
                self.check(f"the {name} {each}", theirs.get(each) == form, (form, theirs.get(each)))
        ours, theirs = read(constants.FILE), constants.text()
        self.check("the constants: run bindings/rust/constants.py", ours == theirs, set(ours.splitlines()) ^ set(theirs.splitlines()))
        sources = "".join(read(path) for path in glob.glob(f"{RUST}/src/**/*.rs", recursive=True))
        shown = {name.lower() for name in re.findall(r"sys::DS_NUMBER_(\w+)", sources)}
        tables.check_shown(self.check, shown, LEFT_OUT)

    def crate(self):
        """Runs the crate's tests and the examples of its docs."""
        ran = self.cargo("test", "--no-fail-fast", DATASKETCHES_CLI=self.program)
        counts = re.findall(r"^test result: \w+\. (\d+) passed; (\d+) failed; (\d+) ignored", ran.stdout, re.MULTILINE)
        self.passed += sum(int(passed) for passed, _, _ in counts)
        failed = sum(int(failed) for _, failed, _ in counts)
        if failed or ran.returncode:
            self.failed += max(1, failed)
            print(f"failed: cargo test\n{ran.stdout[-6000:]}\n{ran.stderr[-6000:]}")
        sources = len(glob.glob(f"{HERE}/*.rs"))
        self.check("each file of tests ran", len(counts) == sources + 2 and all(ignored == "0" for _, _, ignored in counts), counts)
        self.check("no warnings", "warning" not in ran.stderr, ran.stderr[-3000:])
        ran = self.cargo("doc")
        self.check("docs", ran.returncode == 0 and "warning" not in ran.stderr, ran.stderr[-3000:])

    def memory(self):
        """Runs the tests but the longest under valgrind: for addresses, values that were not written, and leaks."""
        listed = self.cargo("test", "--no-run", "--message-format=json")
        paths = re.findall(r'"executable":"([^"]+)"', listed.stdout)
        self.check("there are programs of tests", len(paths) == len(glob.glob(f"{HERE}/*.rs")) + 1, paths)
        for path in paths:
            ran = self.run(["valgrind", "-q", "--leak-check=full", "--show-leak-kinds=definite,indirect",
                            "--errors-for-leak-kinds=definite,indirect", "--error-exitcode=9", path, "--test-threads=1",
                            "--skip", "random_calls", "--skip", "derived_and_composed"], DATASKETCHES_CLI=self.program)
            self.check(f"{os.path.basename(path)} under valgrind", ran.returncode == 0, f"{ran.stdout[-2000:]}{ran.stderr[-4000:]}")

    def lines(self):
        """Compiles lines that must compile, and lines that must not."""
        ran = self.cargo("build")
        self.check("the library", ran.returncode == 0, ran.stderr)
        for number, (line, wanted) in enumerate([*[(line, None) for line in COMPILES], *NOT_RUST]):
            source = os.path.join(self.work, f"line{number}.rs")
            write(source, f"{BEFORE}    {line}\n}}\n")
            crate = f"datasketches_rattle={self.target}/debug/libdatasketches_rattle.rlib"
            ran = self.run([RUSTC, "--edition", "2021", "--crate-type", "lib", "--emit", "metadata", "-o", f"{source}.rmeta",
                            "--extern", crate, "-L", self.built, source])
            errors = set(re.findall(r"^error\[(E\d+)\]", ran.stderr, re.MULTILINE))
            holds = ran.returncode == 0 if wanted is None else bool(errors) and errors <= set(wanted.split())
            self.check(f"whether this compiles: {line}", holds, ran.stderr[-1500:])

    def programs(self):
        """Builds a program for the published crate, by each way to the library."""
        crate = os.path.join(self.work, "renamed")
        write(f"{crate}/Cargo.toml", '[package]\nname = "renamed"\nversion = "0.1.0"\nedition = "2021"\n\n[dependencies]\n'
              f'datasketches = {{ package = "datasketches-rattle", path = "{RUST}", features = ["bloom", "countmin"] }}\n')
        os.makedirs(f"{crate}/src")
        shutil.copy(f"{HERE}/published/program.rs", f"{crate}/src/main.rs")
        prefix = os.path.join(self.work, "prefix")
        subprocess.run(["bash", f"{C}/install.sh", "--prefix", prefix, self.built], check=True)
        shared = os.path.join(self.work, "shared")
        os.mkdir(shared)
        for name in ["libdatasketches.so", "libdatasketches.so.0"]:
            shutil.copy(f"{self.built}/{name}", f"{shared}/{name}")
        found = {"PKG_CONFIG_PATH": f"{prefix}/lib/pkgconfig"}
        for name, place, loads in [("a folder", {}, False), ("a prefix", {"DATASKETCHES_DIR": prefix}, False),
                                   ("pkg-config", {"DATASKETCHES_DIR": None, **found}, False),
                                   ("a shared library", {"DATASKETCHES_DIR": shared}, True)]:
            target = os.path.join(self.work, f"target of {name}")
            place = {"DATASKETCHES_DIR": self.built, **place, "CARGO_TARGET_DIR": target}
            place = {key: value for key, value in place.items() if value is not None}
            built = self.run([CARGO, "build", "--offline", "--manifest-path", f"{crate}/Cargo.toml"], **place)
            self.check(f"a program built with {name}", built.returncode == 0, built.stderr[-3000:])
            ran = self.run([f"{target}/debug/renamed"], **({"LD_LIBRARY_PATH": shared} if loads else {}))
            self.check(f"a program run with {name}", (ran.returncode, ran.stdout) == (0, "the program ran\n"), ran)
            needed = subprocess.run(["readelf", "-d", f"{target}/debug/renamed"], capture_output=True, text=True, check=True).stdout
            self.check(f"what is loaded with {name}", ("libdatasketches" in needed) == loads, needed)
        for name, place in [("an empty folder", {"DATASKETCHES_DIR": f"{crate}/src"}), ("none", {"PKG_CONFIG_LIBDIR": crate}),
                            ("no pkg-config", {"PKG_CONFIG": "/nowhere/pkg-config"}),
                            ("static, where there is a shared one", {"DATASKETCHES_DIR": shared, "DATASKETCHES_LINK": "static"}),
                            ("a word for how to link", {"DATASKETCHES_DIR": shared, "DATASKETCHES_LINK": "both"})]:
            built = self.run([CARGO, "build", "--offline"], **{**place, "CARGO_TARGET_DIR": os.path.join(self.work, "none")})
            said = "apt install" in built.stderr and "DATASKETCHES_DIR" in built.stderr
            self.check(f"what is said with {name}", built.returncode != 0 and said, built.stderr)

    def library(self):
        """Links a shared library by choice, whose place a program's build script gets, and rejects a library that is too old. A build
        with many files beside the library does nothing, and a relative folder begins at the program."""
        crate = os.path.join(self.work, "beside")
        write(f"{crate}/Cargo.toml", '[package]\nname = "beside"\nversion = "0.1.0"\nedition = "2021"\nbuild = "build.rs"\n\n'
              f'[dependencies]\ndatasketches-rattle = {{ path = "{RUST}" }}\n')
        page = read(f"{RUST}/README.md")
        line = re.search(r"^println!.*DEP_DATASKETCHES_LIBDIR.*$", page, re.MULTILINE)[0]
        write(f"{crate}/build.rs", f"fn main() {{ {line} }}\n")
        write(f"{crate}/src/main.rs", 'fn main() { println!("{}", datasketches_rattle::version()); }\n')
        folder = f"{crate}/libraries"
        shutil.copytree(self.built, folder, symlinks=True)
        for number in range(1000):
            write(f"{folder}/more/{number}", "")
        target = os.path.join(self.work, "target beside")

        def build(**settings):
            env = {"PATH": "/usr/bin:/bin", "HOME": os.environ.get("HOME", self.work), "RUSTC": RUSTC, "CARGO_TARGET_DIR": target,
                   "CARGO_TERM_COLOR": "never", "PWD": crate, "DATASKETCHES_DIR": "libraries", "DATASKETCHES_LINK": "shared", **settings}
            return subprocess.run([CARGO, "build", "--offline", "-v"], cwd=crate, env=env, capture_output=True, text=True, timeout=300)

        built = build()
        self.check("a relative folder and a choice", built.returncode == 0, built.stderr[-3000:])
        ran = subprocess.run([f"{target}/debug/beside"], capture_output=True, text=True, env={})
        version = read(f"{RUST}/../../VERSION")
        self.check("a shared library by the program's rpath", (ran.returncode, ran.stdout) == (0, version), ran)
        write(f"{folder}/more/0", "changed")
        built = build()
        self.check("a file beside the library builds nothing", "Fresh datasketches-rattle" in built.stderr, built.stderr[-2000:])
        write(f"{crate}/old.c", 'const char *ds_version(void) { return "0.2.9"; }\nvoid ds_update(void) {}\n')
        write(f"{crate}/older.c", 'const char *ds_version(void) { return "0.3.0"; }\n')
        for name, said in [("old", "is version 0.2.9, and not 0.3 or later"), ("older", "has no call ds_update")]:
            os.makedirs(f"{crate}/{name}")
            subprocess.run(["cc", "-shared", "-fPIC", "-o", f"{crate}/{name}/libdatasketches.so", f"{crate}/{name}.c"], check=True)
            built = build(DATASKETCHES_DIR=name)
            self.check(f"an {name} library is rejected", built.returncode != 0 and said in built.stderr, built.stderr[-2000:])

    def form(self):
        """Checks the layout if there is a formatter, and that `unsafe` stands where the page says."""
        formatter = shutil.which("rustfmt")
        if formatter and subprocess.run([formatter, "--version"], capture_output=True, check=False).returncode == 0:
            sources = [f"{RUST}/src/lib.rs", f"{RUST}/build.rs", *glob.glob(f"{HERE}/*.rs")]
            ran = subprocess.run([formatter, "--edition", "2021", "--check", *sources], capture_output=True, text=True, cwd=RUST)
            self.check("the layout", ran.returncode == 0, ran.stdout[-2000:])
        for path in glob.glob(f"{RUST}/src/**/*.rs", recursive=True):
            code = re.sub(r"//.*", "", read(path))
            place = os.path.relpath(path, f"{RUST}/src")
            blocks = len(re.findall(r"\bunsafe\b(?!_op)", code))
            self.check(f"unsafe in {place}", blocks == 0 or place.startswith("handle/"), blocks)
            self.check(f"the length of {place}", len(read(path).splitlines()) <= 600)


def main():
    words = sys.argv[1:]
    with tempfile.TemporaryDirectory() as work:
        tests = Tests(os.path.abspath(words[0]), [os.path.abspath(word) for word in words[1:]], work)
        for step in [tests.declarations, tests.crate, tests.lines, tests.programs, tests.library, tests.form, tests.memory]:
            step()
    tests.end()


main()
