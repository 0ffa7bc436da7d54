"""Tests the C library. The header is compared with the sources and the built archive. The calls are made from C: plainly, with
the address sanitizer, under valgrind, with allocations that fail or are counted, and compared with the program line by line. The
header for C++ is tested with each compiler that is there, in C++17 and C++20, with exceptions and without.

    python3 bindings/c/tests/run.py crates/datasketches_cli/out/datasketches_cli [ARCHIVE]

prints a line for each test that failed and then 'N passed, M failed'.
"""
import ctypes
import glob
import itertools
import os
import random
import re
import shlex
import shutil
import subprocess
import sys
import tempfile

from interface import C, CHOICES, CRATE, HERE, INTERNAL, TOP, by_choice, declared, exported, functions, global_names, in_c_sources
from interface import items_of_strings, members_in_header, members_in_sources, needs_check, read, typed, types, wanted_typed
from typed_names import compare

sys.path[:0] = [f"{TOP}/tests/cli", f"{TOP}/tests"]

import checks  # noqa: E402
import loads  # noqa: E402
import tables  # noqa: E402

COMPILER = next(name for name in [os.environ.get("CC", "cc"), "gcc", "clang"] if shutil.which(name))
CPP_COMPILERS = [name for name in ["g++", "clang++"] if shutil.which(name)]
WARNINGS = ["-Wall", "-Wextra", "-Wpedantic", "-Werror"]
STRICT = ["-std=c11", *WARNINGS]
SANITIZED = ["-g", "-O0", "-fsanitize=address,undefined", "-fno-sanitize-recover=all"]
NO_EXCEPTIONS = ["-fno-exceptions", "-DDATASKETCHES_NO_EXCEPTIONS"]

# The key of tables under which the program runs where it is compared: the 16 bytes of the key in the C tests.
TABLE_KEY = {"DATASKETCHES_TABLE_KEY": bytes(range(16)).hex()}

# The constant of each kind of the sources.
KINDS = {"Filter": "BLOOM", "CountU64": "COUNT_MIN_U64", "CountI64": "COUNT_MIN_I64", "FrequentU64": "FREQUENT_ITEMS_U64"}
KINDS |= {"FrequentI64": "FREQUENT_ITEMS_I64", "FrequentStrings": "FREQUENT_ITEMS_STRING"}

# The start of a function in C++, in which each line of `NOT_CPP` does not compile: the line, the compiler's message, and flags.
CPP_BEFORE = """#include <datasketches.hpp>
#include <list>
using namespace datasketches;
void function(bloom_filter &filter, count_min_sketch<std::uint64_t> &counts, count_min_sketch<std::int64_t> &with_sign,
              frequent_items<std::string> &heavy, frequent_items<std::uint64_t> &numbers)
{
    const std::vector<std::string> words{"a", "b"};
    const std::vector<std::uint64_t> items{1, 2};
    std::vector<bool> bits(2);
    const std::array<bool, 2> fixed{};
    (void)filter, (void)counts, (void)with_sign, (void)heavy, (void)numbers, (void)bits, (void)fixed;
"""
NOT_CPP = [
    *[(f"auto copy({name});", "deleted", []) for name in ["filter", "counts", "with_sign", "heavy", "numbers"]],
    *[(f"std::remove_reference_t<decltype({name})> copy; copy = {name};", "deleted", [])
      for name in ["filter", "counts", "heavy"]],
    ("bloom_filter filters[2] = {filter, filter};", "deleted", []),
    ("auto report = heavy.rows(error_type::no_false_positives); auto copy = report;", "deleted", []),
    ("counts = with_sign;", "no (match|viable)", []),
    ("counts.merge(with_sign);", "cannot convert|no matching|non-const lvalue reference", []),
    ("filter.merge_all(std::vector<count_min_sketch<std::uint64_t>>());", "of the type of this sketch", []),
    ("filter.merge_all(std::list<bloom_filter>());", "a contiguous range", []),
    ("const std::vector<bloom_filter> filters; filter.merge_all(filters);", "are not const", []),
    ("heavy.equal(heavy);", "no member", []),
    ("(void)(heavy == heavy);", "no match|invalid operands", []),
    ("counts.set_sample_size(4);", "no member", []),
    ("count_min_sketch<int> sketch;", "weights of count_min_sketch are std::int64_t or std::uint64_t", []),
    ("count_min_sketch<double> sketch;", "weights of count_min_sketch are std::int64_t or std::uint64_t", []),
    ("frequent_items<int> sketch(64);", "items of frequent_items are std::string, std::int64_t or std::uint64_t", []),
    ("frequent_items<std::string_view> sketch(64);", "items of frequent_items are std::string", []),
    ("frequent_items<std::string> sketch = 64;", "conversion", []),
    ('counts.update("a", -1);', "a weight is of an integer type", []),
    ('counts.update("a", 1.5);', "a weight is of an integer type", []),
    ('with_sign.update("a", std::uint64_t{1});', "a weight is of an integer type", []),
    ('heavy.update("a", 2);', "a weight is of an integer type", []),
    ("counts.update_all(words, std::vector<int>{1, 2});", "of the type of this sketch", []),
    ("with_sign.update_all(words, items);", "of the type of this sketch", []),
    ("counts.update_all(words, std::list<std::uint64_t>{1, 2});", "a contiguous range", []),
    ("filter.insert(true);", "an item is a string, or an integer", []),
    ("filter.insert('a');", "an item is a string, or an integer", []),
    ("filter.insert(1.5);", "an item is a string, or an integer", []),
    ("filter.insert(nullptr);", "an item is a string, or an integer", []),
    ("filter.insert(words);", "an item is a string, or an integer", []),
    ('filter.insert_all(std::string("abc"));', "an item is a string, or an integer", []),
    ("filter.insert_all(7);", "items are a range", []),
    ("heavy.update(1);", "converts to std::string_view", []),
    ("numbers.update(-1);", "an item of frequent_items is of an integer type", []),
    ('numbers.update("a");', "an item of frequent_items is of an integer type", []),
    ("numbers.update_all(words);", "an item of frequent_items is of an integer type", []),
    ('numbers.update_all(offset_strings("", items.data(), 1));', "an item of frequent_items is of an integer type", []),
    ('numbers.update_all(datasketches::words("a b"));', "an item of frequent_items is of an integer type", []),
    ('numbers.bounds_all(datasketches::lines("a b"));', "an item of frequent_items is of an integer type", []),
    ("numbers.update_all(std::vector<ds_string>());", "an item of frequent_items is of an integer type", []),
    ("heavy.update_all(items);", "converts to std::string_view", []),
    ("offset_strings(words[0], std::array<std::uint16_t, 1>{}.data(), 1);", "offsets are integers of 32 or 64 bits", []),
    ("numbers.update_all(with_validity(std::vector<std::int64_t>(1), nullptr));", "an item of frequent_items is of an", []),
    ("heavy.bounds_all(with_validity(items, nullptr));", "converts to std::string_view", []),
    ("filter.insert_all(with_validity(words, nullptr));", "rows are offset_strings, or integers of 64 bits", []),
    ("filter.insert_all(with_validity(std::vector<std::uint32_t>(1), nullptr));", "rows are offset_strings, or integers", []),
    ("filter.insert_all(ds_items_u64(items.data(), 2));", "items are a range", []),
    ("filter.contains_all(words, bits);", "a contiguous range", []),
    ("filter.contains_all(words, fixed);", "are not const", []),
    ("counts.estimate_all(words, std::array<int, 2>());", "of the type of this sketch", []),
    ("with_sign.halve();", "only weights in std::uint64_t are halved", []),
    ("with_sign.decay(1, 2);", "only weights in std::uint64_t decay", []),
    ("filter.contains_and_insert(true);", "an item is a string, or an integer", []),
    ("filter.contains_and_insert_all(words, bits);", "a contiguous range", []),
    ("auto share(filter.share()); auto copy = share;", "deleted", []),
    ("bloom_filter_image image(std::vector<std::uint8_t>(40));", "no matching", []),
    ("count_min_image<std::uint64_t> image(std::array<std::uint8_t, 40>{});", "no matching", []),
    ("count_min_image<int> image(nullptr, 0);", "weights of count_min_image are std::int64_t or std::uint64_t", []),
    ("filter.insert(1);", "nodiscard|unused", NO_EXCEPTIONS),
    ("if (filter.contains(1)) return;", "convert|bool", NO_EXCEPTIONS),
    ("bloom_filter made(64, 1);", "no matching", NO_EXCEPTIONS),
    ("(void)(filter == filter);", "no match|invalid operands", NO_EXCEPTIONS),
]


class Tests(checks.Checks):
    def __init__(self, program, archive, work):
        super().__init__(work)
        self.program = program
        self.built = os.path.join(work, "built")
        self.archive = archive[0] if archive else f"{CRATE}/out/libdatasketches_c.a"
        subprocess.run(["bash", f"{C}/build.sh", self.built, *archive], check=True)

    def compile(self, source, *flags, static=True, libraries=None):
        """Compiles a source with the static library, the shared object, or other libraries. Returns the program's path."""
        out = os.path.join(self.work, f"{os.path.basename(source)[:-2]}{len(os.listdir(self.work))}")
        libraries = libraries or ([f"{self.built}/libdatasketches.a"] if static else ["-L", self.built, "-ldatasketches"])
        command = [COMPILER, *STRICT, *flags, "-I", f"{C}/include", source, "-o", out, *libraries, "-lpthread"]
        subprocess.run(command, check=True)
        return out

    def run(self, command, lines=b"", **settings):
        env = {"PATH": "/usr/bin:/bin", "LD_LIBRARY_PATH": self.built, **settings}
        return subprocess.run(command, input=lines, capture_output=True, env=env, timeout=300)

    def header(self):
        """Compares prototypes with exports, and the header's error numbers, names and strings with the sources."""
        sources, prototypes, in_c = exported(), declared(), in_c_sources()
        header, by_type = types(prototypes), typed()
        called = {name: form for name, form in sources.items() if name not in INTERNAL}
        calls = called | in_c
        self.check("there are exports", len(sources) > 30 and len(calls) == len(called) + len(in_c))
        self.check("there are internal exports", INTERNAL <= set(sources))
        self.check("there are calls in C", {"ds_free", "ds_deserialize", "ds_frequent_items_new", "ds_result_name"} <= set(in_c), in_c)
        for name, form in types(functions(f"{C}/src/proved.h", ";")).items():
            self.check(f"the prototype of {name}", sources.get(name) == form, (sources.get(name), form))
        for name in sorted(calls | header):
            self.check(f"the prototype of {name}", calls.get(name) == header.get(name), (calls.get(name), header.get(name)))
        wanted = wanted_typed(prototypes)
        self.check("there are functions by type", len(wanted) == 54, len(wanted))
        for name in sorted(wanted | by_type):
            self.check(f"the function {name}", by_type.get(name) == wanted.get(name), (by_type.get(name), wanted.get(name)))
        self.check("the functions by choice", by_choice() == CHOICES, by_choice())
        of_library = set(calls) | set(by_type) | set(CHOICES)
        for path, flags, wanted in [(self.archive, [], set(sources)), (f"{self.built}/libdatasketches.a", [], of_library),
                                    (f"{self.built}/libdatasketches.so", ["-D"], of_library)]:
            names = global_names(path, *flags)
            self.check(f"what {os.path.basename(path)} exports", names - {"DATASKETCHES_0"} == wanted, names ^ wanted)
        checked = re.findall(r"^#define (ds_\w+)\(\.\.\.\)(?: \\\n   )? ds_check_\w+\((\w+), __VA_ARGS__\)$",
                             read(f"{C}/include/datasketches_checks.h"), re.MULTILINE)
        needed = {name for name, (_, kinds) in header.items() if needs_check(kinds)}
        self.check("the calls with checks", {name for name, _ in checked} == needed, {name for name, _ in checked} ^ needed)
        self.check("each check makes its call", all(name == made for name, made in checked) and len(checked) == len(needed))
        numbers = re.findall(r"Fault::(\w+) => (-\d+)", read(f"{CRATE}/src/status_code.rt"))
        texts = dict(re.findall(r'fault\.\w+ = \(codes "(\w+)", codes "(.*)"\)',
                                read(f"{TOP}/crates/sketch_base/specs/Faults.antt")))
        errors = tables.errors()
        of_header = [(name, number) for number, _, name, _ in errors]
        self.check("the numbers of errors", of_header == numbers, set(of_header) ^ set(numbers))
        messages = {name: text for _, _, name, text in errors}
        self.check("the messages of errors", messages == texts, messages.items() ^ texts.items())
        for _, constant, name, _ in errors:
            self.check(f"the constant of {name}", constant.replace("_", "") == f"DS{name.upper()}")
        others = re.findall(r"pub const (\w+): i32 = (-?\d+);", read(f"{CRATE}/src/status_code.rt"))
        constants = re.findall(r"DS_(\w+) = (-?\d+)", read(f"{C}/include/datasketches.h"))
        of_c = {("NO_RANDOM", "-7")}
        kinds = re.findall(r"^ +(\d) => Some\(Kind::(\w+)\),$", read(f"{TOP}/crates/any_sketch/src/kind.rt"), re.MULTILINE)
        of_kinds = [(KINDS.get(name), number) for number, name in kinds]
        for word in ["Item", "Items"]:
            text = read(f"{CRATE}/src/{word.lower()}_argument.rt")
            kinds = re.findall(rf"^ +(\d) => Some\({word}Kind::(\w+)\),$", text, re.MULTILINE)
            of_kinds += [(f"{word}_{name}".upper(), number) for number, name in kinds]
        of_kinds += [("FIELDS_WORDS", "0"), ("FIELDS_DELIMITED", "1"), ("FIELDS_CSV", "2")]
        for file, choice in [("joins", "Join"), ("chunks", "Chunk"), ("sizes", "Size")]:
            rows = re.findall(rf"^ +(\d) => Some\({choice}::(\w+)\),$", read(f"{CRATE}/src/{file}.rt"), re.MULTILINE)
            of_kinds += [(re.sub(r"(?<!^)(?=[A-Z])", "_", f"{choice}{name}").upper(), number) for number, name in rows]
        self.check("the kinds and choices", len(of_kinds) == 34 and set(of_kinds) <= set(constants), (of_kinds, constants))
        numbered = re.findall(r"^ +(\d+) => Some\(Number::(\w+)\),$", read(f"{CRATE}/src/sketch_calls.rt"), re.MULTILINE)
        rows = [(member.replace("_", ""), number) for number, _, _, member, _ in tables.numbers()]
        numbered = [(name.lower(), number) for number, name in numbered]
        self.check("the numbers of sketches", rows == numbered, set(rows) ^ set(numbered))
        for _, constant, _, member, _ in tables.numbers():
            self.check(f"the constant of {member}", constant == f"DS_NUMBER_{member.upper()}")
        self.check("no constant twice", len(constants) == len(set(constants)), constants)
        rest = set(constants) - set(of_kinds) - of_c
        self.check("the other results", set(others) == rest, set(others) ^ rest)
        for name, count in [("item", "length"), ("items", "num_{}")]:
            sources = members_in_sources(f"{name}_argument.rt", f"{name.capitalize()}Argument", count)
            header = members_in_header(f"ds_{name}")
            self.check(f"the members of ds_{name}", sources == header, (sources, header))

    def typed_names(self):
        """Compares the functions by type that the library has with their calls, without the headers."""
        compare(self.check, f"{self.built}/libdatasketches.so.0")

    def calls(self, source):
        """Runs a source's checks plainly, with the address sanitizer, and under valgrind."""
        plain = self.compile(source, "-O2", static=False)
        checked = self.compile(source, "-g", "-O1", "-fsanitize=address,undefined", "-fno-sanitize-recover=all")
        valgrind = ["valgrind", "-q", "--leak-check=full", "--show-leak-kinds=all", "--error-exitcode=9"]
        for name, command in [("plainly", [plain]), ("with addresses checked", [checked]), ("under valgrind", [*valgrind, plain])]:
            ran = self.run(command)
            self.check(f"{os.path.basename(source)}, {name}", ran.returncode == 0 and b"checks hold" in ran.stdout, ran)

    def races(self):
        """Looks for races of threads that read one sketch."""
        helgrind = ["valgrind", "-q", "--tool=helgrind", "--error-exitcode=9"]
        ran = self.run([*helgrind, self.compile(f"{HERE}/sharing.c", "-g", "-O1", static=False), "joined"])
        self.check("sharing.c, races", ran.returncode == 0 and b"checks hold" in ran.stdout and not ran.stderr, ran)

    def purges(self):
        """Runs the calls of a caller who learns from errors which counters a purge samples."""
        ran = self.run([self.compile(f"{HERE}/purges.c", "-O2")])
        self.check("purges under a key", ran.returncode == 0 and b"checks hold" in ran.stdout, ran)

    def without_checks(self):
        """Runs the calls of `checks.c` that need no check, with a header that has none."""
        ran = self.run([self.compile(f"{HERE}/checks.c", *SANITIZED, "-DDS_NO_CHECKS")])
        self.check("calls without checks", ran.returncode == 0 and b"checks hold" in ran.stdout, ran)

    def cplusplus(self):
        """Tests the header for C++: what it does, and what does not compile with it."""
        self.check("there is a compiler for C++", bool(CPP_COMPILERS))
        for compiler in CPP_COMPILERS:
            runs = [("C++17", ["-std=c++17", *SANITIZED]), ("C++20", ["-std=c++20", *SANITIZED])]
            runs.append(("C++17 without exceptions", ["-std=c++17", "-O2", *NO_EXCEPTIONS]))
            for (name, flags), source in itertools.product(runs, ["cpp", "cpp_filters", "cpp_images"]):
                out = os.path.join(self.work, f"cpp{len(os.listdir(self.work))}")
                command = [compiler, *WARNINGS, *flags, "-I", f"{C}/include", f"{HERE}/{source}.cpp", "-o", out]
                subprocess.run([*command, f"{self.built}/libdatasketches.a", "-lpthread"], check=True)
                ran = self.run([out])
                self.check(f"{source}.cpp, {name}, {compiler}", ran.returncode == 0 and b"checks hold" in ran.stdout, ran)
            objects = []
            for flags in [["-std=c++17"], ["-std=c++20", *NO_EXCEPTIONS]]:
                objects.append(os.path.join(self.work, f"both{len(os.listdir(self.work))}.o"))
                command = [compiler, *WARNINGS, *SANITIZED, *flags, "-I", f"{C}/include", "-c", f"{HERE}/both.cpp"]
                subprocess.run([*command, "-o", objects[-1]], check=True)
            out = os.path.join(self.work, f"both{len(os.listdir(self.work))}")
            subprocess.run([compiler, *SANITIZED, *objects, f"{self.built}/libdatasketches.a", "-o", out], check=True)
            ran = self.run([out])
            self.check(f"both forms in a program, {compiler}", ran.returncode == 0 and ran.stdout == b"both hold\n", ran)
            self.rejected_by(compiler)

    def rejected_by(self, compiler):
        """Checks that a compiler rejects each line of `NOT_CPP`, and says why, and accepts what they stand in."""
        for line, phrase, flags in [("", "", []), ("", "", NO_EXCEPTIONS), *NOT_CPP]:
            source = os.path.join(self.work, "rejected.cpp")
            with open(source, "w", encoding="utf-8") as it:
                it.write(CPP_BEFORE + line + "\n}\n")
            command = [compiler, "-std=c++17", *WARNINGS, *flags, "-I", f"{C}/include", "-fsyntax-only", source]
            ran = subprocess.run(command, capture_output=True, text=True)
            holds = ran.returncode != 0 and re.search(phrase, ran.stderr) if line else ran.returncode == 0
            self.check(f"{compiler} rejects {line}" if line else f"{compiler} accepts the lines before", holds, ran.stderr)

    def sizes(self):
        checked = self.compile(f"{HERE}/sizes.c", "-g", "-O1", "-fsanitize=address,undefined", "-fno-sanitize-recover=all")
        ran = self.run([checked])
        self.check("sizes", ran.returncode == 0 and b"checks hold" in ran.stdout, ran)

    def allocator(self):
        """Runs the library on an allocator that the program sets."""
        ran = self.run([self.compile(f"{HERE}/allocator.c", *SANITIZED)])
        self.check("an allocator that is set", ran.returncode == 0 and b"checks hold" in ran.stdout, ran)

    def version(self):
        """Compares the version of the library with the repository's."""
        version = read(f"{TOP}/VERSION").strip()
        call = ctypes.CDLL(f"{self.built}/libdatasketches.so.0").ds_version
        call.restype = ctypes.c_char_p
        self.check("ds_version", call() == version.encode(), call())

    def two_libraries(self):
        """Links the static library beside another one that contains the same runtime, at a fixed address and at any."""
        other = os.path.join(self.work, "libother.a")
        names = [word for name in global_names(f"{self.built}/libdatasketches.a")
                 for word in ["--redefine-sym", f"{name}={name.replace('ds_', 'other_', 1)}"]]
        subprocess.run(["objcopy", *names, f"{self.built}/libdatasketches.a", other], check=True)
        for flags in [["-fPIE", "-pie"], ["-fno-pie", "-no-pie"]]:
            ran = self.run([self.compile(f"{HERE}/two.c", *flags, "-Wl,--whole-archive", other, "-Wl,--no-whole-archive")])
            self.check(f"two libraries, {flags[1]}", ran.returncode == 0 and ran.stdout == b"1 1 0\n", ran)

    def keys_drawn(self):
        """Checks which arguments and keys are passed on, also if the system has no random bytes or interrupts the call for them."""
        wraps = [f"-Wl,--wrap={name}" for name in ["getrandom", "open", "ds_new", "ds_read_image"]]
        sources = sorted(glob.glob(f"{C}/src/*.c"))
        ran = self.run([self.compile(f"{HERE}/draws.c", "-O2", *sources, *wraps, libraries=[self.archive])])
        self.check("keys drawn", ran.returncode == 0 and b"checks hold" in ran.stdout, ran)

    def requests_counted(self):
        """Checks the numbers of allocations and of freed blocks, call by call."""
        counts = ["-O2", *[f"-Wl,--wrap={name}" for name in ["malloc", "calloc", "realloc", "free"]]]
        ran = self.run([self.compile(f"{HERE}/requests.c", *counts)])
        self.check("requests counted", ran.returncode == 0 and b"rows hold" in ran.stdout, ran)

    def refused_in_turn(self):
        """Fails the n-th allocation in the n-th run, until no allocation fails in a run. Returns the number of allocations."""
        library = checks.preloaded(self.work)
        program, report = self.compile(f"{HERE}/memory.c", "-O2"), os.path.join(self.work, "report")
        at, refused = 0, 1
        while refused or at == 1:
            ran = self.run([program], LD_PRELOAD=library, REFUSED_REPORT=report, REFUSED_AT=str(at))
            requests, refused, kept, *_ = [int(word) for word in read(report).split()]
            self.check(f"request {at} is refused", ran.returncode == 0 and kept == 0, (ran, kept))
            at, refused = at + 1, refused or at == 0
        self.check("requests were refused", requests > 8 and at > requests, (requests, at))
        return at - 2

    def beside_the_program(self):
        """Compares the replies to known test cases and to ten thousand random lines with the program's replies."""
        replay = self.compile(f"{HERE}/replay.c", "-g", "-O1", "-fsanitize=address,undefined", "-fno-sanitize-recover=all")
        shown = self.run([self.program], "".join(f"{line}\n" for line in loads.SHOWN).encode()).stdout.decode().split()[-1]
        rows = [(line, reply) for line, reply in loads.worked(shown) if is_played(line, reply)]
        lines = "".join(f"{line}\n" for line in loads.SHOWN + [line for line, _ in rows]).encode()
        replies = self.run([replay], lines).stdout.decode().splitlines()[len(loads.SHOWN):]
        self.check("there are known rows", len(rows) > 12)
        for (line, wanted), reply in zip(rows, replies, strict=True):
            self.check(f"known row {line}", reply == wanted, reply)
        lines = "".join(f"{line}\n" for line in by_chance(10_000, shown)).encode()
        wanted, got = (self.run([it], lines, **TABLE_KEY).stdout.splitlines() for it in [self.program, replay])
        unlike = next((it for it in zip(wanted, got) if it[0] != it[1]), "")
        self.check("ten thousand lines", len(wanted) == 10_000 and wanted == got, (len(wanted), len(got), unlike))
        for name in ["Mismatch", "SameName", "WrongKind", "WeightOverflow", "BadFamily", "BadBitCount", "CellAboveTotal",
                     "TooManyActive"]:
            self.check(f"some line is refused for {name}", f"refused {name}".encode() in wanted)
        for word in [b"yes", b"no", b"estimate", b"countu", b"bloom", b"image"]:
            self.check(f"some line gets {word.decode()}", any(reply.startswith(word) for reply in wanted))

    def many_at_once(self):
        """Compares runs of lines on one sketch, whose strings are passed in one call, with the program's replies to each line."""
        batches = self.compile(f"{HERE}/batches.c", "-g", "-O1", "-fsanitize=address,undefined", "-fno-sanitize-recover=all")
        lines = "".join(f"{line}\n" for line in runs_by_chance(6_000)).encode()
        wanted = self.run([self.program], lines, **TABLE_KEY).stdout.splitlines()
        for name, kind in items_of_strings().items():
            got = self.run([batches, kind], lines).stdout.splitlines()
            unlike = next((it for it in zip(wanted, got) if it[0] != it[1]), "")
            same = len(wanted) >= 6_000 and wanted == got
            self.check(f"six thousand lines in runs, {name}", same, (len(wanted), len(got), unlike))
        for word in [b"yes", b"no", b"estimate"]:
            self.check(f"some line in a run gets {word.decode()}", any(reply.startswith(word) for reply in wanted))

    def includes(self, header, *command):
        """Returns whether a source that includes only this header compiles."""
        ran = subprocess.run([*command, "-fsyntax-only", "-"], input=f'#include "{header}"\n', text=True)
        return ran.returncode == 0

    def installed(self):
        """Installs in each way. Builds the page's example with the flags of the pkg-config file, runs it, and uninstalls."""
        version = read(f"{TOP}/VERSION").strip()
        shown = re.findall(r"^ \*     (?!\$)(.*)$", read(f"{C}/example.c"), re.MULTILINE)
        places = [("prefix", "lib", "", []), ("a prefix", "lib/x86 64", "", []), ("moved", "lib", "", ["--relocatable"]),
                  ("usr", "lib/x86_64-linux-gnu", "the root", [])]
        for name, below, root, more in places:
            prefix, root = os.path.join(self.work, "installed", name), os.path.join(self.work, root) if root else ""
            place = ["--prefix", prefix, f"--libdir={below}"] if below != "lib" or more else []
            words = [*place, *more, self.built] if place else [self.built, prefix]
            env = {**os.environ, "DESTDIR": root}
            subprocess.run(["bash", f"{C}/install.sh", *words], check=True, env=env)
            if more:
                prefix = shutil.move(prefix, f"{prefix} away")
            libraries = f"{root}{prefix}/{below}"
            package = read(f"{libraries}/pkgconfig/datasketches.pc")
            flags = " ".join(re.findall(r"^(?:Cflags|Libs): (.*)$", package, re.MULTILINE))
            for variable in ["includedir", "libdir", "prefix"]:
                flags = flags.replace(f"${{{variable}}}", re.search(f"^{variable}=(.*)$", package, re.MULTILINE)[1])
            flags = shlex.split(flags.replace("${pcfiledir}", f"{libraries}/pkgconfig".replace(" ", "\\ ")))
            flags = [flag if more else flag.replace(prefix, root + prefix) for flag in flags]
            self.check(f"the file for pkg-config, {name}", len(flags) == 3 and flags[2] == "-ldatasketches", package)
            example = os.path.join(self.work, "example_installed")
            subprocess.run([COMPILER, *STRICT, f"{C}/example.c", "-o", example, *flags], check=True)
            ran = self.run([example], b"to be or not to be", LD_LIBRARY_PATH=libraries)
            self.check(f"the example, {name}", ran.stdout.decode().splitlines() == shown, ran)
            links = [os.readlink(f"{libraries}/libdatasketches.so{end}") for end in ["", ".0"]]
            self.check(f"links, {name}", links == ["libdatasketches.so.0", f"libdatasketches.so.{version}"], links)
            prefix = os.path.join(self.work, "installed", name)
            if more:
                shutil.move(f"{prefix} away", prefix)
            subprocess.run(["bash", f"{C}/install.sh", "--uninstall", *(place or ["--prefix", prefix])], check=True, env=env)
            left = [file for _, _, files in os.walk(root + prefix) for file in files]
            self.check(f"nothing is left, {name}", os.path.isdir(root + prefix) and left == [], left)
        needed = subprocess.run(["readelf", "-d", example], capture_output=True, text=True, check=True).stdout
        self.check("the name of the shared object", "libdatasketches.so.0" in needed)
        ran = subprocess.run(["bash", f"{C}/install.sh", self.built, prefix, "more"], capture_output=True, text=True)
        self.check("wrong words", ran.returncode == 2 and "usage: install.sh" in ran.stderr, ran)
        self.headers(example)

    def headers(self, example):
        """Compiles each installed header alone in C and C++, and builds and runs the example in C++ with the installed files."""
        prefix = os.path.join(self.work, "installed", "for C++")
        subprocess.run(["bash", f"{C}/install.sh", self.built, prefix], check=True)
        flags = [f"-I{prefix}/include", f"-L{prefix}/lib", "-ldatasketches"]
        headers = [os.path.relpath(path, f"{C}/include") for path in glob.glob(f"{C}/include/**/*.h*", recursive=True)]
        there = [os.path.relpath(f"{folder}/{name}", f"{prefix}/include") for folder, _, names in os.walk(f"{prefix}/include")
                 for name in names]
        self.check("the installed headers", len(headers) > 3 and sorted(headers) == sorted(there), there)
        for name in [it for it in headers if it.endswith(".h")]:
            for more in [[], ["-DDS_NO_CHECKS"], ["-DDS_TYPED=extern"]]:
                command = [COMPILER, "-x", "c", *STRICT, *more]
                self.check(f"{name}, {shlex.join(command)}", self.includes(f"{prefix}/include/{name}", *command))
        for compiler in CPP_COMPILERS:
            for name in headers:
                path = f"{prefix}/include/{name}"
                for flags_of_form in [["-std=c++17"], ["-std=c++20", *NO_EXCEPTIONS]]:
                    command = [compiler, "-x", "c++", *flags_of_form, *WARNINGS]
                    self.check(f"{name}, {shlex.join(command)}", self.includes(path, *command))
            subprocess.run([compiler, "-std=c++17", *WARNINGS, f"{C}/example.cpp", "-o", example, *flags], check=True)
            ran = self.run([example], b"to be or not to be", LD_LIBRARY_PATH=f"{prefix}/lib")
            shown = re.findall(r"^ \*     (?!\$)(.*)$", read(f"{C}/example.cpp"), re.MULTILINE)
            self.check(f"the example with {compiler}", ran.stdout.decode().splitlines() == shown, ran)


def is_played(line, reply):
    """Returns whether `replay.c` supports a test case: one of three kinds, on names that such test cases create."""
    words = line.split()
    if reply.startswith("bad"):
        return False
    if words[0] == "load":
        return words[2] != "counti"
    return words[0] in ("ask", "union", "merge") or words[0] == "status" and words[1] in ("f", "g", "upper", "k")


def by_chance(count, shown):
    """Returns random lines on filters, counts and frequent items, with rejected ones and altered images."""
    chance = random.Random(27)
    filters, counts, frequent = [[f"{kind}{number}" for number in range(9)] for kind in "fcs"]
    lines, images = [], 0
    for name in filters[:8]:
        lines.append(f"bloom {name} {chance.choice([64, 640, 640, 640])} {chance.choice([3, 3, 3, 5])} 9001")
    for name in counts[:5]:
        lines.append(f"countu {name} {chance.choice([3, 3, 4])} 64 9001")
    for name in frequent[:6]:
        lines.append(f"frequent {name} {chance.choice([8, 64, 64])}")
    while len(lines) < count:
        name, other = [chance.choice(filters + counts + frequent) for _ in range(2)]
        item, of_filter = f"item{chance.randrange(300)}", name in filters
        kind = chance.random()
        if kind < 0.3:
            weight = chance.choice([0, 1, 7, 1 << 40, 1 << 63])
            lines.append(f"add {name} {weight} {item}" if of_filter == (kind < 0.01) else f"insert {name} {item}")
        elif kind < 0.6:
            lines.append(f"ask {name} {item}")
        elif kind < 0.75:
            same = next(names for names in [filters, counts, frequent] if name in names)
            other = chance.choice(same) if chance.random() < 0.7 else other
            lines.append(f"{chance.choice(['union', 'intersect', 'difference', 'merge'])} {name} {other}")
        elif kind < 0.8:
            verbs = [f"halve {name}", f"decay {name} {chance.randrange(1, 9)} 9"]
            lines.append(chance.choice(verbs if name in frequent else [*verbs, f"reset {name}"]))
        elif kind < 0.93 or images >= 300:
            lines.append(f"status {chance.choice(filters + counts)}")
        elif kind < 0.97:
            lines += [f"save {name} p{images}", f"image p{images}"]
            images += 1
        else:
            name = f"{name}_{len(lines)}" if len(lines) < 4000 else name
            byte = f"{chance.randrange(256):02x}"
            if name in frequent or name[0] == "s":
                image = loads.altered(loads.AB, chance.choice([0, 1, 2, 3, 4, 5, 8, 16, 24, 32, 40, 44]), byte)
                lines.append(f"load {name} frequent {chance.choice([351, 352, 100000])} {image}")
            elif not of_filter:
                image = loads.altered(loads.UNSIGNED, chance.choice([0, 1, 2, 3, 8, 12, 13, 16, 24, 40]), byte)
                lines.append(f"load {name} countu {chance.choice([31, 32, 100])} 9001 {image}")
            else:
                image = loads.altered(shown, chance.choice([0, 1, 2, 3, 4, 16, 24, 32]), byte)
                lines.append(f"load {name} bloom {chance.choice([7, 8, 100])} {image}")
    return lines[:count]


def runs_by_chance(count):
    """Returns runs of random lines with the same first words, with strings of one to four bytes a character."""
    chance = random.Random(28)
    lines = ["bloom f 6400 5 9001", "bloom g 640 3 1", "countu c 4 64 9001", "countu d 3 16 7", "frequent s 64", "frequent t 8"]
    texts = [chance.choice("aéα€😀") * chance.randrange(1, 4) + str(number) for number in range(200)]
    while len(lines) < count:
        name = chance.choice("fgcdst")
        verb = "ask" if chance.random() < 0.4 else "insert" if name in "fg" else "add"
        weights = [1] if chance.random() < 0.5 else [0, 1, 7, 1 << 40]
        for _ in range(chance.choice([1, 2, 17, 200])):
            text = chance.choice(texts)
            lines.append(f"add {name} {chance.choice(weights)} {text}" if verb == "add" else f"{verb} {name} {text}")
    return lines


def main():
    words = sys.argv[1:]
    with tempfile.TemporaryDirectory() as work:
        tests = Tests(os.path.abspath(words[0]), words[1:], work)
        tests.header()
        tests.typed_names()
        tests.calls(f"{HERE}/calls.c")
        tests.calls(f"{HERE}/item.c")
        tests.calls(f"{HERE}/typed.c")
        tests.calls(f"{HERE}/items.c")
        tests.calls(f"{HERE}/strings.c")
        tests.calls(f"{HERE}/kinds.c")
        tests.calls(f"{HERE}/columns.c")
        tests.calls(f"{HERE}/fed.c")
        tests.calls(f"{HERE}/keys.c")
        tests.calls(f"{HERE}/table_keys.c")
        tests.calls(f"{HERE}/many.c")
        tests.calls(f"{HERE}/images.c")
        tests.calls(f"{HERE}/prefixes.c")
        tests.calls(f"{HERE}/sharing.c")
        tests.races()
        tests.purges()
        tests.calls(f"{HERE}/checks.c")
        tests.without_checks()
        tests.cplusplus()
        tests.sizes()
        tests.allocator()
        tests.version()
        tests.two_libraries()
        tests.keys_drawn()
        tests.requests_counted()
        requests = tests.refused_in_turn()
        tests.beside_the_program()
        tests.many_at_once()
        tests.installed()
        print(f"the library for C: {requests} requests for memory refused in turn")
        tests.end()


main()
