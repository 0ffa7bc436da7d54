"""Checks options, names and messages of `sketches` for `sketches.py`, and what a terminal gets."""
import os
import pty
import resource
import subprocess

ENVIRONMENT = {"PATH": "/usr/bin:/bin", "DATASKETCHES_TABLE_KEY": "plain", "ASAN_OPTIONS": "detect_leaks=0"}


def has_little_memory():
    """Bounds the memory of this process by 64 MiB, so that it cannot hold a long input."""
    resource.setrlimit(resource.RLIMIT_AS, (1 << 26, 1 << 26))


class Messages:
    def __init__(self, tests):
        self.tests = tests
        self.folder = os.path.join(tests.work, "messages")

    def run(self):
        os.mkdir(self.folder)
        self.names()
        self.options()
        self.folders()
        self.too_many_keys()
        self.images()
        self.controls()
        self.outputs()
        self.terminal()

    def check(self, name, holds, said=""):
        self.tests.check(name, holds, said)

    def write(self, name, data):
        with open(os.path.join(self.folder, os.fsdecode(name)), "wb") as file:
            file.write(data)

    def ran(self, *words, data=b"", **how):
        """Runs the program in the folder. Returns its status, and both outputs."""
        how = {"input": data, "stdout": subprocess.PIPE, "stderr": subprocess.PIPE, **how}
        ran = subprocess.run([self.tests.program, *words], cwd=self.folder, env=ENVIRONMENT, timeout=60, **how)
        return ran.returncode, ran.stdout, ran.stderr

    def names(self):
        """A file whose name is not UTF-8 is named, the others are read, and the status is 1. No other value may be like it."""
        self.write("one", b"q\n")
        self.write("x\ufffd", b"other\n")
        self.write("x\\xff", b"other\n")
        said = b"sketches: x\\xff: the name is not UTF-8: read the file by < FILE\n"
        for words, wanted in [(["top"], b"# error 0 of 2\n2\t2\tq\n"), (["uniq", "--no-note"], b"q\n"), (["join", "--no-note", "--keys", "one"], b"q\nq\n"),
                              (["weigh", "--keys", "one"], b"# total 2\n2\tq\n"), (["uniq", "--csv", "-f", "1", "--no-csv-header", "--no-note"], b"q\n")]:
            ran = self.ran(*words, "one", b"x\xff", "one")
            self.check(f"{words} of a name that is not UTF-8", ran == (1, wanted, said), ran)
        ran = self.ran("top", b"x\xff", b"\xe9\n\\")
        more = b"sketches: \\xe9\\x0a\\: the name is not UTF-8: read the file by < FILE\n"
        self.check("two names that are not UTF-8", ran == (1, b"# error 0 of 0\n", said + more), ran)
        stray = b"sketches: x\\xff: a name or value that is not UTF-8\n"
        for words in [["top", "-f", b"x\xff", "one"], ["weigh", "--keys", b"x\xff", "one"], ["show", b"x\xff"], ["merge", "one", b"x\xff"],
                      ["top", "--save", b"x\xff", "one"], ["top", "-f", b"x\xff", b"x\xff"]]:
            ran = self.ran(*words)
            self.check(f"{words}", ran == (2, b"", stray), ran)
        ran = self.ran("top", b"--x\xff", "one")
        self.check("an option that is not UTF-8", ran == (2, b"", b"sketches: an argument is not UTF-8\n"), ran)

    def options(self):
        """The last of a repeated option is taken, and `\\t` is a tab."""
        for words, data, wanted in [
            (["top", "-n", "3", "-n", "1", "--no-header"], b"a\na\nb\n", b"2\t2\ta\n"),
            (["top", "-f", "1", "--json", "-f", "2", "--json"], b"a b\n", b'{"error":0,"total":1}\n{"lower":1,"upper":1,"item":"b"}\n'),
            (["top", "-d", "\\t", "-f", "2"], b"a\tb c\n", b"# error 0 of 1\n1\t1\tb c\n"),
            (["top", "--csv", "--no-csv-header", "-d", "\\t", "-f", "2"], b'a\t"b\tc"\n', b"# error 0 of 1\n1\t1\tb\\tc\n"),
            (["uniq", "-d", "\\t", "-f", "1", "--no-note", "--no-note"], b"a\tb\na\tc\n", b"a\tb\n"),
            (["top", "--no-header", "-", "-"], b"a\n", b"1\t1\ta\n"),
        ]:
            ran = self.ran(*words, data=data)
            self.check(f"{words}", ran == (0, wanted, b""), ran)
        for words in [["-d", "\\n"], ["-d", "\\tt"], ["-d", "\\"], ["-d", "\\t\\t"]]:
            ran = self.ran("top", "-f", "1", *words, data=b"a\\b\n")
            wanted = (0, b"# error 0 of 1\n1\t1\ta\n", b"") if words[1] == "\\" else (2, b"", b"sketches: the delimiter must be one character of ASCII\n")
            self.check(f"{words}", ran == wanted, ran)
        self.write("keys", b"a\n")
        for words, said in [(["--outliers", "1"], b"--outliers must be at least 2"),
                            (["--error", "0.000001%"], b"the sketch for --error and --outliers has 2^30 cells or more: use a larger --error or a smaller --outliers")]:
            ran = self.ran("weigh", *words, "--keys", "keys", data=b"a\n")
            self.check(f"weigh {words}", ran == (2, b"", b"sketches: " + said + b"\n"), ran)

    def folders(self):
        """A folder of keys is an error before the input is read."""
        os.mkdir(os.path.join(self.folder, "folder"))
        for words in [["weigh"], ["join"], ["weigh", "--csv", "-f", "1", "--keys-field", "1"]]:
            reader, writer = os.pipe()
            run = subprocess.run([self.tests.program, *words, "--keys", "folder"], stdin=reader, capture_output=True, cwd=self.folder, env=ENVIRONMENT, timeout=60)
            os.close(reader)
            os.close(writer)
            ran = run.returncode, run.stdout, run.stderr
            said = b"sketches: folder: Is a directory (os error 21)\n"
            self.check(f"{words}: a folder of keys", ran == (2, b"", said), ran)

    def too_many_keys(self):
        """Too many keys are an error before the input is read."""
        self.write("keys", b"a\nb\na\n")
        reader, writer = os.pipe()
        run = subprocess.run([self.tests.program, "weigh", "--max-keys", "1", "--keys", "keys"], stdin=reader, capture_output=True, cwd=self.folder, env=ENVIRONMENT, timeout=60)
        os.close(reader)
        os.close(writer)
        ran = run.returncode, run.stdout, run.stderr
        said = b"sketches: the file of keys has more distinct keys than --max-keys: use a larger one, or --error for estimates\n"
        self.check("weigh: too many keys", ran == (2, b"", said), ran)

    def images(self):
        """An input without end that is no image is not read on."""
        for words in [["show", "/dev/zero"], ["merge", "/dev/zero"]]:
            ran = self.ran(*words, preexec_fn=has_little_memory)
            self.check(f"{words}", ran[:2] == (2, b"") and ran[2].startswith(b"sketches: /dev/zero: BadFamily"), ran)
        for length in [0, 7, 8, 63, 64, 65, 1000, 1 << 20]:
            ran = self.ran("show", "-", data=bytes([4, 1, 99]) + bytes(length))
            self.check(f"show of {length} bytes", ran[:2] == (2, b"") and ran[2].startswith(b"sketches: -: "), ran)

    def controls(self):
        """A message is one line, and has no control characters of names and values."""
        name, shown = b"a\x1b[31m\n\x7f\t\xc2\x9b31m \xc3\xa9", b"a\\x1b[31m\\x0a\\x7f\\x09\\xc2\\x9b31m \xc3\xa9"
        self.write("row", b"a,b\n1,2\n")
        absent = b"No such file or directory (os error 2)"
        self.write(b"bad" + name, b"q w\n")
        for words, status, said in [
            (["top", name], 1, shown + b": " + absent),
            (["uniq", "--no-note", name], 1, shown + b": " + absent),
            (["join", "--keys", name, "row"], 2, shown + b": " + absent),
            (["weigh", "--keys", name, "row"], 2, shown + b": " + absent),
            (["merge", name], 2, shown + b": " + absent),
            (["show", name], 2, shown + b": " + absent),
            (["top", "--save", b"no/" + name, "-n", "0", "--no-header", "row"], 2, b"no/" + shown + b": " + absent),
            (["top", "--csv", "-f", name, "row"], 2, b"row: no column '" + shown + b"'"),
            (["top", "-f", "1", "-w", "2", b"bad" + name], 2, b"bad" + shown + b": line 1: bad weight 'w'"),
            (["top", "--max-line", "1", b"bad" + name], 2, b"bad" + shown + b": a line is longer than --max-line"),
            (["show", b"bad" + name], 2, b"bad" + shown + b": "),
        ]:
            ran = self.ran(*words)
            is_line = ran[2].startswith(b"sketches: " + said) and ran[2].count(b"\n") == 1 and (ran[2].endswith(said + b"\n") or said.endswith(b": "))
            self.check(f"{words}: a name with control characters", ran[0] == status and is_line, ran)
        for words in [["top", "--size", name], ["top", b"--" + name], [name], ["weigh", name], ["top", "-n", b"1" + name]]:
            ran = self.ran(*words)
            self.check(f"{words}: a value with control characters", ran[0] == 2 and all(byte >= 32 or byte == 10 for byte in ran[2]) and b"\xc2\x9b" not in ran[2], ran)
        ran = self.ran("top", "--size", name)
        self.check("the value is shown", b"'" + shown + b"'" in ran[2], ran)

    def outputs(self):
        """Texts that are asked for are written, or the status says that they are not."""
        for words in [["--help"], ["--version"], ["top", "--help"]]:
            with open("/dev/full", "wb") as full:
                ran = self.ran(*words, stdout=full)
            self.check(f"{words} and a full device", (ran[0], ran[2]) == (2, b"sketches: output: No space left on device (os error 28)\n"), ran)
            reader, writer = os.pipe()
            os.close(reader)
            ran = self.ran(*words, stdout=writer)
            os.close(writer)
            self.check(f"{words} and a closed pipe", (ran[0], ran[2]) == (0, b""), ran)

    def on_terminal(self, *words):
        """Returns what a terminal gets, whose driver writes a carriage return before a line feed."""
        leader, follower = pty.openpty()
        run = subprocess.Popen([self.tests.program, *words], stdin=subprocess.DEVNULL, stdout=follower, stderr=subprocess.PIPE, cwd=self.folder, env=ENVIRONMENT)
        os.close(follower)
        out = b""
        while True:
            try:
                part = os.read(leader, 1 << 16)
            except OSError:
                break
            if not part:
                break
            out += part
        os.close(leader)
        said = run.communicate()[1]
        return run.returncode, out.replace(b"\r\n", b"\n"), said

    def terminal(self):
        """A terminal gets no control characters but tabs and line feeds, and a pipe gets all bytes."""
        try:
            os.close(os.open("/dev/ptmx", os.O_RDWR | os.O_NOCTTY))
        except OSError as error:
            print(f"not tested, since this machine gives no terminal: what a terminal gets ({error})")
            return
        line = b"\x1b[31mred\x07\x7f\tb\x00\r\xc2\x9b31m \xc2\xa0\xc3\x9f\\ \xe2\x80\x9b\n"
        shown = b"\\x1b[31mred\\x07\\x7f\tb\\x00\\x0d\\xc2\\x9b31m \xc2\xa0\xc3\x9f\\ \xe2\x80\x9b\n"
        self.write("line", line)
        self.write("lines", b"".join(b"%d" % n + line for n in range(3000)))
        for words, front in [(["top"], b"# error 0 of 1\n1\t1\t"), (["uniq", "--no-note"], b""), (["join", "--no-note", "--keys", "line"], b""),
                             (["weigh", "--keys", "line"], b"# total 1\n1\t")]:
            ran = self.on_terminal(*words, "line")
            self.check(f"{words} on a terminal", ran == (0, front + shown, b""), ran)
            ran = self.ran(*words, "line")
            self.check(f"{words} on a pipe", ran == (0, front + line, b""), ran)
        ran = self.on_terminal("uniq", "--no-note", "lines")
        wanted = b"".join(b"%d" % n + shown for n in range(3000))
        self.check("many lines on a terminal", ran == (0, wanted, b""), (ran[0], len(ran[1]), len(wanted), ran[2]))
