"""Checks the files that `sketches` writes, for `sketches.py`: names, modes and links, and a state that several runs use at once."""
import fcntl
import os
import re
import signal
import subprocess
import time

import checks

LARGE = ["--items", "200000", "--no-note"]
HAS_OTHER_SIZE = (b"sketches: --state has a filter of another size than --items or --bits: leave them out, or name another file\n")


def signals_end():
    """Has signals end this process, also if the shell that started the tests in the background has it ignore them."""
    for number in [signal.SIGINT, signal.SIGTERM, signal.SIGHUP]:
        signal.signal(number, signal.SIG_DFL)


class Places:
    def __init__(self, tests):
        self.tests = tests
        self.folder = os.path.join(tests.work, "places")

    def run(self):
        os.mkdir(self.folder)
        self.names()
        self.modes()
        self.links()
        self.sizes()
        self.at_once()
        self.waiting()
        self.stale()
        self.killed()

    def check(self, name, holds, said=""):
        self.tests.check(name, holds, said)

    def path(self, name):
        return os.path.join(self.folder, name)

    def bytes_of(self, name):
        with open(self.path(name), "rb") as file:
            return file.read()

    def write(self, name, data):
        with open(self.path(name), "wb") as file:
            file.write(data)

    def ran(self, *words, data=b"a\nb\n"):
        """Runs the program in the folder. Returns its status, and both outputs."""
        ran = subprocess.run([self.tests.program, *map(str, words)], input=data, capture_output=True, cwd=self.folder,
                             env={"PATH": "/usr/bin:/bin"}, timeout=60)
        return ran.returncode, ran.stdout, ran.stderr

    def left(self):
        """Removes all files of the folder, and returns their names."""
        names = sorted(os.listdir(self.folder))
        for name in names:
            os.remove(self.path(name))
        return names

    def new(self):
        """Returns the names of files beside the image."""
        return [name for name in os.listdir(self.folder) if name != "X"]

    def names(self):
        """A file with the name of another one with an end is not touched, also through a link, and nothing is left beside."""
        for command, made in [(["top", "--save", "X"], b"# error 0 of 2\n1\t1\ta\n1\t1\tb\n"), (["uniq", *LARGE, "--state", "X"], b"a\nb\n")]:
            for kind in ["a file", "a link"]:
                self.write("mine", b"mine")
                if kind == "a file":
                    self.write("X.tmp", b"mine")
                else:
                    os.symlink("mine", self.path("X.tmp"))
                ran = self.ran(*command)
                self.check(f"{command[0]} beside {kind} X.tmp", ran[0] == 0 and sorted(ran[1].split()) == sorted(made.split()), ran)
                self.check(f"{kind} X.tmp stays", self.bytes_of("X.tmp") == self.bytes_of("mine") == b"mine")
                self.check(f"names after {command[0]} beside {kind}", self.left() == ["X", "X.tmp", "mine"])

    def modes(self):
        """An image keeps the mode of the file that it replaces, and a new one has that of the user's mask."""
        mask = os.umask(0o027)
        try:
            for command in [["top", "--save", "X"], ["uniq", *LARGE, "--state", "X"]]:
                self.ran(*command)
                self.check(f"{command[0]}: the mode of a new file", os.stat(self.path("X")).st_mode & 0o777 == 0o640)
                for mode in [0o600, 0o644, 0o666, 0o400]:
                    os.chmod(self.path("X"), mode)
                    before = os.stat(self.path("X")).st_ino
                    ran = self.ran(*command, data=b"%o\n" % mode)
                    after = os.stat(self.path("X"))
                    self.check(f"{command[0]}: the mode {mode:o} is kept", ran[0] == 0 and after.st_mode & 0o777 == mode and after.st_ino != before, ran)
                self.left()
        finally:
            os.umask(mask)

    def links(self):
        """A link stays, and the file that it leads to is replaced or created."""
        for command in [["top", "--save", "X"], ["uniq", *LARGE, "--state", "X"]]:
            os.mkdir(self.path("d"))
            os.symlink("d/link", self.path("X"))
            os.symlink("file", self.path("d/link"))
            for time_of in ["created", "replaced"]:
                ran = self.ran(*command)
                self.check(f"{command[0]}: the file of a link is {time_of}", ran[0] == 0 and os.path.islink(self.path("X")) and os.path.islink(self.path("d/link"))
                           and os.path.isfile(self.path("d/file")) and sorted(os.listdir(self.path("d"))) == ["file", "link"], ran)
            os.remove(self.path("d/file"))
            os.remove(self.path("d/link"))
            os.rmdir(self.path("d"))
            os.remove(self.path("X"))
            os.symlink("X", self.path("X"))
            ran = self.ran(*command)
            self.check(f"{command[0]}: a link to itself", ran[0] == 2 and ran[2].startswith(b"sketches: X: "), ran)
            self.left()

    def sizes(self):
        """A later size of a state that differs is an error. Days that are larger than the first end with a warning."""
        self.check("a state of a size", self.ran("uniq", *LARGE, "--state", "X")[:2] == (0, b"a\nb\n"))
        before = self.bytes_of("X")
        for words in [["--items", 100], ["--bits", 640, "--hashes", 5], ["--items", 200100], ["--items", 200000, "--false-positives", 100]]:
            ran = self.ran("uniq", *words, "--no-note", "--state", "X")
            self.check(f"a state with {words}", ran == (2, b"", HAS_OTHER_SIZE) and self.bytes_of("X") == before, ran)
        self.check("a state of the same size", self.ran("uniq", *LARGE, "--state", "X", data=b"b\nc\n") == (0, b"c\n", b""))
        self.check("a state without a size", self.ran("uniq", "--no-note", "--state", "X", data=b"c\nd\n") == (0, b"d\n", b""))
        self.left()
        first = 0
        for lines, warned in [(100, False), (100000, True), (100000, True)]:
            self.write("day", b"".join(b"%d\n" % n for n in range(first, first + lines)))
            ran = self.ran("uniq", "--no-note", "--state", "X", "day")
            self.check(f"a day of {lines} lines", ran[0] == 0 and (b"sketches: warning: " in ran[2]) == warned, ran[2])
            first += lines
        self.left()

    def at_once(self):
        """Of runs that use one state at once, each ends well, each item is printed by one of them, and all are in the state."""
        for number in range(20):
            runs = [subprocess.Popen([self.tests.program, "uniq", *LARGE, "--state", "X"], stdin=subprocess.PIPE, stdout=subprocess.PIPE,
                                     stderr=subprocess.PIPE, cwd=self.folder, env={"PATH": "/usr/bin:/bin"}) for _ in range(3)]
            given = [[b"both", b"%d of %d" % (one, number)] for one in range(len(runs))]
            outs = []
            for run, lines in zip(runs, given):
                run.stdin.write(b"\n".join(lines) + b"\n")
                run.stdin.close()
            for run in runs:
                outs += run.stdout.read().split(b"\n")[:-1]
                self.check("a run beside others", run.wait(timeout=60) == 0, run.stderr.read())
                run.stdout.close()
                run.stderr.close()
            self.check("each item is printed once", sorted(outs) == sorted({line for lines in given for line in lines}), outs)
            ran = self.ran("uniq", *LARGE, "--state", "X", data=b"".join(line + b"\n" for lines in given for line in lines))
            self.check("all items are in the state", ran == (0, b"", b""), ran)
            self.check("names after runs at once", self.left() == ["X"])

    def waiting(self):
        """A run waits for another one that uses its state, and says so. A run that fails leaves no file that was not there."""
        first = subprocess.Popen([self.tests.program, "uniq", *LARGE, "--state", "X"], stdin=subprocess.PIPE, stdout=subprocess.PIPE,
                                 cwd=self.folder, env={"PATH": "/usr/bin:/bin"})
        for _ in range(500):
            if os.path.exists(self.path("X")):
                break
            time.sleep(0.01)
        second = subprocess.Popen([self.tests.program, "uniq", *LARGE, "--state", "X"], stdin=subprocess.PIPE, stdout=subprocess.PIPE,
                                  stderr=subprocess.PIPE, cwd=self.folder, env={"PATH": "/usr/bin:/bin"})
        said = second.stderr.readline()
        self.check("a run waits", said == b"sketches: X: waiting for another run\n", said)
        out = first.communicate(b"a\n", timeout=60)[0] + second.communicate(b"a\nb\n", timeout=60)[0]
        self.check("a run waits until the other has ended", (first.returncode, second.returncode, out) == (0, 0, b"a\nb\n"), out)
        self.left()
        ran = self.ran("uniq", *LARGE, "--max-line", 1, "--state", "X", data=b"long\n")
        self.check("a run that fails leaves no state", ran[0] == 2 and self.left() == [], ran)
        ran = self.ran("uniq", *LARGE, "--state", "none/X")
        self.check("a state in no folder", ran == (2, b"", b"sketches: none/X: No such file or directory (os error 2)\n"), ran)

    def stale(self):
        """A run removes the files beside its image that no run has locked, and no others."""
        new, held, pipe = "X.0123456789abcdef.tmp", "X.00000000000000ff.tmp", "X.1111111111111111.tmp"
        others = ["X.0123456789abcdeg.tmp", "X.0123456789abcde.tmp", "X.0123456789ABCDEF.tmp", "X.tmp", "X.0123456789abcdef", "XX.0123456789abcdef.tmp",
                  "Y.0123456789abcdef.tmp"]
        for command in [["top", "--save", "X"], ["uniq", *LARGE, "--state", "X"], ["uniq", *LARGE, "--state", self.path("X")]]:
            for name in [new, held, *others]:
                self.write(name, b"")
            os.mkfifo(self.path(pipe))
            with open(self.path(held), "rb") as file:
                fcntl.flock(file, fcntl.LOCK_EX)
                ran = self.ran(*command)
            self.check(f"{command}: a run beside files that runs have left", ran[0] == 0, ran)
            left = self.left()
            self.check(f"{command}: what a run removes", left == sorted(["X", held, pipe, *others]), left)

    def killed(self):
        """A run that a signal ends while it saves leaves the image as it was, and the next run removes what it has left."""
        library = checks.preloaded(self.tests.work, "waits_in_a_write")
        for state in [[], ["X"]]:
            for number in [signal.SIGINT, signal.SIGTERM, signal.SIGHUP, signal.SIGKILL]:
                name = f"a run that signal {number} ends while it saves {state or 'a new state'}"
                for _ in state:
                    self.ran("uniq", *LARGE, "--state", "X", data=b"b\n")
                run = subprocess.Popen([self.tests.program, "uniq", *LARGE, "--state", "X"], stdin=subprocess.DEVNULL, stdout=subprocess.DEVNULL,
                                       cwd=self.folder, env={"PATH": "/usr/bin:/bin", "LD_PRELOAD": library}, preexec_fn=signals_end)
                while run.poll() is None and not any(os.path.getsize(self.path(new)) for new in self.new()):
                    time.sleep(0.001)
                run.send_signal(number)
                status, new = run.wait(timeout=60), self.new()
                self.check(name, status == -number and len(new) == 1 and re.fullmatch(r"X\.[0-9a-f]{16}\.tmp", new[0]), (status, new))
                ran = self.ran("uniq", *LARGE, "--state", "X")
                left = self.left()
                self.check(f"after {name}", ran == (0, b"a\n" if state else b"a\nb\n", b"") and left == ["X"], (ran, left))
