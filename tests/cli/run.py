#!/usr/bin/env python3
"""Tests `datasketches_cli`, also with allocations and streams that fail.

The argument is the path of the program. It prints a line for each test that failed and then 'N passed, M failed'.
"""
import os
import subprocess
import sys
import tempfile
import threading

HERE = os.path.dirname(os.path.abspath(__file__))
TESTS = os.path.dirname(HERE)
sys.path.insert(0, TESTS)

import cluster  # noqa: E402
import counted  # noqa: E402
import failing  # noqa: E402
import keys  # noqa: E402
import loads  # noqa: E402
import sessions  # noqa: E402
import streams  # noqa: E402

NO_MEMORY = b"refused NoMemory"

# All runs but those of `keys.py` are plain, so that each reply is determined.
os.environ[failing.KEY] = "plain"

# The main job, and each kind with its merges, images and errors. The result of the only purge is determined: all counts are 1.
WORKED = """frequent s 8
add s 1 a
add s 1 b
add s 1 c
add s 1 d
add s 1 e
add s 1 f
add s 1 g
status s
ask s a
rows s fn 0
frequent s 8
frequent t 64
add t 5 a
merge s t
ask s a
status s
merge s s
save t p
image p
restore p u
ask u a
rows u fp 1
bloom f 64 1 9001
save f q
image q
insert f a
restore q g
ask g a
union g f
ask g a
merge f g
save f q
restore z h
countu c 4 128 9001
add c 100 x
decay c 99 100
ask c x
halve c
save c r
restore r d
merge d c
ask d x
status d
counti i 1 3 9001
adds i -3 x
save i k
restore k j
merge j i
ask j x
reset s
status s
sampled w 8 2
add w 3 a
windows 2 8
hadd 1 5 a
hturn 1
hadd 1 7 a
hreport 1 fn 0
hadd 2 9 a
hturn 1
hreport 1 fn 0
hreport 3 fp 0
""".encode() + sessions.text(loads.IN_TURN)


def mixed():
    """Returns two hundred lines of all kinds. No sketch of frequent items is purged, so each reply is determined."""
    lines = ["frequent s 16", "frequent t 8", "countu c 2 16 9001", "counti i 2 16 9001", "bloom f 256 3 9001"]
    for n in range(24):
        lines += [
            f"add s 2 item{n % 11}",
            f"add t 1 item{n % 5}",
            f"add c {n + 1} item{n}",
            f"adds i {-n if n % 2 else n} item{n % 7}",
            f"insert f item{n}",
            f"ask c item{n // 2}",
            f"ask f item{n + 1}",
        ]
    lines += ["save s p", "save t q", "save c r", "save i k", "save f m"]
    lines += ["restore p s2", "restore q t2", "restore r c2", "restore k i2", "restore m f2"]
    lines += ["merge s s2", "merge t t2", "merge c c2", "merge i i2", "union f f2", "difference f2 f"]
    lines += ["image p", "image r", "image m", "rows t fn 0", "rows t fp 1", "status s", "status c2", "status f2"]
    lines += ["halve c", "decay c2 1 3", "reset t2", "reset f"]
    # a merge that doubles the table, and windows of which one has a seventh item, which doubles its table
    lines += ["frequent w 64", *[f"add w 1 {item}" for item in "abcdef"], "frequent v 64", *[f"add v 1 {item}" for item in "agh"]]
    lines += ["merge w v", "status w", "ask w a", "ask w g", "windows 2 64", "hadd 1 5 a", "hadd 1 3 b", "hturn 1"]
    lines += [f"hadd 1 {weight} {item}" for weight, item in zip([1, 20, 40, 80, 160, 320, 640], "acdefgh")]
    lines += ["hadd 2 9 a", "hreport 1 fn 0", "hturn 3", "hturn 1", "hadd 1 2 b", "hturn 2"]
    lines += [f"hreport {tenant} fn 0" for tenant in (2, 1, 3)]
    return ("\n".join(lines) + "\n").encode()


class Tests(failing.Failing):
    def __init__(self, program, work):
        super().__init__(work)
        self.program = program

    def run(self, lines, refused_at=None, key="plain", **settings):
        """Runs the program over lines, as `run_with` runs a command."""
        return self.run_with([self.program], lines, refused_at, key, **settings)

    def refused_in_turn(self, name, lines):
        """Fails the n-th allocation in the n-th run, until no allocation fails in a run. Returns the number of allocations."""
        status, whole, said, numbers = self.run(lines, 0)
        self.check(f"{name}: ends where nothing is refused", status in (0, 1) and said == b"", said)
        self.check(f"{name}: no want of memory then", NO_MEMORY not in whole)
        self.check(f"{name}: all memory is given back", numbers[2] == 0, numbers)
        commands = lines.splitlines(keepends=True)
        n = 1
        while True:
            status, out, said, numbers = self.run(lines, n)
            where = f"{name}, request {n}:"
            if numbers[1] == 0:
                self.check(f"{where} the last run is whole", out == whole and status in (0, 1))
                return n - 1
            self.check(f"{where} it ends with a status", status in (0, 1, 2), status)
            self.check(f"{where} all memory is given back", numbers[2] == 0, numbers)
            replies = out.splitlines(keepends=True)
            if status == 2:
                self.check(f"{where} it says why", said == b"no memory\n", said)
                self.check(f"{where} what it wrote is a beginning", whole.startswith(out))
            else:
                # a run of the other commands, in which no allocation fails
                left = b"".join(
                    line for i, line in enumerate(commands)
                    if i >= len(replies) or replies[i].rstrip() != NO_MEMORY
                )
                others = b"".join(reply for reply in replies if reply.rstrip() != NO_MEMORY)
                self.check(f"{where} the others are as without it", self.run(left)[1] == others)
            n += 1

    def streams_that_fail(self):
        """Fails the n-th read or write in the n-th run, until no call fails in a run. Streams move all requested bytes, or one
        byte a call. With one byte a call the output is known to the byte."""
        for name, lines, setting in [
            ("streams", WORKED, {}),
            ("a byte at a time", WORKED[: WORKED.index(b"bloom")], {"READ_STEP": 1, "WRITE_STEP": 1}),
        ]:
            whole = self.run(lines)[1]
            replies = whole.splitlines(keepends=True)
            for which in ["FAILS_READ_AT", "FAILS_WRITE_AT"]:
                n = 1
                while True:
                    status, out, said, numbers = self.run(lines, **{which: n, **setting})
                    where = f"{name}, {which} {n}:"
                    if numbers[1] == 0:
                        self.check(f"{where} the last run is whole", (status, out, said) == (0, whole, b""), (status, said))
                        break
                    wanted = (2, b"input or output failed\n")
                    self.check(f"{where} it says so", (status, said) == wanted, (status, said))
                    if not setting:
                        self.check(f"{where} what it wrote is a beginning", whole.startswith(out))
                    elif which == "FAILS_READ_AT":
                        # each line has one reply, which is written before the next read
                        answered = b"".join(replies[: lines[: n - 1].count(b"\n")])
                        self.check(f"{where} it answered the lines that it had", out == answered, out)
                    else:
                        self.check(f"{where} it wrote what came before", out == whole[: n - 1], out)
                    n += 1

    def interrupted_streams(self):
        """Interrupts the n-th read or write in the n-th run. The program makes the call again, and its output is the same."""
        lines = WORKED[: WORKED.index(b"bloom")]
        whole = self.run(lines)[1]
        for which in ["FAILS_READ_AT", "FAILS_WRITE_AT"]:
            n = 1
            while True:
                status, out, said, numbers = self.run(lines, **{which: n, "INTERRUPTED": 1, "READ_STEP": 1, "WRITE_STEP": 1})
                self.check(f"interrupted, {which} {n}", (status, out, said) == (0, whole, b""), (status, out, said))
                if numbers[1] == 0:
                    break
                n += 1

    def sessions(self):
        """Checks lines of each kind and their replies."""
        for name, rows, status in sessions.SESSIONS:
            lines, replies = sessions.texts_of(rows)
            self.plays(f"session {name}", lines, replies, status)

    def purges(self):
        """Checks sketches after one item more than they have room for."""
        for size, last, wanted in sessions.DISTINCT:
            replies = (last + 1) * b"ok\n" + f"frequent {wanted}\n".encode()
            self.plays(f"{last} items in {size} slots", sessions.distinct_items(size, last), replies, 0)
        for weight, allowed in sessions.SAMPLED:
            status, out, _, _ = self.run(sessions.sampled_items(weight))
            numbers, bounds = out.decode().splitlines()[-2:]
            holds = any(said in numbers and lower in bounds.split(" upper")[0] for said, lower in allowed)
            self.check(f"two counters sampled, and a weight of {weight}", holds and status == 0, out)

    def tail_budget(self):
        """Checks the bounds and the status of sketches that were purged, restored and merged."""
        for name, first, kept, wanted in sessions.KEPT:
            asks = [f"ask {name} {n}" for n in range(first, 8)]
            lines = sessions.text(sessions.PURGED + asks + [f"status {name}", f"reset {name}", f"status {name}"])
            status, out, _, _ = self.run(lines)
            replies = [reply.split() for reply in out.decode().splitlines()]
            lower = sum(int(reply[3]) for reply in replies[len(sessions.PURGED) : -3])
            numbers, after = [tuple(int(reply[place]) for place in (4, 6, 10)) for reply in (replies[-3], replies[-1])]
            told = (status, lower, numbers, after)
            self.check(f"tail budget of {name} from {first}", told == (0, kept, wanted, (0, 0, wanted[2])), told)

    def lines(self):
        """Checks valid and bad lines."""
        for line in streams.NO_COMMANDS:
            lines = b"frequent s 8\n\n  \n" + line + b"\nstatus s\n"
            self.plays(f"no command {line}", lines, b"ok\nbad line 4\n", 1)
        for lines, replies, status in streams.LINE_ENDS:
            self.plays(f"line ends of {lines}", lines, replies, status)
        self.plays("thousands of items", *streams.thousands_of_items(), 0)
        self.plays("a long line", *streams.long_line(), 0)

    def loads(self):
        """Checks loads of images: test cases, bad lines, altered and cut images, and an image of a mebibyte."""
        shown = self.answers(loads.SHOWN)[-1].split()[-1]
        bits = int(shown[-16:], 16)
        self.check("the image of an item", shown[:-16] == loads.OF_ONE_BIT and bits.bit_count() == 1, shown)
        rows = [(line, "ok") for line in loads.SHOWN[:-1]] + [(loads.SHOWN[-1], f"image {shown}")] + loads.worked(shown)
        self.plays("loads", *sessions.texts_of(rows), 1)
        self.plays("images that are written", *sessions.texts_of(loads.WRITTEN), 0)
        self.plays("images that are joined", *sessions.texts_of(list(loads.joined())), 0)
        *_, image, again = self.answers(loads.many_counts())
        self.check("an image of many counts", image == again and len(image.split()[1]) == 2 * (24 + 8 * 4 * 4096), again[:100])
        for line in loads.NO_LOADS:
            self.plays(f"no load {line}", b"frequent s 8\n" + line + b"\nstatus s\n", b"ok\nbad line 2\n", 1)
        for how, image in loads.CUT:
            self.plays(f"cuts of {how} {image}", *sessions.texts_of(loads.cut(how, image)), 0)
        for how, image, alterations in loads.ALTERED:
            for place, digits, answer in alterations:
                name = f"{how} with {digits} at {place}"
                changed = loads.altered(image, place, digits)
                self.plays(name, *sessions.texts_of(loads.of_altered(how, changed, answer)), 0)
                if " " in answer:
                    told = self.answers(loads.questions(how, changed))
                    again = self.answers(loads.questions(how, told[-1].split()[-1]))
                    self.check(f"{name}, in another run", told == again, (told, again))
        large = self.answers(loads.large_filter())[-1]
        again = self.answers([loads.load("g", "bloom 1048576", large.split()[-1]), "save g p", "image p"])
        self.check("an image of a mebibyte", again == ["ok", "ok", large] and len(large) > 2**21, again[0])

    def answers(self, lines):
        """Returns the replies to lines, each of which is one line."""
        status, out, said, _ = self.run(sessions.text(lines))
        replies = out.decode().splitlines()
        self.check(f"replies to {lines[0][:60]}", (status, said, len(replies)) == (0, b"", len(lines)), (status, said))
        return replies

    def plays(self, name, lines, replies, status):
        ended, out, said, _ = self.run(lines)
        self.check(name, (ended, out, said) == (status, replies, b""), (ended, out[:1000], said))

    def streams_that_move_a_little(self):
        """Checks the numbers of reads and writes over streams that move a limited number of bytes a call."""
        for rows, read_step, write_step, reads, writes in streams.STEPS:
            lines, replies = sessions.texts_of(rows)
            status, out, _, numbers = self.run(lines, READ_STEP=read_step, WRITE_STEP=write_step)
            told = (out, numbers[0], numbers[2])
            self.check(f"steps {read_step} and {write_step}", told == (replies, reads, writes), (out, numbers))
            self.step_that_fails(lines, replies, status, read_step, write_step, "FAILS_READ_AT", reads)
            self.step_that_fails(lines, replies, status, read_step, write_step, "FAILS_WRITE_AT", writes)
        for lines, replies, read_step, reads in streams.READS:
            status, out, said, numbers = self.run(lines, READ_STEP=read_step)
            told = (status, out, said, numbers[0])
            self.check(f"reads of {read_step} of {lines[:30]}", told == (0, replies, b"", reads), (told[2:], out[-100:]))

    def step_that_fails(self, lines, replies, status, read_step, write_step, which, calls):
        """Fails each of `calls` calls in its own run, and checks that there is no further call. An interrupted read is made
        again. That is checked only if no line is bad."""
        for n in range(1, calls + 2):
            settings = {"READ_STEP": read_step, "WRITE_STEP": write_step, which: n}
            ended, out, said, numbers = self.run(lines, **settings)
            where = f"steps {read_step} and {write_step}, {which} {n}"
            if n > calls:
                self.check(f"{where}: it is whole", (ended, out, said, numbers[1]) == (status, replies, b"", 0), out)
                continue
            told = (ended, replies.startswith(out), said, numbers[1])
            self.check(f"{where}: it says so", told == (2, True, b"input or output failed\n", 1), (ended, out, said))
            if which == "FAILS_READ_AT" and status == 0:
                ended, out, said, numbers = self.run(lines, INTERRUPTED=1, **settings)
                self.check(f"{where}, interrupted", (ended, out, said, numbers[1]) == (status, replies, b"", 1), out)

    def replies_before_reads(self):
        """Checks that before each read the program has replied to each complete line. Each of these lines has a reply."""
        six = b"frequent s 8\nadd s 1 a\nadd s 1 b\nadd s 1 c\nadd s 1 d\nadd s 1 e\n"
        for name, lines in [("six lines", six), ("worked lines", WORKED)]:
            whole = self.run(lines)[1]
            for step in [1, 2, 7, 10, 13, 23, 40, 100]:
                status, out, said, numbers = self.run(lines, READ_STEP=step)
                told = (status, out, said, numbers[3])
                self.check(f"replies of {name} before reads of {step}", told == (0, whole, b"", 0), (told[2:], out))
        self.check("replies of six lines", self.run(six)[1] == 6 * b"ok\n")

    def answers_at_once(self):
        """Checks that over an open pipe the program replies to each line before the next is sent, even if a line comes in two
        pieces. A bad line ends the program although the pipe is open."""
        lines = WORKED[: WORKED.index(b"bloom")].splitlines(keepends=True)
        replies = self.run(b"".join(lines))[1].splitlines(keepends=True)
        for end, wanted, status in [(b"status s", b"", 0), (b"what\n", b"bad line %d\n" % (len(lines) + 1), 1)]:
            with subprocess.Popen(
                [self.program], stdin=subprocess.PIPE, stdout=subprocess.PIPE, stderr=subprocess.PIPE, bufsize=0
            ) as process:
                watch = threading.Timer(30, process.kill)
                watch.start()
                answered = []
                for line in lines:
                    process.stdin.write(line[:4])
                    process.stdin.write(line[4:])
                    answered.append(process.stdout.readline())
                process.stdin.write(end)
                if status == 0:
                    wanted = replies[lines.index(b"status s\n", 10)]
                    process.stdin.close()
                ended = process.wait()
                watch.cancel()
                said = (process.stdout.read(), process.stderr.read())
            name = f"answers at once, and status {status} at the end"
            self.check(name, (answered, ended, said) == (replies, status, (wanted, b"")), (answered, ended, said))

    def requests_of(self, lines):
        """Returns the number of allocations that the program makes over the lines, and its replies."""
        status, out, said, numbers = self.run(lines, 0)
        self.check("lines that are counted", (status, said) == (0, b""), (status, said))
        return numbers[0], out.decode().splitlines()

    def lines_counted(self):
        """Checks lines for which a session and its windows allocate nothing. The only allocations are one for each word that is
        copied."""
        rows = [([line], copied, reply) for line, copied, reply in counted.LINES] + [(counted.PURGED, len(counted.PURGED), "ok")]
        for lines, copied, reply in rows:
            few, _ = self.requests_of(counted.text(lines, counted.FEW))
            many, replies = self.requests_of(counted.text(lines, counted.MANY))
            self.check(f"requests of {lines[0]}", many - few == (counted.MANY - counted.FEW) * copied, many - few)
            told = replies[-counted.MANY * len(lines) :]
            self.check(f"replies to {lines[0]}", set(told) == {reply}, told)
        without, _ = self.requests_of(b"frequent f 8\n")
        new, replies = self.requests_of(b"frequent f 8\nwindows 2 8\n")
        self.check("requests of new windows", (new, replies) == (without, ["ok", "ok"]), (new, without))

    def statuses(self):
        ok = b"ok\n"
        status_line = b"frequent active 0 error 0 total 0 size 8 max 8 capacity 6\n"
        cases = [
            ("the end of the input", b"frequent s 8\nstatus s\n", 0, ok + status_line),
            ("a last line without its end", b"frequent s 8\nstatus s", 0, ok + status_line),
            ("no input", b"", 0, b""),
            ("lines without a word", b"\n\r\n  \n", 0, b""),
            ("a command that is refused", b"frequent s 8\nfrequent s 8\n", 0, ok + b"refused NameTaken\n"),
            ("a bad line", b"frequent s 8\nwhat\nstatus s\n", 1, ok + b"bad line 2\n"),
            ("a bad line behind others without a word", b"\n\nfrequent s 8\n \nwhat", 1, ok + b"bad line 5\n"),
            ("a line that is not UTF-8", b"frequent s 8\n\xff\n", 1, ok + b"bad line 2\n"),
        ]
        for name, lines, wanted, text in cases:
            status, out, said, _ = self.run(lines)
            self.check(f"status after {name}", (status, out, said) == (wanted, text, b""), (status, out, said))

    def arguments(self):
        """Usage and version, and the usage on standard error after arguments that the program does not take."""
        with open(os.path.join(os.path.dirname(TESTS), "VERSION"), encoding="utf-8") as file:
            version = file.read().strip()

        def ended(*words, stdout=subprocess.PIPE):
            ran = subprocess.run([self.program, *words], input=b"frequent s 8\n", stdout=stdout, stderr=subprocess.PIPE, timeout=60)
            return ran.returncode, ran.stdout, ran.stderr

        usage = ended("--help")[1]
        self.check("the usage names both options", usage.startswith(b"usage: ") and b"--help" in usage and b"--version" in usage)
        self.check("the usage's commands are ones", all(self.run(b"frequent s 64\n" + line[2:].split(b"   ")[0])[0] == 0
                                                        for line in usage.splitlines() if line.startswith(b"  ")))
        for words, wanted in [(["--help"], (0, usage, b"")), (["-h"], (0, usage, b"")),
                              (["--version"], (0, f"datasketches_cli {version}\n".encode(), b"")),
                              (["-V"], (0, f"datasketches_cli {version}\n".encode(), b""))]:
            self.check(f"arguments {words}", ended(*words) == wanted, ended(*words))
        for words in (["help"], ["--helping"], ["--help", "--version"], ["lines.txt"], ["/dev/null"], [""], ["-"], [b"\xff"], ["--", "x"],
                      ["x" * 100000]):
            self.check(f"arguments {words[0][:20]!r}, {len(words)}", ended(*words) == (2, b"", usage), ended(*words))
        with open("/dev/full", "wb") as full:
            self.check("the usage to a full device", ended("--help", stdout=full)[::2] == (2, b"input or output failed\n"))

    def failing_streams(self):
        lines = WORKED * 3
        with open("/dev/full", "wb") as full:
            ran = subprocess.run([self.program], input=lines, stdout=full, stderr=subprocess.PIPE, timeout=60)
        self.check("a full device", (ran.returncode, ran.stderr) == (2, b"input or output failed\n"), ran)
        read_end, write_end = os.pipe()
        os.close(read_end)
        ran = subprocess.run([self.program], input=lines, stdout=write_end, stderr=subprocess.PIPE, timeout=60)
        os.close(write_end)
        self.check("a closed pipe", (ran.returncode, ran.stderr) == (2, b"input or output failed\n"), ran)
        ran = subprocess.run(
            ["/bin/sh", "-c", '"$0" >&-', self.program], input=lines, stderr=subprocess.PIPE, timeout=60
        )
        self.check("a closed output", (ran.returncode, ran.stderr) == (2, b"input or output failed\n"), ran)
        directory = os.open(HERE, os.O_RDONLY)
        ran = subprocess.run([self.program], stdin=directory, capture_output=True, timeout=60)
        os.close(directory)
        wanted = (2, b"", b"input or output failed\n")
        self.check("an input that cannot be read", (ran.returncode, ran.stdout, ran.stderr) == wanted, ran)
        for where in ["&-", "/dev/full"]:
            silent = f'"$0" <. 2>{where}'
            ran = subprocess.run(["/bin/sh", "-c", silent, self.program], cwd=HERE, stdout=subprocess.PIPE, timeout=60)
            self.check(f"a failure that cannot be told, to {where}", (ran.returncode, ran.stdout) == (2, b""), ran)

    def sizes(self):
        """Checks that shapes of the maximum sizes get a reply in a process with a limit on its memory."""
        rows = sessions.GREATEST_SIZES + [
            (loads.load("l", f"frequent {2**64 - 1}", loads.HUGE), "refused NoMemory"),
            (loads.load("l", f"frequent {2**64 - 1}", loads.AB), "ok"),
        ]
        lines, replies = sessions.texts_of(rows)
        limited = 'ulimit -v 262144; exec "$0"'
        ran = subprocess.run(["/bin/sh", "-c", limited, self.program], input=lines, capture_output=True, timeout=60)
        self.check("the greatest sizes", (ran.returncode, ran.stdout) == (0, replies), ran)

    def thousands(self):
        """Checks thousands of items that are saved, restored and merged."""
        *replies, image, last, first, absent, rows = self.answers(sessions.THOUSANDS)[3072:]
        self.check("thousands of items, saved and merged", set(replies) == {"ok"}, set(replies))
        # 32 bytes, 8 a weight, 4 a length, and the digits of 1 to 3072
        length = 32 + 12 * 3072 + 9 + 2 * 90 + 3 * 900 + 4 * 2073
        self.check("the image of thousands", len(image.split()[1]) == 2 * length, len(image))
        told = (last, first, absent, rows[:10], len(rows.split()))
        one = "estimate 1 lower 1 upper 1"
        self.check("thousands of items", told == (one, one, "estimate 0 lower 0 upper 0", "rows 3072 ", 2 + 4 * 3072), told)


def main():
    with tempfile.TemporaryDirectory() as work:
        tests = Tests(os.path.abspath(sys.argv[1]), work)
        worked = tests.refused_in_turn("worked lines", WORKED)
        many = tests.refused_in_turn("two hundred lines", mixed())
        tests.lines_counted()
        tests.sessions()
        tests.purges()
        tests.thousands()
        tests.tail_budget()
        tests.lines()
        tests.loads()
        cluster.check(tests, tests.answers)
        keys.check(tests)
        tests.streams_that_move_a_little()
        tests.replies_before_reads()
        tests.streams_that_fail()
        tests.interrupted_streams()
        tests.answers_at_once()
        tests.statuses()
        tests.arguments()
        tests.failing_streams()
        tests.sizes()
        print(f"requests refused in turn: {worked} and {many}")
        tests.end()


main()
