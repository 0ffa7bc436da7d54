"""Runs of the program over bytes: what is a line and what is not, and how often the program reads and writes. `run.py` runs
them."""
from sessions import MAIN_JOB, QUESTIONS, THREE_LINES, text

NO_COMMANDS = [
    b"frequent",
    b"frequent s",
    b"frequent s 8 8",
    b"frequent s 8 8 8 8",
    b"frequent s +8",
    b"frequent s -8",
    b"frequent s 0x8",
    b"frequent s 18446744073709551616",
    b"Frequent s 8",
    b"frequent\ts 8",
    b"add s 1",
    b"add s 18446744073709551616 a",
    b"add s a 1",
    b"ask s",
    b"status s s",
    b"rows s f 0",
    b"rows s fn",
    b"rows s fn 1 1",
    b"bloom f 65 1",
    b"bloom f 65 65536 9001",
    b"counti c 256 3 9001",
    b"countu c 4 4294967296 9001",
    b"countu c 4 3 -1",
    b"adds s 9223372036854775808 a",
    b"adds s -9223372036854775809 a",
    b"adds s +1 a",
    b"adds s --1 a",
    b"adds s - a",
    b"insert s",
    b"decay s 1",
    b"save s",
    b"restore p",
    b"image",
    b"image p q",
    b"\xff",
    b"ask s \xc3\x28",
    b"\r x",
    b"\r\r",
    b"\0",
]

STATUS = b"ok\nok\nfrequent active 1 error 0 total 7 size 8 max 8 capacity 6\n"

# Line ends, spaces and empty lines: the input, the output and the exit status. In the last one, a carriage return that does
# not end a line is part of its word.
LINE_ENDS = [
    (b"", b"", 0),
    (b"frequent s 8\nadd s 7 a\nstatus s", STATUS, 0),
    (b"frequent s 8\r\nadd s 7 a\r\nstatus s\r\n", STATUS, 0),
    (b"frequent s 8\nadd s 7 a\nstatus s\r", STATUS, 0),
    (b"\n\r\n   \nfrequent s 8\n\nadd s 7 a\n \r\nstatus s\n\n", STATUS, 0),
    (b"  frequent   s  0008 \nadd s 7 a \r\n status  s  ", STATUS, 0),
    (b"frequent \r 8\nstatus \r\nstatus \r\r\n", b"ok\nbad line 2\n", 1),
]

# The lines, the maximum bytes of a read and of a write, and the numbers of reads and writes. The three lines have 31 bytes,
# and the end of input takes one more read. Their replies have 33 bytes. The main job and its queries have 133 bytes up to the
# end of the bad line, after which nothing is read. Their 13 replies have 146 bytes.
STEPS = [
    (THREE_LINES, 100, 100, 2, 1),
    (THREE_LINES, 1, 100, 32, 3),
    (THREE_LINES, 100, 1, 2, 33),
    (THREE_LINES, 1, 1, 32, 33),
    (MAIN_JOB + QUESTIONS, 1, 1000, 133, 13),
    (MAIN_JOB + QUESTIONS, 1000, 1, 1, 146),
    (MAIN_JOB + QUESTIONS, 1, 1, 133, 146),
]

# The input, the output, the maximum bytes of a read, and the number of reads. The program stops reading at end of file, even if
# the last line has no line end. The last two are a line of 1000 bytes that is read byte by byte, and 10000 lines of 100001 bytes
# in total.
READS = [
    (b"", b"", 1, 1),
    (b"\n \n", b"", 1, 4),
    (b"frequent s 8\n", b"ok\n", 100, 2),
    (b"frequent s 8", b"ok\n", 100, 2),
    (b"frequent s 8\r", b"ok\n", 1, 14),
    (b"frequent s 8\n  ", b"ok\n", 100, 2),
    (b"frequent " + 988 * b"x" + b" 8\n", b"ok\n", 1, 1001),
    (
        b"frequent s 8\n" + 9998 * b"add s 1 a\n" + b"ask s a\n",
        9999 * b"ok\n" + b"estimate 9998 lower 9998 upper 9998\n",
        1000,
        102,
    ),
]


def thousands_of_items():
    """Returns lines that add a thousand items to a sketch of each kind and query them, and the replies."""
    lines = ["frequent s 2048", "countu c 4 4096 9001", "bloom f 1048576 7 9001"]
    for n in range(1000):
        lines += [f"add s 1 item{n}", f"add c 1 item{n}", f"insert f item{n}"]
    lines += ["status s", "ask s item0", "status c", "ask f item0"]
    replies = 3003 * ["ok"] + [
        "frequent active 1000 error 0 total 1000 size 2048 max 2048 capacity 1536",
        "estimate 1 lower 1 upper 1",
        "countu total 1000 hashes 4 buckets 4096 seed 9001",
        "yes",
    ]
    return text(lines), text(replies)


def long_line():
    """Returns lines with an item of two hundred thousand bytes, and the replies."""
    status = "frequent active 1 error 0 total 3 size 8 max 8 capacity 6"
    return text(["frequent s 8", "add s 3 " + 200_000 * "x", "status s"]), text(["ok", "ok", status])
