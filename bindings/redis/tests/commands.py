"""Every command: its replies in both versions of the protocol, its errors, and what the server knows of it."""
import collections
import os
import random

from resp import Error

TOP = os.path.dirname(os.path.dirname(os.path.dirname(os.path.dirname(os.path.abspath(__file__)))))
WRONG_TYPE = Error("WRONGTYPE Operation against a key holding the wrong kind of value")
OK = "OK"

# A command and its reply, with True and False where the reply is 1 and 0 in the second version of the protocol.
REPLIES = [
    ("BF.RESERVE f 0.01 1000", OK),
    ("BF.RESERVE f 0.01 1000", Error("ERR item exists")),
    ("TYPE f", "rsk-bloom"),
    ("BF.ADD f a", True),
    ("BF.ADD f a", False),
    ("BF.MADD f a b c b", [False, True, True, False]),
    ("BF.EXISTS f b", True),
    ("BF.EXISTS f z", False),
    ("BF.MEXISTS f a z c", [True, False, True]),
    ("BF.CARD f", 3),
    ("BF.CARD none", 0),
    ("BF.EXISTS none a", False),
    ("BF.MEXISTS none a b", [False, False]),
    ("EXISTS none", 0),
    ("BF.INFO none", Error("ERR not found")),
    ("BF.INFO f CAPACITY", [1000]),
    ("BF.INFO f ITEMS", [3]),
    ("BF.INFO f filters", [1]),
    ("BF.INFO f EXPANSION", [None]),
    ("BF.INFO f FULL", [0]),
    ("BF.INFO f x", Error("ERR invalid information value")),
    ("BF.INSERT g CAPACITY 50 ERROR 0.001 NONSCALING ITEMS x y", [True, True]),
    ("BF.INFO g CAPACITY", [50]),
    ("BF.INSERT h NOCREATE ITEMS x", Error("ERR not found")),
    ("BF.INSERT g NOCREATE ITEMS x z", [False, True]),
    ("BF.INSERT h EXPANSION 2 ITEMS x", [True]),
    ("BF.INFO h CAPACITY", [100000]),
    ("BF.ADD new x", True),
    ("BF.INFO new CAPACITY", [100000]),
    ("BF.RESERVE e x 10", Error("ERR bad error rate")),
    ("BF.RESERVE e 0 10", Error("ERR (0 < error rate range < 1)")),
    ("BF.RESERVE e 1 10", Error("ERR (0 < error rate range < 1)")),
    ("BF.RESERVE e nan 10", Error("ERR bad error rate")),
    ("BF.RESERVE e 0.1 x", Error("ERR bad capacity")),
    ("BF.RESERVE e 0.1 0", Error("ERR (capacity should be larger than 0)")),
    ("BF.RESERVE e 0.1 10 WHAT", Error("ERR syntax error")),
    ("BF.RESERVE e 0.1 10 EXPANSION x", Error("ERR bad expansion")),
    ("BF.RESERVE e 0.1 10 SEED -1", Error("ERR value is not an integer or out of range")),
    ("BF.RESERVE e 0.1 10 SEED 18446744073709551615 NONSCALING", OK),
    ("SKETCH.SEED e", b"18446744073709551615"),
    ("BF.RESERVE big 0.000001 1000000000", Error("ERR a sketch of this command takes more bytes than the module's max-bytes")),
    ("BF.RESERVE big 0.1 9223372036854775807", Error("ERR the capacity is too large for the error rate")),
    ("BF.ADD f", Error("ERR wrong number of arguments for 'BF.ADD' command")),
    ("BF.ADDLINES f line", 1),
    ("BF.ADDLINES f line", 0),
    ("BF.CARD f", 4),
    ("BF.ADDLINES f a b", Error("ERR wrong number of arguments for 'BF.ADDLINES' command")),
    ("BF.RESERVE u 0.01 2 NONSCALING", OK),
    ("BF.MADD u x y x z", [True, True, False, Error("ERR non scaling filter is full")]),
    ("BF.ADD u z", Error("ERR non scaling filter is full")),
    ("BF.ADD u x", False),
    ("BF.ADDLINES u z", Error("ERR non scaling filter is full")),
    ("BF.MERGE w u", OK),
    ("BF.MEXISTS w x y z", [True, True, False]),
    ("BF.MERGE w f", Error("ERR filters to merge must have the same bits, hashes and seed")),
    ("BF.MERGE w none", Error("ERR not found")),
    (
        "SKETCH.INFO w",
        {
            "kind": b"bloom_filter",
            "bytes": 8,
            "max-bytes": 67108864,
            "bits": 64,
            "max-bits": 536870912,
            "hashes": 7,
            "max-hashes": 255,
        },
    ),
    ("SKETCH.INFO none", Error("ERR no such key")),
    ("DEL u w", 2),
    ("BF.INSERT f ITEMS", Error("ERR wrong number of arguments for 'BF.INSERT' command")),
    ("CMS.INITBYDIM c 2000 5", OK),
    ("CMS.INITBYDIM c 2000 5", Error("CMS: key already exists")),
    ("TYPE c", "rsk-count"),
    ("CMS.INCRBY c a 5 b 3 a 2", [5, 3, 7]),
    ("CMS.QUERY c a b z", [7, 3, 0]),
    ("CMS.INCRBY c a 0", [7]),
    ("CMS.INFO c", {"width": 2000, "depth": 5, "count": 10}),
    ("CMS.INCRBY c a x", Error("CMS: Cannot parse number")),
    ("CMS.INCRBY c a -1", Error("CMS: Number cannot be negative")),
    ("CMS.INCRBY c a 1 b", Error("ERR wrong number of arguments for 'CMS.INCRBY' command")),
    ("CMS.INCRBY c a 1 b 9223372036854775807", Error("CMS: INCRBY overflow")),
    ("CMS.QUERY c a b", [7, 3]),
    ("CMS.INCRBY none a 1", Error("CMS: key does not exist")),
    ("CMS.QUERY none a", Error("CMS: key does not exist")),
    ("CMS.INFO none", Error("CMS: key does not exist")),
    ("CMS.INITBYPROB p 0.001 0.01", OK),
    ("CMS.INFO p", {"width": 2719, "depth": 5, "count": 0}),
    ("CMS.INITBYDIM q 0 5", Error("CMS: invalid width")),
    ("CMS.INITBYDIM q 100 x", Error("CMS: invalid depth")),
    ("CMS.INITBYDIM q 2 5", Error("CMS: invalid width: it must be at least 3")),
    ("CMS.INITBYDIM q 100 256", Error("CMS: invalid depth: it must be at most 255")),
    ("CMS.INITBYDIM q 100000000 200", Error("ERR a sketch of this command takes more bytes than the module's max-bytes")),
    ("CMS.INITBYDIM q 99999999999 1", Error("ERR a sketch of this command takes more bytes than the module's max-bytes")),
    ("CMS.INITBYPROB q 2 0.1", Error("CMS: invalid overestimation value")),
    ("CMS.INITBYPROB q 0.1 0", Error("CMS: invalid prob value")),
    ("CMS.INITBYDIM d 2000 5", OK),
    ("CMS.MERGE d 2 c c WEIGHTS 2 3", OK),
    ("CMS.QUERY d a b z", [35, 15, 0]),
    ("CMS.MERGE d 1 c", OK),
    ("CMS.QUERY d a b", [7, 3]),
    ("CMS.MERGE d 2 c d", OK),
    ("CMS.QUERY d a b", [14, 6]),
    ("CMS.MERGE d 1 c WEIGHTS 0", OK),
    ("CMS.QUERY d a b", [0, 0]),
    ("CMS.MERGE d 2 c d WEIGHTS 1", Error("CMS: wrong number of keys/weights")),
    ("CMS.MERGE d 1 c WEIGHTS 922337203685477580", OK),
    ("CMS.QUERY d a b", [7 * 922337203685477580, 3 * 922337203685477580]),
    ("CMS.MERGE d 1 c WEIGHTS 922337203685477581", Error("CMS: MERGE overflow")),
    ("CMS.QUERY d b", [3 * 922337203685477580]),
    ("CMS.MERGE d 1 c WEIGHTS -1", Error("CMS: invalid weight value")),
    ("CMS.MERGE d x c", Error("CMS: invalid numkeys")),
    ("CMS.MERGE d 5 c", Error("CMS: wrong number of keys")),
    ("CMS.MERGE d 1 p", Error("CMS: width/depth is not equal")),
    ("CMS.MERGE d 1 none", Error("CMS: key does not exist")),
    ("CMS.MERGE none 1 c", Error("CMS: key does not exist")),
    ("CMS.INITBYDIM s 2000 5 SEED 7", OK),
    ("CMS.MERGE d 1 s", Error("CMS: seeds differ: sketches to merge are created with one seed")),
    ("CMS.ADDLINES none a", Error("CMS: key does not exist")),
    ("CMS.ADDLINES s a", 1),
    ("CMS.QUERY s a", [1]),
    ("CMS.HALVE c", OK),
    ("CMS.QUERY c a b", [3, 1]),
    ("CMS.INFO c", {"width": 2000, "depth": 5, "count": 5}),
    ("CMS.INCRBY c a 97", [100]),
    ("CMS.DECAY c 9 10", OK),
    ("CMS.QUERY c a b", [90, 0]),
    ("CMS.DECAY c 0 10", Error("CMS: the fraction must be above 0 and at most 1")),
    ("CMS.DECAY c 11 10", Error("CMS: the fraction must be above 0 and at most 1")),
    ("TOPK.RESERVE t 2 50 4 0.95", OK),
    ("TOPK.RESERVE t 2", Error("TopK: key already exists")),
    ("TYPE t", "rsk-items"),
    ("TOPK.ADD t a b a", [None, None, None]),
    ("TOPK.INCRBY t a 3 c 4", [None, None]),
    ("TOPK.LIST t", [b"a", b"c"]),
    ("TOPK.LIST t WITHCOUNT", [b"a", 5, b"c", 4]),
    ("TOPK.QUERY t a b c z", [True, False, True, False]),
    ("TOPK.COUNT t a b c z", [5, 1, 4, 0]),
    ("TOPK.LIST t WHAT", Error("TopK: WITHCOUNT keyword expected")),
    ("TOPK.ADD none a", Error("TopK: key does not exist")),
    ("TOPK.RESERVE u 0", Error("TopK: invalid k")),
    ("TOPK.RESERVE u 1 0 1 0.5", Error("TopK: invalid width")),
    ("TOPK.RESERVE u 1 1 0 0.5", Error("TopK: invalid depth")),
    ("TOPK.RESERVE u 1 1 1 2", Error("TopK: invalid decay value. must be '<= 1' & '> 0'")),
    ("TOPK.RESERVE u 1 1", Error("ERR wrong number of arguments for 'TOPK.RESERVE' command")),
    ("TOPK.RESERVE u 4000000", Error("ERR a sketch of this command takes more bytes than the module's max-bytes")),
    ("TOPK.RESERVE u 3", OK),
    ("TOPK.QUERY u a", [False]),
    ("TOPK.LIST u", []),
    ("TOPK.INCRBY u a 0", [None]),
    ("TOPK.LIST u", []),
    ("TOPK.INCRBY u a -1", Error("TopK: increment must be an integer greater or equal to 0")),
    ("FREQ.RESERVE r 64", OK),
    ("FREQ.RESERVE r 64", Error("BUSYKEY Target key name already exists.")),
    ("FREQ.ADD r a b a", OK),
    ("FREQ.INCRBY r a 3 c 4", OK),
    ("FREQ.BOUNDS r a b c z", [[5, 5], [1, 1], [4, 4], [0, 0]]),
    ("FREQ.ROWS r", [[b"a", 5, 5], [b"c", 4, 4], [b"b", 1, 1]]),
    ("FREQ.ROWS r ABOVE 4", [[b"a", 5, 5]]),
    ("FREQ.ROWS r ABOVE -1", Error("ERR value is not an integer or out of range")),
    ("FREQ.ROWS r 4", Error("ERR syntax error")),
    ("FREQ.ROWS r COUNT 2", [[b"a", 5, 5], [b"c", 4, 4]]),
    ("FREQ.ROWS r ABOVE 1 COUNT 9", [[b"a", 5, 5], [b"c", 4, 4]]),
    ("FREQ.ROWS r COUNT 0", Error("ERR value is not an integer or out of range")),
    ("FREQ.ROWS r 4 COUNT", Error("ERR syntax error")),
    ("FREQ.INFO r", {"size": 64, "counters": 48, "items": 3, "total": 10, "error": 0}),
    ("FREQ.ADDLINES none a", Error("ERR no such key")),
    ("FREQ.INCRBY r a 9223372036854775797 b 1", Error("ERR total weight overflow")),
    ("FREQ.BOUNDS r a b", [[5, 5], [1, 1]]),
    ("FREQ.INCRBY r a", Error("ERR wrong number of arguments for 'FREQ.INCRBY' command")),
    ("FREQ.RESERVE v 63", Error("ERR the size must be a power of two from 8 to 1073741824")),
    ("FREQ.RESERVE v 4", Error("ERR the size must be a power of two from 8 to 1073741824")),
    ("FREQ.RESERVE v 2147483648", Error("ERR the size must be a power of two from 8 to 1073741824")),
    ("FREQ.RESERVE v 1073741824", Error("ERR a sketch of this command takes more bytes than the module's max-bytes")),
    ("FREQ.ADD none a", Error("ERR no such key")),
    ("FREQ.MERGE m r r", OK),
    ("FREQ.ROWS m", [[b"a", 10, 10], [b"c", 8, 8], [b"b", 2, 2]]),
    ("FREQ.MERGE m t", OK),
    ("FREQ.BOUNDS m a", [[15, 15]]),
    ("FREQ.MERGE m none", Error("ERR no such key")),
    ("FREQ.BOUNDS m a", [[15, 15]]),
    ("FREQ.MERGE m c", WRONG_TYPE),
    ("TOPK.LIST m", [b"a", b"c", b"b"]),
    ("TOPK.LIST r", [b"a", b"c", b"b"]),
    ("FREQ.HALVE m", OK),
    ("FREQ.ROWS m", [[b"a", 7, 7], [b"c", 6, 6], [b"b", 1, 1]]),
    ("FREQ.HALVE none", Error("ERR no such key")),
    ("FREQ.ADD t d", OK),
    ("TOPK.COUNT t d", [1]),
    ("FREQ.ADDLINES t d", 1),
    ("FREQ.BOUNDS t d", [[2, 2]]),
    ("SKETCH.IMAGE none", Error("ERR no such key")),
    ("SKETCH.SEED r", Error("ERR frequent items have no seed")),
    ("SKETCH.SEED s", b"7"),
    ("SKETCH.LOAD l what x", Error("ERR the kind must be bloom_filter, count_min or frequent_strings")),
    ("SKETCH.LOAD l bloom_filter x", Error("ERR insufficient data")),
    ("SKETCH.LOAD f bloom_filter x", Error("BUSYKEY Target key name already exists.")),
    ("SKETCH.STATE l 0 x", Error("ERR received bad data")),
    ("BF.LOADCHUNK l 1 x", Error("ERR received bad data")),
    ("BF.LOADCHUNK l 0 x", Error("ERR Second argument must be numeric")),
    ("BF.SCANDUMP none 0", Error("ERR not found")),
    ("BF.SCANDUMP f x", Error("ERR Second argument must be numeric")),
    ("SET text x", OK),
    ("OBJECT ENCODING f", b"raw"),
    ("EXISTS l e q u v", 2),
]

# A command on a key of each kind, of which each other kind is an error.
OF_KINDS = {
    "f": [
        "BF.ADD K a",
        "BF.MADD K a",
        "BF.ADDLINES K a",
        "BF.INSERT K ITEMS a",
        "BF.EXISTS K a",
        "BF.MEXISTS K a",
        "BF.CARD K",
        "BF.INFO K",
        "BF.SCANDUMP K 0",
        "BF.RESERVE K 0.1 10",
        "BF.MERGE K f",
        "BF.MERGE f K",
    ],
    "c": [
        "CMS.INCRBY K a 1",
        "CMS.ADDLINES K a",
        "CMS.QUERY K a",
        "CMS.INFO K",
        "CMS.MERGE K 1 c",
        "CMS.DECAY K 1 2",
        "CMS.HALVE K",
        "CMS.INITBYDIM K 9 9",
        "CMS.INITBYPROB K 0.1 0.1",
        "CMS.MERGE c 1 K",
    ],
    "t": [
        "TOPK.ADD K a",
        "TOPK.INCRBY K a 1",
        "TOPK.QUERY K a",
        "TOPK.COUNT K a",
        "TOPK.LIST K",
        "TOPK.INFO K",
        "TOPK.RESERVE K 3",
        "FREQ.ADD K a",
        "FREQ.ADDLINES K a",
        "FREQ.INCRBY K a 1",
        "FREQ.BOUNDS K a",
        "FREQ.ROWS K",
        "FREQ.INFO K",
        "FREQ.HALVE K",
        "FREQ.MERGE K t",
        "FREQ.MERGE t K",
        "FREQ.RESERVE K 64",
    ],
    "text": ["GET K", "APPEND K x"],
}

BINARY = [
    b"",
    b"\x00",
    b"\xff",
    b"\xff\xfe",
    b"a\xffb",
    b"\xf4\x8f\xbf\xbf",
    b"\xf4\x8f\xbf\xbfa",
    b"\xc3",
    bytes(range(256)),
    "é".encode(),
    "é".encode("latin-1"),
    b"x" * 5000,
    "ü".encode() * 3000,
    b"\x80" * 3000,
]


def of_version(reply, version):
    """Returns a reply as a version of the protocol has it."""
    if isinstance(reply, bool):
        return reply if version == 3 else int(reply)
    if isinstance(reply, list):
        return [of_version(part, version) for part in reply]
    if isinstance(reply, dict) and version == 2:
        return [part for name, value in reply.items() for part in (name.encode(), value)]
    return reply


def exact(reply):
    """Returns a reply with its types, since 1 and True are equal."""
    return repr([str(reply)] if isinstance(reply, Error) else reply)


def replies(tests):
    """Each command's reply, in both versions of the protocol."""
    for version in [2, 3]:
        with tests.main.client(version) as client:
            client.done("FLUSHALL")
            for command, reply in REPLIES:
                got = client(*command.split())
                tests.check(f"protocol {version}: {command}", exact(got) == exact(of_version(reply, version)), got)
            info = client.done("TOPK.INFO", "t")
            decay = info[7] if version == 2 else info["decay"]
            tests.check(f"protocol {version}: TOPK.INFO", float(decay) == 0.95, info)
    with tests.main.client() as client:
        used = {command.split()[0] for command, _ in REPLIES}
        names = {name.decode() for name in client.done("COMMAND", "LIST", "FILTERBY", "MODULE", "rattle_sketches")}
        tests.check("every command has a test of its reply", names - used == {"TOPK.INFO"}, names - used)


def kinds(tests):
    """A key of another kind is an error, and nothing changes."""
    with tests.main.client() as client:
        for kind, commands in OF_KINDS.items():
            for key in [key for key in OF_KINDS if key != kind]:
                for command in commands:
                    before = client.done("DEBUG", "DIGEST")
                    got = client(*[key if word == "K" else word for word in command.split()])
                    tests.check(f"{command} on {key}", got == WRONG_TYPE and client.done("DEBUG", "DIGEST") == before, got)
        for command in [
            "SKETCH.IMAGE text",
            "SKETCH.LOAD text bloom_filter x REPLACE",
            "SKETCH.STATE text 0 x",
            "SKETCH.SEED text",
            "SKETCH.INFO text",
        ]:
            tests.check(f"{command}", client(*command.split()) == WRONG_TYPE and client.done("GET", "text") == b"x")


def binary(tests):
    """Items of any bytes: none is taken for another, and none is lost."""
    with tests.main.client() as client:
        client.done("FLUSHALL")
        client.done("BF.RESERVE", "f", "0.000001", 1000)
        client.done("CMS.INITBYDIM", "c", 10000, 5)
        client.done("FREQ.RESERVE", "r", 64)
        client.done("TOPK.RESERVE", "t", 50)
        for number, item in enumerate(BINARY, 1):
            tests.check(
                f"a new item {item[:9]!r}", client.done("BF.ADD", "f", item) == 1 and client.done("BF.EXISTS", "f", item) == 1
            )
            tests.check(f"its count {item[:9]!r}", client.done("CMS.INCRBY", "c", item, number) == [number])
            client.done("FREQ.INCRBY", "r", item, number)
            tests.check(f"its bounds {item[:9]!r}", client.done("FREQ.BOUNDS", "r", item) == [[number, number]])
        client.done("TOPK.ADD", "t", *BINARY)
        rows = client.done("FREQ.ROWS", "r")
        wanted = [[item, number, number] for number, item in reversed(list(enumerate(BINARY, 1)))]
        tests.check("rows of any bytes", rows == wanted, rows)
        tests.check("a list of any bytes", sorted(client.done("TOPK.LIST", "t")) == sorted(BINARY))
        tests.check("counts of any bytes", client.done("CMS.QUERY", "c", *BINARY) == list(range(1, len(BINARY) + 1)))
        tests.check("all of any bytes", client.done("BF.MEXISTS", "f", *BINARY) == [1] * len(BINARY))


def lines_of(text):
    """Returns the lines of a string: without the line feed, and without a carriage return before it."""
    *ended, last = text.split(b"\n")
    return [line[:-1] if line.endswith(b"\r") else line for line in ended] + ([last] if last else [])


TEXTS = [
    b"",
    b"\n",
    b"\r\n",
    b"\r",
    b"a",
    b"a\n",
    b"a\nb",
    b"a\r\nb\r",
    b"a\r\r\nb",
    b"\n\na\n\n",
    b"\xff\na\xff\r\nb",
    b"\xf4\x8f\xbf\xbf\na\n\xf4\x8f\xbf\xbfa\r\r\n\xf4\x8f\xbf\xbf\r",
    b"a\xf4\x8f\xbf\xbf\n\xf4\x8f\xbf\n",
    b"\xc3\n\xa9",
    "é\nü".encode(),
    b"\n".join(item for item in BINARY if b"\n" not in item),
    b"\n" * 1000,
    b"\r\n".join(b"line %d" % i for i in range(255)),
    b"\n".join(b"line %d" % i for i in range(256)),
    b"\n".join(b"line %d" % i for i in range(257)) + b"\n",
    b"\n".join(b"line %d" % (i % 700) for i in range(3000)),
    b"x" * 8190 + b"\n",
    b"x" * 8191 + b"\n",
    b"x" * 8191,
    b"x" * 8192,
    b"y" * 20000 + b"\n" + b"\xff" * 20000,
]


def lines(tests):
    """The lines of a string are the items that commands with an argument for each take: one image, and the right reply."""
    with tests.main.client() as client:
        for text in TEXTS:
            client.done("FLUSHALL")
            for name in ["one", "other"]:
                client.done("BF.RESERVE", f"{name} f", "0.0001", 5000)
                client.done("CMS.INITBYDIM", f"{name} c", 5000, 3)
                client.done("FREQ.RESERVE", f"{name} r", 2048)
            items = lines_of(text)
            got = [client.done(command, f"one {key}", text) for command, key in OF_LINES]
            new = sum(client.done("BF.MADD", "other f", *items)) if items else 0
            for item in items:
                client.done("CMS.INCRBY", "other c", item, 1)
            if items:
                client.done("FREQ.ADD", "other r", *items)
            tests.check(f"replies of {text[:30]!r}", got == [new, len(items), len(items)], (got, new, len(items)))
            for key in ["f", "c", "r"]:
                images = [client.done("SKETCH.IMAGE", f"{name} {key}") for name in ["one", "other"]]
                tests.check(f"the image of {key} after {text[:30]!r}", images[0] == images[1])
            rows = client.done("FREQ.ROWS", "one r")
            wanted = collections.Counter(items)
            tests.check(f"rows of {text[:30]!r}", {item: low for item, low, _ in rows} == wanted, rows[:5])
        client.done("FLUSHALL")
        tests.check("a filter is made", client.done("BF.ADDLINES", "new", "a\nb") == 2 and client.done("BF.CARD", "new") == 2)
        client.done("CMS.INITBYDIM", "c", 100, 3)
        client.done("CMS.INCRBY", "c", "a", 2**63 - 4)
        tests.check(
            "a total that fits",
            client("CMS.ADDLINES", "c", "a\nb\nc\nd") == Error("CMS: ADDLINES overflow")
            and client.done("CMS.ADDLINES", "c", "b\nb\nb") == 3
            and client.done("CMS.QUERY", "c", "a", "b") == [2**63 - 4, 3],
        )
        client.done("FREQ.RESERVE", "r", 64)
        client.done("FREQ.INCRBY", "r", "a", 2**63 - 4)
        tests.check(
            "a total of frequent items that fits",
            client("FREQ.ADDLINES", "r", "a\nb\nc\nd") == Error("ERR total weight overflow")
            and client.done("FREQ.ADDLINES", "r", "b\nb\nb") == 3
            and client.done("FREQ.BOUNDS", "r", "a", "b") == [[2**63 - 4, 2**63 - 4], [3, 3]],
        )


OF_LINES = [("BF.ADDLINES", "f"), ("CMS.ADDLINES", "c"), ("FREQ.ADDLINES", "r")]


# Commands that came with version 0.4.0.
LATER = ("BF.MERGE", "FREQ.HALVE", "SKETCH.INFO")


def documented(tests):
    """What the server knows of each command: flags, keys and documentation. Redis 7.0 gives commands of modules no categories."""
    with tests.main.client(3) as client:
        names = sorted(name.decode() for name in client.done("COMMAND", "LIST", "FILTERBY", "MODULE", "rattle_sketches"))
        docs = client.done("COMMAND", "DOCS", *names)
        infos = {
            info[0].decode() if isinstance(info[0], bytes) else info[0]: info for info in client.done("COMMAND", "INFO", *names)
        }
        tests.check("the number of commands", len(names) == 42, names)
        modules = {module["name"]: module["ver"] for module in client.done("MODULE", "LIST")}
        with open(f"{TOP}/VERSION", encoding="utf-8") as file:
            major, minor, patch = [int(number) for number in file.read().split(".")]
        tests.check("the version of the module", modules == {b"rattle_sketches": 10000 * major + 100 * minor + patch}, modules)
        for name in names:
            doc, info = docs[name], infos[name]
            tests.check(
                f"COMMAND DOCS {name}",
                doc["summary"]
                and doc["complexity"].startswith(b"O(")
                and doc["since"] == (b"0.4.0" if name.endswith(".ADDLINES") or name in LATER else b"0.3.0")
                and {word if isinstance(word, str) else word.decode() for word in doc["arguments"][0]} >= {"name", "type"},
                doc,
            )
            flags = set(info[2])
            reads = "readonly" in flags
            tests.check(f"flags of {name}", reads != ("write" in flags), flags)
            tests.check(f"secrets of {name}", ("admin" in flags) == (name in ("SKETCH.SEED", "SKETCH.STATE")), flags)
            tests.check(
                f"memory of {name}",
                ("denyoom" in flags) == ("write" in flags and name not in ("CMS.DECAY", "CMS.HALVE", "FREQ.HALVE")),
                flags,
            )
            key_flags = set(info[8][0]["flags"])
            tests.check(f"keys of {name}", ({"RO", "access"} <= key_flags) == reads, key_flags)
    with tests.main.client() as client:
        keys = lambda command: client.done("COMMAND", "GETKEYS", *command.split())
        tests.check("keys of BF.ADD", keys("BF.ADD k a") == [b"k"])
        tests.check("keys of BF.MADD", keys("BF.MADD k a b c") == [b"k"])
        tests.check("keys of CMS.MERGE", keys("CMS.MERGE d 2 x y WEIGHTS 1 2") == [b"d", b"x", b"y"])
        tests.check("keys of BF.MERGE", keys("BF.MERGE d x y") == [b"d", b"x", b"y"])
        tests.check("keys of FREQ.MERGE", keys("FREQ.MERGE d x y") == [b"d", b"x", b"y"])
        tests.check("keys of SKETCH.LOAD", keys("SKETCH.LOAD k bloom_filter x") == [b"k"])
        client.done("FLUSHALL")
        client.done("BF.ADD", "mine:f", "a")
        client.done("BF.ADD", "other:f", "a")
        client.done("CMS.INITBYDIM", "mine:c", 100, 3)
        client.done("CMS.INITBYDIM", "other:c", 100, 3)
        client.done("ACL", "SETUSER", "reader", "on", "nopass", "%R~mine:*", "+@all")
        client.done("ACL", "SETUSER", "writer", "on", "nopass", "~mine:*", "+bf.add", "+cms.merge", "+sketch.image")
        client.done("AUTH", "reader", "")
        allowed = lambda *words: not str(client(*words)).startswith("NOPERM")
        tests.check("a reader reads", allowed("BF.EXISTS", "mine:f", "a") and allowed("SKETCH.IMAGE", "mine:f"))
        tests.check(
            "a reader does not write",
            not allowed("BF.ADD", "mine:f", "b")
            and not allowed("CMS.MERGE", "mine:c", 1, "mine:c")
            and not allowed("BF.RESERVE", "mine:new", "0.1", 10)
            and not allowed("SKETCH.LOAD", "mine:new", "bloom_filter", "x"),
        )
        tests.check("a reader has its keys alone", not allowed("BF.EXISTS", "other:f", "a"))
        client.done("AUTH", "writer", "")
        tests.check(
            "a writer writes",
            allowed("BF.ADD", "mine:f", "b") and allowed("CMS.MERGE", "mine:c", 1, "mine:c") and allowed("SKETCH.IMAGE", "mine:f"),
        )
        tests.check(
            "a writer has its keys alone",
            not allowed("CMS.MERGE", "mine:c", 1, "other:c") and not allowed("CMS.MERGE", "other:c", 1, "mine:c"),
        )
        tests.check(
            "a writer has its commands alone", not allowed("SKETCH.SEED", "mine:f") and not allowed("BF.MADD", "mine:f", "a")
        )
        client.done("AUTH", "default", "x")
        client.done("ACL", "DELUSER", "reader", "writer")
        script = "return redis.call('BF.ADD', KEYS[1], ARGV[1])"
        tests.check("a script", client.done("EVAL", script, 1, "mine:f", "scripted") == 1)


WORDS = [
    "0",
    "1",
    "2",
    "-1",
    "3",
    "64",
    "1000",
    "0.5",
    "0.01",
    "1e-9",
    "nan",
    "inf",
    "-0",
    "9223372036854775807",
    "9223372036854775808",
    "18446744073709551615",
    "99999999999999999999",
    "",
    "x",
    "\x00",
    b"\xff",
    "a\nb\r\n\nc",
    b"\xff\na\n\xf4\x8f\xbf\xbf\n",
    "ITEMS",
    "CAPACITY",
    "ERROR",
    "NOCREATE",
    "NONSCALING",
    "EXPANSION",
    "SEED",
    "WEIGHTS",
    "WITHCOUNT",
    "ABOVE",
    "COUNT",
    "KEYED",
    "MAXBYTES",
    "REPLACE",
    "bloom_filter",
    "count_min",
    "frequent_strings",
    "a",
    "b",
    "c",
    "y" * 3000,
]


def any_words(tests):
    """20,000 commands of any words: each has a reply, and the server runs on."""
    numbers = random.Random(31)
    with tests.server("any words") as on, on.client() as client:
        names = [name.decode() for name in client.done("COMMAND", "LIST", "FILTERBY", "MODULE", "rattle_sketches")]
        keys = ["f", "c", "t", "text", "none"]
        errors = set()
        for turn in range(200):
            client.done("FLUSHALL")
            for command in ["BF.RESERVE f 0.01 100", "CMS.INITBYDIM c 50 3", "TOPK.RESERVE t 3", "SET text x"]:
                client.done(*command.split())
            batch = [
                (numbers.choice(names), numbers.choice(keys), *[numbers.choice(keys + WORDS) for _ in range(numbers.randrange(8))])
                for _ in range(100)
            ]
            errors |= {str(reply).split()[0] for reply in client.many(batch) if isinstance(reply, Error)}
        tests.check(
            "the server runs after any words", on.runs() and errors == {"ERR", "WRONGTYPE", "CMS:", "TopK:", "BUSYKEY"}, errors
        )
