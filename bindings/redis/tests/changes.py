"""What a command changed: events of the key space, WATCH, and a filter that is replaced by chunks."""
import replicas
import stored
from resp import Error

# A command, and whether it changes its key. The keys are those of `prepare`.
COMMANDS = [
    ("BF.ADD f new", True),
    ("BF.ADD f a", False),
    ("BF.ADD none a", True),
    ("BF.ADD c a", False),
    ("BF.ADD full new", False),
    ("BF.MADD f a b c", True),
    ("BF.MADD f a a", False),
    ("BF.MADD full a new", False),
    ("BF.MADD almost b c d", True),
    ("BF.INSERT almost ITEMS b c d", True),
    ("BF.ADDLINES almost b", True),
    ("BF.INSERT none CAPACITY 1 ITEMS a b", True),
    ("BF.ADDLINES f new", True),
    ("BF.ADDLINES f a", False),
    ("BF.ADDLINES full new", False),
    ("BF.INSERT f ITEMS new", True),
    ("BF.INSERT f ITEMS a", False),
    ("BF.INSERT none NOCREATE ITEMS a", False),
    ("BF.RESERVE none 0.1 10", True),
    ("BF.RESERVE f 0.1 10", False),
    ("BF.RESERVE none 2 10", False),
    ("BF.MERGE f g", True),
    ("BF.MERGE g g", False),
    ("BF.MERGE none g", True),
    ("BF.MERGE f full", False),
    ("BF.LOADCHUNK f 1 x", False),
    ("CMS.INITBYDIM none 9 3", True),
    ("CMS.INITBYDIM c 9 3", False),
    ("CMS.INITBYPROB none 0.1 0.1", True),
    ("CMS.INCRBY c a 1", True),
    ("CMS.INCRBY c a 0", False),
    ("CMS.INCRBY c a -1", False),
    ("CMS.INCRBY none a 1", False),
    ("CMS.ADDLINES c a", True),
    ("CMS.DECAY c 1 3", True),
    ("CMS.DECAY c 3 3", False),
    ("CMS.DECAY empty 1 3", False),
    ("CMS.HALVE c", True),
    ("CMS.HALVE empty", False),
    ("CMS.MERGE empty 1 c", True),
    ("CMS.MERGE c 1 c", False),
    ("CMS.MERGE empty 1 c WEIGHTS 0", False),
    ("CMS.MERGE c 1 none", False),
    ("TOPK.RESERVE none 3", True),
    ("TOPK.RESERVE t 3", False),
    ("TOPK.ADD t a", True),
    ("TOPK.INCRBY t a 1", True),
    ("TOPK.INCRBY t a 0", False),
    ("TOPK.INCRBY t a x", False),
    ("FREQ.RESERVE none 64", True),
    ("FREQ.RESERVE none 63", False),
    ("FREQ.ADD t a", True),
    ("FREQ.ADD none a", False),
    ("FREQ.ADDLINES t a", True),
    ("FREQ.INCRBY t a 3", True),
    ("FREQ.INCRBY t a 0 new 0", False),
    ("FREQ.INCRBY t a 9223372036854775807", False),
    ("FREQ.HALVE t", True),
    ("FREQ.HALVE new", False),
    ("FREQ.MERGE new t", True),
    ("FREQ.MERGE t new", False),
    ("FREQ.MERGE t none", False),
    ("SKETCH.LOAD none bloom_filter x", False),
    ("SKETCH.LOAD f bloom_filter x REPLACE", False),
    ("SKETCH.STATE f 0 x", False),
    ("SKETCH.STATE none 0 x", False),
]


def prepare(client):
    client.done("FLUSHALL")
    for command in [
        "BF.RESERVE f 0.01 100",
        "BF.ADD f a",
        "BF.RESERVE g 0.01 100",
        "BF.ADD g x",
        "BF.RESERVE full 0.01 1",
        "BF.ADD full a",
        "BF.RESERVE almost 0.01 2",
        "BF.ADD almost a",
        "CMS.INITBYDIM c 100 3",
        "CMS.INCRBY c a 5",
        "CMS.INITBYDIM empty 100 3",
        "TOPK.RESERVE t 3",
        "TOPK.ADD t a b a",
        "FREQ.RESERVE new 64",
    ]:
        client.done(*command.split())


class Events:
    """The events of the key space since they were last taken, as pairs of an event and a key."""

    def __init__(self, on):
        self.client, self.publisher, self.turn = on.client(), on.client(), 0
        self.publisher.done("CONFIG", "SET", "notify-keyspace-events", "Ed")
        self.client.done("PSUBSCRIBE", "__keyevent@0__:*", "mark")
        self.client.read()  # the reply for the second pattern

    def take(self):
        self.turn += 1
        self.publisher.done("PUBLISH", "mark", self.turn)
        found = []
        while True:
            _, _, channel, word = self.client.read()
            if channel == b"mark":
                return found
            found.append((channel.decode().split(":", 1)[1], word))

    def close(self):
        self.publisher.done("CONFIG", "SET", "notify-keyspace-events", "")
        self.client.close()
        self.publisher.close()


def one_change(tests, events, client, other, command, changes):
    """Runs a command, and tests its events, and whether it ends the transaction of a client that watches its key."""
    words = command if isinstance(command, (list, tuple)) else command.split()
    prepare(client)
    before = client.done("DEBUG", "DIGEST")
    events.take()
    other.done("WATCH", words[1])
    reply = client(*words)
    other.done("MULTI")
    other.done("PING")
    is_aborted = other.done("EXEC") is None
    found = events.take()
    name = " ".join(str(word)[:20] for word in words)
    wanted = [(words[0].lower(), words[1].encode())] if changes else []
    tests.check(f"events of {name}", found == wanted, (found, reply))
    tests.check(f"WATCH and {name}", is_aborted == changes, reply)
    tests.check(f"the key after {name}", (client.done("DEBUG", "DIGEST") != before) == changes, reply)


def events_and_watch(tests):
    """Each change has one event, and ends transactions that watch the key. What changes nothing has none, and ends none."""
    with tests.main.client() as client, tests.main.client() as other:
        events = Events(tests.main)
        for command, changes in COMMANDS:
            one_change(tests, events, client, other, command, changes)
        image = client.done("SKETCH.IMAGE", "g")
        one_change(tests, events, client, other, ["SKETCH.LOAD", "none", "bloom_filter", image], True)
        one_change(tests, events, client, other, ["SKETCH.LOAD", "f", "bloom_filter", image, "REPLACE"], True)
        one_change(tests, events, client, other, ["SKETCH.LOAD", "f", "bloom_filter", image], False)
        one_change(tests, events, client, other, ["CMS.ADDLINES", "c", ""], False)
        one_change(tests, events, client, other, ["FREQ.ADDLINES", "t", ""], False)
        whole = client.done("BF.SCANDUMP", "g", 0)[1]
        one_change(tests, events, client, other, ["BF.LOADCHUNK", "none", len(whole), whole], True)
        one_change(tests, events, client, other, ["BF.LOADCHUNK", "f", len(whole), whole], True)
        one_change(tests, events, client, other, ["BF.LOADCHUNK", "f", 50 * 2, whole[:100]], False)
        one_change(tests, events, client, other, ["bf.AdD", "f", "new"], True)
        events.take()
        client.done("EVAL", "redis.call('FREQ.ADD', KEYS[1], 'x') redis.call('BF.EXISTS', KEYS[2], 'x')", 2, "t", "f")
        tests.check("events of a script", events.take() == [("freq.add", b"t")])
        client.done("FREQ.RESERVE", "small", 8)
        events.take()
        for i in range(50):
            client.done("FREQ.ADD", "small", f"item {i}")
        tests.check("events of purges", events.take() == [("freq.add", b"small")] * 50)
        events.close()


def quiet_replicas(tests):
    """What changes nothing is not sent to replicas."""
    master, replica = replicas.pair(tests, "quiet")
    with master, replica, master.client() as client, replica.client() as other:
        prepare(client)
        replicas.same_place(client, other)
        sent = lambda: client.done("INFO", "commandstats") and int(
            next(
                line for line in client.done("INFO", "replication").decode().split("\r\n") if line.startswith("master_repl_offset")
            ).split(":")[1]
        )
        for command, changes in COMMANDS:
            prepare(client)
            before = sent()
            client(*command.split())
            after = sent()
            # The master may send a PING at any time, of 14 bytes.
            tests.check(f"what {command} sends", (after - before) > 14 if changes else after - before in (0, 14), after - before)


def cut(whole, *cuts):
    """Returns the chunks of a state between places, with their ends."""
    places = [0, *cuts, len(whole)]
    return [(end, whole[start:end]) for start, end in zip(places, places[1:])]


def live_filters(tests):
    """A filter stays, and works, until the last chunk of another one is checked."""
    with tests.main.client() as client:
        client.done("FLUSHALL")
        client.done("BF.RESERVE", "new", "0.01", 500)
        client.done("BF.MADD", "new", *[f"new {i}" for i in range(400)])
        client.done("BF.RESERVE", "live", "0.01", 100)
        client.done("BF.MADD", "live", *[f"old {i}" for i in range(50)])
        client.done("PEXPIRE", "live", 10**6)
        chunks = cut(client.done("BF.SCANDUMP", "new", 0)[1], 100, 101, 300)
        old = [f"old {i}" for i in range(50)]
        for turn in range(2):
            for end, data in chunks[:-1]:
                before = client.done("SKETCH.IMAGE", "live")
                tests.check("a chunk is taken", client("BF.LOADCHUNK", "live", end, data) == "OK")
                tests.check(
                    "the old filter stays",
                    client.done("SKETCH.IMAGE", "live") == before
                    and client.done("TYPE", "live") == "rsk-bloom"
                    and client.done("BF.MEXISTS", "live", *old) == [1] * 50,
                )
            client.done("BF.ADD", "live", f"meanwhile {turn}")
            end, data = chunks[-1]
            before = client.done("DEBUG", "DIGEST")
            for damaged in [data[:-1] + bytes([data[-1] ^ 1]), bytes([data[0] ^ 128]) + data[1:]]:
                got = client("BF.LOADCHUNK", "live", end, damaged)
                tests.check(
                    "a damaged chunk", got == Error("ERR received bad data") and client.done("DEBUG", "DIGEST") == before, got
                )
            tests.check(
                "the old filter stays after it",
                client.done("BF.MEXISTS", "live", *old) == [1] * 50 and client.done("PTTL", "live") > 0,
            )
        tests.check(
            "a copy is the old filter",
            client.done("COPY", "live", "copy") == 1 and client.done("BF.CARD", "copy") == client.done("BF.CARD", "live"),
        )
        tests.check("a copy has no parts", client("BF.LOADCHUNK", "copy", *chunks[-1]) == Error("ERR received bad data"))
        tests.check("parts count as memory", client.done("MEMORY", "USAGE", "live") - client.done("MEMORY", "USAGE", "copy") >= 300)
        client.done("DEBUG", "RELOAD")
        tests.check("after a start the old filter is there", client.done("BF.MEXISTS", "live", *old) == [1] * 50)
        tests.check("and the chunks are sent again", client("BF.LOADCHUNK", "live", *chunks[-1]) == Error("ERR received bad data"))
        for chunk in chunks:
            client.done("BF.LOADCHUNK", "live", *chunk)
        tests.check(
            "the last chunk replaces it",
            client.done("SKETCH.IMAGE", "live") == client.done("SKETCH.IMAGE", "new")
            and client.done("BF.INFO", "live", "CAPACITY") == [500],
        )
        client.done("CMS.INITBYDIM", "count", 9, 3)
        tests.check("a key of another kind", "WRONGTYPE" in str(client("BF.LOADCHUNK", "count", *chunks[0])))


def live_replicas(tests):
    """A replica that copied all keys between two chunks gets the new filter, too. So does a file of commands."""
    master, replica = replicas.pair(tests, "live")
    master.settings["appendonly"] = "yes"
    with master, replica, master.client() as client, replica.client() as other:
        client.done("BF.RESERVE", "new", "0.01", 500)
        client.done("BF.MADD", "new", *[f"new {i}" for i in range(400)])
        client.done("BF.ADD", "live", "old")
        client.done("BF.ADD", "torn", "old")
        chunks = cut(client.done("BF.SCANDUMP", "new", 0)[1], 100, 200)
        client.done("BF.LOADCHUNK", "torn", *chunks[0])
        for key in ["live", "absent"]:
            for at, chunk in enumerate(chunks):
                if at == 2 and key == "live":
                    replicas.same_place(client, other)
                    other.done("REPLICAOF", "NO", "ONE")
                    other.done("DEBUG", "RELOAD")
                    other.done("REPLICAOF", "127.0.0.1", master.settings["port"])
                client.done("BF.LOADCHUNK", key, *chunk)
        tests.check("the replica follows", replicas.same_place(client, other))
        keys = ["live", "absent", "torn", "new"]
        own, its = stored.state(client, keys), stored.state(other, keys)
        tests.check("filters of chunks on the replica", own == its, [key for key in keys if own[key] != its[key]])
        tests.check("the old filter on both", own["torn"] != own["new"] and own["live"][0] == own["new"][0] == own["absent"][0])
        tests.check("no error on the replica", "CRITICAL" not in replica.log(), replica.log()[-500:])
        client.done("DEBUG", "LOADAOF")
        tests.check("filters of chunks after the file of commands", stored.state(client, keys) == own)
