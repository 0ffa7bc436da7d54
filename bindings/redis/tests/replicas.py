"""A replica: it has the same images as its master, also after it was cut off and came back."""
import signal
import socket
import time

import stored


def free_port():
    with socket.socket() as it:
        it.bind(("127.0.0.1", 0))
        return it.getsockname()[1]


def pair(tests, name, module=None):
    """Returns a master and its replica."""
    port = free_port()
    master = tests.server(
        f"{name} master", module, port=port, bind="127.0.0.1", repl_backlog_size=16384, repl_diskless_sync_delay=0
    )
    replica = tests.server(f"{name} replica", module, replicaof=f"127.0.0.1 {port}", repl_ping_replica_period=1)
    return master, replica


def same_place(client, other, seconds=30):
    """Waits until the replica has what the master sent."""
    end = time.monotonic() + seconds
    while time.monotonic() < end:
        own, its = [
            dict(line.split(":", 1) for line in it.done("INFO", "replication").decode().split("\r\n") if ":" in line)
            for it in (client, other)
        ]
        if its.get("master_link_status") == "up" and own["master_repl_offset"] == its.get("slave_repl_offset"):
            return True
        time.sleep(0.01)
    return False


def compare(tests, name, client, other):
    tests.check(f"{name}: the replica follows", same_place(client, other))
    own, its = stored.state(client), stored.state(other)
    for key, said in own.items():
        tests.check(f"{name}: {key} on the replica", its[key] == said)


def follows(tests):
    """A replica from the start: each kind of change, and then as a master of its own."""
    master, replica = pair(tests, "following")
    with master, replica, master.client() as client, replica.client() as other:
        tests.check("the replica is there", same_place(client, other))
        stored.fill(client, "followed")
        compare(tests, "followed", client, other)
        client.done("PEXPIRE", "large", 1000000)
        client.done("CMS.INITBYDIM", "sum", 500, 3)
        client.done("CMS.MERGE", "sum", 2, "count", "count", "WEIGHTS", 3, 5)
        client.done("CMS.MERGE", "count", 2, "count", "sum")
        client.done("CMS.DECAY", "count", 2, 3)
        client.done("CMS.HALVE", "count")
        client.done("FREQ.MERGE", "items", "top", "large")
        client.done("FREQ.MERGE", "both", "items", "large")
        client.done("BF.ADD", "made", "a")
        client.done("BF.INSERT", "inserted", "CAPACITY", 5000, "ITEMS", *range(100))
        for key in stored.KEYS:
            client.done("COPY", key, f"{key} copied")
            client.done("RESTORE", f"{key} restored", 0, client.done("DUMP", key))
        image = client.done("SKETCH.IMAGE", "filter")
        client.done("SKETCH.LOAD", "loaded", "bloom_filter", image)
        whole = client.done("BF.SCANDUMP", "filter", 0)[1]
        client.done("BF.LOADCHUNK", "chunked", 500, whole[:500])
        client.done("BF.LOADCHUNK", "chunked", len(whole), whole[500:])
        client.done("BF.RESERVE", "wide", "0.001", 1000000)
        client.done("BF.ADD", "wide", "a")
        client.done("BF.ADD", "wide copy", "a")
        client.done("PEXPIRE", "wide copy", 1000000)
        client.done("SKETCH.LOAD", "wide copy", "bloom_filter", client.done("SKETCH.IMAGE", "wide"), "REPLACE")
        client.done("EVAL", "for i = 1, 500 do redis.call('FREQ.ADD', KEYS[1], 'scripted ' .. i) end", 1, "items")
        stored.change(client, "later")
        keys = sorted(key.decode() for key in client.done("KEYS", "*"))
        tests.check(
            "all keys on the replica", same_place(client, other) and sorted(key.decode() for key in other.done("KEYS", "*")) == keys
        )
        own, its = stored.state(client, keys), stored.state(other, keys)
        for key in keys:
            tests.check(f"{key} on the replica", its[key] == own[key])
        tests.check("DEBUG DIGEST of both", client.done("DEBUG", "DIGEST") == other.done("DEBUG", "DIGEST"))
        tests.check("a replica does not write", "READONLY" in str(other("BF.ADD", "filter", "a")))
        other.done("REPLICAOF", "NO", "ONE")
        other.done("CMS.INITBYDIM", "own", 500, 3)
        tests.check(
            "a replica that became a master has the seed", other.done("SKETCH.SEED", "own") == client.done("SKETCH.SEED", "sum")
        )


def cut_off(tests):
    """A replica that is cut off and comes back: by the commands that it missed, and by a copy of all keys."""
    master, replica = pair(tests, "cut off")
    with master, replica, master.client() as client, replica.client() as other:
        stored.fill(client, "before")
        compare(tests, "before the cut", client, other)
        client.done("CLIENT", "KILL", "TYPE", "replica")
        client.done("FREQ.ADD", "items", "missed")
        client.done("BF.ADD", "filter", "missed")
        compare(tests, "after a short cut", client, other)
        for turn in range(2):
            replica.process.send_signal(signal.SIGSTOP)
            client.done("CLIENT", "KILL", "TYPE", "replica")
            stored.change(client, f"cut {turn}")
            replica.process.send_signal(signal.SIGCONT)
            compare(tests, f"after a long cut {turn}", client, other)
            for step in range(5):
                stored.change(client, f"after it {turn} {step}", 500)
                compare(tests, f"changes after a long cut {turn} {step}", client, other)
        stats = dict(line.split(":", 1) for line in client.done("INFO", "stats").decode().split("\r\n") if ":" in line)
        ways = [int(stats[name]) for name in ("sync_full", "sync_partial_ok")]
        tests.check("both ways back", ways[0] >= 2 and ways[1] >= 1, ways)
        replica.stop()
        stored.change(client, "while it was down")
        replica.start()
        with replica.client() as third:
            compare(tests, "after a start", client, third)
