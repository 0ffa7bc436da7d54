"""The commands by redis-cli and by python3-redis, as they are."""
import subprocess

import redis
from redis.commands.bf import commands as bf_commands


def command_line(tests):
    """redis-cli, in both versions of the protocol."""

    def run(*words, version=2):
        return subprocess.run(
            ["redis-cli", "-s", tests.main.socket, *(["-3"] if version == 3 else []), *words],
            capture_output=True,
            text=True,
            check=True,
        ).stdout

    run("FLUSHALL")
    for words, wanted in [
        (["BF.RESERVE", "f", "0.01", "100"], "OK\n"),
        (["BF.MADD", "f", "a", "b", "a"], "1\n1\n0\n"),
        (["CMS.INITBYDIM", "c", "200", "3"], "OK\n"),
        (["CMS.INCRBY", "c", "a", "4", "b", "2"], "4\n2\n"),
        (["CMS.INFO", "c"], "width\n200\ndepth\n3\ncount\n6\n"),
        (["TOPK.RESERVE", "t", "2"], "OK\n"),
        (["TOPK.ADD", "t", "x", "y", "x"], "\n\n\n"),
        (["TOPK.LIST", "t", "WITHCOUNT"], "x\n2\ny\n1\n"),
        (["FREQ.BOUNDS", "t", "x"], "2\n2\n"),
    ]:
        got = run(*words)
        tests.check(f"redis-cli {' '.join(words)}", got == wanted, got)
    got = run("BF.EXISTS", "f", "a", version=3)
    tests.check("redis-cli -3 BF.EXISTS", got.strip() == "(true)", got)


def raises(error, call, *words, **options):
    try:
        call(*words, **options)
    except redis.ResponseError as raised:
        return error in str(raised)
    return False


def dumped(client, key, at):
    """Returns the next chunk of a filter. Where python3-hiredis is installed, python3-redis has no call for it."""
    try:
        return client.bf().scandump(key, at)
    except redis.exceptions.ModuleError:
        return client.execute_command("BF.SCANDUMP", key, at)


def python(tests):
    """Debian's python3-redis, unchanged: its calls for filters, counts and frequent items. With and without python3-hiredis: what it
    does where that is installed is tried in any case, and its parser if it is there."""
    parsers = [redis.connection.PythonParser] + [redis.connection.HiredisParser] * redis.utils.HIREDIS_AVAILABLE
    for parser in parsers:
        for has_hiredis in {False, True} if parser is redis.connection.PythonParser else {True}:
            bf_commands.HIREDIS_AVAILABLE = has_hiredis
            pool = redis.ConnectionPool(
                connection_class=redis.UnixDomainSocketConnection, path=tests.main.socket, parser_class=parser
            )
            python_calls(tests, redis.Redis(connection_pool=pool))
            pool.disconnect()
    bf_commands.HIREDIS_AVAILABLE = redis.utils.HIREDIS_AVAILABLE


def python_calls(tests, client):
    client.flushall()
    bf, cms, topk = client.bf(), client.cms(), client.topk()
    check = tests.check
    check(
        "python: bf().create",
        bf.create("f", 0.01, 1000) is True
        and bf.create("g", 0.01, 100, expansion=2) is True
        and bf.create("h", 0.01, 100, noScale=True) is True
        and raises("item exists", bf.create, "f", 0.01, 1000),
    )
    check("python: bf().add", bf.add("f", "a") == 1 and bf.add("f", "a") == 0 and bf.madd("f", "a", "b") == [0, 1])
    check("python: bf().exists", bf.exists("f", "b") == 1 and bf.exists("f", "z") == 0 and bf.mexists("f", "a", "z") == [1, 0])
    check(
        "python: bf().insert",
        bf.insert("i", ["x", "y"], capacity=50, error=0.001, noScale=True) == [1, 1]
        and bf.insert("i", ["x", "z"], noCreate=True) == [0, 1]
        and raises("not found", bf.insert, "none", ["x"], noCreate=True),
    )
    bf.create("n", 0.01, 2, noScale=True)
    got = bf.madd("n", "a", "b", "a", "c")
    check(
        "python: a full filter",
        got[:3] == [1, 1, 0]
        and isinstance(got[3], redis.ResponseError)
        and len(got) == 4
        and raises("non scaling filter is full", bf.add, "n", "c")
        and bf.add("n", "a") == 0,
        got,
    )
    info = bf.info("f")
    check(
        "python: bf().info",
        (info.capacity, info.filterNum, info.insertedNum, info.expansionRate) == (1000, 1, 2, None) and info.size >= 1198,
        vars(info),
    )
    chunks, at = [], 0
    while True:
        at, data = dumped(client, "f", at)
        if at == 0:
            break
        chunks.append((at, data))
    for position, data in chunks:
        check("python: bf().loadchunk", bf.loadchunk("loaded", position, data) in (True, b"OK"))
    check(
        "python: a loaded filter",
        bf.mexists("loaded", "a", "b", "z") == [1, 1, 0] and bf.info("loaded").insertedNum == 2 and len(chunks) > 0,
    )
    check(
        "python: cms().initbydim",
        cms.initbydim("c", 1000, 5) is True
        and cms.initbyprob("p", 0.01, 0.01) is True
        and raises("key already exists", cms.initbydim, "c", 10, 5),
    )
    check("python: cms().incrby", cms.incrby("c", ["a", "b"], [10, 5]) == [10, 5] and cms.query("c", "a", "b", "z") == [10, 5, 0])
    cms.initbydim("d", 1000, 5)
    check(
        "python: cms().merge",
        cms.merge("d", 2, ["c", "d"], [3, 1]) is True
        and cms.query("d", "a", "b") == [30, 15]
        and cms.merge("d", 1, ["c"]) is True
        and cms.query("d", "a") == [10],
    )
    info = cms.info("c")
    check("python: cms().info", (info.width, info.depth, info.count) == (1000, 5, 15), vars(info))
    check("python: topk().reserve", topk.reserve("t", 2, 50, 4, 0.9) is True)
    check(
        "python: topk().add", topk.add("t", "a", "b", "a", "c") == [None] * 4 and topk.incrby("t", ["a", "c"], [3, 7]) == [None] * 2
    )
    check("python: topk().query", topk.query("t", "a", "b", "c") == [1, 0, 1] and topk.count("t", "a", "b", "c") == [5, 1, 8])
    check("python: topk().list", topk.list("t") == ["c", "a"] and topk.list("t", withcount=True) == ["c", 8, "a", 5])
    info = topk.info("t")
    check("python: topk().info", (info.k, info.width, info.depth, float(info.decay)) == (2, 50, 4, 0.9), vars(info))
    pipe = client.pipeline()
    for i in range(100):
        pipe.execute_command("FREQ.ADD", "t", f"item {i % 7}")
    check("python: a pipeline", set(pipe.execute()) == {b"OK"} and client.execute_command("FREQ.INFO", "t")[7] == 114)
    check("python: lines", client.execute_command("BF.ADDLINES", "f", "\n".join(["a", "c", "d"])) == 2 and bf.exists("f", "d") == 1)
    client.close()
