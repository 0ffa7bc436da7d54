"""What an administrator sets: who gets secrets, limits and their units, and what the log has of damaged keys."""
import glob
import os
import re
import struct

import damage
import redis_page
import tables
from resp import Error

HERE = os.path.dirname(os.path.abspath(__file__))
SEED = 0x7A3B5C9D1E2F4860
TOO_MANY = Error("ERR a sketch of this command has more hashes than the module's max-hashes")
TOO_MUCH = Error("ERR a sketch of this command takes more bytes than the module's max-bytes")


def empty_image(hashes, words=1, seed=9001):
    """Returns the image of an empty filter, of 24 bytes, as the page on formats has it."""
    return struct.pack("<BBBBHHQiI", 3, 1, 21, 4, hashes, 0, seed, words, 0)


def rule():
    """Returns the page's rule of ACL for users who get no secrets."""
    with open(redis_page.PAGE, encoding="utf-8") as file:
        return re.search(r"`([^`]*-sketch\.seed[^`]*)`", file.read()).group(1).split()


def secrets(tests):
    """A user under the page's rule has all other commands, and no reply has the seed."""
    with tests.main.client() as client:
        client.done("FLUSHALL")
        client.done("BF.RESERVE", "f", "0.01", 100, "SEED", SEED)
        client.done("CMS.INITBYDIM", "c", 100, 3, "SEED", SEED)
        client.done("BF.ADD", "f", "a")
        client.done("CMS.INCRBY", "c", "a", 1)
        client.done("FREQ.RESERVE", "r", 64)
        shown = [SEED.to_bytes(8, "little"), str(SEED).encode()]
        has_secret = lambda reply: any(part in (reply if isinstance(reply, bytes) else repr(reply).encode()) for part in shown)
        flat = (
            lambda reply: b"".join(map(flat, reply))
            if isinstance(reply, list)
            else reply
            if isinstance(reply, bytes)
            else str(reply).encode()
        )
        for command in ["SKETCH.SEED f", "SKETCH.SEED c", "SKETCH.IMAGE f", "BF.SCANDUMP f 0", "DUMP f", "DUMP c"]:
            tests.check(f"{command} has the seed", has_secret(flat(client.done(*command.split()))))
        client.done("ACL", "SETUSER", "guest", "on", "nopass", "~*", "+@all", *rule())
        names = [name.decode() for name in client.done("COMMAND", "LIST", "FILTERBY", "MODULE", "rattle_sketches")]
        with tests.main.client() as guest:
            guest.done("AUTH", "guest", "")
            denied = set()
            for name in names + ["DUMP", "MIGRATE", "DEBUG", "SYNC", "COPY", "OBJECT", "EVAL"]:
                for key in ["f", "c"]:
                    words = {"BF.SCANDUMP": [0], "COPY": [f"copy {key}"], "SKETCH.STATE": [0, "x"]}.get(name, ["a"])
                    if name in (
                        "DEBUG",
                        "EVAL",
                        "OBJECT",
                        "DUMP",
                        "SKETCH.SEED",
                        "SKETCH.IMAGE",
                        "SKETCH.INFO",
                        "CMS.INFO",
                        "BF.INFO",
                        "FREQ.HALVE",
                    ):
                        words = []
                    subcommand = {
                        "OBJECT": ["ENCODING"],
                        "DEBUG": ["OBJECT"],
                        "EVAL": ["return redis.call('DUMP', KEYS[1])", 1],
                    }.get(name, [])
                    if name == "SYNC" or name == "MIGRATE":
                        reply = client("ACL", "DRYRUN", "guest", name, *([] if name == "SYNC" else ["127.0.0.1", 1, key, 0, 1]))
                        denied |= {name} if reply != "OK" else set()
                        continue
                    reply = guest(name, *subcommand, key, *words)
                    if "NOPERM" in str(reply) or "can't run this command" in str(reply):
                        denied.add(name)
                    tests.check(f"{name} to a guest", not has_secret(flat(reply)), reply)
        wanted = {"SKETCH.SEED", "SKETCH.STATE", "SKETCH.IMAGE", "BF.SCANDUMP", "DUMP", "MIGRATE", "DEBUG", "SYNC", "EVAL"}
        tests.check("what a guest does not get", denied == wanted, denied ^ wanted)
        client.done("ACL", "DELUSER", "guest")


def hashes(tests):
    """An image whose hashes would block the server is an error, by each command that reads one. Files are read for all that."""
    with tests.main.client() as client:
        client.done("FLUSHALL")
        for words in [1, 1 << 23]:  # 64 MB, if it were created
            for count, wanted in [(32767, TOO_MANY), (256, TOO_MANY)]:
                before = client.server_time()
                got = client("SKETCH.LOAD", "l", "bloom_filter", empty_image(count, words))
                took = client.server_time() - before
                tests.check(
                    f"an image of {count} hashes", got == wanted and took < 0.05 and client.done("EXISTS", "l") == 0, (got, took)
                )
        tests.check("an image of 255 hashes", client("SKETCH.LOAD", "l", "bloom_filter", empty_image(255)) == "OK")
        tests.check("255 rows", client("CMS.INITBYDIM", "rows", 3, 255) == "OK")
    on = tests.server("many hashes", rdbcompression="no")
    on.words = ["max-hashes", 32767]
    with on, on.client() as client:
        tests.check("an argument for more", client("SKETCH.LOAD", "l", "bloom_filter", empty_image(32767)) == "OK")
        client.done("BF.ADD", "l", "a")
        payload, chunk = client.done("DUMP", "l"), client.done("BF.SCANDUMP", "l", 0)
        state = payload[payload.index(b"RSK") :]
        state = state[: int.from_bytes(state[8:16], "little")]
        client.done("SAVE")
        client.done("CONFIG", "SET", "rattle_sketches.max-hashes", 3)
        for command, wanted in [
            (("RESTORE", "m", 0, payload), Error("ERR Bad data format")),
            (("BF.LOADCHUNK", "m", *chunk), TOO_MANY),
            (("SKETCH.STATE", "m", 0, state), TOO_MANY),
            (("SKETCH.LOAD", "m", "bloom_filter", client.done("SKETCH.IMAGE", "l")), TOO_MANY),
            (("BF.RESERVE", "m", "0.01", 100), TOO_MANY),
            (("CMS.INITBYDIM", "m", 100, 4), TOO_MANY),
            (("CMS.INITBYPROB", "m", "0.1", "0.03"), TOO_MANY),
            (("BF.ADD", "m", "a"), TOO_MANY),
        ]:
            got = client(*command)
            tests.check(f"{command[0]} of too many hashes", got == wanted and client.done("EXISTS", "m") == 0, got)
        tests.check("fewer fit", client("CMS.INITBYDIM", "m", 100, 3) == "OK" and client("BF.RESERVE", "n", "0.2", 100) == "OK")
        client.done("DEBUG", "RELOAD")
        tests.check("a file is read", client.done("BF.EXISTS", "l", "a") == 1)


# Numbers of sketches that no reply has under a name.
LEFT_OUT = {
    "bits_used": "BF.CARD counts items",
    "current_map_capacity": "SKETCH.INFO has the slots of the table",
    "kind": "SKETCH.INFO has the name of the kind",
    "sample_size": "always the largest one of the size",
    "seed": "SKETCH.SEED alone has it, which few users have",
}


def numbers(tests):
    """Each number of sketches has a name in a reply, or is left out on purpose."""
    shown = set()
    for path in glob.glob(f"{os.path.dirname(HERE)}/src/*.c"):
        with open(path, encoding="utf-8") as file:
            shown |= {name.lower() for name in re.findall(r'"[a-z-]+", (?:DS_NUMBER_|status\.)(\w+)[})]', file.read())}
    tables.check_shown(tests.check, shown, LEFT_OUT)


def information(tests):
    """SKETCH.INFO: the sizes of a sketch beside the limits."""
    with tests.main.client(3) as client:
        client.done("FLUSHALL")
        client.done("SKETCH.LOAD", "f", "bloom_filter", empty_image(7, 100))
        client.done("CMS.INITBYDIM", "c", 100, 3)
        client.done("FREQ.RESERVE", "r", 64)
        client.done("FREQ.ADD", "r", "abc")
        limits = {"max-bytes": 64 << 20}
        # 8 bytes for each word of a filter, 8 for each cell and row of Count-Min, and 44 for each slot and the bytes of the strings
        for key, wanted in [
            (
                "f",
                {
                    "kind": b"bloom_filter",
                    "bytes": 800,
                    **limits,
                    "bits": 6400,
                    "max-bits": 512 << 20,
                    "hashes": 7,
                    "max-hashes": 255,
                },
            ),
            ("c", {"kind": b"count_min", "bytes": 8 * 303, **limits, "cells": 300, "hashes": 3, "max-hashes": 255}),
            ("r", {"kind": b"frequent_strings", "bytes": 8 * 44 + 3, **limits, "slots": 8}),
        ]:
            got = client.done("SKETCH.INFO", key)
            tests.check(f"SKETCH.INFO {key}", got == wanted, got)


def parameters(tests):
    """Limits are parameters of CONFIG, with units, and arguments of the module with the same units. They hold at once."""
    on = tests.server("parameters")
    on.words = ["max-bytes", "64kb", "MAX-MERGE-BYTES", "1m", "max-hashes", 20]
    with on, on.client() as client:
        get = lambda name: client.done("CONFIG", "GET", f"rattle_sketches.{name}")[1:]
        tests.check(
            "arguments with units",
            [get("max-bytes"), get("max-merge-bytes"), get("max-hashes")] == [[b"65536"], [b"1000000"], [b"20"]],
        )
        tests.check("a limit of an argument", client("BF.RESERVE", "f", "0.01", 55000) == TOO_MUCH)
        for value, bytes_of_it in [
            ("128kb", 131072),
            ("1mb", 1 << 20),
            ("2GB", 2 << 30),
            ("3m", 3000000),
            ("100000", 100000),
            ("4gb", 4 << 30),
        ]:
            client.done("CONFIG", "SET", "rattle_sketches.max-bytes", value)
            tests.check(f"CONFIG SET of {value}", get("max-bytes") == [str(bytes_of_it).encode()])
        client.done("CONFIG", "SET", "rattle_sketches.max-bytes", "70kb", "rattle_sketches.max-merge-bytes", "10kb")
        tests.check(
            "a new limit holds",
            client("BF.RESERVE", "f", "0.01", 55000) == "OK" and client("BF.RESERVE", "g", "0.01", 60000) == TOO_MUCH,
        )
        tests.check("a new limit of merges holds", "max-merge-bytes" in str(client("BF.MERGE", "f", "f")))
        for name, value in [
            ("max-bytes", "x"),
            ("max-bytes", "-1"),
            ("max-bytes", 1023),
            ("max-bytes", "2000gb"),
            ("max-hashes", 0),
            ("max-hashes", 32768),
            ("max-hashes", "1kb"),
        ]:
            got = client("CONFIG", "SET", f"rattle_sketches.{name}", value)
            tests.check(f"CONFIG SET of {name} {value}", isinstance(got, Error) and get(name) in ([b"71680"], [b"20"]), got)
        client.done("CONFIG", "REWRITE")
        on.stop()
        with open(f"{on.folder}/redis.conf", encoding="utf-8") as file:
            written = file.read()
        tests.check(
            "CONFIG REWRITE", re.search(r"^rattle_sketches\.max-bytes (70kb|71680)$", written, re.MULTILINE), written[-500:]
        )
    for words in [
        ["max-bytes", "1kb2"],
        ["max-bytes", "kb"],
        ["max-hashes", "1k"],
        ["max-bytes", "99999999999999999999"],
        ["max-bytes", "9999999999gb"],
    ]:
        on = tests.server("bad limit " + " ".join(map(str, words)))
        on.words = words
        on.start(wait=False)
        tests.check(f"arguments {words}", on.process.wait(timeout=20) == 1 and "the arguments of the module are" in on.log())
        on.process = None


def damaged_keys(tests):
    """The log has the key, the database and the reason of a sketch that cannot be read, also of a key of any bytes."""
    with tests.server("damaged keys", rdbcompression="no") as on, on.client() as client:
        client.done("BF.RESERVE", "f", "0.01", 100)
        client.done("SELECT", 3)
        payload = client.done("DUMP", "f") if client.done("EXISTS", "f") else None
        client.done("SELECT", 0)
        payload = payload or client.done("DUMP", "f")
        at = payload.index(b"RSK") + 90
        damaged = damage.with_checksum(payload[:at] + bytes([payload[at] ^ 1]) + payload[at + 1 :])
        client.done("SELECT", 3)
        for key, shown in [("my:key", "'my:key'"), (b"a\nb'\xff\\", "'a\\x0ab\\x27\\xff\\x5c'"), (b"x" * 1000, "'" + "x" * 200)]:
            tests.check("a wrong checksum", client("RESTORE", key, 0, damaged) == Error("ERR Bad data format"))
            line = next((line for line in on.log().split("\n") if shown in line), "")
            tests.check(
                f"the log of {shown[:20]}", "database 3" in line and "wrong checksum" in line and len(line) < 500, on.log()[-600:]
            )
        tests.check("a line for each key", on.log().count("cannot be read: wrong checksum") == 3)
        client.done("SELECT", 0)
        client.done("SAVE")
        with open(f"{on.folder}/dump.rdb", "rb") as file:
            whole = file.read()
        on.stop()
        at = whole.index(b"RSK") + 90
        with open(f"{on.folder}/dump.rdb", "wb") as file:
            file.write(damage.with_checksum(whole[:at] + bytes([whole[at] ^ 1]) + whole[at + 1 :]))
        on.start(wait=False)
        on.process.wait(timeout=30)
        on.process = None
        tests.check(
            "the log of a file",
            "the sketch of the key 'f' in database 0 cannot be read: wrong checksum" in on.log(),
            on.log()[-600:],
        )
        os.remove(f"{on.folder}/dump.rdb")
