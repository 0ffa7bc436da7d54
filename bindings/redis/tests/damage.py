"""Damaged bytes: payloads of RESTORE, images and files. Each is an error or a sketch that is whole, and the server runs on."""
import random
import struct

import oracle
from resp import Error

POLYNOMIAL = 0x95AC9329AC4BC9B5  # reflected, of the server's CRC-64


def table():
    values = []
    for byte in range(256):
        for _ in range(8):
            byte = byte >> 1 ^ (POLYNOMIAL if byte & 1 else 0)
        values.append(byte)
    return values


TABLE = table()


def crc64(data):
    value = 0
    for byte in data:
        value = TABLE[(value ^ byte) & 255] ^ value >> 8
    return value


def with_checksum(payload):
    """Returns a payload with the server's own checksum set right, so that the damage reaches the module."""
    return payload[:-8] + crc64(payload[:-8]).to_bytes(8, "little")


def changed(data, numbers):
    """Returns damaged bytes: some flipped, set, cut out or put in."""
    data = bytearray(data)
    for _ in range(1 + numbers.randrange(3)):
        at = numbers.randrange(len(data)) if data else 0
        how = numbers.randrange(5)
        if how <= 1 and data:
            data[at] ^= 1 << numbers.randrange(8)
        elif how == 2 and data:
            data[at] = numbers.choice([0, 1, 127, 128, 255])
        elif how == 3:
            del data[at : at + 1 + numbers.randrange(8)]
        else:
            data[at:at] = bytes(numbers.randrange(256) for _ in range(1 + numbers.randrange(4)))
    return bytes(data)


def sealed(tests, state):
    """Returns a state with the module's checksum and length set right, so that the checks after them are tried."""
    if len(state) < 88:
        return state
    state = state[:8] + len(state).to_bytes(8, "little") + state[16:]
    return state[:-8] + tests.library.keyed_hash(state[:-8], 0x7365686374656B73, 0x656C747461722D31).to_bytes(8, "little")


def use(client, key):
    """Calls what works on a loaded sketch. Returns the replies."""
    return [
        client(*command)
        for command in [
            ("BF.EXISTS", key, "a"),
            ("BF.INFO", key),
            ("BF.ADD", key, "b"),
            ("CMS.QUERY", key, "a"),
            ("CMS.INCRBY", key, "b", 3),
            ("FREQ.ROWS", key),
            ("FREQ.ADD", key, "b", "c"),
            ("TOPK.LIST", key),
            ("TOPK.QUERY", key, "a"),
            ("SKETCH.IMAGE", key),
            ("DUMP", key),
            ("MEMORY", "USAGE", key),
        ]
    ]


def small(client):
    """Makes small keys of each kind, with states of a few hundred bytes."""
    client.done("FLUSHALL")
    client.done("BF.RESERVE", "filter", "0.1", 200)
    client.done("CMS.INITBYDIM", "count", 12, 3)
    client.done("FREQ.RESERVE", "items", 16)
    client.done("TOPK.RESERVE", "top", 2)
    for i in range(30):
        client.many(
            [
                ("BF.ADD", "filter", i),
                ("CMS.INCRBY", "count", i, i),
                ("FREQ.INCRBY", "items", f"item {i}", i + 1),
                ("TOPK.ADD", "top", f"i{i % 5}"),
            ]
        )
    return ["filter", "count", "items", "top"]


def damaged_payloads(tests):
    """5,000 damaged payloads of RESTORE, and 2,000 states whose checksums are right."""
    numbers = random.Random(21)
    with tests.main.client() as client:
        keys = small(client)
        client.done("CONFIG", "SET", "rdbcompression", "no")
        whole = [client.done("DUMP", key) for key in keys]
        before = client.done("DEBUG", "DIGEST")
        digests = client.done("DEBUG", "DIGEST-VALUE", *keys)
        taken, refused, differ = 0, set(), []
        for i in range(5000):
            payload = whole[i % len(whole)]
            got = client("RESTORE", "damaged", 0, with_checksum(changed(payload[:-10], numbers) + payload[-10:]))
            if isinstance(got, Error):
                refused.add(str(got))
            else:  # a payload that is whole for all that: bytes that were set to what they were, or came after its end
                taken += 1
                if client.done("DEBUG", "DIGEST-VALUE", "damaged")[0] != digests[i % len(keys)]:
                    differ.append(payload)
                use(client, "damaged")
                client.done("DEL", "damaged")
        tests.check("payloads that are taken are whole", not differ, differ)
        tests.check("damaged payloads are errors", refused == {"ERR Bad data format"} and taken < 200, (taken, refused))
        tests.check("the server runs after damaged payloads", tests.main.runs() and client.done("DEBUG", "DIGEST") == before)
        states = [payload[payload.index(b"RSK") :] for payload in whole]
        states = [state[: int.from_bytes(state[8:16], "little")] for state in states]
        loaded = 0
        for i in range(2000):
            state = states[i % len(states)]
            got = client("SKETCH.STATE", "damaged", 0, sealed(tests, changed(state[:-8], numbers) + state[-8:]))
            if not isinstance(got, Error):
                loaded += 1
                use(client, "damaged")
                client.done("DEL", "damaged")
            elif str(got) not in (
                "ERR received bad data",
                "ERR a sketch of this command takes more bytes than the module's max-bytes",
                "ERR a sketch of this command has more hashes than the module's max-hashes",
            ):
                tests.check("an error of a damaged state", False, got)
        tests.check("damaged states with checksums", 50 < loaded < 1900, loaded)
        tests.check("the server runs after damaged states", tests.main.runs() and client.done("DEBUG", "DIGEST") == before)


def unsound_states(tests):
    """States whose checksums are right, with numbers that no sketch has: each is an error."""
    with tests.main.client() as client:
        keys = small(client)
        client.done("CONFIG", "SET", "rdbcompression", "no")
        states = {}
        for key in keys:
            payload = client.done("DUMP", key)
            state = payload[payload.index(b"RSK") :]
            states[key] = state[: int.from_bytes(state[8:16], "little")]
        places = {"length": 8, "seed": 16, "capacity": 40, "inserted": 48, "rate": 56, "width": 64, "depth": 72}
        real = lambda number: int.from_bytes(struct.pack("<d", number), "little")
        for key, name, values in [
            ("filter", "seed", [7]),
            ("filter", "capacity", [0, 2**63]),
            ("filter", "inserted", [2**63]),
            ("filter", "rate", [real(0.0), real(1.0), real(-1.0), real(float("nan"))]),
            ("items", "capacity", [0, 2**32]),
            ("items", "width", [2**32]),
            ("items", "depth", [2**32]),
            ("items", "rate", [real(0.0), real(1.1), real(float("inf")), real(float("nan"))]),
            ("count", "seed", [1]),
        ]:
            for value in values:
                at = places[name]
                state = sealed(tests, states[key][:at] + value.to_bytes(8, "little") + states[key][at + 8 :])
                got = client("SKETCH.STATE", "unsound", 0, state)
                tests.check(f"a state of {key} with {name} {value}", str(got) == "ERR received bad data", got)
        flagged = states["filter"][:5] + b"\x02" + states["filter"][6:]
        tests.check("a flag of an earlier version", client("SKETCH.STATE", "flagged", 0, sealed(tests, flagged)) == "OK")
        for key, state in states.items():
            tests.check(f"the state of {key}", client("SKETCH.STATE", "sound", 0, sealed(tests, state)) == "OK")


def damaged_images(tests):
    """5,000 damaged images: each is an error where C returns one, and otherwise loads the sketch that C loads."""
    numbers = random.Random(22)
    kinds = {"bloom_filter": oracle.BLOOM, "count_min": oracle.COUNT, "frequent_strings": oracle.STRINGS}
    with tests.main.client() as client:
        keys = small(client)
        whole = dict(zip(kinds, [client.done("SKETCH.IMAGE", key) for key in keys]))
        seed = int(client.done("SKETCH.SEED", "count"))
        before = client.done("DEBUG", "DIGEST")
        loaded, wrong = 0, []
        for i in range(5000):
            name = list(kinds)[i % 3]
            image = changed(whole[name], numbers)
            got = client("SKETCH.LOAD", "damaged", name, image, "SEED", seed)
            try:
                own = oracle.loaded(tests.library, kinds[name], image, seed)
            except ValueError:
                own = None
            if isinstance(got, Error):
                if own is not None and "max-" not in str(got) and "out of range" not in str(got):
                    wrong.append(("an image that C reads", name, got))
                continue
            loaded += 1
            found = client.done("SKETCH.IMAGE", "damaged")
            if own is None:
                wrong.append(("an image that C does not read", name, image))
            elif name != "frequent_strings" and found != own.image():
                wrong.append(("another sketch than in C", name, image))
            elif name == "frequent_strings" and oracle.counters_of(found) != oracle.counters_of(own.image()):
                wrong.append(("other counters than in C", name, image))
            use(client, "damaged")
            client.done("DEL", "damaged")
        tests.check("damaged images are read as in C", not wrong, wrong[:3])
        tests.check("damaged images", 50 < loaded < 3000, loaded)
        tests.check("the server runs after damaged images", tests.main.runs() and client.done("DEBUG", "DIGEST") == before)


def damaged_files(tests):
    """Damaged files: the server stops with a message, or starts with whole sketches. It does not crash."""
    numbers = random.Random(23)
    on = tests.server("damaged files", rdbchecksum="no", rdbcompression="no")
    with on, on.client() as client:
        small(client)
        client.done("SAVE")
    with open(f"{on.folder}/dump.rdb", "rb") as file:
        whole = file.read()
    places = [at for at in range(len(whole)) if whole[at : at + 4] == b"RSK\x01"]
    stopped = 0
    for _ in range(24):
        at = min(numbers.choice(places) + numbers.randrange(300), len(whole) - 10)
        damaged = whole[:at] + bytes([whole[at] ^ 1 << numbers.randrange(8)]) + whole[at + 1 :]
        with open(f"{on.folder}/dump.rdb", "wb") as file:
            file.write(damaged)
        on.start(wait=False)
        try:
            on.wait(20)
            tests.check("a server with a damaged file stops", on.stop() == 0)
        except RuntimeError:
            # The status is that of the server's own check of the file, to which a value of a module is just bytes.
            tests.check("a server with a damaged file ends", on.process.wait(timeout=20) in (0, 1), on.process.poll())
            on.process = None
            stopped += 1
    tests.check("damaged files are found", stopped >= 20 and "in database 0 cannot be read: " in on.log(), stopped)
