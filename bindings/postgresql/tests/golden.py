"""Stored sketches of the first format, built here from `docs/FORMATS.md` alone: hashes, images, header and checksum. Each later
version of the extension reads them."""
import base64
import struct

WORD = (1 << 64) - 1


def rotated(number, bits):
    return (number << bits | number >> 64 - bits) & WORD


def mixed(number):
    """Returns the final mixing of MurmurHash3."""
    for factor in [0xFF51AFD7ED558CCD, 0xC4CEB9FE1A85EC53]:
        number = (number ^ number >> 33) * factor & WORD
    return number ^ number >> 33


def murmur3(data, seed):
    """Returns the first half of MurmurHash3 x64 128."""
    first, second = 0x87C37B91114253D5, 0x4CF5AD432745937F
    one = two = seed
    whole = len(data) // 16 * 16
    for start in range(0, whole, 16):
        low, high = struct.unpack_from("<QQ", data, start)
        one ^= rotated(low * first & WORD, 31) * second & WORD
        one = ((rotated(one, 27) + two) * 5 + 0x52DCE729) & WORD
        two ^= rotated(high * second & WORD, 33) * first & WORD
        two = ((rotated(two, 31) + one) * 5 + 0x38495AB5) & WORD
    rest = data[whole:]
    low, high = struct.unpack("<QQ", rest.ljust(16, b"\0"))
    if len(rest) > 8:
        two ^= rotated(high * second & WORD, 33) * first & WORD
    if rest:
        one ^= rotated(low * first & WORD, 31) * second & WORD
    one, two = one ^ len(data), two ^ len(data)
    one = (one + two) & WORD
    two = (two + one) & WORD
    return (mixed(one) + mixed(two)) & WORD


def xxh64(data, seed):
    """Returns XXH64 of fewer than 32 bytes."""
    primes = [0x9E3779B185EBCA87, 0xC2B2AE3D27D4EB4F, 0x165667B19E3779F9, 0x85EBCA77C2B2AE63, 0x27D4EB2F165667C5]
    hashed, at = (seed + primes[4] + len(data)) & WORD, 0
    while at + 8 <= len(data):
        lane = struct.unpack_from("<Q", data, at)[0]
        hashed ^= rotated(lane * primes[1] & WORD, 31) * primes[0] & WORD
        hashed = (rotated(hashed, 27) * primes[0] + primes[3]) & WORD
        at += 8
    if at + 4 <= len(data):
        hashed ^= struct.unpack_from("<I", data, at)[0] * primes[0] & WORD
        hashed = (rotated(hashed, 23) * primes[1] + primes[2]) & WORD
        at += 4
    for byte in data[at:]:
        hashed = rotated(hashed ^ byte * primes[4] & WORD, 11) * primes[0] & WORD
    hashed = (hashed ^ hashed >> 33) * primes[1] & WORD
    hashed = (hashed ^ hashed >> 29) * primes[2] & WORD
    return hashed ^ hashed >> 32


def crc32c(data):
    crc = 0xFFFFFFFF
    for byte in data:
        crc ^= byte
        for _ in range(8):
            crc = crc >> 1 ^ (0x82F63B78 if crc & 1 else 0)
    return crc ^ 0xFFFFFFFF


def fed(item):
    """Returns the bytes that an item feeds to a hash: a bigint its 8 bytes, a string its UTF-8 and a last byte."""
    return struct.pack("<q", item) if isinstance(item, int) else item.encode() + b"\xff"


def frequent(counters, total, error):
    """Returns the image of frequent items, of at most 1024 slots and 8 now."""
    items = list(counters)
    tail = b"".join(struct.pack("<q", item) if isinstance(item, int) else struct.pack("<I", len(item.encode())) + item.encode()
                    for item in items)
    head = struct.pack("<BBBBBBHIIQQ", 4, 1, 10, 10, 3, 0, 0, len(items), 0, total, error)
    return head + b"".join(struct.pack("<Q", counters[item]) for item in items) + tail


def seed_hash(seed):
    """Returns the hash of a seed that an image of Count-Min has."""
    return murmur3(struct.pack("<Q", seed), 0) % (1 << 16)


def count_min(weights, hashes, buckets, seed=9001):
    """Returns the image of a Count-Min sketch."""
    cells = [0] * (hashes * buckets)
    for item, weight in weights.items():
        for row in range(hashes):
            cells[row * buckets + murmur3(fed(item), murmur3(struct.pack("<Q", row), seed)) % buckets] += weight
    total = sum(abs(weight) for weight in weights.values())
    head = struct.pack("<BBBBIIBHB", 2, 1, 18, 0, 0, buckets, hashes, seed_hash(seed), 0)
    return head + struct.pack("<q", total) + b"".join(struct.pack("<q", cell) for cell in cells)


def bloom(items, words, hashes, seed=9001):
    """Returns the image of a Bloom filter."""
    bits = 0
    for item in items:
        first = xxh64(fed(item), seed)
        second = xxh64(fed(item), first)
        for number in range(1, hashes + 1):
            bits |= 1 << (first + number * second & WORD) // 2 % (64 * words)
    head = struct.pack("<BBBBHHQiI", 4, 1, 21, 0, hashes, 0, seed, words, 0)
    return head + struct.pack("<Q", bits.bit_count()) + bits.to_bytes(8 * words, "little")


KINDS = {"frequent_strings": 1, "frequent_bigints": 2, "count_min": 3, "signed_count_min": 4, "bloom_filter": 5}


def stored(name, items, image, version=1, seed=None):
    """Returns a stored sketch: the header, with the types of items (1 for strings, 2 for bigints, 3 for both) and the seed of
    Count-Min, and the image."""
    if seed is None:
        seed = 9001 if "count_min" in name else 0
    header = b"SKR" + bytes([version, KINDS[name], items, 0, 0]) + struct.pack("<Q", seed)
    return header + struct.pack("<I", crc32c(header + image)) + image


IMAGES = {
    "frequent_strings": frequent({"ab": 5, "é€😀": 3, "": 1}, total=12, error=2),
    "frequent_bigints": frequent({-7: 5, 2**62: 4}, total=9, error=0),
    "count_min": count_min({"ab": 5, "é€😀": 3, "": 1}, hashes=3, buckets=97),
    "signed_count_min": count_min({-7: 5, 2**62: -4}, hashes=3, buckets=97),
    "bloom_filter": bloom(["ab", "é€😀", ""], words=20, hashes=5),
}
OF_STRINGS = {"frequent_strings", "count_min", "bloom_filter"}
SKETCHES = {name: stored(name, 1 if name in OF_STRINGS else 2, image) for name, image in IMAGES.items()}

# Queries of each sketch, for which {} stands, and their rows.
QUERIES = {
    "frequent_strings": [
        ("(sketch_status({})).*", (12, 2, 3, 768, 6, 1024)),
        ("(sketch_bounds({}, 'ab')).*", (5, 7, 7)), ("(sketch_bounds({}, 'é€😀')).*", (3, 5, 5)), ("(sketch_bounds({}, '')).*", (1, 3, 3)),
        ("(sketch_bounds({}, 'b')).*", (0, 0, 2)),
    ],
    "frequent_bigints": [
        ("(sketch_status({})).*", (9, 0, 2, 768, 6, 1024)),
        ("(sketch_bounds({}, -7)).*", (5, 5, 5)), ("(sketch_bounds({}, 4611686018427387904)).*", (4, 4, 4)), ("(sketch_bounds({}, 0)).*", (0, 0, 0)),
    ],
    "count_min": [
        ("(sketch_status({})).*", (9, 3, 97, 9001, "strings")),
        ("sketch_estimate({0}, 'ab'), sketch_estimate({0}, 'é€😀'), sketch_estimate({0}, ''), sketch_estimate({0}, 'b')", (5, 3, 1, 0)),
    ],
    "signed_count_min": [
        ("(sketch_status({})).*", (9, 3, 97, 9001, "bigints")),
        ("sketch_estimate({0}, -7), sketch_estimate({0}, 4611686018427387904), sketch_estimate({0}, 0)", (5, -4, 0)),
    ],
    "bloom_filter": [
        ("sketch_contains({0}, 'ab'), sketch_contains({0}, 'é€😀'), sketch_contains({0}, ''), sketch_contains({0}, 'b')", (True, True, True, False)),
        ("(sketch_status({0})).capacity, (sketch_status({0})).num_hashes, (sketch_status({0})).seed, (sketch_status({0})).items", (1280, 5, 9001, "strings")),
    ],
}


def text(sketch):
    """Returns the text form of a stored sketch."""
    return base64.b64encode(sketch).decode()


def unknown(name):
    """Returns sketches that no version or only a later one reads: what they are, and their bytes."""
    image, items = IMAGES[name], SKETCHES[name][5]
    for version in [0, 2, 255]:
        yield f"version {version}", stored(name, items, image, version=version)
    other = next(kind for kind in KINDS if kind != name)
    yield "another kind", stored(other, items, image)
    yield "no items", stored(name, 0, image)
    yield "unknown items", stored(name, 4, image)
    if "count_min" not in name:
        yield "a seed", stored(name, items, image, seed=9001)
    yield "no name", b"XKR" + SKETCHES[name][3:]
