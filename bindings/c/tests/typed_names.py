"""Calls the functions of `datasketches_typed.h` that the library has, as callers without the headers do, beside their general calls:
over random items of each type, on two sketches of each kind."""
import ctypes as c
import random
import re

from interface import declared, names_by_type

OK, BAD_ARGUMENT = 0, -5
KINDS = range(1, 7)
U64, I64, STRING, FED = range(4)
NUMBERS = {"u64": U64, "i64": I64, "string": STRING, "fed": FED}
TOTAL = 1 << 16

# The C type of each parameter but the item's.
TYPES = {"uint64_t weight": c.c_uint64, "int64_t weight": c.c_int64, "uint64_t seed": c.c_uint64}
RESULTS = {"uint64_t": c.c_uint64 * 1, "int64_t": c.c_int64 * 1, "ds_item_bounds": c.c_uint64 * 3}


class Item(c.Structure):
    _fields_ = [("kind", c.c_int32), ("number", c.c_uint64), ("bytes", c.c_char_p), ("length", c.c_size_t)]


class Key(c.Structure):
    _fields_ = [("k0", c.c_uint64), ("k1", c.c_uint64)]


def random_item(chance, kind):
    """Returns a value of a type: few of each length, so that some come again."""
    if kind == "u64":
        return chance.choice([0, 1, 255, chance.getrandbits(8), 2**63, 2**64 - 1])
    if kind == "i64":
        return chance.choice([0, 1, -1, chance.getrandbits(8) - 128, -(2**63), 2**63 - 1])
    if kind == "string":
        return (chance.choice(["", "a", "ä", "€", "😀"]) * chance.randrange(9)).encode()
    return chance.choice([b"", b"\0", b"\xff", bytes(8), chance.randbytes(chance.randrange(12))])


def as_item(kind, value):
    if kind in ("u64", "i64"):
        return Item(NUMBERS[kind], value % 2**64, b"", 0)
    return Item(NUMBERS[kind], 0, value, len(value))


def as_words(kind, value):
    """Returns an item as the arguments of a function for its type."""
    if kind in ("u64", "i64"):
        return [(c.c_uint64 if kind == "u64" else c.c_int64)(value)]
    return [value, c.c_size_t(len(value))]


class Pair:
    """Two sketches of a kind, under the same seed or key."""

    def __init__(self, library, kind):
        self.library, self.handles = library, [c.c_void_p(), c.c_void_p()]
        for handle in self.handles:
            at = c.byref(handle)
            if kind == 1:
                made = library.ds_bloom_new(at, c.c_uint64(640), c.c_uint16(3), c.c_uint64(9001))
            elif kind < 4:
                made = library.ds_count_min_new(at, kind, c.c_uint8(3), c.c_uint32(17), c.c_uint64(9001))
            else:
                made = library.ds_frequent_items_new(at, kind, c.c_size_t(16), c.c_size_t(12), c.byref(Key(1, 2)))
            assert made == OK, made

    def images(self):
        found = []
        for handle in self.handles:
            buffer, written = c.create_string_buffer(TOTAL), c.c_size_t()
            assert self.library.ds_serialize(c.byref(handle), buffer, c.c_size_t(TOTAL), c.byref(written)) == OK
            found.append(buffer.raw[: written.value])
        return found

    def free(self):
        for handle in self.handles:
            self.library.ds_free(c.byref(handle))


def general_calls():
    """Returns the calls on one item, and their parameters before and after it."""
    found = {}
    for call, (_, parameters) in declared().items():
        if "const ds_item *item" in parameters:
            at = parameters.index("const ds_item *item")
            found[call] = (parameters[:at], parameters[at + 1 :])
    return found


def argument(chance, parameter):
    """Returns an argument for a parameter that is a weight, a seed, or where a result is written."""
    if parameter in TYPES:
        value = 9001 if parameter.endswith("seed") else chance.choice([0, 1, 7, 1 << 40])
        return TYPES[parameter](-value if parameter == "int64_t weight" and chance.random() < 0.5 else value)
    return RESULTS[re.fullmatch(r"(\w+) \*\w+", parameter)[1]]()


def compare_on(check, library, kind, chance):
    """Compares the functions with their calls on two sketches of a kind, or on their images. Returns the names that were done."""
    pair, calls, done = Pair(library, kind), general_calls(), set()
    for call in [call for call in sorted(calls) for _ in range(40)]:
        before, after = calls[call]
        for name, of_type in names_by_type(call).items():
            value, more = random_item(chance, of_type), [argument(chance, it) for it in after]
            again = [type(it).from_buffer_copy(it) for it in more]
            firsts = [[c.byref(handle)] for handle in pair.handles]
            if "const uint8_t *image" in before:
                firsts = [[image, c.c_size_t(len(image)), *[c.c_uint64(9001) for _ in before[2:]]] for image in pair.images()]
            result = getattr(library, name)(*firsts[0], *as_words(of_type, value), *more)
            wanted = getattr(library, call)(*firsts[1], c.byref(as_item(of_type, value)), *again)
            written = [[list(it) for it in them if isinstance(it, c.Array)] for them in [more, again]]
            same = result == wanted and written[0] == written[1]
            done |= {name} if result >= 0 else set()
            if not same:
                check(f"{name} of {value!r} as {call}, kind {kind}", False, (result, wanted, written))
    images = pair.images()
    check(f"the same image by names as by calls, kind {kind}", images[0] == images[1], kind)
    pair.free()
    return done


def compare(check, path):
    """Compares all functions of the library at a path with their calls, and passes them null."""
    library, chance = c.CDLL(path), random.Random(29)
    done = set().union(*[compare_on(check, library, kind, chance) for kind in KINDS])
    names = {name: (call, of_type) for call in general_calls() for name, of_type in names_by_type(call).items()}
    check("each function was done for some kind", done == set(names) and len(names) == 54, set(names) - done)
    none = c.c_void_p()
    for name, (call, of_type) in names.items():
        before, after = general_calls()[call]
        first = [b"", c.c_size_t(0), *[c.c_uint64(9001) for _ in before[2:]]] if len(before) > 1 else [c.byref(none)]
        given, more = as_words(of_type, 1 if of_type in ("u64", "i64") else b""), [argument(chance, it) for it in after]
        function = getattr(library, name)
        without = function(*first, *given, *more)
        check(f"{name} without a sketch or an image", without in (-1, -22), without)
        if len(given) == 2:
            check(f"{name} of no bytes at null", function(*first, None, c.c_size_t(0), *more) == without)
            check(f"{name} of null", function(*first, None, c.c_size_t(1), *more) == BAD_ARGUMENT)
        if more and isinstance(more[-1], c.Array):
            check(f"{name} to null", function(*first, *given, *more[:-1], None) == BAD_ARGUMENT)
