"""The C library itself, to which the module's sketches are compared: the same calls there, and images byte for byte."""
import ctypes as c


class Key(c.Structure):
    _fields_ = [("k0", c.c_uint64), ("k1", c.c_uint64)]


class Options(c.Structure):
    _fields_ = [("max_bytes", c.c_size_t), ("seed", c.c_uint64), ("key", c.POINTER(Key))]


class Bounds(c.Structure):
    _fields_ = [("lower", c.c_uint64), ("estimate", c.c_uint64), ("upper", c.c_uint64)]


class Handle(c.Structure):
    _fields_ = [("sketch", c.c_void_p)]


BLOOM, COUNT, STRINGS = 1, 2, 6


class Library:
    def __init__(self, path):
        self.calls = c.CDLL(path)
        self.calls.ds_keyed_hash.restype = c.c_uint64
        self.calls.ds_keyed_hash.argtypes = [c.c_char_p, c.c_size_t, c.c_uint64, c.c_uint64]

    def checked(self, name, *words):
        result = getattr(self.calls, name)(*words)
        if result < 0:
            raise ValueError(f"{name} returned {result}")
        return result

    def keyed_hash(self, data, k0, k1):
        return self.calls.ds_keyed_hash(data, len(data), k0, k1)


class Sketch:
    """A sketch of the library."""

    def __init__(self, library):
        self.library, self.handle = library, Handle(None)

    def __del__(self):
        self.library.calls.ds_free(c.byref(self.handle))

    def call(self, name, *words):
        return self.library.checked(name, c.byref(self.handle), *words)

    def image(self):
        size = c.c_size_t()
        self.call("ds_serialized_bytes", c.byref(size))
        buffer = (c.c_uint8 * size.value)()
        self.call("ds_serialize", buffer, size, c.byref(size))
        return bytes(buffer)[: size.value]


def filter_for(library, capacity, questions, seed):
    """Returns an empty filter of the published sizes, with at least the minimum of bits."""
    bits, hashes, least = c.c_uint64(), c.c_uint16(), c.c_uint64()
    library.checked("ds_bloom_suggest_num_bits", c.c_uint64(capacity), c.c_uint64(questions), c.byref(bits))
    library.checked("ds_bloom_suggest_num_hashes", bits, c.c_uint64(capacity), c.byref(hashes))
    library.checked("ds_bloom_min_num_bits", c.c_uint64(capacity), c.c_uint64(questions), c.byref(least))
    bits.value = max(bits.value, least.value)
    sketch = Sketch(library)
    sketch.call("ds_bloom_new", bits, hashes, c.c_uint64(seed))
    return sketch


def insert(sketch, text):
    data = text.encode()
    return sketch.call("ds_bloom_contains_and_insert_string", data, c.c_size_t(len(data)))


def contains(sketch, text):
    data = text.encode()
    return sketch.call("ds_bloom_contains_string", data, c.c_size_t(len(data)))


def count_min(library, depth, width, seed):
    sketch = Sketch(library)
    sketch.call("ds_count_min_new", c.c_int32(COUNT), c.c_uint8(depth), c.c_uint32(width), c.c_uint64(seed))
    return sketch


def add(sketch, text, weight=1):
    data = text.encode()
    sketch.call("ds_count_min_u64_update_string", data, c.c_size_t(len(data)), c.c_uint64(weight))


def estimate(sketch, text):
    data, value = text.encode(), c.c_uint64()
    sketch.call("ds_count_min_u64_estimate_string", data, c.c_size_t(len(data)), c.byref(value))
    return value.value


def frequent(library, size):
    sketch = Sketch(library)
    sketch.call("ds_frequent_items_new", c.c_int32(STRINGS), c.c_size_t(size), c.c_size_t(min(size // 4 * 3, 1024)), None)
    return sketch


def update(sketch, text, weight=1):
    data = text.encode()
    sketch.call("ds_frequent_items_string_update", data, c.c_size_t(len(data)), c.c_uint64(weight))


def bounds(sketch, text):
    data, value = text.encode(), Bounds()
    sketch.call("ds_frequent_items_string_bounds", data, c.c_size_t(len(data)), c.byref(value))
    return [value.lower, value.upper]


def loaded(library, kind, image, seed=9001):
    sketch = Sketch(library)
    options = Options(1 << 30, seed, None)
    sketch.call("ds_deserialize", c.c_int32(kind), image, c.c_size_t(len(image)), c.byref(options))
    return sketch


def counters_of(image):
    """Returns the error, the total and the counters in an image of frequent strings."""
    if len(image) == 8:
        return 0, 0, {}
    number = lambda at, size: int.from_bytes(image[at : at + size], "little")
    count, at, counters = number(8, 4), 32, {}
    end = at + 8 * count
    for i in range(count):
        length = number(end, 4)
        counters[image[end + 4 : end + 4 + length]] = number(at + 8 * i, 8)
        end += 4 + length
    return number(24, 8), number(16, 8), counters
