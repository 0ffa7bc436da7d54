"""Columns that are exported by Arrow's C data interface, sound or malformed. Each release is counted."""
import ctypes
import struct

POINTER, VOID, INT64 = ctypes.POINTER, ctypes.c_void_p, ctypes.c_int64
WIDTHS = dict(zip("cCsSiIlL", "bBhHiIqQ"))
OF_STRINGS = {"u": "i", "U": "q"}


class Schema(ctypes.Structure):
    pass


class Array(ctypes.Structure):
    pass


class Stream(ctypes.Structure):
    pass


RELEASE = ctypes.CFUNCTYPE(None, VOID)
Schema._fields_ = [("format", ctypes.c_char_p), ("name", ctypes.c_char_p), ("metadata", ctypes.c_char_p), ("flags", INT64),
                   ("n_children", INT64), ("children", VOID), ("dictionary", POINTER(Schema)), ("release", VOID),
                   ("private_data", VOID)]
Array._fields_ = [("length", INT64), ("null_count", INT64), ("offset", INT64), ("n_buffers", INT64), ("n_children", INT64),
                  ("buffers", POINTER(VOID)), ("children", VOID), ("dictionary", POINTER(Array)), ("release", VOID),
                  ("private_data", VOID)]
NEXT_SCHEMA = ctypes.CFUNCTYPE(ctypes.c_int, VOID, POINTER(Schema))
NEXT_ARRAY = ctypes.CFUNCTYPE(ctypes.c_int, VOID, POINTER(Array))
LAST_ERROR = ctypes.CFUNCTYPE(VOID, VOID)
Stream._fields_ = [("get_schema", VOID), ("get_next", VOID), ("get_last_error", VOID), ("release", VOID), ("private_data", VOID)]

live = {}  # what was exported and not released yet, by the number in `private_data`
released_twice = []
_structs = {}  # the structs of capsules, by address
_number = [0]


def _own(kind, thing):
    _number[0] += 1
    live[_number[0]] = thing
    thing.private_data = _number[0]
    thing.release = ctypes.cast(kind, VOID)
    return thing


def _released(kind):
    def release(address):
        thing = kind.from_address(address)
        if live.pop(thing.private_data, None) is None:
            released_twice.append(thing.private_data)
        thing.release = None
    return RELEASE(release)


_with_its_owner = RELEASE(lambda address: None)
_schema_release, _array_release, _stream_release = _released(Schema), _released(Array), _released(Stream)
_new = ctypes.pythonapi.PyCapsule_New
_new.restype, _new.argtypes = ctypes.py_object, [VOID, ctypes.c_char_p, VOID]
_pointer = ctypes.pythonapi.PyCapsule_GetPointer
_pointer.restype, _pointer.argtypes = VOID, [VOID, ctypes.c_char_p]
_name = ctypes.pythonapi.PyCapsule_GetName
_name.restype, _name.argtypes = ctypes.c_char_p, [VOID]


def _destroy(capsule):
    address = _pointer(capsule, _name(capsule))
    thing = _structs.pop(address)
    if thing.release:
        RELEASE(thing.release)(address)


_destructor = RELEASE(_destroy)
_NAMES = {Schema: b"arrow_schema", Array: b"arrow_array", Stream: b"arrow_array_stream"}


def capsule(thing):
    """A capsule of a struct, whose destructor releases it if the consumer did not."""
    _structs[ctypes.addressof(thing)] = thing
    return _new(ctypes.addressof(thing), _NAMES[type(thing)], ctypes.cast(_destructor, VOID))


def bitmap(flags):
    return bytes(sum(flag << bit for bit, flag in enumerate(flags[at : at + 8])) for at in range(0, len(flags), 8))


def described(kind, values, offset=0, **changes):
    """Describes an array of values, of which None is null, that begins at a row: a dict, which a test may change."""
    present = [value is not None for value in values]
    buffers = [None if all(present) else bitmap(present)]
    if kind in WIDTHS:
        buffers.append(struct.pack(f"<{len(values)}{WIDTHS[kind]}", *(value or 0 for value in values)))
    elif kind in OF_STRINGS:
        data = [value if isinstance(value, bytes) else (value or "").encode() for value in values]
        ends = _ends(data)
        buffers += [struct.pack(f"<{len(ends)}{OF_STRINGS[kind]}", *ends), b"".join(data)]
    elif kind == "vu":
        views, data = b"", [b"", b""]
        for at, value in enumerate(values):
            text = (value or "").encode()
            if len(text) <= 12:
                views += struct.pack("<i12s", len(text), text)
            else:
                views += struct.pack("<i4sii", len(text), text[:4], at % 2, len(data[at % 2]))
                data[at % 2] += text
        buffers += [views, *data, struct.pack("<qq", *map(len, data))]
    elif kind == "n":
        buffers = []
    return {"kind": kind, "length": len(values) - offset, "null_count": present[offset:].count(False), "offset": offset,
            "buffers": buffers, "n_buffers": len(buffers), "n_children": 0, "dictionary": None, **changes}


def _ends(data):
    ends = [0]
    for each in data:
        ends.append(ends[-1] + len(each))
    return ends


def _array(description, owned=True):
    shift = description.get("shift", 0)  # how many bytes each buffer begins behind an aligned address
    held = [None if each is None else ctypes.create_string_buffer(bytes(shift) + each, shift + max(1, len(each)))
            for each in description["buffers"]]
    pointers = (VOID * max(1, len(held)))(*(None if each is None else ctypes.addressof(each) + shift for each in held))
    thing = Array(description["length"], description["null_count"], description["offset"], description["n_buffers"],
                  description["n_children"])
    if not description.get("no_buffers"):
        thing.buffers = ctypes.cast(pointers, POINTER(VOID))
    thing.held = held, pointers
    if description["dictionary"] is not None:
        thing.inner = _array(description["dictionary"], owned=False)
        thing.dictionary = ctypes.pointer(thing.inner)
    thing.release = ctypes.cast(_with_its_owner, VOID)
    return _own(_array_release, thing) if owned else thing


def _schema(description, owned=True):
    thing = Schema(description["kind"].encode() if description["kind"] is not None else None, b"", None, 2)
    inner = description.get("schema_dictionary", description["dictionary"])
    if inner is not None:
        thing.inner = _schema(inner, owned=False)
        thing.dictionary = ctypes.pointer(thing.inner)
    return _own(_schema_release, thing) if owned else thing


class Column:
    """Exports one array."""

    def __init__(self, kind, values=(), offset=0, dictionary=None, **changes):
        self.description = described(kind, values, offset, dictionary=dictionary, **changes)

    def __arrow_c_array__(self, requested_schema=None):
        schema, array = _schema(self.description), _array(self.description)
        if self.description.get("released"):
            for thing in (schema, array)[: self.description["released"]]:
                RELEASE(thing.release)(ctypes.addressof(thing))
        return capsule(schema), capsule(array)


class Chunked:
    """Exports a stream of arrays of one type. `fails` is the index of the array in place of which the stream has an error."""

    def __init__(self, *descriptions, fails=None, no_schema=False):
        self.descriptions, self.fails, self.no_schema = descriptions, fails, no_schema

    def __arrow_c_stream__(self, requested_schema=None):
        at, message = [0], ctypes.create_string_buffer(b"no more of it")

        def get_schema(_, out):
            if self.no_schema:
                return 5
            ctypes.memmove(out, ctypes.byref(_schema(self.descriptions[0])), ctypes.sizeof(Schema))
            return 0

        def get_next(_, out):
            if at[0] == self.fails:
                return 5
            if at[0] < len(self.descriptions):
                out.contents.release = None
                made = _array(self.descriptions[at[0]])
                ctypes.memmove(out, ctypes.byref(made), ctypes.sizeof(Array))
                at[0] += 1
            else:
                out.contents.release = None
            return 0

        thing = Stream()
        thing.calls = NEXT_SCHEMA(get_schema), NEXT_ARRAY(get_next), LAST_ERROR(lambda _: ctypes.addressof(message))
        thing.get_schema, thing.get_next, thing.get_last_error = (ctypes.cast(each, VOID) for each in thing.calls)
        return capsule(_own(_stream_release, thing))
