"""What the sources of the library, its headers and the built libraries declare and export."""
import glob
import os
import re
import subprocess

HERE = os.path.dirname(os.path.abspath(__file__))
C = os.path.dirname(HERE)
TOP = os.path.dirname(os.path.dirname(C))
CRATE = f"{TOP}/crates/datasketches_c"

# The C type of each Rust type of an export. A slice is a pointer and a length, and an allocator is not passed.
CROSSES = {"u8": "uint8_t", "u16": "uint16_t", "u32": "uint32_t", "u64": "uint64_t", "i32": "int32_t", "i64": "int64_t"}
CROSSES |= {"usize": "size_t", "bool": "bool", "SketchHandle": "ds_sketch", "Status": "ds_status"}
CROSSES |= {"ItemBounds": "ds_item_bounds", "ItemArgument": "ds_item", "ItemsArgument": "ds_items"}
CROSSES |= {"FieldsArgument": "ds_fields", "FieldsRead": "ds_fields_read", "SizesArgument": "ds_sizes"}

# The functions of `datasketches_typed.h` for each choice of a call with one: the call, and the constant.
CHOICES = {
    "ds_merge": ("ds_join", "DS_JOIN_MERGE"), "ds_bloom_intersect": ("ds_join", "DS_JOIN_INTERSECTION"),
    "ds_bloom_difference": ("ds_join", "DS_JOIN_DIFFERENCE"), "ds_finished_words": ("ds_finished", "DS_CHUNK_WORDS"),
    "ds_finished_lines": ("ds_finished", "DS_CHUNK_LINES"), "ds_finished_csv_records": ("ds_finished", "DS_CHUNK_CSV_RECORDS"),
    "ds_frequent_items_suggest_max_map_size": ("ds_suggest", "DS_SIZE_MAX_MAP_SIZE"),
    "ds_count_min_suggest_num_buckets": ("ds_suggest", "DS_SIZE_NUM_BUCKETS"),
    "ds_count_min_suggest_num_hashes": ("ds_suggest", "DS_SIZE_COUNT_HASHES"),
    "ds_bloom_suggest_num_bits": ("ds_suggest", "DS_SIZE_NUM_BITS"), "ds_bloom_min_num_bits": ("ds_suggest", "DS_SIZE_MIN_NUM_BITS"),
    "ds_bloom_suggest_num_hashes": ("ds_suggest", "DS_SIZE_FILTER_HASHES"),
}

# The exports of the sources that only the library's own C calls.
INTERNAL = {"ds_free_handle", "ds_new", "ds_read_image", "ds_set_frozen"}

# The parameters that are an item, for each type of one. Beside the length of an image, that of an item is `item_length`.
ITEM_TYPES = {"u64": ["uint64_t item"], "i64": ["int64_t item"], "string": ["const uint8_t *item", "size_t length"],
              "fed": ["const uint8_t *item", "size_t length"]}


def read(path):
    with open(path, encoding="utf-8") as it:
        return it.read()


def in_c(kind):
    """Returns the C types of a parameter."""
    kind = re.sub(r"'\w+ |<'\w+>", "", kind)
    if kind == "Global":
        return []
    if kind == "&[&[u8]]":
        return ["const ds_string *", "size_t"]
    found = re.fullmatch(r"(&(?:mut )?)?\[?(\w+)\]?", kind)
    borrowed, name = found.groups()
    if not borrowed:
        return [CROSSES[name]]
    pointer = ("" if "mut" in borrowed else "const ") + CROSSES[name] + " *"
    return [pointer, "size_t"] if "[" in kind else [pointer]


def exported():
    """Returns the exports of the sources: name, C type of the result, C types of the parameters."""
    found = {}
    for path in glob.glob(f"{CRATE}/src/*.rt"):
        for name, inside, result in re.findall(r'pub extern "C" fn (\w+)\(([^)]*)\)(?: -> (\w+))?', read(path)):
            kinds = [it.split(":")[1].strip() for it in inside.split(",") if it.strip()]
            found[name] = (CROSSES[result] if result else "void", [it for kind in kinds for it in in_c(kind)])
    return found


def members_in_sources(file, name, count):
    """Returns the members in C of a structure of the sources: type and name of each. `count` has the form of a slice's length."""
    inside = re.search(rf"pub struct {name}<'a> \{{\n(.*?)\n\}}", read(f"{CRATE}/src/{file}"), re.DOTALL)[1]
    members = []
    for member, kind in re.findall(r"^    pub (\w+): (.*),$", inside, re.MULTILINE):
        pointer, *length = in_c(kind)
        members += [(pointer, member), *[(it, count.format(member)) for it in length]]
    return members


def members_in_header(name):
    """Returns the members of a structure of the header: type and name of each."""
    inside = re.search(rf"typedef struct {name} \{{\n(.*?)\n\}}", read(f"{C}/include/datasketches.h"), re.DOTALL)[1]
    return [(kind.strip(), member) for kind, member in re.findall(r"^    (.*?)(\w+);", inside, re.MULTILINE)]


def functions(path, end):
    """Returns the functions of a header or a C source: name, type of the result, parameters. `end` is what comes after these."""
    text = re.sub(r"/\*.*?\*/", "", read(path), flags=re.DOTALL)
    found = {}
    for result, name, inside in re.findall(rf"^(void|\w+_t|const char \*) ?(ds_\w+)\(([^)]*)\){end}", text, re.MULTILINE):
        found[name] = (result, [] if inside == "void" else re.sub(r"\s+", " ", inside).split(", "))
    return found


def types(found):
    """Returns functions as `exported` does."""
    return {name: (result, [re.fullmatch(r"(.*?) ?\w+", it)[1] for it in parameters])
            for name, (result, parameters) in found.items()}


def in_c_sources():
    """Returns the functions of `src/`, as `exported` does."""
    found = {}
    for path in glob.glob(f"{C}/src/*.c"):
        found |= types(functions(path, r"\n\{"))
    return found


def declared():
    """Returns the prototypes of the header, with their parameters."""
    return functions(f"{C}/include/datasketches.h", ";")


def typed():
    """Returns the functions of `datasketches_typed.h`: name, parameters, the item that it makes, and the call."""
    form = r"^DS_TYPED int32_t (ds_\w+)\(([^)]*)\)\n\{\n    const ds_item made = (.*);\n    return (.*);\n\}$"
    return {name: (re.sub(r"\s+", " ", inside).split(", "), item, call)
            for name, inside, item, call in re.findall(form, read(f"{C}/include/datasketches_typed.h"), re.MULTILINE)}


def by_choice():
    """Returns the functions of `datasketches_typed.h` for a choice, in the form of `CHOICES`."""
    form = r"^DS_TYPED \w+ (ds_\w+)\([^)]*\)\n\{\n(?:    .*;\n)*?    (?:return|int32_t result =) (ds_\w+)\((?:handle, other, )?(DS_\w+)"
    return {name: (call, constant) for name, call, constant in
            re.findall(form, read(f"{C}/include/datasketches_typed.h"), re.MULTILINE)}


def names_by_type(call):
    """Returns the names by type of a call on one item, and the type of each."""
    if call == "ds_frequent_items_bounds":
        return {f"ds_frequent_items_{it}_bounds": it for it in ITEM_TYPES if it != "fed"}
    if call == "ds_update":
        frequent = {f"ds_frequent_items_{it}_update": it for it in ITEM_TYPES if it != "fed"}
        return frequent | {f"ds_count_min_u64_update_{it}": it for it in ITEM_TYPES}
    return {f"{call}_{it}": it for it in ITEM_TYPES}


def wanted_typed(calls):
    """Returns what `typed` is to return for these prototypes."""
    wanted = {}
    for call, (_, parameters) in calls.items():
        if "const ds_item *item" not in parameters:
            continue
        at = parameters.index("const ds_item *item")
        for name, kind in names_by_type(call).items():
            item = [it.replace(" length", " item_length") if "size_t length" in parameters else it for it in ITEM_TYPES[kind]]
            words = [re.search(r"\w+$", it)[0] for it in item]
            passed = ["&made" if it.endswith(" *item") else re.search(r"\w+$", it)[0] for it in parameters]
            wanted[name] = (parameters[:at] + item + parameters[at + 1:], f"ds_item_{kind}({', '.join(words)})",
                            f"{call}({', '.join(passed)})")
    return wanted


def items_of_strings():
    """Returns the kinds of items that are strings: the number of each by its name, as DS_ITEMS_WORDS."""
    return dict(re.findall(r"(DS_ITEMS_(?!U64|I64|FED)\w+) = (\d)", read(f"{C}/include/datasketches.h")))


def needs_check(kinds):
    """Returns whether a call needs a check of its arguments: it takes two handles, an item, many, or a pointer with a count."""
    counted = any(kind.endswith("*") and kind != "ds_sketch *" and count == "size_t" for kind, count in zip(kinds, kinds[1:]))
    return kinds.count("ds_sketch *") > 1 or {"const ds_item *", "const ds_items *"} & set(kinds) or counted


def global_names(path, *flags):
    """Returns the names of the global symbols that a library defines."""
    listed = subprocess.run(["nm", "--defined-only", "-g", *flags, path], capture_output=True, check=True, text=True)
    return {row.split()[2].split("@")[0] for row in listed.stdout.splitlines() if len(row.split()) == 3}
