"""The functions of the shared library, by ctypes, and the limits that they take."""

import os
from ctypes import (
    CDLL,
    POINTER,
    Structure,
    c_bool,
    c_char,
    c_char_p,
    c_int32,
    c_size_t,
    c_uint8,
    c_uint32,
    create_string_buffer,
    sizeof,
    string_at,
)
from enum import IntEnum
from operator import index
from pathlib import Path

NAME = "liblupinanon.so.0"
# What the library writes for an offset or a rule that is not known.
NO_NUMBER = c_size_t(-1).value


class Status(IntEnum):
    """How a call ended, by the numbers of `lupinanon.h`."""

    ANSWERED = 0
    INCONSISTENT_LIMITS = 1
    MINIMUM_NOT_MET = 2
    MODULE_REFUSED = 3
    TOO_LONG = 4
    OUT_OF_MEMORY = 5
    PARTS_DISAGREE = 6
    NO_ROOM = 7
    BAD_FLAG = 8
    BAD_ARGUMENT = 9
    ILL_FORMED = 10
    UNREAD = 11
    NO_SCRIPT = 12
    NO_SMALLER = 13
    INVALID = 14
    BOUND = 15
    OUTSIDE = 16
    NO_CHANGE = 17
    NO_TEXT = 18


class Limits(Structure):
    """The limits of what is made, each a keyword. A minimum is met by every component of the tree.

    The defaults:
    min_types=0
        The fewest types of a component. They can always be added.
    min_imports=0
        The fewest imports of a component. If they cannot be added, it is refused with Status.MINIMUM_NOT_MET.
    min_funcs=0
        The fewest functions of a component: imported ones, lifts and lowers together. If they cannot be added, it is
        refused with Status.MINIMUM_NOT_MET.
    min_memories=0
        The fewest memories of a core module.
    max_types=100
        The most types of a component, and the most core types.
    max_imports=100
        The most imports of a component.
    max_funcs=100
        The most functions of a component: imported ones, lifts and lowers together.
    max_exports=0
        The most exports of a component. They are functions of it too, and are not counted against max_funcs.
    max_globals=100
        The most globals that a module type imports and exports.
    max_tables=100
        The most tables that a module type imports and exports.
    max_tags=100
        The most tags that a module type imports and exports.
    max_memories=1
        The most memories of a core module, and the most that a module type imports and exports.
    max_modules=10
        The most core modules of the whole tree, embedded and imported.
    max_components=10
        The most components of the whole tree below the root, nested and imported.
    max_instances=10
        The most instances that the whole tree imports.
    max_nesting_depth=10
        How deep components nest, the root at 1. A limit of 0 counts as 1.
    max_type_size=1000
        The fuel of a type: the most members and declarations that it has at all depths.
    multi_value_enabled=True
        Whether a core function may have several results.
    exceptions_enabled=True
        Whether there are tags.
    reference_types_enabled=True
        Whether there are reference types as core value types.
    simd_enabled=True
        Whether there is the core value type v128.
    allow_floats=True
        Whether there are the core value types f32 and f64.
    bulk_memory_enabled=True
        Whether core modules count their data segments in a section.
    must_validate=False
        Whether a validator accepts each component: what it imports and exports is of types that it names, and effective
        sizes and counts are below the bounds of wasmparser.
    finish_after=0
        The fewest sections that a component has when the input finishes it. If no input is left, it is finished
        whatever it has.
    max_name_length=100
        How many bytes of a name are read at most. Digits that make it new, and an a where a word is missing, come on
        top. At most 100. The name of a custom section does not count.
    loop_bits=1
        How many of the lowest bits of a byte are 0 where a loop ends, as one over types or fields: with 1 every second
        byte ends it, with 2 every fourth, with 8 one in 256. At most 8; a limit of 0 counts as 1.
    """

    _fields_ = [
        ("size", c_size_t),
        ("min_types", c_size_t),
        ("min_imports", c_size_t),
        ("min_funcs", c_size_t),
        ("min_memories", c_size_t),
        ("max_types", c_size_t),
        ("max_imports", c_size_t),
        ("max_funcs", c_size_t),
        ("max_exports", c_size_t),
        ("max_globals", c_size_t),
        ("max_tables", c_size_t),
        ("max_tags", c_size_t),
        ("max_memories", c_size_t),
        ("max_modules", c_size_t),
        ("max_components", c_size_t),
        ("max_instances", c_size_t),
        ("max_nesting_depth", c_size_t),
        ("max_type_size", c_uint32),
        ("multi_value_enabled", c_bool),
        ("exceptions_enabled", c_bool),
        ("reference_types_enabled", c_bool),
        ("simd_enabled", c_bool),
        ("allow_floats", c_bool),
        ("bulk_memory_enabled", c_bool),
        ("must_validate", c_bool),
        ("reserved", c_uint8 * 5),
        ("finish_after", c_size_t),
        ("max_name_length", c_size_t),
        ("loop_bits", c_size_t),
    ]

    def __init__(self, **limits):
        super().__init__()
        if library.lupinanon_default_limits(self, sizeof(self)) != Status.ANSWERED:
            raise ImportError(f"{NAME} has other limits than this package")
        self.replace(**limits)

    def replace(self, **limits):
        """Sets these limits, and leaves the others."""
        if unknown := limits.keys() - SORTS.keys():
            raise TypeError(f"no limit is named {min(unknown)}")
        for name, value in limits.items():
            setattr(self, name, value)

    def __setattr__(self, name, value):
        sort = SORTS.get(name)
        if sort is None:
            raise AttributeError(f"no limit is named {name}")
        if sort is not c_bool and sort(index(value)).value != value:
            raise ValueError(f"{name} is at least 0, and less than 2 to the {8 * sizeof(sort)}")
        super().__setattr__(name, value)

    def __eq__(self, other):
        return isinstance(other, Limits) and bytes(self) == bytes(other)

    def __repr__(self):
        return f"Limits({', '.join(f'{name}={getattr(self, name)}' for name in SORTS)})"


# The limits, and what each is in C.
SORTS = {name: sort for name, sort in Limits._fields_ if name not in ("size", "reserved")}

NUMBER = POINTER(c_size_t)
BYTES = [c_char_p, c_size_t]
OUTPUT = [c_char_p, c_size_t, NUMBER]
# What each function returns and takes.
FUNCTIONS = {
    "version": (c_char_p, []),
    "status_name": (c_char_p, [c_int32]),
    "rule_text": (c_char_p, [c_size_t]),
    "default_limits": (c_int32, [POINTER(Limits), c_size_t]),
    "fuzz_limits": (c_int32, [POINTER(Limits), c_size_t]),
    "swarm_limits": (c_int32, [POINTER(Limits), *BYTES, NUMBER]),
    "generate_into": (c_int32, [POINTER(Limits), *BYTES, *OUTPUT, NUMBER]),
    "features": (c_int32, [POINTER(Limits), *BYTES, *BYTES]),
    "check": (c_int32, [*BYTES, NUMBER]),
    "validate": (c_int32, [*BYTES, NUMBER, NUMBER]),
    "print": (c_int32, [*BYTES, *OUTPUT]),
    "script_into": (c_int32, [POINTER(Limits), *BYTES, *OUTPUT, NUMBER]),
    "smaller": (c_int32, [POINTER(Limits), *BYTES, c_size_t, *OUTPUT]),
    "next_smaller": (c_int32, [POINTER(Limits), *BYTES, NUMBER, *OUTPUT]),
    "without": (c_int32, [*BYTES, c_size_t, *OUTPUT]),
    "join": (c_int32, [*BYTES, *BYTES, *OUTPUT]),
    "change_count": (c_int32, [*BYTES, NUMBER]),
    "changed": (c_int32, [*BYTES, c_size_t, *OUTPUT, POINTER(c_int32), NUMBER, NUMBER]),
    "next_changed": (c_int32, [*BYTES, NUMBER, *OUTPUT]),
    "next_miswritten": (c_int32, [*BYTES, NUMBER, *OUTPUT]),
}


def path_of_library():
    """Returns the library of the folder that LUPINANON_LIB names, or else the one beside this file, or else the name by
    which the system's loader looks for it.
    """
    if folder := os.environ.get("LUPINANON_LIB"):
        return os.path.join(folder, NAME)
    beside = Path(__file__).with_name(NAME)
    return str(beside) if beside.exists() else NAME


def loaded():
    """Returns the library, whose functions know what they take."""
    try:
        found = CDLL(path_of_library())
    except OSError as error:
        raise ImportError(f"{error}. LUPINANON_LIB may name the folder of {NAME}.") from error
    for name, (result, arguments) in FUNCTIONS.items():
        function = getattr(found, f"lupinanon_{name}")
        function.restype, function.argtypes = result, arguments
    return found


library = loaded()


def as_bytes(data):
    """Returns the bytes of whatever has a buffer, which a number or a text has not."""
    return data if isinstance(data, bytes) else bytes(memoryview(data))


def as_counters(data):
    """Returns the memory of whatever has a buffer that can be written."""
    return (c_char * memoryview(data).nbytes).from_buffer(data)


def number(value=0):
    """Returns a number for the library to read or write."""
    if not 0 <= index(value) <= NO_NUMBER:
        raise ValueError(f"{value} is less than 0, or more than {NO_NUMBER}")
    return c_size_t(value)


def written(room, call, *before, after=()):
    """Returns how a call ended, and what it writes into an output of that room, or of the room that it then asks for."""
    length = c_size_t()
    output = create_string_buffer(room)
    status = call(*before, output, room, length, *after)
    if status == Status.NO_ROOM:
        output = create_string_buffer(length.value)
        status = call(*before, output, len(output), length, *after)
    return Status(status), string_at(output, length.value)
