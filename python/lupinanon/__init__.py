"""WebAssembly components from a fuzzer's bytes.

    >>> import lupinanon
    >>> made = lupinanon.generate(b"\\x03\\x01\\x00\\x00\\x06\\x00\\x00\\xff", max_components=4)
    >>> made.component, made.left
    (b'\\x00asm\\r\\x00\\x01\\x00\\x07\\x02\\x01y', 1)
    >>> lupinanon.check(made.component).verdict.name
    'WELL_FORMED'

Bytes are whatever has a buffer. Limits are keywords, or a `Limits`, and what is not given has its default:
help(lupinanon.Limits) says what there is. If the library has no memory, MemoryError is raised.
"""

from ctypes import c_int32
from dataclasses import dataclass
from enum import IntEnum

from lupinanon._library import NO_NUMBER, Limits, Status, as_bytes, as_counters, library, number, written

__all__ = [
    "Answer",
    "Changed",
    "Checked",
    "Error",
    "Generated",
    "Limits",
    "Status",
    "Step",
    "Swarm",
    "Validated",
    "Verdict",
    "change_count",
    "changed",
    "check",
    "features",
    "fuzz_limits",
    "generate",
    "join",
    "next_changed",
    "next_miswritten",
    "next_smaller",
    "rule_text",
    "script",
    "smaller",
    "swarm_limits",
    "text",
    "validate",
    "version",
    "without",
]


class Error(Exception):
    """There is no result: `status` says why, and `offset` where in the bytes, or None."""

    def __init__(self, status, offset=None):
        where = "" if offset is None else f" at offset {offset}"
        super().__init__(library.lupinanon_status_name(status).decode() + where)
        self.status = status
        self.offset = offset


class Verdict(IntEnum):
    """Whether bytes are a component that is well formed."""

    WELL_FORMED = Status.ANSWERED
    ILL_FORMED = Status.ILL_FORMED
    UNREAD = Status.UNREAD


class Answer(IntEnum):
    """What bytes are to whoever tests a validator."""

    VALID = Status.ANSWERED
    INVALID = Status.INVALID
    BOUND = Status.BOUND
    OUTSIDE = Status.OUTSIDE


@dataclass(frozen=True)
class Generated:
    """A component, and how many bytes at the end of the input were not used."""

    component: bytes
    left: int


@dataclass(frozen=True)
class Checked:
    """A verdict, and where it was found, unless the component is well formed."""

    verdict: Verdict
    offset: int | None


@dataclass(frozen=True)
class Validated:
    """An answer, and why and where, unless the component is valid. `rule_text` has the rule in words."""

    answer: Answer
    rule: int | None
    offset: int | None


@dataclass(frozen=True)
class Swarm:
    """Limits, and what follows the bytes that they are from: the input of a component."""

    limits: Limits
    rest: bytes


@dataclass(frozen=True)
class Step:
    """The number of a step, a change or a candidate, and the bytes to which it leads."""

    number: int
    bytes: bytes


@dataclass(frozen=True)
class Changed:
    """A component after a change, and what it is to validators."""

    component: bytes
    validated: Validated


def version():
    """Returns the version of the library."""
    return library.lupinanon_version().decode()


def rule_text(rule):
    """Returns the rule of a `Validated` in words, as "no type has that index"."""
    return library.lupinanon_rule_text(number(rule)).decode()


def fuzz_limits(**keywords):
    """Returns the limits of the profile `fuzz`, with which a fuzzer's input says more in fewer bytes.

    These limits are set over the ones of the profile.
    """
    limits = Limits()
    _require(library.lupinanon_fuzz_limits(limits, limits.size))
    limits.replace(**keywords)
    return limits


def swarm_limits(data, limits=None, **keywords):
    """Returns the limits with those replaced that the first bytes of the input say, and what follows these bytes."""
    data = as_bytes(data)
    said = _copied(limits, keywords)
    taken = number()
    _require(library.lupinanon_swarm_limits(said, data, len(data), taken))
    return Swarm(said, data[taken.value :])


def generate(data, limits=None, **keywords):
    """Returns the component that the input produces within the limits.

    Raises Error if the limits do not fit together, or the input meets none of a minimum.
    """
    data = as_bytes(data)
    left = number()
    within = _copied(limits, keywords)
    status, component = written(4096, library.lupinanon_generate_into, within, data, len(data), after=[left])
    _require(status)
    return Generated(component, left.value)


def features(data, counters, limits=None, **keywords):
    """Adds 1 to a counter for each combination in the component that `generate` returns, up to 255.

    The counters are the bytes of a bytearray, or of what else has a buffer that can be written. Raises Error as `generate`
    does, and then leaves them as they were.
    """
    data = as_bytes(data)
    within = _copied(limits, keywords)
    counters = as_counters(counters)
    _require(library.lupinanon_features(within, data, len(data), counters, len(counters)))


def check(component):
    """Returns whether bytes are a component that is well formed."""
    component = as_bytes(component)
    offset = number()
    status = library.lupinanon_check(component, len(component), offset)
    _require(status, Verdict)
    return Checked(Verdict(status), _known(offset))


def validate(component):
    """Returns whether a validator has to accept bytes, may not accept them, or neither."""
    component = as_bytes(component)
    rule, offset = number(), number()
    status = library.lupinanon_validate(component, len(component), rule, offset)
    return _validated(status, rule, offset)


def text(component):
    """Returns the component, well formed or not, in the text format, with indexes as comments.

    Raises Error if the bytes are no component, or if a core module in it has more than function types and memories.
    """
    component = as_bytes(component)
    status, found = written(8 * len(component), library.lupinanon_print, component, len(component))
    _require(status)
    return found.decode()


def script(component, limits=None, **keywords):
    """Returns an input from which `generate` produces these bytes within the limits, and of which nothing is left.

    Raises Error if there is none.
    """
    component = as_bytes(component)
    offset = number()
    before = [_copied(limits, keywords), component, len(component)]
    status, found = written(4096, library.lupinanon_script_into, *before, after=[offset])
    _require(status, offset=_known(offset))
    return found


def smaller(component, k=0, limits=None, **keywords):
    """Returns the k-th, from 0, of the components that are smaller by a step, or None if there are no more than k.

    They can be generated within the limits. If there are neither `limits` nor keywords, they are well formed, whatever the
    limits. Raises Error if the bytes are no component.
    """
    component = as_bytes(component)
    before = [_given(limits, keywords), component, len(component), number(k)]
    return _found(*written(len(component), library.lupinanon_smaller, *before))


def next_smaller(component, step=0, limits=None, **keywords):
    """Returns the first step, from that number on, that leads to such a component as `smaller` returns, or None."""
    component = as_bytes(component)
    at = number(step)
    before = [_given(limits, keywords), component, len(component), at]
    return _step(at, *written(len(component), library.lupinanon_next_smaller, *before))


def without(component, k):
    """Returns the component without its k-th item, from 0, and all that refers to it, or None if it has no more than k."""
    component = as_bytes(component)
    return _found(*written(len(component), library.lupinanon_without, component, len(component), number(k)))


def join(first, second):
    """Returns a component of the sections of the first and then of the second. Raises Error if one is no component."""
    first, second = as_bytes(first), as_bytes(second)
    before = [first, len(first), second, len(second)]
    status, joined = written(len(first) + len(second), library.lupinanon_join, *before)
    _require(status)
    return joined


def change_count(component):
    """Returns how many changes the component has: the numbers for `changed` are below this."""
    component = as_bytes(component)
    count = number()
    _require(library.lupinanon_change_count(component, len(component), count))
    return count.value


def changed(component, change):
    """Returns the component after the change of that number, or None if that leads to nothing."""
    component = as_bytes(component)
    answer, rule, offset = c_int32(), number(), number()
    before = [component, len(component), number(change)]
    found = _found(*written(len(component), library.lupinanon_changed, *before, after=[answer, rule, offset]))
    return None if found is None else Changed(found, _validated(answer.value, rule, offset))


def next_changed(component, change=0):
    """Returns the first change, from that number on, that leads to another component, or None."""
    component = as_bytes(component)
    at = number(change)
    return _step(at, *written(len(component), library.lupinanon_next_changed, component, len(component), at))


def next_miswritten(data, candidate=0):
    """Returns the first candidate, from that number on, that no reader takes for a component, or None."""
    data = as_bytes(data)
    at = number(candidate)
    return _step(at, *written(len(data), library.lupinanon_next_miswritten, data, len(data), at))


def _copied(limits, keywords):
    """Returns these limits, or else the defaults, with the keywords in place of some."""
    if limits is None:
        return Limits(**keywords)
    copied = Limits.from_buffer_copy(limits)
    copied.replace(**keywords)
    return copied


def _given(limits, keywords):
    """Returns the limits, or None if none are given."""
    return None if limits is None and not keywords else _copied(limits, keywords)


def _known(found):
    return None if found.value == NO_NUMBER else found.value


def _require(status, answers=(Status.ANSWERED,), offset=None):
    """Raises what a status says that is none of the answers."""
    if status == Status.OUT_OF_MEMORY:
        raise MemoryError
    if status not in list(answers):
        raise Error(Status(status), offset)


def _validated(status, rule, offset):
    _require(status, Answer)
    return Validated(Answer(status), _known(rule), _known(offset))


def _found(status, found):
    """Returns what a call found, or None if there is nothing."""
    if status in (Status.NO_SMALLER, Status.NO_CHANGE):
        return None
    _require(status)
    return found


def _step(at, status, found):
    found = _found(status, found)
    return None if found is None else Step(at.value, found)
