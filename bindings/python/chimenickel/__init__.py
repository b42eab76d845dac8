"""Failures in ship-stability campaigns, counted by a proved library (include/chimenickel.h), by ctypes alone.

A Record is roll and acceleration watched together, fed whole or in pieces; a record's Result is seen before it enters a
Campaign, which gives the verdict. A job of one channel gives None for the other. Rolls and their level are in
thousandths of a degree, accelerations and theirs in mm/s2, times in ms, rates in failures a second. Campaigns, one for
each design situation, make a loading condition (judge_condition, write_report). Records that go on past a failure are
added up in a Sum. The envelope peaks of a record that is not held are found in two passes, a PeakSurvey and a PeakPass.
What the library cannot take raises Refusal, and then nothing has changed. A number that is no 64-bit whole number, or a
sample that is no 32-bit one, raises OverflowError before the library is asked.

Samples, peaks and records are whole numbers in one dimension: a list, a tuple, what yields them, or an array of 16, 32
or 64 bits, also what numpy takes for one, such as a Series of pandas. Anything else raises TypeError, and a table
ValueError, before the library is asked. Record.feed and first_crossing read an array of 32 bits where it stands: while
they run no other thread may write to it. Nothing else is shared by calls: those on different states may run at the same
time, two on one state may not. While the library works other threads of Python go on.

States (Record, Campaign, Sum, Bench, PeakSurvey, PeakPass) compare by their numbers, print as what makes them again,
and pickle.

The library is looked for in the folder that CHIMENICKEL_LIB names; else beside this module, where a wheel carries it;
else, in a source tree, where bin/build-lib writes it; else among the system's libraries.
"""

from __future__ import annotations

import collections.abc
import ctypes
import decimal
import enum
import fractions
import math
import mmap
import numbers
import operator
import os
import pathlib
import reprlib
import sys
from array import array
from typing import (
    TYPE_CHECKING,
    Any,
    Callable,
    Iterable,
    List,
    NamedTuple,
    NoReturn,
    Optional,
    Sequence,
    SupportsFloat,
    SupportsIndex,
    Tuple,
    Type,
    TypeVar,
    Union,
    overload,
)

if TYPE_CHECKING:
    import numpy

    # what ctypes hands out has a type of its own for each length
    _Memory = ctypes.Array[Any]
    _Words = array[int]
else:
    _Memory = _Words = Any

__version__ = "3.1.2"

__all__ = [
    "Bench",
    "Beyond",
    "Bounds",
    "Campaign",
    "Case",
    "Channel",
    "FileRefusal",
    "Peak",
    "PeakPass",
    "PeakSurvey",
    "Rates",
    "Record",
    "Refusal",
    "Result",
    "Standing",
    "Sum",
    "Tail",
    "Verdict",
    "count_files",
    "counted_times",
    "envelope_peaks",
    "extrapolate",
    "first_crossing",
    "fit_tail",
    "from_degrees",
    "judge_condition",
    "lower_row",
    "read_comma",
    "read_records",
    "sheet_of_files",
    "upper_row",
    "write_comma",
    "write_report",
    "write_sheet",
]

# What may be handed over as a row of whole numbers, as degrees, and as a file's text.
Whole = SupportsIndex
Row = Iterable[SupportsIndex]
Degrees = Iterable[SupportsFloat]
Text = Union[bytes, bytearray, memoryview, "array[int]"]

_SYSTEMS = "libchimenickel.so.3"


def _library() -> str:
    """Where the library is, by a path, or by the name that the system's loader knows."""
    named = os.environ.get("CHIMENICKEL_LIB")
    if named:
        return str(pathlib.Path(named).absolute() / "libchimenickel.so")
    here = pathlib.Path(__file__).resolve().parent
    # of a folder near the top, such as /app/chimenickel, it is the top
    beside, root = here / "libchimenickel.so", pathlib.Path(os.path.normpath(here / "../../.."))
    if beside.exists():
        return str(beside)
    if (root / "crates.txt").exists():
        return str(root / "target" / "lib" / "libchimenickel.so")
    return _SYSTEMS


_path = _library()
try:
    _lib = ctypes.CDLL(_path)
except OSError as _error:
    _why = f"{_path} cannot be loaded ({_error})" if os.path.exists(_path) else f"there is no {_path}"
    raise ImportError(
        f"{_why}: bin/build-lib writes the library to target/lib, and CHIMENICKEL_LIB may name another folder",
        name=__name__,
        path=_path,
    ) from None

_u64 = ctypes.c_uint64
_numbers = ctypes.POINTER(ctypes.c_uint64)
# addresses, of whole numbers of 32 bits that stand side by side
_samples = _times = ctypes.c_void_p
_rate = ctypes.POINTER(ctypes.c_double)
_size = ctypes.c_size_t
_row = ctypes.c_uint64 * 6
_rows = ctypes.POINTER(_row)
_campaign = ctypes.c_uint64 * 5
_campaigns = ctypes.POINTER(_campaign)

for _name, _result, _parameters in [
    ("chim_record_open", _u64, [_u64, _u64, _u64, _u64, _u64, _numbers, _size, _numbers]),
    ("chim_record_feed", _u64, [_numbers, _size, _samples, _size, _samples, _size, _numbers, _numbers]),
    ("chim_record_end", _u64, [_numbers, _size, _numbers, _size, _numbers]),
    ("chim_record_first_crossing", _size, [_samples, _size, _samples, _size, _u64, _u64, _u64]),
    ("chim_record_list", _u64, [_u64, _u64, _u64, _u64, _u64, _samples, _size, _samples, _size, _times, _size, _numbers,
        _numbers]),
    ("chim_campaign_open", _u64, [_u64, _numbers, _size, _numbers]),
    ("chim_campaign_enter", _u64, [_numbers, _size, _u64, _u64, _numbers]),
    ("chim_campaign_enter_result", _u64, [_numbers, _size, _numbers, _size, _numbers]),
    ("chim_campaign_censored", _u64, [_numbers, _size, _numbers]),
    ("chim_campaign_verdict", _u64, [_numbers, _size, _rate, _rate, _numbers]),
    ("chim_campaign_rates", _u64, [_numbers, _size, _rate, _rate, _rate, _numbers]),
    ("chim_sheet_read", _u64, [ctypes.c_char_p, _size, _numbers, _size, _numbers, _numbers, _numbers]),
    ("chim_bench_take", _u64, [_rows, _size, _u64, _u64, _numbers]),
    ("chim_bench_enter", _u64, [_rows, _size, _u64, _u64, _u64, _u64, _numbers]),
    ("chim_bench_verdict", _u64, [_rows, _size, _u64, _u64, _rate, _rate, _numbers]),
    ("chim_bench_rates", _u64, [_rows, _size, _u64, _u64, _rate, _rate, _rate, _numbers]),
    ("chim_bench_give_back", _u64, [_rows, _size, _u64, _u64, _numbers]),
    ("chim_sum_open", _u64, [_u64, _numbers, _size, _numbers]),
    ("chim_sum_add", _u64, [_numbers, _size, _numbers, _size, _numbers]),
    ("chim_sum_bounds", _u64, [_numbers, _size, _numbers, _size, _numbers]),
    ("chim_sum_rates", _u64, [_numbers, _size, _rate, _rate, _rate, _numbers]),
    ("chim_condition_judge", _u64, [_campaigns, _size, _numbers]),
    ("chim_condition_report", _u64, [_campaigns, _size, ctypes.c_char_p, _size, _numbers]),
    ("chim_envelope_find", _u64, [_u64, _u64, _u64, _samples, _size, _times, _size, _times, _size, _numbers]),
    ("chim_peaks_survey", _u64, [_u64, _u64, _numbers, _size, _numbers]),
    ("chim_peaks_take", _u64, [_numbers, _size, _samples, _size, _numbers]),
    ("chim_peaks_begin", _u64, [_numbers, _size, _u64, _numbers, _size, _numbers]),
    ("chim_peaks_hand_over", _u64, [_numbers, _size, _samples, _size, _times, _size, _times, _size, _numbers]),
    ("chim_peaks_last", _u64, [_numbers, _size, _times, _times, _numbers]),
    ("chim_tail_fit", _u64, [_times, _size, _u64, _times, _size, _numbers]),
    ("chim_extrapolate", _u64, [_times, _size, _u64, _u64, _u64, _u64, _u64, _numbers, _size, _numbers]),
    ("chim_sheet_write", _u64, [_u64, _samples, _size, ctypes.c_char_p, _size, _numbers]),
    ("chim_sheet_records", _u64, [ctypes.c_char_p, _size, _samples, _size, _numbers, _numbers, _numbers, _numbers]),
    ("chim_comma_read", _u64, [ctypes.c_char_p, _size, _u64, _samples, _size, _numbers]),
    ("chim_comma_write", _u64, [_samples, _size, _u64, ctypes.c_char_p, _size, _numbers]),
    ("chim_upper_row", ctypes.c_uint32, [_u64]),
    ("chim_lower_row", ctypes.c_uint32, [_u64]),
    ("chim_version", _u64, []),
]:
    try:
        _function = getattr(_lib, _name)
    except AttributeError:
        raise ImportError(
            f"{_path} has no {_name}: it is older than this module, and bin/build-lib writes it anew",
            name=__name__,
            path=_path,
        ) from None
    _function.restype, _function.argtypes = _result, _parameters
if _lib.chim_version() // 1_000_000 != int(__version__.partition(".")[0]):
    raise ImportError(
        f"{_path} is of version {_lib.chim_version()}, and this module is of {__version__}: their arrays differ",
        name=__name__,
        path=_path,
    )


class Channel(enum.IntEnum):
    """The channels of a record."""

    ROLL = 1
    ACCELERATION = 2


class Refusal(Exception):
    """Why nothing was done: the refusal's number and what it carries, which for 8 is the situation's number in a
    loading condition and else 0; for 2 the channel of a record whose sample it is; for a job sheet also the line that
    it stands on, and the column where a malformed line is at fault (0 where the line as a whole is)."""

    MEANINGS = {
        1: "opening item {} is outside its range",
        2: "the sample at place {} is outside its range",
        3: "the timed length, or a sheet's exposure, would pass 10,000,000 ms, or a comma file's last time 12 digits",
        4: "there are fewer than two timed samples, or a sheet's exposure is 0",
        5: "the campaign has 100,000 records",
        6: "the campaign has 64 failures",
        7: "{} places are needed",
        8: "the numbers are no state, or no result",
        9: "line {} is malformed",
        10: "line {} of the comma file is malformed or has a wrong time",
        11: "the sum would have more than 10,000 failures or 100,000,000 samples",
        12: "roll and acceleration have unequal lengths",
        13: "there is no such bureau",
        14: "the bureau has 16 jobs",
        15: "the place is not the bureau's own",
        16: "there are more than 4,096 peaks, or k is outside 2 to their number",
        17: "the peak at place {} is 0 or above 1,000,000",
        18: "there is no campaign, or there are more than 64",
        19: "there are fewer timed samples than peaks in the tail, or more than 100,000,000",
        20: "the level is below {}, the last peak of the tail",
        21: "the tail has no spread",
    }

    def __init__(self, number: int, carried: int, channel: Optional[Channel] = None) -> None:
        said = f"refusal {number}: " + self.MEANINGS[number].format(carried)
        super().__init__(said + (f", {channel.name.lower()}" if channel else ""))
        self.number = number
        self.carried = carried
        self.channel = channel
        self.line: Optional[int] = None
        self.column: Optional[int] = None

    def __reduce__(self) -> Tuple[Any, ...]:
        return Refusal, (self.number, self.carried, self.channel), self.__dict__


# What a caller hands over, for the sentence that says why something else is not taken.
_TAKEN = {
    "step": "is in whole ms",
    "ramp": "is in whole samples",
    "level": "is in whole thousandths of a degree",
    "decorrelation": "is in whole ms",
    "acceleration_level": "is in whole mm/s2",
    "standard": "is in whole ms",
    "exposure": "is in whole ms",
    "failed": "is true or false",
    "k": "is a whole number of peaks",
    "bureau": "is a whole number",
    "place": "is a whole number",
    "n": "is a whole number",
    "state": "is stored in whole numbers",
    "result": "is five whole numbers",
    "roll": "is in whole thousandths of a degree, in one dimension",
    "acceleration": "is in whole mm/s2, in one dimension",
    "samples": "are whole thousandths, in one dimension",
    "peaks": "are whole numbers, in one dimension",
    "timed_samples": "are a whole number",
    "records": "are in whole ms, in one dimension",
    "degrees": "are numbers, in one dimension",
}


def _other(name: str, given: str) -> TypeError:
    return TypeError(f"{name} {_TAKEN[name]}: {given}")


def _whole(kind: type) -> bool:
    """Whether numbers of this type are whole: Python's and numpy's are; truth values are none, nor are numpy's spans of
    time, which pass for whole but have no index."""
    return issubclass(kind, numbers.Integral) and hasattr(kind, "__index__") and not issubclass(kind, bool)


def _real(kind: type) -> bool:
    """The same of numbers that degrees may be."""
    return _whole(kind) or issubclass(kind, (numbers.Real, decimal.Decimal)) and not issubclass(kind, numbers.Integral)


def _number(name: str, x: Whole) -> int:
    if not _whole(type(x)):
        raise _other(name, f"{reprlib.repr(x)} given")
    x = operator.index(x)
    if not 0 <= x < 1 << 64:
        raise OverflowError(f"{name} is no 64-bit number: {x} given")
    return x


def _flag(failed: object) -> int:
    """Whether a record failed, as 1 or 0: by a truth value of Python's or numpy's, a whole number, or None for none, as
    a Result's first is. Texts are none, since "0" would be true."""
    of_numpy = getattr(getattr(failed, "dtype", None), "char", "") == "?" and getattr(failed, "shape", None) == ()
    if not (failed is None or isinstance(failed, bool) or of_numpy or _whole(type(failed))):
        raise _other("failed", f"{reprlib.repr(failed)} given")
    return int(bool(failed))


def _items(**items: Whole) -> List[int]:
    """The items in their order, each by its name."""
    return [_number(name, x) for name, x in items.items()]


def _ask(function: Callable[..., int], *arguments: Any) -> int:
    """What the call carries; a Refusal if it refuses."""
    carried = _u64()
    number = function(*arguments, ctypes.byref(carried))
    if number:
        raise Refusal(number, carried.value)
    return carried.value


def _ask_of_two(function: Callable[..., int], *arguments: Any) -> int:
    """The same of a call about two channels, of which refusal 2 names one."""
    carried, channel = _u64(), _u64()
    number = function(*arguments, ctypes.byref(carried), ctypes.byref(channel))
    if number:
        raise Refusal(number, carried.value, Channel(channel.value) if channel.value else None)
    return carried.value


def _kind(values: Any) -> str:
    return f"an array of {values.dtype}" if hasattr(values, "dtype") else type(values).__name__


def _numpy() -> Any:
    """numpy, or None where there is none. It is asked for only where something is to be turned over."""
    try:
        import numpy
    except ImportError:
        return None
    return numpy


def _of_numpy(name: str, values: Any) -> Any:
    """numpy's array of what says that it can be one, in one dimension; None for whatever else is gone through."""
    if hasattr(values, "filled"):  # numpy's, whose memory has numbers under the mask too
        raise _other(name, "an array with a mask given")
    numpy = _numpy() if hasattr(values, "__array__") else None
    if numpy is None:
        return None
    held = numpy.asarray(values)
    if held.ndim != 1:
        raise ValueError(f"{name} {_TAKEN[name]}: {held.ndim} dimensions given")
    if held.dtype.kind == "O" and held is not values:  # such as pandas' whole numbers of which some may be absent
        return None
    return held


def _view(name: str, values: Any) -> Optional[memoryview]:
    """The memory of what holds its values side by side; None for a list and whatever else is gone through."""
    try:
        view = memoryview(values)
    except TypeError:
        return None
    except (ValueError, BufferError):
        raise _other(name, f"{_kind(values)} given") from None
    if view.ndim != 1:
        raise ValueError(f"{name} {_TAKEN[name]}: {view.ndim} dimensions given")
    return view


def _form(view: memoryview) -> str:
    """The form of one value in memory, without the order of its bytes."""
    return view.format.lstrip("@=<>!")


def _listed(name: str, values: Any, taken: Callable[[type], bool]) -> List[Any]:
    """Values that are gone through one by one, all of a type that is taken."""
    if isinstance(values, (collections.abc.Set, collections.abc.Mapping)):  # these are in no order that means something
        raise _other(name, f"{_kind(values)} given")
    try:
        values = iter(values) if not isinstance(values, (list, tuple)) else values
    except TypeError:
        raise _other(name, f"{_kind(values)} given") from None
    listed = list(values)
    strange = {kind for kind in set(map(type, listed)) if not taken(kind)}
    if strange:
        place, value = next((i, x) for i, x in enumerate(listed) if type(x) in strange)
        raise _other(name, f"{reprlib.repr(value)} given at place {place}")
    return listed


_SIGNED = {2: "h", 4: "i", 8: "q"}
_WHOLE = frozenset("hilqnHILQN")
_ORDERS = {"<": "little", ">": "big", "!": "big"}
_LIMITS = {"i": (-1 << 31, (1 << 31) - 1), "I": (0, (1 << 32) - 1)}


def _too_wide(name: str, values: Any, code: str) -> NoReturn:
    """The first of the values that is no 32-bit number is told."""
    least, most = _LIMITS[code]
    place, value = next((i, int(x)) for i, x in enumerate(values) if not least <= x <= most)
    raise OverflowError(f"{name} {_TAKEN[name]}: {value} given at place {place}, which is no 32-bit number")


def _holds_whole(name: str, held: Any) -> None:
    """Ends with an error if numpy's array holds no whole numbers; single bytes are a file's text, and none."""
    if held.dtype.kind not in "iu" or held.dtype.itemsize == 1:
        raise _other(name, f"{_kind(held)} given")


def _fit(held: Any, code: str) -> bool:
    """Whether all whole numbers of numpy's array are of 32 bits."""
    if not held.size or _numpy().can_cast(held.dtype, code):
        return True
    least, most = _LIMITS[code]
    return int(held.min()) >= least and int(held.max()) <= most


def _narrowed(name: str, held: Any, code: str) -> Any:
    """numpy's array of whole numbers as one of 32 bits side by side: itself, or a copy."""
    _holds_whole(name, held)
    if not _fit(held, code):
        _too_wide(name, held, code)
    return _numpy().require(held.astype(code, copy=False), requirements="CA")


def _gathered(name: str, values: Any, code: str) -> _Words:
    """The same of anything else, as an array of Python's, whatever its steps and the order of its bytes."""
    view = _view(name, values)
    if view is None:
        values = _listed(name, values, _whole)
    elif _form(view) not in _WHOLE:
        raise _other(name, f"{_kind(values)} given")
    else:
        held = _SIGNED[view.itemsize]
        values = array(held if _form(view).islower() else held.upper(), view.tobytes())
        if _ORDERS.get(view.format[0], sys.byteorder) != sys.byteorder:
            values.byteswap()
    try:
        return array(code, values)
    except OverflowError:
        _too_wide(name, values, code)


class _Lent(NamedTuple):
    """Whole numbers of 32 bits as the library reads them: where the first stands, how many there are, and what keeps
    them there."""

    first: int
    length: int
    owner: object

    def at(self, start: int, _n: int) -> int:
        """Where the piece from `start` on stands."""
        return self.first + 4 * start

    def whole(self) -> _Lent:
        """All of it, as it is lent at once."""
        return self


# Of no length nothing is read, but a place that is none is not lent.
_NOTHING = ctypes.c_int32()


def _lent(name: str, values: Any, code: str = "i") -> _Lent:
    """The values, read where they stand if they are of 32 bits and side by side. Their owner cannot let them go as long
    as they are lent."""
    held = _of_numpy(name, values)
    if held is not None:
        held = _narrowed(name, held, code)
        return _Lent(held.__array_interface__["data"][0], len(held), held)
    view = values if type(values) is array and values.typecode == code else _view(name, values)
    if not (isinstance(view, array) or view and view.format == code and view.c_contiguous and not view.readonly):
        view = _gathered(name, values, code)
    n = len(view)
    if n == 0:
        return _Lent(ctypes.addressof(_NOTHING), 0, _NOTHING)
    owner = ctypes.c_char.from_buffer(view)
    first = ctypes.addressof(owner)
    if first % 4:  # memory that was cast from single bytes
        return _lent(name, array(code, bytes(memoryview(view))), code)
    return _Lent(first, n, owner)


def _own(name: str, values: Any, code: str = "i") -> _Lent:
    """The same in memory of this call's own, which no other thread changes meanwhile: for calls that look at the values
    once for how much they will write and once more to write it."""
    lent = _lent(name, values, code)
    held = ctypes.create_string_buffer(4 * lent.length + 1)
    ctypes.memmove(held, lent.first, 4 * lent.length)
    return _Lent(ctypes.addressof(held), lent.length, held)


# A long record is fed in pieces where a channel has to be made for the library: so few samples that they stay near the
# processor. Nothing writes to these zeros.
_PIECE = 1 << 19
_QUIET = (ctypes.c_int32 * _PIECE)()


class _Zeros(NamedTuple):
    """A channel that is not given."""

    length: int

    def at(self, _start: int, _n: int) -> int:
        """Where a piece stands: all are the same."""
        return ctypes.addressof(_QUIET)

    def whole(self) -> _Lent:
        """All of them; where they are many, the system makes them as they are read."""
        if self.length <= _PIECE:
            return _Lent(ctypes.addressof(_QUIET), self.length, _QUIET)
        held = mmap.mmap(-1, 4 * self.length, flags=mmap.MAP_PRIVATE | mmap.MAP_ANONYMOUS)
        return _Lent(ctypes.addressof(ctypes.c_char.from_buffer(held)), self.length, held)


class _Wide:
    """numpy's whole numbers of another kind, which are narrowed piece by piece."""

    def __init__(self, name: str, held: Any) -> None:
        self.name, self.held, self.length = name, held, len(held)
        self.piece = _numpy().empty(min(self.length, _PIECE), "i")

    def at(self, start: int, n: int) -> int:
        """Where the piece from `start` on stands once it is narrowed; the next takes its place."""
        wide = self.held[start : start + n]
        if not _fit(wide, "i"):
            raise OverflowError
        self.piece[:n] = wide
        return int(self.piece.__array_interface__["data"][0])

    def whole(self) -> _Lent:
        """All of them, narrowed at once."""
        return _lent(self.name, self.held)


_Channel = Union[_Lent, _Zeros, _Wide]


def _fed(name: str, values: Any) -> _Channel:
    """A channel that is to be fed, lent as it stands where that can be."""
    held = _of_numpy(name, values)
    if held is None or len(held) <= _PIECE:
        return _lent(name, values if held is None else held)
    _holds_whole(name, held)
    return _lent(name, held) if held.dtype == "i" and held.flags.c_contiguous else _Wide(name, held)


def _channels(
    take: Callable[[str, Any], _Channel], roll: Optional[Row], acceleration: Optional[Row]
) -> Tuple[_Channel, _Channel]:
    """Both channels, with zeros for one that is None."""
    if roll is None and acceleration is None:
        raise TypeError("a record has at least one channel")
    first = None if roll is None else take("roll", roll)
    second = None if acceleration is None else take("acceleration", acceleration)
    n = (first or second or _Zeros(0)).length
    return first or _Zeros(n), second or _Zeros(n)


def _wholes(
    take: Callable[[str, Any], _Channel], roll: Optional[Row], acceleration: Optional[Row]
) -> Tuple[_Lent, _Lent]:
    """The same, each lent at once."""
    first, second = _channels(take, roll, acceleration)
    return first.whole(), second.whole()


def _text(text: Text) -> bytes:
    """A file's text as bytes."""
    if type(text) is bytes:
        return text
    try:
        view: Optional[memoryview] = memoryview(text)
    except TypeError:
        view = None
    if view is None or view.ndim != 1 or _form(view) not in ("B", "c"):
        raise TypeError(f"a file's text is bytes, in one dimension: {_kind(text)} given")
    return view.tobytes()


_Kind = TypeVar("_Kind", bound="_State")


class _State:
    """Numbers that a caller may store; a state is equal to one of its own kind with the same numbers."""

    LENGTH = 0

    def __init__(self, numbers: Sequence[Whole]) -> None:
        if len(numbers) != self.LENGTH:
            raise Refusal(8, 0)
        self._state: _Memory = (_u64 * self.LENGTH)(*(_number("state", x) for x in numbers))

    @classmethod
    def from_numbers(cls: Type[_Kind], numbers: Sequence[Whole]) -> _Kind:
        """A stored state; numbers that are no state are refused at their first use."""
        state = cls.__new__(cls)
        _State.__init__(state, numbers)
        return state

    @property
    def numbers(self) -> List[int]:
        """The state, to be stored."""
        return list(self._state)

    def _at(self, place: int) -> int:
        number: int = self._state[place]
        return number

    def __eq__(self, other: object) -> bool:
        if not isinstance(other, _State) or type(other) is not type(self):
            return NotImplemented
        return self.numbers == other.numbers

    __hash__ = None  # type: ignore[assignment] # a state changes

    def __repr__(self) -> str:
        return f"{type(self).__name__}.from_numbers({self.numbers})"

    def __reduce__(self) -> Tuple[Any, ...]:
        return type(self).from_numbers, (self.numbers,)


class Result(NamedTuple):
    """What a record comes to: crossings, counted failures (the groups of crossings), the first failure's place or None,
    the exposure in ms, and the largest set of crossings pairwise at least the decorrelation time apart."""

    crossings: int
    counted: int
    first: Optional[int]
    exposure: int
    largest_set: int

    @property
    def failed(self) -> bool:
        """Whether there is a first failure: with the exposure all that a campaign takes of a result."""
        return bool(self.first)


class Record(_State):
    """Roll and acceleration, so far. It is above where the roll is above its level or the acceleration above its own; a
    crossing is a sample above after one that was above in neither. The step is 1 to 10,000 ms, the ramp 0 to 1,000,000
    samples, each level 1 to 1,000,000, the decorrelation time 0 to 10,000,000 ms."""

    LENGTH = 14  # 12 while it had one channel

    def __init__(self, step: Whole, ramp: Whole, level: Whole, decorrelation: Whole, acceleration_level: Whole) -> None:
        super().__init__([0] * self.LENGTH)
        items = _items(
            step=step, ramp=ramp, level=level, decorrelation=decorrelation, acceleration_level=acceleration_level
        )
        _ask(_lib.chim_record_open, *items, self._state, self.LENGTH)

    def feed(self, roll: Optional[Row], acceleration: Optional[Row] = None) -> None:
        """The next piece of both channels, cut at the same place, or of one, with None for the other. Cut anywhere, the
        pieces of a record lead to the state of the whole."""
        channels = _channels(_fed, roll, acceleration)
        if all(type(channel) is _Lent for channel in channels) or not self._fed_in_pieces(*channels):
            first, second = (channel.whole() for channel in channels)
            _ask_of_two(_lib.chim_record_feed, self._state, self.LENGTH, *first[:2], *second[:2])

    def _fed_in_pieces(self, roll: _Channel, acceleration: _Channel) -> bool:
        """Whether a long piece was fed in smaller ones. If one of them is refused nothing has changed, and the whole is
        to be asked: which refusal goes first depends on all of it."""
        n = roll.length
        if n <= _PIECE or acceleration.length != n:
            return False
        fed = type(self._state).from_buffer_copy(self._state)
        carried, channel = _u64(), _u64()
        told = ctypes.byref(carried), ctypes.byref(channel)
        for start in range(0, n, _PIECE):
            length = min(_PIECE, n - start)
            try:
                first, second = roll.at(start, length), acceleration.at(start, length)
            except OverflowError:
                return False
            if _lib.chim_record_feed(fed, self.LENGTH, first, length, second, length, *told):
                return False
        self._state = fed
        return True

    def end(self) -> Result:
        """The record's result, to be seen before it enters a campaign."""
        result = (_u64 * 5)()
        _ask(_lib.chim_record_end, self._state, self.LENGTH, result, len(result))
        crossings, counted, first, exposure, largest_set = result
        return Result(crossings, counted, first or None, exposure, largest_set)

    @property
    def samples(self) -> int:
        """The samples so far."""
        return self._at(4)

    @property
    def crossings(self) -> int:
        """The crossings so far."""
        return self._at(6)

    @property
    def counted(self) -> int:
        """The groups: runs of successive crossings, each less than the decorrelation time after the crossing just
        before it."""
        return self._at(11)

    @property
    def largest_set(self) -> int:
        """The largest number of crossings pairwise at least the decorrelation time apart."""
        return self._at(7)

    @property
    def first(self) -> Optional[int]:
        """The place of the first crossing, or None."""
        return self._at(8) or None


def first_crossing(
    roll: Optional[Row], acceleration: Optional[Row], ramp: Whole, level: Whole, acceleration_level: Whole
) -> Optional[int]:
    """The place of the first crossing of a whole record, or None; of unequal lengths only the places that both have are
    looked at. Either channel may be None."""
    first, second = _wholes(_lent, roll, acceleration)
    items = _items(ramp=ramp, level=level, acceleration_level=acceleration_level)
    place: int = _lib.chim_record_first_crossing(*first[:2], *second[:2], *items)
    return place if place < min(first.length, second.length) else None


def counted_times(
    step: Whole,
    ramp: Whole,
    level: Whole,
    decorrelation: Whole,
    acceleration_level: Whole,
    roll: Optional[Row],
    acceleration: Optional[Row] = None,
) -> List[int]:
    """The counted times of a whole record: of each group, that of its first crossing. Either channel may be None."""
    first, second = _wholes(_own, roll, acceleration)
    items = _items(
        step=step, ramp=ramp, level=level, decorrelation=decorrelation, acceleration_level=acceleration_level
    )
    places = 0
    while True:
        times = (ctypes.c_uint32 * max(places, 1))()
        try:
            found = _ask_of_two(_lib.chim_record_list, *items, *first[:2], *second[:2], times, places)
            return times[:found]
        except Refusal as refusal:
            if refusal.number != 7:
                raise
            places = refusal.carried


class Case(enum.IntEnum):
    """What a campaign's verdict is."""

    NO_RECORD = 0
    ACCEPT = 1
    REJECT = 2
    CONTINUE = 3


class Verdict(NamedTuple):
    """Accept carries the upper rate, reject the lower, continue both."""

    case: Case
    lower: Optional[float]
    upper: Optional[float]


class Rates(NamedTuple):
    """The estimate of the rate and its 95% bounds, in failures a second."""

    estimate: float
    lower: float
    upper: float


def _judged(function: Callable[..., int], *arguments: Any) -> Verdict:
    lower, upper = ctypes.c_double(), ctypes.c_double()
    case = Case(_ask(function, *arguments, ctypes.byref(lower), ctypes.byref(upper)))
    return Verdict(
        case,
        lower.value if case in (Case.REJECT, Case.CONTINUE) else None,
        upper.value if case in (Case.ACCEPT, Case.CONTINUE) else None,
    )


def _rated(function: Callable[..., int], *arguments: Any) -> Optional[Rates]:
    rates = [ctypes.c_double() for _ in range(3)]
    some = _ask(function, *arguments, *map(ctypes.byref, rates))
    return Rates(*(rate.value for rate in rates)) if some else None


class Campaign(_State):
    """Many records, at the standard of one failure in so many ms, 1 to 100,000,000,000."""

    LENGTH = 5

    def __init__(self, standard: Whole) -> None:
        super().__init__([0] * self.LENGTH)
        _ask(_lib.chim_campaign_open, *_items(standard=standard), self._state, self.LENGTH)

    @classmethod
    def read_sheet(cls, text: Text) -> Campaign:
        """The campaign of a whole job sheet, as bytes; a Refusal knows its line and column."""
        text = _text(text)
        state, line, column = (_u64 * cls.LENGTH)(), _u64(), _u64()
        try:
            _ask(_lib.chim_sheet_read, text, len(text), state, cls.LENGTH, ctypes.byref(line), ctypes.byref(column))
        except Refusal as refusal:
            refusal.line, refusal.column = line.value, column.value
            raise
        return cls.from_numbers(list(state))

    def enter(self, failed: object, exposure: Whole) -> None:
        """Enters a result by what a campaign takes of it: whether there is a first failure, by a truth value, a whole
        number or None, and the exposure, 1 to 10,000,000 ms."""
        _ask(_lib.chim_campaign_enter, self._state, self.LENGTH, _flag(failed), *_items(exposure=exposure))

    def enter_result(self, result: Result) -> None:
        """Enters a record's Result, of which a campaign takes the first failure and the exposure."""
        numbers = (result.crossings, result.counted, result.first or 0, result.exposure, result.largest_set)
        lent = (_u64 * len(numbers))(*(_number("result", x) for x in numbers))
        _ask(_lib.chim_campaign_enter_result, self._state, self.LENGTH, lent, len(lent))

    @property
    def records(self) -> int:
        """The records so far, M."""
        return self._at(1)

    @property
    def failures(self) -> int:
        """The failures so far, N."""
        return self._at(2)

    @property
    def exposure(self) -> int:
        """The exposure so far in ms, T."""
        return self._at(3)

    def censored(self) -> int:
        """The censored count N*."""
        return _ask(_lib.chim_campaign_censored, self._state, self.LENGTH)

    def verdict(self) -> Verdict:
        """Accept, reject or continue, with the rates that go with it."""
        return _judged(_lib.chim_campaign_verdict, self._state, self.LENGTH)

    def rates(self) -> Optional[Rates]:
        """The estimate and its 95% bounds; None while there is no record."""
        return _rated(_lib.chim_campaign_rates, self._state, self.LENGTH)


class Bounds(NamedTuple):
    """Thousandths of a failure in `time` ms: the estimate and its 95% bounds."""

    estimate: int
    lower: int
    upper: int
    time: int


class Sum(_State):
    """Records that go on past a failure, added up by the binomial method, all at one step in ms, 1 to 10,000."""

    LENGTH = 3

    def __init__(self, step: Whole) -> None:
        super().__init__([0] * self.LENGTH)
        _ask(_lib.chim_sum_open, *_items(step=step), self._state, self.LENGTH)

    def add(self, record: Record) -> None:
        """Adds a record's groups and its timed samples. A record of another step is refused by 1 with item 1."""
        _ask(_lib.chim_sum_add, self._state, self.LENGTH, record._state, record.LENGTH)

    @property
    def failures(self) -> int:
        """The counted failures, N."""
        return self._at(1)

    @property
    def samples(self) -> int:
        """The timed samples, P."""
        return self._at(2)

    def bounds(self) -> Optional[Bounds]:
        """The estimate and its 95% bounds in thousandths of a failure, and the time in ms; None while there is no
        record."""
        bounds = (_u64 * 4)()
        return Bounds(*bounds) if _ask(_lib.chim_sum_bounds, self._state, self.LENGTH, bounds, len(bounds)) else None

    def rates(self) -> Optional[Rates]:
        """The estimate and its 95% bounds; None while there is no record."""
        return _rated(_lib.chim_sum_rates, self._state, self.LENGTH)


class Standing(enum.IntEnum):
    """What a loading condition comes to."""

    ACCEPTED = 1
    REJECTED = 2
    OPEN = 3


def _situations(campaigns: Iterable[Campaign]) -> Tuple[_Memory, int]:
    """A pointer to rows and their number."""
    rows = [campaign._state for campaign in campaigns]
    return (_campaign * max(len(rows), 1))(*rows), len(rows)


def judge_condition(campaigns: Iterable[Campaign]) -> Standing:
    """What a loading condition of 1 to 64 campaigns, one for each design situation, comes to: one that is rejected
    rejects it, it takes every one to accept it, and anything else leaves it open. A broken campaign raises Refusal 8
    with its situation's number, 1 for the first."""
    return Standing(_ask(_lib.chim_condition_judge, *_situations(campaigns)))


def write_report(campaigns: Iterable[Campaign]) -> bytes:
    """The report of a loading condition as bytes: for each situation its number, N, N*, T, letter and blocks billed;
    then total, the sums of M, N, T and blocks, and A, R or O. Refuses as judge_condition does."""
    rows, n = _situations(campaigns)
    # room for any report of so many situations, of which no more than 64 are taken
    size = 40 + 28 * min(n, 64)
    out = ctypes.create_string_buffer(size)
    written = _ask(_lib.chim_condition_report, rows, n, out, size)
    return out.raw[:written]


class Bench:
    """One table of 32 places that bureaus 1 and 2 share, at most 16 jobs each. Each bureau is answered as at a table of
    its own."""

    PLACES = 32

    def __init__(self) -> None:
        self._table: _Memory = (_row * self.PLACES)()

    @classmethod
    def from_numbers(cls, numbers: Sequence[Sequence[Whole]]) -> Bench:
        """A stored table, 32 rows of six numbers; numbers that are no table are refused at their first use."""
        if len(numbers) != cls.PLACES or any(len(row) != 6 for row in numbers):
            raise Refusal(8, 0)
        bench = cls()
        for i, row in enumerate(numbers):
            bench._table[i] = _row(*(_number("state", x) for x in row))
        return bench

    @property
    def numbers(self) -> List[List[int]]:
        """The table, to be stored: for each place its owner, 0 if it is free, and the five numbers of its campaign."""
        return [list(row) for row in self._table]

    def __eq__(self, other: object) -> bool:
        if not isinstance(other, Bench):
            return NotImplemented
        return self.numbers == other.numbers

    __hash__ = None  # type: ignore[assignment] # a table changes

    def __repr__(self) -> str:
        return f"Bench.from_numbers({self.numbers})"

    def __reduce__(self) -> Tuple[Any, ...]:
        return Bench.from_numbers, (self.numbers,)

    def take(self, bureau: Whole, standard: Whole) -> int:
        """A job at this standard: its place, the lowest that is free."""
        return _ask(_lib.chim_bench_take, self._table, self.PLACES, *_items(bureau=bureau, standard=standard))

    def enter(self, bureau: Whole, place: Whole, failed: object, exposure: Whole) -> None:
        """Enters a result as Campaign.enter does, into the campaign in the bureau's place."""
        bureau, place, exposure = _items(bureau=bureau, place=place, exposure=exposure)
        _ask(_lib.chim_bench_enter, self._table, self.PLACES, bureau, place, _flag(failed), exposure)

    def verdict(self, bureau: Whole, place: Whole) -> Verdict:
        """What Campaign.verdict tells, of the campaign in the bureau's place."""
        return _judged(_lib.chim_bench_verdict, self._table, self.PLACES, *_items(bureau=bureau, place=place))

    def rates(self, bureau: Whole, place: Whole) -> Optional[Rates]:
        """The estimate and its 95% bounds; None while there is no record."""
        return _rated(_lib.chim_bench_rates, self._table, self.PLACES, *_items(bureau=bureau, place=place))

    def give_back(self, bureau: Whole, place: Whole) -> None:
        """The place is free again."""
        _ask(_lib.chim_bench_give_back, self._table, self.PLACES, *_items(bureau=bureau, place=place))


class Peak(NamedTuple):
    """An envelope peak: its magnitude, and its time in ms after the ramp."""

    size: int
    time: int


def envelope_peaks(step: Whole, ramp: Whole, decorrelation: Whole, samples: Row) -> List[Peak]:
    """The envelope peaks of a whole record, a list of Peak in order of time."""
    items = _items(step=step, ramp=ramp, decorrelation=decorrelation)
    xs, n, _owner = _own("samples", samples)
    places = 0
    while True:
        sizes, times = (ctypes.c_uint32 * max(places, 1))(), (ctypes.c_uint32 * max(places, 1))()
        try:
            k = _ask(_lib.chim_envelope_find, *items, xs, n, sizes, places, times, places)
            return [Peak(size, time) for size, time in zip(sizes[:k], times[:k])]
        except Refusal as refusal:
            if refusal.number != 7:
                raise
            places = refusal.carried


class PeakSurvey(_State):
    """The first of two passes over a record that is not held: how many peaks its pieces have, and their sum. Samples
    are fed from the first one on, the ramp's too, and cut anywhere. The step is 1 to 10,000 ms, the ramp 0 to 1,000,000
    samples."""

    LENGTH = 10

    def __init__(self, step: Whole, ramp: Whole) -> None:
        super().__init__([0] * self.LENGTH)
        _ask(_lib.chim_peaks_survey, *_items(step=step, ramp=ramp), self._state, self.LENGTH)

    def feed(self, samples: Row) -> None:
        """The next piece. Refuses 2 with the place in the piece, 3."""
        xs, n, _owner = _own("samples", samples)
        _ask(_lib.chim_peaks_take, self._state, self.LENGTH, xs, n)

    def begin(self, decorrelation: Whole) -> PeakPass:
        """The second pass over the same samples, for a decorrelation time of 0 to 10,000,000 ms; the first stays as it
        is and serves other times too. Refuses 1 with item 4, 4 after fewer than two samples past the ramp."""
        second = PeakPass.from_numbers([0] * PeakPass.LENGTH)
        items = _items(decorrelation=decorrelation)
        _ask(_lib.chim_peaks_begin, self._state, self.LENGTH, *items, second._state, second.LENGTH)
        return second


class PeakPass(_State):
    """The second pass, which PeakSurvey.begin starts. Fed the same samples, however they are cut now, it hands out the
    peaks that envelope_peaks finds in the whole record."""

    LENGTH = 24

    def feed(self, samples: Row) -> List[Peak]:
        """The next piece: the peaks that it settled, in order of time. Refuses 2 with the place in the piece, 3."""
        xs, n, _owner = _own("samples", samples)
        sizes, times = (ctypes.c_uint32 * max(n, 1))(), (ctypes.c_uint32 * max(n, 1))()
        k = _ask(_lib.chim_peaks_hand_over, self._state, self.LENGTH, xs, n, sizes, n, times, n)
        return [Peak(size, time) for size, time in zip(sizes[:k], times[:k])]

    def last(self) -> Optional[Peak]:
        """After the last piece: the peak that the record's end settles, None where there is none. The pass stays as it
        is."""
        size, time = ctypes.c_uint32(), ctypes.c_uint32()
        found = _ask(_lib.chim_peaks_last, self._state, self.LENGTH, ctypes.byref(size), ctypes.byref(time))
        return Peak(size.value, time.value) if found else None


class Tail(NamedTuple):
    """A tail: the peaks sorted downwards, and the Hill sum over the k largest in units of 1/65,536."""

    sorted: List[int]
    k: int
    sum: int

    def shape(self) -> float:
        """The tail's shape by document 001, formula (11): the mean of the natural logarithms."""
        return self.sum * math.log(2) / (65_536 * self.k)


def fit_tail(peaks: Row, k: Whole) -> Tail:
    """The tail of the k largest of up to 4,096 peaks, each from 1 to 1,000,000."""
    lent, n, _owner = _own("peaks", peaks, "I")
    after = (ctypes.c_uint32 * max(n, 1))()
    [largest] = _items(k=k)
    total = _ask(_lib.chim_tail_fit, lent, n, largest, after, n)
    return Tail(list(after), largest, total)


def read_comma(text: Text, step: Whole) -> array[int]:
    """The samples of a simulator's comma file, as bytes: one a line, time in ms, comma, roll in degrees, each line
    ended by LF; times start at 0 and grow by the step. An array of 32-bit numbers, thousandths of a degree, which
    Record.feed takes at once."""
    text = _text(text)
    samples = array("i", bytes(4 * max(text.count(b"\n"), 1)))
    lent = (ctypes.c_int32 * len(samples)).from_buffer(samples)
    n = _ask(_lib.chim_comma_read, text, len(text), *_items(step=step), lent, len(samples))
    return samples[:n]


def write_comma(samples: Row, step: Whole) -> bytes:
    """Samples as a comma file, always with three decimals."""
    xs, n, _owner = _own("samples", samples)
    items = _items(step=step)
    size = 0
    while True:
        out = ctypes.create_string_buffer(max(size, 1))
        try:
            written = _ask(_lib.chim_comma_write, xs, n, *items, out, size)
            return out.raw[:written]
        except Refusal as refusal:
            if refusal.number != 7:
                raise
            size = refusal.carried


def write_sheet(standard: Whole, records: Row) -> bytes:
    """The job sheet of a standard and its records as bytes, in order: exposures in ms, with a minus on the failed
    ones."""
    xs, n, _owner = _own("records", records)
    # room for any sheet of so many records, of which no more than 100,000 are taken
    size = 22 + 18 * min(n, 100_000)
    out = ctypes.create_string_buffer(size)
    written = _ask(_lib.chim_sheet_write, *_items(standard=standard), xs, n, out, size)
    return out.raw[:written]


def read_records(text: Text) -> Tuple[int, List[int]]:
    """The standard of a whole job sheet, as bytes, and the list of its records, as write_sheet takes them. A Refusal
    has the line and the column of the fault."""
    text = _text(text)
    places = max(text.count(b"\n"), 1)
    records, standard, line, column = (ctypes.c_int32 * places)(), _u64(), _u64(), _u64()
    try:
        n = _ask(_lib.chim_sheet_records, text, len(text), records, places, ctypes.byref(standard), ctypes.byref(line),
            ctypes.byref(column))
    except Refusal as refusal:
        refusal.line, refusal.column = line.value, column.value
        raise
    return standard.value, records[:n]


def _thousandths(x: Any) -> int:
    # a number of numpy's would be multiplied in its own width, and a Decimal to as many digits as its context has
    if isinstance(x, decimal.Decimal):
        if x.is_finite() and abs(x.adjusted()) > 20:  # a fraction would have all these digits
            if x and x.adjusted() > 0:
                raise OverflowError("a number of degrees is no 32-bit number of thousandths")
            return 0
        x = fractions.Fraction(x)
    thousandths: int = round((x.item() if hasattr(x, "dtype") else x) * 1000)
    return thousandths


def _turned_over(degrees: Any) -> Any:
    """The thousandths of numpy's array, piece by piece, so that what is held in between stays near the processor."""
    numpy = _numpy()
    samples, held = numpy.empty(len(degrees), "i"), numpy.empty(1 << 16)
    for start in range(0, len(degrees), len(held)):
        piece = degrees[start : start + len(held)]
        now = held[: len(piece)]
        with numpy.errstate(over="ignore", invalid="ignore"):
            numpy.multiply(piece, 1000.0, out=now, dtype=numpy.float64, casting="unsafe")
            numpy.rint(now, out=now)
            # what is no number is neither
            if not (now.max() < 1 << 31 and now.min() > -1 << 31):
                raise OverflowError("a number of degrees is no 32-bit number of thousandths")
            samples[start : start + len(held)] = now
    return samples


@overload
def from_degrees(  # type: ignore[misc] # an array of numpy's also yields numbers
    degrees: numpy.ndarray[Any, Any]
) -> numpy.ndarray[Any, numpy.dtype[numpy.int32]]:
    ...


@overload
def from_degrees(degrees: Degrees) -> array[int]:
    ...


def from_degrees(degrees: Any) -> Any:
    """Samples of degrees: each number to the nearest thousandth, halves to the even one. Takes what a naval architect
    has in hand, an array of numpy's or what numpy takes for one, of which an array of numpy's comes back, or any
    numbers in one dimension, of which an array of Python's does; Record.feed reads both where they stand. A number that
    is none, or too large for 32 bits, raises OverflowError."""
    held = _of_numpy("degrees", degrees)
    if held is not None:
        if held.dtype.kind not in "iuf" or held.dtype.itemsize == 1:
            raise _other("degrees", f"{_kind(held)} given")
        return _turned_over(held)
    view = _view("degrees", degrees)
    # of a memoryview Python reads these forms, in the processor's own order of bytes
    foreign = isinstance(degrees, memoryview) and view is not None and view.format not in _WHOLE | set("fd")
    if view is not None and (foreign or _form(view) not in _WHOLE | set("efdg")):
        raise _other("degrees", f"{_kind(degrees)} given")
    try:
        return array("i", [_thousandths(x) for x in _listed("degrees", degrees, _real)])
    except ValueError as error:
        raise OverflowError(str(error)) from None


def upper_row(n: Whole) -> int:
    """Upper row n in millionths of an expected failure, from 1 to 64; 0 for any other n."""
    row: int = _lib.chim_upper_row(*_items(n=n))
    return row


def lower_row(n: Whole) -> int:
    """Lower row n in millionths of an expected failure, from 1 to 64; 0 for any other n."""
    row: int = _lib.chim_lower_row(*_items(n=n))
    return row


class Beyond(NamedTuple):
    """What extrapolation comes to, in ms: at most the estimated mean time between failures at the level, the longest
    standard found to be accepted and the shortest found to be rejected (None for none); the letter for the standard
    that was asked, A, R or C; and the tail that it was found from."""

    estimate: int
    accepted: Optional[int]
    rejected: Optional[int]
    letter: str
    tail: Tail


def extrapolate(
    peaks: Row, k: Whole, level: Whole, step: Whole, timed_samples: Whole, standard: Whole
) -> Beyond:
    """The mean time between failures at a level that no record need reach, from up to 4,096 envelope peaks in any
    order: by the k largest of them, the level in thousandths of a degree, the step in ms, the timed samples of all
    records and a standard in ms. Refuses 1 with item 1, 3 or 5, 16, 17, 19, 20 with the k-th peak, 21, in this
    order."""
    items = _items(level=level, step=step, timed_samples=timed_samples, standard=standard)
    [largest] = _items(k=k)
    times = (_u64 * 3)()
    # without a peak 1 is given where it is due, and else 16; the place that 17 names is that of the list handed over
    try:
        _ask(_lib.chim_extrapolate, (ctypes.c_uint32 * 1)(), 0, 0, *items, times, 3)
    except Refusal as refusal:
        if refusal.number == 1:
            raise
    tail = fit_tail(peaks, largest)
    lent = (ctypes.c_uint32 * len(tail.sorted))(*tail.sorted)
    letter = _ask(_lib.chim_extrapolate, lent, len(tail.sorted), largest, *items, times, 3)
    return Beyond(times[0], times[1] or None, times[2] or None, " ARC"[letter], tail)


# these stand on the above
from chimenickel.files import FileRefusal, count_files, sheet_of_files  # noqa: E402
