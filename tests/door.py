"""The C interface of the library (include/kitsettle.h) from Python, by ctypes and the standard library alone.

Each method takes plain lists, lends copies of them to the library and gives the answer with what the lent buffers
then hold. Each lent buffer stands between guard numbers; a call that writes outside it, or into a buffer it may
only read, raises Trespass. `Lent` buffers may be passed in place of lists, to lend the same one many times."""
import ctypes
from array import array
from ctypes import POINTER, byref, c_int32, c_size_t, c_uint8, c_uint16, c_uint32

GUARD = [0x5A] * 8
TYPES = {"B": c_uint8, "H": c_uint16, "i": c_int32}


class Trespass(Exception):
    """The library wrote where it may not."""


class Lent:
    """A buffer of numbers between guards. Code: B bytes, H counts, i costs."""

    def __init__(self, code, numbers):
        self.held = array(code, GUARD)
        self.held.extend(array(code, numbers))
        self.held.extend(GUARD)
        self.length = len(numbers)
        lent = (TYPES[code] * self.length).from_buffer(self.held, len(GUARD) * self.held.itemsize)
        self.pair = (ctypes.cast(lent, POINTER(TYPES[code])), c_size_t(self.length))

    def numbers(self):
        """What the buffer holds now, once the guards are seen to be whole."""
        if self.held[:len(GUARD)].tolist() != GUARD or self.held[-len(GUARD):].tolist() != GUARD:
            raise Trespass("outside a lent buffer")
        return self.held[len(GUARD):-len(GUARD)].tolist()


def lend(code, numbers):
    return numbers if isinstance(numbers, Lent) else Lent(code, numbers)


def call(function, before, buffers, after=()):
    """Calls with the numbers, the buffers (each a pointer and a length) and the rest."""
    flat = [part for buffer in buffers for part in buffer.pair]
    return function(*before, *flat, *after)


def check_unwritten(buffer, numbers):
    if not isinstance(numbers, Lent) and buffer.numbers() != list(numbers):
        raise Trespass("a buffer lent only for reading")


class Door:
    def __init__(self, path):
        library = ctypes.CDLL(str(path))
        bytes_, counts, costs, place = POINTER(c_uint8), POINTER(c_uint16), POINTER(c_int32), POINTER(c_size_t)
        size = c_size_t
        self.calls = {}
        for name, kinds in {
            "complete": [size, size, counts, size, costs, size, counts, size, counts, size, place],
            "settle": [size, size, counts, size, costs, size, counts, size, size, counts, size, place],
            "earlier": [size, costs, size, counts, size, counts, size],
            "read": [bytes_, size, counts, size, costs, size, counts, size, counts, size] + [place] * 5,
        }.items():
            function = getattr(library, "kitsettle_" + name)
            function.argtypes, function.restype = kinds, c_uint32
            self.calls[name] = function

    def complete(self, kinds, bound, sizes, costs, swaps, rules):
        """(number, place, rules): 0 and the number of rows, or a refusal and its place; and the table at exit."""
        read_only = [(lend("H", sizes), sizes), (lend("i", costs), costs), (lend("H", swaps), swaps)]
        lent, place = lend("H", rules), c_size_t(77)
        buffers = [buffer for buffer, _ in read_only] + [lent]
        number = call(self.calls["complete"], (kinds, bound), buffers, (byref(place),))
        for buffer, numbers in read_only:
            check_unwritten(buffer, numbers)
        return number, place.value, lent.numbers()

    def settle(self, kinds, bound, sizes, costs, rules, rows, load):
        """(number, place, load): 0, or a refusal and its place; and the load at exit."""
        read_only = [(lend("H", sizes), sizes), (lend("i", costs), costs), (lend("H", rules), rules)]
        lent, place = lend("H", load), c_size_t(77)
        after = (rows, *lent.pair, byref(place))
        number = call(self.calls["settle"], (kinds, bound), [buffer for buffer, _ in read_only], after)
        for buffer, numbers in read_only:
            check_unwritten(buffer, numbers)
        return number, place.value, lent.numbers()

    def earlier(self, kinds, costs, first, second):
        """1 or 2: which load comes first in the cost order; 0 where refused."""
        read_only = [(lend("i", costs), costs), (lend("H", first), first), (lend("H", second), second)]
        number = call(self.calls["earlier"], (kinds,), [buffer for buffer, _ in read_only])
        for buffer, numbers in read_only:
            check_unwritten(buffer, numbers)
        return number

    def read(self, text, sizes, costs, swaps, loads):
        """(number, line, (kinds, bound, swaps, loads), buffers): 0, or a refusal and its line; and the four buffers."""
        source = lend("B", text)
        lent = (lend("H", sizes), lend("i", costs), lend("H", swaps), lend("H", loads))
        places = [c_size_t(77) for _ in range(5)]
        number = call(self.calls["read"], (), (source, *lent), [byref(place) for place in places])
        check_unwritten(source, text)
        *counts, line = (place.value for place in places)
        return number, line, tuple(counts), tuple(buffer.numbers() for buffer in lent)
