"""Troughiron from Python: a software bench for 1-Wire memory buttons.

The calls of include/troughiron.h, through the shared library. A refusal is an exception, `Refused`, with
its number; a call that is refused changes nothing. Only the standard library is needed.

    import troughiron

    image = bytearray(open("two.image", "rb").read())
    answers, copied = troughiron.run(image, troughiron.reset() + troughiron.send(0xCC, 0x0F, 0x26, 0x00))

The shared library is the one that TROUGHIRON_LIBRARY names; else it is looked for beside this file, in
the folders lib and target/command of the folders above it, and where the system looks.
"""

from __future__ import annotations

import ctypes
import ctypes.util
import os
import pathlib
from dataclasses import dataclass
from typing import Iterable, Optional, Union

Bytes = Union[bytes, bytearray, memoryview]

WRITE_ZERO, WRITE_ONE, RESET, PULSE = 0, 1, 2, 3
OVERDRIVE_ZERO, OVERDRIVE_ONE, OVERDRIVE_RESET = 4, 5, 6
DS1992, DS1993, DS1996, DS1982 = 0x08, 0x06, 0x0C, 0x09
ES_AA, ES_OF, ES_PF, ES_ENDING = 0x80, 0x40, 0x20, 0x1F
MOST_EVENTS, MOST_DEVICES, MOST_BYTES = 32768, 64, 65535
GOOD, FLAT = 0, 1

_CAUSES = {
    1: "the table of contents",
    2: "the layout of the image, or its length",
    3: "a code's CRC or family",
    4: "two devices with the same code",
    5: "the trace: too long, or a byte that is no event",
    6: "a program pulse while some device is not a DS1982",
    7: "too little room, or other than one answer for each event",
    11: "a trace that does not begin with a reset at regular speed",
}


class Refused(Exception):
    """The library refused a call, and nothing was changed. `number` is the refusal's."""

    def __init__(self, number: int) -> None:
        super().__init__(f"refusal {number}: {_CAUSES.get(number, 'unknown')}")
        self.number = number


@dataclass(frozen=True)
class Found:
    """What a search found: codes of 8 bytes in their order, the trace that it sent, and its counts."""

    codes: list[bytes]
    trace: bytes
    passes: int
    resets: int
    slots: int


@dataclass(frozen=True)
class Verdict:
    """What a session is judged: `rule` is "" where it is accepted, else the rule that is broken, "A", "B" or "C".

    `event` is where, counted from 0, and `image` the devices as the whole trace leaves them."""

    rule: str
    event: int
    image: bytes

    @property
    def accepted(self) -> bool:
        return not self.rule


def _candidates() -> Iterable[str]:
    here = pathlib.Path(__file__).resolve().parent
    named = os.environ.get("TROUGHIRON_LIBRARY")
    if named:
        yield named
        return
    for folder in (here, *(parent / part for parent in here.parents for part in ("lib", "target/command"))):
        yield from sorted(str(path) for path in folder.glob("libtroughiron.so*"))
    found = ctypes.util.find_library("troughiron")
    if found:
        yield found


def _load() -> ctypes.CDLL:
    for path in _candidates():
        try:
            return _typed(ctypes.CDLL(path))
        except (OSError, AttributeError):
            continue
    raise ImportError("libtroughiron.so is not found: 'make shared' builds it, TROUGHIRON_LIBRARY names it")


def _typed(library: ctypes.CDLL) -> ctypes.CDLL:
    slice_type = [ctypes.c_void_p, ctypes.c_size_t]
    number = ctypes.POINTER(ctypes.c_uint64)
    library.troughiron_run.argtypes = slice_type * 3 + [number]
    library.troughiron_run.restype = ctypes.c_uint32
    library.troughiron_judge.argtypes = slice_type * 4 + [number] * 2
    library.troughiron_judge.restype = ctypes.c_uint32
    library.troughiron_search.argtypes = slice_type * 3 + [number] * 3
    library.troughiron_search.restype = ctypes.c_uint32
    library.troughiron_registration_check.argtypes = slice_type
    library.troughiron_registration_check.restype = ctypes.c_uint32
    return library


_library = _load()


class _Slice:
    """A buffer as the library takes it: a pointer and a length."""

    def __init__(self, data: Bytes, shared: bool = False) -> None:
        kind = ctypes.c_uint8 * len(data)
        self._array = kind.from_buffer(data) if shared and len(data) else kind.from_buffer_copy(bytes(data))
        self._length = len(data)

    def words(self) -> tuple[object, int]:
        return (ctypes.addressof(self._array) if self._length else None, self._length)

    def taken(self, count: int) -> bytes:
        return bytes(self._array[:count])


def _answered(number: int) -> None:
    if number:
        raise Refused(number)


def run(image: bytearray, trace: Bytes) -> tuple[bytes, int]:
    """Runs a trace on the devices of an image, and leaves them in it.

    Returns the level of the line after each event, and how many bytes copies wrote to memories."""
    answers = _Slice(bytes(len(trace)))
    copied = ctypes.c_uint64(0)
    bench, events = _Slice(image, shared=True), _Slice(trace)
    _answered(_library.troughiron_run(*bench.words(), *events.words(), *answers.words(), ctypes.byref(copied)))
    return answers.taken(len(trace)), copied.value


def judge(image: Bytes, trace: Bytes, answers: Optional[Bytes] = None) -> Verdict:
    """Judges a recorded session: its image, the trace that a program sent, and the answers that it recorded.

    Without answers they are the bench's own. The image is only read."""
    if answers is None:
        answers, _ = run(bytearray(image), trace)
    bench, events, recorded, work = _Slice(image), _Slice(trace), _Slice(answers), _Slice(bytes(len(image)))
    rule, event = ctypes.c_uint64(0), ctypes.c_uint64(0)
    slices = (*bench.words(), *events.words(), *recorded.words(), *work.words())
    _answered(_library.troughiron_judge(*slices, ctypes.byref(rule), ctypes.byref(event)))
    return Verdict(("", "A", "B", "C")[rule.value], event.value, work.taken(len(image)))


def search(image: Bytes) -> Found:
    """Finds the codes of all devices of an image, as a searching master on the line does."""
    codes, trace = _Slice(bytes(8 * MOST_DEVICES)), _Slice(bytes(201 * MOST_DEVICES))
    counts = [ctypes.c_uint64(0) for _ in range(3)]
    bench = _Slice(image)
    _answered(_library.troughiron_search(*bench.words(), *codes.words(), *trace.words(), *map(ctypes.byref, counts)))
    passes, resets, slots = (count.value for count in counts)
    found = codes.taken(8 * passes)
    return Found([found[i : i + 8] for i in range(0, 8 * passes, 8)], trace.taken(resets + slots), passes, resets, slots)


def registration_check(code: Bytes) -> bool:
    """Whether 8 bytes are a registration code with the right CRC."""
    return _library.troughiron_registration_check(*_Slice(code).words()) == 1


# ---- traces from what a master does


def reset() -> bytes:
    """A reset."""
    return bytes([RESET])


def send(*values: int) -> bytes:
    """Bytes that the master sends, the least significant bit first."""
    return bytes(value >> bit & 1 for value in values for bit in range(8))


def read(count: int) -> bytes:
    """Read slots for so many bytes."""
    return bytes([WRITE_ONE]) * (8 * count)


def spelled(levels: Bytes) -> bytes:
    """The bytes that levels of the line spell, the least significant bit first; the last one may be cut."""
    return bytes(sum((level & 1) << bit for bit, level in enumerate(levels[i : i + 8])) for i in range(0, len(levels), 8))
