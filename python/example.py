"""Tests of a driver, for pytest or by themselves: two buttons lie under one probe, and a write is meant for one.

`store` is the driver under test. With skip ROM it writes both; with match ROM it writes the one it means.
"""

import pathlib
import subprocess
import tempfile
from typing import Optional

import troughiron as bench

SKIP, MATCH, WRITE_SCRATCHPAD, READ_SCRATCHPAD, COPY_SCRATCHPAD = 0xCC, 0x55, 0x0F, 0xAA, 0x55


def two_devices() -> bytearray:
    with tempfile.TemporaryDirectory() as folder:
        path = pathlib.Path(folder, "two.image")
        subprocess.run(["troughiron", "new", str(path), "2xds1992"], check=True)
        return bytearray(path.read_bytes())


def store(image: bytearray, code: Optional[bytes], address: int, value: int) -> tuple[bytes, int]:
    """Stores a byte, in the device of a code or, with none, in whatever is there.

    Returns the trace that it sent, and the bytes copied."""
    start = bench.reset() + (bench.send(MATCH, *code) if code else bench.send(SKIP))
    trace = start + bench.send(WRITE_SCRATCHPAD, address & 0xFF, address >> 8, value)
    trace += start + bench.send(READ_SCRATCHPAD) + bench.read(4)
    answers, _ = bench.run(bytearray(image), trace)
    registers = bench.spelled(answers[-32:])[:3]
    trace += start + bench.send(COPY_SCRATCHPAD, *registers)
    _, copied = bench.run(image, trace)
    return trace, copied


def test_a_careless_driver_writes_both() -> None:
    image = two_devices()
    before = bytes(image)
    trace, copied = store(image, None, 0x26, 0x41)
    assert copied == 2
    assert bench.judge(before, trace).rule == "B"


def test_a_careful_driver_writes_one() -> None:
    image = two_devices()
    before = bytes(image)
    found = bench.search(image)
    assert found.passes == 2
    trace, copied = store(image, found.codes[0], 0x26, 0x41)
    assert copied == 1
    assert bench.judge(before, trace).accepted


if __name__ == "__main__":
    test_a_careless_driver_writes_both()
    test_a_careful_driver_writes_one()
    print("skip ROM writes both devices under the probe, match ROM the one that is meant")
