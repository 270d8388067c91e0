"""The calls of python/troughiron.py, each refusal as an exception, and that a refused call changes nothing."""

import subprocess
import sys

import troughiron as bench


def check(what: str, right: bool) -> None:
    if not right:
        sys.exit(f"tests/python.py: {what}")


def image_of(*devices: str) -> bytearray:
    made = subprocess.run(["troughiron", "new", "-", *devices], check=True, capture_output=True)
    return bytearray(made.stdout)


def refused(number: int, what: str, image: bytearray, trace: bytes) -> None:
    before = bytes(image)
    try:
        bench.run(image, trace)
    except bench.Refused as refusal:
        check(f"{what}: refusal {refusal.number}", refusal.number == number)
        check(f"{what}: the image is changed", bytes(image) == before)
        return
    sys.exit(f"tests/python.py: {what} is not refused")


def refusals() -> None:
    one, pair = image_of("ds1992"), image_of("ds1992", "ds1992")
    refused(1, "no image", bytearray(), b"")
    refused(2, "a cut image", one[:-1], b"")
    spoiled = bytearray(one)
    spoiled[13] ^= 1
    refused(3, "a wrong CRC", spoiled, b"")
    alike = bytearray(pair)
    alike[181:189] = pair[10:18]
    refused(4, "two codes alike", alike, b"")
    refused(5, "no event", one, bytes([bench.RESET, 99]))
    refused(5, "a long trace", one, bench.reset() * (bench.MOST_EVENTS + 1))
    refused(11, "no reset", one, bench.send(0xCC))
    refused(6, "a pulse", one, bytes([bench.RESET, bench.PULSE]))


def calls() -> None:
    image = image_of("ds1992", "ds1993:000000FBC52B", "ds1982")
    found = bench.search(image)
    check("the codes", [code[0] for code in found.codes] == [bench.DS1992, bench.DS1993, bench.DS1982])
    check("the counts", (found.passes, found.resets, found.slots) == (3, 3, 600) and len(found.trace) == 603)
    check("valid codes", all(bench.registration_check(code) for code in found.codes))
    check("a code of 7 bytes", not bench.registration_check(found.codes[0][:7]))
    before = bytes(image)
    answers, copied = bench.run(image, found.trace)
    check("a search's trace", len(answers) == 603 and copied == 0 and bytes(image) == before)
    check("the empty trace", bench.run(image, b"") == (b"", 0))
    check("an empty bench", bench.search(bytearray([0, 1])).trace == bench.reset())
    check("bytes", bench.spelled(bench.send(0x0F, 0xA5)) == b"\x0f\xa5" and bench.read(1) == b"\x01" * 8)


def verdict(what: str, judged: bench.Verdict, rule: str, event: int) -> None:
    check(f"{what}: {judged.rule} {judged.event}", (judged.rule, judged.event) == (rule, event))
    check(f"{what}: accepted", judged.accepted == (rule == ""))


def judged() -> None:
    one, pair = image_of("ds1992"), image_of("ds1992", "ds1992")
    start = bench.reset() + bench.send(0xCC)
    write, back = start + bench.send(0x0F, 0x26, 0x00, 0x41), start + bench.send(0xAA)
    copy = start + bench.send(0x55, 0x26, 0x00, 0x06)
    careful = write + back + bench.read(4) + copy
    before = bytes(one)
    verdict("a careful session", bench.judge(one, careful), "", 0)
    check("a judged image is changed", bytes(one) == before)
    left = bytearray(one)
    answers, copied = bench.run(left, careful)
    check("what is left", copied == 1 and bench.judge(one, careful, answers).image == bytes(left))
    other = bytearray(answers)
    other[60] ^= 1
    verdict("another answer", bench.judge(one, careful, other), "A", 60)
    verdict("two devices", bench.judge(pair, careful), "B", 16)
    verdict("no read back", bench.judge(one, write + copy), "C", len(write + copy) - 1)
    for wrong in (answers[:-1], answers + b"\x01"):
        try:
            bench.judge(one, careful, wrong)
        except bench.Refused as refusal:
            check(f"answers of another length: refusal {refusal.number}", refusal.number == 7)
        else:
            sys.exit("tests/python.py: answers of another length are not refused")


calls()
refusals()
judged()
