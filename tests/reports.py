"""What reports for programs and pages say, held to the report for readers: in the folder of tests/reports."""
import html
import html.parser
import json
import re
import sys


def load(name):
    with open(name, encoding="utf-8") as file:
        return file.read()


def levels_of(events):
    """What the master sends in slots of either speed."""
    return events.translate(str.maketrans("45", "01"))


def bits_of(digits):
    """The levels that bytes spell, least significant bit first."""
    return "".join(format(byte, "08b")[::-1] for byte in bytes.fromhex(digits))


def body_places(image):
    """Where the body of each device is."""
    return [image[4 * i + 4] + 256 * image[4 * i + 5] for i in range(image[0])]


def change(image, changes):
    """An image after changes, each of which has what was there before."""
    image = bytearray(image)
    for item in changes:
        start = body_places(image)[item["device"] - 1]
        add_only = image[4 * (item["device"] - 1) + 2] == 0x09
        places = {"TA": 8, "E/S": 10, "scratchpad": 11, "memory": 43, "status": 8, "data": 16}
        assert (item["field"] in ("status", "data")) == add_only, item
        place = start + places[item["field"]] + int(item.get("address", "0"), 16)
        before, after = bytes.fromhex(item["before"]), bytes.fromhex(item["after"])
        if item["field"] == "TA":
            before, after = before[::-1], after[::-1]
        assert image[place:place + len(before)] == before and len(before) == len(after), item
        image[place:place + len(after)] = after
    return bytes(image)


def check_steps(run, name):
    """The steps have the trace and its answers, and the lines and texts of the report."""
    trace, answers = (open(name + ending, "rb").read() for ending in (".trace", ".answers"))
    assert "".join(step.get("events", "") for step in run["steps"]) == "".join(map(str, trace))
    assert "".join(step.get("answers", "") for step in run["steps"]) == "".join(map(str, answers))
    report, first = load(name + ".txt"), 0
    for step in run["steps"]:
        assert step.get("first", first) == first, step
        first += len(step.get("events", ""))
        if "sent" in step:
            assert bits_of(step["sent"]) == levels_of(step["events"]), step
            assert bits_of(step["answered"]) == step["answers"], step
        if "events" in step or "note" in step:
            assert f"\n{step['line']:5}  {step['text']}" in report, step
        assert step.get("met", True) or f"! {step['note']}\n" in report, step
    assert run["expectations"] == sum("met" in step for step in run["steps"])
    assert run["not_met"] == sum(not step.get("met", True) for step in run["steps"])


def check_counts(run, text):
    plural = lambda number, word: f"{number} {word}" + ("" if number == 1 else "s")
    counts = ", ".join(plural(run[word + "s"], word) for word in ("reset", "slot", "pulse"))
    assert f"{plural(run['events'], 'event')}: {counts}; {plural(run['copied'], 'byte')} copied\n" in text
    assert run["copied"] == sum(copy["bytes"] for copy in run["copies"])


def check_copies(run, text):
    """Each copy is the one that the report has under the step with its last event."""
    shown = re.findall(r"copied by #(\d+) .*: (nothing|\d+ bytes?) at (....)h", text)
    told = [(str(copy["device"]), copy["bytes"], copy["address"]) for copy in run["copies"]]
    assert [(device, 0 if bytes_ == "nothing" else int(bytes_.split()[0]), at) for device, bytes_, at in shown] == told
    for copy in run["copies"]:
        step = [step for step in run["steps"] if step.get("first", copy["event"] + 1) <= copy["event"]][-1]
        place = copy["event"] - step["first"]
        assert place < len(step["events"]) and (place + 1) % 8 == 0, copy


def check_run(name):
    """The JSON of a run says what its report does, and what its trace, answers and images are."""
    run, text = json.loads(load(name + ".json")), load(name + ".txt")
    before, after = (open(name + ending, "rb").read() for ending in (".before", ".after"))
    check_steps(run, name)
    check_counts(run, text)
    check_copies(run, text)
    image, first = before, 0
    for part in run["transactions"]:
        assert part["first"] == first, part
        first += part["events"]
        image = change(image, part["changes"])
    assert first == run["events"] and image == after, name
    assert change(before, run["changes"]) == after, name


class Page(html.parser.HTMLParser):
    """The report's text in a page, the labels of its steps, and its drawings with what stands under each."""

    alone = {"meta", "br"}

    def __init__(self):
        super().__init__()
        self.open, self.report, self.labels, self.figures = [], "", [], []

    def handle_starttag(self, tag, attrs):
        assert tag not in ("script", "img", "link", "iframe"), tag
        for name, value in attrs:
            assert name not in ("src", "href"), value
        if tag == "figure":
            fast = ("data-fast", None) in attrs
            self.figures.append({"line": "", "held": "", "sent": "", "answered": "", "fast": fast})
        if tag == "span" and ("class", "step") in self.outer:
            self.labels.append("")
        self.outer = attrs
        if tag not in self.alone:
            self.open.append(tag)

    outer = []

    def handle_startendtag(self, tag, attrs):
        assert tag == "path", tag
        self.figures[-1]["held" if ("class", "device") in attrs else "line"] = dict(attrs)["d"]

    def handle_endtag(self, tag):
        assert self.open.pop() == tag, tag

    def handle_data(self, data):
        if "pre" in self.open:
            self.report += data
        elif "i" in self.open:
            self.figures[-1]["sent"] += data
        elif "figcaption" in self.open:
            self.figures[-1]["answered"] += data
        elif self.open[-2:] == ["div", "span"]:
            self.labels[-1] += data


def lows(path):
    """The lows of a line, each by its start and its width."""
    falls = re.findall(r"H(\d+)V28H(\d+)V10", path)
    return [(int(start), int(end) - int(start)) for start, end in falls]


def drawn(figure):
    """The events and answers that a drawing shows, by its strokes alone."""
    if "V2H" in figure["line"]:
        return "3", "1"
    found, held = lows(figure["line"]), len(re.findall("M", figure["held"]))
    if found[0][1] > 20:
        assert (len(found) == 2) == (held == 1), figure
        return "26"[figure["fast"]], "01"[len(found) == 1]
    widths = [width for _, width in found]
    assert held == widths.count(8) and not set(widths) - {3, 8, 10}, figure
    digits = "45" if figure["fast"] else "01"
    return "".join(digits[width != 10] for width in widths), "".join("01"[width == 3] for width in widths)


def check_page(name):
    """Its text is the report, its drawings are the trace and the answers, and under them are their bytes."""
    page = Page()
    page.feed(load(name + ".html"))
    page.close()
    assert not page.open, page.open
    assert page.report == load(name + ".txt"), name
    run = json.loads(load(name + ".json"))
    assert "".join(drawn(figure)[0] for figure in page.figures) == "".join(s.get("events", "") for s in run["steps"])
    assert "".join(drawn(figure)[1] for figure in page.figures) == "".join(s.get("answers", "") for s in run["steps"])
    for figure in page.figures:
        events, answers = drawn(figure)
        if len(events) == 8:
            assert bits_of(figure["sent"]) == levels_of(events) and bits_of(figure["answered"]) == answers, figure
        elif figure["answered"].endswith("presence"):
            assert events == "26"[figure["answered"].startswith("overdrive ")], figure
            assert answers == "01"[figure["answered"].endswith("no presence")], figure
        elif figure["answered"] == "pulse":
            assert events == "3", figure
        else:
            assert (figure["sent"], figure["answered"]) == (levels_of(events), answers), figure
    told = [f"{step['line']} {step['text']}" for step in run["steps"] if "events" in step]
    assert [label for i, label in enumerate(page.labels) if i == 0 or label != page.labels[i - 1]] \
        == [label for i, label in enumerate(told) if i == 0 or label != told[i - 1]], name


def check_show(name):
    """The JSON of an image has every byte of it."""
    shown = json.loads(load(name + ".show.json"))
    image = open(name + ".image", "rb").read()
    bodies = b""
    for number, device in enumerate(shown["devices"], 1):
        assert device["device"] == number
        body = bytes.fromhex(device["wire"])
        if "TA" in device:
            body += bytes.fromhex(device["TA"])[::-1] + bytes.fromhex(device["E/S"]["value"])
            es = int(device["E/S"]["value"], 16)
            flags = [device["E/S"][flag] for flag in ("AA", "OF", "PF")]
            assert flags == [bool(es & 0x80), bool(es & 0x40), bool(es & 0x20)]
            assert device["E/S"]["ending_offset"] == es & 31
            body += bytes.fromhex(device["scratchpad"]) + bytes.fromhex(device["memory"])
        else:
            body += bytes.fromhex(device["status"]) + bytes.fromhex(device["data"])
            status = bytes.fromhex(device["status"])
            for page in range(4):
                to = 255 - status[1 + page]
                told = {"page": page, "protected": not status[0] >> page & 1, "redirected": to if to else None}
                assert device["pages"][page] == told, told
        assert device["flat"] == (image[4 * number - 1] == 1), device
        assert device["kind"] == {8: "DS1992", 6: "DS1993", 12: "DS1996", 9: "DS1982"}[image[4 * number - 2]], device
        bodies += body
    assert len(shown["devices"]) == image[0] and shown["bytes"] == len(image)
    assert image[2 + 4 * image[0]:] == bodies


def check_search(name):
    found = json.loads(load(name + ".search.json"))
    text = load(name + ".search.txt")
    lines = [f"{code['code']}  {code['kind']}  #{code['device']}\n" for code in found["codes"]]
    assert lines == text.splitlines(keepends=True)[:-1]
    assert re.search(rf"^{found['passes']} pass(es)?, {found['resets']} resets?, {found['slots']} slots?$", text, re.M)


def main():
    kind, *names = sys.argv[1:]
    for name in names:
        {"run": check_run, "page": check_page, "show": check_show, "search": check_search}[kind](name)


main()
