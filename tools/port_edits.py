#!/usr/bin/env python3
"""Brings the must-fail edits over to today's Rattle, and tells which of them no longer fit.

usage: tools/port_edits.py --check
       tools/port_edits.py LANDED SCRATCH [LABEL..]

An edit is a file crates/NAME/must-fail/LABEL.edit or crates/NAME/must-fail/more/LABEL.edit. --check names each edit
with an `old:` text that does not stand exactly once in its file, and ends with status 1 where there is one.

The second form was run once, at the top of the repository. LANDED is a folder with the repository as it was before
the port, and SCRATCH one that is made. The edits are made in copies of LANDED, as many in one copy as lie apart from
one another, and port.py and tools/snake_names.py turn each copy, and one copy without an edit. What differs between
the turned copies is what the edit has to say today. An edit that says just that stays as it is, and another gets a
pair `old:` and `new:` for each line that differs. Where that cannot be said line by line the edit is named, and is
left to be written by hand. With labels, as device/NAME, only these edits are written.
"""
import difflib
import glob
import os
import re
import shutil
import subprocess
import sys

APART = 4
# A line that imports names: what stands before them, and the names.
IMPORT = re.compile(r"((?:pub )?(?:ghost )?use [^{}]*\{)(.*)\};?")


def read(path):
    with open(path, encoding="utf-8") as file:
        return file.read()


def write(path, text):
    with open(path, "w", encoding="utf-8") as file:
        file.write(text)


def edits(top):
    """The paths of the edits below top, as crates/NAME/must-fail/.."""
    found = glob.glob(os.path.join(top, "crates/*/must-fail/**/*.edit"), recursive=True)
    return sorted(os.path.relpath(path, top) for path in found)


def folder(edit):
    return "/".join(edit.split("/")[:2])


def label(edit):
    return edit.split("/")[1] + "/" + os.path.basename(edit)[: -len(".edit")]


def parts(path):
    """The lines of an edit, each as its word and the text after it."""
    for line in read(path).splitlines():
        word, _, text = line.partition(":")
        yield word, text[1:] if text.startswith(" ") else text


def made(edit, path, top):
    """What an edit makes of the files below top, and what of it cannot be made."""
    files, faults, name, old = {}, [], None, None
    for word, text in parts(path):
        if word == "file":
            name = folder(edit) + "/" + text
        elif word == "old":
            old = text
        elif word == "new":
            if name not in files:
                try:
                    files[name] = read(os.path.join(top, name))
                except OSError:
                    faults.append(f"{name}: there is no such file")
                    continue
            times = files[name].count(old)
            if times == 1:
                files[name] = files[name].replace(old, text)
            else:
                faults.append(f"{name}: stands {times} times: {old}")
    return files, faults


def check():
    bad = 0
    all_edits = edits(".")
    for edit in all_edits:
        faults = made(edit, edit, ".")[1]
        for fault in faults:
            print(f"{edit}: {fault}")
        bad += bool(faults)
    print(f"{len(all_edits) - bad} edits fit, {bad} do not")
    return 1 if bad else 0


def changed(old, new):
    """The lines that differ between two texts of as many lines: their numbers and what they become."""
    before, after = old.split("\n"), new.split("\n")
    assert len(before) == len(after)
    return {i: after[i] for i in range(len(before)) if before[i] != after[i]}


def batches(landed):
    """The edits of LANDED in groups that lie apart: for each group its lines, by file and number, and their edits."""
    groups = []
    for edit in edits(landed):
        files, faults = made(edit, os.path.join(landed, edit), landed)
        assert not faults, (edit, faults)
        lines = {name: changed(read(os.path.join(landed, name)), text) for name, text in files.items()}

        def near(group):
            return any(
                abs(i - j) <= APART
                for name, some in lines.items()
                for i in some
                for j in group.get(name, {})
            )

        group = next((g for g in groups if not near(g)), None)
        if group is None:
            group = {}
            groups.append(group)
        for name, some in lines.items():
            for i, text in some.items():
                group.setdefault(name, {})[i] = (edit, text)
    return groups


def turn(landed, copy, group):
    """A copy of LANDED with the edits of a group, in today's spelling."""
    if os.path.exists(copy + ".done"):
        return
    shutil.rmtree(copy, ignore_errors=True)
    os.makedirs(copy)
    shutil.copytree(os.path.join(landed, "crates"), os.path.join(copy, "crates"))
    shutil.copy(os.path.join(landed, "crates.txt"), copy)
    for name, lines in group.items():
        path = os.path.join(copy, name)
        text = read(path).split("\n")
        for i, (_, line) in lines.items():
            text[i] = line
        write(path, "\n".join(text))
    git = ["git", "-c", "user.name=edits", "-c", "user.email=edits@example.invalid"]
    for words in (["init", "-q", "."], ["add", "-A"], ["commit", "-q", "-m", "edits"]):
        subprocess.run(git + words, cwd=copy, check=True)
    subprocess.run([sys.executable, "/opt/rattle/port/port.py"], cwd=copy, check=True)
    subprocess.run([sys.executable, os.path.abspath("tools/snake_names.py")], cwd=copy, check=True)
    write(copy + ".done", "")


def bare(text):
    """A text without its layout; the space before a projection of the older spelling stays."""
    text = re.sub(r"(?<=\S) +\.(?=[a-z])", "~.", text)
    return re.sub(r",(?=[\])}])", "", re.sub(r"\s+", "", text))


def hunks(before, after):
    """The lines that differ: each time first and last line of both, the last one not among them."""
    match = difflib.SequenceMatcher(None, before, after, autojunk=False)
    return [code[1:] for code in match.get_opcodes() if code[0] != "equal"]


def places(landed, turned):
    """For each line of a landed file about where it stands in the turned one."""
    match = difflib.SequenceMatcher(None, landed, turned, autojunk=False)
    place = [0] * (len(landed) + 1)
    for code, a, b, c, d in match.get_opcodes():
        for i in range(a, b):
            place[i] = c + (i - a) * (d - c) // max(b - a, 1)
    place[len(landed)] = len(turned)
    return place


def spelled(word):
    return re.sub(r"[^a-z0-9]", "", word.lower())


def owners(name, lines, landed, before, after):
    """The differing lines of a turned file, by the edit that makes them: lists of hunks."""
    found = {}
    plain = read(os.path.join(landed, name)).split("\n")
    place = places([spelled(line) for line in plain], [spelled(line) for line in before])
    for hunk in hunks(before, after):
        middle = (hunk[0] + max(hunk[0], hunk[1] - 1)) / 2
        line = min(lines, key=lambda i: abs(place[i] - middle))
        found.setdefault(lines[line][0], []).append(hunk)
    return found


def imported(old, new, text):
    """A pair for a `use` line that gets names: they stand first in it, since the last ones change sooner."""
    first = IMPORT.fullmatch(old)
    second = IMPORT.fullmatch(new)
    if not (first and second) or first.group(1) != second.group(1):
        return None
    names = [name.split(", ") for name in (first.group(2), second.group(2))]
    more = [name for name in names[1] if name not in names[0]]
    if [name for name in names[1] if name not in more] != names[0]:
        return None
    start = first.group(1) + names[0][0]
    if text.count(start) != 1:
        return None
    return start, first.group(1) + ", ".join(more + names[0][:1])


def pair(old, new, text, landed):
    """A pair for a line that changes: the text at LANDED where it still fits, or as much of the line as stands once."""
    for a, b in landed:
        if text.count(a) == 1 and old.count(a) == 1 and old.replace(a, b) == new:
            return a, b
    use = imported(old, new, text)
    if use:
        return use
    bare = old.strip()
    if bare and text.count(bare) == 1 and old.index(bare) == len(new) - len(new.lstrip()):
        return bare, new.strip()
    if old and text.count(old) == 1:
        return old, new
    return None


def lay(path, pairs):
    """The edit with these pairs in place of its own; what stands before the first file stays."""
    kept = []
    for line in read(path).splitlines():
        if line.startswith("file:"):
            break
        kept.append(line)
    name = None
    for file, old, new in pairs:
        if file != name:
            kept.append("file: " + file)
            name = file
        kept.append("old: " + old)
        kept.append("new: " + new if new else "new:")
    write(path, "\n".join(kept) + "\n")


def bring(landed, scratch, labels):
    groups = batches(landed)
    plain = os.path.join(scratch, "base")
    turn(landed, plain, {})
    same = written = 0
    for number, group in enumerate(groups):
        copy = os.path.join(scratch, f"b{number}")
        turn(landed, copy, group)
        changes = {}
        for name, lines in group.items():
            before = read(os.path.join(plain, name)).split("\n")
            after = read(os.path.join(copy, name)).split("\n")
            for edit, some in owners(name, lines, landed, before, after).items():
                changes.setdefault(edit, {})[name] = (before, after, some)
            for edit, _ in lines.values():
                changes.setdefault(edit, {})
        for edit in sorted(changes):
            if labels and label(edit) not in labels:
                continue
            wanted = {}
            for name, (before, after, some) in changes[edit].items():
                text, last = [], 0
                for a, b, c, d in some:
                    text += before[last:a] + after[c:d]
                    last = b
                wanted[name] = "\n".join(text + before[last:])
            got, faults = made(edit, edit, plain)
            if not faults and all(bare(got.get(name, "")) == bare(text) for name, text in wanted.items()):
                same += 1
                continue
            hints, old = [], None
            for word, text in parts(edit):
                if word == "old":
                    old = text
                elif word == "new":
                    hints.append((old, text))
            pairs, ok = [], bool(wanted)
            for name, (before, after, some) in changes[edit].items():
                text = "\n".join(before)
                for a, b, c, d in some:
                    if b - a != d - c:
                        ok = False
                        continue
                    for i, j in zip(range(a, b), range(c, d)):
                        if before[i] == after[j]:
                            continue
                        it = pair(before[i], after[j], text, hints)
                        if it is None:
                            ok = False
                        else:
                            pairs.append((name[len(folder(edit)) + 1 :], *it))
                            text = text.replace(it[0], it[1])
            if ok:
                written += 1
                lay(edit, pairs)
                print(f"written: {edit}")
            else:
                print(f"by hand: {edit}")
                for name, (before, after, some) in changes[edit].items():
                    for a, b, c, d in some:
                        for line in before[a:b]:
                            print("  - " + line)
                        for line in after[c:d]:
                            print("  + " + line)
    print(f"{same} edits stayed as they were, {written} were written")
    return 0


def main(words):
    if words == ["--check"]:
        return check()
    if len(words) < 2 or words[0].startswith("-"):
        print(__doc__)
        return 2
    return bring(words[0], words[1], words[2:])


sys.exit(main(sys.argv[1:]))
