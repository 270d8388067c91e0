#!/usr/bin/env python3
"""Counts the places of crates/*/src and crates/*/proofs that an older form of Rattle left, point by point.

usage: tools/places.py [--list] [COMMIT]

Without a commit it reads the files of the checkout, and with one those of that commit. A point is counted by what a text
search can see, so that the same search counts before and after a change; docs/DESIGN-PASS.md says what each place is now,
and a place that stays has a comment line beside it that begins with '// As it is: '. --list prints each place.
"""
import re
import subprocess
import sys
from collections import defaultdict
from difflib import SequenceMatcher


def files(commit):
    """The text of each file below crates/, by its name."""
    if commit is None:
        names = subprocess.run(["git", "ls-files", "crates"], capture_output=True, text=True, check=True).stdout
        return {name: open(name, encoding="utf-8").read() for name in names.split() if wanted(name)}
    names = subprocess.run(["git", "ls-tree", "-r", "--name-only", commit, "crates"],
                           capture_output=True, text=True, check=True).stdout
    show = lambda name: subprocess.run(["git", "show", f"{commit}:{name}"], capture_output=True, text=True,
                                       check=True).stdout
    return {name: show(name) for name in names.split() if wanted(name)}


def wanted(name):
    return "/must-fail/" not in name and (name.endswith(".rt") or name.endswith(".antt"))


def bare(text):
    """The code without comments, imports of clauses, and attributes."""
    kept = []
    for line in text.split("\n"):
        line = re.sub(r"//.*", "", line)
        kept.append("" if re.match(r"\s*(ghost use |#\[|#!\[)", line) else line)
    return "\n".join(kept)


class Function:
    """A function of a source file: its name, its parameters, its clauses and its body."""

    def __init__(self, place, name, parameters, clauses, body):
        self.place, self.name, self.parameters, self.clauses, self.body = place, name, parameters, clauses, body


def functions(sources):
    for name, text in sources.items():
        code = bare(text)
        for found in re.finditer(r"^( *)(?:pub(?:\([a-z]+\))? )?(?:extern \"C\" )?fn (\w+)(?:<.*?>)?\(", code, re.M):
            indent, start = found.group(1), found.end()
            end = re.compile(r"^" + indent + r"\}", re.M).search(code, start)
            whole = code[start:end.start() if end else len(code)]
            # The brace of a body that follows clauses stands on a line of its own, and else at the end of the head.
            brace = (re.search(r"^" + indent + r"\{", whole, re.M)
                     or re.search(r"\) *(?:-> [^{;]*)?\{", whole, re.M))
            head = whole[:brace.start() + 1] if brace else whole
            body = whole[brace.end():] if brace else ""
            parameters = re.findall(r"(?:^|[(,]|\n)\s*(?:mut )?(\w+): (&?(?:'\w+ )?(?:mut )?[\w\[\]:; ]+)", head)
            clauses = re.findall(r"(?:requires|ensures)[^{]*\{(.*?)\}(?=\s|$)", whole[:brace.start()] if brace else "", re.S)
            line = code.count("\n", 0, found.start()) + 1
            yield Function(f"{name}:{line}", found.group(2), parameters, clauses, body)


def lines_with(sources, pattern):
    for name, text in sources.items():
        for number, line in enumerate(bare(text).split("\n"), 1):
            if re.search(pattern, line):
                yield f"{name}:{number}: {line.strip()}"


def enums(sources):
    """Enums of the shape of Option or Result: two cases, of which one or both hold a value."""
    for name, text in sources.items():
        for found in re.finditer(r"enum (\w+)(?:<[^>]*>)? \{(.*?)^\}", bare(text), re.S | re.M):
            cases = re.findall(r"^    (\w+)( ?[({][^\n]*)?", found.group(2), re.M)
            if len(cases) == 2 and any(held for _, held in cases):
                yield f"{name}: enum {found.group(1)} {{ {', '.join(case for case, _ in cases)} }}"


def numbers(sources):
    """Functions that return the number of a refusal, a kind or an event, and enums that hold one."""
    yield from lines_with(sources, r"fn \w*(refusal|number|event_of|rule_of|rule_number)\w*\(.*-> u(8|32|64)$")
    yield from lines_with(sources, r"^\s+pub number: u32|Refused\(u32\)|[^=!]= ACCEPTED|== ACCEPTED|!= ACCEPTED")
    yield from lines_with(sources, r"match (byte|event) \{")


def flags(sources):
    """A flag that is computed beside a value that holds only where the flag is set."""
    yield from lines_with(sources, r"let mut (going|found|done) = ")
    yield from lines_with(sources, r"fn has_event\(|fn event_in\(")


def twins(sources):
    """Pairs of functions of at least six lines whose bodies differ in few words."""
    found = [f for f in functions(sources) if len([l for l in f.body.split("\n") if l.strip()]) >= 5]
    words = [re.findall(r"\w+|[^\w\s]", f.body) for f in found]
    for i, one in enumerate(found):
        for j in range(i):
            if abs(len(words[i]) - len(words[j])) * 5 > len(words[i]):
                continue
            if SequenceMatcher(None, words[i], words[j], autojunk=False).ratio() >= 0.85:
                yield f"{found[j].place}: {found[j].name} and {one.place}: {one.name}"


def loops(sources):
    yield from lines_with(sources, r"^\s*(while |loop \{)")


def conversions(sources):
    """Conversions, comparisons and copies that a library's method or a derive gives."""
    yield from lines_with(sources, r"\bas (u8|u16|u32|u64|usize)\b")
    yield from lines_with(sources, r"\{ 1 \} else \{ 0 \}|\{ true \} else|else \{ false \}|else \{ true \}")
    yield from lines_with(sources, r"[%/] 256\b|256 \* ")
    yield from lines_with(sources, r"^\s*(true|false)$")


def groups(sources):
    """Parameters that travel together: three or more of one name and type that three or more functions have."""
    own = [({f"{n}: {t.strip()}" for n, t in f.parameters if n != "self"}, f) for f in functions(sources)]
    shared = {frozenset(a & b) for i, (a, _) in enumerate(own) for b, _ in own[:i] if len(a & b) >= 3}
    held = {group: [f for names, f in own if group <= names] for group in shared}
    wide = [group for group in held if len(held[group]) >= 3]
    for group in sorted(wide, key=sorted):
        if not any(group < other for other in wide):
            yield f"{', '.join(sorted(group))}: {len(held[group])} functions, from {held[group][0].place} on"


def facts(sources):
    """A fact that stands in the clauses of three or more functions."""
    told = defaultdict(list)
    for f in functions(sources):
        for clause in f.clauses:
            for fact in re.split(r"×", " ".join(clause.split())):
                if "result" not in fact and ".new" not in fact:
                    told[fact.strip(" ()")].append(f)
    for fact, held in sorted(told.items()):
        if fact and len(held) >= 3:
            yield f"{fact}: {len(held)} functions, from {held[0].place} on"


def counted(sources):
    """A slice with a count of its own beside it."""
    for f in functions(sources):
        names = dict(f.parameters)
        if "n" in names and any("[" in t for t in names.values()):
            yield f"{f.place}: {f.name} takes a slice and n"


def steps(sources):
    """Functions in tables, and switches on a number that says which step to run."""
    yield from lines_with(sources, r"\bfn\(|match (step|phase|which|mode) ")


def answers(proofs):
    """The goals that have an answer in an Answers.antt."""
    for name, text in proofs.items():
        if name.endswith("/Answers.antt"):
            for found in re.finditer(r"^(?:pub )?(\S+) : goal\.", text, re.M):
                yield f"{name}: {found.group(1)}"


POINTS = [
    ("1", "enums of the shape of Option or Result", "src", enums),
    ("1", "numbers for kinds and refusals", "src", numbers),
    ("1", "a flag with a value beside it", "src", flags),
    ("2", "functions whose bodies differ in few words", "src", twins),
    ("3", "loops that are no `for`", "src", loops),
    ("4", "conversions and comparisons written out", "src", conversions),
    ("5", "three parameters or more that three or more functions have", "src", groups),
    ("5", "facts in the clauses of three or more functions", "src", facts),
    ("6", "slices with a count beside them", "src", counted),
    ("7", "tables of functions, switches on a step", "src", steps),
    ("8", "goals with an answer", "proofs", answers),
]


def main():
    arguments = [a for a in sys.argv[1:] if a != "--list"]
    if len(arguments) > 1 or any(a.startswith("-") for a in arguments):
        sys.exit(__doc__)
    read = files(arguments[0] if arguments else None)
    parts = {"src": {n: t for n, t in read.items() if "/src/" in n},
             "proofs": {n: t for n, t in read.items() if "/proofs/" in n}}
    for point, what, part, search in POINTS:
        places = list(search(parts[part]))
        print(f"{point}  {len(places):4}  {what}")
        if "--list" in sys.argv:
            for place in places:
                print(f"         {place}")
    kept = list(line for n, t in parts["src"].items() for line in t.split("\n") if "// As it is: " in line)
    print(f"-  {len(kept):4}  lines that say why a place stays as it is")
    print(f"8  {sum(t.count(chr(10)) for t in parts['proofs'].values()):4}  lines of proofs")


main()
