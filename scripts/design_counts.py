#!/usr/bin/env python3
"""Counts, for each point of docs/DESIGN-PASS.md, the places that its text speaks of, and prints each with its file and line.

    scripts/design_counts.py [--short] [FOLDER]     of the crates in FOLDER/crates; --short prints the counts alone

The patterns find candidates; the page says what was changed and why the others stay.
"""
import collections
import pathlib
import re
import sys


def files(root, pattern):
    return sorted(path for path in root.glob(pattern) if path.is_file())


class Source:
    """A file of src/ without its comments, so that a line keeps its number."""

    def __init__(self, root, path):
        self.name = str(path.relative_to(root))
        self.text = re.sub(r"//[^\n]*", "", path.read_text(encoding="utf-8"))

    def place(self, offset):
        return f"{self.name}:{self.text.count(chr(10), 0, offset) + 1}"

    def found(self, pattern, say=lambda match: match[0]):
        for match in re.finditer(pattern, self.text, re.M | re.S):
            yield self.place(match.start()), re.sub(r"\s+", " ", say(match)).strip()

    def functions(self):
        """Name, parameters, clauses and body of each function."""
        for match in re.finditer(r"^( *)(?:pub(?:\(crate\))? )?(?:extern \"C\" )?fn (\w+)(?:<[^(]*>)?\((.*?)\)(.*?)^\1\{\n(.*?)^\1\}", self.text, re.M | re.S):
            yield self.place(match.start()), match[2], match[3], match[4], match[5]


def variants(body):
    return [variant for variant in re.split(r",\s*\n", re.sub(r"#\[.*?\]", "", body)) if variant.strip()]


def own_results(sources):
    """1: enums of two variants of which one holds a value; structs with a flag; numbers that stand for a kind, a refusal or none."""
    for source in sources:
        for match in re.finditer(r"\benum (\w+)[^{]*\{(.*?)\n\}", source.text, re.S):
            cases = variants(match[2])
            if len(cases) == 2 and "(" in match[2]:
                yield source.place(match.start()), "enum " + match[1]
        for match in re.finditer(r"\bstruct (\w+)[^{;(]*\{(.*?)\n\}", source.text, re.S):
            if ": bool" in match[2] and match[2].count(": ") > 1:
                yield source.place(match.start()), "flag in struct " + match[1]
        if len(re.findall(r"pub const \w+: u16", source.text)) > 20:
            yield source.name + ":1", "constants for kinds"
        yield from source.found(r"\bnumber: \d+|\bFault\(\d+|\bRefused\(\d+\)|\b(?:command|\w+\[\w+\]) [!=]= [123]\b")
        yield from source.found(r"(?:return 0;|\{ 0 \}|^    0$)")


def twins(sources):
    """2: functions of one crate whose bodies are alike up to names and constants, for bodies of more than one statement."""
    groups = collections.defaultdict(list)
    for source in sources:
        for place, name, parameters, _, body in source.functions():
            if body.count(";") + body.count("{") < 2:
                continue
            words = re.findall(r"[A-Za-z_]\w*(?:::\w+)*|\d\w*|b?'.'|b?\"[^\"]*\"|\S", body)
            keywords = "if else while for in match return let mut".split()
            groups[source.name.split("/")[1], tuple(word if word in keywords or not re.match(r"[\w'\"]", word) else "_" for word in words)].append((place, name))
    for members in groups.values():
        if len(members) > 1:
            for place, name in members:
                yield place, f"{name}: {len(members)} alike"


def loops(sources):
    """3: loops that are no `for`."""
    for source in sources:
        yield from source.found(r"^ *(?:while|loop)\b[^\n]*")


def by_hand(sources):
    """4: comparing element by element, change of case, minimum, numbers from bytes, digits, and a widening by `as`."""
    for source in sources:
        yield from source.found(r"\w+\[i\] != \w+\[i\]|\w+\[i\] != \w+\(|\b[bn] [-+] 32\b|if (\w+) < (\w+) \{ \1 \} else \{ \2 \}|\b(?:256|65536|4294967296) \*|\b48 \+|b as u64|\.number == number")


def together(sources):
    """5: facts that stand in the clauses of three or more functions, and three or more parameters that stand so in three or more."""
    facts, parameters = collections.defaultdict(list), collections.defaultdict(list)
    for source in sources:
        for place, name, given, clauses, _ in source.functions():
            for clause in re.findall(r"requires (?:\w+ )?\{(.*?)\}\s*$", clauses, re.M):
                for fact in {part.strip(" ()") for part in clause.split("×")}:
                    facts[re.sub(r"\s+", " ", fact)].append(place)
            names = [part.split(":")[0].strip() for part in given.split(",") if ":" in part]
            for size in range(3, len(names) + 1):
                for first in range(len(names) - size + 1):
                    parameters[tuple(names[first:first + size])].append(place)
    for fact, places in sorted(facts.items(), key=lambda item: -len(item[1])):
        if len(places) >= 3:
            yield places[0], f"{fact}: {len(places)} functions"
    most = {run: places for run, places in parameters.items() if len(places) >= 3}
    for run, places in sorted(most.items(), key=lambda item: -len(item[1])):
        if not any(len(other) > len(run) and " ".join(run) in " ".join(other) and len(most[other]) == len(places) for other in most):
            yield places[0], f"({', '.join(run)}): {len(places)} functions"


def buffers(sources):
    """6: a buffer with a place or a length beside it, among parameters or fields, and arrays with a counter."""
    for source in sources:
        yield from source.found(r"\b(\w+): &(?:mut )?\[\w+\],\s*(?:at|start|end|length|from|k): usize", lambda match: match[1] + " and a place")
        yield from source.found(r"let mut \w+ = \[\w+; \w+\];")
        yield from source.found(r"\blength: usize")


def steps(sources):
    """7: a match that chooses which step runs, and functions as values."""
    for source in sources:
        yield from source.found(r"match (?:r|routine|signs|casing|command) \{|\bfn\((?!.*\{)|\bdyn \w+")


def proofs(root):
    """8: answers in proofs of functions."""
    for path in files(root, "crates/*/proofs/**/Answers.antt"):
        for name in re.findall(r"^pub (\S+) : goal\.", path.read_text(encoding="utf-8"), re.M):
            yield f"{path.relative_to(root)}", name


def main():
    words = [word for word in sys.argv[1:] if word != "--short"]
    if len(words) > 1 or any(word.startswith("-") for word in words):
        sys.exit(__doc__)
    root = pathlib.Path(words[0] if words else ".").resolve()
    sources = [Source(root, path) for path in files(root, "crates/*/src/**/*.rt")]
    for number, count in enumerate([own_results, twins, loops, by_hand, together, buffers, steps], 1):
        report(number, list(count(sources)))
    report(8, list(proofs(root)))


def report(number, places):
    print(f"point {number}: {len(places)}")
    if "--short" not in sys.argv:
        for place, what in places:
            print(f"    {place}: {what}")


main()
