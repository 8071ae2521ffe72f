#!/usr/bin/env python3
"""Respells the repository's own definitions and lemmas as today's Rattle spells names.

    python3 tools/respell.py

Run once, at the top of the repository, after the kit's port.py, with everything committed. Words are in snake case. In a name with dashes
a dash stays where what stands before it is a definition or a type, as in `splice-nil`; each other dash becomes `_`. A lemma that would
then have its definition's name gets `_lem`. What src/ names, strings, inputs and outputs stay. Pages and scripts get the new spelling of
definitions where they name one.
"""
import glob
import os
import re
import sys

BREAK = r'\s(){}.;,@"«»\[\]`'
TOKEN = re.compile(rf"[^{BREAK}]+")
DECLARED = re.compile(r"(?m)^ *(?:(?:pub|abbrev|unfoldable|pattern|record|data|mutual|infix\w* \d+) )*([^\s(){}.;,@\"«»:|=]+)(?: [({][^\n]*?[)}])* :(?= |$)")
# Words of the library that lemmas of this repository are about.
LIBRARY = {"length", "take", "drop", "map", "replicate", "cond", "match", "all", "append"}
# Facts of proofs/ that were spelled as words.
FACTS = {"isJobs": "IsJobs", "isAccepted": "IsAccepted"}
# Names that no line declares alone: constructors that share a line, and names bound inside a definition.
BOUND = """oneLength oneWalk eachPair writeText leftOut openingRoundBracket closingRoundBracket openingSquareBracket closingSquareBracket
    openingCurlyBrace closingCurlyBrace directItemCount itemCount suppressSpace refusedFor mapBefore mapAfter beforeA beforeB afterA afterB
    mapBeforeA mapBeforeB mapAfterA mapAfterB lineStart walkTree answeredBy listedWords holdsByte maskedJobs inMap""".split()


def files(*patterns):
    return sorted(p for pattern in patterns for p in glob.glob(pattern, recursive=True) if os.path.isfile(p) and "/out/" not in p)


def read(place):
    with open(place, encoding="utf-8") as file:
        return file.read()


def snake(name):
    return re.sub(r"(?<=[a-z0-9])[A-Z]", lambda m: "_" + m[0].lower(), name) if name[:1].islower() else name


def declared(places):
    """The names that these files declare, each with the files that do."""
    found = {}
    for place in places:
        for name in DECLARED.findall(read(place)):
            found.setdefault(name, set()).add(place)
    return found


def table(specs, proofs):
    """The new name of each name that changes, and the lemmas that get `_lem`, each with the files that declare it."""
    defined, proved = declared(specs), declared(proofs)
    words = {snake(name) for name in defined if "-" not in name} | LIBRARY
    new = {name: snake(name) for name in BOUND}
    for name in {**defined, **proved}:
        if name in FACTS:
            new[name] = FACTS[name]
        elif "-" in name:
            parts = [snake(part) for part in name.split("-")]
            heads = [k for k in range(len(parts) - 1, 0, -1) if "_".join(parts[:k]) in words]
            k = heads[0] if heads else 0
            new[name] = "_".join(parts[:k]) + "-" * bool(k) + "_".join(parts[k:])
        elif snake(name) != name:
            new[name] = snake(name)
    new = {old: it for old, it in new.items() if old != it}
    kept = set(defined) | set(proved)
    lemmas = {}
    for old, it in sorted(new.items()):
        if it in kept and it not in new:
            if it in proved and it not in defined:
                lemmas[it] = proved[it]
            elif old in proved and old not in defined:
                new[old] = it + "_lem"
            else:
                sys.exit(f"respell: {old} and {it} are both definitions")
    by_new = {}
    for old, it in new.items():
        by_new.setdefault(it, []).append(old)
    for it, olds in by_new.items():
        if len(olds) > 1:
            lemma = [old for old in olds if "-" in old]
            if len(olds) - len(lemma) > 1 or len(lemma) > 1:
                sys.exit(f"respell: {olds} would all be {it}")
            new[lemma[0]] = it + "_lem"
    return new, lemmas


def respelled(text, new, code):
    """The text with each token that has a new name. Outside code only words with an inner capital are taken for names."""
    return TOKEN.sub(lambda m: new.get(m[0], m[0]) if code or re.search("[a-z0-9][A-Z]", m[0]) else m[0], text)


def own(text, new):
    """The new names without those that the text imports from a library."""
    lent = set()
    for line in re.finditer(r"\buse ([^\s{;]+)\.\{([^}]*)\}", text):
        if not re.match(r"Rattle\.(\w+)\.", line[1]) or not os.path.isdir("crates/" + line[1].split(".")[1]):
            lent |= set(TOKEN.findall(line[2]))
    return {old: it for old, it in new.items() if old not in lent}


def antt(text, new):
    new = own(text, new)
    return "\n".join(respelled(code, new, True) + respelled(note, new, False) for code, note in (re.fullmatch(r"((?:(?!(?:^|(?<= ))--(?: |$)).)*)(.*)", line).groups() for line in text.split("\n")))


def rt(text, new):
    """In a Rust file only what clauses name: the ghost lines and the clauses between a signature and its body."""
    out, new = [], own(text, new)
    for line in text.split("\n"):
        code, mark, note = line.partition("//")
        out.append(respelled(code, new, True) + mark + respelled(note, new, False))
    return "\n".join(out)


def edit(text, new):
    return "\n".join(respelled(line, new, line.startswith(("old:", "new:"))) for line in text.split("\n"))


def lemmas_renamed(place, text, lemmas):
    for name, homes in lemmas.items():
        modules = {os.path.splitext(os.path.basename(home))[0] for home in homes}
        cited = any(m[1].rsplit(".", 1)[-1] in modules and ".proofs." in m[1] and name in TOKEN.findall(m[2]) for m in re.finditer(r"use ([^\s{]+)\.\{([^}]*)\}", text))
        if place in homes or cited:
            text = re.sub(rf"(?<![^{BREAK}])(?<!\.){re.escape(name)}(?![^{BREAK}])", name + "_lem", text)
    return text


def main():
    specs, proofs = files("crates/*/specs/**/*.antt"), [p for p in files("crates/*/proofs/**/*.antt") if not p.endswith("/Proof.antt")]
    new, lemmas = table(specs, proofs)
    print("\n".join(f"{old} {it}" for old, it in sorted(new.items())))
    print("\n".join(f"{name} {name}_lem" for name in sorted(lemmas)))
    turns = [(files("crates/*/specs/**/*.antt", "crates/*/proofs/**/*.antt"), antt), (files("crates/*/src/**/*.rt"), rt), (files("crates/*/must-fail/*.edit"), edit)]
    turns += [(files("README.md", "*/README.md", "docs/*.md", "scripts/*.py", "scripts/**/*.rs", "rust/**/*.rs", "include/*.h"), lambda text, new: respelled(text, {k: v for k, v in new.items() if re.search("[a-z0-9][A-Z]", k)}, False))]
    for places, turn in turns:
        for place in places:
            text = read(place)
            turned = turn(lemmas_renamed(place, text, lemmas) if place.endswith((".antt", ".edit")) else text, new)
            if turned != text:
                with open(place, "w", encoding="utf-8") as file:
                    file.write(turned)


if __name__ == "__main__":
    main()
