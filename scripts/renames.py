#!/usr/bin/env python3
"""Gives older work the names that the repository has now. Run it at the top of a checkout; a second run changes nothing.

    python3 scripts/renames.py

It is kept until change requests E3 and E8 have landed: work on them was begun at commit 02ad397, which has the old names. Then it goes;
nothing of the project rests on it. To carry over a branch that was begun with the old names, with RENAMED for the commit "Names: what
scripts/renames.py writes":

    git merge -s ours --no-commit RENAMED
    git checkout main -- scripts/renames.py
    python3 scripts/renames.py
    rt fmt
    git add -A
    git commit

After that the branch merges with main as one that was begun with the new names. The script renames files, names in code, in must-fail edits
and in scripts, and names between backticks in documents, and it takes the sentence "Assumes nothing." out of the heads. It leaves the
proof of the cycle alone (crates/formatter/proofs/format/+..): the merge brings the new one.
"""
import fnmatch
import os
import re
import subprocess
import sys

# Files of definitions and laws: crate, folder, old name, new name.
FILES = [
    ("tape", "specs", "Lies", "SpelledAt"),
    ("tape", "specs", "SmallInputs", "ReadingInputs"),
    ("tape", "proofs", "Turns", "CheckSteps"),
    ("tape", "proofs", "Looks", "Scans"),
    ("context", "proofs", "Masking", "AlikeWrites"),
    ("layout", "proofs", "Masking", "MaskedLayouts"),
    ("layout", "specs", "SmallInputs", "CallInputs"),
    ("tokens", "specs", "Promise", "TokenPromises"),
    ("formatter", "specs", "Promise", "RoutinePromises"),
]
# Must-fail edits: crate, old name, new name.
EDITS = [("layout", "solid_ends", "white_space_end")]

# Names: old, new, where. A hyphen at an end of a name stands for the rest of it. A name that is a plain word stays as it is in comments.
# Where is a pattern of files; `CRATE/FOLDER/FILE`, for that file and those that import the name from it; or `field PATTERN`, for a field.
ANY = "crates/*"
NAMES = [
    ("Lies", "SpelledAt", ANY),
    ("lies", "spelled", ANY),
    ("lies-", "spelled-", ANY),
    ("told", "answeredAs", "crates/*/specs/*"),
    ("told-false", "answered-false", ANY),
    ("told-true", "answered-true", ANY),
    ("on", "readThen", "crates/tape/proofs/CheckSteps.antt"),
    ("on-", "readThen-", "crates/tape/proofs/CheckSteps.antt"),
    ("turn", "rest-step", "crates/tape/proofs/CheckSteps.antt"),
    ("splice-turn", "splice-step", ANY),
    ("loop-turn", "loop-step", ANY),
    ("count-turn", "count-step", ANY),
    ("wrote-turn", "wrote-step", ANY),
    ("same-turn", "same-step", ANY),
    ("on", "isListed", "field crates/keywords/*"),
    ("on", "forward", "field " + ANY),
    ("trimmed-solid", "trimmed-not-white", ANY),
    ("FineToken", "TokenAlike", ANY),
    ("FineCopy", "CopyAlike", ANY),
    ("FineCall", "CallAlike", ANY),
    ("fine-", "alike-", "crates/layout/*"),
    ("-fine", "-alike", "crates/layout/*"),
    ("sight", "seenSame", "crates/layout/*"),
    ("Steady", "KeepsAlike", ANY),
    ("original-steady", "original-keeps-alike", ANY),
    ("solidEnds", "noWhiteSpaceEnd", ANY),
    ("every-on", "every-act", "crates/layout/*"),
    ("on-spacing", "act-spacing", "crates/tokens/*"),
    ("-apart", "-spacing", ANY),
    ("apart", "putSpacing", "layout/specs/Calls"),
    ("on", "actAt", "layout/specs/Calls"),
    ("text", "writeText", "layout/specs/Arms"),
    ("keyword", "writeKeyword", "layout/specs/Arms"),
    ("sign", "writeSign", "layout/specs/Arms"),
    ("texted", "did-text", ANY),
    ("cased", "did-keyword", ANY),
    ("signed", "did-sign", ANY),
    ("silent", "nothingWritten", "layout/specs/Layout"),
    ("simply", "tokensOnly", "layout/specs/Routines"),
    ("keeping", "localUnchanged", "layout/specs/Routines"),
    ("Silent", "SpacedUnwritten", ANY),
    ("no-silent", "no-unwritten", ANY),
    ("silently", "unwritten-as", ANY),
    ("did-silent", "did-unwritten", ANY),
    ("Comes", "WalkDone", ANY),
]

# Other text: a regular expression, what stands there now, a pattern of files.
TEXTS = [
    (r"(?m)^-- Assumes nothing(: these are definitions)?\.\n", "", "crates/*.antt"),
    (r" Assumes nothing(: these are definitions)?\.", "", "crates/*.antt"),
    (r" Assumes nothing\.", "", "scripts/[!r]*.py"),
    (r"\bafter i turns\b", "after i passes", "crates/*.antt"),
    (r"\bdoor\(", "entry(", "scripts/mutants.py"),
    (r"\btold\(", "dispatch_arm(", "rust/oracle/src/arms.rs"),
]

GENERATED = "crates/formatter/proofs/format/+*"
BEFORE, AFTER = r"(?<![\w·«'-])", r"(?![\w»'-])"


def module(crate, folder, file):
    """A regular expression of the file's name as it is imported, in a group for what stands before the file's own name."""
    return rf"(Rattle·{crate}(?:·{folder}\.|\.){folder}\.){file}{AFTER}"


def imports(text, name, crate, folder, file):
    lists = re.findall(module(crate, folder, file) + r"\.\{([^}]*)\}", text)
    return any(name in re.split(r"[\s,]+", names) for _, names in lists)


def rename_files(places):
    moves = {f"crates/{crate}/{folder}/{old}.antt": f"crates/{crate}/{folder}/{new}.antt" for crate, folder, old, new in FILES}
    moves |= {f"crates/{crate}/must-fail/{old}.edit": f"crates/{crate}/must-fail/{new}.edit" for crate, old, new in EDITS}
    for old, new in moves.items():
        if os.path.exists(old) and os.path.exists(new):
            sys.exit(f"{old} and {new} are both there: keep one of them, then run this again")
        if os.path.exists(old):
            os.rename(old, new)
    return sorted({place for place in (moves.get(place, place) for place in places) if os.path.isfile(place)})


def with_files(text, place):
    """The new names of files, where they are imported, declared, edited or spoken of."""
    for crate, folder, old, new in FILES:
        text = re.sub(module(crate, folder, old), rf"\g<1>{new}", text)
        text = re.sub(rf"\b{crate}/{folder}/{old}\b", f"{crate}/{folder}/{new}", text)
        if place == f"crates/{crate}/{folder}/Lib.antt":
            text = re.sub(rf"(?m)^pub mod {old}$", f"pub mod {new}", text)
        if place.startswith(f"crates/{crate}/must-fail/"):
            text = text.replace(f"file: {folder}/{old}.antt\n", f"file: {folder}/{new}.antt\n")
    return text


def outside_comments(text, change):
    parts = (re.match(r"(.*?)((?:^|(?<=\s))(?:--|//|# ).*|)$", line) for line in text.split("\n"))
    return "\n".join(change(part[1]) + part[2] for part in parts)


def expression(old, where, place, code):
    """The regular expression of a row for a place, or none. `code` is the code of that place, which says what it imports."""
    name = ("" if old.startswith("-") else BEFORE) + re.escape(old) + ("" if old.endswith("-") else AFTER)
    if where.startswith("field "):
        known = fnmatch.fnmatchcase(place, where.removeprefix("field "))
        return rf"(?<=\s\.){old}{AFTER}|{BEFORE}{old}(?= = )|(?<=pub ){old}(?= :)|(?<=^  ){old}(?= : listed)" if known else None
    if "*" in where or where.startswith("crates/"):
        return name if fnmatch.fnmatchcase(place, where) else None
    if where != place.removeprefix("crates/").removesuffix(".antt") and not imports(code, old, *where.split("/")):
        return None
    name = r"(?<!\.)" + name
    # in Rust code the acts stand in imports and in lists; locals have such names too
    return rf"{name}(?= ∷|[^{{}}]*\}};$)" if place.endswith(".rt") else name


def with_names(text, place, code):
    """The new names in a text that belongs to a place."""
    if imports(code, "keyword", "layout", "specs", "Arms") and imports(code, "writeKeyword", "context", "specs", "Context"):
        text = qualified(text)
    for old, new, where in NAMES:
        found = expression(old, where, place, code)
        if found:
            plain = re.fullmatch("[a-z]+", old)
            text = outside_comments(text, lambda line: re.sub(found, new, line)) if plain else re.sub(found, new, text)
    return text


def with_order(text, code):
    """The lists of imports in order, where they were so before."""
    before = iter(re.findall(r"use \S+\.\{([^}]*)\}", code))

    def ordered(found):
        old, new = next(before).split(", "), found[2].split(", ")
        return found[1] + ", ".join(sorted(new) if old == sorted(old) else new) + "}"

    return re.sub(r"(use \S+\.\{)([^}]*)\}", ordered, text)


def qualified(text):
    """The context's writeKeyword as context.writeKeyword, since the act has that name now."""
    whole = re.search(r"(?m)^use Rattle·context\.specs\.Context\.\{[^}]*\}\n", text)
    if whole:
        alias = "use Rattle·context.specs.Context as context\n"
        fewer = re.sub(r", writeKeyword\b|\bwriteKeyword, ", "", whole[0])
        text = text.replace(whole[0], fewer + ("" if alias in text else alias))
    return re.sub(rf"(?<!\.){BEFORE}writeKeyword{AFTER}", "context.writeKeyword", text)


def with_edit(text, place, codes):
    """A must-fail edit: each part has the names of the file that it edits."""
    folder, parts = "/".join(place.split("/")[:2]), re.split(r"(?m)^(?=file: )", text)
    for i, part in enumerate(parts):
        named = re.match(r"file: (\S+)", part)
        target = f"{folder}/{named[1]}" if named else place
        parts[i] = with_names(part, target, codes.get(target, ""))
    return "".join(parts)


def with_document(text):
    for _, old, new in EDITS:
        text = re.sub(rf"\b{old}\b", new, text)
    for old, new, where in NAMES:
        if not re.fullmatch("[a-z]+|.*-|-.*", old):
            text = text.replace(f"`{old}`", f"`{new}`")
    return text


def main():
    listed = subprocess.run(["git", "ls-files", "-co", "--exclude-standard"], check=True, capture_output=True, text=True).stdout.splitlines()
    kinds = (".antt", ".rt", ".edit", ".py", ".md", ".rs")
    places = [place for place in listed if place.endswith(kinds) and not fnmatch.fnmatchcase(place, GENERATED)]
    places = [place for place in rename_files(places) if place != "scripts/renames.py"]
    codes = {place: with_files(open(place, encoding="utf-8").read(), place) for place in places}
    for place, code in codes.items():
        text = code
        if place.endswith(".edit"):
            text = with_edit(text, place, codes)
        elif place.endswith(".md"):
            text = with_document(text)
        elif place.endswith((".antt", ".rt")):
            text = with_names(text, place, code)
            text = with_order(text, code)
        for old, new, where in TEXTS:
            text = re.sub(old, new, text) if fnmatch.fnmatchcase(place, where) else text
        if text != open(place, encoding="utf-8").read():
            with open(place, "w", encoding="utf-8") as out:
                out.write(text)
            print(place)


main()
