#!/usr/bin/env python3
"""Weakens one promise below the crate `acceptance` at a time: each crate below is still proved then, and acceptance must not be.

    python3 scripts/weakenings.py [NAME...]

A must-fail edit reaches only its own crate, and a promise that is weakened there with its proof is proved. So this tries them, each in a copy of
the crates in a temporary folder, where `rt check` begins with what it has proved in this one. It takes about a minute each.
"""
import os
import shutil
import subprocess
import sys
import tempfile

BOTH, BOTH_PROOF = "two_calls/specs/Both.antt", "two_calls/proofs/Both.antt"
BOTH_USES = "use Rattle.std.specs.Prelude.{◌≡◌, List, ℕ}\n"
LAYOUT_MASKED = "  pub masked : MaskedPairForLayout width case a b tape → xs ≡ us\n"
LAYOUT_PROOF = "            λ m e.\n            let k = masking_original width case a b tape m xs in\n"

BOOKS, BOOKS_PROOF = "two_books/specs/Both.antt", "two_books/proofs/MaskedReports.antt"
BOOKS_SECOND = "  pub second : ◌≡◌ {A = Called} (record { end = r.1.put; space = zs; work = vb; tally = r.1.tally }) (reported more b t wb us)\n"

LENGTH = ("qdesk/src/lib.rt", "ghost use Rattle.std.specs.Prelude.{◌≡◌, ltb};\n", "ghost use Rattle.std.specs.Prelude.{◌≡◌, length, ltb};\n")

# What is weakened, and the edits that do it: a file, the text that stands there once, and what stands there instead.
WEAKENINGS = {
    "laying out from C asks for an empty text": [
        (
            "qdesk/src/lib.rt",
            "    ensures { ◌≡◌ {A = Result}",
            "    requires { length text.now ≡ 0 }\n    ensures { ◌≡◌ {A = Result}",
        ),
        LENGTH,
    ],
    "the sort of a word from C asks for an empty word": [
        (
            "qdesk/src/lib.rt",
            "    ensures { result ≡ word_answer",
            "    requires { length word.now ≡ 0 }\n    ensures { result ≡ word_answer",
        ),
        LENGTH,
    ],
    "one text in two spaces asks for a narrow indent": [
        (
            "two_calls/src/lib.rt",
            "    ensures { LaysOutTwice",
            "    requires { width ≡ 0 }\n    ensures { LaysOutTwice",
        ),
        ("two_calls/src/lib.rt", "ghost use Rattle.two_calls", "ghost use Rattle.std.specs.Prelude.{◌≡◌};\nghost use Rattle.two_calls"),
    ],
    "one text in two spaces says nothing of the second": [
        (BOTH, "  pub second : ◌≡◌ {A = Result} (record { answer = r.1; space = zs }) (laid_out (outcome original width case text tape) us)\n", ""),
        (BOTH_PROOF, "        second = q;\n        one_value", "        one_value"),
    ],
    "one text in two spaces says nothing of the length": [
        (BOTH, "  pub one_value : r.0.value ≡ r.1.value\n", ""),
        (BOTH_PROOF, "        one_value = value p ∙ one_value_lem (outcome original width case text tape) xs us ∙ sym (value q);\n", ""),
    ],
    "laying out both texts says nothing of a space of no bytes": [
        (BOTH, LAYOUT_MASKED, "  pub masked : MaskedPairForLayout width case a b tape → (length xs ≡ 0 → ⊥) → xs ≡ us\n"),
        (BOTH, BOTH_USES, BOTH_USES.replace("List", "List, length")),
        (BOTH_PROOF, LAYOUT_PROOF, LAYOUT_PROOF.replace("λ m e.", "λ m z e.")),
    ],
    "laying out both texts speaks of an empty space alone": [
        (BOTH, LAYOUT_MASKED, "  pub masked : MaskedPairForLayout width case a b tape → length xs ≡ 0 → xs ≡ us\n"),
        (BOTH, BOTH_USES, BOTH_USES.replace("List", "List, length")),
        (BOTH_PROOF, LAYOUT_PROOF, LAYOUT_PROOF.replace("λ m e.", "λ m z e.")),
    ],
    "laying out both texts asks what demand 3 asks, and not less": [
        (BOTH, LAYOUT_MASKED, "  pub masked : MaskedPair width case a b tape → xs ≡ us\n"),
        (BOTH_PROOF, LAYOUT_PROOF, LAYOUT_PROOF.replace("tape m xs", "tape (pair-for_layout width case a b tape m) xs")),
        (BOTH_PROOF, "TwoCalls.{masking_original, ", "TwoCalls.{masking_original, pair-for_layout, "),
    ],
    "the map call from C asks for an empty text": [
        (
            "qdesk/src/lib.rt",
            "    ensures { ◌≡◌ {A = Mapped}",
            "    requires { length text.now ≡ 0 }\n    ensures { ◌≡◌ {A = Mapped}",
        ),
        LENGTH,
    ],
    "both map calls say nothing of the maps where less than demand 3 asks is met": [
        (BOTH, "      × (SameLines a b → ns ≡ os)\n", ""),
        (BOTH_PROOF, "              λ w. ap (λ (z : Mapped). z.map) p ∙ k.maps w ∙ sym (ap (λ (z : Mapped). z.map) q'),\n", ""),
    ],
    "two reports say nothing of the tallies": [
        (BOOKS, "xs ≡ us → (r.0 ≡ r.1) ×", "xs ≡ us → (r.0.put ≡ r.1.put) ×"),
        (BOOKS_PROOF, "λ m same. (ap (λ (x : Reported × List ℕ). x.0) (alike m same), ", "λ m same. (ap (λ (x : Reported × List ℕ). x.0.put) (alike m same), "),
    ],
    "two reports say nothing of the second alone": [
        (BOOKS, BOOKS_SECOND, ""),
        (BOOKS_PROOF, "{ first = p; second = q; masked", "{ first = p; masked"),
    ],
    "printing a job asks for an empty job": [
        (
            "desk_job/src/lib.rt",
            "    ensures { ◌≡◌ {A = Written} (record { end = result; space = out.new }) (written 0 (printed more",
            "    requires { length job.now ≡ 0 }\n"
            "    ensures { ◌≡◌ {A = Written} (record { end = result; space = out.new }) (written 0 (printed more",
        )
    ],
}


def edited(path, old, new):
    text = open(path, encoding="utf-8").read()
    if text.count(old) != 1:
        sys.exit(f"{path}: this text stands there {text.count(old)} times:\n{old}")
    open(path, "w", encoding="utf-8").write(text.replace(old, new))


def tried(edits):
    """Whether the weakened crates are proved and acceptance is refused. What rt said stands in target/weakenings.said."""
    with tempfile.TemporaryDirectory() as folder:
        shutil.copytree("crates", f"{folder}/crates", ignore=shutil.ignore_patterns("out", "must-fail", "runs"))
        shutil.copy("crates.txt", folder)
        for file, old, new in edits:
            edited(f"{folder}/crates/{file}", old, new)
        done = subprocess.run(["rt", "check"], cwd=f"{folder}/crates/acceptance", capture_output=True, text=True)
    os.makedirs("target", exist_ok=True)
    open("target/weakenings.said", "w", encoding="utf-8").write(done.stdout + done.stderr)
    return done.returncode == 1 and "fn acceptance::" in done.stdout and "did not build" not in done.stderr


def main():
    names = sys.argv[1:] or list(WEAKENINGS)
    wrong = 0
    for name in names:
        refused = tried(WEAKENINGS[name])
        wrong += not refused
        print(f"{name}: {'refused by acceptance' if refused else 'NOT REFUSED BY ACCEPTANCE ALONE: see target/weakenings.said'}", flush=True)
        if not refused:
            break
    print(f"weakenings: {len(names) - wrong} of {len(names)} refused")
    sys.exit(wrong > 0)


main()
