#!/usr/bin/env python3
"""Holds the definition of the layout (crates/layout/specs) to the original Rust source.

The oracle (rust/oracle) makes calls and answers them by the source. Each call is then answered by the definition, computed by rt: a
batch of calls is one claim, `T (all of them answered so)`, in a temporary repository with copies of the crates. Prints how many calls
were equal, which were not, time and memory, and the arms of the source's routines that the calls take. Fails where an answer differs
or an arm is not taken.

Needs rt, cargo and the source (rust/README.md). Not part of the gate: it takes minutes.
"""

import argparse
import heapq
import os
import pathlib
import resource
import shutil
import subprocess
import sys
import tempfile
import time

ROOT = pathlib.Path(__file__).resolve().parent.parent
CRATE = "layout"

# So many calls of each class, the first whose tape and text are at most so long together.
RANDOM = {
    "parser": 60,
    "wild": 80,
    "damaged": 60,
    "masked": 80,
    "limits": 20,
    "utf8": 60,
    "utf8-small": 80,
    "utf8-damaged": 80,
    "utf8-masked": 60,
}
RANDOM_BYTES = 1_500

# The small calls of which some are picked, so that every arm is taken.
SMALL = 100_000

# What the calls of one claim may cost together; a call costs about the square of its bytes. Much more would pass rt's limit of steps.
BATCH = 6_000_000

# A number in a claim stands for at most so many bytes: Python prints no longer ones.
NUMBER = 1_000


class Call:
    """One line of `oracle vectors`."""

    def __init__(self, line):
        fields = line.rstrip("\n").split("\t")
        self.name, self.width, self.case = fields[:3]
        self.text, self.tape, self.space, self.after = (bytes.fromhex(fields[i]) for i in (3, 4, 5, 7))
        self.laid_out = fields[6].split()
        self.arms = frozenset(arm for arm in fields[8].split(";") if arm)
        self.bytes = len(self.tape) + len(self.text) + len(self.after)


def fail(message):
    sys.exit(f"definition_runs: {message}")


def run(words, **options):
    return subprocess.run(words, stdout=subprocess.PIPE, text=True, **options)


def oracle(*words):
    manifest = str(ROOT / "rust" / "Cargo.toml")
    command = ["cargo", "run", "--offline", "--quiet", "--release", "--manifest-path", manifest, "--bin", "oracle", "--"]
    done = run(command + [str(word) for word in words])
    if done.returncode != 0:
        fail("the oracle gave no calls")
    return done.stdout.splitlines()


# ── which calls


def calls_of(seed, name, count):
    """The first calls of a class that are not too long; both of a masked pair."""
    some = (Call(line) for line in oracle("vectors", seed, name, 0, 20 * count))
    fitting = [call for call in some if len(call.tape) + len(call.text) <= RANDOM_BYTES]
    if len(fitting) < count:
        fail(f"the class {name} has too few calls of at most {RANDOM_BYTES} bytes")
    return fitting[:count]


def picked(calls, left):
    """Calls that take all arms of `left` which some call takes: always the one with most new arms for its length."""

    def worth(call):
        return -len(call.arms & left) / (50 + call.bytes)

    heap = [(worth(call), place) for place, call in enumerate(calls)]
    heapq.heapify(heap)
    chosen = []
    while left and heap:
        _, place = heapq.heappop(heap)
        now = worth(calls[place])
        if now == 0:
            continue
        if heap and now > heap[0][0]:
            heapq.heappush(heap, (now, place))
            continue
        chosen.append(calls[place])
        left = left - calls[place].arms
    return chosen


def batches(calls):
    """The calls in lists that one claim each can hold."""
    batch, cost = [], 0
    for call in calls:
        if batch and cost + call.bytes**2 > BATCH:
            yield batch
            batch, cost = [], 0
        batch.append(call)
        cost += call.bytes**2
    if batch:
        yield batch


# ── the claim

CLAIM = """-- Calls and the answers that the source gives to them.
use Prim.Native.Nat.{ℕ}
use mathlib.Core.Bool.{Bool, true, ◌&&◌}
use mathlib.Core.List.{List, [], ◌∷◌, ◌++◌}
use lib.Dec.{T, eqb}
USES
use Rattle.layout.specs.declared.Answer.{Answer}
use Rattle.layout.specs.Outcome.{Result}
use Rattle.layout.specs.CourseSheet.{low_bytes}

abbrev is : Answer → ℕ → ℕ → Bool
is a number value = eqb a.number number && eqb a.value value

abbrev wrote : Result → ℕ → ℕ → List ℕ → Bool
wrote r number value after = is r.answer number value && same r.space after

-- the call of this width, case, text, tape and space: the numbers that it answers, and the space afterwards
abbrev call : ℕ → ℕ → List ℕ → List ℕ → List ℕ → ℕ → ℕ → List ℕ → Bool
call width case text tape space = wrote (laid_out (outcome original width case text tape) space)

abbrev every : List Bool → Bool
every [] = true
every (b ∷ bs) = b && every bs

pub answered : T (every (
ROWS
    []))
UNFOLDING
answered = tt
"""


def claim(calls):
    """The claim that the definition answers the calls so. It unfolds what the claims of the crate's own tables do."""
    tables = (ROOT / "crates" / CRATE / "proofs" / "Tables.antt").read_text(encoding="utf-8").splitlines()
    uses = [line for line in tables if line.startswith("use Rattle.")]
    unfolding = next(line for line in tables if line.startswith("unfolding "))
    rows = [f"    {row(call)} ∷" for call in calls]
    text = CLAIM.replace("USES", "\n".join(uses)).replace("UNFOLDING", unfolding)
    return text.replace("ROWS", "\n".join(rows))


def row(call):
    numbers = " ".join(call.laid_out)
    parts = (call.text, call.tape, call.space)
    return f"call {call.width} {call.case} {' '.join(map(literal, parts))} {numbers} {literal(call.after)}"


def literal(data):
    parts = [data[place : place + NUMBER] for place in range(0, len(data), NUMBER)]
    numbers = [f"low_bytes {len(part)} {int.from_bytes(part, 'little')} ++ (" for part in parts]
    return f"({''.join(numbers)}[]{')' * len(parts)})"


# ── the temporary repository


def needed():
    """The crate and those of the repository that it needs, each with what it depends on."""
    lines = (ROOT / "crates.txt").read_text(encoding="utf-8").splitlines()
    depends = {line.split(":")[0]: line.split(":")[1].split() for line in lines if line and not line.startswith("#")}
    found, left = {}, [CRATE]
    while left:
        name = left.pop()
        if name in depends and name not in found:
            found[name] = depends[name]
            left += depends[name]
    return found


class Repository:
    """Copies of the crates, and a crate `runs` over them that holds one claim."""

    def __init__(self, folder):
        self.folder = pathlib.Path(folder)
        crates = needed()
        for crate in crates:
            ignored = shutil.ignore_patterns("out", "must-fail")
            shutil.copytree(ROOT / "crates" / crate, self.folder / "crates" / crate, ignore=ignored)
        listed = {**crates, "runs": list(crates)}
        lines = [f"{name}: {' '.join(depends)}\n" for name, depends in listed.items()]
        (self.folder / "crates.txt").write_text("".join(lines), encoding="utf-8")
        self.write("src/lib.rt", "// The claim stands in proofs/.\n")
        self.write("proofs/Lib.antt", "pub mod Runs\n")

    def write(self, name, text):
        path = self.folder / "crates" / "runs" / name
        path.parent.mkdir(parents=True, exist_ok=True)
        path.write_text(text, encoding="utf-8")

    def check(self, crate):
        return run(["rt", "check"], cwd=self.folder / "crates" / crate, stderr=subprocess.STDOUT)

    def ready(self):
        done = self.check(CRATE)
        if done.returncode != 0:
            fail(f"the crates are not proved:\n{done.stdout}")

    def holds(self, calls):
        """Whether rt proves that the definition answers these calls as the source does."""
        self.write("proofs/Runs.antt", claim(calls))
        done = self.check("runs")
        if done.returncode == 0:
            return True
        if "Runs.antt" in done.stdout and "expected type `T (" in done.stdout:
            return False
        fail(f"rt could not compute a claim:\n{done.stdout}")

    def differing(self, calls):
        """Those of the calls that the definition answers otherwise."""
        if self.holds(calls):
            return []
        if len(calls) == 1:
            return calls
        half = len(calls) // 2
        return self.differing(calls[:half]) + self.differing(calls[half:])


def altered(call):
    """The call with another answer: one byte of the space afterwards, or the number, is changed."""
    if call.after:
        call.after = call.after[:-1] + bytes([call.after[-1] ^ 1])
    else:
        call.laid_out[1] = str(int(call.laid_out[1]) + 1)
    call.name += " (altered)"


def say_arms(wanted, taken):
    """Prints how many arms of each routine are taken; those that are not."""
    for group in sorted({arm.split(":")[0] for arm in wanted}):
        arms = {arm for arm in wanted if arm.startswith(f"{group}:")}
        print(f"{group}: {len(arms & taken)} of {len(arms)}")
    missed = sorted(wanted - taken)
    for arm in missed:
        print(f"NOT TAKEN: {arm}")
    print(f"arms taken: {len(wanted) - len(missed)} of {len(wanted)}", flush=True)
    return missed


def chosen(seed, wanted):
    """The calls to run: some of each class, and small ones for the arms that those do not take."""
    calls = [call for name, count in RANDOM.items() for call in calls_of(seed, name, count)]
    small = [Call(line) for line in oracle("vectors", seed, "small", 0, SMALL)]
    calls += picked(small, wanted - arms_of(calls))
    for name in [*RANDOM, "small"]:
        print(f"{name}: {sum(call.name.split()[0] == name for call in calls)} calls")
    return calls


def arms_of(calls):
    return frozenset().union(*(call.arms for call in calls))


def differing(lists):
    """Runs each list of calls; those that the definition answers otherwise."""
    found = []
    with tempfile.TemporaryDirectory() as folder:
        repository = Repository(folder)
        repository.ready()
        began = time.time()
        for calls in lists:
            before = time.time()
            found += repository.differing(calls)
            print(f"{calls[0].name} to {calls[-1].name}: {len(calls)} calls, {time.time() - before:.0f} s", flush=True)
    memory = resource.getrusage(resource.RUSAGE_CHILDREN).ru_maxrss // 1024
    count = sum(len(calls) for calls in lists)
    print(f"{count} calls in {time.time() - began:.0f} s, at most {memory} MB at once")
    return found


def main():
    parser = argparse.ArgumentParser(description=__doc__.split("\n")[0])
    parser.add_argument("--seed", type=int, default=1)
    parser.add_argument("--alter", type=int, metavar="N", help="alter the answer of call N and run its batch alone, to see it found")
    options = parser.parse_args()
    os.environ.setdefault("RT_JOBS", "1")

    wanted = frozenset(oracle("arms"))
    calls = chosen(options.seed, wanted)
    missed = say_arms(wanted, arms_of(calls))
    lists = list(batches(calls))
    if options.alter is not None:
        altered(calls[options.alter])
        lists = [batch for batch in lists if calls[options.alter] in batch]
    found = differing(lists)
    for call in found:
        print(f"DIFFERS: seed {options.seed} {call.name}")
    if missed or found:
        sys.exit(1)
    print(f"seed {options.seed}: all equal, all arms taken")


if __name__ == "__main__":
    main()
