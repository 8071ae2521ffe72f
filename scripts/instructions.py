#!/usr/bin/env python3
"""Counts instructions by callgrind: what a token costs the port's call with no output space and its walk, the call with enough space and its
walks, the map call with enough space and its walks, and the source's `format` on a ready tree.

    scripts/instructions.py [--seed SEED] [CORPUS...]    the corpora of `cargo run --release --bin format -- --list`, or all

Counts don't depend on what else the machine does. Each corpus is run once for each side under valgrind, which takes some minutes for all.
Needs valgrind, and what the benchmark needs (rust/README.md). Mispredicted branches are simulated: a help, no count of this machine's.
"""

import argparse
import pathlib
import re
import subprocess
import sys
import tempfile

ROOT = pathlib.Path(__file__).resolve().parent.parent
PROGRAM = ROOT / "rust/target/release/format"

# The end of the name of the library's function: with the name of its crate before it, or without.
WALK = "format::node"


class Profile:
    """What callgrind saw of one side: costs as lists [instructions, mispredicted branches]."""

    def __init__(self, text, tokens):
        self.tokens = tokens
        self.events = re.search(r"^events: (.*)$", text, re.M).group(1).split()
        self.whole = self.cost(re.search(r"^totals: (.*)$", text, re.M).group(1).split())
        self.calls = list(self.read_calls(text))

    def cost(self, numbers):
        """A cost from a line's numbers; those that are missing at the end are 0."""
        by_event = dict(zip(self.events, map(int, numbers)))
        return [by_event["Ir"], by_event.get("Bcm", 0) + by_event.get("Bim", 0)]

    def read_calls(self, text):
        """Caller, called function and cost with all that it calls, for each call line."""
        caller = called = None
        expects_cost = False
        for line in text.splitlines():
            if line.startswith("fn="):
                caller = line[3:]
            elif line.startswith("cfn="):
                called = line[4:]
            elif line.startswith("calls="):
                expects_cost = True
            elif expects_cost:
                yield caller, called, self.cost(line.split()[1:])
                expects_cost = False

    def instructions_in(self, name):
        """Instructions a token in the function, called from outside of it. Its calls of itself have a mark at the end of the name."""
        costs = [cost for caller, called, cost in self.calls if called.endswith(name) and name not in caller]
        if not costs:
            sys.exit(f"instructions.py: the library has no function {name} that is called")
        return sum(cost[0] for cost in costs) / self.tokens

    def a_token(self):
        """Instructions and mispredicted branches of the whole side for a token."""
        return [number / self.tokens for number in self.whole]


def profile(corpus, seed, side, function):
    """The side on the corpus; counted are instructions while the function runs."""
    with tempfile.TemporaryDirectory() as folder:
        out = pathlib.Path(folder) / "callgrind.out"
        options = [f"--toggle-collect={function}", f"--callgrind-out-file={out}", "--branch-sim=yes"]
        options += ["--compress-strings=no", "--compress-pos=no"]
        program = [PROGRAM, "--seed", str(seed), "--once", side, corpus]
        command = ["valgrind", "--quiet", "--tool=callgrind", *options, *program]
        printed = subprocess.run(command, check=True, stdout=subprocess.PIPE, text=True).stdout
        return Profile(out.read_text(), int(printed.split()[0]))


def print_row(corpus, seed):
    layout = profile(corpus, seed, "layout", "qdesk_layout")
    no_space = profile(corpus, seed, "no-space", "qdesk_layout")
    mapped = profile(corpus, seed, "map", "qdesk_layout_map")
    source = profile(corpus, seed, "ready-tree", "bench::rounds::ready_tree")
    walk, whole_no_space = no_space.instructions_in(WALK), no_space.a_token()[0]
    # One walk where the layout fits the space on the stack (4,096 bytes, or 16,384 for tapes above 8,206), else two.
    walks = layout.instructions_in(WALK)
    whole, mispredicted = layout.a_token()
    map_walks, (map_whole, map_mispredicted) = mapped.instructions_in(WALK), mapped.a_token()
    source_whole, source_mispredicted = source.a_token()
    print(
        f"{corpus:<14} {walk:>8.0f} {whole_no_space:>8.0f} {walks:>8.0f} {whole:>8.0f} {map_walks:>8.0f} {map_whole:>8.0f} {source_whole:>8.0f}"
        f" | {mispredicted:>6.1f} {map_mispredicted:>6.1f} {source_mispredicted:>6.1f} | {map_whole / whole:>10.2f}",
        flush=True,
    )


def main():
    parser = argparse.ArgumentParser(description=__doc__, formatter_class=argparse.RawDescriptionHelpFormatter)
    parser.add_argument("--seed", type=int, default=1)
    parser.add_argument("corpora", nargs="*", metavar="CORPUS")
    asked = parser.parse_args()
    cargo = ["cargo", "build", "--quiet", "--offline", "--release", "--bin", "format"]
    subprocess.run(cargo, check=True, cwd=ROOT / "rust")
    listed = subprocess.run([PROGRAM, "--list"], check=True, stdout=subprocess.PIPE, text=True).stdout
    known = [line.split()[0] for line in listed.splitlines()]
    unknown = set(asked.corpora) - set(known)
    if unknown:
        parser.error(f"no corpus {', '.join(sorted(unknown))}: there are {', '.join(known)}")
    print(f"{'':<14} {'instructions a token':^62} | {'mispredicted':^20} | {'map over':>10}")
    print(f"{'':<14} {'in no space':^17} {'in enough':^17} {'the map call':^17} {'':>8} | {'':20} |")
    print(
        f"{'corpus':<14} {'walk':>8} {'all':>8} {'walks':>8} {'all':>8} {'walks':>8} {'all':>8} {'source':>8}"
        f" | {'layout':>6} {'map':>6} {'source':>6} | {'layout':>10}"
    )
    for corpus in asked.corpora or known:
        print_row(corpus, asked.seed)


main()
