#!/usr/bin/env python3
"""Writes include/qdesk_kinds.h, the kinds for C by name and number, from crates/tape/src: syntax_kind.rt has the kinds, `not_carried` in
commands.rt those that no node may be of. A test of rust/qdesk holds the header to the crate's list. Run it after a change of either."""

import re
from pathlib import Path

ROOT = Path(__file__).resolve().parent.parent
SOURCE = ROOT / "crates" / "tape" / "src"

HEAD = """\
/*
 * The kinds of nodes and tokens by name and number, in the order of clickhouse-analyzer's SyntaxKind, for tapes (qdesk.h). Written by
 * scripts/kinds_header.py. A token may be of any kind; a node of one of the {refused} marked kinds is refused (9).
 */
#ifndef QDESK_KINDS_H
#define QDESK_KINDS_H

/* How many kinds there are: a larger or equal number is refused (8). */
#define QDESK_KINDS {count}

enum qdesk_kind {{
"""

TAIL = """\
};

/* Whether a node may be of this kind. */
static inline int qdesk_kind_is_carried(unsigned kind)
{
    switch (kind) {
%s
        return 0;
    default:
        return kind < QDESK_KINDS;
    }
}

#endif
"""


def kinds():
    found = re.findall(r"^pub const (\w+): u16 = (\d+);$", (SOURCE / "syntax_kind.rt").read_text(), re.M)
    assert [int(number) for _, number in found] == list(range(len(found)))
    return [name for name, _ in found]


def not_carried():
    body = (SOURCE / "commands.rt").read_text().split("fn not_carried(", 1)[1].split("\n}\n", 1)[0]
    return re.findall(r"syntax_kind::([A-Z_]+)", body)


def entry(number, name, last, refused):
    comma = "" if last else ","
    mark = " /* no node */" if name in refused else ""
    return f"    QDESK_KIND_{name} = {number}{comma}{mark}\n"


def main():
    names, refused = kinds(), not_carried()
    lines = [entry(number, name, number == len(names) - 1, refused) for number, name in enumerate(names)]
    cases = "\n".join(f"    case QDESK_KIND_{name}:" for name in names if name in refused)
    header = HEAD.format(refused=len(refused), count=len(names)) + "".join(lines) + TAIL % cases
    (ROOT / "include" / "qdesk_kinds.h").write_text(header)


main()
