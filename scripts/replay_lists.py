#!/usr/bin/env python3
"""Writes the lists of crates/replay/runs and what `replay` must print for each: wrong records of each sort, and bad lists.

A wrong list has a right record of the stored list (crates/replay/stdin), a wrong one, and a right one. A wrong record is a right one with
one thing of its answer changed, or of its call where the answer is known to change too; so what is printed follows from how the list was
made, and no layout is computed here. vectors/README.md describes the bytes. Run in the repository's root, again after the stored list changed.
"""

import dataclasses
import pathlib
import struct

STORED = pathlib.Path("crates/replay/stdin")
RUNS = pathlib.Path("crates/replay/runs")
HEAD = struct.Struct("<9Q")


@dataclasses.dataclass(frozen=True)
class Record:
    width: int
    case: int
    text: bytes
    text_zeros: int
    tape: bytes
    tape_zeros: int
    space: int
    number: int
    value: int
    layout: bytes

    def bytes(self):
        lengths = (len(self.text), self.text_zeros, len(self.tape), self.tape_zeros)
        head = HEAD.pack(self.width, self.case, *lengths, self.space, self.number, self.value)
        return head + self.text + self.tape + self.layout

    def but(self, **changes):
        return dataclasses.replace(self, **changes)


def read(data):
    (count,) = struct.unpack_from("<Q", data)
    at = 8
    for _ in range(count):
        width, case, text, text_zeros, tape, tape_zeros, space, number, value = HEAD.unpack_from(data, at)
        at += HEAD.size
        runs = []
        for length in (text, tape, value if number == 0 else 0):
            runs.append(data[at : at + length])
            at += length
        yield Record(width, case, runs[0], text_zeros, runs[1], tape_zeros, space, number, value, runs[2])
    assert at == len(data)


def write(name, data, line):
    (RUNS / f"{name}.list").write_bytes(data)
    (RUNS / f"{name}.out").write_text(line + "\n")


def list_of(records, count=None):
    return struct.pack("<Q", len(records) if count is None else count) + b"".join(r.bytes() for r in records)


def other(byte):
    """Another byte, and not the one that fills the space."""
    return byte + 1 if byte < 126 else 32


def wrong_records(first):
    """The sorts of wrong records, by name; `first` finds a right record."""
    laid_out = first(lambda r: r.number == 0 and 10 <= r.value < r.space)
    short = first(lambda r: r.number == 13 and 0 < r.space)
    refused = first(lambda r: r.number == 10 and 0 < r.value)
    text_too_long = first(lambda r: r.number == 3 and r.text_zeros + len(r.text) == 262145)
    tape_too_long = first(lambda r: r.number == 5)
    v = laid_out.value
    layout = laid_out.layout
    return {
        "layout-number": laid_out.but(number=12, layout=b""),
        "layout-length-less": laid_out.but(value=v - 1, layout=layout[:-1]),
        "layout-length-more": laid_out.but(value=v + 1, layout=layout + b" "),
        "layout-length-more-255": laid_out.but(value=v + 1, layout=layout + b"\xff"),
        "layout-first-byte": laid_out.but(layout=bytes([other(layout[0])]) + layout[1:]),
        "layout-last-byte": laid_out.but(layout=layout[:-1] + bytes([other(layout[-1])])),
        "layout-space-too-short": laid_out.but(space=v - 1, value=v - 1, layout=layout[:-1]),
        "short-number": short.but(number=12),
        "short-length": short.but(value=short.value + 1),
        "short-enough-space": short.but(space=short.value),
        "refused-number": refused.but(number=11),
        "refused-place": refused.but(value=refused.value - 1),
        "refused-accepted": refused.but(number=0, layout=bytes(refused.value), space=refused.value),
        "refused-short": refused.but(number=13),
        "text-zeros": text_too_long.but(text_zeros=text_too_long.text_zeros - 1),
        "tape-zeros": tape_too_long.but(tape_zeros=tape_too_long.tape_zeros - 1),
    }


def at_limits():
    """Two records of calls whose width is refused (1 at 0), whatever else they have; the first has every length at its most. With 126 of the
    first and one of the second a list has 1,048,576 bytes, the most that the program takes: scripts/replay_runs.sh makes it."""
    refused = Record(17, 0, bytes(4096), 258049, bytes(4096), 258049, 4096, 1, 0, b"")
    return [refused, refused.but(text=bytes(3616), tape=bytes(3616))]


def bad_lists(right):
    """Bytes and the number of the record at which they are bad, by name; `right` has three records, each with all three runs."""
    whole = list_of(right)
    at = len(list_of(right[:2]))
    r = right[2]
    text_at = at + HEAD.size
    tape_at = text_at + len(r.text)
    layout_at = tape_at + len(r.tape)
    with_third = lambda **changes: list_of(right[:2] + [r.but(**changes)])
    return {
        "empty": (b"", 0),
        "cut-in-count": (whole[:7], 0),
        "cut-before-first": (whole[:8], 0),
        "cut-before-head": (whole[:at], 2),
        "cut-in-head": (whole[: text_at - 1], 2),
        "cut-in-text": (whole[: tape_at - 1], 2),
        "cut-in-tape": (whole[: layout_at - 1], 2),
        "cut-in-layout": (whole[:-1], 2),
        "a-byte-more": (whole + b"\0", 3),
        "a-record-more": (list_of(right + [r], 3), 3),
        "a-record-less": (list_of(right[:2], 3), 2),
        "text-stored-limit": (with_third(text=bytes(4097)), 2),
        "text-length-limit": (with_third(text_zeros=262146 - len(r.text)), 2),
        "tape-stored-limit": (with_third(tape=bytes(4097)), 2),
        "tape-length-limit": (with_third(tape_zeros=262146 - len(r.tape)), 2),
        "space-limit": (with_third(space=4097), 2),
        "layout-limit": (with_third(value=r.space + 1, layout=bytes(r.space + 1)), 2),
    }


def main():
    stored = list(read(STORED.read_bytes()))
    first = lambda suits: next(r for r in stored if len(r.bytes()) < 400 and suits(r))
    right = first(lambda r: r.number == 0 and r.text and r.tape and r.layout)
    RUNS.mkdir(exist_ok=True)
    for path in [*RUNS.glob("*.list"), *RUNS.glob("*.out")]:
        path.unlink()
    wrong = wrong_records(first)
    for name, record in wrong.items():
        write(f"wrong-{name}", list_of([right, record, right]), "3 vectors, 1 differ, the first is 1")
    in_a_row = [right, right, *wrong.values(), right]
    write("wrong-all", list_of(in_a_row), f"{len(in_a_row)} vectors, {len(wrong)} differ, the first is 2")
    write("right", list_of([right] * 3), "3 vectors, 0 differ")
    write("right-none", list_of([]), "0 vectors, 0 differ")
    write("right-at-limits", list_of(at_limits()), "2 vectors, 0 differ")
    for name, (data, at) in bad_lists([right] * 3).items():
        write(f"bad-{name}", data, f"bad list at record {at}")


main()
