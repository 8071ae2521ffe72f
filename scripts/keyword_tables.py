#!/usr/bin/env python3
"""Writes what follows from the keyword list (KEYWORDS in crates/keywords/src/table.rt): the arrays `SHIFTS` and `ENTRIES` in src/index.rt. Nothing
rests on it: the check says whether they agree, and whether the list is that of specs/Names.antt. Run it after a change of the list, then `rt fmt`."""

import re
from pathlib import Path

CRATE = Path(__file__).resolve().parent.parent / "crates" / "keywords"


def letter(word, i):
    return ord(word[i]) % 32


def bucket(word):
    return (letter(word, 0) + 4 * len(word)) % 64


def unshifted(word):
    return 2 * letter(word, 1) + 5 * letter(word, len(word) // 2) + letter(word, len(word) - 1)


def shifts(words):
    """Hash and displace: each bucket, the largest first, gets the least shift that leads to keys which are still free."""
    buckets = {b: [] for b in range(64)}
    for word in words:
        buckets[bucket(word)].append(word)
    taken, found = set(), {}
    for b in sorted(buckets, key=lambda b: (-len(buckets[b]), b)):
        for shift in range(256):
            keys = {(unshifted(word) + shift) % 256 for word in buckets[b]}
            if len(keys) == len(buckets[b]) and not keys & taken:
                found[b] = shift
                taken |= keys
                break
        else:
            raise SystemExit(f"no shift for bucket {b}: the key needs other letters")
    return found


def replaced(text, pattern, new):
    """The text with the one match of the pattern, between its two groups, replaced."""
    result, count = re.subn(pattern, lambda m: m.group(1) + new + m.group(2), text, flags=re.S)
    if count != 1:
        raise SystemExit(f"{count} places for {pattern}")
    return result


def rewrite(path, changes):
    text = path.read_text()
    for pattern, new in changes:
        text = replaced(text, pattern, new)
    path.write_text(text)


def entries(words, shift):
    """For each of the 256 keys the entry that has it, as a line of the array."""
    lines, at = ["    None,"] * 256, 0
    for place, word in enumerate(words):
        key = (unshifted(word) + shift[bucket(word)]) % 256
        lines[key] = f"    entry!({place}, {at}, b'{word[0]}'), // {word}"
        at += 1 + len(word)
    return lines


def main():
    table = re.search(r'KEYWORDS: .*?b"(.*?)"', (CRATE / "src" / "table.rt").read_text(), re.S).group(1)
    words = re.findall(r"\\x[0-9a-f]{2}([A-Z]+)", table)
    shift = shifts(words)
    rewrite(
        CRATE / "src" / "index.rt",
        [
            (r"(SHIFTS: \[u8; 64\] = \[\n).*?(\];\n)", "".join(f"    {shift[b]},\n" for b in range(64))),
            (r"(ENTRIES: \[Option<Entry>; 256\] = \[\n).*?(\];\n)", "".join(line + "\n" for line in entries(words, shift))),
        ],
    )


if __name__ == "__main__":
    main()
