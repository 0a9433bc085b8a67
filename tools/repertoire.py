#!/usr/bin/env python3
"""Writes what `repertoire` must print, from the names of Table 4 (tools/table4.txt).

    tools/repertoire.py            write crates/repertoire/stdout
    tools/repertoire.py --check    fail if that file is not what would be written

A name stands for the ISO/IEC 10646 character that Python's Unicode data has under it.
"""
import pathlib
import unicodedata

import stored

ROOT = pathlib.Path(__file__).resolve().parent.parent
# The one name in that file that ISO/IEC 10646 does not use.
RENAMED = {"MUSIC NOTE": "EIGHTH NOTE"}


def table():
    codings = {}
    for line in (ROOT / "tools/table4.txt").read_text().splitlines():
        if line.startswith("#"):
            continue
        words = line.split()
        places = [w for w in words if "/" in w]
        name = " ".join(words[len(places):])
        coding = tuple(16 * int(w[:2]) + int(w[3:]) for w in places)
        codings[coding] = ord(unicodedata.lookup(RENAMED.get(name, name)))
    return codings


def answer(codings, marks, string):
    for length in range(1, len(string) + 1):
        if string[:length] in codings:
            return "U+%04X %d" % (codings[string[:length]], length)
    if string[0] not in marks:
        return "refused 31 0"
    return "open" if len(string) == 1 else "refused 32 0"


def printed():
    codings = table()
    assert len(codings) == 333 and len(set(codings.values())) == 333
    marks = {c[0] for c in codings if len(c) == 2}
    for byte in range(256):
        yield "%02X %s" % (byte, answer(codings, marks, (byte,)))
    for first in range(256):
        start = 0
        for second in range(256):
            now = answer(codings, marks, (first, second))
            if second == 255 or answer(codings, marks, (first, second + 1)) != now:
                yield "%02X %02X-%02X %s" % (first, start, second, now)
                start = second + 1
    for coding, character in sorted(codings.items(), key=lambda entry: entry[1]):
        yield "U+%04X %s" % (character, " ".join("%02X" % byte for byte in coding))


stored.keep(ROOT / "crates/repertoire/stdout", printed(), "Table 4's names give")
