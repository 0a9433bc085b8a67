#!/usr/bin/env python3
"""Runs the built programs on a table of cases, and fails where one says, writes or ends with
something else.

A case is a command line, what is read, what must be written, the first line that must be said on
standard error, and the status.
"""
import pathlib
import re
import shlex
import subprocess
import sys
import tempfile

TOP = pathlib.Path(__file__).resolve().parent.parent
BIN = TOP / "target/bin"
SHARED = (TOP / "crates/program/src/lib.rt").read_text()
VERSION = re.search(r'VERSION: &str = "(.*)"', SHARED).group(1)
NAMES = (
    "picture iso6937 iso6937-7bit iso6937-7bit-parity iso8859-16 sami utf8 iso6937-basic".split()
)


def roll(*pages):
    """A roll by the format in docs/ROLLS.md: pages as pairs of form and bytes."""
    data, index = b"", b""
    for form, page in pages:
        index += len(data).to_bytes(4, "big") + len(page).to_bytes(4, "big")
        index += bytes([form, 0, 0, 0])
        data += page
    size = len(data).to_bytes(4, "big")
    return data + index + size + len(pages).to_bytes(4, "big") + size + b"ROLL"


LETTER = b"Ren\xc2e"
BROKEN = b"Ren\xc2e \xc2b"
TWO = roll((1, LETTER), (1, BROKEN))
TEXT = "René\n1 1 4 ok\nRené \n2 1 5 6@6\n".encode()
ACUTE = "C2 62: acute before a byte with which it makes no pair (refusal 6, cause 32, depth 1)"
FILES = {
    "two": TWO,
    "first": LETTER,
    "second": BROKEN,
    "-dashed": LETTER,
    "-": LETTER,
    "long": bytes(65_509),
    "latin": b"caf\xe9\n",
}
ENTRY = bytearray(TWO)
ENTRY[len(LETTER + BROKEN) + 12] = 1


WHY = {37: "it is not on the list", 38: "the set does not have it"}


def broken(words):
    return f"finetalc: the roll: {words}"


def lacking(place, form, cause, depth):
    """What recode says of a character that a form lacks, by its offset, bytes and number."""
    why = f"{WHY[cause]} (refusal 7, cause {cause}, depth {depth})"
    return f"recode: standard input: offset {place} has no coding in {NAMES[form]}: {why}"


CASES = [
    ("finetalc", TWO, TEXT, "", 0),
    ("finetalc two", b"", TEXT, "", 0),
    ("finetalc -", TWO, TEXT, "", 0),
    ("finetalc --explain two", b"", TEXT, f"finetalc: page 2: offset 6: {ACUTE}", 0),
    ("finetalc --explain", roll((2, b"\x19\x42")), b"\n1 2 0 9@0\n", "finetalc: page 1: offset 0: 19 42: bytes at the very end that wait for more (refusal 9)", 0),
    ("finetalc --strict two", b"", TEXT, "finetalc: refused: page 2", 1),
    ("finetalc --strict", roll((1, LETTER)), TEXT[:15], "", 0),
    ("finetalc --strict", b"", b"14\n", "finetalc: refused: the roll", 1),
    ("finetalc --explain", b"", b"14\n", broken("under 16 bytes or over 65536 (refusal 14)"), 0),
    ("finetalc --explain", bytes(16), b"15\n", broken("the last four bytes are not ROLL (refusal 15)"), 0),
    ("finetalc --explain", b"a" + TWO, b"16\n", broken("more than 1024 pages, or an index that does not fit (refusal 16)"), 0),
    ("finetalc --explain", bytes(ENTRY), b"17\n", broken("entry 2 breaks a rule (refusal 17)"), 0),
    ("finetalc --explain", b"x" + roll()[:3] + b"\1" + roll()[4:], b"17\n", broken("no pages, and an index that does not begin at 0 (refusal 17)"), 0),
    ("finetalc --explain", TWO[:-8] + bytes(4) + TWO[-4:], b"18\n", broken("the total is not the sum of the lengths (refusal 18)"), 0),
    ("finetalc nothing", b"", b"", "finetalc: cannot read nothing: No such file or directory (os error 2)", 1),
    ("finetalc .", b"", b"", "finetalc: cannot read .: Is a directory (os error 21)", 1),
    ("finetalc two two", b"", b"", "finetalc: unexpected argument 'two' found", 2),
    ("finetalc --page", b"", b"", "finetalc: unexpected argument '--page' found", 2),
    ("recode iso8859-16 utf8 latin", b"", "café\n".encode(), "", 0),
    ("recode 4 6", FILES["latin"], "café\n".encode(), "", 0),
    ("recode utf8 iso6937-7bit", "é".encode(), b"\x19\x42e", "", 0),
    ("recode utf8 iso6937-7bit-parity", "é".encode(), b"\x99\x42\x65", "", 0),
    ("recode utf8 sami", "Č".encode(), b"\xa1", "", 0),
    ("recode 1 6 second", b"", "René ".encode(), f"recode: second: offset 6: {ACUTE}", 1),
    ("recode 6 4", "Dvořák".encode(), b"Dvo", lacking("3: C5 99: U+0159", 4, 38, 1), 1),
    ("recode 6 7", "Antonín".encode(), b"Anton", lacking("5: C3 AD: U+00ED", 7, 37, 1), 1),
    ("recode 6 7", "日本".encode(), b"", lacking("0: E6 97 A5: U+65E5", 7, 38, 2), 1),
    ("recode 6 3", "a\x0b".encode(), b"\xe1", lacking("1: 0B: U+000B", 3, 38, 3), 1),
    ("recode 7 utf8", b"caf\xc2e", b"caf", "recode: standard input: offset 3: C2 65: a character that is not on the list (refusal 6, cause 37, depth 1)", 1),
    ("recode 6 1 nothing", b"", b"", "recode: cannot read nothing: No such file or directory (os error 2)", 1),
    ("recode latin1 6", b"", b"", "recode: no form has the name 'latin1'; --help lists them", 2),
    ("recode 8 6", b"", b"", "recode: no form has the name '8'; --help lists them", 2),
    ("recode 6 picture", b"", b"", "recode: a picture has no text: 'picture'", 2),
    ("recode 1", b"", b"", "recode: the following required arguments were not provided:", 2),
    ("rollmake 1 first iso6937 second", b"", TWO, "", 0),
    ("rollmake 1 -- -dashed 0 -", b"", roll((1, LETTER), (0, LETTER)), "", 0),
    ("rollmake 6 long", b"", roll((6, FILES["long"])), "rollmake: warning: the roll has 65537 bytes, and finetalc reads up to 65536", 0),
    ("rollmake 1 first 2", b"", b"", "rollmake: the last form has no file", 2),
    ("rollmake 1 -dashed", b"", b"", "rollmake: unexpected argument '-d' found", 2),
    ("rollmake 9 first", b"", b"", "rollmake: no form has the name '9'; --help lists them", 2),
    ("rollmake 1 nothing", b"", b"", "rollmake: cannot read nothing: No such file or directory (os error 2)", 1),
    *((f"{name} --version", b"", f"{name} {VERSION}\n".encode(), "", 0) for name in ("finetalc", "recode", "rollmake")),
    *((f"rollmake {name} first", b"", roll((number, LETTER)), "", 0) for number, name in enumerate(NAMES)),
]


def ran(folder, line, given, stdout=subprocess.PIPE):
    program, *words = shlex.split(line)
    done = subprocess.run(
        [BIN / program, *words],
        cwd=folder,
        input=given,
        stdout=stdout,
        stderr=subprocess.PIPE,
        check=False,
    )
    return done.stdout, done.stderr.decode().partition("\n")[0], done.returncode


def failures(folder):
    for line, given, *expected in CASES:
        answer = ran(folder, line, given)
        if answer != tuple(expected):
            yield f"{line}: {answer} and not {tuple(expected)}"
    for program in "recode", "rollmake":
        listed = ran(folder, f"{program} --help", b"")[0].decode()
        for number, name in list(enumerate(NAMES))[1:]:
            if f"\n  {number}  {name} " not in listed:
                yield f"{program} --help does not list {name}"
    said = "finetalc: cannot write standard output: No space left on device (os error 28)"
    for line in ("finetalc two", "finetalc --help"):
        with open("/dev/full", "wb") as full:
            answer = ran(folder, line, b"", full)[1:]
        if answer != (said, 1):
            yield f"{line} > /dev/full: {answer}"


with tempfile.TemporaryDirectory(prefix="cli-") as room:
    for name, content in FILES.items():
        (pathlib.Path(room) / name).write_bytes(content)
    found = list(failures(room))
print("\n".join(found + [f"tools/cli.py: {len(CASES)} cases, {len(found)} failures"]))
sys.exit(1 if found else 0)
