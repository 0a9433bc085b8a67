#!/usr/bin/env python3
"""Makes the vectors of `conformance` with the system's converter, glibc's iconv(3), which shares no
code with ours.

    tools/vectors.py            writes crates/conformance/stdin, and which converter gave it into
                                tools/vectors.version
    tools/vectors.py --check    fails if that file is not what the same converter gives; where this
                                system has another version, or none, says so and goes on

A vector is a line of five words. `read 6937 C241 C241 C1/2`: every string from C2 41 to C2 41 (only
the last byte runs) begins with U+00C1, coded in 2 bytes; in place of the last word `open` says that
the string is incomplete, and `refused` that it is invalid. `write 6937 C1 C1 C241`: every character
from U+00C1 to U+00C1 is written so; `none` says that it has no coding, and `-` that the converter
writes nothing and calls that success.
"""
import ctypes
import errno
import pathlib
import sys

import stored

VERSION = pathlib.Path(__file__).resolve().parent / "vectors.version"
PATH = pathlib.Path(__file__).resolve().parent.parent / "crates/conformance/stdin"
# Our names of the sets, and the converter's.
SETS = {"6937": "ISO_6937", "8859-16": "ISO-8859-16", "sami": "ISO-IR-209", "utf-8": "UTF-8"}
SIZE, POINTER = ctypes.c_size_t, ctypes.c_void_p
FAILED = SIZE(-1).value


class NoConverter(Exception):
    pass


def version():
    """The version of this system's converter."""
    try:
        tell = ctypes.CDLL(None).gnu_get_libc_version
    except AttributeError:
        return "no glibc"
    tell.restype = ctypes.c_char_p
    return "glibc " + tell().decode()


class Converter:
    def __init__(self, target, source):
        self.libc = ctypes.CDLL(None, use_errno=True)
        self.libc.iconv_open.restype = POINTER
        self.libc.iconv.restype = SIZE
        self.libc.iconv.argtypes = [POINTER] * 5
        self.handle = self.libc.iconv_open(target.encode(), source.encode())
        if self.handle == POINTER(-1).value:
            raise NoConverter(
                f"tools/vectors.py: this system's iconv cannot convert {source} to {target}. The "
                "converters come with glibc: on Debian in the package libc6, on Fedora in "
                "glibc-gconv-extra."
            )
        self.output = ctypes.create_string_buffer(16)

    def first(self, data, room):
        """How many bytes were read, what was written, and the error; one character has room."""
        self.libc.iconv(self.handle, None, None, None, None)
        given = ctypes.create_string_buffer(data, len(data) + 1)
        source, left = POINTER(ctypes.addressof(given)), SIZE(len(data))
        target, free = POINTER(ctypes.addressof(self.output)), SIZE(room)
        places = [ctypes.addressof(it) for it in (source, left, target, free)]
        result = self.libc.iconv(self.handle, *places)
        failed = ctypes.get_errno() if result == FAILED else 0
        return len(data) - left.value, self.output.raw[: room - free.value], failed


def read(converter, data):
    taken, written, failed = converter.first(data, 4)
    if written:
        return "%X/%d" % (int.from_bytes(written, "big"), taken)
    return {0: "open", errno.EINVAL: "open", errno.EILSEQ: "refused"}[failed]


def write(converter, number):
    taken, written, failed = converter.first(number.to_bytes(4, "big"), 8)
    if failed == errno.EILSEQ:
        return "none"
    assert failed == 0 and taken == 4
    return written.hex().upper() or "-"


def runs(answers):
    """Joins neighbours with the same answer: (from, to, answer)."""
    joined = []
    for key, answer in answers:
        if joined and joined[-1][1] + 1 == key and joined[-1][2] == answer:
            joined[-1][1] = key
        else:
            joined.append([key, key, answer])
    return joined


def reads(name, length, strings):
    """The vectors of strings of one length, given as numbers. A run ends where the last byte
    does."""
    converter = Converter("UTF-32BE", SETS[name])
    answers = [(number, read(converter, number.to_bytes(length, "big"))) for number in strings]
    for low in sorted({number >> 8 for number, _ in answers}):
        for start, end, answer in runs([a for a in answers if a[0] >> 8 == low]):
            yield "read %s %0*X %0*X %s" % (name, 2 * length, start, 2 * length, end, answer)


def writes(name, numbers):
    converter = Converter(SETS[name], "UTF-32BE")
    for start, end, answer in runs([(number, write(converter, number)) for number in numbers]):
        yield "write %s %X %X %s" % (name, start, end, answer)


def edges():
    """The first and the last character of each length and of each row of 256."""
    rows = {256 * row + cell for row in range(0x1100) for cell in (0, 255)}
    return sorted({0x7F, 0x80, 0x7FF, 0x800} | rows)


def malformed():
    """Strings of up to four bytes at and beyond the bounds of each octet, by length."""
    leads = bytes.fromhex(
        "7F 80 BF C0 C1 C2 DF E0 E1 EC ED EE EF F0 F1 F3 F4 F5 F7 F8 FB FC FD FE FF"
    )
    seconds = bytes.fromhex("00 41 7F 80 8F 90 9F A0 BF C0 C2 FF")
    others = bytes.fromhex("41 7F 80 BF C0 FF")
    strings = {1: {(a,) for a in range(256)}}
    strings[2] = {(a, b) for a in leads for b in seconds}
    strings[3] = {(a, b, c) for a in leads for b in seconds for c in others}
    long = [a for a in leads if a >= 0xE0]
    strings[4] = {(a, b, c, d) for a in long for b in seconds for c in others[1:5] for d in others}
    return {
        length: sorted(int.from_bytes(bytes(s), "big") for s in given)
        for length, given in strings.items()
    }


def coded(number):
    """The octets of a character, by Python's own encoder; None for a surrogate."""
    if 0xD800 <= number < 0xE000:
        return None
    return chr(number).encode("utf-8")


def vectors():
    yield from reads("6937", 1, range(0x100))
    yield from reads("6937", 2, range(0x10000))
    yield from reads("8859-16", 1, range(0x100))
    yield from reads("sami", 1, range(0x100))
    for length, strings in malformed().items():
        good = {int.from_bytes(c, "big") for c in map(coded, edges()) if c and len(c) == length}
        yield from reads("utf-8", length, sorted(good | set(strings)))
    for name in ("6937", "8859-16", "sami"):
        yield from writes(name, range(0x110000))
    yield from writes("utf-8", edges())


def main():
    here, stored_for = version(), VERSION.read_text().strip() if VERSION.exists() else "none"
    other = sys.argv[1:] == ["--check"] and here != stored_for
    try:
        stored.keep(PATH, vectors(), "this system's converter gives")
    except (NoConverter, SystemExit) as told:
        if not other:
            sys.exit(str(told))
        print(
            f"{told}\ntools/vectors.py: the vectors are those of {stored_for}, and this system has "
            f"{here}; they stay as they are"
        )
        return
    if not sys.argv[1:]:
        VERSION.write_text(here + "\n")


main()
