#!/usr/bin/env python3
"""Holds recode, and the example client of the C interface, against the system's iconv on the same
texts, and prints docs/PERFORMANCE.md: instructions per byte by callgrind, megabytes per second as
the median of several runs, growth with the size, and peak memory. It stops where they do not write
the same bytes.

    make bench                        builds the programs, and prints
    bench/bench.py > docs/PERFORMANCE.md
"""
import os
import pathlib
import platform
import re
import statistics
import subprocess
import sys
import tempfile
import textwrap
import time
from typing import NamedTuple

from texts import CZECH, GERMAN, HUNGARIAN, again, text, with_parity, words

TOP = pathlib.Path(__file__).resolve().parent.parent
RECODE = str(TOP / "target/bin/recode")
CLIENT = str(TOP / "target/transcribe")
MIB = 1 << 20
RUNS = 9
SIZES = (1 << 10, 1 << 14, 1 << 17, MIB, 4 * MIB, 16 * MIB)

HEAD = """
`recode` beside glibc's `iconv`, each as its users run it: a text of 1 MiB from a file to nowhere.
`recode` goes through a transcript in sectors of 4,096 bytes. So does `examples/transcribe.c`, the
client of the [C interface](C-INTERFACE.md). Made by `make bench`; `make test` times nothing.

Machine: {machine}.

Instructions per byte are those of callgrind, without what an empty text takes; MB/s the median of
{runs} runs. The first four texts have one accent before five vowels; German, Czech and Hungarian
are common words by chance. 6937 is ISO/IEC 6937, and 8859-16 is ISO/IEC 8859-16.
"""
NOTES = """
A run of bytes that stand alone in both sets, and that were met before, goes by a table of 256. Two
bytes that code an accented letter, or three, are looked up among those that were met before. A
letter that shares its place there with another, as a capital does with its small letter, is met
anew each time the two change, and a source byte that becomes two is never kept: such texts cost
more, and so do short ones, in which much is new.

`recode` holds the whole text and what it writes in memory. The C interface keeps nothing between
calls, so in each sector it meets each byte and each coding anew. Callgrind counts each step of an
instruction that fills or copies memory, of which the C client has more.
"""


class Race(NamedTuple):
    """One text, in the form that ours read and in the form that iconv reads."""

    name: str
    source: str
    target: str
    ours: bytes
    iconv: list
    theirs: bytes


def run(command, source):
    """What a command writes."""
    ran = subprocess.run(
        command, input=source, stdout=subprocess.PIPE, stderr=subprocess.DEVNULL, check=True
    )
    return ran.stdout


def instructions(command, source):
    with tempfile.NamedTemporaryFile() as out:
        callgrind = ["valgrind", "--tool=callgrind", f"--callgrind-out-file={out.name}"]
        ran = subprocess.run(callgrind + command, input=source, capture_output=True, check=True)
    return int(re.search(rb"I\s+refs:\s+([\d,]+)", ran.stderr).group(1).replace(b",", b""))


def per_byte(command, source):
    """Instructions per byte, without what an empty text takes."""
    return (instructions(command, source) - instructions(command, b"")) / len(source)


def speed(command, file):
    """Megabytes per second, from file to nowhere, the median of the runs."""
    times = []
    for _ in range(RUNS):
        with open(file, "rb") as source:
            start = time.perf_counter()
            subprocess.run(
                command,
                stdin=source,
                stdout=subprocess.DEVNULL,
                stderr=subprocess.DEVNULL,
                check=True,
            )
            times.append(time.perf_counter() - start)
    return file.stat().st_size / statistics.median(times) / 1e6


def peak(command, file):
    """Peak memory in KiB, by GNU time: what this script itself takes must not count."""
    with open(file, "rb") as source:
        ran = subprocess.run(
            ["/usr/bin/time", "-f", "%M", *command],
            stdin=source,
            stdout=subprocess.DEVNULL,
            stderr=subprocess.PIPE,
            check=True,
        )
    return int(ran.stderr.split()[-1])


def machine():
    model = re.search(r"model name\s*: (.*)", pathlib.Path("/proc/cpuinfo").read_text())
    processor = model.group(1) if model else platform.machine()
    kit = re.search(r"rattle-kit\S* logic \S+", (TOP / "README.md").read_text()).group()
    glibc = platform.libc_ver()[1]
    system = f"{os.cpu_count()} processors, Linux {platform.release()}, glibc {glibc}"
    return f"{processor}, {system}, {kit}"


def paragraphs(prose):
    """Each paragraph filled to 100 columns."""
    return "\n\n".join(
        textwrap.fill(p, 100, break_long_words=False, break_on_hyphens=False)
        for p in prose.strip().split("\n\n")
    )


def races():
    def iconv(source, target):
        return ["iconv", "-f", source, "-t", target]

    def recoded(source, target, unicode):
        """A race on a text that is given in UTF-8."""
        names = {"1": "ISO_6937", "4": "ISO-8859-16", "6": "UTF-8"}
        given = run(iconv("UTF-8", names[source]), unicode)
        return source, target, given, iconv(names[source], names[target]), given

    accented, plain = text(MIB, b"\xc2"), text(MIB, b"")
    read = iconv("ISO_6937", "UTF-8")
    parity = with_parity(text(MIB, b"\x19\x42"))
    german, czech, hungarian = (words(MIB, w) for w in (GERMAN, CZECH, HUNGARIAN))
    return [
        Race("6937 into UTF-8, one letter in eight accented", "1", "6", accented, read, accented),
        Race("the same, plain ASCII", "1", "6", plain, read, plain),
        Race("UTF-8 into 6937, the first text", *recoded("6", "1", run(read, accented))),
        Race("form 3 (7 bits, parity) into UTF-8; iconv on the first text", "3", "6",
             parity, read, accented),
        Race("German, UTF-8 into 6937", *recoded("6", "1", german)),
        Race("German, 6937 into UTF-8", *recoded("1", "6", german)),
        Race("Czech, UTF-8 into 6937", *recoded("6", "1", czech)),
        Race("Czech, 6937 into UTF-8", *recoded("1", "6", czech)),
        Race("German, 8859-16 into 6937", *recoded("4", "1", german)),
        Race("Hungarian, 8859-16 into 6937", *recoded("4", "1", hungarian)),
        Race("`ÀàÉé` on and on, UTF-8 into 6937", *recoded("6", "1", again(MIB, "ÀàÉé"))),
    ]


def row(race, room):
    """A row of the first table."""
    recode = [RECODE, race.source, race.target]
    client = [CLIENT, race.source, race.target]
    written = run(recode, race.ours)
    same_text = race.ours == race.theirs
    if run(client, race.ours) != written or same_text and run(race.iconv, race.theirs) != written:
        sys.exit(f"{race.name}: recode, the C client and iconv do not write the same")
    ours, theirs = room / "ours", room / "theirs"
    ours.write_bytes(race.ours)
    theirs.write_bytes(race.theirs)
    a, b = per_byte(recode, race.ours), per_byte(client, race.ours)
    c = per_byte(race.iconv, race.theirs)
    d, e, f = speed(recode, ours), speed(client, ours), speed(race.iconv, theirs)
    return (
        f"| {race.name} | {a:.1f} | {b:.1f} | {c:.1f} | {a / c:.2f} "
        f"| {d:.0f} | {e:.0f} | {f:.0f} | {d / f:.2f} |"
    )


def growth(race, room):
    """The rows of the second table: the first text, cut and repeated."""
    recode = [RECODE, race.source, race.target]
    file = room / "part"
    for size in SIZES:
        part = (race.ours * (size // len(race.ours) + 1))[:size]
        part = part if part[-1] < 0x80 else part[:-1]
        file.write_bytes(part)
        yield (
            f"| {len(part):,} | {per_byte(recode, part):.1f} | {per_byte(race.iconv, part):.1f} "
            f"| {peak(recode, file):,} | {peak(race.iconv, file):,} |"
        )


def main():
    runs = races()
    print("# Performance\n")
    print(paragraphs(HEAD.format(machine=machine(), runs=RUNS)) + "\n")
    print("| text | recode, instr/byte | C client | iconv | recode / iconv "
          "| recode, MB/s | C client | iconv | recode / iconv |")
    print("|---|---|---|---|---|---|---|---|---|")
    with tempfile.TemporaryDirectory() as name:
        room = pathlib.Path(name)
        for race in runs:
            print(row(race, room), flush=True)
        print("\nHow the cost grows, on the first text:\n")
        print("| bytes | recode, instr/byte | iconv | recode, peak KiB | iconv |")
        print("|---|---|---|---|---|")
        for line in growth(runs[0], room):
            print(line, flush=True)
    print("\n" + paragraphs(NOTES))


if __name__ == "__main__":
    main()
