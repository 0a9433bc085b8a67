#!/usr/bin/env python3
"""Times finetalc on rolls of up to 65,536 bytes that this script makes, and prints a table. A
benchmark, no test.

    bench/speed.py          the median of 31 runs each, start to end
"""
import pathlib
import statistics
import subprocess
import time

from texts import text, with_parity

PROGRAM = pathlib.Path(__file__).resolve().parent.parent / "target/bin/finetalc"
LONGEST = 65_536


def packed(pages):
    """A roll of pages, each a form and its bytes."""
    index, offset = b"", 0
    for form, page in pages:
        index += offset.to_bytes(4, "big") + len(page).to_bytes(4, "big") + bytes([form, 0, 0, 0])
        offset += len(page)
    total = offset.to_bytes(4, "big")
    trailer = total + len(pages).to_bytes(4, "big") + total + b"ROLL"
    return b"".join(page for _, page in pages) + index + trailer


def main():
    one = LONGEST - 28
    shifted = text(one, b"\x19\x42")
    rolls = {
        "form 1": packed([(1, text(one, b"\xc2"))]),
        "form 2": packed([(2, shifted)]),
        "form 3": packed([(3, with_parity(shifted))]),
        "form 7": packed([(7, text(one, b""))]),
        "1,024 pages": packed([(1, text(50, b"\xc2")) for _ in range(1024)]),
    }
    print("roll          bytes   median ms")
    for name, roll in rolls.items():
        times = []
        for _ in range(31):
            start = time.perf_counter()
            subprocess.run([PROGRAM], input=roll, stdout=subprocess.DEVNULL, check=True)
            times.append(time.perf_counter() - start)
        print(f"{name:12} {len(roll):6} {statistics.median(times) * 1000:11.1f}")


if __name__ == "__main__":
    main()
