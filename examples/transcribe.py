#!/usr/bin/env python3
"""From one form of text into another, from standard input to standard output: transcribe.py SOURCE
TARGET, each a number from 1 to 7.

It calls target/lib/libfinetalc.so, which `make example` builds."""
import ctypes
import pathlib
import sys
from ctypes import byref, c_bool, c_size_t, c_uint8, c_uint32, c_uint64

TOP = pathlib.Path(__file__).resolve().parent.parent
LIBRARY = ctypes.CDLL(str(TOP / "target/lib/libfinetalc.so"))
FORMS = range(1, 8)
LONGEST_SECTOR = 4096
LONGEST_OUTPUT = 65536


class Answer(ctypes.Structure):
    """struct finetalc_answer"""

    _fields_ = [
        ("offset", c_uint64),
        ("taken", c_size_t),
        ("written", c_size_t),
        ("character", c_uint32),
        ("number", c_uint8),
        ("standing", c_uint8),
        ("cause", c_uint8),
        ("depth", c_uint8),
    ]


class Progress(ctypes.Structure):
    """struct finetalc_progress"""

    _fields_ = [
        ("fault", Answer),
        ("taken", c_uint64),
        ("characters", c_uint64),
        ("written", c_uint64),
        ("held", c_size_t),
        ("state", c_uint32),
    ]


class Record(ctypes.Structure):
    """struct finetalc_transcript"""

    _fields_ = [
        ("progress", Progress),
        ("source", c_uint8),
        ("target", c_uint8),
        ("held_bytes", c_uint8 * 4),
    ]


RECORD, ANSWER = ctypes.POINTER(Record), ctypes.POINTER(Answer)
BYTES = [ctypes.c_char_p, c_size_t]
LIBRARY.finetalc_open.argtypes = [c_uint32, c_uint32, RECORD, ANSWER]
LIBRARY.finetalc_offer.argtypes = [RECORD, *BYTES, *BYTES, ANSWER]
LIBRARY.finetalc_close.argtypes = [RECORD, ANSWER]
for call in (LIBRARY.finetalc_open, LIBRARY.finetalc_offer, LIBRARY.finetalc_close):
    call.restype = c_bool


class Refused(Exception):
    """A call was refused: `answer` says why."""

    def __init__(self, answer):
        place = f" at offset {answer.offset}" if answer.number in (6, 7, 9) else ""
        what = f": no coding for U+{answer.character:04X}" if answer.number == 7 else ""
        cause = f", cause {answer.cause}, depth {answer.depth}" if answer.cause else ""
        super().__init__(f"refused {answer.number}{place}{what}{cause}")
        self.answer = answer


class Transcript:
    """A transcript from one form of text into another."""

    def __init__(self, source, target):
        if source not in FORMS or target not in FORMS:
            raise ValueError("a form is a number from 1 to 7")
        self.record = Record()
        self.answer = Answer()
        self.output = ctypes.create_string_buffer(LONGEST_OUTPUT)
        self.check(LIBRARY.finetalc_open(source, target, byref(self.record), byref(self.answer)))

    def check(self, done):
        if not done:
            raise Refused(self.answer)

    def offer(self, sector):
        """The text of a sector of up to 4,096 bytes, which always fits into the output, and whether
        that is all of it: not at a fault."""
        record, answer = byref(self.record), byref(self.answer)
        done = LIBRARY.finetalc_offer(
            record, sector, len(sector), self.output, LONGEST_OUTPUT, answer
        )
        written = 0 if self.answer.number == 4 else self.answer.written
        return self.output.raw[:written], done

    def close(self):
        """Refused where a fault stands, or where the source ends in bytes that wait for more."""
        self.check(LIBRARY.finetalc_close(byref(self.record), byref(self.answer)))


def main(source, target):
    transcript = Transcript(int(source), int(target))
    while sector := sys.stdin.buffer.read(LONGEST_SECTOR):
        text, done = transcript.offer(sector)
        sys.stdout.buffer.write(text)
        sys.stdout.buffer.flush()
        transcript.check(done)
    transcript.close()
    progress = transcript.record.progress
    print(f"{progress.taken} bytes, {progress.characters} characters", file=sys.stderr)


if __name__ == "__main__":
    if len(sys.argv) != 3:
        sys.exit(__doc__)
    try:
        main(*sys.argv[1:])
    except (Refused, ValueError) as error:
        sys.exit(f"transcribe.py: {error}")
