"""Answers the cases of a file with the reading of this copy: one answer a case, each with its size."""

import struct
import sys
from pathlib import Path

from . import reading
from .formats import KINDS, Case, decode, encode, split_answers
from .reading.trajectory import TooLong

NAMES = {kind.number: name for name, kind in KINDS.items()}


def answer(data: bytes) -> bytes:
    """All that the call leaves, or the values of an operation; a word where there is no answer."""
    kind = NAMES[data[0]]
    case = Case(kind, decode(KINDS[kind].inputs, data[2:]))
    try:
        refusal, values = reading.answer(case)
        if KINDS[kind].exit is None:
            return encode(KINDS[kind].values, values)
        return encode(KINDS[kind].exit, reading.at_exit(case, refusal, values))
    except TooLong:
        return b"too long"
    except Exception as error:  # a faulty reading may fail in any way
        return f"failed: {error!r}".encode()


def main() -> None:
    for data in split_answers(Path(sys.argv[1]).read_bytes()):
        given = answer(data)
        sys.stdout.buffer.write(struct.pack("<I", len(given)) + given)


if __name__ == "__main__":
    main()
