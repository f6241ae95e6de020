#!/usr/bin/env python3
"""Tries units at the limit of their length on the built program: 16,777,216 bytes are taken, one more is refused.

They stand behind a stream of two views. Too long for a test inside the gate. Prints a line a case and ends with 1 where
one fails.
"""
import os
import re
import subprocess
import sys

HERE = os.path.dirname(os.path.dirname(os.path.abspath(__file__)))
LONGEST = 16_777_216


def unit(length):
    """A unit of layer 0 of a reserved type, 41, which is read no further than its head, with that many bytes."""
    return bytes((0x52, 1)) + b"\xAA" * (length - 2)


def framed_sample():
    """The units of the stream of two views, each behind a start code of four bytes, and how many they are."""
    with open(f"{HERE}/samples/two_view.h265", "rb") as stream:
        units = [one.rstrip(b"\0") for one in re.split(b"\0\0\1", stream.read())[1:]]
    return b"".join(b"\0\0\0\1" + one for one in units), len(units)


def case(name, stream, status, line, output):
    run = subprocess.run([f"{HERE}/mv_cli", "extract", "1"], input=stream, capture_output=True)
    good = (run.returncode, run.stderr.decode(), run.stdout) == (status, line, output)
    print(f"{'passed' if good else 'FAILED'}: {name}")
    if not good:
        print(f"  status {run.returncode}, {len(run.stdout)} bytes written, on standard error: {run.stderr.decode()!r}")
    return good


def main():
    first, count = framed_sample()
    most = b"\0\0\0\1" + unit(LONGEST)
    over = b"\0\0\0\1" + unit(LONGEST + 1)
    refused = f"refused: unit {count} at byte {len(first) + 4}: rule 4 Long\n"
    results = (
        case("a unit of 16,777,216 bytes is taken", first + most, 0, "", first + most),
        case("zero bytes behind it don't count", first + most + b"\0\0\0", 0, "", first + most),
        case("a unit of a byte more is refused", first + over, 1, refused, first),
        case("the refusal comes before what follows", first + over + most, 1, refused, first),
    )
    sys.exit(0 if all(results) else 1)


main()
