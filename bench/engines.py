#!/usr/bin/env python3
"""Measures the commands of mv_cli, as built here or else as dist/ has it, on streams that it makes itself, beside `cat`.

Streams: the stream of two views again and again, its slice data filled up to large units (900 KB), middle ones (250 KB) and
small ones (90 bytes), with four-byte start codes; `unpack` is given the same units in the length-prefixed form. For each command and stream it prints MB/s and the ratio to
`cat`, to nothing and to a pipe, the best of some runs; with --gigabyte the memory that each command takes at most on a
stream of a gigabyte, and whether `pack | unpack` gives a gigabyte of framed units back, for which it ends with 1 where it
doesn't; and where an `ffmpeg` is on the PATH, what its copy of the same stream takes beside `extract`. Aims: 0.4 of `cat` for `check` and 0.35 for the others to nothing on large units; 600,000 units a second for `check`
and 400 MB/s for `pack` and `unpack` on small ones.

usage: bench/engines.py [--size MB] [--runs N] [--gigabyte] [COMMAND..]
"""
import argparse
import os
import random
import re
import shutil
import subprocess
import sys
import tempfile
import time

HERE = os.path.dirname(os.path.dirname(os.path.abspath(__file__)))
BUILD = os.path.join(HERE, "crates", "mv_cli", "out", "mv_cli")
PROGRAM = BUILD if os.path.exists(BUILD) else os.path.join(HERE, "dist", "mv_cli")
COMMANDS = {"extract": ("extract", "1"), "check": ("check",), "pack": ("pack",), "unpack": ("unpack",)}
COPY = ("-v", "error", "-f", "hevc", "-i", "pipe:0", "-c", "copy", "-f", "hevc", "pipe:1")
KINDS = (("large", 900_000), ("middle", 250_000), ("small", 90))


def filled(unit, size, seed):
    """A unit with slice data up to a size, that hold no start code and need no emulation prevention; others as they are."""
    if unit[0] >> 1 > 31 or len(unit) >= size:
        return unit
    draw = random.Random(seed)
    data = bytes(draw.randrange(1, 256) if draw.randrange(64) else 0 for _ in range(min(size, 65_521)))
    while b"\0\0" in data:
        data = data.replace(b"\0\0", b"\0\1")
    data = (data * (size // len(data) + 1))[: size - len(unit) - 1].replace(b"\0\0", b"\0\1")
    return unit + b"\xA5" + data[1:] + b"\x80"


def stream(path, size, total, command):
    """Writes the two views again and again up to a total of bytes, in the form that the command takes; how many, and how many units."""
    with open(os.path.join(HERE, "samples", "two_view.h265"), "rb") as source:
        views = [one.rstrip(b"\0") for one in re.split(b"\0\0\1", source.read())[1:]]
    units = [filled(one, size, 16 * turn + at) for turn in range(max(1, min(16, 4_000_000 // size))) for at, one in enumerate(views)]
    if command == "unpack":
        block = b"".join(len(one).to_bytes(4, "big") + one for one in units)
    else:
        block = b"".join(b"\0\0\0\1" + one for one in units)
    times = max(1, total // len(block))
    with open(path, "wb") as out:
        for _ in range(times):
            out.write(block)
    return times * len(block), times * len(units)


def seconds(words, path, to_pipe):
    """The time of one run, its output thrown away or read through a pipe."""
    with open(path, "rb") as source:
        start = time.perf_counter()
        if to_pipe:
            run = subprocess.Popen(words, stdin=source, stdout=subprocess.PIPE)
            sink = subprocess.Popen(["cat"], stdin=run.stdout, stdout=subprocess.DEVNULL)
            run.stdout.close()
            sink.wait()
            status = run.wait()
        else:
            status = subprocess.run(words, stdin=source, stdout=subprocess.DEVNULL).returncode
        spent = time.perf_counter() - start
    if status != 0:
        sys.exit(f"{words[0]} ended with status {status}")
    return spent


def most_memory(words, path):
    """The greatest memory of one run in KiB, as the system tells it while the run goes on."""
    most = 0
    with open(path, "rb") as source:
        run = subprocess.Popen(words, stdin=source, stdout=subprocess.DEVNULL)
        while run.poll() is None:
            try:
                with open(f"/proc/{run.pid}/status") as status:
                    rows = [line.split() for line in status if line.startswith("VmHWM")]
                most = max([most] + [int(row[1]) for row in rows])
            except OSError:
                pass
    return most


def measure(command, path, asked):
    """Prints the figures of one command."""
    words = [PROGRAM, *COMMANDS[command]]
    for name, size in KINDS:
        total, count = stream(path, size, asked.size * 1_000_000, command)
        for where, to_pipe in (("nothing", False), ("a pipe", True)):
            ours = min(seconds(words, path, to_pipe) for _ in range(asked.runs))
            cat = min(seconds(["cat"], path, to_pipe) for _ in range(asked.runs))
            print(f"{command:8}{name:7} to {where:8} {total / ours / 1e6:8.0f} MB/s   {cat / ours:5.2f} of cat {count / ours:12,.0f} units/s", flush=True)
        if command == "extract" and shutil.which("ffmpeg"):
            ours, peer = (min(seconds(one, path, False) for _ in range(2)) for one in (words, ["ffmpeg", *COPY]))
            print(f"{'ffmpeg':8}{name:7} to nothing  {total / peer / 1e6:8.0f} MB/s   {command} is {peer / ours:.1f} times as fast", flush=True)
    if asked.gigabyte:
        stream(path, 900_000, 1_000_000_000, command)
        most = most_memory(words, path)
        print(f"{command:8}at most {most / 1024:.1f} MiB of memory on a stream of a gigabyte, in units of 0.9 MB")


def goes_round(path):
    """Whether `pack | unpack` gives each stream of a gigabyte of framed units back, large and small ones."""
    same = True
    for name, size in (KINDS[0], KINDS[2]):
        total = stream(path, size, 1_000_000_000, "pack")[0]
        start = time.perf_counter()
        with open(path, "rb") as source:
            pack = subprocess.Popen([PROGRAM, "pack"], stdin=source, stdout=subprocess.PIPE)
            unpack = subprocess.Popen([PROGRAM, "unpack"], stdin=pack.stdout, stdout=subprocess.PIPE)
            compare = subprocess.Popen(["cmp", "-", path], stdin=unpack.stdout)
            pack.stdout.close()
            unpack.stdout.close()
            statuses = (compare.wait(), unpack.wait(), pack.wait())
        spent = time.perf_counter() - start
        print(f"pack | unpack of {total:,} bytes in {name} units: statuses {statuses}, {total / spent / 1e6:.0f} MB/s with cmp", flush=True)
        same = same and statuses == (0, 0, 0)
    return same


def main():
    parser = argparse.ArgumentParser(description=__doc__.split("\n")[0])
    parser.add_argument("--size", type=int, default=200, help="megabytes a stream")
    parser.add_argument("--runs", type=int, default=5)
    parser.add_argument("--gigabyte", action="store_true", help="also the memory on a gigabyte, and pack | unpack")
    parser.add_argument("commands", nargs="*", metavar="COMMAND", help="some of: " + ", ".join(COMMANDS))
    asked = parser.parse_args()
    if any(command not in COMMANDS for command in asked.commands):
        parser.error("the commands are " + ", ".join(COMMANDS))
    if not os.access(PROGRAM, os.X_OK):
        sys.exit("build the program first: tools/build")
    with tempfile.TemporaryDirectory() as folder:
        for command in asked.commands or COMMANDS:
            measure(command, os.path.join(folder, "stream"), asked)
        if asked.gigabyte and not goes_round(os.path.join(folder, "stream")):
            sys.exit(1)


if __name__ == "__main__":
    main()
