#!/usr/bin/env python3
"""Measures the worst streams in time: `check` and `extract 0` on streams that are made to be slow.

It makes streams of some megabytes: a parameter set at its limits before each access unit (tails of zeros, short-term sets each
predicted from the one before, all scaling lists, tiles), a video parameter set at its limits that changes before each sequence,
63 layers that refer to all below them, 600 segments a picture, picture parameter sets of each id in turn, units of two bytes and
strays; runs the program, as built here or else as dist/ has it, on each at two lengths; and prints the answer, MB/s, and how much
longer the run of four times the bytes takes. Ends with 1 where a stream is under 2 MB/s, or takes six times as long or more.

usage: bench/worst.py [--size MB] [NAME..]     names begin with the words given
"""
import argparse
import os
import re
import subprocess
import sys
import tempfile
import time

import engines
from headers import (
    Bits, pps_tail, pps_tiles, profile, sps_lists, sps_sets, sps_tail, vps_hrds, vps_layer_sets, vps_layers,
)

HERE = os.path.dirname(os.path.dirname(os.path.abspath(__file__)))
VPS, SPS, PPS, IDR, TRAIL = 32, 33, 34, 19, 1
LEAST = 2.0


def escaped(payload):
    """The payload with emulation prevention bytes."""
    out, zeros = bytearray(), 0
    for byte in payload:
        if zeros >= 2 and byte <= 3:
            out.append(3)
            zeros = 0
        out.append(byte)
        zeros = zeros + 1 if byte == 0 else 0
    return bytes(out)


def unit(kind, payload, layer=0):
    return b"\0\0\0\1" + bytes((kind << 1 | layer >> 5, (layer & 31) << 3 | 1)) + escaped(payload)


def views():
    """The units of the stream of two views: five parameter sets, two pictures that start, and two that refer to these."""
    with open(os.path.join(HERE, "samples", "two_view.h265"), "rb") as source:
        return [b"\0\0\0\1" + one.rstrip(b"\0") for one in re.split(b"\0\0\1", source.read())[1:]]


def with_set(kind, payload):
    """The two views, with this parameter set, which serves none of them, before each access unit."""
    all_units, one = views(), unit(kind, payload)
    return b"".join(all_units[:5]), b"".join(one + b"".join(all_units[at : at + 2]) for at in (5, 7))


def sps(width, height, number=0):
    b = Bits()
    b.u(4, 0).u(3, 0).u(1, 1)
    profile(b, 0)
    b.ue(number).ue(1).ue(width).ue(height).u(1, 0).ue(0).ue(0).ue(0).u(1, 1).ue(15).ue(0).ue(0)
    b.ue(0).ue(1).ue(0).ue(2).ue(0).ue(0).u(1, 0).u(1, 0).u(1, 0).u(1, 0).ue(0).u(1, 0).u(1, 0).u(1, 0).u(1, 0).u(1, 0)
    return b.payload()


def pps(number=0, dependent=0):
    b = Bits()
    b.ue(number).ue(0).u(1, dependent).u(1, 0).u(3, 0).u(1, 0).u(1, 0).ue(0).ue(0).se(0).u(3, 0).se(0).se(0).u(6, 0).u(2, 0)
    b.u(1, 0).u(1, 0).ue(0).u(1, 0).u(1, 0)
    return b.payload()


def base_vps():
    return views()[0]


def intra(number=0, first=True, address=0, bits=0, kind=IDR, layer=0):
    """A slice segment of an IDR picture of slice type I; in a layer above 0 it refers to no layer below."""
    b = Bits()
    b.u(1, 1 if first else 0).u(1, 0).ue(number)
    if not first:
        b.u(bits, address)
    b.ue(2).se(0)
    return unit(kind, b.payload() + b"\x5A", layer)


def segments():
    """A picture of 600 segments, again and again."""
    front = base_vps() + unit(SPS, sps(512, 512)) + unit(PPS, pps())
    bits = (32 * 32 - 1).bit_length()
    return front, b"".join(intra(first=k == 0, address=k, bits=bits) for k in range(600))


def each_pps():
    """64 picture parameter sets, each named by a picture in turn."""
    front = base_vps() + unit(SPS, sps(64, 64))
    return front, b"".join(unit(PPS, pps(k)) for k in range(64)) + b"".join(intra(k) for k in range(64))


def changes(spell):
    """A video parameter set at its limits that changes before each sequence: it and a plain one take turns."""
    rest = unit(SPS, sps(64, 64)) + unit(PPS, pps()) + intra()
    return b"", unit(VPS, spell()) + rest + base_vps() + rest


def layered():
    """Access units with a picture in each of 63 layers, where each layer may refer to all below it."""
    front = unit(VPS, vps_layers()) + unit(SPS, sps(64, 64)) + unit(PPS, pps())
    return front, b"".join(layer_picture(n) for n in range(63))


def layer_picture(layer):
    """An IDR picture of a layer of the 63, of slice type I: all layers below are active for it."""
    b = Bits()
    b.u(1, 1).u(1, 0).ue(0).ue(2)
    if layer:
        b.u(4, 0)
    return unit(IDR, b.se(0).payload() + b"\x5A", layer)


STREAMS = {
    "an SPS with a tail of zeros": lambda: with_set(SPS, sps_tail(9)),
    "an SPS of 64 predicted sets": lambda: with_set(SPS, sps_sets(9)),
    "an SPS of all scaling lists": lambda: with_set(SPS, sps_lists(9)),
    "a PPS with a tail of zeros": lambda: with_set(PPS, pps_tail(9)),
    "a PPS of all tiles": lambda: with_set(PPS, pps_tiles(9)),
    "a VPS of 1,024 layer sets that changes": lambda: changes(vps_layer_sets),
    "a VPS of 1,024 HRDs that changes": lambda: changes(vps_hrds),
    "a VPS of 63 layers that changes": lambda: changes(vps_layers),
    "63 layers in each access unit": layered,
    "600 segments a picture": segments,
    "64 picture parameter sets in turn": each_pps,
    "units of two bytes": lambda: (b"".join(views()), b"\0\0\1\x46\x01" * 1000),
    "strays of two bytes": lambda: (b"".join(views()), b"\0\0\1\x46\x51" * 1000),
    "ends of sequences": lambda: (b"".join(views()[:5]), b"".join(views()[5:7]) + b"\0\0\1\x48\x01"),
}


def measure(name, path, size):
    """Prints the figures of one stream; whether it is fast enough, and linear."""
    front, block = STREAMS[name]()
    times = []
    for part in (size // 4, size):
        count = max(1, part // len(block))
        with open(path, "wb") as out:
            out.write(front + block * count)
        total = len(front) + count * len(block)
        for words in (("check",), ("extract", "0")):
            with open(path, "rb") as source:
                start = time.perf_counter()
                done = subprocess.run([engines.PROGRAM, *words], stdin=source, stdout=subprocess.PIPE if words == ("check",) else subprocess.DEVNULL, stderr=subprocess.PIPE)
                times.append((time.perf_counter() - start, total))
            if words == ("check",):
                said = (done.stdout or done.stderr).decode().strip()
    rates = [total / spent / 1e6 for spent, total in times[2:]]
    grew = (times[2][0] / times[0][0]) / (times[2][1] / times[0][1])
    print(f"{name:42}check {rates[0]:7.1f} MB/s   extract {rates[1]:7.1f} MB/s   {grew:4.2f} times as long a byte   {said[:60]}", flush=True)
    return min(rates) >= LEAST and grew < 1.5


def main():
    parser = argparse.ArgumentParser(description=__doc__.split("\n")[0])
    parser.add_argument("--size", type=float, default=8, help="megabytes a stream")
    parser.add_argument("names", nargs="*", metavar="NAME")
    asked = parser.parse_args()
    chosen = [name for name in STREAMS if not asked.names or any(name.startswith(one) for one in asked.names)]
    with tempfile.TemporaryDirectory() as folder:
        good = [measure(name, os.path.join(folder, "stream"), int(asked.size * 1e6)) for name in chosen]
    sys.exit(0 if good and all(good) else 1)


if __name__ == "__main__":
    main()
