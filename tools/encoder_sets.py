#!/usr/bin/env python3
"""Prints the parameter sets of an ordinary encoder, x265, as hex payloads beside the settings that they came from.

It is skipped, with status 0, where x265 is missing (Debian: apt-get install x265). With --fields the fields that
ffmpeg's trace_headers reads from each are printed too (Debian: apt-get install ffmpeg): expected values of tests come
from there. The few payloads that the tests hold were made by this script.

usage: tools/encoder_sets.py [--fields]
"""
import re
import shutil
import subprocess
import sys
import tempfile

SETTINGS = (
    ("plain", ""),
    ("vui", "--sar 16:11 --overscan show --videoformat pal --range full --colorprim bt709 --transfer bt709"
            " --colormatrix bt709 --chromaloc 1 --display-window 2,0,4,0"),
    ("hrd", "--hrd --vbv-bufsize 1000 --vbv-maxrate 1000 --bitrate 900 --temporal-layers"),
    ("tools", "--scaling-list default --tskip --weightb --deblock 1:-2 --cbqpoffs 2 --crqpoffs -3 --no-wpp --ctu 16"
              " --max-merge 2 --constrained-intra --strong-intra-smoothing --amp --rect"),
)
NAMES = {32: "vps", 33: "sps", 34: "pps"}


def payload(unit):
    """The bytes of a unit behind its head, less the emulation prevention bytes."""
    return re.sub(b"\0\0\3", b"\0\0", unit[2:])


def main():
    if not shutil.which("x265"):
        print("skipped: x265 is missing", file=sys.stderr)
        return
    fields = "--fields" in sys.argv[1:]
    with tempfile.TemporaryDirectory() as folder:
        with open(f"{folder}/in.yuv", "wb") as out:
            for frame in range(4):
                out.write(bytes((x * 3 + frame * 7) % 256 for x in range(64 * 64 * 3 // 2)))
        for name, words in SETTINGS:
            subprocess.run(
                ["x265", "--input", f"{folder}/in.yuv", "--input-res", "64x64", "--fps", "25", "--no-info",
                 "--log-level", "none", "--output", f"{folder}/out.h265", *words.split()],
                check=True, stdout=subprocess.DEVNULL, stderr=subprocess.DEVNULL)
            with open(f"{folder}/out.h265", "rb") as made:
                units = [unit.rstrip(b"\0") for unit in made.read().split(b"\0\0\1")[1:]]
            print(f"{name}: {words or '(defaults)'}")
            for unit in units:
                kind = unit[0] >> 1
                if kind in NAMES:
                    print(f"  {NAMES[kind]} {payload(unit).hex(' ').upper()}")
            if fields:
                trace = subprocess.run(
                    ["ffmpeg", "-v", "trace", "-i", f"{folder}/out.h265", "-c", "copy", "-bsf:v", "trace_headers",
                     "-f", "null", "-"], capture_output=True, text=True).stderr
                for line in trace.split("\n"):
                    match = re.search(r"trace_headers.*\] (\d+ +\S+ +[01]+ = -?\d+|.*Parameter Set.*)", line)
                    if match:
                        print("    " + match.group(1))


main()
