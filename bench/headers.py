#!/usr/bin/env python3
"""Measures how long the worst parameter sets take to read, to write and to show.

It spells payloads at their limits, field by field (tails of zeros, short-term sets each predicted from the one before, all
scaling lists, 1,024 layer sets, 1,024 HRDs, 63 layers with 64 output layer sets and every reference), makes a program in a
folder of its own that reads such a payload from the standard input and reads it again, writes it or shows it in a loop; proves
and builds it over this repository's crates; and prints for each payload its size, and the time and the bytes a second of each
of the three. The first run takes some minutes, since it proves; the folder's name is then printed, and --folder uses it again.

usage: bench/headers.py [--folder FOLDER]
"""
import argparse
import os
import resource
import shutil
import subprocess
import sys
import tempfile

HERE = os.path.dirname(os.path.dirname(os.path.abspath(__file__)))
CRATES = (
    "mv_rules", "mv_io", "mv_syntax", "mv_bits", "mv_fields", "mv_common", "mv_short_sets", "mv_layers", "mv_pps", "mv_sps",
    "mv_vpslayers", "mv_vpssets", "mv_vpsext", "mv_vps",
)
MOST = 65_536

# The program's input: the kind of set (V, S or P), what is done in each turn (r, w or s), the number of turns in four
# digits, and the payload.
PROGRAM = """//! Reads a parameter set in a loop, and writes or shows it.
#![tactic(auto)]

ghost use Rattle.std.specs.Prelude.{◌≤◌};
ghost use Rattle.mv_syntax.specs.Payload.{ValidPayload};
ghost use Rattle.mv_pps.specs.Pps.{pps};
ghost use Rattle.mv_sps.specs.Sps.{sps_payload};
ghost use Rattle.mv_vps.specs.Vps.{ValidVps};

use mv_fields::Printer;
use mv_io::{Source, StdSource};
use mv_pps::{Pps, read_pps, show_pps, write_pps};
use mv_sps::{Sps, read_sps, show_sps, write_sps};
use mv_vps::{Vps, read_vps, show_vps, write_vps};
use std::alloc::{AllocError, Global};
use std::process::ExitCode;

fn is(word: &[u8], k: usize, letter: u8) -> bool {
    match word.get(k) {
        Some(byte) => *byte == letter,
        None => false,
    }
}

fn digit(word: &[u8], k: usize) -> u32
    ensures { result ≤ 255 }
{
    match word.get(k) {
        Some(byte) => u32::from(byte.wrapping_sub(48)),
        None => 0,
    }
}

fn length_of(written: Result<Vec<u8>, AllocError>) -> Option<u64> {
    match written {
        Ok(bytes) => Some(bytes.len() as u64),
        Err(_) => None,
    }
}

// What is done with a set that was read: each is lent here, so that one function owns it and leaves it once.
fn vps_told(alloc: Global, value: &Vps, action: &[u8], out: &mut Printer) -> Option<u64>
    requires { ValidVps value.now }
{
    if is(action, 1, 119) {
        return length_of(write_vps(alloc, value));
    }
    if is(action, 1, 115) {
        *out = Printer::lines(alloc);
        return match show_vps(out, value) {
            Ok(_) => Some(out.text().len() as u64),
            Err(_) => None,
        };
    }
    Some(1)
}

fn vps_turn(alloc: Global, payload: &[u8], action: &[u8], out: &mut Printer) -> Option<u64> {
    match read_vps(alloc, payload) {
        Ok(value) => vps_told(alloc, &value, action, out),
        Err(_) => None,
    }
}

fn sps_told(alloc: Global, value: &Sps, action: &[u8], out: &mut Printer) -> Option<u64>
    requires { ValidPayload (sps_payload 0 0) value.now }
{
    if is(action, 1, 119) {
        return length_of(write_sps(alloc, 0, 0, value));
    }
    if is(action, 1, 115) {
        *out = Printer::lines(alloc);
        return match show_sps(out, 0, 0, value) {
            Ok(_) => Some(out.text().len() as u64),
            Err(_) => None,
        };
    }
    Some(1)
}

fn sps_turn(alloc: Global, payload: &[u8], action: &[u8], out: &mut Printer) -> Option<u64> {
    match read_sps(alloc, 0, 0, payload) {
        Ok(value) => sps_told(alloc, &value, action, out),
        Err(_) => None,
    }
}

fn pps_told(alloc: Global, value: &Pps, action: &[u8], out: &mut Printer) -> Option<u64>
    requires { ValidPayload pps value.now }
{
    if is(action, 1, 119) {
        return length_of(write_pps(alloc, value));
    }
    if is(action, 1, 115) {
        *out = Printer::lines(alloc);
        return match show_pps(out, value) {
            Ok(_) => Some(out.text().len() as u64),
            Err(_) => None,
        };
    }
    Some(1)
}

fn pps_turn(alloc: Global, payload: &[u8], action: &[u8], out: &mut Printer) -> Option<u64> {
    match read_pps(alloc, payload) {
        Ok(value) => pps_told(alloc, &value, action, out),
        Err(_) => None,
    }
}

fn turn(alloc: Global, input: &[u8], out: &mut Printer) -> Option<u64> {
    let payload = input.get(6..)?;
    if is(input, 0, 86) {
        return vps_turn(alloc, payload, input, out);
    }
    if is(input, 0, 83) {
        return sps_turn(alloc, payload, input, out);
    }
    pps_turn(alloc, payload, input, out)
}

fn turns(alloc: Global, input: &[u8]) -> Option<u64> {
    let count = digit(input, 2) * 1000 + digit(input, 3) * 100 + digit(input, 4) * 10 + digit(input, 5);
    let mut out = Printer::lines(alloc);
    let mut sum = 0u64;
    for _ in 0..count {
        sum = sum.wrapping_add(turn(alloc, input, &mut out)?);
    }
    Some(sum)
}

fn whole<S: Source>(alloc: Global, source: &mut S) -> Option<Vec<u8>> {
    let mut all = Vec::new(alloc);
    let mut piece = [0u8; 65536];
    for _ in 0..64 {
        let n = source.read(&mut piece).ok()?;
        if n == 0 {
            return Some(all);
        }
        all.extend_from_slice(piece.get(..n)?).ok()?;
    }
    Some(all)
}

fn main(rt: HostRuntime) -> ExitCode {
    let alloc = rt.alloc();
    let mut source = StdSource::new(&rt);
    match whole(alloc, &mut source) {
        Some(input) => match turns(alloc, &input) {
            Some(_) => ExitCode::SUCCESS,
            None => ExitCode::from(1),
        },
        None => ExitCode::from(2),
    }
}
"""


class Bits:
    """Fields written one behind the other."""

    def __init__(self):
        self.text = []

    def u(self, n, value):
        self.text.append(format(value, f"0{n}b") if n else "")
        return self

    def ue(self, value):
        length = (value + 1).bit_length()
        return self.u(length - 1, 0).u(length, value + 1)

    def se(self, value):
        return self.ue(2 * value - 1 if value > 0 else -2 * value)

    def raw(self, text):
        self.text.append(text)
        return self

    def aligned(self, bit):
        spelled = "".join(self.text)
        self.text = [spelled + str(bit) * (-len(spelled) % 8)]
        return self

    def payload(self):
        """The bytes, with the trailing bits."""
        spelled = "".join(self.text) + "1"
        spelled += "0" * (-len(spelled) % 8)
        return int(spelled, 2).to_bytes(len(spelled) // 8, "big")

    def with_tail(self):
        """The bytes with a tail of zeros up to the greatest size."""
        spelled = "".join(self.text)
        spelled += "0" * (8 * MOST - 1 - len(spelled) - 7) + "1"
        spelled += "0" * (-len(spelled) % 8)
        return int(spelled, 2).to_bytes(len(spelled) // 8, "big")


def profile(b, subs, present=True):
    """profile_tier_level, with no profile of a sub-layer."""
    if present:
        b.u(8, 1).u(32, 0x60000000).u(48, 0)
    b.u(8, 93)
    if subs:
        b.u(2 * subs, 0).u(2 * (8 - subs), 0)


def hrd(b, subs, cpbs):
    """hrd_parameters with NAL and VCL buffers of each sub-layer."""
    b.u(2, 3).u(1, 0).u(4, 0).u(4, 0).u(5, 23).u(5, 23).u(5, 23)
    hrd_sub_layers(b, subs, cpbs)


def hrd_sub_layers(b, subs, cpbs):
    for _ in range(subs + 1):
        b.u(1, 1).ue(0).ue(cpbs - 1)
        for _ in range(2 * cpbs):
            b.ue(0).ue(0).u(1, 0)


def sps_front(b, subs=0, number=0):
    b.u(4, 0).u(3, subs).u(1, 1)
    profile(b, subs)
    b.ue(number).ue(1).ue(64).ue(64).u(1, 0).ue(0).ue(0).ue(4)
    b.u(1, 1)
    for _ in range(subs + 1):
        b.ue(3).ue(2).ue(0)
    for _ in range(6):
        b.ue(0)


def scaling_lists(b):
    for s in range(4):
        for _ in range(0, 6, 3 if s == 3 else 1):
            b.u(1, 1)
            if s > 1:
                b.se(8)
            for k in range(min(64, 1 << (4 + 2 * s))):
                b.se(100 if k % 2 else -100)


def sps_end(b, extension=False):
    b.u(1, 0).u(1, 0).u(1, 0).u(1, 0)
    b.u(1, 1 if extension else 0)
    if extension:
        b.u(8, 1)


def sps_tail(number=0):
    b = Bits()
    sps_front(b, number=number)
    b.u(1, 0).u(1, 0).u(1, 0).u(1, 0).ue(0)
    sps_end(b, extension=True)
    return b.with_tail()


def sps_sets(number=0):
    """64 short-term sets of 16 pictures: the first spelled out, each other predicted from the one before."""
    b = Bits()
    sps_front(b, number=number)
    b.u(1, 0).u(1, 0).u(1, 0).u(1, 0).ue(64)
    b.ue(8).ue(8)
    for _ in range(16):
        b.ue(1).u(1, 1)
    for i in range(63):
        b.u(1, 1).u(1, i % 2).ue(0)
        for j in range(17):
            b.u(2, 0) if j == 16 else b.u(1, 1)
    sps_end(b)
    return b.payload()


def sps_lists(number=0):
    b = Bits()
    sps_front(b, number=number)
    b.u(1, 1).u(1, 1)
    scaling_lists(b)
    b.u(1, 0).u(1, 0).u(1, 0).ue(0)
    sps_end(b)
    return b.payload()


def pps_tail(number=0):
    b = Bits()
    b.ue(number).ue(0).u(1, 0).u(1, 0).u(3, 0).u(1, 0).u(1, 0).ue(0).ue(0).se(0).u(3, 0).se(0).se(0).u(6, 0).u(2, 0)
    b.u(1, 0).u(1, 0).ue(0).u(1, 0).u(1, 1).u(8, 1)
    return b.with_tail()


def pps_tiles(number=0):
    """All tiles and all scaling lists."""
    b = Bits()
    b.ue(number).ue(0).u(1, 0).u(1, 0).u(3, 0).u(1, 0).u(1, 0).ue(0).ue(0).se(0).u(3, 0).se(0).se(0).u(4, 0).u(2, 2)
    b.ue(255).ue(255).u(1, 0)
    for _ in range(510):
        b.ue(16_000)
    b.u(1, 0).u(2, 0).u(1, 1)
    scaling_lists(b)
    b.u(1, 0).ue(0).u(1, 0).u(1, 0)
    return b.payload()


def vps_front(b, layers, subs):
    b.u(4, 0).u(2, 3).u(6, layers - 1).u(3, subs).u(1, 1).u(16, 0xFFFF)
    profile(b, subs)
    b.u(1, 1)
    for _ in range(subs + 1):
        b.ue(3).ue(2).ue(0)


def vps_layer_sets():
    b = Bits()
    vps_front(b, 1, 6)
    b.u(6, 62).ue(1023)
    for _ in range(1023):
        b.raw("1" * 63)
    b.u(1, 0).u(1, 0)
    return b.payload()


def vps_hrds():
    """As many HRDs with all sub-layers as fit, at most 1,024."""
    b = Bits()
    vps_front(b, 1, 6)
    b.u(6, 0).ue(0).u(1, 1).u(32, 1).u(32, 50).u(1, 0).ue(1024)
    for i in range(1024):
        b.ue(0)
        if i:
            b.u(1, 0)
            hrd_sub_layers(b, 6, 1)
        else:
            hrd(b, 6, 32)
    b.u(1, 0)
    return b.payload()


def vps_layers():
    """63 layers, each a view that refers to all before it, and 64 output layer sets, each of all layers."""
    b = Bits()
    last = 62
    vps_front(b, 63, 6)
    b.u(6, last).ue(63)
    for _ in range(63):
        b.raw("1" * 63)
    b.u(1, 0).u(1, 1).aligned(1)
    profile(b, 6, present=False)
    b.u(1, 0).u(16, 0x4000).u(3, 5).u(1, 0)
    for i in range(1, 63):
        b.u(6, i)
    b.u(4, 15)
    for i in range(63):
        b.u(15, i)
    for i in range(1, 63):
        b.raw("1" * i)
    b.u(1, 0).u(1, 0).u(1, 1).ue(1).ue(0).u(2, 0)
    for _ in range(63):
        b.raw("0" * 63)
    b.ue(0)
    b.u(16, 64).u(16, 64).u(1, 1).u(2, 1).u(4, 0).u(4, 0).u(1, 0)
    b.u(1, 0).u(1, 0)
    for _ in range(63):
        b.u(1, 1)
        for j in range(7):
            if j:
                b.u(1, 1)
            for _ in range(63):
                b.ue(1)
            b.ue(2).ue(0)
    b.ue(0).u(1, 0)
    for i in range(1, 63):
        for _ in range(i):
            b.u(2, 0)
    b.ue(0).u(1, 0).u(1, 0)
    return b.payload()


PAYLOADS = (
    ("SPS, a tail of zeros", "S", sps_tail),
    ("SPS, 64 predicted sets", "S", sps_sets),
    ("SPS, all scaling lists", "S", sps_lists),
    ("PPS, a tail of zeros", "P", pps_tail),
    ("PPS, all tiles and scaling lists", "P", pps_tiles),
    ("VPS, 1,024 layer sets", "V", vps_layer_sets),
    ("VPS, 1,024 HRDs of 7 sub-layers", "V", vps_hrds),
    ("VPS, 63 layers, 64 sets, all references", "V", vps_layers),
)


def build(folder):
    """The program, proved and built in the folder over a copy of the crates that it stands on."""
    for name in CRATES:
        shutil.copytree(f"{HERE}/crates/{name}", f"{folder}/crates/{name}")
    os.makedirs(f"{folder}/crates/bench/src")
    with open(f"{folder}/crates/bench/src/main.rt", "w") as out:
        out.write(PROGRAM)
    with open(f"{HERE}/crates.txt") as listed:
        lines = [line for line in listed if line.split(":")[0] in CRATES]
    with open(f"{folder}/crates.txt", "w") as out:
        out.write("".join(lines) + "bench: mv_vps mv_sps mv_pps mv_fields mv_syntax mv_io\n")
    done = subprocess.run(["rt", "run"], cwd=f"{folder}/crates/bench", capture_output=True, text=True, stdin=subprocess.DEVNULL)
    if not os.access(f"{folder}/crates/bench/out/bench", os.X_OK):
        sys.exit(done.stdout[-3000:] + done.stderr[-3000:])


def seconds(program, kind, action, turns, payload):
    """The least time of five runs."""
    times = []
    for _ in range(5):
        before = resource.getrusage(resource.RUSAGE_CHILDREN).ru_utime
        done = subprocess.run([program], input=f"{kind}{action}{turns:04}".encode() + payload)
        if done.returncode != 0:
            sys.exit(f"a payload was not read: {kind}, status {done.returncode}")
        times.append(resource.getrusage(resource.RUSAGE_CHILDREN).ru_utime - before)
    return min(times)


def main():
    parser = argparse.ArgumentParser(description=__doc__.split("\n")[0])
    parser.add_argument("--folder")
    folder = parser.parse_args().folder or tempfile.mkdtemp(prefix="bench_headers")
    program = f"{folder}/crates/bench/out/bench"
    if not os.access(program, os.X_OK):
        print(f"proving and building in {folder}", file=sys.stderr)
        build(folder)
    for name, kind, spell in PAYLOADS:
        payload = spell()
        turns = max(20, min(2000, 4_000_000 // len(payload)))
        read = seconds(program, kind, "r", turns, payload) / turns
        written = seconds(program, kind, "w", turns, payload) / turns - read
        shown = seconds(program, kind, "s", turns, payload) / turns - read
        each = ", ".join(
            f"{what} {time * 1e3:.3f} ms {len(payload) / time / 1e6:.0f} MB/s"
            for what, time in (("read", read), ("written", written), ("shown", shown))
        )
        print(f"{name}: {len(payload)} bytes, {each}")


if __name__ == "__main__":
    main()
