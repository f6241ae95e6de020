#!/usr/bin/env python3
"""Measures the reader and the writer of bits: a ue(v) field, and the end of a payload.

It makes programs in a folder of its own, proves and builds them over this repository's mv_bits, and prints
- the nanoseconds a ue(v) field takes to read, over a million codes as the fields of an SPS are (values 0 to 18);
- the MB/s at which the end of a payload of 64 KiB is read, of zeros, of ones, and of zeros bit by bit while more data stand;
- the MB/s at which such an end is written.
The first run takes some minutes, since it proves; the folder's name is then printed, and --folder uses it again.

usage: bench/bits.py [--folder FOLDER]
"""
import argparse
import os
import resource
import shutil
import subprocess
import sys
import tempfile

HERE = os.path.dirname(os.path.dirname(os.path.abspath(__file__)))
CODES, TURNS = 1_000_000, 200
BYTES, END_TURNS = 65_536, 1_000
HEAD = """//! A loop that is timed.
#![tactic(auto)]

use mv_bits::USED;
use std::alloc::{AllocError, Global};
use std::process::ExitCode;
"""
MAIN = """
fn main(rt: HostRuntime) -> ExitCode {
    match input(rt.alloc()) {
        Ok(input) => {
            let mut sum = 0u64;
            for _ in 0..TURNSu32 {
                sum = sum.wrapping_add(turn(rt.alloc(), &input));
            }
            ExitCode::from((sum % 2) as u8)
        }
        Err(_) => ExitCode::from(2),
    }
}
"""
UE = """
fn input(alloc: Global) -> Result<Vec<u8>, AllocError> {
    let mut out = BitWriter::new(alloc);
    for k in 0..CODESu32 {
        out.ue(k % 19)?;
    }
    out.trailing()?;
    Ok(out.into_bytes())
}

fn turn(_alloc: Global, bytes: &[u8]) -> u64 {
    let mut bits = BitReader::new(bytes);
    let mut sum = 0u64;
    for _ in 0..CODESu32 {
        match bits.ue() {
            Ok(value) => sum = sum.wrapping_add(u64::from(value)),
            Err(_) => return sum,
        }
    }
    sum
}
"""
PAYLOAD = """
fn input(alloc: Global) -> Result<Vec<u8>, AllocError> {
    let mut bytes = Vec::new(alloc);
    for _ in 1..BYTESu32 {
        bytes.push(FILL)?;
    }
    bytes.push(0x80)?;
    Ok(bytes)
}
"""
READ = """
fn turn(alloc: Global, bytes: &[u8]) -> u64 {
    let mut bits = BitReader::new(bytes);
    match payload_end_of(alloc, &mut bits, true) {
        Ok(Some(tail)) => tail.len() as u64,
        _ => 1,
    }
}
"""
MORE = """
fn turn(_alloc: Global, bytes: &[u8]) -> u64 {
    let mut bits = BitReader::new(bytes);
    let mut count = 0u64;
    for _ in 0..8 * BYTESu32 {
        if !bits.more_data() || bits.u(1).is_err() {
            return count;
        }
        count = count.wrapping_add(1);
    }
    count
}
"""
WRITE = """
fn input(alloc: Global) -> Result<Option<Vec<bool>>, AllocError> {
    let mut tail = Vec::new(alloc);
    for k in 8..8 * BYTESu32 {
        tail.push(k % 3 == 0)?;
    }
    Ok(Some(tail))
}

fn turn(alloc: Global, tail: &Option<Vec<bool>>) -> u64 {
    let mut out = BitWriter::new(alloc);
    match put_payload_end(&mut out, tail) {
        Ok(()) => 2,
        Err(_) => 1,
    }
}
"""


def program(body, used, turns, **words):
    text = (HEAD + body + MAIN).replace("USED", used).replace("TURNS", str(turns))
    for word, value in dict(words, CODES=CODES, BYTES=BYTES).items():
        text = text.replace(word, str(value))
    return text


END = "{BitReader, payload_end_of}"
PROGRAMS = {
    "bench_ue": program(UE, "{BitReader, BitWriter}", TURNS),
    "bench_zeros": program(PAYLOAD + READ, END, END_TURNS, FILL="0"),
    "bench_ones": program(PAYLOAD + READ, END, END_TURNS, FILL="0xFF"),
    "bench_more": program(PAYLOAD + MORE, "BitReader", END_TURNS, FILL="0"),
    "bench_write": program(WRITE, "{BitWriter, put_payload_end}", END_TURNS),
}
LINES = {
    "bench_ue": ("{:.1f} ns a ue(v) field", CODES * TURNS, True),
    "bench_zeros": ("{:.0f} MB/s for an end of zeros", BYTES * END_TURNS, False),
    "bench_ones": ("{:.0f} MB/s for an end of ones", BYTES * END_TURNS, False),
    "bench_more": ("{:.0f} MB/s for zeros bit by bit", BYTES * END_TURNS, False),
    "bench_write": ("{:.0f} MB/s for an end that is written", BYTES * END_TURNS, False),
}


def binary(folder, name):
    return f"{folder}/crates/{name}/out/{name}"


def build(folder):
    """The programs, proved and built in the folder over a copy of the crates that they stand on."""
    for name in ("mv_rules", "mv_syntax", "mv_bits"):
        shutil.copytree(f"{HERE}/crates/{name}", f"{folder}/crates/{name}", ignore=shutil.ignore_patterns("out"))
    with open(f"{folder}/crates.txt", "w") as out:
        out.write("mv_rules:\nmv_syntax: mv_rules\nmv_bits: mv_syntax mv_rules\n")
        out.writelines(f"{name}: mv_bits\n" for name in PROGRAMS)
    for name, text in PROGRAMS.items():
        os.makedirs(f"{folder}/crates/{name}/src")
        with open(f"{folder}/crates/{name}/src/main.rt", "w") as out:
            out.write(text)
    for name in PROGRAMS:
        done = subprocess.run(["rt", "run"], cwd=f"{folder}/crates/{name}", capture_output=True, text=True)
        if not os.access(binary(folder, name), os.X_OK):
            sys.exit(done.stdout[-3000:] + done.stderr[-3000:])


def seconds(path):
    """The least user time of five runs."""
    best = None
    for _ in range(5):
        before = resource.getrusage(resource.RUSAGE_CHILDREN).ru_utime
        subprocess.run([path])
        spent = resource.getrusage(resource.RUSAGE_CHILDREN).ru_utime - before
        best = spent if best is None else min(best, spent)
    return max(best, 1e-6)


def main():
    parser = argparse.ArgumentParser(description=__doc__.split("\n")[0])
    parser.add_argument("--folder")
    folder = parser.parse_args().folder or tempfile.mkdtemp(prefix="bench_bits")
    if not all(os.access(binary(folder, name), os.X_OK) for name in PROGRAMS):
        print(f"proving and building in {folder}", file=sys.stderr)
        build(folder)
    for name, (line, count, by_field) in LINES.items():
        spent = seconds(binary(folder, name))
        print(line.format(spent / count * 1e9 if by_field else count / spent / 1e6))


main()
