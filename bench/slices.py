#!/usr/bin/env python3
"""Measures how long a slice segment header takes to read.

It makes a program in a folder of its own that reads the headers of the slices of a stream of two views (two of each
view, one of them a header of one byte, without reference pictures) a million times; proves and builds it over this
repository's crates; and prints the nanoseconds a header. It then runs the reading of the header of one byte with the
first request for memory refused: that header takes none. The first run takes some minutes, since it proves; the folder's
name is then printed, and --folder uses it again.

usage: bench/slices.py [--folder FOLDER]
"""
import argparse
import os
import resource
import shutil
import subprocess
import sys
import tempfile

HERE = os.path.dirname(os.path.dirname(os.path.abspath(__file__)))
CRATES = ("mv_rules", "mv_units", "mv_syntax", "mv_bits", "mv_fields", "mv_short_sets", "mv_slice")
TURNS = 1_000_000
CONTEXT = """//! Reads slice segment headers in a loop.
#![tactic(auto)]

ghost use Rattle.mv_slice.specs.Context.{Fits};

use mv_units::UnitHead;
use mv_slice::{SliceContext, read_slice};
use std::alloc::Global;
use std::process::ExitCode;

fn first_view() -> SliceContext<'static>
    ensures { Fits result }
{
    SliceContext {
        layer: 0,
        directs: 0,
        eligible: &[],
        poc_lsb_not_present_flag: 0,
        default_ref_layers_active_flag: 1,
        max_one_active_ref_layer_flag: 1,
        ctbs: 16,
        lsb_bits: 4,
        chroma: true,
        num_short_term_ref_pic_sets: 0,
        short_sets: &[],
        long_term_ref_pics_present_flag: 0,
        num_long_term_ref_pics_sps: 0,
        lt_ref_pic_poc_lsb_sps: &[],
        used_by_curr_pic_lt_sps_flag: &[],
        sps_temporal_mvp_enabled_flag: 0,
        sample_adaptive_offset_enabled_flag: 0,
        dependent_slice_segments_enabled_flag: 0,
        output_flag_present_flag: 0,
        num_extra_slice_header_bits: 0,
        cabac_init_present_flag: 0,
        num_ref_idx_l0_default_active_minus1: 0,
        num_ref_idx_l1_default_active_minus1: 0,
        pps_slice_chroma_qp_offsets_present_flag: 0,
        weighted_pred_flag: 0,
        weighted_bipred_flag: 0,
        tiles_enabled_flag: 0,
        entropy_coding_sync_enabled_flag: 0,
        pps_loop_filter_across_slices_enabled_flag: 0,
        deblocking_filter_override_enabled_flag: 0,
        pps_deblocking_filter_disabled_flag: 0,
        lists_modification_present_flag: 0,
        slice_segment_header_extension_present_flag: 0,
    }
}

fn bytes_of(alloc: Global, ctx: &SliceContext, kind: u8, payload: &[u8]) -> u64
    requires { Fits ctx.now }
{
    let head = UnitHead {
        kind,
        layer: ctx.layer,
        tid: 0,
    };
    match read_slice(alloc, ctx, head, payload) {
        Ok(read) => u64::from(read.bytes),
        Err(_) => 0,
    }
}
"""
LOOP = CONTEXT + """
fn second_view() -> SliceContext<'static>
    ensures { Fits result }
{
    SliceContext {
        layer: 1,
        directs: 1,
        eligible: b"\\x00",
        ..first_view()
    }
}

fn main(rt: HostRuntime) -> ExitCode {
    let alloc = rt.alloc();
    let first = first_view();
    let second = second_view();
    let mut sum = 0u64;
    for _ in 0..TURNSu64 {
        sum = sum.wrapping_add(bytes_of(alloc, &first, 19, &[0xAF, 0xD0]));
        sum = sum.wrapping_add(bytes_of(alloc, &second, 19, &[0x92, 0x07, 0xD1]));
        sum = sum.wrapping_add(bytes_of(alloc, &first, 1, &[0xD0, 0x97, 0x70, 0xD2]));
        sum = sum.wrapping_add(bytes_of(alloc, &second, 1, &[0xA4, 0x25, 0xEB, 0x80, 0xD3]));
    }
    if sum == 10 * TURNSu64 {
        ExitCode::SUCCESS
    } else {
        ExitCode::from(1)
    }
}
"""
ONE = CONTEXT + """
fn main(rt: HostRuntime) -> ExitCode {
    let alloc = rt.alloc();
    if bytes_of(alloc, &first_view(), 19, &[0xAF, 0xD0]) == 1 {
        ExitCode::SUCCESS
    } else {
        ExitCode::from(1)
    }
}
"""


def build(folder):
    """The programs, and the first proved and built, in the folder over a copy of the crates that they stand on."""
    for name in CRATES:
        shutil.copytree(f"{HERE}/crates/{name}", f"{folder}/crates/{name}")
    for name, program in (("bench", LOOP.replace("TURNS", str(TURNS))), ("one", ONE)):
        os.makedirs(f"{folder}/crates/{name}/src")
        with open(f"{folder}/crates/{name}/src/main.rt", "w") as out:
            out.write(program)
    with open(f"{HERE}/crates.txt") as listed:
        lines = [line for line in listed if line.split(":")[0] in CRATES]
    with open(f"{folder}/crates.txt", "w") as out:
        out.write("".join(lines) + "bench: mv_slice mv_units\none: mv_slice mv_units\n")
    done = subprocess.run(["rt", "run"], cwd=f"{folder}/crates/bench", capture_output=True, text=True)
    if not os.access(f"{folder}/crates/bench/out/bench", os.X_OK):
        sys.exit(done.stdout[-3000:] + done.stderr[-3000:])


def main():
    parser = argparse.ArgumentParser(description=__doc__.split("\n")[0])
    parser.add_argument("--folder")
    folder = parser.parse_args().folder or tempfile.mkdtemp(prefix="bench_slices")
    program = f"{folder}/crates/bench/out/bench"
    if not os.access(program, os.X_OK):
        print(f"proving and building in {folder}", file=sys.stderr)
        build(folder)
    best = None
    for _ in range(5):
        before = resource.getrusage(resource.RUSAGE_CHILDREN).ru_utime
        if subprocess.run([program]).returncode != 0:
            sys.exit("a header was not read")
        spent = resource.getrusage(resource.RUSAGE_CHILDREN).ru_utime - before
        best = spent if best is None else min(best, spent)
    print(f"{best / (4 * TURNS) * 1e9:.0f} ns a header")
    one = subprocess.run(["rt", "try", "--fail-alloc", "1"], cwd=f"{folder}/crates/one", capture_output=True, text=True)
    print("a header of one byte takes", "no memory" if "status=0" in one.stdout + one.stderr else "memory")


main()
