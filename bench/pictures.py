#!/usr/bin/env python3
"""Measures how long a picture takes in the parts of a decoder, behind the reading of its headers.

It makes a program in a folder of its own that takes pictures, each of two slice segments, through the parts: the parameter sets
that serve it, the agreement of its second segment with the first one, its count, its reference picture set of four entries and
the pictures that they match, its lists of four entries, and the buffer, which keeps four pictures and then holds this one too.
It proves and builds it over this repository's crates, and prints the nanoseconds a picture. It then counts the requests for
memory that a picture makes: the first one that may fail without a trace lies behind all that are made. The first run takes
some minutes, since it proves; the folder's name is then printed, and --folder uses it again. With --try nothing is proved,
built or timed: the requests alone are counted, by a program that is interpreted.

usage: bench/pictures.py [--folder FOLDER] [--try]
"""
import argparse
import os
import resource
import shutil
import subprocess
import sys
import tempfile

HERE = os.path.dirname(os.path.dirname(os.path.abspath(__file__)))
USED = ("mv_au", "mv_dpb", "mv_pps", "mv_reflists", "mv_rps", "mv_rules", "mv_sets", "mv_slice", "mv_sps", "mv_units", "mv_vps")
TURNS = 1_000_000
PROGRAM = r"""//! Takes pictures through the parts of a decoder in a loop.
#![tactic(auto)]

ghost use Rattle.std.specs.Prelude.{◌≡◌, ◌≤◌, ◌<◌, ◌+◌, All, AllPairs, IfSome, length, true};
ghost use Rattle.mv_syntax.specs.Table.{Valid};
ghost use Rattle.mv_slice.specs.Context.{Fits};
ghost use Rattle.mv_slice.specs.Slice.{slice_header};
ghost use Rattle.mv_vps.specs.Vps.{ValidVps};
ghost use Rattle.mv_sets.specs.Formats.{FormatFits, SpsFormatFits};

use mv_au::agree;
use mv_dpb::Buffer;
use mv_pps::{Pps, read_pps};
use mv_reflists::{Sizes, build_lists};
use mv_rps::{PocAsk, PocState, RefSet, Resolved};
use mv_sets::SetStore;
use mv_slice::{SliceContext, SliceHead, read_slice};
use mv_sps::{Sps, SpsPictureFormat, read_sps};
use mv_units::UnitHead;
use mv_vps::{Vps, read_vps};
use std::alloc::Global;
use std::process::ExitCode;
use std::rc::Rc;

const HEAD: UnitHead = UnitHead {
    kind: 1,
    layer: 0,
    tid: 0,
};

const VPS: &[u8] = &[
    0x0C, 0x11, 0xFF, 0xFF, 0x01, 0x60, 0x00, 0x00, 0x00, 0x90, 0x00, 0x00, 0x00, 0x00, 0x00, 0x5D,
    0xAC, 0x15, 0xBF, 0x5D, 0x20, 0x00, 0x04, 0x59, 0x70, 0x60, 0x20, 0x00, 0x00, 0x09, 0x00, 0x00,
    0x00, 0x00, 0x00, 0x05, 0xD8, 0xD0, 0x04, 0x00, 0x04, 0x0A, 0x00, 0x89, 0x7D, 0x20,
];

const SPS: &[u8] = &[
    0x01, 0x01, 0x60, 0x00, 0x00, 0x00, 0x90, 0x00, 0x00, 0x00, 0x00, 0x00, 0x5D, 0xA0, 0x20, 0x81,
    0x05, 0xEB, 0xAB, 0xC2, 0x08,
];

const PPS: &[u8] = &[0xC0, 0x71, 0x80, 0x12];

// A P segment whose picture has the four pictures before it in its set and in list 0: the first segment, and one at address 8.
const FIRST: &[u8] = &[FIRST_BYTES];

const NEXT: &[u8] = &[NEXT_BYTES];

fn context() -> SliceContext<'static>
    ensures fits { Fits result }
    ensures layer { result.layer ≡ 0 }
{
    SliceContext {
        layer: 0,
        directs: 0,
        eligible: &[],
        poc_lsb_not_present_flag: 0,
        default_ref_layers_active_flag: 1,
        max_one_active_ref_layer_flag: 1,
        ctbs: 16,
        lsb_bits: 4,
        chroma: true,
        num_short_term_ref_pic_sets: 0,
        short_sets: &[],
        long_term_ref_pics_present_flag: 0,
        num_long_term_ref_pics_sps: 0,
        lt_ref_pic_poc_lsb_sps: &[],
        used_by_curr_pic_lt_sps_flag: &[],
        sps_temporal_mvp_enabled_flag: 0,
        sample_adaptive_offset_enabled_flag: 0,
        dependent_slice_segments_enabled_flag: 0,
        output_flag_present_flag: 0,
        num_extra_slice_header_bits: 0,
        cabac_init_present_flag: 0,
        num_ref_idx_l0_default_active_minus1: 0,
        num_ref_idx_l1_default_active_minus1: 0,
        pps_slice_chroma_qp_offsets_present_flag: 0,
        weighted_pred_flag: 0,
        weighted_bipred_flag: 0,
        tiles_enabled_flag: 0,
        entropy_coding_sync_enabled_flag: 0,
        pps_loop_filter_across_slices_enabled_flag: 0,
        deblocking_filter_override_enabled_flag: 0,
        pps_deblocking_filter_disabled_flag: 0,
        lists_modification_present_flag: 0,
        slice_segment_header_extension_present_flag: 0,
    }
}

fn header(alloc: Global, ctx: &SliceContext, payload: &[u8]) -> Option<SliceHead>
    requires fits { Fits ctx.now }
    requires layer { ctx.now.layer ≡ 0 }
    ensures { IfSome result (λ header. Valid (slice_header ctx.now 1) header) }
{
    match read_slice(alloc, ctx, HEAD, payload) {
        Ok(read) => Some(read.head),
        Err(_) => None,
    }
}

// ---- What is received

fn is_small(format: &SpsPictureFormat) -> bool
    ensures { result ≡ true → FormatFits format.now }
{
    format.chroma_format_idc <= 3
        && format.bit_depth_luma_minus8 <= 8
        && format.bit_depth_chroma_minus8 <= 8
}

fn fits(sps: &Sps) -> bool
    ensures { result ≡ true → SpsFormatFits sps.now.0 }
{
    match &sps.pictures.picture_format {
        Some(format) => is_small(format),
        None => true,
    }
}

fn put_sps(store: &mut SetStore, sps: Sps) -> bool
    requires { store.old.sps.count ≡ 0 }
    ensures { store.new.pps.count ≡ store.old.pps.count }
{
    if sps.opening.sps_seq_parameter_set_id >= 16 || !fits(&sps) {
        return false;
    }
    match store.put_sps(0, SPS, sps) {
        Ok(()) => true,
        Err(_) => false,
    }
}

fn put_pps(store: &mut SetStore, pps: Pps) -> bool
    requires { store.old.pps.count ≡ 0 }
{
    if pps.opening.pps_pic_parameter_set_id >= 64 {
        return false;
    }
    match store.put_pps(0, PPS, pps) {
        Ok(()) => true,
        Err(_) => false,
    }
}

fn receive_sps(alloc: Global, store: &mut SetStore) -> bool
    requires { store.old.sps.count ≡ 0 }
    ensures { store.new.pps.count ≡ store.old.pps.count }
{
    match read_sps(alloc, 0, 0, SPS) {
        Ok(sps) => put_sps(store, sps),
        Err(_) => false,
    }
}

fn receive_pps(alloc: Global, store: &mut SetStore) -> bool
    requires { store.old.pps.count ≡ 0 }
{
    match read_pps(alloc, PPS) {
        Ok(pps) => put_pps(store, pps),
        Err(_) => false,
    }
}

// ---- The steps: each answers a number that depends on all that it does, and 0 where it fails

fn serve(store: &SetStore, vps: &Vps) -> u64
    requires { ValidVps vps.now }
{
    match store.resolve(vps, 0, 0) {
        Ok(active) => u64::from(active.format.width),
        Err(_) => 0,
    }
}

fn agreed(ctx: &SliceContext, first: &SliceHead, next: &SliceHead) -> u64 {
    match agree(first, 0, (HEAD, HEAD), next, ctx) {
        Ok(()) => 1,
        Err(_) => 0,
    }
}

fn counted(counts: &mut PocState, au: u64) -> Option<i32> {
    let asked = PocAsk {
        layer: 0,
        kind: 1,
        tid: 0,
        start: au == 0,
        lsb: Some((au % 16) as u32),
        max_lsb: 16,
        base: None,
    };
    counts.next(&asked).ok()
}

fn insert(buffer: &mut Buffer<u8>, count: i32, au: u64, picture: &Rc<u8>) {
    let copy: Result<_, _> = picture.clone();
    if let Ok(copy) = copy {
        if buffer.held().len() < 16 {
            buffer.insert(count, au, copy);
        }
    }
}

fn few(n: usize) -> u8
    ensures { result ≤ 15 }
{
    (n % 16) as u8
}

fn sizes_of(resolved: &Resolved) -> Sizes
    ensures { result.before + result.after + result.long + result.zero + result.one ≤ 255 }
{
    Sizes {
        before: few(resolved.before.len()),
        after: few(resolved.after.len()),
        long: few(resolved.long.len()),
        zero: 0,
        one: 0,
    }
}

// How many entries list 0 has.
fn listed(alloc: Global, ctx: &SliceContext, header: &SliceHead, resolved: &Resolved) -> u64
    requires fits { Fits ctx.now }
    requires valid { Valid (slice_header ctx.now 1) header.now }
{
    if header.full.is_none() {
        return 0;
    }
    match build_lists(alloc, &sizes_of(resolved), ctx, header) {
        Ok(lists) => lists.list0.len() as u64,
        Err(_) => 0,
    }
}

fn resolved(
    alloc: Global,
    ctx: &SliceContext,
    header: &SliceHead,
    buffer: &Buffer<u8>,
    count: i32,
) -> Option<Resolved>
    requires fits { Fits ctx.now }
    requires valid { Valid (slice_header ctx.now 1) header.now }
    ensures rising { IfSome result (λ v. AllPairs (λ k l. k.place < l.place) v.keep.items) }
    ensures within { IfSome result (λ v. All (λ k. k.place < length buffer.now) v.keep.items) }
{
    match RefSet::of(alloc, header, ctx, 1, count) {
        Ok(set) => set.resolve(alloc, buffer.held()).ok(),
        Err(_) => None,
    }
}

// How many entries list 0 has. The buffer keeps the pictures of the set.
fn referred(
    alloc: Global,
    ctx: &SliceContext,
    header: &SliceHead,
    buffer: &mut Buffer<u8>,
    count: i32,
) -> u64
    requires fits { Fits ctx.now }
    requires valid { Valid (slice_header ctx.now 1) header.now }
{
    match resolved(alloc, ctx, header, buffer, count) {
        Some(resolved) => {
            buffer.apply(&resolved.keep);
            listed(alloc, ctx, header, &resolved)
        }
        None => 0,
    }
}

// All that a picture asks of the parts.
fn taken(
    alloc: Global,
    store: &SetStore,
    vps: &Vps,
    ctx: &SliceContext,
    first: &SliceHead,
    next: &SliceHead,
    counts: &mut PocState,
    buffer: &mut Buffer<u8>,
    picture: &Rc<u8>,
    au: u64,
) -> u64
    requires vps { ValidVps vps.now }
    requires fits { Fits ctx.now }
    requires valid { Valid (slice_header ctx.now 1) first.now }
{
    let width = serve(store, vps);
    let agreed = agreed(ctx, first, next);
    let Some(count) = counted(counts, au) else {
        return 0;
    };
    let entries = referred(alloc, ctx, first, buffer, count);
    insert(buffer, count, au, picture);
    width.wrapping_add(agreed).wrapping_add(entries)
}

// ---- The pictures

// The first four, which are decoded without references.
fn begun(counts: &mut PocState, buffer: &mut Buffer<u8>, picture: &Rc<u8>) {
    for au in 0..4u64 {
        if let Some(count) = counted(counts, au) {
            insert(buffer, count, au, picture);
        }
    }
}

fn all_taken(
    alloc: Global,
    store: &SetStore,
    vps: &Vps,
    ctx: &SliceContext,
    first: &SliceHead,
    next: &SliceHead,
    buffer: &mut Buffer<u8>,
    picture: &Rc<u8>,
) -> u64
    requires vps { ValidVps vps.now }
    requires fits { Fits ctx.now }
    requires valid { Valid (slice_header ctx.now 1) first.now }
{
    let mut counts = PocState::new();
    begun(&mut counts, buffer, picture);
    let mut sum = 0u64;
    for turn in 0..TURNSu64 {
        let one = taken(alloc, store, vps, ctx, first, next, &mut counts, buffer, picture, turn + 4);
        sum = sum.wrapping_add(one);
    }
    sum
}

fn with_headers(alloc: Global, store: &SetStore, vps: &Vps) -> Option<u64>
    requires { ValidVps vps.now }
{
    let ctx = context();
    let first = header(alloc, &ctx, FIRST)?;
    let next = header(alloc, &ctx, NEXT)?;
    let picture = Rc::new(alloc, 0u8).ok()?;
    let mut buffer = Buffer::new(alloc).ok()?;
    Some(all_taken(alloc, store, vps, &ctx, &first, &next, &mut buffer, &picture))
}

fn with_sets(alloc: Global, vps: &Vps) -> Option<u64>
    requires { ValidVps vps.now }
{
    let mut store = SetStore::new(alloc).ok()?;
    if !receive_sps(alloc, &mut store) || !receive_pps(alloc, &mut store) {
        return None;
    }
    with_headers(alloc, &store, vps)
}

fn main(rt: HostRuntime) -> ExitCode {
    let alloc = rt.alloc();
    let sum = match read_vps(alloc, VPS) {
        Ok(vps) => with_sets(alloc, &vps),
        Err(_) => None,
    };
    // a width of 64 samples, a segment that agrees, and four entries
    if sum == Some(69 * TURNSu64) {
        ExitCode::SUCCESS
    } else {
        ExitCode::from(1)
    }
}
"""

# Why a header that reads meets the conditions of the lists.
ANSWERS = """use Rattle.std.proofs.Common.{◌≡◌, ◌≤◌, Bool, length, Option, Some, None, refl, subst}
use Rattle.std.specs.Prelude.{IfSome}
use Rattle.mv_syntax.specs.Table.{Valid, when}
use Rattle.mv_slice.specs.declared.slice.SliceFull.{SliceFull}
use Rattle.mv_slice.specs.declared.slice.SliceHead.{SliceHead}
use Rattle.mv_slice.specs.Context.{SliceContextValue}
use Rattle.mv_slice.specs.Slice.{full, slice_fields, slice_header}
use Rattle.mv_reflists.specs.Segment.{active_l0, active_l1, list_entry_l0, list_entry_l1}
use Rattle.mv_reflists.proofs.Fields.{Listed, lists_listed, segment_all_l0, segment_all_l1, segment_few_l0, segment_few_l1}
use Rattle.CRATE.proofs.listed.Goals as goal

full_valid : (ctx : SliceContextValue) (head : SliceHead) (v : SliceFull) → Valid (slice_header ctx 1) head → head.full ≡ Some v → Valid (full ctx 1) v
unfolding slice_header slice_fields
full_valid ctx head v h e = coded _ head.full h.0.1.1.0 e
  where
    coded : (c : Bool) (o : Option SliceFull) → Valid (when c (full ctx 1)) o → o ≡ Some v → Valid (full ctx 1) v
    coded c o h e = let P : Option SliceFull → Type 0 = λ o. Valid (when c (full ctx 1)) o in (subst P e h).1

-- what is so of each full header whose lists obey the table is so of a header that is valid
of_full : (P : SliceFull → Type 0) (ctx : SliceContextValue) (head : SliceHead) → Valid (slice_header ctx 1) head → ((v : SliceFull) → IfSome v.prediction.lists (Listed ctx v) → P v) →
    IfSome head.full P
of_full P ctx head valid each = go head.full refl
  where
    go : (o : Option SliceFull) → head.full ≡ o → IfSome o P
    go None e = tt
    go (Some v) e = each v (lists_listed ctx 1 v (full_valid ctx head v valid e))

pub build_lists-requires-clause-active_l0 : goal.build_lists-requires-clause-active_l0
build_lists-requires-clause-active_l0 c =
    let ctx = c.args.ctx.now in
    of_full (λ v. active_l0 ctx v ≤ 15) ctx c.args.header.now c.requires.valid (λ v. segment_few_l0 ctx v c.requires.fits)

pub build_lists-requires-clause-active_l1 : goal.build_lists-requires-clause-active_l1
build_lists-requires-clause-active_l1 c =
    let ctx = c.args.ctx.now in
    of_full (λ v. active_l1 ctx v ≤ 15) ctx c.args.header.now c.requires.valid (λ v. segment_few_l1 ctx v c.requires.fits)

pub build_lists-requires-clause-entries_l0 : goal.build_lists-requires-clause-entries_l0
build_lists-requires-clause-entries_l0 c =
    let ctx = c.args.ctx.now in
    of_full (λ v. IfSome (list_entry_l0 v) (λ entries. length entries ≡ active_l0 ctx v)) ctx c.args.header.now c.requires.valid (segment_all_l0 ctx)

pub build_lists-requires-clause-entries_l1 : goal.build_lists-requires-clause-entries_l1
build_lists-requires-clause-entries_l1 c =
    let ctx = c.args.ctx.now in
    of_full (λ v. IfSome (list_entry_l1 v) (λ entries. length entries ≡ active_l1 ctx v)) ctx c.args.header.now c.requires.valid (segment_all_l1 ctx)
"""


def bits_of(first):
    """The bytes of a P segment of a set of four entries, each the picture before, with four active entries in list 0."""
    text = ("1" if first else "0") + "1" + ("" if first else "1000") + "010" + "0100" + "0" + "00101" + "1" + "11" * 4
    text += "1" + "00100" + "1" + "1" + "1"
    text += "0" * (-len(text) % 8)
    return ", ".join(f"0x{int(text[k:k + 8], 2):02X}" for k in range(0, len(text), 8)) + ", 0xD0"


def program(turns):
    text = PROGRAM.replace("FIRST_BYTES", bits_of(True)).replace("NEXT_BYTES", bits_of(False))
    return text.replace("TURNS", str(turns))


def listed():
    """Of each crate of the repository those that it uses."""
    uses = {}
    with open(f"{HERE}/crates.txt") as lines:
        for line in lines:
            name, _, rest = line.split("#")[0].strip().partition(":")
            if name:
                uses[name] = rest.split()
    return uses


def make(folder):
    """The programs, in the folder, over a copy of the crates that they stand on: many pictures, and one and two of them."""
    uses = listed()
    crates, todo = [], list(USED)
    while todo:
        name = todo.pop()
        if name in uses and name not in crates:
            crates.append(name)
            todo += uses[name]
    for name in crates:
        shutil.copytree(f"{HERE}/crates/{name}", f"{folder}/crates/{name}", ignore=shutil.ignore_patterns("out"))
    lines = [f"{name}: {' '.join(uses[name])}\n" for name in uses if name in crates]
    for name, turns in (("bench", TURNS), ("one", 1), ("two", 2)):
        os.makedirs(f"{folder}/crates/{name}/src")
        with open(f"{folder}/crates/{name}/src/main.rt", "w") as out:
            out.write(program(turns))
        os.makedirs(f"{folder}/crates/{name}/proofs/listed")
        with open(f"{folder}/crates/{name}/proofs/listed/Answers.antt", "w") as out:
            out.write(ANSWERS.replace("CRATE", name))
        open(f"{folder}/crates/{name}/proofs/Lib.antt", "w").close()
        lines.append(f"{name}: {' '.join(USED)}\n")
    with open(f"{folder}/crates.txt", "w") as out:
        out.write("".join(lines))


def build(folder):
    done = subprocess.run(["rt", "run"], cwd=f"{folder}/crates/bench", capture_output=True, text=True)
    if not os.access(f"{folder}/crates/bench/out/bench", os.X_OK):
        sys.exit(done.stdout[-3000:] + done.stderr[-3000:])


def passes(folder, name, n):
    """Whether a program does what it should though the n-th request for memory fails: then it makes fewer."""
    done = subprocess.run(["rt", "try", "--fail-alloc", str(n)], cwd=f"{folder}/crates/{name}", capture_output=True, text=True)
    return "status=0" in done.stdout + done.stderr


def requests(folder, name, low=0):
    """How many requests for memory a program makes, which makes `low` of them at least."""
    step = 1
    while not passes(folder, name, low + step):
        low, step = low + step, 2 * step
    high = low + step
    while high - low > 1:
        middle = (low + high) // 2
        if passes(folder, name, middle):
            high = middle
        else:
            low = middle
    return low


def measure(folder):
    program = f"{folder}/crates/bench/out/bench"
    if not os.access(program, os.X_OK):
        build(folder)
    best = None
    for _ in range(5):
        before = resource.getrusage(resource.RUSAGE_CHILDREN).ru_utime
        if subprocess.run([program]).returncode != 0:
            sys.exit("a picture was not taken")
        spent = resource.getrusage(resource.RUSAGE_CHILDREN).ru_utime - before
        best = spent if best is None else min(best, spent)
    print(f"{best / TURNS * 1e9:.0f} ns a picture")


def main():
    parser = argparse.ArgumentParser(description=__doc__.split("\n")[0])
    parser.add_argument("--folder")
    parser.add_argument("--try", action="store_true", dest="tried")
    asked = parser.parse_args()
    folder = asked.folder or tempfile.mkdtemp(prefix="bench_pictures")
    if not os.path.exists(f"{folder}/crates.txt"):
        print(f"made in {folder}", file=sys.stderr)
        make(folder)
    if not asked.tried:
        measure(folder)
    one = requests(folder, "one")
    print(requests(folder, "two", one) - one, "requests for memory a picture")


main()
