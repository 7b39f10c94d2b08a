#!/usr/bin/env bash
# Times the calls on rows in bytes, on pages and frames, and of generated input. Prints the median and the least of the
# rounds of three runs. A round is of about a millisecond, so that other work on the machine meets few of them.
#
# usage: bench/rows.sh [rows|pages|frames|text]..      (default: all)
#
# It writes throwaway programs over copies of crates.txt and crates/ into a temporary folder, has them proved and built
# there, and removes the folder at the end. This is no part of the gate. A first run proves the libraries in the copy,
# which takes some minutes. With BENCH_FOLDER the copy is kept in that folder, and a later run proves only what has
# changed.
set -eu
wanted=" ${*:-rows pages frames text} "
top=$(cd "$(dirname "${BASH_SOURCE[0]}")/.." && pwd)
work=$(mktemp -d)
trap 'rm -rf "$work"' EXIT
copy=${BENCH_FOLDER:-$work/copy}
# shellcheck source=bench/shared.sh
. "$top/bench/shared.sh"
libraries hs_base hs_values hs_rowcodec hs_page hs_cache hs_workload

if [[ $wanted == *" rows "* ]]; then
    program bench_encode "hs_values hs_rowcodec" <<'RT'
//! Times the encoding of a row of two whole numbers and a text of 20 characters.
#![tactic(auto)]

use hs_rowcodec::{are_storable, encode, encode_onto, encoded_len};
use hs_values::{Chars, Row, SqlType, Types, Value, fits_row};
use std::alloc::{AllocError, Global};
use std::env;
use std::io;
use std::time::Instant;

fn types(alloc: Global) -> Result<Types, AllocError> {
    let mut types = Types::new(alloc);
    types.push(SqlType::Integer)?;
    types.push(SqlType::Big)?;
    types.push(SqlType::Varchar { max: 20 })?;
    Ok(types)
}

fn row(alloc: Global, seed: i64) -> Result<Row, AllocError> {
    let mut row = Row::new(alloc);
    row.push(Value::Int(seed))?;
    row.push(Value::Int(seed))?;
    row.push(Value::Text(Chars::from_text(alloc, "twenty characters ..")?))?;
    Ok(row)
}

/// Encodes a row so many times, each time into memory of its own, and adds up the lengths.
#[inline(never)]
fn encodes(alloc: Global, count: u32, row: &Row, types: &Types) -> Result<usize, AllocError> {
    let mut total = 0usize;
    if fits_row(types.as_slice(), row.as_slice()) && are_storable(types) {
        for _time in 0..count {
            total = total.wrapping_add(encode(alloc, row, types)?.len());
        }
    }
    Ok(total)
}

/// The same into memory that is kept.
#[inline(never)]
fn encodes_onto(count: u32, row: &Row, types: &Types, out: &mut Vec<u8>) -> Result<usize, AllocError> {
    let mut total = 0usize;
    if fits_row(types.as_slice(), row.as_slice()) && are_storable(types) {
        for _time in 0..count {
            out.clear();
            encode_onto(row, types, out)?;
            total = total.wrapping_add(out.len());
        }
    }
    Ok(total)
}

/// Counts the bytes of each of the rows so many times, and adds up the lengths.
#[inline(never)]
fn lengths(count: u32, rows: &[Row], types: &Types) -> usize {
    let mut total = 0usize;
    for _time in 0..count {
        for row in rows {
            if fits_row(types.as_slice(), row.as_slice()) && are_storable(types) {
                total = total.wrapping_add(encoded_len(row, types));
            }
        }
    }
    total
}

fn main(rt: HostRuntime) -> io::Result<()> {
    let seed = env::args(&rt)?.count() as i64 & 0xff;
    let types = types(rt.alloc())?;
    let row_a = row(rt.alloc(), seed)?;
    let rows = [row(rt.alloc(), seed)?, row(rt.alloc(), seed ^ 1)?];
    let mut out = Vec::new(rt.alloc());
    for _round in 0..101u32 {
        let start = Instant::now(&rt)?;
        let total = encodes(rt.alloc(), 20_000, &row_a, &types)?;
        let spent = start.elapsed(&rt)?.as_nanos();
        println!(rt; "row_encode 20000 {spent} {total}")?;
        let start = Instant::now(&rt)?;
        let total = encodes_onto(20_000, &row_a, &types, &mut out)?;
        let spent = start.elapsed(&rt)?.as_nanos();
        println!(rt; "row_encode_onto 20000 {spent} {total}")?;
        let start = Instant::now(&rt)?;
        let total = lengths(20_000, &rows, &types);
        let spent = start.elapsed(&rt)?.as_nanos();
        println!(rt; "row_encoded_len_with_tests 40000 {spent} {total}")?;
    }
    Ok(())
}
RT
    program bench_view "hs_values hs_rowcodec" <<'RT'
//! Times the opening of a view and the reading of its fields: of rows of two whole numbers and a text of 20
//! characters, and of rows of 64 whole numbers.
#![tactic(auto)]

use hs_rowcodec::RowView;
use hs_values::{SqlType, Types, ValueRef};
use std::alloc::{AllocError, Global};
use std::env;
use std::io;
use std::time::Instant;

fn types(alloc: Global) -> Result<Types, AllocError> {
    let mut types = Types::new(alloc);
    types.push(SqlType::Integer)?;
    types.push(SqlType::Big)?;
    types.push(SqlType::Varchar { max: 20 })?;
    Ok(types)
}

fn wide_types(alloc: Global) -> Result<Types, AllocError> {
    let mut types = Types::new(alloc);
    for _column in 0..64u32 {
        types.push(SqlType::Integer)?;
    }
    Ok(types)
}

/// The bytes of a row of two whole numbers and a text.
fn row(alloc: Global, seed: u8) -> Result<Vec<u8>, AllocError> {
    let mut bytes = [1, 0, 0, 0, seed, 1, 0, 0, 0, 0, 0, 0, 0, seed, 1, 0, 20].to_vec(alloc)?;
    bytes.extend_from_slice(b"twenty characters ..")?;
    Ok(bytes)
}

/// The bytes of a row of 64 whole numbers.
fn wide_row(alloc: Global, seed: u8) -> Result<Vec<u8>, AllocError> {
    let mut bytes = Vec::new(alloc);
    for _column in 0..64u32 {
        bytes.extend_from_slice(&[1, 0, 0, 0, seed])?;
    }
    Ok(bytes)
}

/// Opens a view of each row so many times, and adds up the numbers of columns.
#[inline(never)]
fn opens(count: u32, rows: &[Vec<u8>], types: &Types) -> usize {
    let mut total = 0usize;
    for _time in 0..count {
        for bytes in rows {
            if let Some(view) = RowView::new(bytes.as_slice(), types) {
                total = total.wrapping_add(view.len());
            }
        }
    }
    total
}

/// A number that a field comes to.
fn number_of(field: ValueRef<'_>) -> usize {
    match field {
        ValueRef::Int(n) => (n & 0xff) as usize,
        ValueRef::Text(text) => text.len(),
        _ => 1,
    }
}

/// Opens a view of each row so many times, and reads one field of it.
#[inline(never)]
fn reads(count: u32, rows: &[Vec<u8>], types: &Types, column: usize, times: u32) -> usize {
    let mut total = 0usize;
    for _time in 0..count {
        for bytes in rows {
            if let Some(view) = RowView::new(bytes.as_slice(), types) {
                total = total.wrapping_add(read(&view, column, times));
            }
        }
    }
    total
}

/// Reads one field so many times, all but the last of which the compiler must not leave out.
#[inline(never)]
fn read(view: &RowView<'_>, column: usize, times: u32) -> usize {
    let mut total = 0usize;
    for _time in 0..times {
        let at = column.wrapping_sub(total >> 40);
        if at < view.len() {
            total = total.wrapping_add(number_of(view.field(at)));
        }
    }
    total
}

fn main(rt: HostRuntime) -> io::Result<()> {
    let seed = (env::args(&rt)?.count() & 0x3f) as u8;
    let types = types(rt.alloc())?;
    let rows = [row(rt.alloc(), seed)?, row(rt.alloc(), seed ^ 1)?];
    let wide_types = wide_types(rt.alloc())?;
    let wide_rows = [wide_row(rt.alloc(), seed)?, wide_row(rt.alloc(), seed ^ 1)?];
    for _round in 0..101u32 {
        let start = Instant::now(&rt)?;
        let total = opens(10_000, &rows, &types);
        let spent = start.elapsed(&rt)?.as_nanos();
        println!(rt; "row_open 20000 {spent} {total}")?;
        for column in 0..3usize {
            let start = Instant::now(&rt)?;
            let total = reads(10, &rows, &types, column, 5_000);
            let spent = start.elapsed(&rt)?.as_nanos();
            println!(rt; "row_field_{column} 100000 {spent} {total}")?;
        }
        let start = Instant::now(&rt)?;
        let total = opens(1_000, &wide_rows, &wide_types);
        let spent = start.elapsed(&rt)?.as_nanos();
        println!(rt; "wide_open 2000 {spent} {total}")?;
        for column in [0usize, 31, 63] {
            let start = Instant::now(&rt)?;
            let total = reads(10, &wide_rows, &wide_types, column, 500);
            let spent = start.elapsed(&rt)?.as_nanos();
            println!(rt; "wide_field_{column} 10000 {spent} {total}")?;
        }
    }
    Ok(())
}
RT
fi

if [[ $wanted == *" pages "* ]]; then
    program bench_pages "hs_base hs_page" <<'RT'
//! Times rows put into a page, each with the look at its room, that look alone, and a full page that is read.
#![tactic(auto)]

use hs_base::{RowNo, TableNo};
use hs_page::Page;
use std::io;
use std::time::Instant;

/// Puts rows of 20 bytes into empty pages until these are full, and counts them.
#[inline(never)]
fn fill(page: &mut Page, pages: u32) -> u32 {
    let mut rows: u32 = 0;
    for _page in 0..pages {
        *page = Page::empty();
        for row in 0..102_u64 {
            if page.room() >= 20 {
                page.put(TableNo(7), RowNo(row), b"twenty bytes of data");
                rows = rows.wrapping_add(1);
            }
        }
    }
    rows
}

/// A page of so many rows of 20 bytes.
fn page_of(rows: u64) -> Page {
    let mut page = Page::empty();
    for row in 0..rows {
        if page.room() >= 20 {
            page.put(TableNo(7), RowNo(row), b"twenty bytes of data");
        }
    }
    page
}

/// Puts one row into copies of a page, and counts the bytes of its slot.
#[inline(never)]
fn put_into_copies(page: &Page, count: u32) -> usize {
    let mut total: usize = 0;
    if page.room() >= 20 {
        for _copy in 0..count {
            let mut copy = *page;
            let slot = copy.put(TableNo(7), RowNo(total as u64), b"twenty bytes of data");
            total = total.wrapping_add(copy.slot(slot).len());
        }
    }
    total
}

/// The same without the row.
#[inline(never)]
fn copies(page: &Page, count: u32) -> usize {
    let mut total: usize = 0;
    for _copy in 0..count {
        let copy = *page;
        total = total.wrapping_add(copy.slot((total & 31) as u16).len());
    }
    total
}

#[inline(never)]
fn reads(bytes: &[u8]) -> u32 {
    let mut total: u32 = 0;
    for _time in 0..1000_u32 {
        if Page::read(bytes).is_some() {
            total = total.wrapping_add(1);
        }
    }
    total
}

/// Takes every second row out of a full page, and puts others there, so that the rows stand in no order.
fn mix(page: &mut Page) {
    for slot in 0..102_u16 {
        if slot % 2 == 0 && !page.slot(slot).is_empty() {
            page.take(slot);
        }
    }
    for row in 0..102_u64 {
        let bytes = b"twenty bytes of data, 30 bytes".split_at(10 + (row % 3 * 5) as usize).1;
        if !bytes.is_empty() && page.room() >= bytes.len() {
            page.put(TableNo(7), RowNo(row), bytes);
        }
    }
}

fn main(rt: HostRuntime) -> io::Result<()> {
    let half = page_of(51);
    let nearly_full = page_of(101);
    for _round in 0..101_u32 {
        let mut page = Page::empty();
        let start = Instant::now(&rt)?;
        let rows = fill(&mut page, 100);
        let spent = start.elapsed(&rt)?.as_nanos();
        println!(rt; "page_put_with_room {rows} {spent}")?;
        let start = Instant::now(&rt)?;
        let total = put_into_copies(&half, 10_000);
        let spent = start.elapsed(&rt)?.as_nanos();
        println!(rt; "page_copy_with_put_51 10000 {spent} {total}")?;
        let start = Instant::now(&rt)?;
        let total = put_into_copies(&nearly_full, 10_000);
        let spent = start.elapsed(&rt)?.as_nanos();
        println!(rt; "page_copy_with_put_101 10000 {spent} {total}")?;
        let start = Instant::now(&rt)?;
        let total = copies(&half, 10_000);
        let spent = start.elapsed(&rt)?.as_nanos();
        println!(rt; "page_copy 10000 {spent} {total}")?;
        let start = Instant::now(&rt)?;
        let pages = reads(page.bytes());
        let spent = start.elapsed(&rt)?.as_nanos();
        println!(rt; "page_read_full {pages} {spent}")?;
        mix(&mut page);
        let start = Instant::now(&rt)?;
        let pages = reads(page.bytes());
        let spent = start.elapsed(&rt)?.as_nanos();
        println!(rt; "page_read_mixed {pages} {spent}")?;
    }
    Ok(())
}
RT
fi

if [[ $wanted == *" frames "* ]]; then
    program bench_frames "hs_base hs_page hs_cache" <<'RT'
//! Times touches of held pages among 65,536: of a few, of all in turn, and of any.
#![tactic(auto)]

use hs_base::PageNo;
use hs_cache::Frames;
use hs_page::Page;
use std::io;
use std::time::Instant;

fn hold_all(frames: &mut Frames, page: &Page) {
    for p in 0..65_536_u64 {
        if !frames.is_full() && !frames.holds(PageNo(p)) {
            let _ = frames.add(PageNo(p), *page);
        }
    }
}

/// Touches pages here and there below a number, and counts those that are held.
#[inline(never)]
fn touches(frames: &mut Frames, seed: u64, mask: u64) -> u32 {
    let mut held: u32 = 0;
    let mut p = seed;
    for _time in 0..10_000_u32 {
        p = p.wrapping_mul(25_214_903_917).wrapping_add(11);
        if frames.touch(PageNo((p >> 16) & mask)) {
            held = held.wrapping_add(1);
        }
    }
    held
}

/// Touches pages in turn.
#[inline(never)]
fn touches_in_turn(frames: &mut Frames, from: u64) -> u32 {
    let mut held: u32 = 0;
    for p in 0..10_000_u64 {
        if frames.touch(PageNo(from.wrapping_add(p) & 65_535)) {
            held = held.wrapping_add(1);
        }
    }
    held
}

fn main(rt: HostRuntime) -> io::Result<()> {
    if let Ok(mut frames) = Frames::new(rt.alloc(), 65_536) {
        hold_all(&mut frames, &Page::empty());
        for round in 0..101_u64 {
            let start = Instant::now(&rt)?;
            let held = touches_in_turn(&mut frames, round.wrapping_mul(10_000));
            let spent = start.elapsed(&rt)?.as_nanos();
            println!(rt; "frame_touch_in_turn {held} {spent}")?;
        }
        for round in 0..101_u64 {
            let start = Instant::now(&rt)?;
            let held = touches(&mut frames, round, 255);
            let spent = start.elapsed(&rt)?.as_nanos();
            println!(rt; "frame_touch_of_256 {held} {spent}")?;
        }
        for round in 0..101_u64 {
            let start = Instant::now(&rt)?;
            let held = touches(&mut frames, round, 65_535);
            let spent = start.elapsed(&rt)?.as_nanos();
            println!(rt; "frame_touch_of_any {held} {spent}")?;
        }
    }
    Ok(())
}
RT
fi

if [[ $wanted == *" text "* ]]; then
    program bench_text "hs_base hs_values hs_workload" <<'RT'
//! Times the input of 100,000 entries, a call for each byte.
#![tactic(auto)]

use hs_workload::text;
use std::io;
use std::time::Instant;

fn main(rt: HostRuntime) -> io::Result<()> {
    for _round in 0..21_u32 {
        let start = Instant::now(&rt)?;
        if let Ok(all) = text(rt.alloc(), 100_000) {
            let made = start.elapsed(&rt)?.as_nanos();
            let bytes = all.len();
            println!(rt; "byte_of_text {bytes} {made}")?;
        }
    }
    Ok(())
}
RT
fi

while read -r label; do
    median=$(rank "$label" 0.5) least=$(rank "$label" 0)
    most='no figure wanted'
    case $label in
        byte_of_text)
            printf '%-26s median %7.0f, best %7.0f MB a second (wanted: at least 200)\n' \
                "$label" "$(reckon "1000 / $median")" "$(reckon "1000 / $least")"
            continue
            ;;
        row_encode) most='wanted: at most 60' ;;
        row_open) most='wanted: at most 40' ;;
        row_field_*) most='wanted: at most 10' ;;
        page_copy_with_put_*) most='wanted: at most 100 above a page_copy' ;;
        page_read_*) most='wanted: at most 2000' ;;
        frame_touch*) most='wanted: at most 40' ;;
    esac
    printf '%-26s median %7.1f, best %7.1f ns a call (%s)\n' "$label" "$median" "$least" "$most"
done < <(labels)
