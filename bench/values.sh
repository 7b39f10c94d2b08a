#!/usr/bin/env bash
# Times calls of the libraries: decimals, LIKE and dates. Prints the median and the least of the rounds of three runs. A
# round is of about a millisecond, so that other work on the machine meets few of them.
#
# usage: bench/values.sh [decimal|like|dates]..      (default: all)
#
# It writes throwaway programs over copies of crates.txt and crates/ into a temporary folder, has them proved and built
# there, and removes the folder at the end. This is no part of the gate. A first run proves the libraries in the copy,
# which takes some minutes. With BENCH_FOLDER the copy is kept in that folder, and a later run proves only what has
# changed.
set -eu
wanted=" ${*:-decimal like dates} "
top=$(cd "$(dirname "${BASH_SOURCE[0]}")/.." && pwd)
work=$(mktemp -d)
trap 'rm -rf "$work"' EXIT
copy=${BENCH_FOLDER:-$work/copy}
# shellcheck source=bench/shared.sh
. "$top/bench/shared.sh"
libraries hs_values hs_decimal hs_scalar hs_temporal

if [[ $wanted == *" decimal "* ]]; then
    program bench_decimal "hs_values hs_decimal" <<'RT'
//! Times sums, quotients and comparisons of decimals.
#![tactic(auto)]

use hs_decimal::{add, div};
use hs_values::{Dec, EvalFault, ValueRef, checked_decimal, order};
use std::cmp::Ordering;
use std::env;
use std::io;
use std::time::Instant;

/// The scales of two operands. They are known only when the program runs, so that the compiler folds nothing.
#[derive(Clone, Copy)]
struct Scales {
    left: u8,
    right: u8,
}

/// The sum of two decimals of these scales, with the making of both.
fn sum(units: i128, addend: i128, scales: Scales) -> Result<Dec, EvalFault> {
    let a = checked_decimal(units, scales.left)?;
    let b = checked_decimal(addend, scales.right)?;
    add(a, b)
}

/// A quotient of 38 digits, of numbers of 38 digits, with the making of both.
fn quotient(dividend: i128, divisor: i128, scales: Scales) -> Result<Dec, EvalFault> {
    let a = checked_decimal(dividend, scales.left)?;
    let b = checked_decimal(divisor, scales.right)?;
    div(a, b)
}

fn sums(count: u32, seed: i128, scales: Scales) -> i128 {
    let mut total = seed;
    for at in 0..count {
        if let Ok(d) = sum(total >> 32, i128::from(at), scales) {
            total = total.wrapping_add(d.units);
        }
    }
    total
}

fn quotients(count: u32, seed: i128, scales: Scales) -> i128 {
    let mut total = seed;
    for at in 0..count {
        let dividend = 50_000_000_000_000_000_000_000_000_000_000_000_000i128.wrapping_add(i128::from(at));
        if let Ok(d) = quotient(dividend, 70_000_000_000_000_000_000_000_000_000_000_000_003, scales) {
            total = total.wrapping_add(d.units);
        }
    }
    total
}

/// How many of these decimals are below one of another scale.
fn comparisons(count: u32, seed: i128, scales: Scales) -> u32 {
    let mut below = 0u32;
    let b = Dec {
        units: 12_345_678_901_234_567_890,
        scale: scales.right,
    };
    for at in 0..count {
        let a = Dec {
            units: seed.wrapping_mul(i128::from(at)),
            scale: scales.left,
        };
        if let Ordering::Less = order(ValueRef::Dec(a), ValueRef::Dec(b)) {
            below = below.saturating_add(1);
        }
    }
    below
}

fn main(rt: HostRuntime) -> io::Result<()> {
    // There is one word, the program's name; the scales of sums are 2 and 0, of comparisons 2 and 7, of quotients 38.
    let words = env::args(&rt)?.count();
    let seed = (words as i128).wrapping_mul(1_234_567_890_123);
    let word = u8::try_from(words).unwrap_or(1);
    let unlike = Scales { left: word.wrapping_add(1), right: word.wrapping_sub(1) };
    let far = Scales { left: word.wrapping_add(1), right: word.wrapping_add(6) };
    let wide = Scales { left: word.wrapping_add(37), right: word.wrapping_add(37) };
    for _round in 0..101u32 {
        let start = Instant::now(&rt)?;
        let total = sums(20_000, seed, unlike);
        let spent = start.elapsed(&rt)?.as_nanos();
        println!(rt; "decimal_sum 20000 {spent} {total}")?;
        let start = Instant::now(&rt)?;
        let below = comparisons(50_000, seed, far);
        let spent = start.elapsed(&rt)?.as_nanos();
        println!(rt; "decimal_comparison 50000 {spent} {below}")?;
        let start = Instant::now(&rt)?;
        let total = quotients(2_000, seed, wide);
        let spent = start.elapsed(&rt)?.as_nanos();
        println!(rt; "decimal_quotient_38_by_38 2000 {spent} {total}")?;
    }
    Ok(())
}
RT
fi

if [[ $wanted == *" like "* ]]; then
    program bench_like "hs_scalar" <<'RT'
//! Times LIKE over texts of 4,000 characters.
#![tactic(auto)]

use hs_scalar::like;
use std::alloc::Global;
use std::io;
use std::time::Instant;

/// A text of 4,000 characters.
fn text(alloc: Global) -> io::Result<String> {
    let mut text = String::new(alloc);
    for _part in 0..400u32 {
        text.push_str("abcdefghij")?;
    }
    Ok(text)
}

/// How often the text is like the pattern.
fn likes(count: u32, text: &str, pattern: &str) -> u32 {
    let mut found = 0u32;
    for at in 0..count {
        let escape = if at == count { Some('!') } else { None };
        if like(text, pattern, escape) {
            found = found.saturating_add(1);
        }
    }
    found
}

fn main(rt: HostRuntime) -> io::Result<()> {
    let text = text(rt.alloc())?;
    for _round in 0..101u32 {
        let start = Instant::now(&rt)?;
        let found = likes(25, text.as_str(), "%xyz%");
        let spent = start.elapsed(&rt)?.as_nanos();
        println!(rt; "like_first_letter_absent 25 {spent} {found}")?;
        let start = Instant::now(&rt)?;
        let found = likes(25, text.as_str(), "%hijk%");
        let spent = start.elapsed(&rt)?.as_nanos();
        println!(rt; "like_front_repeated 25 {spent} {found}")?;
        let start = Instant::now(&rt)?;
        let found = likes(25, text.as_str(), "%a%j%a%j");
        let spent = start.elapsed(&rt)?.as_nanos();
        println!(rt; "like_runs 25 {spent} {found}")?;
    }
    Ok(())
}
RT
fi

if [[ $wanted == *" dates "* ]]; then
    program bench_dates "hs_values hs_temporal" <<'RT'
//! Times the reading of dates.
#![tactic(auto)]

use hs_temporal::read_date;
use std::alloc::Global;
use std::io;
use std::time::Instant;

/// A thousand dates.
fn dates(alloc: Global) -> io::Result<Vec<String>> {
    let mut dates = Vec::new(alloc);
    for year in 1500..2500u32 {
        dates.push(format!(in alloc; "{year}-02-27")?)?;
    }
    Ok(dates)
}

/// The sum of the day numbers of these dates, read so many times.
fn days(times: u32, dates: &[String]) -> i64 {
    let mut total = 0i64;
    for _time in 0..times {
        for date in dates {
            if let Ok(day) = read_date(date.as_str()) {
                total = total.wrapping_add(i64::from(day));
            }
        }
    }
    total
}

fn main(rt: HostRuntime) -> io::Result<()> {
    let dates = dates(rt.alloc())?;
    for _round in 0..101u32 {
        let start = Instant::now(&rt)?;
        let total = days(20, &dates);
        let spent = start.elapsed(&rt)?.as_nanos();
        println!(rt; "date_read 20000 {spent} {total}")?;
    }
    Ok(())
}
RT
fi

while read -r label; do
    median=$(rank "$label" 0.5) least=$(rank "$label" 0)
    case $label in
        like_*)
            awk -v label="$label" -v median="$median" -v least="$least" 'BEGIN {
                printf "%-26s median %7.1f, best %7.1f MB a second (wanted: at least 100)\n", label, 4e6 / median, 4e6 / least }'
            ;;
        *)
            case $label in
                date_read) most=300 ;;
                decimal_quotient_38_by_38) most=5,000 ;;
                *) most=100 ;;
            esac
            printf '%-26s median %7.1f, best %7.1f ns a call (wanted: at most %s)\n' "$label" "$median" "$least" "$most"
            ;;
    esac
done < <(labels)
