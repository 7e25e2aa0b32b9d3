//! Where a count is lost: read as a value and written again, it comes back as another count or is
//! refused. The searches use f32 operations alone; every pair of a count and a scale factor that is
//! printed is put to the original too.

use crate::answer::{answer, ACCEPTED, REFUSED};
use crate::cases::floats;
use crate::layout::bits;
use std::io;
use std::ops::Range;

/// The bits of 2 to the power of `exponent`, from -126 to 127; for 128, those of infinity.
const fn power(exponent: i32) -> u32 {
    ((127 + exponent) as u32) << 23
}

/// The bit of a scale factor below 0.
const NEGATIVE: u32 = 1 << 31;

/// The counts for small scale factors and for 0.
const SOME: [i32; 9] = [1, 2, 3, 5, 7, 1_000_003, 2_097_151, 2_097_152, 4_194_303];

fn value_of(count: i32, scale: f32) -> f32 {
    count as f32 * scale
}

/// The count of a value: `None` where 11 refuses. Where the quotient isn't a number it is 0.
fn count_of(value: f32, scale: f32) -> Option<i32> {
    let scaled = (value / scale).round();
    if 2_147_483_648.0 < scaled.abs() {
        None
    } else {
        Some(scaled as i32)
    }
}

/// Whether a count from 1 to 2^23 - 1 is lost at a scale factor. The quotients that round to it are
/// those from half below it up to, but not with, half above it; both halves are f32 numbers.
fn is_lost(count: f32, scale: f32) -> bool {
    !(count - 0.5..count + 0.5).contains(&(count * scale / scale))
}

/// How many of the scale factors with these bits lose such a count, and the first of them.
fn lost(count: i32, scales: &Range<u32>) -> (u32, Option<u32>) {
    let count = count as f32;
    let is_one = |scale: u32| is_lost(count, f32::from_bits(scale));
    // Checked additions would keep the compiler from taking several scale factors at a time.
    let ones = scales.clone().map(|scale| u32::from(is_one(scale)));
    match ones.fold(0, u32::wrapping_add) {
        0 => (0, None),
        number => (number, scales.clone().find(|&scale| is_one(scale))),
    }
}

/// Prints what becomes of counts at scale factors of these bits; whether the original says the same
/// of all of them.
fn tell(pairs: impl IntoIterator<Item = (i32, u32)>) -> bool {
    let mut all = true;
    for (count, scale) in pairs {
        let scale = f32::from_bits(scale);
        let value = value_of(count, scale);
        let (told, back) = match count_of(value, scale) {
            Some(back) => {
                (format!("comes back as {back}"), [&[ACCEPTED][..], &back.to_be_bytes()].concat())
            }
            None => ("refused 11".to_string(), [&[REFUSED, 11][..], &[0; 8]].concat()),
        };
        let read = [&[ACCEPTED][..], &bits(value).to_be_bytes()].concat();
        let same = answer(b'v', &floats(count as u32, scale)) == read
            && answer(b'c', &floats(value.to_bits(), scale)) == back;
        all &= same;
        let said = if same { "the same" } else { "otherwise" };
        let (scale, value) = (scale.to_bits(), value.to_bits());
        println!("  {count} at {scale:08x}: value {value:08x}, {told}; the original: {said}");
    }
    all
}

/// 2^22 at every scale factor of magnitude 2^-30 to 2^30.
fn power_of_two() -> bool {
    let count = 1 << 22;
    let positive = power(-30)..power(30) + 1;
    let negative = positive.start | NEGATIVE..positive.end | NEGATIVE;
    let mut same = true;
    for (scales, which) in [(positive, "2^-30 to 2^30"), (negative, "-2^-30 to -2^30")] {
        let (number, first) = lost(count, &scales);
        println!("{count} at every scale factor from {which}");
        println!("  {} pairs, {number} lost", scales.len());
        same &= tell(first.map(|scale| (count, scale)));
    }
    same
}

/// Counts from 2^22 + 1 upward, until one is lost. The significand of the scale factor decides alone,
/// where no value is too small or too large for all its bits.
fn first_count() -> bool {
    let (first, scales) = ((1 << 22) + 1, power(0)..power(1));
    println!("counts upward from {first}, each at every scale factor from 1 up to, not with, 2");
    println!("  {} scale factors", scales.len());
    let mut pairs = 0;
    for count in first..1 << 23 {
        pairs += scales.len();
        if let (number, Some(scale)) = lost(count, &scales) {
            println!("  {} counts, {pairs} pairs", count - first + 1);
            println!("  {count} is the first that is lost, at {number} of the scale factors");
            let other = scale | NEGATIVE;
            return tell([(count, scale), (-count, scale), (count, other), (-count, other)]);
        }
    }
    println!("  {pairs} pairs, 0 lost");
    true
}

/// 2^21 at scale factors above 2^30, and every count up to it at the scale factor before the first
/// that loses it.
fn large_scales() -> bool {
    let (count, scales) = (1 << 21, power(30) + 1..power(128));
    let (number, first) = lost(count, &scales);
    println!("{count} at every finite scale factor above 2^30");
    println!("  {} pairs, {number} lost, the first of them", scales.len());
    let same = tell(first.map(|scale| (count, scale)));
    let below = first.unwrap_or(scales.end) - 1;
    let scale = f32::from_bits(below);
    let is_lost = |count: &i32| count_of(value_of(*count, scale), scale) != Some(*count);
    let number = (1..=count).filter(is_lost).count();
    println!("every count from 1 to {count} at the scale factor before, {below:08x}");
    println!("  {count} pairs, {number} lost");
    same
}

/// Some counts at scale factors below 2^-30, and at 0.
fn small_scales() -> bool {
    println!("of {SOME:?}");
    let mut same = true;
    for (scales, which) in [
        (1..power(-126), "subnormal scale factor"),
        (power(-126)..power(-30), "scale factor from 2^-126 up to, not with, 2^-30"),
    ] {
        let found = SOME.map(|count| (count, lost(count, &scales)));
        let number: u64 = found.iter().map(|(_, (number, _))| u64::from(*number)).sum();
        println!("each at every {which}");
        println!("  {} pairs, {number} lost", SOME.len() * scales.len());
        same &= tell(found.iter().filter_map(|(count, (_, first))| first.map(|one| (*count, one))));
    }
    println!("each at the scale factor 0");
    tell(SOME.map(|count| (count, 0))) && same
}

/// Prints what is searched and what is lost; whether the original says the same of every pair that
/// is printed.
pub fn run() -> io::Result<bool> {
    let parts = [power_of_two(), first_count(), large_scales(), small_scales()];
    Ok(parts.iter().all(|same| *same))
}
