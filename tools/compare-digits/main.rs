//! An outside judge of the crate `digits`: its texts against those of rustc's own formatting, float by float.
//!
//!     compare-digits bare [STRIDE]       every STRIDE-th float of the domain, both signs, against `Display`
//!     compare-digits rounded [STRIDE]    every STRIDE-th float up to 2^40, both signs, at each precision, against `write_num`
//!     compare-digits bench               nanoseconds per number, the same floats, in one run
//!
//! `write_num` is usvg's function. A whole number outside i32, which it saturates, is expected in full.

use std::fmt::Write;
use std::time::Instant;

#[repr(C)]
struct Numeral {
    bytes: [u8; 32],
    length: usize,
}

impl Numeral {
    fn new() -> Numeral {
        Numeral { bytes: [0; 32], length: 0 }
    }

    fn text(&self) -> &str {
        std::str::from_utf8(&self.bytes[32 - self.length..]).unwrap()
    }
}

unsafe extern "C" {
    fn digits_bare(x: f32, out: &mut Numeral) -> bool;
    fn digits_rounded(x: f32, precision: u8, out: &mut Numeral) -> bool;
}

const LEAST: u32 = 0x322B_CC77;
const MOST: u32 = 0x5380_0000;
const SIGN: u32 = 0x8000_0000;

static POWERS: [f32; 9] = [1.0, 10.0, 100.0, 1_000.0, 10_000.0, 100_000.0, 1_000_000.0, 10_000_000.0, 100_000_000.0];

/// float-cmp's `approx_zero_ulps`: equal to zero, or of zero's sign and at most so many units in the last place away.
fn approx_zero_ulps(x: f32, ulps: i32) -> bool {
    if x == 0.0 {
        return true;
    }
    if x.is_sign_negative() {
        return false;
    }
    let diff = x.to_bits() as i32;
    diff >= -ulps && diff <= ulps
}

/// usvg's `write_num`, but for whole numbers outside i32.
fn write_num(num: f32, text: &mut String, precision: u8) {
    if approx_zero_ulps(num.fract(), 4) {
        let whole = num as i32;
        if whole == i32::MAX || whole == i32::MIN {
            write!(text, "{}", num as i64).unwrap();
        } else {
            write!(text, "{}", whole).unwrap();
        }
        return;
    }
    let v = (num * POWERS[precision as usize]).round() / POWERS[precision as usize];
    write!(text, "{}", v).unwrap();
}

/// Runs `check` over parts of a range of bit patterns, a thread to each part, and adds up the counts.
fn spread(first: u32, last: u32, stride: u32, check: fn(u32, u32, u32) -> u64) -> u64 {
    let threads = std::env::var("JOBS").ok().and_then(|n| n.parse().ok()).unwrap_or(2u32);
    let part = (last - first) / threads + 1;
    let mut handles = Vec::new();
    for t in 0..threads {
        let from = first + t * part;
        let to = last.min(from + (part - 1));
        handles.push(std::thread::spawn(move || check(from, to, stride)));
    }
    handles.into_iter().map(|h| h.join().unwrap()).sum()
}

fn same(bits: u32, what: &str, ours: &str, theirs: &str) {
    if ours != theirs {
        eprintln!("{:08X} {}: ours `{}`, expected `{}`", bits, what, ours, theirs);
        std::process::exit(1);
    }
}

/// The bits of every `stride`th float of a range of magnitudes, with both signs.
fn both_signs(from: u32, to: u32, stride: u32) -> impl Iterator<Item = u32> {
    (from..=to).step_by(stride as usize).flat_map(|size| [size, size | SIGN])
}

/// What a call showed.
fn shown(accepted: bool, numeral: &Numeral) -> &str {
    if accepted { numeral.text() } else { "(refused)" }
}

fn check_bare(from: u32, to: u32, stride: u32) -> u64 {
    let mut numeral = Numeral::new();
    let mut text = String::new();
    let mut count = 0;
    for bits in both_signs(from, to, stride) {
        let x = f32::from_bits(bits);
        text.clear();
        write!(text, "{}", x).unwrap();
        let accepted = unsafe { digits_bare(x, &mut numeral) };
        same(bits, "bare", shown(accepted, &numeral), &text);
        count += 1;
    }
    count
}

fn check_rounded(from: u32, to: u32, stride: u32) -> u64 {
    let mut numeral = Numeral::new();
    let mut text = String::new();
    let mut count = 0;
    for bits in both_signs(from, to, stride) {
        let x = f32::from_bits(bits);
        for precision in 0..9u8 {
            text.clear();
            write_num(x, &mut text, precision);
            let accepted = unsafe { digits_rounded(x, precision, &mut numeral) };
            same(bits, "rounded", shown(accepted, &numeral), &text);
        }
        count += 1;
    }
    count
}

/// What lies outside the domains is refused, and the zeros are shown.
fn check_edges() {
    let mut numeral = Numeral::new();
    for (bits, expected) in [(0, "0"), (SIGN, "-0"), (MOST, "1099511600000"), (LEAST, "0.00000001")] {
        assert!(unsafe { digits_bare(f32::from_bits(bits), &mut numeral) });
        assert_eq!(numeral.text(), expected);
    }
    for bits in [1, LEAST - 1, MOST + 1, 0x7F80_0000, 0x7FC0_0000, 0x7F80_0001] {
        for sign in [0, SIGN] {
            assert!(!unsafe { digits_bare(f32::from_bits(bits | sign), &mut numeral) });
        }
    }
    for bits in [MOST + 1, 0x7F7F_FFFF, 0x7F80_0000, 0x7FC0_0000] {
        for sign in [0, SIGN] {
            for precision in 0..=255u8 {
                assert!(!unsafe { digits_rounded(f32::from_bits(bits | sign), precision, &mut numeral) });
            }
        }
    }
    for precision in 9..=255u8 {
        assert!(!unsafe { digits_rounded(1.5, precision, &mut numeral) });
    }
}

/// Floats such as drawings have: spread over the bit patterns of magnitudes from 0.001 to 10,000.
fn sample() -> Vec<f32> {
    let (low, high) = (0.001f32.to_bits(), 10_000f32.to_bits());
    let mut state = 0x2545_F491_4F6C_DD1Du64;
    let mut floats = Vec::new();
    for _ in 0..1_000_000 {
        state ^= state << 13;
        state ^= state >> 7;
        state ^= state << 17;
        floats.push(f32::from_bits(low + (state % u64::from(high - low)) as u32));
    }
    floats
}

fn timed(label: &str, floats: &[f32], mut run: impl FnMut(f32) -> usize) -> f64 {
    let mut best = f64::MAX;
    let mut bytes = 0;
    for _ in 0..5 {
        let start = Instant::now();
        bytes = 0;
        for x in floats {
            bytes += run(*x);
        }
        best = best.min(start.elapsed().as_nanos() as f64 / floats.len() as f64);
    }
    println!("{label}: {best:.1} ns per number ({bytes} bytes)");
    best
}

fn bench() {
    let floats = sample();
    let mut numeral = Numeral::new();
    let mut text = String::new();
    let theirs = timed("bare, Display", &floats, |x| {
        text.clear();
        write!(text, "{}", x).unwrap();
        text.len()
    });
    let ours = timed("bare, digits", &floats, |x| {
        unsafe { digits_bare(x, &mut numeral) };
        numeral.length
    });
    println!("bare: {:.2} times the time of Display", ours / theirs);
    for precision in [2, 8] {
        let theirs = timed(&format!("rounded at {precision}, write_num"), &floats, |x| {
            text.clear();
            write_num(x, &mut text, precision);
            text.len()
        });
        let ours = timed(&format!("rounded at {precision}, digits"), &floats, |x| {
            unsafe { digits_rounded(x, precision, &mut numeral) };
            numeral.length
        });
        println!("rounded at {precision}: {:.2} times the time of write_num", ours / theirs);
    }
}

fn main() {
    let args: Vec<String> = std::env::args().collect();
    let stride = args.get(2).map_or(1, |n| n.parse().unwrap());
    let start = Instant::now();
    check_edges();
    match args.get(1).map(String::as_str) {
        Some("bare") => {
            let count = spread(LEAST, MOST, stride, check_bare);
            println!("bare: {count} floats agree with Display, {} s", start.elapsed().as_secs());
        }
        Some("rounded") => {
            let count = spread(0, MOST, stride, check_rounded);
            println!("rounded: {count} floats agree with write_num at 9 precisions each, {} s", start.elapsed().as_secs());
        }
        Some("bench") => bench(),
        _ => {
            eprintln!("usage: compare-digits bare|rounded [STRIDE], or bench");
            std::process::exit(2);
        }
    }
}
