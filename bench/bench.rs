// The proved functions against plain safe Rust: first that both agree, then how long each takes, in the same run.
//
//     bench/run            compares and times
//     bench/run --check    compares only, and prints 'N passed, M failed'
mod common;

use common::{median, Random, Tests};
use std::hint::black_box;
use std::time::Instant;

const ROW: usize = 744;
const STORE: usize = 14 * ROW;
const VOLUME_MAX: u64 = 744_000_000;
const WEIGHTS_MAX: u64 = 2_232_000_000;

extern "C" {
    fn bench_share_by_past(volume: u64, past: *const u32, t: usize, chosen: *const bool, flags: usize, hours: *mut u32, room: usize) -> bool;
    fn bench_peak_rule(volume: u64, power: u32, marks: *const u8, n: usize, hours: *mut u32, room: usize) -> bool;
    fn bench_none_above(words: *const u32, n: usize, limit: u32) -> bool;
}

fn share_rattle(volume: u64, past: &[u32], chosen: &[bool], hours: &mut [u32]) -> bool {
    unsafe { bench_share_by_past(volume, past.as_ptr(), past.len(), chosen.as_ptr(), chosen.len(), hours.as_mut_ptr(), hours.len()) }
}

fn peak_rattle(volume: u64, power: u32, marks: &[u8], hours: &mut [u32]) -> bool {
    unsafe { bench_peak_rule(volume, power, marks.as_ptr(), marks.len(), hours.as_mut_ptr(), hours.len()) }
}

fn scan_rattle(words: &[u32], limit: u32) -> bool {
    unsafe { bench_none_above(words.as_ptr(), words.len(), limit) }
}

// The same in plain safe Rust, with the same checks.

fn weight(past: &[u32], h: usize) -> u64 {
    if h < past.len() {
        past[h] as u64
    } else {
        past.get(h.saturating_sub(168)).map_or(0, |&w| w as u64)
    }
}

fn fits(volume: u64, t: usize, room: usize) -> bool {
    volume <= VOLUME_MAX && (1..=ROW).contains(&t) && t <= room
}

// x / d rounded half up; d is above 0.
fn half_up(x: u64, d: u64) -> u64 {
    (2 * x + d) / (2 * d)
}

#[inline(never)]
fn share_rust(volume: u64, past: &[u32], chosen: &[bool], hours: &mut [u32]) -> bool {
    if !fits(volume, chosen.len(), hours.len()) {
        return false;
    }
    let sum: u64 = chosen.iter().enumerate().map(|(h, &c)| if c { weight(past, h) } else { 0 }).sum();
    if sum > WEIGHTS_MAX {
        return false;
    }
    let count = chosen.iter().filter(|&&c| c).count() as u64;
    let whole = if sum != 0 { sum } else if count != 0 { count } else { chosen.len() as u64 };
    let (mut passed, mut done) = (0u64, 0u64);
    hours.fill(0);
    for (h, (hour, &c)) in hours.iter_mut().zip(chosen).enumerate() {
        let w = if sum != 0 {
            if c { weight(past, h) } else { 0 }
        } else if count != 0 {
            c as u64
        } else {
            1
        };
        if w != 0 {
            passed += w;
            let next = half_up(volume * passed, whole);
            *hour = (next - done) as u32;
            done = next;
        }
    }
    true
}

#[inline(never)]
fn peak_rust(volume: u64, power: u32, marks: &[u8], hours: &mut [u32]) -> bool {
    if !fits(volume, marks.len(), hours.len()) {
        return false;
    }
    let is_peak = |m: u8| m == 1 || m == 3;
    let t = marks.len() as u64;
    let n = marks.iter().filter(|&&m| is_peak(m)).count() as u64;
    let a = volume.min(n * power as u64);
    let b = volume - a;
    hours.fill(0);
    if n == 0 || n == t {
        // one of the two parts has no hours of its own, and goes evenly over all
        let (mut x, mut y) = (0, 0);
        for (h, hour) in hours.iter_mut().enumerate().take(marks.len()) {
            let (x1, y1) = (half_up(a * (h as u64 + 1), t), half_up(b * (h as u64 + 1), t));
            *hour = (x1 - x + y1 - y) as u32;
            (x, y) = (x1, y1);
        }
        return true;
    }
    let (mut i, mut j, mut x, mut y) = (0u64, 0u64, 0u64, 0u64);
    for (hour, &m) in hours.iter_mut().zip(marks) {
        if is_peak(m) {
            i += 1;
            let next = half_up(a * i, n);
            *hour = (next - x) as u32;
            x = next;
        } else {
            j += 1;
            let next = half_up(b * j, t - n);
            *hour = (next - y) as u32;
            y = next;
        }
    }
    true
}

#[inline(never)]
fn scan_rust(words: &[u32], limit: u32) -> bool {
    !words.iter().any(|&w| w > limit)
}

fn compare(tests: &mut Tests) {
    let mut random = Random(88172645463325252);
    let volumes = [0, 1, 7, 1000, 123_456_789, VOLUME_MAX - 1, VOLUME_MAX, VOLUME_MAX + 1, u64::MAX];
    for round in 0..2000 {
        let limit = [1, 2, 100, 3_000_001, 3_100_000, u32::MAX as u64][random.next(6) as usize];
        let size = if random.next(20) == 0 { random.next(STORE as u64 + 3) as usize } else { STORE };
        let store: Vec<u32> = (0..size).map(|_| random.next(limit) as u32).collect();
        let row = random.next(15) as usize;
        let t = [0, 1, 100, 168, 672, 696, 720, 744, 745][random.next(9) as usize];
        let past = store.get(ROW * row..ROW * row + t).unwrap_or(&[]);
        let length: usize = [0, 1, 6, 24, 672, 696, 720, 744, 745][random.next(9) as usize];
        let density = random.next(4);
        let chosen: Vec<bool> = (0..length).map(|_| density == 3 || random.next(4) < density).collect();
        let room = [744, length, length.saturating_sub(1), 800][random.next(4) as usize];
        let volume = volumes[random.next(volumes.len() as u64) as usize];
        let before: Vec<u32> = (0..room).map(|_| random.next(1 << 32) as u32).collect();
        let (mut a, mut b) = (before.clone(), before.clone());
        let (x, y) = (share_rust(volume, past, &chosen, &mut a), share_rattle(volume, past, &chosen, &mut b));
        tests.check("sharing by a past: the same answer", x == y);
        tests.check("sharing by a past: the same hours", a == b);
        tests.check("sharing by a past: a refusal leaves the buffer", y || b == before);
        tests.check("sharing by a past: the hours sum to the volume", !y || b.iter().map(|&h| h as u64).sum::<u64>() == volume);

        let marks: Vec<u8> = (0..length).map(|_| random.next(1 + round % 5) as u8).collect();
        let power = [0, 1, 3, 100_000, 1_000_000, u32::MAX][random.next(6) as usize];
        let (mut a, mut b) = (before.clone(), before.clone());
        let (x, y) = (peak_rust(volume, power, &marks, &mut a), peak_rattle(volume, power, &marks, &mut b));
        tests.check("peak rule: the same answer", x == y);
        tests.check("peak rule: the same hours", a == b);
        tests.check("peak rule: a refusal leaves the buffer", y || b == before);
        tests.check("peak rule: the hours sum to the volume", !y || b.iter().map(|&h| h as u64).sum::<u64>() == volume);

        let limit = random.next(3_200_000) as u32;
        tests.check("scan: the same answer", scan_rust(&store, limit) == scan_rattle(&store, limit));
    }
    for v in [0u64, 1, 1000, VOLUME_MAX] {
        for mark in 0..=3u8 {
            let marks = vec![mark; ROW];
            let (mut a, mut b) = (vec![7u32; ROW], vec![9u32; ROW]);
            let (x, y) = (peak_rust(v, 250, &marks, &mut a), peak_rattle(v, 250, &marks, &mut b));
            tests.check("peak rule: all hours alike", x && y && a == b);
        }
    }
}

// One sample: the mean time of 200 calls, in nanoseconds.
fn sample(f: &mut impl FnMut()) -> f64 {
    let start = Instant::now();
    for _ in 0..200 {
        f();
    }
    start.elapsed().as_nanos() as f64 / 200.0
}

// The medians of 100 samples each, taken in turn after a warming up, and their ratio.
fn report(name: &str, mut rust: impl FnMut(), mut rattle: impl FnMut()) {
    for _ in 0..20 {
        sample(&mut rust);
        sample(&mut rattle);
    }
    let (mut x, mut y) = (Vec::new(), Vec::new());
    for _ in 0..100 {
        x.push(sample(&mut rust));
        y.push(sample(&mut rattle));
    }
    let (x, y) = (median(x), median(y));
    println!("{name:32} Rust {x:9.1} ns   Rattle {y:9.1} ns   ratio {:.3}", y / x);
}

fn measure() {
    let mut random = Random(1234567);
    let store: Vec<u32> = (0..STORE).map(|_| random.next(3_000_001) as u32).collect();
    let (full, short) = (&store[ROW * 3..ROW * 4], &store[ROW..ROW + 672]);
    let chosen = vec![true; ROW];
    // working days with planned peaks from 8 to 20 and a capacity hour among them
    let marks: Vec<u8> = (0..ROW).map(|h| if h / 24 % 7 >= 5 || !(8..20).contains(&(h % 24)) { 0 } else if h % 24 == 10 { 3 } else { 1 }).collect();
    let (mut a, mut b) = (vec![0u32; ROW], vec![0u32; ROW]);
    let volume = 123_456_789;
    report(
        "share 744 hours by a full row",
        || { black_box(share_rust(black_box(volume), black_box(full), black_box(&chosen), black_box(&mut a))); },
        || { black_box(share_rattle(black_box(volume), black_box(full), black_box(&chosen), black_box(&mut b))); },
    );
    report(
        "share 744 hours by 672",
        || { black_box(share_rust(black_box(volume), black_box(short), black_box(&chosen), black_box(&mut a))); },
        || { black_box(share_rattle(black_box(volume), black_box(short), black_box(&chosen), black_box(&mut b))); },
    );
    report(
        "peak rule over 744 hours",
        || { black_box(peak_rust(black_box(volume), black_box(250_000), black_box(&marks), black_box(&mut a))); },
        || { black_box(peak_rattle(black_box(volume), black_box(250_000), black_box(&marks), black_box(&mut b))); },
    );
    report(
        "scan of 10,416 words",
        || { black_box(scan_rust(black_box(&store), black_box(3_000_000))); },
        || { black_box(scan_rattle(black_box(&store), black_box(3_000_000))); },
    );
}

fn main() {
    common::run(compare, measure)
}
