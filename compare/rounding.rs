// The proved functions of `rounding`, by way of the static library `roundingc`, beside Rust's own.
// compare/run-rounding builds and runs it, and says what the arguments are. Std only.
use std::hint::black_box;
use std::sync::atomic::{AtomicU64, Ordering};
use std::time::Instant;

mod ours {
    extern "C" {
        pub fn rs_sqrt32(x: f32) -> f32;
        pub fn rs_sqrt64(x: f64) -> f64;
        pub fn rs_floor32(x: f32) -> f32;
        pub fn rs_ceil32(x: f32) -> f32;
        pub fn rs_round32(x: f32) -> f32;
        pub fn rs_floor64(x: f64) -> f64;
        pub fn rs_ceil64(x: f64) -> f64;
        pub fn rs_round64(x: f64) -> f64;
        pub fn rs_narrow(x: f64) -> f32;
        pub fn rs_widen(x: f32) -> f64;
        pub fn rs_count32(x: f32) -> u64;
        pub fn rs_count64(x: f64) -> u64;
        pub fn rs_int64(x: f64) -> i64;
        pub fn rs_hypot(a: f32, b: f32) -> f32;
        // A slice crosses as a pointer and a length.
        pub fn rs_sqrt32_all(xs: *const f32, xs_len: usize, out: *mut f32, out_len: usize) -> usize;
        pub fn rs_sqrt64_all(xs: *const f64, xs_len: usize, out: *mut f64, out_len: usize) -> usize;
    }
}

/// Document 01's length of (a, b).
fn hypot(a: f32, b: f32) -> f32 {
    let (x, y) = (f64::from(a), f64::from(b));
    (x * x + y * y).sqrt() as f32
}

fn key32(x: f32) -> u64 {
    if x.is_nan() { u64::MAX } else { u64::from(x.to_bits()) }
}

fn key64(x: f64) -> u64 {
    if x.is_nan() { u64::MAX } else { x.to_bits() }
}

/// How many of the inputs 0 to `inputs` - 1 have answers that differ, by two threads. `differs` is told where a block starts and
/// where it ends, counts in it and keeps the first input that differs.
fn count(name: &str, inputs: u64, differs: impl Fn(u64, u64) -> (u64, Option<String>) + Sync) -> u64 {
    const BLOCK: u64 = 1 << 20;
    let (next, found) = (AtomicU64::new(0), AtomicU64::new(0));
    std::thread::scope(|scope| {
        for _ in 0..2 {
            scope.spawn(|| loop {
                let from = next.fetch_add(BLOCK, Ordering::Relaxed);
                if from >= inputs {
                    break;
                }
                let (n, first) = differs(from, (from + BLOCK).min(inputs));
                if found.fetch_add(n, Ordering::Relaxed) == 0 {
                    first.iter().for_each(|text| println!("{name} of {text}"));
                }
            });
        }
    });
    let found = found.into_inner();
    println!("{name}, {inputs}, {found}");
    found
}

macro_rules! differing {
    ($from:expr, $to:expr, $input:expr, $ours:expr, $theirs:expr) => {{
        let (mut n, mut first) = (0, None);
        for i in $from..$to {
            let x = $input(i);
            let (a, b) = ($ours(x), $theirs(x));
            if a != b {
                n += 1;
                first.get_or_insert_with(|| format!("{x:?}: ours {a:x}, Rust's {b:x}"));
            }
        }
        (n, first)
    }};
}

/// Every single.
fn all_singles() -> u64 {
    println!("operation, inputs, differing");
    macro_rules! every {
        ($name:expr, $ours:expr, $theirs:expr) => {
            count($name, 1 << 32, |from, to| differing!(from, to, |i| f32::from_bits(i as u32), $ours, $theirs))
        };
    }
    unsafe {
        every!("sqrt32", |x| key32(ours::rs_sqrt32(x)), |x: f32| key32(x.sqrt()))
            + every!("floor32", |x| key32(ours::rs_floor32(x)), |x: f32| key32(x.floor()))
            + every!("ceil32", |x| key32(ours::rs_ceil32(x)), |x: f32| key32(x.ceil()))
            + every!("round32", |x| key32(ours::rs_round32(x)), |x: f32| key32(x.round()))
            + every!("widen", |x| key64(ours::rs_widen(x)), |x: f32| key64(f64::from(x)))
            + every!("count32", |x| ours::rs_count32(x), |x: f32| x as usize as u64)
    }
}

/// Random number i of the seed (splitmix64).
fn random(seed: u64, i: u64) -> u64 {
    let mut z = seed.wrapping_mul(0xd134_2543_de82_ef95).wrapping_add(i).wrapping_mul(0x9e37_79b9_7f4a_7c15);
    z = (z ^ (z >> 30)).wrapping_mul(0xbf58_476d_1ce4_e5b9);
    z = (z ^ (z >> 27)).wrapping_mul(0x94d0_49bb_1331_11eb);
    z ^ (z >> 31)
}

/// Double i of the seed: any bits; beside a half; beside the middle of two singles, subnormal ones too; beside the ends of the
/// 64-bit numbers; beside a square of at most 53 digits or the middle of two roots.
fn double(seed: u64, i: u64) -> f64 {
    let (a, b) = (random(seed, 2 * i), random(seed, 2 * i + 1));
    let by = |x: f64, steps: u64| f64::from_bits(x.to_bits().wrapping_add(steps % 5).wrapping_sub(2));
    let sign = if b >> 63 == 0 { 1.0 } else { -1.0 };
    match b % 8 {
        0..=2 => f64::from_bits(a),
        3 => sign * by((a >> (11 + (b >> 8) % 53)) as f64 + 0.5, b >> 16),
        4 => {
            let middle = f64::from(f32::from_bits(a as u32 & 0x7fff_ffff)).to_bits() + (1 << 28);
            sign * by(f64::from_bits(middle), b >> 16)
        }
        5 => sign * by(((a >> (40 + (b >> 8) % 24)) as f64 + 0.5) * f64::from_bits(0x36a0_0000_0000_0000), b >> 16),
        6 => sign * by(f64::from_bits((1023 + (b >> 8) % 66) << 52 | (a & ((1 << ((b >> 16) % 53)) - 1))), b >> 24),
        _ => {
            let root = (a >> (37 + (b >> 8) % 27)) as f64 + if a & 1 == 0 { 0.0 } else { 0.5 };
            by(root * root, b >> 16)
        }
    }
}

fn doubles(seed: u64, millions: u64) -> u64 {
    println!("operation, inputs, differing (doubles of the seed {seed})");
    macro_rules! some {
        ($name:expr, $ours:expr, $theirs:expr) => {
            count($name, millions * 1_000_000, |from, to| differing!(from, to, |i| double(seed, i), $ours, $theirs))
        };
    }
    unsafe {
        some!("sqrt64", |x| key64(ours::rs_sqrt64(x)), |x: f64| key64(x.sqrt()))
            + some!("floor64", |x| key64(ours::rs_floor64(x)), |x: f64| key64(x.floor()))
            + some!("ceil64", |x| key64(ours::rs_ceil64(x)), |x: f64| key64(x.ceil()))
            + some!("round64", |x| key64(ours::rs_round64(x)), |x: f64| key64(x.round()))
            + some!("narrow", |x| key32(ours::rs_narrow(x)), |x: f64| key32(x as f32))
            + some!("count64", |x| ours::rs_count64(x), |x: f64| x as usize as u64)
            + some!("int64", |x| ours::rs_int64(x), |x: f64| x as i64)
    }
}

/// Pair i of the seed: any bits; two of like size; two near document 01's 1e-3.
fn pair(seed: u64, i: u64) -> (f32, f32) {
    let (a, b) = (random(seed, 2 * i), random(seed, 2 * i + 1));
    match b % 3 {
        0 => (f32::from_bits(a as u32), f32::from_bits((a >> 32) as u32)),
        1 => {
            let size = ((b >> 8) % 200 + 20) as u32;
            let of = |bits: u64, up: u64| f32::from_bits((bits as u32 & 0x807f_ffff) | (size + up as u32) << 23);
            (of(a, 0), of(a >> 32, (b >> 16) % 4))
        }
        _ => {
            let part = (a >> 40) as f32 / (1u64 << 24) as f32 * 1e-3;
            let rest = (1e-6 - f64::from(part) * f64::from(part)).max(0.0).sqrt() as f32;
            (part, f32::from_bits(rest.to_bits().wrapping_add((b >> 8) as u32 % 9).wrapping_sub(4)))
        }
    }
}

fn pairs(seed: u64, millions: u64) -> u64 {
    println!("operation, inputs, differing (pairs of the seed {seed})");
    count("hypot", millions * 1_000_000, |from, to| {
        differing!(from, to, |i| pair(seed, i), |(a, b)| key32(unsafe { ours::rs_hypot(a, b) }), |(a, b)| key32(hypot(a, b)))
    })
}

/// Nanoseconds for each of `n` numbers: the best of many runs of `work`.
fn best(n: usize, mut work: impl FnMut()) -> f64 {
    let mut least = f64::INFINITY;
    for _ in 0..300 {
        let start = Instant::now();
        for _ in 0..8 {
            work();
        }
        least = least.min(start.elapsed().as_nanos() as f64 / (8 * n) as f64);
    }
    least
}

const MANY: usize = 4096;

/// The four columns: Rust's function is a call of its own, and in a loop that the compiler may turn into vector code.
fn line(name: &str, all: Option<f64>, call: f64, rust_loop: f64, rust_call: f64) {
    let all = all.map_or("-".to_string(), |t| format!("{t:.2}"));
    println!("{name}, {all}, {call:.2}, {rust_loop:.2}, {rust_call:.2}");
}

macro_rules! timed {
    ($name:expr, $xs:expr, $zero:expr, $all:expr, $ours:expr, $theirs:expr) => {{
        let xs = $xs;
        let mut out = vec![$zero; MANY];
        let all: Option<unsafe extern "C" fn(_, usize, _, usize) -> usize> = $all;
        let all = all.map(|f| {
            best(MANY, || {
                unsafe { f(black_box(xs).as_ptr(), MANY, out.as_mut_ptr(), MANY) };
                black_box(&out);
            })
        });
        let mut each = |f: &dyn Fn(&[_], &mut [_])| {
            best(MANY, || {
                f(black_box(xs), &mut out);
                black_box(&out);
            })
        };
        let call = each(&|xs, out| out.iter_mut().zip(xs).for_each(|(o, &x)| *o = unsafe { $ours(x) }));
        let rust_loop = each(&|xs, out| out.iter_mut().zip(xs).for_each(|(o, &x)| *o = $theirs(x)));
        let f: fn(_) -> _ = black_box($theirs);
        let rust_call = each(&|xs, out| out.iter_mut().zip(xs).for_each(|(o, &x)| *o = f(x)));
        line($name, all, call, rust_loop, rust_call);
    }};
}

fn time() {
    let wide: Vec<f64> = (0..MANY as u64).map(|i| f64::from_bits((983 + random(1, i) % 80) << 52 | random(2, i) >> 12)).collect();
    let mixed: Vec<f64> = wide.iter().zip(0..).map(|(x, i)| if random(3, i) % 2 == 0 { *x } else { -x }).collect();
    let near: Vec<f64> = mixed.iter().map(|x| x % 1000.0).collect();
    let single = |xs: &[f64]| xs.iter().map(|&x| x as f32).collect::<Vec<f32>>();
    let (wide32, near32) = (single(&wide), single(&near));
    let pairs: Vec<(f32, f32)> = near32.iter().zip(near32.iter().rev()).map(|(&a, &b)| (a, b)).collect();
    println!("nanoseconds, ours over an array, ours by a call, Rust's in a loop, Rust's by a call");
    timed!("sqrt32", &wide32[..], 0f32, Some(ours::rs_sqrt32_all), ours::rs_sqrt32, |x: f32| x.sqrt());
    timed!("sqrt64", &wide[..], 0f64, Some(ours::rs_sqrt64_all), ours::rs_sqrt64, |x: f64| x.sqrt());
    macro_rules! plain {
        ($name:expr, $xs:expr, $zero:expr, $ours:expr, $theirs:expr) => {{
            timed!($name, $xs, $zero, None::<unsafe extern "C" fn(_, usize, *mut _, usize) -> usize>, $ours, $theirs)
        }};
    }
    plain!("floor32", &near32[..], 0f32, ours::rs_floor32, |x: f32| x.floor());
    plain!("ceil32", &near32[..], 0f32, ours::rs_ceil32, |x: f32| x.ceil());
    plain!("round32", &near32[..], 0f32, ours::rs_round32, |x: f32| x.round());
    plain!("floor64", &near[..], 0f64, ours::rs_floor64, |x: f64| x.floor());
    plain!("ceil64", &near[..], 0f64, ours::rs_ceil64, |x: f64| x.ceil());
    plain!("round64", &near[..], 0f64, ours::rs_round64, |x: f64| x.round());
    plain!("narrow", &mixed[..], 0f32, ours::rs_narrow, |x: f64| x as f32);
    plain!("widen", &near32[..], 0f64, ours::rs_widen, |x: f32| f64::from(x));
    plain!("count32", &near32[..], 0u64, ours::rs_count32, |x: f32| x as usize as u64);
    plain!("count64", &near[..], 0u64, ours::rs_count64, |x: f64| x as usize as u64);
    plain!("int64", &near[..], 0i64, ours::rs_int64, |x: f64| x as i64);
    plain!("hypot", &pairs[..], 0f32, |p: (f32, f32)| ours::rs_hypot(p.0, p.1), |p: (f32, f32)| hypot(p.0, p.1));
}

fn main() {
    let words: Vec<String> = std::env::args().skip(1).collect();
    let number = |i: usize, none: u64| words.get(i).map_or(none, |w| w.parse().expect("a number"));
    let differing = match words.first().map(String::as_str) {
        None => {
            let n = all_singles() + doubles(1, 100) + pairs(1, 100);
            time();
            n
        }
        Some("all-singles") => all_singles(),
        Some("doubles") => doubles(number(1, 1), number(2, 100)),
        Some("pairs") => pairs(number(1, 1), number(2, 100)),
        Some("time") => {
            time();
            0
        }
        Some(word) => panic!("no part {word}: all-singles, doubles, pairs or time"),
    };
    std::process::exit((differing > 0) as i32);
}
