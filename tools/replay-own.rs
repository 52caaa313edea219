// Rust's own answers to the checks of `replay` that the oracle has no operation for.
//     replay-own CHECK < inputs > answers
// Both are 32-bit words, the low byte first: the number of cases, then the cases. Std only.
use std::io::{Read, Write};

fn single(x: f32) -> Vec<u32> {
    vec![if x.is_nan() { 0x7fc0_0000 } else { x.to_bits() }]
}

fn double(x: f64) -> Vec<u32> {
    let b = if x.is_nan() { 0x7ff8_0000_0000_0000 } else { x.to_bits() };
    vec![b as u32, (b >> 32) as u32]
}

/// The length of (a, b) as document 01 has it: squares, sum and root in double.
fn hypot(a: f32, b: f32) -> f32 {
    squares(a, b).sqrt() as f32
}

fn squares(a: f32, b: f32) -> f64 {
    let (x, y) = (f64::from(a), f64::from(b));
    x * x + y * y
}

/// A vector, or a point, as src/coords.rs has them.
#[derive(Clone, Copy)]
struct Vector {
    x: f32,
    y: f32,
    z: f32,
}

impl Vector {
    fn dot(self, other: Self) -> f32 {
        self.x * other.x + self.y * other.y + self.z * other.z
    }

    fn length(self) -> f32 {
        self.dot(self).sqrt()
    }

    fn times(self, k: f32) -> Self {
        Vector { x: self.x * k, y: self.y * k, z: self.z * k }
    }

    fn normalize_or_zero(self) -> Self {
        let len = self.length();
        if len.is_finite() && len > 0.0 {
            self.times(1.0 / len)
        } else {
            Vector { x: 0.0, y: 0.0, z: 0.0 }
        }
    }

    fn is_finite(self) -> bool {
        self.x.is_finite() && self.y.is_finite() && self.z.is_finite()
    }

    fn words(self) -> Vec<u32> {
        [single(self.x), single(self.y), single(self.z)].concat()
    }
}

fn vector(w: &[u32]) -> Vector {
    Vector { x: f32::from_bits(w[0]), y: f32::from_bits(w[1]), z: f32::from_bits(w[2]) }
}

/// The checks of the vector layer.
fn vector_answer(check: &str, w: &[u32]) -> Vec<u32> {
    let v = vector(w);
    let other = || vector(&w[3..]);
    match check {
        "vector_add" | "point_add" => {
            let u = other();
            Vector { x: v.x + u.x, y: v.y + u.y, z: v.z + u.z }.words()
        }
        "vector_sub" | "point_sub" | "point_sub_vector" => {
            let u = other();
            Vector { x: v.x - u.x, y: v.y - u.y, z: v.z - u.z }.words()
        }
        "vector_mul" => v.times(f32::from_bits(w[3])).words(),
        "vector_neg" => Vector { x: -v.x, y: -v.y, z: -v.z }.words(),
        "horizontal" => Vector { x: v.x, y: v.y, z: 0.0 }.words(),
        "vector_is_finite" | "point_is_finite" => vec![v.is_finite() as u32],
        "normalize_or_zero" => v.normalize_or_zero().words(),
        "length_squared" => single(v.dot(v)),
        "length_below_micro" => vec![(v.length() < 1e-6) as u32],
        _ => panic!("no check {check}"),
    }
}

fn answer(check: &str, w: &[u32]) -> Vec<u32> {
    let f = |i: usize| f32::from_bits(w[i]);
    let d = |i: usize| f64::from_bits(u64::from(w[i]) | u64::from(w[i + 1]) << 32);
    match check {
        "bits32" => single(f(0)),
        "bits64" => double(d(0)),
        "stored" => if f(0) == 0.0 { vec![0] } else { single(f(0)) },
        "abs32" => single(f(0).abs()),
        "abs64" => double(d(0).abs()),
        "is_finite32" => vec![f(0).is_finite() as u32],
        "is_finite64" => vec![d(0).is_finite() as u32],
        "root_below_micro" => vec![(f(0).sqrt() < 1e-6) as u32],
        "root_above_tenth" => vec![(f(0).sqrt() > 0.1) as u32],
        "squares" => double(squares(f(0), f(1))),
        "hypot_above_milli" => vec![(hypot(f(0), f(1)) > 1e-3) as u32],
        "hypot_at_most_milli" => vec![(hypot(f(0), f(1)) <= 1e-3) as u32],
        _ => vector_answer(check, w),
    }
}

fn main() {
    let check = std::env::args().nth(1).expect("which check?");
    let mut bytes = Vec::new();
    std::io::stdin().read_to_end(&mut bytes).unwrap();
    let words: Vec<u32> = bytes.chunks(4).map(|c| u32::from_le_bytes([c[0], c[1], c[2], c[3]])).collect();
    let cases = words[0] as usize;
    let mut out = vec![words[0]];
    if cases > 0 {
        for case in words[1..].chunks((words.len() - 1) / cases) {
            out.extend(answer(&check, case));
        }
    }
    let bytes: Vec<u8> = out.iter().flat_map(|w| w.to_le_bytes()).collect();
    std::io::stdout().write_all(&bytes).unwrap();
}
