//! bench [WORD..]: the Rust and the proved library in one process on the same inputs, turn by turn; the least time of each
//! and the ratio. Only rows whose name holds one of the words, if any are given.
#[path = "../side/ours.rs"]
#[allow(dead_code)]
mod ours;

use oracle::roads::*;
use oracle::*;
use ours::{GridLists, LaneLists, Lists};
use std::hint::black_box;
use std::io::Write;
use std::time::Instant;

struct Bench {
    words: Vec<String>,
}

impl Bench {
    fn wants(&self, name: &str) -> bool {
        self.words.is_empty() || self.words.iter().any(|w| name.contains(w.as_str()))
    }

    /// Both bodies do `ops` operations; each is timed in turn, for about two seconds in all. What a body returns is freed
    /// outside its time.
    fn pair<T, U>(&self, name: &str, ops: usize, goal: f64, mut rust: impl FnMut() -> T, mut ours: impl FnMut() -> U) {
        if !self.wants(name) {
            return;
        }
        let (mut a, mut b) = (f64::MAX, f64::MAX);
        let begun = Instant::now();
        let mut rounds = 0;
        while rounds < 9 || (begun.elapsed().as_secs_f64() < 2.0 && rounds < 2000) {
            let t = Instant::now();
            let made = black_box(rust());
            a = a.min(t.elapsed().as_nanos() as f64);
            drop(made);
            let t = Instant::now();
            let made = black_box(ours());
            b = b.min(t.elapsed().as_nanos() as f64);
            drop(made);
            rounds += 1;
        }
        let n = ops as f64;
        let goal = if goal > 0.0 { format!("{goal}") } else { String::new() };
        println!("| {name} | {:.1} | {:.1} | {:.2} | {goal} | {rounds} |", a / n, b / n, b / a);
    }

    /// A call that the Rust has not.
    fn alone<T>(&self, name: &str, ops: usize, goal: &str, mut ours: impl FnMut() -> T) {
        if !self.wants(name) {
            return;
        }
        let mut b = f64::MAX;
        for _ in 0..2000 {
            let t = Instant::now();
            black_box(ours());
            b = b.min(t.elapsed().as_nanos() as f64);
        }
        println!("| {name} | | {:.1} | | {goal} | 2000 |", b / ops as f64);
    }
}

fn index_of(m: &Lists) -> Vec<u32> {
    let mut index = vec![0; 4_194_304];
    let n = ours::build(m, &mut index).expect("build");
    index.truncate(n);
    index
}

fn lookups(b: &Bench) {
    for n in [2_000, 20_000, 65_000] {
        let m = road_mesh(n);
        let l = Lists::of(&m);
        let q = road_queries(&m, (2_000_000 / n).max(50));
        let mut record = [0; 8];
        b.pair(
            &format!("plain lookup, {n} triangles"), q.len(), 0.8,
            || q.iter().for_each(|&(x, y)| { black_box(black_box(&m).height_at(black_box(x), black_box(y))); }),
            || q.iter().for_each(|&(x, y)| { let _ = black_box(ours::height_at_into(black_box(&l), black_box(x), black_box(y), black_box(&mut record))); }),
        );
    }
    for n in [2_000, 20_000, 65_000] {
        let m = road_mesh(n);
        let l = Lists::of(&m);
        let s = m.sampler();
        let w = index_of(&l);
        let q = road_queries(&m, 20_000);
        let spans = m.lanes.len();
        let mut record = [0; 8];
        b.pair(
            &format!("indexed lookup, 1 point to a call, {n} triangles, {spans} spans"), q.len(), 1.0,
            || q.iter().for_each(|&(x, y)| { black_box(black_box(&s).top_lane(black_box(x), black_box(y))); }),
            || q.iter().for_each(|&(x, y)| {
                let _ = black_box(ours::top_into(black_box(&l), black_box(&w), black_box(x), black_box(y), black_box(&mut record)));
            }),
        );
        // the wheels of one cab, and of forty
        let points: Vec<f32> = q.iter().flat_map(|&(x, y)| [x, y]).collect();
        for many in [4, 160] {
            let mut answers = vec![0; 8 * many];
            b.pair(
                &format!("indexed lookup, {many} points to a call, {n} triangles, {spans} spans"), q.len(), 0.7,
                || q.iter().for_each(|&(x, y)| { black_box(black_box(&s).top_lane(black_box(x), black_box(y))); }),
                || points.chunks(2 * many).for_each(|p| { let _ = black_box(ours::tops(black_box(&l), black_box(&w), black_box(p), &mut answers)); }),
            );
        }
    }
    for n in [2_000, 20_000, 65_000] {
        let m = road_mesh(n);
        let l = Lists::of(&m);
        let mut index = vec![0; 4_194_304];
        b.pair(
            &format!("building the index, {n} triangles"), 1, 0.5,
            || black_box(&m).sampler(),
            || { let _ = black_box(ours::build(black_box(&l), &mut index)); },
        );
        // no more words than it takes: they are counted first
        let mut exact = index_of(&l);
        b.pair(
            &format!("building the index, no word to spare, {n} triangles"), 1, 0.0,
            || black_box(&m).sampler(),
            || { let _ = black_box(ours::build(black_box(&l), &mut exact)); },
        );
        // one corner that is no number: no triangle takes the quick way
        let mut odd = road_mesh(n);
        odd.vertices[0].x = f32::NAN;
        let o = Lists::of(&odd);
        b.pair(
            &format!("building the index, a NaN in one corner, {n} triangles"), 1, 0.0,
            || black_box(&odd).sampler(),
            || { let _ = black_box(ours::build(black_box(&o), &mut index)); },
        );
        b.pair(
            &format!("validate, {n} triangles, sound"), 1, 0.8,
            || { let _ = black_box(black_box(&m).validate()); },
            || { let _ = black_box(ours::validate(black_box(&l))); },
        );
    }
}

fn shapes(b: &Bench) {
    for (lanes, points) in [(200, 100), (20, 1000), (1000, 10)] {
        let net = RoadNetwork { lanes: road_lanes(lanes, points) };
        let l = LaneLists::of(&net.lanes);
        let most = 6 * lanes * points + 6;
        let (mut v, mut n, mut i, mut s) = (vec![0.0; most], vec![0.0; most], vec![0; most], vec![0; 5 * lanes]);
        b.pair(
            &format!("surface_mesh, {lanes} lanes of {points} points"), 1, 1.2,
            || black_box(&net).surface_mesh(),
            || { ours::surface_mesh(black_box(&l), &mut v, &mut n, &mut i, &mut s).expect("mesh"); },
        );
    }
    let first = ops::surface_mesh(road_lanes(50, 326));
    let second = first.clone();
    let (a, c) = (Lists::of(&first), Lists::of(&second));
    let (mut v, mut n, mut i, mut s) = (vec![0.0; 3 * 65_536], vec![0.0; 3 * 65_536], vec![0; 196_608], vec![0; 5 * 1024]);
    let mut whole = Mesh::default();
    b.pair(
        &format!("join, {} and {} triangles", first.indices.len() / 3, second.indices.len() / 3), 1, 1.3,
        || {
            // its lists have room already
            whole.vertices.clear();
            whole.normals.clear();
            whole.indices.clear();
            whole.lanes.clear();
            joined::extend(&mut whole, black_box(&first));
            joined::extend(&mut whole, black_box(&second));
            black_box(&mut whole);
        },
        || { ours::join(black_box(&a), black_box(&c), &mut v, &mut n, &mut i, &mut s).expect("whole"); },
    );
    let ring = round_ring(200, 25.0, 0.05);
    let grid = smooth_grid(9, 4, 8.0);
    let area = JunctionArea { od_id: String::new(), boundary: ring.clone(), grid: Some(grid.clone()) };
    let (r, g) = (ours::flat(&ring), GridLists::of(&grid));
    let (mut v, mut n, mut i) = (vec![0.0; 3 * 65_536], vec![0.0; 3 * 65_536], vec![0; 65_536]);
    b.pair(
        "junction mesh, ring of 200, grid of 9 rows", 1, 0.5,
        || black_box(&area).mesh(),
        || { ours::junction_mesh(black_box(&r), Some(&g), &mut v, &mut n, &mut i).expect("mesh"); },
    );
    for (what, jag) in [("round", 0.0), ("jagged", 0.3)] {
        let ring = round_ring(1000, 100.0, jag);
        let r = ours::flat(&ring);
        let mut out = vec![0; 3 * 1000];
        b.pair(
            &format!("ear_clip, {what} ring of 1,000"), 1, 1.0,
            || ops::ear_clip(black_box(&ring)),
            || { ours::ear_clip(black_box(&r), &mut out).expect("ears"); },
        );
    }
    let grid = smooth_grid(20, 10, 5.0);
    let g = GridLists::of(&grid);
    let q = grid_queries(20, 10, 5.0, 5000);
    b.pair(
        "elevation height, 20 rows of 21", q.len(), 0.8,
        || q.iter().for_each(|&(s, t)| { black_box(black_box(&grid).height(black_box(s), black_box(t))); }),
        || q.iter().for_each(|&(s, t)| { let _ = black_box(ours::height(black_box(&g), false, black_box(s), black_box(t))); }),
    );
    for (count, each) in [(200, 20), (4, 15)] {
        let segs: Vec<Vec<Point>> = round_ring(count * each, 100.0, 0.05).chunks(each).map(<[Point]>::to_vec).collect();
        let points = ours::flat(&segs.concat());
        let runs: Vec<u32> = (0..count).flat_map(|k| [(k * each) as u32, ((k + 1) * each) as u32]).collect();
        let mut out = vec![0.0; points.len()];
        b.pair(
            &format!("ring, {count} segments of {each} points"), 1, 1.0,
            || junction_areas::ring(black_box(&segs)),
            || { ours::ring(black_box(&runs), black_box(&points), &mut out).expect("ring"); },
        );
    }
}

fn probes(b: &Bench) {
    let m = ops::surface_mesh(road_lanes(5, 100));
    let mut file = surface::write(&surface::Surface { mesh: m.clone(), lanes: vec![Some(5); 990], questions: Vec::new() }).expect("a file");
    for (x, y) in road_queries(&m, 58) {
        file.extend([3, x.to_bits(), y.to_bits(), 0, 0, 0, 0, 0].map(u32::to_le_bytes).concat());
    }
    let mut text = vec![0; 300_000];
    b.pair(
        &format!("probe's text, file of {} records", file.len() / 32), 1, 0.0,
        || surface::probe(black_box(&file)),
        || { ours::report(black_box(&file), &mut text).expect("report"); },
    );
}

fn sentences(b: &Bench) {
    // the longest, and one as a map drawer may meet it
    for (what, [t, i, n]) in [("longest", [u32::MAX; 3]), ("usual", [1234, 65000, 60000])] {
        let e: Result<(), MeshError> = Err(MeshError::IndexOutOfRange(t as usize, i, n as usize));
        let s = sentence::sentence(&e);
        let (mut theirs, mut text) = ([0; 90], [0; 90]);
        b.pair(
            &format!("verdict written, {what}, {} bytes", s.len()), 1000, 0.0,
            || (0..1000).for_each(|_| {
                let Err(e) = black_box(&e) else { return };
                let _ = write!(&mut black_box(&mut theirs)[..], "{e}.");
            }),
            || (0..1000).for_each(|_| { let _ = black_box(ours::verdict_write(black_box([3, t, i, n]), black_box(&mut text))); }),
        );
        b.alone(
            &format!("verdict read, {what}, {} bytes", s.len()), 1000, "150 ns",
            || (0..1000).for_each(|_| { let _ = black_box(ours::verdict_read(black_box(s.as_bytes()))); }),
        );
    }
}

fn main() {
    let b = Bench { words: std::env::args().skip(1).collect() };
    println!("| call | Rust, ns | ours, ns | ours / Rust | goal | rounds |\n|---|---|---|---|---|---|");
    lookups(&b);
    shapes(&b);
    probes(&b);
    sentences(&b);
}
