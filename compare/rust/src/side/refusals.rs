//! Bad lists. The Rust has no refusals, so what a call must answer is worked out here from the documents' table, list by
//! list and run by run; the library must give that number and place and leave all lent memory as it was.
use crate::answers::head_fault;
use crate::ours::{self, GridLists, LaneLists, Lists, Refused};
use oracle::gen::{self, Rng};
use oracle::sentence::{sentence, verdict};
use oracle::surface;

type Fault = Option<Refused>;

fn is(bad: bool, number: u32, place: u32) -> Fault {
    bad.then_some(Refused { number, place })
}

/// The runs of a list of records: each record has `size` words, a run's start and end at word `at`.
fn runs(records: &[u32], size: usize, at: usize) -> impl Iterator<Item = (u64, u64)> + '_ {
    records.chunks_exact(size).map(move |r| (r[at] as u64, r[at + 1] as u64))
}

fn ragged(records: &[u32], size: usize, at: usize, whole: usize) -> bool {
    let mut last = 0;
    runs(records, size, at).enumerate().any(|(k, (from, to))| {
        let bad = to < from || (k > 0 && from < last) || to > whole as u64;
        last = to;
        bad
    })
}

fn long(records: &[u32], size: usize, at: usize, limit: u64) -> bool {
    runs(records, size, at).any(|(from, to)| from <= to && to - from > limit)
}

fn mesh_limits(m: &Lists) -> Fault {
    is(m.vertices.len() > 3 * 65_536, 1, 65_536)
        .or(is(m.normals.len() > 3 * 65_536, 1, 65_536))
        .or(is(m.indices.len() > 196_608, 1, 196_608))
        .or(is(m.spans.len() > 5 * 1024, 1, 1024))
}

fn mesh_ragged(m: &Lists) -> Fault {
    is(m.vertices.len() % 3 != 0, 2, 0)
        .or(is(m.normals.len() % 3 != 0, 2, 1))
        .or(is(m.spans.len() % 5 != 0 || ragged(&m.spans, 5, 1, m.vertices.len() / 3) || ragged(&m.spans, 5, 3, m.indices.len()), 2, 3))
}

/// A part of a joining, whose lists stand from `p` on.
fn part_ragged(m: &Lists, p: u32) -> Fault {
    let spans = m.spans.len() % 5 != 0 || ragged(&m.spans, 5, 1, m.vertices.len() / 3) || ragged(&m.spans, 5, 3, m.indices.len());
    is(m.vertices.len() % 3 != 0, 2, p)
        .or(is(m.normals.len() % 3 != 0, 2, p + 1))
        .or(is(m.indices.len() % 3 != 0, 2, p + 2))
        .or(is(spans, 2, p + 3))
}

fn odd_normals(m: &Lists, part: u32) -> Fault {
    is(m.normals.len() / 3 != m.vertices.len() / 3, 7, part)
}

fn loose_corner(m: &Lists, before: usize) -> Fault {
    let k = m.indices.iter().position(|&w| w as usize >= m.vertices.len() / 3);
    k.map(|k| Refused { number: 8, place: (before + k) as u32 })
}

fn join_fault(a: &Lists, b: &Lists) -> Fault {
    mesh_limits(a)
        .or(mesh_limits(b))
        .or(part_ragged(a, 0))
        .or(part_ragged(b, 4))
        .or(odd_normals(a, 0))
        .or(odd_normals(b, 1))
        .or(loose_corner(a, 0))
        .or(loose_corner(b, a.indices.len()))
}

fn grid_limits(g: &GridLists) -> Fault {
    is(g.rows.len() > 6 * 1024 || long(&g.rows, 6, 2, 1024) || long(&g.rows, 6, 4, 1024), 1, 1024)
}

fn grid_ragged(g: &GridLists, place: u32) -> Fault {
    is(g.rows.len() % 6 != 0 || ragged(&g.rows, 6, 2, g.left.len()) || ragged(&g.rows, 6, 4, g.right.len()), 2, place)
}

fn ring_fault(segments: &[u32], points: &[f32]) -> Fault {
    is(segments.len() > 2 * 256, 1, 256)
        .or(is(points.len() > 3 * 4096, 1, 4096))
        .or(is(segments.len() % 2 != 0 || ragged(segments, 2, 0, points.len() / 3), 2, 0))
        .or(is(points.len() % 3 != 0, 2, 1))
}

fn lane_fault(l: &LaneLists) -> Fault {
    is((0..4).any(|k| long(&l.lanes, 10, 1 + 2 * k, 4096)), 1, 4096)
        .or(is(l.lanes.len() > 10 * 1024, 1, 1024))
        .or(is(l.points.len() % 3 != 0, 2, 0))
        .or(is(l.tangents.len() % 3 != 0, 2, 1))
        .or(is(l.banks.len() % 2 != 0, 2, 3))
        .or(is(
            l.lanes.len() % 10 != 0
                || ragged(&l.lanes, 10, 1, l.points.len() / 3)
                || ragged(&l.lanes, 10, 3, l.tangents.len() / 3)
                || ragged(&l.lanes, 10, 5, l.widths.len())
                || ragged(&l.lanes, 10, 7, l.banks.len() / 2),
            2,
            4,
        ))
}

// ---- lists, most of them sound but for one or two faults

fn size(r: &mut Rng, unit: usize, limit: usize) -> usize {
    let n = match r.below(40) {
        0 => limit,
        1 => limit + 1,
        2 => limit.saturating_sub(1),
        _ => r.below(12),
    };
    (unit * n + if r.once(12) { r.below(unit) } else { 0 }).min(unit * limit + unit)
}

fn floats(r: &mut Rng, n: usize) -> Vec<f32> {
    (0..n).map(|_| r.span(-9.0, 9.0) as f32).collect()
}

/// Records whose runs lie one after another in lists of `whole` elements, with a fault now and then.
fn records(r: &mut Rng, size: usize, count: usize, at: &[usize], whole: &[usize], limit: usize) -> Vec<u32> {
    let mut out = Vec::with_capacity(size * count + size);
    let mut last = vec![0usize; at.len()];
    for _ in 0..count {
        let mut rec = vec![0u32; size];
        rec[0] = r.below(5) as u32;
        for (k, &a) in at.iter().enumerate() {
            let from = last[k] + if r.once(5) { r.below(2) } else { 0 };
            let mut to = (from + r.below(3)).min(whole[k].max(from));
            if r.once(60 * count.max(1)) {
                to = from + limit + r.below(2);
            }
            rec[a] = from as u32;
            rec[a + 1] = to as u32;
            if r.once(25 * count.max(1)) {
                match r.below(4) {
                    0 => rec[a + 1] = rec[a].saturating_sub(1),
                    1 => rec[a] = rec[a].saturating_sub(1),
                    2 => rec[a + 1] = whole[k] as u32 + 1,
                    _ => rec[a] = u32::MAX,
                }
            }
            last[k] = rec[a + 1] as usize;
        }
        out.extend(rec);
    }
    if r.once(12) {
        out.push(0);
    }
    out
}

fn mesh(r: &mut Rng) -> Lists {
    let (v, n, i) = (size(r, 3, 65_536), size(r, 3, 65_536), size(r, 1, 196_608));
    let count = match r.below(60) {
        0 => 1024,
        1 => 1025,
        _ => r.below(5),
    };
    let mut m = Lists { vertices: floats(r, v), normals: floats(r, n), indices: vec![0; i], spans: Vec::new() };
    m.spans = records(r, 5, count, &[1, 3], &[v / 3, i], 9);
    m.indices.iter_mut().for_each(|w| *w = r.below(4) as u32);
    m
}

/// A part of a joining, mostly with a normal for each vertex, whole triples and no loose corner.
fn part(r: &mut Rng) -> Lists {
    let mut m = mesh(r);
    if !r.once(6) {
        m.normals.resize(m.vertices.len(), 0.5);
    }
    if !r.once(6) {
        m.indices.resize(m.indices.len() / 3 * 3, 0);
    }
    if !r.once(6) {
        let n = (m.vertices.len() / 3) as u32;
        m.indices.iter_mut().for_each(|w| *w = if n == 0 { *w } else { *w % n });
    }
    m
}

fn grid(r: &mut Rng) -> GridLists {
    let count = match r.below(40) {
        0 => 1024,
        1 => 1025,
        _ => r.below(5),
    };
    let (l, s) = (r.below(9), r.below(9));
    let (left, right) = (vec![1.5; if r.once(30) { 1030 } else { l }], vec![0.5; if r.once(30) { 1030 } else { s }]);
    let rows = records(r, 6, count, &[2, 4], &[left.len(), right.len()], 1024);
    GridLists { numbers: [0.0, 0.0, 0.0, 1.0, 0.0, 1.0], rows, left, right }
}

fn lanes(r: &mut Rng) -> LaneLists {
    let count = match r.below(40) {
        0 => 1024,
        1 => 1025,
        _ => r.below(4),
    };
    let mut some = |unit: usize| unit * r.below(9) + if r.once(15) { 1 } else { 0 };
    let (p, t, w, b) = (some(3), some(3), some(1), some(2));
    let mut l = LaneLists { points: floats(r, p), tangents: floats(r, t), widths: floats(r, w), banks: floats(r, b), lanes: Vec::new() };
    l.lanes = records(r, 10, count, &[1, 3, 5, 7], &[p / 3, t / 3, w, b / 2], 4096);
    l
}

// ---- the calls

pub const CALLS: &[&str] = &[
    "height", "ring", "ear_clip", "junction_mesh", "surface_mesh", "join", "validate", "height_at", "build", "top", "tops", "verdict_write",
    "surface_read", "surface_write",
];

const FLOAT: f32 = 77.25;
const WORD: u32 = 0xdead_beef;

fn kept<T: PartialEq>(xs: &[T], pattern: T) -> bool {
    xs.iter().all(|x| *x == pattern)
}

/// What was asked of a call: what the table says, what the library said, and whether it left the lent memory as it was.
pub struct Case {
    pub wanted: Fault,
    /// `wanted` is all that can be wrong with the call, a short output included.
    pub whole: bool,
    pub said: Fault,
    pub kept: bool,
}

impl Case {
    /// Refused as the table says; where it says nothing, not with 2, and not at all if it was asked whole.
    pub fn right(&self) -> bool {
        match (self.wanted, self.said) {
            (Some(a), Some(b)) => a == b && self.kept,
            (Some(_), None) => false,
            (None, Some(r)) => !self.whole && r.number != 2 && self.kept,
            (None, None) => true,
        }
    }
}

pub fn case(call: &str, seed: u64, k: u64) -> Case {
    let mut rng = Rng(seed.wrapping_mul(0x9e37_79b9_7f4a_7c15) ^ k.wrapping_mul(0xbf58_476d_1ce4_e5b9) ^ call.len() as u64);
    let r = &mut rng;
    r.next();
    match call {
        "height" => {
            let g = grid(r);
            let said = ours::height(&g, r.once(2), 0.5, 0.5).err();
            Case { wanted: grid_limits(&g).or(grid_ragged(&g, 0)), whole: true, said, kept: true }
        }
        "ring" => {
            let p = size(r, 3, 4096);
            let points = floats(r, p);
            let count = match r.below(30) {
                0 => 256,
                1 => 257,
                _ => r.below(6),
            };
            let segments = records(r, 2, count, &[0], &[p / 3], 4096);
            let mut out = vec![FLOAT; r.below(p + 3)];
            let said = ours::ring(&segments, &points, &mut out).err();
            Case { wanted: ring_fault(&segments, &points), whole: false, said, kept: kept(&out, FLOAT) }
        }
        "ear_clip" => {
            let n = match r.below(200) {
                0 => 3 * 1024,
                1 => 3 * 1024 + 1,
                2 => 3 * 1025,
                _ => r.below(40),
            };
            let ring = floats(r, n);
            let mut out = vec![WORD; r.below(n + 1)];
            let said = ours::ear_clip(&ring, &mut out).err();
            Case { wanted: is(n > 3 * 1024, 1, 1024).or(is(n % 3 != 0, 2, 0)), whole: false, said, kept: kept(&out, WORD) }
        }
        "junction_mesh" => {
            let n = if r.once(40) { 3 * 1024 + r.below(4) } else { r.below(25) };
            let ring = floats(r, n);
            let g = grid(r);
            let (mut v, mut m, mut w) = (vec![FLOAT; r.below(300)], vec![FLOAT; r.below(300)], vec![WORD; r.below(100)]);
            let said = ours::junction_mesh(&ring, Some(&g), &mut v, &mut m, &mut w).err();
            let wanted = is(n > 3 * 1024, 1, 1024).or(grid_limits(&g)).or(is(n % 3 != 0, 2, 0)).or(grid_ragged(&g, 1));
            Case { wanted, whole: false, said, kept: kept(&v, FLOAT) && kept(&m, FLOAT) && kept(&w, WORD) }
        }
        "surface_mesh" => {
            let l = lanes(r);
            let (mut v, mut n) = (vec![FLOAT; r.below(200)], vec![FLOAT; r.below(200)]);
            let (mut i, mut s) = (vec![WORD; r.below(100)], vec![WORD; r.below(30)]);
            let said = ours::surface_mesh(&l, &mut v, &mut n, &mut i, &mut s).err();
            Case { wanted: lane_fault(&l), whole: false, said, kept: kept(&v, FLOAT) && kept(&n, FLOAT) && kept(&i, WORD) && kept(&s, WORD) }
        }
        "join" => {
            let (a, b) = (part(r), part(r));
            let sizes = [
                a.vertices.len() + b.vertices.len(), a.normals.len() + b.normals.len(), a.indices.len() + b.indices.len(),
                a.spans.len() + b.spans.len(),
            ];
            let [cv, cn, ci, cs] = sizes.map(|n| if r.once(2) { n + r.below(4) } else { room(r, n) });
            let (mut v, mut n, mut i, mut s) = (vec![FLOAT; cv], vec![FLOAT; cn], vec![WORD; ci], vec![WORD; cs]);
            let said = ours::join(&a, &b, &mut v, &mut n, &mut i, &mut s).err();
            let [av, an, ai, asp] = sizes;
            let wanted = join_fault(&a, &b)
                .or(is(av > 3 * 65_536, 1, 65_536))
                .or(is(an > 3 * 65_536, 1, 65_536))
                .or(is(ai > 196_608, 1, 196_608))
                .or(is(asp > 5 * 1024, 1, 1024))
                .or(is(cv < av, 3, av as u32))
                .or(is(cn < an, 3, an as u32))
                .or(is(ci < ai, 3, ai as u32))
                .or(is(cs < asp, 3, asp as u32));
            Case { wanted, whole: true, said, kept: kept(&v, FLOAT) && kept(&n, FLOAT) && kept(&i, WORD) && kept(&s, WORD) }
        }
        "verdict_write" => {
            let mut odd = |n: usize| if r.once(3) { r.next() as u32 } else { r.below(n) as u32 };
            let v = [odd(6), odd(2), odd(2), odd(2)];
            let uses = [0, 0, 1, 3, 1].get(v[0] as usize).copied();
            let no = |place: u32| Some(Refused { number: 6, place });
            let wanted = uses.map_or(no(0), |n| (n..3).find(|&k| v[1 + k] != 0).and_then(|k| no(1 + k as u32)));
            let mut text = vec![0xa5; r.below(90)];
            let wanted = wanted.or_else(|| {
                let s = sentence(&verdict(v[0], [v[1], v[2], v[3]]).expect("a verdict"));
                is(text.len() < s.len(), 3, s.len() as u32)
            });
            let said = ours::verdict_write(v, &mut text).err();
            Case { wanted, whole: true, said, kept: kept(&text, 0xa5) }
        }
        "surface_read" => {
            let bytes = gen::surface_file(r);
            let mut held = vec![WORD; room(r, bytes.len() / 4)];
            let said = ours::read(&bytes, &mut held).err();
            let wanted = lacking(surface::read(&bytes).map(|_| bytes.len() / 4), held.len());
            Case { wanted, whole: true, said, kept: kept(&held, WORD) }
        }
        "surface_write" => {
            let held = gen::held_words(r);
            let mut bytes = vec![0xa5; room(r, 4 * held.len())];
            let said = ours::write(&held, &mut bytes).err();
            let wanted = lacking(surface::read_held(&held).and_then(|s| surface::write(&s)).map(|file| file.len()), bytes.len());
            Case { wanted, whole: true, said, kept: kept(&bytes, 0xa5) }
        }
        _ => of_mesh(call, r),
    }
}

/// Room for a result of this many elements, or not quite.
fn room(r: &mut Rng, wanted: usize) -> usize {
    match r.below(4) {
        0 => wanted.saturating_sub(1),
        1 => r.below(wanted + 1),
        _ => wanted + r.below(9),
    }
}

/// What the documents say of a call whose result has this many elements, or is turned back, where there is this much room.
fn lacking(result: Result<usize, surface::Refusal>, room: usize) -> Fault {
    match result {
        Ok(n) => is(room < n, 3, n as u32),
        Err(r) => Some(Refused { number: r.number, place: r.place }),
    }
}

/// Words that may be an index of the mesh: its count of triangles mostly, and a few cells without entries.
fn words(r: &mut Rng, m: &Lists) -> Vec<u32> {
    let n = if r.once(300) { 4_194_304 + r.below(2) } else { r.below(20) };
    let mut w = vec![0; n];
    if n > 2 && !r.once(4) {
        w[0] = m.indices.len() as u32 / 3;
        if r.once(2) {
            w[1] = [0, 1, 2, 1025][r.below(4)];
            w[2] = [0, 1, 2, 1025][r.below(4)];
        }
    }
    w
}

fn of_mesh(call: &str, r: &mut Rng) -> Case {
    let m = mesh(r);
    let fault = mesh_limits(&m).or(mesh_ragged(&m));
    let room = r.below(12);
    let mut record = vec![WORD; room];
    let short = is(room < 8, 3, 8);
    match call {
        "validate" => Case { wanted: fault, whole: true, said: ours::validate(&m).err(), kept: true },
        "height_at" => {
            let said = ours::height_at_into(&m, 1.0, 1.0, &mut record).err();
            Case { wanted: fault.or(short), whole: true, said, kept: kept(&record, WORD) }
        }
        "build" => {
            let mut index = vec![WORD; r.below(40)];
            let said = ours::build(&m, &mut index).err();
            Case { wanted: fault, whole: false, said, kept: kept(&index, WORD) }
        }
        _ => {
            let index = words(r, &m);
            let fault = mesh_limits(&m).or(is(index.len() > 4_194_304, 1, 4_194_304)).or(mesh_ragged(&m));
            if call == "top" {
                let said = ours::top_into(&m, &index, 1.0, 1.0, &mut record).err();
                return Case { wanted: fault.or(head_fault(&m, &index)).or(short), whole: true, said, kept: kept(&record, WORD) };
            }
            let points = vec![1.0; r.below(7)];
            let mut records = vec![WORD; r.below(30)];
            let said = ours::tops(&m, &index, &points, &mut records).err();
            let least = 8 * (points.len() / 2);
            let wanted = fault
                .or(is(points.len() % 2 != 0, 2, 5))
                .or(head_fault(&m, &index))
                .or(is(records.len() < least, 3, least as u32));
            Case { wanted, whole: true, said, kept: kept(&records, WORD) }
        }
    }
}
