//! Each operation of the oracle, answered by the proved library. Every call with outputs is made twice: with room to
//! spare, where what lies past the answer must keep what it held, and with one element too few, where the call must be
//! turned back as short output, with the count wanted and every lent element as it was.
use crate::ours::{self, GridLists, LaneLists, Lists, Refused};
use oracle::words::{In, Out};

type R<T> = Result<T, String>;

pub const OPS: &[&str] = &[
    "elevation_height", "elevation_height_at", "ring", "ear_clip", "junction_mesh", "surface_mesh", "join", "validate", "height_at", "sampler",
    "indexed", "lookup_words", "probes", "held", "file", "sentence", "read_sentence",
];

const FLOAT: f32 = f32::from_bits(0x4b12_3456);
const WORD: u32 = 0xdead_beef;
const BYTE: u8 = 0xa5;

fn refused<T>(r: Refused) -> R<T> {
    Err(format!("refused {} at {}", r.number, r.place))
}

fn untouched<T: PartialEq>(xs: &[T], from: usize, pattern: T) -> R<()> {
    match xs[from..].iter().position(|x| *x != pattern) {
        Some(k) => Err(format!("element {} past an answer of {from} was written", from + k)),
        None => Ok(()),
    }
}

/// A call with one element too few must be turned back with the count wanted.
fn short<T: PartialEq + Copy>(wanted: usize, pattern: T, call: impl FnOnce(&mut [T]) -> Result<(), Refused>) -> R<()> {
    if wanted == 0 {
        return Ok(());
    }
    let mut out = vec![pattern; wanted - 1];
    match call(&mut out) {
        Err(Refused { number: 3, place }) if place as usize == wanted => untouched(&out, 0, pattern),
        other => Err(format!("short of {wanted}: {other:?}")),
    }
}

fn floats(o: &mut Out, xs: &[f32]) {
    xs.iter().for_each(|&x| o.f(x));
}

fn hit(o: &mut Out, a: Result<[u32; 8], Refused>) {
    let words = a.unwrap_or_else(|r| [2, r.number, r.place, 0, 0, 0, 0, 0]);
    words.iter().for_each(|&w| o.u(w));
}

/// What is wrong with an index's first words: it turns back every call, for many points too.
pub fn head_fault(m: &Lists, w: &[u32]) -> Option<Refused> {
    let foreign = |place: usize| Some(Refused { number: 4, place: place as u32 });
    if w.len() < 9 {
        return foreign(w.len());
    }
    if w[0] as usize != m.indices.len() / 3 {
        return foreign(0);
    }
    let cells = (w[1], w[2]);
    if cells != (0, 0) && !(1..=1024).contains(&w[1]) {
        return foreign(if w[1] > 1024 { 1 } else { 2 });
    }
    if cells != (0, 0) && !(1..=1024).contains(&w[2]) {
        return foreign(2);
    }
    let declared = if cells == (0, 0) { 9 } else { 9 + w[1] as usize * w[2] as usize + 1 + w[8] as usize };
    if w.len() < declared { foreign(w.len()) } else { None }
}

/// All points in one call: each record must be the single call's, unless the index's first words are foreign, which turns
/// the call back and comes before a short output.
fn batch(m: &Lists, index: &[u32], q: &[(f32, f32)], told: &[u32]) -> R<()> {
    let points: Vec<f32> = q.iter().flat_map(|&(x, y)| [x, y]).collect();
    let mut answers = vec![WORD; 8 * q.len() + 3];
    if let Some(r) = head_fault(m, index) {
        for room in [answers.len(), (8 * q.len()).saturating_sub(1)] {
            if ours::tops(m, index, &points, &mut answers[..room]) != Err(r) {
                return Err(format!("batch of {}: not {r:?}", q.len()));
            }
        }
        return untouched(&answers, 0, WORD);
    }
    match ours::tops(m, index, &points, &mut answers) {
        Ok(n) if n == q.len() => {}
        other => return Err(format!("batch of {}: {other:?}", q.len())),
    }
    if answers[..8 * q.len()] != *told {
        return Err("the batch and the single calls differ".into());
    }
    untouched(&answers, 8 * q.len(), WORD)?;
    short(8 * q.len(), WORD, |out| ours::tops(m, index, &points, out).map(|_| ()))
}

fn ring(i: &mut In, o: &mut Out) -> R<()> {
    let segs = i.list(|r| r.list(In::point))?;
    let mut points = Vec::new();
    let mut runs = Vec::new();
    for s in &segs {
        let from = points.len() as u32 / 3;
        points.extend(ours::flat(s));
        runs.extend([from, points.len() as u32 / 3]);
    }
    let mut out = vec![FLOAT; points.len() + 5];
    let a = ours::ring(&runs, &points, &mut out).or_else(refused)?;
    let n = 3 * a[0] as usize;
    untouched(&out, n, FLOAT)?;
    short(n, FLOAT, |out| ours::ring(&runs, &points, out).map(|_| ()))?;
    o.u(a[0]);
    floats(o, &out[..n]);
    a[1..].iter().for_each(|&w| o.u(w));
    Ok(())
}

fn ear_clip(i: &mut In, o: &mut Out) -> R<()> {
    let ring = ours::flat(&i.list(In::point)?);
    let mut out = vec![WORD; ring.len() + 4];
    let n = ours::ear_clip(&ring, &mut out).or_else(refused)?;
    untouched(&out, 3 * n, WORD)?;
    short(3 * n, WORD, |out| ours::ear_clip(&ring, out).map(|_| ()))?;
    o.u(n as u32);
    out[..3 * n].iter().for_each(|&w| o.u(w));
    Ok(())
}

const VERTICES: usize = 65_536;

fn junction_mesh(i: &mut In, o: &mut Out) -> R<()> {
    let ring = ours::flat(&i.list(In::point)?);
    let grid = if i.u()? != 0 { Some(GridLists::of(&i.grid()?)) } else { None };
    let (mut v, mut n, mut w) = (vec![FLOAT; 3 * VERTICES], vec![FLOAT; 3 * VERTICES], vec![WORD; VERTICES]);
    let count = ours::junction_mesh(&ring, grid.as_ref(), &mut v, &mut n, &mut w).or_else(refused)?;
    untouched(&v, 3 * count, FLOAT)?;
    untouched(&n, 3 * count, FLOAT)?;
    untouched(&w, count, WORD)?;
    let (mut v2, mut w2) = (vec![FLOAT; 3 * count], vec![WORD; count]);
    short(3 * count, FLOAT, |n2| ours::junction_mesh(&ring, grid.as_ref(), &mut v2, n2, &mut w2).map(|_| ()))?;
    untouched(&v2, 0, FLOAT)?;
    untouched(&w2, 0, WORD)?;
    o.u(count as u32);
    floats(o, &v[..3 * count]);
    o.u(count as u32);
    floats(o, &n[..3 * count]);
    o.u(count as u32);
    w[..count].iter().for_each(|&x| o.u(x));
    o.u(0);
    Ok(())
}

fn surface_mesh(i: &mut In, o: &mut Out) -> R<()> {
    let lanes = i.list(In::lane)?;
    let l = LaneLists::of(&lanes);
    let most: usize = lanes.iter().map(|l| l.center.points.len().max(2)).sum();
    let (mut v, mut n) = (vec![FLOAT; 6 * most + 7], vec![FLOAT; 6 * most + 7]);
    let (mut w, mut s) = (vec![WORD; 6 * most + 7], vec![WORD; 5 * lanes.len() + 7]);
    let a = ours::surface_mesh(&l, &mut v, &mut n, &mut w, &mut s).or_else(refused)?;
    let [av, an, ai, asp] = a;
    untouched(&v, 3 * av, FLOAT)?;
    untouched(&n, 3 * an, FLOAT)?;
    untouched(&w, ai, WORD)?;
    untouched(&s, 5 * asp, WORD)?;
    let (mut v2, mut n2, mut w2) = (vec![FLOAT; 3 * av], vec![FLOAT; 3 * an], vec![WORD; ai]);
    short(5 * asp, WORD, |s2| ours::surface_mesh(&l, &mut v2, &mut n2, &mut w2, s2).map(|_| ()))?;
    untouched(&v2, 0, FLOAT)?;
    untouched(&n2, 0, FLOAT)?;
    untouched(&w2, 0, WORD)?;
    o.u(av as u32);
    floats(o, &v[..3 * av]);
    o.u(an as u32);
    floats(o, &n[..3 * an]);
    o.u(ai as u32);
    w[..ai].iter().for_each(|&x| o.u(x));
    o.u(asp as u32);
    s[..5 * asp].iter().for_each(|&x| o.u(x));
    Ok(())
}

/// The outputs of a joining, each with so many elements.
struct Room {
    v: Vec<f32>,
    n: Vec<f32>,
    i: Vec<u32>,
    s: Vec<u32>,
}

impl Room {
    fn of([v, n, i, s]: [usize; 4]) -> Self {
        Self { v: vec![FLOAT; v], n: vec![FLOAT; n], i: vec![WORD; i], s: vec![WORD; s] }
    }

    fn join(&mut self, a: &Lists, b: &Lists) -> Result<[usize; 4], Refused> {
        ours::join(a, b, &mut self.v, &mut self.n, &mut self.i, &mut self.s)
    }

    fn untouched(&self, [v, n, i, s]: [usize; 4]) -> R<()> {
        untouched(&self.v, v, FLOAT)?;
        untouched(&self.n, n, FLOAT)?;
        untouched(&self.i, i, WORD)?;
        untouched(&self.s, s, WORD)
    }
}

fn join(i: &mut In, o: &mut Out) -> R<()> {
    let (a, b) = (Lists::of(&i.mesh()?), Lists::of(&i.mesh()?));
    let q = i.queries()?;
    let sizes = [
        a.vertices.len() + b.vertices.len(), a.normals.len() + b.normals.len(), a.indices.len() + b.indices.len(),
        a.spans.len() + b.spans.len(),
    ];
    let mut room = Room::of(sizes.map(|n| n + 7));
    let [v, n, k, s] = match room.join(&a, &b) {
        Ok(counts) => counts,
        Err(r) => {
            room.untouched([0; 4])?;
            o.u(r.number);
            o.u(r.place);
            return Ok(());
        }
    };
    if [3 * v, 3 * n, k, 5 * s] != sizes {
        return Err(format!("told {v}, {n}, {k}, {s} of {sizes:?}"));
    }
    room.untouched(sizes)?;
    // one element too few of one output, and just enough of the others
    for short in 0..4 {
        let mut few = sizes;
        few[short] = few[short].saturating_sub(1);
        let mut less = Room::of(few);
        let said = less.join(&a, &b);
        if few != sizes && said != Err(Refused { number: 3, place: sizes[short] as u32 }) {
            return Err(format!("short of {} in output {short}: {said:?}", sizes[short]));
        }
        if said.is_err() {
            less.untouched([0; 4])?;
        }
    }
    let [v, n, k, s] = sizes;
    let whole = Lists { vertices: room.v[..v].to_vec(), normals: room.n[..n].to_vec(), indices: room.i[..k].to_vec(), spans: room.s[..s].to_vec() };
    o.u(0);
    o.u(v as u32 / 3);
    floats(o, &whole.vertices);
    o.u(n as u32 / 3);
    floats(o, &whole.normals);
    o.list(&whole.indices, |o, &w| o.u(w));
    o.u(s as u32 / 5);
    whole.spans.iter().for_each(|&w| o.u(w));
    o.u(q.len() as u32);
    for (x, y) in q {
        ours::height_at(&whole, x, y).or_else(refused)?[..6].iter().for_each(|&w| o.u(w));
    }
    Ok(())
}

fn index_of(m: &Lists) -> R<Vec<u32>> {
    let mut empty: [u32; 0] = [];
    let wanted = match ours::build(m, &mut empty) {
        Err(Refused { number: 3, place }) => place as usize,
        other => return Err(format!("build with no room: {other:?}")),
    };
    let mut index = vec![WORD; wanted + 3];
    let n = ours::build(m, &mut index).or_else(refused)?;
    if n != wanted {
        return Err(format!("build used {n} words and wanted {wanted}"));
    }
    untouched(&index, n, WORD)?;
    short(n, WORD, |out| ours::build(m, out).map(|_| ()))?;
    index.truncate(n);
    // with this much room the words are mostly not counted first
    let mut roomy = vec![WORD; (n + 16 * m.indices.len()).min(4_194_304)];
    if ours::build(m, &mut roomy).or_else(refused)? != n || roomy[..n] != index {
        return Err("built with more room, the index differs".into());
    }
    untouched(&roomy, n, WORD)?;
    Ok(index)
}

fn indexed(m: &Lists, index: &[u32], q: &[(f32, f32)], o: &mut Out) -> R<()> {
    o.u(q.len() as u32);
    let from = o.words.len();
    for &(x, y) in q {
        let a = ours::top(m, index, x, y);
        if a.is_ok() {
            short(8, WORD, |out| ours::top_into(m, index, x, y, out).map(|_| ()))?;
        }
        hit(o, a);
    }
    batch(m, index, q, &o.words[from..])
}

fn probes(i: &mut In, o: &mut Out) -> R<()> {
    let bytes = &i.bytes()?;
    let mut text = vec![BYTE; 300_000];
    let k = ours::report(bytes, &mut text).or_else(refused)?;
    untouched(&text, k, BYTE)?;
    short(k, BYTE, |out| ours::report(bytes, out).map(|_| ()))?;
    let _ = held_of(bytes)?;
    o.bytes(&text[..k]);
    Ok(())
}

/// What a call writes, or why it is turned back: with room to spare, with no more than it needs, with one element too few,
/// and, where it is turned back, with no room, since that is looked at last.
fn written<T: PartialEq + Copy>(
    room: usize, pattern: T, call: impl Fn(&mut [T]) -> Result<usize, Refused>,
) -> R<Result<Vec<T>, Refused>> {
    let mut out = vec![pattern; room];
    let n = match call(&mut out) {
        Ok(n) => n,
        Err(r) => {
            untouched(&out, 0, pattern)?;
            return match call(&mut []) {
                Err(again) if again == r => Ok(Err(r)),
                other => Err(format!("{r:?}, and with no room {other:?}")),
            };
        }
    };
    untouched(&out, n, pattern)?;
    out.truncate(n);
    let mut just = vec![pattern; n];
    match call(&mut just) {
        Ok(again) if again == n && just == out => {}
        other => return Err(format!("with room for {n} and no more: {other:?}, or another answer")),
    }
    short(n, pattern, |out| call(out).map(|_| ()))?;
    Ok(Ok(out))
}

fn read(bytes: &[u8]) -> R<Result<Vec<u32>, Refused>> {
    written(bytes.len() / 4 + 11, WORD, |out| ours::read(bytes, out))
}

fn write(held: &[u32]) -> R<Result<Vec<u8>, Refused>> {
    written(4 * held.len() + 5, BYTE, |out| ours::write(held, out))
}

/// The words held of a file. A file that is taken, read and written, is the same bytes.
fn held_of(bytes: &[u8]) -> R<Result<Vec<u32>, Refused>> {
    let held = read(bytes)?;
    if let Ok(words) = &held {
        if write(words)?.as_deref() != Ok(bytes) {
            return Err("written back, the file differs".into());
        }
    }
    Ok(held)
}

/// The file of held words. Words that are taken, written and read, are the same.
fn file_of(held: &[u32]) -> R<Result<Vec<u8>, Refused>> {
    let file = write(held)?;
    if let Ok(bytes) = &file {
        if read(bytes)?.as_deref() != Ok(held) {
            return Err("read back, the words differ".into());
        }
    }
    Ok(file)
}

/// 0 and what is written, or the refusal.
fn told<T>(o: &mut Out, said: Result<Vec<T>, Refused>, tell: impl FnOnce(&mut Out, &[T])) {
    match said {
        Ok(xs) => {
            o.u(0);
            tell(o, &xs);
        }
        Err(r) => {
            o.u(r.number);
            o.u(r.place);
        }
    }
}

/// A verdict's sentence; and what is read of it must be the verdict.
fn sentence(i: &mut In, o: &mut Out) -> R<()> {
    let v = [i.u()?, i.u()?, i.u()?, i.u()?];
    let mut text = [BYTE; 90];
    let n = ours::verdict_write(v, &mut text).or_else(refused)?;
    untouched(&text, n, BYTE)?;
    short(n, BYTE, |out| ours::verdict_write(v, out).map(|_| ()))?;
    o.bytes(&text[..n]);
    match ours::verdict_read(&text[..n]) {
        Ok(back) if back == v => Ok(()),
        other => Err(format!("{v:?} was written, and read as {other:?}")),
    }
}

/// The answer to one case.
pub fn one(op: &str, i: &mut In, o: &mut Out) -> R<()> {
    match op {
        "elevation_height" | "elevation_height_at" => {
            let g = GridLists::of(&i.grid()?);
            let at = i.list(|r| Ok((r.d()?, r.d()?)))?;
            o.u(at.len() as u32);
            for (s, t) in at {
                let a = ours::height(&g, op == "elevation_height_at", s, t).or_else(refused)?;
                o.u(a.is_some() as u32);
                o.d(a.unwrap_or(0.0));
            }
            Ok(())
        }
        "ring" => ring(i, o),
        "ear_clip" => ear_clip(i, o),
        "junction_mesh" => junction_mesh(i, o),
        "surface_mesh" => surface_mesh(i, o),
        "join" => join(i, o),
        "validate" => {
            let a = ours::validate(&Lists::of(&i.mesh()?)).or_else(refused)?;
            a.iter().for_each(|&w| o.u(w));
            Ok(())
        }
        "height_at" => {
            let m = Lists::of(&i.mesh()?);
            let q = i.queries()?;
            o.u(q.len() as u32);
            for (x, y) in q {
                let a = ours::height_at(&m, x, y).or_else(refused)?;
                if a[6..] != [0, 0] {
                    return Err("the plain lookup names a lane".into());
                }
                short(8, WORD, |out| ours::height_at_into(&m, x, y, out).map(|_| ()))?;
                a[..6].iter().for_each(|&w| o.u(w));
            }
            Ok(())
        }
        "sampler" => {
            let index = index_of(&Lists::of(&i.mesh()?))?;
            o.list(&index, |o, &w| o.u(w));
            Ok(())
        }
        "indexed" => {
            let m = Lists::of(&i.mesh()?);
            let q = i.queries()?;
            indexed(&m, &index_of(&m)?, &q, o)
        }
        "lookup_words" => {
            let m = Lists::of(&i.mesh()?);
            let w = i.list(In::u)?;
            let q = i.queries()?;
            indexed(&m, &w, &q, o)
        }
        "probes" => probes(i, o),
        "held" => {
            told(o, held_of(&i.bytes()?)?, |o, words| o.list(words, |o, &w| o.u(w)));
            Ok(())
        }
        "file" => {
            told(o, file_of(&i.list(In::u)?)?, |o, bytes| o.bytes(bytes));
            Ok(())
        }
        "sentence" => sentence(i, o),
        "read_sentence" => {
            let a = match ours::verdict_read(&i.bytes()?) {
                Ok([kind, a, b, c]) => [0, kind, a, b, c],
                Err(r) => [r.number, r.place, 0, 0, 0],
            };
            a.iter().for_each(|&w| o.u(w));
            Ok(())
        }
        _ => Err(format!("no operation {op}")),
    }
}
