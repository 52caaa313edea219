//! Document 02, "Lanes and junctions as one surface": two meshes as one. The Rust has no joining: its lists are laid end to
//! end here, and when a part is turned back is worked out from the document's words.
use crate::surface::Refusal;
use crate::*;

/// The lists of a mesh behind those of another, its numbers moved up.
pub fn extend(whole: &mut Mesh, m: &Mesh) {
    let (v, i) = (whole.vertices.len() as u32, whole.indices.len() as u32);
    whole.vertices.extend_from_slice(&m.vertices);
    whole.normals.extend_from_slice(&m.normals);
    whole.indices.extend(m.indices.iter().map(|k| k + v));
    whole.lanes.extend(m.lanes.iter().map(|s| LaneSpan {
        lane: s.lane,
        vertices: s.vertices.start + v..s.vertices.end + v,
        indices: s.indices.start + i..s.indices.end + i,
    }));
}

fn fault(a: &Mesh, b: &Mesh) -> Option<Refusal> {
    let is = |number: u32, place: usize| Some(Refusal { number, place: place as u32 });
    for (part, m) in [a, b].into_iter().enumerate() {
        if m.indices.len() % 3 != 0 {
            return is(2, 4 * part + 2);
        }
    }
    for (part, m) in [a, b].into_iter().enumerate() {
        if m.normals.len() != m.vertices.len() {
            return is(7, part);
        }
    }
    let loose = |m: &Mesh| m.indices.iter().position(|&k| k as usize >= m.vertices.len());
    loose(a).or_else(|| loose(b).map(|k| a.indices.len() + k)).and_then(|k| is(8, k))
}

pub fn join(a: &Mesh, b: &Mesh) -> Result<Mesh, Refusal> {
    if let Some(r) = fault(a, b) {
        return Err(r);
    }
    let mut whole = a.clone();
    extend(&mut whole, b);
    Ok(whole)
}

/// Whether no height can be a NaN: on ground, as document 02 has it of surveyed maps.
fn calm(m: &Mesh) -> bool {
    m.vertices.iter().all(|v| [v.x, v.y, v.z].iter().all(|c| c.abs() <= 1e6))
}

/// What the plain lookup gives on the whole: the higher of the two parts' answers, the first part's if equal. Where a
/// height may be a NaN the document leaves it open, and the answer is that of the Rust on the lists laid end to end.
pub fn plain(a: &Mesh, b: &Mesh, whole: &Mesh, x: f32, y: f32) -> Option<(f32, Vector, usize)> {
    if !calm(whole) {
        return whole.plain(x, y);
    }
    let moved = |(h, n, t)| (h, n, a.indices.len() / 3 + t);
    match (a.plain(x, y), b.plain(x, y)) {
        (Some(p), Some(q)) => Some(if q.0 > p.0 { moved(q) } else { p }),
        (p, q) => p.or(q.map(moved)),
    }
}
