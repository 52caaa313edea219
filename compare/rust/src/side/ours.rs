//! The calls of the proved library (include/roadsurface.h), and the Rust's data as it is lent to them.
use oracle::{ElevationGrid, Lane, Mesh, Point, Vector};

mod c {
    #[link(name = "roadsurface", kind = "static")]
    extern "C" {
        pub fn rs_elevation_height(
            origin_x: f64, origin_y: f64, sin: f64, cos: f64, start: f64, spacing: f64,
            rows: *const u32, rows_len: usize, left: *const f64, left_len: usize, right: *const f64, right_len: usize,
            s: f64, t: f64, height: *mut f64,
        ) -> u64;
        pub fn rs_elevation_height_at(
            origin_x: f64, origin_y: f64, sin: f64, cos: f64, start: f64, spacing: f64,
            rows: *const u32, rows_len: usize, left: *const f64, left_len: usize, right: *const f64, right_len: usize,
            x: f64, y: f64, height: *mut f64,
        ) -> u64;
        pub fn rs_ring(
            segments: *const u32, segments_len: usize, points: *const f32, points_len: usize, out: *mut f32, out_len: usize,
            dropped: *mut u32, gap: *mut f32, closed: *mut u32, turned: *mut u32,
        ) -> u64;
        pub fn rs_ear_clip(ring: *const f32, ring_len: usize, out: *mut u32, out_len: usize) -> u64;
        pub fn rs_junction_mesh(
            ring: *const f32, ring_len: usize,
            has_grid: bool, origin_x: f64, origin_y: f64, sin: f64, cos: f64, start: f64, spacing: f64,
            rows: *const u32, rows_len: usize, left: *const f64, left_len: usize, right: *const f64, right_len: usize,
            vertices: *mut f32, vertices_len: usize, normals: *mut f32, normals_len: usize, indices: *mut u32, indices_len: usize,
        ) -> u64;
        pub fn rs_surface_mesh(
            points: *const f32, points_len: usize, tangents: *const f32, tangents_len: usize, widths: *const f32, widths_len: usize,
            banks: *const f32, banks_len: usize, lanes: *const u32, lanes_len: usize,
            vertices: *mut f32, vertices_len: usize, normals: *mut f32, normals_len: usize, indices: *mut u32, indices_len: usize,
            spans: *mut u32, spans_len: usize, normal_count: *mut u32, index_count: *mut u32, span_count: *mut u32,
        ) -> u64;
        pub fn rs_join(
            first_vertices: *const f32, first_vertices_len: usize, first_normals: *const f32, first_normals_len: usize,
            first_indices: *const u32, first_indices_len: usize, first_spans: *const u32, first_spans_len: usize,
            second_vertices: *const f32, second_vertices_len: usize, second_normals: *const f32, second_normals_len: usize,
            second_indices: *const u32, second_indices_len: usize, second_spans: *const u32, second_spans_len: usize,
            vertices: *mut f32, vertices_len: usize, normals: *mut f32, normals_len: usize, indices: *mut u32, indices_len: usize,
            spans: *mut u32, spans_len: usize, normal_count: *mut u32, index_count: *mut u32, span_count: *mut u32,
        ) -> u64;
        pub fn rs_validate(
            vertices: *const f32, vertices_len: usize, normals: *const f32, normals_len: usize, indices: *const u32, indices_len: usize,
            spans: *const u32, spans_len: usize, place: *mut u32, index: *mut u32, vertex_count: *mut u32,
        ) -> u64;
        pub fn rs_height_at(
            vertices: *const f32, vertices_len: usize, normals: *const f32, normals_len: usize, indices: *const u32, indices_len: usize,
            spans: *const u32, spans_len: usize, x: f32, y: f32, record: *mut u32, record_len: usize,
        ) -> u64;
        pub fn rs_build_index(
            vertices: *const f32, vertices_len: usize, normals: *const f32, normals_len: usize, indices: *const u32, indices_len: usize,
            spans: *const u32, spans_len: usize, index: *mut u32, index_len: usize,
        ) -> u64;
        pub fn rs_top(
            vertices: *const f32, vertices_len: usize, normals: *const f32, normals_len: usize, indices: *const u32, indices_len: usize,
            spans: *const u32, spans_len: usize, index: *const u32, index_len: usize, x: f32, y: f32, record: *mut u32, record_len: usize,
        ) -> u64;
        pub fn rs_tops(
            vertices: *const f32, vertices_len: usize, normals: *const f32, normals_len: usize, indices: *const u32, indices_len: usize,
            spans: *const u32, spans_len: usize, index: *const u32, index_len: usize, points: *const f32, points_len: usize,
            records: *mut u32, records_len: usize,
        ) -> u64;
        pub fn rs_verdict_write(kind: u32, place: u32, index: u32, vertex_count: u32, text: *mut u8, text_len: usize) -> u64;
        pub fn rs_verdict_read(text: *const u8, text_len: usize, place: *mut u32, index: *mut u32, vertex_count: *mut u32) -> u64;
        pub fn rs_surface_read(bytes: *const u8, bytes_len: usize, held: *mut u32, held_len: usize) -> u64;
        pub fn rs_surface_write(held: *const u32, held_len: usize, bytes: *mut u8, bytes_len: usize) -> u64;
        pub fn rs_report(bytes: *const u8, bytes_len: usize, text: *mut u8, text_len: usize) -> u64;
    }
}

/// A refusal: its number and place.
#[derive(Debug, Clone, Copy, PartialEq, Eq)]
pub struct Refused {
    pub number: u32,
    pub place: u32,
}

/// The count of a call that is taken.
fn told(code: u64) -> Result<usize, Refused> {
    if code >> 32 == 0 { Ok(code as usize) } else { Err(Refused { number: (code >> 32) as u32, place: code as u32 }) }
}

/// What a number holds before a call; a call that is turned back, or has no such value, must leave it there.
const BEFORE: u32 = 0x5eed_f00d;
const BEFORE_SINGLE: f32 = f32::from_bits(0x4b12_3457);
const BEFORE_DOUBLE: f64 = f64::from_bits(0x4b12_3456_789a_bcde);

/// The same refusal, once it has been seen that the numbers are as they were.
fn unwritten(said: Result<usize, Refused>, words: &[u32]) -> Result<usize, Refused> {
    if said.is_err() {
        assert!(words.iter().all(|&w| w == BEFORE), "a refused call wrote {words:x?}");
    }
    said
}

pub fn flat(ps: &[Point]) -> Vec<f32> {
    ps.iter().flat_map(|p| [p.x, p.y, p.z]).collect()
}

fn flat_vectors(vs: &[Vector]) -> Vec<f32> {
    vs.iter().flat_map(|v| [v.x, v.y, v.z]).collect()
}

/// A mesh as it is lent.
#[derive(Clone, Default)]
pub struct Lists {
    pub vertices: Vec<f32>,
    pub normals: Vec<f32>,
    pub indices: Vec<u32>,
    pub spans: Vec<u32>,
}

impl Lists {
    pub fn of(m: &Mesh) -> Self {
        Self {
            vertices: flat(&m.vertices),
            normals: flat_vectors(&m.normals),
            indices: m.indices.clone(),
            spans: m.lanes.iter().flat_map(|s| [s.lane, s.vertices.start, s.vertices.end, s.indices.start, s.indices.end]).collect(),
        }
    }
}

/// A grid's rows and heights as they are lent.
#[derive(Clone, Default)]
pub struct GridLists {
    pub numbers: [f64; 6],
    pub rows: Vec<u32>,
    pub left: Vec<f64>,
    pub right: Vec<f64>,
}

impl GridLists {
    pub fn of(g: &ElevationGrid) -> Self {
        let mut r = Self { numbers: [g.origin[0], g.origin[1], g.heading.0, g.heading.1, g.s_start, g.spacing], ..Self::default() };
        for row in &g.rows {
            let b = row.center.to_bits();
            let (l, s) = (r.left.len() as u32, r.right.len() as u32);
            r.left.extend(&row.left);
            r.right.extend(&row.right);
            r.rows.extend([b as u32, (b >> 32) as u32, l, r.left.len() as u32, s, r.right.len() as u32]);
        }
        r
    }
}

/// Lanes as they are lent.
#[derive(Clone, Default)]
pub struct LaneLists {
    pub points: Vec<f32>,
    pub tangents: Vec<f32>,
    pub widths: Vec<f32>,
    pub banks: Vec<f32>,
    pub lanes: Vec<u32>,
}

impl LaneLists {
    pub fn of(lanes: &[Lane]) -> Self {
        let mut r = Self::default();
        for l in lanes {
            let from = [r.points.len() / 3, r.tangents.len() / 3, r.widths.len(), r.banks.len() / 2];
            r.points.extend(flat(&l.center.points));
            r.tangents.extend(flat_vectors(&l.center.tangents));
            r.widths.extend(&l.widths);
            r.banks.extend(l.bank.iter().flat_map(|&(s, c)| [s, c]));
            let to = [r.points.len() / 3, r.tangents.len() / 3, r.widths.len(), r.banks.len() / 2];
            r.lanes.push(l.id);
            for k in 0..4 {
                r.lanes.extend([from[k] as u32, to[k] as u32]);
            }
            r.lanes.push(l.width.to_bits());
        }
        r
    }
}

// ---- the calls

pub fn height(g: &GridLists, at: bool, s: f64, t: f64) -> Result<Option<f64>, Refused> {
    let n = &g.numbers;
    let mut height = BEFORE_DOUBLE;
    let call = if at { c::rs_elevation_height_at } else { c::rs_elevation_height };
    let said = told(unsafe {
        call(
            n[0], n[1], n[2], n[3], n[4], n[5], g.rows.as_ptr(), g.rows.len(), g.left.as_ptr(), g.left.len(),
            g.right.as_ptr(), g.right.len(), s, t, &mut height,
        )
    });
    if said != Ok(1) {
        assert_eq!(height.to_bits(), BEFORE_DOUBLE.to_bits(), "a height without a height");
    }
    said.map(|found| (found != 0).then_some(height))
}

/// Points of the ring, dropped, the gap's bits, closed, turned.
pub fn ring(segments: &[u32], points: &[f32], out: &mut [f32]) -> Result<[u32; 5], Refused> {
    let (mut a, mut gap) = ([BEFORE; 3], BEFORE_SINGLE);
    let [dropped, closed, turned] = &mut a;
    let said = told(unsafe {
        c::rs_ring(
            segments.as_ptr(), segments.len(), points.as_ptr(), points.len(), out.as_mut_ptr(), out.len(),
            dropped, &mut gap, closed, turned,
        )
    });
    let n = unwritten(said, &a)
        .inspect_err(|_| assert_eq!(gap.to_bits(), BEFORE_SINGLE.to_bits(), "a refused call wrote the gap"))?;
    let gap = if gap.is_nan() { 0x7fc0_0000 } else { gap.to_bits() };
    Ok([n as u32, a[0], gap, a[1], a[2]])
}

pub fn ear_clip(ring: &[f32], out: &mut [u32]) -> Result<usize, Refused> {
    told(unsafe { c::rs_ear_clip(ring.as_ptr(), ring.len(), out.as_mut_ptr(), out.len()) })
}

pub fn junction_mesh(ring: &[f32], grid: Option<&GridLists>, v: &mut [f32], n: &mut [f32], i: &mut [u32]) -> Result<usize, Refused> {
    let none = GridLists::default();
    let g = grid.unwrap_or(&none);
    let k = &g.numbers;
    told(unsafe {
        c::rs_junction_mesh(
            ring.as_ptr(), ring.len(), grid.is_some(), k[0], k[1], k[2], k[3], k[4], k[5],
            g.rows.as_ptr(), g.rows.len(), g.left.as_ptr(), g.left.len(), g.right.as_ptr(), g.right.len(),
            v.as_mut_ptr(), v.len(), n.as_mut_ptr(), n.len(), i.as_mut_ptr(), i.len(),
        )
    })
}

/// Vertices, normals, indices, spans.
pub fn surface_mesh(l: &LaneLists, v: &mut [f32], n: &mut [f32], i: &mut [u32], s: &mut [u32]) -> Result<[usize; 4], Refused> {
    let mut a = [BEFORE; 3];
    let [normals, indices, spans] = &mut a;
    let said = told(unsafe {
        c::rs_surface_mesh(
            l.points.as_ptr(), l.points.len(), l.tangents.as_ptr(), l.tangents.len(), l.widths.as_ptr(), l.widths.len(),
            l.banks.as_ptr(), l.banks.len(), l.lanes.as_ptr(), l.lanes.len(),
            v.as_mut_ptr(), v.len(), n.as_mut_ptr(), n.len(), i.as_mut_ptr(), i.len(), s.as_mut_ptr(), s.len(), normals, indices, spans,
        )
    });
    Ok([unwritten(said, &a)?, a[0] as usize, a[1] as usize, a[2] as usize])
}

macro_rules! mesh {
    ($call:ident, $m:expr, $($more:expr),*) => {
        unsafe {
            c::$call(
                $m.vertices.as_ptr(), $m.vertices.len(), $m.normals.as_ptr(), $m.normals.len(), $m.indices.as_ptr(), $m.indices.len(),
                $m.spans.as_ptr(), $m.spans.len(), $($more),*
            )
        }
    };
}

/// Vertices, normals, indices, spans.
pub fn join(a: &Lists, b: &Lists, v: &mut [f32], n: &mut [f32], i: &mut [u32], s: &mut [u32]) -> Result<[usize; 4], Refused> {
    let mut counts = [BEFORE; 3];
    let [normals, indices, spans] = &mut counts;
    let said = told(mesh!(
        rs_join, a, b.vertices.as_ptr(), b.vertices.len(), b.normals.as_ptr(), b.normals.len(), b.indices.as_ptr(), b.indices.len(),
        b.spans.as_ptr(), b.spans.len(), v.as_mut_ptr(), v.len(), n.as_mut_ptr(), n.len(), i.as_mut_ptr(), i.len(),
        s.as_mut_ptr(), s.len(), normals, indices, spans
    ));
    Ok([unwritten(said, &counts)?, counts[0] as usize, counts[1] as usize, counts[2] as usize])
}

/// The kind and three counts; a count that the kind does not tell must be left as it was, and is 0 here.
pub fn validate(m: &Lists) -> Result<[u32; 4], Refused> {
    verdict(|place, index, vertices| mesh!(rs_validate, m, place, index, vertices))
}

fn verdict(call: impl FnOnce(*mut u32, *mut u32, *mut u32) -> u64) -> Result<[u32; 4], Refused> {
    let mut a = [BEFORE; 3];
    let [place, index, vertices] = &mut a;
    let kind = unwritten(told(call(place, index, vertices)), &a)?;
    let told = [0, 0, 1, 3, 1][kind];
    assert!(a[told..].iter().all(|&w| w == BEFORE), "verdict {kind} wrote {a:x?}");
    a[told..].fill(0);
    Ok([kind as u32, a[0], a[1], a[2]])
}

pub fn verdict_write([kind, a, b, c]: [u32; 4], text: &mut [u8]) -> Result<usize, Refused> {
    told(unsafe { c::rs_verdict_write(kind, a, b, c, text.as_mut_ptr(), text.len()) })
}

/// The kind and three counts, as of `validate`.
pub fn verdict_read(text: &[u8]) -> Result<[u32; 4], Refused> {
    verdict(|place, index, vertices| unsafe { c::rs_verdict_read(text.as_ptr(), text.len(), place, index, vertices) })
}

/// Where the count is 1 the record must say so, and where it is 0 be zeros.
fn counted(n: usize, record: &[u32]) {
    assert!(n == record[0] as usize && (n == 1 || record == [0; 8]), "count {n}, record {record:x?}");
}

pub fn height_at(m: &Lists, x: f32, y: f32) -> Result<[u32; 8], Refused> {
    let mut a = [BEFORE; 8];
    counted(height_at_into(m, x, y, &mut a)?, &a);
    Ok(a)
}

/// The same into lent words, as a program in C calls it.
pub fn height_at_into(m: &Lists, x: f32, y: f32, record: &mut [u32]) -> Result<usize, Refused> {
    told(mesh!(rs_height_at, m, x, y, record.as_mut_ptr(), record.len()))
}

pub fn build(m: &Lists, index: &mut [u32]) -> Result<usize, Refused> {
    told(mesh!(rs_build_index, m, index.as_mut_ptr(), index.len()))
}

pub fn top(m: &Lists, index: &[u32], x: f32, y: f32) -> Result<[u32; 8], Refused> {
    let mut a = [BEFORE; 8];
    counted(top_into(m, index, x, y, &mut a)?, &a);
    Ok(a)
}

pub fn top_into(m: &Lists, index: &[u32], x: f32, y: f32, record: &mut [u32]) -> Result<usize, Refused> {
    told(mesh!(rs_top, m, index.as_ptr(), index.len(), x, y, record.as_mut_ptr(), record.len()))
}

pub fn tops(m: &Lists, index: &[u32], points: &[f32], records: &mut [u32]) -> Result<usize, Refused> {
    told(mesh!(rs_tops, m, index.as_ptr(), index.len(), points.as_ptr(), points.len(), records.as_mut_ptr(), records.len()))
}

pub fn read(bytes: &[u8], held: &mut [u32]) -> Result<usize, Refused> {
    told(unsafe { c::rs_surface_read(bytes.as_ptr(), bytes.len(), held.as_mut_ptr(), held.len()) })
}

pub fn write(held: &[u32], bytes: &mut [u8]) -> Result<usize, Refused> {
    told(unsafe { c::rs_surface_write(held.as_ptr(), held.len(), bytes.as_mut_ptr(), bytes.len()) })
}

pub fn report(bytes: &[u8], text: &mut [u8]) -> Result<usize, Refused> {
    told(unsafe { c::rs_report(bytes.as_ptr(), bytes.len(), text.as_mut_ptr(), text.len()) })
}
