//! The road-surface library for Rust: safe calls of libroadsurface.a (built by `rt lib` in crates/roadsurface).
//! A call gives what include/roadsurface.h says, or the refusal; a refused call has written nothing. Lists are slices
//! of elements: floats, doubles, words and bytes, so coordinates are in threes and asked points in twos.
#![allow(dead_code)]
#![allow(clippy::too_many_arguments)]

mod raw {
    extern "C" {
        pub fn rs_elevation_height(
            origin_x: f64, origin_y: f64, sin: f64, cos: f64, start: f64, spacing: f64,
            rows: *const u32, rows_count: usize, left: *const f64, left_count: usize,
            right: *const f64, right_count: usize,
            s: f64, t: f64, height: *mut f64,
        ) -> u64;
        pub fn rs_elevation_height_at(
            origin_x: f64, origin_y: f64, sin: f64, cos: f64, start: f64, spacing: f64,
            rows: *const u32, rows_count: usize, left: *const f64, left_count: usize,
            right: *const f64, right_count: usize,
            x: f64, y: f64, height: *mut f64,
        ) -> u64;
        pub fn rs_ring(
            segments: *const u32, segments_count: usize, points: *const f32, points_count: usize,
            ring: *mut f32, ring_count: usize,
            dropped: *mut u32, gap: *mut f32, closed: *mut u32, turned: *mut u32,
        ) -> u64;
        pub fn rs_ear_clip(ring: *const f32, ring_count: usize, ears: *mut u32, ears_count: usize) -> u64;
        pub fn rs_junction_mesh(
            ring: *const f32, ring_count: usize, has_grid: bool,
            origin_x: f64, origin_y: f64, sin: f64, cos: f64, start: f64, spacing: f64,
            rows: *const u32, rows_count: usize, left: *const f64, left_count: usize,
            right: *const f64, right_count: usize,
            vertices: *mut f32, vertices_count: usize, normals: *mut f32, normals_count: usize,
            indices: *mut u32, indices_count: usize,
        ) -> u64;
        pub fn rs_surface_mesh(
            points: *const f32, points_count: usize, tangents: *const f32, tangents_count: usize,
            widths: *const f32, widths_count: usize, banks: *const f32, banks_count: usize,
            lanes: *const u32, lanes_count: usize,
            vertices: *mut f32, vertices_count: usize, normals: *mut f32, normals_count: usize,
            indices: *mut u32, indices_count: usize, spans: *mut u32, spans_count: usize,
            normal_count: *mut u32, index_count: *mut u32, span_count: *mut u32,
        ) -> u64;
        pub fn rs_join(
            first_vertices: *const f32, first_vertices_count: usize, first_normals: *const f32, first_normals_count: usize,
            first_indices: *const u32, first_indices_count: usize, first_spans: *const u32, first_spans_count: usize,
            second_vertices: *const f32, second_vertices_count: usize,
            second_normals: *const f32, second_normals_count: usize,
            second_indices: *const u32, second_indices_count: usize,
            second_spans: *const u32, second_spans_count: usize,
            vertices: *mut f32, vertices_count: usize, normals: *mut f32, normals_count: usize,
            indices: *mut u32, indices_count: usize, spans: *mut u32, spans_count: usize,
            normal_count: *mut u32, index_count: *mut u32, span_count: *mut u32,
        ) -> u64;
        pub fn rs_height_at(
            vertices: *const f32, vertices_count: usize, normals: *const f32, normals_count: usize,
            indices: *const u32, indices_count: usize, spans: *const u32, spans_count: usize,
            x: f32, y: f32, record: *mut u32, record_count: usize,
        ) -> u64;
        pub fn rs_build_index(
            vertices: *const f32, vertices_count: usize, normals: *const f32, normals_count: usize,
            indices: *const u32, indices_count: usize, spans: *const u32, spans_count: usize,
            index: *mut u32, index_count: usize,
        ) -> u64;
        pub fn rs_top(
            vertices: *const f32, vertices_count: usize, normals: *const f32, normals_count: usize,
            indices: *const u32, indices_count: usize, spans: *const u32, spans_count: usize,
            index: *const u32, index_count: usize, x: f32, y: f32, record: *mut u32, record_count: usize,
        ) -> u64;
        pub fn rs_tops(
            vertices: *const f32, vertices_count: usize, normals: *const f32, normals_count: usize,
            indices: *const u32, indices_count: usize, spans: *const u32, spans_count: usize,
            index: *const u32, index_count: usize, points: *const f32, points_count: usize,
            records: *mut u32, records_count: usize,
        ) -> u64;
        pub fn rs_validate(
            vertices: *const f32, vertices_count: usize, normals: *const f32, normals_count: usize,
            indices: *const u32, indices_count: usize, spans: *const u32, spans_count: usize,
            place: *mut u32, index: *mut u32, vertex_count: *mut u32,
        ) -> u64;
        pub fn rs_verdict_write(
            kind: u32, place: u32, index: u32, vertex_count: u32, text: *mut u8, text_count: usize,
        ) -> u64;
        pub fn rs_verdict_read(
            text: *const u8, text_count: usize, place: *mut u32, index: *mut u32, vertex_count: *mut u32,
        ) -> u64;
        pub fn rs_surface_read(bytes: *const u8, bytes_count: usize, held: *mut u32, held_count: usize) -> u64;
        pub fn rs_surface_write(held: *const u32, held_count: usize, bytes: *mut u8, bytes_count: usize) -> u64;
        pub fn rs_report(bytes: *const u8, bytes_count: usize, text: *mut u8, text_count: usize) -> u64;
    }
}

/// Why there is no answer.
#[derive(Clone, Copy, Debug, PartialEq, Eq)]
pub enum Refusal {
    /// A list or a result is past this limit.
    Oversize(u32),
    /// The list at this position is ragged.
    Ragged(u32),
    /// An output has fewer elements than these.
    ShortOutput(u32),
    /// The index is not one of the mesh, from this word on.
    ForeignIndex(u32),
    /// This record of a surface file is bad.
    BadRecord(u32),
    /// The first byte at which no verdict's sentence goes on so; or how many bytes there are.
    NotAVerdict(u32),
    /// This part of a joining, 0 or 1, has not as many normals as vertices.
    OddNormals(u32),
    /// The first index past its own part's vertices, in the two parts' index lists laid end to end.
    LooseCorner(u32),
    /// A number that this page has no name for, and its place: the library is newer than the page.
    Unknown(u32, u32),
    /// The caller's own mistake: fewer records are given than to have this one (`record` alone says so).
    NoRecord(usize),
}

impl Refusal {
    fn new(number: u32, place: u32) -> Refusal {
        match number {
            1 => Refusal::Oversize(place),
            2 => Refusal::Ragged(place),
            3 => Refusal::ShortOutput(place),
            4 => Refusal::ForeignIndex(place),
            5 => Refusal::BadRecord(place),
            6 => Refusal::NotAVerdict(place),
            7 => Refusal::OddNormals(place),
            8 => Refusal::LooseCorner(place),
            _ => Refusal::Unknown(number, place),
        }
    }

    /// The number of the library's table; 0 for what the library did not say.
    pub fn number(self) -> u32 {
        match self {
            Refusal::Oversize(_) => 1,
            Refusal::Ragged(_) => 2,
            Refusal::ShortOutput(_) => 3,
            Refusal::ForeignIndex(_) => 4,
            Refusal::BadRecord(_) => 5,
            Refusal::NotAVerdict(_) => 6,
            Refusal::OddNormals(_) => 7,
            Refusal::LooseCorner(_) => 8,
            Refusal::Unknown(number, _) => number,
            Refusal::NoRecord(_) => 0,
        }
    }

    pub fn place(self) -> u32 {
        match self {
            Refusal::Oversize(p)
            | Refusal::Ragged(p)
            | Refusal::ShortOutput(p)
            | Refusal::ForeignIndex(p)
            | Refusal::BadRecord(p)
            | Refusal::NotAVerdict(p)
            | Refusal::OddNormals(p)
            | Refusal::LooseCorner(p)
            | Refusal::Unknown(_, p) => p,
            Refusal::NoRecord(k) => u32::try_from(k).unwrap_or(u32::MAX),
        }
    }
}

/// What a code says: the call's count, or the refusal.
fn told(code: u64) -> Result<u32, Refusal> {
    match (code >> 32) as u32 {
        0 => Ok(code as u32),
        number => Err(Refusal::new(number, code as u32)),
    }
}

fn count(code: u64) -> Result<usize, Refusal> {
    told(code).map(|n| n as usize)
}

/// The lists of a mesh.
#[derive(Clone, Copy)]
pub struct Mesh<'a> {
    pub vertices: &'a [f32],
    pub normals: &'a [f32],
    pub indices: &'a [u32],
    pub spans: &'a [u32],
}

/// The road at a point: its height, normal, triangle and lane.
#[derive(Clone, Copy, Debug, PartialEq)]
pub struct Sample {
    pub height: f32,
    pub normal: [f32; 3],
    pub triangle: u32,
    pub lane: Option<u32>,
}

/// Where an elevation grid lies, and its rows and heights.
#[derive(Clone, Copy)]
pub struct Grid<'a> {
    pub origin: [f64; 2],
    pub sin: f64,
    pub cos: f64,
    pub start: f64,
    pub spacing: f64,
    pub rows: &'a [u32],
    pub left: &'a [f64],
    pub right: &'a [f64],
}

/// Lanes by their points, tangents, widths and banks, each lane a run of them.
#[derive(Clone, Copy)]
pub struct Lanes<'a> {
    pub points: &'a [f32],
    pub tangents: &'a [f32],
    pub widths: &'a [f32],
    pub banks: &'a [f32],
    pub lanes: &'a [u32],
}

/// What joining a boundary tells of the ring.
#[derive(Clone, Copy, Debug, PartialEq)]
pub struct Outline {
    pub points: usize,
    pub dropped: usize,
    pub gap: f32,
    pub closed: bool,
    pub turned: bool,
}

/// How much of each output a mesh takes.
#[derive(Clone, Copy, Debug, PartialEq, Eq)]
pub struct Counts {
    pub vertices: usize,
    pub normals: usize,
    pub indices: usize,
    pub spans: usize,
}

/// The height of a grid at s along and t to the left of its reference line.
pub fn elevation_height(g: Grid, s: f64, t: f64) -> Result<Option<f64>, Refusal> {
    let mut height = 0.0;
    // The slices are lent for the call, and what is written overlaps none of them. So in each call below.
    let code = unsafe {
        raw::rs_elevation_height(
            g.origin[0], g.origin[1], g.sin, g.cos, g.start, g.spacing,
            g.rows.as_ptr(), g.rows.len(), g.left.as_ptr(), g.left.len(), g.right.as_ptr(), g.right.len(),
            s, t, &mut height,
        )
    };
    told(code).map(|found| (found == 1).then_some(height))
}

/// The height of a grid under (x, y).
pub fn elevation_height_at(g: Grid, x: f64, y: f64) -> Result<Option<f64>, Refusal> {
    let mut height = 0.0;
    let code = unsafe {
        raw::rs_elevation_height_at(
            g.origin[0], g.origin[1], g.sin, g.cos, g.start, g.spacing,
            g.rows.as_ptr(), g.rows.len(), g.left.as_ptr(), g.left.len(), g.right.as_ptr(), g.right.len(),
            x, y, &mut height,
        )
    };
    told(code).map(|found| (found == 1).then_some(height))
}

/// Joins boundary segments to a ring.
pub fn ring(segments: &[u32], points: &[f32], ring: &mut [f32]) -> Result<Outline, Refusal> {
    let (mut dropped, mut gap, mut closed, mut turned) = (0, 0.0, 0, 0);
    let code = unsafe {
        raw::rs_ring(
            segments.as_ptr(), segments.len(), points.as_ptr(), points.len(), ring.as_mut_ptr(), ring.len(),
            &mut dropped, &mut gap, &mut closed, &mut turned,
        )
    };
    count(code).map(|points| Outline {
        points,
        dropped: dropped as usize,
        gap,
        closed: closed == 1,
        turned: turned == 1,
    })
}

/// Cuts a ring into ears, and says how many.
pub fn ear_clip(ring: &[f32], ears: &mut [u32]) -> Result<usize, Refusal> {
    count(unsafe { raw::rs_ear_clip(ring.as_ptr(), ring.len(), ears.as_mut_ptr(), ears.len()) })
}

/// The ground inside a boundary as triangles: how many vertices, normals and indices each.
pub fn junction_mesh(
    ring: &[f32],
    grid: Option<Grid>,
    vertices: &mut [f32],
    normals: &mut [f32],
    indices: &mut [u32],
) -> Result<usize, Refusal> {
    let none = Grid { origin: [0.0; 2], sin: 0.0, cos: 1.0, start: 0.0, spacing: 0.0, rows: &[], left: &[], right: &[] };
    let g = grid.unwrap_or(none);
    count(unsafe {
        raw::rs_junction_mesh(
            ring.as_ptr(), ring.len(), grid.is_some(),
            g.origin[0], g.origin[1], g.sin, g.cos, g.start, g.spacing,
            g.rows.as_ptr(), g.rows.len(), g.left.as_ptr(), g.left.len(), g.right.as_ptr(), g.right.len(),
            vertices.as_mut_ptr(), vertices.len(), normals.as_mut_ptr(), normals.len(),
            indices.as_mut_ptr(), indices.len(),
        )
    })
}

/// The strips of lanes.
pub fn surface_mesh(
    l: Lanes,
    vertices: &mut [f32],
    normals: &mut [f32],
    indices: &mut [u32],
    spans: &mut [u32],
) -> Result<Counts, Refusal> {
    let (mut of_normals, mut of_indices, mut of_spans) = (0, 0, 0);
    let code = unsafe {
        raw::rs_surface_mesh(
            l.points.as_ptr(), l.points.len(), l.tangents.as_ptr(), l.tangents.len(),
            l.widths.as_ptr(), l.widths.len(), l.banks.as_ptr(), l.banks.len(),
            l.lanes.as_ptr(), l.lanes.len(),
            vertices.as_mut_ptr(), vertices.len(), normals.as_mut_ptr(), normals.len(),
            indices.as_mut_ptr(), indices.len(), spans.as_mut_ptr(), spans.len(),
            &mut of_normals, &mut of_indices, &mut of_spans,
        )
    };
    count(code).map(|vertices| Counts {
        vertices,
        normals: of_normals as usize,
        indices: of_indices as usize,
        spans: of_spans as usize,
    })
}

/// Two meshes as one: the lists of the first, then those of the second with its numbers moved up.
pub fn join(
    a: Mesh,
    b: Mesh,
    vertices: &mut [f32],
    normals: &mut [f32],
    indices: &mut [u32],
    spans: &mut [u32],
) -> Result<Counts, Refusal> {
    let (mut of_normals, mut of_indices, mut of_spans) = (0, 0, 0);
    let code = unsafe {
        raw::rs_join(
            a.vertices.as_ptr(), a.vertices.len(), a.normals.as_ptr(), a.normals.len(),
            a.indices.as_ptr(), a.indices.len(), a.spans.as_ptr(), a.spans.len(),
            b.vertices.as_ptr(), b.vertices.len(), b.normals.as_ptr(), b.normals.len(),
            b.indices.as_ptr(), b.indices.len(), b.spans.as_ptr(), b.spans.len(),
            vertices.as_mut_ptr(), vertices.len(), normals.as_mut_ptr(), normals.len(),
            indices.as_mut_ptr(), indices.len(), spans.as_mut_ptr(), spans.len(),
            &mut of_normals, &mut of_indices, &mut of_spans,
        )
    };
    count(code).map(|vertices| Counts {
        vertices,
        normals: of_normals as usize,
        indices: of_indices as usize,
        spans: of_spans as usize,
    })
}

/// What the words of a record that is no refusal say.
fn sample(a: &[u32; 8]) -> Option<Sample> {
    (a[0] == 1).then(|| Sample {
        height: f32::from_bits(a[1]),
        normal: [f32::from_bits(a[2]), f32::from_bits(a[3]), f32::from_bits(a[4])],
        triangle: a[5],
        lane: (a[6] == 1).then_some(a[7]),
    })
}

/// The highest triangle over (x, y), by looking at all of them. The lane is not told.
pub fn height_at(m: Mesh, x: f32, y: f32) -> Result<Option<Sample>, Refusal> {
    let mut a = [0; 8];
    let code = unsafe {
        raw::rs_height_at(
            m.vertices.as_ptr(), m.vertices.len(), m.normals.as_ptr(), m.normals.len(),
            m.indices.as_ptr(), m.indices.len(), m.spans.as_ptr(), m.spans.len(),
            x, y, a.as_mut_ptr(), a.len(),
        )
    };
    told(code).map(|_| sample(&a))
}

/// Builds the index of a mesh, and says how many words it has.
pub fn build_index(m: Mesh, index: &mut [u32]) -> Result<usize, Refusal> {
    count(unsafe {
        raw::rs_build_index(
            m.vertices.as_ptr(), m.vertices.len(), m.normals.as_ptr(), m.normals.len(),
            m.indices.as_ptr(), m.indices.len(), m.spans.as_ptr(), m.spans.len(),
            index.as_mut_ptr(), index.len(),
        )
    })
}

/// The highest of the triangles that the index names for (x, y).
pub fn top(m: Mesh, index: &[u32], x: f32, y: f32) -> Result<Option<Sample>, Refusal> {
    let mut a = [0; 8];
    let code = unsafe {
        raw::rs_top(
            m.vertices.as_ptr(), m.vertices.len(), m.normals.as_ptr(), m.normals.len(),
            m.indices.as_ptr(), m.indices.len(), m.spans.as_ptr(), m.spans.len(),
            index.as_ptr(), index.len(), x, y, a.as_mut_ptr(), a.len(),
        )
    };
    told(code).map(|_| sample(&a))
}

/// `top` at many points, pairs x, y, into eight words a point: how many points. See `record`.
pub fn tops(m: Mesh, index: &[u32], points: &[f32], records: &mut [u32]) -> Result<usize, Refusal> {
    count(unsafe {
        raw::rs_tops(
            m.vertices.as_ptr(), m.vertices.len(), m.normals.as_ptr(), m.normals.len(),
            m.indices.as_ptr(), m.indices.len(), m.spans.as_ptr(), m.spans.len(),
            index.as_ptr(), index.len(), points.as_ptr(), points.len(), records.as_mut_ptr(), records.len(),
        )
    })
}

/// What the record of point k says: the answer of `top` there. `NoRecord` if there is none of that number.
pub fn record(records: &[u32], k: usize) -> Result<Option<Sample>, Refusal> {
    let a: &[u32; 8] = k
        .checked_mul(8)
        .and_then(|from| records.get(from..)?.first_chunk())
        .ok_or(Refusal::NoRecord(k))?;
    if a[0] == 2 {
        return Err(Refusal::new(a[1], a[2]));
    }
    Ok(sample(a))
}

/// What is wrong with a mesh, first of all.
#[derive(Clone, Copy, Debug, PartialEq, Eq)]
pub enum Verdict {
    Sound,
    Empty,
    NonFiniteVertex(usize),
    IndexOutOfRange { triangle: usize, index: usize, vertices: usize },
    DegenerateTriangle(usize),
    /// A kind that this page has no name for: the library is newer than the page.
    Unknown(u32),
}

/// Room for the longest sentence of a verdict.
pub const SENTENCE_BYTES: usize = 84;

impl Verdict {
    fn new(kind: u32, place: u32, index: u32, vertices: u32) -> Verdict {
        let (place, index, vertices) = (place as usize, index as usize, vertices as usize);
        match kind {
            0 => Verdict::Sound,
            1 => Verdict::Empty,
            2 => Verdict::NonFiniteVertex(place),
            3 => Verdict::IndexOutOfRange { triangle: place, index, vertices },
            4 => Verdict::DegenerateTriangle(place),
            _ => Verdict::Unknown(kind),
        }
    }

    /// The verdict's sentence, with a full stop and no line feed: how many bytes. A count that has more than 32 bits
    /// has no sentence.
    pub fn write(self, text: &mut [u8]) -> Result<usize, Refusal> {
        let (kind, counts) = match self {
            Verdict::Sound => (0, [0; 3]),
            Verdict::Empty => (1, [0; 3]),
            Verdict::NonFiniteVertex(v) => (2, [v, 0, 0]),
            Verdict::IndexOutOfRange { triangle, index, vertices } => (3, [triangle, index, vertices]),
            Verdict::DegenerateTriangle(t) => (4, [t, 0, 0]),
            // its counts are not known either
            Verdict::Unknown(_) => return Err(Refusal::NotAVerdict(0)),
        };
        if counts.iter().any(|&n| u32::try_from(n).is_err()) {
            return Err(Refusal::Oversize(u32::MAX));
        }
        let [place, index, vertices] = counts.map(|n| n as u32);
        count(unsafe { raw::rs_verdict_write(kind, place, index, vertices, text.as_mut_ptr(), text.len()) })
    }

    /// The verdict of a sentence.
    pub fn read(text: &[u8]) -> Result<Verdict, Refusal> {
        let (mut place, mut index, mut vertices) = (0, 0, 0);
        let code = unsafe {
            raw::rs_verdict_read(text.as_ptr(), text.len(), &mut place, &mut index, &mut vertices)
        };
        told(code).map(|kind| Verdict::new(kind, place, index, vertices))
    }
}

/// The verdict on a mesh.
pub fn validate(m: Mesh) -> Result<Verdict, Refusal> {
    let (mut place, mut index, mut vertices) = (0, 0, 0);
    let code = unsafe {
        raw::rs_validate(
            m.vertices.as_ptr(), m.vertices.len(), m.normals.as_ptr(), m.normals.len(),
            m.indices.as_ptr(), m.indices.len(), m.spans.as_ptr(), m.spans.len(),
            &mut place, &mut index, &mut vertices,
        )
    };
    told(code).map(|kind| Verdict::new(kind, place, index, vertices))
}

/// The words that are held of a surface file: how many. A triangle has its lane's id in word 4 and 1 in word 7, or 0 in
/// both for no lane.
pub fn surface_read(bytes: &[u8], held: &mut [u32]) -> Result<usize, Refusal> {
    count(unsafe { raw::rs_surface_read(bytes.as_ptr(), bytes.len(), held.as_mut_ptr(), held.len()) })
}

/// The surface file of held words: how many bytes. There a triangle has its lane's id plus one in word 4, or 0.
pub fn surface_write(held: &[u32], bytes: &mut [u8]) -> Result<usize, Refusal> {
    count(unsafe { raw::rs_surface_write(held.as_ptr(), held.len(), bytes.as_mut_ptr(), bytes.len()) })
}

/// The text that `probe` prints of a surface file: how many bytes.
pub fn report(bytes: &[u8], text: &mut [u8]) -> Result<usize, Refusal> {
    count(unsafe { raw::rs_report(bytes.as_ptr(), bytes.len(), text.as_mut_ptr(), text.len()) })
}
