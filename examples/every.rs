// Every call of the library once. Each line says what came of it; examples/every.c prints the same.
#[path = "../wrapper/rust/roadsurface.rs"]
mod roadsurface;
use roadsurface::*;

fn told<T>(what: &str, said: Result<T, Refusal>, count: impl Fn(&T) -> usize) -> Option<T> {
    match &said {
        Ok(t) => println!("{what}: {}", count(t)),
        Err(r) => println!("{what}: refused {} at {}", r.number(), r.place()),
    }
    said.ok()
}

fn found<T>(a: &Option<T>) -> usize {
    a.is_some() as usize
}

fn main() {
    // a square of four metres as two boundary segments, and a grid of two rows over it
    let border = [0.0, 0.0, 0.0, 4.0, 0.0, 0.0, 4.0, 4.0, 0.0, 4.0, 4.0, 0.0, 0.0, 4.0, 0.0, 0.0, 0.0, 0.0];
    let grid = Grid {
        origin: [0.0; 2],
        sin: 0.0,
        cos: 1.0,
        start: 0.0,
        spacing: 10.0,
        rows: &[0, 0, 0, 1, 0, 0, 0, 0, 1, 2, 0, 0],
        left: &[10.0, 10.0],
        right: &[],
    };
    let z = told("rs_elevation_height", elevation_height(grid, 5.0, 5.0), found).flatten();
    println!("height {}", z.unwrap());
    told("rs_elevation_height_at", elevation_height_at(grid, 5.0, -5.0), found);
    println!("height left as it was {}", z.unwrap());

    let mut ring_floats = [0.0; 18];
    let o = told("rs_ring", ring(&[0, 3, 3, 6], &border, &mut ring_floats), |o| o.points).unwrap();
    println!("dropped {}, gap {}, closed {}, turned {}", o.dropped, o.gap, o.closed as u32, o.turned as u32);
    let floats = &ring_floats[..3 * o.points];
    told("rs_ear_clip", ear_clip(floats, &mut [0; 12]), |&n| n);

    let (mut v, mut n, mut i, mut s) = ([0.0; 1800], [0.0; 1800], [0; 600], [0; 5]);
    told("rs_junction_mesh", junction_mesh(floats, Some(grid), &mut v, &mut n, &mut i), |&n| n);

    let lanes = Lanes {
        points: &[0.0, 0.0, 2.0, 10.0, 0.0, 2.0],
        tangents: &[1.0, 0.0, 0.0, 1.0, 0.0, 0.0],
        widths: &[],
        banks: &[],
        lanes: &[7, 0, 2, 0, 2, 0, 0, 0, 0, 0x4080_0000],
    };
    let c = told("rs_surface_mesh", surface_mesh(lanes, &mut v, &mut n, &mut i, &mut s), |c| c.vertices).unwrap();
    println!("normals {}, indices {}, spans {}", c.normals, c.indices, c.spans);
    let mesh = Mesh {
        vertices: &v[..3 * c.vertices],
        normals: &n[..3 * c.normals],
        indices: &i[..c.indices],
        spans: &s[..5 * c.spans],
    };

    // the lane twice as one mesh, which is asked for a height; with a normal too few the call is turned back first
    let (mut bv, mut bn, mut bi, mut bs) = ([0.0; 24], [0.0; 24], [99; 12], [0; 10]);
    let odd = Mesh { normals: &mesh.normals[..9], ..mesh };
    told("rs_join", join(mesh, odd, &mut bv, &mut bn, &mut bi, &mut bs), |c| c.vertices);
    println!("left as they were 99 99 99, index 0 is {}", bi[0]);
    let c = told("rs_join", join(mesh, mesh, &mut bv, &mut bn, &mut bi, &mut bs), |c| c.vertices).unwrap();
    println!("normals {}, indices {}, spans {}", c.normals, c.indices, c.spans);
    println!("index 7 is {}, the second span's first vertex {}", bi[7], bs[6]);
    let whole = Mesh { vertices: &bv, normals: &bn, indices: &bi, spans: &bs };
    let p = told("rs_height_at", height_at(whole, 5.0, 1.0), found).flatten().unwrap();
    println!("height {}, triangle {}", p.height, p.triangle);

    let sound = told("rs_validate", validate(mesh), |v| (*v != Verdict::Sound) as usize);
    println!("left as they were{}", if sound.is_some() { " 99 99 99" } else { "" });
    let mut odd = mesh.indices.to_vec();
    odd[4] = 8;
    let said = told("rs_validate", validate(Mesh { indices: &odd, ..mesh }), |_| 3);
    let counts = |v: Option<Verdict>| {
        if let Some(Verdict::IndexOutOfRange { triangle, index, vertices }) = v {
            println!("triangle {triangle}, index {index} of {vertices} vertices");
        }
    };
    counts(said);
    let mut sentence = [0; SENTENCE_BYTES];
    let letters = told("rs_verdict_write", said.unwrap().write(&mut sentence), |&n| n).unwrap();
    println!("{}", String::from_utf8_lossy(&sentence[..letters]));
    counts(told("rs_verdict_read", Verdict::read(&sentence[..letters]), |_| 3));
    told("rs_verdict_read", Verdict::read(&sentence[..letters - 1]), |_| 3);

    let (mut index, mut records) = ([0; 64], [0; 16]);
    let p = told("rs_height_at", height_at(mesh, 5.0, 1.0), found).flatten().unwrap();
    println!("height {}, lane told {}", p.height, found(&p.lane));
    let words = told("rs_build_index", build_index(mesh, &mut index), |&n| n).unwrap();
    let p = told("rs_top", top(mesh, &index[..words], 5.0, 1.0), found).flatten().unwrap();
    println!("height {}, lane {}", p.height, p.lane.unwrap());
    told("rs_top", top(mesh, &index[..8], 5.0, 1.0), found);
    told("rs_tops", tops(mesh, &index[..words], &[5.0, 1.0, 5.0, 9.0], &mut records), |&n| n);
    println!("found {} and {}", found(&record(&records, 0).unwrap()), found(&record(&records, 1).unwrap()));

    // a triangle of lane 0, held and in a file; then one of the lane that no file has
    let (mut held, mut back, mut bytes, mut text) = ([2, 0, 1, 2, 0, 0, 0, 1], [0; 8], [0; 32], [0; 64]);
    told("rs_surface_write", surface_write(&held, &mut bytes), |&n| n);
    println!("word 4 {}, word 7 {}", bytes[16], bytes[28]);
    told("rs_surface_read", surface_read(&bytes, &mut back), |&n| n);
    println!("word 4 {}, word 7 {}", back[4], back[7]);
    assert_eq!(held, back);
    held[4] = u32::MAX;
    told("rs_surface_write", surface_write(&held, &mut bytes), |&n| n);
    let letters = told("rs_report", report(&bytes, &mut text), |&n| n).unwrap();
    print!("{}", String::from_utf8_lossy(&text[..letters]));
}
