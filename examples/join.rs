// A lane of ten metres and the junction that it leads to: each is meshed, both are joined as one surface, and an index
// over it is asked for the road under five wheels.
#[path = "../wrapper/rust/roadsurface.rs"]
mod roadsurface;
use roadsurface::{build_index, join, junction_mesh, record, surface_mesh, tops, Lanes, Mesh, Refusal};

fn main() -> Result<(), Refusal> {
    // the lane is two metres high, and four wide
    let lanes = Lanes {
        points: &[0.0, 0.0, 2.0, 10.0, 0.0, 2.0],
        tangents: &[1.0, 0.0, 0.0, 1.0, 0.0, 0.0],
        widths: &[4.0, 4.0],
        banks: &[],
        lanes: &[7, 0, 2, 0, 2, 0, 2, 0, 0, 0],
    };
    let (mut v, mut n, mut i, mut s) = ([0.0; 12], [0.0; 12], [0; 6], [0; 5]);
    surface_mesh(lanes, &mut v, &mut n, &mut i, &mut s)?;
    let road = Mesh { vertices: &v, normals: &n, indices: &i, spans: &s };

    // the junction begins where the lane ends, and rises by a metre; its mesh has three vertices a triangle
    let ring = [10.0, -2.0, 2.0, 14.0, -2.0, 3.0, 14.0, 2.0, 3.0, 10.0, 2.0, 2.0];
    let (mut v, mut n, mut i) = ([0.0; 18], [0.0; 18], [0; 6]);
    junction_mesh(&ring, None, &mut v, &mut n, &mut i)?;
    let crossing = Mesh { vertices: &v, normals: &n, indices: &i, spans: &[] };

    let (mut v, mut n, mut i, mut s) = ([0.0; 30], [0.0; 30], [0; 12], [0; 5]);
    join(road, crossing, &mut v, &mut n, &mut i, &mut s)?;
    let both = Mesh { vertices: &v, normals: &n, indices: &i, spans: &s };
    let (mut index, mut records) = ([0; 64], [0; 40]);
    let words = build_index(both, &mut index)?;
    let wheels = [5.0, 1.0, 10.0, 0.0, 12.0, 0.0, 13.0, 1.0, 15.0, 0.0];
    for k in 0..tops(both, &index[..words], &wheels, &mut records)? {
        match record(&records, k) {
            Ok(Some(p)) => match p.lane {
                Some(lane) => println!("height {}, lane {lane}", p.height),
                None => println!("height {}, no lane", p.height),
            },
            Ok(None) => println!("none"),
            Err(r) => println!("refused {} at {}", r.number(), r.place()),
        }
    }
    Ok(())
}
