// One lane of ten metres: its strip, the index of it, and the road under two wheels.
#[path = "../wrapper/rust/roadsurface.rs"]
mod roadsurface;
use roadsurface::{build_index, record, surface_mesh, tops, Lanes, Mesh, Refusal};

fn wheel(k: usize, records: &[u32]) {
    match record(records, k) {
        Ok(Some(p)) => println!("{k}: height {}, lane {}", p.height, p.lane.unwrap_or(0)),
        Ok(None) => println!("{k}: none"),
        Err(r) => println!("{k}: refused {} at {}", r.number(), r.place()),
    }
}

fn main() -> Result<(), Refusal> {
    let lanes = Lanes {
        points: &[0.0, 0.0, 2.0, 10.0, 0.0, 2.0],
        tangents: &[1.0, 0.0, 0.0, 1.0, 0.0, 0.0],
        widths: &[4.0, 4.0],
        banks: &[],
        lanes: &[7, 0, 2, 0, 2, 0, 2, 0, 0, 0],
    };
    let (mut v, mut n, mut i, mut s) = ([0.0; 12], [0.0; 12], [0; 6], [0; 5]);
    surface_mesh(lanes, &mut v, &mut n, &mut i, &mut s)?;
    let mesh = Mesh { vertices: &v, normals: &n, indices: &i, spans: &s };
    let (mut index, mut records) = ([0; 64], [0; 16]);
    let words = build_index(mesh, &mut index)?;
    for k in 0..tops(mesh, &index[..words], &[5.0, 1.0, 5.0, 9.0], &mut records)? {
        wheel(k, &records);
    }

    // an index that is spoilt where a wheel looks: that wheel is turned back, in its record
    index[8] = 0;
    tops(mesh, &index[..words], &[5.0, 1.0], &mut records)?;
    wheel(0, &records);
    assert_eq!(record(&records, 2), Err(Refusal::NoRecord(2)));
    let r = build_index(mesh, &mut index[..9]).unwrap_err();
    println!("refused {} at {}", r.number(), r.place());
    Ok(())
}
