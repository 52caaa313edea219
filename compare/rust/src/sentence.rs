//! What document 02 adds to the Rust: a verdict's sentence, by the Rust's own texts, and its reading. The reading is
//! written from document 02's words alone, of every beginning of the bytes: does some sentence begin so?
use crate::mesh::{MeshError, MESH_ERRORS};

/// A verdict by its kind and counts, as the library tells it.
pub fn verdict(kind: u32, [a, b, c]: [u32; 3]) -> Option<Result<(), MeshError>> {
    Some(match kind {
        0 => Ok(()),
        1 => Err(MeshError::Empty),
        2 => Err(MeshError::NonFiniteVertex(a as usize)),
        3 => Err(MeshError::IndexOutOfRange(a as usize, b, c as usize)),
        4 => Err(MeshError::DegenerateTriangle(a as usize)),
        _ => return None,
    })
}

/// The Rust's text with a full stop.
pub fn sentence(v: &Result<(), MeshError>) -> String {
    match v {
        Ok(()) => "mesh is sound.".into(),
        Err(e) => format!("{e}."),
    }
}

/// The texts of a sentence that stand before, between and after its counts, by the verdict's kind.
pub fn texts(kind: usize) -> Vec<String> {
    let whole = if kind == 0 { "mesh is sound" } else { MESH_ERRORS[kind - 1] };
    let mut rest = format!("{whole}.");
    let mut texts = Vec::new();
    while let Some((text, after)) = rest.split_once('{') {
        let (_, after) = after.split_once('}').expect("a count");
        texts.push(text.to_string());
        rest = after.to_string();
    }
    texts.push(rest);
    texts
}

/// A number below 4,294,967,296 without leading zeros.
fn count(digits: &[u8]) -> Option<u32> {
    let n = std::str::from_utf8(digits).ok()?.parse().ok()?;
    (u32::to_string(&n).as_bytes() == digits).then_some(n)
}

/// Does some sentence of these texts begin with the bytes?
fn begins(bytes: &[u8], texts: &[String]) -> bool {
    let text = texts[0].as_bytes();
    if bytes.len() <= text.len() {
        return text.starts_with(bytes);
    }
    let rest = match bytes.strip_prefix(text) {
        Some(rest) if texts.len() > 1 => rest,
        _ => return false,
    };
    // every beginning of a count is a count itself
    count(rest).is_some() || (1..rest.len().min(11)).any(|k| count(&rest[..k]).is_some() && begins(&rest[k..], &texts[1..]))
}

/// The counts of the sentence of these texts that the bytes are.
fn counts(bytes: &[u8], texts: &[String]) -> Option<Vec<u32>> {
    let rest = bytes.strip_prefix(texts[0].as_bytes())?;
    if texts.len() == 1 {
        return rest.is_empty().then(Vec::new);
    }
    (1..rest.len().min(11)).find_map(|k| {
        let mut found = vec![count(&rest[..k])?];
        found.extend(counts(&rest[k..], &texts[1..])?);
        Some(found)
    })
}

/// The kind and three counts, or the place: how long the longest beginning is that is one of some sentence.
pub fn read(bytes: &[u8]) -> Result<[u32; 4], u32> {
    for kind in 0..5 {
        if let Some(found) = counts(bytes, &texts(kind)) {
            let mut a = [kind as u32, 0, 0, 0];
            a[1..=found.len()].copy_from_slice(&found);
            return Ok(a);
        }
    }
    let far = (0..=bytes.len().min(100)).filter(|&p| (0..5).any(|kind| begins(&bytes[..p], &texts(kind)))).max();
    Err(far.expect("no bytes") as u32)
}
