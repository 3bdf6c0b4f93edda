//! Answers in words.
use probe_rays::{Cast, MeshHit, Ray, Refusal};

/// An answer.
pub fn told(ray: &Ray, answer: &Cast<MeshHit>) -> String {
    match answer {
        Cast::Hit(hit) => format!("hit {}", place(ray, hit)),
        Cast::None => "none".into(),
        Cast::Refused(refusal) => refusal.explained(ray),
    }
}

/// A listing: how many hits, and a line for each.
pub fn all_told(ray: &Ray, hits: &Result<Vec<MeshHit>, Refusal>) -> String {
    match hits {
        Ok(hits) if hits.is_empty() => "none".into(),
        Ok(hits) => {
            let lines: String = hits
                .iter()
                .map(|hit| format!("\n  {}", place(ray, hit)))
                .collect();
            let noun = if hits.len() == 1 { "hit" } else { "hits" };
            format!("{} {noun}{lines}", hits.len())
        }
        Err(refusal) => refusal.explained(ray),
    }
}

fn place(ray: &Ray, hit: &MeshHit) -> String {
    format!(
        "at {} mm, point {}, normal {}, triangle {}",
        fixed(hit.distance, 3),
        vector(ray.at(hit.distance)),
        vector(hit.normal),
        hit.triangle
    )
}

/// A number with so many places; what rounds to zero has no sign.
pub fn fixed(number: f64, places: usize) -> String {
    let text = format!("{number:.places$}");
    match text.strip_prefix('-') {
        Some(rest) if rest.bytes().all(|byte| matches!(byte, b'0' | b'.')) => rest.into(),
        _ => text,
    }
}

fn vector(parts: [f64; 3]) -> String {
    format!("({})", parts.map(|part| fixed(part, 3)).join(", "))
}
