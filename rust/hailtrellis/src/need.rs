//! How many words a map needs.

/// The need of a sound map, by the scope's formula: 64 + 8 × (parts + vertices) + 4 × roads + 8 × 1,024 + D + 4 × R.
///
/// Bytes that are no sound map give some number or none; the caller has had them judged.
///
/// A vertex is a border of a part with children exactly if some road at it has its other end in no common child, that
/// is, if the lowest common part of the two ends is that part or one above it. So each road makes each of its ends a
/// border of the parts from the parent of the end's leaf up to the lowest common part of the two.
pub(crate) fn of_sound_map(map: &[u8]) -> Option<usize> {
    let vertices = half(map, 6)?;
    let roads = half(map, 8)?;
    let parts = half(map, 10)?;
    let parents_at = 12 + 6;
    let leaves_at = parents_at + 2 * parts + 6;
    let roads_at = leaves_at + 2 * vertices + 6;
    let parents: Vec<usize> = halves(map, parents_at, parts)?;
    let leaves: Vec<usize> = halves(map, leaves_at, vertices)?;

    let mut sizes = vec![0; parts];
    for &leaf in &leaves {
        *sizes.get_mut(leaf)? += 1;
    }
    let mut is_border = vec![false; parts * vertices];
    for road in 0..roads {
        let from = half(map, roads_at + 8 * road)?;
        let to = half(map, roads_at + 8 * road + 2)?;
        let top = common_part(&parents, *leaves.get(from)?, *leaves.get(to)?)?;
        for end in [from, to] {
            let mut part = leaves[end];
            while part != top {
                part = *parents.get(part)?;
                let mark = is_border.get_mut(part.checked_mul(vertices)? + end)?;
                if !*mark {
                    *mark = true;
                    *sizes.get_mut(part)? += 1;
                }
            }
        }
    }
    let squares: usize = sizes.iter().map(|size| size * size).sum();
    let rows: usize = sizes.iter().sum();
    Some(64 + 8 * (parts + vertices) + 4 * roads + 8 * 1_024 + squares + 4 * rows)
}

/// The lowest part that holds both of two parts. Every parent has a lower number than its child.
fn common_part(parents: &[usize], a: usize, b: usize) -> Option<usize> {
    let (mut a, mut b) = (a, b);
    while a != b {
        let higher = if a > b { &mut a } else { &mut b };
        let parent = *parents.get(*higher)?;
        if parent >= *higher {
            return None;
        }
        *higher = parent;
    }
    Some(a)
}

/// The number of two bytes at a place.
fn half(map: &[u8], at: usize) -> Option<usize> {
    let two = map.get(at..at + 2)?;
    Some(u16::from_le_bytes([two[0], two[1]]) as usize)
}

/// So many numbers of two bytes from a place on.
fn halves(map: &[u8], at: usize, count: usize) -> Option<Vec<usize>> {
    (0..count).map(|i| half(map, at + 2 * i)).collect()
}
