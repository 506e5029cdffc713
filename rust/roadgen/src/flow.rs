//! The fewest streets that part two sets of vertices: a greatest flow from one to the other, one unit along each street.

use std::collections::VecDeque;

/// The vertices on the side of `from` when the fewest edges are taken out that part `from` and `to`. `neighbours` names each edge at both
/// its ends, and the two sets have no vertex in common.
pub fn side(neighbours: &[Vec<usize>], from: &[usize], to: &[usize]) -> Vec<bool> {
    let n = neighbours.len();
    let mut is_to = vec![false; n];
    to.iter().for_each(|&v| is_to[v] = true);
    // arc i and arc i ^ 1 are the two directions of one edge
    let mut ends = Vec::new();
    let mut room: Vec<u8> = Vec::new();
    let mut arcs = vec![Vec::new(); n];
    for (v, near) in neighbours.iter().enumerate() {
        for &u in near.iter().filter(|&&u| v < u) {
            for (a, b) in [(v, u), (u, v)] {
                arcs[a].push(ends.len());
                ends.push(b);
                room.push(1);
            }
        }
    }
    loop {
        let mut came_by = vec![usize::MAX; n];
        let mut seen = vec![false; n];
        from.iter().for_each(|&v| seen[v] = true);
        let mut waiting: VecDeque<usize> = from.iter().copied().collect();
        let mut reached = None;
        while let (None, Some(v)) = (reached, waiting.pop_front()) {
            for &arc in arcs[v].iter().filter(|&&arc| room[arc] > 0) {
                let u = ends[arc];
                if !seen[u] {
                    seen[u] = true;
                    came_by[u] = arc;
                    waiting.push_back(u);
                    if is_to[u] {
                        reached = Some(u);
                        break;
                    }
                }
            }
        }
        let Some(mut v) = reached else {
            return seen;
        };
        while came_by[v] != usize::MAX {
            let arc = came_by[v];
            room[arc] -= 1;
            room[arc ^ 1] += 1;
            v = ends[arc ^ 1];
        }
    }
}
