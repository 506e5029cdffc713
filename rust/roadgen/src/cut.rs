//! Cuts a network into a tree of parts: halves where the fewest streets lie between the two ends of a set, again and again, and then parts
//! are handed up to their grandparent while it has few borders. Vertices are numbered leaf by leaf.

use crate::flow::side;
use crate::{Map, Network, Road, MOST_BORDERS, MOST_IN_LEAF, MOST_LEVELS, MOST_PARTS, NO_PARENT};
use std::collections::{BTreeSet, HashMap};
use std::f64::consts::PI;

/// Of how many directions each is tried for a cut.
const DIRECTIONS: usize = 8;
/// How much of a set is kept together at either end, in hundredths.
const ENDS: [usize; 3] = [25, 35, 45];
/// How many borders more a cut may have that makes equal halves of what another leaves all on one side.
const UNEQUAL: usize = 2;
/// As many children, and as many borders, a part gets when its children's children are handed up.
const FEW_CHILDREN: usize = 4;
const FEW_BORDERS: usize = 30;

type Halves = (Vec<usize>, Vec<usize>);

struct Part {
    vertices: Vec<usize>,
    children: Vec<Part>,
}

impl Part {
    /// Numbers the part's vertices from `next` on, leaf by leaf; the number after the last.
    fn number_leaf_by_leaf(&self, numbers: &mut [u16], next: u16) -> u16 {
        if self.children.is_empty() {
            for (i, &v) in self.vertices.iter().enumerate() {
                numbers[v] = next + i as u16;
            }
            return next + self.vertices.len() as u16;
        }
        let children = self.children.iter();
        children.fold(next, |next, child| child.number_leaf_by_leaf(numbers, next))
    }
}

fn renumbered(roads: &[Road], numbers: &[u16]) -> Vec<Road> {
    let mut roads: Vec<Road> = roads
        .iter()
        .map(|road| Road {
            from: numbers[usize::from(road.from)],
            to: numbers[usize::from(road.to)],
            ..*road
        })
        .collect();
    roads.sort();
    roads
}

struct Cutter<'a> {
    network: &'a Network,
    /// equal halves down to small leaves, every part kept
    finely: bool,
    neighbours: Vec<Vec<usize>>,
    /// the set that a vertex is in while borders are counted
    mark: Vec<usize>,
    marks: usize,
}

impl Cutter<'_> {
    /// How many vertices of the sets have a road out of or into their set.
    fn borders(&mut self, sets: &[&[usize]]) -> usize {
        let first = self.marks + 1;
        for set in sets {
            self.marks += 1;
            for &v in *set {
                self.mark[v] = self.marks;
            }
        }
        let (mark, neighbours) = (&self.mark, &self.neighbours);
        let count = sets
            .iter()
            .flat_map(|set| set.iter())
            .filter(|&&v| {
                neighbours[v]
                    .iter()
                    .any(|&u| mark[u] < first || mark[u] != mark[v])
            })
            .count();
        count
    }

    /// Equal halves by the line, across one side or the other, that leaves the fewest borders.
    fn equal_halves(&mut self, vertices: &[usize]) -> Halves {
        let halves = [0, DIRECTIONS / 2].map(|direction| {
            let order = self.along(direction, vertices);
            let (a, b) = order.split_at(order.len() / 2);
            (a.to_vec(), b.to_vec())
        });
        self.best_of(halves)
    }

    /// The two halves with the fewest borders, and of like ones the most equal, among those parted by the fewest streets between
    /// the first and the last vertices in some direction.
    fn halves(&mut self, vertices: &[usize]) -> Halves {
        let mut place = HashMap::new();
        for (i, &v) in vertices.iter().enumerate() {
            place.insert(v, i);
        }
        let neighbours: Vec<Vec<usize>> = vertices
            .iter()
            .map(|&v| {
                let near = self.neighbours[v].iter();
                let near: BTreeSet<usize> = near.filter_map(|u| place.get(u).copied()).collect();
                near.into_iter().collect()
            })
            .collect();
        let mut halves = Vec::new();
        for direction in 0..DIRECTIONS {
            let order: Vec<usize> = self
                .along(direction, vertices)
                .iter()
                .map(|v| place[v])
                .collect();
            for percent in ENDS {
                let end = (order.len() * percent / 100).max(1);
                let (first, last) = (&order[..end], &order[order.len() - end..]);
                for (from, to) in [(first, last), (last, first)] {
                    let side = side(&neighbours, from, to);
                    let pick = |is: bool| {
                        (0..side.len())
                            .filter(|&i| side[i] == is)
                            .map(|i| vertices[i])
                            .collect()
                    };
                    halves.push((pick(true), pick(false)));
                }
            }
        }
        self.best_of(halves)
    }

    /// The vertices in the order in which a line meets them that moves in this direction.
    fn along(&self, direction: usize, vertices: &[usize]) -> Vec<usize> {
        let angle = PI * direction as f64 / DIRECTIONS as f64;
        let (cos, sin) = (angle.cos(), angle.sin());
        let far = |v: usize| {
            let (x, y) = self.network.places[v];
            x as f64 * cos + y as f64 * sin
        };
        let mut order = vertices.to_vec();
        order.sort_by(|&a, &b| far(a).total_cmp(&far(b)).then(a.cmp(&b)));
        order
    }

    /// Those with the least sum of borders and of what they are off from equal halves, in hundredths of UNEQUAL borders.
    fn best_of(&mut self, halves: impl IntoIterator<Item = Halves>) -> Halves {
        halves
            .into_iter()
            .min_by_key(|(a, b)| {
                let off = 100 * a.len().abs_diff(b.len()) / (a.len() + b.len());
                100 * self.borders(&[a, b]) + UNEQUAL * off
            })
            .expect("there is a direction")
    }

    fn part(&mut self, vertices: Vec<usize>) -> Part {
        let most = if self.finely {
            MOST_IN_LEAF / 2
        } else {
            MOST_IN_LEAF
        };
        if vertices.len() <= most {
            return Part {
                vertices,
                children: Vec::new(),
            };
        }
        let (a, b) = if self.finely {
            self.equal_halves(&vertices)
        } else {
            self.halves(&vertices)
        };
        let mut children = vec![self.part(a), self.part(b)];
        if self.finely {
            return Part { vertices, children };
        }
        // a child's children in its place, while there are few borders
        while let Some(i) = (0..children.len()).find(|&i| {
            let child = &children[i];
            if child.children.is_empty() || children.len() - 1 + child.children.len() > FEW_CHILDREN
            {
                return false;
            }
            let sets: Vec<&[usize]> = children
                .iter()
                .enumerate()
                .flat_map(|(j, c)| {
                    if j == i {
                        c.children.iter().collect::<Vec<_>>()
                    } else {
                        vec![c]
                    }
                })
                .map(|c| c.vertices.as_slice())
                .collect();
            self.borders(&sets) <= FEW_BORDERS
        }) {
            let child = children.remove(i);
            children.extend(child.children);
        }
        Part { vertices, children }
    }

    /// The halves of the last leaf in its place: one part more, and its parent has three children.
    fn halve_last_leaf(&mut self, part: &mut Part) {
        let Some(mut last) = part.children.pop() else {
            return;
        };
        if last.children.is_empty() && last.vertices.len() > 1 {
            let (a, b) = self.equal_halves(&last.vertices);
            part.children.extend([a, b].map(|vertices| Part {
                vertices,
                children: Vec::new(),
            }));
        } else {
            self.halve_last_leaf(&mut last);
            part.children.push(last);
        }
    }
}

/// The map of a network, or nothing where the cuts do not keep within the limits of a map.
pub fn cut(network: &Network) -> Option<Map> {
    cut_so(network, false)
}

/// The map of a network cut into equal halves again and again, down to leaves of at most half their limit. Halves alone make an odd number
/// of parts; the last leaf is cut once more, so that 4,096 vertices give as many parts as a map may have.
pub fn cut_finely(network: &Network) -> Option<Map> {
    cut_so(network, true)
}

fn cut_so(network: &Network, finely: bool) -> Option<Map> {
    let n = network.vertices();
    let mut neighbours = vec![Vec::new(); n];
    for road in &network.roads {
        neighbours[road.from as usize].push(road.to as usize);
        neighbours[road.to as usize].push(road.from as usize);
    }
    let mut cutter = Cutter {
        network,
        finely,
        neighbours,
        mark: vec![0; n],
        marks: 0,
    };
    let mut whole = cutter.part((0..n).collect());
    if finely {
        cutter.halve_last_leaf(&mut whole);
    }
    let mut numbers = vec![0; n];
    whole.number_leaf_by_leaf(&mut numbers, 0);
    let mut map = Map {
        parents: Vec::new(),
        leaves: vec![0; n],
        roads: renumbered(&network.roads, &numbers),
    };
    // level by level, so that a parent has a lower number than its children
    let mut level = vec![(&whole, NO_PARENT)];
    let mut levels = 0;
    while !level.is_empty() {
        levels += 1;
        let mut below = Vec::new();
        for (part, parent) in level {
            let number = map.parents.len() as u16;
            map.parents.push(parent);
            if part.children.is_empty() {
                for &v in &part.vertices {
                    map.leaves[usize::from(numbers[v])] = number;
                }
            } else {
                let sets: Vec<&[usize]> = part
                    .children
                    .iter()
                    .map(|c| c.vertices.as_slice())
                    .collect();
                if cutter.borders(&sets) > MOST_BORDERS {
                    return None;
                }
            }
            below.extend(part.children.iter().map(|c| (c, number)));
        }
        level = below;
    }
    (map.parents.len() <= MOST_PARTS && levels <= MOST_LEVELS).then_some(map)
}

/// The borders of each part of a map, counted from the map alone: 0 for a leaf.
pub fn borders(map: &Map) -> Vec<usize> {
    let parts = map.parents.len();
    // the parts that hold a vertex, its leaf first
    let line = |v: usize| {
        let mut line = vec![map.leaves[v] as usize];
        while line[line.len() - 1] != 0 {
            line.push(map.parents[line[line.len() - 1]] as usize);
        }
        line
    };
    let lines: Vec<Vec<usize>> = (0..map.leaves.len()).map(line).collect();
    // a vertex is a border of a part where a road leaves or enters, there, the child that holds it
    let mut is_border = vec![vec![false; parts]; map.leaves.len()];
    for road in &map.roads {
        for (v, u) in [(road.from, road.to), (road.to, road.from)] {
            let (v, u) = (v as usize, u as usize);
            for pair in lines[v].windows(2) {
                if !lines[u].contains(&pair[0]) {
                    is_border[v][pair[1]] = true;
                }
            }
        }
    }
    (0..parts)
        .map(|p| is_border.iter().filter(|of| of[p]).count())
        .collect()
}
