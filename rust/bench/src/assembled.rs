//! All tables of a map part by part. Leaves up, each part's distances inside it: a leaf's over its own roads, another part's over its
//! borders, from its children's tables and the roads between children. Root down, the distances over the whole map: the root's are those
//! already, a child's go through its boundary and its parent's table.

use crate::shape::{Shape, NO_ROW};
use roadgen::{Map, FAR, MOST_BORDERS};

pub fn tables(map: &Map) -> (Shape, Vec<u32>) {
    let shape = Shape::new(map);
    let mut tables = vec![FAR; shape.table_words()];
    for (road, &top) in map.roads.iter().zip(&shape.top) {
        let p = top as usize;
        let (i, j) = (
            shape.place(road.from.into(), p),
            shape.place(road.to.into(), p),
        );
        tables[shape.table(p).start + i * shape.size(p) + j] = road.weight;
    }
    for p in (0..shape.parts()).rev() {
        if !shape.is_leaf[p] {
            take_from_children(&shape, &mut tables, p);
        }
        close(&mut tables[shape.table(p)], shape.size(p));
    }
    for p in 1..shape.parts() {
        descend(&shape, &mut tables, p);
    }
    (shape, tables)
}

/// A way over x and then y, if it is shorter.
fn relax(line: &mut [u32], x: u32, further: &[u32]) {
    if x == FAR {
        return;
    }
    for (known, &y) in line.iter_mut().zip(further) {
        *known = (*known).min(x.saturating_add(y));
    }
}

/// Distances inside a child, between those of its rows that are borders of the part.
fn take_from_children(shape: &Shape, tables: &mut [u32], p: usize) {
    let (rows, size) = (shape.rows(p), shape.size(p));
    for i in rows.clone() {
        let child = shape.child[i];
        let c = child as usize;
        let (below, place) = (shape.rows(c).start, shape.below[i] as usize);
        let from = shape.table(c).start + (place - below) * shape.size(c);
        let to = shape.table(p).start + (i - rows.start) * size;
        for j in rows.clone().filter(|&j| shape.child[j] == child) {
            tables[to + j - rows.start] = tables[from + shape.below[j] as usize - below];
        }
    }
}

/// Floyd and Warshall's algorithm.
fn close(table: &mut [u32], size: usize) {
    if size == 0 {
        return;
    }
    let mut through = [FAR; MOST_BORDERS];
    for k in 0..size {
        table[k * size + k] = 0;
    }
    for k in 0..size {
        let through = &mut through[..size];
        through.copy_from_slice(&table[k * size..][..size]);
        for line in table.chunks_exact_mut(size) {
            relax(line, line[k], through);
        }
    }
}

/// From distances inside a part to those over the whole map, which its parent has for its boundary.
fn descend(shape: &Shape, tables: &mut [u32], p: usize) {
    let parent = shape.parents[p];
    let (rows, size) = (shape.rows(p), shape.size(p));
    let (above, above_size) = (shape.rows(parent).start, shape.size(parent));
    let (parents_table, table) = two_tables(tables, shape, parent, p);
    // the boundary: places here and in the parent
    let boundary: Vec<(usize, usize)> = rows
        .clone()
        .filter(|&row| shape.above[row] != NO_ROW)
        .map(|row| (row - rows.start, shape.above[row] as usize - above))
        .collect();
    let exact: Vec<u32> = boundary
        .iter()
        .flat_map(|&(_, a)| boundary.iter().map(move |&(_, b)| a * above_size + b))
        .map(|at| parents_table[at])
        .collect();
    let inner: Vec<u32> = boundary
        .iter()
        .flat_map(|&(b, _)| table[b * size..][..size].iter().copied())
        .collect();
    let count = boundary.len();
    if count == 0 {
        return;
    }
    let mut to_boundary = [FAR; MOST_BORDERS];
    let to_boundary = &mut to_boundary[..count];
    for line in table.chunks_exact_mut(size) {
        to_boundary.fill(FAR);
        for (&(b, _), exact) in boundary.iter().zip(exact.chunks_exact(count)) {
            relax(to_boundary, line[b], exact);
        }
        for (&x, inner) in to_boundary.iter().zip(inner.chunks_exact(size)) {
            relax(line, x, inner);
        }
    }
}

/// The tables of two parts, the first with the lower number.
fn two_tables<'a>(
    tables: &'a mut [u32],
    shape: &Shape,
    a: usize,
    b: usize,
) -> (&'a [u32], &'a mut [u32]) {
    let (low, high) = tables.split_at_mut(shape.table(b).start);
    (
        &low[shape.table(a)],
        &mut high[..shape.size(b) * shape.size(b)],
    )
}
