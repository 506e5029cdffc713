//! The picture of a town with its parts, borders and vans, and the list of one question.

use crate::svg::{Style, Svg};
use crate::town::{distance, town, Area, Town};
use reference::{judge, OpenedMap, State};
use scenarios::Dice;
use std::sync::Arc;

const WIDTH: f64 = 1_260.0;
const HEIGHT: f64 = 742.0;
/// Where the town's own corner stands in the picture.
const CORNER: (f64, f64) = (24.0, 76.0);
/// Where the panel with the list stands.
const PANEL: (f64, f64) = (968.0, 76.0);

/// The tints of the quarters, two for each so that neighbouring leaves differ.
const TINTS: [[&str; 3]; 4] = [
    ["#e3edf7", "#d5e4f3", "#e3edf7"],
    ["#e6f2e6", "#d8ebd8", "#e6f2e6"],
    ["#fbeedd", "#f8e4ca", "#fbeedd"],
    ["#f1e7f4", "#e8daee", "#f1e7f4"],
];
const EDGES: [&str; 4] = ["#7da2c4", "#7fae80", "#d3a05f", "#ab8abb"];
/// The colours of the ways of the listed vans, the nearest first.
const WAYS: [&str; 5] = ["#c62828", "#e2662b", "#e79a2d", "#8d8f2f", "#5a8f3c"];
const LISTED: u32 = 5;

fn shift(place: (f64, f64)) -> (f64, f64) {
    (place.0 + CORNER.0, place.1 + CORNER.1)
}

/// The quarter of a part, counted from 0.
fn quarter(town: &Town, part: usize) -> usize {
    match town.map.parents[part] {
        0 => part - 1,
        parent => parent as usize - 1,
    }
}

/// The fleet: free and held vans at random places.
fn fleet(town: &Town, seed: u64) -> State {
    let opened = OpenedMap::of(judge(&town.map.bytes()).expect("the town is sound"));
    let mut state = State::fresh(Arc::new(opened), 100);
    let mut dice = Dice::new(seed);
    let mut taken: Vec<(f64, f64)> = Vec::new();
    let mut van = 0;
    while van < 17 {
        let road = *dice.pick(&town.map.roads);
        let offset = dice.from_to(road.weight as usize / 4, 3 * road.weight as usize / 4) as u32;
        let at = along(town, (road.from, road.to), offset, road.weight);
        if taken.iter().any(|&other| distance(other, at) < 52.0) {
            continue;
        }
        taken.push(at);
        let (from, to) = (road.from as u32, road.to as u32);
        state
            .add(van, from, to, offset)
            .expect("the place is sound");
        van += 1;
    }
    for held in [3, 8, 12] {
        let stamp = state.vans[held as usize].expect("present").stamp;
        state.claim(held, stamp, held + 1).expect("free");
    }
    state
}

/// Where a van is that has so much left of a road.
fn along(town: &Town, road: (u16, u16), offset: u32, weight: u32) -> (f64, f64) {
    let (a, b) = (town.places[road.0 as usize], town.places[road.1 as usize]);
    let left = offset as f64 / weight as f64;
    (b.0 + (a.0 - b.0) * left, b.1 + (a.1 - b.1) * left)
}

/// The place of a van.
fn place(town: &Town, state: &State, van: usize) -> (f64, f64) {
    let known = state.vans[van].expect("present");
    let road = town.map.roads[known.road];
    along(town, (road.from, road.to), known.offset, road.weight)
}

/// The way of a van to a vertex: its place, the vertex it heads for, and on along a shortest path.
fn way(town: &Town, state: &State, van: usize, to: usize) -> Vec<(f64, f64)> {
    let known = state.vans[van].expect("present");
    let mut points = vec![place(town, state, van)];
    let mut vertex = state.head(&known);
    points.push(town.places[vertex]);
    let left = |v: usize| state.opened.distances.from_to(v, to);
    while vertex != to {
        let road = town
            .map
            .roads
            .iter()
            .find(|road| {
                road.from as usize == vertex && road.weight + left(road.to as usize) == left(vertex)
            })
            .expect("a shortest path goes on");
        vertex = road.to as usize;
        points.push(town.places[vertex]);
    }
    points
}

/// The areas of the parts: the quarters as frames, the leaves as fields.
fn draw_parts(svg: &mut Svg, town: &Town) {
    let inset = |area: Area, by: f64| {
        let place = shift((area.left + by, area.top + by));
        let size = (
            area.right - area.left - 2.0 * by,
            area.bottom - area.top - 2.0 * by,
        );
        (place, size)
    };
    let (place, size) = inset(town.areas[0], -8.0);
    svg.rectangle(
        place,
        size,
        14.0,
        r##"fill="#ffffff" stroke="#b9c0c4" stroke-width="1.5""##,
    );
    for part in 1..town.map.parts() {
        let quarter = quarter(town, part);
        let edge = EDGES[quarter];
        if town.map.parents[part] == 0 {
            let (place, size) = inset(town.areas[part], 2.0);
            let more = format!(r##"fill="#ffffff" stroke="{edge}" stroke-width="2.5""##);
            svg.rectangle(place, size, 12.0, &more);
        } else {
            let (place, size) = inset(town.areas[part], 6.0);
            let tint = TINTS[quarter][(part + 1) % 3];
            let more = format!(
                r##"fill="{tint}" stroke="{edge}" stroke-width="1" stroke-dasharray="5 4""##
            );
            svg.rectangle(place, size, 8.0, &more);
        }
    }
}

/// The river.
fn draw_river(svg: &mut Svg, town: &Town) {
    let points: Vec<(f64, f64)> = town.river.iter().map(|&p| shift(p)).collect();
    let more = r##"stroke="#b5d7ec" stroke-width="17" stroke-linecap="round" stroke-linejoin="round" opacity="0.9""##;
    svg.line(&points, more);
}

/// The roads: a line for a street, with an arrow where it is one-way.
fn draw_roads(svg: &mut Svg, town: &Town) {
    let roads = &town.map.roads;
    for road in roads {
        let back = roads
            .iter()
            .any(|other| other.from == road.to && other.to == road.from);
        let (a, b) = (
            shift(town.places[road.from as usize]),
            shift(town.places[road.to as usize]),
        );
        if back && road.from < road.to {
            svg.line(&[a, b], r##"stroke="#8e979d" stroke-width="3""##);
        }
        if !back {
            svg.line(&[a, b], r##"stroke="#8e979d" stroke-width="1.6""##);
            let long = distance(a, b);
            let (x, y) = ((b.0 - a.0) / long, (b.1 - a.1) / long);
            let tip = (a.0 + x * (long * 0.5 + 5.0), a.1 + y * (long * 0.5 + 5.0));
            let tail = (tip.0 - 9.0 * x, tip.1 - 9.0 * y);
            let path = format!(
                "M{:.1} {:.1}L{:.1} {:.1}L{:.1} {:.1}Z",
                tip.0,
                tip.1,
                tail.0 - 4.0 * y,
                tail.1 + 4.0 * x,
                tail.0 + 4.0 * y,
                tail.1 - 4.0 * x
            );
            svg.path(&path, r##"fill="#6d777d""##);
        }
    }
}

/// A vertex: a dot, with a ring if it is a border of its quarter, and a filled ring if it is one of the root.
fn draw_vertex(svg: &mut Svg, at: (f64, f64), of_quarter: bool, of_root: bool) {
    if of_root {
        svg.circle(
            at,
            5.6,
            r##"fill="#263238" stroke="#ffffff" stroke-width="1.5""##,
        );
        svg.circle(at, 2.0, r##"fill="#ffffff""##);
    } else if of_quarter {
        svg.circle(
            at,
            4.6,
            r##"fill="#ffffff" stroke="#37474f" stroke-width="2""##,
        );
    } else {
        svg.circle(at, 2.6, r##"fill="#78858c""##);
    }
}

/// A van with its number, and the colour of its way if it is listed.
fn draw_van(svg: &mut Svg, at: (f64, f64), van: usize, held: bool, listed: Option<usize>) {
    let fill = match (held, listed) {
        (true, _) => "#9aa3a8",
        (false, Some(rank)) => WAYS[rank],
        (false, None) => "#00695c",
    };
    let more = format!(r##"fill="{fill}" stroke="#ffffff" stroke-width="1.6""##);
    svg.rectangle((at.0 - 12.0, at.1 - 8.5), (24.0, 17.0), 5.0, &more);
    let style = Style::plain(10.5).bold().fill("#ffffff").anchor("middle");
    svg.text((at.0, at.1 + 3.8), style, &van.to_string());
}

/// The junction that asks.
fn draw_caller(svg: &mut Svg, at: (f64, f64)) {
    svg.circle(at, 17.0, r##"fill="#c62828" fill-opacity="0.16""##);
    svg.circle(
        at,
        10.0,
        r##"fill="#c62828" stroke="#ffffff" stroke-width="2""##,
    );
    let style = Style::plain(12.0).bold().fill("#ffffff").anchor("middle");
    svg.text((at.0, at.1 + 4.3), style, "x");
}

/// The panel: the question, its list, and what the signs mean.
fn draw_panel(svg: &mut Svg, town: &Town, state: &State, vertex: usize, list: &[[u32; 3]]) {
    let (left, top) = PANEL;
    let wide = WIDTH - left - 24.0;
    let frame = r##"fill="#ffffff" stroke="#cfd5d8" stroke-width="1""##;
    svg.rectangle((left, top - 8.0), (wide, 236.0), 10.0, frame);
    let text = Style::plain(12.5);
    let grey = text.fill("#607079");
    svg.text(
        (left + 16.0, top + 18.0),
        text.bold(),
        &format!("question: vertex {vertex}, k {LISTED}"),
    );
    for (x, name) in [(76.0, "van"), (146.0, "distance"), (214.0, "stamp")] {
        svg.text((left + x, top + 44.0), grey.anchor("end"), name);
    }
    for (rank, row) in list.iter().enumerate() {
        let y = top + 70.0 + 27.0 * rank as f64;
        let more = format!(r##"fill="{}""##, WAYS[rank]);
        svg.circle((left + 26.0, y - 4.5), 9.0, &more);
        let badge = Style::plain(11.0).bold().fill("#ffffff").anchor("middle");
        svg.text((left + 26.0, y - 0.6), badge, &(rank + 1).to_string());
        for (x, number) in [(76.0, row[0]), (146.0, row[1]), (214.0, row[2])] {
            let style = text.anchor("end");
            svg.text((left + x, y), style, &number.to_string());
        }
    }
    let small = Style::plain(10.5).fill("#607079");
    for (line, note) in [
        "distance = offset + way from the road's end",
        "at equal distance the lower van comes first",
    ]
    .iter()
    .enumerate()
    {
        let y = top + 204.0 + 15.0 * line as f64;
        svg.text((left + 16.0, y), small, note);
    }

    let key = top + 244.0;
    svg.rectangle((left, key), (wide, 384.0), 10.0, frame);
    svg.text((left + 16.0, key + 28.0), text.bold(), "what is what");
    let mut y = key + 56.0;
    let mut entry = |svg: &mut Svg, sign: &dyn Fn(&mut Svg, (f64, f64)), name: &str| {
        sign(svg, (left + 32.0, y - 4.0));
        svg.text((left + 62.0, y), text, name);
        y += 29.0;
    };
    entry(svg, &|s, p| draw_caller(s, p), "the junction that asks");
    entry(
        svg,
        &|s, p| draw_van(s, p, 7, false, Some(0)),
        "free van on the list",
    );
    entry(svg, &|s, p| draw_van(s, p, 7, false, None), "free van");
    entry(
        svg,
        &|s, p| draw_van(s, p, 7, true, None),
        "van held by a desk",
    );
    entry(svg, &|s, p| draw_vertex(s, p, false, false), "vertex");
    entry(
        svg,
        &|s, p| draw_vertex(s, p, true, false),
        "border of its quarter",
    );
    entry(
        svg,
        &|s, p| draw_vertex(s, p, true, true),
        "border of the root too",
    );
    let street = |s: &mut Svg, p: (f64, f64)| {
        s.line(
            &[(p.0 - 15.0, p.1), (p.0 + 15.0, p.1)],
            r##"stroke="#8e979d" stroke-width="3""##,
        );
    };
    entry(svg, &street, "road each way");
    let one_way = |s: &mut Svg, p: (f64, f64)| {
        s.line(
            &[(p.0 - 15.0, p.1), (p.0 + 15.0, p.1)],
            r##"stroke="#8e979d" stroke-width="1.6""##,
        );
        let path = format!("M{:.1} {:.1}l-9 -4l0 8Z", p.0 + 5.0, p.1);
        s.path(&path, r##"fill="#6d777d""##);
    };
    entry(svg, &one_way, "one-way road");
    let frame_of = |s: &mut Svg, p: (f64, f64)| {
        let more = r##"fill="none" stroke="#7da2c4" stroke-width="2.5""##;
        s.rectangle((p.0 - 14.0, p.1 - 8.0), (28.0, 16.0), 4.0, more);
    };
    entry(svg, &frame_of, "part of the root: a quarter");
    let field = |s: &mut Svg, p: (f64, f64)| {
        let more = r##"fill="#e3edf7" stroke="#7da2c4" stroke-width="1" stroke-dasharray="5 4""##;
        s.rectangle((p.0 - 14.0, p.1 - 8.0), (28.0, 16.0), 4.0, more);
    };
    entry(svg, &field, "part of a quarter: a leaf");
    let free = state
        .vans
        .iter()
        .flatten()
        .filter(|van| van.desk == 0)
        .count();
    let counts = format!(
        "{} vertices, {} roads, {} parts, {free} free vans",
        town.map.vertices(),
        town.map.roads.len(),
        town.map.parts()
    );
    svg.text((CORNER.0, 48.0 + 12.0), grey, &counts);
}

/// The whole picture.
pub fn of_the_town() -> String {
    let town = town(TOWN);
    let state = fleet(&town, FLEET);
    let vertex = nearest_to(&town, CALLER);
    let list = state
        .question(vertex as u32, LISTED, 96)
        .expect("a sound question");

    let mut svg = Svg::new(WIDTH, HEIGHT);
    svg.text(
        (CORNER.0, 40.0),
        Style::plain(20.0).bold(),
        "The nearest free vans to a junction",
    );
    draw_parts(&mut svg, &town);
    draw_river(&mut svg, &town);
    draw_roads(&mut svg, &town);
    for (rank, row) in list.iter().enumerate().rev() {
        let points: Vec<(f64, f64)> = way(&town, &state, row[0] as usize, vertex)
            .into_iter()
            .map(shift)
            .collect();
        let more = format!(
            r##"stroke="{}" stroke-width="{}" stroke-linecap="round" stroke-linejoin="round" opacity="0.85""##,
            WAYS[rank],
            9.0 - 1.2 * rank as f64
        );
        svg.line(&points, &more);
    }
    for (number, &at) in town.places.iter().enumerate() {
        let leaf = town.map.leaves[number] as usize;
        let quarter = town.map.parents[leaf] as usize;
        let of_quarter = state.opened.row_vertices[quarter].contains(&number);
        let of_root = state.opened.row_vertices[0].contains(&number);
        draw_vertex(&mut svg, shift(at), of_quarter, of_root);
    }
    for (number, van) in state.vans.iter().enumerate() {
        if let Some(van) = van {
            let rank = list.iter().position(|row| row[0] as usize == number);
            let at = shift(place(&town, &state, number));
            draw_van(&mut svg, at, number, van.desk != 0, rank);
        }
    }
    draw_caller(&mut svg, shift(town.places[vertex]));
    draw_panel(&mut svg, &town, &state, vertex, &list);
    svg.finished()
}

/// The seeds of the town and of the fleet, and about where the question is asked.
const TOWN: u64 = 11;
const FLEET: u64 = 5;
const CALLER: (f64, f64) = (560.0, 330.0);

/// The vertex nearest to a place.
fn nearest_to(town: &Town, at: (f64, f64)) -> usize {
    (0..town.places.len())
        .min_by(|&a, &b| distance(town.places[a], at).total_cmp(&distance(town.places[b], at)))
        .expect("a town has vertices")
}
