//! The picture of the crates: a band for each layer of `crates.txt`, the lowest at the bottom.
//!
//! Within a band crates stand to the right of those that they use, with a line to each; below a crate's name stand those
//! of lower layers that it uses, each with the colour of its layer. Both leave out what is implied by another. Where
//! the picture is opened in a browser, pointing at a crate marks all that it uses directly and all that use it.

use crate::layers::{Layer, Layers};
use crate::svg::{Style, Svg};
use std::collections::BTreeMap;

const WIDTH: f64 = 1_260.0;
const LEFT: f64 = 24.0;
const TOP: f64 = 86.0;
const BOX: (f64, f64) = (158.0, 26.0);
const LABEL: f64 = 13.0;
const BETWEEN: f64 = 10.0;
const HEADING: f64 = 34.0;
/// The height of a line that passes by a column.
const PASSING: f64 = 12.0;

/// For each layer the tint of its band and the colour of its crates.
const COLOURS: [(&str, &str); 12] = [
    ("#eceff1", "#546e7a"),
    ("#e5eff8", "#2f74b5"),
    ("#faf0df", "#b97a1f"),
    ("#f3e9f6", "#8e55a3"),
    ("#e2f2f0", "#14857b"),
    ("#fae7e3", "#c0492f"),
    ("#eaf3e4", "#5a8f2c"),
    ("#e9e9f7", "#5457b8"),
    ("#fbe8f0", "#bd3f77"),
    ("#f1ebe4", "#80603c"),
    ("#e3f1f6", "#1f8aa8"),
    ("#f4f2dc", "#8a8118"),
];

fn tint(layer: usize) -> &'static str {
    COLOURS[layer % COLOURS.len()].0
}

fn colour(layer: usize) -> &'static str {
    COLOURS[layer % COLOURS.len()].1
}

/// What stands in a column: a crate, or a line on its way past.
#[derive(Clone, PartialEq)]
enum Slot {
    Crate(String),
    Passing { line: usize, column: usize },
}

/// A layer laid out: columns from left to right, and the lines as the slots that they join.
struct Band {
    columns: Vec<Vec<Slot>>,
    lines: Vec<Vec<Slot>>,
}

/// Below a crate's name: the lower crates that it uses, with their layer's colour, then the kit's libraries.
fn labels(layers: &Layers, name: &str) -> Vec<Vec<(String, &'static str)>> {
    let own = layers.layer_of(name);
    let nearest = layers.nearest(name).into_iter();
    let lower = nearest.filter(|used| layers.layer_of(used) != own);
    let kit = layers.of_the_kit(name).into_iter();
    let all = lower
        .map(|used| (used.to_string(), colour(layers.layer_of(used))))
        .chain(kit.map(|used| (used.to_string(), "#8a979e")));
    let mut lines: Vec<Vec<(String, &'static str)>> = Vec::new();
    let mut room = 0.0;
    for (used, tone) in all {
        let wide = label_width(&used);
        if wide > room {
            lines.push(Vec::new());
            room = BOX.0 - 10.0;
        }
        room -= wide;
        lines.last_mut().expect("just made").push((used, tone));
    }
    lines
}

fn label_width(used: &str) -> f64 {
    16.0 + 6.0 * used.chars().count() as f64
}

impl Band {
    fn of(layers: &Layers, layer: &Layer) -> Band {
        let within = |name: &str| -> Vec<String> {
            let nearest = layers.nearest(name).into_iter();
            let used = nearest.filter(|used| layer.crates.iter().any(|known| known == used));
            used.map(str::to_string).collect()
        };
        let mut column: BTreeMap<&str, usize> = BTreeMap::new();
        for name in &layer.crates {
            let used = within(name);
            let after = used.iter().map(|used| column[used.as_str()] + 1).max();
            column.insert(name, after.unwrap_or(0));
        }
        let last = column.values().copied().max().unwrap_or(0);
        if last == 0 {
            let alone = |name: &String| vec![Slot::Crate(name.clone())];
            return Band {
                columns: layer.crates.iter().map(alone).collect(),
                lines: Vec::new(),
            };
        }
        let mut band = Band {
            columns: vec![Vec::new(); last + 1],
            lines: Vec::new(),
        };
        for name in &layer.crates {
            band.columns[column[name.as_str()]].push(Slot::Crate(name.clone()));
        }
        for name in &layer.crates {
            for used in within(name) {
                let mut line = vec![Slot::Crate(used.clone())];
                for passed in column[used.as_str()] + 1..column[name.as_str()] {
                    let slot = Slot::Passing {
                        line: band.lines.len(),
                        column: passed,
                    };
                    band.columns[passed].push(slot.clone());
                    line.push(slot);
                }
                line.push(Slot::Crate(name.clone()));
                band.lines.push(line);
            }
        }
        band.order();
        band
    }

    /// Orders each column so that few lines cross.
    fn order(&mut self) {
        let mut best = (self.crossings(), self.columns.clone());
        for sweep in 0..8 {
            let places: Vec<usize> = match sweep % 2 {
                0 => (0..self.columns.len()).collect(),
                _ => (0..self.columns.len()).rev().collect(),
            };
            for place in places {
                let mean = |slot: &Slot| self.mean_of_neighbours(slot);
                let mut column: Vec<(f64, Slot)> = self.columns[place]
                    .iter()
                    .map(|slot| (mean(slot), slot.clone()))
                    .collect();
                column.sort_by(|a, b| a.0.total_cmp(&b.0));
                self.columns[place] = column.into_iter().map(|pair| pair.1).collect();
            }
            let crossings = self.crossings();
            if crossings < best.0 {
                best = (crossings, self.columns.clone());
            }
        }
        self.columns = best.1;
    }

    /// Where a slot stands: its column, and how far down that is, from 0 to 1.
    fn stands(&self, slot: &Slot) -> (usize, f64) {
        let found = self.columns.iter().enumerate().find_map(|(place, column)| {
            let down = column.iter().position(|known| known == slot)?;
            Some((place, (down as f64 + 0.5) / column.len() as f64))
        });
        found.expect("every slot stands in a column")
    }

    fn mean_of_neighbours(&self, slot: &Slot) -> f64 {
        let pairs = self.lines.iter().flat_map(|line| line.windows(2));
        let near: Vec<f64> = pairs
            .filter_map(|pair| match (&pair[0] == slot, &pair[1] == slot) {
                (true, _) => Some(self.stands(&pair[1]).1),
                (_, true) => Some(self.stands(&pair[0]).1),
                _ => None,
            })
            .collect();
        match near.len() {
            0 => self.stands(slot).1,
            count => near.iter().sum::<f64>() / count as f64,
        }
    }

    fn crossings(&self) -> usize {
        let pairs = self.lines.iter().flat_map(|line| line.windows(2));
        let ends: Vec<(usize, f64, f64)> = pairs
            .map(|pair| {
                let (column, from) = self.stands(&pair[0]);
                (column, from, self.stands(&pair[1]).1)
            })
            .collect();
        let cross = |a: &(usize, f64, f64), b: &(usize, f64, f64)| {
            a.0 == b.0 && (a.1 - b.1) * (a.2 - b.2) < 0.0
        };
        let of = |place: usize| {
            ends[..place]
                .iter()
                .filter(|b| cross(&ends[place], b))
                .count()
        };
        (0..ends.len()).map(of).sum()
    }
}

/// The height of a slot.
fn height_of(layers: &Layers, slot: &Slot) -> f64 {
    match slot {
        Slot::Crate(name) => match labels(layers, name).len() {
            0 => BOX.1,
            lines => BOX.1 + 2.0 + lines as f64 * LABEL,
        },
        Slot::Passing { .. } => PASSING,
    }
}

fn column_height(layers: &Layers, column: &[Slot]) -> f64 {
    let all: f64 = column.iter().map(|slot| height_of(layers, slot)).sum();
    all + BETWEEN * (column.len() as f64 - 1.0)
}

fn band_height(layers: &Layers, band: &Band) -> f64 {
    let heights = band
        .columns
        .iter()
        .map(|column| column_height(layers, column));
    HEADING + heights.fold(0.0, f64::max) + 14.0
}

/// A place of the picture and the size of what stands there.
#[derive(Clone, Copy)]
struct Area {
    place: (f64, f64),
    size: (f64, f64),
}

/// Where the slots of a band stand whose upper edge is at `top`.
fn areas(layers: &Layers, band: &Band, top: f64) -> Vec<(Slot, Area)> {
    let height = band_height(layers, band) - HEADING - 14.0;
    let room = (WIDTH - 2.0 * LEFT - 32.0 - BOX.0) / (band.columns.len() as f64 - 1.0).max(1.0);
    let step = room.min(BOX.0 + 64.0);
    let mut areas = Vec::new();
    for (place, column) in band.columns.iter().enumerate() {
        let x = LEFT + 16.0 + place as f64 * step;
        let mut y = top + HEADING + (height - column_height(layers, column)) / 2.0;
        for slot in column {
            let size = (BOX.0, height_of(layers, slot));
            areas.push((
                slot.clone(),
                Area {
                    place: (x, y),
                    size,
                },
            ));
            y += size.1 + BETWEEN;
        }
    }
    areas
}

/// A curve from the right edge of one area to the left edge of the next, straight through those between.
fn curve(areas: &[Area]) -> String {
    let right = |a: &Area| (a.place.0 + a.size.0, a.place.1 + a.size.1 / 2.0);
    let left = |a: &Area| (a.place.0, a.place.1 + a.size.1 / 2.0);
    let mut from = right(&areas[0]);
    let mut path = format!("M {:.1} {:.1}", from.0, from.1);
    for (place, area) in areas.iter().enumerate().skip(1) {
        let to = left(area);
        let bend = (to.0 - from.0) / 2.0;
        path += &format!(
            " C {:.1} {:.1} {:.1} {:.1} {:.1} {:.1}",
            from.0 + bend,
            from.1,
            to.0 - bend,
            to.1,
            to.0,
            to.1
        );
        if place + 1 < areas.len() {
            from = right(area);
            path += &format!(" L {:.1} {:.1}", from.0, from.1);
        }
    }
    path
}

fn draw_crate(svg: &mut Svg, layers: &Layers, name: &str, area: Area) {
    let tone = colour(layers.layer_of(name));
    let more = format!(r##"fill="#ffffff" stroke="{tone}" stroke-width="1.4""##);
    svg.rectangle(area.place, area.size, 6.0, &more);
    let (x, y) = area.place;
    let style = Style::plain(12.5).bold().anchor("middle");
    svg.text((x + BOX.0 / 2.0, y + 17.5), style, name);
    for (line, used) in labels(layers, name).iter().enumerate() {
        let wide: f64 = used.iter().map(|label| label_width(&label.0)).sum();
        let mut x = x + (BOX.0 - wide) / 2.0 + 2.0;
        let y = y + BOX.1 + line as f64 * LABEL;
        for (used, tone) in used {
            svg.rectangle((x, y), (7.0, 7.0), 2.0, &format!(r##"fill="{tone}""##));
            svg.text(
                (x + 10.0, y + 7.0),
                Style::plain(10.0).fill("#546e7a"),
                used,
            );
            x += label_width(used);
        }
    }
}

/// What pointing at a crate shows: those that it uses directly, and those that use it.
fn draw_pointing(svg: &mut Svg, layers: &Layers, places: &BTreeMap<String, Area>) {
    for (name, area) in places {
        let mut shown = String::new();
        let mut mark = |other: &str, tone: &str| {
            let there = places[other];
            let middle = |a: Area| (a.place.0 + a.size.0 / 2.0, a.place.1 + a.size.1 / 2.0);
            let (from, to) = (middle(*area), middle(there));
            shown += &format!(
                r##"<rect x="{:.1}" y="{:.1}" width="{:.1}" height="{:.1}" rx="6" fill="{tone}" fill-opacity="0.22" stroke="{tone}" stroke-width="3"/><line x1="{:.1}" y1="{:.1}" x2="{:.1}" y2="{:.1}" stroke="{tone}" stroke-opacity="0.35" stroke-width="1.5"/>"##,
                there.place.0,
                there.place.1,
                there.size.0,
                there.size.1,
                from.0,
                from.1,
                to.0,
                to.1
            );
        };
        for used in layers.direct(name) {
            mark(used, "#1565c0");
        }
        for user in places.keys() {
            if layers.direct(user).contains(&name.as_str()) {
                mark(user, "#e2662b");
            }
        }
        svg.group(
            "pointed",
            &format!(
                r##"<rect x="{:.1}" y="{:.1}" width="{:.1}" height="{:.1}" rx="6" fill="#ffffff" fill-opacity="0"/><g class="shown">{shown}</g>"##,
                area.place.0, area.place.1, area.size.0, area.size.1
            ),
        );
    }
}

/// The picture of the crates that a `crates.txt` names.
pub fn of_crates(text: &str) -> Result<String, String> {
    let layers = Layers::read(text)?;
    let bands: Vec<Band> = layers
        .layers
        .iter()
        .map(|layer| Band::of(&layers, layer))
        .collect();
    let heights: Vec<f64> = bands
        .iter()
        .map(|band| band_height(&layers, band))
        .collect();
    let all: f64 = heights.iter().map(|height| height + BETWEEN).sum();
    let mut svg = Svg::new(WIDTH, TOP + all + 14.0);
    svg.style(
        ".shown { display: none; pointer-events: none } .pointed:hover .shown { display: inline }",
    );
    svg.text(
        (LEFT, 40.0),
        Style::plain(20.0).bold(),
        "The crates, in layers",
    );
    let about = "Within a layer, lines lead from a crate to those that use it. Below a name: what it uses of lower layers, and of the kit (grey). What follows from another is left out.";
    svg.text((LEFT, 64.0), Style::plain(12.5).fill("#546e7a"), about);
    let mut places = BTreeMap::new();
    let mut top = TOP + all;
    for (place, (layer, band)) in layers.layers.iter().zip(&bands).enumerate() {
        top -= heights[place] + BETWEEN;
        let more = format!(r##"fill="{}""##, tint(place));
        svg.rectangle(
            (LEFT, top),
            (WIDTH - 2.0 * LEFT, heights[place]),
            10.0,
            &more,
        );
        let style = Style::plain(12.5).fill(colour(place)).bold();
        svg.text((LEFT + 16.0, top + 21.0), style, &layer.about);
        let areas = areas(&layers, band, top);
        let area_of = |slot: &Slot| {
            let found = areas.iter().find(|known| &known.0 == slot);
            found.expect("every slot has its place").1
        };
        for line in &band.lines {
            let line: Vec<Area> = line.iter().map(area_of).collect();
            let more = format!(
                r##"fill="none" stroke="{}" stroke-width="1.5""##,
                colour(place)
            );
            svg.path(&curve(&line), &more);
        }
        for (slot, area) in &areas {
            if let Slot::Crate(name) = slot {
                draw_crate(&mut svg, &layers, name, *area);
                places.insert(name.clone(), *area);
            }
        }
    }
    draw_pointing(&mut svg, &layers, &places);
    Ok(svg.finished())
}

#[cfg(test)]
mod tests {
    use super::*;

    #[test]
    fn the_picture_in_docs_is_that_of_crates_txt() {
        let top = std::path::Path::new(env!("CARGO_MANIFEST_DIR")).join("../..");
        let file = |name: &str| std::fs::read_to_string(top.join(name)).unwrap();
        let drawn = of_crates(&file("crates.txt")).unwrap();
        assert!(drawn == file("docs/crates.svg"), "make picture draws it");
    }
}
