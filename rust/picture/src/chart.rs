//! Bars for the benchmark's results.
//!
//! `bench.csv` has a line `chart,cell,series,value` for each result after one line of headings. The chart says what is measured
//! and in which unit, the cell is the case ("50 vans, k 1"), the series is who was measured ("hailtrellis"), the value is
//! a number above 0. A field with a comma stands in double quotes. Charts, cells and series are drawn in the order in which
//! they first come. All bars of all charts have one axis: they begin at 1 of their unit, or at the power of ten below the
//! least value if that is less, and grow by as much for each tenfold. The picture says so.

use crate::svg::{Style, Svg};

const COLOURS: [&str; 6] = [
    "#00796b", "#e2662b", "#7d8b93", "#c9a227", "#5e6fb3", "#a45a7a",
];
const WIDTH: f64 = 1_000.0;
const LEFT: f64 = 24.0;
const BARS_FROM: f64 = 240.0;
const BARS_TO: f64 = 890.0;
const BAR: f64 = 15.0;
const GAP: f64 = 11.0;

/// What is measured in the same unit.
struct Chart<'a> {
    title: &'a str,
    cells: Vec<Cell<'a>>,
}

/// A case and its results, each by the number of its series.
struct Cell<'a> {
    name: &'a str,
    bars: Vec<(usize, f64)>,
}

/// The fields of a line; a field in quotes may have commas.
fn fields(line: &str) -> Vec<String> {
    let mut fields = vec![String::new()];
    let mut quoted = false;
    for letter in line.chars() {
        match letter {
            '"' => quoted = !quoted,
            ',' if !quoted => fields.push(String::new()),
            _ => fields.last_mut().expect("never empty").push(letter),
        }
    }
    fields
        .iter()
        .map(|field| field.trim().to_string())
        .collect()
}

/// The results of a file: chart, cell, series and value.
fn results(text: &str) -> Result<Vec<([String; 3], f64)>, String> {
    let mut results = Vec::new();
    for (place, line) in text.lines().enumerate().skip(1) {
        if line.trim().is_empty() {
            continue;
        }
        let bad = || format!("bench.csv, line {}: {line}", place + 1);
        let [chart, cell, series, value]: [String; 4] =
            fields(line).try_into().map_err(|_| bad())?;
        let value: f64 = value.parse().map_err(|_| bad())?;
        if !value.is_finite() || value <= 0.0 {
            return Err(bad());
        }
        results.push(([chart, cell, series], value));
    }
    Ok(results)
}

/// The place of a name among those seen so far, to which it is added if it is new.
fn place_of<'a>(names: &mut Vec<&'a str>, name: &'a str) -> usize {
    match names.iter().position(|&known| known == name) {
        Some(place) => place,
        None => {
            names.push(name);
            names.len() - 1
        }
    }
}

/// A value: below 100 with one place after the point.
fn written(value: f64) -> String {
    match value < 100.0 {
        true => format!("{value:.1}"),
        false => thousands(&format!("{value:.0}")),
    }
}

/// A power of ten.
fn power_of_ten(power: i32) -> String {
    match power < 0 {
        true => format!("{}", 10f64.powi(power)),
        false => thousands(&format!("{:.0}", 10f64.powi(power))),
    }
}

/// Digits with their thousands apart.
fn thousands(digits: &str) -> String {
    let mut text = String::new();
    for (place, digit) in digits.chars().enumerate() {
        if place > 0 && (digits.len() - place).is_multiple_of(3) {
            text.push(',');
        }
        text.push(digit);
    }
    text
}

impl Chart<'_> {
    fn height(&self) -> f64 {
        let bars: usize = self.cells.iter().map(|cell| cell.bars.len()).sum();
        70.0 + bars as f64 * BAR + self.cells.len() as f64 * GAP
    }

    fn draw(&self, svg: &mut Svg, (least, most): (i32, i32), top: f64) {
        let height = self.height();
        let frame = r##"fill="#ffffff" stroke="#cfd5d8" stroke-width="1""##;
        svg.rectangle((LEFT, top), (WIDTH - 2.0 * LEFT, height), 10.0, frame);
        svg.text(
            (LEFT + 16.0, top + 26.0),
            Style::plain(14.0).bold(),
            self.title,
        );
        let x_of = |value: f64| {
            let share = (value.log10() - least as f64) / (most - least) as f64;
            BARS_FROM + share * (BARS_TO - BARS_FROM)
        };
        for power in least..=most {
            let x = x_of(10f64.powi(power));
            let line = r##"stroke="#e1e6e8" stroke-width="1""##;
            svg.line(&[(x, top + 54.0), (x, top + height - 8.0)], line);
            let style = Style::plain(10.0).fill("#8a979e").anchor("middle");
            svg.text((x, top + 49.0), style, &power_of_ten(power));
        }
        let mut y = top + 62.0;
        for cell in &self.cells {
            let middle = y + cell.bars.len() as f64 * BAR / 2.0 + 4.0;
            svg.text(
                (BARS_FROM - 14.0, middle),
                Style::plain(12.0).anchor("end"),
                cell.name,
            );
            for &(series, value) in &cell.bars {
                let more = format!(r##"fill="{}""##, COLOURS[series % COLOURS.len()]);
                let wide = (x_of(value) - BARS_FROM).max(2.0);
                svg.rectangle((BARS_FROM, y + 1.0), (wide, BAR - 2.5), 2.5, &more);
                let place = (BARS_FROM + wide + 7.0, y + BAR - 4.0);
                svg.text(place, Style::plain(10.5).fill("#455a64"), &written(value));
                y += BAR;
            }
            y += GAP;
        }
    }
}

/// The axis of all charts: the powers of ten that all values lie between, from 1 or less on.
fn powers(results: &[([String; 3], f64)]) -> (i32, i32) {
    let values = || results.iter().map(|result| result.1);
    let least = values().fold(1.0, f64::min).log10().floor();
    let most = values().fold(10.0, f64::max).log10().ceil();
    (least as i32, most as i32)
}

/// The charts of a file of results.
pub fn of_results(text: &str) -> Result<String, String> {
    let results = results(text)?;
    let mut series = Vec::new();
    let mut charts: Vec<Chart> = Vec::new();
    for ([chart, cell, name], value) in &results {
        let bar = (place_of(&mut series, name), *value);
        if !charts.iter().any(|known| known.title == chart) {
            charts.push(Chart {
                title: chart,
                cells: Vec::new(),
            });
        }
        let known = charts.iter_mut().find(|known| known.title == chart);
        let cells = &mut known.expect("just put there").cells;
        match cells.iter_mut().find(|known| known.name == cell) {
            Some(known) => known.bars.push(bar),
            None => cells.push(Cell {
                name: cell,
                bars: vec![bar],
            }),
        }
    }
    let powers = powers(&results);
    let height = 122.0
        + charts
            .iter()
            .map(|chart| chart.height() + 16.0)
            .sum::<f64>();
    let mut svg = Svg::new(WIDTH, height);
    svg.text((LEFT, 40.0), Style::plain(20.0).bold(), "Measured");
    let about = format!(
        "The axis is logarithmic: every bar begins at {}, and each line stands for ten times the value of the one before it.",
        power_of_ten(powers.0)
    );
    svg.text((LEFT, 64.0), Style::plain(12.5).fill("#546e7a"), &about);
    let mut x = LEFT;
    for (place, name) in series.iter().enumerate() {
        let more = format!(r##"fill="{}""##, COLOURS[place % COLOURS.len()]);
        svg.rectangle((x, 82.0), (13.0, 13.0), 3.0, &more);
        svg.text((x + 19.0, 93.0), Style::plain(12.5), name);
        x += 46.0 + 7.8 * name.chars().count() as f64;
    }
    let mut top = 114.0;
    for chart in &charts {
        chart.draw(&mut svg, powers, top);
        top += chart.height() + 16.0;
    }
    Ok(svg.finished())
}

#[cfg(test)]
mod tests {
    use super::*;

    #[test]
    fn a_file_of_results_is_read() {
        let text = "chart,cell,series,value\n\"Question, ns\",\"50 vans, k 1\",hailtrellis,1234\n\
                    \"Question, ns\",\"50 vans, k 1\",Dijkstra,6700.5\n";
        let read = results(text).unwrap();
        assert_eq!(read[1].0, ["Question, ns", "50 vans, k 1", "Dijkstra"]);
        assert_eq!(read[1].1, 6700.5);
        assert!(of_results(text).unwrap().contains("6,70"));
        assert!(of_results("chart,cell,series,value\na,b,c\n").is_err());
        assert!(of_results("chart,cell,series,value\na,b,c,0\n").is_err());
        assert_eq!(powers(&read), (0, 4));
        assert_eq!(written(1234567.0), "1,234,567");
        assert_eq!(written(6.68), "6.7");
        assert_eq!(power_of_ten(3), "1,000");
        assert_eq!(power_of_ten(-1), "0.1");
    }
}
