//! What was measured: a table and notes to read, and results to draw.

use std::fmt;
use std::fs;
use std::io;
use std::path::Path;

/// Whose time a result is.
pub const CORE: &str = "Hailtrellis";
pub const HEAP: &str = "Dijkstra, binary heap";
pub const SAME_METHOD: &str = "same method, plain Rust";
pub const ROWS_ANEW: &str = "rows made anew";
pub const QUOTED: &str = "C++, quoted";

/// One bar of a chart.
pub struct Bar {
    chart: &'static str,
    cell: String,
    series: &'static str,
    value: f64,
}

/// What one measurement gave.
pub struct Section {
    name: &'static str,
    headings: Vec<&'static str>,
    lines: Vec<Vec<String>>,
    notes: Vec<String>,
    bars: Vec<Bar>,
}

impl Section {
    pub fn new(name: &'static str, headings: &[&'static str]) -> Self {
        Section {
            name,
            headings: headings.to_vec(),
            lines: Vec::new(),
            notes: Vec::new(),
            bars: Vec::new(),
        }
    }

    pub fn line(&mut self, fields: Vec<String>) {
        assert_eq!(fields.len(), self.headings.len());
        self.lines.push(fields);
    }

    pub fn note(&mut self, text: String) {
        self.notes.push(text);
    }

    pub fn bar(&mut self, chart: &'static str, cell: &str, series: &'static str, value: f64) {
        self.bars.push(Bar {
            chart,
            cell: cell.to_string(),
            series,
            value,
        });
    }

    /// The table and the notes as they stand in a document.
    fn text(&self) -> String {
        let row = |fields: &[String]| format!("| {} |\n", fields.join(" | "));
        let headings: Vec<String> = self.headings.iter().map(|h| h.to_string()).collect();
        let mut text = row(&headings);
        text.push_str(&"|---".repeat(headings.len()));
        text.push_str("|\n");
        for line in &self.lines {
            text.push_str(&row(line));
        }
        for note in &self.notes {
            text.push_str(&format!("\n{note}\n"));
        }
        text
    }
}

impl fmt::Display for Section {
    fn fmt(&self, f: &mut fmt::Formatter<'_>) -> fmt::Result {
        write!(f, "{}\n\n{}", self.name, self.text())
    }
}

/// A whole number with its thousands apart.
pub fn whole(value: f64) -> String {
    let digits = format!("{value:.0}");
    let mut text = String::new();
    for (place, digit) in digits.chars().enumerate() {
        if place > 0 && (digits.len() - place) % 3 == 0 {
            text.push(',');
        }
        text.push(digit);
    }
    text
}

/// The results of all sections, one line each after a line of headings.
pub fn write_csv(file: &Path, sections: &[Section]) -> io::Result<()> {
    let mut text = String::from("chart,cell,series,value\n");
    for bar in sections.iter().flat_map(|section| &section.bars) {
        text.push_str(&format!(
            "\"{}\",\"{}\",\"{}\",{:.1}\n",
            bar.chart, bar.cell, bar.series, bar.value
        ));
    }
    fs::write(file, text)?;
    println!("{}", file.display());
    Ok(())
}

/// Puts each section between its two marks in a document, and the machine between its own.
pub fn write_tables(file: &Path, sections: &[Section]) -> io::Result<()> {
    let mut text = fs::read_to_string(file)?;
    let mut put = |name: &str, between: &str| {
        let (from, to) = (
            format!("<!-- {name} -->\n"),
            format!("<!-- end of {name} -->"),
        );
        let missing = || io::Error::other(format!("no marks for {name} in {}", file.display()));
        let start = text.find(&from).ok_or_else(missing)? + from.len();
        let end = start + text[start..].find(&to).ok_or_else(missing)?;
        text.replace_range(start..end, &format!("\n{}\n\n", between.trim_end()));
        Ok::<(), io::Error>(())
    };
    put("machine", &machine())?;
    for section in sections {
        put(section.name, &section.text())?;
    }
    fs::write(file, text)?;
    println!("{}", file.display());
    Ok(())
}

/// The processors and how busy they are.
fn machine() -> String {
    let processors = fs::read_to_string("/proc/cpuinfo").unwrap_or_default();
    let model = processors
        .lines()
        .find_map(|line| line.strip_prefix("model name"))
        .map_or(std::env::consts::ARCH, |rest| {
            rest.trim_start_matches([' ', '\t', ':'])
        });
    let count = std::thread::available_parallelism().map_or(1, |n| n.get());
    let load = fs::read_to_string("/proc/loadavg").unwrap_or_default();
    let busy = load.split(' ').next().unwrap_or("an unknown number of");
    let clock = processors
        .lines()
        .find_map(|line| line.strip_prefix("cpu MHz"))
        .map_or(String::new(), |rest| {
            format!(
                " at {} MHz",
                rest.trim_start_matches([' ', '\t', ':'])
                    .split('.')
                    .next()
                    .unwrap_or("?")
            )
        });
    format!(
        "{count} × {model}{clock}, on which {busy} processes ran in the mean of the last minute. One of them was the bench, which uses one processor.\n"
    )
}
