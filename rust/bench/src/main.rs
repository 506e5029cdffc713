//! Measures the proved code against plain Rust, on the same input and in the same run, and compares what both give.
//!
//! `bench NAME` measures one thing (`search`, `judge`, `opening`, `changes`, `lookup`, `question`) and prints a table. `bench all` measures
//! everything and writes `docs/bench.csv` and the tables of `docs/BENCH.md`. `--rounds N` takes the least of N rounds instead of the usual
//! number, `--csv FILE` writes the results of one thing as lines `chart,cell,series,value`.

mod assembled;
mod changes;
mod dijkstra;
mod engine;
mod judge;
mod lookup;
mod nearest;
mod opening;
mod plain_fleet;
mod question;
mod report;
mod search;
mod searched;
mod shape;
mod timing;

use report::Section;
use std::path::{Path, PathBuf};

type Measure = fn(Option<usize>) -> Section;

const ALL: [(&str, Measure); 6] = [
    ("search", search::run),
    ("judge", judge::run),
    ("opening", opening::run),
    ("changes", changes::run),
    ("lookup", lookup::run),
    ("question", question::run),
];

struct Arguments {
    what: String,
    rounds: Option<usize>,
    csv: Option<PathBuf>,
}

fn arguments() -> Option<Arguments> {
    let mut given = std::env::args().skip(1);
    let mut arguments = Arguments {
        what: given.next()?,
        rounds: None,
        csv: None,
    };
    while let Some(option) = given.next() {
        match option.as_str() {
            "--rounds" => {
                arguments.rounds = Some(given.next()?.parse().ok().filter(|&rounds| rounds > 0)?)
            }
            "--csv" => arguments.csv = Some(given.next()?.into()),
            _ => return None,
        }
    }
    Some(arguments)
}

fn main() -> std::io::Result<()> {
    let Some(arguments) = arguments() else {
        return usage();
    };
    let all = arguments.what == "all";
    let chosen: Vec<Measure> = ALL
        .iter()
        .filter(|(name, _)| all || *name == arguments.what)
        .map(|&(_, measure)| measure)
        .collect();
    if chosen.is_empty() {
        return usage();
    }
    let mut sections = Vec::new();
    for measure in chosen {
        let section = measure(arguments.rounds);
        println!("{section}");
        sections.push(section);
    }
    if let Some(file) = &arguments.csv {
        report::write_csv(file, &sections)?;
    } else if all {
        let docs = Path::new(env!("CARGO_MANIFEST_DIR")).join("../../docs");
        report::write_csv(&docs.join("bench.csv"), &sections)?;
        report::write_tables(&docs.join("BENCH.md"), &sections)?;
    }
    Ok(())
}

fn usage() -> std::io::Result<()> {
    let names: Vec<&str> = ALL.iter().map(|(name, _)| *name).collect();
    Err(std::io::Error::other(format!(
        "usage: bench {}|all [--rounds N] [--csv FILE]",
        names.join("|")
    )))
}
