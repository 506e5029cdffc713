//! Draws the pictures of the documents: `picture DIRECTORY CRATES` writes
//!
//! - `DIRECTORY/map.svg`: a town with its parts, borders and vans, and the list of one question, as the reference answers it;
//! - `DIRECTORY/crates.svg`: the crates in their layers, as the file CRATES names them (see [`architecture`]);
//! - `DIRECTORY/bench.svg`: bars for the benchmark's results, from `DIRECTORY/bench.csv` (see [`chart`]).

mod architecture;
mod chart;
mod drawing;
mod layers;
mod svg;
mod town;

use std::fs;
use std::io::{Error, Result};
use std::path::Path;

fn main() -> Result<()> {
    let arguments: Vec<String> = std::env::args().skip(1).collect();
    let [directory, crates] = arguments.as_slice() else {
        return Err(Error::other("usage: picture DIRECTORY CRATES"));
    };
    let directory = Path::new(directory);
    let crates = fs::read_to_string(crates)?;
    let results = fs::read_to_string(directory.join("bench.csv"))?;
    for (name, picture) in [
        ("map.svg", Ok(drawing::of_the_town())),
        ("crates.svg", architecture::of_crates(&crates)),
        ("bench.svg", chart::of_results(&results)),
    ] {
        let file = directory.join(name);
        fs::write(&file, picture.map_err(Error::other)?)?;
        println!("{}", file.display());
    }
    Ok(())
}
