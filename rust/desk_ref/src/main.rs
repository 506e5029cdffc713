//! The desk program over the reference: reads its whole input, then writes its lines.

use std::io::{Read, Write};

fn main() -> std::io::Result<()> {
    let mut input = Vec::new();
    std::io::stdin().read_to_end(&mut input)?;
    std::io::stdout().write_all(desk_ref::transcript(&input).as_bytes())
}
