//! Links the archive of the search, `libroad_search_c.a`: from the directory that HAILTRELLIS_LIB_DIR names, otherwise from
//! `target/staticlib` of the repository, where `tools/archive` writes it. The core's own archive comes with the wrapper `hailtrellis`.

use std::env;
use std::path::{Path, PathBuf};

fn main() {
    println!("cargo:rerun-if-env-changed=HAILTRELLIS_LIB_DIR");
    let directory = match env::var("HAILTRELLIS_LIB_DIR") {
        Ok(directory) => PathBuf::from(directory),
        Err(_) => Path::new(env!("CARGO_MANIFEST_DIR")).join("../../target/staticlib"),
    };
    println!("cargo:rustc-link-search=native={}", directory.display());
    println!("cargo:rustc-link-lib=static=road_search_c");
    let archive = directory.join("libroad_search_c.a");
    println!("cargo:rerun-if-changed={}", archive.display());
}
