//! Says where the archive `libhailtrellis_c.a` stands: in the directory that HAILTRELLIS_LIB_DIR names, otherwise in
//! `target/staticlib` of the repository.

use std::env;
use std::path::PathBuf;

fn main() {
    println!("cargo:rerun-if-env-changed=HAILTRELLIS_LIB_DIR");
    let here = PathBuf::from(env::var("CARGO_MANIFEST_DIR").unwrap());
    let directory = match env::var("HAILTRELLIS_LIB_DIR") {
        Ok(directory) => PathBuf::from(directory),
        Err(_) => here.join("../../target/staticlib"),
    };
    println!("cargo:rustc-link-search=native={}", directory.display());
    println!("cargo:rustc-link-lib=static:-bundle=hailtrellis_c");
    let archive = directory.join("libhailtrellis_c.a");
    println!("cargo:rerun-if-changed={}", archive.display());
    if !archive.exists() {
        println!(
            "cargo:warning={} is not there; `tools/archive hailtrellis_c` makes it",
            archive.display()
        );
    }
}
