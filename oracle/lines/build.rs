//! Links the archive of the exported readers, which stands in the project's folder target/staticlib.
use std::{env, path::PathBuf};

fn main() {
    let here = PathBuf::from(env::var("CARGO_MANIFEST_DIR").unwrap());
    let archives = here.join("../../target/staticlib");
    println!("cargo:rerun-if-changed={}", archives.join("libprobe_line.a").display());
    println!("cargo:rustc-link-search=native={}", archives.display());
    println!("cargo:rustc-link-lib=static=probe_line");
}
