//! Takes the old module's text unchanged, with one line behind it that names a child module.
use std::{env, fs, path::PathBuf};

/// Writes the source with its child, and the line that names it.
fn main() {
    println!("cargo:rerun-if-env-changed=ASLINK3_SOURCE");
    let path = env::var("ASLINK3_SOURCE").expect("ASLINK3_SOURCE has to name the source's file");
    println!("cargo:rerun-if-changed={path}");
    let here = env::var("CARGO_MANIFEST_DIR").unwrap();
    let out = PathBuf::from(env::var("OUT_DIR").unwrap());
    let text = fs::read_to_string(&path).unwrap_or_else(|error| panic!("{path}: {error}"));
    let child = format!("\n#[path = {:?}]\npub mod entry;\n", format!("{here}/src/entry.rs"));
    fs::write(out.join("aslink3.rs"), text + &child).unwrap();
    let module = format!(
        "#[allow(dead_code, clippy::useless_conversion)]\n#[path = {:?}]\nmod aslink3;\n",
        out.join("aslink3.rs")
    );
    fs::write(out.join("module.rs"), module).unwrap();
}
