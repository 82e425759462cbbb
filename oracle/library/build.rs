//! Takes the source's text unchanged, with one line behind it that names the probe as its child
//! module, and writes down on which of its lines it panics for which reason.
use std::{env, fs, path::PathBuf};

/// The source's path; the script that starts the build sets it.
fn source_path() -> PathBuf {
    println!("cargo:rerun-if-env-changed=ASLINK3_SOURCE");
    let path = env::var("ASLINK3_SOURCE").expect("ASLINK3_SOURCE has to name the source's file");
    println!("cargo:rerun-if-changed={path}");
    path.into()
}

/// The number of the one line that holds these words, counted from 1.
fn line_of(text: &str, words: &str) -> usize {
    let found: Vec<_> = (1..)
        .zip(text.lines())
        .filter(|(_, line)| line.contains(words))
        .map(|(number, _)| number)
        .collect();
    assert!(found.len() == 1, "the source has {} lines with {words}", found.len());
    found[0]
}

/// Writes the source with its child, and its parent's part that names it.
fn main() {
    let here = env::var("CARGO_MANIFEST_DIR").unwrap();
    let out = PathBuf::from(env::var("OUT_DIR").unwrap());
    let path = source_path();
    let text = fs::read_to_string(&path)
        .unwrap_or_else(|error| panic!("the source at {}: {error}", path.display()));
    let child = format!("\n#[path = {:?}]\npub mod probe;\n", format!("{here}/src/probe/mod.rs"));
    fs::write(out.join("aslink3.rs"), text.clone() + &child).unwrap();
    let module = format!(
        "#[allow(dead_code, clippy::useless_conversion)]\n#[path = {:?}]\nmod aslink3;\n\
         const STEP_LINES: [u32; 2] = [{}, {}];\n\
         const PART_LINE: u32 = {};\n\
         const SYMBOL_LINE: u32 = {};\n\
         const NUMBER_LINE: u32 = {};\n",
        out.join("aslink3.rs"),
        line_of(&text, "fn modify_cmf_to_fixup("),
        line_of(&text, "fn get_onsite_size("),
        line_of(&text, "&mut full_array[usize::from(frag.offset)..]"),
        line_of(&text, "&module.syms[usize::from(frag.symarea)]"),
        line_of(&text, "offset_array[i]"),
    );
    fs::write(out.join("module.rs"), module).unwrap();
}
