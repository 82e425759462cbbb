//! Links the static library that `bindings/library` hands out, or says why it cannot.
use std::path::{Path, PathBuf};
use std::process::ExitCode;
use std::{env, fs};

/// The static library's file.
const FILE: &str = "libgatecobalt.a";

/// The folder of the static library: the project's own, or the one that the environment names.
fn folder() -> PathBuf {
    println!("cargo:rerun-if-env-changed=GATECOBALT_LIBRARY");
    let own = || PathBuf::from(env::var("CARGO_MANIFEST_DIR").unwrap()).join("../../target/host");
    env::var("GATECOBALT_LIBRARY").map_or_else(|_| own(), PathBuf::from)
}

/// What cargo says of the machine that is built for.
fn cargo_says(what: &str) -> String {
    env::var(format!("CARGO_CFG_TARGET_{what}")).unwrap_or_default()
}

/// The machine's number in an object file of the processor that is built for.
fn wanted_machine() -> Result<u16, String> {
    let (processor, system) = (cargo_says("ARCH"), cargo_says("OS"));
    match (&processor[..], &system[..], &cargo_says("POINTER_WIDTH")[..]) {
        ("x86_64", "linux", "64") => Ok(62),
        ("aarch64", "linux", "64") => Ok(183),
        _ => Err(format!(
            "the static library is for Linux on x86-64, and this is a build for {system} on {processor}"
        )),
    }
}

/// The machine's number in the first object file of an archive.
fn machine_of(archive: &[u8]) -> Option<u16> {
    let object = archive.windows(4).position(|bytes| bytes == b"\x7FELF")?;
    let number = archive.get(object + 18..object + 20)?;
    Some(u16::from_le_bytes([number[0], number[1]]))
}

/// Sees that the static library is there and is for the processor that is built for.
fn checked(file: &Path) -> Result<(), String> {
    let wanted = wanted_machine()?;
    let archive = fs::read(file).map_err(|error| {
        let name = file.display();
        format!(
            "{name}: {error}; bindings/library proves and builds the static library, and \
             GATECOBALT_LIBRARY names the folder of another"
        )
    })?;
    match machine_of(&archive) {
        Some(machine) if machine == wanted => Ok(()),
        Some(_) => {
            let processor = cargo_says("ARCH");
            Err(format!("{}: for another processor than {processor}", file.display()))
        }
        None => Err(format!("{}: no archive of object files", file.display())),
    }
}

/// Tells cargo where the library is; ends with 1 and a reason where it cannot be linked.
fn main() -> ExitCode {
    let folder = folder();
    let file = folder.join(FILE);
    println!("cargo:rerun-if-changed=build.rs");
    println!("cargo:rerun-if-changed={}", file.display());
    if let Err(reason) = checked(&file) {
        eprintln!("gatecobalt: {reason}");
        return ExitCode::FAILURE;
    }
    println!("cargo:rustc-link-search=native={}", folder.display());
    println!("cargo:rustc-link-lib=static=gatecobalt");
    ExitCode::SUCCESS
}
