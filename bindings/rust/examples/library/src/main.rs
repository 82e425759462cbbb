//! Lists what SDCC libraries hold: `library LIBRARY..`. What is not whole goes to standard error; ends
//! with 0 if everything is whole, with 1 if not, with 2 without a name.
use library::Library;
use std::process::ExitCode;

/// Prints a library's counts, and what is not whole; answers whether all is.
fn list(name: &str, library: &Library) -> bool {
    let fixups: usize = library.segments.iter().map(|segment| segment.fixups.len()).sum();
    let (modules, segments) = (library.modules, library.segments.len());
    println!("{name}: {modules} modules, {segments} segments, {fixups} fixups");
    for (member, fault) in &library.faults {
        match member {
            Some(member) => eprintln!("{name}({member}): {fault}"),
            None => eprintln!("{name}: {fault}"),
        }
    }
    library.faults.is_empty()
}

fn main() -> ExitCode {
    let (paths, mut whole) = (std::env::args_os().skip(1).collect::<Vec<_>>(), true);
    for path in &paths {
        let name = path.to_string_lossy().escape_debug().to_string();
        whole &= match std::fs::read(path) {
            Ok(bytes) => list(&name, &Library::read(&bytes)),
            Err(error) => {
                eprintln!("{name}: {error}");
                false
            }
        };
    }
    match (paths.is_empty(), whole) {
        (true, _) => {
            eprintln!("usage: library LIBRARY..");
            ExitCode::from(2)
        }
        (_, true) => ExitCode::SUCCESS,
        (_, false) => ExitCode::FAILURE,
    }
}
