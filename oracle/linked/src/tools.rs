//! SDCC's assembler and linker, the linker's map and the linked bytes.
use crate::program::{Program, AREAS};
use std::collections::BTreeMap;
use std::fs;
use std::path::Path;
use std::process::{Command, Stdio};

/// A linked program: each module's text, each label's address, and each address's byte.
pub struct Linked {
    pub modules: Vec<Vec<u8>>,
    pub labels: BTreeMap<String, u64>,
    pub bytes: BTreeMap<u64, u8>,
}

/// Runs a tool in a folder. What it warns of is no failure: a negative offset, or a page that is left.
fn run(folder: &Path, words: &[String]) {
    let mut command = Command::new(&words[0]);
    let quiet =
        command.args(&words[1..]).current_dir(folder).stdout(Stdio::null()).stderr(Stdio::piped());
    let output = quiet.output().expect("the tool does not start");
    let told = String::from_utf8_lossy(&output.stderr).into_owned();
    assert!(!told.contains("Error"), "{words:?}: {told}");
}

/// The words of a command.
fn words(of: &[&str]) -> Vec<String> {
    of.iter().map(ToString::to_string).collect()
}

/// Assembles and links a program in a folder.
pub fn link(folder: &Path, program: &Program) -> Linked {
    let _ = fs::remove_dir_all(folder);
    fs::create_dir_all(folder).expect("a folder");
    let assembler = if program.flat { "sdas390" } else { "sdas8051" };
    for (name, text) in &program.modules {
        fs::write(folder.join(format!("{name}.asm")), text).expect("a module's text");
        run(folder, &words(&[assembler, "-og", &format!("{name}.asm")]));
    }
    let mut linker = words(&["sdld", "-n", "-i", "-m", "-w"]);
    for (area, base) in AREAS.iter().zip(program.bases) {
        linker.extend(words(&["-b", &format!("{area}=0x{base:X}")]));
    }
    linker.push("out".into());
    linker.extend(program.modules.iter().map(|(name, _)| name.clone()));
    run(folder, &linker);
    let module = |(name, _): &(String, String)| {
        fs::read(folder.join(format!("{name}.rel"))).expect("an object module")
    };
    let read = |name: &str| fs::read_to_string(folder.join(name)).expect("the linker's output");
    Linked {
        modules: program.modules.iter().map(module).collect(),
        labels: labels(&read("out.map")),
        bytes: bytes(&read("out.ihx")),
    }
}

/// The labels of a map: lines of an optional `C:`, a value of eight digits and a name.
fn labels(map: &str) -> BTreeMap<String, u64> {
    let entry = |line: &str| {
        let mut fields = line.split_whitespace().skip_while(|field| *field == "C:");
        let value = fields.next().filter(|field| field.len() == 8)?;
        let value = u64::from_str_radix(value, 16).ok()?;
        Some((fields.next()?.to_string(), value))
    };
    map.lines().filter_map(entry).collect()
}

/// The bytes of Intel hex records, with the high halves of their addresses.
fn bytes(records: &str) -> BTreeMap<u64, u8> {
    let mut all = BTreeMap::new();
    let mut high = 0;
    for line in records.lines().filter_map(|line| line.strip_prefix(':')) {
        let digits: Vec<u8> = (0..line.len() / 2)
            .map(|i| u8::from_str_radix(&line[2 * i..2 * i + 2], 16).expect("hex digits"))
            .collect();
        let address = u64::from(digits[1]) << 8 | u64::from(digits[2]);
        let data = &digits[4..4 + usize::from(digits[0])];
        match digits[3] {
            0 => all.extend((high + address..).zip(data.iter().copied())),
            4 => high = u64::from(data[0]) << 24 | u64::from(data[1]) << 16,
            _ => {}
        }
    }
    all
}
