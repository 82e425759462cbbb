//! The texts that are read.
use std::io::Result;

/// The longest text.
const LONGEST: usize = 65_536;

/// Named texts.
pub struct Set {
    pub name: String,
    pub texts: Vec<Vec<u8>>,
}

impl Set {
    /// A set of one text.
    fn one(name: &str, text: Vec<u8>) -> Self {
        Set { name: format!("{name} ({} bytes)", text.len()), texts: vec![text] }
    }

    /// Bytes of all its texts.
    pub fn bytes(&self) -> usize {
        self.texts.iter().map(Vec::len).sum()
    }
}

/// A text of exactly the longest length: lines like a compiler's, up to the last byte.
fn longest() -> Vec<u8> {
    let head = "XH3\nH 2 areas 2 global symbols\n";
    let tables = "S _put Ref000000\nA CSEG size 8000 flags 20 addr 0\nS _go Def000000\n";
    let pair = |number: usize| {
        let address = format!("{:02X} {:02X}", number * 8 % 0x8000 / 256, number * 8 % 256);
        let fragments = if number % 4 == 0 { " 00 08 00 00" } else { "" };
        let content = "90 00 00 E0 F5 82 22 12";
        format!("T 00 {address} {content}\nR 00 00 00 00{fragments}\n")
    };
    let mut pairs = String::new();
    for number in 0.. {
        let next = pair(number);
        if head.len() + tables.len() + pairs.len() + next.len() + 4 > LONGEST {
            break;
        }
        pairs.push_str(&next);
    }
    let left = LONGEST - head.len() - tables.len() - pairs.len() - 3;
    format!("{head}M {}\n{tables}{pairs}", "m".repeat(left)).into_bytes()
}

/// All real modules; the smallest, the median and the largest of them; and a text of 65,536 bytes.
pub fn sets() -> Result<Vec<Set>> {
    let folder = std::env::var("ORACLE_REAL").map_err(std::io::Error::other)?;
    let mut real = Vec::new();
    for entry in std::fs::read_dir(folder)? {
        real.push(std::fs::read(entry?.path())?);
    }
    real.sort();
    real.sort_by_key(Vec::len);
    let ranked = |at: usize| real[at].clone();
    let sets = vec![
        Set::one("smallest", ranked(0)),
        Set::one("median", ranked(real.len() / 2)),
        Set::one("largest", ranked(real.len() - 1)),
        Set::one("made", longest()),
    ];
    let all = Set { name: format!("all {} real", real.len()), texts: real };
    Ok([all].into_iter().chain(sets).collect())
}
