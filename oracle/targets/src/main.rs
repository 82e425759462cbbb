//! Holds the port's modes and targets against the unchanged Rust's, and its corrected targets against a
//! second writing of their rule, times them, and records a sample of the Rust's answers.
mod cases;
mod compare;
mod port;
mod record;
mod rule;
mod time;

/// The sub-command and the seed.
fn main() {
    let words: Vec<String> = std::env::args().skip(1).collect();
    let seed = words.get(1).map_or(1, |word| word.parse().expect("the seed is no number"));
    match words.first().map(String::as_str) {
        Some("compare") => compare::all(seed),
        Some("time") => time::all(seed),
        Some("record") => record::all(seed),
        _ => {
            eprintln!("usage: targets compare|time|record [SEED]");
            std::process::exit(2);
        }
    }
}
