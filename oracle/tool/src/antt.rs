//! Statements of the project's prover, as text.
use std::fmt::Write;

/// A statement: what the definition computes, and what the Rust answered.
pub struct Statement {
    pub name: String,
    pub computed: String,
    pub answered: Vec<Vec<u64>>,
}

/// A row of numbers.
pub fn row(numbers: &[u64]) -> String {
    let mut out = String::from("(");
    for number in numbers {
        let _ = write!(out, "{number} ∷ ");
    }
    out + "[])"
}

/// Rows of numbers.
fn rows(rows: &[Vec<u64>]) -> String {
    rows.iter().map(|numbers| row(numbers) + " ∷ ").collect::<String>() + "[]"
}

/// A truth value.
pub fn truth(value: bool) -> &'static str {
    if value {
        "true"
    } else {
        "false"
    }
}

/// Whether a byte can stand between quotes.
fn quotable(byte: u8) -> bool {
    matches!(byte, b'\n' | b'\r' | b'\t' | b' '..=b'~')
}

/// A run of bytes that can stand between quotes, or of others, as a list of numbers.
fn part(bytes: &[u8]) -> String {
    if !quotable(bytes[0]) {
        return row(&bytes.iter().map(|byte| u64::from(*byte)).collect::<Vec<_>>());
    }
    let quoted: String =
        bytes.iter().flat_map(|byte| byte.escape_ascii()).map(char::from).collect();
    format!("bytes_of \"{}\"", quoted.replace("\\'", "'"))
}

/// A text as a list of numbers.
pub fn text(bytes: &[u8]) -> String {
    let parts: Vec<_> = bytes.chunk_by(|a, b| quotable(*a) == quotable(*b)).map(part).collect();
    if parts.is_empty() {
        "[]".into()
    } else {
        format!("({})", parts.join(" ++ "))
    }
}

/// What every file of statements uses.
const USES: &str = "use Rattle.std.specs.Prelude.{ℕ, ◌≡◌, refl, true, false, List, [], ◌∷◌, ◌++◌, map}
use Rattle.format.specs.Number.{number, byte}
use Rattle.format.specs.Pairs.{mode_of}
use Rattle.format.specs.Mode.{class_number_of, touched, on_site}
use Rattle.format.specs.ModeStep.{step_values, step_masks, step_keeps_of, step_number}
use Rattle.format.specs.Target.{target}
use Rattle.format.specs.Text.{bytes_of}
use Rattle.format.specs.Evaluate.{evaluate}
";

/// A file of statements; the crate's name is where its helpers stand.
pub fn file(crate_name: &str, statements: &[Statement]) -> String {
    let mut out = String::from(USES);
    let helpers = "rows whole outcome taken";
    let listed = helpers.replace(' ', ", ");
    let _ = writeln!(out, "use Rattle.{crate_name}.specs.Given.{{{listed}}}");
    for Statement { name, computed, answered } in statements {
        let answered = rows(answered);
        let _ = write!(out, "\npub {name} : {computed} ≡ {answered}\n");
        let _ = write!(out, "unfolding evaluate bytes_of {helpers}\n{name} = refl\n");
    }
    out
}
