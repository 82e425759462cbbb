//! A module's text taken apart by its line ends: what stands before the first T line, and the pairs.

/// Two lines, a T line and the one behind it, and what they say of where they go.
#[derive(Clone)]
pub struct Pair {
    pub bytes: Vec<u8>,
    pub area: usize,
    pub address: usize,
    pub content: usize,
}

/// A text of form XH3, whole lines only.
pub struct Module {
    pub head: Vec<u8>,
    pub pairs: Vec<Pair>,
}

/// The bytes that a line lists behind its letter.
fn listed(line: &[u8]) -> Option<Vec<usize>> {
    let text = std::str::from_utf8(line).ok()?;
    text.split_whitespace().skip(1).map(|word| usize::from_str_radix(word, 16).ok()).collect()
}

/// The pair that two lines are, if they are a T line and an R line.
fn pair(lines: &[&[u8]]) -> Option<Pair> {
    let [first, second] = lines else { return None };
    if first.first() != Some(&b'T') || second.first() != Some(&b'R') {
        return None;
    }
    let (content, relocation) = (listed(first)?, listed(second)?);
    let [high, middle, low, bytes @ ..] = content.as_slice() else { return None };
    let [_, _, area, index, ..] = relocation.as_slice() else { return None };
    Some(Pair {
        bytes: lines.concat(),
        area: area << 8 | index,
        address: high << 16 | middle << 8 | low,
        content: bytes.len(),
    })
}

impl Module {
    /// A text of whole lines whose lines from the first T line on are pairs.
    pub fn new(text: &[u8]) -> Option<Module> {
        if !text.starts_with(b"XH3") || text.last() != Some(&b'\n') {
            return None;
        }
        let lines: Vec<&[u8]> = text.split_inclusive(|byte| *byte == b'\n').collect();
        let first = lines.iter().position(|line| line[0] == b'T').unwrap_or(lines.len());
        let (head, rest) = lines.split_at(first);
        let pairs = rest.chunks(2).map(pair).collect::<Option<Vec<Pair>>>()?;
        Some(Module { head: head.concat(), pairs })
    }

    /// The text with its pairs in an order.
    pub fn text(&self, order: &[usize]) -> Vec<u8> {
        let mut text = self.head.clone();
        for number in order {
            text.extend_from_slice(&self.pairs[*number].bytes);
        }
        text
    }
}
