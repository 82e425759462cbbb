//! Many texts in one stream: each is its length, four bytes with the lowest first, then its bytes.
use std::io::{ErrorKind, Read, Result, Write};

/// So many bytes of a stream, or fewer where it ends.
fn up_to(from: &mut impl Read, count: u64) -> Result<Vec<u8>> {
    let mut bytes = Vec::new();
    from.take(count).read_to_end(&mut bytes)?;
    Ok(bytes)
}

/// The next text of a stream, or none at its end. A stream that ends inside a frame, in its length or
/// in its text, is an error.
pub fn read_frame(from: &mut impl Read) -> Result<Option<Vec<u8>>> {
    let length = up_to(from, 4)?;
    if length.is_empty() {
        return Ok(None);
    }
    let length: [u8; 4] = length.try_into().map_err(|_| ErrorKind::UnexpectedEof)?;
    let length = u64::from(u32::from_le_bytes(length));
    let text = up_to(from, length)?;
    if text.len() as u64 == length {
        Ok(Some(text))
    } else {
        Err(ErrorKind::UnexpectedEof.into())
    }
}

/// Writes a text behind its length.
pub fn write_frame(to: &mut impl Write, text: &[u8]) -> Result<()> {
    let length = u32::try_from(text.len()).map_err(|_| ErrorKind::InvalidInput)?;
    to.write_all(&length.to_le_bytes())?;
    to.write_all(text)
}
