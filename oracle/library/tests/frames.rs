//! Frames: a stream of two, and every cut of it.
use oracle::{read_frame, write_frame};
use std::io::{ErrorKind, Result};

/// All texts of a stream.
fn texts(mut stream: &[u8]) -> Result<Vec<Vec<u8>>> {
    let mut all = Vec::new();
    while let Some(text) = read_frame(&mut stream)? {
        all.push(text);
    }
    Ok(all)
}

#[test]
fn a_stream_ends_only_behind_a_frame() {
    let (frames, mut stream, mut ends) = ([b"XH3\n".to_vec(), Vec::new()], Vec::new(), vec![0]);
    for text in &frames {
        write_frame(&mut stream, text).expect("a stream in memory");
        ends.push(stream.len());
    }
    for cut in 0..=stream.len() {
        match (ends.iter().position(|end| *end == cut), texts(&stream[..cut])) {
            (Some(count), Ok(found)) => assert_eq!(found, frames[..count]),
            (None, Err(error)) => assert_eq!(error.kind(), ErrorKind::UnexpectedEof),
            (end, found) => panic!("cut at {cut}, an end {end:?}: {found:?}"),
        }
    }
}
