//! What writing costs beside reading.
use crate::check::rows_of;
use gatecobalt::Reader;

extern "C" {
    /// The processor time of this process, in microseconds.
    fn clock() -> i64;
}

/// Rounds, of which the middle is told.
const ROUNDS: usize = 21;

/// The middle of some rounds, in seconds of processor time.
fn middle(mut round: impl FnMut()) -> f64 {
    // SAFETY: nothing is passed, and a number comes back.
    let now = || unsafe { clock() };
    let mut times: Vec<f64> = (0..ROUNDS)
        .map(|_| {
            let start = now();
            round();
            (now() - start) as f64 / 1e6
        })
        .collect();
    times.sort_by(f64::total_cmp);
    times[ROUNDS / 2]
}

/// Bytes a second: the ended reading of the modules, and writing them from their rows.
pub fn bench(real: &[Vec<u8>]) -> bool {
    let mut reader = Reader::new();
    let rows: Vec<_> = real.iter().filter_map(|text| rows_of(&mut reader, text)).collect();
    let texts: Vec<Vec<u8>> =
        rows.iter().map(|rows| rows.rows().write().expect("given back")).collect();
    let bytes: usize = texts.iter().map(Vec::len).sum();
    let mut out = vec![0; 65536];
    let written = middle(|| {
        rows.iter().for_each(|rows| {
            assert!(std::hint::black_box(rows.rows().write_into(&mut out).is_ok()))
        })
    });
    let read = middle(|| {
        texts.iter().for_each(|text| assert!(std::hint::black_box(reader.whole(text).is_ok())))
    });
    println!(
        "{} texts of {bytes} bytes: read at {:.1}, written at {:.1} million bytes a second, {:.2} of the reading",
        texts.len(), bytes as f64 / read / 1e6, bytes as f64 / written / 1e6, read / written
    );
    true
}
