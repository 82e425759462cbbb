//! A fixup's mode and number, read from the bytes that the source's closure captured. Where they
//! lie is found at start-up from closures with known modes and numbers.
use crate::find::probe;
use crate::quiet::quietly;
use std::any::TypeId;
use std::cell::Cell;
use std::sync::OnceLock;

/// Where a closure's mode and number lie in its bytes.
#[derive(Clone, Copy)]
struct Places {
    closure: TypeId,
    mode: usize,
    number: usize,
}

/// What calibrating found.
static PLACES: OnceLock<Places> = OnceLock::new();

thread_local! {
    /// Fixups made on this thread.
    static MADE: Cell<usize> = const { Cell::new(0) };
}

/// Modes and numbers of which no two share a byte place by chance.
pub const SAMPLES: [(u16, usize); 6] = [
    (0x000, 0),
    (0x7FF, 0xFF_FFFF),
    (0x013, 0x12_3456),
    (0x4A5, 0x65_4321),
    (0x35A, 0xA5_5A3C),
    (0x108, 0x00_00C7),
];

/// A number of up to eight bytes that lies at a place of a value, lowest byte first.
fn bytes_at<F>(value: &F, place: usize, count: usize) -> usize {
    assert!(place + count <= size_of::<F>());
    let start = std::ptr::from_ref(value).cast::<u8>();
    // SAFETY: the place and the bytes behind it lie inside the value, as was just seen. While places are
    // searched for, a byte between two captured values may be read, of which the language says nothing:
    // the volatile read gives what the memory holds, and a place counts only where every sample has its
    // known number.
    let byte = |at| usize::from(unsafe { start.add(place + at).read_volatile() });
    (0..count).rev().fold(0, |sum, at| sum << 8 | byte(at))
}

/// The one place where every sample has its known number.
fn only_place<F>(samples: &[(usize, &F)], count: usize) -> Option<usize> {
    let last = size_of::<F>().checked_sub(count)?;
    let fits = |at: &usize| samples.iter().all(|(known, f)| bytes_at(*f, *at, count) == *known);
    let mut found = (0..=last).filter(fits);
    found.next().filter(|_| found.next().is_none())
}

/// Finds mode and number in closures made with `SAMPLES`.
fn find<F: 'static>(closures: &[F]) -> Option<Places> {
    let modes: Vec<_> = SAMPLES.iter().map(|known| usize::from(known.0)).zip(closures).collect();
    let numbers: Vec<_> = SAMPLES.iter().map(|known| known.1).zip(closures).collect();
    Some(Places {
        closure: TypeId::of::<F>(),
        mode: only_place(&modes, size_of::<u16>())?,
        number: only_place(&numbers, size_of::<usize>())?,
    })
}

/// Calibrates once; ends the program where that fails or where sums do not wrap.
pub fn ready() {
    PLACES.get_or_init(|| {
        let wraps = quietly(|| probe::target(0x05, true, 0x80, &[0x05], 0x10));
        assert!(
            cfg!(target_endian = "little") && wraps == Ok(Some(0xFF76)),
            "the source has to be built in release mode for a little machine of 64 bits"
        );
        find(&probe::closures(&SAMPLES)).expect("mode and number not found in the source's closure")
    });
}

/// The mode and number that a closure captured; counts the closures seen.
pub fn take<F: 'static>(closure: &F) -> (u16, usize) {
    let places = PLACES.get().expect("not calibrated");
    assert!(places.closure == TypeId::of::<F>(), "a closure of another type");
    MADE.set(MADE.get() + 1);
    let mode = bytes_at(closure, places.mode, size_of::<u16>());
    (mode as u16, bytes_at(closure, places.number, size_of::<usize>()))
}

/// How many fixups were made on this thread since the last call.
pub fn made() -> usize {
    MADE.replace(0)
}
