//! The source calls `bitflags!` as version 2 asks for it, with a derive line above the struct.
//! Version 1 derives these by itself: this macro drops that line and hands the rest on.

#[doc(hidden)]
pub use one;

/// Version 2's call, forwarded to version 1 without its derive line.
#[macro_export]
macro_rules! bitflags {
    (#[derive($($derived:ident),* $(,)?)] $($rest:tt)*) => {
        $crate::one::bitflags! { $($rest)* }
    };
}
