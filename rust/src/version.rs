//! The version of the linked library.

use crate::ffi;

/// The version of the linked library: its major, minor and patch number. It is the package's own.
///
/// # Examples
///
/// ```
/// let (major, minor, patch) = celduga::version();
/// println!("celduga {major}.{minor}.{patch}");
/// ```
#[must_use]
pub fn version() -> (u16, u8, u8) {
    let number = ffi::version();
    ((number >> 16) as u16, (number >> 8) as u8, number as u8)
}
