//! The package: the lines of the sample record, every refusal, and the views.

mod filing;
mod lookups;
mod packing;
mod refusals;
mod sample;
mod views;
mod walks;

#[test]
fn the_archive_has_the_version_of_the_package() {
    let (major, minor, patch) = celduga::version();
    assert_eq!(format!("{major}.{minor}.{patch}"), env!("CARGO_PKG_VERSION"));
}
