//! The version of the engine, as its header for hosts in C says it, in the one number that a host gets.

/// The header.
pub const HEADER: &str = include_str!("../../../../include/reference_engine.h");

/// What a header says as REFERENCE_ENGINE_VERSION, `MAJOR.MINOR.PATCH`: a million times the first, a
/// thousand times the second, and the third. None where it says no such version.
pub fn version_number(header: &str) -> Option<u64> {
    let said = header
        .lines()
        .find_map(|line| line.strip_prefix("#define REFERENCE_ENGINE_VERSION \""))?;
    let (version, _) = said.split_once('"')?;
    let numbers: Result<Vec<u64>, _> = version.split('.').map(str::parse).collect();
    match numbers.ok()?[..] {
        [major, minor, patch] if minor < 1_000 && patch < 1_000 => {
            Some(1_000_000 * major + 1_000 * minor + patch)
        }
        _ => None,
    }
}
