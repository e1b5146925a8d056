//! The version that a header says.

use independent::model::version::{version_number, HEADER};

fn said(version: &str) -> Option<u64> {
    version_number(&format!(
        "#define OTHER 1\n#define REFERENCE_ENGINE_VERSION {version} /* .. */\n"
    ))
}

#[test]
fn three_numbers_in_one() {
    assert_eq!(said("\"1.2.3\""), Some(1_002_003));
    assert_eq!(said("\"0.0.0\""), Some(0));
    assert_eq!(said("\"12.999.999\""), Some(12_999_999));
}

#[test]
fn no_version() {
    for version in [
        "\"1.2\"",
        "\"1.2.3.4\"",
        "\"1.1000.0\"",
        "\"1.0.1000\"",
        "\"1.2.x\"",
        "\"1.2.3",
        "1.2.3",
        "\"\"",
    ] {
        assert_eq!(said(version), None, "{version}");
    }
    assert_eq!(version_number(""), None);
}

#[test]
fn the_header_says_one() {
    assert!(version_number(HEADER).is_some());
}
