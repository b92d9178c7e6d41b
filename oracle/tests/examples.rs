//! The books of examples/: what the original makes of them.

use oracle::book;
use oracle::judge::{Expect, Judge, build_question};
use std::path::Path;

/// The number of types in the tables, or nothing where the book is refused.
fn types(name: &str) -> Option<u16> {
    let path = Path::new(env!("CARGO_MANIFEST_DIR")).join("../examples").join(name).with_extension("book");
    let bytes = std::fs::read(path).expect("the book stands there");
    assert!(book::decode(&bytes).is_some(), "{name} is malformed");
    match Judge::default().answer(&build_question(&bytes)) {
        Some(Expect::Bytes(count)) => Some(u16::from_le_bytes([count[0], count[1]])),
        _ => None,
    }
}

#[test]
fn each_is_as_its_readme_says() {
    assert_eq!(types("chan"), Some(4 + 1));
    assert_eq!(types("gearbox"), Some(4 + 6));
    assert_eq!(types("edges"), Some(4 + 6));
    assert_eq!(types("circular"), None);
}
