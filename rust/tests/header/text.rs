//! Texts of the repository.
use std::fs;
use std::path::{Path, PathBuf};

pub fn top() -> PathBuf {
    Path::new(env!("CARGO_MANIFEST_DIR")).join("..")
}

pub fn text(path: &Path) -> String {
    fs::read_to_string(path).unwrap_or_else(|error| panic!("{}: {error}", path.display()))
}

/// The text without what stands between an opening and the next closing mark.
pub fn without(text: &str, opening: &str, closing: &str) -> String {
    let mut parts = text.split(opening);
    let mut kept = parts.next().unwrap_or_default().to_string();
    for part in parts {
        let (_, rest) = part.split_once(closing).expect("a comment that ends");
        kept.push('\n');
        kept.push_str(rest);
    }
    kept
}

pub fn header() -> String {
    text(&top().join("include/lta.h"))
}
