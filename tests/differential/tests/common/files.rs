//! The samples that the repository keeps, as files.

use std::fs;
use std::path::{Path, PathBuf};

pub fn folder() -> PathBuf {
    PathBuf::from(env!("CARGO_MANIFEST_DIR")).join("../../crates/samples")
}

pub fn rows(list: &str) -> Vec<Vec<String>> {
    fields(&folder().join("data").join(list))
}

/// The words of each line of a list.
pub fn fields(list: &Path) -> Vec<Vec<String>> {
    let text = fs::read_to_string(list).expect("a readable list");
    let words = |line: &str| line.split(' ').map(String::from).collect();
    text.lines().map(words).collect()
}

pub fn sheet(name: &str) -> Vec<u8> {
    fs::read(folder().join("data").join(name)).expect("a readable sheet")
}

fn entries(folder: &Path) -> impl Iterator<Item = PathBuf> {
    let entries = fs::read_dir(folder).expect("a folder of samples");
    entries.map(|entry| entry.expect("an entry").path())
}

/// The sheets of a bundle, which stand one behind the other, with the lines of its list: name, length, what else is
/// said of the sheet, and until when the answer holds, if it is to change.
pub fn bundle(name: &str) -> Vec<(String, Vec<u8>)> {
    let bundle = sheet(&format!("{name}.sheets"));
    let mut left = &bundle[..];
    let mut sheets = Vec::new();
    for row in rows(&format!("{name}.list")) {
        let (sheet, behind) = left.split_at(row[1].parse().expect("a length"));
        sheets.push((row.join(" "), sheet.to_vec()));
        left = behind;
    }
    assert!(left.is_empty());
    sheets
}

/// The sheets of the bundles that are only admitted.
pub fn bundled() -> Vec<(String, Vec<u8>)> {
    ["normalisation", "motives"].map(bundle).concat()
}

/// All sample sheets, those in folders of their own and in bundles among them, with their paths.
pub fn sheets() -> Vec<(PathBuf, Vec<u8>)> {
    let data = folder().join("data");
    let inner = entries(&data).filter(|path| path.is_dir());
    let read = |path: PathBuf| {
        let sheet = fs::read(&path).expect("a readable sheet");
        (path, sheet)
    };
    let named = |path: &PathBuf| path.extension().is_some_and(|end| end == "sheet");
    let paths = entries(&data).chain(inner.flat_map(|path| entries(&path)));
    let bundled = [bundled(), bundle("conversion")].concat();
    let bundled = bundled
        .into_iter()
        .map(|(line, sheet)| (line.into(), sheet));
    paths.filter(named).map(read).chain(bundled).collect()
}
