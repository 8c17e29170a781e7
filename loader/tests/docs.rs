//! The documents beside the code: an example for each public type, and a version that moves.

use std::fs;
use std::path::Path;

const HERE: &str = env!("CARGO_MANIFEST_DIR");

#[test]
fn every_public_type_has_an_example() {
    let mut types = 0;
    for file in fs::read_dir(Path::new(HERE).join("src")).unwrap() {
        let path = file.unwrap().path();
        if path.is_dir() {
            continue;
        }
        let text = fs::read_to_string(&path).unwrap();
        let mut example = false;
        for line in text.lines().map(str::trim_start) {
            if line.starts_with("pub struct ") || line.starts_with("pub enum ") {
                assert!(example, "{}: {line}", path.display());
                types += 1;
            }
            // A comment and attributes stand right before their type.
            match line.starts_with("///") {
                true => example |= line == "/// ```",
                false => example &= line.starts_with("#["),
            }
        }
    }
    assert!(types > 20, "{types}");
}

/// The newest entry of the changelog is the crate's version and names the archive's.
#[test]
fn the_changelog_has_this_version() {
    let text = fs::read_to_string(Path::new(HERE).join("CHANGELOG.md")).unwrap();
    let newest = text.lines().find(|line| line.starts_with("## ")).unwrap();
    let version = format!("## {}, archive {}", env!("CARGO_PKG_VERSION"), rest_spread::ARCHIVE);
    assert_eq!(newest, version);
}

/// What the page says that the command prints for the first tree.
#[test]
fn the_readme_shows_what_is_printed() {
    let text = fs::read_to_string(Path::new(HERE).join("README.md")).unwrap();
    let file = "../crates/treecheck/stdin";
    let ran = std::process::Command::new(env!("CARGO_BIN_EXE_loader")).arg(file).current_dir(HERE).output().unwrap();
    assert!(text.contains(&String::from_utf8(ran.stdout).unwrap()));
}
