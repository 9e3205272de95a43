//! The scripts of the program `scripts`, over the model and over the library: what `names` is to print, to the letter.

use std::fs;
use std::path::{Path, PathBuf};
use wort_host::{names, Calls, Library, Model};

fn scripts() -> Vec<PathBuf> {
    let dir = Path::new(env!("CARGO_MANIFEST_DIR")).join("../crates/scripts/data");
    let mut scripts: Vec<PathBuf> = fs::read_dir(&dir)
        .expect("the folder of the scripts")
        .map(|entry| entry.expect("a readable directory").path())
        .filter(|path| path.extension().is_some_and(|end| end == "in"))
        .collect();
    scripts.sort();
    assert!(!scripts.is_empty(), "{} holds no script", dir.display());
    scripts
}

fn agrees(calls: &impl Calls) {
    for script in scripts() {
        let input = fs::read(&script).expect("a readable script");
        let wanted = fs::read_to_string(script.with_extension("out")).expect("its output");
        let printed = names::run(calls, &input);
        for (i, (got, want)) in printed.lines().zip(wanted.lines()).enumerate() {
            assert_eq!(got, want, "{}: line {} printed", script.display(), i + 1);
        }
        assert_eq!(printed, wanted, "{}", script.display());
    }
}

#[test]
fn the_model_prints_what_the_scripts_want() {
    agrees(&Model);
}

#[test]
fn the_library_prints_what_the_scripts_want() {
    agrees(&Library);
}
