//! The scripts of the folder `traffic`: each gives exactly what stands beside it.

use std::fs;
use std::path::{Path, PathBuf};

fn compare(script: &Path) {
    let name = script.display();
    let expected = fs::read_to_string(script.with_extension("expected")).unwrap();
    let mut output = Vec::new();
    second::script::run(fs::read(script).unwrap().as_slice(), &mut output).unwrap();
    let output = String::from_utf8(output).unwrap();
    for (place, (line, wanted)) in output.lines().zip(expected.lines()).enumerate() {
        assert_eq!(line, wanted, "{name}, answer {}", place + 1);
    }
    assert_eq!(output, expected, "{name}");
}

#[test]
fn every_script_gives_what_stands_beside_it() {
    let folder = Path::new(env!("CARGO_MANIFEST_DIR")).join("../traffic");
    let files = fs::read_dir(folder).unwrap();
    let mut scripts: Vec<PathBuf> = files
        .map(|file| file.unwrap().path())
        .filter(|path| path.extension().is_some_and(|end| end == "txt"))
        .collect();
    scripts.sort();
    assert!(scripts.len() >= 6);
    for script in scripts {
        compare(&script);
    }
}
