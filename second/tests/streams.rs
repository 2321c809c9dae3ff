//! The kinds of `scripts/streams.txt`, through the program `streams`: what each hands out.

use std::fs::{self, File};
use std::path::{Path, PathBuf};
use std::process::{Command, Stdio};

fn kinds() -> PathBuf {
    Path::new(env!("CARGO_MANIFEST_DIR")).join("../scripts/streams.txt")
}

/// What the program prints behind the nanoseconds.
fn told(words: &[&str], input: Stdio) -> String {
    let program = env!("CARGO_BIN_EXE_streams");
    let run = Command::new(program).args(words).stdin(input).output();
    let text = String::from_utf8(run.unwrap().stdout).unwrap();
    let mut words = text.trim_end().splitn(3, ' ');
    assert_eq!(words.next(), Some("3"));
    assert!(words.next().unwrap().parse::<u128>().is_ok());
    words.next().unwrap().to_string()
}

#[test]
fn every_kind_three_times() {
    let expected = [
        (
            "a packet of 30 bytes, whole",
            "fed 90 packets 3 bytes 90 held 0",
        ),
        (
            "a packet of 30 bytes, byte by byte",
            "fed 90 packets 3 bytes 90 held 0",
        ),
        (
            "a packet of 512 bytes, byte by byte",
            "fed 1536 packets 3 bytes 1536 held 0",
        ),
        (
            "noise, 1,024 bytes of 00h",
            "fed 3072 packets 0 bytes 0 held 0",
        ),
        (
            "noise, 1,024 bytes of 03h",
            "fed 3072 packets 0 bytes 0 held 1",
        ),
        (
            "34 packets of 30 bytes, in one piece",
            "fed 3060 packets 102 bytes 3060 held 0",
        ),
    ];
    let text = fs::read_to_string(kinds()).unwrap();
    let lines: Vec<&str> = text.lines().filter(|line| !line.starts_with('#')).collect();
    assert_eq!(lines.len(), expected.len());
    for (line, (name, wanted)) in lines.iter().zip(expected) {
        let fields: Vec<&str> = line.split('|').collect();
        assert_eq!((fields.len(), fields[0]), (3, name));
        let by_name = told(&["3", name], File::open(kinds()).unwrap().into());
        assert_eq!(by_name, wanted);
        let in_one_word = told(&["3", fields[1], fields[2]], Stdio::null());
        assert_eq!(in_one_word, wanted);
        let mut words = vec!["3", fields[1]];
        words.extend(fields[2].split(' '));
        assert_eq!(told(&words, Stdio::null()), wanted);
    }
}

#[test]
fn what_is_no_stream_is_refused() {
    for words in [
        &["3"][..],
        &["0", "1", "00"],
        &["3", "0", "00"],
        &["3", "1", "0"],
        &["3", "two"],
    ] {
        let program = env!("CARGO_BIN_EXE_streams");
        let run = Command::new(program)
            .args(words)
            .stdin(Stdio::null())
            .output();
        assert_eq!(run.unwrap().status.code(), Some(2), "{words:?}");
    }
}
