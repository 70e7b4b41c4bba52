//! The fixed tests: hex text in, the lines beside it out.

use std::fs::{self, File};
use std::path::{Path, PathBuf};
use std::process::{Command, Output, Stdio};

fn second(command: &str, input: &Path) -> Output {
    Command::new(env!("CARGO_BIN_EXE_second"))
        .arg(command)
        .stdin(Stdio::from(File::open(input).unwrap()))
        .output()
        .unwrap()
}

/// Runs each `.hex` of a folder through a command and holds the lines against those beside it.
fn run_all(folder: &str, command: &str, ending: &str) {
    let fixed = Path::new(env!("CARGO_MANIFEST_DIR"))
        .join("../tests")
        .join(folder);
    let files = fs::read_dir(fixed)
        .unwrap()
        .map(|entry| entry.unwrap().path());
    let tests: Vec<PathBuf> = files
        .filter(|path| path.extension().is_some_and(|end| end == "hex"))
        .collect();
    assert!(!tests.is_empty());
    for test in tests {
        let name = test.file_stem().unwrap().to_string_lossy();
        let bytes = Path::new(env!("CARGO_TARGET_TMPDIR")).join(format!("{command}-{name}"));
        fs::write(&bytes, second("bytes", &test).stdout).unwrap();
        let lines = String::from_utf8(second(command, &bytes).stdout).unwrap();
        let expected = fs::read_to_string(test.with_extension(ending)).unwrap();
        assert_eq!(lines, expected, "{folder}/{name}");
    }
}

#[test]
fn tapes() {
    run_all("tapes", "listing", "out");
}

#[test]
fn reports() {
    run_all("tapes", "report", "report");
}

#[test]
fn scripts() {
    run_all("scripts", "bench", "out");
}
