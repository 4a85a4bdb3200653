//! The program's output for each pack of `data`, held to the file beside it.
//!
//! Run with `UPDATE_GOLDEN=1` to write the files anew.

use std::path::{Path, PathBuf};
use std::process::{Command, Output};
use std::{env, fs};

fn data() -> PathBuf {
    Path::new(env!("CARGO_MANIFEST_DIR")).join("tests/data")
}

fn run(file: &str) -> Output {
    Command::new(env!("CARGO_BIN_EXE_packreport"))
        .current_dir(data())
        .arg(file)
        .output()
        .expect("the program starts")
}

/// Packs, and whether they pass.
const PACKS: [(&str, bool); 17] = [
    ("passed.pack", true),
    ("passed-one.pack", true),
    ("passed-other.pack", true),
    ("value.pack", false),
    ("modulus.pack", false),
    ("range.pack", false),
    ("keyword.pack", false),
    ("too-many.pack", false),
    ("end.pack", false),
    ("empty.pack", false),
    ("tab.pack", false),
    ("stray.pack", false),
    ("not-utf8.pack", false),
    ("long-line.pack", false),
    ("too-long.pack", false),
    ("clash.pack", false),
    ("clash-exponent.pack", false),
];

#[test]
fn reports() {
    for (file, passes) in PACKS {
        let output = run(file);
        let golden = data().join(file).with_extension("out");
        if env::var_os("UPDATE_GOLDEN").is_some() {
            fs::write(&golden, &output.stdout).unwrap();
        }
        let expected = fs::read_to_string(&golden).unwrap();
        assert_eq!(
            String::from_utf8(output.stdout).unwrap(),
            expected,
            "{file}"
        );
        assert_eq!(
            output.status.code(),
            Some(if passes { 0 } else { 1 }),
            "{file}"
        );
        assert!(output.stderr.is_empty(), "{file}");
    }
}

#[test]
fn no_file() {
    let output = run("no-such.pack");
    assert_eq!(output.status.code(), Some(2));
    assert!(output.stdout.is_empty());
    assert!(String::from_utf8_lossy(&output.stderr).starts_with("cannot read no-such.pack: "));
}

#[test]
fn folder_for_a_file() {
    assert_eq!(run(".").status.code(), Some(2));
}
