//! Running a program that the repository builds.

use std::io::Write;
use std::path::PathBuf;
use std::process::{Command, Stdio};

/// What the program `name` writes when it is given `input`.
pub fn output(name: &str, input: &str) -> String {
    let runner: PathBuf = [env!("CARGO_MANIFEST_DIR"), "..", "..", ".ci", "program"].iter().collect();
    let mut child = Command::new(&runner)
        .arg(name)
        .stdin(Stdio::piped())
        .stdout(Stdio::piped())
        .spawn()
        .unwrap_or_else(|e| panic!("{}: {e}", runner.display()));
    let mut stdin = child.stdin.take().unwrap();
    let bytes = input.as_bytes().to_vec();
    let writer = std::thread::spawn(move || stdin.write_all(&bytes));
    let out = child.wait_with_output().unwrap();
    let written = writer.join().unwrap();
    assert!(out.status.success(), "{name} ended with {}; `rt check {name}` builds it", out.status);
    written.unwrap();
    String::from_utf8(out.stdout).unwrap()
}
