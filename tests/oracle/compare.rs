//! Comparison of what a compiled program prints with what the oracle says.

use std::io::{Read, Write};
use std::process::{Command, Stdio};

/// What a program writes for an input. A thread feeds it, so that neither side waits for the other for ever.
fn output_of(command: &[String], input: &[u8]) -> String {
    let mut child = Command::new(&command[0])
        .args(&command[1..])
        .stdin(Stdio::piped())
        .stdout(Stdio::piped())
        .spawn()
        .expect("the program starts");
    let mut stdin = child.stdin.take().unwrap();
    let bytes = input.to_vec();
    let feed = std::thread::spawn(move || stdin.write_all(&bytes));
    let mut text = String::new();
    child.stdout.take().unwrap().read_to_string(&mut text).expect("the program writes text");
    assert!(child.wait().unwrap().success(), "the program fails");
    // a program that refuses a plan need not read the rest
    let _ = feed.join();
    text
}

/// Runs the program on the input; where its output is not the expected one, keeps the input and panics.
pub fn same_output(command: &[String], input: &[u8], expected: &str, name: &str) {
    let written = output_of(command, input);
    if written != expected {
        let kept = std::env::temp_dir().join("muruapy-differing-input");
        std::fs::write(&kept, input).unwrap();
        let line = expected.lines().zip(written.lines()).position(|(a, b)| a != b);
        panic!("{name}: the outputs differ, first in line {line:?} (from 0); the input is in {}", kept.display());
    }
}
