//! The command as a program that is run: its arguments, its input, what it answers.

use std::cell::Cell;
use std::io::{Read, Write};
use std::path::PathBuf;
use std::process::{Command, Stdio};

/// The command at a path, and a folder for files.
pub struct Tool {
    pub path: String,
    pub work: PathBuf,
    pub runs: Cell<usize>,
}

/// What a run left: exit status, standard output, standard error.
#[derive(Debug)]
pub struct Ran {
    pub code: i32,
    pub out: Vec<u8>,
    pub err: String,
}

impl Tool {
    pub fn new(path: &str, work: &str) -> Tool {
        Tool { path: path.into(), work: work.into(), runs: Cell::new(0) }
    }

    /// Runs it with an input. A thread feeds it, so that neither side waits for the other for ever.
    pub fn run(&self, args: &[&str], input: &[u8]) -> Ran {
        self.runs.set(self.runs.get() + 1);
        let mut command = Command::new(&self.path);
        command.args(args).current_dir(&self.work);
        let pipes = command.stdin(Stdio::piped()).stdout(Stdio::piped()).stderr(Stdio::piped());
        let mut child = pipes.spawn().expect("the command starts");
        let (mut stdin, mut stdout) = (child.stdin.take().unwrap(), child.stdout.take().unwrap());
        let bytes = input.to_vec();
        let feed = std::thread::spawn(move || stdin.write_all(&bytes));
        let mut out = Vec::new();
        stdout.read_to_end(&mut out).unwrap();
        let mut err = String::new();
        child.stderr.take().unwrap().read_to_string(&mut err).expect("messages are text");
        // it need not read all of its input
        let _ = feed.join();
        let status = child.wait().unwrap();
        let code = status.code().unwrap_or_else(|| panic!("{args:?}: {status}"));
        Ran { code, out, err }
    }

    /// Runs it where it has to succeed without a word on standard error: its output.
    pub fn done(&self, args: &[&str], input: &[u8]) -> Vec<u8> {
        let ran = self.run(args, input);
        assert!(ran.code == 0 && ran.err.is_empty(), "{args:?}: {} {}", ran.code, ran.err);
        ran.out
    }

    pub fn text(&self, args: &[&str], input: &[u8]) -> String {
        String::from_utf8(self.done(args, input)).expect("the output is text")
    }

    /// Runs it where nobody reads its output any more: the reader is gone before the input comes.
    pub fn unread(&self, args: &[&str], input: &[u8]) -> i32 {
        self.runs.set(self.runs.get() + 1);
        let mut command = Command::new(&self.path);
        let pipes = command.args(args).stdin(Stdio::piped()).stdout(Stdio::piped()).stderr(Stdio::null());
        let mut child = pipes.spawn().expect("the command starts");
        drop(child.stdout.take());
        child.stdin.take().unwrap().write_all(input).unwrap();
        child.wait().unwrap().code().expect("no signal ends it")
    }

    pub fn read(&self, name: &str) -> Option<Vec<u8>> {
        std::fs::read(self.work.join(name)).ok()
    }

    pub fn write(&self, name: &str, bytes: &[u8]) {
        std::fs::write(self.work.join(name), bytes).unwrap();
    }

    pub fn remove(&self, name: &str) {
        let _ = std::fs::remove_file(self.work.join(name));
    }
}
