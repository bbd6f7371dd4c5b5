//! What the tests of the command share.
#![allow(dead_code)]

use std::fs;
use std::io::Write;
use std::path::{Path, PathBuf};
use std::process::{Command, Output, Stdio};

/// The rules' listing: its bytes and its lines.
pub const CLIP: [u8; 13] = [0, 0, 0, 1, 0x65, 0x88, 0x84, 0xA0, 0, 0, 1, 0x09, 0xF0];
pub const LISTING: &str = "\
unit place=4 length=4 slice type=7 frame=0 qp=26
unit place=11 length=2 other type=9
end units=2 refused=0
";
pub const SETS: &str = "sps:0:1:0:0:4:2:0:0:1:99 pps:0:0:0:0:0:0:0:0:0:0:0:0:0";

pub fn tuz(words: &[&str], input: &[u8]) -> Output {
    run(Command::new(env!("CARGO_BIN_EXE_tuz")).args(words), input)
}

pub fn run(command: &mut Command, input: &[u8]) -> Output {
    let mut child = command
        .stdin(Stdio::piped())
        .stdout(Stdio::piped())
        .stderr(Stdio::piped())
        .spawn()
        .unwrap();
    let _closed_early = child.stdin.take().unwrap().write_all(input);
    child.wait_with_output().unwrap()
}

pub fn out(done: &Output) -> String {
    String::from_utf8(done.stdout.clone()).unwrap()
}

pub fn err(done: &Output) -> String {
    String::from_utf8(done.stderr.clone()).unwrap()
}

/// A file of a test's own.
pub fn file(name: &str, bytes: &[u8]) -> PathBuf {
    let path = PathBuf::from(env!("CARGO_TARGET_TMPDIR")).join(name);
    fs::write(&path, bytes).unwrap();
    path
}

/// A path as a word.
pub fn word(path: &Path) -> &str {
    path.to_str().unwrap()
}

/// The command with no more than so much memory to ask for.
pub fn within_mib(most: usize, words: &[&str], input: &[u8]) -> Output {
    let limit = format!("ulimit -v {} && exec \"$@\"", most * 1024);
    let limited = ["-c", &limit, "sh", env!("CARGO_BIN_EXE_tuz")];
    run(Command::new("sh").args(limited).args(words), input)
}
