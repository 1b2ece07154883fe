//! Runs desk. Each file of tests takes what it needs of this.
#![allow(dead_code)]

use std::fs;
use std::io::Write;
use std::path::{Path, PathBuf};
use std::process::{Command, Stdio};

pub struct Run {
    pub out: String,
    pub err: String,
    pub status: i32,
}

/// The top of the repository.
pub fn top() -> PathBuf {
    Path::new(env!("CARGO_MANIFEST_DIR")).join("../..")
}

pub fn packs() -> PathBuf {
    top().join("packs")
}

/// A folder of a test's own.
pub fn folder(name: &str) -> PathBuf {
    let folder = Path::new(env!("CARGO_TARGET_TMPDIR")).join(name);
    fs::create_dir_all(&folder).expect("the folder is made");
    folder
}

pub fn desk(words: &[&str], input: &[u8]) -> Run {
    desk_in(&top(), words, input)
}

/// Runs desk in a folder, with something on standard input.
pub fn desk_in(folder: &Path, words: &[&str], input: &[u8]) -> Run {
    let (out, err, status) = bytes_in(folder, words, input);
    let out = String::from_utf8(out).expect("what desk prints is UTF-8");
    Run { out, err, status }
}

/// The same, where what it prints may be any bytes. That it ends by itself, and not by a panic, is part of every test.
pub fn bytes_in(folder: &Path, words: &[&str], input: &[u8]) -> (Vec<u8>, String, i32) {
    let mut child = Command::new(env!("CARGO_BIN_EXE_desk"))
        .args(words)
        .current_dir(folder)
        .env_remove("NO_COLOR")
        .stdin(Stdio::piped())
        .stdout(Stdio::piped())
        .stderr(Stdio::piped())
        .spawn()
        .expect("desk starts");
    let mut lent = child.stdin.take().expect("standard input is a pipe");
    // Where desk does not read its input, the pipe is closed early.
    let _ = lent.write_all(input);
    drop(lent);
    let done = child.wait_with_output().expect("desk ends");
    let status = done.status.code().expect("desk ends by itself");
    let err = String::from_utf8(done.stderr).expect("what desk says is UTF-8");
    assert!(!err.contains("panicked"), "{words:?}: {err}");
    assert!((0..=2).contains(&status), "{words:?}: status {status}");
    (done.stdout, err, status)
}
