//! Runs of the command `loader`.
#![allow(dead_code)]

use std::io::Write;
use std::os::unix::process::CommandExt;
use std::path::Path;
use std::process::{Command, Stdio};

pub struct Ran {
    pub status: i32,
    pub out: String,
    pub err: String,
}

pub fn loader(words: &[&str], input: &[u8]) -> Ran {
    run(Command::new(env!("CARGO_BIN_EXE_loader")).args(words), input)
}

/// The same in a folder.
pub fn loader_in(folder: &Path, words: &[&str], input: &[u8]) -> Ran {
    run(Command::new(env!("CARGO_BIN_EXE_loader")).args(words).current_dir(folder), input)
}

/// The same as somebody who may do nothing special.
pub fn loader_as_nobody(folder: &Path, words: &[&str], input: &[u8]) -> Ran {
    const NOBODY: u32 = 65_534;
    run(Command::new(env!("CARGO_BIN_EXE_loader")).args(words).current_dir(folder).uid(NOBODY).gid(NOBODY), input)
}

fn run(command: &mut Command, input: &[u8]) -> Ran {
    let mut child = command.stdin(Stdio::piped()).stdout(Stdio::piped()).stderr(Stdio::piped()).spawn().unwrap();
    // A command that reads nothing may have ended by now.
    let _ = child.stdin.take().unwrap().write_all(input);
    let output = child.wait_with_output().unwrap();
    Ran {
        status: output.status.code().expect("no signal"),
        out: String::from_utf8(output.stdout).unwrap(),
        err: String::from_utf8(output.stderr).unwrap(),
    }
}
