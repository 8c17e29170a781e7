//! The files that the command writes: none is lost, none mixed up, and no old one is taken for a new one.

#[path = "common/command.rs"]
mod command;
mod common;

use command::{loader_as_nobody, loader_in};
use common::folder;
use common::make::{program, spreads};
use std::fs::{self, File, Permissions};
use std::os::unix::fs::{symlink, MetadataExt, PermissionsExt};
use std::path::Path;
use std::process::Command;

const LOWERED: usize = 24;

fn tree() -> Vec<u8> {
    program([spreads(1)])
}

/// A folder with these files in it, each the tree of `({...a})`.
fn with(name: &str, files: &[&str]) -> std::path::PathBuf {
    let folder = folder(name);
    for file in files {
        fs::write(folder.join(file), tree()).unwrap();
    }
    folder
}

/// What stands in a folder, by name.
fn names(folder: &Path) -> Vec<String> {
    let mut names: Vec<String> =
        fs::read_dir(folder).unwrap().map(|file| file.unwrap().file_name().into_string().unwrap()).collect();
    names.sort();
    names
}

/// The command is refused with 64 and these words, and nothing was read, written or removed.
fn refused(folder: &Path, words: &[&str], why: &str) {
    let state = || -> Vec<(String, Vec<u8>)> {
        names(folder).into_iter().map(|name| (name.clone(), fs::read(folder.join(name)).unwrap_or_default())).collect()
    };
    let before = state();
    let ran = loader_in(folder, words, &tree());
    assert_eq!((ran.status, ran.out.as_str()), (64, ""), "{words:?}: {}", ran.err);
    assert!(ran.err.contains(why) && ran.err.contains("are one file"), "{words:?}: {}", ran.err);
    assert_eq!(state(), before, "{words:?}");
}

#[test]
fn two_outputs_that_are_one_file_are_refused() {
    let folder = with("outputs", &["in"]);
    refused(&folder, &["--tree", "x", "--list", "x", "in"], "the output x and the output x are one file");
    refused(&folder, &["--tree", "x", "--list", "./x", "in"], "the output ./x and the output x");
    fs::create_dir(folder.join("d")).unwrap();
    refused(&folder, &["--tree", "d/in.lowered", "--into", "d", "in"], "the output d/in.lowered");
    fs::write(folder.join("d/in"), tree()).unwrap();
    refused(&folder, &["--into", "d", "in", "d/in"], "the output d/in.list and the output d/in.list");
}

#[test]
fn two_outputs_that_are_one_by_a_link_are_refused() {
    let folder = with("links", &["in", "x"]);
    symlink("x", folder.join("y")).unwrap();
    refused(&folder, &["--tree", "x", "--list", "y", "in"], "the output y and the output x");
    symlink(".", folder.join("here")).unwrap();
    refused(&folder, &["--tree", "new", "--list", "here/new", "in"], "the output here/new and the output new");
}

#[test]
fn an_output_that_is_an_input_is_refused() {
    let folder = with("inputs", &["f", "x", "x.lowered"]);
    refused(&folder, &["--tree", "f", "f"], "the input f and the output f");
    refused(&folder, &["--list=./f", "f"], "the input f and the output ./f");
    refused(&folder, &["--into", ".", "x", "x.lowered"], "the input x.lowered and the output ./x.lowered");
    refused(&folder, &["--into", ".", "x.lowered", "x"], "the input x.lowered and the output ./x.lowered");
}

/// The shell's `< f` and `> f` are seen, too.
#[test]
fn a_stream_that_is_an_output_is_refused() {
    let folder = with("streams", &["f"]);
    let mut command = Command::new(env!("CARGO_BIN_EXE_loader"));
    let ended = command
        .args(["--tree", "f"])
        .current_dir(&folder)
        .stdin(File::open(folder.join("f")).unwrap())
        .output()
        .unwrap();
    assert_eq!(ended.status.code(), Some(64));
    assert_eq!(fs::read(folder.join("f")).unwrap(), tree());
    let mut command = Command::new(env!("CARGO_BIN_EXE_loader"));
    let ended = command
        .args(["--tree", "g", "f"])
        .current_dir(&folder)
        .stdout(File::create(folder.join("g")).unwrap())
        .output()
        .unwrap();
    assert_eq!(ended.status.code(), Some(64));
    assert_eq!(fs::read(folder.join("g")).unwrap(), b"");
}

#[test]
fn results_are_written_whole_with_nothing_beside_them() {
    let folder = with("whole", &["in"]);
    for _ in 0..2 {
        let ran = loader_in(&folder, &["--tree", "t", "--list", "l", "in"], b"");
        assert_eq!((ran.status, ran.err.as_str()), (0, ""));
        assert_eq!(names(&folder), ["in", "l", "t"]);
        assert_eq!(fs::read(folder.join("t")).unwrap().len(), LOWERED);
        assert_eq!(fs::read(folder.join("l")).unwrap(), [0; 4]);
    }
}

/// The permissions of a file that is replaced stay, and a link leads where it led.
#[test]
fn what_is_replaced_keeps_its_place() {
    let folder = with("kept", &["in", "t", "far"]);
    fs::set_permissions(folder.join("t"), Permissions::from_mode(0o640)).unwrap();
    fs::remove_file(folder.join("far")).unwrap();
    fs::write(folder.join("far"), b"old").unwrap();
    symlink("far", folder.join("l")).unwrap();
    assert_eq!(loader_in(&folder, &["--tree", "t", "--list", "l", "in"], b"").status, 0);
    assert_eq!(fs::metadata(folder.join("t")).unwrap().mode() & 0o777, 0o640);
    assert_eq!(fs::read(folder.join("far")).unwrap(), [0; 4]);
    assert!(fs::symlink_metadata(folder.join("l")).unwrap().is_symlink());
}

/// Neither is written if one can't be: the list's folder is not there, or there is a folder in its place.
#[test]
fn if_one_can_not_be_written_neither_is() {
    let folder = with("neither", &["in"]);
    fs::create_dir(folder.join("d")).unwrap();
    for list in ["no/such/l", "d"] {
        let ran = loader_in(&folder, &["--tree", "t", "--list", list, "in"], b"");
        assert_eq!(ran.status, 74, "{}", ran.err);
        assert!(ran.err.contains(&format!("{list} can't be written")), "{}", ran.err);
        assert_eq!(names(&folder), ["d", "in"]);
        let ran = loader_in(&folder, &["--tree", list, "--list", "l", "in"], b"");
        assert_eq!(ran.status, 74, "{}", ran.err);
        assert_eq!(names(&folder), ["d", "in"]);
    }
}

#[test]
fn a_device_is_written_and_not_replaced() {
    let folder = with("device", &["in"]);
    let ran = loader_in(&folder, &["--tree", "/dev/null", "--list", "l", "in"], b"");
    assert_eq!((ran.status, ran.err.as_str()), (0, ""));
    assert!(!fs::metadata("/dev/null").unwrap().is_file());
    assert_eq!(loader_in(&folder, &["--tree", "/dev/null", "--list", "l"], b"no tree").status, 3);
    assert!(fs::metadata("/dev/null").is_ok(), "it is still there after a refusal");
}

/// After any failure an earlier result is gone, so that nobody loads it: refused, not read, refused by --strict.
#[test]
fn an_earlier_result_does_not_outlive_a_failure() {
    // var [...[{...a}]] = b
    let left = b"\x01\x01\x01\x00\x04\x07\x01\x00\x01\x01\x00\x05\x03\x24\x03\x00\x00\x24\x01\x01\x00\x22\x03\x00\x00\
        \x13\x01\x01\x00a\x12\x01\x01\x00b";
    let folder = with("earlier", &["good"]);
    fs::write(folder.join("bad"), b"no tree").unwrap();
    fs::write(folder.join("left"), left).unwrap();
    for (words, status) in [(&["bad"][..], 3), (&["none"], 74), (&["--strict", "left"], 65)] {
        assert_eq!(loader_in(&folder, &["--tree", "t", "--list", "l", "good"], b"").status, 0);
        assert_eq!(names(&folder), ["bad", "good", "l", "left", "t"]);
        let words = [&["--tree", "t", "--list", "l"], words].concat();
        let ran = loader_in(&folder, &words, b"");
        assert_eq!((ran.status, ran.out.as_str()), (status, ""), "{}", ran.err);
        assert_eq!(names(&folder), ["bad", "good", "left"], "{words:?}");
        for gone in ["t", "l"] {
            assert!(ran.err.contains(&format!("{gone} of an earlier run was removed\n")), "{}", ran.err);
        }
    }
}

/// With --into, the results of an input that fails go, and those of the others are written.
#[test]
fn of_several_inputs_only_those_that_fail_lose_theirs() {
    let folder = with("several", &["a", "b"]);
    fs::create_dir(folder.join("out")).unwrap();
    let words = ["--into", "out", "a", "b"];
    assert_eq!(loader_in(&folder, &words, b"").status, 0);
    assert_eq!(names(&folder.join("out")), ["a.list", "a.lowered", "b.list", "b.lowered"]);
    fs::write(folder.join("a"), b"").unwrap();
    assert_eq!(loader_in(&folder, &words, b"").status, 3);
    assert_eq!(names(&folder.join("out")), ["b.list", "b.lowered"]);
}

/// Where an earlier result can't be removed it is named.
#[test]
fn an_earlier_result_that_can_not_be_removed_is_named() {
    if fs::metadata("/proc/self").unwrap().uid() != 0 {
        return common::skip("only root can run the command as somebody else");
    }
    let folder = with("locked", &["t"]);
    fs::set_permissions(&folder, Permissions::from_mode(0o555)).unwrap();
    let ran = loader_as_nobody(&folder, &["--tree", "t"], b"no tree");
    assert_eq!((ran.status, ran.out.as_str()), (3, ""), "{}", ran.err);
    assert!(
        ran.err.contains("t is of an earlier run, is no result of this one, and can't be removed: "),
        "{}",
        ran.err
    );
    assert!(folder.join("t").is_file());
    // Nor can a new one be written there.
    let ran = loader_as_nobody(&folder, &["--tree", "t"], &tree());
    assert_eq!(ran.status, 74, "{}", ran.err);
    assert_eq!(fs::read(folder.join("t")).unwrap(), tree());
}
