//! Finds the archives of the proved code and hands them to the linker. It proves nothing unless it is asked to.
//!
//! `REST_SPREAD_LIB` may name the folder that they are in. Without it that is `target/staticlib` of the repository, where
//! `tools/archives` writes them. `REST_SPREAD_PROVE=1` has those made that are missing there.

use std::io::{BufRead, BufReader, Read};
use std::path::{Path, PathBuf};
use std::process::{exit, Command, Stdio};
use std::time::SystemTime;
use std::{env, fs, thread};

/// An archive that is linked: its name, with `_c` behind it the crate that it is made of, and functions that it has to have.
struct Archive {
    name: &'static str,
    functions: &'static [&'static str],
}

const ARCHIVES: [Archive; 7] = [
    Archive {
        name: "rest_spread",
        functions: &["rest_spread_lower", "rest_spread_lower_within", "rest_spread_version"],
    },
    Archive { name: "counting", functions: &["rest_spread_calls"] },
    Archive { name: "drawing", functions: &["rest_spread_draw", "xorshift_next"] },
    Archive { name: "joining", functions: &["rest_spread_join"] },
    Archive { name: "ordering", functions: &["rest_spread_order"] },
    Archive { name: "printer", functions: &["rest_spread_text"] },
    Archive { name: "result", functions: &["rest_spread_leftover"] },
];

/// How long `tools/archives` takes.
const TIME: &str = "many minutes from nothing, less where crates are proved already";

fn main() {
    println!("cargo:rerun-if-changed=build.rs");
    println!("cargo:rerun-if-env-changed=REST_SPREAD_LIB");
    println!("cargo:rerun-if-env-changed=REST_SPREAD_PROVE");
    test_machine();
    let root = repository();
    let folder = env::var_os("REST_SPREAD_LIB").map_or_else(|| root.join("target/staticlib"), named);
    let archives = ARCHIVES.map(|archive| folder.join(format!("lib{}.a", archive.name)));
    for (archive, path) in ARCHIVES.iter().zip(&archives) {
        println!("cargo:rerun-if-changed={}", path.display());
        if !path.is_file() {
            missing(archive, path, &root);
        }
        test_functions(archive, path);
        test_age(archive, path, &root);
        println!("cargo:rustc-link-lib=static:+verbatim=lib{}.a", archive.name);
    }
    println!("cargo:rustc-link-search=native={}", folder.display());
    // For the test that links the C example.
    let paths: Vec<String> = archives.iter().map(|path| path.display().to_string()).collect();
    println!("cargo:rustc-env=REST_SPREAD_ARCHIVES={}", paths.join(":"));
}

/// Archives are for x86-64 Linux.
fn test_machine() {
    let is = |name: &str, value: &str| env::var(name).is_ok_and(|v| v == value);
    if !is("CARGO_CFG_TARGET_ARCH", "x86_64") || !is("CARGO_CFG_TARGET_OS", "linux") {
        give_up("the lowering is compiled for x86-64 Linux only; build with --target x86_64-unknown-linux-gnu");
    }
}

fn repository() -> PathBuf {
    let here = PathBuf::from(env::var_os("CARGO_MANIFEST_DIR").expect("cargo names the folder"));
    here.parent().expect("the loader stands in the repository").to_path_buf()
}

/// The folder that `REST_SPREAD_LIB` names, by itself or by an archive in it.
fn named(path: std::ffi::OsString) -> PathBuf {
    let path = PathBuf::from(path);
    let folder = match path.is_file() {
        true => path.parent().map(Path::to_path_buf).unwrap_or_default(),
        false => path,
    };
    folder.canonicalize().unwrap_or_else(|why| {
        give_up(&format!(
            "REST_SPREAD_LIB names {}, and it can't be found: {why}\n\
             Name a folder with the archives by its whole path, or unset REST_SPREAD_LIB to use the repository's own.",
            folder.display()
        ))
    })
}

/// Has an archive made if that is asked for, and stops otherwise.
fn missing(archive: &Archive, path: &Path, root: &Path) {
    let own = path.starts_with(root.join("target"));
    if own && env::var("REST_SPREAD_PROVE").is_ok_and(|value| value == "1") {
        return prove(archive, path, root);
    }
    give_up(&format!(
        "The loader links {}, and there is no such file.\n\
         \n\
         To make it, install the Rattle kit, so that `rt` is on the path, and run in {}\n\
         \n    tools/archives {}\n\n\
         It proves the code first: {TIME}. REST_SPREAD_PROVE=1 has this build do so.\n\
         \n\
         Or take an archive that was made elsewhere, on x86-64 Linux from the same commit: it has the same bytes, and\n\
         docs/LANDINGS.md has its sha256. Put it there, or name its folder by REST_SPREAD_LIB.",
        path.display(),
        root.display(),
        archive.name
    ));
}

/// Has `tools/archives` prove the code and write the archive. What it says is passed on: `cargo build -vv` shows it as it comes, and a
/// failed build all of it.
fn prove(archive: &Archive, path: &Path, root: &Path) {
    let script = root.join("tools/archives");
    let started = Command::new(&script).arg(archive.name).stdout(Stdio::piped()).stderr(Stdio::piped()).spawn();
    let mut child = started.unwrap_or_else(|why| give_up(&format!("{} can't be started: {why}", script.display())));
    let (out, err) = (child.stdout.take().expect("a pipe"), child.stderr.take().expect("a pipe"));
    let other = thread::spawn(|| pass_on(err));
    pass_on(out);
    other.join().expect("it only reads");
    let ended = child.wait().unwrap_or_else(|why| give_up(&format!("{} can't be waited for: {why}", script.display())));
    if !ended.success() || !path.is_file() {
        give_up(&format!(
            "`tools/archives {}` was run in {}, and failed. What it said is above.",
            archive.name,
            root.display()
        ));
    }
}

fn pass_on(from: impl Read) {
    for line in BufReader::new(from).lines().map_while(Result::ok) {
        eprintln!("{line}");
        if line.starts_with("rt: ") {
            println!("cargo:warning={line}");
        }
    }
}

/// An archive without a function would only show when the linker fails, in its own words.
fn test_functions(archive: &Archive, path: &Path) {
    let bytes = match fs::read(path) {
        Ok(bytes) => bytes,
        Err(why) => give_up(&format!("{} can't be read: {why}", path.display())),
    };
    for function in archive.functions {
        if !bytes.windows(function.len()).any(|w| w == function.as_bytes()) {
            give_up(&format!(
                "{} has no function {function}: it is older than this loader, or no archive of {}.\n\
                 `tools/archives {1}`, run in the repository, makes it anew.",
                path.display(),
                archive.name
            ));
        }
    }
}

/// Says so if the code was changed since: the archive's crate, or one that `crates.txt` names behind it.
fn test_age(archive: &Archive, path: &Path, root: &Path) {
    let crates = fs::read_to_string(root.join("crates.txt")).unwrap_or_default();
    let own = format!("{}_c", archive.name);
    let line = crates.lines().find_map(|line| line.strip_prefix(&own)?.strip_prefix(" staticlib:")).unwrap_or_default();
    let changed = newest(&root.join("crates"), line.split_whitespace().chain([own.as_str()]));
    let made = fs::metadata(path).and_then(|m| m.modified()).ok();
    if made < changed {
        println!(
            "cargo:warning={} is older than the code; `tools/archives {}` makes it anew",
            path.display(),
            archive.name
        );
    }
}

/// When the code was changed last: the newest file below the `src` of one of these crates.
fn newest<'a>(crates: &Path, names: impl Iterator<Item = &'a str>) -> Option<SystemTime> {
    names
        .map(|name| crates.join(name).join("src"))
        .filter(|src| src.is_dir())
        .inspect(|src| println!("cargo:rerun-if-changed={}", src.display()))
        .filter_map(|src| newest_below(&src))
        .max()
}

fn newest_below(path: &Path) -> Option<SystemTime> {
    if path.is_dir() {
        return within(path).iter().filter_map(|one| newest_below(one)).max();
    }
    fs::metadata(path).and_then(|m| m.modified()).ok()
}

fn within(folder: &Path) -> Vec<PathBuf> {
    fs::read_dir(folder).into_iter().flatten().flatten().map(|one| one.path()).collect()
}

fn give_up(why: &str) -> ! {
    eprintln!("\n{why}\n");
    exit(1)
}
