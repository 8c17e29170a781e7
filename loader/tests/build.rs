//! The build script and `tools/archives`, in a repository that is made up, with an `rt` that is made up.

mod common;

use common::{folder, skip};
use std::fs::{self, File, Permissions};
use std::os::unix::fs::PermissionsExt;
use std::path::{Path, PathBuf};
use std::process::{Command, Output};
use std::time::{Duration, SystemTime};

const FUNCTIONS: &str = "rest_spread_lower rest_spread_lower_within rest_spread_version";
const DRAWING: &str = "rest_spread_draw xorshift_next";
const NAMES: [&str; 7] = ["rest_spread", "counting", "drawing", "joining", "ordering", "printer", "result"];
const ARCHIVES: [(&str, &str); 7] = [
    ("librest_spread.a", FUNCTIONS),
    ("libcounting.a", "rest_spread_calls"),
    ("libdrawing.a", DRAWING),
    ("libjoining.a", "rest_spread_join"),
    ("libordering.a", "rest_spread_order"),
    ("libprinter.a", "rest_spread_text"),
    ("libresult.a", "rest_spread_leftover"),
];

/// A repository without archives: the script, compiled, and an `rt` that writes them.
struct Made {
    root: PathBuf,
    script: PathBuf,
}

fn made(name: &str) -> Option<Made> {
    let root = folder(name);
    let script = root.join("script");
    let source = concat!(env!("CARGO_MANIFEST_DIR"), "/build.rs");
    let rustc = std::env::var_os("RUSTC").unwrap_or("rustc".into());
    match Command::new(&rustc).args(["--edition=2021", source, "-o"]).arg(&script).output() {
        Err(why) => {
            skip(&format!("the build script is not tried: {}: {why}", rustc.to_string_lossy()));
            return None;
        }
        Ok(ended) => assert!(ended.status.success(), "{}", String::from_utf8_lossy(&ended.stderr)),
    }
    fs::create_dir_all(root.join("loader")).unwrap();
    fs::create_dir_all(root.join("tools")).unwrap();
    fs::copy(concat!(env!("CARGO_MANIFEST_DIR"), "/../tools/archives"), root.join("tools/archives")).unwrap();
    let mut crates = String::from("rest_spread: emit\n");
    for name in NAMES {
        fs::create_dir_all(root.join(format!("crates/{name}/src"))).unwrap();
        fs::create_dir_all(root.join(format!("crates/{name}_c/src"))).unwrap();
        crates.push_str(&format!("{name}_c staticlib: {name}\n"));
    }
    fs::write(root.join("crates/rest_spread/src/lib.rt"), "").unwrap();
    fs::write(root.join("crates.txt"), crates).unwrap();
    fs::create_dir(root.join("bin")).unwrap();
    let rt = format!(
        "#!/bin/sh\nset -eu\nname=\"$(basename \"$PWD\")\"\necho \"words: $* in $name\"; echo 'rt: proved' >&2\n\
         [ -f ../../refuse ] && exit 1\nmkdir -p out\n\
         echo '{FUNCTIONS} rest_spread_calls {DRAWING} rest_spread_join rest_spread_order rest_spread_text rest_spread_leftover' >\"out/lib$name.a\"\n"
    );
    fs::write(root.join("bin/rt"), rt).unwrap();
    fs::set_permissions(root.join("bin/rt"), Permissions::from_mode(0o755)).unwrap();
    Some(Made { root, script })
}

impl Made {
    fn run(&self, variables: &[(&str, &str)]) -> Ran {
        let path = format!("{}:/usr/bin:/bin", self.root.join("bin").display());
        let mut command = Command::new(&self.script);
        command.env_clear().env("PATH", path).env("CARGO_MANIFEST_DIR", self.root.join("loader"));
        command.env("CARGO_CFG_TARGET_ARCH", "x86_64").env("CARGO_CFG_TARGET_OS", "linux");
        Ran::of(command.envs(variables.iter().copied()).output().unwrap())
    }

    fn write(&self, folder: &Path) {
        fs::create_dir_all(folder).unwrap();
        for (name, functions) in ARCHIVES {
            fs::write(folder.join(name), functions).unwrap();
        }
    }
}

struct Ran {
    well: bool,
    out: String,
    err: String,
}

impl Ran {
    fn of(output: Output) -> Self {
        let [out, err] = [output.stdout, output.stderr].map(|bytes| String::from_utf8(bytes).unwrap());
        Self { well: output.status.success(), out, err }
    }
}

#[test]
fn without_an_archive_it_stops_and_says_what_to_do() {
    let Some(made) = made("build_missing") else { return };
    let ran = made.run(&[]);
    assert!(!ran.well);
    let archive = made.root.join("target/staticlib/librest_spread.a");
    for words in [
        format!("The loader links {}, and there is no such file.", archive.display()),
        "\n    tools/archives rest_spread\n".into(),
        "minutes".into(),
        "REST_SPREAD_PROVE=1".into(),
        "REST_SPREAD_LIB".into(),
        "sha256".into(),
    ] {
        assert!(ran.err.contains(&words), "{words}: {}", ran.err);
    }
    assert!(!made.root.join("target").exists(), "nothing was proved");
    // Elsewhere nothing is made, not even if it is asked for.
    let elsewhere = made.root.join("elsewhere");
    fs::create_dir(&elsewhere).unwrap();
    let ran = made.run(&[("REST_SPREAD_LIB", elsewhere.to_str().unwrap()), ("REST_SPREAD_PROVE", "1")]);
    assert!(!ran.well && ran.err.contains("elsewhere/librest_spread.a, and there is no such file"), "{}", ran.err);
}

#[test]
fn it_proves_on_request_and_passes_on_what_is_said() {
    let Some(made) = made("build_prove") else { return };
    let ran = made.run(&[("REST_SPREAD_PROVE", "1")]);
    assert!(ran.well, "{}", ran.err);
    for name in NAMES {
        assert!(ran.err.contains(&format!("words: lib in {name}_c\n")), "{}", ran.err);
        assert!(ran.out.contains(&format!("cargo:rustc-link-lib=static:+verbatim=lib{name}.a")), "{}", ran.out);
    }
    assert!(ran.out.contains("cargo:warning=rt: proved"), "{}", ran.out);

    fs::remove_dir_all(made.root.join("target")).unwrap();
    File::create(made.root.join("refuse")).unwrap();
    let ran = made.run(&[("REST_SPREAD_PROVE", "1")]);
    assert!(
        !ran.well && ran.err.contains("words: lib in rest_spread_c") && ran.err.contains("and failed"),
        "{}",
        ran.err
    );
    fs::remove_file(made.root.join("bin/rt")).unwrap();
    let ran = made.run(&[("REST_SPREAD_PROVE", "1")]);
    assert!(!ran.well && ran.err.contains("rt is not on the path"), "{}", ran.err);
    fs::remove_file(made.root.join("tools/archives")).unwrap();
    let ran = made.run(&[("REST_SPREAD_PROVE", "1")]);
    assert!(!ran.well && ran.err.contains("tools/archives can't be started"), "{}", ran.err);
}

#[test]
fn archives_may_be_named_and_are_looked_at() {
    let Some(made) = made("build_named") else { return };
    let elsewhere = made.root.join("elsewhere");
    made.write(&elsewhere);
    for named in [elsewhere.clone(), elsewhere.join("librest_spread.a")] {
        let ran = made.run(&[("REST_SPREAD_LIB", named.to_str().unwrap())]);
        assert!(ran.well, "{}", ran.err);
        assert!(ran.out.contains(&format!("cargo:rustc-link-search=native={}\n", elsewhere.display())), "{}", ran.out);
        assert!(!ran.out.contains("cargo:warning"), "{}", ran.out);
    }
    let ran = made.run(&[("REST_SPREAD_LIB", "/no/such/folder")]);
    assert!(!ran.well && ran.err.contains("can't be found"), "{}", ran.err);

    // One from before there was a limit, and one from before there was a version.
    for lacks in ["rest_spread_lower_within", "rest_spread_version"] {
        fs::write(elsewhere.join("librest_spread.a"), FUNCTIONS.replace(lacks, "")).unwrap();
        let ran = made.run(&[("REST_SPREAD_LIB", elsewhere.to_str().unwrap())]);
        assert!(!ran.well && ran.err.contains(&format!("has no function {lacks}: it is older")), "{}", ran.err);
    }
}

#[test]
fn an_archive_that_is_older_than_its_code_is_warned_of() {
    let Some(made) = made("build_old") else { return };
    made.write(&made.root.join("target/staticlib"));
    let code = File::options().write(true).open(made.root.join("crates/rest_spread/src/lib.rt")).unwrap();
    code.set_modified(SystemTime::now() + Duration::from_secs(60)).unwrap();
    let ran = made.run(&[]);
    assert!(ran.well, "{}", ran.err);
    let warned: Vec<&str> = ran.out.lines().filter(|line| line.starts_with("cargo:warning=")).collect();
    assert!(warned.len() == 1 && warned[0].contains("librest_spread.a is older than the code"), "{warned:?}");
}

#[test]
fn other_machines_are_refused() {
    let Some(made) = made("build_machine") else { return };
    let ran = made.run(&[("CARGO_CFG_TARGET_ARCH", "aarch64")]);
    assert!(!ran.well && ran.err.contains("x86-64 Linux only"), "{}", ran.err);
}
