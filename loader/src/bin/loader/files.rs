//! The files that are written: none over another or over an input, whole or not at all, and no old one beside a failure.

use crate::arguments::{Arguments, Input};
use crate::failure::Failure;
use rest_spread::Lowered;
use std::collections::HashMap;
use std::fs::{self, File, OpenOptions};
use std::io::{self, Write};
use std::path::{absolute, Path, PathBuf};
use std::process;
use std::sync::atomic::{AtomicU32, Ordering};

/// The files of one input, list before tree and both before the joined tree: who finds a tree finds its list.
pub struct Files(Vec<Output>);

struct Output {
    /// As it was asked for.
    path: PathBuf,
    /// Where that leads.
    real: PathBuf,
    part: Part,
}

#[derive(Clone, Copy)]
enum Part {
    List,
    Tree,
    Joined,
}

/// What became of a file that an earlier run wrote.
pub enum Earlier {
    Removed(PathBuf),
    Kept(PathBuf, io::Error),
}

/// The files of each input, or why they can't be: two of them are one file, or one is an input.
pub fn plan(arguments: &Arguments) -> Result<Vec<Files>, String> {
    let mut taken: HashMap<PathBuf, String> = HashMap::new();
    for input in &arguments.inputs {
        if let Some(real) = input_file(input) {
            taken.insert(real, format!("the input {input}"));
        }
    }
    if let Some(real) = regular("/dev/stdout") {
        claim(&mut taken, real, "standard output".into())?;
    }
    let mut all = Vec::new();
    for input in &arguments.inputs {
        let outputs: Vec<Output> = outputs(arguments, input);
        for output in &outputs {
            claim(&mut taken, output.real.clone(), format!("the output {}", output.path.display()))?;
        }
        all.push(Files(outputs));
    }
    Ok(all)
}

fn claim(taken: &mut HashMap<PathBuf, String>, real: PathBuf, what: String) -> Result<(), String> {
    match taken.get(&real) {
        Some(other) => Err(format!("{other} and {what} are one file, {}", real.display())),
        None => {
            taken.insert(real, what);
            Ok(())
        }
    }
}

fn outputs(arguments: &Arguments, input: &Input) -> Vec<Output> {
    let made = |end: &str| {
        let mut name = input.file_name().to_owned();
        name.push(end);
        arguments.into.as_ref().map(|folder| folder.join(name))
    };
    let asked = [
        (Part::List, arguments.list.clone()),
        (Part::List, made(".list")),
        (Part::Tree, arguments.tree.clone()),
        (Part::Tree, made(".lowered")),
        (Part::Joined, arguments.join.clone()),
    ];
    let there = asked.into_iter().filter_map(|(part, path)| path.map(|path| (part, path)));
    there.map(|(part, path)| Output { real: real(&path), path, part }).collect()
}

fn input_file(input: &Input) -> Option<PathBuf> {
    match input {
        Input::Standard => regular("/dev/stdin"),
        Input::File(path) => Some(real(path)),
    }
}

/// The file behind a stream, if it is one.
fn regular(stream: &str) -> Option<PathBuf> {
    fs::metadata(stream).is_ok_and(|data| data.is_file()).then(|| fs::canonicalize(stream).ok()).flatten()
}

/// The path without links: of the file, or if there is none, of its folder.
fn real(path: &Path) -> PathBuf {
    let in_folder = || {
        let whole = absolute(path).ok()?;
        Some(fs::canonicalize(whole.parent()?).ok()?.join(whole.file_name()?))
    };
    fs::canonicalize(path).ok().or_else(in_folder).unwrap_or_else(|| path.to_path_buf())
}

impl Output {
    /// Whether something stands there that is no file: a device or a pipe, which can be written and not replaced.
    fn is_stream(&self) -> bool {
        fs::metadata(&self.real).is_ok_and(|data| !data.is_file() && !data.is_dir())
    }

    /// A new file beside it, with these bytes and the permissions of the old one.
    fn write_beside(&self, bytes: &[u8]) -> io::Result<PathBuf> {
        static NUMBER: AtomicU32 = AtomicU32::new(0);
        if self.real.is_dir() {
            return Err(io::ErrorKind::IsADirectory.into());
        }
        let name = format!(".loader-{}-{}.part", process::id(), NUMBER.fetch_add(1, Ordering::Relaxed));
        let path = self.real.with_file_name(name);
        let mut file = OpenOptions::new().write(true).create_new(true).open(&path)?;
        let written = self.fill(&mut file, bytes);
        if written.is_err() {
            let _ = fs::remove_file(&path);
        }
        written.map(|()| path)
    }

    fn fill(&self, file: &mut File, bytes: &[u8]) -> io::Result<()> {
        if let Ok(old) = fs::metadata(&self.real) {
            file.set_permissions(old.permissions())?;
        }
        file.write_all(bytes)?;
        file.sync_all()
    }
}

impl Files {
    /// Writes all of them, or none. The joined tree is there if it was asked for.
    pub fn write(&self, lowered: &Lowered, joined: &[u8]) -> Result<(), Failure> {
        let bytes = |output: &Output| match output.part {
            Part::Tree => lowered.tree,
            Part::List => lowered.list.bytes(),
            Part::Joined => joined,
        };
        let (streams, files): (Vec<&Output>, Vec<&Output>) = self.0.iter().partition(|output| output.is_stream());
        let mut beside = Vec::new();
        let written = files.iter().try_for_each(|output| {
            beside.push(output.write_beside(bytes(output)).map_err(|why| not_written(output, why))?);
            Ok(())
        });
        let put = written
            .and_then(|()| {
                streams.iter().try_for_each(|o| fs::write(&o.real, bytes(o)).map_err(|why| not_written(o, why)))
            })
            .and_then(|()| put_in_place(&files, &beside));
        if put.is_err() {
            // Those that are in place already have no such name any more.
            for path in &beside {
                let _ = fs::remove_file(path);
            }
        }
        put
    }

    /// Removes what an earlier run wrote, so that nobody takes it for the result of this one.
    pub fn clear(&self) -> Vec<Earlier> {
        let there = self.0.iter().filter(|output| output.real.is_file());
        there
            .map(|output| match fs::remove_file(&output.real) {
                Ok(()) => Earlier::Removed(output.path.clone()),
                Err(why) => Earlier::Kept(output.path.clone(), why),
            })
            .collect()
    }

    pub fn paths(&self) -> impl Iterator<Item = &Path> {
        self.0.iter().map(|output| output.path.as_path())
    }
}

/// Writes one file, whole or not at all.
pub fn write_whole(path: &Path, bytes: &[u8]) -> Result<(), Failure> {
    let output = Output { path: path.to_path_buf(), real: real(path), part: Part::Tree };
    let beside = output.write_beside(bytes).map_err(|why| not_written(&output, why))?;
    let put = put_in_place(&[&output], std::slice::from_ref(&beside));
    if put.is_err() {
        let _ = fs::remove_file(beside);
    }
    put
}

/// Old files go first, all of them: whenever this is cut short, no new tree stands beside an old list.
fn put_in_place(files: &[&Output], beside: &[PathBuf]) -> Result<(), Failure> {
    for output in files.iter().filter(|output| output.real.is_file()) {
        fs::remove_file(&output.real).map_err(|why| not_written(output, why))?;
    }
    for (output, path) in files.iter().zip(beside) {
        fs::rename(path, &output.real).map_err(|why| not_written(output, why))?;
    }
    Ok(())
}

fn not_written(output: &Output, why: io::Error) -> Failure {
    Failure::NotWritten(output.path.clone(), why)
}
