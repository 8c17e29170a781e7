//! `loader`: lowers tree files, and tells a person about it. `loader --help` says how.

mod arguments;
mod failure;
mod files;
mod json;
mod report;

use arguments::{Arguments, Input, Load, Manner, Wish, HELP};
use failure::Failure;
use files::{Earlier, Files};
use report::Done;
use rest_spread::{
    entry, order, Advice, Explained, Helpers, Lowerer, Options, Printer, Refusal, Series, Step, Walk, TREE_IN, TREE_OUT,
};
use std::cmp::Ordering;
use std::fs::File;
use std::io::{self, Read, Write};
use std::path::{Path, PathBuf};
use std::process::ExitCode;

const NOT_UNDERSTOOD: u8 = 64;

/// The most bytes of an input that are counted, if it is too long and no file.
const COUNTED: u64 = 1 << 24;

fn main() -> ExitCode {
    let status = match arguments::parse(std::env::args_os().skip(1)) {
        Ok(Wish::Help) => print(HELP).map(|()| 0),
        Ok(Wish::Version) => {
            print(&format!("loader {}, archive {}\n", env!("CARGO_PKG_VERSION"), entry::version())).map(|()| 0)
        }
        Ok(Wish::Helpers) => print(&Helpers::ALL.source()).map(|()| 0),
        Ok(Wish::Draw(load)) => draw_all(&load),
        Ok(Wish::Sort(files)) => sort_all(&files),
        Ok(Wish::Lower(arguments)) => match files::plan(&arguments) {
            Ok(files) => lower_all(&arguments, &files),
            Err(why) => Ok(not_understood(&why)),
        },
        Err(why) => Ok(not_understood(&why)),
    };
    ExitCode::from(status.unwrap_or_else(|failure| {
        eprintln!("loader: {failure}");
        failure.status()
    }))
}

fn not_understood(why: &str) -> u8 {
    eprintln!("loader: {why}\nloader --help says what can be asked");
    NOT_UNDERSTOOD
}

/// Draws trees into files that are named by their seeds, and tells of each. Gives the exit status.
fn draw_all(load: &Load) -> Result<u8, Failure> {
    let series = match Series::from_seed(load.seed) {
        Ok(series) => series,
        Err(refusal) => {
            eprintln!("loader: {refusal}");
            return Ok(refusal.number());
        }
    };
    for drawing in series.take(load.count as usize) {
        let path = load.into.join(format!("{}.tree", drawing.seed));
        files::write_whole(&path, &drawing.tree)?;
        print(&format!("{}: {} bytes\n", path.display(), drawing.tree.len()))?;
    }
    Ok(0)
}

/// Prints the names of tree files in the order of their trees, equal ones on a line, by their names. Gives the exit status: 0,
/// or that of the first file that has no place.
fn sort_all(files: &[PathBuf]) -> Result<u8, Failure> {
    let mut trees = Vec::new();
    let mut status = 0;
    for path in files {
        let why = match tree_in(path) {
            Ok(tree) => match order(&tree, &tree) {
                Ok(_) => {
                    trees.push((path, tree));
                    continue;
                }
                Err(refusal) => (refusal.number(), refusal.to_string()),
            },
            Err(why) => (Failure::NotRead(io::Error::from(why.kind())).status(), why.to_string()),
        };
        eprintln!("{}: {}", path.display(), why.1);
        if status == 0 {
            status = why.0;
        }
    }
    // Both are trees, so nothing is refused.
    let by_tree = |a: &[u8], b: &[u8]| order(a, b).unwrap_or(Ordering::Equal);
    trees.sort_by(|a, b| by_tree(&a.1, &b.1).then_with(|| a.0.cmp(b.0)));
    for equal in trees.chunk_by(|a, b| by_tree(&a.1, &b.1).is_eq()) {
        let names: Vec<String> = equal.iter().map(|(path, _)| path.display().to_string()).collect();
        print(&(names.join(" ") + "\n"))?;
    }
    Ok(status)
}

/// The bytes of a tree file, no more of them than show that it is too long.
fn tree_in(path: &Path) -> io::Result<Vec<u8>> {
    let mut bytes = Vec::new();
    File::open(path)?.take(TREE_OUT as u64 + 1).read_to_end(&mut bytes)?;
    Ok(bytes)
}

/// Lowers every input, and gives the exit status: 0, or that of the first failure.
fn lower_all(arguments: &Arguments, files: &[Files]) -> Result<u8, Failure> {
    let mut lowerer = arguments.lowerer();
    let mut failures = Vec::new();
    let manner = arguments.manner();
    for (input, files) in arguments.inputs.iter().zip(files) {
        match lower_one(&mut lowerer, arguments, input, files) {
            Ok(done) => tell(manner, input, &done)?,
            Err(failure) => {
                tell_failure(manner, input, &failure, &files.clear())?;
                failures.push((input, failure));
            }
        }
    }
    if arguments.inputs.len() > 1 {
        eprint!("{}", report::table(&failures));
        let count = report::counts(arguments.inputs.len(), &failures);
        match manner {
            Manner::Several => print(&count)?,
            _ => eprint!("{count}"),
        }
    }
    Ok(failures.first().map_or(0, |(_, failure)| failure.status()))
}

fn lower_one<'a>(
    lowerer: &'a mut Lowerer,
    arguments: &Arguments,
    input: &Input,
    files: &'a Files,
) -> Result<Done<'a>, Failure> {
    let (bytes, length) = read(input).map_err(Failure::NotRead)?;
    let (options, tree) = split(arguments, &bytes);
    let length = length.map(|length| length - (bytes.len() - tree.len()) as u64);
    let lowered =
        lowerer.lower(options, tree).map_err(|refusal| Failure::Refused(explain(arguments, tree, refusal, length)))?;
    let left = lowered.leftovers();
    let next = 1 + Walk::new(tree).filter(|step| matches!(step, Step::Mark(_))).count() as u16;
    if arguments.strict && !left.is_empty() {
        return Err(Failure::Left(report::left(&left, next)));
    }
    let joined = match arguments.joins() {
        true => lowered.joined().map_err(|refusal| Failure::Refused(refusal.into()))?,
        false => Vec::new(),
    };
    files.write(&lowered, &joined)?;
    Ok(Done { read: tree.len(), lowered, joined, left, next, files })
}

/// A refusal with advice. Of an input that is too long only the beginning was kept, so its length is added.
fn explain(arguments: &Arguments, tree: &[u8], refusal: Refusal, length: Option<u64>) -> Explained {
    let explained = arguments.lowerer().explain(tree, refusal);
    match explained.advice {
        Some(Advice::TooManyBytes { .. }) => explained.with(Advice::TooManyBytes { length }),
        _ => explained,
    }
}

/// Prints a result, and warns of what is left in it.
fn tell(manner: Manner, input: &Input, done: &Done) -> Result<(), Failure> {
    for words in report::left(&done.left, done.next) {
        eprintln!("{input}: warning: {words}: an engine of ES2017 does not take it");
    }
    match manner {
        Manner::Alone => print(&format!("{input}: {}", report::summary(done))),
        Manner::Several => print(&format!("{input}: {}", report::line(done))),
        Manner::Hex => print(&report::hex(&done.lowered)),
        Manner::Json => print(&report::json(input, done)),
        // A joined tree is a rewritten tree, so it has a text.
        Manner::Text => print_bytes(Printer::new().text(&done.joined).unwrap_or_default()),
    }
}

/// Tells of a failure, on standard error and, if lines are asked for, there too. Several get a table at the end.
fn tell_failure(manner: Manner, input: &Input, failure: &Failure, earlier: &[Earlier]) -> Result<(), Failure> {
    if manner != Manner::Several {
        eprint!("{input}: {}", failure.explained());
    }
    for one in earlier {
        eprint!("{input}: {}", report::earlier(one));
    }
    match (manner, failure) {
        (Manner::Hex, Failure::Refused(explained)) => print(&report::hex_of_refusal(explained.refusal)),
        (Manner::Json, _) => print(&report::json_of_failure(input, failure, earlier)),
        _ => Ok(()),
    }
}

/// Reads an input, though no more of it than shows that it is too long, and gives its length if it can be told.
fn read(input: &Input) -> io::Result<(Vec<u8>, Option<u64>)> {
    let mut bytes = Vec::new();
    let enough = TREE_IN as u64 + 2;
    let length = match input {
        Input::File(path) => {
            let file = File::open(path)?;
            (&file).take(enough).read_to_end(&mut bytes)?;
            let data = file.metadata()?;
            if data.is_file() {
                Some(data.len())
            } else {
                counted(file)?.map(|more| bytes.len() as u64 + more)
            }
        }
        Input::Standard => {
            io::stdin().take(enough).read_to_end(&mut bytes)?;
            counted(io::stdin())?.map(|more| bytes.len() as u64 + more)
        }
    };
    Ok((bytes, length))
}

/// How many bytes come, if they end soon.
fn counted(from: impl Read) -> io::Result<Option<u64>> {
    let count = io::copy(&mut from.take(COUNTED), &mut io::sink())?;
    Ok((count < COUNTED).then_some(count))
}

/// The options and the tree. An input without a first byte has options 0.
fn split<'a>(arguments: &Arguments, bytes: &'a [u8]) -> (Options, &'a [u8]) {
    match bytes.split_first() {
        Some((&first, tree)) if arguments.options_first => (Options::from_bits(first.into()), tree),
        None if arguments.options_first => (Options::NONE, bytes),
        _ => (arguments.options, bytes),
    }
}

fn print(text: &str) -> Result<(), Failure> {
    print_bytes(text.as_bytes())
}

fn print_bytes(text: &[u8]) -> Result<(), Failure> {
    let mut out = io::stdout();
    let printed = out.write_all(text).and_then(|()| out.flush());
    printed.map_err(|why| Failure::NotWritten("standard output".into(), why))
}
