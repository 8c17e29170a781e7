//! What the command is asked to do.

use rest_spread::{Lowerer, Options};
use std::ffi::{OsStr, OsString};
use std::fmt;
use std::os::unix::ffi::{OsStrExt, OsStringExt};
use std::path::PathBuf;

pub const HELP: &str = "\
loader: lowers object rest and spread in tree files

    loader [OPTION..] [FILE..]

Reads each FILE, or standard input for - and where no FILE is named. One input
gets a summary. Several get a line each, and at the end come a table of those
that failed and a count. What failed is told on standard error.

  -t, --tree FILE      write the lowered tree to FILE (one input)
  -l, --list FILE      write the list to FILE (one input)
      --join FILE      write the lowered tree with the list's declarations in
                       place, which is what is loaded, to FILE (one input)
  -d, --into FOLDER    write NAME.lowered and NAME.list to FOLDER for each
                       input NAME
  -s, --strict         refuse a result in which an object rest or spread is
                       left, as it may below an array rest, in a rest parameter
                       or in a key; otherwise it is lowered with a warning
  -x, --hex            print three lines for each input, as the program `lower`
                       does: answer, helper mask and options mask; the tree;
                       the list
  -j, --json           print a line of JSON for each input
      --text           print each input, lowered and joined, as JavaScript
  -o, --options N      1 loose + 2 useBuiltIns + 4 objectRestNoSymbols; 8 may be
                       set and does nothing. 0 if not given. They are reported
                       and have no effect
  -f, --options-first  the first byte of each input is its options, as `lower`
                       has it
      --depth N        the depth limit, 1 to 128; 128 if not given. A tree of
                       more levels is refused with 4, another limit with 9
      --draw SEED      lower nothing, and draw trees to the FOLDER of --into:
                       that of the seed to SEED.tree, then each from the state
                       after the one before it, which is its own seed. A zero
                       seed is refused with 8
      --count N        how many trees; 1 if not given
      --sort           lower nothing, and print the names of the tree FILEs in
                       the order of their trees, which may be results; equal
                       ones on a line. What is no tree is refused with 3
      --helpers        print the helpers that lowered code calls, as JavaScript
  -V, --version        print the versions of loader and archive
  -h, --help           print this

A word may be joined to its long option: --tree=FILE.

Files are written whole or not at all, tree and list together. An input that
fails has no result: what an earlier run wrote for it is removed. No output may
be the same file as another or as an input.

Exit status: 0 if all was lowered; else of the first input that was not, the
number of the refusal, 65 if --strict refused its result, or 74 if a file can't
be read or written. 64 if the command was not understood.
";

pub enum Wish {
    Help,
    Version,
    Helpers,
    Draw(Load),
    Sort(Vec<PathBuf>),
    Lower(Arguments),
}

/// Trees to be drawn.
pub struct Load {
    pub seed: u32,
    pub count: u32,
    pub into: PathBuf,
}

#[derive(Default)]
pub struct Arguments {
    pub inputs: Vec<Input>,
    pub tree: Option<PathBuf>,
    pub list: Option<PathBuf>,
    pub join: Option<PathBuf>,
    pub into: Option<PathBuf>,
    pub strict: bool,
    pub hex: bool,
    pub json: bool,
    pub text: bool,
    pub options: Options,
    pub options_first: bool,
    /// The depth limit, if one is named.
    pub depth: Option<u32>,
    /// The seed of trees to be drawn, and how many.
    pub draw: Option<u32>,
    pub count: Option<u32>,
    pub sort: bool,
}

/// How results are told: one input's summary, a line for each of several, hexadecimal, JSON, or JavaScript.
#[derive(Clone, Copy, PartialEq)]
pub enum Manner {
    Alone,
    Several,
    Hex,
    Json,
    Text,
}

#[derive(Clone, PartialEq)]
pub enum Input {
    Standard,
    File(PathBuf),
}

impl Input {
    /// What files made for it are called.
    pub fn file_name(&self) -> &OsStr {
        match self {
            Input::Standard => OsStr::new("stdin"),
            Input::File(path) => path.file_name().unwrap_or(path.as_os_str()),
        }
    }
}

impl fmt::Display for Input {
    fn fmt(&self, f: &mut fmt::Formatter<'_>) -> fmt::Result {
        match self {
            Input::Standard => f.write_str("standard input"),
            Input::File(path) => write!(f, "{}", path.display()),
        }
    }
}

pub fn parse(words: impl Iterator<Item = OsString>) -> Result<Wish, String> {
    let mut words = words;
    let mut wish = Arguments::default();
    let mut only_files = false;
    while let Some(word) = words.next() {
        let (flag, joined) = if only_files { (String::new(), None) } else { split(&word) };
        let has_word = joined.is_some();
        let mut joined = joined.into_iter();
        let mut next = || joined.next().or_else(|| words.next()).ok_or(format!("{flag} wants a word behind it"));
        match flag.as_str() {
            "-t" | "--tree" => wish.tree = Some(next()?.into()),
            "-l" | "--list" => wish.list = Some(next()?.into()),
            "--join" => wish.join = Some(next()?.into()),
            "-d" | "--into" => wish.into = Some(next()?.into()),
            "-o" | "--options" => wish.options = Options::from_bits(number("--options", &next()?)?),
            "--depth" => wish.depth = Some(number("--depth", &next()?)?),
            "--draw" => wish.draw = Some(number("--draw", &next()?)?),
            "--count" => wish.count = Some(number("--count", &next()?)?),
            _ if has_word => return Err(format!("{flag} is not known, or takes no word")),
            "-h" | "--help" => return Ok(Wish::Help),
            "-V" | "--version" => return Ok(Wish::Version),
            "--helpers" => return Ok(Wish::Helpers),
            "--sort" => wish.sort = true,
            "-s" | "--strict" => wish.strict = true,
            "-x" | "--hex" => wish.hex = true,
            "-j" | "--json" => wish.json = true,
            "--text" => wish.text = true,
            "-f" | "--options-first" => wish.options_first = true,
            "--" => only_files = true,
            "-" => wish.inputs.push(Input::Standard),
            _ if flag.starts_with('-') => return Err(format!("{flag} is not known")),
            _ => wish.inputs.push(Input::File(word.into())),
        }
    }
    if wish.sort {
        return wish.sorted().map(Wish::Sort);
    }
    if wish.draw.is_some() || wish.count.is_some() {
        return wish.load().map(Wish::Draw);
    }
    if wish.inputs.is_empty() {
        wish.inputs.push(Input::Standard);
    }
    wish.agree().map(|()| Wish::Lower(wish))
}

/// `--tree=FILE` as two words. The second may be any bytes.
fn split(word: &OsStr) -> (String, Option<OsString>) {
    let bytes = word.as_bytes();
    match bytes.iter().position(|&byte| byte == b'=') {
        Some(at) if bytes.starts_with(b"--") => {
            (String::from_utf8_lossy(&bytes[..at]).into_owned(), Some(OsString::from_vec(bytes[at + 1..].to_vec())))
        }
        _ => (word.to_string_lossy().into_owned(), None),
    }
}

fn number(flag: &str, word: &OsStr) -> Result<u32, String> {
    let number = word.to_str().and_then(|word| word.parse().ok());
    number.ok_or(format!("{flag} wants a number, and {} is none", word.to_string_lossy()))
}

impl Arguments {
    pub fn lowerer(&self) -> Lowerer {
        self.depth.map_or_else(Lowerer::new, Lowerer::with_depth)
    }

    pub fn manner(&self) -> Manner {
        match self.inputs.len() {
            _ if self.hex => Manner::Hex,
            _ if self.json => Manner::Json,
            _ if self.text => Manner::Text,
            1 => Manner::Alone,
            _ => Manner::Several,
        }
    }

    /// Nothing is asked for that has to do with lowering.
    fn lowers_nothing(&self) -> bool {
        let files = self.tree.is_some() || self.list.is_some() || self.join.is_some();
        let told = self.strict || self.hex || self.json || self.text;
        !files && !told && self.depth.is_none() && !self.options_first && self.options == Options::NONE
    }

    /// The files that are to be sorted, if nothing else is asked for.
    fn sorted(self) -> Result<Vec<PathBuf>, String> {
        let alone = self.lowers_nothing() && self.into.is_none() && self.draw.is_none() && self.count.is_none();
        let files = self.inputs.into_iter().map(|input| match input {
            Input::File(path) => Ok(path),
            Input::Standard => Err("--sort goes by the names of files".to_string()),
        });
        match files.collect::<Result<Vec<_>, _>>()? {
            _ if !alone => Err("--sort goes with files alone".into()),
            files if files.is_empty() => Err("--sort wants a FILE".into()),
            files => Ok(files),
        }
    }

    /// What is to be drawn, if nothing else is asked for.
    fn load(self) -> Result<Load, String> {
        if !self.inputs.is_empty() || !self.lowers_nothing() {
            return Err("--draw goes with --count and --into alone".into());
        }
        match (self.draw, self.into) {
            (Some(seed), Some(into)) => Ok(Load { seed, count: self.count.unwrap_or(1), into }),
            (None, _) => Err("--count wants --draw SEED".into()),
            (_, None) => Err("--draw wants --into FOLDER".into()),
        }
    }

    /// Whether the joined tree is asked for.
    pub fn joins(&self) -> bool {
        self.join.is_some() || self.text
    }

    fn agree(&self) -> Result<(), String> {
        if [self.hex, self.json, self.text].iter().filter(|&&asked| asked).count() > 1 {
            return Err("of --hex, --json and --text only one can be printed".into());
        }
        if self.inputs.len() > 1 && (self.tree.is_some() || self.list.is_some() || self.join.is_some()) {
            return Err("--tree, --list and --join are for one input; use --into for several".into());
        }
        if self.inputs.iter().filter(|input| **input == Input::Standard).count() > 1 {
            return Err("standard input can be read only once".into());
        }
        Ok(())
    }
}
