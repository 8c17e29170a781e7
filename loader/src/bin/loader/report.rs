//! What the command prints.

use crate::arguments::Input;
use crate::failure::Failure;
use crate::files::{Earlier, Files};
use crate::json::Json;
use rest_spread::{Declarator, Declarators, Field, Item, Kind, Leftover, Lowered, Node, Options, Refusal};

/// How many entries, or excluded keys, a summary shows.
const SHOWN: usize = 20;

/// An input that was lowered.
pub struct Done<'a> {
    /// The length of its tree.
    pub read: usize,
    pub lowered: Lowered<'a>,
    /// The joined tree, if it was asked for.
    pub joined: Vec<u8>,
    pub left: Vec<Leftover>,
    /// The mark behind those of the input.
    pub next: u16,
    pub files: &'a Files,
}

/// The three lines of the program `lower`.
pub fn hex(lowered: &Lowered) -> String {
    let (helpers, options) = (lowered.helpers.bits(), lowered.options.bits());
    format!("0 {helpers} {options}\n{}\n{}\n", digits(lowered.tree), digits(lowered.list.bytes()))
}

pub fn hex_of_refusal(refusal: Refusal) -> String {
    format!("{} 0 0\n\n\n", refusal.number())
}

fn digits(bytes: &[u8]) -> String {
    bytes.iter().map(|byte| format!("{byte:02x}")).collect()
}

/// One line of a run over several inputs.
pub fn line(done: &Done) -> String {
    let Lowered { tree, list, helpers, .. } = done.lowered;
    let entries = count(list.entries().count(), "entry", "entries");
    let excluded = count(list.excluded().count(), "excluded key list", "excluded key lists");
    format!("lowered from {} to {} bytes; {entries}, {excluded}; helpers: {helpers}\n", done.read, tree.len())
}

/// The failures of such a run.
pub fn table(failures: &[(&Input, Failure)]) -> String {
    let longest = failures.iter().map(|(input, _)| input.to_string().chars().count()).max().unwrap_or(0);
    let line = |(input, failure): &(&Input, Failure)| {
        let input = input.to_string();
        format!("  {:3}  {input:longest$}  {failure}\n", failure.status())
    };
    let lines: String = failures.iter().map(line).collect();
    if failures.is_empty() {
        lines
    } else {
        format!("failed, each with its status:\n{lines}")
    }
}

/// The last line of such a run.
pub fn counts(inputs: usize, failures: &[(&Input, Failure)]) -> String {
    let refused = failures.iter().filter(|(_, failure)| failure.is_refusal()).count();
    let (lowered, broken) = (inputs - failures.len(), failures.len() - refused);
    format!(
        "{}: {lowered} lowered, {refused} refused, {broken} not read or written\n",
        count(inputs, "input", "inputs")
    )
}

/// All about one input.
pub fn summary(done: &Done) -> String {
    let Lowered { tree, list, helpers, options, .. } = done.lowered;
    let mut text = String::from("lowered\n");
    let mut say = |title: &str, words: String| text += &format!("  {title:10}{words}\n");
    say("tree", format!("{} bytes in, {} bytes out", done.read, tree.len()));
    say("list", format!("{} bytes out", list.bytes().len()));
    say("helpers", helpers.to_string());
    if options != Options::NONE {
        say("options", format!("{options} (not implemented, and without effect)"));
    }
    let entries = list.entries().map(|entry| format!("before statement {}: {}", entry.mark, join(entry.declarators)));
    tell_some("entries", entries.collect(), &mut say);
    tell_some("excluded", list.excluded().map(show).collect(), &mut say);
    for path in done.files.paths() {
        say("written", path.display().to_string());
    }
    text
}

/// How many there are, and the first of them.
fn tell_some(title: &str, all: Vec<String>, say: &mut impl FnMut(&str, String)) {
    say(title, all.len().to_string());
    let more = all.len().saturating_sub(SHOWN);
    for words in all.into_iter().take(SHOWN) {
        say("", words);
    }
    if more > 0 {
        say("", format!("and {more} more"));
    }
}

/// What is left of object rest and spread, each with its statement.
pub fn left(left: &[Leftover], next: u16) -> Vec<String> {
    let words = |one: &Leftover| {
        let place = if one.in_list { "in the list" } else { "in the tree" };
        match one.statement(next) {
            Some(mark) => format!("{} {place}, statement {mark}", one.what),
            None => format!("{} {place}", one.what),
        }
    };
    left.iter().map(words).collect()
}

/// What became of an earlier result.
pub fn earlier(earlier: &Earlier) -> String {
    match earlier {
        Earlier::Removed(path) => format!("{} of an earlier run was removed\n", path.display()),
        Earlier::Kept(path, why) => {
            format!("{} is of an earlier run, is no result of this one, and can't be removed: {why}\n", path.display())
        }
    }
}

pub fn json(input: &Input, done: &Done) -> String {
    let Lowered { tree, list, helpers, options, .. } = done.lowered;
    let declarators = |all: Declarators| all.map(|one| Json::from(show(one))).collect::<Json>();
    let entries = list
        .entries()
        .map(|entry| Json::Object(vec![("mark", entry.mark.into()), ("declarators", declarators(entry.declarators))]));
    let left = done.left.iter().map(|one| {
        let place = if one.in_list { "list" } else { "tree" };
        let (what, statement) = (one.what.to_string(), one.statement(done.next));
        Json::Object(vec![("what", what.into()), ("in", place.into()), ("statement", statement.into())])
    });
    let object = Json::Object(vec![
        ("input", input.to_string().into()),
        ("status", 0_u8.into()),
        ("bytes_in", done.read.into()),
        ("tree_bytes", tree.len().into()),
        ("list_bytes", list.bytes().len().into()),
        ("helpers", helpers.iter().map(|helper| helper.name()).collect()),
        ("options", options.names().collect()),
        ("entries", entries.collect()),
        ("excluded", declarators(list.excluded())),
        ("leftovers", left.collect()),
        ("written", done.files.paths().map(|path| path.display().to_string()).collect()),
    ]);
    format!("{object}\n")
}

pub fn json_of_failure(input: &Input, failure: &Failure, gone: &[Earlier]) -> String {
    let mut fields = vec![("input", input.to_string().into()), ("status", failure.status().into())];
    match failure {
        Failure::Refused(explained) => {
            fields.push(("refusal", explained.refusal.number().into()));
            fields.push(("fault", explained.fault().into()));
            fields.push(("where", explained.place().into()));
            fields.push(("remedy", explained.remedy().into()));
        }
        Failure::Left(left) => fields.push(("leftovers", left.iter().map(String::as_str).collect())),
        _ => fields.push(("failure", failure.to_string().into())),
    }
    let named = |kept: bool| {
        let of = gone.iter().filter_map(move |one| match one {
            Earlier::Removed(path) if !kept => Some(path.display().to_string()),
            Earlier::Kept(path, _) if kept => Some(path.display().to_string()),
            _ => None,
        });
        of.collect::<Json>()
    };
    fields.push(("removed", named(false)));
    fields.push(("not_removed", named(true)));
    format!("{}\n", Json::Object(fields))
}

fn count(number: usize, one: &str, more: &str) -> String {
    format!("{number} {}", if number == 1 { one } else { more })
}

fn join(declarators: Declarators) -> String {
    let shown: Vec<String> = declarators.map(show).collect();
    shown.join(", ")
}

/// `$value1`, or `$key2 = Call of 11 bytes`, or `$excluded3 = ["a", "b"]`.
fn show(declarator: Declarator) -> String {
    let name = match (declarator.stem(), declarator.temporary()) {
        (Some(stem), Some(number)) => format!("${stem}{number}"),
        _ => "?".into(),
    };
    match declarator.value() {
        None => name,
        Some(value) => format!("{name} = {}", keys(value).unwrap_or_else(|| some(value))),
    }
}

/// An array, as excluded keys are. A hole shows as nothing between its commas.
fn keys(value: Node) -> Option<String> {
    match value.field(0)? {
        Field::List(items) if value.kind() == Kind::Array => {
            let one = |item: Item| item.node().map_or(String::new(), |node| string(node).unwrap_or_else(|| some(node)));
            Some(format!("[{}]", items.map(one).collect::<Vec<_>>().join(", ")))
        }
        _ => None,
    }
}

/// The string that a Literal gives as a key.
fn string(item: Node) -> Option<String> {
    match item.field(2)? {
        Field::Text(form) if item.kind() == Kind::Literal => Some(format!("\"{}\"", form.escape_ascii())),
        _ => None,
    }
}

fn some(node: Node) -> String {
    format!("{} of {}", node.kind().name(), count(node.bytes().len(), "byte", "bytes"))
}
