//! Why an input has no result.

use rest_spread::Explained;
use std::path::PathBuf;
use std::{fmt, io};

/// The exit status if --strict refuses a result.
const LEFT: u8 = 65;
/// The exit status if a file can't be read or written.
const FILE: u8 = 74;

pub enum Failure {
    Refused(Explained),
    /// Under --strict: what is left, in words.
    Left(Vec<String>),
    NotRead(io::Error),
    NotWritten(PathBuf, io::Error),
}

impl Failure {
    /// The exit status that it gives.
    pub fn status(&self) -> u8 {
        match self {
            Failure::Refused(explained) => explained.refusal.number(),
            Failure::Left(_) => LEFT,
            Failure::NotRead(_) | Failure::NotWritten(..) => FILE,
        }
    }

    pub fn is_refusal(&self) -> bool {
        matches!(self, Failure::Refused(_) | Failure::Left(_))
    }

    /// In lines, with what to do about it.
    pub fn explained(&self) -> String {
        match self {
            Failure::Refused(explained) => {
                let mut text = format!("refused with {}\n  what      {}\n", self.status(), explained.fault());
                if let Some(place) = explained.place() {
                    text += &format!("  where     {place}\n            (by a second look, which is not proved)\n");
                }
                text + &format!("  to do     {}\n", explained.remedy())
            }
            Failure::Left(left) => {
                let lines: String = left.iter().map(|words| format!("            {words}\n")).collect();
                format!(
                    "refused by --strict\n  what      the result has object rest or spread left in it\n{lines}  \
                       to do     take such a pattern apart in statements of its own, or load it where ES2018 is known\n"
                )
            }
            _ => format!("{self}\n"),
        }
    }
}

/// In a line.
impl fmt::Display for Failure {
    fn fmt(&self, f: &mut fmt::Formatter<'_>) -> fmt::Result {
        match self {
            Failure::Refused(explained) => {
                write!(f, "{}", explained.fault())?;
                explained.place().map_or(Ok(()), |place| write!(f, " ({place})"))
            }
            Failure::Left(left) => write!(f, "left in the result: {}", left.join("; ")),
            Failure::NotRead(why) => write!(f, "can't be read: {why}"),
            Failure::NotWritten(path, why) => write!(f, "{} can't be written: {why}", path.display()),
        }
    }
}
