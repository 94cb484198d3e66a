//! Why a command did not do what it was asked for, and what the exit status is then.

use std::fmt;

#[derive(Clone, Debug, PartialEq, Eq)]
pub enum Failure {
    /// What was given is not as it should be, and why, in a line.
    Refused(String),
    /// The same, told in full.
    Told(String),
    /// The arguments, a file or the system.
    Broken(String),
    /// The library and what is computed beside it differ, or the program stopped.
    Bug(String),
}

impl Failure {
    pub const fn status(&self) -> u8 {
        match self {
            Failure::Refused(_) | Failure::Told(_) => 1,
            Failure::Broken(_) | Failure::Bug(_) => 2,
        }
    }

    /// What goes to standard error: what is told in full stands alone, and all else after the program's name.
    pub fn message(&self) -> String {
        match self {
            Failure::Told(text) => text.clone(),
            _ => format!("zolherima: {self}\n"),
        }
    }
}

impl fmt::Display for Failure {
    fn fmt(&self, to: &mut fmt::Formatter<'_>) -> fmt::Result {
        match self {
            Failure::Told(why) | Failure::Refused(why) | Failure::Broken(why) => {
                to.write_str(why.trim_end())
            }
            Failure::Bug(what) => write!(
                to,
                "this is a bug, and nothing that was printed is to be relied on\n{}\nPlease report it with the file.",
                what.trim_end()
            ),
        }
    }
}
