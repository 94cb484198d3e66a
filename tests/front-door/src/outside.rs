//! The programs: zolherima itself, and the proved ones that it prints more of.

use std::env;
use std::path::Path;

use programs::program::{self, Arrival, Program, Ran};
use zolherima_program::failure::Failure;

use crate::context::Verdict;
use crate::front::Printed;

pub const EVENTS: &[&str] = &[
    "programs: show and compile",
    "programs: walk and run",
    "programs: check",
    "programs: reach",
    "programs: journey that is carried",
    "programs: journey that is not",
    "programs: tally",
    "programs: tally of what is no list",
    "programs: import",
];

pub struct Outside {
    zolherima: Program,
    walk: Program,
    reach: Program,
    journey: Program,
    tally: Program,
    import: Program,
}

/// The input arrives as a whole.
const ARRIVAL: Arrival = Arrival::Pipe {
    most: 1 << 20,
    seed: 0,
};

impl Outside {
    /// The proved programs of a folder, and zolherima beside this program; none where the folder is `-`.
    pub fn at(folder: &str) -> Option<Outside> {
        let of = |name: &str| program::at(&format!("{folder}/{name}"), "front-door-test");
        let own = env::current_exe().unwrap_or_default();
        let beside = own.parent().unwrap_or(Path::new(".")).join("zolherima");
        (folder != "-").then(|| Outside {
            zolherima: program::at(&beside.to_string_lossy(), "front-door-test"),
            walk: of("walk"),
            reach: of("reach"),
            journey: of("journey"),
            tally: of("tally"),
            import: of("import"),
        })
    }

    pub fn zolherima(&self, arguments: &[&str], input: &[u8]) -> Result<Ended, String> {
        ended("zolherima", &self.zolherima, arguments, input)
    }

    pub fn walk(&self, input: &[u8]) -> Result<Ended, String> {
        ended("walk", &self.walk, &[], input)
    }

    pub fn reach(&self, input: &[u8]) -> Result<Ended, String> {
        ended("reach", &self.reach, &[], input)
    }

    pub fn journey(&self, urls: &[&str], input: &[u8]) -> Result<Ended, String> {
        ended("journey", &self.journey, urls, input)
    }

    pub fn tally(&self, input: &[u8]) -> Result<Ended, String> {
        ended("tally", &self.tally, &[], input)
    }

    pub fn import(&self, arguments: &[&str], input: &[u8]) -> Result<Ended, String> {
        ended("import", &self.import, arguments, input)
    }
}

/// A program's run.
pub struct Ended {
    what: String,
    ran: Ran,
}

fn ended(name: &str, run: &Program, arguments: &[&str], input: &[u8]) -> Result<Ended, String> {
    let bytes: Vec<Vec<u8>> = arguments.iter().map(|it| it.as_bytes().to_vec()).collect();
    let ran = run(&bytes, input, ARRIVAL).map_err(|error| format!("{name}: {error}"))?;
    let what = format!("{name} {}", arguments.join(" "));
    Ok(Ended { what, ran })
}

impl Ended {
    /// What it printed, where it is text.
    pub fn text(&self) -> Result<String, String> {
        let text = String::from_utf8(self.ran.stdout.clone());
        text.map_err(|_| format!("{} prints what is no text", self.what))
    }

    /// Ended with this status, and printed just this.
    pub fn is(&self, status: i32, stdout: &[u8]) -> Verdict {
        self.has_status(status)?;
        match self.ran.stdout == stdout {
            true => Ok(()),
            false => Err(format!(
                "{} prints otherwise: {:?}, and should: {:?}",
                self.what,
                String::from_utf8_lossy(&self.ran.stdout),
                String::from_utf8_lossy(stdout)
            )),
        }
    }

    fn has_status(&self, status: i32) -> Verdict {
        let Ran {
            status: found,
            stderr,
            ..
        } = &self.ran;
        match found.code() == Some(status) {
            true => Ok(()),
            false => Err(format!(
                "{} ends with {found}, and should with {status}; it said {:?}",
                self.what,
                String::from_utf8_lossy(stderr)
            )),
        }
    }

    /// Did what a function of it does: printed the same, or failed with the same words.
    pub fn is_printed(&self, status: i32, printed: &Printed) -> Verdict {
        match printed {
            Ok(text) => self.is(status, text.as_bytes()),
            Err(failure) => self.is_failure(failure),
        }
    }

    fn is_failure(&self, failure: &Failure) -> Verdict {
        self.is(i32::from(failure.status()), b"")?;
        match self.ran.stderr == failure.message().as_bytes() {
            true => Ok(()),
            false => Err(format!("{} fails with other words", self.what)),
        }
    }
}

/// What ends with which status, whatever is in a file.
const STATUSES: &[(i32, &[&str], &[u8])] = &[
    (2, &[], b""),
    (2, &["chekc", "-"], b""),
    (2, &["check"], b""),
    (2, &["check", "--strong", "-"], b""),
    (2, &["check", "/no/such/file.policy"], b""),
    (2, &["check", "/"], b""),
    (0, &["check", "-"], b""),
    (1, &["check", "-"], b"hots canteen\n"),
    (1, &["check", "-"], b"\xff\xfe\x00"),
    (0, &["check", "-"], b"host unused\n"),
    (
        1,
        &["check", "--strict", "-"],
        b"connection idle\nreaders nobody\nwriters nobody\n",
    ),
    (
        0,
        &["check", "-"],
        b"connection idle\nreaders nobody\nwriters nobody\n",
    ),
    (0, &["--help"], b""),
    (0, &["--version"], b""),
    (0, &["run", "--help"], b""),
    (0, &["run", "-"], b"session\nrecord ff\n"),
    (1, &["run", "-"], b"session\nload nowhere on nothing\n"),
    (1, &["compile", "-"], b"url\n"),
    (1, &["show", "-"], b"short"),
    (0, &["reach", "-"], b""),
    (1, &["reach", "-"], b"reach\n"),
    (1, &["journey", "-", "nowhere"], b""),
    (2, &["journey", "-"], b""),
    (2, &["import", "-", "host", "-"], b""),
    (2, &["tally", "-", "-"], b""),
];

pub fn statuses(outside: &Outside) -> Verdict {
    for (status, arguments, input) in STATUSES {
        outside.zolherima(arguments, input)?.has_status(*status)?;
    }
    Ok(())
}
