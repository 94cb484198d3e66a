//! How far something has come, on standard error, where it takes longer than a second and somebody looks.

use std::io::{self, IsTerminal, Write};
use std::time::{Duration, Instant};

const PATIENCE: Duration = Duration::from_secs(1);
const PAUSE: Duration = Duration::from_millis(200);

pub struct Progress {
    what: &'static str,
    all: usize,
    /// When it is next told; never where nobody looks.
    next: Option<Instant>,
    is_told: bool,
}

impl Progress {
    pub fn new(what: &'static str, all: usize) -> Progress {
        let is_seen = io::stderr().is_terminal();
        Progress {
            what,
            all,
            next: is_seen.then(|| Instant::now() + PATIENCE),
            is_told: false,
        }
    }

    pub fn tell(&mut self, done: usize) {
        let now = Instant::now();
        if self.next.is_some_and(|next| next <= now) {
            self.next = Some(now + PAUSE);
            self.is_told = true;
            let _ = write!(io::stderr(), "\r{} {done} of {}", self.what, self.all);
        }
    }
}

/// The line is wiped, whatever comes next.
impl Drop for Progress {
    fn drop(&mut self) {
        if self.is_told {
            let _ = write!(io::stderr(), "\r\x1b[K");
        }
    }
}
