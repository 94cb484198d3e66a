//! Wrong programs, for tests of the tests: each does what the right one does, and then something else.

use std::os::unix::process::ExitStatusExt;
use std::process::ExitStatus;

use cases::labels::{event_set, CONNECTIONS_AT, COOKIES_AT, ENTRY, HTTPS_HOSTS_AT, POLICY_WORDS};
use cases::policy_bytes::POLICY_BYTES;

use crate::program::{self, Program, Ran};
use crate::run::Run;

/// The program as it should be.
#[derive(Clone, Copy)]
pub struct Right {
    /// What it prints; nothing where it complains.
    pub printed: fn(&Run) -> Option<String>,
    /// The first difference that a few cases find with a program in its place.
    pub first_difference: fn(Program) -> Option<String>,
}

impl Right {
    pub fn ran(self, run: &Run) -> Ran {
        let printed = (self.printed)(run);
        let complaint = if printed.is_some() { "" } else { "usage" };
        Ran {
            stdout: printed.unwrap_or_default().into(),
            stderr: complaint.into(),
            status: ExitStatus::from_raw(0),
        }
    }

    /// What is told of a program that does what it should, and then something else.
    pub fn told_of(self, change: impl Fn(&Run, Ran) -> Ran + 'static) -> Option<String> {
        (self.first_difference)(Box::new(move |arguments, input, _| {
            let run = Run {
                arguments: arguments.to_vec(),
                input: input.to_vec(),
            };
            let ran = self.ran(&run);
            Ok(change(&run, ran))
        }))
    }

    /// Of one that is right about another input than it was given.
    pub fn misread(self, change: impl Fn(&[u8]) -> Vec<u8> + 'static) -> Option<String> {
        self.told_of(move |run, _| {
            self.ran(&Run {
                arguments: run.arguments.clone(),
                input: change(&run.input),
            })
        })
    }

    /// Of one that is right about other arguments than it was given.
    pub fn misled(self, change: impl Fn(&mut Vec<Vec<u8>>) + 'static) -> Option<String> {
        self.told_of(move |run, _| {
            let mut arguments = run.arguments.clone();
            change(&mut arguments);
            self.ran(&Run {
                arguments,
                input: run.input.clone(),
            })
        })
    }

    /// Of one that prints another text.
    pub fn misprinted(self, change: impl Fn(String) -> String + 'static) -> Option<String> {
        self.told_of(move |_, ran| Ran {
            stdout: change(String::from_utf8(ran.stdout).expect("it is text")).into(),
            ..ran
        })
    }

    /// A complaint on standard output, and none where there should be one.
    pub fn assert_complaints_told(self) {
        let printed = self.told_of(|_, ran| Ran {
            stdout: [ran.stdout, ran.stderr.clone()].concat(),
            ..ran
        });
        assert!(printed.is_some_and(|told| told.starts_with("line 1: expected nothing")));
        let silent = self.told_of(|_, ran| Ran {
            stderr: Vec::new(),
            ..ran
        });
        assert_eq!(silent.as_deref(), Some("wrote nothing to standard error"));
    }

    /// A complaint and another status where nothing is wrong.
    pub fn assert_failures_told(self) {
        let complaining = self.told_of(|run, ran| Ran {
            stderr: run.input.clone(),
            ..ran
        });
        assert!(complaining.is_some_and(|told| told.starts_with("wrote to standard error")));
        let failing = self.told_of(|_, ran| Ran {
            status: ExitStatus::from_raw(1 << 8),
            ..ran
        });
        assert_eq!(failing.as_deref(), Some("ended with exit status: 1"));
    }

    /// Another status always, and where it complains.
    pub fn assert_statuses_told(self) {
        self.assert_failures_told();
        let failing_to_complain = self.told_of(|_, ran| Ran {
            status: ExitStatus::from_raw(if ran.stderr.is_empty() { 0 } else { 2 << 8 }),
            ..ran
        });
        let told = "ended with exit status: 2";
        assert_eq!(failing_to_complain.as_deref(), Some(told));
    }

    /// A policy on standard input that is read otherwise: the least significant byte first, its end not asked, or other bytes of it.
    pub fn assert_misread_policies_told(self) {
        let little = |input: &[u8]| {
            let words = input.chunks(4).map(|word| word.iter().rev().copied());
            words.flatten().collect()
        };
        assert_all_told(&[
            self.misread(little),
            self.misread(|input| input[..input.len().min(POLICY_BYTES)].to_vec()),
            self.misread(|input| input[..input.len().min(POLICY_BYTES - 1)].to_vec()),
            self.misread(|input| input[..input.len() / 4 * 4].to_vec()),
            self.misread(|input| input.strip_suffix(b"\xff").unwrap_or(input).to_vec()),
        ]);
    }

    /// Programs that are everywhere: one prints nothing, one its input, one fails.
    pub fn assert_others_told(self, test: &str) {
        for name in ["true", "cat", "false"] {
            let told = (self.first_difference)(program::at(name, test));
            assert!(told.is_some(), "{name}");
        }
    }
}

/// What a policy is taken for.
pub type Taken = fn(&[u32]) -> Vec<u32>;

/// A policy as it is taken where one thing is not asked of it, which is put right: its length, script readers, hosts, event endpoints.
pub const UNCHECKED: [Taken; 4] = [
    |policy| policy[..policy.len().min(POLICY_WORDS)].to_vec(),
    |policy| {
        mended(policy, |policy| {
            for sets in policy[CONNECTIONS_AT..HTTPS_HOSTS_AT].chunks_exact_mut(3) {
                sets[1] &= sets[0];
            }
        })
    },
    |policy| mended(policy, |policy| policy[HTTPS_HOSTS_AT] &= 0xffff),
    |policy| {
        mended(policy, |policy| {
            for row in policy[..COOKIES_AT].chunks_exact_mut(3) {
                if row[0] < 2 * ENTRY {
                    row[1] |= event_set(row[0]);
                }
            }
        })
    },
];

fn mended(policy: &[u32], mend: fn(&mut [u32])) -> Vec<u32> {
    let mut policy = policy.to_vec();
    if policy.len() == POLICY_WORDS {
        mend(&mut policy);
    }
    policy
}

pub fn assert_all_told(told: &[Option<String>]) {
    for (index, told) in told.iter().enumerate() {
        assert!(told.is_some(), "program {index} is passed");
    }
}
